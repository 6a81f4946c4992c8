/*
 * A table that comes back damaged, by the lines that mvpn(3) shows under "After a fault": fault_lines.h is cut out of it, and
 * restart_lines.h, by which routes are marked and swept, out of mvpn.h. When the peers have advertised their routes again and what is
 * still marked was swept, the table is the one that was stored, whatever the fault made of it.
 */
#include "checks.h"

#include <stdbool.h>

/* ---- the lines, and what they call */

/* What is told of places that are dropped: as "number:reason " one behind another, as far as there is room; the last number; and how
 * many. Of the rest how often it is told. */
static char told_dropped[64];
static int told_last;
static size_t told_length, told_count, asked_again, matched_anew;
static uint32_t told_refusal;

static void show_dropped(int number, int reason)
{
    told_last = number;
    told_count++;
    size_t room = sizeof told_dropped - told_length;
    int size = snprintf(told_dropped + told_length, room, "%d:%d ", number, reason);
    told_length += (size_t)size < room ? (size_t)size : room - 1;
}

static void ask_peers_again(uint16_t afi)
{
    asked_again += afi == MVPN_AFI_IPV4;
}

static void match_all_anew(uint16_t afi)
{
    matched_anew += afi == MVPN_AFI_IPV4;
}

static void table_refused(uint32_t number)
{
    told_refusal = number;
}

/* All flows are matched anew in any case. */
static void match_anew(const mvpn_address *originator)
{
    (void)originator;
}

static void restart(uint16_t afi, uint8_t *table, size_t table_len, bool lost)
{
#include "restart_lines.h"
}

static void mark_all(uint16_t afi, uint8_t *table, size_t table_len)
{
    restart(afi, table, table_len, true);
}

static void after_fault(uint16_t afi, uint8_t *table, size_t table_len, uint8_t *second, size_t second_len)
{
#include "fault_lines.h"
}

/* ---- the table that was stored: five routes in seven places */

#define RD(n) "00000064000000" n " "
#define IPV6 "20010DB8 00000000 00000000 00000001"
#define INGRESS "00 06 000000 0A000001"
#define BIER "00 0B 000010 00 0001 0A000001"

enum { PLACES = 7 };

static const route stored[] = {
    { "030E " RD("07") "00 00 0A000001", INGRESS },
    { "030E " RD("07") "00 00 0A000002", BIER },
    { "0312 " RD("05") "00 20 EF010101 0A000001", INGRESS },
    { "0316 " RD("07") "20 C0000201 20 E8010101 0A000001", BIER },
    { "031A " RD("07") "00 00 " IPV6, BIER },
};

/* ---- faults: what becomes of octets of the memory. Some change one octet, the others many. */

typedef void fault(uint8_t *memory);

static uint8_t *place(uint8_t *memory, size_t number)
{
    return memory + MVPN_TABLE_SIZE(number);
}

static void no_magic(uint8_t *memory)
{
    memory[0] = 0xFF;
}

static void header_of_noise(uint8_t *memory)
{
    memset(memory, 0xC3, MVPN_TABLE_HEADER);
}

static void count_of_one(uint8_t *memory)
{
    memory[7] = 1;
}

static void count_of_none(uint8_t *memory)
{
    memory[7] = 0;
}

static void last_two_exchanged(uint8_t *memory)
{
    uint8_t last[MVPN_PLACE];
    memcpy(last, place(memory, 4), sizeof last);
    memmove(place(memory, 4), place(memory, 3), sizeof last);
    memcpy(place(memory, 3), last, sizeof last);
}

static void bad_tunnel_type(uint8_t *memory)
{
    place(memory, 1)[2 + 16 + 1] = 8;
}

static void bad_mark(uint8_t *memory)
{
    place(memory, 2)[MVPN_PLACE - 1] = 2;
}

static void erased(uint8_t *memory)
{
    memset(place(memory, 1), 0xFF, 2 * MVPN_PLACE);
}

static void zeroed(uint8_t *memory)
{
    memset(place(memory, 1), 0, MVPN_PLACE);
}

static void repeated(uint8_t *memory)
{
    memcpy(place(memory, 5), place(memory, 0), MVPN_PLACE);
}

/* The second of equal NLRIs with another attribute, and a bad place before both. */
static void bad_and_repeated(uint8_t *memory)
{
    memory[2] = 0;
    place(memory, 0)[0] = 0;
    memcpy(place(memory, 6), place(memory, 1), MVPN_PLACE);
    place(memory, 6)[2 + 16] = 1;
}

/* The originator of the last route becomes another: the place is good, and nobody sees it before the sweep. */
static void other_route(uint8_t *memory)
{
    memory[0] = 0;
    place(memory, 4)[2 + 28 - 1] = 9;
}

static void all_noise(uint8_t *memory)
{
    memset(memory, 0xA5, MVPN_TABLE_SIZE(PLACES));
}

/* The routes that are kept, and the places that are dropped. */
static const struct { const char *shows; fault *strikes; uint32_t kept; const char *dropped; } faults[] = {
    { "no magic", no_magic, 5, "" },
    { "a header of noise", header_of_noise, 5, "" },
    { "a count of one", count_of_one, 5, "" },
    { "a count of none", count_of_none, 5, "" },
    { "two places exchanged", last_two_exchanged, 5, "" },
    { "a bad tunnel type", bad_tunnel_type, 4, "1:1 " },
    { "a bad mark", bad_mark, 4, "2:1 " },
    { "two places erased", erased, 3, "1:1 2:1 " },
    { "a place zeroed", zeroed, 4, "" },
    { "a place repeated", repeated, 5, "5:2 " },
    { "bad and repeated", bad_and_repeated, 4, "0:1 6:2 " },
    { "another route", other_route, 5, "" },
    { "all noise", all_noise, 0, "0:1 1:1 2:1 3:1 4:1 5:1 6:1 " },
};

static void forget_told(void)
{
    told_dropped[0] = '\0';
    told_length = told_count = asked_again = matched_anew = 0;
    told_refusal = MVPN_DONE;
}

/* How many routes of a table are stale. */
static size_t stale_routes(lent table)
{
    uint8_t nlri[MVPN_MATCH_OUTPUT], output[MVPN_MATCH_OUTPUT];
    mvpn_following next;
    size_t size = 0, count = 0;
    while ((next = mvpn_next(table.at, table.size, nlri, size, output, sizeof output)).nlri_size > 0) {
        count += next.stale;
        size = next.nlri_size;
        memcpy(nlri, output, size);
    }
    return count;
}

/* The routes are advertised again, and what is still marked is swept. */
static void peers_answer(lent table)
{
    for (size_t i = 0; i < ROWS(stored); i++)
        install(table, stored[i].nlri, stored[i].attribute);
    restart(MVPN_AFI_IPV4, table.at, table.size, false);
}

static void is_salvaged(size_t row)
{
    const char *shows = faults[row].shows;
    lent whole = holding(MVPN_AFI_IPV4, PLACES, stored, ROWS(stored));
    lent table = copy_of(whole), second = lent_of(table.size, FILL);
    faults[row].strikes(table.at);
    same(shows, "number before", mvpn_table_info(table.at, table.size).number, MVPN_TABLE);

    forget_told();
    after_fault(MVPN_AFI_IPV4, table.at, table.size, second.at, second.size);
    mvpn_table_facts facts = mvpn_table_info(table.at, table.size);
    same(shows, "number", told_refusal, MVPN_DONE);
    same(shows, "number after", facts.number, MVPN_DONE);
    same(shows, "AFI", facts.afi, MVPN_AFI_IPV4);
    same(shows, "places", facts.places, PLACES);
    same(shows, "routes kept", facts.routes, faults[row].kept);
    same(shows, "stale routes", stale_routes(table), faults[row].kept);
    same(shows, "the places dropped are told", strcmp(told_dropped, faults[row].dropped), 0);
    same(shows, "peers asked", asked_again, 1);
    same(shows, "flows matched anew", matched_anew, 1);

    peers_answer(table);
    same_table(shows, table, whole);
    free(second.at);
    free(table.at);
    free(whole.at);
}

/* ---- what the lines cannot help */

static void is_refused(const char *shows, uint16_t afi, size_t table_size, size_t second_size, uint32_t number)
{
    lent table = lent_of(table_size, 0x5A), second = lent_of(second_size, FILL);
    lent before = copy_of(table);
    forget_told();
    after_fault(afi, table.at, table.size, second.at, second.size);
    same(shows, "number", told_refusal, number);
    same(shows, "places told", told_count, 0);
    same(shows, "peers asked", asked_again + matched_anew, 0);
    same_table(shows, table, before);
    untouched(shows, second);
    free(before.at);
    free(second.at);
    free(table.at);
}

static void refusals(void)
{
    size_t size = MVPN_TABLE_SIZE(PLACES);
    is_refused("no family", 3, size, size, MVPN_FAMILY);
    is_refused("a table that is cut", MVPN_AFI_IPV4, size - 1, size - 1, MVPN_TABLE);
    is_refused("a second buffer that is larger", MVPN_AFI_IPV4, size, size + MVPN_PLACE, MVPN_SPACE);
}

/* Of a table of the other AFI only what has no source and no group is good. */
static void other_family(void)
{
    lent table = holding(MVPN_AFI_IPV4, PLACES, stored, ROWS(stored)), second = lent_of(table.size, FILL);
    forget_told();
    after_fault(MVPN_AFI_IPV6, table.at, table.size, second.at, second.size);
    mvpn_table_facts facts = mvpn_table_info(table.at, table.size);
    same("the other AFI", "AFI", facts.afi, MVPN_AFI_IPV6);
    same("the other AFI", "routes kept", facts.routes, 3);
    same("the other AFI", "the places dropped are told", strcmp(told_dropped, "2:1 3:1 "), 0);
    free(second.at);
    free(table.at);
}

/* A route that was stale when the table was stored goes by the mark that follows: its peer advertises it again. */
static void stale_before(void)
{
    const char *shows = "a route that was stale before";
    lent whole = holding(MVPN_AFI_IPV4, PLACES, stored, ROWS(stored));
    lent table = copy_of(whole), second = lent_of(table.size, FILL);
    place(table.at, 3)[MVPN_PLACE - 1] = 1;
    no_magic(table.at);
    forget_told();
    after_fault(MVPN_AFI_IPV4, table.at, table.size, second.at, second.size);
    same(shows, "places told", told_count, 0);
    same(shows, "routes", mvpn_table_info(table.at, table.size).routes, ROWS(stored) - 1);
    same(shows, "stale routes", stale_routes(table), ROWS(stored) - 1);
    peers_answer(table);
    same_table(shows, table, whole);
    free(second.at);
    free(table.at);
    free(whole.at);
}

/* The most places, all of them dropped. */
static void most_places(void)
{
    lent table = lent_of(MVPN_TABLE_SIZE(MVPN_MOST_PLACES), 0x5A), second = lent_of(table.size, FILL);
    forget_told();
    after_fault(MVPN_AFI_IPV4, table.at, table.size, second.at, second.size);
    same("500 bad places", "number", told_refusal, MVPN_DONE);
    same("500 bad places", "places told", told_count, MVPN_MOST_PLACES);
    same("500 bad places", "last place told", (uintmax_t)told_last, MVPN_MOST_PLACES - 1);
    same("500 bad places", "routes kept", mvpn_table_info(table.at, table.size).routes, 0);
    same("500 bad places", "flows matched anew", matched_anew, 1);
    free(second.at);
    free(table.at);
}

int main(void)
{
    for (size_t row = 0; row < ROWS(faults); row++)
        is_salvaged(row);
    refusals();
    other_family();
    stale_before();
    most_places();
    return verdict("C fault");
}
