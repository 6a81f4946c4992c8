/*
 * A session that is lost and comes back, by the lines that mvpn.h shows: restart_lines.h is cut out of it. Every originator of the
 * table is marked, or swept, once.
 */
#include "checks.h"

#include <stdbool.h>

/* ---- the lines, and what they call */

/* The originators whose flows are to be matched anew, in the order in which they are told. */
static mvpn_address anew[MVPN_MOST_PLACES];
static size_t anew_count;

static void match_anew(const mvpn_address *originator)
{
    anew[anew_count++] = *originator;
}

static uint32_t told_refusal;

static void table_refused(uint32_t number)
{
    told_refusal = number;
}

static void restart(uint16_t afi, uint8_t *table, size_t table_len, bool lost)
{
#include "restart_lines.h"
}

/* The lines over a table, and to which originators, given as octets one behind another, their flows are told to be matched anew. */
static void restarts(const char *shows, lent table, uint16_t afi, bool lost, size_t count, const char *originators_text)
{
    lent originators = hex(originators_text);
    size_t at = 0;
    anew_count = 0;
    told_refusal = MVPN_DONE;
    restart(afi, table.at, table.size, lost);
    same(shows, "number", told_refusal, MVPN_DONE);
    same(shows, "originators told", anew_count, count);
    for (size_t i = 0; i < anew_count && at + anew[i].size <= originators.size; at += anew[i++].size)
        same_octets(shows, "originator", anew[i].octets, originators.at + at, anew[i].size);
    same(shows, "octets of originators", at, originators.size);
    free(originators.at);
}

/* ---- what a table holds: the marks of its routes in the order of their NLRIs, as letters */

static void same_marks(const char *shows, lent table, const char *marks)
{
    uint8_t nlri[MVPN_MATCH_OUTPUT], output[MVPN_MATCH_OUTPUT];
    size_t size = 0, count = 0;
    for (;; count++) {
        mvpn_following next = mvpn_next(table.at, table.size, nlri, size, output, sizeof output);
        if (next.nlri_size == 0)
            break;
        if (count < strlen(marks))
            same(shows, "mark", next.stale, marks[count] == 's');
        size = next.nlri_size;
        memcpy(nlri, output, size);
    }
    same(shows, "routes held", count, strlen(marks));
}

/* ---- one session with three originators, one of them known by 16 octets */

#define RD(n) "00000064000000" n " "
#define IPV6 "20010DB8 00000000 00000000 00000001"
#define INGRESS "00 06 000000 0A000001"
#define BIER "00 0B 000010 00 0001 0A000001"

static const route in_order[] = {
    { "030E " RD("07") "00 00 0A000001", INGRESS },
    { "030E " RD("07") "00 00 0A000002", BIER },
    { "030E " RD("08") "00 00 0A000001", BIER },
    { "0312 " RD("05") "00 20 EF010101 0A000001", INGRESS },
    { "031A " RD("07") "00 00 " IPV6, BIER },
};

static void comes_back(void)
{
    lent table = holding(MVPN_AFI_IPV4, 8, in_order, ROWS(in_order));
    lent whole = copy_of(table);
    restarts("End-of-RIB without a loss", table, MVPN_AFI_IPV4, false, 0, "");
    same_table("End-of-RIB without a loss", table, whole);

    restarts("the session is lost", table, MVPN_AFI_IPV4, true, 0, "");
    same_marks("the session is lost", table, "sssss");
    for (size_t i = 0; i < ROWS(in_order); i++)
        same("advertised again", "outcome", install(table, in_order[i].nlri, in_order[i].attribute).outcome, MVPN_REPLACED);
    same_table("all advertised again", table, whole);
    restarts("End-of-RIB after all", table, MVPN_AFI_IPV4, false, 0, "");
    same_table("End-of-RIB after all", table, whole);

    restarts("lost again", table, MVPN_AFI_IPV4, true, 0, "");
    install(table, in_order[2].nlri, in_order[2].attribute);
    install(table, in_order[4].nlri, in_order[4].attribute);
    same_marks("two advertised again", table, "ss-s-");
    restarts("End-of-RIB after two", table, MVPN_AFI_IPV4, false, 2, "0A000001 0A000002");
    same_marks("End-of-RIB after two", table, "--");

    free(table.at);
    free(whole.at);
}

/* Lost again before End-of-RIB: what was not advertised between the losses goes. */
static void lost_twice(void)
{
    lent table = holding(MVPN_AFI_IPV4, 5, in_order, ROWS(in_order));
    restarts("lost", table, MVPN_AFI_IPV4, true, 0, "");
    install(table, in_order[0].nlri, in_order[0].attribute);
    restarts("lost twice", table, MVPN_AFI_IPV4, true, 3, "0A000001 0A000002 " IPV6);
    same_marks("lost twice", table, "s");
    restarts("lost three times", table, MVPN_AFI_IPV4, true, 1, "0A000001");
    same_marks("lost three times", table, "");
    restarts("lost with no route", table, MVPN_AFI_IPV4, true, 0, "");
    free(table.at);
}

/* The most originators that a table can have. */
static void each_its_own(void)
{
    lent table = made(MVPN_AFI_IPV4, MVPN_MOST_PLACES), nlri = hex("030E " RD("07") "00 00 0A000000"), attribute = hex(BIER);
    for (size_t i = 0; i < MVPN_MOST_PLACES; i++) {
        nlri.at[nlri.size - 2] = (uint8_t)(i / 256);
        nlri.at[nlri.size - 1] = (uint8_t)(i % 256);
        mvpn_install(table.at, table.size, nlri.at, nlri.size, attribute.at, attribute.size);
    }
    same("500 originators", "routes", mvpn_table_info(table.at, table.size).routes, MVPN_MOST_PLACES);
    anew_count = 0;
    restart(MVPN_AFI_IPV4, table.at, table.size, true);
    same("500 originators, lost", "originators told", anew_count, 0);
    restart(MVPN_AFI_IPV4, table.at, table.size, false);
    same("500 originators, swept", "originators told", anew_count, MVPN_MOST_PLACES);
    same("500 originators, swept", "routes", mvpn_table_info(table.at, table.size).routes, 0);
    free(attribute.at);
    free(nlri.at);
    free(table.at);
}

/* A table that is not sound is told, and not taken for one without routes. */
static void unsound_is_told(void)
{
    lent table = holding(MVPN_AFI_IPV4, 5, in_order, ROWS(in_order));
    table.at[0] ^= 1;
    lent before = copy_of(table);
    told_refusal = MVPN_DONE;
    restart(MVPN_AFI_IPV4, table.at, table.size, true);
    same("a table that is not sound", "number", told_refusal, MVPN_TABLE);
    same_table("a table that is not sound", table, before);
    free(before.at);
    free(table.at);
}

int main(void)
{
    comes_back();
    lost_twice();
    each_its_own();
    unsound_is_told();
    return verdict("C sessions");
}
