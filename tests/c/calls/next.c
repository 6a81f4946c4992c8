/*
 * A table looked into: its routes in turn, and what it says of itself. The expected answers are written from the texts of mvpn.h,
 * not from any program. Tables are listed by the loop that mvpn.h shows: listing_loop.h is cut out of it.
 */
#include "checks.h"

#include <stdbool.h>
#include <stddef.h>

/* Callers are built with these. */
_Static_assert(sizeof(mvpn_following) == 16 && offsetof(mvpn_following, nlri_size) == 4 &&
                   offsetof(mvpn_following, attribute_size) == 8 && offsetof(mvpn_following, stale) == 12, "mvpn_following");
_Static_assert(sizeof(mvpn_table_facts) == 16 && offsetof(mvpn_table_facts, afi) == 4 && offsetof(mvpn_table_facts, places) == 8 &&
                   offsetof(mvpn_table_facts, routes) == 12, "mvpn_table_facts");

/* Routes in the order of their NLRIs: by Length, then by route distinguisher, and so on; one names no tunnel. */
#define RD(n) "00000064000000" n " "
#define IPV6(n) "20010DB8 00000000 00000000 000000" n " "
#define INGRESS "00 06 000000 0A000001"
#define BIER "00 0B 000010 00 0001 0A000001"
#define NO_TUNNEL "00 00 000000"

static const route in_order[] = {
    { "030E " RD("07") "00 00 0A000001", INGRESS },
    { "030E " RD("07") "00 00 0A000002", BIER },
    { "030E " RD("08") "00 00 0A000001", NO_TUNNEL },
    { "0312 " RD("05") "00 20 EF010101 0A000001", INGRESS },
    { "0312 " RD("05") "20 C0000201 00 0A000001", BIER },
    { "0316 " RD("07") "20 C0000201 20 E8010101 0A000001", INGRESS },
    { "031A " RD("07") "00 00 " IPV6("01"), BIER },
};

/* ---- calls with octets given as text */

static mvpn_following next(lent table, const char *nlri_text, lent output)
{
    lent nlri = hex(nlri_text);
    mvpn_following n = mvpn_next(table.at, table.size, nlri.at, nlri.size, output.at, output.size);
    free(nlri.at);
    return n;
}

/* The route is the one expected, with this mark, or none is. */
static void same_marked_next(const char *shows, lent table, const char *nlri, const route *expected, uint32_t stale)
{
    lent output = lent_of(MVPN_MATCH_OUTPUT + 1, FILL);
    mvpn_following n = next(table, nlri, output);
    mvpn_matched as_matched = { n.number, 0, n.nlri_size, n.attribute_size };
    same_matched(shows, as_matched, output, 0, expected);
    same(shows, "stale", n.stale, stale);
    free(output.at);
}

static void same_next(const char *shows, lent table, const char *nlri, const route *expected)
{
    same_marked_next(shows, table, nlri, expected, 0);
}

static void refuse_next(const char *shows, lent table, const char *nlri, size_t output_size, uint32_t number)
{
    lent output = lent_of(output_size, FILL);
    mvpn_following n = next(table, nlri, output);
    refused_matched(shows, (mvpn_matched){ n.number, 0, n.nlri_size, n.attribute_size }, output, number);
    same(shows, "stale", n.stale, 0);
    free(output.at);
}

static void same_info(const char *shows, lent table, uint32_t number, uint32_t afi, size_t places, size_t routes)
{
    mvpn_table_facts info = mvpn_table_info(table.at, table.size);
    same(shows, "number", info.number, number);
    same(shows, "AFI", info.afi, afi);
    same(shows, "places", info.places, places);
    same(shows, "routes", info.routes, routes);
}

/* ---- the loop of mvpn.h */

/* What the loop shows: so many of these routes, in their order. */
static const route *shown;
static size_t shown_count;

static void show_route(const uint8_t *nlri, size_t nlri_size, const uint8_t *attribute, size_t attribute_size)
{
    const char *shows = "a route that is listed";
    lent expected_nlri = hex(shown[shown_count].nlri), expected_attribute = hex(shown[shown_count].attribute);
    same(shows, "nlri_size", nlri_size, expected_nlri.size);
    same(shows, "attribute_size", attribute_size, expected_attribute.size);
    if (nlri_size == expected_nlri.size && attribute_size == expected_attribute.size) {
        same_octets(shows, "NLRI", nlri, expected_nlri.at, nlri_size);
        same_octets(shows, "attribute", attribute, expected_attribute.at, attribute_size);
    }
    free(expected_nlri.at);
    free(expected_attribute.at);
    shown_count++;
}

/* What the loop tells of a table that is refused. */
static uint32_t told_refusal;

static void table_refused(uint32_t number)
{
    told_refusal = number;
}

static void list(const uint8_t *table, size_t table_len)
{
#include "listing_loop.h"
}

/* The table holds these routes, given in the order of their NLRIs. */
static void lists(const char *shows, lent table, const route *routes, size_t count)
{
    lent before = copy_of(table);
    shown = routes;
    shown_count = 0;
    told_refusal = MVPN_DONE;
    list(table.at, table.size);
    same(shows, "routes listed", shown_count, count);
    same(shows, "number", told_refusal, MVPN_DONE);
    same_table(shows, table, before);
    free(before.at);
}

/* A table that is not sound is told, and not taken for an empty one. */
static void unsound_is_told(void)
{
    lent table = made(1, 1);
    table.at[0] ^= 1;
    shown_count = 0;
    told_refusal = MVPN_DONE;
    list(table.at, table.size);
    same("a table that is not sound", "routes listed", shown_count, 0);
    same("a table that is not sound", "number", told_refusal, MVPN_TABLE);
    free(table.at);
}

/* ---- what comes next */

/* Installed in this order, the table is the same, and so is its listing. */
static const size_t orders[][ROWS(in_order)] = { { 0, 1, 2, 3, 4, 5, 6 }, { 6, 5, 4, 3, 2, 1, 0 }, { 3, 0, 6, 1, 5, 2, 4 } };

static void each_once_in_order(void)
{
    for (size_t i = 0; i < ROWS(orders); i++) {
        lent table = made(1, ROWS(in_order) + i);
        for (size_t j = 0; j < ROWS(in_order); j++) {
            const route *r = &in_order[orders[i][j]];
            same("install", "number", install(table, r->nlri, r->attribute).number, MVPN_DONE);
            same_info("routes as they come", table, MVPN_DONE, 1, ROWS(in_order) + i, j + 1);
        }
        lists("every route, once and in order", table, in_order, ROWS(in_order));
        free(table.at);
    }
}

typedef struct {
    const char *shows, *nlri;
    size_t expected; /* which of the routes; NONE where no route comes after */
} next_row;

enum { NONE = ROWS(in_order) };

static const next_row rows[] = {
    { "after no octets, the first", "", 0 },
    { "after an octet below every route type", "02", 0 },
    { "after the route type alone", "03", 0 },
    { "after one that is held, the one behind it", "030E " RD("07") "00 00 0A000001", 1 },
    { "after one that is not held, between two", "030E " RD("07") "00 00 0A000003", 2 },
    { "after one that is held, with an octet behind it", "030E " RD("07") "00 00 0A000001 00", 1 },
    { "after one that is held, without its last octet", "030E " RD("07") "00 00 0A0000", 0 },
    { "after octets that are no NLRI", "030F", 3 },
    { "after the last", "031A " RD("07") "00 00 " IPV6("01"), NONE },
    { "after a higher route type", "04", NONE },
    { "after more octets than any NLRI has",
      "FFFFFFFF FFFFFFFF FFFFFFFF FFFFFFFF FFFFFFFF FFFFFFFF FFFFFFFF FFFFFFFF FFFFFFFF FFFFFFFF FFFFFFFF FFFFFFFF FFFFFFFF "
      "FFFFFFFF FFFFFFFF FFFFFFFF FFFFFFFF FFFFFFFF FFFFFFFF FFFFFFFF FFFFFFFF FFFFFFFF FFFFFFFF FFFFFFFF FFFFFFFF FFFFFFFF",
      NONE },
};

static void what_comes_next(void)
{
    lent table = holding(1, ROWS(in_order), in_order, ROWS(in_order)), before = copy_of(table);
    for (size_t i = 0; i < ROWS(rows); i++)
        same_next(rows[i].shows, table, rows[i].nlri, rows[i].expected == NONE ? NULL : &in_order[rows[i].expected]);
    same_table("next leaves the table", table, before);
    free(table.at);
    free(before.at);
}

/* Routes come and go between two calls: no other is passed over or told twice. */
static void by_nlri_and_not_by_place(void)
{
    lent table = holding(1, ROWS(in_order), in_order + 2, ROWS(in_order) - 2);
    same_next("the first", table, "", &in_order[2]);
    install(table, in_order[0].nlri, in_order[0].attribute);
    install(table, in_order[1].nlri, in_order[1].attribute);
    same_next("two came before it", table, in_order[2].nlri, &in_order[3]);
    withdraw(table, in_order[0].nlri);
    withdraw(table, in_order[3].nlri);
    same_next("it went itself, and one before it", table, in_order[3].nlri, &in_order[4]);
    withdraw(table, in_order[5].nlri);
    same_next("the next one went", table, in_order[4].nlri, &in_order[6]);
    withdraw(table, in_order[6].nlri);
    same_next("the last one went", table, in_order[6].nlri, NULL);
    free(table.at);
}

/* Of the routes in order, those of 10.0.0.1 are marked: all but the second and the last. They come in their order, and a
 * table that is marked is told as any other. */
static void stale_routes(void)
{
    lent table = holding(1, ROWS(in_order), in_order, ROWS(in_order)), router = hex("0A000001");
    same("a mark", "number", mvpn_mark(table.at, table.size, router.at, router.size).number, MVPN_DONE);
    for (size_t i = 0; i < ROWS(in_order); i++)
        same_marked_next("a route with its mark", table, i == 0 ? "" : in_order[i - 1].nlri, &in_order[i],
                         i != 1 && i != ROWS(in_order) - 1);
    same_next("none after the last", table, in_order[ROWS(in_order) - 1].nlri, NULL);
    lists("marked routes are listed", table, in_order, ROWS(in_order));
    same_info("marked routes are counted", table, MVPN_DONE, 1, ROWS(in_order), ROWS(in_order));
    refuse_next("an output of 123 octets, and the next is marked", table, "", MVPN_MATCH_OUTPUT - 1, MVPN_SPACE);
    install(table, in_order[3].nlri, in_order[3].attribute);
    same_next("the mark is gone", table, in_order[2].nlri, &in_order[3]);
    same_marked_next("the one after it keeps its own", table, in_order[3].nlri, &in_order[4], 1);
    table.at[MVPN_TABLE_SIZE(1) - 1] = 2;
    refuse_next("a mark of 2", table, "", MVPN_MATCH_OUTPUT, MVPN_TABLE);
    same_info("a mark of 2", table, MVPN_TABLE, 0, 0, 0);
    free(table.at);
    free(router.at);
}

/* ---- tables of other kinds */

static void other_tables(void)
{
    static const route ipv6 = { "033A " RD("07") "80 " IPV6("01") "80 FF3E0000 00000000 00000000 00000001 " IPV6("02"), BIER };
    lent none = made(1, 3), no_places = made(2, 0), longest = holding(2, 1, &ipv6, 1);
    lists("no routes", none, NULL, 0);
    same_info("no routes", none, MVPN_DONE, 1, 3, 0);
    lists("no places", no_places, NULL, 0);
    same_info("no places", no_places, MVPN_DONE, 2, 0, 0);
    lists("the longest NLRI", longest, &ipv6, 1);
    same_info("the longest NLRI", longest, MVPN_DONE, 2, 1, 1);
    free(none.at);
    free(no_places.at);
    free(longest.at);
}

/* 500 routes, which differ in their route distinguishers. */
static void most_places(void)
{
    lent table = made(1, MVPN_MOST_PLACES), nlri = hex(in_order[0].nlri), attribute = hex(INGRESS), output = lent_of(124, FILL);
    for (unsigned i = MVPN_MOST_PLACES; i-- > 0;) {
        nlri.at[8] = (uint8_t)(i >> 8);
        nlri.at[9] = (uint8_t)i;
        mvpn_install(table.at, table.size, nlri.at, nlri.size, attribute.at, attribute.size);
    }
    same_info("500 routes", table, MVPN_DONE, 1, MVPN_MOST_PLACES, MVPN_MOST_PLACES);
    size_t size = 0;
    for (unsigned i = 0; i < MVPN_MOST_PLACES; i++) {
        mvpn_following n = mvpn_next(table.at, table.size, nlri.at, size, output.at, output.size);
        same("500 routes", "nlri_size", n.nlri_size, nlri.size);
        same("500 routes", "the route distinguisher", (unsigned)output.at[8] << 8 | output.at[9], i);
        size = n.nlri_size;
        memcpy(nlri.at, output.at, size);
    }
    same("500 routes", "none after the last", mvpn_next(table.at, table.size, nlri.at, size, output.at, output.size).nlri_size, 0);
    free(table.at);
    free(nlri.at);
    free(attribute.at);
    free(output.at);
}

/* ---- refusals */

static void refusals(void)
{
    lent table = holding(1, 2, in_order, 1);
    refuse_next("an output of 123 octets", table, "", MVPN_MATCH_OUTPUT - 1, MVPN_SPACE);
    refuse_next("an output of 123 octets, and no route comes after", table, "04", MVPN_MATCH_OUTPUT - 1, MVPN_SPACE);
    refuse_next("no output", table, "", 0, MVPN_SPACE);
    table.at[7] = 2;
    refuse_next("a count with a place that is zero: TABLE before SPACE", table, "", 0, MVPN_TABLE);
    same_info("a count with a place that is zero", table, MVPN_TABLE, 0, 0, 0);
    table.at[7] = 1;
    table.at[5] = 3;
    refuse_next("AFI 3", table, "", MVPN_MATCH_OUTPUT, MVPN_TABLE);
    same_info("AFI 3", table, MVPN_TABLE, 0, 0, 0);
    table.at[5] = 1;
    same_info("a table cut short by an octet", (lent){ table.at, table.size - 1 }, MVPN_TABLE, 0, 0, 0);
    same_info("no memory", (lent){ table.at, 0 }, MVPN_TABLE, 0, 0, 0);
    same_info("the table before it was damaged", table, MVPN_DONE, 1, 2, 1);
    free(table.at);
}

int main(void)
{
    each_once_in_order();
    unsound_is_told();
    what_comes_next();
    by_nlri_and_not_by_place();
    stale_routes();
    other_tables();
    most_places();
    refusals();
    return verdict("C next");
}
