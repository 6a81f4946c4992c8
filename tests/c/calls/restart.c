/*
 * Routes that are kept while their router restarts: mark and sweep. The expected answers and the expected octets of the table are
 * written from documents 01 and 02 (W-208), not from any program.
 */
#include "checks.h"

#include <stddef.h>

/* Callers are built with these. */
_Static_assert(sizeof(mvpn_restarted) == 8 && offsetof(mvpn_restarted, gone) == 4, "mvpn_restarted");

/* Routers 10.0.0.1 and 10.0.0.2, the octets of the first with twelve more, and an IPv6 router. */
#define ONE "0A000001"
#define TWO "0A000002"
#define WIDE "0A000001 00000000 00000000 00000000"
#define IPV6(n) "20010DB8 00000000 00000000 000000" n " "

/* (C-*,C-*) routes, in the order of their NLRIs: by Length, then by route distinguisher, then by originator. */
#define RD(n) "00000064000000" n " "
#define A "030E " RD("07") "00 00 " ONE
#define B "030E " RD("07") "00 00 " TWO
#define C "030E " RD("08") "00 00 " ONE
#define D "030E " RD("09") "00 00 " ONE
#define E "031A " RD("07") "00 00 " WIDE

/* Attributes of ingress replication with flags N; one that names no tunnel; one that install refuses: BIER with label 0. */
#define FLAGS(n) n " 06 000000 0A000001"
#define NO_TUNNEL "00 00 000000"
#define LABEL_0 "00 0B 00000F 01 0002 0A000001"

/* ---- calls with octets given as text */

typedef mvpn_restarted (*restart)(uint8_t *table, size_t table_len, const uint8_t *router, size_t router_len);

static mvpn_restarted restarted(restart call, lent table, const char *router_text)
{
    lent router = hex(router_text);
    mvpn_restarted r = call(table.at, table.size, router.at, router.size);
    free(router.at);
    return r;
}

static void same_restart(const char *shows, restart call, lent table, const char *router, uint32_t number, uint32_t gone)
{
    mvpn_restarted r = restarted(call, table, router);
    same(shows, "number", r.number, number);
    same(shows, "gone", r.gone, gone);
}

/* ---- the expected octets */

typedef struct {
    const char *nlri, *attribute;
    uint8_t mark;
} held_route;

enum { PLACES = 4 };

/* The image of these routes, given in the order of their NLRIs; the first without NLRI ends them. */
static lent image(uint16_t afi, const held_route *routes)
{
    lent expected = lent_of(MVPN_TABLE_SIZE(PLACES), 0);
    uint8_t count = 0;
    for (; count < PLACES && routes[count].nlri; count++) {
        lent nlri = hex(routes[count].nlri), attribute = hex(routes[count].attribute);
        uint8_t *place = expected.at + 8 + (size_t)count * 128;
        place[0] = (uint8_t)nlri.size;
        place[1] = (uint8_t)attribute.size;
        memcpy(place + 2, nlri.at, nlri.size);
        memcpy(place + 2 + nlri.size, attribute.at, attribute.size);
        place[127] = routes[count].mark;
        free(nlri.at);
        free(attribute.at);
    }
    memcpy(expected.at, (uint8_t[]){ 'M', 'V', 'T', 0, 1, (uint8_t)afi, 0, count }, 8);
    return expected;
}

static void holds(const char *shows, lent table, uint16_t afi, const held_route *routes)
{
    lent expected = image(afi, routes);
    same_table(shows, table, expected);
    free(expected.at);
}

/* ---- a session: after each call the table holds these routes, with these marks, and nothing else */

typedef struct {
    const char *shows;
    enum { MARK, SWEEP, INSTALL, WITHDRAW } call;
    const char *argument;  /* the router, or the NLRI */
    const char *attribute; /* of an install */
    uint32_t number, told; /* told: how many went, or what an install did */
    held_route held[PLACES];
} session_row;

#define END { NULL, NULL, 0 }

/* Four places. */
static const session_row session[] = {
    { "a mark of a router without routes", MARK, ONE, NULL, MVPN_DONE, 0, { END } },
    { "a sweep of a router without routes", SWEEP, ONE, NULL, MVPN_DONE, 0, { END } },
    { "a route", INSTALL, A, FLAGS("01"), MVPN_DONE, MVPN_NEW, { { A, FLAGS("01"), 0 }, END } },
    { "one of another router", INSTALL, B, FLAGS("02"), MVPN_DONE, MVPN_NEW,
      { { A, FLAGS("01"), 0 }, { B, FLAGS("02"), 0 }, END } },
    { "one that names no tunnel", INSTALL, C, NO_TUNNEL, MVPN_DONE, MVPN_NEW,
      { { A, FLAGS("01"), 0 }, { B, FLAGS("02"), 0 }, { C, NO_TUNNEL, 0 }, END } },
    { "one of sixteen octets", INSTALL, E, FLAGS("05"), MVPN_DONE, MVPN_NEW,
      { { A, FLAGS("01"), 0 }, { B, FLAGS("02"), 0 }, { C, NO_TUNNEL, 0 }, { E, FLAGS("05"), 0 } } },
    { "nothing is marked", SWEEP, ONE, NULL, MVPN_DONE, 0,
      { { A, FLAGS("01"), 0 }, { B, FLAGS("02"), 0 }, { C, NO_TUNNEL, 0 }, { E, FLAGS("05"), 0 } } },
    { "a router's routes are marked", MARK, ONE, NULL, MVPN_DONE, 0,
      { { A, FLAGS("01"), 1 }, { B, FLAGS("02"), 0 }, { C, NO_TUNNEL, 1 }, { E, FLAGS("05"), 0 } } },
    { "a sweep of another router", SWEEP, TWO, NULL, MVPN_DONE, 0,
      { { A, FLAGS("01"), 1 }, { B, FLAGS("02"), 0 }, { C, NO_TUNNEL, 1 }, { E, FLAGS("05"), 0 } } },
    { "a full table, also where routes are marked", INSTALL, D, FLAGS("04"), MVPN_ROOM, 0,
      { { A, FLAGS("01"), 1 }, { B, FLAGS("02"), 0 }, { C, NO_TUNNEL, 1 }, { E, FLAGS("05"), 0 } } },
    { "a refused install clears no mark", INSTALL, A, LABEL_0, MVPN_LABEL, 0,
      { { A, FLAGS("01"), 1 }, { B, FLAGS("02"), 0 }, { C, NO_TUNNEL, 1 }, { E, FLAGS("05"), 0 } } },
    { "the same attribute again: replaced, and not marked", INSTALL, A, FLAGS("01"), MVPN_DONE, MVPN_REPLACED,
      { { A, FLAGS("01"), 0 }, { B, FLAGS("02"), 0 }, { C, NO_TUNNEL, 1 }, { E, FLAGS("05"), 0 } } },
    { "a second restart: the marked one goes, the other is marked", MARK, ONE, NULL, MVPN_DONE, 1,
      { { A, FLAGS("01"), 1 }, { B, FLAGS("02"), 0 }, { E, FLAGS("05"), 0 }, END } },
    { "a new route is not marked", INSTALL, D, FLAGS("04"), MVPN_DONE, MVPN_NEW,
      { { A, FLAGS("01"), 1 }, { B, FLAGS("02"), 0 }, { D, FLAGS("04"), 0 }, { E, FLAGS("05"), 0 } } },
    { "another router restarts meanwhile", MARK, WIDE, NULL, MVPN_DONE, 0,
      { { A, FLAGS("01"), 1 }, { B, FLAGS("02"), 0 }, { D, FLAGS("04"), 0 }, { E, FLAGS("05"), 1 } } },
    { "another attribute: replaced, and not marked", INSTALL, E, FLAGS("06"), MVPN_DONE, MVPN_REPLACED,
      { { A, FLAGS("01"), 1 }, { B, FLAGS("02"), 0 }, { D, FLAGS("04"), 0 }, { E, FLAGS("06"), 0 } } },
    { "what is still marked goes", SWEEP, ONE, NULL, MVPN_DONE, 1,
      { { B, FLAGS("02"), 0 }, { D, FLAGS("04"), 0 }, { E, FLAGS("06"), 0 }, END } },
    { "and only once", SWEEP, ONE, NULL, MVPN_DONE, 0,
      { { B, FLAGS("02"), 0 }, { D, FLAGS("04"), 0 }, { E, FLAGS("06"), 0 }, END } },
    { "a mark", MARK, TWO, NULL, MVPN_DONE, 0, { { B, FLAGS("02"), 1 }, { D, FLAGS("04"), 0 }, { E, FLAGS("06"), 0 }, END } },
    { "a marked route is withdrawn", WITHDRAW, B, NULL, MVPN_DONE, 0, { { D, FLAGS("04"), 0 }, { E, FLAGS("06"), 0 }, END } },
    { "it is not there", WITHDRAW, B, NULL, MVPN_ABSENT, 0, { { D, FLAGS("04"), 0 }, { E, FLAGS("06"), 0 }, END } },
    { "it comes back, new and not marked", INSTALL, B, FLAGS("02"), MVPN_DONE, MVPN_NEW,
      { { B, FLAGS("02"), 0 }, { D, FLAGS("04"), 0 }, { E, FLAGS("06"), 0 }, END } },
    { "a sweep leaves it", SWEEP, TWO, NULL, MVPN_DONE, 0,
      { { B, FLAGS("02"), 0 }, { D, FLAGS("04"), 0 }, { E, FLAGS("06"), 0 }, END } },
    { "a mark of each", MARK, TWO, NULL, MVPN_DONE, 0,
      { { B, FLAGS("02"), 1 }, { D, FLAGS("04"), 0 }, { E, FLAGS("06"), 0 }, END } },
    { "a mark of each", MARK, WIDE, NULL, MVPN_DONE, 0,
      { { B, FLAGS("02"), 1 }, { D, FLAGS("04"), 0 }, { E, FLAGS("06"), 1 }, END } },
    { "a mark of each", MARK, ONE, NULL, MVPN_DONE, 0,
      { { B, FLAGS("02"), 1 }, { D, FLAGS("04"), 1 }, { E, FLAGS("06"), 1 }, END } },
    { "a sweep of each", SWEEP, WIDE, NULL, MVPN_DONE, 1, { { B, FLAGS("02"), 1 }, { D, FLAGS("04"), 1 }, END } },
    { "a sweep of each", SWEEP, ONE, NULL, MVPN_DONE, 1, { { B, FLAGS("02"), 1 }, END } },
    { "a second mark instead", MARK, TWO, NULL, MVPN_DONE, 1, { END } },
};

static void run_session(void)
{
    lent table = made(1, PLACES);
    for (size_t i = 0; i < ROWS(session); i++) {
        const session_row *row = &session[i];
        mvpn_installed installed;
        switch (row->call) {
        case INSTALL:
            installed = install(table, row->argument, row->attribute);
            same(row->shows, "number", installed.number, row->number);
            same(row->shows, "outcome", installed.outcome, row->told);
            break;
        case WITHDRAW:
            same(row->shows, "number", withdraw(table, row->argument), row->number);
            break;
        default:
            same_restart(row->shows, row->call == MARK ? mvpn_mark : mvpn_sweep, table, row->argument, row->number, row->told);
        }
        holds(row->shows, table, 1, row->held);
    }
    free(table.at);
}

/* ---- a marked route is matched, explained and listed as any other */

static void marked_routes_match(void)
{
    static const route any = { A, FLAGS("01") }, both = { "0316 " RD("07") "20 C0000201 20 EF010101 " ONE, FLAGS("02") };
    const flow f = { ONE, "C0000201", "EF010101" }, g = { ONE, "C0000202", "EF010101" };
    const mvpn_tree_facts upstream = { 1, 0, 0 };
    lent table = holding(1, 2, (const route[]){ any, both }, 2), output = lent_of(MVPN_MATCH_OUTPUT, FILL);
    lent router = hex(ONE), source = hex("C0000201"), group = hex("EF010101");
    same_restart("a mark", mvpn_mark, table, ONE, MVPN_DONE, 0);
    lent before = copy_of(table);
    same_match("a marked route of tier 1", table, f, 1, &both);
    same_match("a marked route of tier 4", table, g, 4, &any);
    mvpn_explained why = mvpn_explain(table.at, table.size, mvpn_no_items, sizeof mvpn_no_items, router.at, router.size, source.at,
                                      source.size, group.at, group.size, output.at, output.size);
    same_matched("a marked route explained", why.matched, output, 1, &both);
    same("a marked route explained", "tier 1", why.reasons[0], MVPN_TAKEN);
    same("a marked route explained", "tier 2", why.reasons[1], MVPN_EARLIER_TIER_WON);
    same("a marked route explained", "tier 4", why.reasons[3], MVPN_EARLIER_TIER_WON);
    memset(output.at, FILL, output.size);
    mvpn_matched shared = mvpn_match_shared(table.at, table.size, mvpn_no_items, sizeof mvpn_no_items, router.at, router.size,
                                            group.at, group.size, upstream, mvpn_no_items, sizeof mvpn_no_items, mvpn_no_items,
                                            sizeof mvpn_no_items, output.at, output.size);
    same_matched("a marked route of a shared tree", shared, output, 4, &any);
    same_table("they leave the marks", table, before);

    /* The unmarked route of a later tier does not win over a marked one. */
    install(table, any.nlri, any.attribute);
    same_match("a marked route before an unmarked one", table, f, 1, &both);
    same_restart("a sweep", mvpn_sweep, table, ONE, MVPN_DONE, 1);
    same_match("what is left", table, f, 4, &any);
    free(table.at);
    free(before.at);
    free(output.at);
    free(router.at);
    free(source.at);
    free(group.at);
}

/* ---- AFI 2: the longest NLRI with the longest attribute fills its place up to the octet before the mark's neighbour */

#define ZEROS_7 "00000000000000"
#define LONGEST_NLRI(n) "033A " RD(n) "80 " IPV6("01") "80 FF3E0000 00000000 00000000 00000001" IPV6("02")
#define LONGEST_ATTRIBUTE "00 02 000000 06 0001 04 0A000001 0031 " ZEROS_7 ZEROS_7 ZEROS_7 ZEROS_7 ZEROS_7 ZEROS_7 ZEROS_7

static void longest(void)
{
    static const route routes[] = { { LONGEST_NLRI("03"), LONGEST_ATTRIBUTE }, { "030E " RD("01") "00 00 " ONE, FLAGS("01") } };
    const char *shows = "the longest";
    lent table = holding(2, PLACES, routes, ROWS(routes));
    same_restart(shows, mvpn_mark, table, IPV6("02"), MVPN_DONE, 0);
    holds(shows, table, 2,
          (held_route[]){ { routes[1].nlri, routes[1].attribute, 0 }, { LONGEST_NLRI("03"), LONGEST_ATTRIBUTE, 1 }, END });
    same_match(shows, table, (flow){ IPV6("02"), IPV6("01"), "FF3E0000 00000000 00000000 00000001" }, 1, &routes[0]);
    same_restart("an IPv4 router under AFI 2", mvpn_mark, table, ONE, MVPN_DONE, 0);
    same_restart("an IPv4 router under AFI 2", mvpn_mark, table, ONE, MVPN_DONE, 1);
    holds(shows, table, 2, (held_route[]){ { LONGEST_NLRI("03"), LONGEST_ATTRIBUTE, 1 }, END });
    same_restart(shows, mvpn_sweep, table, IPV6("02"), MVPN_DONE, 1);
    holds(shows, table, 2, (held_route[]){ END });
    free(table.at);
}

/* ---- refusals: router addresses of 0 to 17 octets, and of sizes that are 4 or 16 in their low octet */

static void refused_sizes(restart call)
{
    static const size_t large[] = { 32, 260, 272, 65540, 65552 };
    static const route held[] = { { A, FLAGS("01") }, { E, FLAGS("05") } };
    lent table = holding(1, 3, held, ROWS(held)), router = lent_of(65552, 0), wide = hex(WIDE);
    restarted(mvpn_mark, table, ONE);
    restarted(mvpn_mark, table, WIDE);
    lent before = copy_of(table);
    memcpy(router.at, wide.at, wide.size);
    for (size_t i = 0; i < 18 + ROWS(large); i++) {
        size_t size = i < 18 ? i : large[i - 18];
        if (size == 4 || size == 16)
            continue;
        mvpn_restarted r = call(table.at, table.size, router.at, size);
        same("an address of another size", "number", r.number, MVPN_FLOW);
        same("an address of another size", "gone", r.gone, 0);
        same_table("an address of another size", table, before);
    }
    same_restart("four octets", call, table, ONE, MVPN_DONE, 1);
    same_restart("sixteen octets", call, table, WIDE, MVPN_DONE, 1);
    free(table.at);
    free(before.at);
    free(router.at);
    free(wide.at);
}

/* TABLE comes before FLOW. Which octet, and its value: of four places, two taken. */
static const struct {
    const char *shows;
    size_t at;
    uint8_t value;
} damages[] = {
    { "a mark of 2", 135, 2 },
    { "a mark of 128", 263, 128 },
    { "a mark of 255", 263, 255 },
    { "the octet before the mark", 134, 1 },
    { "the octet before a mark of 1", 262, 1 },
    { "a mark in the first free place", 391, 1 },
    { "a mark in the last place", 519, 1 },
    { "a count that leaves a marked route out", 7, 1 },
};

static void refused_tables(restart call)
{
    static const route held[] = { { A, FLAGS("01") }, { C, FLAGS("03") } };
    lent table = holding(1, PLACES, held, ROWS(held));
    restarted(mvpn_mark, table, ONE);
    table.at[135] = 0; /* the first is not marked */
    same_restart("a sound table", mvpn_sweep, table, TWO, MVPN_DONE, 0);
    for (size_t i = 0; i < ROWS(damages); i++) {
        uint8_t kept = table.at[damages[i].at];
        table.at[damages[i].at] = damages[i].value;
        lent before = copy_of(table);
        same_restart(damages[i].shows, call, table, ONE, MVPN_TABLE, 0);
        same_restart(damages[i].shows, call, table, "", MVPN_TABLE, 0);
        same_table(damages[i].shows, table, before);
        table.at[damages[i].at] = kept;
        free(before.at);
    }
    same_restart("a table cut short by an octet", call, (lent){ table.at, table.size - 1 }, ONE, MVPN_TABLE, 0);
    same_restart("no memory", call, (lent){ table.at, 0 }, ONE, MVPN_TABLE, 0);
    same_restart("the table before it was damaged", mvpn_sweep, table, ONE, MVPN_DONE, 1);
    free(table.at);
}

/* ---- the most places: 500 routes of two routers in turn, which differ in their route distinguishers */

static void most_places(void)
{
    const char *shows = "500 routes";
    lent table = made(1, MVPN_MOST_PLACES), nlri = hex(A), attribute = hex(FLAGS("00"));
    for (unsigned i = 0; i < MVPN_MOST_PLACES; i++) {
        nlri.at[8] = (uint8_t)(i >> 8);
        nlri.at[9] = (uint8_t)i;
        nlri.at[15] = (uint8_t)(1 + i % 2);
        mvpn_install(table.at, table.size, nlri.at, nlri.size, attribute.at, attribute.size);
    }
    same_restart(shows, mvpn_mark, table, ONE, MVPN_DONE, 0);
    for (unsigned i = 0; i < MVPN_MOST_PLACES; i++)
        same(shows, "mark", table.at[MVPN_TABLE_SIZE(i + 1) - 1], i % 2 == 0);
    same_restart(shows, mvpn_mark, table, TWO, MVPN_DONE, 0);
    same_restart(shows, mvpn_sweep, table, ONE, MVPN_DONE, 250);
    for (unsigned i = 0; i < MVPN_MOST_PLACES / 2; i++)
        same(shows, "what is left", table.at[8 + 128 * (size_t)i + 2 + 9], (uint8_t)(2 * i + 1));
    for (size_t at = MVPN_TABLE_SIZE(MVPN_MOST_PLACES / 2); at < table.size; at++)
        if (table.at[at] != 0) {
            same(shows, "a place that is free again", table.at[at], 0);
            break;
        }
    same_restart(shows, mvpn_mark, table, TWO, MVPN_DONE, 250);
    lent empty = made(1, MVPN_MOST_PLACES);
    same_table("no routes are left", table, empty);
    free(table.at);
    free(empty.at);
    free(nlri.at);
    free(attribute.at);
}

int main(void)
{
    run_session();
    marked_routes_match();
    longest();
    refused_sizes(mvpn_mark);
    refused_sizes(mvpn_sweep);
    refused_tables(mvpn_mark);
    refused_tables(mvpn_sweep);
    most_places();
    return verdict("C restart");
}
