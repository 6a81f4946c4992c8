/*
 * Why a flow takes its route. The expected answers are written from document 02, W-204, and from the texts of mvpn.h, not from
 * any program.
 */
#include "tiers.h"

#include <stdbool.h>
#include <stddef.h>

/* Callers are built with these. */
_Static_assert(sizeof(mvpn_explained) == 32 && offsetof(mvpn_explained, reasons) == 16, "mvpn_explained");
_Static_assert(MVPN_TAKEN == 1 && MVPN_NO_SUCH_ROUTE == 2 && MVPN_WRONG_GROUP_CLASS == 3 && MVPN_EARLIER_TIER_WON == 4, "reasons");

enum { TAKEN = MVPN_TAKEN, NO_ROUTE = MVPN_NO_SUCH_ROUTE, CLASS = MVPN_WRONG_GROUP_CLASS, EARLIER = MVPN_EARLIER_TIER_WON };

/* ---- calls with octets given as text */

static mvpn_explained explain(lent table, flow f, lent output)
{
    lent router = hex(f.router), source = hex(f.source), group = hex(f.group);
    mvpn_explained e = mvpn_explain(table.at, table.size, mvpn_no_items, sizeof mvpn_no_items, router.at, router.size, source.at,
                                    source.size, group.at, group.size, output.at, output.size);
    free(router.at);
    free(source.at);
    free(group.at);
    return e;
}

static void same_reasons(const char *shows, const uint32_t got[4], const uint32_t expected[4])
{
    static const char *const fields[] = { "reason of tier 1", "reason of tier 2", "reason of tier 3", "reason of tier 4" };
    for (size_t i = 0; i < ROWS(fields); i++)
        same(shows, fields[i], got[i], expected[i]);
}

/* The answer, the output and the reasons; and the answer and output of a match are the same. */
static void same_explained(const char *shows, lent table, flow f, uint32_t tier, const route *expected, const uint32_t reasons[4])
{
    lent output = lent_of(MVPN_MATCH_OUTPUT + 1, FILL);
    mvpn_explained e = explain(table, f, output);
    same_matched(shows, e.matched, output, tier, expected);
    same_reasons(shows, e.reasons, reasons);
    same_match(shows, table, f, tier, expected);
    free(output.at);
}

/* ---- document 01's marked routes and flows */

#define A_NLRI TIER_1("07", SSM)
#define B_NLRI TIER_2("07")
#define C_NLRI TIER_3("07", ASM)
#define D_NLRI TIER_4("07")
#define E_NLRI TIER_3("07", "E8090909 ")

static const route marked[] = {
    { A_NLRI, TUNNEL("10") }, { B_NLRI, TUNNEL("20") }, { C_NLRI, TUNNEL("30") }, { D_NLRI, TUNNEL("40") }, { E_NLRI, TUNNEL("50") },
};

typedef struct {
    const char *shows;
    flow flow;
    uint32_t tier;
    const route *expected;
    uint32_t reasons[4];
} marked_row;

static const marked_row marked_flows[] = {
    { "P1", { ROUTER, SOURCE, SSM }, 1, &marked[0], { TAKEN, EARLIER, EARLIER, EARLIER } },
    { "P2", { ROUTER, SOURCE, "E8010102" }, 2, &marked[1], { NO_ROUTE, TAKEN, EARLIER, EARLIER } },
    { "P3", { ROUTER, SOURCE, ASM }, 3, &marked[2], { NO_ROUTE, CLASS, TAKEN, EARLIER } },
    { "P4", { ROUTER, "C0000202", SSM }, 4, &marked[3], { NO_ROUTE, NO_ROUTE, CLASS, TAKEN } },
    { "P5: the class before the route that there is", { ROUTER, "C0000202", "E8090909" }, 4, &marked[3],
      { NO_ROUTE, NO_ROUTE, CLASS, TAKEN } },
    { "P6", { "0A000002", SOURCE, SSM }, 0, NULL, { NO_ROUTE, NO_ROUTE, CLASS, NO_ROUTE } },
    { "P6, for an ASM group", { "0A000002", SOURCE, ASM }, 0, NULL, { NO_ROUTE, CLASS, NO_ROUTE, NO_ROUTE } },
    { "an ASM group without a route", { ROUTER, SOURCE, "EF010102" }, 4, &marked[3], { NO_ROUTE, CLASS, NO_ROUTE, TAKEN } },
    { "the router in 16 octets", { "00000000 00000000 0000FFFF 0A000001", SOURCE, SSM }, 0, NULL,
      { NO_ROUTE, NO_ROUTE, CLASS, NO_ROUTE } },
    { "just below the SSM range", { ROUTER, SOURCE, "E7FFFFFF" }, 4, &marked[3], { NO_ROUTE, CLASS, NO_ROUTE, TAKEN } },
    { "the last group of the SSM range", { ROUTER, SOURCE, "E8FFFFFF" }, 2, &marked[1], { NO_ROUTE, TAKEN, EARLIER, EARLIER } },
};

static void marked_examples(void)
{
    lent table = holding(1, ROWS(marked), marked, ROWS(marked)), before = copy_of(table);
    for (size_t i = 0; i < ROWS(marked_flows); i++)
        same_explained(marked_flows[i].shows, table, marked_flows[i].flow, marked_flows[i].tier, marked_flows[i].expected,
                       marked_flows[i].reasons);
    same_table("explain leaves the table", table, before);
    free(table.at);
    free(before.at);
}

/* ---- one table for each row */

typedef struct {
    const char *shows, *group;
    uint32_t tier;
    size_t taken;
    uint32_t reasons[4];
    route routes[MOST];
} row;

static const row rows[] = {
    { "no routes, SSM", SSM, 0, NOBODY, { NO_ROUTE, NO_ROUTE, CLASS, NO_ROUTE }, { { NULL, NULL } } },
    { "no routes, ASM", ASM, 0, NOBODY, { NO_ROUTE, CLASS, NO_ROUTE, NO_ROUTE }, { { NULL, NULL } } },
    { "tier 1 of an ASM group: what comes after it says nothing of the class", ASM, 1, FIRST,
      { TAKEN, EARLIER, EARLIER, EARLIER }, { { TIER_1("07", ASM), TUNNEL("10") }, { TIER_2("07"), TUNNEL("20") } } },
    { "tier 1 of an SSM group: what comes after it says nothing of the class", SSM, 1, FIRST,
      { TAKEN, EARLIER, EARLIER, EARLIER }, { { TIER_1("07", SSM), TUNNEL("10") }, { TIER_3("07", SSM), TUNNEL("20") } } },
    { "tier 2 alone, ASM: the class, not the route that there is", ASM, 0, NOBODY, { NO_ROUTE, CLASS, NO_ROUTE, NO_ROUTE },
      { { TIER_2("07"), TUNNEL("10") } } },
    { "tier 3 alone, SSM: the class, not the route that there is", SSM, 0, NOBODY, { NO_ROUTE, NO_ROUTE, CLASS, NO_ROUTE },
      { { TIER_3("07", SSM), TUNNEL("10") } } },
    { "tier 4 alone, SSM", SSM, 4, FIRST, { NO_ROUTE, NO_ROUTE, CLASS, TAKEN }, { { TIER_4("07"), TUNNEL("10") } } },
    { "tier 4 alone, ASM", ASM, 4, FIRST, { NO_ROUTE, CLASS, NO_ROUTE, TAKEN }, { { TIER_4("07"), TUNNEL("10") } } },

    { "tier 1 names no tunnel, SSM", SSM, 2, SECOND, { NO_ROUTE, TAKEN, EARLIER, EARLIER },
      { { TIER_1("07", SSM), NONE }, { TIER_2("07"), TUNNEL("10") }, { TIER_4("07"), TUNNEL("20") } } },
    { "tier 1 names no tunnel, ASM", ASM, 3, SECOND, { NO_ROUTE, CLASS, TAKEN, EARLIER },
      { { TIER_1("07", ASM), NONE }, { TIER_3("07", ASM), TUNNEL("10") }, { TIER_4("07"), TUNNEL("20") } } },
    { "the lowest RD of tier 1 names no tunnel, the next one is taken", SSM, 1, SECOND, { TAKEN, EARLIER, EARLIER, EARLIER },
      { { TIER_1("05", SSM), NONE }, { TIER_1("07", SSM), TUNNEL("10") }, { TIER_2("07"), TUNNEL("20") } } },
    { "tiers 1 and 2 name no tunnel", SSM, 4, THIRD, { NO_ROUTE, NO_ROUTE, CLASS, TAKEN },
      { { TIER_1("07", SSM), NONE }, { TIER_2("07"), NONE }, { TIER_4("07"), TUNNEL("10") } } },
    { "tiers 1 and 3 name no tunnel", ASM, 4, THIRD, { NO_ROUTE, CLASS, NO_ROUTE, TAKEN },
      { { TIER_1("07", ASM), NONE }, { TIER_3("07", ASM), NONE }, { TIER_4("07"), TUNNEL("10") } } },
    { "no tier names a tunnel, SSM", SSM, 0, NOBODY, { NO_ROUTE, NO_ROUTE, CLASS, NO_ROUTE },
      { { TIER_1("07", SSM), NONE }, { TIER_2("07"), NONE }, { TIER_3("07", SSM), NONE }, { TIER_4("07"), NONE } } },
    { "no tier names a tunnel, ASM", ASM, 0, NOBODY, { NO_ROUTE, CLASS, NO_ROUTE, NO_ROUTE },
      { { TIER_1("07", ASM), NONE }, { TIER_2("07"), NONE }, { TIER_3("07", ASM), NONE }, { TIER_4("07"), NONE } } },
    { "tier 1 taken, a later one that names no tunnel was too late", SSM, 1, FIRST, { TAKEN, EARLIER, EARLIER, EARLIER },
      { { TIER_1("07", SSM), TUNNEL("10") }, { TIER_2("07"), NONE }, { TIER_4("07"), NONE } } },
    { "routes of another source", SSM, 0, NOBODY, { NO_ROUTE, NO_ROUTE, CLASS, NO_ROUTE },
      { { "0316 " RD("07") "20 C0000202 20 " SSM ROUTER, TUNNEL("10") }, { "0312 " RD("07") "20 C0000202 00 " ROUTER, TUNNEL("20") } } },
    { "routes of another router", ASM, 0, NOBODY, { NO_ROUTE, CLASS, NO_ROUTE, NO_ROUTE },
      { { "0312 " RD("07") "00 20 " ASM "0A000002", TUNNEL("10") }, { "030E " RD("07") "00 00 0A000002", TUNNEL("20") } } },
};

static void explain_row(const row *r)
{
    lent table = holding_row(r->routes);
    same_explained(r->shows, table, (flow){ ROUTER, SOURCE, r->group }, r->tier,
                   taken_of(r->routes, r->taken), r->reasons);
    free(table.at);
}

/* ---- every table that has no route, one without a tunnel or one with a tunnel in each tier: each reason is true */

/* What a reason says of a tier, where `has_tunnel` tells which tiers have a route that names a tunnel. */
static bool is_true(uint32_t reason, uint32_t tier, uint32_t taken, bool is_ssm, const bool has_tunnel[4])
{
    bool is_forbidden = (tier == 2 && !is_ssm) || (tier == 3 && is_ssm), is_after = taken != 0 && tier > taken;
    switch (reason) {
    case MVPN_TAKEN:
        return tier == taken && !is_forbidden && has_tunnel[tier - 1];
    case MVPN_NO_SUCH_ROUTE:
        return !is_after && !is_forbidden && !has_tunnel[tier - 1];
    case MVPN_WRONG_GROUP_CLASS:
        return !is_after && is_forbidden;
    case MVPN_EARLIER_TIER_WON:
        return is_after;
    default:
        return false;
    }
}

/* `kinds` is a number of four digits to the base 3, one for each tier: no route, one without a tunnel, one with a tunnel. */
static void explain_kinds(unsigned kinds, bool is_ssm)
{
    const char *const nlris[] = { is_ssm ? TIER_1("07", SSM) : TIER_1("07", ASM), TIER_2("07"),
                                  is_ssm ? TIER_3("07", SSM) : TIER_3("07", ASM), TIER_4("07") };
    lent table = made(1, 4), output = lent_of(MVPN_MATCH_OUTPUT, FILL);
    bool has_tunnel[4] = { false };
    for (size_t i = 0; i < 4; i++, kinds /= 3) {
        if (kinds % 3 > 0)
            install(table, nlris[i], kinds % 3 == 1 ? NONE : TUNNEL("10"));
        has_tunnel[i] = kinds % 3 == 2;
    }
    mvpn_explained e = explain(table, (flow){ ROUTER, SOURCE, is_ssm ? SSM : ASM }, output);
    same("every kind of table", "number", e.matched.number, MVPN_DONE);
    for (uint32_t tier = 1; tier <= 4; tier++)
        same("every kind of table", "whether a reason is true",
             is_true(e.reasons[tier - 1], tier, e.matched.tier, is_ssm, has_tunnel), true);
    free(table.at);
    free(output.at);
}

/* ---- AFI 2 */


static void ipv6(void)
{
    static const route routes[] = {
        { "032A " RD("07") "80 " IPV6("01") "00 " IPV6("02"), TUNNEL("10") },
        { "032A " RD("07") "00 80 FF3E0001 00000000 00000000 00000001 " IPV6("02"), TUNNEL("20") },
    };
    lent table = holding(2, 2, routes, ROWS(routes));
    same_explained("FF3E::1 is SSM", table, (flow){ IPV6("02"), IPV6("01"), "FF3E0000 00000000 00000000 00000001" }, 2, &routes[0],
                   (uint32_t[]){ NO_ROUTE, TAKEN, EARLIER, EARLIER });
    same_explained("FF3E:1::1 is ASM", table, (flow){ IPV6("02"), IPV6("01"), "FF3E0001 00000000 00000000 00000001" }, 3, &routes[1],
                   (uint32_t[]){ NO_ROUTE, CLASS, TAKEN, EARLIER });
    same_explained("no route, ASM", table, (flow){ ROUTER, IPV6("01"), "FF0E0000 00000000 00000000 00000001" }, 0, NULL,
                   (uint32_t[]){ NO_ROUTE, CLASS, NO_ROUTE, NO_ROUTE });
    free(table.at);
}

/* ---- refusals: those of a match, in its order; every reason is 0 */

typedef struct {
    const char *shows;
    flow flow;
    size_t table, output; /* octets lent */
    uint32_t number;
} refused_row;

static const refused_row refusals[] = {
    { "a table cut short, and all else wrong", { "", "", "" }, MVPN_TABLE_SIZE(5) - 1, 0, MVPN_TABLE },
    { "no table", { ROUTER, SOURCE, SSM }, 0, 124, MVPN_TABLE },
    { "router of 5 octets", { "0A00000101", SOURCE, SSM }, MVPN_TABLE_SIZE(5), 0, MVPN_FLOW },
    { "source of 16 octets", { ROUTER, IPV6("01"), SSM }, MVPN_TABLE_SIZE(5), 124, MVPN_FLOW },
    { "group of 3 octets", { ROUTER, SOURCE, "E80101" }, MVPN_TABLE_SIZE(5), 124, MVPN_FLOW },
    { "group 223.255.255.255", { ROUTER, SOURCE, "DFFFFFFF" }, MVPN_TABLE_SIZE(5), 0, MVPN_FLOW },
    { "group 240.0.0.0", { ROUTER, SOURCE, "F0000000" }, MVPN_TABLE_SIZE(5), 124, MVPN_FLOW },
    { "output of 123 octets", { ROUTER, SOURCE, SSM }, MVPN_TABLE_SIZE(5), 123, MVPN_SPACE },
    { "output of 123 octets, no route", { "0A000002", SOURCE, SSM }, MVPN_TABLE_SIZE(5), 123, MVPN_SPACE },
    { "no output", { ROUTER, SOURCE, ASM }, MVPN_TABLE_SIZE(5), 0, MVPN_SPACE },
};

static void refuse(const refused_row *r, lent table)
{
    lent output = lent_of(r->output, FILL), before = copy_of(table), cut = { table.at, r->table };
    mvpn_explained e = explain(cut, r->flow, output);
    refused_matched(r->shows, e.matched, output, r->number);
    same_reasons(r->shows, e.reasons, (uint32_t[]){ 0, 0, 0, 0 });
    refused_matched(r->shows, match(cut, r->flow, output), output, r->number);
    same_table(r->shows, table, before);
    free(output.at);
    free(before.at);
}

int main(void)
{
    marked_examples();
    for (size_t i = 0; i < ROWS(rows); i++)
        explain_row(&rows[i]);
    for (unsigned kinds = 0; kinds < 81; kinds++) {
        explain_kinds(kinds, true);
        explain_kinds(kinds, false);
    }
    ipv6();
    lent table = holding(1, ROWS(marked), marked, ROWS(marked));
    for (size_t i = 0; i < ROWS(refusals); i++)
        refuse(&refusals[i], table);
    free(table.at);
    return verdict("C reasons");
}
