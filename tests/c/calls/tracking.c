/*
 * Routes whose tunnel type is 0 ask for tracking and name no tunnel: no match takes them (RFC 8556, section 4.1). The expected
 * answers are written from document 02, W-202, and from the texts of mvpn.h, not from any program; that the table holds such
 * routes like others is in table.c.
 */
#include "tiers.h"

#define OF_ANOTHER_ROUTER(n) "030E " RD(n) "00 00 0A000002"

/* ---- the match for a flow */

typedef struct {
    const char *shows, *group;
    uint32_t tier;
    size_t taken;
    route routes[MOST];
} row;

static const row rows[] = {
    { "tier 1: the next RD, before tier 2", SSM, 1, SECOND,
      { { TIER_1("05", SSM), NONE }, { TIER_1("07", SSM), TUNNEL("10") }, { TIER_1("09", SSM), TUNNEL("20") },
        { TIER_2("01"), TUNNEL("30") }, { TIER_4("01"), TUNNEL("40") } } },
    { "tier 1: behind two RDs", ASM, 1, THIRD,
      { { TIER_1("05", ASM), NONE }, { TIER_1("06", ASM), NONE }, { TIER_1("07", ASM), TUNNEL("10") },
        { TIER_3("01", ASM), TUNNEL("20") } } },
    { "tier 1: the lowest RD has a tunnel, the next has none", SSM, 1, FIRST,
      { { TIER_1("05", SSM), TUNNEL("10") }, { TIER_1("07", SSM), NONE }, { TIER_1("09", SSM), TUNNEL("20") } } },
    { "tier 1 names no tunnel: tier 2", SSM, 2, THIRD,
      { { TIER_1("05", SSM), NONE }, { TIER_1("07", SSM), NONE }, { TIER_2("07"), TUNNEL("10") }, { TIER_4("01"), TUNNEL("20") } } },
    { "tier 1 names no tunnel: tier 3", ASM, 3, SECOND,
      { { TIER_1("05", ASM), NONE }, { TIER_3("07", ASM), TUNNEL("10") }, { TIER_4("01"), TUNNEL("20") } } },
    { "tier 1 names no tunnel: tier 4", SSM, 4, SECOND, { { TIER_1("05", SSM), NONE }, { TIER_4("07"), TUNNEL("10") } } },
    { "tier 1 names no tunnel: none", SSM, 0, NOBODY, { { TIER_1("05", SSM), NONE } } },
    { "tier 2: the next RD, before tier 4", SSM, 2, SECOND,
      { { TIER_2("05"), NONE }, { TIER_2("07"), TUNNEL("10") }, { TIER_2("09"), TUNNEL("20") }, { TIER_4("01"), TUNNEL("30") } } },
    { "tier 2 names no tunnel: tier 4", SSM, 4, THIRD,
      { { TIER_2("05"), NONE }, { TIER_2("07"), NONE }, { TIER_4("07"), TUNNEL("10") } } },
    { "tier 2 names no tunnel: none", SSM, 0, NOBODY, { { TIER_2("05"), NONE } } },
    { "tier 3: the next RD, before tier 4", ASM, 3, SECOND,
      { { TIER_3("05", ASM), NONE }, { TIER_3("07", ASM), TUNNEL("10") }, { TIER_3("09", ASM), TUNNEL("20") },
        { TIER_4("01"), TUNNEL("30") } } },
    { "tier 3 names no tunnel: tier 4", ASM, 4, THIRD,
      { { TIER_3("05", ASM), NONE }, { TIER_3("07", ASM), NONE }, { TIER_4("07"), TUNNEL("10") } } },
    { "tier 3 names no tunnel: none", ASM, 0, NOBODY, { { TIER_3("05", ASM), NONE } } },
    { "tier 4: the next RD", ASM, 4, SECOND,
      { { TIER_4("05"), NONE }, { TIER_4("07"), TUNNEL("10") }, { TIER_4("09"), TUNNEL("20") } } },
    { "tier 4 names no tunnel: none", SSM, 0, NOBODY, { { TIER_4("05"), NONE }, { TIER_4("07"), NONE } } },
    { "an earlier tier without a tunnel, a later one without", SSM, 2, SECOND,
      { { TIER_1("07", SSM), NONE }, { TIER_2("07"), TUNNEL("10") }, { TIER_4("07"), NONE } } },
    { "no route of an SSM group names a tunnel", SSM, 0, NOBODY,
      { { TIER_1("07", SSM), NONE }, { TIER_2("07"), NONE }, { TIER_3("07", SSM), NONE }, { TIER_4("07"), NONE } } },
    { "no route of an ASM group names a tunnel", ASM, 0, NOBODY,
      { { TIER_1("07", ASM), NONE }, { TIER_2("07"), NONE }, { TIER_3("07", ASM), NONE }, { TIER_4("07"), NONE } } },
    { "nor is a tier taken that the class forbids: SSM", SSM, 0, NOBODY,
      { { TIER_1("07", SSM), NONE }, { TIER_2("07"), NONE }, { TIER_3("07", SSM), TUNNEL("10") } } },
    { "nor is a tier taken that the class forbids: ASM", ASM, 0, NOBODY,
      { { TIER_1("07", ASM), NONE }, { TIER_2("07"), TUNNEL("10") }, { TIER_3("07", ASM), NONE } } },
    { "the route of another router names a tunnel", SSM, 0, NOBODY,
      { { TIER_4("07"), NONE }, { OF_ANOTHER_ROUTER("08"), TUNNEL("10") } } },
    { "the route of another router names none", SSM, 4, SECOND,
      { { OF_ANOTHER_ROUTER("05"), NONE }, { TIER_4("07"), TUNNEL("10") } } },
    { "flags and a label make no tunnel", SSM, 4, SECOND,
      { { TIER_1("07", SSM), "FF 00 FFFFFF" }, { TIER_4("07"), TUNNEL("10") } } },
    { "a tunnel needs neither flags nor a label", SSM, 1, FIRST,
      { { TIER_1("07", SSM), TUNNEL("00") }, { TIER_4("07"), TUNNEL("10") } } },
};

static void take_route(const row *r)
{
    lent table = holding_row(r->routes);
    same_match(r->shows, table, (flow){ ROUTER, SOURCE, r->group }, r->tier, taken_of(r->routes, r->taken));
    free(table.at);
}

/* A route of every tunnel type but 0 is taken. */
static void every_tunnel(void)
{
    static const char *const attributes[] = {
        "00 01 000000 0A000001 0000 0005 00000001",
        "00 02 000000 06 0001 04 0A000001 0000",
        "00 03 000000 0A000001 E8000001",
        "00 04 000000 0A000001 EF000001",
        "00 05 000000 0A000001 EF000001",
        "00 06 000000 0A000001",
        "00 07 000000 07 0001 04 0A000001 0000",
        "00 0B 000010 00 0001 0A000001",
    };
    for (size_t i = 0; i < ROWS(attributes); i++) {
        const route routes[] = { { TIER_4("05"), NONE }, { TIER_4("07"), attributes[i] } };
        lent table = holding(1, 2, routes, ROWS(routes));
        same_match(attributes[i], table, (flow){ ROUTER, SOURCE, SSM }, 4, &routes[1]);
        free(table.at);
    }
}

/* ---- a route that comes, changes and goes */

static void take_again(const char *shows, lent table, const char *attribute, uint32_t tier)
{
    const route taken = { tier == 1 ? TIER_1("07", SSM) : TIER_4("07"), attribute };
    same_match(shows, table, (flow){ ROUTER, SOURCE, SSM }, tier, &taken);
}

static void changes(void)
{
    const route routes[] = { { TIER_1("07", SSM), TUNNEL("10") }, { TIER_4("07"), TUNNEL("20") } };
    lent table = holding(1, 2, routes, ROWS(routes));
    take_again("with a tunnel", table, TUNNEL("10"), 1);
    same("tracking", "outcome", install(table, TIER_1("07", SSM), NONE).outcome, MVPN_REPLACED);
    take_again("with none", table, TUNNEL("20"), 4);
    same("a tunnel again", "outcome", install(table, TIER_1("07", SSM), TUNNEL("30")).outcome, MVPN_REPLACED);
    take_again("with a tunnel again", table, TUNNEL("30"), 1);
    same("tracking again", "outcome", install(table, TIER_1("07", SSM), NONE).outcome, MVPN_REPLACED);
    same("withdrawal of a tracking route", "number", withdraw(table, TIER_1("07", SSM)), MVPN_DONE);
    same("its withdrawal again", "number", withdraw(table, TIER_1("07", SSM)), MVPN_ABSENT);
    take_again("without it", table, TUNNEL("20"), 4);
    free(table.at);
}

/* ---- AFI 2, IPv6 and IPv4 originators */

#define SSM6 "FF3E0000 00000000 00000000 00000001 "

static void ipv6(void)
{
    static const route routes[] = {
        { "033A " RD("05") "80 " IPV6("01") "80 " SSM6 IPV6("02"), NONE },
        { "033A " RD("07") "80 " IPV6("01") "80 " SSM6 IPV6("02"), "00 06 000000" IPV6("02") },
        { "030E " RD("07") "00 00 " ROUTER, NONE },
    };
    lent table = holding(2, MOST, routes, ROWS(routes));
    same_match("AFI 2: the next RD", table, (flow){ IPV6("02"), IPV6("01"), SSM6 }, 1, &routes[1]);
    same_match("AFI 2: an IPv4 originator, no tunnel", table, (flow){ ROUTER, IPV6("01"), SSM6 }, 0, NULL);
    free(table.at);
}

/* ---- the match for a shared tree, where every condition holds */

static const row shared_rows[] = {
    { "shared tree, tier 3: the next RD, before tier 4", ASM, 3, SECOND,
      { { TIER_3("05", ASM), NONE }, { TIER_3("07", ASM), TUNNEL("10") }, { TIER_3("09", ASM), TUNNEL("20") },
        { TIER_4("01"), TUNNEL("30") } } },
    { "shared tree, tier 3 names no tunnel: tier 4", ASM, 4, THIRD,
      { { TIER_3("05", ASM), NONE }, { TIER_3("07", ASM), NONE }, { TIER_4("07"), TUNNEL("10") } } },
    { "shared tree, tier 4: the next RD", ASM, 4, SECOND,
      { { TIER_4("05"), NONE }, { TIER_4("07"), TUNNEL("10") }, { TIER_4("09"), TUNNEL("20") } } },
    { "shared tree, the lowest RD has a tunnel, the next has none", ASM, 3, FIRST,
      { { TIER_3("05", ASM), TUNNEL("10") }, { TIER_3("07", ASM), NONE } } },
    { "shared tree, no route names a tunnel", ASM, 0, NOBODY, { { TIER_3("07", ASM), NONE }, { TIER_4("07"), NONE } } },
    { "shared tree, SSM", SSM, 0, NOBODY, { { TIER_3("07", SSM), TUNNEL("10") }, { TIER_4("07"), NONE } } },
    { "shared tree, the route of another router names a tunnel", ASM, 0, NOBODY,
      { { TIER_4("07"), NONE }, { OF_ANOTHER_ROUTER("08"), TUNNEL("10") } } },
};

static mvpn_matched match_shared(lent table, const char *group_text, lent output)
{
    lent router = hex(ROUTER), group = hex(group_text);
    mvpn_matched m = mvpn_match_shared(table.at, table.size, mvpn_no_items, sizeof mvpn_no_items, router.at, router.size,
                                       group.at, group.size, (mvpn_tree_facts){ 1, 1, 1 }, mvpn_no_items, sizeof mvpn_no_items,
                                       mvpn_no_items, sizeof mvpn_no_items, output.at, output.size);
    free(router.at);
    free(group.at);
    return m;
}

static void take_shared(const row *r)
{
    lent table = holding_row(r->routes), output = lent_of(MVPN_MATCH_OUTPUT, FILL);
    same_matched(r->shows, match_shared(table, r->group, output), output, r->tier, taken_of(r->routes, r->taken));
    free(table.at);
    free(output.at);
}

int main(void)
{
    for (size_t i = 0; i < ROWS(rows); i++)
        take_route(&rows[i]);
    every_tunnel();
    changes();
    ipv6();
    for (size_t i = 0; i < ROWS(shared_rows); i++)
        take_shared(&shared_rows[i]);
    return verdict("C tracking routes");
}
