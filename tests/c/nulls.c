/*
 * A pointer may be null where its length is 0: each pointer of each call, alone and with all others. The answers are those of no
 * octets, which mvpn.h tells. And the version that the archive gives is the header's.
 */
#include "checks.h"

#include <stdbool.h>

_Static_assert(MVPN_LONGEST_NLRI == MVPN_NLRI_HEADER + 255 && MVPN_LONGEST_NLRI == (int)MVPN_UNFINISHED, "MVPN_LONGEST_NLRI");
_Static_assert(MVPN_LONGEST_ATTRIBUTE == 64 && MVPN_LONGEST_RUN == 4096, "longest");

#define NO_OCTETS NULL, 0

static const uint8_t router[] = { 10, 0, 0, 1 }, source[] = { 192, 0, 2, 1 }, group[] = { 239, 1, 1, 1 };
static const uint8_t any[] = { 3, 14, 0, 0, 0, 100, 0, 0, 0, 7, 0, 0, 10, 0, 0, 1 };
static const uint8_t fec[] = { MVPN_FEC_P2MP, 0, 1, 4, 192, 0, 2, 11, 0, 0 };
static const uint8_t bier[] = { 0, 11, 0, 0, 16, 0, 0, 1, 10, 0, 0, 1 };

static uint8_t table[MVPN_TABLE_SIZE(2)], output[MVPN_LONGEST_NLRI];

#define OF(octets) octets, sizeof octets
#define NO_ITEMS OF(mvpn_no_items)

/* ---- NLRIs, runs and attributes */

static void codecs(void)
{
    const char *shows = "null";
    mvpn_nlri leaf = { .route_type = MVPN_LEAF, .originator = { { 10, 0, 0, 1 }, 4 } };
    mvpn_nlri join = { .route_type = MVPN_MLDP_SOURCE_TREE_JOIN };
    mvpn_nlri intra = { .route_type = MVPN_INTRA_AS_I_PMSI, .originator = { { 10, 0, 0, 1 }, 4 } };
    same(shows, "nlri_read", mvpn_nlri_read(1, NO_OCTETS).number, MVPN_SHORT);
    same(shows, "nlri_write, neither is looked at", mvpn_nlri_write(1, intra, NO_OCTETS, NO_OCTETS, OF(output)).size, 14);
    same(shows, "nlri_write, the key", mvpn_nlri_write(1, leaf, NO_OCTETS, OF(fec), OF(output)).number, MVPN_KEY);
    same(shows, "nlri_write, the FEC element", mvpn_nlri_write(1, join, OF(any), NO_OCTETS, OF(output)).number, MVPN_IDENT);
    same(shows, "nlri_write, no FEC element", mvpn_nlri_write(1, leaf, OF(any), NO_OCTETS, OF(output)).size, 22);
    same(shows, "nlri_write, no key", mvpn_nlri_write(1, join, NO_OCTETS, OF(fec), OF(output)).size, 24);
    same(shows, "nlri_write, the output", mvpn_nlri_write(1, leaf, OF(any), OF(fec), NO_OCTETS).number, MVPN_SPACE);
    same(shows, "nlri_write, all", mvpn_nlri_write(1, intra, NO_OCTETS, NO_OCTETS, NO_OCTETS).number, MVPN_SPACE);
    same(shows, "group_class, the prefixes", mvpn_group_class(1, NO_OCTETS, OF(group)).number, MVPN_SHORT);
    same(shows, "group_class, the group", mvpn_group_class(1, NO_ITEMS, NO_OCTETS).number, MVPN_FLOW);
    same(shows, "group_class, both", mvpn_group_class(1, NO_OCTETS, NO_OCTETS).number, MVPN_SHORT);
    same(shows, "attribute_read", mvpn_attribute_read(NO_OCTETS).number, MVPN_SHORT);
    same(shows, "attribute_write, no identifier", mvpn_attribute_write(0, MVPN_TUNNEL_NONE, 0, NO_OCTETS, OF(output)).size, 5);
    same(shows, "attribute_write, the identifier", mvpn_attribute_write(0, MVPN_TUNNEL_BIER, 16, NO_OCTETS, OF(output)).number,
         MVPN_IDENT);
    same(shows, "attribute_write, the output", mvpn_attribute_write(0, MVPN_TUNNEL_INGRESS_REPLICATION, 0, OF(router), NO_OCTETS).number,
         MVPN_SPACE);
    same(shows, "attribute_write, both", mvpn_attribute_write(0, MVPN_TUNNEL_NONE, 0, NO_OCTETS, NO_OCTETS).number, MVPN_SPACE);
}

static void runs(void)
{
    const char *shows = "null";
    uint8_t unfinished[MVPN_UNFINISHED];
    mvpn_stepped step = mvpn_step(1, NO_OCTETS, 0);
    same(shows, "step", step.number, MVPN_DONE);
    same(shows, "step, route type", step.layout.route_type, 0);
    same(shows, "step, past the end", mvpn_step(1, NO_OCTETS, 1).number, MVPN_SHORT);
    mvpn_walked walked = mvpn_walk(1, MVPN_SKIP, NO_OCTETS);
    same(shows, "walk", walked.number, MVPN_DONE);
    same(shows, "walk, offset", walked.offset, 0);
    same(shows, "walk, the old mode", mvpn_walk(1, MVPN_OLD, NO_OCTETS).number, MVPN_DONE);
    mvpn_fed fed = mvpn_pieces_feed(mvpn_pieces_start(1, MVPN_SKIP), unfinished, NO_OCTETS);
    same(shows, "pieces_feed, octets taken", fed.taken, 0);
    same(shows, "pieces_feed, size", fed.size, 0);
    fed = mvpn_pieces_feed(fed.pieces, unfinished, any, 5);
    fed = mvpn_pieces_feed(fed.pieces, unfinished, NO_OCTETS);
    fed = mvpn_pieces_feed(fed.pieces, unfinished, any + 5, sizeof any - 5);
    same(shows, "pieces_feed, between two pieces", fed.size, sizeof any);
    same(shows, "pieces_finish", mvpn_pieces_finish(fed.pieces).walked.number, MVPN_DONE);
}

/* ---- tables */

static void changes(void)
{
    const char *shows = "null";
    same(shows, "make", mvpn_make(1, NO_OCTETS), MVPN_TABLE);
    same(shows, "make a table", mvpn_make(1, OF(table)), MVPN_DONE);
    same(shows, "install, the table", mvpn_install(NO_OCTETS, OF(any), OF(bier)).number, MVPN_TABLE);
    same(shows, "install, the NLRI", mvpn_install(OF(table), NO_OCTETS, OF(bier)).number, MVPN_SHORT);
    same(shows, "install, the attribute", mvpn_install(OF(table), OF(any), NO_OCTETS).number, MVPN_SHORT);
    same(shows, "install, all", mvpn_install(NO_OCTETS, NO_OCTETS, NO_OCTETS).number, MVPN_TABLE);
    same(shows, "install a route", mvpn_install(OF(table), OF(any), OF(bier)).number, MVPN_DONE);
    same(shows, "withdraw, the table", mvpn_withdraw(NO_OCTETS, OF(any)), MVPN_TABLE);
    same(shows, "withdraw, the NLRI", mvpn_withdraw(OF(table), NO_OCTETS), MVPN_SHORT);
    same(shows, "withdraw, both", mvpn_withdraw(NO_OCTETS, NO_OCTETS), MVPN_TABLE);
}

static void restarts(void)
{
    const char *shows = "null";
    same(shows, "mark, the table", mvpn_mark(NO_OCTETS, OF(router)).number, MVPN_TABLE);
    same(shows, "mark, the router", mvpn_mark(OF(table), NO_OCTETS).number, MVPN_FLOW);
    same(shows, "mark, both", mvpn_mark(NO_OCTETS, NO_OCTETS).number, MVPN_TABLE);
    same(shows, "sweep, the table", mvpn_sweep(NO_OCTETS, OF(router)).number, MVPN_TABLE);
    same(shows, "sweep, the router", mvpn_sweep(OF(table), NO_OCTETS).number, MVPN_FLOW);
    same(shows, "sweep, both", mvpn_sweep(NO_OCTETS, NO_OCTETS).number, MVPN_TABLE);
}

static void matches(void)
{
    const char *shows = "null";
    same(shows, "match, the table", mvpn_match(NO_OCTETS, NO_ITEMS, OF(router), OF(source), OF(group), OF(output)).number,
         MVPN_TABLE);
    same(shows, "match, the prefixes", mvpn_match(OF(table), NO_OCTETS, OF(router), OF(source), OF(group), OF(output)).number,
         MVPN_SHORT);
    same(shows, "match, the router", mvpn_match(OF(table), NO_ITEMS, NO_OCTETS, OF(source), OF(group), OF(output)).number,
         MVPN_FLOW);
    same(shows, "match, the source", mvpn_match(OF(table), NO_ITEMS, OF(router), NO_OCTETS, OF(group), OF(output)).number,
         MVPN_FLOW);
    same(shows, "match, the group", mvpn_match(OF(table), NO_ITEMS, OF(router), OF(source), NO_OCTETS, OF(output)).number,
         MVPN_FLOW);
    same(shows, "match, the output", mvpn_match(OF(table), NO_ITEMS, OF(router), OF(source), OF(group), NO_OCTETS).number,
         MVPN_SPACE);
    same(shows, "match, all", mvpn_match(NO_OCTETS, NO_OCTETS, NO_OCTETS, NO_OCTETS, NO_OCTETS, NO_OCTETS).number, MVPN_TABLE);
    same(shows, "explain, the table", mvpn_explain(NO_OCTETS, NO_ITEMS, OF(router), OF(source), OF(group), OF(output)).matched.number,
         MVPN_TABLE);
    same(shows, "explain, the prefixes", mvpn_explain(OF(table), NO_OCTETS, OF(router), OF(source), OF(group), OF(output)).matched.number,
         MVPN_SHORT);
    same(shows, "explain, the router", mvpn_explain(OF(table), NO_ITEMS, NO_OCTETS, OF(source), OF(group), OF(output)).matched.number,
         MVPN_FLOW);
    same(shows, "explain, the source", mvpn_explain(OF(table), NO_ITEMS, OF(router), NO_OCTETS, OF(group), OF(output)).matched.number,
         MVPN_FLOW);
    same(shows, "explain, the group", mvpn_explain(OF(table), NO_ITEMS, OF(router), OF(source), NO_OCTETS, OF(output)).matched.number,
         MVPN_FLOW);
    same(shows, "explain, the output", mvpn_explain(OF(table), NO_ITEMS, OF(router), OF(source), OF(group), NO_OCTETS).matched.number,
         MVPN_SPACE);
    same(shows, "explain, all", mvpn_explain(NO_OCTETS, NO_OCTETS, NO_OCTETS, NO_OCTETS, NO_OCTETS, NO_OCTETS).matched.number,
         MVPN_TABLE);
}

static void shared_trees(void)
{
    const char *shows = "null";
    const mvpn_tree_facts facts = { 1, 0, 0 };
#define SHARED(table, prefixes, router, group, actives, states, output) \
    mvpn_match_shared(table, prefixes, router, group, facts, actives, states, output)
    same(shows, "match_shared, nothing", SHARED(OF(table), NO_ITEMS, OF(router), OF(group), NO_ITEMS, NO_ITEMS, OF(output)).tier,
         4);
    same(shows, "match_shared, the table", SHARED(NO_OCTETS, NO_ITEMS, OF(router), OF(group), NO_ITEMS, NO_ITEMS, OF(output)).number,
         MVPN_TABLE);
    same(shows, "match_shared, the prefixes", SHARED(OF(table), NO_OCTETS, OF(router), OF(group), NO_ITEMS, NO_ITEMS, OF(output)).number,
         MVPN_SHORT);
    same(shows, "match_shared, the router", SHARED(OF(table), NO_ITEMS, NO_OCTETS, OF(group), NO_ITEMS, NO_ITEMS, OF(output)).number,
         MVPN_FLOW);
    same(shows, "match_shared, the group", SHARED(OF(table), NO_ITEMS, OF(router), NO_OCTETS, NO_ITEMS, NO_ITEMS, OF(output)).number,
         MVPN_FLOW);
    same(shows, "match_shared, the first list", SHARED(OF(table), NO_ITEMS, OF(router), OF(group), NO_OCTETS, NO_ITEMS, OF(output)).number,
         MVPN_SHORT);
    same(shows, "match_shared, the second list", SHARED(OF(table), NO_ITEMS, OF(router), OF(group), NO_ITEMS, NO_OCTETS, OF(output)).number,
         MVPN_SHORT);
    same(shows, "match_shared, the output", SHARED(OF(table), NO_ITEMS, OF(router), OF(group), NO_ITEMS, NO_ITEMS, NO_OCTETS).number,
         MVPN_SPACE);
    same(shows, "match_shared, all", SHARED(NO_OCTETS, NO_OCTETS, NO_OCTETS, NO_OCTETS, NO_OCTETS, NO_OCTETS, NO_OCTETS).number,
         MVPN_TABLE);
#undef SHARED
}

static void strings(void)
{
    const char *shows = "null";
    uint8_t string[MVPN_BIER_STRING];
    same(shows, "bier_string, nothing", mvpn_bier_string(1, OF(any), OF(bier), 0, NO_ITEMS, OF(string)).number, MVPN_DONE);
    same(shows, "bier_string, the NLRI", mvpn_bier_string(1, NO_OCTETS, OF(bier), 0, NO_ITEMS, OF(string)).number, MVPN_SHORT);
    same(shows, "bier_string, the attribute", mvpn_bier_string(1, OF(any), NO_OCTETS, 0, NO_ITEMS, OF(string)).number, MVPN_SHORT);
    same(shows, "bier_string, the list", mvpn_bier_string(1, OF(any), OF(bier), 0, NO_OCTETS, OF(string)).number, MVPN_SHORT);
    same(shows, "bier_string, the output", mvpn_bier_string(1, OF(any), OF(bier), 0, NO_ITEMS, NO_OCTETS).number, MVPN_SPACE);
    same(shows, "bier_string, all", mvpn_bier_string(1, NO_OCTETS, NO_OCTETS, 0, NO_OCTETS, NO_OCTETS).number, MVPN_SHORT);
}

static void listings(void)
{
    const char *shows = "null";
    same(shows, "next, the table", mvpn_next(NO_OCTETS, OF(any), OF(output)).number, MVPN_TABLE);
    same(shows, "next, the NLRI", mvpn_next(OF(table), NO_OCTETS, OF(output)).nlri_size, sizeof any);
    same(shows, "next, the output", mvpn_next(OF(table), OF(any), NO_OCTETS).number, MVPN_SPACE);
    same(shows, "next, all", mvpn_next(NO_OCTETS, NO_OCTETS, NO_OCTETS).number, MVPN_TABLE);
    same(shows, "table_info", mvpn_table_info(NO_OCTETS).number, MVPN_TABLE);
}

static void plans(void)
{
    static const uint8_t rd[8] = { 0, 0, 0, 100, 0, 0, 0, 7 };
    const char *shows = "null";
    uint8_t flows[64], places[MVPN_PLACE];
    size_t size = mvpn_list_start(OF(flows), 1);
    size = mvpn_list_flow(OF(flows), size, OF(source), OF(group), OF(bier));
#define JUDGE(prefixes, originator, rd, flows, places) mvpn_judge(1, prefixes, originator, rd, flows, places)
#define PLAN(prefixes, originator, rd, flows, output) mvpn_plan(1, prefixes, originator, rd, flows, output)
#define FLOWS flows, size
    same(shows, "plan, nothing", PLAN(NO_ITEMS, OF(router), OF(rd), FLOWS, OF(places)).routes, 1);
    same(shows, "plan, the prefixes", PLAN(NO_OCTETS, OF(router), OF(rd), FLOWS, OF(places)).number, MVPN_SHORT);
    same(shows, "plan, the originator", PLAN(NO_ITEMS, NO_OCTETS, OF(rd), FLOWS, OF(places)).number, MVPN_FLOW);
    same(shows, "plan, the distinguisher", PLAN(NO_ITEMS, OF(router), NO_OCTETS, FLOWS, OF(places)).number, MVPN_FLOW);
    same(shows, "plan, the flows", PLAN(NO_ITEMS, OF(router), OF(rd), NO_OCTETS, OF(places)).number, MVPN_SHORT);
    same(shows, "plan, the output", PLAN(NO_ITEMS, OF(router), OF(rd), FLOWS, NO_OCTETS).number, MVPN_SPACE);
    same(shows, "plan, no flows and no output", PLAN(NO_ITEMS, OF(router), OF(rd), NO_ITEMS, NO_OCTETS).number, MVPN_DONE);
    same(shows, "plan, all", PLAN(NO_OCTETS, NO_OCTETS, NO_OCTETS, NO_OCTETS, NO_OCTETS).number, MVPN_SHORT);
    same(shows, "judge, nothing", JUDGE(NO_ITEMS, OF(router), OF(rd), FLOWS, OF(places)).accepted, 1);
    same(shows, "judge, the prefixes", JUDGE(NO_OCTETS, OF(router), OF(rd), FLOWS, OF(places)).number, MVPN_SHORT);
    same(shows, "judge, the originator", JUDGE(NO_ITEMS, NO_OCTETS, OF(rd), FLOWS, OF(places)).number, MVPN_FLOW);
    same(shows, "judge, the distinguisher", JUDGE(NO_ITEMS, OF(router), NO_OCTETS, FLOWS, OF(places)).number, MVPN_FLOW);
    same(shows, "judge, the flows", JUDGE(NO_ITEMS, OF(router), OF(rd), NO_OCTETS, OF(places)).number, MVPN_SHORT);
    same(shows, "judge, no places", JUDGE(NO_ITEMS, OF(router), OF(rd), FLOWS, NO_OCTETS).number, MVPN_DONE);
    same(shows, "judge, no places for a flow", JUDGE(NO_ITEMS, OF(router), OF(rd), FLOWS, NO_OCTETS).accepted, 0);
    same(shows, "judge, no places for no flows", JUDGE(NO_ITEMS, OF(router), OF(rd), NO_ITEMS, NO_OCTETS).accepted, 1);
    same(shows, "judge, all", JUDGE(NO_OCTETS, NO_OCTETS, NO_OCTETS, NO_OCTETS, NO_OCTETS).number, MVPN_SHORT);
#undef FLOWS
#undef PLAN
#undef JUDGE
}

static void salvages(void)
{
    static const uint8_t no_places[MVPN_TABLE_SIZE(0)];
    const char *shows = "null";
    uint8_t second[sizeof table], second_of_none[sizeof no_places], dropped[2 * MVPN_DROPPED_PLACE];
    same(shows, "salvage, nothing", mvpn_salvage(1, OF(table), OF(second), OF(dropped)).kept, 1);
    same(shows, "salvage, the memory", mvpn_salvage(1, NO_OCTETS, OF(second), OF(dropped)).number, MVPN_TABLE);
    same(shows, "salvage, the second buffer", mvpn_salvage(1, OF(table), NO_OCTETS, OF(dropped)).number, MVPN_SPACE);
    same(shows, "salvage, the list", mvpn_salvage(1, OF(table), OF(second), NO_OCTETS).number, MVPN_SPACE);
    same(shows, "salvage, the list of no places", mvpn_salvage(1, OF(no_places), OF(second_of_none), NO_OCTETS).number, MVPN_DONE);
    same(shows, "salvage, all", mvpn_salvage(1, NO_OCTETS, NO_OCTETS, NO_OCTETS).number, MVPN_TABLE);
}

/* ---- the helpers of mvpn.h for lists */

static void lists(void)
{
    uint8_t list[4];
    same("null", "list_start", mvpn_list_start(NO_OCTETS, 1), 0);
    same("null", "list_field, the list", mvpn_list_field(NO_OCTETS, 0, OF(router)), 0);
    same("null", "list_field, the field", mvpn_list_field(OF(list), mvpn_list_start(OF(list), 1), NO_OCTETS), sizeof list);
    same("null", "list_prefix, the list", mvpn_list_prefix(NO_OCTETS, 0, OF(router), 8), 0);
    same("null", "list_prefix, the address", mvpn_list_prefix(OF(output), mvpn_list_start(OF(output), 1), NO_OCTETS, 0), 5);
    same("null", "list_flow, the list", mvpn_list_flow(NO_OCTETS, 0, OF(router), OF(router), OF(router)), 0);
    same("null", "list_flow, the fields", mvpn_list_flow(OF(output), mvpn_list_start(OF(output), 1), NO_OCTETS, NO_OCTETS, NO_OCTETS), 8);
}

/* ---- the version: the archive's number, the header's number, the header's text */

static void versions(void)
{
    char text[40];
    uint32_t version = mvpn_version();
    snprintf(text, sizeof text, "%u.%u.%u", (unsigned)(version >> 16), (unsigned)(version >> 8 & 255), (unsigned)(version & 255));
    same("the version", "of the archive", version, MVPN_VERSION_NUMBER);
    same("the version", "is its text", strcmp(text, MVPN_VERSION) == 0, true);
}

int main(void)
{
    codecs();
    runs();
    changes();
    restarts();
    matches();
    shared_trees();
    strings();
    listings();
    plans();
    salvages();
    lists();
    versions();
    return verdict("C nulls");
}
