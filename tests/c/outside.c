/*
 * A program of somebody else's, who has what `make install` has put there and no more: it makes every call of mvpn.h, and uses each
 * of its functions. It prints nothing where all answers are as expected.
 */
#include <mvpn.h>

#include <stdio.h>
#include <string.h>

static int failures;

static void expect(const char *what, int holds)
{
    if (!holds) {
        printf("outside: %s: another answer than expected\n", what);
        failures++;
    }
}

#define OF(octets) octets, sizeof octets

/* S-PMSI A-D (C-*,C-*), route distinguisher 100:7, originator 10.0.0.1; then an Intra-AS I-PMSI A-D route of the same */
static const uint8_t run[] = { 3, 14, 0, 0, 0, 100, 0, 0, 0, 7, 0, 0, 10, 0, 0, 1, 1, 12, 0, 0, 0, 100, 0, 0, 0, 7, 10, 0, 0, 1 };
enum { ANY_SIZE = 16, INTRA_SIZE = 14 };

/* Source Active A-D, route distinguisher 100:7, source 192.0.2.1, group 239.1.1.1 */
static const uint8_t active[] = { 5, 18, 0, 0, 0, 100, 0, 0, 0, 7, 32, 192, 0, 2, 1, 32, 239, 1, 1, 1 };

/* no flags, ingress replication, label 1, end point 10.0.0.1 */
static const uint8_t attribute[] = { 0, 6, 0, 0, 16, 10, 0, 0, 1 };

static const uint8_t router[] = { 10, 0, 0, 1 }, source[] = { 192, 0, 2, 1 }, group[] = { 239, 1, 1, 1 };

static uint8_t table[MVPN_TABLE_SIZE(3)];

static void codecs(void)
{
    uint8_t output[MVPN_LONGEST_NLRI];
    mvpn_nlri_reading reading = mvpn_nlri_read(MVPN_AFI_IPV4, run, ANY_SIZE);
    expect("nlri_read", reading.number == MVPN_DONE && reading.nlri.originator.size == 4);
    mvpn_written written = mvpn_nlri_write(MVPN_AFI_IPV4, reading.nlri, NULL, 0, NULL, 0, OF(output));
    expect("nlri_write", written.size == ANY_SIZE && memcmp(output, run, ANY_SIZE) == 0);
    mvpn_attribute_reading tunnel = mvpn_attribute_read(OF(attribute));
    expect("attribute_read", tunnel.number == MVPN_DONE && tunnel.tunnel_type == MVPN_TUNNEL_INGRESS_REPLICATION);
    written = mvpn_attribute_write((uint8_t)tunnel.flags, (uint8_t)tunnel.tunnel_type, tunnel.label_field,
                                   attribute + tunnel.identifier.start, tunnel.identifier.size, OF(output));
    expect("attribute_write", written.size == sizeof attribute && memcmp(output, attribute, sizeof attribute) == 0);
    expect("group_class", mvpn_group_class(MVPN_AFI_IPV4, OF(mvpn_no_items), OF(group)).group_class == MVPN_ASM);
}

static void runs(void)
{
    uint8_t unfinished[MVPN_UNFINISHED];
    mvpn_stepped step = mvpn_step(MVPN_AFI_IPV4, OF(run), ANY_SIZE);
    expect("step", step.layout.route_type == MVPN_INTRA_AS_I_PMSI && step.cursor == sizeof run);
    expect("walk", mvpn_walk(MVPN_AFI_IPV4, MVPN_SKIP, OF(run)).count == 2);
    mvpn_pieces pieces = mvpn_pieces_start(MVPN_AFI_IPV4, MVPN_SKIP);
    mvpn_fed fed = mvpn_pieces_feed(pieces, unfinished, OF(run));
    expect("pieces_feed, the first", fed.size == ANY_SIZE && fed.taken == ANY_SIZE);
    fed = mvpn_pieces_feed(fed.pieces, unfinished, run + ANY_SIZE, INTRA_SIZE);
    expect("pieces_feed, the second", fed.size == INTRA_SIZE);
    expect("pieces_finish", mvpn_pieces_finish(fed.pieces).walked.count == 2);
}

static void changes(void)
{
    expect("make", mvpn_make(MVPN_AFI_IPV4, OF(table)) == MVPN_DONE);
    expect("install", mvpn_install(OF(table), run, ANY_SIZE, OF(attribute)).outcome == MVPN_NEW);
    mvpn_table_facts info = mvpn_table_info(OF(table));
    expect("table_info", info.afi == MVPN_AFI_IPV4 && info.places == 3 && info.routes == 1);
}

static void questions(void)
{
    uint8_t output[MVPN_MATCH_OUTPUT], actives[64], states[64];
    mvpn_matched match = mvpn_match(OF(table), OF(mvpn_no_items), OF(router), OF(source), OF(group), OF(output));
    expect("match", match.tier == MVPN_ANY_SOURCE_ANY_GROUP && match.nlri_size == ANY_SIZE);
    mvpn_explained why = mvpn_explain(OF(table), OF(mvpn_no_items), OF(router), OF(source), OF(group), OF(output));
    expect("explain", why.matched.tier == match.tier && why.reasons[3] == MVPN_TAKEN && why.reasons[1] == MVPN_WRONG_GROUP_CLASS);

    size_t size = mvpn_list_start(OF(actives), 1);
    size = mvpn_list_field(OF(actives), size, OF(router));
    size = mvpn_list_field(OF(actives), size, OF(active));
    match = mvpn_match_shared(OF(table), OF(mvpn_no_items), OF(router), OF(group), (mvpn_tree_facts){ 0, 0, 0 }, actives, size,
                              OF(mvpn_no_items), OF(output));
    expect("match_shared, no state", match.tier == MVPN_ANY_SOURCE_ANY_GROUP);
    size_t held = mvpn_list_start(OF(states), 1);
    held = mvpn_list_field(OF(states), held, OF(source));
    held = mvpn_list_field(OF(states), held, OF(group));
    match = mvpn_match_shared(OF(table), OF(mvpn_no_items), OF(router), OF(group), (mvpn_tree_facts){ 0, 0, 0 }, actives, size,
                              states, held, OF(output));
    expect("match_shared, a state", match.number == MVPN_DONE && match.tier == MVPN_NO_TIER);

    expect("next, the first", mvpn_next(OF(table), NULL, 0, OF(output)).nlri_size == ANY_SIZE);
    expect("next, none", mvpn_next(OF(table), run, ANY_SIZE, OF(output)).nlri_size == 0);
}

/* One router has sent a Leaf A-D route for a BIER route, BFR-id 257: of set 1, and of no other. */
static void strings(void)
{
    static const uint8_t bier[] = { 1, 11, 0, 0, 16, 0, 0, 1, 10, 0, 0, 1 }, of_leaf[] = { 0, 11, 0, 0, 0, 0, 1, 1, 10, 0, 0, 2 };
    uint8_t leaf[ANY_SIZE + 6] = { 4, ANY_SIZE + 4 }, leaves[64], string[MVPN_BIER_STRING];
    memcpy(leaf + 2, run, ANY_SIZE);
    memcpy(leaf + 2 + ANY_SIZE, (uint8_t[]){ 10, 0, 0, 2 }, 4);
    size_t size = mvpn_list_start(OF(leaves), 1);
    size = mvpn_list_field(OF(leaves), size, OF(leaf));
    size = mvpn_list_field(OF(leaves), size, OF(of_leaf));
    mvpn_egress egress = mvpn_bier_string(MVPN_AFI_IPV4, run, ANY_SIZE, OF(bier), 1, leaves, size, OF(string));
    expect("bier_string", egress.number == MVPN_DONE && egress.routers == 1 && string[MVPN_BIER_STRING - 1] == 1);
    egress = mvpn_bier_string(MVPN_AFI_IPV4, run, ANY_SIZE, OF(bier), 0, leaves, size, OF(string));
    expect("bier_string, another set", egress.number == MVPN_DONE && egress.routers == 0 && string[MVPN_BIER_STRING - 1] == 0);
}

/* Prefixes of which one holds the group. */
static void ranges(void)
{
    static const uint8_t inside[] = { 239, 1, 0, 0 }, outside[] = { 232, 0, 0, 0 };
    uint8_t prefixes[MVPN_LONGEST_PREFIXES];
    size_t size = mvpn_list_start(OF(prefixes), 2);
    size = mvpn_list_prefix(OF(prefixes), size, OF(outside), 8);
    size = mvpn_list_prefix(OF(prefixes), size, OF(inside), 16);
    expect("group_class, by prefixes", mvpn_group_class(MVPN_AFI_IPV4, prefixes, size, OF(group)).group_class == MVPN_SSM);
}

/* Two flows that want two tunnels: what is proposed is accepted, and without its last place it is not. */
static void plan(void)
{
    static const uint8_t rd[8] = { 0, 0, 0, 100, 0, 0, 0, 7 }, other[] = { 239, 1, 1, 2 };
    static const uint8_t tunnel[] = { 0, 6, 0, 0, 32, 10, 0, 0, 1 };
    uint8_t flows[64], places[2 * MVPN_PLACE];
    size_t size = mvpn_list_start(OF(flows), 2);
    size = mvpn_list_flow(OF(flows), size, OF(source), OF(group), OF(attribute));
    size = mvpn_list_flow(OF(flows), size, OF(source), OF(other), OF(tunnel));
    mvpn_planned planned =
        mvpn_plan(MVPN_AFI_IPV4, OF(mvpn_no_items), OF(router), OF(rd), flows, size, OF(places));
    expect("plan", planned.number == MVPN_DONE && planned.routes == 2);
    expect("judge, accepted",
           mvpn_judge(MVPN_AFI_IPV4, OF(mvpn_no_items), OF(router), OF(rd), flows, size, OF(places)).accepted == 1);
    expect("judge, not accepted",
           mvpn_judge(MVPN_AFI_IPV4, OF(mvpn_no_items), OF(router), OF(rd), flows, size, places, MVPN_PLACE).accepted == 0);
}

/* The router restarts, and its route comes back. */
static void restart(void)
{
    uint8_t output[MVPN_MATCH_OUTPUT];
    mvpn_restarted marked = mvpn_mark(OF(table), OF(router));
    expect("mark", marked.number == MVPN_DONE && marked.gone == 0);
    expect("next, stale", mvpn_next(OF(table), NULL, 0, OF(output)).stale == 1);
    expect("install again", mvpn_install(OF(table), run, ANY_SIZE, OF(attribute)).outcome == MVPN_REPLACED);
    expect("next, not stale", mvpn_next(OF(table), NULL, 0, OF(output)).stale == 0);
    expect("sweep", mvpn_sweep(OF(table), OF(router)).gone == 0);
}

/* A table whose count was lost, and whose last place is not zero. */
static void salvage(void)
{
    uint8_t damaged[sizeof table], dropped[3 * MVPN_DROPPED_PLACE];
    memcpy(damaged, table, sizeof damaged);
    damaged[7] = 0;
    damaged[sizeof damaged - 1] = 1;
    expect("table_info, damaged", mvpn_table_info(OF(damaged)).number == MVPN_TABLE);
    mvpn_salvaged salvaged = mvpn_salvage(MVPN_AFI_IPV4, OF(damaged), OF(table), OF(dropped));
    expect("salvage", salvaged.number == MVPN_DONE && salvaged.kept == 1 && salvaged.dropped == 1);
    expect("salvage, the list", dropped[0] == 0 && dropped[1] == 2 && dropped[2] == MVPN_BAD_PLACE);
    expect("table_info, salvaged", mvpn_table_info(OF(table)).routes == 1);
}

/* The words for what the calls above answer. */
static void words(void)
{
    expect("number_name", strcmp(mvpn_number_name(MVPN_ABSENT), "ABSENT") == 0);
    expect("number_text", strcmp(mvpn_number_text(MVPN_ABSENT), "the withdrawn NLRI is not in the table") == 0);
    expect("tier_name", strcmp(mvpn_tier_name(MVPN_ANY_SOURCE_ANY_GROUP), "(C-*,C-*)") == 0);
    expect("reason_name", strcmp(mvpn_reason_name(MVPN_WRONG_GROUP_CLASS), "wrong group class") == 0);
    expect("route_type_name", strcmp(mvpn_route_type_name(MVPN_S_PMSI), "S-PMSI A-D") == 0);
    expect("tunnel_type_name", strcmp(mvpn_tunnel_type_name(MVPN_TUNNEL_BIER), "BIER") == 0);
}

/* The flow's routes stand in one of ten small tables, always the same. */
static void shard(void)
{
    size_t of_ten = mvpn_shard(OF(router), OF(source), OF(group), 10);
    expect("shard", of_ten < 10 && of_ten == mvpn_shard(OF(router), OF(source), OF(group), 10));
    expect("shard, one table", mvpn_shard(OF(router), OF(source), OF(group), 1) == 0);
}

int main(void)
{
    expect("version", mvpn_version() == MVPN_VERSION_NUMBER);
    codecs();
    runs();
    changes();
    questions();
    strings();
    ranges();
    plan();
    restart();
    salvage();
    words();
    shard();
    expect("withdraw", mvpn_withdraw(OF(table), run, ANY_SIZE) == MVPN_DONE);
    expect("withdraw again", mvpn_withdraw(OF(table), run, ANY_SIZE) == MVPN_ABSENT);
    return failures != 0;
}
