/*
 * Matches, explanations, matches for shared trees and listings at once, from several threads, on one table that no call can write,
 * salvages of one that is damaged, and bit strings of one list of Leaves: their memory is mapped for reading alone, as is everything else that the calls read. Each answer
 * is the one that a thread alone gets. A call that wrote any of it would end the program.
 */
#define _DEFAULT_SOURCE
#include "checks.h"

#include <pthread.h>
#include <stdbool.h>
#include <sys/mman.h>

enum { THREADS = 8, TIMES = 200, PLACES = 200, FLOWS = 14, GROUPS = 10, LEAVES = 60, SETS = 4 };

/* ---- memory that is only read */

typedef struct {
    uint8_t table[MVPN_TABLE_SIZE(PLACES)], damaged[MVPN_TABLE_SIZE(PLACES)];
    uint8_t router[4], sources[FLOWS][4], groups[FLOWS][4];
    uint8_t active[20], actives[64], states[64], prefixes[64];
    size_t actives_size, states_size, prefixes_size;
    uint8_t route[24], tunnel[12], leaves[LEAVES * 64];
    size_t leaves_size;
} read_only;

static read_only *shared;

/* A type 3 NLRI with this number in its route distinguisher, for a flow, or for any source or group. */
static size_t put_nlri(uint8_t *nlri, uint8_t number, const uint8_t *source, const uint8_t *group)
{
    size_t size = 10;
    memset(nlri, 0, size);
    nlri[0] = MVPN_S_PMSI;
    nlri[9] = number;
    const uint8_t *addresses[] = { source, group };
    for (size_t i = 0; i < ROWS(addresses); i++) {
        nlri[size++] = addresses[i] ? 32 : 0;
        if (addresses[i]) {
            memcpy(nlri + size, addresses[i], 4);
            size += 4;
        }
    }
    memcpy(nlri + size, shared->router, 4);
    size += 4;
    nlri[1] = (uint8_t)(size - MVPN_NLRI_HEADER);
    return size;
}

/* Routes of every tier, several of each; half of the groups are SSM. */
static void fill_table(void)
{
    static const uint8_t attribute[] = { 0, MVPN_TUNNEL_INGRESS_REPLICATION, 0, 0, 16, 10, 0, 0, 1 };
    uint8_t nlri[MVPN_LONGEST_NLRI];
    mvpn_make(MVPN_AFI_IPV4, shared->table, sizeof shared->table);
    for (uint8_t i = 0; i < FLOWS; i++) {
        memcpy(shared->sources[i], (uint8_t[]){ 192, 0, 2, i }, 4);
        memcpy(shared->groups[i], (uint8_t[]){ i % 2 ? 232 : 239, 1, 1, i % GROUPS }, 4);
    }
    for (uint8_t i = 0; i < PLACES / 4; i++) {
        const uint8_t *source = i % 3 ? shared->sources[i % GROUPS] : NULL, *group = i % 5 ? shared->groups[i % GROUPS] : NULL;
        size_t size = put_nlri(nlri, i, source, group);
        same("filling", "number", mvpn_install(shared->table, sizeof shared->table, nlri, size, attribute, sizeof attribute).number,
             MVPN_DONE);
    }
}

/* The table with a place repeated, one bad, two exchanged and a count of 0. */
static void damage(void)
{
    uint8_t *places = shared->damaged + MVPN_TABLE_HEADER;
    memcpy(shared->damaged, shared->table, sizeof shared->damaged);
    memcpy(places + MVPN_PLACE * 3, places, MVPN_PLACE);
    memcpy(places, places + MVPN_PLACE * 7, MVPN_PLACE);
    memcpy(places + MVPN_PLACE * 7, shared->table + MVPN_TABLE_HEADER, MVPN_PLACE);
    places[MVPN_PLACE * 5 - 1] = 2;
    shared->damaged[7] = 0;
}

static void fill_lists(void)
{
    uint8_t active[] = { 5, 18, 0, 0, 0, 0, 0, 0, 0, 7, 32, 192, 0, 2, 1, 32, 239, 1, 1, 2 };
    memcpy(shared->active, active, sizeof active);
    size_t size = mvpn_list_start(shared->actives, sizeof shared->actives, 1);
    size = mvpn_list_field(shared->actives, sizeof shared->actives, size, shared->router, sizeof shared->router);
    shared->actives_size = mvpn_list_field(shared->actives, sizeof shared->actives, size, shared->active, sizeof shared->active);
    uint8_t in_239[] = { 8, 239, 0, 0, 0 };
    size = mvpn_list_start(shared->prefixes, sizeof shared->prefixes, 1);
    shared->prefixes_size = mvpn_list_field(shared->prefixes, sizeof shared->prefixes, size, in_239, sizeof in_239);
    size = mvpn_list_start(shared->states, sizeof shared->states, 1);
    size = mvpn_list_field(shared->states, sizeof shared->states, size, shared->sources[3], 4);
    shared->states_size = mvpn_list_field(shared->states, sizeof shared->states, size, shared->groups[3], 4);
}

/* Leaves of a BIER route, BFR-ids 13, 26 and so on, of which some are of each set. */
static void fill_leaves(void)
{
    uint8_t leaf[2 + sizeof shared->route + 4] = { MVPN_LEAF, sizeof shared->route + 4 };
    uint8_t tunnel[] = { 0, MVPN_TUNNEL_BIER, 0, 0, 16, 0, 0, 0, 10, 0, 0, 2 };
    put_nlri(shared->route, 7, shared->sources[1], shared->groups[1]);
    memcpy(shared->tunnel, tunnel, sizeof tunnel);
    memcpy(leaf + 2, shared->route, sizeof shared->route);
    size_t size = mvpn_list_start(shared->leaves, sizeof shared->leaves, LEAVES);
    for (unsigned i = 1; i <= LEAVES; i++) {
        tunnel[6] = (uint8_t)(13 * i >> 8);
        tunnel[7] = (uint8_t)(13 * i);
        size = mvpn_list_field(shared->leaves, sizeof shared->leaves, size, leaf, sizeof leaf);
        size = mvpn_list_field(shared->leaves, sizeof shared->leaves, size, tunnel, sizeof tunnel);
    }
    shared->leaves_size = size;
}

static void fill(void)
{
    shared = mmap(NULL, sizeof *shared, PROT_READ | PROT_WRITE, MAP_PRIVATE | MAP_ANONYMOUS, -1, 0);
    if (shared == MAP_FAILED) {
        fprintf(stderr, "no memory\n");
        exit(2);
    }
    memcpy(shared->router, (uint8_t[]){ 10, 0, 0, 1 }, 4);
    fill_table();
    damage();
    fill_lists();
    fill_leaves();
    same("the memory", "is only read from now on", mprotect(shared, sizeof *shared, PROT_READ), 0);
}

/* ---- what a thread gets, all its answers and outputs: of each flow with no prefixes, then of each by prefixes */

enum { ASKED = 2 * FLOWS };

typedef struct {
    mvpn_explained explained[ASKED];
    mvpn_matched matched[ASKED], of_tree[ASKED];
    uint8_t outputs[3][ASKED][MVPN_MATCH_OUTPUT];
    mvpn_table_facts info;
    uint8_t listed[PLACES][MVPN_MATCH_OUTPUT];
    size_t listed_count;
    mvpn_salvaged salvaged;
    uint8_t salvaged_table[MVPN_TABLE_SIZE(PLACES)], dropped[MVPN_DROPPED_PLACE * PLACES];
    mvpn_egress egress[SETS];
    uint8_t strings[SETS][MVPN_BIER_STRING];
} answers;

/* The flow of number i, or of i - FLOWS. */
static void ask_flow(answers *got, size_t i, const uint8_t *prefixes, size_t prefixes_len)
{
    got->matched[i] = mvpn_match(shared->table, sizeof shared->table, prefixes, prefixes_len, shared->router, 4,
                                 shared->sources[i % FLOWS], 4, shared->groups[i % FLOWS], 4, got->outputs[0][i],
                                 MVPN_MATCH_OUTPUT);
    got->explained[i] = mvpn_explain(shared->table, sizeof shared->table, prefixes, prefixes_len, shared->router, 4,
                                     shared->sources[i % FLOWS], 4, shared->groups[i % FLOWS], 4, got->outputs[1][i],
                                     MVPN_MATCH_OUTPUT);
    got->of_tree[i] = mvpn_match_shared(shared->table, sizeof shared->table, prefixes, prefixes_len, shared->router, 4,
                                        shared->groups[i % FLOWS], 4, (mvpn_tree_facts){ 0, 0, 0 }, shared->actives,
                                        shared->actives_size, shared->states, shared->states_size, got->outputs[2][i],
                                        MVPN_MATCH_OUTPUT);
}

/* The NLRI that is asked about next lies in the answer before. */
static void list(answers *got)
{
    const uint8_t *nlri = NULL;
    mvpn_following next = { 0, 0, 0, 0 };
    got->listed_count = 0;
    while (got->listed_count < PLACES &&
           (next = mvpn_next(shared->table, sizeof shared->table, nlri, next.nlri_size, got->listed[got->listed_count],
                             MVPN_MATCH_OUTPUT)).nlri_size > 0)
        nlri = got->listed[got->listed_count++];
}

static void ask(answers *got)
{
    memset(got, 0, sizeof *got);
    for (size_t i = 0; i < FLOWS; i++) {
        ask_flow(got, i, mvpn_no_items, sizeof mvpn_no_items);
        ask_flow(got, FLOWS + i, shared->prefixes, shared->prefixes_size);
    }
    list(got);
    got->info = mvpn_table_info(shared->table, sizeof shared->table);
    got->salvaged = mvpn_salvage(MVPN_AFI_IPV4, shared->damaged, sizeof shared->damaged, got->salvaged_table,
                                 sizeof got->salvaged_table, got->dropped, sizeof got->dropped);
    for (uint8_t i = 0; i < SETS; i++)
        got->egress[i] = mvpn_bier_string(MVPN_AFI_IPV4, shared->route, sizeof shared->route, shared->tunnel, sizeof shared->tunnel, i,
                                          shared->leaves, shared->leaves_size, got->strings[i], MVPN_BIER_STRING);
}

/* ---- threads */

static answers alone, of_thread[THREADS];
static unsigned others[THREADS]; /* answers unlike those of a thread alone */

static void *run(void *number)
{
    size_t at = (size_t)(uintptr_t)number;
    for (unsigned i = 0; i < TIMES; i++) {
        ask(&of_thread[at]);
        others[at] += memcmp(&of_thread[at], &alone, sizeof alone) != 0;
    }
    return NULL;
}

static void at_once(void)
{
    pthread_t threads[THREADS];
    for (size_t i = 0; i < THREADS; i++)
        if (pthread_create(&threads[i], NULL, run, (void *)(uintptr_t)i) != 0) {
            fprintf(stderr, "no thread\n");
            exit(2);
        }
    for (size_t i = 0; i < THREADS; i++) {
        same("a thread", "ended", pthread_join(threads[i], NULL), 0);
        same("a thread", "other answers", others[i], 0);
    }
}

/* The answers are of every kind, so that something is compared. */
static void kinds_are_met(void)
{
    bool met[5] = { false }, tree_met[5] = { false };
    unsigned turned = 0, trees_turned = 0;
    for (size_t i = 0; i < ASKED; i++) {
        same("a flow", "number", alone.matched[i].number, MVPN_DONE);
        same("a shared tree", "number", alone.of_tree[i].number, MVPN_DONE);
        met[alone.matched[i].tier] = tree_met[alone.of_tree[i].tier] = true;
        turned += alone.matched[i].tier != alone.matched[i % FLOWS].tier;
        trees_turned += alone.of_tree[i].tier != alone.of_tree[i % FLOWS].tier;
    }
    same("the flows", "one takes another tier by the prefixes", turned > 0, true);
    same("the shared trees", "one takes another tier by the prefixes", trees_turned > 0, true);
    for (size_t tier = 1; tier <= 4; tier++)
        same("the flows", "a tier that is met", met[tier], true);
    same("the shared trees", "one has a route", tree_met[3] || tree_met[4], true);
    same("the shared trees", "one has none", tree_met[0], true);
    same("the listing", "routes", alone.listed_count, PLACES / 4);
    same("the table", "routes", alone.info.routes, PLACES / 4);
    same("the salvage", "kept", alone.salvaged.kept, PLACES / 4 - 2);
    same("the salvage", "dropped", alone.salvaged.dropped, 2);
    /* 13 to 247, 260 to 507, 520 to 767, and 780 */
    same("the strings", "of set 0", alone.egress[0].routers, 19);
    same("the strings", "of set 1", alone.egress[1].routers, 20);
    same("the strings", "of set 2", alone.egress[2].routers, 20);
    same("the strings", "of set 3", alone.egress[3].routers, 1);
    same("the strings", "780 is position 12 of set 3", alone.strings[3][30], 8);
    same_octets("the salvage", "the list", alone.dropped, (uint8_t[]){ 0, 4, MVPN_BAD_PLACE, 0, 7, MVPN_REPEATED_NLRI }, 6);
}

int main(void)
{
    fill();
    ask(&alone);
    kinds_are_met();
    at_once();
    return verdict("C threads");
}
