#include "answers.h"

#include "print.h"
#include "text.h"

#include <stdio.h>
#include <string.h>

static void print_asked(customer_vrf *vrf, const char *what, const customer_flow *flow)
{
    printf("\n");
    print_flow(what, flow, class_of(&flow->group, &family_of(vrf, afi_of(&flow->group))->prefixes));
}

static void print_refusal(uint32_t number)
{
    printf("  refused, ");
    print_number(number);
    printf("\n");
}

/* ---- flows */

/* Who must get the packets of a flow that goes out by BIER: of each set that has egress routers, its bit string. All Leaf A-D routes of
 * the family are lent; those for other routes do not count. The Leaves were read when they were kept, and there are no more than the
 * library takes, so a refusal says that the route has another tunnel. A router makes these strings when a Leaf A-D route comes or goes,
 * and not for each packet. */
static void print_egress(customer_vrf *vrf, uint16_t afi, mvpn_matched match, const uint8_t *output)
{
    static uint8_t list[LEAVES_SPACE];
    uint8_t string[MVPN_BIER_STRING];
    octets leaves = list_leaves(&family_of(vrf, afi)->leaves, list);
    bool is_first = true;
    for (unsigned set = 0; set <= UINT8_MAX; set++) {
        mvpn_egress egress = mvpn_bier_string(afi, output, match.nlri_size, output + match.nlri_size, match.attribute_size,
                                              (uint8_t)set, leaves.at, leaves.size, string, sizeof string);
        if (egress.number != MVPN_DONE)
            return;
        if (egress.routers > 0) {
            printf("  %-11s set %u, %u router%s: ", is_first ? "egress:" : "", set, (unsigned)egress.routers,
                   egress.routers == 1 ? "" : "s");
            print_bit_string(string);
            printf("\n");
            is_first = false;
        }
    }
    if (is_first)
        printf("  egress:     no router has asked for it\n");
}

static void answer_flow(customer_vrf *vrf, const customer_flow *flow)
{
    uint8_t output[MVPN_MATCH_OUTPUT], list[PREFIXES_SPACE];
    uint16_t afi = afi_of(&flow->group);
    customer_family *family = family_of(vrf, afi);
    mvpn_explained found = explain_flow(&family->tables, list_prefixes(&family->prefixes, list), flow, output);
    print_asked(vrf, "flow", flow);
    if (found.matched.number != MVPN_DONE) {
        print_refusal(found.matched.number);
        return;
    }
    if (found.matched.tier == MVPN_NO_TIER)
        printf("  no route\n");
    else {
        print_match(afi, found.matched, output);
        print_egress(vrf, afi, found.matched, output);
    }
    print_reasons(flow, found.reasons);
}

/* ---- shared trees (RFC 6625, section 3.2.2) */

/* The answer for a tree of which these facts are told. */
static mvpn_matched match_shared(customer_vrf *vrf, const customer_flow *tree, mvpn_tree_facts facts,
                                 uint8_t output[MVPN_MATCH_OUTPUT])
{
    uint8_t prefixes_list[PREFIXES_SPACE], sources_list[SOURCE_ACTIVES_SPACE], states_list[STATES_SPACE];
    customer_family *family = family_of(vrf, afi_of(&tree->group));
    octets table = wildcards_of(&family->tables, &tree->router), prefixes = list_prefixes(&family->prefixes, prefixes_list);
    octets sources = list_source_actives(&family->sources, sources_list), states = list_states(&family->states, states_list);
    return mvpn_match_shared(table.at, table.size, prefixes.at, prefixes.size, tree->router.octets, tree->router.size,
                             tree->group.octets, tree->group.size, facts, sources.at, sources.size, states.at, states.size,
                             output, MVPN_MATCH_OUTPUT);
}

/* Whether the tree would have a route if no more than this were told. */
static bool has_route(customer_vrf *vrf, const customer_flow *tree, mvpn_tree_facts facts)
{
    uint8_t output[MVPN_MATCH_OUTPUT];
    return match_shared(vrf, tree, facts, output).tier != MVPN_NO_TIER;
}

/* The conditions that hold, of a tree that has a route. Three of them are told; the library says that the other one holds by
 * the route that it gives where none of the three is told. */
static void print_conditions(customer_vrf *vrf, const request *asked)
{
    if (asked->facts.upstream)
        printf("  condition:  the router is the upstream PE for the C-RP\n");
    if (has_route(vrf, &asked->flow, (mvpn_tree_facts){ 0, 0, 0 }))
        printf("  condition:  the router has originated a Source Active route for which there is no state\n");
    if (asked->facts.bidirectional)
        printf("  condition:  the group is a BIDIR-PIM group\n");
    if (asked->facts.source_active_unused)
        printf("  condition:  Source Active routes are not being used\n");
}

static void answer_shared_tree(customer_vrf *vrf, const request *asked)
{
    uint8_t output[MVPN_MATCH_OUTPUT];
    const customer_flow *tree = &asked->flow;
    mvpn_matched match = match_shared(vrf, tree, asked->facts, output);
    print_asked(vrf, "shared tree", tree);
    if (match.number != MVPN_DONE)
        print_refusal(match.number);
    else if (match.tier == MVPN_NO_TIER)
        printf("  no route%s\n", has_route(vrf, tree, (mvpn_tree_facts){ 1, 0, 0 }) ? ", as no condition holds" : "");
    else {
        print_conditions(vrf, asked);
        print_match(afi_of(&tree->group), match, output);
    }
}

/* ---- requests */

static void take_state(customer_vrf *vrf, const customer_flow *told)
{
    printf("\nstate ");
    print_pair(&told->source, &told->group);
    if (hold_state(&family_of(vrf, afi_of(&told->group))->states, &told->source, &told->group))
        printf(": held\n");
    else
        printf(": not held, there are %d\n", MVPN_MOST_ITEMS);
}

void answer(customer_vrf *vrf, const request *asked)
{
    switch (asked->kind) {
    case FLOW:
        answer_flow(vrf, &asked->flow);
        break;
    case SHARED_TREE:
        answer_shared_tree(vrf, asked);
        break;
    case STATE:
        take_state(vrf, &asked->flow);
        break;
    }
}

/* ---- the routes */

static void print_held(uint16_t afi, const uint8_t *route, mvpn_following told)
{
    printf("  ");
    print_nlri(afi, (octets){ route, told.nlri_size });
    printf("%s\n    ", told.stale ? ": stale, not announced again since the session was lost" : "");
    print_attribute((octets){ route + told.nlri_size, told.attribute_size });
    printf("\n");
}

/* The loop of mvpn.h that lists a table, over all tables. It goes from NLRI to NLRI, so that a daemon may do it in parts, between its
 * messages. */
void print_routes(customer_vrf *vrf, uint16_t afi)
{
    uint8_t nlri[MVPN_MATCH_OUTPUT], route[MVPN_MATCH_OUTPUT];
    const route_tables *tables = &family_of(vrf, afi)->tables;
    tables_facts facts = facts_of(tables);
    mvpn_following next;
    size_t size = 0;
    printf("\n%s tables: routes %zu, tables %zu, places %zu\n", family_name(afi), facts.routes, facts.tables, facts.places);
    while ((next = next_route(tables, (octets){ nlri, size }, route)).nlri_size > 0) {
        print_held(afi, route, next);
        size = next.nlri_size;
        memcpy(nlri, route, size);
    }
}
