#include "flows.h"

#include "print.h"
#include "text.h"

#include <stdio.h>
#include <string.h>

void follow(followed_flows *flows, const request *asked)
{
    if (asked->kind == FLOW && flows->count < MOST_FOLLOWED)
        flows->of[flows->count++].flow = asked->flow;
}

static void print_followed(const followed_flow *followed)
{
    printf("\n      flow ");
    print_pair(&followed->flow.source, &followed->flow.group);
    printf(" of router ");
    print_address(followed->flow.router.octets, followed->flow.router.size);
    if (followed->match.tier == MVPN_NO_TIER) {
        printf(": no route");
        return;
    }
    printf(": tier %u, ", (unsigned)followed->match.tier);
    print_tunnel((octets){ followed->route + followed->match.nlri_size, followed->match.attribute_size });
}

/* Where the answer is another one, a router would leave the tunnel and join the new one. */
static void ask_again(customer_vrf *vrf, followed_flow *followed)
{
    uint8_t list[PREFIXES_SPACE];
    followed_flow now = { .flow = followed->flow };
    customer_family *family = family_of(vrf, afi_of(&now.flow.group));
    now.match = explain_flow(&family->tables, list_prefixes(&family->prefixes, list), &now.flow, now.route).matched;
    vrf->flows.asked++;
    if (memcmp(&now.match, &followed->match, sizeof now.match) == 0 && memcmp(now.route, followed->route, sizeof now.route) == 0)
        return;
    vrf->flows.other++;
    *followed = now;
    print_followed(followed);
}

static void ask_or_not(customer_vrf *vrf, followed_flow *followed, bool asks)
{
    if (asks)
        ask_again(vrf, followed);
    else
        vrf->flows.not_asked++;
}

/* The tier of a flow's answer in a table of one place. */
static uint32_t tier_alone(customer_vrf *vrf, octets one, const customer_flow *flow)
{
    uint8_t list[PREFIXES_SPACE], output[MVPN_MATCH_OUTPUT];
    octets prefixes = list_prefixes(&family_of(vrf, afi_of(&flow->group))->prefixes, list);
    return explain_in(one, prefixes, flow, output).matched.tier;
}

void ask_after_install(customer_vrf *vrf, uint16_t afi, octets nlri)
{
    static const uint8_t tunnel[] = { 0, MVPN_TUNNEL_INGRESS_REPLICATION, 0, 0, 0, 0, 0, 0, 0 };
    uint8_t one[MVPN_TABLE_SIZE(1)];
    mvpn_make(afi, one, sizeof one);
    mvpn_install(one, sizeof one, nlri.at, nlri.size, tunnel, sizeof tunnel);
    for (size_t i = 0; i < vrf->flows.count; i++) {
        followed_flow *followed = &vrf->flows.of[i];
        uint32_t tier = followed->match.tier, alone = tier_alone(vrf, (octets){ one, sizeof one }, &followed->flow);
        ask_or_not(vrf, followed, alone != MVPN_NO_TIER && (tier == MVPN_NO_TIER || alone <= tier));
    }
}

/* Routes of two families may have the same NLRI. */
void ask_after_withdrawal(customer_vrf *vrf, uint16_t afi, octets nlri)
{
    for (size_t i = 0; i < vrf->flows.count; i++) {
        followed_flow *followed = &vrf->flows.of[i];
        bool is_answered = followed->match.nlri_size == nlri.size && memcmp(followed->route, nlri.at, nlri.size) == 0;
        ask_or_not(vrf, followed, is_answered && afi_of(&followed->flow.group) == afi);
    }
}

void ask_after_restart(customer_vrf *vrf, uint16_t afi, const mvpn_address *router, size_t gone)
{
    for (size_t i = 0; i < vrf->flows.count; i++) {
        followed_flow *followed = &vrf->flows.of[i];
        bool is_of_router = memcmp(&followed->flow.router, router, sizeof *router) == 0;
        bool has_route = followed->match.tier != MVPN_NO_TIER && afi_of(&followed->flow.group) == afi;
        ask_or_not(vrf, followed, gone > 0 && is_of_router && has_route);
    }
}

void ask_all(customer_vrf *vrf, uint16_t afi)
{
    for (size_t i = 0; i < vrf->flows.count; i++)
        ask_or_not(vrf, &vrf->flows.of[i], afi_of(&vrf->flows.of[i].flow.group) == afi);
}
