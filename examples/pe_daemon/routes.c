#include "routes.h"

#include "flows.h"
#include "print.h"

#include <stdio.h>

/* ---- what is held of a route: by its type, the changes that count it, and where it stands */

bool is_used(uint8_t route_type)
{
    return route_type == MVPN_S_PMSI || route_type == MVPN_SOURCE_ACTIVE || route_type == MVPN_LEAF;
}

static changes *changes_of(customer_vrf *vrf, octets nlri)
{
    return nlri.at[0] == MVPN_S_PMSI ? &vrf->routes : nlri.at[0] == MVPN_LEAF ? &vrf->leaves : &vrf->sources;
}

static bool take_away(customer_family *family, octets nlri)
{
    if (nlri.at[0] == MVPN_S_PMSI)
        return withdraw_route(&family->tables, nlri) == MVPN_DONE;
    return forget_beside(nlri.at[0] == MVPN_LEAF ? &family->leaves : &family->sources, nlri);
}

/* A route of a table that went may have been the answer of a flow. */
static void ask_if_gone(customer_vrf *vrf, uint16_t afi, octets nlri, bool is_gone)
{
    if (is_gone && nlri.at[0] == MVPN_S_PMSI)
        ask_after_withdrawal(vrf, afi, nlri);
}

void withdraw_nlri(customer_vrf *vrf, uint16_t afi, octets nlri)
{
    changes *made = changes_of(vrf, nlri);
    bool is_gone = take_away(family_of(vrf, afi), nlri);
    *(is_gone ? &made->withdrawn : &made->absent) += 1;
    printf("%s", is_gone ? "withdrawn" : "not withdrawn, it was not held");
    ask_if_gone(vrf, afi, nlri, is_gone);
}

void treat_as_withdrawn(customer_vrf *vrf, uint16_t afi, octets nlri)
{
    changes *made = changes_of(vrf, nlri);
    bool is_gone = take_away(family_of(vrf, afi), nlri);
    made->refused++;
    made->withdrawn += is_gone;
    printf("%s, %s", error_action_name(TREAT_AS_WITHDRAW), is_gone ? "it was held and is withdrawn" : "it was not held");
    print_refused("NLRI", nlri);
    ask_if_gone(vrf, afi, nlri, is_gone);
}

/* A route that did not fit, of which nothing is held: nothing is wrong with it, and a flow may miss it. */
static void has_no_room(customer_vrf *vrf, octets nlri)
{
    changes_of(vrf, nlri)->refused++;
    vrf->no_room++;
    print_refused("NLRI", nlri);
}

static void count_kept(changes *made, bool is_new)
{
    *(is_new ? &made->added : &made->replaced) += 1;
}

/* ---- S-PMSI A-D routes */

/* A route of tunnel type 0 asks for tracking: the table holds it, and no match takes it (RFC 8556, section 4.1). */
static bool names_no_tunnel(octets attribute)
{
    return mvpn_attribute_read(attribute.at, attribute.size).tunnel_type == MVPN_TUNNEL_NONE;
}

static void refuse_install(customer_vrf *vrf, uint16_t afi, octets nlri, uint32_t number)
{
    printf("not installed, ");
    print_number(number);
    if (number == MVPN_ROOM)
        has_no_room(vrf, nlri);
    else {
        printf("; ");
        treat_as_withdrawn(vrf, afi, nlri);
    }
}

static void install(customer_vrf *vrf, uint16_t afi, octets nlri, octets tunnel)
{
    if (!tunnel.at) {
        printf("not installed, no PMSI Tunnel attribute; ");
        treat_as_withdrawn(vrf, afi, nlri);
        return;
    }
    mvpn_installed installed = install_route(&family_of(vrf, afi)->tables, nlri, tunnel);
    if (installed.number != MVPN_DONE) {
        refuse_install(vrf, afi, nlri, installed.number);
        return;
    }
    bool is_new = installed.outcome == MVPN_NEW;
    count_kept(&vrf->routes, is_new);
    printf("installed, %s", is_new ? "new" : "replaces the attribute it had");
    if (names_no_tunnel(tunnel))
        printf("; it names no tunnel, so no match takes it");
    ask_after_install(vrf, afi, nlri);
}

/* ---- routes that are kept beside the tables */

/* Keeps a route with what the library is told of it. Whether there was room. */
static bool keep(customer_vrf *vrf, kept_routes *routes, octets nlri, octets with)
{
    keeping kept = keep_beside(routes, nlri, with);
    if (kept == NOT_KEPT) {
        printf("not kept, there are %zu", routes->most);
        has_no_room(vrf, nlri);
        return false;
    }
    count_kept(changes_of(vrf, nlri), kept == KEPT_NEW);
    printf("kept, %s, ", kept == KEPT_NEW ? "new" : "replaced");
    return true;
}

/* A Source Active NLRI has no originator field. The PE that originates the route puts the address into its next hop by which
 * its VRF is known (RFC 6514, section 13.1), and the same address into the originator field of its S-PMSI A-D routes (section
 * 12.1); route reflectors leave it. So it is the next hop that we take. A router whose ASBRs put themselves there needs
 * another way. */
static void keep_source(customer_vrf *vrf, const route_run *routes, octets nlri)
{
    octets originator = routes->next_hop;
    if (originator.size != 4 && originator.size != 16) {
        printf("not kept, a next hop of %zu octets; ", originator.size);
        treat_as_withdrawn(vrf, routes->afi, nlri);
    } else if (keep(vrf, &family_of(vrf, routes->afi)->sources, nlri, originator)) {
        printf("originator ");
        print_address(originator.at, originator.size);
    }
}

/* An egress router sends one for the route that is its key (RFC 8556, section 3). What is lent to the library must be good in every Leaf,
 * so one without an attribute is not kept. */
static void keep_leaf(customer_vrf *vrf, uint16_t afi, octets nlri, octets tunnel)
{
    if (!tunnel.at) {
        printf("not kept, no PMSI Tunnel attribute; ");
        treat_as_withdrawn(vrf, afi, nlri);
    } else if (keep(vrf, &family_of(vrf, afi)->leaves, nlri, tunnel))
        print_attribute(tunnel);
}

void announce_nlri(customer_vrf *vrf, const route_run *routes, octets nlri, octets tunnel)
{
    if (nlri.at[0] == MVPN_S_PMSI)
        install(vrf, routes->afi, nlri, tunnel);
    else if (nlri.at[0] == MVPN_LEAF)
        keep_leaf(vrf, routes->afi, nlri, tunnel);
    else
        keep_source(vrf, routes, nlri);
}
