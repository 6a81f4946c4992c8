#include "restart.h"

#include "flows.h"
#include "print.h"
#include "update.h"

#include <stdio.h>

/* What happens to the routes of a family: they are stale from now on, and what was stale goes; what is stale goes; all go. */
typedef enum { LOSES_SESSION, ENDS_RIB, GOES } family_event;

static void print_restarted(family_event event, size_t gone)
{
    if (gone > 0)
        printf("%zu went", gone);
    if (event == LOSES_SESSION)
        printf("%s", gone > 0 ? ", stale since the session was lost before; any others are stale from now on" : "stale from now on");
    if (event == ENDS_RIB)
        printf(", not announced again");
}

/* Marks the routes of an originator, once, where the session was lost; sweeps what is still marked where its routes have come. A second
 * mark takes what the first has marked, which is all. How many went. */
static size_t restart_routes(route_tables *tables, route_originator *originator, family_event event)
{
    size_t gone = restart_originator(tables, originator, event != ENDS_RIB);
    return event == GOES ? gone + restart_originator(tables, originator, true) : gone;
}

static void restart_tables(customer_vrf *vrf, uint16_t afi, family_event event)
{
    route_tables *tables = &family_of(vrf, afi)->tables;
    for (size_t i = 0; i < tables->originator_count; i++) {
        route_originator *originator = &tables->originators[i];
        bool had_any = originator->routes > 0;
        size_t gone = restart_routes(tables, originator, event);
        vrf->routes.gone += gone;
        if (gone == 0 && !(event == LOSES_SESSION && had_any))
            continue;
        printf("  %s, S-PMSI A-D routes of ", family_name(afi));
        print_address(originator->router.octets, originator->router.size);
        printf(": ");
        print_restarted(event, gone);
        ask_after_restart(vrf, afi, &originator->router, gone);
        printf("\n");
    }
}

/* Routes that stand in no table. */
static void restart_kept(kept_routes *routes, changes *made, const char *what, uint16_t afi, family_event event)
{
    bool had_any = routes->count > 0;
    size_t gone = restart_beside(routes, event != ENDS_RIB);
    if (event == GOES)
        gone += restart_beside(routes, true);
    made->gone += gone;
    if (gone == 0 && !(event == LOSES_SESSION && had_any))
        return;
    printf("  %s, %s: ", family_name(afi), what);
    print_restarted(event, gone);
    printf("\n");
}

static void restart_family(customer_vrf *vrf, uint16_t afi, family_event event)
{
    customer_family *family = family_of(vrf, afi);
    restart_tables(vrf, afi, event);
    restart_kept(&family->sources, &vrf->sources, "Source Active A-D routes", afi, event);
    restart_kept(&family->leaves, &vrf->leaves, "Leaf A-D routes", afi, event);
}

/* A router keeps the families that the peer's Graceful Restart Capability named in the OPEN before, sweeps at once those of which this one
 * does not say that their forwarding state was kept, and sweeps all if the session is down for longer than the Restart Time. Here the
 * capability is not read and there is no clock: both families are kept until their End-of-RIB. */
void use_open(customer_vrf *vrf)
{
    bool held = holds_routes(vrf, MVPN_AFI_IPV4) || holds_routes(vrf, MVPN_AFI_IPV6);
    vrf->is_reset = false;
    family_of(vrf, MVPN_AFI_IPV4)->is_disabled = family_of(vrf, MVPN_AFI_IPV6)->is_disabled = false;
    printf("%s\n", held ? ": the session was lost and is opened again" : "");
    restart_family(vrf, MVPN_AFI_IPV4, LOSES_SESSION);
    restart_family(vrf, MVPN_AFI_IPV6, LOSES_SESSION);
}

void use_end_of_rib(customer_vrf *vrf, uint16_t afi)
{
    restart_family(vrf, afi, ENDS_RIB);
}

/* RFC 4760, section 7. */
void disable_family(customer_vrf *vrf, uint16_t afi)
{
    family_of(vrf, afi)->is_disabled = true;
    printf("  %s, %s MCAST-VPN: its routes go, and what comes of it is ignored until an OPEN\n",
           error_action_name(AFI_SAFI_DISABLE), family_name(afi));
    restart_family(vrf, afi, GOES);
}

/* A router sends NOTIFICATION, closes the session, and opens another. */
void reset_session(customer_vrf *vrf)
{
    vrf->is_reset = true;
    printf("  %s: all routes go, and messages are ignored until an OPEN\n", error_action_name(SESSION_RESET));
    restart_family(vrf, MVPN_AFI_IPV4, GOES);
    restart_family(vrf, MVPN_AFI_IPV6, GOES);
}
