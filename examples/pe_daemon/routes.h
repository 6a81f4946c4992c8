/* What an NLRI that came does: S-PMSI A-D routes go into the tables, Source Active A-D and Leaf A-D routes are kept beside them. Each call
 * prints what became of the route, and ends no line. */
#ifndef ROUTES_H
#define ROUTES_H

#include "update.h"
#include "vrf.h"

/* Whether routes of this type are used; only these are handed to the calls below. */
bool is_used(uint8_t route_type);

/* `routes` is the attribute that has the NLRI, `tunnel` the PMSI Tunnel attribute of its message, which is read or not given. */
void announce_nlri(customer_vrf *vrf, const route_run *routes, octets nlri, octets tunnel);
void withdraw_nlri(customer_vrf *vrf, uint16_t afi, octets nlri);

/* A route of a message that is malformed is no longer offered in a form that we can use: what is held of it goes ("treat-as-withdraw",
 * RFC 7606, section 2). */
void treat_as_withdrawn(customer_vrf *vrf, uint16_t afi, octets nlri);

#endif
