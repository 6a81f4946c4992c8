/* Flows that are followed: which of them are asked again after a change of a table, as mvpn(3) says under "What to ask again". The answers
 * of all others are as they were. */
#ifndef FLOWS_H
#define FLOWS_H

#include "requests.h"
#include "vrf.h"

/* Follows a flow, from now on. Shared trees are not followed: their answers also depend on Source Active routes and states. */
void follow(followed_flows *flows, const request *asked);

/* After an install: the flows that the route would take if it were the only one, in a tier that is not after that of their answer. */
void ask_after_install(customer_vrf *vrf, uint16_t afi, octets nlri);

/* After a withdrawal: the flows that took the route. */
void ask_after_withdrawal(customer_vrf *vrf, uint16_t afi, octets nlri);

/* Where routes of a router went with a mark or a sweep: the flows that took a route of it. */
void ask_after_restart(customer_vrf *vrf, uint16_t afi, const mvpn_address *router, size_t gone);

/* After routes were read back: all flows of the family. */
void ask_all(customer_vrf *vrf, uint16_t afi);

#endif
