/* Routes while the session is down by which they come (RFC 4724, section 4.2), and routes that go with their family or their session (RFC
 * 7606, section 2). */
#ifndef RESTART_H
#define RESTART_H

#include "vrf.h"

/* The session was lost and is opened again: the routes that are held came by the one before, and are stale from now on. What was
 * disabled is not any longer. Ends the line of the message. */
void use_open(customer_vrf *vrf);

/* The peer has sent all its routes of the family: what is still stale of them goes. */
void use_end_of_rib(customer_vrf *vrf, uint16_t afi);

/* All routes of the family go, and what comes of it is ignored until the session is opened again. */
void disable_family(customer_vrf *vrf, uint16_t afi);

/* All routes go, and messages are ignored until the session is opened again. */
void reset_session(customer_vrf *vrf);

#endif
