/* What was asked: the tunnel of a flow or of a shared tree, and the routes at the end. The group tells the family, and with it the tables
 * and the prefixes. */
#ifndef ANSWERS_H
#define ANSWERS_H

#include "requests.h"
#include "vrf.h"

/* Answers a request of the command line, or takes what it tells. */
void answer(customer_vrf *vrf, const request *asked);

/* Lists the routes of a family. */
void print_routes(customer_vrf *vrf, uint16_t afi);

#endif
