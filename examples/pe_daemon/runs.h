/* The NLRIs of MP_REACH_NLRI and MP_UNREACH_NLRI, read in pieces as a session may deliver them. */
#ifndef RUNS_H
#define RUNS_H

#include "update.h"
#include "vrf.h"

/* What is done with the NLRIs of an attribute. */
typedef enum { ANNOUNCE, WITHDRAW, TREAT_WITHDRAWN } run_use;

/* Reads the NLRIs of an attribute, prints each and uses it. Where one is damaged, none is used, and the family is disabled. */
void use_run(customer_vrf *vrf, run_use use, const route_run *routes, octets tunnel);

#endif
