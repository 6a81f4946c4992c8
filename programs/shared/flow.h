/* What is asked about: a customer flow (C-S,C-G) from a router, ourselves for sending, the upstream PE for receiving. */
#ifndef FLOW_H
#define FLOW_H

#include "mvpn.h"

typedef struct { mvpn_address router, source, group; } customer_flow;

#endif
