/* BGP messages, one after another, and what is done about those that are malformed (RFC 7606). */
#ifndef MESSAGES_H
#define MESSAGES_H

#include "vrf.h"

#include <stdio.h>

/* Reads the messages of a file and uses them. Whether the input was read to its end. */
bool use_messages(customer_vrf *vrf, FILE *input);

#endif
