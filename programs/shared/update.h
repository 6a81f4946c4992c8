/* BGP framing, which the library leaves to the daemon: messages off a stream (RFC 4271, section 4.1), and the parts of an
 * UPDATE that speak of multicast VPN routes (RFC 4271, section 4.3; RFC 4760; RFC 6514). */
#ifndef UPDATE_H
#define UPDATE_H

#include "octets.h"

#include <stdbool.h>
#include <stdio.h>

enum { BGP_HEADER = 19, BGP_LONGEST_MESSAGE = 4096 };

enum { BGP_OPEN = 1, BGP_UPDATE = 2, BGP_NOTIFICATION = 3, BGP_KEEPALIVE = 4, BGP_ROUTE_REFRESH = 5 };

/* What a router does about what is malformed, from the mildest to the strongest (RFC 7606, section 2). */
typedef enum { NO_ACTION, ATTRIBUTE_DISCARD, TREAT_AS_WITHDRAW, AFI_SAFI_DISABLE, SESSION_RESET } error_action;

/* The action as the RFC calls it. */
const char *error_action_name(error_action action);

/* What is wrong with a message, at which of its octets, and what is done about it; `text` is NULL where nothing is wrong. */
typedef struct { const char *text; size_t offset; error_action action; } fault;

/* An MP_REACH_NLRI or MP_UNREACH_NLRI attribute. */
typedef struct {
    bool given;
    uint16_t afi;    /* 1 or 2 where it is of SAFI 5 (MCAST-VPN); 0 where it is of another family or not given */
    octets run;      /* its NLRIs, one after another */
    octets next_hop; /* of MP_REACH_NLRI */
} route_run;

typedef struct {
    size_t attributes, unused; /* path attributes in the message, and those that are not used here */
    size_t unicast;            /* octets of IPv4 unicast routes, withdrawn and announced, which are not ours */
    bool announces;            /* it has routes that are announced, of whichever family */
    size_t repeated;           /* PMSI Tunnel attributes behind the first, which are discarded */
    route_run reach, unreach;
    octets tunnel; /* the value of the PMSI Tunnel attribute; `at` is NULL where it is not given */
} update;

/* Reads the next message into the buffer; a message of no octets is the input's end. After a fault there is no way to tell
 * where the next message begins. */
fault message_read(FILE *input, uint8_t buffer[BGP_LONGEST_MESSAGE], octets *message);

/* The same, of messages that stand in memory: takes one off the front of the rest. */
fault message_take(octets *rest, octets *message);

/* The type in the header of a whole message, and its name; NULL where the type is not defined. */
uint8_t message_type(octets message);
const char *message_type_name(uint8_t type);

/* Takes a whole message of type UPDATE apart. After a fault whose action is to treat the routes as withdrawn, what was found before it
 * may be used for that; after any other nothing of the message is to be used. */
fault update_read(octets message, update *found);

/* End-of-RIB (RFC 4724, section 2): an UPDATE that has no routes, of IPv4 unicast nothing at all, of another family only MP_UNREACH_NLRI. */
bool is_end_of_rib(const update *found);

#endif
