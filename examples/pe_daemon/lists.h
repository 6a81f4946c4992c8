/* What the library is told of one family beside its tables: the VRF's Source Active A-D and Leaf A-D routes and its (C-S,C-G) states; and
 * each of these as the list that the library is lent. */
#ifndef LISTS_H
#define LISTS_H

#include "mvpn.h"
#include "octets.h"

#include <stdbool.h>

/* ---- routes that stand in no table */

/* The octets of the longest NLRIs, which are those of IPv6: of a Source Active A-D route, and of a Leaf A-D route, whose key is that of an
 * S-PMSI A-D route. */
enum { LONGEST_SOURCE_ACTIVE = 44, LONGEST_LEAF = 78 };

/* A route, with what the library is told of it: the originator of a Source Active A-D route, the PMSI Tunnel attribute of a Leaf A-D
 * route. */
typedef struct {
    uint8_t nlri[LONGEST_LEAF], with[MVPN_LONGEST_ATTRIBUTE];
    size_t nlri_size, with_size;
    bool stale; /* not announced again since the session was lost */
} kept_route;

/* Routes of one type, no more than a list may have: MVPN_MOST_ITEMS or MVPN_MOST_LEAVES. No NLRI stands twice. */
typedef struct {
    kept_route of[MVPN_MOST_LEAVES];
    size_t count, most;
} kept_routes;

typedef enum { KEPT_NEW, KEPT_AGAIN, NOT_KEPT } keeping;

/* Keeps a route, whose NLRI the library has read, or gives one that is kept these octets; not one more than there is room for. */
keeping keep_beside(kept_routes *routes, octets nlri, octets with);

/* Whether the route was kept. */
bool forget_beside(kept_routes *routes, octets nlri);

/* What the library does with the routes of a table: those that are stale go, and where the session was lost the others are then
 * stale, until they are kept again. How many went. */
size_t restart_beside(kept_routes *routes, bool lost);

/* ---- states */

typedef struct { mvpn_address source, group; } customer_state;

typedef struct {
    customer_state held[MVPN_MOST_ITEMS];
    size_t count;
} customer_states;

/* Whether there was room for it. */
bool hold_state(customer_states *states, const mvpn_address *source, const mvpn_address *group);

/* ---- the lists */

/* The octets of the longest lists: a count, and for each item its fields, each with its size. */
enum {
    SOURCE_ACTIVES_SPACE = MVPN_LIST_COUNT + MVPN_MOST_ITEMS * (MVPN_FIELD_SIZE + 16 + MVPN_FIELD_SIZE + LONGEST_SOURCE_ACTIVE),
    STATES_SPACE = MVPN_LIST_COUNT + MVPN_MOST_ITEMS * (MVPN_FIELD_SIZE + 16 + MVPN_FIELD_SIZE + 16),
    LEAVES_SPACE = MVPN_LIST_COUNT + MVPN_MOST_LEAVES * (2 * MVPN_FIELD_SIZE + LONGEST_LEAF + MVPN_LONGEST_ATTRIBUTE)
};

octets list_source_actives(const kept_routes *routes, uint8_t list[SOURCE_ACTIVES_SPACE]);
octets list_leaves(const kept_routes *routes, uint8_t list[LEAVES_SPACE]);
octets list_states(const customer_states *states, uint8_t list[STATES_SPACE]);

#endif
