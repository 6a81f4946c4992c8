/* The VRF: the routes of each family, the flows that are followed, and what was done. There is one peer and one VRF, so every route is
 * the best path and every route is imported; a router with more chooses first and then installs. */
#ifndef VRF_H
#define VRF_H

#include "flow.h"
#include "lists.h"
#include "mvpn.h"
#include "prefixes.h"
#include "tables.h"

#include <stdbool.h>

/* One address family of a VRF. */
typedef struct {
    route_tables tables;
    const char *table_file;  /* where its routes are kept; NULL where they are not */
    group_prefixes prefixes; /* its SSM ranges; where there are none, the standard range decides */
    kept_routes sources, leaves;
    customer_states states;
    bool is_disabled;        /* until the session is opened again (AFI/SAFI disable: RFC 7606, section 2) */
} customer_family;

/* A flow, and its answer: the route that it takes, as a match writes it; tier 0 where it takes none. */
typedef struct {
    customer_flow flow;
    mvpn_matched match;
    uint8_t route[MVPN_MATCH_OUTPUT];
} followed_flow;

/* The flows that are followed while messages come: the first ones of the command line. And how often, after a change of a table,
 * one was asked again, was answered otherwise then, and was not asked. */
enum { MOST_FOLLOWED = 64 };
typedef struct {
    followed_flow of[MOST_FOLLOWED];
    size_t count, asked, other, not_asked;
} followed_flows;

/* NLRIs, by what became of them. A withdrawal of a route that is not there is no refusal: nothing is wrong with it. Routes that
 * were stale and went, or went with their family, are of no NLRI that came. */
typedef struct { size_t added, replaced, withdrawn, absent, refused, gone; } changes;

typedef struct {
    customer_family families[2];                     /* of AFI 1 and AFI 2 */
    size_t piece_size;                               /* the octets of a run that are handed over at once */
    bool is_reset;                                   /* until the session is opened again */
    size_t messages, dropped, ignored, damaged_runs; /* a run is the NLRIs of one attribute */
    changes routes, sources, leaves;                 /* of S-PMSI A-D, Source Active A-D and Leaf A-D routes */
    followed_flows flows;
    size_t other, skipped;                           /* NLRIs of other route types; those that the library steps over */
    size_t no_room;                                  /* routes that did not fit, of whichever type */
} customer_vrf;

/* A VRF without routes; and its memory given back. */
void start_vrf(customer_vrf *vrf);
void end_vrf(customer_vrf *vrf);

customer_family *family_of(customer_vrf *vrf, uint16_t afi);

/* Whether it holds routes of any type. */
bool holds_routes(customer_vrf *vrf, uint16_t afi);

/* What is refused: its octets, on a line of their own, which is begun by a line feed. */
void print_refused(const char *what, octets refused);

#endif
