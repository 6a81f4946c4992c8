/* The S-PMSI A-D routes of one family, however many, in as many tables as they need, with the answers of one table that holds them all:
 * mvpn(3), "More than 500 routes". (C-S,C-G) routes stand in small tables, chosen by mvpn_shard; all others in a table for each
 * originator. Each table grows, up to 500 places. */
#ifndef TABLES_H
#define TABLES_H

#include "flow.h"
#include "mvpn.h"
#include "octets.h"

#include <stdbool.h>

/* A table in memory of its own; of no octets while it has had no route. */
typedef struct { uint8_t *octets; size_t size; } route_table;

/* An originator that has routes, or had some: how many, in whichever tables, and the table of those with wildcards. */
typedef struct {
    mvpn_address router;
    size_t routes;
    route_table wildcards;
} route_originator;

/* How many small tables there are. 32,000 (C-S,C-G) routes stand in them, if they are spread evenly. */
enum { SMALL_TABLES = 64 };

typedef struct {
    uint16_t afi;
    uint8_t none[MVPN_TABLE_SIZE(0)]; /* the table without places, which stands for each that has had no route */
    route_table small[SMALL_TABLES];
    route_originator *originators;
    size_t originator_count;
} route_tables;

/* No routes, of AFI 1 or 2. */
void start_tables(route_tables *tables, uint16_t afi);

/* Gives the memory back. */
void end_tables(route_tables *tables);

/* ---- the library's calls, over all tables */

/* ROOM is given only where the route's table has 500 routes, or where there is no memory for a larger one. */
mvpn_installed install_route(route_tables *tables, octets nlri, octets attribute);
uint32_t withdraw_route(route_tables *tables, octets nlri);

/* Marks the routes of an originator where its session was lost, else sweeps what is marked of them: how many went. */
size_t restart_originator(route_tables *tables, route_originator *originator, bool lost);

mvpn_explained explain_flow(const route_tables *tables, octets prefixes, const customer_flow *flow,
                            uint8_t output[MVPN_MATCH_OUTPUT]);

/* The same in one table. */
mvpn_explained explain_in(octets table, octets prefixes, const customer_flow *flow, uint8_t output[MVPN_MATCH_OUTPUT]);

/* The table in which the shared trees of a router are matched: these take routes with wildcards alone. */
octets wildcards_of(const route_tables *tables, const mvpn_address *router);

/* The route that comes next in the order of NLRIs, whichever table it stands in. */
mvpn_following next_route(const route_tables *tables, octets nlri, uint8_t output[MVPN_MATCH_OUTPUT]);

/* How many routes there are. */
size_t route_count(const route_tables *tables);

/* How many routes there are, how many tables hold them, and how many places these have. */
typedef struct { size_t routes, tables, places; } tables_facts;

tables_facts facts_of(const route_tables *tables);

#endif
