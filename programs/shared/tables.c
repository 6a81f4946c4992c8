#include "tables.h"

#include <stdlib.h>
#include <string.h>

/* The places of a table that has its first route. */
enum { FIRST_PLACES = 8 };

void start_tables(route_tables *tables, uint16_t afi)
{
    memset(tables, 0, sizeof *tables);
    tables->afi = afi;
    mvpn_make(afi, tables->none, sizeof tables->none);
}

void end_tables(route_tables *tables)
{
    for (size_t i = 0; i < SMALL_TABLES; i++)
        free(tables->small[i].octets);
    for (size_t i = 0; i < tables->originator_count; i++)
        free(tables->originators[i].wildcards.octets);
    free(tables->originators);
    start_tables(tables, tables->afi);
}

/* ---- which table */

/* The octets of a table, as the library is lent them. */
static octets lent(const route_tables *tables, const route_table *table)
{
    return table && table->octets ? (octets){ table->octets, table->size } : (octets){ tables->none, sizeof tables->none };
}

static size_t small_number(const mvpn_address *router, const mvpn_address *source, const mvpn_address *group)
{
    return mvpn_shard(router->octets, router->size, source->octets, source->size, group->octets, group->size, SMALL_TABLES);
}

/* NULL where it never had a route. */
static route_originator *find_originator(const route_tables *tables, const mvpn_address *router)
{
    for (size_t i = 0; i < tables->originator_count; i++) {
        const mvpn_address *known = &tables->originators[i].router;
        if (known->size == router->size && memcmp(known->octets, router->octets, router->size) == 0)
            return &tables->originators[i];
    }
    return NULL;
}

/* Finds it, or makes it known; NULL where there is no memory. */
static route_originator *know_originator(route_tables *tables, const mvpn_address *router)
{
    route_originator *found = find_originator(tables, router), *more;
    if (found)
        return found;
    more = realloc(tables->originators, (tables->originator_count + 1) * sizeof *more);
    if (!more)
        return NULL;
    tables->originators = more;
    found = &more[tables->originator_count++];
    memset(found, 0, sizeof *found);
    found->router = *router;
    return found;
}

/* The table in which a route of these fields stands; `originator` is that of the route. */
static route_table *table_of(route_tables *tables, const mvpn_nlri *fields, route_originator *originator)
{
    if (fields->source.size > 0 && fields->group.size > 0)
        return &tables->small[small_number(&fields->originator, &fields->source, &fields->group)];
    return &originator->wildcards;
}

octets wildcards_of(const route_tables *tables, const mvpn_address *router)
{
    const route_originator *originator = find_originator(tables, router);
    return lent(tables, originator ? &originator->wildcards : NULL);
}

/* ---- changes */

/* A larger table is the octets of the smaller one, and zeros behind them: mvpn(3), "A larger table". So the marks stay. Whether there is
 * one. */
static bool grow(uint16_t afi, route_table *table)
{
    size_t places = table->octets ? (table->size - MVPN_TABLE_HEADER) / MVPN_PLACE : 0;
    size_t more = places == 0 ? FIRST_PLACES : 2 * places < MVPN_MOST_PLACES ? 2 * places : MVPN_MOST_PLACES;
    uint8_t *larger = places < MVPN_MOST_PLACES ? realloc(table->octets, MVPN_TABLE_SIZE(more)) : NULL;
    if (!larger)
        return false;
    if (places == 0)
        mvpn_make(afi, larger, MVPN_TABLE_SIZE(more));
    else
        memset(larger + table->size, 0, MVPN_TABLE_SIZE(more) - table->size);
    *table = (route_table){ larger, MVPN_TABLE_SIZE(more) };
    return true;
}

/* Of a table without places ROOM is the only refusal that is not the route's own fault. */
mvpn_installed install_route(route_tables *tables, octets nlri, octets attribute)
{
    mvpn_installed installed =
        mvpn_install(tables->none, sizeof tables->none, nlri.at, nlri.size, attribute.at, attribute.size);
    if (installed.number != MVPN_ROOM)
        return installed;
    mvpn_nlri fields = mvpn_nlri_read(tables->afi, nlri.at, nlri.size).nlri;
    route_originator *originator = know_originator(tables, &fields.originator);
    if (!originator)
        return installed;
    route_table *table = table_of(tables, &fields, originator);
    do {
        if (table->octets)
            installed = mvpn_install(table->octets, table->size, nlri.at, nlri.size, attribute.at, attribute.size);
    } while (installed.number == MVPN_ROOM && grow(tables->afi, table));
    originator->routes += installed.number == MVPN_DONE && installed.outcome == MVPN_NEW;
    return installed;
}

/* Of an originator that has no routes, and of an NLRI that is refused, the table without places gives the number. */
uint32_t withdraw_route(route_tables *tables, octets nlri)
{
    mvpn_nlri fields = mvpn_nlri_read(tables->afi, nlri.at, nlri.size).nlri;
    route_originator *originator = find_originator(tables, &fields.originator);
    route_table *table = originator ? table_of(tables, &fields, originator) : NULL;
    if (!table || !table->octets)
        return mvpn_withdraw(tables->none, sizeof tables->none, nlri.at, nlri.size);
    uint32_t number = mvpn_withdraw(table->octets, table->size, nlri.at, nlri.size);
    originator->routes -= number == MVPN_DONE;
    return number;
}

static size_t restart_in(route_table *table, const mvpn_address *router, bool lost)
{
    if (!table->octets)
        return 0;
    return (lost ? mvpn_mark : mvpn_sweep)(table->octets, table->size, router->octets, router->size).gone;
}

/* Its routes may stand in every small table. */
size_t restart_originator(route_tables *tables, route_originator *originator, bool lost)
{
    size_t gone = restart_in(&originator->wildcards, &originator->router, lost);
    for (size_t i = 0; i < SMALL_TABLES && gone < originator->routes; i++)
        gone += restart_in(&tables->small[i], &originator->router, lost);
    originator->routes -= gone;
    return gone;
}

/* ---- answers */

mvpn_explained explain_in(octets table, octets prefixes, const customer_flow *flow, uint8_t output[MVPN_MATCH_OUTPUT])
{
    return mvpn_explain(table.at, table.size, prefixes.at, prefixes.size, flow->router.octets, flow->router.size,
                        flow->source.octets, flow->source.size, flow->group.octets, flow->group.size, output, MVPN_MATCH_OUTPUT);
}

/* The small table answers with tier 1 or none, and is asked first. */
mvpn_explained explain_flow(const route_tables *tables, octets prefixes, const customer_flow *flow,
                            uint8_t output[MVPN_MATCH_OUTPUT])
{
    size_t number = small_number(&flow->router, &flow->source, &flow->group);
    mvpn_explained found = explain_in(lent(tables, &tables->small[number]), prefixes, flow, output);
    if (found.matched.number != MVPN_DONE || found.matched.tier == MVPN_SOURCE_AND_GROUP)
        return found;
    return explain_in(wildcards_of(tables, &flow->router), prefixes, flow, output);
}

/* ---- all routes */

static size_t table_count(const route_tables *tables)
{
    return SMALL_TABLES + tables->originator_count;
}

static octets table_at(const route_tables *tables, size_t number)
{
    return lent(tables, number < SMALL_TABLES ? &tables->small[number] : &tables->originators[number - SMALL_TABLES].wildcards);
}

/* No NLRI is the beginning of another, so the octets of the shorter one tell which comes first. */
mvpn_following next_route(const route_tables *tables, octets nlri, uint8_t output[MVPN_MATCH_OUTPUT])
{
    uint8_t route[MVPN_MATCH_OUTPUT];
    mvpn_following first = { 0, 0, 0, 0 };
    for (size_t i = 0; i < table_count(tables); i++) {
        octets table = table_at(tables, i);
        mvpn_following next = mvpn_next(table.at, table.size, nlri.at, nlri.size, route, sizeof route);
        if (next.nlri_size > 0 && (first.nlri_size == 0 || memcmp(route, output, next.nlri_size) < 0)) {
            first = next;
            memcpy(output, route, (size_t)next.nlri_size + next.attribute_size);
        }
    }
    return first;
}

size_t route_count(const route_tables *tables)
{
    size_t count = 0;
    for (size_t i = 0; i < tables->originator_count; i++)
        count += tables->originators[i].routes;
    return count;
}

tables_facts facts_of(const route_tables *tables)
{
    tables_facts facts = { 0, 0, 0 };
    for (size_t i = 0; i < table_count(tables); i++) {
        octets table = table_at(tables, i);
        mvpn_table_facts info = mvpn_table_info(table.at, table.size);
        if (info.routes > 0) {
            facts.routes += info.routes;
            facts.places += info.places;
            facts.tables++;
        }
    }
    return facts;
}
