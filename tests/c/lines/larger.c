/*
 * A table that is made larger by the function that mvpn(3) shows under "A larger table": larger_lines.h is cut out of it. The larger
 * table is, octet by octet, the one of that size on which the same calls were made; so is a table into which the routes were
 * installed one by one, in the order that the manual gives for their marks.
 */
#include "checks.h"

#include <stdbool.h>

#include "larger_lines.h"

/* ---- a table, by its calls: routes of a few originators, some of them marked, and some of these advertised again */

enum { ORIGINATORS = 7 };

static mvpn_address originator(size_t number)
{
    mvpn_address address = { { 10 }, number % 2 ? 16 : 4 };
    address.octets[address.size - 1] = (uint8_t)number;
    return address;
}

/* Every address of the route comes from its number; numbers in turn are not NLRIs in turn. */
static void install_route(lent table, uint16_t afi, size_t number)
{
    uint8_t octets[MVPN_LONGEST_NLRI], tunnel[] = { 0, MVPN_TUNNEL_INGRESS_REPLICATION, 0, 0, 16, 10, 0, 0, (uint8_t)number };
    size_t mixed = number * 7919 % 65536;
    mvpn_address address = { { 0xFF, 0x3E }, afi == MVPN_AFI_IPV4 ? 4 : 16 };
    mvpn_nlri nlri = { .route_type = MVPN_S_PMSI, .originator = originator(number % ORIGINATORS) };
    address.octets[0] = afi == MVPN_AFI_IPV4 ? 232 : 0xFF;
    address.octets[address.size - 2] = (uint8_t)(mixed >> 8);
    address.octets[address.size - 1] = (uint8_t)mixed;
    nlri.source = nlri.group = address;
    mvpn_written written = mvpn_nlri_write(afi, nlri, NULL, 0, NULL, 0, octets, sizeof octets);
    same("a route", "number of its writing", written.number, MVPN_DONE);
    mvpn_installed installed = mvpn_install(table.at, table.size, octets, written.size, tunnel, sizeof tunnel);
    same("a route", "number of its install", installed.number, MVPN_DONE);
}

/* The first `marked` originators lose their session, and every `again`-th route is advertised again. */
typedef struct { const char *shows; size_t marked, again; } history;

static const history histories[] = {
    { "no marks", 0, 1 },
    { "one router marked", 1, SIZE_MAX },
    { "three routers marked, and each third route back", 3, 3 },
    { "every router marked", ORIGINATORS, SIZE_MAX },
    { "every router marked, and each other route back", ORIGINATORS, 2 },
};

static lent made_by(const history *past, uint16_t afi, size_t places, size_t routes)
{
    lent table = made(afi, places);
    for (size_t i = 0; i < routes; i++)
        install_route(table, afi, i);
    for (size_t i = 0; i < past->marked; i++) {
        mvpn_address router = originator(i);
        mvpn_mark(table.at, table.size, router.octets, router.size);
    }
    for (size_t i = 0; i < routes; i += past->again < routes ? past->again : routes)
        install_route(table, afi, i);
    return table;
}

/* ---- route by route */

/* Steps to the next route of a table; its NLRI is in `route` then, and the attribute behind it. */
static mvpn_following step(lent table, uint8_t route[MVPN_MATCH_OUTPUT], size_t size)
{
    uint8_t nlri[MVPN_MATCH_OUTPUT];
    memcpy(nlri, route, size);
    return mvpn_next(table.at, table.size, nlri, size, route, MVPN_MATCH_OUTPUT);
}

static void install_those(lent from, uint32_t stale, lent to)
{
    uint8_t route[MVPN_MATCH_OUTPUT];
    mvpn_following next = { 0 };
    while ((next = step(from, route, next.nlri_size)).nlri_size > 0)
        if (next.stale == stale)
            mvpn_install(to.at, to.size, route, next.nlri_size, route + next.nlri_size, next.attribute_size);
}

/* A route that is not stale yet is of a router that was not marked yet. */
static void mark_each_router(lent table, uint16_t afi)
{
    uint8_t route[MVPN_MATCH_OUTPUT];
    mvpn_following next = { 0 };
    while ((next = step(table, route, next.nlri_size)).nlri_size > 0) {
        mvpn_address router = mvpn_nlri_read(afi, route, next.nlri_size).nlri.originator;
        if (!next.stale)
            mvpn_mark(table.at, table.size, router.octets, router.size);
    }
}

static lent route_by_route(lent from, uint16_t afi, size_t places)
{
    lent to = made(afi, places);
    install_those(from, 1, to);
    mark_each_router(to, afi);
    install_those(from, 0, to);
    return to;
}

/* ---- both ways */

typedef struct { size_t places, larger; } sizes;

static const sizes growths[] = {
    { 0, 0 }, { 0, 1 }, { 1, 2 }, { 8, 500 }, { 250, 500 }, { 499, 500 }, { 500, 500 },
};

static void same_larger(const history *past, uint16_t afi, sizes of)
{
    lent table = made_by(past, afi, of.places, of.places), expected = made_by(past, afi, of.larger, of.places);
    lent before = copy_of(table), larger = lent_of(MVPN_TABLE_SIZE(of.larger), FILL);
    same(past->shows, "number", make_larger(table.at, table.size, larger.at, larger.size), MVPN_DONE);
    same_table(past->shows, larger, expected);
    same_table(past->shows, table, before);
    lent again = route_by_route(table, afi, of.larger);
    same_table(past->shows, again, expected);
    if (of.places < of.larger)
        install_route(larger, afi, of.places);
    free(table.at);
    free(expected.at);
    free(before.at);
    free(larger.at);
    free(again.at);
}

/* Neither a smaller table, nor memory that is not of a table's size, nor a larger table of a damaged one. */
static void refused(void)
{
    lent table = made_by(&histories[2], MVPN_AFI_IPV4, 20, 20), larger = lent_of(MVPN_TABLE_SIZE(21), FILL);
    same("a smaller one", "number", make_larger(table.at, table.size, larger.at, MVPN_TABLE_SIZE(19)), MVPN_SPACE);
    untouched("a smaller one", larger);
    same("another size", "number", make_larger(table.at, table.size, larger.at, larger.size - 1), MVPN_TABLE);
    table.at[MVPN_TABLE_HEADER]++;
    same("a damaged table", "number", make_larger(table.at, table.size, larger.at, larger.size), MVPN_TABLE);
    free(table.at);
    free(larger.at);
}

int main(void)
{
    for (uint16_t afi = MVPN_AFI_IPV4; afi <= MVPN_AFI_IPV6; afi++)
        for (size_t i = 0; i < ROWS(histories); i++)
            for (size_t j = 0; j < ROWS(growths); j++)
                same_larger(&histories[i], afi, growths[j]);
    refused();
    return verdict("C larger");
}
