/*
 * One table for each originator gives the answers of one table that holds all routes: of matches, explanations and matches for
 * shared trees, with their outputs, with no prefixes and by some. So do, for matches, small tables and tables of wildcards by the
 * lines that mvpn(3) shows: place_lines.h and several_lines.h are cut out of it. So a daemon with more than 500 routes keeps several
 * tables. The routes are drawn, from few sources, groups and route distinguishers, so that every tier, ties, and routes that name no
 * tunnel are met.
 */
#include "checks.h"

#include <stdbool.h>

enum { ORIGINATORS = 5, SOURCES = 4, GROUPS = 6, ROUTES = MVPN_MOST_PLACES / ORIGINATORS };

/* ---- drawn numbers, the same in each run */

static uint32_t state = 19;

static uint32_t drawn(uint32_t below)
{
    state = state * 1664525 + 1013904223;
    return (state >> 16) % below;
}

/* ---- addresses of a family; the originators are of both sizes, whatever the family */

static size_t address_size(uint16_t afi)
{
    return afi == MVPN_AFI_IPV4 ? 4 : 16;
}

static mvpn_address address_of(size_t size, uint8_t first, uint8_t second, size_t number)
{
    mvpn_address address = { { first, second }, (uint8_t)size };
    address.octets[size - 1] = (uint8_t)number;
    return address;
}

/* The same last four octets stand in originators of both sizes. */
static mvpn_address originator(size_t number)
{
    return number % 2 ? address_of(16, 0x20, 0x01, 1 + number / 2) : address_of(4, 0, 0, 1 + number / 2);
}

static mvpn_address source(uint16_t afi, size_t number)
{
    return address_of(address_size(afi), 0xC0, 0, number);
}

/* Half of the groups are SSM. */
static mvpn_address group(uint16_t afi, size_t number)
{
    bool is_ssm = number % 2;
    if (afi == MVPN_AFI_IPV4)
        return address_of(4, is_ssm ? 232 : 239, 1, number);
    return address_of(16, 0xFF, is_ssm ? 0x3E : 0x0E, number);
}

/* ---- small tables, for (C-S,C-G) routes, and a table of wildcards for each originator; each has no place at first */

enum { SMALL_TABLES = 16 };

typedef struct { uint8_t *octets; size_t size; } memory;

static memory small[SMALL_TABLES], wildcards[ORIGINATORS + 1];

static void make_several(uint16_t afi)
{
    for (size_t i = 0; i < SMALL_TABLES + ORIGINATORS + 1; i++) {
        lent none = made(afi, 0);
        *(i < SMALL_TABLES ? &small[i] : &wildcards[i - SMALL_TABLES]) = (memory){ none.at, none.size };
    }
}

static void free_several(void)
{
    for (size_t i = 0; i < SMALL_TABLES + ORIGINATORS + 1; i++)
        free((i < SMALL_TABLES ? small[i] : wildcards[i - SMALL_TABLES]).octets);
}

/* The last one, which stays empty, is that of a router without routes. */
static memory *wildcards_of(const mvpn_address *by)
{
    size_t of = 0;
    mvpn_address known;
    for (; of < ORIGINATORS; of++) {
        known = originator(of);
        if (known.size == by->size && memcmp(known.octets, by->octets, by->size) == 0)
            break;
    }
    return &wildcards[of];
}

static memory *table_of_route(uint16_t afi, const uint8_t *nlri, size_t nlri_len)
{
    mvpn_nlri fields;
    memory *table;
#include "place_lines.h"
    return table;
}

/* Its octets, and zeros behind them, are a larger table. */
static void make_larger(memory *table)
{
    size_t larger = table->size + 4 * MVPN_PLACE;
    table->octets = realloc(table->octets, larger);
    memset(table->octets + table->size, 0, larger - table->size);
    table->size = larger;
}

static mvpn_installed install_in_several(uint16_t afi, lent nlri, lent attribute)
{
    memory *table = table_of_route(afi, nlri.at, nlri.size);
    mvpn_installed installed = mvpn_install(table->octets, table->size, nlri.at, nlri.size, attribute.at, attribute.size);
    if (installed.number != MVPN_ROOM)
        return installed;
    make_larger(table);
    return mvpn_install(table->octets, table->size, nlri.at, nlri.size, attribute.at, attribute.size);
}

/* ---- tables: all routes in the first, and one for each originator */

typedef struct { lent all, own[ORIGINATORS]; } tables;

/* A length octet in bits, and the address; the wildcard half of the time. */
static void put_address(lent *nlri, const mvpn_address *address)
{
    bool is_wildcard = drawn(2);
    nlri->at[nlri->size++] = (uint8_t)(is_wildcard ? 0 : 8 * address->size);
    memcpy(nlri->at + nlri->size, address->octets, is_wildcard ? 0 : address->size);
    nlri->size += is_wildcard ? 0 : address->size;
}

static lent drawn_nlri(uint16_t afi, size_t of)
{
    mvpn_address from = source(afi, drawn(SOURCES)), to = group(afi, drawn(GROUPS)), by = originator(of);
    lent nlri = lent_of(MVPN_LONGEST_NLRI, 0);
    nlri.at[0] = MVPN_S_PMSI;
    nlri.at[9] = (uint8_t)drawn(4); /* the last octet of the route distinguisher */
    nlri.size = 10;
    put_address(&nlri, &from);
    put_address(&nlri, &to);
    memcpy(nlri.at + nlri.size, by.octets, by.size);
    nlri.size += by.size;
    nlri.at[1] = (uint8_t)(nlri.size - MVPN_NLRI_HEADER);
    return nlri;
}

static lent drawn_attribute(void)
{
    lent attribute = lent_of(MVPN_LONGEST_ATTRIBUTE, 0);
    uint8_t endpoint[] = { 10, 0, 0, (uint8_t)drawn(256) };
    bool names_tunnel = drawn(4) > 0;
    attribute.size = mvpn_attribute_write(0, names_tunnel ? MVPN_TUNNEL_INGRESS_REPLICATION : MVPN_TUNNEL_NONE, 16, endpoint,
                                          names_tunnel ? sizeof endpoint : 0, attribute.at, attribute.size).size;
    return attribute;
}

/* The same install in each, with the same answer. */
static void install_in_each(tables *t, uint16_t afi, size_t of)
{
    lent nlri = drawn_nlri(afi, of), attribute = drawn_attribute();
    mvpn_installed in_several = install_in_several(afi, nlri, attribute);
    mvpn_installed in_all = mvpn_install(t->all.at, t->all.size, nlri.at, nlri.size, attribute.at, attribute.size);
    mvpn_installed in_own = mvpn_install(t->own[of].at, t->own[of].size, nlri.at, nlri.size, attribute.at, attribute.size);
    same("install", "number", in_all.number, MVPN_DONE);
    same("install", "number in the originator's own table", in_own.number, in_all.number);
    same("install", "outcome in the originator's own table", in_own.outcome, in_all.outcome);
    same("install", "number in several tables", in_several.number, in_all.number);
    same("install", "outcome in several tables", in_several.outcome, in_all.outcome);
    free(nlri.at);
    free(attribute.at);
}

static tables filled(uint16_t afi)
{
    tables t = { .all = made(afi, MVPN_MOST_PLACES) };
    make_several(afi);
    for (size_t of = 0; of < ORIGINATORS; of++)
        t.own[of] = made(afi, ROUTES);
    for (size_t i = 0; i < ROUTES; i++)
        for (size_t of = 0; of < ORIGINATORS; of++)
            install_in_each(&t, afi, of);
    return t;
}

/* Together they hold as many routes. */
static void same_count(const tables *t)
{
    uint32_t routes = 0;
    for (size_t of = 0; of < ORIGINATORS; of++)
        routes += mvpn_table_info(t->own[of].at, t->own[of].size).routes;
    same("the tables", "routes", routes, mvpn_table_info(t->all.at, t->all.size).routes);
}

/* ---- answers of both */

typedef struct { lent prefixes; mvpn_address router, source, group; } asked;

static mvpn_explained explain(lent table, const asked *a, lent output)
{
    return mvpn_explain(table.at, table.size, a->prefixes.at, a->prefixes.size, a->router.octets, a->router.size,
                        a->source.octets, a->source.size, a->group.octets, a->group.size, output.at, output.size);
}

static mvpn_matched match_flow(lent table, const asked *a, lent output)
{
    return mvpn_match(table.at, table.size, a->prefixes.at, a->prefixes.size, a->router.octets, a->router.size,
                      a->source.octets, a->source.size, a->group.octets, a->group.size, output.at, output.size);
}

static mvpn_matched match_shared(lent table, const asked *a, lent output)
{
    return mvpn_match_shared(table.at, table.size, a->prefixes.at, a->prefixes.size, a->router.octets, a->router.size,
                             a->group.octets, a->group.size, (mvpn_tree_facts){ 1, 0, 0 }, mvpn_no_items, sizeof mvpn_no_items,
                             mvpn_no_items, sizeof mvpn_no_items, output.at, output.size);
}

static mvpn_matched match_several(const asked *a, lent output)
{
    mvpn_address router = a->router, source = a->source, group = a->group;
    const uint8_t *prefixes = a->prefixes.at;
    size_t prefixes_len = a->prefixes.size;
    uint8_t route[MVPN_MATCH_OUTPUT];
    mvpn_matched match;
    memory *table;
    memset(route, FILL, sizeof route);
#include "several_lines.h"
    memcpy(output.at, route, sizeof route);
    return match;
}

static unsigned tiers_met[5];

static void same_answer(const char *shows, mvpn_matched own, lent own_output, mvpn_matched all, lent all_output)
{
    same(shows, "number", own.number, all.number);
    same(shows, "tier", own.tier, all.tier);
    same(shows, "nlri_size", own.nlri_size, all.nlri_size);
    same(shows, "attribute_size", own.attribute_size, all.attribute_size);
    same_octets(shows, "output", own_output.at, all_output.at, own_output.size);
    tiers_met[all.tier]++;
}

static void same_answers(lent own, lent all, const asked *a)
{
    lent own_output = lent_of(MVPN_MATCH_OUTPUT, FILL), all_output = lent_of(MVPN_MATCH_OUTPUT, FILL);
    mvpn_matched own_match = match_flow(own, a, own_output), all_match = match_flow(all, a, all_output);
    same_answer("a match", own_match, own_output, all_match, all_output);
    own_match = match_several(a, own_output);
    same_answer("a match in several tables", own_match, own_output, all_match, all_output);
    mvpn_explained own_reasons = explain(own, a, own_output), all_reasons = explain(all, a, all_output);
    same_answer("an explanation", own_reasons.matched, own_output, all_reasons.matched, all_output);
    for (size_t i = 0; i < 4; i++)
        same("an explanation", "reason", own_reasons.reasons[i], all_reasons.reasons[i]);
    own_match = match_shared(own, a, own_output), all_match = match_shared(all, a, all_output);
    same_answer("a match for a shared tree", own_match, own_output, all_match, all_output);
    free(own_output.at);
    free(all_output.at);
}

/* Every router, source and group, one more of each than the routes have. A router that has no table has no route. */
static void same_for_each_flow(const tables *t, uint16_t afi, lent prefixes)
{
    lent none = made(afi, 0);
    for (size_t of = 0; of <= ORIGINATORS; of++)
        for (size_t s = 0; s <= SOURCES; s++)
            for (size_t g = 0; g <= GROUPS; g++) {
                asked a = { prefixes, originator(of), source(afi, s), group(afi, g) };
                same_answers(of < ORIGINATORS ? t->own[of] : none, t->all, &a);
            }
    free(none.at);
}

/* No prefixes; and one by which the ASM groups are SSM, and the others ASM. */
static void same_by_prefixes(const tables *t, uint16_t afi)
{
    lent none = list_of(NULL), own = hex(afi == MVPN_AFI_IPV4 ? "0001 0005 08 EF000000"
                                                              : "0001 0011 10 FF0E0000 00000000 00000000 00000000");
    same_for_each_flow(t, afi, none);
    same_for_each_flow(t, afi, own);
    free(none.at);
    free(own.at);
}

int main(void)
{
    for (uint16_t afi = MVPN_AFI_IPV4; afi <= MVPN_AFI_IPV6; afi++) {
        tables t = filled(afi);
        same_count(&t);
        same_by_prefixes(&t, afi);
        free(t.all.at);
        for (size_t of = 0; of < ORIGINATORS; of++)
            free(t.own[of].at);
        free_several();
    }
    for (size_t tier = 0; tier <= 4; tier++)
        same("the flows", "a tier that is met", tiers_met[tier] > 0, true);
    return verdict("C originators");
}
