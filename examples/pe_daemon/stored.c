#include "stored.h"

#include "files.h"
#include "flows.h"
#include "print.h"

#include <errno.h>
#include <stdio.h>
#include <stdlib.h>
#include <string.h>

enum { STORED_PLACES = 64, STORED_SIZE = MVPN_TABLE_SIZE(STORED_PLACES) };

/* ---- tables of a file */

/* In the list of a salvage: the number of the place, and the reason. `before` are the places of the tables before. */
static void print_dropped(const uint8_t place[MVPN_DROPPED_PLACE], size_t before)
{
    printf("\n  place %zu: dropped, %s", before + octets_number(place, 2),
           place[2] == MVPN_BAD_PLACE ? "bad" : "its NLRI is that of a place before it");
}

/* A table that is refused is salvaged, as mvpn(3) says under "After a fault". The family is the one that the command line has for the
 * file, and the sizes are right, so the call is not refused. The peer's OPEN then marks the routes that are kept, and what it does not
 * announce again before End-of-RIB goes. */
static void salvage(uint16_t afi, uint8_t *stored, size_t before)
{
    uint8_t sound[STORED_SIZE], dropped[MVPN_DROPPED_PLACE * STORED_PLACES];
    mvpn_salvaged salvaged = mvpn_salvage(afi, stored, STORED_SIZE, sound, sizeof sound, dropped, sizeof dropped);
    printf("refused, ");
    print_number(MVPN_TABLE);
    printf(", and salvaged");
    for (uint32_t i = 0; i < salvaged.dropped; i++)
        print_dropped(dropped + i * MVPN_DROPPED_PLACE, before);
    printf("\n  %u kept, %u dropped; ", (unsigned)salvaged.kept, (unsigned)salvaged.dropped);
    memcpy(stored, sound, sizeof sound);
}

/* Installs the routes of a table that are stale, or those that are not: how many. */
static size_t install_stored(customer_vrf *vrf, const uint8_t *stored, bool stale, uint16_t afi)
{
    uint8_t nlri[MVPN_MATCH_OUTPUT], route[MVPN_MATCH_OUTPUT];
    mvpn_following next;
    size_t size = 0, count = 0;
    while ((next = mvpn_next(stored, STORED_SIZE, nlri, size, route, sizeof route)).nlri_size > 0) {
        size = next.nlri_size;
        memcpy(nlri, route, size);
        if ((next.stale != 0) == stale) {
            octets attribute = { route + size, next.attribute_size };
            count += install_route(&family_of(vrf, afi)->tables, (octets){ nlri, size }, attribute).number == MVPN_DONE;
        }
    }
    return count;
}

/* A mark is made for all routes of an originator at once, and takes away what is marked already. So the stale routes go in first, then
 * each originator is marked once, and then the others go in. */
static size_t install_all(customer_vrf *vrf, uint16_t afi, const uint8_t *stored, size_t size)
{
    route_tables *tables = &family_of(vrf, afi)->tables;
    size_t count = 0;
    for (size_t at = 0; at < size; at += STORED_SIZE)
        count += install_stored(vrf, stored + at, true, afi);
    for (size_t i = 0; i < tables->originator_count; i++)
        restart_originator(tables, &tables->originators[i], true);
    for (size_t at = 0; at < size; at += STORED_SIZE)
        count += install_stored(vrf, stored + at, false, afi);
    return count;
}

/* ---- reading back */

/* A sound table of the other family: the file may be somebody else's. */
static bool is_of_other_family(uint16_t afi, const uint8_t *stored, size_t size)
{
    for (size_t at = 0; at < size; at += STORED_SIZE) {
        mvpn_table_facts info = mvpn_table_info(stored + at, STORED_SIZE);
        if (info.number == MVPN_DONE && info.afi != afi)
            return true;
    }
    return false;
}

static void take_stored(customer_vrf *vrf, uint16_t afi, uint8_t *stored, size_t size)
{
    for (size_t at = 0; at < size; at += STORED_SIZE)
        if (mvpn_table_info(stored + at, STORED_SIZE).number != MVPN_DONE)
            salvage(afi, stored + at, at / STORED_SIZE * STORED_PLACES);
    size_t count = install_all(vrf, afi, stored, size);
    printf("read back, %zu route%s", count, count == 1 ? "" : "s");
    ask_all(vrf, afi);
}

/* Whether the file is ours, so that it is written at the end. */
static bool use_stored(customer_vrf *vrf, uint16_t afi, uint8_t *stored, size_t size)
{
    bool are_tables = size % STORED_SIZE == 0, is_other = are_tables && is_of_other_family(afi, stored, size);
    printf("stored %s tables: ", family_name(afi));
    if (!are_tables)
        printf("not used, the file does not have tables of %d places, and is left as it is", STORED_PLACES);
    else if (is_other)
        printf("not used, the file has a table of the other family, and is left as it is");
    else if (size == 0)
        printf("there are none yet");
    else
        take_stored(vrf, afi, stored, size);
    printf("\n");
    return are_tables && !is_other;
}

bool read_back(customer_vrf *vrf, uint16_t afi)
{
    customer_family *family = family_of(vrf, afi);
    uint8_t *stored = NULL;
    size_t size = 0;
    if (!family->table_file)
        return true;
    FILE *file = fopen(family->table_file, "rb");
    if (!file && errno != ENOENT) {
        perror(family->table_file);
        return false;
    }
    bool is_read = !file || read_whole(file, family->table_file, &stored, &size);
    if (is_read && !use_stored(vrf, afi, stored, size))
        family->table_file = NULL;
    if (file)
        fclose(file);
    free(stored);
    return is_read;
}

/* ---- keeping */

/* Routes of a table, as a match writes them. */
typedef struct {
    uint8_t of[STORED_PLACES][MVPN_MATCH_OUTPUT];
    mvpn_following told[STORED_PLACES];
    size_t count;
} table_routes;

/* The next routes behind an NLRI, as many as a table holds; the NLRI is then that of the last of them. */
static void next_routes(const route_tables *tables, uint8_t nlri[MVPN_MATCH_OUTPUT], size_t *size, table_routes *found)
{
    found->count = 0;
    while (found->count < STORED_PLACES) {
        uint8_t *route = found->of[found->count];
        mvpn_following next = next_route(tables, (octets){ nlri, *size }, route);
        if (next.nlri_size == 0)
            return;
        *size = next.nlri_size;
        memcpy(nlri, route, *size);
        found->told[found->count++] = next;
    }
}

static void store_routes(uint8_t *stored, const table_routes *routes, bool stale)
{
    for (size_t i = 0; i < routes->count; i++)
        if ((routes->told[i].stale != 0) == stale)
            mvpn_install(stored, STORED_SIZE, routes->of[i], routes->told[i].nlri_size,
                         routes->of[i] + routes->told[i].nlri_size, routes->told[i].attribute_size);
}

/* The stale routes first, as where they are read back. There is room for all, so no call is refused. */
static void store_table(const route_tables *tables, uint8_t *stored, const table_routes *routes)
{
    mvpn_make(tables->afi, stored, STORED_SIZE);
    store_routes(stored, routes, true);
    for (size_t i = 0; i < tables->originator_count; i++) {
        const mvpn_address *router = &tables->originators[i].router;
        mvpn_mark(stored, STORED_SIZE, router->octets, router->size);
    }
    store_routes(stored, routes, false);
}

/* Of no routes, one table that is empty. */
bool keep_routes(customer_vrf *vrf, uint16_t afi)
{
    const customer_family *family = family_of(vrf, afi);
    table_routes routes;
    uint8_t nlri[MVPN_MATCH_OUTPUT];
    size_t size = 0, count = route_count(&family->tables);
    size_t all = STORED_SIZE * (count == 0 ? 1 : (count + STORED_PLACES - 1) / STORED_PLACES);
    if (!family->table_file)
        return true;
    uint8_t *stored = malloc(all);
    if (!stored) {
        perror(family->table_file);
        return false;
    }
    for (size_t at = 0; at < all; at += STORED_SIZE) {
        next_routes(&family->tables, nlri, &size, &routes);
        store_table(&family->tables, stored + at, &routes);
    }
    bool is_kept = replace_file(family->table_file, stored, all);
    free(stored);
    return is_kept;
}
