#include "show.h"

#include "print.h"
#include "tables.h"
#include "tell.h"

#include <stdlib.h>
#include <string.h>

bool show_run(const view *shown, octets input)
{
    line route = { .kind = LINE_ROUTE, .has_octet = true, .afi = shown->afi };
    return tell_run(shown, &route, input);
}

bool show_attribute(const view *shown, octets input)
{
    line read = { .kind = LINE_ATTRIBUTE };
    return tell_attribute(shown, &read, input);
}

/* ---- a table */

static void tell_facts(const view *shown, mvpn_table_facts info)
{
    line told = { .kind = LINE_TABLE };
    add_named(&told.facts, "AFI", info.afi, family_name(info.afi));
    add_number(&told.facts, FIELD_NUMBER, "places", info.places);
    add_number(&told.facts, FIELD_NUMBER, "routes", info.routes);
    tell(shown, &told);
}

/* The loop of mvpn.h. */
static void tell_routes(const view *shown, octets table, uint16_t afi)
{
    uint8_t nlri[MVPN_MATCH_OUTPUT], route[MVPN_MATCH_OUTPUT];
    mvpn_following next;
    size_t size = 0;
    while ((next = mvpn_next(table.at, table.size, nlri, size, route, sizeof route)).nlri_size > 0) {
        line told = { .kind = LINE_ROUTE, .afi = afi, .nlri = { route, next.nlri_size },
                      .attribute = { route + next.nlri_size, next.attribute_size }, .stale = next.stale != 0 };
        tell(shown, &told);
        size = next.nlri_size;
        memcpy(nlri, route, size);
    }
}

static mvpn_explained explain_table(const void *table, octets prefixes, const customer_flow *flow, uint8_t output[MVPN_MATCH_OUTPUT])
{
    return explain_in(*(const octets *)table, prefixes, flow, output);
}

static bool tell_sound_table(const view *shown, octets table, mvpn_table_facts info)
{
    tell_facts(shown, info);
    tell_routes(shown, table, (uint16_t)info.afi);
    return tell_explanations(shown, explain_table, &table);
}

static void tell_dropped(const view *shown, const uint8_t dropped[MVPN_DROPPED_PLACE])
{
    uint32_t place = octets_number(dropped, 2), reason = dropped[2];
    line told = { .kind = LINE_DROPPED, .has_octet = true, .octet = MVPN_TABLE_SIZE(place) };
    add_number(&told.facts, FIELD_NUMBER, "place", place);
    add_named(&told.facts, "reason", reason, reason == MVPN_BAD_PLACE ? "bad place" : "repeated NLRI");
    tell(shown, &told);
}

/* What is good in a table that is refused, and which places are not. The memory is that of a second table, and behind it a salvage's list
 * of places. */
static void tell_salvaged(const view *shown, octets damaged)
{
    size_t list = damaged.size / MVPN_PLACE * MVPN_DROPPED_PLACE;
    uint8_t *table = malloc(damaged.size + list);
    if (!table)
        return;
    uint8_t *dropped = table + damaged.size;
    mvpn_salvaged salvaged = mvpn_salvage(shown->afi, damaged.at, damaged.size, table, damaged.size, dropped, list);
    for (uint32_t i = 0; i < salvaged.dropped; i++)
        tell_dropped(shown, dropped + i * MVPN_DROPPED_PLACE);
    if (salvaged.number == MVPN_DONE)
        tell_sound_table(shown, (octets){ table, damaged.size }, mvpn_table_info(table, damaged.size));
    free(table);
}

bool show_table(const view *shown, octets input)
{
    mvpn_table_facts info = mvpn_table_info(input.at, input.size);
    if (info.number == MVPN_DONE)
        return tell_sound_table(shown, input, info);
    line refused = { .kind = LINE_REFUSED, .has_octet = true, .number = info.number };
    tell(shown, &refused);
    tell_salvaged(shown, input);
    return false;
}
