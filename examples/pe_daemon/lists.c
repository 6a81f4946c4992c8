#include "lists.h"

#include <string.h>

/* ---- routes that stand in no table */

/* Which of the routes has this NLRI; `count` where none has. */
static size_t place_of(const kept_routes *routes, octets nlri)
{
    size_t i = 0;
    while (i < routes->count && (routes->of[i].nlri_size != nlri.size || memcmp(routes->of[i].nlri, nlri.at, nlri.size) != 0))
        i++;
    return i;
}

keeping keep_beside(kept_routes *routes, octets nlri, octets with)
{
    size_t place = place_of(routes, nlri);
    bool again = place < routes->count;
    if (place == routes->most)
        return NOT_KEPT;
    kept_route *route = &routes->of[place];
    memcpy(route->nlri, nlri.at, nlri.size);
    memcpy(route->with, with.at, with.size);
    route->nlri_size = nlri.size;
    route->with_size = with.size;
    route->stale = false;
    routes->count += !again;
    return again ? KEPT_AGAIN : KEPT_NEW;
}

/* The last one takes its place. */
bool forget_beside(kept_routes *routes, octets nlri)
{
    size_t place = place_of(routes, nlri);
    if (place == routes->count)
        return false;
    routes->of[place] = routes->of[--routes->count];
    return true;
}

size_t restart_beside(kept_routes *routes, bool lost)
{
    size_t before = routes->count;
    routes->count = 0;
    for (size_t i = 0; i < before; i++)
        if (!routes->of[i].stale) {
            routes->of[routes->count] = routes->of[i];
            routes->of[routes->count++].stale = lost;
        }
    return before - routes->count;
}

/* ---- states */

bool hold_state(customer_states *states, const mvpn_address *source, const mvpn_address *group)
{
    if (states->count == MVPN_MOST_ITEMS)
        return false;
    states->held[states->count++] = (customer_state){ *source, *group };
    return true;
}

/* ---- the lists: there is space for each, so no answer of a helper is 0 */

octets list_source_actives(const kept_routes *routes, uint8_t list[SOURCE_ACTIVES_SPACE])
{
    size_t size = mvpn_list_start(list, SOURCE_ACTIVES_SPACE, (uint16_t)routes->count);
    for (size_t i = 0; i < routes->count; i++) {
        size = mvpn_list_field(list, SOURCE_ACTIVES_SPACE, size, routes->of[i].with, routes->of[i].with_size);
        size = mvpn_list_field(list, SOURCE_ACTIVES_SPACE, size, routes->of[i].nlri, routes->of[i].nlri_size);
    }
    return (octets){ list, size };
}

octets list_leaves(const kept_routes *routes, uint8_t list[LEAVES_SPACE])
{
    size_t size = mvpn_list_start(list, LEAVES_SPACE, (uint16_t)routes->count);
    for (size_t i = 0; i < routes->count; i++) {
        size = mvpn_list_field(list, LEAVES_SPACE, size, routes->of[i].nlri, routes->of[i].nlri_size);
        size = mvpn_list_field(list, LEAVES_SPACE, size, routes->of[i].with, routes->of[i].with_size);
    }
    return (octets){ list, size };
}

octets list_states(const customer_states *states, uint8_t list[STATES_SPACE])
{
    size_t size = mvpn_list_start(list, STATES_SPACE, (uint16_t)states->count);
    for (size_t i = 0; i < states->count; i++) {
        const customer_state *state = &states->held[i];
        size = mvpn_list_field(list, STATES_SPACE, size, state->source.octets, state->source.size);
        size = mvpn_list_field(list, STATES_SPACE, size, state->group.octets, state->group.size);
    }
    return (octets){ list, size };
}
