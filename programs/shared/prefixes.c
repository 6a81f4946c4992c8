#include "prefixes.h"

#include "text.h"

#include <string.h>

/* The octets of the longest text of an address, with the one that ends it. */
enum { ADDRESS_TEXT = 46 };

bool is_prefix(const char *word, group_prefix *prefix)
{
    char address[ADDRESS_TEXT];
    size_t size = word ? strcspn(word, "/") : 0;
    unsigned long length;
    if (size == 0 || !word[size] || size >= sizeof address || !is_number(word + size + 1, UINT8_MAX, &length))
        return false;
    memcpy(address, word, size);
    address[size] = '\0';
    prefix->length = (uint8_t)length;
    return is_address(address, &prefix->address);
}

void hold_prefix(group_prefixes *prefixes, const group_prefix *prefix)
{
    if (prefixes->count < MOST_HELD_PREFIXES)
        prefixes->held[prefixes->count++] = *prefix;
}

/* Where there are none, the list has no items, and the standard range decides. There is space for all, so no answer of a helper is 0. */
octets list_prefixes(const group_prefixes *prefixes, uint8_t list[PREFIXES_SPACE])
{
    size_t size = mvpn_list_start(list, PREFIXES_SPACE, (uint16_t)prefixes->count);
    for (size_t i = 0; i < prefixes->count; i++) {
        const group_prefix *prefix = &prefixes->held[i];
        size = mvpn_list_prefix(list, PREFIXES_SPACE, size, prefix->address.octets, prefix->address.size, prefix->length);
    }
    return (octets){ list, size };
}

mvpn_group class_of(const mvpn_address *group, const group_prefixes *prefixes)
{
    uint8_t list[PREFIXES_SPACE];
    octets lent = list_prefixes(prefixes, list);
    return mvpn_group_class(afi_of(group), lent.at, lent.size, group->octets, group->size);
}

/* Of a group that is multicast the library refuses nothing but the prefixes. */
uint32_t judge_prefixes(uint16_t afi, const group_prefixes *prefixes)
{
    bool is_ipv4 = afi == MVPN_AFI_IPV4;
    mvpn_address multicast = { { is_ipv4 ? 224 : 0xFF }, is_ipv4 ? 4 : 16 };
    return class_of(&multicast, prefixes).number;
}
