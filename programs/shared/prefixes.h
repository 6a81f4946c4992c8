/* The SSM ranges of one family, as a network has its own: read from text, and written as the list that the library is lent. */
#ifndef PREFIXES_H
#define PREFIXES_H

#include "mvpn.h"
#include "octets.h"

#include <stdbool.h>

/* Groups that begin alike, as 239.232.0.0/16; the length is in bits. */
typedef struct { mvpn_address address; uint8_t length; } group_prefix;

/* There is room for one more than the library takes, so that it is the library that refuses it. */
enum { MOST_HELD_PREFIXES = MVPN_MOST_PREFIXES + 1 };
typedef struct {
    group_prefix held[MOST_HELD_PREFIXES];
    size_t count;
} group_prefixes;

/* Whether a word is an address, a slash, and a length of at most 255. Whether the length suits the address is for the library to say. */
bool is_prefix(const char *word, group_prefix *prefix);

/* Holds one more, or as many as there is room for: these the library refuses too. */
void hold_prefix(group_prefixes *prefixes, const group_prefix *prefix);

/* The octets of the longest list: MVPN_LONGEST_PREFIXES, and those of one prefix more. */
enum { PREFIXES_SPACE = MVPN_LONGEST_PREFIXES + MVPN_FIELD_SIZE + 1 + 16 };

octets list_prefixes(const group_prefixes *prefixes, uint8_t list[PREFIXES_SPACE]);

/* What the library says of these prefixes: DONE, or the number that every match would give. */
uint32_t judge_prefixes(uint16_t afi, const group_prefixes *prefixes);

/* The class of a group by these prefixes. */
mvpn_group class_of(const mvpn_address *group, const group_prefixes *prefixes);

#endif
