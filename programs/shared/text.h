/* Numbers and addresses that a person writes: of the command line, and of lines of text. A word may be NULL, and is nothing then. */
#ifndef TEXT_H
#define TEXT_H

#include "mvpn.h"

#include <stdbool.h>

bool is_word(const char *word, const char *name);

/* Whether a word is a number, of decimal digits alone and not over `most`. */
bool is_number(const char *word, unsigned long most, unsigned long *number);

/* The same of a word that only begins with a number; `end` is what stands behind it. */
bool begins_with_number(const char *word, unsigned long most, unsigned long *number, const char **end);

/* Whether a word is an IPv4 or an IPv6 address; the octets past it are 0. */
bool is_address(const char *word, mvpn_address *address);

/* The family that has addresses of this size. */
uint16_t afi_of(const mvpn_address *address);

#endif
