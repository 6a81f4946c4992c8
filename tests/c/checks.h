/* What the C tests share: checks that count their failures, octets that are lent to a call, tables and matches. */
#ifndef CHECKS_H
#define CHECKS_H

#include "mvpn.h"

#include <inttypes.h>
#include <stdio.h>
#include <stdlib.h>
#include <string.h>

#define ROWS(table) (sizeof(table) / sizeof((table)[0]))

/* ---- checks: `shows` names the row, `field` what is compared */

void same(const char *shows, const char *field, uintmax_t got, uintmax_t expected);
void same_octets(const char *shows, const char *field, const uint8_t *got, const uint8_t *expected, size_t size);

/* Prints the counts, and gives the exit status. */
int verdict(const char *test);

/* ---- octets lent to a call: on the heap, of exactly their size */

typedef struct { uint8_t *at; size_t size; } lent;

lent lent_of(size_t size, uint8_t value);

/* Octets in hexadecimal, with blanks between them. */
lent hex(const char *text);

/* The same of a list; NULL is the list that has no items. */
lent list_of(const char *text);

/* What an output holds before a call. */
enum { FILL = 0xA5 };

/* Whether the output holds `written` at its front and its old octets behind. */
void same_output(const char *shows, lent output, const uint8_t *written, size_t size);
void untouched(const char *shows, lent output);

/* ---- tables, of routes whose octets are given as text */

typedef struct { const char *nlri, *attribute; } route;

lent made(uint16_t afi, size_t places);
mvpn_installed install(lent table, const char *nlri_text, const char *attribute_text);
uint32_t withdraw(lent table, const char *nlri_text);

/* A table just made, in which these routes were installed, each of them new. */
lent holding(uint16_t afi, size_t places, const route *routes, size_t count);

lent copy_of(lent table);
void same_table(const char *shows, lent table, lent expected);

/* ---- what a match answers, and its output */

typedef struct { const char *router, *source, *group; } flow;

/* By these prefixes, a list as `list_of` takes it; or with none given. */
mvpn_matched match_by(lent table, const char *prefixes_text, flow f, lent output);
mvpn_matched match(lent table, flow f, lent output);

/* No tier and no route: nothing matches. */
void same_match(const char *shows, lent table, flow f, uint32_t tier, const route *expected);
void same_matched(const char *shows, mvpn_matched got, lent output, uint32_t tier, const route *expected);
void refused_matched(const char *shows, mvpn_matched got, lent output, uint32_t number);

#endif
