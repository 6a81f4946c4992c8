/* What an input holds, line by line. */
#ifndef SHOW_H
#define SHOW_H

#include "flow.h"
#include "octets.h"
#include "prefixes.h"

#include <stdbool.h>

/* The most flows that are explained. */
enum { MOST_EXPLAINED = 64 };

typedef struct {
    uint16_t afi;                         /* of a run, and of a table that is refused */
    bool as_json;
    group_prefixes prefixes[2];           /* SSM ranges of IPv4 and of IPv6 */
    customer_flow flows[MOST_EXPLAINED];  /* where there are any, these are explained, and only refusals are shown beside them */
    size_t flow_count;
} view;

/* Whether nothing was refused. */
bool show_run(const view *shown, octets input);
bool show_attribute(const view *shown, octets input);
bool show_table(const view *shown, octets input);
bool show_messages(const view *shown, octets input);

#endif
