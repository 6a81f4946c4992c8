/* A line of what the program prints, in either form: words for people, or a JSON object for programs. */
#ifndef LINES_H
#define LINES_H

#include "fields.h"
#include "flow.h"
#include "mvpn.h"
#include "octets.h"

#include <stdbool.h>

typedef enum {
    LINE_ROUTE,      /* an NLRI of a run, or a route of a table */
    LINE_ATTRIBUTE,
    LINE_ANNOUNCED,  /* in MP_REACH_NLRI */
    LINE_WITHDRAWN,  /* in MP_UNREACH_NLRI */
    LINE_SKIPPED,    /* an NLRI that is to be passed over, and is no damage */
    LINE_REFUSED,
    LINE_DROPPED,    /* a place of a table that is refused */
    LINE_TABLE,
    LINE_MESSAGE,
    LINE_END_OF_RIB
} line_kind;

/* Parts that have no octets, a number of 0 or a NULL are not printed. */
typedef struct {
    line_kind kind;
    size_t message;            /* its number, from 1 */
    bool has_octet;
    size_t octet;              /* where in the message, or in the input, what is told stands */
    const char *subject;       /* what is refused, where it is no NLRI or message */
    const char *fault;         /* what is wrong, where no number of the library tells it */
    uint32_t number;           /* what the library refuses it with */
    fields facts;
    uint16_t afi;
    octets nlri, attribute;    /* which the library has read */
    octets next_hop, unread;   /* `unread`: the octets of what is refused or skipped */
    bool stale;
} line;

/* What is known of a flow's answer. The output is as mvpn_explain writes it. */
typedef struct {
    customer_flow flow;
    mvpn_group group;
    mvpn_explained found;
    const uint8_t *output;
} explanation;

void print_line(const line *shown, bool as_json);
void print_explanation(const explanation *shown, bool as_json);

/* "announced" */
const char *line_kind_name(line_kind kind);

#endif
