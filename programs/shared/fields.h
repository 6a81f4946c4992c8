/* The fields of NLRIs, of PMSI Tunnel attributes and of FEC elements, each with its name: for whoever prints them, as text (print.h) or
 * otherwise. */
#ifndef FIELDS_H
#define FIELDS_H

#include "mvpn.h"
#include "octets.h"

#include <stdbool.h>

typedef enum {
    FIELD_NAMED,         /* a number that has a name: route type 3 is "S-PMSI A-D" */
    FIELD_NUMBER,
    FIELD_LABEL,         /* 0 is no label */
    FIELD_FLAGS,         /* an octet of bits */
    FIELD_TRUTH,         /* 0 or 1 */
    FIELD_ADDRESS,       /* one of no octets is the wildcard */
    FIELD_PAIR,          /* a source and a group */
    FIELD_DISTINGUISHER,
    FIELD_OCTETS,
    FIELD_NLRI,          /* a Leaf's key */
    FIELD_FEC
} field_kind;

typedef struct {
    field_kind kind;
    const char *name;      /* "originator" */
    const char *meaning;   /* of a NAMED number */
    uint32_t number;       /* also: the AFI of an NLRI; 1 where a FEC element was read with all that it holds, else 0 */
    mvpn_address address;  /* also: the source of a PAIR */
    mvpn_address group;    /* of a PAIR */
    octets value;          /* of a DISTINGUISHER, OCTETS, an NLRI and a FEC */
} field;

/* The most fields of anything below. */
enum { MOST_FIELDS = 8 };

typedef struct { field of[MOST_FIELDS]; size_t count; } fields;

void add_named(fields *found, const char *name, uint32_t number, const char *meaning);
void add_number(fields *found, field_kind kind, const char *name, uint32_t number);
void add_address(fields *found, const char *name, const uint8_t *address, size_t size);

/* The NLRI at the front of octets, or what there is of it where they end inside it. */
octets front_nlri(octets rest);

/* Those of an NLRI that the library has read. */
fields nlri_fields(uint16_t afi, octets nlri);

/* Those of a PMSI Tunnel attribute that the library has read: tunnel type, label and flags; and those of its tunnel identifier. */
fields tunnel_fields(octets attribute);
fields identifier_fields(octets attribute);

/* Those of a FEC element (RFC 6388, section 2.2) whose shape is right. One that it holds (RFC 6512) is a field of it where the library
 * has read that too; else its opaque value is octets. */
fields fec_fields(octets fec, bool is_read);

#endif
