/* What the command line asks for and tells. */
#ifndef REQUESTS_H
#define REQUESTS_H

#include "flow.h"
#include "mvpn.h"
#include "prefixes.h"

#include <stdio.h>

/* Prints how the command line is written. */
void print_usage(FILE *file);

/* Reads the option `--pieces OCTETS`, 1 to `most` of them, where the words begin with it. How many words it has: 0 where it is
 * not given, and -1, after standard error has been told why, where it is wrong. */
int parse_pieces(char **words, size_t most, size_t *octets);

/* Reads the option `--ssm ADDRESS/LENGTH` likewise. Whether the length suits the address is for the library to say. */
int parse_ssm(char **words, group_prefix *prefix);

/* The file that a family's routes are kept in. */
typedef struct { uint16_t afi; const char *name; } table_file;

/* Reads the option `--table FAMILY FILE` likewise. */
int parse_table(char **words, table_file *table);

typedef enum { FLOW, SHARED_TREE, STATE } request_kind;

typedef struct {
    request_kind kind;
    customer_flow flow;     /* a shared tree has no source, a state no router */
    mvpn_tree_facts facts; /* of a shared tree */
} request;

/* Reads the request that the words begin with; NULL stands behind the last word. How many words it has; 0, after standard
 * error has been told why, where it is wrong. */
int parse_request(char **words, request *asked);

#endif
