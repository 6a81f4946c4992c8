#include "requests.h"

#include "text.h"

#include <stdio.h>
#include <string.h>

void print_usage(FILE *file)
{
    fprintf(file, "usage: pe_daemon [--pieces OCTETS] [--ssm ADDRESS/LENGTH]... [--table FAMILY FILE]... FILE [REQUEST]...\n"
                  "       pe_daemon --help\n"
                  "a family is ipv4 or ipv6\n"
                  "a request is one of\n"
                  "  ROUTER SOURCE GROUP\n"
                  "  shared ROUTER GROUP [upstream] [bidir] [unused]\n"
                  "  state SOURCE GROUP\n");
}

int parse_pieces(char **words, size_t most, size_t *octets)
{
    unsigned long number;
    if (!is_word(words[0], "--pieces"))
        return 0;
    if (!is_number(words[1], most, &number) || number < 1) {
        fprintf(stderr, "pe_daemon: a piece has 1 to %zu octets\n", most);
        return -1;
    }
    *octets = number;
    return 2;
}

int parse_ssm(char **words, group_prefix *prefix)
{
    if (!is_word(words[0], "--ssm"))
        return 0;
    if (is_prefix(words[1], prefix))
        return 2;
    fprintf(stderr, "pe_daemon: a prefix is an address, a slash, and a length of at most %d\n", UINT8_MAX);
    return -1;
}

int parse_table(char **words, table_file *table)
{
    if (!is_word(words[0], "--table"))
        return 0;
    bool is_ipv4 = is_word(words[1], "ipv4"), is_ipv6 = is_word(words[1], "ipv6");
    if ((!is_ipv4 && !is_ipv6) || !words[2]) {
        fprintf(stderr, "pe_daemon: a table is ipv4 or ipv6, and a file\n");
        return -1;
    }
    table->afi = is_ipv4 ? MVPN_AFI_IPV4 : MVPN_AFI_IPV6;
    table->name = words[2];
    return 3;
}

static bool parse_address(const char *text, mvpn_address *address)
{
    if (!text) {
        print_usage(stderr);
        return false;
    }
    if (is_address(text, address))
        return true;
    fprintf(stderr, "pe_daemon: %s is not an address\n", text);
    return false;
}

/* The words behind a shared tree that tell something of it: how many there are. */
static int parse_facts(char **words, mvpn_tree_facts *facts)
{
    int count = 0;
    for (;; count++) {
        if (is_word(words[count], "upstream"))
            facts->upstream = 1;
        else if (is_word(words[count], "bidir"))
            facts->bidirectional = 1;
        else if (is_word(words[count], "unused"))
            facts->source_active_unused = 1;
        else
            return count;
    }
}

int parse_request(char **words, request *asked)
{
    memset(asked, 0, sizeof *asked);
    customer_flow *flow = &asked->flow;
    if (is_word(words[0], "shared")) {
        asked->kind = SHARED_TREE;
        bool right = parse_address(words[1], &flow->router) && parse_address(words[2], &flow->group);
        return right ? 3 + parse_facts(words + 3, &asked->facts) : 0;
    }
    asked->kind = is_word(words[0], "state") ? STATE : FLOW;
    if (asked->kind == FLOW && !parse_address(words[0], &flow->router))
        return 0;
    return parse_address(words[1], &flow->source) && parse_address(words[2], &flow->group) ? 3 : 0;
}
