/*
 * A provider edge router's use of mvpn.h. It reads BGP UPDATE messages, keeps the S-PMSI A-D, Source Active A-D and Leaf A-D
 * routes of one VRF in them, also while the session is down by which they come (RFC 4724), and tells which route and which tunnel
 * a customer flow (C-S,C-G) or a shared tree (C-*,C-G) takes, of a flow also why, and of a BIER tunnel which egress routers must
 * get its packets. It follows the flows while messages come, and after each change of its tables asks only those again whose
 * answer may be another. At the end it lists its routes, and, where it is told to, keeps them in files.
 *
 *     pe_daemon [--pieces OCTETS] [--ssm ADDRESS/LENGTH]... [--table FAMILY FILE]... FILE [REQUEST]...
 *     pe_daemon --help
 *
 * FILE holds whole messages, one after another; `-` is standard input. The NLRIs of a message are handed to the library in
 * pieces of so many octets, as a session may deliver them; what is printed is the same for every size. The prefixes, at most eight
 * of each family, are SSM ranges that replace its standard one. The routes of a family, ipv4 or ipv6, are read back from its file at the
 * start, salvaged where they are refused, and written there at the end. A request is one of
 *
 *     ROUTER SOURCE GROUP                              a flow; ROUTER is the PE that it comes from: ourselves for sending,
 *                                                      the upstream PE for receiving
 *     shared ROUTER GROUP [upstream] [bidir] [unused]  a shared tree, from the PE ROUTER: which is the upstream PE for the
 *                                                      group's C-RP; of a BIDIR-PIM group; where Source Active A-D routes
 *                                                      are not being used
 *     state SOURCE GROUP                               a (C-S,C-G) state that we hold, for the requests behind it
 *
 * examples/README.md says what stands in which file of pe_daemon, and of shared.
 */
#include "files.h"
#include "print.h"
#include "text.h"
#include "update.h"

#include "pe_daemon/answers.h"
#include "pe_daemon/flows.h"
#include "pe_daemon/messages.h"
#include "pe_daemon/requests.h"
#include "pe_daemon/stored.h"
#include "pe_daemon/vrf.h"

#include <stdio.h>
#include <string.h>

/* ---- the command line */

/* Takes one more prefix, if the library does. What it refuses here, each match would refuse. */
static bool take_prefix(customer_vrf *vrf, const char *text, const group_prefix *prefix)
{
    uint16_t afi = afi_of(&prefix->address);
    group_prefixes *prefixes = &family_of(vrf, afi)->prefixes;
    hold_prefix(prefixes, prefix);
    uint32_t number = judge_prefixes(afi, prefixes);
    if (number != MVPN_DONE)
        fprintf(stderr, "pe_daemon: the prefix %s is refused, %u %s (%s)\n", text, (unsigned)number, mvpn_number_name(number),
                mvpn_number_text(number));
    return number == MVPN_DONE;
}

/* Takes the option that the words begin with. How many words it has: 0 where there is none, -1 where it is wrong. */
static int take_option(customer_vrf *vrf, char **words)
{
    group_prefix prefix;
    table_file table;
    int count = parse_pieces(words, BGP_LONGEST_MESSAGE, &vrf->piece_size);
    if (count != 0)
        return count;
    count = parse_table(words, &table);
    if (count > 0)
        family_of(vrf, table.afi)->table_file = table.name;
    if (count != 0)
        return count;
    count = parse_ssm(words, &prefix);
    return count > 0 && !take_prefix(vrf, words[1], &prefix) ? -1 : count;
}

/* Whether every request of the command line is right; its flows are followed from now on. */
static bool take_requests(customer_vrf *vrf, char **words)
{
    request asked;
    while (*words) {
        int count = parse_request(words, &asked);
        if (count == 0)
            return false;
        follow(&vrf->flows, &asked);
        words += count;
    }
    return true;
}

/* ---- what was done */

static void print_changes(const char *of, const changes *made)
{
    printf("%s: new %zu, replaced %zu, withdrawn %zu, absent %zu, refused %zu, gone %zu\n", of, made->added, made->replaced,
           made->withdrawn, made->absent, made->refused, made->gone);
}

static void print_counts(const customer_vrf *vrf)
{
    printf("\nmessages: read %zu, dropped %zu, ignored %zu; runs with a damaged NLRI %zu\n",
           vrf->messages - vrf->dropped - vrf->ignored, vrf->dropped, vrf->ignored, vrf->damaged_runs);
    print_changes("S-PMSI A-D routes", &vrf->routes);
    print_changes("Source Active A-D routes", &vrf->sources);
    print_changes("Leaf A-D routes", &vrf->leaves);
    printf("other NLRIs: %zu; skipped: %zu\n", vrf->other, vrf->skipped);
    if (vrf->no_room > 0)
        printf("routes for which there was no room: %zu\n", vrf->no_room);
    if (vrf->flows.count > 0)
        printf("flows followed: %zu; after changes asked again %zu, of these answered otherwise %zu; not asked %zu\n",
               vrf->flows.count, vrf->flows.asked, vrf->flows.other, vrf->flows.not_asked);
}

static void print_prefixes(customer_vrf *vrf, uint16_t afi)
{
    const group_prefixes *prefixes = &family_of(vrf, afi)->prefixes;
    if (prefixes->count == 0)
        return;
    printf("%s, SSM ranges instead of the standard one:", family_name(afi));
    for (size_t i = 0; i < prefixes->count; i++) {
        printf("%s ", i ? "," : "");
        print_address(prefixes->held[i].address.octets, prefixes->held[i].address.size);
        printf("/%u", prefixes->held[i].length);
    }
    printf("\n");
}

/* ---- the program */

/* Reads the messages of a file, and answers the requests. Whether the input was read to its end, and every route fitted. */
static bool serve(customer_vrf *vrf, const char *file, FILE *input, char **words)
{
    request asked;
    bool is_whole = use_messages(vrf, input);
    if (ferror(input))
        fprintf(stderr, "pe_daemon: %s cannot be read\n", file);
    print_counts(vrf);
    while (*words) {
        words += parse_request(words, &asked);
        answer(vrf, &asked);
    }
    print_routes(vrf, MVPN_AFI_IPV4);
    print_routes(vrf, MVPN_AFI_IPV6);
    return is_whole && vrf->no_room == 0;
}

/* Reads the routes of both families back, serves, and keeps them. Whether all was done. */
static bool run(customer_vrf *vrf, const char *file, FILE *input, char **words)
{
    print_prefixes(vrf, MVPN_AFI_IPV4);
    print_prefixes(vrf, MVPN_AFI_IPV6);
    if (!read_back(vrf, MVPN_AFI_IPV4) || !read_back(vrf, MVPN_AFI_IPV6))
        return false;
    bool is_done = serve(vrf, file, input, words);
    is_done = keep_routes(vrf, MVPN_AFI_IPV4) && is_done;
    return keep_routes(vrf, MVPN_AFI_IPV6) && is_done;
}

/* 0: all was read, answered and kept; 1: the input could not be read to its end, there was no room for a route, or a file was not read or
 * written; 2: the command line is wrong. */
int main(int argc, char **argv)
{
    static customer_vrf vrf;
    char **words = argv + (argc > 0);
    int option;
    if (is_word(*words, "--help")) {
        print_usage(stdout);
        return 0;
    }
    start_vrf(&vrf);
    vrf.piece_size = BGP_LONGEST_MESSAGE;
    while ((option = take_option(&vrf, words)) > 0)
        words += option;
    if (option == 0 && !*words)
        print_usage(stderr);
    if (option < 0 || !*words)
        return 2;
    const char *file = *words++;
    if (!take_requests(&vrf, words))
        return 2;
    FILE *input = strcmp(file, "-") == 0 ? stdin : fopen(file, "rb");
    if (!input) {
        perror(file);
        return 1;
    }
    bool is_done = run(&vrf, file, input, words);
    fclose(input);
    end_vrf(&vrf);
    return is_done ? 0 : 1;
}
