/*
 * The match for a shared tree (C-*,C-G), and the lists that are lent to it. The expected answers are written from RFC 6625,
 * section 3.2.2, and from the texts of mvpn.h, not from any program.
 */
#include "checks.h"

#include <stddef.h>

/* Callers are built with these. */
_Static_assert(sizeof(mvpn_tree_facts) == 12 && offsetof(mvpn_tree_facts, upstream) == 0 &&
                   offsetof(mvpn_tree_facts, bidirectional) == 4 && offsetof(mvpn_tree_facts, source_active_unused) == 8,
               "mvpn_tree_facts");
_Static_assert(MVPN_LIST_COUNT == 2 && MVPN_FIELD_SIZE == 2 && MVPN_MOST_ITEMS == 256, "lists");

/* A route distinguisher and an IPv6 address that end in N; the attribute of a tunnel by ingress replication, label field N. */
#define RD(n) "00000064000000" n " "
#define IPV6(n) "20010DB8 00000000 00000000 000000" n " "
#define TUNNEL(n) "00 06 0000" n " 0A000001"

/* PE1 to PE4; sources; an ASM group of PE1's, one of nobody's, an SSM group. */
#define PE1 "0A000001 "
#define PE2 "0A000002 "
#define PE3 "0A000003 "
#define PE4 "0A000004 "
#define PE1_MAPPED "00000000 00000000 0000FFFF 0A000001 "
#define PE1_EXTENDED "0A000001 00000000 00000000 00000000 "
#define S1 "C0000201 "
#define S2 "C0000202 "
#define G1 "EF010101 "
#define G2 "EF010102 "
#define SSM "E8090909 "

/* S-PMSI A-D routes (C-*,C-G) and (C-*,C-*); a Source Active A-D route. */
#define GROUP_ROUTE(n, group, originator) "0312 " RD(n) "00 20 " group originator
#define ANY_ROUTE(n, originator) "030E " RD(n) "00 00 " originator
#define ACTIVE(n, source, group) "0512 " RD(n) "20 " source "20 " group

/* Items of the two lists, with addresses of 4 octets. */
#define ITEM(originator, source, group) "0004 " originator "0014 " ACTIVE("07", source, group)
#define STATE(source, group) "0004 " source "0004 " group

static const route routes[] = {
    { GROUP_ROUTE("07", G1, PE1), TUNNEL("10") },
    { ANY_ROUTE("07", PE1), TUNNEL("20") },
    { GROUP_ROUTE("07", SSM, PE1), TUNNEL("30") },
    { "0316 " RD("01") "20 " S1 "20 " G1 PE1, TUNNEL("40") },
    { "0312 " RD("01") "20 " S1 "00 " PE1, TUNNEL("50") },
    { ANY_ROUTE("07", PE2), TUNNEL("60") },
    { GROUP_ROUTE("07", G1, PE3), TUNNEL("70") },
    { GROUP_ROUTE("09", G1, PE4), TUNNEL("80") },
    { GROUP_ROUTE("03", G1, PE4), TUNNEL("90") },
    { GROUP_ROUTE("05", G1, PE4), TUNNEL("A0") },
    { ANY_ROUTE("02", PE4), TUNNEL("B0") },
    { ANY_ROUTE("01", PE4), TUNNEL("C0") },
};

static const route *const group_of_pe1 = &routes[0], *const any_of_pe1 = &routes[1], *const any_of_pe2 = &routes[5],
                   *const group_of_pe3 = &routes[6], *const group_of_pe4 = &routes[8], *const any_of_pe4 = &routes[11];

/* ---- calls with octets given as text */

/* A list left out has no items. */
typedef struct {
    const char *router, *group;
    mvpn_tree_facts facts;
    const char *source_actives, *states;
} tree;

static mvpn_matched match_lists(lent table, const tree *t, lent actives, lent states, lent output)
{
    lent router = hex(t->router), group = hex(t->group);
    mvpn_matched m = mvpn_match_shared(table.at, table.size, mvpn_no_items, sizeof mvpn_no_items, router.at, router.size,
                                       group.at, group.size, t->facts, actives.at, actives.size, states.at, states.size,
                                       output.at, output.size);
    free(router.at);
    free(group.at);
    return m;
}

static mvpn_matched match_shared(lent table, const tree *t, lent output)
{
    lent actives = list_of(t->source_actives), states = list_of(t->states);
    mvpn_matched m = match_lists(table, t, actives, states, output);
    free(actives.at);
    free(states.at);
    return m;
}

/* ---- answers */

typedef struct {
    const char *shows;
    tree tree;
    uint32_t tier;
    const route *const *expected; /* NULL: no route */
} answer_row;

#define NOTHING { 0, 0, 0 }
#define UPSTREAM { .upstream = 1 }
#define BIDIRECTIONAL { .bidirectional = 1 }
#define UNUSED { .source_active_unused = 1 }
#define ALL { 1, 1, 1 }

static const answer_row answers[] = {
    { "no condition", { PE1, G1, NOTHING, NULL, NULL }, 0, NULL },
    { "upstream", { PE1, G1, UPSTREAM, NULL, NULL }, 3, &group_of_pe1 },
    { "BIDIR", { PE1, G1, BIDIRECTIONAL, NULL, NULL }, 3, &group_of_pe1 },
    { "Source Active routes unused", { PE1, G1, UNUSED, NULL, NULL }, 3, &group_of_pe1 },
    { "every condition", { PE1, G1, ALL, "0001" ITEM(PE1, S1, G1), NULL }, 3, &group_of_pe1 },
    { "a fact is any number but 0: 2^31", { PE1, G1, { .upstream = 0x80000000 }, NULL, NULL }, 3, &group_of_pe1 },
    { "a fact is any number but 0: 256", { PE1, G1, { .bidirectional = 256 }, NULL, NULL }, 3, &group_of_pe1 },
    { "a fact is any number but 0: 65,536", { PE1, G1, { .source_active_unused = 65536 }, NULL, NULL }, 3, &group_of_pe1 },

    { "Source Active, no state", { PE1, G1, NOTHING, "0001" ITEM(PE1, S1, G1), NULL }, 3, &group_of_pe1 },
    { "Source Active of another RD",
      { PE1, G1, NOTHING, "0001 0004" PE1 "0014" ACTIVE("63", S1, G1), NULL }, 3, &group_of_pe1 },
    { "Source Active with its state", { PE1, G1, NOTHING, "0001" ITEM(PE1, S1, G1), "0001" STATE(S1, G1) }, 0, NULL },
    { "its state behind another", { PE1, G1, NOTHING, "0001" ITEM(PE1, S1, G1), "0002" STATE(S2, G1) STATE(S1, G1) }, 0, NULL },
    { "state of another source", { PE1, G1, NOTHING, "0001" ITEM(PE1, S1, G1), "0001" STATE(S2, G1) }, 3, &group_of_pe1 },
    { "state of another group", { PE1, G1, NOTHING, "0001" ITEM(PE1, S1, G1), "0001" STATE(S1, G2) }, 3, &group_of_pe1 },
    { "source and group in two states",
      { PE1, G1, NOTHING, "0001" ITEM(PE1, S1, G1), "0002" STATE(S1, G2) STATE(S2, G1) }, 3, &group_of_pe1 },
    { "the first of two has its state",
      { PE1, G1, NOTHING, "0002" ITEM(PE1, S1, G1) ITEM(PE1, S2, G1), "0001" STATE(S1, G1) }, 3, &group_of_pe1 },
    { "the second of two has its state",
      { PE1, G1, NOTHING, "0002" ITEM(PE1, S1, G1) ITEM(PE1, S2, G1), "0001" STATE(S2, G1) }, 3, &group_of_pe1 },
    { "both have their states",
      { PE1, G1, NOTHING, "0002" ITEM(PE1, S1, G1) ITEM(PE1, S2, G1), "0002" STATE(S2, G1) STATE(S1, G1) }, 0, NULL },
    { "Source Active of another PE", { PE1, G1, NOTHING, "0001" ITEM(PE2, S1, G1), NULL }, 0, NULL },
    { "Source Active of the PE in 16 octets",
      { PE1, G1, NOTHING, "0001 0010" PE1_MAPPED "0014" ACTIVE("07", S1, G1), NULL }, 0, NULL },
    { "Source Active of a PE whose 16 octets begin as the PE's",
      { PE1, G1, NOTHING, "0001 0010" PE1_EXTENDED "0014" ACTIVE("07", S1, G1), NULL }, 0, NULL },
    { "Source Active of another group", { PE1, G1, NOTHING, "0001" ITEM(PE1, S1, G2), NULL }, 0, NULL },
    { "with its state, and one of another PE without",
      { PE1, G1, NOTHING, "0002" ITEM(PE1, S1, G1) ITEM(PE2, S2, G1), "0001" STATE(S1, G1) }, 0, NULL },
    { "with its state, and one of another group without",
      { PE1, G1, NOTHING, "0002" ITEM(PE1, S1, G1) ITEM(PE1, S2, G2), "0001" STATE(S1, G1) }, 0, NULL },
    { "states alone", { PE1, G1, NOTHING, NULL, "0001" STATE(S1, G1) }, 0, NULL },
    { "upstream, whatever the states",
      { PE1, G1, UPSTREAM, "0001" ITEM(PE1, S1, G1), "0001" STATE(S1, G1) }, 3, &group_of_pe1 },

    { "tier 4, no condition", { PE2, G1, NOTHING, "0001" ITEM(PE1, S1, G1), NULL }, 0, NULL },
    { "tier 4, upstream", { PE2, G1, UPSTREAM, NULL, NULL }, 4, &any_of_pe2 },
    { "tier 4, BIDIR", { PE2, G1, BIDIRECTIONAL, NULL, NULL }, 4, &any_of_pe2 },
    { "tier 4, Source Active routes unused", { PE2, G1, UNUSED, NULL, NULL }, 4, &any_of_pe2 },
    { "tier 4, Source Active, no state", { PE2, G1, NOTHING, "0001" ITEM(PE2, S1, G1), NULL }, 4, &any_of_pe2 },
    { "tier 4, Source Active with its state",
      { PE2, G1, NOTHING, "0001" ITEM(PE2, S1, G1), "0001" STATE(S1, G1) }, 0, NULL },
    { "tier 4 for a group without a route", { PE1, G2, UPSTREAM, NULL, NULL }, 4, &any_of_pe1 },
    { "tier 3 alone", { PE3, G1, UPSTREAM, NULL, NULL }, 3, &group_of_pe3 },
    { "a route of another group alone", { PE3, G2, ALL, NULL, NULL }, 0, NULL },
    { "a PE without routes", { "0A000005", G1, ALL, NULL, NULL }, 0, NULL },
    { "the PE in 16 octets", { PE1_MAPPED, G1, ALL, NULL, NULL }, 0, NULL },
    { "a PE whose 16 octets begin as the PE's", { PE1_EXTENDED, G1, ALL, NULL, NULL }, 0, NULL },
    { "tier 3: the lowest RD, over a lower one of tier 4", { PE4, G1, UPSTREAM, NULL, NULL }, 3, &group_of_pe4 },
    { "tier 4: the lowest RD", { PE4, G2, UPSTREAM, NULL, NULL }, 4, &any_of_pe4 },
    { "SSM, every condition", { PE1, SSM, ALL, "0001" ITEM(PE1, S1, G1), NULL }, 0, NULL },
    { "SSM, no condition", { PE1, SSM, NOTHING, NULL, NULL }, 0, NULL },

    { "octets after the last items",
      { PE1, G1, NOTHING, "0001" ITEM(PE1, S1, G1) ITEM(PE1, S2, G1) "FF", "0001" STATE(S1, G1) "0004" }, 0, NULL },
    { "octets after no items", { PE1, G1, NOTHING, "0000" ITEM(PE1, S1, G1), "0000FFFF" }, 0, NULL },
    { "a state's group is not judged", { PE1, G1, UPSTREAM, NULL, "0001" STATE(G1, S1) }, 3, &group_of_pe1 },
    { "a Source Active route's group need not be multicast", { PE1, G1, UPSTREAM, "0001" ITEM(PE1, G1, S1), NULL }, 3, &group_of_pe1 },
};

static void answer(const answer_row *row, lent table)
{
    lent output = lent_of(MVPN_MATCH_OUTPUT, FILL);
    same_matched(row->shows, match_shared(table, &row->tree, output), output, row->tier, row->expected ? *row->expected : NULL);
    free(output.at);
}

static void answer_all(lent table, const answer_row *rows, size_t count)
{
    lent before = copy_of(table);
    for (size_t i = 0; i < count; i++)
        answer(&rows[i], table);
    same_table("a match for a shared tree leaves the table", table, before);
    free(before.at);
}

/* ---- AFI 2: IPv6 and IPv4 originators, the longest attribute */

#define ZEROS_7 "00000000000000"
#define LONGEST "00 02 000000 06 0001 04 0A000001 0031 " ZEROS_7 ZEROS_7 ZEROS_7 ZEROS_7 ZEROS_7 ZEROS_7 ZEROS_7
#define ASM6 "FF0E0000 00000000 00000000 00000001 "
#define NEAR_SSM6 "FF3E0001 00000000 00000000 00000001 "
#define SSM6 "FF3E0000 00000000 00000000 00000001 "
#define ACTIVE6(source, group) "002C 052A " RD("07") "80 " source "80 " group
#define STATE6(source, group) "0010 " source "0010 " group

static const route routes6[] = {
    { "032A " RD("07") "00 80 " ASM6 IPV6("02"), LONGEST },
    { "031A " RD("07") "00 00 " IPV6("02"), TUNNEL("20") },
    { ANY_ROUTE("07", PE1), TUNNEL("30") },
};

static void ipv6(void)
{
    static const route *const group_route = &routes6[0], *const any_route = &routes6[2];
    static const answer_row rows[] = {
        { "AFI 2: Source Active, no state",
          { IPV6("02"), ASM6, NOTHING, "0001 0010 " IPV6("02") ACTIVE6(IPV6("01"), ASM6), NULL }, 3, &group_route },
        { "AFI 2: Source Active with its state",
          { IPV6("02"), ASM6, NOTHING, "0001 0010 " IPV6("02") ACTIVE6(IPV6("01"), ASM6), "0001" STATE6(IPV6("01"), ASM6) },
          0, NULL },
        { "AFI 2: an IPv4 originator",
          { PE1, ASM6, NOTHING, "0001 0004 " PE1 ACTIVE6(IPV6("01"), ASM6), NULL }, 4, &any_route },
        { "AFI 2: an SSM group", { PE1, SSM6, ALL, NULL, NULL }, 0, NULL },
        { "AFI 2: nearly an SSM group", { PE1, NEAR_SSM6, UPSTREAM, NULL, NULL }, 4, &any_route },
    };
    lent table = holding(2, ROWS(routes6), routes6, ROWS(routes6)), output = lent_of(MVPN_MATCH_OUTPUT, FILL);
    const tree ipv4_group = { PE1, G1, UPSTREAM, NULL, NULL };
    answer_all(table, rows, ROWS(rows));
    refused_matched("AFI 2: an IPv4 group", match_shared(table, &ipv4_group, output), output, MVPN_FLOW);
    free(table.at);
    free(output.at);
}

/* ---- refusals */

typedef enum { TABLE, ROUTER, GROUP, SOURCE_ACTIVES, STATES, OUTPUT } argument;

typedef struct {
    const char *shows;
    argument wrong;
    const char *text; /* what the argument is then; not of a table, which is cut short, nor of an output */
    uint32_t number;
} fault;

#define NLRI_ITEM(size, nlri) "0001 0004" PE2 size nlri

/* In the order of refusals: of two faults in different arguments the first decides, and of the same number it is no matter. */
static const fault faults[] = {
    { "the table is cut short", TABLE, NULL, MVPN_TABLE },
    { "257 Source Active routes", SOURCE_ACTIVES, "0101", MVPN_LONG },
    { "65,535 Source Active routes", SOURCE_ACTIVES, "FFFF" ITEM(PE1, S1, G1), MVPN_LONG },
    { "257 states", STATES, "0101" STATE(S1, G1), MVPN_LONG },
    { "Source Active routes of no octets", SOURCE_ACTIVES, "", MVPN_SHORT },
    { "half a count, and no LONG", SOURCE_ACTIVES, "FF", MVPN_SHORT },
    { "Source Active routes end before an item", SOURCE_ACTIVES, "0002" ITEM(PE1, S1, G1), MVPN_SHORT },
    { "Source Active routes end inside a size", SOURCE_ACTIVES, "0001 00", MVPN_SHORT },
    { "Source Active routes end inside an originator", SOURCE_ACTIVES, "0001 0004 0A0000", MVPN_SHORT },
    { "Source Active routes end inside an NLRI", SOURCE_ACTIVES, "0001 0004" PE1 "0014 0512", MVPN_SHORT },
    { "256 Source Active routes told, none there", SOURCE_ACTIVES, "0100", MVPN_SHORT },
    { "states of no octets", STATES, "", MVPN_SHORT },
    { "states of half a count", STATES, "00", MVPN_SHORT },
    { "states end before a group", STATES, "0001 0004" S1, MVPN_SHORT },
    { "states end inside a group", STATES, "0001 0004" S1 "0004 EF0101", MVPN_SHORT },
    { "router of 5 octets", ROUTER, "0A00000101", MVPN_FLOW },
    { "no router", ROUTER, "", MVPN_FLOW },
    { "originator of 5 octets", SOURCE_ACTIVES, "0001 0005 0A00000101 0014" ACTIVE("07", S1, G1), MVPN_FLOW },
    { "no originator", SOURCE_ACTIVES, "0001 0000 0014" ACTIVE("07", S1, G1), MVPN_FLOW },
    { "an originator's fault before an NLRI's in front of it",
      SOURCE_ACTIVES, "0002 0004" PE1 "0000 0003 0A0000 0014" ACTIVE("07", S1, G1), MVPN_FLOW },
    { "a state's source of 16 octets", STATES, "0001 0010" IPV6("01") "0004" G1, MVPN_FLOW },
    { "a state's source of no octets", STATES, "0001 0000 0004" G1, MVPN_FLOW },
    { "a state's group of 3 octets", STATES, "0001 0004" S1 "0003 EF0101", MVPN_FLOW },
    { "the second state's group of 16 octets", STATES, "0002" STATE(S1, G1) "0004" S1 "0010" ASM6, MVPN_FLOW },
    { "group of 16 octets", GROUP, ASM6, MVPN_FLOW },
    { "no group", GROUP, "", MVPN_FLOW },
    { "group 223.255.255.255", GROUP, "DFFFFFFF", MVPN_FLOW },
    { "NLRI of no octets", SOURCE_ACTIVES, NLRI_ITEM("0000", ""), MVPN_SHORT },
    { "NLRI shorter than its Length", SOURCE_ACTIVES, NLRI_ITEM("0003", "051200"), MVPN_SHORT },
    { "NLRI of type 8", SOURCE_ACTIVES, NLRI_ITEM("0002", "0800"), MVPN_TYPE },
    { "NLRI that ends inside its RD", SOURCE_ACTIVES, NLRI_ITEM("0003", "050100"), MVPN_LENGTH },
    { "an octet after the NLRI", SOURCE_ACTIVES, NLRI_ITEM("0015", ACTIVE("07", S1, G1) "00"), MVPN_LENGTH },
    { "an octet after an NLRI of type 1", SOURCE_ACTIVES, NLRI_ITEM("000F", "010C" RD("07") PE1 "00"), MVPN_LENGTH },
    { "an NLRI of AFI 2", SOURCE_ACTIVES, "0001 0004" PE2 ACTIVE6(IPV6("01"), ASM6), MVPN_WIDTH },
    { "a wildcard source", SOURCE_ACTIVES, NLRI_ITEM("0010", "050E" RD("07") "00 20" G1), MVPN_WIDTH },
    { "Leaf without a key", SOURCE_ACTIVES, NLRI_ITEM("0006", "0404" PE1), MVPN_KEY },
    { "a route for an SSM group", SOURCE_ACTIVES, NLRI_ITEM("0014", ACTIVE("07", S1, SSM)), MVPN_GROUP },
    { "a route for an SSM group, and an octet after it", SOURCE_ACTIVES, NLRI_ITEM("0015", ACTIVE("07", S1, SSM) "00"), MVPN_LENGTH },
    { "an NLRI of type 1", SOURCE_ACTIVES, NLRI_ITEM("000E", "010C" RD("07") PE1), MVPN_KIND },
    { "an NLRI of type 3", SOURCE_ACTIVES, NLRI_ITEM("0010", ANY_ROUTE("07", PE1)), MVPN_KIND },
    { "an NLRI of type 7", SOURCE_ACTIVES, NLRI_ITEM("0018", "0716" RD("07") "0000FDE8 20" S1 "20" G1), MVPN_KIND },
    { "the second NLRI's fault", SOURCE_ACTIVES, "0002" ITEM(PE1, S1, G1) "0004" PE1 "0002 0800", MVPN_TYPE },
    { "KIND of the first before TYPE of the second",
      SOURCE_ACTIVES, "0002 0004" PE1 "0010" ANY_ROUTE("07", PE1) "0004" PE1 "0002 0800", MVPN_KIND },
    { "TYPE of the first before KIND of the second",
      SOURCE_ACTIVES, "0002 0004" PE1 "0002 0800 0004" PE1 "0010" ANY_ROUTE("07", PE1), MVPN_TYPE },
    { "output of 123 octets", OUTPUT, NULL, MVPN_SPACE },
};

/* One argument made wrong. */
static void apply(const fault *f, tree *t, lent *table, lent *output)
{
    switch (f->wrong) {
    case TABLE: table->size--; break;
    case ROUTER: t->router = f->text; break;
    case GROUP: t->group = f->text; break;
    case SOURCE_ACTIVES: t->source_actives = f->text; break;
    case STATES: t->states = f->text; break;
    case OUTPUT: output->size--; break;
    }
}

/* Two faults, which may be one, in a call that otherwise matches, or has no route. */
static void refuse(const fault *first, const fault *second, lent table, lent output, tree t)
{
    char shows[160];
    lent cut = table, lent_output = output;
    snprintf(shows, sizeof shows, "%s; %s", first->shows, second->shows);
    apply(first, &t, &cut, &lent_output);
    if (second != first)
        apply(second, &t, &cut, &lent_output);
    refused_matched(shows, match_shared(cut, &t, lent_output), output, first->number);
}

static void refusals(lent table)
{
    static const tree matches = { PE1, G1, ALL, NULL, NULL }, nothing = { PE2, G1, NOTHING, NULL, NULL };
    static const tree ssm = { PE1, SSM, ALL, NULL, NULL };
    lent before = copy_of(table), output = lent_of(MVPN_MATCH_OUTPUT, FILL);
    for (size_t i = 0; i < ROWS(faults); i++)
        for (size_t j = i; j < ROWS(faults); j++)
            if (j == i || faults[i].wrong != faults[j].wrong) {
                refuse(&faults[i], &faults[j], table, output, matches);
                refuse(&faults[i], &faults[j], table, output, nothing);
                refuse(&faults[i], &faults[j], table, output, ssm);
            }
    same_table("a refused match leaves the table", table, before);
    free(before.at);
    free(output.at);
}

/* ---- the header's helpers */

static void list_starts(void)
{
    lent list = lent_of(3, FILL);
    same("a list in no octets", "size", mvpn_list_start(list.at, 0, 1), 0);
    same("a list in one octet", "size", mvpn_list_start(list.at, 1, 1), 0);
    untouched("a list without space", list);
    same("a list in two octets", "size", mvpn_list_start(list.at, 2, 258), 2);
    same_output("a list of 258 items", list, (uint8_t[]){ 1, 2 }, 2);
    same_octets("the list of no items", "octets", mvpn_no_items, (uint8_t[]){ 0, 0 }, sizeof mvpn_no_items);
    free(list.at);
}

static void list_fields(void)
{
    static const uint8_t field[] = { 7, 8, 9 };
    lent list = lent_of(10, FILL);
    same("a field of a list that was not started", "size", mvpn_list_field(list.at, 10, 0, field, 3), 0);
    same("a field inside the count", "size", mvpn_list_field(list.at, 10, 1, field, 3), 0);
    same("a field past the space", "size", mvpn_list_field(list.at, 10, 11, field, 0), 0);
    same("a field one octet too long", "size", mvpn_list_field(list.at, 10, 6, field, 3), 0);
    same("no octet for a field's size", "size", mvpn_list_field(list.at, 10, 10, field, 0), 0);
    same("one octet for a field's size", "size", mvpn_list_field(list.at, 10, 9, field, 0), 0);
    untouched("fields without space", list);
    same("a list", "size", mvpn_list_start(list.at, 10, 1), 2);
    same("a field of no octets", "size", mvpn_list_field(list.at, 10, 2, field, 0), 4);
    same("a field", "size", mvpn_list_field(list.at, 10, 4, field, 3), 9);
    same_output("an item of two fields", list, (uint8_t[]){ 0, 1, 0, 0, 0, 3, 7, 8, 9 }, 9);
    free(list.at);
}

static void longest_field(void)
{
    lent list = lent_of(65540, FILL), field = lent_of(65536, 1);
    same("a field of 65,536 octets", "size", mvpn_list_field(list.at, list.size, 2, field.at, 65536), 0);
    same("SIZE_MAX octets", "size", mvpn_list_field(list.at, list.size, 2, field.at, SIZE_MAX), 0);
    untouched("fields that are too long", list);
    same("a field of 65,535 octets", "size", mvpn_list_field(list.at, list.size, 2, field.at, 65535), 65539);
    same_octets("a field of 65,535 octets", "its size", list.at + 2, (uint8_t[]){ 0xFF, 0xFF, 1 }, 3);
    same_octets("a field of 65,535 octets", "its end", list.at + 65538, (uint8_t[]){ 1, FILL }, 2);
    free(list.at);
    free(field.at);
}

static void list_prefixes(void)
{
    static const uint8_t address[17] = { 239, 232, 4 };
    static const uint8_t expected[] = { 0, 2, 0, 5, 22, 239, 232, 4, 0, 0, 1, 255 };
    lent list = lent_of(14, FILL), longest = lent_of(MVPN_LONGEST_PREFIXES, FILL);
    size_t size;
    same("a prefix of a list that was not started", "size", mvpn_list_prefix(list.at, 13, 0, address, 4, 22), 0);
    same("a prefix one octet too long", "size", mvpn_list_prefix(list.at, 8, 2, address, 4, 22), 0);
    same("a prefix of 17 octets", "size", mvpn_list_prefix(longest.at, longest.size, 2, address, 17, 22), 0);
    same("a prefix of SIZE_MAX octets", "size", mvpn_list_prefix(longest.at, longest.size, 2, address, SIZE_MAX, 22), 0);
    untouched("a prefix that is not written", list);
    untouched("a prefix that is not written", longest);
    size = mvpn_list_start(list.at, 12, 2);
    size = mvpn_list_prefix(list.at, 12, size, address, 4, 22);
    same("a prefix", "size", size, 9);
    size = mvpn_list_prefix(list.at, 12, size, address, 0, 255);
    same("a length alone", "size", size, 12);
    same_output("prefixes", list, expected, sizeof expected);
    size = mvpn_list_start(longest.at, longest.size, MVPN_MOST_PREFIXES);
    for (unsigned i = 0; i < MVPN_MOST_PREFIXES; i++)
        size = mvpn_list_prefix(longest.at, longest.size, size, address, 16, 22);
    same("the longest prefixes", "size", size, MVPN_LONGEST_PREFIXES);
    free(list.at);
    free(longest.at);
}

/* ---- the most items, by the helpers */

/* 256 items of two fields; the octet of an item that `numbered` says, counted from its first field, is the item's number. */
static lent most_items(const char *first_text, const char *second_text, size_t numbered)
{
    lent first = hex(first_text), second = hex(second_text);
    lent list = lent_of(2 + 256 * (2 + first.size + 2 + second.size), 0);
    size_t size = mvpn_list_start(list.at, list.size, MVPN_MOST_ITEMS);
    for (unsigned i = 0; i < MVPN_MOST_ITEMS; i++) {
        *(numbered < first.size ? first.at + numbered : second.at + numbered - first.size) = (uint8_t)i;
        size = mvpn_list_field(list.at, list.size, size, first.at, first.size);
        size = mvpn_list_field(list.at, list.size, size, second.at, second.size);
    }
    same("256 items", "size of the list", size, list.size);
    free(first.at);
    free(second.at);
    return list;
}

/* Source Active routes of 192.0.2.0 to 192.0.2.255, and a state of each; the last state is then of another group. */
static void most(lent table)
{
    const tree t = { PE1, G1, NOTHING, NULL, NULL };
    lent actives = most_items(PE1, ACTIVE("07", "C0000200", G1), 4 + 14), states = most_items("C0000200", G1, 3);
    lent output = lent_of(MVPN_MATCH_OUTPUT, FILL);
    same_matched("256 routes with their states", match_lists(table, &t, actives, states, output), output, 0, NULL);
    states.at[states.size - 1] ^= 1;
    same_matched("the last of 256 without its state", match_lists(table, &t, actives, states, output), output, 3, group_of_pe1);
    memset(output.at, FILL, output.size);
    states.size--;
    refused_matched("256 states cut short by an octet", match_lists(table, &t, actives, states, output), output, MVPN_SHORT);
    free(actives.at);
    free(states.at);
    free(output.at);
}

int main(void)
{
    lent table = holding(1, ROWS(routes), routes, ROWS(routes));
    answer_all(table, answers, ROWS(answers));
    refusals(table);
    most(table);
    free(table.at);
    ipv6();
    list_starts();
    list_fields();
    list_prefixes();
    longest_field();
    return verdict("C shared trees");
}
