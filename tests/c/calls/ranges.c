/*
 * Prefixes that say which groups are SSM: the class of a group, matches, explanations and matches for shared trees by them. The
 * expected answers are written from document 02, W-209, and from the texts of mvpn.h, not from any program.
 */
#include "tiers.h"

#include <stdbool.h>

enum { TAKEN = MVPN_TAKEN, NO_ROUTE = MVPN_NO_SUCH_ROUTE, CLASS = MVPN_WRONG_GROUP_CLASS, EARLIER = MVPN_EARLIER_TIER_WON };

/* A prefix of an IPv4 and of an IPv6 address, as an item of the list. */
#define PREFIX(length, address) "0005 " length " " address " "
#define PREFIX6(length, address) "0011 " length " " address " "

#define IN_239 "0001 " PREFIX("08", "EF000000")
#define BIT_SET "0001 " PREFIX("08", "EF000001")
#define NO_PREFIX NULL

/* 239.0.0.1 to 239.0.0.8, and one more. */
#define EIGHT_PREFIXES PREFIX("20", "EF000001") PREFIX("20", "EF000002") PREFIX("20", "EF000003") PREFIX("20", "EF000004") \
    PREFIX("20", "EF000005") PREFIX("20", "EF000006") PREFIX("20", "EF000007") PREFIX("20", "EF000008")
#define EIGHT "0008 " EIGHT_PREFIXES
#define NINE "0009 " EIGHT_PREFIXES PREFIX("20", "EF000009")

#define FF3E(group) "FF3E" group " 00000000 00000000 00000001"

/* ---- the class of a group */

typedef struct {
    const char *shows;
    uint16_t afi;
    const char *prefixes, *group;
    uint32_t number, group_class;
} class_row;

static const class_row classes[] = {
    { "none given: 232/8 is SSM", 1, NO_PREFIX, "E8010101", MVPN_DONE, MVPN_SSM },
    { "none given: 239/8 is ASM", 1, NO_PREFIX, "EF010101", MVPN_DONE, MVPN_ASM },
    { "none given, and octets after", 1, "0000 0001", "E8010101", MVPN_DONE, MVPN_SSM },
    { "239/8 given", 1, IN_239, "EF010101", MVPN_DONE, MVPN_SSM },
    { "239/8 given: 232/8 is ASM", 1, IN_239, "E8010101", MVPN_DONE, MVPN_ASM },
    { "its first address", 1, IN_239, "EF000000", MVPN_DONE, MVPN_SSM },
    { "its last address", 1, IN_239, "EFFFFFFF", MVPN_DONE, MVPN_SSM },
    { "the address before", 1, IN_239, "EEFFFFFF", MVPN_DONE, MVPN_ASM },
    { "239/8 and 232/8", 1, "0002 " PREFIX("08", "EF000000") PREFIX("08", "E8000000"), "E8010101", MVPN_DONE, MVPN_SSM },
    { "one in the other", 1, "0002 " PREFIX("10", "EF010000") PREFIX("08", "EF000000"), "EF020101", MVPN_DONE, MVPN_SSM },
    { "one twice", 1, "0002 " PREFIX("08", "EF000000") PREFIX("08", "EF000000"), "EF020101", MVPN_DONE, MVPN_SSM },
    { "length 0", 1, "0001 " PREFIX("00", "00000000"), "E0000001", MVPN_DONE, MVPN_SSM },
    { "length 0 behind another", 1, "0002 " PREFIX("20", "EF010101") PREFIX("00", "00000000"), "E0000001", MVPN_DONE, MVPN_SSM },
    { "length 0, no multicast", 1, "0001 " PREFIX("00", "00000000"), "DFFFFFFF", MVPN_FLOW, 0 },
    { "length 22", 1, "0001 " PREFIX("16", "EF010400"), "EF0107FF", MVPN_DONE, MVPN_SSM },
    { "length 22, the address after", 1, "0001 " PREFIX("16", "EF010400"), "EF010800", MVPN_DONE, MVPN_ASM },
    { "length 32", 1, "0001 " PREFIX("20", "EF010101"), "EF010101", MVPN_DONE, MVPN_SSM },
    { "length 32, another address", 1, "0001 " PREFIX("20", "EF010101"), "EF010103", MVPN_DONE, MVPN_ASM },
    { "outside multicast", 1, "0001 " PREFIX("08", "0A000000"), "E8010101", MVPN_DONE, MVPN_ASM },
    { "outside multicast, as its addresses", 1, "0001 " PREFIX("08", "0A000000"), "0A010101", MVPN_FLOW, 0 },
    { "the first of eight", 1, EIGHT, "EF000001", MVPN_DONE, MVPN_SSM },
    { "the eighth", 1, EIGHT, "EF000008", MVPN_DONE, MVPN_SSM },
    { "none of eight", 1, EIGHT, "EF000009", MVPN_DONE, MVPN_ASM },
    { "nine", 1, NINE, "EF000001", MVPN_RANGE, 0 },
    { "FF3E:1::/32", 2, "0001 " PREFIX6("20", "FF3E0001 00000000 00000000 00000000"), FF3E("0001"), MVPN_DONE, MVPN_SSM },
    { "FF3E:1::/32: FF3E::/32 is ASM", 2, "0001 " PREFIX6("20", "FF3E0001 00000000 00000000 00000000"), FF3E("0000"), MVPN_DONE,
      MVPN_ASM },
    { "IPv6, length 127", 2, "0001 " PREFIX6("7F", "FF3E0001 00000000 00000000 00000000"), FF3E("0001"), MVPN_DONE, MVPN_SSM },
    { "IPv6, length 128", 2, "0001 " PREFIX6("80", "FF3E0001 00000000 00000000 00000000"), FF3E("0001"), MVPN_DONE, MVPN_ASM },
    { "IPv6, length 0", 2, "0001 " PREFIX6("00", "00000000 00000000 00000000 00000000"), FF3E("0001"), MVPN_DONE, MVPN_SSM },

    { "no octets", 1, "", "E8010101", MVPN_SHORT, 0 },
    { "one octet, over eight", 1, "09", "E8010101", MVPN_SHORT, 0 },
    { "a count without its prefix", 1, "0001", "E8010101", MVPN_SHORT, 0 },
    { "half a size", 1, "0001 00", "E8010101", MVPN_SHORT, 0 },
    { "an address cut", 1, "0001 0005 08 EF0000", "E8010101", MVPN_SHORT, 0 },
    { "SHORT before a bad prefix", 1, "0002 " PREFIX("08", "EF000001"), "E8010101", MVPN_SHORT, 0 },
    { "SHORT before FLOW", 1, "0001", "0A010101", MVPN_SHORT, 0 },
    { "nine before SHORT", 1, "0009", "E8010101", MVPN_RANGE, 0 },
    { "65,535 before SHORT", 1, "FFFF", "E8010101", MVPN_RANGE, 0 },
    { "256 before SHORT", 1, "0100", "E8010101", MVPN_RANGE, 0 },
    { "nine before FLOW", 1, "0009", "", MVPN_RANGE, 0 },
    { "an empty field", 1, "0001 0000", "E8010101", MVPN_RANGE, 0 },
    { "a length alone", 1, "0001 0001 00", "E8010101", MVPN_RANGE, 0 },
    { "three octets of address", 1, "0001 0004 08 EF0000", "E8010101", MVPN_RANGE, 0 },
    { "five octets of address", 1, "0001 0006 08 EF00000000", "E8010101", MVPN_RANGE, 0 },
    { "an IPv6 prefix under AFI 1", 1, "0001 " PREFIX6("08", "FF000000 00000000 00000000 00000000"), "E8010101", MVPN_RANGE, 0 },
    { "an IPv4 prefix under AFI 2", 2, IN_239, FF3E("0000"), MVPN_RANGE, 0 },
    { "length 33", 1, "0001 " PREFIX("21", "EF010101"), "EF010101", MVPN_RANGE, 0 },
    { "length 255", 1, "0001 " PREFIX("FF", "EF010101"), "EF010101", MVPN_RANGE, 0 },
    { "length 129", 2, "0001 " PREFIX6("81", "FF3E0001 00000000 00000000 00000001"), FF3E("0001"), MVPN_RANGE, 0 },
    { "a bit past the length", 1, BIT_SET, "EF010101", MVPN_RANGE, 0 },
    { "the bit next to the length", 1, "0001 " PREFIX("07", "EF000000"), "EF010101", MVPN_RANGE, 0 },
    { "a bad prefix behind one that holds the group", 1, "0002 " PREFIX("08", "EF000000") PREFIX("08", "EF000001"), "EF010101",
      MVPN_RANGE, 0 },
    { "a bad prefix before FLOW", 1, BIT_SET, "0A010101", MVPN_RANGE, 0 },
    { "a bad prefix before a group of another size", 1, BIT_SET, "EF", MVPN_RANGE, 0 },
    { "a good prefix, and FLOW", 1, IN_239, "0A010101", MVPN_FLOW, 0 },
    { "a good prefix, and a group of another size", 1, IN_239, "EF", MVPN_FLOW, 0 },
    { "FAMILY before nine", 3, "0009", "EF010101", MVPN_FAMILY, 0 },
    { "FAMILY before SHORT", 0, "", "", MVPN_FAMILY, 0 },
    { "FAMILY before a bad prefix", 257, BIT_SET, "EF010101", MVPN_FAMILY, 0 },
};

static void same_class(const char *shows, uint16_t afi, lent prefixes, lent group, uint32_t number, uint32_t group_class)
{
    mvpn_group g = mvpn_group_class(afi, prefixes.at, prefixes.size, group.at, group.size);
    same(shows, "number", g.number, number);
    same(shows, "group_class", g.group_class, group_class);
}

static void class_of(const class_row *row)
{
    lent prefixes = list_of(row->prefixes), group = hex(row->group);
    same_class(row->shows, row->afi, prefixes, group, row->number, row->group_class);
    free(prefixes.at);
    free(group.at);
}

/* ---- every length, and each bit past it */

static void flip(uint8_t *address, size_t bit)
{
    address[bit / 8] ^= (uint8_t)(0x80 >> bit % 8);
}

/* The prefix of a group whose bits are all set: its own bits are ones, and those past the length zeros. */
static lent prefix_of_ones(size_t size, size_t length)
{
    uint8_t field[1 + 16] = { (uint8_t)length };
    lent list = lent_of(2 + 2 + 1 + size, 0);
    for (size_t bit = 0; bit < length; bit++)
        flip(field + 1, bit);
    same("a list of one prefix", "size",
         mvpn_list_field(list.at, list.size, mvpn_list_start(list.at, list.size, 1), field, 1 + size), list.size);
    return list;
}

/* The group of ones is 239.255.255.255, or all ones under AFI 2; a prefix's first bits are the group's. */
static void lengths(uint16_t afi, size_t size, size_t multicast)
{
    lent group = lent_of(size, 0xFF);
    if (afi == MVPN_AFI_IPV4)
        group.at[0] = 0xEF;
    for (size_t length = 0; length <= 8 * size; length++) {
        lent list = prefix_of_ones(size, length);
        uint8_t *address = list.at + 5;
        if (afi == MVPN_AFI_IPV4 && length > 3)
            flip(address, 3);
        same_class("a prefix of each length", afi, list, group, MVPN_DONE, MVPN_SSM);
        for (size_t bit = 0; bit < 8 * size; bit++) {
            flip(group.at, bit);
            same_class("a group with each bit another", afi, list, group, bit < multicast ? MVPN_FLOW : MVPN_DONE,
                       bit < multicast ? 0 : bit < length ? MVPN_ASM : MVPN_SSM);
            flip(group.at, bit);
            flip(address, bit);
            same_class("a prefix with each bit another", afi, list, group, bit < length ? MVPN_DONE : MVPN_RANGE,
                       bit < length ? MVPN_ASM : 0);
            flip(address, bit);
        }
        free(list.at);
    }
    free(group.at);
}

/* ---- a list cut at every octet: SHORT, of nine RANGE where the count is whole */

static void cuts(const char *shows, const char *text, uint32_t number, uint32_t group_class, uint32_t cut_number)
{
    lent whole = hex(text), group = hex("EF000008");
    same_class(shows, 1, whole, group, number, group_class);
    for (size_t size = 0; size < whole.size; size++) {
        lent cut = lent_of(size, 0);
        memcpy(cut.at, whole.at, size);
        same_class(shows, 1, cut, group, size < MVPN_LIST_COUNT ? MVPN_SHORT : cut_number, 0);
        free(cut.at);
    }
    free(whole.at);
    free(group.at);
}

/* ---- matches, explanations and matches for shared trees */

#define A_NLRI TIER_1("07", SSM)
#define B_NLRI TIER_2("07")
#define C_NLRI TIER_3("07", ASM)
#define D_NLRI TIER_4("07")
#define E_NLRI TIER_3("07", "E8090909 ")

/* Document 01's routes A to E, and which of them is taken. */
static const route marked[] = {
    { A_NLRI, TUNNEL("10") }, { B_NLRI, TUNNEL("20") }, { C_NLRI, TUNNEL("30") }, { D_NLRI, TUNNEL("40") }, { E_NLRI, TUNNEL("50") },
};
static const route *const a_route = &marked[0], *const b_route = &marked[1], *const c_route = &marked[2],
                   *const d_route = &marked[3], *const e_route = &marked[4];

typedef struct {
    const char *shows, *prefixes, *source, *group;
    uint32_t tier;
    const route *const *taken; /* NULL: no route */
    uint32_t reasons[4];
    uint32_t shared_tier; /* of the group's shared tree, the PE upstream */
    const route *const *shared;
} match_row;

static const match_row rows[] = {
    { "P1, none given", NO_PREFIX, SOURCE, SSM, 1, &a_route, { TAKEN, EARLIER, EARLIER, EARLIER }, 0, NULL },
    { "P1, ASM by 239/8", IN_239, SOURCE, SSM, 1, &a_route, { TAKEN, EARLIER, EARLIER, EARLIER }, 4, &d_route },
    { "P2, none given", NO_PREFIX, SOURCE, "E8010102", 2, &b_route, { NO_ROUTE, TAKEN, EARLIER, EARLIER }, 0, NULL },
    { "P2, ASM by 239/8: not B", IN_239, SOURCE, "E8010102", 4, &d_route, { NO_ROUTE, CLASS, NO_ROUTE, TAKEN }, 4, &d_route },
    { "P3, none given: C, not B", NO_PREFIX, SOURCE, ASM, 3, &c_route, { NO_ROUTE, CLASS, TAKEN, EARLIER }, 3, &c_route },
    { "P3, SSM by 239/8: B, not C", IN_239, SOURCE, ASM, 2, &b_route, { NO_ROUTE, TAKEN, EARLIER, EARLIER }, 0, NULL },
    { "P3, SSM by length 0", "0001 " PREFIX("00", "00000000"), SOURCE, ASM, 2, &b_route, { NO_ROUTE, TAKEN, EARLIER, EARLIER }, 0, NULL },
    { "P3, ASM by eight others", EIGHT, SOURCE, ASM, 3, &c_route, { NO_ROUTE, CLASS, TAKEN, EARLIER }, 3, &c_route },
    { "another source, SSM by 239/8: not C", IN_239, "C0000202", ASM, 4, &d_route, { NO_ROUTE, NO_ROUTE, CLASS, TAKEN }, 0, NULL },
    { "P5, none given: D, not E", NO_PREFIX, "C0000202", "E8090909", 4, &d_route, { NO_ROUTE, NO_ROUTE, CLASS, TAKEN }, 0, NULL },
    { "P5, ASM by 239/8: E", IN_239, "C0000202", "E8090909", 3, &e_route, { NO_ROUTE, CLASS, TAKEN, EARLIER }, 3, &e_route },
    { "P5, ASM by a prefix outside multicast: E", "0001 " PREFIX("08", "0A000000"), "C0000202", "E8090909", 3, &e_route,
      { NO_ROUTE, CLASS, TAKEN, EARLIER }, 3, &e_route },
    { "239.0.0.8, SSM as the eighth", EIGHT, SOURCE, "EF000008", 2, &b_route, { NO_ROUTE, TAKEN, EARLIER, EARLIER }, 0, NULL },
    { "239.0.0.9, ASM behind the eighth", EIGHT, SOURCE, "EF000009", 4, &d_route, { NO_ROUTE, CLASS, NO_ROUTE, TAKEN }, 4, &d_route },
};

static const mvpn_tree_facts upstream = { 1, 0, 0 };

/* What a call is asked, as octets. */
typedef struct { lent table, prefixes, router, source, group; } asked;

static asked asked_of(lent table, const char *prefixes, flow f)
{
    return (asked){ table, list_of(prefixes), hex(f.router), hex(f.source), hex(f.group) };
}

static void free_asked(asked q)
{
    free(q.prefixes.at);
    free(q.router.at);
    free(q.source.at);
    free(q.group.at);
}

static mvpn_explained explain_by(asked q, lent output)
{
    return mvpn_explain(q.table.at, q.table.size, q.prefixes.at, q.prefixes.size, q.router.at, q.router.size, q.source.at,
                        q.source.size, q.group.at, q.group.size, output.at, output.size);
}

static mvpn_matched match_shared_by(asked q, lent actives, lent states, lent output)
{
    return mvpn_match_shared(q.table.at, q.table.size, q.prefixes.at, q.prefixes.size, q.router.at, q.router.size, q.group.at,
                             q.group.size, upstream, actives.at, actives.size, states.at, states.size, output.at, output.size);
}

static void ask(const match_row *row, lent table)
{
    flow f = { ROUTER, row->source, row->group };
    asked q = asked_of(table, row->prefixes, f);
    lent output = lent_of(MVPN_MATCH_OUTPUT + 1, FILL), none = list_of(NULL);
    same_matched(row->shows, match_by(table, row->prefixes, f, output), output, row->tier, row->taken ? *row->taken : NULL);
    memset(output.at, FILL, output.size);
    mvpn_explained why = explain_by(q, output);
    same_matched(row->shows, why.matched, output, row->tier, row->taken ? *row->taken : NULL);
    for (size_t i = 0; i < 4; i++)
        same(row->shows, "reason", why.reasons[i], row->reasons[i]);
    memset(output.at, FILL, output.size);
    same_matched(row->shows, match_shared_by(q, none, none, output), output, row->shared_tier, row->shared ? *row->shared : NULL);
    free_asked(q);
    free(none.at);
    free(output.at);
}

/* Each row on its own and behind every other one: a call keeps nothing of another's prefixes. */
static void ask_all(void)
{
    lent table = holding(1, ROWS(marked), marked, ROWS(marked)), before = copy_of(table);
    for (size_t i = 0; i < ROWS(rows); i++)
        for (size_t j = 0; j < ROWS(rows); j++) {
            ask(&rows[i], table);
            ask(&rows[j], table);
        }
    same_table("matches by prefixes", table, before);
    free(table.at);
    free(before.at);
}

/* ---- refusals, in their order */

typedef struct {
    const char *shows, *prefixes;
    flow flow;
    size_t table, output; /* octets lent */
    uint32_t number;
} refused_row;

#define WHOLE MVPN_TABLE_SIZE(5)

static const refused_row refusals[] = {
    { "TABLE before nine", "0009", { ROUTER, SOURCE, SSM }, WHOLE - 1, 124, MVPN_TABLE },
    { "TABLE before SHORT", "", { ROUTER, SOURCE, SSM }, WHOLE - 1, 124, MVPN_TABLE },
    { "TABLE before a bad prefix", BIT_SET, { ROUTER, SOURCE, SSM }, 0, 124, MVPN_TABLE },
    { "nine", NINE, { ROUTER, SOURCE, SSM }, WHOLE, 124, MVPN_RANGE },
    { "nine before SHORT, FLOW and SPACE", "0009", { "", "", "" }, WHOLE, 0, MVPN_RANGE },
    { "SHORT", "0001", { ROUTER, SOURCE, SSM }, WHOLE, 124, MVPN_SHORT },
    { "no octets", "", { ROUTER, SOURCE, SSM }, WHOLE, 124, MVPN_SHORT },
    { "SHORT before a bad prefix, FLOW and SPACE", "0002 " PREFIX("21", "EF000000"), { "", "", "" }, WHOLE, 0, MVPN_SHORT },
    { "a set bit", BIT_SET, { ROUTER, SOURCE, SSM }, WHOLE, 124, MVPN_RANGE },
    { "length 33", "0001 " PREFIX("21", "EF000000"), { ROUTER, SOURCE, SSM }, WHOLE, 124, MVPN_RANGE },
    { "an empty field", "0001 0000", { ROUTER, SOURCE, SSM }, WHOLE, 124, MVPN_RANGE },
    { "a prefix of the other family", "0001 " PREFIX6("08", "FF000000 00000000 00000000 00000000"),
      { ROUTER, SOURCE, "FF0E0000 00000000 00000000 00000001" }, WHOLE, 124, MVPN_RANGE },
    { "a set bit before FLOW and SPACE", BIT_SET, { "", "", "" }, WHOLE, 0, MVPN_RANGE },
    { "a good prefix, router of 5 octets", IN_239, { "0A00000101", SOURCE, SSM }, WHOLE, 0, MVPN_FLOW },
    { "a good prefix, group 10.1.1.1 of it", "0001 " PREFIX("08", "0A000000"), { ROUTER, SOURCE, "0A010101" }, WHOLE, 124, MVPN_FLOW },
    { "a good prefix, output of 123 octets", IN_239, { ROUTER, SOURCE, SSM }, WHOLE, 123, MVPN_SPACE },
};

static void refuse(const refused_row *r, lent table)
{
    lent output = lent_of(r->output, FILL), before = copy_of(table), cut = { table.at, r->table }, none = list_of(NULL);
    asked q = asked_of(cut, r->prefixes, r->flow);
    refused_matched(r->shows, match_by(cut, r->prefixes, r->flow, output), output, r->number);
    mvpn_explained why = explain_by(q, output);
    refused_matched(r->shows, why.matched, output, r->number);
    for (size_t i = 0; i < 4; i++)
        same(r->shows, "reason", why.reasons[i], 0);
    refused_matched(r->shows, match_shared_by(q, none, none, output), output, r->number);
    same_table(r->shows, table, before);
    free_asked(q);
    free(output.at);
    free(before.at);
    free(none.at);
}

/* The other lists of a shared tree come behind the prefixes: what is wrong with them, and the number where the prefixes are good. */
static const struct {
    const char *shows, *actives, *states;
    uint32_t number;
} lists[] = {
    { "257 Source Active routes", "0101", NULL, MVPN_LONG },
    { "257 states", NULL, "0101", MVPN_LONG },
    { "Source Active routes that end early", "0001", NULL, MVPN_SHORT },
    { "states of no octets", NULL, "", MVPN_SHORT },
    { "an originator of 3 octets", "0001 0003 0A0000 0000", NULL, MVPN_FLOW },
    { "an unknown type", "0001 0004 0A000001 0002 0900", NULL, MVPN_TYPE },
};

static void refuse_lists(lent table)
{
    static const struct { const char *prefixes; uint32_t number; } given[] = {
        { NO_PREFIX, MVPN_DONE }, { IN_239, MVPN_DONE }, { NINE, MVPN_RANGE }, { "0009", MVPN_RANGE },
        { "00", MVPN_SHORT }, { "0001", MVPN_SHORT }, { BIT_SET, MVPN_RANGE },
    };
    for (size_t i = 0; i < ROWS(lists); i++)
        for (size_t j = 0; j < ROWS(given); j++) {
            lent output = lent_of(0, FILL), actives = list_of(lists[i].actives), states = list_of(lists[i].states);
            asked q = asked_of(table, given[j].prefixes, (flow){ ROUTER, SOURCE, ASM });
            refused_matched(lists[i].shows, match_shared_by(q, actives, states, output), output,
                            given[j].number ? given[j].number : lists[i].number);
            free_asked(q);
            free(output.at);
            free(actives.at);
            free(states.at);
        }
}

/* ---- AFI 2 */

static void ipv6(void)
{
    static const route routes[] = {
        { "032A " RD("07") "80 " IPV6("01") "00 " IPV6("02"), TUNNEL("10") },
        { "032A " RD("07") "00 80 " FF3E("0000") IPV6("02"), TUNNEL("20") },
    };
    const flow f = { IPV6("02"), IPV6("01"), FF3E("0000") };
    lent table = holding(2, 2, routes, ROWS(routes)), output = lent_of(MVPN_MATCH_OUTPUT, FILL);
    same_matched("AFI 2, none given", match_by(table, NO_PREFIX, f, output), output, 2, &routes[0]);
    memset(output.at, FILL, output.size);
    same_matched("AFI 2, ASM by FF3E:1::/32",
                 match_by(table, "0001 " PREFIX6("20", "FF3E0001 00000000 00000000 00000000"), f, output), output, 3, &routes[1]);
    memset(output.at, FILL, output.size);
    same_matched("AFI 2, SSM by FF3E::/31",
                 match_by(table, "0001 " PREFIX6("1F", "FF3E0000 00000000 00000000 00000000"), f, output), output, 2, &routes[0]);
    memset(output.at, FILL, output.size);
    refused_matched("AFI 2, an IPv4 prefix", match_by(table, IN_239, f, output), output, MVPN_RANGE);
    free(table.at);
    free(output.at);
}

int main(void)
{
    for (size_t i = 0; i < ROWS(classes); i++)
        class_of(&classes[i]);
    lengths(MVPN_AFI_IPV4, 4, 4);
    lengths(MVPN_AFI_IPV6, 16, 8);
    cuts("eight prefixes cut", EIGHT, MVPN_DONE, MVPN_SSM, MVPN_SHORT);
    cuts("nine prefixes cut", NINE, MVPN_RANGE, 0, MVPN_RANGE);
    cuts("a bad prefix cut", BIT_SET, MVPN_RANGE, 0, MVPN_SHORT);
    ask_all();
    lent table = holding(1, ROWS(marked), marked, ROWS(marked));
    for (size_t i = 0; i < ROWS(refusals); i++)
        refuse(&refusals[i], table);
    refuse_lists(table);
    free(table.at);
    ipv6();
    return verdict("C ranges");
}
