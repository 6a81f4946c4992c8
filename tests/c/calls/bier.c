/*
 * Bit strings of BIER packets. The expected answers and strings are written from documents 01 and 02 (W-211), RFC 8556 and RFC 8279, not
 * from any program.
 */
#include "checks.h"

#include <stdbool.h>
#include <stddef.h>

/* Callers are built with these. */
_Static_assert(sizeof(mvpn_egress) == 8 && offsetof(mvpn_egress, routers) == 4, "mvpn_egress");
_Static_assert(MVPN_BIER_STRING == 32 && MVPN_MOST_LEAVES == 1024, "a string, and the most Leaves");

/* ---- the route: (192.0.2.1, 232.1.1.1) of 10.0.0.1, with LIR, BIER, label 1, sub-domain 1, its own BFR-id 9 */

#define RD(n) "00000064000000" n " "
#define ROUTE "0316 " RD("07") "20 C0000201 20 E8010101 0A000001 "
#define TUNNEL "01 0B 000010 01 0009 0A000001"

/* ---- items of a list: a Leaf with this key and originator 10.0.0.2, and this attribute; sizes stand before both */

#define OF_KEY(size, length, key, attribute) size " 04" length " " key "0A000002 " attribute
#define OF_ROUTE(attribute) OF_KEY("001E", "1C", ROUTE, attribute)
#define BIER(sub_domain, id) "000C 00 0B 000000 " sub_domain " " id " 0A000002 "
#define LEAF(id) OF_ROUTE(BIER("01", id))

#define IPV6(n) "20010DB8 00000000 00000000 000000" n " "

/* ---- strings, in words of eight octets */

#define NONE "0000000000000000 "
#define ALL "FFFFFFFFFFFFFFFF "
#define EMPTY NONE NONE NONE NONE
#define FIRST NONE NONE NONE "0000000000000001"
#define LAST "8000000000000000 " NONE NONE NONE

static mvpn_egress string_of(uint16_t afi, const char *nlri_text, const char *attribute_text, uint8_t set, lent leaves, lent output)
{
    lent nlri = hex(nlri_text), attribute = hex(attribute_text), before = copy_of(leaves);
    mvpn_egress e = mvpn_bier_string(afi, nlri.at, nlri.size, attribute.at, attribute.size, set, leaves.at, leaves.size, output.at,
                                     output.size);
    same_octets(nlri_text, "the list afterwards", leaves.at, before.at, leaves.size);
    free(nlri.at);
    free(attribute.at);
    free(before.at);
    return e;
}

static void same_string(const char *shows, mvpn_egress e, lent output, const char *string_text, uint32_t routers)
{
    lent string = hex(string_text);
    same(shows, "octets of the string", string.size, MVPN_BIER_STRING);
    same(shows, "number", e.number, MVPN_DONE);
    same(shows, "routers", e.routers, routers);
    same_output(shows, output, string.at, string.size);
    free(string.at);
}

/* ---- answers for the route above */

typedef struct {
    const char *shows;
    uint8_t set;
    const char *leaves, *string;
    uint32_t routers;
} row;

static const row rows[] = {
    { "no Leaves", 0, "0000", EMPTY, 0 },
    { "octets after the last Leaf", 0, "0000 FFFF", EMPTY, 0 },
    { "BFR-id 1 is the lowest bit of the last octet", 0, "0001" LEAF("0001"), FIRST, 1 },
    { "BFR-id 2", 0, "0001" LEAF("0002"), NONE NONE NONE "0000000000000002", 1 },
    { "BFR-id 8", 0, "0001" LEAF("0008"), NONE NONE NONE "0000000000000080", 1 },
    { "BFR-id 9 is in the octet before", 0, "0001" LEAF("0009"), NONE NONE NONE "0000000000000100", 1 },
    { "BFR-id 64", 0, "0001" LEAF("0040"), NONE NONE NONE "8000000000000000", 1 },
    { "BFR-id 65", 0, "0001" LEAF("0041"), NONE NONE "0000000000000001" NONE, 1 },
    { "BFR-id 193", 0, "0001" LEAF("00C1"), "0000000000000001 " NONE NONE NONE, 1 },
    { "BFR-id 256 is the highest bit of the first octet", 0, "0001" LEAF("0100"), LAST, 1 },
    { "BFR-id 256 is not of set 1", 1, "0001" LEAF("0100"), EMPTY, 0 },
    { "BFR-id 257 is not of set 0", 0, "0001" LEAF("0101"), EMPTY, 0 },
    { "BFR-id 257 is the first of set 1", 1, "0001" LEAF("0101"), FIRST, 1 },
    { "BFR-id 512 is the last of set 1", 1, "0001" LEAF("0200"), LAST, 1 },
    { "BFR-id 65,280 is the last of set 254", 254, "0001" LEAF("FF00"), LAST, 1 },
    { "BFR-id 65,281 is the first of set 255", 255, "0001" LEAF("FF01"), FIRST, 1 },
    { "BFR-id 65,535 is position 255 of set 255", 255, "0001" LEAF("FFFF"), "4000000000000000 " NONE NONE NONE, 1 },
    { "BFR-id 65,535 is not of set 0", 0, "0001" LEAF("FFFF"), EMPTY, 0 },
    { "BFR-id 0 does not count", 0, "0001" LEAF("0000"), EMPTY, 0 },
    { "BFR-id 0 does not count in set 255", 255, "0001" LEAF("0000"), EMPTY, 0 },
    { "four routers", 0, "0004" LEAF("0100") LEAF("0001") LEAF("0003") LEAF("0002"), "8000000000000000 " NONE NONE "0000000000000007", 4 },
    { "three sets", 1, "0003" LEAF("0001") LEAF("0101") LEAF("0201"), FIRST, 1 },
    { "one BFR-id twice", 0, "0002" LEAF("0001") LEAF("0001"), FIRST, 1 },
    { "one BFR-id of two originators and with two prefixes", 0,
      "0002" LEAF("0001") "001E 041C " ROUTE "0A000003 0018 00 0B 000000 01 0001 " IPV6("03"), FIRST, 1 },
    { "an originator of 16 octets, label 1, every flag", 0,
      "0001 002A 0428 " ROUTE IPV6("02") "000C FF 0B 000010 01 0001 0A000002", FIRST, 1 },
    { "another sub-domain", 0, "0002" OF_ROUTE(BIER("02", "0001")) LEAF("0002"), NONE NONE NONE "0000000000000002", 1 },
    { "sub-domain 0", 0, "0001" OF_ROUTE(BIER("00", "0001")), EMPTY, 0 },
    { "ingress replication with the same octets", 0, "0001" OF_ROUTE("0009 00 06 000000 01 0001 0A"), EMPTY, 0 },
    { "no tunnel", 0, "0001" OF_ROUTE("0005 00 00 000000"), EMPTY, 0 },
    { "a key of another route distinguisher", 0,
      "0001" OF_KEY("001E", "1C", "0316 " RD("08") "20 C0000201 20 E8010101 0A000001 ", BIER("01", "0001")), EMPTY, 0 },
    { "a key of another source", 0,
      "0001" OF_KEY("001E", "1C", "0316 " RD("07") "20 C0000202 20 E8010101 0A000001 ", BIER("01", "0001")), EMPTY, 0 },
    { "a key of another group", 0,
      "0001" OF_KEY("001E", "1C", "0316 " RD("07") "20 C0000201 20 E8010102 0A000001 ", BIER("01", "0001")), EMPTY, 0 },
    { "a key of another originator", 0,
      "0001" OF_KEY("001E", "1C", "0316 " RD("07") "20 C0000201 20 E8010101 0A000002 ", BIER("01", "0001")), EMPTY, 0 },
    { "a key of wildcards", 0, "0001" OF_KEY("0016", "14", "030E " RD("07") "00 00 0A000001 ", BIER("01", "0001")), EMPTY, 0 },
    { "a key of type 1", 0, "0001" OF_KEY("0014", "12", "010C " RD("07") "0A000001 ", BIER("01", "0001")), EMPTY, 0 },
    { "of three with one BFR-id one counts", 0,
      "0003" OF_ROUTE(BIER("02", "0001")) LEAF("0001") OF_ROUTE("0005 00 00 000000"), FIRST, 1 },
};

static void answers(void)
{
    for (size_t i = 0; i < ROWS(rows); i++)
        for (size_t more = 0; more < 9; more += 4) {
            lent leaves = hex(rows[i].leaves), output = lent_of(MVPN_BIER_STRING + more, FILL);
            mvpn_egress e = string_of(1, ROUTE, TUNNEL, rows[i].set, leaves, output);
            same_string(rows[i].shows, e, output, rows[i].string, rows[i].routers);
            free(leaves.at);
            free(output.at);
        }
}

/* ---- AFI 2: a route whose addresses have 16 octets, and one of wildcards with an IPv4 originator */

#define WIDE "033A " RD("01") "80 " IPV6("01") "80 FF3E0000 00000000 00000000 00000001 " IPV6("02")
#define ANY "030E " RD("07") "00 00 0A000001 "
#define WIDE_TUNNEL "00 0B 000010 00 0000 " IPV6("02")

static void ipv6(void)
{
    lent wide = hex("0003 004E 044C " WIDE IPV6("03") "0018 00 0B 000000 00 0101 " IPV6("03")
                    "0042 0440 " WIDE "0A000003 000C 00 0B 000000 00 0200 0A000003"
                    "0016 0414 " ANY "0A000002 000C 00 0B 000000 00 0102 0A000003");
    lent output = lent_of(MVPN_BIER_STRING, FILL);
    mvpn_egress e = string_of(2, WIDE, WIDE_TUNNEL, 1, wide, output);
    same_string("AFI 2, addresses of 16 octets", e, output, "8000000000000000 " NONE NONE "0000000000000001", 2);
    e = string_of(2, ANY, WIDE_TUNNEL, 1, wide, output);
    same_string("AFI 2, wildcards", e, output, NONE NONE NONE "0000000000000002", 1);
    memset(output.at, FILL, output.size);
    same("AFI 1, a route of wildcards is of both families", "number", string_of(1, ANY, WIDE_TUNNEL, 1, wide, output).number, MVPN_KEY);
    untouched("AFI 1, Leaves of AFI 2", output);
    free(wide.at);
    free(output.at);
}

/* ---- each octet of a Leaf changed: what makes no difference, and what does */

static void each_octet(void)
{
    const char *shows = "an octet of a Leaf";
    lent leaf = hex("0001" LEAF("0001")), output = lent_of(MVPN_BIER_STRING, FILL), first = hex(FIRST);
    for (size_t at = 4; at < leaf.size; at++) {
        lent changed = copy_of(leaf);
        changed.at[at] ^= 1;
        mvpn_egress e = string_of(1, ROUTE, TUNNEL, 0, changed, output);
        bool originator = at >= 30 && at < 34, attribute = at >= 36;
        if (originator || at == 36 || (at >= 38 && at < 41) || at >= 44) { /* flags, label, BFR-prefix */
            same(shows, "routers", e.routers, 1);
            same_octets(shows, "the same string", output.at, first.at, output.size);
        } else
            same(shows, "of key, tunnel, sub-domain or BFR-id: routers", e.routers, 0);
        if (attribute && at > 40)
            same(shows, "number", e.number, MVPN_DONE);
        free(changed.at);
    }
    free(leaf.at);
    free(output.at);
    free(first.at);
}

/* ---- refusals */

typedef enum { AFI, NLRI, ATTRIBUTE, LEAVES, OUTPUT } argument;

typedef struct {
    const char *shows;
    argument wrong;
    const char *text; /* what the argument is then; not of an AFI, which is 3, nor of an output, which has 31 octets */
    uint32_t number;
} fault;

#define MLDP_LEAF "0026 4424 431E " RD("07") "06 0001 04 0A000001 0008 01 0005 0102030405 0A000001 0A000002 "
#define ACTIVE(group) "0014 0512 " RD("07") "20 C0000201 20 " group " "
#define GOOD BIER("01", "0001")

/* In the order of refusals: of two faults in different arguments the first decides. */
static const fault faults[] = {
    { "AFI 3", AFI, NULL, MVPN_FAMILY },
    { "no NLRI", NLRI, "", MVPN_SHORT },
    { "an NLRI shorter than its Length", NLRI, "0316 00", MVPN_SHORT },
    { "an unknown type", NLRI, "0900", MVPN_TYPE },
    { "an NLRI that ends inside its RD", NLRI, "0301 00", MVPN_LENGTH },
    { "an octet after the NLRI", NLRI, ROUTE "00", MVPN_LENGTH },
    { "a source of the other family", NLRI, "0309 " RD("07") "80", MVPN_WIDTH },
    { "a Leaf without a key", NLRI, "0404 0A000001", MVPN_KEY },
    { "a bad FEC element", NLRI, "470D " RD("07") "0000FDE8 09", MVPN_IDENT },
    { "a Source Active route for an SSM group", NLRI, "0512 " RD("07") "20 C0000201 20 E8010101", MVPN_GROUP },
    { "type 1", NLRI, "010C " RD("07") "0A000001", MVPN_KIND },
    { "type 4", NLRI, "041C " ROUTE "0A000002", MVPN_KIND },
    { "type 5", NLRI, "0512 " RD("07") "20 C0000201 20 EF010101", MVPN_KIND },
    { "type 0x43", NLRI, "4316 " RD("07") "06 0001 04 0A000001 0000 0A000001", MVPN_KIND },
    { "no attribute", ATTRIBUTE, "", MVPN_SHORT },
    { "an unknown tunnel type", ATTRIBUTE, "00 08 000010", MVPN_TUNNEL },
    { "a bad identifier", ATTRIBUTE, "00 0B 000010 01 0009 0A0000", MVPN_IDENT },
    { "BIER with label 0", ATTRIBUTE, "01 0B 00000F 01 0009 0A000001", MVPN_LABEL },
    { "another tunnel", ATTRIBUTE, "00 06 000010 0A000001", MVPN_TUNNEL },
    { "another tunnel with label 0", ATTRIBUTE, "00 06 000000 0A000001", MVPN_TUNNEL },
    { "no tunnel", ATTRIBUTE, "01 00 000000", MVPN_TUNNEL },
    { "1,025 Leaves told", LEAVES, "0401", MVPN_LONG },
    { "65,535 Leaves told", LEAVES, "FFFF" LEAF("0001"), MVPN_LONG },
    { "a list of no octets", LEAVES, "", MVPN_SHORT },
    { "half a count, and no LONG", LEAVES, "FF", MVPN_SHORT },
    { "1,024 Leaves told, none there", LEAVES, "0400", MVPN_SHORT },
    { "the list ends before a Leaf", LEAVES, "0002" LEAF("0001"), MVPN_SHORT },
    { "the list ends inside a size", LEAVES, "0001 00", MVPN_SHORT },
    { "the list ends inside an NLRI", LEAVES, "0001 001E 041C", MVPN_SHORT },
    { "the list ends inside an attribute", LEAVES, "0001" OF_ROUTE("000C 00 0B"), MVPN_SHORT },
    { "the list ends early behind a bad Leaf", LEAVES, "0002 0002 0900 0000", MVPN_SHORT },
    { "a Leaf's NLRI of no octets", LEAVES, "0001 0000 " GOOD, MVPN_SHORT },
    { "a Leaf of an unknown type", LEAVES, "0001 0002 0900 " GOOD, MVPN_TYPE },
    { "an octet after a Leaf", LEAVES, "0001 001F 041C " ROUTE "0A000002 00 " GOOD, MVPN_LENGTH },
    { "a Leaf without an originator", LEAVES, "0001 001A 0418 " ROUTE GOOD, MVPN_LENGTH },
    { "a join of the other family", LEAVES, "0001 000F 070D " RD("07") "0000FDE8 80 " GOOD, MVPN_WIDTH },
    { "a Leaf's bad key", LEAVES, "0001 0006 0404 0A000001 " GOOD, MVPN_KEY },
    { "a Source Active route for an SSM group", LEAVES, "0001" ACTIVE("E8010101") GOOD, MVPN_GROUP },
    { "the same with an octet after it", LEAVES, "0001 0015 0512 " RD("07") "20 C0000201 20 E8010101 00 " GOOD, MVPN_LENGTH },
    { "a Source Active route", LEAVES, "0001" ACTIVE("EF010101") GOOD, MVPN_KIND },
    { "the route itself", LEAVES, "0001 0018 " ROUTE GOOD, MVPN_KIND },
    { "a Leaf for mLDP", LEAVES, "0001" MLDP_LEAF GOOD, MVPN_KIND },
    { "KIND before the attribute", LEAVES, "0001" MLDP_LEAF "0000", MVPN_KIND },
    { "a Leaf without an attribute", LEAVES, "0001" OF_ROUTE("0000"), MVPN_SHORT },
    { "a Leaf of an unknown tunnel type", LEAVES, "0001" OF_ROUTE("0005 00 08 000000"), MVPN_TUNNEL },
    { "a Leaf's bad identifier", LEAVES, "0001" OF_ROUTE("000B 00 0B 000000 01 0001 0A0000"), MVPN_IDENT },
    { "the same where the key is another one", LEAVES, "0001" OF_KEY("0016", "14", ANY, "0006 00 00 000000 00"), MVPN_IDENT },
    { "the second Leaf", LEAVES, "0002" LEAF("0001") OF_ROUTE("0005 00 08 000000"), MVPN_TUNNEL },
    { "the first Leaf's attribute before the second's NLRI", LEAVES, "0002" OF_ROUTE("0005 00 08 000000") "0002 0900 " GOOD, MVPN_TUNNEL },
    { "the first Leaf's NLRI before the second's attribute", LEAVES, "0002 0002 0900 " GOOD OF_ROUTE("0005 00 08 000000"), MVPN_TYPE },
    { "an output of 31 octets", OUTPUT, NULL, MVPN_SPACE },
};

/* Two faults, which may be one. */
static void refuse(const fault *first, const fault *second)
{
    const fault *both[] = { first, second };
    const char *nlri = ROUTE, *attribute = TUNNEL, *leaves_text = "0001" LEAF("0001");
    uint16_t afi = 1;
    char shows[160];
    lent output = lent_of(MVPN_BIER_STRING, FILL), cut = output;
    for (size_t i = 0; i < ROWS(both); i++)
        switch (both[i]->wrong) {
        case AFI: afi = 3; break;
        case NLRI: nlri = both[i]->text; break;
        case ATTRIBUTE: attribute = both[i]->text; break;
        case LEAVES: leaves_text = both[i]->text; break;
        case OUTPUT: cut.size = MVPN_BIER_STRING - 1; break;
        }
    lent leaves = hex(leaves_text);
    snprintf(shows, sizeof shows, "%s; %s", first->shows, second->shows);
    mvpn_egress e = string_of(afi, nlri, attribute, 0, leaves, cut);
    same(shows, "number", e.number, first->number);
    same(shows, "routers", e.routers, 0);
    untouched(shows, output);
    free(leaves.at);
    free(output.at);
}

static void refusals(void)
{
    for (size_t i = 0; i < ROWS(faults); i++)
        for (size_t j = i; j < ROWS(faults); j++)
            if (j == i || faults[i].wrong != faults[j].wrong)
                refuse(&faults[i], &faults[j]);
}

/* Outputs of fewer octets, also for a string that is empty. */
static void space(void)
{
    static const char *const lists[] = { "0000", "0001" LEAF("0001"), "0001" LEAF("0000") };
    for (size_t i = 0; i < ROWS(lists); i++)
        for (size_t size = 0; size < MVPN_BIER_STRING; size++) {
            lent leaves = hex(lists[i]), output = lent_of(size, FILL);
            mvpn_egress e = string_of(1, ROUTE, TUNNEL, 0, leaves, output);
            same("an output under 32 octets", "number", e.number, MVPN_SPACE);
            same("an output under 32 octets", "routers", e.routers, 0);
            untouched("an output under 32 octets", output);
            free(leaves.at);
            free(output.at);
        }
}

/* ---- the most Leaves, by the helpers: BFR-ids 1 to 1,024, or all of one */

static lent most_leaves(unsigned count, bool different)
{
    lent leaf = hex("041C " ROUTE "0A000002"), attribute = hex("00 0B 000000 01 0001 0A000002");
    lent list = lent_of(2 + count * (2 + leaf.size + 2 + attribute.size), 0);
    size_t size = mvpn_list_start(list.at, list.size, (uint16_t)count);
    for (unsigned i = 0; i < count; i++) {
        unsigned id = different ? i + 1 : 300;
        attribute.at[6] = (uint8_t)(id >> 8);
        attribute.at[7] = (uint8_t)id;
        size = mvpn_list_field(list.at, list.size, size, leaf.at, leaf.size);
        size = mvpn_list_field(list.at, list.size, size, attribute.at, attribute.size);
    }
    same("the most Leaves", "size of the list", size, list.size);
    free(leaf.at);
    free(attribute.at);
    return list;
}

static void most(void)
{
    lent all = most_leaves(1024, true), one = most_leaves(1024, false), more = most_leaves(1025, true);
    lent output = lent_of(MVPN_BIER_STRING, FILL);
    for (unsigned set = 0; set < 256; set++) {
        const char *string = set < 4 ? ALL ALL ALL ALL : EMPTY;
        mvpn_egress e = string_of(1, ROUTE, TUNNEL, (uint8_t)set, all, output);
        same_string("1,024 Leaves, four whole sets", e, output, string, set < 4 ? 256 : 0);
    }
    mvpn_egress e = string_of(1, ROUTE, TUNNEL, 1, one, output);
    same_string("1,024 Leaves of BFR-id 300", e, output, NONE NONE NONE "0000080000000000", 1);
    memset(output.at, FILL, output.size);
    all.at[all.size - 12] = 0xFF; /* its flags */
    same("1,024 Leaves, flags of the last", "number", string_of(1, ROUTE, TUNNEL, 9, all, output).number, MVPN_DONE);
    memset(output.at, FILL, output.size);
    all.at[all.size - 11] = 12; /* its tunnel type */
    same("1,024 Leaves, the last bad", "number", string_of(1, ROUTE, TUNNEL, 9, all, output).number, MVPN_TUNNEL);
    all.size--;
    same("1,024 Leaves, an octet missing", "number", string_of(1, ROUTE, TUNNEL, 9, all, output).number, MVPN_SHORT);
    same("1,025 Leaves", "number", string_of(1, ROUTE, TUNNEL, 0, more, output).number, MVPN_LONG);
    untouched("refused", output);
    free(all.at);
    free(one.at);
    free(more.at);
    free(output.at);
}

/* ---- from a flow to the routers that must get its packet: what a match writes is what is asked */

static void after_a_match(void)
{
    static const route held[] = { { ROUTE, TUNNEL }, { ANY, "00 06 000010 0A000001" } };
    lent table = holding(1, 2, held, ROWS(held)), found = lent_of(MVPN_MATCH_OUTPUT, FILL), output = lent_of(MVPN_BIER_STRING, FILL);
    lent leaves = hex("0002" LEAF("0101") LEAF("0002"));
    mvpn_matched m = match(table, (flow){ "0A000001", "C0000201", "E8010101" }, found);
    mvpn_egress e = mvpn_bier_string(1, found.at, m.nlri_size, found.at + m.nlri_size, m.attribute_size, 1, leaves.at, leaves.size,
                                     output.at, output.size);
    same_string("a flow's BIER route", e, output, FIRST, 1);
    m = match(table, (flow){ "0A000001", "C0000202", "E8010101" }, found);
    same("a flow's route of another tunnel", "tier", m.tier, 4);
    e = mvpn_bier_string(1, found.at, m.nlri_size, found.at + m.nlri_size, m.attribute_size, 1, leaves.at, leaves.size, output.at,
                         output.size);
    same("a flow's route of another tunnel", "number", e.number, MVPN_TUNNEL);
    free(table.at);
    free(found.at);
    free(output.at);
    free(leaves.at);
}

int main(void)
{
    answers();
    ipv6();
    each_octet();
    refusals();
    space();
    most();
    after_a_match();
    return verdict("C bit strings");
}
