/*
 * Plans: which proposals a judge accepts, and what a planner proposes. The expected answers are written from documents 01 and 02 (W-214),
 * not from any program. What a planner proposes is its own choice: it is counted, judged, installed and matched. The lines that mvpn(3) shows
 * under "A plan for many flows" are cut out of it: plan_lines.h.
 */
#include "checks.h"

#include <stddef.h>

/* Callers are built with these. */
_Static_assert(sizeof(mvpn_judged) == 8 && offsetof(mvpn_judged, number) == 0 && offsetof(mvpn_judged, accepted) == 4, "mvpn_judged");
_Static_assert(sizeof(mvpn_planned) == 8 && offsetof(mvpn_planned, number) == 0 && offsetof(mvpn_planned, routes) == 4, "mvpn_planned");
_Static_assert(MVPN_CONFLICT == 20 && MVPN_MOST_FLOWS == 64 && MVPN_LONGEST_PROPOSAL == 64 * 128, "plans");
_Static_assert(MVPN_LONGEST_FLOWS == 2 + 64 * (2 + 16 + 2 + 16 + 2 + 64), "MVPN_LONGEST_FLOWS");

/* ---- AFI 1: an originator, a distinguisher, sources, SSM groups S and T, ASM groups U and V */

#define ORIGINATOR "0A000001"
#define RD "0000006400000007"
#define A "C0000201"
#define B "C0000202"
#define S "E8010101"
#define T "E8010102"
#define U "EF010101"
#define V "EF010102"

/* Ingress replication, with other flags, with another label; BIER with label 1, and with label 0; a longer end point, which begins as the
 * first; one that names no tunnel. */
#define ONE "00 06 000000 0A000001"
#define TWO "01 06 000000 0A000001"
#define THREE "00 06 000010 0A000001"
#define BIER "00 0B 000010 01 0002 0A000001"
#define LABEL_0 "00 0B 00000F 01 0002 0A000001"
#define LONGER ONE " 000000000000000000000000"
#define NO_TUNNEL "01 00 000000"

typedef struct { const char *source, *group, *attribute; } wanted;

enum { MOST = 5 };

/* The NLRI of a route: its Length, the distinguisher, source and group with their bits, the originator. */
#define BOTH(source, group) "0316 " RD "20 " source "20 " group ORIGINATOR
#define OF_SOURCE(source) "0312 " RD "20 " source "00 " ORIGINATOR
#define OF_GROUP(group) "0312 " RD "00 20 " group ORIGINATOR
#define ANY "030E " RD "00 00 " ORIGINATOR

/* A route with the last octet of its place; without an NLRI the octets at the front of the place. */
typedef struct {
    const char *nlri, *attribute;
    uint8_t last;
} place;

static void put_place(uint8_t *at, const place *p)
{
    lent nlri = hex(p->nlri ? p->nlri : ""), rest = hex(p->attribute);
    uint8_t *front = at;
    memset(at, 0, 128);
    if (p->nlri) {
        *front++ = (uint8_t)nlri.size;
        *front++ = (uint8_t)rest.size;
    }
    memcpy(front, nlri.at, nlri.size);
    memcpy(front + nlri.size, rest.at, rest.size);
    at[127] |= p->last;
    free(nlri.at);
    free(rest.at);
}

/* Those up to the first that has neither. */
static lent places_of(const place *places)
{
    size_t count = 0;
    while (count < MOST && places[count].attribute)
        count++;
    lent proposal = lent_of(128 * count, 0);
    for (size_t i = 0; i < count; i++)
        put_place(proposal.at + 128 * i, &places[i]);
    return proposal;
}

static size_t count_of(const wanted *flows)
{
    size_t count = 0;
    while (count < MOST && flows[count].source)
        count++;
    return count;
}

/* A list of these flows, which tells this count. */
static lent flows_of(const wanted *flows, size_t count, size_t told)
{
    lent list = lent_of(MVPN_LONGEST_FLOWS, 0);
    size_t size = mvpn_list_start(list.at, list.size, (uint16_t)told);
    for (size_t i = 0; i < count; i++) {
        lent source = hex(flows[i].source), group = hex(flows[i].group), attribute = hex(flows[i].attribute);
        size = mvpn_list_flow(list.at, list.size, size, source.at, source.size, group.at, group.size, attribute.at, attribute.size);
        free(source.at);
        free(group.at);
        free(attribute.at);
    }
    lent exact = lent_of(size, 0);
    memcpy(exact.at, list.at, size);
    free(list.at);
    return exact;
}

/* ---- what both calls take */

typedef struct {
    uint16_t afi;
    lent prefixes, originator, distinguisher, flows;
} wish;

static wish wish_of(uint16_t afi, const char *prefixes_text, const char *originator_text, const char *rd_text, lent flows)
{
    return (wish){ afi, list_of(prefixes_text), hex(originator_text), hex(rd_text), flows };
}

static void free_wish(wish w)
{
    free(w.prefixes.at);
    free(w.originator.at);
    free(w.distinguisher.at);
    free(w.flows.at);
}

#define WISH(w) \
    (w).afi, (w).prefixes.at, (w).prefixes.size, (w).originator.at, (w).originator.size, (w).distinguisher.at, \
        (w).distinguisher.size, (w).flows.at, (w).flows.size

static mvpn_judged judge(wish w, lent places)
{
    return mvpn_judge(WISH(w), places.at, places.size);
}

/* ---- the judge */

/* 239.1.1.1 is the only SSM group. */
#define ONLY_U "0001 0005 20 EF010101"

static const struct {
    const char *shows, *prefixes;
    wanted flows[MOST];
    place places[MOST];
    uint32_t accepted;
} proposals[] = {
    { "no flows, no routes", NULL, { { 0 } }, { { 0 } }, 1 },
    { "no flows, a route", NULL, { { 0 } }, { { ANY, ONE, 0 } }, 1 },
    { "no flows, a place of zeros", NULL, { { 0 } }, { { NULL, "", 0 } }, 0 },
    { "a flow, no routes", NULL, { { A, S, ONE } }, { { 0 } }, 0 },
    { "(C-S,C-G)", NULL, { { A, S, ONE } }, { { BOTH(A, S), ONE, 0 } }, 1 },
    { "(C-S,C-*), SSM", NULL, { { A, S, ONE }, { A, T, ONE } }, { { OF_SOURCE(A), ONE, 0 } }, 1 },
    { "(C-S,C-*), ASM", NULL, { { A, U, ONE } }, { { OF_SOURCE(A), ONE, 0 } }, 0 },
    { "(C-*,C-G), ASM", NULL, { { A, U, ONE }, { B, U, ONE } }, { { OF_GROUP(U), ONE, 0 } }, 1 },
    { "(C-*,C-G), SSM", NULL, { { A, S, ONE } }, { { OF_GROUP(S), ONE, 0 } }, 0 },
    { "(C-*,C-*)", NULL, { { A, S, ONE }, { B, U, ONE } }, { { ANY, ONE, 0 } }, 1 },
    { "other flags", NULL, { { A, S, ONE } }, { { ANY, TWO, 0 } }, 0 },
    { "another label", NULL, { { A, S, ONE } }, { { ANY, THREE, 0 } }, 0 },
    { "a longer attribute", NULL, { { A, S, ONE } }, { { ANY, LONGER, 0 } }, 0 },
    { "a shorter attribute", NULL, { { A, S, LONGER } }, { { ANY, ONE, 0 } }, 0 },
    { "an exception", NULL, { { A, S, ONE }, { A, T, TWO }, { B, U, ONE } }, { { ANY, ONE, 0 }, { BOTH(A, T), TWO, 0 } }, 1 },
    { "the same the other way round", NULL, { { A, S, ONE }, { A, T, TWO }, { B, U, ONE } },
      { { BOTH(A, T), TWO, 0 }, { ANY, ONE, 0 } }, 1 },
    { "the exception is lost", NULL, { { A, S, ONE }, { A, T, TWO }, { B, U, ONE } }, { { ANY, ONE, 0 } }, 0 },
    { "each tier", NULL, { { A, S, THREE }, { A, T, TWO }, { B, U, BIER }, { A, U, ONE } },
      { { ANY, ONE, 0 }, { OF_SOURCE(A), TWO, 0 }, { BOTH(A, S), THREE, 0 }, { BOTH(B, U), BIER, 0 } }, 1 },
    { "an earlier tier has another attribute", NULL, { { A, S, ONE } }, { { ANY, ONE, 0 }, { OF_SOURCE(A), TWO, 0 } }, 0 },
    { "a tier of the other class has another attribute", NULL, { { A, U, ONE } }, { { ANY, ONE, 0 }, { OF_SOURCE(A), TWO, 0 } }, 1 },
    { "a flow listed again", NULL, { { A, S, ONE }, { A, S, ONE } }, { { ANY, ONE, 0 } }, 1 },
    { "a route that no flow takes", NULL, { { A, S, ONE } }, { { ANY, ONE, 0 }, { BOTH(B, T), BIER, 0 } }, 1 },
    { "a route of tunnel type 0 is passed over", NULL, { { A, S, ONE } }, { { BOTH(A, S), NO_TUNNEL, 0 }, { ANY, ONE, 0 } }, 1 },
    { "a route of tunnel type 0 alone", NULL, { { A, S, ONE } }, { { BOTH(A, S), NO_TUNNEL, 0 } }, 0 },
    { "a marked route", NULL, { { A, S, ONE } }, { { ANY, ONE, 1 } }, 1 },
    { "a mark of 2", NULL, { { A, S, ONE } }, { { ANY, ONE, 2 } }, 0 },
    { "a repeated place", NULL, { { A, S, ONE } }, { { ANY, ONE, 0 }, { ANY, ONE, 0 } }, 0 },
    { "an NLRI repeated with another attribute", NULL, { { A, S, ONE } }, { { ANY, ONE, 0 }, { ANY, TWO, 0 } }, 0 },
    { "an NLRI repeated with another mark", NULL, { { A, S, ONE } }, { { ANY, ONE, 0 }, { BOTH(B, T), ONE, 0 }, { ANY, ONE, 1 } }, 0 },
    { "a place of zeros behind", NULL, { { A, S, ONE } }, { { ANY, ONE, 0 }, { NULL, "", 0 } }, 0 },
    { "a place of zeros before", NULL, { { A, S, ONE } }, { { NULL, "", 0 }, { ANY, ONE, 0 } }, 0 },
    { "an octet behind the attribute", NULL, { { A, S, ONE } }, { { NULL, "10 09 " ANY ONE "01", 0 } }, 0 },
    { "BIER with label 0 that no flow takes", NULL, { { A, S, ONE } }, { { ANY, ONE, 0 }, { BOTH(B, T), LABEL_0, 0 } }, 0 },
    { "another kind of route", NULL, { { A, S, ONE } }, { { ANY, ONE, 0 }, { "010C " RD ORIGINATOR, ONE, 0 } }, 0 },
    { "another originator", NULL, { { A, S, ONE } }, { { "030E " RD "00 00 0A000002", ONE, 0 } }, 0 },
    { "another originator beside", NULL, { { A, S, ONE } }, { { ANY, ONE, 0 }, { "030E " RD "00 00 0A000002", ONE, 0 } }, 0 },
    { "an originator of 16 octets that begins alike", NULL, { { A, S, ONE } },
      { { ANY, ONE, 0 }, { "031A " RD "00 00 " ORIGINATOR "00000000 00000000 00000000", ONE, 0 } }, 0 },
    { "another distinguisher", NULL, { { A, S, ONE } }, { { "030E 0000006400000008 00 00 " ORIGINATOR, ONE, 0 } }, 0 },
    { "by prefixes: (C-S,C-*) for 239.1.1.1", ONLY_U, { { A, U, ONE } }, { { OF_SOURCE(A), ONE, 0 } }, 1 },
    { "by prefixes: (C-*,C-G) for 239.1.1.1", ONLY_U, { { A, U, ONE } }, { { OF_GROUP(U), ONE, 0 } }, 0 },
    { "by prefixes: (C-*,C-G) for 232.1.1.1", ONLY_U, { { A, S, ONE } }, { { OF_GROUP(S), ONE, 0 } }, 1 },
    { "by prefixes: (C-S,C-*) for 232.1.1.1", ONLY_U, { { A, S, ONE } }, { { OF_SOURCE(A), ONE, 0 } }, 0 },
};

static void judged(void)
{
    for (size_t i = 0; i < ROWS(proposals); i++) {
        size_t count = count_of(proposals[i].flows);
        wish w = wish_of(1, proposals[i].prefixes, ORIGINATOR, RD, flows_of(proposals[i].flows, count, count));
        lent places = places_of(proposals[i].places), before = copy_of(places);
        mvpn_judged j = judge(w, places);
        same(proposals[i].shows, "number", j.number, MVPN_DONE);
        same(proposals[i].shows, "accepted", j.accepted, proposals[i].accepted);
        same_octets(proposals[i].shows, "places", places.at, before.at, places.size);
        free_wish(w);
        free(places.at);
        free(before.at);
    }
}

/* A proposal that is accepted, with its last octets gone, with octets after it, and with each octet another one: what stays accepted is the
 * same proposal with a mark. */
static void every_octet(void)
{
    const char *shows = "an octet of a proposal";
    const wanted flows[] = { { A, S, ONE }, { B, U, TWO } };
    const place routes[MOST] = { { BOTH(B, U), TWO, 0 }, { ANY, ONE, 0 } };
    wish w = wish_of(1, NULL, ORIGINATOR, RD, flows_of(flows, 2, 2));
    lent places = places_of(routes);
    same(shows, "accepted as it is", judge(w, places).accepted, 1);
    for (size_t size = 0; size < places.size; size++) {
        lent cut = lent_of(size, 0);
        memcpy(cut.at, places.at, size);
        mvpn_judged j = judge(w, cut);
        same("a cut proposal", "number", j.number, MVPN_DONE);
        same("a cut proposal", "accepted", j.accepted, 0);
        free(cut.at);
    }
    for (size_t at = 0; at < places.size; at++)
        for (unsigned value = 0; value < 256; value++) {
            uint8_t kept = places.at[at];
            places.at[at] = (uint8_t)value;
            mvpn_judged j = judge(w, places);
            same(shows, "number", j.number, MVPN_DONE);
            same(shows, "accepted", j.accepted, value == kept || (at % 128 == 127 && value == 1));
            places.at[at] = kept;
        }
    free(places.at);
    free_wish(w);
}

/* ---- refusals, of both calls: a planner with so much room, a judge of so many octets of zeros */

static const struct {
    const char *shows;
    uint16_t afi;
    const char *prefixes, *originator, *rd;
    wanted flows[MOST];
    size_t told; /* a count of the list, where it is not that of its flows */
    size_t room, places;
    uint32_t planner, judge;
} refusals[] = {
    { "FAMILY", 3, "0009", "", "", { { "", "", "" } }, 0, 0, 9000, MVPN_FAMILY, MVPN_FAMILY },
    { "AFI 257", 257, NULL, ORIGINATOR, RD, { { A, S, ONE } }, 0, 128, 0, MVPN_FAMILY, MVPN_FAMILY },
    { "RANGE, too many", 1, "0009", "", "", { { A, S, ONE } }, 65, 0, 9000, MVPN_RANGE, MVPN_RANGE },
    { "SHORT of the prefixes", 1, "0001 0005", "", "", { { A, S, ONE } }, 65, 0, 9000, MVPN_SHORT, MVPN_SHORT },
    { "RANGE, a bit past the length", 1, "0001 0005 07 E9000000", "", "", { { A, S, ONE } }, 65, 0, 9000, MVPN_RANGE, MVPN_RANGE },
    { "LONG, 65 flows", 1, NULL, "", "", { { A, S, ONE } }, 65, 0, 0, MVPN_LONG, MVPN_LONG },
    { "LONG, 8,193 octets of places", 1, NULL, ORIGINATOR, RD, { { A, S, ONE } }, 0, 128, 8193, MVPN_DONE, MVPN_LONG },
    { "8,192 octets of places", 1, NULL, ORIGINATOR, RD, { { A, S, ONE } }, 0, 128, 8192, MVPN_DONE, MVPN_DONE },
    { "LONG of the places before SHORT", 1, NULL, ORIGINATOR, RD, { { A, S, ONE } }, 2, 256, 8193, MVPN_SHORT, MVPN_LONG },
    { "SHORT before FLOW", 1, NULL, "0A", "00", { { A, S, ONE } }, 2, 0, 0, MVPN_SHORT, MVPN_SHORT },
    { "FLOW, the originator", 1, NULL, ORIGINATOR "00", RD, { { A, S, "" } }, 0, 0, 0, MVPN_FLOW, MVPN_FLOW },
    { "FLOW, the distinguisher", 1, NULL, ORIGINATOR, RD "00", { { A, S, "" } }, 0, 0, 0, MVPN_FLOW, MVPN_FLOW },
    { "FLOW, the originator without flows", 1, NULL, "", RD, { { 0 } }, 0, 0, 0, MVPN_FLOW, MVPN_FLOW },
    { "FLOW, the last source", 1, NULL, ORIGINATOR, RD, { { A, S, "" }, { A, T, LABEL_0 }, { A "00", U, ONE } }, 0, 0, 0, MVPN_FLOW,
      MVPN_FLOW },
    { "FLOW, a group of another size", 1, NULL, ORIGINATOR, RD, { { A, S, "" }, { A, "", ONE } }, 0, 0, 0, MVPN_FLOW, MVPN_FLOW },
    { "FLOW, a group that is not multicast", 1, NULL, ORIGINATOR, RD, { { A, A, "" } }, 0, 0, 0, MVPN_FLOW, MVPN_FLOW },
    { "reading, SHORT of the first", 1, NULL, ORIGINATOR, RD, { { A, S, NO_TUNNEL }, { A, S, "00 06 0000" }, { A, T, "00 08 000000" } }, 0,
      0, 0, MVPN_SHORT, MVPN_SHORT },
    { "reading, TUNNEL of the first", 1, NULL, ORIGINATOR, RD, { { A, S, LABEL_0 }, { A, S, "00 08 000000" }, { A, T, "00 06 0000" } }, 0,
      0, 0, MVPN_TUNNEL, MVPN_TUNNEL },
    { "reading, IDENT", 1, NULL, ORIGINATOR, RD, { { A, S, ONE }, { A, S, TWO }, { A, T, "00 06 000000 0A0000" } }, 0, 0, 0, MVPN_IDENT,
      MVPN_IDENT },
    { "LABEL", 1, NULL, ORIGINATOR, RD, { { A, S, NO_TUNNEL }, { A, S, ONE }, { A, T, LABEL_0 } }, 0, 0, 0, MVPN_LABEL, MVPN_LABEL },
    { "TUNNEL for type 0", 1, NULL, ORIGINATOR, RD, { { A, S, ONE }, { A, S, TWO }, { A, T, NO_TUNNEL } }, 0, 0, 0, MVPN_TUNNEL,
      MVPN_TUNNEL },
    { "CONFLICT", 1, NULL, ORIGINATOR, RD, { { A, S, ONE }, { A, T, ONE }, { A, S, TWO } }, 0, 0, 0, MVPN_CONFLICT, MVPN_CONFLICT },
    { "CONFLICT, a longer attribute", 1, NULL, ORIGINATOR, RD, { { A, S, ONE }, { A, S, LONGER } }, 0, 0, 0, MVPN_CONFLICT, MVPN_CONFLICT },
    { "SPACE, an octet too few", 1, NULL, ORIGINATOR, RD, { { A, S, ONE }, { A, T, TWO } }, 0, 255, 0, MVPN_SPACE, MVPN_DONE },
    { "SPACE, though one route does", 1, NULL, ORIGINATOR, RD, { { A, S, ONE }, { A, T, ONE } }, 0, 255, 0, MVPN_SPACE, MVPN_DONE },
    { "SPACE, a flow listed again", 1, NULL, ORIGINATOR, RD, { { A, S, ONE }, { A, S, ONE } }, 0, 255, 0, MVPN_SPACE, MVPN_DONE },
    { "enough room", 1, NULL, ORIGINATOR, RD, { { A, S, ONE }, { A, T, TWO } }, 0, 256, 0, MVPN_DONE, MVPN_DONE },
    { "no flows, no room", 1, NULL, ORIGINATOR, RD, { { 0 } }, 0, 0, 0, MVPN_DONE, MVPN_DONE },
};

static void refused(void)
{
    for (size_t i = 0; i < ROWS(refusals); i++) {
        const char *shows = refusals[i].shows;
        size_t count = count_of(refusals[i].flows), told = refusals[i].told ? refusals[i].told : count;
        wish w = wish_of(refusals[i].afi, refusals[i].prefixes, refusals[i].originator, refusals[i].rd,
                         flows_of(refusals[i].flows, count, told));
        lent output = lent_of(refusals[i].room, FILL), places = lent_of(refusals[i].places, 0);
        mvpn_planned planned = mvpn_plan(WISH(w), output.at, output.size);
        same(shows, "number of plan", planned.number, refusals[i].planner);
        if (planned.number != MVPN_DONE) {
            same(shows, "routes", planned.routes, 0);
            untouched(shows, output);
        }
        mvpn_judged j = judge(w, places);
        same(shows, "number of judge", j.number, refusals[i].judge);
        same(shows, "accepted", j.accepted, refusals[i].judge == MVPN_DONE && count == 0);
        free_wish(w);
        free(output.at);
        free(places.at);
    }
}

/* The list of flows cut at every octet: SHORT. */
static void cut_lists(void)
{
    const wanted flows[] = { { A, S, ONE }, { B, U, BIER } };
    wish w = wish_of(1, NULL, ORIGINATOR, RD, flows_of(flows, 2, 2));
    lent whole = w.flows, output = lent_of(256, FILL), none = lent_of(0, 0);
    for (size_t size = 0; size < whole.size; size++) {
        w.flows = lent_of(size, 0);
        memcpy(w.flows.at, whole.at, size);
        same("a cut list", "number of plan", mvpn_plan(WISH(w), output.at, output.size).number, MVPN_SHORT);
        same("a cut list", "number of judge", judge(w, none).number, MVPN_SHORT);
        untouched("a cut list", output);
        free(w.flows.at);
    }
    w.flows = whole;
    same("the whole list", "number of plan", mvpn_plan(WISH(w), output.at, output.size).number, MVPN_DONE);
    free_wish(w);
    free(output.at);
    free(none.at);
}

/* ---- the planner */

/* The flow `i` of a wish as its list has it: source, group and attribute of so many octets. */
typedef struct { const uint8_t *source, *group, *attribute; size_t address, attribute_size; } item;

static item item_of(wish w, size_t i)
{
    const uint8_t *at = w.flows.at + 2;
    item it = { 0 };
    for (size_t k = 0; k <= i; k++) {
        it.address = 256u * at[0] + at[1];
        it.source = at + 2;
        at += 2 + it.address;
        it.group = at + 2;
        at += 2 + it.address;
        it.attribute_size = 256u * at[0] + at[1];
        it.attribute = at + 2;
        at += 2 + it.attribute_size;
    }
    return it;
}

/* What is proposed is installed, each route new, and there each of so many flows has what is wanted. */
static void serves(const char *shows, wish w, const uint8_t *places, size_t routes, size_t flows)
{
    lent table = made(w.afi, routes), output = lent_of(MVPN_MATCH_OUTPUT, FILL);
    for (size_t i = 0; i < routes; i++) {
        const uint8_t *p = places + 128 * i;
        same(shows, "outcome of install", mvpn_install(table.at, table.size, p + 2, p[0], p + 2 + p[0], p[1]).outcome, MVPN_NEW);
        same(shows, "the mark", p[127], 0);
    }
    for (size_t i = 0; i < flows; i++) {
        item it = item_of(w, i);
        mvpn_matched m = mvpn_match(table.at, table.size, w.prefixes.at, w.prefixes.size, w.originator.at, w.originator.size,
                                    it.source, it.address, it.group, it.address, output.at, output.size);
        same(shows, "number of match", m.number, MVPN_DONE);
        same(shows, "size of the attribute", m.attribute_size, it.attribute_size);
        if (m.attribute_size == it.attribute_size)
            same_octets(shows, "attribute", output.at + m.nlri_size, it.attribute, it.attribute_size);
    }
    free(table.at);
    free(output.at);
}

/* A plan of at least and at most so many routes; with more room than it asks. */
static void plans(const char *shows, wish w, size_t flows, uint32_t least, uint32_t most)
{
    lent output = lent_of(128 * flows + 300, FILL), again = lent_of(output.size, FILL);
    mvpn_planned planned = mvpn_plan(WISH(w), output.at, output.size);
    same(shows, "number", planned.number, MVPN_DONE);
    same(shows, "at least so many routes", planned.routes >= least, 1);
    same(shows, "at most so many routes", planned.routes <= most, 1);
    if (planned.routes <= most) {
        lent places = lent_of(128 * planned.routes, 0);
        memcpy(places.at, output.at, places.size);
        same_output(shows, output, places.at, places.size);
        mvpn_judged j = judge(w, places);
        same(shows, "number of judge", j.number, MVPN_DONE);
        same(shows, "accepted", j.accepted, 1);
        serves(shows, w, places.at, planned.routes, flows);
        free(places.at);
    }
    same(shows, "routes, asked again", mvpn_plan(WISH(w), again.at, again.size).routes, planned.routes);
    same_octets(shows, "output, asked again", again.at, output.at, output.size);
    free(output.at);
    free(again.at);
}

/* The least is the number of attributes that are wanted; the most is one more than the different flows that do not want the commonest. */
static const struct {
    const char *shows, *prefixes;
    wanted flows[MOST];
    uint32_t least, most;
} plannings[] = {
    { "no flows", NULL, { { 0 } }, 0, 0 },
    { "one flow", NULL, { { A, S, ONE } }, 1, 1 },
    { "one flow, listed three times", NULL, { { A, S, ONE }, { A, S, ONE }, { A, S, ONE } }, 1, 1 },
    { "four flows, one attribute", NULL, { { A, S, BIER }, { A, T, BIER }, { B, U, BIER }, { B, V, BIER } }, 1, 1 },
    { "a tie of two flows", NULL, { { A, S, ONE }, { B, U, TWO } }, 2, 2 },
    { "three attributes", NULL, { { A, S, ONE }, { A, T, TWO }, { A, U, THREE } }, 3, 3 },
    { "attributes of which one begins with the other", NULL, { { A, S, ONE }, { A, T, LONGER }, { B, S, ONE } }, 2, 2 },
    { "one of four wants another", NULL, { { A, S, ONE }, { A, T, ONE }, { B, U, TWO }, { B, V, ONE } }, 2, 2 },
    { "two of four want another", NULL, { { A, U, ONE }, { B, V, ONE }, { B, U, TWO }, { A, V, TWO } }, 2, 3 },
    { "listed often, and wanted by one flow", NULL, { { A, S, ONE }, { A, S, ONE }, { A, S, ONE }, { A, T, TWO }, { B, U, TWO } }, 2, 2 },
    { "by prefixes", ONLY_U, { { A, U, ONE }, { B, U, TWO }, { A, S, ONE }, { B, S, THREE } }, 3, 3 },
};

static void planned(void)
{
    for (size_t i = 0; i < ROWS(plannings); i++) {
        size_t count = count_of(plannings[i].flows);
        wish w = wish_of(1, plannings[i].prefixes, ORIGINATOR, RD, flows_of(plannings[i].flows, count, count));
        plans(plannings[i].shows, w, count, plannings[i].least, plannings[i].most);
        free_wish(w);
    }
}

/* The most flows, for IPv6 with attributes of 64 octets, which want so many attributes in turn: the longest list; and a flow more. */
static void most_flows(void)
{
    static const unsigned wants[] = { 1, 2, 3, 31, 64 };
    lent attribute = lent_of(64, 0), source = hex("20010DB8 00000000 00000000 00000001"), group = hex("FF3E0000 00000000 00000000 00000001");
    memcpy(attribute.at, (uint8_t[]){ 0, 2, 0, 0, 16, 6, 0, 2, 16 }, 9);
    attribute.at[26] = 64 - 27; /* the opaque length, behind a root of 16 octets */
    for (size_t k = 0; k < ROWS(wants); k++) {
        lent list = lent_of(MVPN_LONGEST_FLOWS, 0), none = lent_of(0, 0);
        size_t size = mvpn_list_start(list.at, list.size, MVPN_MOST_FLOWS);
        for (unsigned i = 0; i < MVPN_MOST_FLOWS; i++) {
            source.at[15] = (uint8_t)i;
            attribute.at[0] = (uint8_t)(i % wants[k]);
            size = mvpn_list_flow(list.at, list.size, size, source.at, 16, group.at, 16, attribute.at, attribute.size);
        }
        same("the most flows", "octets of the list", size, MVPN_LONGEST_FLOWS);
        wish w = wish_of(2, NULL, "20010DB8 00000000 00000000 00000002", RD, list);
        uint32_t commonest = (MVPN_MOST_FLOWS + wants[k] - 1) / wants[k];
        plans("the most flows", w, MVPN_MOST_FLOWS, wants[k], 1 + MVPN_MOST_FLOWS - commonest);
        list.at[1]++;
        lent output = lent_of(MVPN_LONGEST_PROPOSAL + 128, FILL);
        same("a flow more", "number of plan", mvpn_plan(WISH(w), output.at, output.size).number, MVPN_LONG);
        same("a flow more", "number of judge", judge(w, none).number, MVPN_LONG);
        untouched("a flow more", output);
        free(output.at);
        free(none.at);
        free_wish(w);
    }
    free(attribute.at);
    free(source.at);
    free(group.at);
}

/* ---- the helper for lists */

static void helper(void)
{
    const char *shows = "mvpn_list_flow";
    lent list = lent_of(2 + 6 + 6 + 11, FILL), expected = hex("0001 0004 C0000201 0004 E8010101 0009 00 06 000000 0A000001");
    lent source = hex(A), group = hex(S), attribute = hex(ONE);
    for (size_t space = 0; space <= list.size; space++) {
        size_t size = mvpn_list_start(list.at, space, 1);
        size = mvpn_list_flow(list.at, space, size, source.at, source.size, group.at, group.size, attribute.at, attribute.size);
        same(shows, "size", size, space == list.size ? expected.size : 0);
    }
    same_octets(shows, "list", list.at, expected.at, expected.size);
    same(shows, "size behind 0", mvpn_list_flow(list.at, list.size, 0, source.at, 4, group.at, 4, attribute.at, 9), 0);
    lent *all[] = { &list, &expected, &source, &group, &attribute };
    for (size_t i = 0; i < ROWS(all); i++)
        free(all[i]->at);
}

/* ---- the manual's lines, and what they call */

typedef struct {
    mvpn_address source, group;
    const uint8_t *attribute;
    size_t attribute_len;
} flow_wanted;

static lent advertised;
static size_t advertised_count;
static uint32_t told_refusal;

static void advertise(const uint8_t *nlri, size_t nlri_len, const uint8_t *attribute, size_t attribute_len)
{
    mvpn_installed i = mvpn_install(advertised.at, advertised.size, nlri, nlri_len, attribute, attribute_len);
    same("the manual's lines", "outcome of install", i.outcome, MVPN_NEW);
    advertised_count++;
}

static void plan_refused(uint32_t number)
{
    told_refusal = number;
}

static void plan_by_lines(uint16_t afi, const uint8_t *prefixes, size_t prefixes_len, const uint8_t *originator, size_t originator_len,
                          const uint8_t *distinguisher, size_t distinguisher_len, const flow_wanted *flows, size_t count)
{
#include "plan_lines.h"
}

static void lines(void)
{
    const char *shows = "the manual's lines";
    const uint8_t router[] = { 10, 0, 0, 1 }, rd[] = { 0, 0, 0, 100, 0, 0, 0, 7 }, one[] = { 0, 6, 0, 0, 0, 10, 0, 0, 1 };
    const uint8_t two[] = { 0, 11, 0, 0, 16, 1, 0, 2, 10, 0, 0, 1 };
    flow_wanted flows[MVPN_MOST_FLOWS + 1];
    for (size_t i = 0; i < ROWS(flows); i++)
        flows[i] = (flow_wanted){ { { 192, 0, 2, (uint8_t)i }, 4 }, { { 232, 1, 1, 1 }, 4 }, i == 5 ? two : one, i == 5 ? sizeof two : sizeof one };
    advertised = made(1, MVPN_MOST_FLOWS);
    plan_by_lines(1, mvpn_no_items, sizeof mvpn_no_items, router, sizeof router, rd, sizeof rd, flows, MVPN_MOST_FLOWS);
    same(shows, "refusal", told_refusal, MVPN_DONE);
    same(shows, "routes", advertised_count, 2);
    for (size_t i = 0; i < MVPN_MOST_FLOWS; i++) {
        uint8_t output[MVPN_MATCH_OUTPUT];
        mvpn_matched m = mvpn_match(advertised.at, advertised.size, mvpn_no_items, sizeof mvpn_no_items, router, sizeof router,
                                    flows[i].source.octets, 4, flows[i].group.octets, 4, output, sizeof output);
        same(shows, "size of the attribute", m.attribute_size, flows[i].attribute_len);
        if (m.attribute_size == flows[i].attribute_len)
            same_octets(shows, "attribute", output + m.nlri_size, flows[i].attribute, m.attribute_size);
    }
    plan_by_lines(1, mvpn_no_items, sizeof mvpn_no_items, router, sizeof router, rd, sizeof rd, flows, 0);
    same(shows, "routes for no flows", advertised_count, 2);
    plan_by_lines(1, mvpn_no_items, sizeof mvpn_no_items, router, sizeof router, rd, sizeof rd, flows, MVPN_MOST_FLOWS + 1);
    same(shows, "refusal of 65 flows", told_refusal, MVPN_LONG);
    flows[1] = flows[5];
    flows[1].attribute = one;
    flows[1].attribute_len = sizeof one;
    plan_by_lines(1, mvpn_no_items, sizeof mvpn_no_items, router, sizeof router, rd, sizeof rd, flows, MVPN_MOST_FLOWS);
    same(shows, "refusal of a conflict", told_refusal, MVPN_CONFLICT);
    same(shows, "routes of refusals", advertised_count, 2);
    free(advertised.at);
}

int main(void)
{
    judged();
    every_octet();
    refused();
    cut_lists();
    planned();
    most_flows();
    helper();
    lines();
    return verdict("C plan");
}
