/*
 * The table's calls of mvpn.h, accepted and refused. The expected answers and the expected octets of the table are written
 * from document 01, not from any program.
 */
#include "checks.h"

#include <stddef.h>

/* Callers are built with these. */
_Static_assert(sizeof(mvpn_installed) == 8 && offsetof(mvpn_installed, outcome) == 4, "mvpn_installed");
_Static_assert(sizeof(mvpn_matched) == 16 && offsetof(mvpn_matched, tier) == 4 && offsetof(mvpn_matched, nlri_size) == 8 &&
                   offsetof(mvpn_matched, attribute_size) == 12, "mvpn_matched");
_Static_assert(MVPN_TABLE_SIZE(0) == 8 && MVPN_TABLE_SIZE(1) == 136 && MVPN_TABLE_SIZE(MVPN_MOST_PLACES) == 64008,
               "MVPN_TABLE_SIZE");
_Static_assert(MVPN_TABLE == 11 && MVPN_KIND == 12 && MVPN_ROOM == 13 && MVPN_ABSENT == 14 && MVPN_MATCH_OUTPUT == 124,
               "numbers");

/* A route distinguisher that ends in N, an IPv6 address that ends in N, and with flags N an attribute of ingress replication
 * and one that names no tunnel. */
#define RD(n) "00000064000000" n " "
#define IPV6(n) "20010DB8 00000000 00000000 000000" n " "
#define FLAGS(n) n " 06 000000 0A000001"
#define NO_TUNNEL(n) n " 00 000000"

/* Document 01's marked routes, of router 10.0.0.1. */
#define A_NLRI "0316 " RD("07") "20 C0000201 20 E8010101 0A000001"
#define B_NLRI "0312 " RD("07") "20 C0000201 00 0A000001"
#define C_NLRI "0312 " RD("07") "00 20 EF010101 0A000001"
#define D_NLRI "030E " RD("07") "00 00 0A000001"
#define E_NLRI "0312 " RD("07") "00 20 E8090909 0A000001"

#define ROUTER "0A000001"

/* The most routes of a table here. */
enum { MOST = 5 };

static const route marked[] = {
    { A_NLRI, FLAGS("0A") }, { B_NLRI, FLAGS("0B") }, { C_NLRI, FLAGS("0C") }, { D_NLRI, FLAGS("0D") }, { E_NLRI, FLAGS("0E") },
};

/* ---- the expected octets */

/* The image of these routes, given in the order of their NLRIs; the first without NLRI ends them. */
static lent image(uint16_t afi, size_t places, const route *routes)
{
    lent expected = lent_of(MVPN_TABLE_SIZE(places), 0);
    uint8_t count = 0;
    for (; count < MOST && routes[count].nlri; count++) {
        lent nlri = hex(routes[count].nlri), attribute = hex(routes[count].attribute);
        uint8_t *place = expected.at + 8 + (size_t)count * 128;
        place[0] = (uint8_t)nlri.size;
        place[1] = (uint8_t)attribute.size;
        memcpy(place + 2, nlri.at, nlri.size);
        memcpy(place + 2 + nlri.size, attribute.at, attribute.size);
        free(nlri.at);
        free(attribute.at);
    }
    memcpy(expected.at, (uint8_t[]){ 'M', 'V', 'T', 0, 1, (uint8_t)afi, 0, count }, 8);
    return expected;
}

static void holds(const char *shows, lent table, uint16_t afi, size_t places, const route *routes)
{
    lent expected = image(afi, places, routes);
    same_table(shows, table, expected);
    free(expected.at);
}

/* ---- making */

typedef struct {
    const char *shows;
    uint16_t afi;
    size_t size;
    uint32_t number;
} make_row;

static const make_row makings[] = {
    { "no places", 1, 8, MVPN_DONE },
    { "500 places", 2, 64008, MVPN_DONE },
    { "501 places", 2, 64136, MVPN_TABLE },
    { "no octets", 1, 0, MVPN_TABLE },
    { "header cut short", 1, 7, MVPN_TABLE },
    { "place cut short", 1, 135, MVPN_TABLE },
    { "an octet after a place", 2, 137, MVPN_TABLE },
    { "AFI 0, no octets", 0, 0, MVPN_FAMILY },
    { "AFI 257", 257, 136, MVPN_FAMILY },
};

static void make(const make_row *row)
{
    lent memory = lent_of(row->size, FILL);
    same(row->shows, "number", mvpn_make(row->afi, memory.at, memory.size), row->number);
    if (row->number == MVPN_DONE)
        holds(row->shows, memory, row->afi, (row->size - 8) / 128, (route[]){ { NULL, NULL } });
    else
        untouched(row->shows, memory);
    free(memory.at);
}

/* ---- matching */

typedef struct {
    const char *shows;
    flow flow;
    uint32_t tier;
    const route *expected;
} match_row;

static const match_row marked_flows[] = {
    { "P1", { ROUTER, "C0000201", "E8010101" }, 1, &marked[0] },
    { "P2", { ROUTER, "C0000201", "E8010102" }, 2, &marked[1] },
    { "P3: C, not B", { ROUTER, "C0000201", "EF010101" }, 3, &marked[2] },
    { "P4", { ROUTER, "C0000202", "E8010101" }, 4, &marked[3] },
    { "P5: D, not E", { ROUTER, "C0000202", "E8090909" }, 4, &marked[3] },
    { "P6", { "0A000002", "C0000201", "E8010101" }, 0, NULL },
    { "the router in 16 octets", { "00000000 00000000 0000FFFF 0A000001", "C0000201", "E8010101" }, 0, NULL },
};

static void marked_examples(void)
{
    lent table = holding(1, MOST, marked, ROWS(marked)), before = copy_of(table);
    for (size_t i = 0; i < ROWS(marked_flows); i++)
        same_match(marked_flows[i].shows, table, marked_flows[i].flow, marked_flows[i].tier, marked_flows[i].expected);
    same_table("match leaves the table", table, before);
    free(table.at);
    free(before.at);
}

/* AFI 2, IPv6 and IPv4 originators. The longest NLRI with the longest attribute fills the output; ties go to the lowest RD. */
#define ZEROS_7 "00000000000000"
#define LONGEST_NLRI(n) "033A " RD(n) "80 " IPV6("01") "80 FF3E0000 00000000 00000000 00000001" IPV6("02")
#define LONGEST_ATTRIBUTE "00 02 000000 06 0001 04 0A000001 0031 " ZEROS_7 ZEROS_7 ZEROS_7 ZEROS_7 ZEROS_7 ZEROS_7 ZEROS_7

static void ties_and_longest(void)
{
    static const route routes[] = {
        { LONGEST_NLRI("09"), FLAGS("09") },
        { LONGEST_NLRI("03"), LONGEST_ATTRIBUTE },
        { "030E " RD("01") "00 00 0A000001", FLAGS("01") },
        { LONGEST_NLRI("05"), FLAGS("05") },
    };
    flow f = { IPV6("02"), IPV6("01"), "FF3E0000 00000000 00000000 00000001" };
    lent table = holding(2, 4, routes, ROWS(routes));
    same_match("the lowest RD", table, f, 1, &routes[1]);
    f.router = ROUTER;
    same_match("an IPv4 originator under AFI 2", table, f, 4, &routes[2]);
    free(table.at);
}

typedef struct {
    const char *shows;
    flow flow;
    size_t output;
    uint32_t number;
} refused_match;

/* Several break a later rule as well, so that the order of the refusals shows. */
static const refused_match refused_matches[] = {
    { "router of 5 octets", { "0A00000101", "C0000201", "E8010101" }, 0, MVPN_FLOW },
    { "source of 16 octets", { ROUTER, IPV6("01"), "E8010101" }, 124, MVPN_FLOW },
    { "no source", { ROUTER, "", "E8010101" }, 124, MVPN_FLOW },
    { "group of 16 octets", { ROUTER, "C0000201", "FF3E0000 00000000 00000000 00000001" }, 124, MVPN_FLOW },
    { "group 223.255.255.255", { ROUTER, "C0000201", "DFFFFFFF" }, 0, MVPN_FLOW },
    { "output of 123 octets", { ROUTER, "C0000201", "E8010101" }, 123, MVPN_SPACE },
    { "output of 123 octets, no match", { "0A000002", "C0000201", "E8010101" }, 123, MVPN_SPACE },
};

static void refuse_match(const char *shows, lent table, flow f, size_t room, uint32_t number)
{
    lent output = lent_of(room, FILL);
    refused_matched(shows, match(table, f, output), output, number);
    free(output.at);
}

/* ---- a session: after each call the table holds these routes and nothing else */

typedef struct {
    const char *shows;
    route call; /* an install, or without attribute a withdrawal */
    uint32_t number, outcome;
    route held[MOST];
} session_row;

#define A(n) { A_NLRI, FLAGS(n) }
#define B(n) { B_NLRI, FLAGS(n) }
#define D(n) { D_NLRI, FLAGS(n) }
#define B_NO_TUNNEL(n) { B_NLRI, NO_TUNNEL(n) }
#define END { NULL, NULL }
#define BIER(field) "00 0B " field " 01 0002 0A000001"

/* Two places. */
static const session_row session[] = {
    { "withdrawal of none", { D_NLRI, NULL }, MVPN_ABSENT, 0, { END } },
    { "install", A("01"), MVPN_DONE, MVPN_NEW, { A("01"), END } },
    { "install in front", D("02"), MVPN_DONE, MVPN_NEW, { D("02"), A("01"), END } },
    { "install in a full table", B("03"), MVPN_ROOM, 0, { D("02"), A("01"), END } },
    { "refused attribute before ROOM", { B_NLRI, "00 08 000000" }, MVPN_TUNNEL, 0, { D("02"), A("01"), END } },
    { "replacement in a full table", A("04"), MVPN_DONE, MVPN_REPLACED, { D("02"), A("04"), END } },
    { "P12: BIER, label field 00 00 0F", { D_NLRI, BIER("00000F") }, MVPN_LABEL, 0, { D("02"), A("04"), END } },
    { "P12: BIER, label field 00 00 10", { D_NLRI, BIER("000010") }, MVPN_DONE, MVPN_REPLACED,
      { { D_NLRI, BIER("000010") }, A("04"), END } },
    { "a shorter attribute again", D("05"), MVPN_DONE, MVPN_REPLACED, { D("05"), A("04"), END } },
    { "withdrawal of another", { B_NLRI, NULL }, MVPN_ABSENT, 0, { D("05"), A("04"), END } },
    { "withdrawal in front", { D_NLRI, NULL }, MVPN_DONE, 0, { A("04"), END } },
    { "install in room that came back", B("06"), MVPN_DONE, MVPN_NEW, { B("06"), A("04"), END } },
    { "withdrawal at the end", { A_NLRI, NULL }, MVPN_DONE, 0, { B("06"), END } },
    { "withdrawal again", { A_NLRI, NULL }, MVPN_ABSENT, 0, { B("06"), END } },
    { "a route that names no tunnel replaces", B_NO_TUNNEL("07"), MVPN_DONE, MVPN_REPLACED, { B_NO_TUNNEL("07"), END } },
    { "and is replaced by another", B_NO_TUNNEL("08"), MVPN_DONE, MVPN_REPLACED, { B_NO_TUNNEL("08"), END } },
    { "install behind it", A("09"), MVPN_DONE, MVPN_NEW, { B_NO_TUNNEL("08"), A("09"), END } },
    { "it takes a place", D("0A"), MVPN_ROOM, 0, { B_NO_TUNNEL("08"), A("09"), END } },
    { "withdrawal of a route that names no tunnel", { B_NLRI, NULL }, MVPN_DONE, 0, { A("09"), END } },
    { "its withdrawal again", { B_NLRI, NULL }, MVPN_ABSENT, 0, { A("09"), END } },
    { "a route that names no tunnel is new", B_NO_TUNNEL("0B"), MVPN_DONE, MVPN_NEW, { B_NO_TUNNEL("0B"), A("09"), END } },
    { "and is replaced by one with a tunnel", B("0C"), MVPN_DONE, MVPN_REPLACED, { B("0C"), A("09"), END } },
    { "withdrawal behind it", { A_NLRI, NULL }, MVPN_DONE, 0, { B("0C"), END } },
    { "the last withdrawal", { B_NLRI, NULL }, MVPN_DONE, 0, { END } },
};

static void run_session(void)
{
    lent table = made(1, 2);
    for (size_t i = 0; i < ROWS(session); i++) {
        const session_row *row = &session[i];
        if (row->call.attribute) {
            mvpn_installed installed = install(table, row->call.nlri, row->call.attribute);
            same(row->shows, "number", installed.number, row->number);
            same(row->shows, "outcome", installed.outcome, row->outcome);
        } else {
            same(row->shows, "number", withdraw(table, row->call.nlri), row->number);
        }
        holds(row->shows, table, 1, 2, row->held);
    }
    free(table.at);
}

/* ---- refusals */

typedef struct {
    const char *shows, *nlri;
    uint32_t number;
} refused_nlri;

/* With an attribute that is refused as well, so that the order of the refusals shows. */
static const refused_nlri refused_nlris[] = {
    { "no NLRI", "", MVPN_SHORT },
    { "NLRI of type 8", "0800", MVPN_TYPE },
    { "an octet after the NLRI", A_NLRI "00", MVPN_LENGTH },
    { "source length 24", "0309 " RD("07") "18", MVPN_WIDTH },
    { "an NLRI of AFI 2", "031E " RD("07") "80 " IPV6("01") "00 0A000001", MVPN_WIDTH },
    { "Leaf without a key", "0404 0A000001", MVPN_KEY },
    { "an octet after a type 1 NLRI", "010C " RD("07") "0A00000100", MVPN_LENGTH },
    { "type 1", "010C " RD("07") "0A000001", MVPN_KIND },
};

static void refuse_nlri(const refused_nlri *row, lent table, lent before)
{
    mvpn_installed installed = install(table, row->nlri, "");
    same(row->shows, "number of install", installed.number, row->number);
    same(row->shows, "outcome", installed.outcome, 0);
    same(row->shows, "number of withdrawal", withdraw(table, row->nlri), row->number);
    same_table(row->shows, table, before);
}

static void refusals(void)
{
    lent table = holding(1, 2, marked, 1), before = copy_of(table);
    for (size_t i = 0; i < ROWS(refused_nlris); i++)
        refuse_nlri(&refused_nlris[i], table, before);
    for (size_t i = 0; i < ROWS(refused_matches); i++)
        refuse_match(refused_matches[i].shows, table, refused_matches[i].flow, refused_matches[i].output,
                     refused_matches[i].number);
    same_table("a refused match leaves the table", table, before);
    free(table.at);
    free(before.at);
}

/* ---- memory that is no sound table */

typedef struct {
    const char *shows;
    size_t at; /* which octet is changed: of three places, two taken, by NLRIs that differ in the RD's last octet */
    uint8_t value;
} damage;

static const damage damages[] = {
    { "not MVT", 1, 'W' },
    { "version 257", 3, 1 },
    { "version 2", 4, 2 },
    { "AFI 3", 5, 3 },
    { "the other AFI", 5, 2 },
    { "count over the places", 7, 4 },
    { "count with a place that is zero", 7, 3 },
    { "count without the second route", 7, 1 },
    { "NLRI size", 136, 23 },
    { "attribute size", 137, 4 },
    { "route type", 138, 1 },
    { "Length", 139, 23 },
    { "source length", 148, 24 },
    { "the first NLRI over the second", 12, 1 },
    { "an NLRI twice", 147, 7 },
    { "tunnel type", 163, 8 },
    { "BIER with label 0", 166, 0x0F },
    { "an octet after the attribute", 174, 1 },
    { "the last octet but one of a taken place", 262, 1 },
    { "a mark of 2", 263, 2 },
    { "a mark of 255", 263, 255 },
    { "the first octet of a free place", 264, 1 },
    { "a mark in a free place", 391, 1 },
};

/* Every other argument is refused as well: TABLE comes first. */
static void refuse_table(const char *shows, lent table)
{
    lent before = copy_of(table);
    mvpn_installed installed = install(table, "", "");
    same(shows, "number of install", installed.number, MVPN_TABLE);
    same(shows, "outcome", installed.outcome, 0);
    same(shows, "number of withdrawal", withdraw(table, ""), MVPN_TABLE);
    mvpn_restarted marked = mvpn_mark(table.at, table.size, table.at, 0), swept = mvpn_sweep(table.at, table.size, table.at, 0);
    same(shows, "number of mark", marked.number, MVPN_TABLE);
    same(shows, "gone by mark", marked.gone, 0);
    same(shows, "number of sweep", swept.number, MVPN_TABLE);
    same(shows, "gone by sweep", swept.gone, 0);
    refuse_match(shows, table, (flow){ "", "", "" }, 0, MVPN_TABLE);
    same_table(shows, table, before);
    free(before.at);
}

static void unsound_memory(void)
{
    const route first = A("01"), second = { "0316 " RD("08") "20 C0000201 20 E8010101 0A000001", BIER("000010") };
    lent sound = image(1, 3, (const route[]){ first, second, END });
    same_match("the table before it is damaged", sound, (flow){ ROUTER, "C0000201", "E8010101" }, 1, &first);
    for (size_t i = 0; i < ROWS(damages); i++) {
        uint8_t kept = sound.at[damages[i].at];
        sound.at[damages[i].at] = damages[i].value;
        refuse_table(damages[i].shows, sound);
        sound.at[damages[i].at] = kept;
    }
    refuse_table("a table cut short by an octet", (lent){ sound.at, sound.size - 1 });
    refuse_table("a header cut short", (lent){ sound.at, 7 });
    free(sound.at);
}

/* ---- the most places */

/* (C-*,C-*) routes of one router, installed from the highest RD down; after 500 the next one is refused. */
static void most_places(void)
{
    const char *shows = "500 routes";
    lent table = made(1, MVPN_MOST_PLACES), nlri = hex(D_NLRI), attribute = hex(FLAGS("00")), output = lent_of(124, FILL);
    for (unsigned i = MVPN_MOST_PLACES + 1; i-- > 0;) {
        nlri.at[8] = (uint8_t)(i >> 8);
        nlri.at[9] = (uint8_t)i;
        mvpn_installed installed = mvpn_install(table.at, table.size, nlri.at, nlri.size, attribute.at, attribute.size);
        same(shows, "number", installed.number, i > 0 ? MVPN_DONE : MVPN_ROOM);
        same(shows, "outcome", installed.outcome, i > 0 ? MVPN_NEW : 0);
    }
    mvpn_matched m = match(table, (flow){ ROUTER, "C0000201", "E8010101" }, output);
    nlri.at[9] = 1;
    same(shows, "tier", m.tier, 4);
    same_octets(shows, "the route with the lowest RD", output.at, nlri.at, nlri.size);
    same(shows, "number of withdrawal", mvpn_withdraw(table.at, table.size, nlri.at, nlri.size), MVPN_DONE);
    same(shows, "count", (unsigned)table.at[6] << 8 | table.at[7], MVPN_MOST_PLACES - 1);
    free(table.at);
    free(nlri.at);
    free(attribute.at);
    free(output.at);
}

int main(void)
{
    for (size_t i = 0; i < ROWS(makings); i++)
        make(&makings[i]);
    marked_examples();
    ties_and_longest();
    run_session();
    refusals();
    unsound_memory();
    most_places();
    return verdict("C table");
}
