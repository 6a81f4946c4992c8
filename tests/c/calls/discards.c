/*
 * Source Active A-D routes (type 5) for groups of the standard SSM range are discarded (RFC 6514, by document 02, W-210): GROUP where one
 * is read or written; a walk and a reader of pieces skip it, and the old mode stops at it. The expected answers are written from the
 * document and from RFC 4607's range, not from any program.
 */
#include "checks.h"

/* A route distinguisher; sources and groups of both families, with their length octets. */
#define RD "0000006400000007 "
#define S4 "20 C0000201 "
#define S6 "80 20010DB8 00000000 00000000 00000001 "
#define SSM4 "20 E8010101 "
#define ASM4 "20 EF010101 "
#define SSM6 "80 FF3E0000 00000000 00000000 00000001 "
#define ASM6 "80 FF1E0000 00000000 00000000 00000001 "

/* Source Active routes, of 20 and 44 octets; others for an SSM group; one of type 2, of 14 octets. */
#define ACTIVE4(group) "0512 " RD S4 group
#define ACTIVE6(group) "052A " RD S6 group
#define S_PMSI "0316 " RD S4 SSM4 "0A000001 "
#define SHARED_JOIN "0616 " RD "0000FDE8 " S4 SSM4
#define SOURCE_JOIN "0716 " RD "0000FDE8 " S4 SSM4
#define INTER "020C " RD "0000FDE8 "

/* ---- reading, and a step at the NLRI */

typedef struct {
    const char *shows;
    uint16_t afi;
    const char *octets;
    uint32_t number; /* of reading it as a single NLRI */
    uint32_t step;   /* of a step: an NLRI ends with its Length */
} nlri_row;

static const nlri_row nlris[] = {
    { "231.255.255.255", 1, ACTIVE4("20 E7FFFFFF"), MVPN_DONE, MVPN_DONE },
    { "232.0.0.0", 1, ACTIVE4("20 E8000000"), MVPN_GROUP, MVPN_GROUP },
    { "232.255.255.255", 1, ACTIVE4("20 E8FFFFFF"), MVPN_GROUP, MVPN_GROUP },
    { "233.0.0.0", 1, ACTIVE4("20 E9000000"), MVPN_DONE, MVPN_DONE },
    { "no multicast address", 1, ACTIVE4("20 0A010101"), MVPN_DONE, MVPN_DONE },
    { "255.62.0.0", 1, ACTIVE4("20 FF3E0000"), MVPN_DONE, MVPN_DONE },
    { "a source in the range", 1, "0512 " RD "20 E8010101" ASM4, MVPN_DONE, MVPN_DONE },
    { "the last before FF30::", 2, ACTIVE6("80 FF2FFFFF FFFFFFFF FFFFFFFF FFFFFFFF"), MVPN_DONE, MVPN_DONE },
    { "FF30::", 2, ACTIVE6("80 FF300000 00000000 00000000 00000000"), MVPN_GROUP, MVPN_GROUP },
    { "the last before FF30:1::", 2, ACTIVE6("80 FF300000 FFFFFFFF FFFFFFFF FFFFFFFF"), MVPN_GROUP, MVPN_GROUP },
    { "FF30:1::", 2, ACTIVE6("80 FF300001 00000000 00000000 00000000"), MVPN_DONE, MVPN_DONE },
    { "FF3F::", 2, ACTIVE6("80 FF3F0000 00000000 00000000 00000000"), MVPN_GROUP, MVPN_GROUP },
    { "the last before FF3F:1::", 2, ACTIVE6("80 FF3F0000 FFFFFFFF FFFFFFFF FFFFFFFF"), MVPN_GROUP, MVPN_GROUP },
    { "FF3F:1::", 2, ACTIVE6("80 FF3F0001 00000000 00000000 00000000"), MVPN_DONE, MVPN_DONE },
    { "FF40::", 2, ACTIVE6("80 FF400000 00000000 00000000 00000000"), MVPN_DONE, MVPN_DONE },
    { "FE30::, no multicast address", 2, ACTIVE6("80 FE300000 00000000 00000000 00000000"), MVPN_DONE, MVPN_DONE },
    { "E801:101::, no multicast address", 2, ACTIVE6("80 E8010101 00000000 00000000 00000000"), MVPN_DONE, MVPN_DONE },

    { "an octet after it", 1, ACTIVE4(SSM4) "00", MVPN_LENGTH, MVPN_GROUP },
    { "another after it", 1, ACTIVE4(SSM4) ACTIVE4(ASM4), MVPN_LENGTH, MVPN_GROUP },
    { "an octet after it, AFI 2", 2, ACTIVE6(SSM6) "00", MVPN_LENGTH, MVPN_GROUP },
    { "a body that ends inside the group", 1, "0511 " RD S4 "20 E80101", MVPN_LENGTH, MVPN_LENGTH },
    { "the same, and the group's last octet after it", 1, "0511 " RD S4 SSM4, MVPN_LENGTH, MVPN_LENGTH },
    { "a body that ends before the group", 1, "050E " RD S4 "20", MVPN_LENGTH, MVPN_LENGTH },
    { "an octet left in the body", 1, "0513 " RD S4 SSM4 "00", MVPN_LENGTH, MVPN_LENGTH },
    { "a Length past the octets", 1, "0513 " RD S4 SSM4, MVPN_SHORT, MVPN_SHORT },
    { "a wildcard source", 1, "050E " RD "00 " SSM4, MVPN_WIDTH, MVPN_WIDTH },
    { "a source of 33 bits", 1, "0512 " RD "21 C0000201 " SSM4, MVPN_WIDTH, MVPN_WIDTH },
    { "a group of 24 bits", 1, "0511 " RD S4 "18 E80101", MVPN_WIDTH, MVPN_WIDTH },
    { "a group of 128 bits", 1, "051E " RD S4 SSM6, MVPN_WIDTH, MVPN_WIDTH },
    { "an IPv6 NLRI under AFI 1", 1, ACTIVE6(SSM6), MVPN_WIDTH, MVPN_WIDTH },
    { "an IPv4 NLRI under AFI 2", 2, ACTIVE4(SSM4), MVPN_WIDTH, MVPN_WIDTH },
    { "AFI 3", 3, ACTIVE4(SSM4), MVPN_FAMILY, MVPN_FAMILY },

    { "type 3", 1, S_PMSI, MVPN_DONE, MVPN_DONE },
    { "type 6", 1, SHARED_JOIN, MVPN_DONE, MVPN_DONE },
    { "type 7", 1, SOURCE_JOIN, MVPN_DONE, MVPN_DONE },
    { "type 7 of AFI 2", 2, "072E " RD "0000FDE8 " S6 SSM6, MVPN_DONE, MVPN_DONE },
    { "a key of type 3", 1, "041C " S_PMSI "0A000002", MVPN_DONE, MVPN_DONE },
    { "a key of type 5", 1, "0418 " ACTIVE4(SSM4) "0A000002", MVPN_KEY, MVPN_KEY },
};

/* Every field of a refused reading is 0. */
static void same_nothing(const char *shows, mvpn_nlri_reading r)
{
    static const uint8_t zeros[16];
    same(shows, "route_type", r.nlri.route_type, 0);
    same(shows, "source_as", r.nlri.source_as, 0);
    same_octets(shows, "distinguisher", r.nlri.distinguisher.octets, zeros, 8);
    same_octets(shows, "source", r.nlri.source.octets, zeros, 16);
    same_octets(shows, "group", r.nlri.group.octets, zeros, 16);
    same_octets(shows, "originator", r.nlri.originator.octets, zeros, 16);
    same(shows, "sizes", r.nlri.source.size + r.nlri.group.size + r.nlri.originator.size, 0);
    same(shows, "spans", r.key.start + r.key.size + r.fec.start + r.fec.size, 0);
}

/* What is read is written back to the same octets. */
static void same_back(const nlri_row *row, mvpn_nlri_reading r, lent nlri)
{
    lent output = lent_of(nlri.size + 1, FILL);
    mvpn_written w = mvpn_nlri_write(row->afi, r.nlri, nlri.at + r.key.start, r.key.size, nlri.at, 0, output.at, output.size);
    same(row->shows, "route_type", r.nlri.route_type, nlri.at[0]);
    same(row->shows, "number of writing", w.number, MVPN_DONE);
    same(row->shows, "size", w.size, nlri.size);
    same_output(row->shows, output, nlri.at, nlri.size);
    free(output.at);
}

static void read_nlri(const nlri_row *row)
{
    lent nlri = hex(row->octets);
    mvpn_nlri_reading r = mvpn_nlri_read(row->afi, nlri.at, nlri.size);
    mvpn_stepped s = mvpn_step(row->afi, nlri.at, nlri.size, 0);
    same(row->shows, "number", r.number, row->number);
    if (row->number == MVPN_DONE)
        same_back(row, r, nlri);
    else
        same_nothing(row->shows, r);
    same(row->shows, "number of the step", s.number, row->step);
    same(row->shows, "cursor", s.cursor, row->step == MVPN_DONE ? nlri.size : 0);
    same(row->shows, "route_type of the step", s.layout.route_type, row->step == MVPN_DONE ? nlri.at[0] : 0);
    same(row->shows, "group of the step",
         s.layout.group, row->step == MVPN_DONE && nlri.at[0] != 4 ? (row->afi == 1 ? 4 : 16) : 0);
    free(nlri.at);
}

/* A step from the middle of a run hands back the cursor it was given, and goes on where the caller says. */
static void step_over(void)
{
    lent run = hex(INTER ACTIVE4(SSM4) INTER);
    mvpn_stepped at = mvpn_step(1, run.at, run.size, 14), behind = mvpn_step(1, run.at, run.size, 14 + 20);
    same("a step at a discarded NLRI", "number", at.number, MVPN_GROUP);
    same("a step at a discarded NLRI", "cursor", at.cursor, 14);
    same("a step at a discarded NLRI", "Length", at.layout.length, 0);
    same("a step behind it", "number", behind.number, MVPN_DONE);
    same("a step behind it", "cursor", behind.cursor, 48);
    free(run.at);
}

/* ---- writing */

#define IPV4(a, b, c, d) { .octets = { a, b, c, d }, .size = 4 }
#define IPV6(a, b, c, d) { .octets = { a, b, c, d, [15] = 1 }, .size = 16 }

typedef struct {
    const char *shows;
    uint16_t afi;
    uint8_t route_type;
    mvpn_address source, group;
    size_t room;
    uint32_t number;
    size_t size;
} writing_row;

static const writing_row writings[] = {
    { "231.255.255.255", 1, 5, IPV4(192, 0, 2, 1), IPV4(231, 255, 255, 255), 20, MVPN_DONE, 20 },
    { "232.0.0.0", 1, 5, IPV4(192, 0, 2, 1), IPV4(232, 0, 0, 0), 20, MVPN_GROUP, 0 },
    { "232.255.255.255", 1, 5, IPV4(192, 0, 2, 1), IPV4(232, 255, 255, 255), 64, MVPN_GROUP, 0 },
    { "233.0.0.0", 1, 5, IPV4(192, 0, 2, 1), IPV4(233, 0, 0, 0), 20, MVPN_DONE, 20 },
    { "no multicast address", 1, 5, IPV4(192, 0, 2, 1), IPV4(10, 1, 1, 1), 20, MVPN_DONE, 20 },
    { "a source in the range", 1, 5, IPV4(232, 1, 1, 1), IPV4(239, 1, 1, 1), 20, MVPN_DONE, 20 },
    { "GROUP before SPACE", 1, 5, IPV4(192, 0, 2, 1), IPV4(232, 1, 1, 1), 19, MVPN_GROUP, 0 },
    { "GROUP before an output of no octets", 1, 5, IPV4(192, 0, 2, 1), IPV4(232, 1, 1, 1), 0, MVPN_GROUP, 0 },
    { "SPACE for an ASM group", 1, 5, IPV4(192, 0, 2, 1), IPV4(239, 1, 1, 1), 19, MVPN_SPACE, 0 },
    { "WIDTH of the source before GROUP", 1, 5, IPV6(0x20, 1, 0x0D, 0xB8), IPV4(232, 1, 1, 1), 64, MVPN_WIDTH, 0 },
    { "a wildcard source", 1, 5, { .size = 0 }, IPV4(232, 1, 1, 1), 64, MVPN_WIDTH, 0 },
    { "a group of the other family", 1, 5, IPV4(192, 0, 2, 1), IPV6(0xFF, 0x3E, 0, 0), 64, MVPN_WIDTH, 0 },
    { "AFI 3", 3, 5, IPV4(192, 0, 2, 1), IPV4(232, 1, 1, 1), 64, MVPN_FAMILY, 0 },
    { "FF3E::1", 2, 5, IPV6(0x20, 1, 0x0D, 0xB8), IPV6(0xFF, 0x3E, 0, 0), 44, MVPN_GROUP, 0 },
    { "FF30::1, an output of no octets", 2, 5, IPV6(0x20, 1, 0x0D, 0xB8), IPV6(0xFF, 0x30, 0, 0), 0, MVPN_GROUP, 0 },
    { "FF3F::1", 2, 5, IPV6(0x20, 1, 0x0D, 0xB8), IPV6(0xFF, 0x3F, 0, 0), 44, MVPN_GROUP, 0 },
    { "FF2F::1", 2, 5, IPV6(0x20, 1, 0x0D, 0xB8), IPV6(0xFF, 0x2F, 0, 0), 44, MVPN_DONE, 44 },
    { "FF3E:1::1", 2, 5, IPV6(0x20, 1, 0x0D, 0xB8), IPV6(0xFF, 0x3E, 0, 1), 44, MVPN_DONE, 44 },
    { "FF40::1", 2, 5, IPV6(0x20, 1, 0x0D, 0xB8), IPV6(0xFF, 0x40, 0, 0), 44, MVPN_DONE, 44 },
    { "type 3", 1, 3, IPV4(192, 0, 2, 1), IPV4(232, 1, 1, 1), 24, MVPN_DONE, 24 },
    { "type 6", 1, 6, IPV4(192, 0, 2, 1), IPV4(232, 1, 1, 1), 24, MVPN_DONE, 24 },
    { "type 7 of AFI 2", 2, 7, IPV6(0x20, 1, 0x0D, 0xB8), IPV6(0xFF, 0x3E, 0, 0), 48, MVPN_DONE, 48 },
    { "type 1 lacks a group", 1, 1, IPV4(192, 0, 2, 1), IPV4(232, 1, 1, 1), 14, MVPN_DONE, 14 },
};

static void write_nlri(const writing_row *row)
{
    mvpn_nlri nlri = { .route_type = row->route_type, .source = row->source, .group = row->group,
                       .originator = IPV4(10, 0, 0, 1), .source_as = 65000 };
    lent output = lent_of(row->room, FILL);
    mvpn_written w = mvpn_nlri_write(row->afi, nlri, NULL, 0, NULL, 0, output.at, output.size);
    same(row->shows, "number of writing", w.number, row->number);
    same(row->shows, "size", w.size, row->size);
    if (row->number != MVPN_DONE)
        untouched(row->shows, output);
    free(output.at);
}

/* ---- runs: walked, and in pieces cut at every octet */

typedef struct {
    const char *shows;
    uint16_t afi;
    const char *run;
    mvpn_walked skip;       /* in the mode that skips */
    const char *given;      /* the NLRIs read */
    mvpn_walked old;        /* in the old mode */
    const char *given_old;
} run_row;

#define WALKED(n, c, o, s) { .number = (n), .count = (c), .offset = (o), .skipped = (s) }

static const run_row runs[] = {
    { "one alone", 1, ACTIVE4(SSM4), WALKED(MVPN_DONE, 0, 20, 1), "", WALKED(MVPN_GROUP, 0, 0, 0), "" },
    { "one for an ASM group", 1, ACTIVE4(ASM4), WALKED(MVPN_DONE, 1, 20, 0), ACTIVE4(ASM4), WALKED(MVPN_DONE, 1, 20, 0),
      ACTIVE4(ASM4) },
    { "one between others", 1, INTER ACTIVE4(SSM4) INTER, WALKED(MVPN_DONE, 2, 48, 1), INTER INTER,
      WALKED(MVPN_GROUP, 1, 14, 0), INTER },
    { "three among unknown types", 1, ACTIVE4(SSM4) "0900" ACTIVE4("20 E8FFFFFF") "FF0100" ACTIVE4(SSM4) INTER,
      WALKED(MVPN_DONE, 1, 79, 5), INTER, WALKED(MVPN_GROUP, 0, 0, 0), "" },
    { "behind an unknown type", 1, INTER "0900" ACTIVE4(SSM4), WALKED(MVPN_DONE, 1, 36, 2), INTER,
      WALKED(MVPN_TYPE, 1, 14, 0), INTER },
    { "those beside the range", 1, ACTIVE4("20 E7FFFFFF") ACTIVE4("20 E8000000") ACTIVE4("20 E9000000"),
      WALKED(MVPN_DONE, 2, 60, 1), ACTIVE4("20 E7FFFFFF") ACTIVE4("20 E9000000"), WALKED(MVPN_GROUP, 1, 20, 0),
      ACTIVE4("20 E7FFFFFF") },
    { "an octet behind it", 1, ACTIVE4(SSM4) "05", WALKED(MVPN_SHORT, 0, 20, 1), "", WALKED(MVPN_GROUP, 0, 0, 0), "" },
    { "one that is cut", 1, INTER "0512 " RD S4 "20 E80101", WALKED(MVPN_SHORT, 1, 14, 0), INTER, WALKED(MVPN_SHORT, 1, 14, 0),
      INTER },
    { "a Length that cuts it", 1, "0511 " RD S4 SSM4 INTER, WALKED(MVPN_LENGTH, 0, 0, 0), "", WALKED(MVPN_LENGTH, 0, 0, 0), "" },
    { "LENGTH behind it", 1, ACTIVE4(SSM4) "0300", WALKED(MVPN_LENGTH, 0, 20, 1), "", WALKED(MVPN_GROUP, 0, 0, 0), "" },
    { "WIDTH before it", 1, "0309 " RD "18" ACTIVE4(SSM4), WALKED(MVPN_WIDTH, 0, 0, 0), "", WALKED(MVPN_WIDTH, 0, 0, 0), "" },
    { "inside a key", 1, "0418 " ACTIVE4(SSM4) "0A000002", WALKED(MVPN_KEY, 0, 0, 0), "", WALKED(MVPN_KEY, 0, 0, 0), "" },
    { "types 3, 6 and 7", 1, S_PMSI SHARED_JOIN SOURCE_JOIN, WALKED(MVPN_DONE, 3, 72, 0), S_PMSI SHARED_JOIN SOURCE_JOIN,
      WALKED(MVPN_DONE, 3, 72, 0), S_PMSI SHARED_JOIN SOURCE_JOIN },
    { "two of AFI 2", 2, ACTIVE6(SSM6) ACTIVE6(ASM6) ACTIVE6(SSM6) INTER, WALKED(MVPN_DONE, 2, 146, 2), ACTIVE6(ASM6) INTER,
      WALKED(MVPN_GROUP, 0, 0, 0), "" },
};

static void same_walked(const char *shows, mvpn_walked got, mvpn_walked expected)
{
    same(shows, "number", got.number, expected.number);
    same(shows, "count", got.count, expected.count);
    same(shows, "offset", got.offset, expected.offset);
    same(shows, "skipped", got.skipped, expected.skipped);
}

typedef struct { uint8_t octets[256]; size_t size; } given_nlris;

static mvpn_pieces feed(mvpn_pieces pieces, uint8_t *unfinished, const uint8_t *piece, size_t size, given_nlris *given)
{
    while (size > 0) {
        mvpn_fed fed = mvpn_pieces_feed(pieces, unfinished, piece, size);
        memcpy(given->octets + given->size, unfinished, fed.size);
        given->size += fed.size;
        pieces = fed.pieces;
        piece += fed.taken;
        size -= fed.taken;
    }
    return pieces;
}

/* The run in pieces of `first` octets, of `size`, and what is left. */
static void read_pieces(const run_row *row, uint32_t mode, lent run, size_t first, size_t size)
{
    const char *text = mode == MVPN_SKIP ? row->given : row->given_old;
    lent expected = hex(text);
    given_nlris given = { { 0 }, 0 };
    uint8_t unfinished[MVPN_UNFINISHED];
    mvpn_pieces pieces = mvpn_pieces_start(row->afi, mode);
    pieces = feed(pieces, unfinished, run.at, first, &given);
    for (size_t at = first; at < run.size; at += size)
        pieces = feed(pieces, unfinished, run.at + at, size < run.size - at ? size : run.size - at, &given);
    pieces = mvpn_pieces_finish(pieces);
    same_walked(row->shows, pieces.walked, mode == MVPN_SKIP ? row->skip : row->old);
    same(row->shows, "octets given", given.size, expected.size);
    same_octets(row->shows, "NLRIs given", given.octets, expected.at, expected.size);
    free(expected.at);
}

static void walk_run(const run_row *row)
{
    static const uint32_t modes[] = { MVPN_SKIP, MVPN_OLD, 2, 256 };
    lent run = hex(row->run);
    for (size_t m = 0; m < ROWS(modes); m++) {
        same_walked(row->shows, mvpn_walk(row->afi, modes[m], run.at, run.size), modes[m] == MVPN_SKIP ? row->skip : row->old);
        read_pieces(row, modes[m], run, 0, 1);
        for (size_t first = 0; first <= run.size; first++)
            read_pieces(row, modes[m], run, first, run.size);
    }
    free(run.at);
}

/* ---- tables */

#define TUNNEL "00 06 000010 0A000001"

typedef struct { const char *shows, *nlri, *attribute; uint32_t number; } table_row;

static const table_row table_rows[] = {
    { "one for an SSM group", ACTIVE4(SSM4), TUNNEL, MVPN_GROUP },
    { "before a bad attribute", ACTIVE4(SSM4), "00 08 000010", MVPN_GROUP },
    { "before no attribute", ACTIVE4("20 E8FFFFFF"), "", MVPN_GROUP },
    { "an octet after it", ACTIVE4(SSM4) "00", TUNNEL, MVPN_LENGTH },
    { "one for an ASM group", ACTIVE4(ASM4), TUNNEL, MVPN_KIND },
    { "type 6", SHARED_JOIN, TUNNEL, MVPN_KIND },
    { "type 7", SOURCE_JOIN, TUNNEL, MVPN_KIND },
};

/* A full table that holds a route for an SSM group. */
static void tables(void)
{
    static const route routes[] = { { S_PMSI, TUNNEL } };
    lent table = holding(1, 1, routes, 1), before = copy_of(table), cut = { table.at, table.size - 1 };
    for (size_t i = 0; i < ROWS(table_rows); i++) {
        const table_row *row = &table_rows[i];
        mvpn_installed installed = install(table, row->nlri, row->attribute);
        same(row->shows, "number of install", installed.number, row->number);
        same(row->shows, "outcome", installed.outcome, 0);
        same(row->shows, "number of withdraw", withdraw(table, row->nlri), row->number);
        same(row->shows, "number of install, no table", install(cut, row->nlri, row->attribute).number, MVPN_TABLE);
        same(row->shows, "number of withdraw, no table", withdraw(cut, row->nlri), MVPN_TABLE);
        same_table(row->shows, table, before);
    }
    same("a route for an SSM group", "number of withdraw", withdraw(table, S_PMSI), MVPN_DONE);
    free(before.at);
    free(table.at);
}

/* ---- shared trees */

#define PE1 "0A000001 "
#define PE2 "0A000002 "
#define G1 "EF010101 "
#define SSM "E8090909 "
#define ITEM(originator, group) "0004 " originator "0014 " ACTIVE4("20 " group)
#define OF_TYPE_3 "0004 " PE1 "0010 030E " RD "00 00 0A000001 "

/* 239.0.0.0/8, and with a bit set past its length. */
#define IN_239 "0001 0005 08 EF000000"
#define BAD_BIT "0001 0005 08 EF000001"

static const route tree_routes[] = {
    { "0312 " RD "00 20 " G1 PE1, TUNNEL },
    { "0312 " RD "00 20 " SSM PE1, "00 06 000020 0A000001" },
};

typedef struct {
    const char *shows, *prefixes, *group, *source_actives;
    size_t room;
    uint32_t number, tier; /* tier 3: the route for the group asked */
} tree_row;

static const tree_row trees[] = {
    { "a listed route for an SSM group", NULL, G1, "0001" ITEM(PE1, SSM), 124, MVPN_GROUP, 0 },
    { "of another PE", NULL, G1, "0001" ITEM(PE2, SSM), 124, MVPN_GROUP, 0 },
    { "behind a good one", NULL, G1, "0002" ITEM(PE1, G1) ITEM(PE1, SSM), 124, MVPN_GROUP, 0 },
    { "before one of another type", NULL, G1, "0002" ITEM(PE1, SSM) OF_TYPE_3, 124, MVPN_GROUP, 0 },
    { "behind one of another type", NULL, G1, "0002" OF_TYPE_3 ITEM(PE1, SSM), 124, MVPN_KIND, 0 },
    { "before SPACE", NULL, G1, "0001" ITEM(PE1, SSM), 123, MVPN_GROUP, 0 },
    { "behind FLOW", NULL, "0A010101", "0001" ITEM(PE1, SSM), 124, MVPN_FLOW, 0 },
    { "an octet after it", NULL, G1, "0001 0004" PE1 "0015" ACTIVE4("20 " SSM) "00", 124, MVPN_LENGTH, 0 },
    { "for the SSM group asked", NULL, SSM, "0001" ITEM(PE1, SSM), 124, MVPN_GROUP, 0 },
    { "ASM by the prefix", IN_239, SSM, "0001" ITEM(PE1, SSM), 124, MVPN_GROUP, 0 },
    { "SSM by the prefix", IN_239, SSM, "0001" ITEM(PE1, G1), 124, MVPN_DONE, 3 },
    { "SSM by the prefix, and asked", IN_239, G1, "0001" ITEM(PE1, G1), 124, MVPN_DONE, 0 },
    { "behind a bad prefix", BAD_BIT, G1, "0001" ITEM(PE1, SSM), 124, MVPN_RANGE, 0 },
    { "one for an ASM group", NULL, G1, "0001" ITEM(PE1, G1), 124, MVPN_DONE, 3 },
};

static void match_tree(const tree_row *row, lent table)
{
    lent prefixes = list_of(row->prefixes), router = hex(PE1), group = hex(row->group), actives = hex(row->source_actives);
    lent output = lent_of(row->room, FILL);
    const route *taken = row->tier == 0 ? NULL : &tree_routes[strcmp(row->group, SSM) == 0];
    mvpn_matched m = mvpn_match_shared(table.at, table.size, prefixes.at, prefixes.size, router.at, router.size, group.at,
                                       group.size, (mvpn_tree_facts){ .upstream = 1 }, actives.at, actives.size, mvpn_no_items,
                                       sizeof mvpn_no_items, output.at, output.size);
    if (row->number == MVPN_DONE)
        same_matched(row->shows, m, output, row->tier, taken);
    else
        refused_matched(row->shows, m, output, row->number);
    free(prefixes.at);
    free(router.at);
    free(group.at);
    free(actives.at);
    free(output.at);
}

int main(void)
{
    lent table = holding(1, ROWS(tree_routes), tree_routes, ROWS(tree_routes)), before = copy_of(table);
    for (size_t i = 0; i < ROWS(nlris); i++)
        read_nlri(&nlris[i]);
    step_over();
    for (size_t i = 0; i < ROWS(writings); i++)
        write_nlri(&writings[i]);
    for (size_t i = 0; i < ROWS(runs); i++)
        walk_run(&runs[i]);
    tables();
    for (size_t i = 0; i < ROWS(trees); i++)
        match_tree(&trees[i], table);
    same_table("matches for shared trees leave the table", table, before);
    free(before.at);
    free(table.at);
    return verdict("C discarded routes");
}
