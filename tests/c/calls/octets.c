/*
 * Every call of mvpn.h but the table's, accepted and refused; mldp.c has the route types for mLDP. The expected answers are written
 * from document 01, not from any program.
 *
 * Each table row gives all fields of the answer; a field left out is expected to be 0.
 */
#include "checks.h"

/* Route distinguisher 100:7, as text in a row's octets and as a field. */
#define RD "0000006400000007 "
#define RD_FIELD { .octets = { 0, 0, 0, 0x64, 0, 0, 0, 7 } }
#define IPV4(a, b, c, d) { .octets = { a, b, c, d }, .size = 4 }
/* 2001:db8::N */
#define IPV6(n) { .octets = { 0x20, 0x01, 0x0D, 0xB8, [15] = (n) }, .size = 16 }
#define IPV6_OCTETS(n) "20010DB8 00000000 00000000 000000" n " "

/* Fields of the header's structs are given by name, so that the header's order is tested too. */
#define SPAN(from, octets) { .start = (from), .size = (octets) }
#define FEC(type, family, root_span, opaque_span) \
    { .fec_type = (type), .address_family = (family), .root = root_span, .opaque = opaque_span }
#define NO_KEY SPAN(0, 0)

/* Document 01's listing example: a (C-*,C-*) S-PMSI A-D route, then a header of unknown type. */
#define WILDCARDS "030E " RD "00 00 0A000001 "
#define LISTED WILDCARDS "0900"

/* A run's most octets. */
enum { RUN = 4096 };

/* ---- reading and writing an NLRI */

typedef struct {
    const char *shows;
    uint16_t afi;
    const char *octets;
    uint32_t number;
    mvpn_nlri nlri;
    mvpn_span key;
} nlri_row;

static const nlri_row accepted_nlris[] = {
    { "type 1", 1, "010C " RD "0A000001", MVPN_DONE,
      { .route_type = 1, .distinguisher = RD_FIELD, .originator = IPV4(10, 0, 0, 1) }, NO_KEY },
    { "type 1 of AFI 1, IPv6 originator", 1, "0118 " RD IPV6_OCTETS("01"), MVPN_DONE,
      { .route_type = 1, .distinguisher = RD_FIELD, .originator = IPV6(1) }, NO_KEY },
    { "type 2", 2, "020C " RD "0001FDE8", MVPN_DONE,
      { .route_type = 2, .distinguisher = RD_FIELD, .source_as = 0x1FDE8 }, NO_KEY },
    { "P9: type 3, both wildcards, Length 14", 1, WILDCARDS, MVPN_DONE,
      { .route_type = 3, .distinguisher = RD_FIELD, .originator = IPV4(10, 0, 0, 1) }, NO_KEY },
    { "type 3 of AFI 2, both wildcards, IPv4 originator", 2, WILDCARDS, MVPN_DONE,
      { .route_type = 3, .distinguisher = RD_FIELD, .originator = IPV4(10, 0, 0, 1) }, NO_KEY },
    { "type 3, source and group", 1, "0316 " RD "20 C0000201 20 E8010101 0A000001", MVPN_DONE,
      { .route_type = 3, .distinguisher = RD_FIELD, .source = IPV4(192, 0, 2, 1), .group = IPV4(232, 1, 1, 1),
        .originator = IPV4(10, 0, 0, 1) }, NO_KEY },
    { "type 3 of AFI 2, source and wildcard", 2, "031E " RD "80 " IPV6_OCTETS("09") "00 0A000001", MVPN_DONE,
      { .route_type = 3, .distinguisher = RD_FIELD, .source = IPV6(9), .originator = IPV4(10, 0, 0, 1) }, NO_KEY },
    { "type 4, key of type 3", 1, "0414 " WILDCARDS "0A000002", MVPN_DONE,
      { .route_type = 4, .originator = IPV4(10, 0, 0, 2) }, SPAN(2, 16) },
    { "type 5", 1, "0512 " RD "20 C0000201 20 EF010101", MVPN_DONE,
      { .route_type = 5, .distinguisher = RD_FIELD, .source = IPV4(192, 0, 2, 1), .group = IPV4(239, 1, 1, 1) }, NO_KEY },
    { "type 6 of AFI 2", 2, "062E " RD "0000FDE8 80 " IPV6_OCTETS("01") "80 " IPV6_OCTETS("02"), MVPN_DONE,
      { .route_type = 6, .distinguisher = RD_FIELD, .source_as = 65000, .source = IPV6(1), .group = IPV6(2) }, NO_KEY },
    { "type 7", 1, "0716 " RD "0000FDE8 20 C0000201 20 E8010101", MVPN_DONE,
      { .route_type = 7, .distinguisher = RD_FIELD, .source_as = 65000, .source = IPV4(192, 0, 2, 1),
        .group = IPV4(232, 1, 1, 1) }, NO_KEY },
};

static const nlri_row refused_nlris[] = {
    { .shows = "AFI 0, no octets", .afi = 0, .octets = "", .number = MVPN_FAMILY },
    { .shows = "AFI 257", .afi = 257, .octets = WILDCARDS, .number = MVPN_FAMILY },
    { .shows = "no octets", .afi = 1, .octets = "", .number = MVPN_SHORT },
    { .shows = "half a header", .afi = 1, .octets = "03", .number = MVPN_SHORT },
    { .shows = "body shorter than Length, unknown type", .afi = 1, .octets = "0905 01020304", .number = MVPN_SHORT },
    { .shows = "type 0", .afi = 1, .octets = "0000", .number = MVPN_TYPE },
    { .shows = "type 8", .afi = 2, .octets = "0800", .number = MVPN_TYPE },
    { .shows = "type 0x42", .afi = 1, .octets = "4200", .number = MVPN_TYPE },
    { .shows = "P9: Length 13", .afi = 1, .octets = "030D " RD "00 00 0A0000", .number = MVPN_LENGTH },
    { .shows = "an octet after a single NLRI", .afi = 1, .octets = WILDCARDS "00", .number = MVPN_LENGTH },
    { .shows = "body ends inside the RD", .afi = 1, .octets = "0104 00000064", .number = MVPN_LENGTH },
    { .shows = "P10: source length 24", .afi = 1, .octets = "0309 " RD "18", .number = MVPN_WIDTH },
    { .shows = "P10: source length 128 under AFI 1", .afi = 1, .octets = "031A " RD "80 " IPV6_OCTETS("01") "00",
      .number = MVPN_WIDTH },
    { .shows = "P11: type 7, source length 0", .afi = 1, .octets = "0712 " RD "0000FDE8 00 20 E8010101", .number = MVPN_WIDTH },
    { .shows = "Leaf without a key", .afi = 1, .octets = "0404 0A000001", .number = MVPN_KEY },
    { .shows = "Leaf with a key of type 5", .afi = 1, .octets = "0418 0512 " RD "20 C0000201 20 E8010101 0A000001",
      .number = MVPN_KEY },
};

static void same_address(const char *shows, const char *field, mvpn_address got, mvpn_address expected)
{
    same_octets(shows, field, got.octets, expected.octets, sizeof got.octets);
    same(shows, field, got.size, expected.size);
}

static void same_span(const char *shows, const char *field, mvpn_span got, mvpn_span expected)
{
    char part[64];
    snprintf(part, sizeof part, "%s.start", field);
    same(shows, part, got.start, expected.start);
    snprintf(part, sizeof part, "%s.size", field);
    same(shows, part, got.size, expected.size);
}

static void read_nlri(const nlri_row *row)
{
    lent nlri = hex(row->octets);
    mvpn_nlri_reading r = mvpn_nlri_read(row->afi, nlri.at, nlri.size);
    same(row->shows, "number", r.number, row->number);
    same(row->shows, "route_type", r.nlri.route_type, row->nlri.route_type);
    same_octets(row->shows, "distinguisher", r.nlri.distinguisher.octets, row->nlri.distinguisher.octets, 8);
    same(row->shows, "source_as", r.nlri.source_as, row->nlri.source_as);
    same_address(row->shows, "source", r.nlri.source, row->nlri.source);
    same_address(row->shows, "group", r.nlri.group, row->nlri.group);
    same_address(row->shows, "originator", r.nlri.originator, row->nlri.originator);
    same_span(row->shows, "key", r.key, row->key);
    same_span(row->shows, "fec", r.fec, (mvpn_span){ 0, 0 });
    free(nlri.at);
}

/* What a writer answers, and its output, where it was done and where it was refused. */
static void same_writing(const char *shows, mvpn_written w, lent output, lent expected)
{
    same(shows, "number of writing", w.number, MVPN_DONE);
    same(shows, "size", w.size, expected.size);
    same_output(shows, output, expected.at, expected.size);
}

static void same_refusal(const char *shows, mvpn_written w, lent output, uint32_t number)
{
    same(shows, "number of refused writing", w.number, number);
    same(shows, "size of refused writing", w.size, 0);
    untouched(shows, output);
}

/* Writes the row's fields, with its key where its octets have it. These types have no FEC element: what is lent as one is not
 * looked at. */
static mvpn_written write_nlri(const nlri_row *row, lent nlri, lent output)
{
    return mvpn_nlri_write(row->afi, row->nlri, nlri.at + row->key.start, row->key.size, nlri.at, nlri.size, output.at,
                           output.size);
}

/* The row's fields are written back to its octets, into an output with an octet to spare, and refused one short. */
static void write_back_nlri(const nlri_row *row)
{
    lent nlri = hex(row->octets), roomy = lent_of(nlri.size + 1, FILL), tight = lent_of(nlri.size - 1, FILL);
    same_writing(row->shows, write_nlri(row, nlri, roomy), roomy, nlri);
    same_refusal(row->shows, write_nlri(row, nlri, tight), tight, MVPN_SPACE);
    free(nlri.at);
    free(roomy.at);
    free(tight.at);
}

typedef struct {
    const char *shows;
    uint16_t afi;
    mvpn_nlri nlri;
    const char *key;
    size_t output;
    uint32_t number;
} refused_writing;

/* Several break a later rule as well, so that the order of the refusals shows. */
static const refused_writing refused_writings[] = {
    { "writing, AFI 3", 3, { .route_type = 9 }, "", 0, MVPN_FAMILY },
    { "writing, type 0", 1, { .route_type = 0, .originator = { .size = 5 } }, "", 0, MVPN_TYPE },
    { "writing, type 8", 1, { .route_type = 8 }, "", 64, MVPN_TYPE },
    { "writing, originator of 5 octets", 1, { .route_type = 1, .originator = { .size = 5 } }, "", 64, MVPN_WIDTH },
    { "writing, Leaf without originator", 1, { .route_type = 4 }, "", 64, MVPN_WIDTH },
    { "writing, wildcard source in type 5", 1, { .route_type = 5, .group = IPV4(232, 1, 1, 1) }, "", 64, MVPN_WIDTH },
    { "writing, IPv6 group under AFI 1", 1,
      { .route_type = 3, .group = IPV6(1), .originator = IPV4(10, 0, 0, 1) }, "", 64, MVPN_WIDTH },
    { "writing, Leaf without key", 1, { .route_type = 4, .originator = IPV4(10, 0, 0, 1) }, "", 0, MVPN_KEY },
    { "writing, key with an octet after it", 1,
      { .route_type = 4, .originator = IPV4(10, 0, 0, 1) }, WILDCARDS "00", 64, MVPN_KEY },
    { "writing, no output", 1, { .route_type = 2 }, "", 0, MVPN_SPACE },
};

static void refuse_writing(const refused_writing *row)
{
    lent key = hex(row->key), output = lent_of(row->output, FILL);
    mvpn_written w = mvpn_nlri_write(row->afi, row->nlri, key.at, key.size, key.at, 0, output.at, output.size);
    same_refusal(row->shows, w, output, row->number);
    free(key.at);
    free(output.at);
}

/* A writer does not look at fields that the type lacks: type 2 has no address, no key and no FEC element. */
static void ignore_lacked_fields(void)
{
    const char *shows = "writing type 2 with bad fields that it lacks";
    lent expected = hex("020C " RD "0000FDE8"), key = hex("0900"), output = lent_of(expected.size, FILL);
    mvpn_nlri nlri = { .route_type = 2, .distinguisher = RD_FIELD, .source_as = 65000,
                       .source = { .size = 255 }, .group = { .size = 3 }, .originator = { .size = 5 } };
    same_writing(shows, mvpn_nlri_write(1, nlri, key.at, key.size, key.at, key.size, output.at, output.size), output, expected);
    free(expected.at);
    free(key.at);
    free(output.at);
}

/* ---- step and walk */

typedef struct {
    const char *shows;
    uint16_t afi;
    const char *run;
    size_t cursor;
    uint32_t number;
    size_t next;
    mvpn_layout layout;
} step_row;

static const step_row steps[] = {
    { "step, the first NLRI", 1, LISTED, 0, MVPN_DONE, 16, { .route_type = 3, .length = 14, .originator = 4 } },
    { "step, refused: the cursor is kept", 1, LISTED, 16, MVPN_TYPE, 16, { .route_type = 0 } },
    { "step, at the run's end", 1, LISTED, 18, MVPN_DONE, 18, { .route_type = 0 } },
    { "step, past the run's end", 1, LISTED, 19, MVPN_SHORT, 19, { .route_type = 0 } },
    { "step, far past the run's end", 1, LISTED, SIZE_MAX, MVPN_SHORT, SIZE_MAX, { .route_type = 0 } },
    { "step, no octets", 1, "", 0, MVPN_DONE, 0, { .route_type = 0 } },
    { "step, past no octets", 2, "", 1, MVPN_SHORT, 1, { .route_type = 0 } },
    { "step, AFI 0", 0, LISTED, 5, MVPN_FAMILY, 5, { .route_type = 0 } },
    { "step, a Leaf behind another NLRI", 1, WILDCARDS "0412 020C " RD "0000FDE8 0A000002", 16, MVPN_DONE, 36,
      { .route_type = 4, .length = 18, .originator = 4, .key = 14 } },
    { "step, source, wildcard group, IPv6 originator", 1, "031E " RD "20 C0000201 00 " IPV6_OCTETS("01"), 0, MVPN_DONE, 32,
      { .route_type = 3, .length = 30, .source = 4, .originator = 16 } },
    { "step, AFI 2", 2, "062E " RD "0000FDE8 80 " IPV6_OCTETS("01") "80 " IPV6_OCTETS("02") "FF", 0, MVPN_DONE, 48,
      { .route_type = 6, .length = 46, .source = 16, .group = 16 } },
};

static void same_layout(const char *shows, mvpn_layout got, mvpn_layout expected)
{
    same(shows, "layout.route_type", got.route_type, expected.route_type);
    same(shows, "layout.length", got.length, expected.length);
    same(shows, "layout.source", got.source, expected.source);
    same(shows, "layout.group", got.group, expected.group);
    same(shows, "layout.originator", got.originator, expected.originator);
    same(shows, "layout.key", got.key, expected.key);
    same(shows, "layout.fec", got.fec, expected.fec);
}

static void step(const step_row *row)
{
    lent run = hex(row->run);
    mvpn_stepped s = mvpn_step(row->afi, run.at, run.size, row->cursor);
    same(row->shows, "number", s.number, row->number);
    same(row->shows, "cursor", s.cursor, row->next);
    same_layout(row->shows, s.layout, row->layout);
    free(run.at);
}

/* What a walk answers in each mode; in the old mode nothing is skipped. */
typedef struct {
    const char *shows;
    uint16_t afi;
    const char *run;
    mvpn_walked skipping, old;
} walk_row;

#define WALKED(number_, count_, offset_, skipped_) \
    { .number = (number_), .count = (count_), .offset = (offset_), .skipped = (skipped_) }
#define BOTH(number, count, offset) WALKED(number, count, offset, 0), WALKED(number, count, offset, 0)

/* 254 and 255 octets. */
#define OCTETS_15 "000102030405060708090A0B0C0D0E "
#define OCTETS_51 OCTETS_15 OCTETS_15 OCTETS_15 "0F1011121314 "
#define OCTETS_254 OCTETS_51 OCTETS_51 OCTETS_51 OCTETS_51 OCTETS_15 OCTETS_15 OCTETS_15 "0F10111213 "
#define OCTETS_255 OCTETS_254 "14 "

static const walk_row walks[] = {
    { "walk to the run's end", 1, WILDCARDS WILDCARDS, BOTH(MVPN_DONE, 2, 32) },
    { "walk, a zero length does not end the run", 1, WILDCARDS "0300 " WILDCARDS, BOTH(MVPN_LENGTH, 1, 16) },
    { "walk, the last NLRI cut short", 2, WILDCARDS "030E 00", BOTH(MVPN_SHORT, 1, 16) },
    { "walk, no octets", 1, "", BOTH(MVPN_DONE, 0, 0) },
    { "walk, AFI 3", 3, LISTED, BOTH(MVPN_FAMILY, 0, 0) },
    { "walk, AFI 3, no octets", 3, "", BOTH(MVPN_FAMILY, 0, 0) },

    { "walk of document 01's octets", 1, LISTED, WALKED(MVPN_DONE, 1, 18, 1), WALKED(MVPN_TYPE, 1, 16, 0) },
    { "walk, an unknown type first", 1, "0903 ABCDEF" WILDCARDS, WALKED(MVPN_DONE, 1, 21, 1), WALKED(MVPN_TYPE, 0, 0, 0) },
    { "walk, an unknown type in the middle", 2, WILDCARDS "0903 ABCDEF" WILDCARDS, WALKED(MVPN_DONE, 2, 37, 1),
      WALKED(MVPN_TYPE, 1, 16, 0) },
    { "walk, an unknown type last", 1, WILDCARDS WILDCARDS "0903 ABCDEF", WALKED(MVPN_DONE, 2, 37, 1), WALKED(MVPN_TYPE, 2, 32, 0) },
    { "walk, unknown types one after another", 1, "0000 0801AA FF00" WILDCARDS "0900", WALKED(MVPN_DONE, 1, 25, 4),
      WALKED(MVPN_TYPE, 0, 0, 0) },
    { "walk, an unknown type alone, Length 0", 1, "0900", WALKED(MVPN_DONE, 0, 2, 1), WALKED(MVPN_TYPE, 0, 0, 0) },
    { "walk, an unknown type, Length 0, does not end the run", 1, "0000" WILDCARDS, WALKED(MVPN_DONE, 1, 18, 1),
      WALKED(MVPN_TYPE, 0, 0, 0) },
    { "walk, an unknown type, Length 255", 1, "09FF" OCTETS_255 WILDCARDS, WALKED(MVPN_DONE, 1, 273, 1), WALKED(MVPN_TYPE, 0, 0, 0) },
    { "walk, an unknown type whose body looks like NLRIs", 1, "0920" WILDCARDS WILDCARDS WILDCARDS, WALKED(MVPN_DONE, 1, 50, 1),
      WALKED(MVPN_TYPE, 0, 0, 0) },

    { "walk, an unknown type past the run's end", 1, WILDCARDS "0905 01020304", BOTH(MVPN_SHORT, 1, 16) },
    { "walk, an unknown type of 255 octets past the run's end", 1, "09FF" OCTETS_254, BOTH(MVPN_SHORT, 0, 0) },
    { "walk, an unknown type, then one past the run's end", 1, "0900 0801", WALKED(MVPN_SHORT, 0, 2, 1), WALKED(MVPN_TYPE, 0, 0, 0) },
    { "walk, an unknown type, then half a header", 1, WILDCARDS "0900 09", WALKED(MVPN_SHORT, 1, 18, 1), WALKED(MVPN_TYPE, 1, 16, 0) },
    { "walk, a Leaf whose key is of unknown type", 1, "0406 0900 0A000001" WILDCARDS, BOTH(MVPN_KEY, 0, 0) },
    { "walk, an unknown type, then a Leaf with such a key", 1, WILDCARDS "0900 0406 0900 0A000001", WALKED(MVPN_KEY, 1, 18, 1),
      WALKED(MVPN_TYPE, 1, 16, 0) },
    { "walk, an unknown type, then a source of 24 bits", 1, "0801AA 0309 " RD "18", WALKED(MVPN_WIDTH, 0, 3, 1),
      WALKED(MVPN_TYPE, 0, 0, 0) },
    { "walk, a refusal, then an unknown type", 1, "0100 0900", BOTH(MVPN_LENGTH, 0, 0) },
    { "walk, AFI 0, an unknown type", 0, "0900", BOTH(MVPN_FAMILY, 0, 0) },
};

static void same_walk(const char *shows, mvpn_walked got, mvpn_walked expected)
{
    same(shows, "number", got.number, expected.number);
    same(shows, "count", got.count, expected.count);
    same(shows, "offset", got.offset, expected.offset);
    same(shows, "skipped", got.skipped, expected.skipped);
}

/* Every number but MVPN_SKIP is the old mode. */
static const uint32_t old_modes[] = { MVPN_OLD, 2, 256, 0x80000000, UINT32_MAX };

static void walk(const char *shows, uint16_t afi, const uint8_t *run, size_t size, mvpn_walked skipping, mvpn_walked old)
{
    same_walk(shows, mvpn_walk(afi, MVPN_SKIP, run, size), skipping);
    for (size_t i = 0; i < ROWS(old_modes); i++)
        same_walk(shows, mvpn_walk(afi, old_modes[i], run, size), old);
}

static void walk_run(const walk_row *row)
{
    lent run = hex(row->run);
    walk(row->shows, row->afi, run.at, run.size, row->skipping, row->old);
    free(run.at);
}

/* A run of NLRIs of 16 octets, or of unknown types of 2 octets; one octet more than a run may have. */
static lent long_run(const char *nlri_text)
{
    lent nlri = hex(nlri_text), run = lent_of(RUN + 1, 0);
    for (size_t at = 0; at < RUN; at += nlri.size)
        memcpy(run.at + at, nlri.at, nlri.size);
    free(nlri.at);
    return run;
}

/* A run of 4,096 octets is walked whole; with one octet more it is LONG, for the step wherever the cursor stands. */
static void longest_run(void)
{
    static const mvpn_walked whole = WALKED(MVPN_DONE, RUN / 16, RUN, 0), skipped = WALKED(MVPN_DONE, 0, RUN, RUN / 2),
                             stopped = WALKED(MVPN_TYPE, 0, 0, 0), too_long = WALKED(MVPN_LONG, 0, 0, 0),
                             no_family = WALKED(MVPN_FAMILY, 0, 0, 0);
    lent run = long_run(WILDCARDS), unknown = long_run("0900");
    walk("walk of 4,096 octets", 1, run.at, RUN, whole, whole);
    walk("walk of 4,096 octets of unknown types", 1, unknown.at, RUN, skipped, stopped);
    walk("walk of 4,097 octets", 1, run.at, RUN + 1, too_long, too_long);
    walk("walk of 4,097 octets of unknown types", 1, unknown.at, RUN + 1, too_long, too_long);
    walk("walk of 4,097 octets, AFI 3", 3, run.at, RUN + 1, no_family, no_family);
    mvpn_stepped s = mvpn_step(1, run.at, RUN + 1, 16);
    same("step in 4,097 octets", "number", s.number, MVPN_LONG);
    same("step in 4,097 octets", "cursor", s.cursor, 16);
    same_layout("step in 4,097 octets", s.layout, (mvpn_layout){ .route_type = 0 });
    free(run.at);
    free(unknown.at);
}

/* Stepping from cursor to cursor comes to what the walk of the old mode tells: a step skips nothing. */
static void step_through(void)
{
    const char *shows = "stepping through document 01's octets";
    lent run = hex(LISTED);
    mvpn_stepped s = mvpn_step(1, run.at, run.size, 0);
    uint32_t count = 0;
    for (; s.number == MVPN_DONE && s.layout.route_type != 0 && count < 3; count++)
        s = mvpn_step(1, run.at, run.size, s.cursor);
    same(shows, "number of NLRIs", count, 1);
    same(shows, "cursor", s.cursor, 16);
    same(shows, "number", s.number, MVPN_TYPE);
    free(run.at);
}

/* ---- group class */

typedef struct {
    const char *shows;
    uint16_t afi;
    const char *group;
    uint32_t number, group_class;
} group_row;

static const group_row groups[] = {
    { "P7: 231.255.255.255", 1, "E7FFFFFF", MVPN_DONE, MVPN_ASM },
    { "P7: 233.0.0.0", 1, "E9000000", MVPN_DONE, MVPN_ASM },
    { "P7: 223.255.255.255", 1, "DFFFFFFF", MVPN_FLOW, 0 },
    { "P7: 240.0.0.0", 1, "F0000000", MVPN_FLOW, 0 },
    { "232.0.0.0", 1, "E8000000", MVPN_DONE, MVPN_SSM },
    { "232.255.255.255", 1, "E8FFFFFF", MVPN_DONE, MVPN_SSM },
    { "P8: FF3E::1", 2, "FF3E0000 00000000 00000000 00000001", MVPN_DONE, MVPN_SSM },
    { "P8: FF3E:1::1", 2, "FF3E0001 00000000 00000000 00000001", MVPN_DONE, MVPN_ASM },
    { "FF0E::1", 2, "FF0E0000 00000000 00000000 00000001", MVPN_DONE, MVPN_ASM },
    { "FE3E::1, no multicast address", 2, "FE3E0000 00000000 00000000 00000001", MVPN_FLOW, 0 },
    { "an IPv6 group under AFI 1", 1, "FF3E0000 00000000 00000000 00000001", MVPN_FLOW, 0 },
    { "an IPv4 group under AFI 2", 2, "E8000000", MVPN_FLOW, 0 },
    { "a group of no octets", 1, "", MVPN_FLOW, 0 },
    { "a group under AFI 0", 0, "E8000000", MVPN_FAMILY, 0 },
};

static void group_class(const group_row *row)
{
    lent group = hex(row->group);
    mvpn_group g = mvpn_group_class(row->afi, mvpn_no_items, sizeof mvpn_no_items, group.at, group.size);
    same(row->shows, "number", g.number, row->number);
    same(row->shows, "group_class", g.group_class, row->group_class);
    free(group.at);
}

/* ---- reading and writing a PMSI Tunnel attribute */

typedef struct {
    const char *shows;
    const char *octets;
    mvpn_attribute_reading reading;
} attribute_row;

#define ZEROS_7 "00000000000000"
#define ZEROS_49 ZEROS_7 ZEROS_7 ZEROS_7 ZEROS_7 ZEROS_7 ZEROS_7 ZEROS_7

static const attribute_row accepted_attributes[] = {
    { "no tunnel, leaf information required", "01 00 000000",
      { .flags = 1, .leaf_information_required = 1, .identifier = SPAN(5, 0) } },
    { "RSVP-TE P2MP", "02 01 00000F 0A000001 0000 0001 0A000002",
      { .flags = 2, .tunnel_type = MVPN_TUNNEL_RSVP_TE_P2MP, .label_field = 15, .label = 0, .identifier = SPAN(5, 12) } },
    { "mLDP P2MP, IPv4 root", "00 02 FFFFFF 06 0001 04 0A000001 0003 010203",
      { .tunnel_type = MVPN_TUNNEL_MLDP_P2MP, .label_field = 0xFFFFFF, .label = 0xFFFFF, .identifier = SPAN(5, 13),
        .fec = FEC(6, 1, SPAN(9, 4), SPAN(15, 3)) } },
    { "mLDP MP2MP, IPv6 root", "00 07 000010 08 0002 10 " IPV6_OCTETS("01") "0002 0102",
      { .tunnel_type = MVPN_TUNNEL_MLDP_MP2MP, .label_field = 16, .label = 1, .identifier = SPAN(5, 24),
        .fec = FEC(8, 2, SPAN(9, 16), SPAN(27, 2)) } },
    { "mLDP P2MP, 64 octets", "00 02 000000 06 0001 04 0A000001 0031 " ZEROS_49,
      { .tunnel_type = MVPN_TUNNEL_MLDP_P2MP, .identifier = SPAN(5, 59), .fec = FEC(6, 1, SPAN(9, 4), SPAN(15, 49)) } },
    { "PIM-SSM, IPv6", "00 03 000000 " IPV6_OCTETS("01") IPV6_OCTETS("02"),
      { .tunnel_type = MVPN_TUNNEL_PIM_SSM, .identifier = SPAN(5, 32) } },
    { "ingress replication", "81 06 000640 0A000001",
      { .flags = 0x81, .tunnel_type = MVPN_TUNNEL_INGRESS_REPLICATION, .label_field = 1600, .label = 100,
        .leaf_information_required = 1, .identifier = SPAN(5, 4) } },
    { "P12: BIER, label field 00 00 10", "00 0B 000010 01 0002 0A000001",
      { .tunnel_type = MVPN_TUNNEL_BIER, .label_field = 16, .label = 1, .identifier = SPAN(5, 7) } },
    { "P12: BIER, label field 00 00 0F, read and written", "00 0B 00000F 01 0002 0A000001",
      { .tunnel_type = MVPN_TUNNEL_BIER, .label_field = 15, .label = 0, .identifier = SPAN(5, 7) } },
};

static const attribute_row refused_attributes[] = {
    { "attribute of 65 octets", "00 0C 000000 00000000" ZEROS_7 ZEROS_49, { .number = MVPN_LONG } },
    { "attribute of no octets", "", { .number = MVPN_SHORT } },
    { "attribute of 4 octets, unknown type", "00 0C 0000", { .number = MVPN_SHORT } },
    { "tunnel type 8", "00 08 000000", { .number = MVPN_TUNNEL } },
    { "tunnel type 12", "00 0C 000000 00", { .number = MVPN_TUNNEL } },
    { "no tunnel with an identifier", "00 00 000000 00", { .number = MVPN_IDENT } },
    { "ingress replication, 5 octets", "00 06 000000 0A00000100", { .number = MVPN_IDENT } },
    { "BIER, 8 octets", "00 0B 000010 01 0002 0A00000100", { .number = MVPN_IDENT } },
    { "mLDP P2MP, FEC type 7", "00 02 000000 07 0001 04 0A000001 0000", { .number = MVPN_IDENT } },
    { "mLDP, root length 16 in family 1", "00 02 000000 06 0001 10 " IPV6_OCTETS("01") "0000", { .number = MVPN_IDENT } },
    { "mLDP, an octet after the opaque value", "00 02 000000 06 0001 04 0A000001 0001 0102", { .number = MVPN_IDENT } },
};

static void same_fec(const char *shows, mvpn_fec got, mvpn_fec expected)
{
    same(shows, "fec.fec_type", got.fec_type, expected.fec_type);
    same(shows, "fec.address_family", got.address_family, expected.address_family);
    same_span(shows, "fec.root", got.root, expected.root);
    same_span(shows, "fec.opaque", got.opaque, expected.opaque);
}

static void read_attribute(const attribute_row *row)
{
    const mvpn_attribute_reading *expected = &row->reading;
    lent attribute = hex(row->octets);
    mvpn_attribute_reading r = mvpn_attribute_read(attribute.at, attribute.size);
    same(row->shows, "number", r.number, expected->number);
    same(row->shows, "flags", r.flags, expected->flags);
    same(row->shows, "tunnel_type", r.tunnel_type, expected->tunnel_type);
    same(row->shows, "label_field", r.label_field, expected->label_field);
    same(row->shows, "label", r.label, expected->label);
    same(row->shows, "leaf_information_required", r.leaf_information_required, expected->leaf_information_required);
    same_span(row->shows, "identifier", r.identifier, expected->identifier);
    same_fec(row->shows, r.fec, expected->fec);
    free(attribute.at);
}

static mvpn_written write_attribute(const attribute_row *row, lent attribute, lent output)
{
    const mvpn_attribute_reading *r = &row->reading;
    return mvpn_attribute_write((uint8_t)r->flags, (uint8_t)r->tunnel_type, r->label_field,
                                attribute.at + r->identifier.start, r->identifier.size, output.at, output.size);
}

/* The row's fields are written back to its octets, into an output with an octet to spare, and refused one short. */
static void write_back_attribute(const attribute_row *row)
{
    lent attribute = hex(row->octets), roomy = lent_of(attribute.size + 1, FILL), tight = lent_of(attribute.size - 1, FILL);
    same_writing(row->shows, write_attribute(row, attribute, roomy), roomy, attribute);
    same_refusal(row->shows, write_attribute(row, attribute, tight), tight, MVPN_SPACE);
    free(attribute.at);
    free(roomy.at);
    free(tight.at);
}

typedef struct {
    const char *shows;
    uint8_t tunnel_type;
    uint32_t label_field;
    size_t identifier, output;
    uint32_t number;
} refused_attribute_writing;

/* Identifiers of zeros. Most rows break a later rule as well, so that the order of the refusals shows. */
static const refused_attribute_writing refused_attribute_writings[] = {
    { "attribute writing, identifier of 60 octets", 12, 0x1000000, 60, 0, MVPN_LONG },
    { "attribute writing, tunnel type 12", 12, 0x1000000, 59, 0, MVPN_TUNNEL },
    { "attribute writing, no tunnel with an identifier", 0, 0x1000000, 1, 0, MVPN_IDENT },
    { "attribute writing, ingress replication without identifier", 6, 0x1000000, 0, 64, MVPN_IDENT },
    { "attribute writing, label field of 25 bits", 6, 0x1000000, 4, 0, MVPN_LABEL },
    { "attribute writing, label field of 32 bits", 0, UINT32_MAX, 0, 64, MVPN_LABEL },
    { "attribute writing, no output", 0, 0xFFFFFF, 0, 0, MVPN_SPACE },
};

static void refuse_attribute_writing(const refused_attribute_writing *row)
{
    lent identifier = lent_of(row->identifier, 0), output = lent_of(row->output, FILL);
    mvpn_written w = mvpn_attribute_write(0, row->tunnel_type, row->label_field, identifier.at, identifier.size,
                                          output.at, output.size);
    same_refusal(row->shows, w, output, row->number);
    free(identifier.at);
    free(output.at);
}

/* ---- all */

static void nlris(void)
{
    for (size_t i = 0; i < ROWS(accepted_nlris); i++) {
        read_nlri(&accepted_nlris[i]);
        write_back_nlri(&accepted_nlris[i]);
    }
    for (size_t i = 0; i < ROWS(refused_nlris); i++)
        read_nlri(&refused_nlris[i]);
    for (size_t i = 0; i < ROWS(refused_writings); i++)
        refuse_writing(&refused_writings[i]);
    ignore_lacked_fields();
}

static void runs(void)
{
    for (size_t i = 0; i < ROWS(steps); i++)
        step(&steps[i]);
    for (size_t i = 0; i < ROWS(walks); i++)
        walk_run(&walks[i]);
    longest_run();
    step_through();
}

static void attributes(void)
{
    for (size_t i = 0; i < ROWS(accepted_attributes); i++) {
        read_attribute(&accepted_attributes[i]);
        write_back_attribute(&accepted_attributes[i]);
    }
    for (size_t i = 0; i < ROWS(refused_attributes); i++)
        read_attribute(&refused_attributes[i]);
    for (size_t i = 0; i < ROWS(refused_attribute_writings); i++)
        refuse_attribute_writing(&refused_attribute_writings[i]);
}

int main(void)
{
    nlris();
    runs();
    for (size_t i = 0; i < ROWS(groups); i++)
        group_class(&groups[i]);
    attributes();
    return verdict("C calls");
}
