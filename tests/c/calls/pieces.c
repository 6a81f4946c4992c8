/*
 * A run that arrives in pieces. The expected answers are written from document 02, W-203 and W-206, and from the texts of mvpn.h,
 * not from any program. The runs are read by the loop that mvpn.h shows: callers_loop.h is cut out of it.
 */
#include "checks.h"

#include <stdbool.h>
#include <stddef.h>

/* Callers are built with these. */
_Static_assert(MVPN_UNFINISHED == 257, "MVPN_UNFINISHED");
_Static_assert(sizeof(mvpn_walked) == 16 && offsetof(mvpn_walked, number) == 0 && offsetof(mvpn_walked, count) == 4 &&
                   offsetof(mvpn_walked, offset) == 8 && offsetof(mvpn_walked, skipped) == 12, "mvpn_walked");
_Static_assert(sizeof(mvpn_pieces) == 36 && offsetof(mvpn_pieces, afi) == 16 && offsetof(mvpn_pieces, mode) == 20 &&
                   offsetof(mvpn_pieces, stage) == 24 && offsetof(mvpn_pieces, total) == 28 && offsetof(mvpn_pieces, kept) == 32,
               "mvpn_pieces");
_Static_assert(sizeof(mvpn_fed) == 56 && offsetof(mvpn_fed, taken) == 40 && offsetof(mvpn_fed, size) == 48, "mvpn_fed");

/* A route distinguisher; NLRIs of AFI 1, of 16, 14 and 14 octets, and the longest of AFI 2, a Leaf of 78 octets. */
#define RD "0000006400000007 "
#define ANY "030E " RD "00 00 0A000001 "
#define INTRA "010C " RD "0A000001 "
#define INTER "020C " RD "0000FDE8 "
#define IPV6(n) "20010DB8 00000000 00000000 000000" n " "
#define LONGEST "044C 033A " RD "80 " IPV6("01") "80 FF3E0000 00000000 00000000 00000001 " IPV6("02") IPV6("03")

/* 254 and 255 octets. */
#define OCTETS_15 "000102030405060708090A0B0C0D0E "
#define OCTETS_51 OCTETS_15 OCTETS_15 OCTETS_15 "0F1011121314 "
#define OCTETS_254 OCTETS_51 OCTETS_51 OCTETS_51 OCTETS_51 OCTETS_15 OCTETS_15 OCTETS_15 "0F10111213 "
#define OCTETS_255 OCTETS_254 "14 "

/* ---- a feed that is watched */

/* Octets on each side of `unfinished` that no call may touch. */
enum { GUARD = 64 };

/* What holds of every feed, also of a state that no call made. */
static mvpn_fed safe_feed(const char *shows, mvpn_pieces pieces, uint8_t *unfinished, const uint8_t *piece, size_t size)
{
    uint8_t guarded[GUARD + MVPN_UNFINISHED + GUARD];
    lent guard = lent_of(GUARD, FILL);
    memset(guarded, FILL, sizeof guarded);
    memcpy(guarded + GUARD, unfinished, MVPN_UNFINISHED);
    mvpn_fed fed = mvpn_pieces_feed(pieces, guarded + GUARD, piece, size);
    memcpy(unfinished, guarded + GUARD, MVPN_UNFINISHED);
    same(shows, "octets taken that were lent", fed.taken <= size, true);
    same(shows, "octets given that are there", fed.size <= MVPN_UNFINISHED, true);
    same_octets(shows, "octets before `unfinished`", guarded, guard.at, GUARD);
    same_octets(shows, "octets behind `unfinished`", guarded + GUARD + MVPN_UNFINISHED, guard.at, GUARD);
    free(guard.at);
    return fed;
}

/* What holds besides of a state that these calls made. */
static mvpn_fed watched_feed(mvpn_pieces pieces, uint8_t *unfinished, const uint8_t *piece, size_t size)
{
    mvpn_fed fed = safe_feed("a feed", pieces, unfinished, piece, size);
    same("a feed", "octets taken of a piece that has some", size == 0 || fed.taken > 0, true);
    same("a feed", "SHORT before finish", fed.pieces.walked.number == MVPN_SHORT, false);
    return fed;
}

/* ---- a run, how it is cut, and what its reader gives */

/* The most octets of a run here; of octets and empty pieces between them there are twice as many, and one. */
enum { MOST_OCTETS = 5000, MOST = 2 * MOST_OCTETS + 1 };

static struct {
    const uint8_t *run;
    size_t ends[MOST]; /* where each piece ends */
    size_t pieces, next, nlris;
    size_t sizes[MOST];
    uint8_t given[MOST_OCTETS]; /* the NLRIs, one after another */
    size_t given_size;
    bool used;
} reading;

static bool next_piece(const uint8_t **piece, size_t *size)
{
    size_t start = reading.next == 0 ? 0 : reading.ends[reading.next - 1];
    if (reading.next == reading.pieces)
        return false;
    *piece = reading.run + start;
    *size = reading.ends[reading.next++] - start;
    return true;
}

static void keep_nlri(const uint8_t *nlri, size_t size)
{
    memcpy(reading.given + reading.given_size, nlri, size);
    reading.given_size += size;
    reading.sizes[reading.nlris++] = size;
}

static void use_kept_nlris(void)
{
    reading.used = true;
}

/* The loop of mvpn.h, over the run as it is cut. */
static mvpn_pieces read_pieces(uint16_t afi, uint32_t mode)
{
    const uint8_t *piece;
    size_t size;
    reading.next = reading.nlris = reading.given_size = 0;
    reading.used = false;
#define mvpn_pieces_feed watched_feed
#include "callers_loop.h"
#undef mvpn_pieces_feed
    return pieces;
}

/* ---- cuts */

static void cut_nowhere(size_t size)
{
    reading.pieces = 1;
    reading.ends[0] = size;
}

/* Three pieces, of which the first and the second may be empty; there is none behind the run's end. */
static void cut_at(size_t size, size_t first, size_t second)
{
    reading.pieces = first == size ? 1 : second == size ? 2 : 3;
    reading.ends[0] = first;
    reading.ends[1] = second;
    reading.ends[2] = size;
}

/* Pieces of so many octets, and, if asked, an empty piece before each, and after the last. */
static void cut_every(size_t size, size_t octets, bool empty_pieces)
{
    size_t end = 0;
    reading.pieces = 0;
    while (end < size) {
        if (empty_pieces)
            reading.ends[reading.pieces++] = end;
        end = size - end < octets ? size : end + octets;
        reading.ends[reading.pieces++] = end;
    }
    if (empty_pieces)
        reading.ends[reading.pieces++] = end;
}

/* The pieces that begin at the octets whose bit is set, but for the first, which begins the run. */
static void cut_by_bits(size_t size, uint32_t bits)
{
    reading.pieces = 0;
    for (size_t end = 1; end <= size; end++)
        if (end == size || (bits >> end & 1) != 0)
            reading.ends[reading.pieces++] = end;
}

/* ---- runs, cut everywhere */

typedef struct {
    const char *shows;
    uint16_t afi;
    const char *run;
    mvpn_walked walked;
    const char *given[4]; /* the NLRIs, in turn */
} row;

#define WALKED(number_, count_, offset_, skipped_) \
    { .number = (number_), .count = (count_), .offset = (offset_), .skipped = (skipped_) }

/* In both modes. */
static const row rows[] = {
    { "no octets", 1, "", WALKED(MVPN_DONE, 0, 0, 0), { 0 } },
    { "one NLRI", 1, ANY, WALKED(MVPN_DONE, 1, 16, 0), { ANY } },
    { "three NLRIs", 1, ANY INTRA INTER, WALKED(MVPN_DONE, 3, 44, 0), { ANY, INTRA, INTER } },
    { "one octet", 1, "03", WALKED(MVPN_SHORT, 0, 0, 0), { 0 } },
    { "a header alone", 1, "030E", WALKED(MVPN_SHORT, 0, 0, 0), { 0 } },
    { "an octet after an NLRI", 1, INTRA "03", WALKED(MVPN_SHORT, 1, 14, 0), { INTRA } },
    { "a header after an NLRI", 1, INTRA "030E", WALKED(MVPN_SHORT, 1, 14, 0), { INTRA } },
    { "an NLRI that lacks its last octet", 1, INTRA "030E " RD "00 00 0A0000", WALKED(MVPN_SHORT, 1, 14, 0), { INTRA } },
    { "an unknown type that is not whole is SHORT", 1, INTRA "0903 ABCD", WALKED(MVPN_SHORT, 1, 14, 0), { INTRA } },
    { "the longest NLRI, of type 9, which lacks its last octet", 1, INTRA "09FF" OCTETS_254, WALKED(MVPN_SHORT, 1, 14, 0), { INTRA } },
    { "type 1, Length 0", 1, "0100" ANY, WALKED(MVPN_LENGTH, 0, 0, 0), { 0 } },
    { "an originator of three octets", 1, INTER "030D " RD "00 00 0A0000" ANY, WALKED(MVPN_LENGTH, 1, 14, 0), { INTER } },
    { "an octet after the body", 1, INTER "020D " RD "0000FDE8 00" ANY, WALKED(MVPN_LENGTH, 1, 14, 0), { INTER } },
    { "a source of 24 bits", 1, ANY INTRA "0310 " RD "18 C00002 00 0A000001" INTER, WALKED(MVPN_WIDTH, 2, 30, 0), { ANY, INTRA } },
    { "a Leaf whose key is of type 5", 1, ANY "0406 0500 0A000001" ANY, WALKED(MVPN_KEY, 1, 16, 0), { ANY } },
    { "a Leaf whose key is of unknown type", 1, ANY "0406 0900 0A000001" ANY, WALKED(MVPN_KEY, 1, 16, 0), { ANY } },
    { "AFI 2", 2, LONGEST ANY LONGEST, WALKED(MVPN_DONE, 3, 172, 0), { LONGEST, ANY, LONGEST } },
    { "AFI 2, a Leaf that lacks its last octet", 2, ANY "044C 033A " RD, WALKED(MVPN_SHORT, 1, 16, 0), { ANY } },
    { "the longest NLRI, of type 3", 1, "03FF" RD "00 00 0A000001" OCTETS_51 OCTETS_51 OCTETS_51 OCTETS_51 OCTETS_15 OCTETS_15
      "0F101112131415" ANY, WALKED(MVPN_LENGTH, 0, 0, 0), { 0 } },
    { "the longest NLRI, behind another", 1, INTRA "03FF" OCTETS_255 INTRA, WALKED(MVPN_WIDTH, 1, 14, 0), { INTRA } },
    { "the longest NLRI, which lacks its last octet", 1, INTRA "03FF" OCTETS_254, WALKED(MVPN_SHORT, 1, 14, 0), { INTRA } },
    { "a second fault behind the first", 1, "0100 0900" ANY, WALKED(MVPN_LENGTH, 0, 0, 0), { 0 } },
};

/* Unknown types, in the mode that skips them. */
static const row skipping[] = {
    { "skipped, without a body", 1, ANY "0900" INTRA, WALKED(MVPN_DONE, 2, 32, 1), { ANY, INTRA } },
    { "skipped, with a body", 1, ANY "0903 ABCDEF" INTRA, WALKED(MVPN_DONE, 2, 35, 1), { ANY, INTRA } },
    { "skipped, first: type 0, Length 0", 1, "0000" ANY, WALKED(MVPN_DONE, 1, 18, 1), { ANY } },
    { "skipped, last", 1, INTRA "FF01 00", WALKED(MVPN_DONE, 1, 17, 1), { INTRA } },
    { "skipped, alone", 1, "0800", WALKED(MVPN_DONE, 0, 2, 1), { 0 } },
    { "skipped, one after another", 1, "0000 0802 0308" ANY "0900 FF00", WALKED(MVPN_DONE, 1, 26, 4), { ANY } },
    { "skipped, a body that looks like NLRIs", 1, "0920" ANY ANY INTRA, WALKED(MVPN_DONE, 1, 48, 1), { INTRA } },
    { "skipped, AFI 2", 2, LONGEST "0900" ANY, WALKED(MVPN_DONE, 2, 96, 1), { LONGEST, ANY } },
    { "skipped, the longest", 1, INTRA "09FF" OCTETS_255 INTER, WALKED(MVPN_DONE, 2, 285, 1), { INTRA, INTER } },
    { "skipped, then a fault", 1, "0900 0100" ANY, WALKED(MVPN_LENGTH, 0, 2, 1), { 0 } },
    { "skipped, then a Leaf whose key is of unknown type", 1, INTER "0900 0406 0900 0A000001" ANY, WALKED(MVPN_KEY, 1, 16, 1), { INTER } },
    { "skipped, then an NLRI that is not whole", 1, ANY "0900 030E", WALKED(MVPN_SHORT, 1, 18, 1), { ANY } },
    { "skipped, then an unknown type that is not whole", 1, "0801 AA 0801", WALKED(MVPN_SHORT, 0, 3, 1), { 0 } },
    { "skipped, then an octet", 1, "0900 09", WALKED(MVPN_SHORT, 0, 2, 1), { 0 } },
};

/* Unknown types, in the old mode. */
static const row stopping[] = {
    { "an unknown type without a body", 1, ANY "0900" INTRA, WALKED(MVPN_TYPE, 1, 16, 0), { ANY } },
    { "an unknown type with a body", 1, ANY "0903 ABCDEF" INTRA, WALKED(MVPN_TYPE, 1, 16, 0), { ANY } },
    { "type 0, Length 0", 1, "0000" ANY, WALKED(MVPN_TYPE, 0, 0, 0), { 0 } },
    { "an unknown type, then a fault", 1, "0900 0100" ANY, WALKED(MVPN_TYPE, 0, 0, 0), { 0 } },
    { "a stop, then an NLRI that is not whole", 1, ANY "0900 030E", WALKED(MVPN_TYPE, 1, 16, 0), { ANY } },
    { "the longest NLRI, of type 9", 1, "09FF" OCTETS_255, WALKED(MVPN_TYPE, 0, 0, 0), { 0 } },
};

static void same_walked(const char *shows, mvpn_walked got, mvpn_walked expected)
{
    same(shows, "number", got.number, expected.number);
    same(shows, "count", got.count, expected.count);
    same(shows, "offset", got.offset, expected.offset);
    same(shows, "skipped", got.skipped, expected.skipped);
}

/* The NLRIs that were given are those of the row. */
static void same_given(const row *r)
{
    size_t at = 0;
    same(r->shows, "NLRIs given", reading.nlris, r->walked.count);
    for (size_t i = 0; i < r->walked.count && i < reading.nlris; i++) {
        lent nlri = hex(r->given[i]);
        same(r->shows, "size of an NLRI", reading.sizes[i], nlri.size);
        same_octets(r->shows, "an NLRI", reading.given + at, nlri.at, nlri.size);
        at += nlri.size;
        free(nlri.at);
    }
    same(r->shows, "octets given", reading.given_size, at);
}

/* Reads the run as it is cut. */
static void read_row(const row *r, uint32_t mode)
{
    same_walked(r->shows, read_pieces(r->afi, mode).walked, r->walked);
    same_given(r);
    same(r->shows, "whether they are used", reading.used, r->walked.number == MVPN_DONE);
}

/* In two pieces and in three, at each octet; in pieces of each size, also with empty ones before, between and behind them. Longer
 * runs have fewer cuts into three. */
static void read_every_cut(const row *r, uint32_t mode)
{
    lent run = hex(r->run);
    size_t step = run.size < 64 ? 1 : 7;
    reading.run = run.at;
    cut_nowhere(run.size);
    read_row(r, mode);
    for (size_t first = 0; first <= run.size; first++)
        for (size_t second = first; second <= run.size; second += step) {
            cut_at(run.size, first, second);
            read_row(r, mode);
        }
    for (size_t octets = 1; octets < 20; octets++) {
        cut_every(run.size, octets, false);
        read_row(r, mode);
        cut_every(run.size, octets, true);
        read_row(r, mode);
    }
    free(run.at);
}

static void read_rows(const row *table, size_t count, uint32_t mode)
{
    for (size_t i = 0; i < count; i++)
        read_every_cut(&table[i], mode);
}

/* Every way to cut a run of 18 octets, in both modes. */
static void cut_all_ways(void)
{
    static const row skipped = { "every cut, skipping", 1, "0900" INTRA "0800", WALKED(MVPN_DONE, 1, 18, 2), { INTRA } };
    static const row stopped = { "every cut, stopping", 1, INTRA "0902 0102", WALKED(MVPN_TYPE, 1, 14, 0), { INTRA } };
    lent skipping_run = hex(skipped.run), stopping_run = hex(stopped.run);
    for (uint32_t bits = 0; bits < UINT32_C(1) << 18; bits += 2) {
        reading.run = skipping_run.at;
        cut_by_bits(18, bits);
        read_row(&skipped, MVPN_SKIP);
        reading.run = stopping_run.at;
        read_row(&stopped, MVPN_OLD);
    }
    free(skipping_run.at);
    free(stopping_run.at);
}

/* ---- totals about 4,096 */

typedef struct {
    const char *shows;
    uint32_t mode;
    const char *front; /* the run's first octets; NLRIs of 16 octets follow */
    size_t total;
    size_t first, second; /* where it is cut; the same as the total: nowhere */
    mvpn_walked walked;
    size_t given; /* NLRIs */
} total_row;

static const total_row totals[] = {
    { "4,095 octets", MVPN_SKIP, "", 4095, 4095, 4095, WALKED(MVPN_SHORT, 255, 4080, 0), 255 },
    { "4,095 octets, cut", MVPN_SKIP, "", 4095, 1, 4094, WALKED(MVPN_SHORT, 255, 4080, 0), 255 },
    { "4,096 octets", MVPN_SKIP, "", 4096, 4096, 4096, WALKED(MVPN_DONE, 256, 4096, 0), 256 },
    { "4,096 octets, the last alone", MVPN_SKIP, "", 4096, 4095, 4096, WALKED(MVPN_DONE, 256, 4096, 0), 256 },
    { "4,096 octets, the first alone", MVPN_SKIP, "", 4096, 1, 1, WALKED(MVPN_DONE, 256, 4096, 0), 256 },
    { "4,097 octets in a piece", MVPN_SKIP, "", 4097, 4097, 4097, WALKED(MVPN_LONG, 0, 0, 0), 0 },
    { "4,097 octets, the last alone", MVPN_SKIP, "", 4097, 4096, 4096, WALKED(MVPN_LONG, 0, 0, 0), 256 },
    { "4,097 octets, the first alone", MVPN_SKIP, "", 4097, 1, 1, WALKED(MVPN_LONG, 0, 0, 0), 0 },
    { "4,097 octets, the second piece makes an NLRI whole and passes", MVPN_SKIP, "", 4097, 31, 31, WALKED(MVPN_LONG, 0, 0, 0), 1 },
    { "4,097 octets, the third piece passes", MVPN_SKIP, "", 4097, 16, 4095, WALKED(MVPN_LONG, 0, 0, 0), 255 },
    { "5,000 octets, and more after they passed", MVPN_SKIP, "", 5000, 4097, 4098, WALKED(MVPN_LONG, 0, 0, 0), 0 },

    { "a stop, 4,095 octets", MVPN_OLD, "0900", 4095, 4095, 4095, WALKED(MVPN_TYPE, 0, 0, 0), 0 },
    { "a stop, 4,096 octets", MVPN_OLD, "0900", 4096, 2, 4095, WALKED(MVPN_TYPE, 0, 0, 0), 0 },
    { "a stop, 4,096 octets in a piece", MVPN_OLD, "0900", 4096, 4096, 4096, WALKED(MVPN_TYPE, 0, 0, 0), 0 },
    { "a stop and 4,097 octets in a piece", MVPN_OLD, "0900", 4097, 4097, 4097, WALKED(MVPN_LONG, 0, 0, 0), 0 },
    { "a stop, then 4,097 octets", MVPN_OLD, "0900", 4097, 2, 4096, WALKED(MVPN_LONG, 0, 0, 0), 0 },
    { "a stop, then 4,097 octets, the last alone", MVPN_OLD, "0900", 4097, 4096, 4097, WALKED(MVPN_LONG, 0, 0, 0), 0 },
    { "a stop, then 4,998 octets in a piece", MVPN_OLD, "0900", 5000, 2, 5000, WALKED(MVPN_LONG, 0, 0, 0), 0 },
    { "an NLRI, a stop, 4,096 octets", MVPN_SKIP, ANY "0100", 4096, 17, 18, WALKED(MVPN_LENGTH, 1, 16, 0), 1 },
    { "an NLRI, a stop, 4,097 octets", MVPN_SKIP, ANY "0100", 4097, 18, 18, WALKED(MVPN_LONG, 0, 0, 0), 1 },
    { "an NLRI, a stop, 4,097 octets in a piece", MVPN_SKIP, ANY "0100", 4097, 4097, 4097, WALKED(MVPN_LONG, 0, 0, 0), 0 },
    { "an NLRI, a stop, 5,000 octets", MVPN_SKIP, ANY "0100", 5000, 18, 4999, WALKED(MVPN_LONG, 0, 0, 0), 1 },

    { "a skipped NLRI, 4,096 octets", MVPN_SKIP, "0900", 4096, 4096, 4096, WALKED(MVPN_SHORT, 255, 4082, 1), 255 },
    { "a skipped NLRI, 4,082 octets, cut inside it", MVPN_SKIP, "0900", 4082, 1, 4081, WALKED(MVPN_DONE, 255, 4082, 1), 255 },
    { "two skipped NLRIs, 4,096 octets", MVPN_SKIP, "0900 090C " RD "00000000", 4096, 2, 4096,
      WALKED(MVPN_DONE, 255, 4096, 2), 255 },
    { "a skipped NLRI and 4,097 octets in a piece", MVPN_SKIP, "0900", 4097, 4097, 4097, WALKED(MVPN_LONG, 0, 0, 0), 0 },
    { "a skipped NLRI, then 4,097 octets", MVPN_SKIP, "0900", 4097, 2, 4096, WALKED(MVPN_LONG, 0, 0, 0), 255 },
    { "a skipped NLRI, a stop, 4,096 octets", MVPN_SKIP, "0900 0100", 4096, 2, 4, WALKED(MVPN_LENGTH, 0, 2, 1), 0 },
    { "a skipped NLRI, a stop, 4,097 octets", MVPN_SKIP, "0900 0100", 4097, 2, 4, WALKED(MVPN_LONG, 0, 0, 0), 0 },
};

/* The octets of the front, then NLRIs of 16 octets, the last of them cut short. */
static lent long_run(const char *front_text, size_t total)
{
    lent front = hex(front_text), nlri = hex(ANY), run = lent_of(total, 0);
    memcpy(run.at, front.at, front.size);
    for (size_t i = front.size; i < total; i++)
        run.at[i] = nlri.at[(i - front.size) % nlri.size];
    free(front.at);
    free(nlri.at);
    return run;
}

static void read_total(const total_row *t)
{
    lent run = long_run(t->front, t->total), nlri = hex(ANY);
    reading.run = run.at;
    cut_at(run.size, t->first, t->second);
    same_walked(t->shows, read_pieces(1, t->mode).walked, t->walked);
    same(t->shows, "NLRIs given", reading.nlris, t->given);
    for (size_t i = 0; i < reading.nlris; i++)
        same_octets(t->shows, "an NLRI", reading.given + 16 * i, nlri.at, nlri.size);
    same(t->shows, "whether they are used", reading.used, t->walked.number == MVPN_DONE);

    for (size_t octets = 1; octets < 300; octets = octets * 3 + 1) {
        cut_every(run.size, octets, octets == 1);
        same_walked(t->shows, read_pieces(1, t->mode).walked, t->walked);
    }
    free(run.at);
    free(nlri.at);
}

/* ---- feeds, one by one */

static void same_pieces(const char *shows, mvpn_pieces got, mvpn_pieces expected)
{
    same_octets(shows, "state", (const uint8_t *)&got, (const uint8_t *)&expected, sizeof got);
}

/* Feeds the octets of a text. What is taken and given, and the octets of `unfinished` afterwards. */
static mvpn_pieces feed(const char *shows, mvpn_pieces pieces, lent unfinished, const char *text, size_t taken, size_t size,
                        const char *unfinished_text)
{
    lent piece = hex(text), written = hex(unfinished_text);
    mvpn_fed fed = safe_feed(shows, pieces, unfinished.at, piece.at, piece.size);
    same(shows, "taken", fed.taken, taken);
    same(shows, "size", fed.size, size);
    same_output(shows, unfinished, written.at, written.size);
    free(piece.at);
    free(written.at);
    return fed.pieces;
}

static void one_by_one(void)
{
    lent unfinished = lent_of(MVPN_UNFINISHED, FILL);
    mvpn_pieces p = mvpn_pieces_start(1, MVPN_SKIP);
    p = feed("an empty piece", p, unfinished, "", 0, 0, "");
    p = feed("the route type", p, unfinished, "03", 1, 0, "03");
    p = feed("an empty piece inside an NLRI", p, unfinished, "", 0, 0, "03");
    p = feed("the Length, and on", p, unfinished, "0E 00000064", 5, 0, "030E 00000064");
    p = feed("the rest, and an octet more", p, unfinished, "00000007 00 00 0A000001 01", 10, 16, ANY);
    p = feed("that octet", p, unfinished, "01", 1, 0, "01 0E" RD "00 00 0A000001");
    p = feed("two NLRIs", p, unfinished, "0C " RD "0A000001" INTER, 13, 14, INTRA "0001");
    p = feed("the second of them", p, unfinished, INTER, 14, 14, INTER "0001");
    same_walked("three NLRIs", mvpn_pieces_finish(p).walked, (mvpn_walked)WALKED(MVPN_DONE, 3, 44, 0));
    p = feed("an unknown type, and on", p, unfinished, "0900" INTRA, 2, 0, "0900" RD "0000FDE8 0001");
    p = feed("what is behind it", p, unfinished, INTRA, 14, 14, INTRA "0001");
    same_walked("four NLRIs and an unknown type", mvpn_pieces_finish(p).walked, (mvpn_walked)WALKED(MVPN_DONE, 4, 60, 1));
    p = feed("an unknown type, all but its last octet", p, unfinished, "0902 FF", 3, 0, "0902 FF 00006400000007 0A000001 0001");
    same_walked("an unknown type that is not whole", mvpn_pieces_finish(p).walked, (mvpn_walked)WALKED(MVPN_SHORT, 4, 60, 1));
    p = feed("its last octet, and on", p, unfinished, "EE 0100", 1, 0, "0902 FFEE 006400000007 0A000001 0001");
    p = feed("a fault, and on", p, unfinished, "0100" INTRA, 2, 0, "0100 FFEE 006400000007 0A000001 0001");
    p = feed("what is behind it", p, unfinished, INTRA, 14, 0, "0100 FFEE 006400000007 0A000001 0001");
    same_walked("two unknown types and a fault", mvpn_pieces_finish(p).walked, (mvpn_walked)WALKED(MVPN_LENGTH, 4, 64, 2));
    free(unfinished.at);
}

static void one_by_one_in_the_old_mode(void)
{
    lent unfinished = lent_of(MVPN_UNFINISHED, FILL);
    mvpn_pieces p = mvpn_pieces_start(1, MVPN_OLD);
    p = feed("an NLRI, in the old mode", p, unfinished, INTER, 14, 14, INTER);
    p = feed("an unknown type, and on, in the old mode", p, unfinished, "0900" INTRA, 2, 0, "0900" RD "0000FDE8");
    p = feed("what is behind it, in the old mode", p, unfinished, INTRA, 14, 0, "0900" RD "0000FDE8");
    same_walked("an unknown type in the old mode", mvpn_pieces_finish(p).walked, (mvpn_walked)WALKED(MVPN_TYPE, 1, 14, 0));
    free(unfinished.at);
}

/* A piece that passes 4,096 octets, and those behind it: taken whole, no NLRI, nothing written. */
static void too_long(void)
{
    static const size_t sizes[] = { 4082, 1, 0, 16, 4096, 4097 };
    lent unfinished = lent_of(MVPN_UNFINISHED, FILL), run = long_run("", MOST_OCTETS);
    mvpn_pieces p = feed("an NLRI but for its last octet", mvpn_pieces_start(1, MVPN_SKIP), unfinished,
                         "030E " RD "00 00 0A0000", 15, 0, "030E " RD "00 00 0A0000");
    for (size_t i = 0; i < ROWS(sizes); i++) {
        mvpn_fed fed = safe_feed("too long", p, unfinished.at, run.at + 15, sizes[i]);
        same("too long", "taken", fed.taken, sizes[i]);
        same("too long", "size", fed.size, 0);
        same_output("too long", unfinished, run.at, 15);
        p = fed.pieces;
        same_walked("too long", mvpn_pieces_finish(p).walked, (mvpn_walked)WALKED(MVPN_LONG, 0, 0, 0));
    }
    free(unfinished.at);
    free(run.at);
}

/* ---- after finish, and with a bad AFI */

/* Every call repeats the answer. */
static void repeats(const char *shows, mvpn_pieces finished, mvpn_walked walked)
{
    static const size_t sizes[] = { 0, 1, 2, 16, 4096, 4097, MOST_OCTETS };
    lent unfinished = lent_of(MVPN_UNFINISHED, FILL), piece = long_run("", MOST_OCTETS);
    same_walked(shows, finished.walked, walked);
    same_pieces(shows, mvpn_pieces_finish(finished), finished);
    for (size_t i = 0; i < ROWS(sizes); i++) {
        mvpn_fed fed = safe_feed(shows, finished, unfinished.at, piece.at, sizes[i]);
        same(shows, "taken", fed.taken, sizes[i]);
        same(shows, "size", fed.size, 0);
        untouched(shows, unfinished);
        same_pieces(shows, fed.pieces, finished);
        same_pieces(shows, mvpn_pieces_finish(fed.pieces), finished);
    }
    free(unfinished.at);
    free(piece.at);
}

static mvpn_pieces finished_after(const char *text, uint32_t mode)
{
    lent run = hex(text);
    reading.run = run.at;
    cut_nowhere(run.size);
    mvpn_pieces pieces = read_pieces(1, mode);
    free(run.at);
    return pieces;
}

static void after_finish(void)
{
    lent run = long_run("", 4097);
    repeats("finished at once", mvpn_pieces_finish(mvpn_pieces_start(1, MVPN_SKIP)), (mvpn_walked)WALKED(MVPN_DONE, 0, 0, 0));
    repeats("finished at once, AFI 2", mvpn_pieces_finish(mvpn_pieces_start(2, MVPN_OLD)), (mvpn_walked)WALKED(MVPN_DONE, 0, 0, 0));
    repeats("finished after two NLRIs", finished_after(ANY INTRA, MVPN_SKIP), (mvpn_walked)WALKED(MVPN_DONE, 2, 30, 0));
    repeats("finished inside an NLRI", finished_after(ANY "010C", MVPN_SKIP), (mvpn_walked)WALKED(MVPN_SHORT, 1, 16, 0));
    repeats("finished after an unknown type", finished_after(ANY "0900", MVPN_SKIP), (mvpn_walked)WALKED(MVPN_DONE, 1, 18, 1));
    repeats("finished after a stop", finished_after(ANY "0900", MVPN_OLD), (mvpn_walked)WALKED(MVPN_TYPE, 1, 16, 0));
    repeats("finished after a stop, skipping", finished_after("0900 0100", MVPN_SKIP), (mvpn_walked)WALKED(MVPN_LENGTH, 0, 2, 1));
    reading.run = run.at;
    cut_nowhere(run.size);
    repeats("finished after 4,097 octets", read_pieces(1, MVPN_SKIP), (mvpn_walked)WALKED(MVPN_LONG, 0, 0, 0));
    free(run.at);
}

static void bad_families(void)
{
    static const uint16_t afis[] = { 0, 3, 256, 257, 65535 };
    for (size_t i = 0; i < ROWS(afis); i++) {
        mvpn_pieces started = mvpn_pieces_start(afis[i], i % 2 == 0 ? MVPN_SKIP : MVPN_OLD);
        repeats("a bad AFI, started", started, (mvpn_walked)WALKED(MVPN_FAMILY, 0, 0, 0));
        repeats("a bad AFI, finished", mvpn_pieces_finish(started), (mvpn_walked)WALKED(MVPN_FAMILY, 0, 0, 0));
    }
}

/* ---- two readers at once, of different families and modes, octet by octet in turn */

static void two_readers(void)
{
    lent ipv4 = hex(ANY "0900"), ipv6 = hex(LONGEST), first = lent_of(MVPN_UNFINISHED, FILL), second = lent_of(MVPN_UNFINISHED, 0);
    mvpn_pieces one = mvpn_pieces_start(1, MVPN_OLD), other = mvpn_pieces_start(2, MVPN_SKIP);
    for (size_t i = 0; i < ipv6.size; i++) {
        if (i < ipv4.size) {
            mvpn_fed fed = watched_feed(one, first.at, ipv4.at + i, 1);
            same("the first of two readers", "size", fed.size, i == 15 ? 16 : 0);
            one = fed.pieces;
        }
        mvpn_fed fed = watched_feed(other, second.at, ipv6.at + i, 1);
        same("the second of two readers", "size", fed.size, i == 77 ? 78 : 0);
        other = fed.pieces;
    }
    same_walked("the first of two readers", mvpn_pieces_finish(one).walked, (mvpn_walked)WALKED(MVPN_TYPE, 1, 16, 0));
    same_walked("the second of two readers", mvpn_pieces_finish(other).walked, (mvpn_walked)WALKED(MVPN_DONE, 1, 78, 0));
    same_octets("the second of two readers", "its NLRI", second.at, ipv6.at, ipv6.size);
    free(ipv4.at);
    free(ipv6.at);
    free(first.at);
    free(second.at);
}

/* ---- states that no call made: the answers mean nothing, and are safe */

static const uint32_t forged_numbers[] = { 0, 1, 2, 3, 255, 256, 257, 4095, 4096, 4097, 65536, 0x80000000, UINT32_MAX };

/* An NLRI that is given is one under the state's AFI, wherever its octets come from. */
static void well_formed(mvpn_pieces forged, const uint8_t *unfinished, size_t size)
{
    if (size > 0)
        same("a forged state", "number of the NLRI given", mvpn_nlri_read((uint16_t)forged.afi, unfinished, size).number, MVPN_DONE);
}

/* The feed after a forged state takes octets, so that a loop ends. */
static void takes_some(mvpn_fed forged, uint8_t *unfinished, lent piece, size_t size)
{
    mvpn_fed next = safe_feed("after a forged state", forged.pieces, unfinished, piece.at, size);
    same("after a forged state", "octets taken of a piece that has some", size == 0 || forged.taken > 0 || next.taken > 0, true);
}

static void feed_forged(mvpn_pieces forged, lent piece)
{
    static const size_t sizes[] = { 0, 1, 2, 16, 257, 4096, 4097 };
    static const uint8_t fills[] = { 0, 1, 255 };
    uint8_t unfinished[MVPN_UNFINISHED];
    for (size_t i = 0; i < ROWS(sizes) * ROWS(fills); i++) {
        memset(unfinished, fills[i % ROWS(fills)], sizeof unfinished);
        mvpn_fed fed = safe_feed("a forged state", forged, unfinished, piece.at, sizes[i / ROWS(fills)]);
        well_formed(forged, unfinished, fed.size);
        takes_some(fed, unfinished, piece, sizes[i / ROWS(fills)]);
        mvpn_pieces_finish(fed.pieces);
    }
    mvpn_pieces_finish(forged);
}

static void forged_states(void)
{
    lent piece = long_run("", 4097);
    for (size_t i = 0; i < ROWS(forged_numbers); i++)
        for (size_t j = 0; j < ROWS(forged_numbers); j++)
            for (uint32_t stage = 0; stage < 4; stage++) {
                uint32_t one = forged_numbers[i], other = forged_numbers[j];
                feed_forged((mvpn_pieces){ { 0, 0, 0, 0 }, 1, i % 2, stage, one, other }, piece);
                feed_forged((mvpn_pieces){ { one, other, one, other }, 2, j % 2, stage, 0, 1 }, piece);
                feed_forged((mvpn_pieces){ { other, one, other, one }, one, other, stage * 0x55555555, other, one }, piece);
            }
    free(piece.at);
}

/* An NLRI that is changed while it is unfinished: its Length grows to 255, or its header goes. */
static void changed_octets(void)
{
    lent unfinished = lent_of(MVPN_UNFINISHED, FILL), piece = long_run("", 300);
    for (size_t kept = 1; kept < 16; kept++)
        for (unsigned length = 0; length < 256; length++) {
            mvpn_fed fed = watched_feed(mvpn_pieces_start(1, length % 2), unfinished.at, piece.at, kept);
            unfinished.at[0] = (uint8_t)(length % 9);
            unfinished.at[1] = (uint8_t)length;
            takes_some(safe_feed("changed octets", fed.pieces, unfinished.at, piece.at, piece.size), unfinished.at, piece, 1);
            safe_feed("changed octets", fed.pieces, unfinished.at, piece.at, 1);
        }
    free(unfinished.at);
    free(piece.at);
}

int main(void)
{
    read_rows(rows, ROWS(rows), MVPN_SKIP);
    read_rows(rows, ROWS(rows), MVPN_OLD);
    read_rows(skipping, ROWS(skipping), MVPN_SKIP);
    read_rows(stopping, ROWS(stopping), MVPN_OLD);
    read_rows(stopping, ROWS(stopping), UINT32_MAX);
    cut_all_ways();
    for (size_t i = 0; i < ROWS(totals); i++)
        read_total(&totals[i]);
    one_by_one();
    one_by_one_in_the_old_mode();
    too_long();
    after_finish();
    bad_families();
    two_readers();
    forged_states();
    changed_octets();
    return verdict("C pieces");
}
