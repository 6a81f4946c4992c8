/*
 * Damaged tables that are salvaged. The expected answers, tables and lists are written from documents 01 and 02 (W-212), not from any
 * program.
 */
#include "checks.h"

#include <stddef.h>

/* Callers are built with these. */
_Static_assert(sizeof(mvpn_salvaged) == 12 && offsetof(mvpn_salvaged, kept) == 4 && offsetof(mvpn_salvaged, dropped) == 8,
               "mvpn_salvaged");
_Static_assert(MVPN_BAD_PLACE == 1 && MVPN_REPEATED_NLRI == 2 && MVPN_DROPPED_PLACE == 3, "the list");

/* Routes in the order of their NLRIs: by Length, then by route distinguisher, then by originator. C has addresses of AFI 1. */
#define RD(n) "00000064000000" n " "
#define A "030E " RD("07") "00 00 0A000001"
#define B "030E " RD("08") "00 00 0A000002"
#define C "0316 " RD("07") "20 C0000201 20 E8010101 0A000001"
#define D "031A " RD("07") "00 00 20010DB8 00000000 00000000 00000001"

/* Of the other family. */
#define IPV6(n) "20010DB8 00000000 00000000 000000" n " "
#define WIDE "032A " RD("01") "80 " IPV6("01") "00 " IPV6("02")

/* Attributes of ingress replication with flags N; one that names no tunnel; BIER with label 1, and with label 0, which install refuses. */
#define FLAGS(n) n " 06 000000 0A000001"
#define NO_TUNNEL "00 00 000000"
#define LABEL_1 "00 0B 000010 01 0002 0A000001"
#define LABEL_0 "00 0B 00000F 01 0002 0A000001"

/* ---- memory, place by place */

/* A route with the last octet of its place; without an NLRI the octets at the front of the place, and its last one. */
typedef struct {
    const char *nlri, *attribute;
    uint8_t last;
} place;

#define ZERO { NULL, "", 0 }
#define RAW(octets) { NULL, octets, 0 }

enum { PLACES = 4 };

static void put_place(uint8_t *at, const place *p)
{
    lent nlri = hex(p->nlri ? p->nlri : ""), rest = hex(p->attribute);
    memset(at, 0, 128);
    if (p->nlri) {
        at[0] = (uint8_t)nlri.size;
        at[1] = (uint8_t)rest.size;
        at += 2;
    }
    memcpy(at, nlri.at, nlri.size);
    memcpy(at + nlri.size, rest.at, rest.size);
    (p->nlri ? at - 2 : at)[127] |= p->last;
    free(nlri.at);
    free(rest.at);
}

static lent memory_of(const char *header_text, const place *places)
{
    lent memory = lent_of(MVPN_TABLE_SIZE(PLACES), 0), header = hex(header_text);
    memcpy(memory.at, header.at, 8);
    for (size_t i = 0; i < PLACES; i++)
        put_place(memory.at + 8 + 128 * i, &places[i]);
    free(header.at);
    return memory;
}

/* ---- one salvage, with its whole answer: so many octets of the list buffer are more than it needs */

static void same_salvage(const char *shows, uint16_t afi, lent memory, lent expected, uint32_t kept, const char *list_text, size_t more)
{
    size_t places = (memory.size - 8) / 128;
    lent table = lent_of(memory.size, FILL), dropped = lent_of(3 * places + more, FILL), before = copy_of(memory);
    lent list = hex(list_text);
    mvpn_salvaged s = mvpn_salvage(afi, memory.at, memory.size, table.at, table.size, dropped.at, dropped.size);
    same(shows, "number", s.number, MVPN_DONE);
    same(shows, "kept", s.kept, kept);
    same(shows, "dropped", s.dropped, list.size / 3);
    same_table(shows, table, expected);
    same_output(shows, dropped, list.at, list.size);
    same_octets(shows, "the damaged memory", memory.at, before.at, memory.size);
    mvpn_table_facts info = mvpn_table_info(table.at, table.size);
    same(shows, "number of table_info", info.number, MVPN_DONE);
    same(shows, "its AFI", info.afi, afi);
    same(shows, "its places", info.places, places);
    same(shows, "its routes", info.routes, kept);
    free(table.at);
    free(dropped.at);
    free(before.at);
    free(list.at);
}

/* What was salvaged is sound, and comes back as it is. */
static void salvages_to(const char *shows, uint16_t afi, lent memory, lent expected, uint32_t kept, const char *list_text)
{
    same_salvage(shows, afi, memory, expected, kept, list_text, 0);
    same_salvage(shows, afi, memory, expected, kept, list_text, 7);
    same_salvage(shows, afi, expected, expected, kept, "", 0);
}

/* ---- small tables */

typedef struct {
    const char *shows;
    uint16_t afi;
    const char *header;
    place places[PLACES], held[PLACES];
    uint32_t kept;
    const char *dropped;
} row;

#define SOUND(count) "4D5654 0001 01 00" count

static const row rows[] = {
    { "an empty table", 1, SOUND("00"), { ZERO, ZERO, ZERO, ZERO }, { ZERO, ZERO, ZERO, ZERO }, 0, "" },
    { "a sound table comes back", 1, SOUND("03"), { { A, FLAGS("01"), 0 }, { B, NO_TUNNEL, 1 }, { C, LABEL_1, 0 }, ZERO },
      { { A, FLAGS("01"), 0 }, { B, NO_TUNNEL, 1 }, { C, LABEL_1, 0 }, ZERO }, 3, "" },
    { "a full one", 1, SOUND("04"), { { A, FLAGS("01"), 1 }, { B, FLAGS("02"), 1 }, { C, LABEL_1, 0 }, { D, FLAGS("04"), 1 } },
      { { A, FLAGS("01"), 1 }, { B, FLAGS("02"), 1 }, { C, LABEL_1, 0 }, { D, FLAGS("04"), 1 } }, 4, "" },
    { "a count of 0", 1, SOUND("00"), { { A, FLAGS("01"), 0 }, { B, FLAGS("02"), 1 }, ZERO, ZERO },
      { { A, FLAGS("01"), 0 }, { B, FLAGS("02"), 1 }, ZERO, ZERO }, 2, "" },
    { "a count that is too low", 1, SOUND("01"), { { A, FLAGS("01"), 0 }, { B, FLAGS("02"), 0 }, ZERO, ZERO },
      { { A, FLAGS("01"), 0 }, { B, FLAGS("02"), 0 }, ZERO, ZERO }, 2, "" },
    { "a count that is too high", 1, SOUND("04"), { { A, FLAGS("01"), 0 }, { B, FLAGS("02"), 0 }, ZERO, ZERO },
      { { A, FLAGS("01"), 0 }, { B, FLAGS("02"), 0 }, ZERO, ZERO }, 2, "" },
    { "a header of noise", 1, "A5FF00 1234 07 FFFF", { { A, FLAGS("01"), 0 }, { B, FLAGS("02"), 0 }, ZERO, ZERO },
      { { A, FLAGS("01"), 0 }, { B, FLAGS("02"), 0 }, ZERO, ZERO }, 2, "" },
    { "the other AFI in the header", 1, "4D5654 0001 02 0002", { { A, FLAGS("01"), 0 }, { C, FLAGS("02"), 0 }, ZERO, ZERO },
      { { A, FLAGS("01"), 0 }, { C, FLAGS("02"), 0 }, ZERO, ZERO }, 2, "" },
    { "the other AFI given", 2, SOUND("03"), { { A, FLAGS("01"), 0 }, { C, FLAGS("02"), 0 }, { D, FLAGS("03"), 1 }, ZERO },
      { { A, FLAGS("01"), 0 }, { D, FLAGS("03"), 1 }, ZERO, ZERO }, 2, "0001 01" },
    { "a route of the other family", 1, SOUND("02"), { { A, FLAGS("01"), 0 }, { WIDE, FLAGS("02"), 0 }, ZERO, ZERO },
      { { A, FLAGS("01"), 0 }, ZERO, ZERO, ZERO }, 1, "0001 01" },
    { "the same under its AFI", 2, SOUND("02"), { { A, FLAGS("01"), 0 }, { WIDE, FLAGS("02"), 0 }, ZERO, ZERO },
      { { A, FLAGS("01"), 0 }, { WIDE, FLAGS("02"), 0 }, ZERO, ZERO }, 2, "" },
    { "places exchanged", 1, SOUND("04"), { { C, FLAGS("03"), 1 }, { B, FLAGS("02"), 0 }, { D, FLAGS("04"), 0 }, { A, FLAGS("01"), 1 } },
      { { A, FLAGS("01"), 1 }, { B, FLAGS("02"), 0 }, { C, FLAGS("03"), 1 }, { D, FLAGS("04"), 0 } }, 4, "" },
    { "a place that was zeroed", 1, SOUND("03"), { { A, FLAGS("01"), 0 }, ZERO, { C, FLAGS("03"), 0 }, ZERO },
      { { A, FLAGS("01"), 0 }, { C, FLAGS("03"), 0 }, ZERO, ZERO }, 2, "" },
    { "the last place alone", 1, SOUND("00"), { ZERO, ZERO, ZERO, { B, FLAGS("02"), 1 } }, { { B, FLAGS("02"), 1 }, ZERO, ZERO, ZERO }, 1,
      "" },
    { "a place repeated", 1, SOUND("02"), { { A, FLAGS("01"), 0 }, { A, FLAGS("01"), 0 }, ZERO, ZERO },
      { { A, FLAGS("01"), 0 }, ZERO, ZERO, ZERO }, 1, "0001 02" },
    { "an NLRI repeated with another attribute: the first", 1, SOUND("03"),
      { { B, FLAGS("02"), 1 }, { A, FLAGS("01"), 0 }, { B, FLAGS("03"), 0 }, ZERO },
      { { A, FLAGS("01"), 0 }, { B, FLAGS("02"), 1 }, ZERO, ZERO }, 2, "0002 02" },
    { "repeated twice", 1, SOUND("04"), { { A, FLAGS("01"), 0 }, { A, FLAGS("02"), 1 }, { B, FLAGS("02"), 0 }, { A, FLAGS("03"), 0 } },
      { { A, FLAGS("01"), 0 }, { B, FLAGS("02"), 0 }, ZERO, ZERO }, 2, "0001 02 0003 02" },
    { "bad, and then good: not repeated", 1, SOUND("02"), { { A, LABEL_0, 0 }, { A, LABEL_1, 1 }, ZERO, ZERO },
      { { A, LABEL_1, 1 }, ZERO, ZERO, ZERO }, 1, "0000 01" },
    { "good, and then bad: not repeated", 1, SOUND("02"), { { A, LABEL_1, 1 }, { A, LABEL_0, 0 }, ZERO, ZERO },
      { { A, LABEL_1, 1 }, ZERO, ZERO, ZERO }, 1, "0001 01" },
    { "good, bad, and good again", 1, SOUND("03"), { { A, LABEL_1, 1 }, { A, FLAGS("01"), 2 }, { A, FLAGS("01"), 0 }, ZERO },
      { { A, LABEL_1, 1 }, ZERO, ZERO, ZERO }, 1, "0001 01 0002 02" },
    { "marks of 2, 128 and 255", 1, SOUND("04"),
      { { A, FLAGS("01"), 2 }, { B, FLAGS("02"), 128 }, { C, FLAGS("03"), 255 }, { D, FLAGS("04"), 1 } },
      { { D, FLAGS("04"), 1 }, ZERO, ZERO, ZERO }, 1, "0000 01 0001 01 0002 01" },
    { "a mark alone, an octet alone, sizes alone", 1, SOUND("01"),
      { { A, FLAGS("01"), 0 }, { NULL, "", 1 }, RAW("0000 00 01"), RAW("10 09") },
      { { A, FLAGS("01"), 0 }, ZERO, ZERO, ZERO }, 1, "0001 01 0002 01 0003 01" },
    { "octets after an NLRI, after an attribute, after both", 1, SOUND("04"),
      { { A " 00", FLAGS("01"), 0 }, { B, FLAGS("02") " 00", 0 }, RAW("10 09 " A FLAGS("01") " 01"), { D, FLAGS("04"), 0 } },
      { { D, FLAGS("04"), 0 }, ZERO, ZERO, ZERO }, 1, "0000 01 0001 01 0002 01" },
    { "another kind, an unknown type, no NLRI", 1, SOUND("03"),
      { { "010C " RD("07") "0A000001", FLAGS("01"), 0 }, { "0900", FLAGS("02"), 0 }, { "", FLAGS("03"), 0 }, ZERO },
      { ZERO, ZERO, ZERO, ZERO }, 0, "0000 01 0001 01 0002 01" },
    { "an unknown tunnel type, a bad identifier, no attribute", 1, SOUND("04"),
      { { A, "00 08 000000", 0 }, { A, "00 06 000000 0A0000", 0 }, { A, "", 0 }, { A, FLAGS("01"), 0 } },
      { { A, FLAGS("01"), 0 }, ZERO, ZERO, ZERO }, 1, "0000 01 0001 01 0002 01" },
    { "bad, zero, repeated", 1, SOUND("04"), { RAW("FFFFFFFF"), ZERO, { C, FLAGS("03"), 1 }, { C, FLAGS("03"), 1 } },
      { { C, FLAGS("03"), 1 }, ZERO, ZERO, ZERO }, 1, "0000 01 0003 02" },
};

static void small_tables(void)
{
    for (size_t i = 0; i < ROWS(rows); i++) {
        const row *r = &rows[i];
        char header[] = "4D5654 0001 0_ 000_";
        header[13] = (char)('0' + r->afi);
        header[18] = (char)('0' + r->kept);
        lent memory = memory_of(r->header, r->places), expected = memory_of(header, r->held);
        salvages_to(r->shows, r->afi, memory, expected, r->kept, r->dropped);
        free(memory.at);
        free(expected.at);
    }
}

/* All bits set, as in flash that was erased; and no places at all. */
static void erased(void)
{
    lent memory = lent_of(MVPN_TABLE_SIZE(3), 0xFF), none = lent_of(MVPN_TABLE_SIZE(0), 0xFF);
    lent empty = made(2, 3), empty_none = made(2, 0);
    salvages_to("all bits set", 2, memory, empty, 0, "0000 01 0001 01 0002 01");
    salvages_to("no places", 2, none, empty_none, 0, "");
    free(memory.at);
    free(none.at);
    free(empty.at);
    free(empty_none.at);
}

/* ---- one octet of a sound table changed: the header's never counts; one of a free place drops that place; one of a place that is taken
 * drops it, or not, and leaves the other route */

static void one_octet(void)
{
    static const uint8_t changes[] = { 1, 2, 0x80, 0xFF };
    const place held[PLACES] = { { A, FLAGS("01"), 1 }, { C, LABEL_1, 0 }, ZERO, ZERO };
    lent sound = memory_of(SOUND("02"), held), table = lent_of(sound.size, FILL), dropped = lent_of(3 * PLACES, FILL);
    for (size_t at = 0; at < sound.size; at++)
        for (size_t i = 0; i < ROWS(changes); i++) {
            const char *shows = at < 8 ? "an octet of the header" : at < 264 ? "an octet of a place that is taken" : "of a free one";
            size_t changed = at < 8 ? PLACES : (at - 8) / 128;
            lent memory = copy_of(sound);
            memory.at[at] ^= changes[i];
            mvpn_salvaged s = mvpn_salvage(1, memory.at, memory.size, table.at, table.size, dropped.at, dropped.size);
            same(shows, "number", s.number, MVPN_DONE);
            same(shows, "kept and dropped", s.kept + s.dropped, at < 264 ? 2 : 3);
            same(shows, "dropped", s.dropped <= 1 && (at >= 8 || s.dropped == 0) && (at < 264 || s.dropped == 1), 1);
            if (s.dropped == 1)
                same_octets(shows, "the list", dropped.at, (uint8_t[]){ 0, (uint8_t)changed, MVPN_BAD_PLACE }, 3);
            if (at < 8 || at >= 264)
                same_table(shows, table, sound);
            else {
                const uint8_t *other = sound.at + MVPN_TABLE_SIZE(1 - changed);
                same(shows, "the other route", memcmp(table.at + 8, other, 128) == 0 || memcmp(table.at + 136, other, 128) == 0, 1);
            }
            same(shows, "number of table_info", mvpn_table_info(table.at, table.size).number, MVPN_DONE);
            same(shows, "routes", mvpn_table_info(table.at, table.size).routes, s.kept);
            free(memory.at);
        }
    free(sound.at);
    free(table.at);
    free(dropped.at);
}

/* ---- refusals: sizes of the memory, of the second buffer and of the list buffer */

static const struct {
    const char *shows;
    uint16_t afi;
    size_t memory, table, dropped;
    uint32_t number;
} refusals[] = {
    { "AFI 0", 0, 264, 264, 6, MVPN_FAMILY },
    { "AFI 257", 257, 264, 264, 6, MVPN_FAMILY },
    { "FAMILY before TABLE and SPACE", 3, 263, 262, 5, MVPN_FAMILY },
    { "no memory", 1, 0, 0, 0, MVPN_TABLE },
    { "less than a header", 1, 7, 7, 0, MVPN_TABLE },
    { "an octet fewer than two places", 1, 263, 263, 6, MVPN_TABLE },
    { "an octet more than two places", 1, 265, 265, 6, MVPN_TABLE },
    { "501 places", 2, 64136, 64136, 1503, MVPN_TABLE },
    { "TABLE before SPACE", 1, 263, 264, 5, MVPN_TABLE },
    { "a second buffer of an octet fewer", 1, 264, 263, 6, MVPN_SPACE },
    { "a second buffer of an octet more", 1, 264, 265, 6, MVPN_SPACE },
    { "a second buffer of a place fewer", 1, 264, 136, 6, MVPN_SPACE },
    { "a second buffer of a place more", 1, 264, 392, 6, MVPN_SPACE },
    { "no second buffer", 1, 264, 0, 6, MVPN_SPACE },
    { "a list buffer of an octet fewer", 1, 264, 264, 5, MVPN_SPACE },
    { "a list buffer for one of two places", 1, 264, 264, 3, MVPN_SPACE },
    { "no list buffer", 1, 264, 264, 0, MVPN_SPACE },
    { "no second buffer for no places", 1, 8, 0, 0, MVPN_SPACE },
};

/* Neither buffer has an octet changed, whatever would be dropped: every place, or none. */
static void refuse(void)
{
    for (size_t i = 0; i < ROWS(refusals); i++)
        for (unsigned value = 0; value < 256; value += 255) {
            const char *shows = refusals[i].shows;
            lent memory = lent_of(refusals[i].memory, (uint8_t)value);
            lent table = lent_of(refusals[i].table, FILL), dropped = lent_of(refusals[i].dropped, FILL);
            mvpn_salvaged s = mvpn_salvage(refusals[i].afi, memory.at, memory.size, table.at, table.size, dropped.at, dropped.size);
            same(shows, "number", s.number, refusals[i].number);
            same(shows, "kept", s.kept, 0);
            same(shows, "dropped", s.dropped, 0);
            untouched(shows, table);
            untouched(shows, dropped);
            free(memory.at);
            free(table.at);
            free(dropped.at);
        }
}

/* ---- the most places: in reverse order, every tenth of them bad, and the last one with the NLRI of the place before it */

static void most_places(void)
{
    const char *shows = "500 places";
    lent memory = lent_of(MVPN_TABLE_SIZE(MVPN_MOST_PLACES), 0), table = lent_of(memory.size, FILL);
    lent dropped = lent_of(3 * MVPN_MOST_PLACES, FILL), list = lent_of(3 * 51, 0), nlri = hex(A), attribute = hex(FLAGS("00"));
    lent expected = made(1, MVPN_MOST_PLACES);
    for (unsigned i = 0; i < MVPN_MOST_PLACES; i++) {
        uint8_t *p = memory.at + MVPN_TABLE_SIZE(i);
        unsigned number = i == 499 ? 1 : 499 - i; /* that of the place before: 498 */
        put_place(p, &(place){ A, FLAGS("00"), i % 10 == 0 ? 3 : 0 });
        p[2 + 8] = nlri.at[8] = (uint8_t)(number >> 8);
        p[2 + 9] = nlri.at[9] = (uint8_t)number;
        if (i % 10 != 0 && i != 499)
            mvpn_install(expected.at, expected.size, nlri.at, nlri.size, attribute.at, attribute.size);
    }
    for (unsigned i = 0; i < 51; i++) {
        unsigned number = i == 50 ? 499 : 10 * i;
        memcpy(list.at + 3 * i, (uint8_t[]){ (uint8_t)(number >> 8), (uint8_t)number, i == 50 ? 2 : 1 }, 3);
    }
    mvpn_salvaged s = mvpn_salvage(1, memory.at, memory.size, table.at, table.size, dropped.at, dropped.size);
    same(shows, "number", s.number, MVPN_DONE);
    same(shows, "kept", s.kept, 449);
    same(shows, "dropped", s.dropped, 51);
    same_table(shows, table, expected);
    same_output(shows, dropped, list.at, list.size);
    lent *all[] = { &memory, &table, &dropped, &list, &nlri, &attribute, &expected };
    for (size_t i = 0; i < ROWS(all); i++)
        free(all[i]->at);
}

/* ---- a box that finds its table refused: it salvages, and goes on with what was kept */

static void after_a_fault(void)
{
    static const route held[] = { { A, FLAGS("01") }, { B, FLAGS("02") }, { C, FLAGS("03") } };
    const flow f = { "0A000001", "C0000201", "E8010101" };
    lent table = holding(1, 3, held, ROWS(held)), salvaged = lent_of(table.size, FILL), dropped = lent_of(9, FILL);
    table.at[8 + 2] ^= 0x10; /* A's route type */
    same("after a fault", "number of table_info", mvpn_table_info(table.at, table.size).number, MVPN_TABLE);
    mvpn_salvaged s = mvpn_salvage(1, table.at, table.size, salvaged.at, salvaged.size, dropped.at, dropped.size);
    same("after a fault", "kept", s.kept, 2);
    same_output("after a fault", dropped, (uint8_t[]){ 0, 0, MVPN_BAD_PLACE }, 3);
    same_match("what was kept is matched", salvaged, f, 1, &held[2]);
    same("what was dropped comes again", "outcome", install(salvaged, A, FLAGS("01")).outcome, MVPN_NEW);
    same("what was kept comes again", "outcome", install(salvaged, B, FLAGS("02")).outcome, MVPN_REPLACED);
    table.at[8 + 2] ^= 0x10;
    same_table("all is as before the fault", salvaged, table);
    free(table.at);
    free(salvaged.at);
    free(dropped.at);
}

int main(void)
{
    small_tables();
    erased();
    one_octet();
    refuse();
    most_places();
    after_a_fault();
    return verdict("C salvage");
}
