/*
 * NLRIs for customers that run mLDP: route types 0x43, 0x44 and 0x47, and FEC elements that hold one another. The expected answers
 * are written from document 02, W-207, document 01, RFC 7441 and RFC 6512, not from any program.
 */
#include "checks.h"

#include <stdbool.h>

/* Route distinguisher 100:7, source AS 65000, originators. */
#define RD "0000006400000007 "
#define RD_FIELD { .octets = { 0, 0, 0, 0x64, 0, 0, 0, 7 } }
#define AS "0000FDE8 "
#define FROM "0A000001 "
#define FROM_FIELD { .octets = { 10, 0, 0, 1 }, .size = 4 }
#define FROM6 "20010DB8 00000000 00000000 00000002 "
#define FROM6_FIELD { .octets = { 0x20, 0x01, 0x0D, 0xB8, [15] = 2 }, .size = 16 }

/* What stands in a FEC element before its opaque length: type 6, 7 or 8, family, address length, root. */
#define P2MP "06 0001 04 C000020B "
#define UP "07 0001 04 C000020C "
#define DOWN "08 0001 04 C000020D "
#define P2MP6 "06 0002 10 20010DB8 00010000 00000000 0000000B "

/* FEC elements of 10, 17 and 22 octets, and an opaque value that is a number. */
#define EMPTY P2MP "0000 "
#define NUMBER "01 0004 0000002A "
#define NUMBERED P2MP "0007 " NUMBER
#define EMPTY6 P2MP6 "0000 "

/* An NLRI of type 0x43, of 24 octets. */
#define S_PMSI "4316 " RD EMPTY FROM

/* 200 octets. */
#define OCTETS_10 "01 000102030405060708 "
#define OCTETS_50 OCTETS_10 OCTETS_10 OCTETS_10 OCTETS_10 OCTETS_10
#define OCTETS_200 OCTETS_50 OCTETS_50 OCTETS_50 OCTETS_50

/* ---- accepted: read, stepped over, and written back */

typedef struct {
    const char *shows;
    uint16_t afi;
    const char *octets;
    mvpn_nlri nlri;
    mvpn_span key, fec;
} row;

#define MLDP_S_PMSI(from) { .route_type = MVPN_MLDP_S_PMSI, .distinguisher = RD_FIELD, .originator = from }
#define MLDP_LEAF(from) { .route_type = MVPN_MLDP_LEAF, .originator = from }
#define MLDP_JOIN { .route_type = MVPN_MLDP_SOURCE_TREE_JOIN, .distinguisher = RD_FIELD, .source_as = 65000 }
#define SPAN(from, octets) { .start = (from), .size = (octets) }
#define NONE SPAN(0, 0)

static const row accepted[] = {
    { "0x43, an empty opaque value", 1, S_PMSI, MLDP_S_PMSI(FROM_FIELD), NONE, SPAN(10, 10) },
    { "0x43, an opaque value of type 1", 1, "431D " RD NUMBERED FROM, MLDP_S_PMSI(FROM_FIELD), NONE, SPAN(10, 17) },
    { "0x43, IPv6 originator under AFI 1", 1, "4322 " RD EMPTY FROM6, MLDP_S_PMSI(FROM6_FIELD), NONE, SPAN(10, 10) },
    { "0x43 of AFI 2", 2, "4332 " RD P2MP6 "0004 11223344 " FROM6, MLDP_S_PMSI(FROM6_FIELD), NONE, SPAN(10, 26) },
    { "0x43 of AFI 2, IPv4 originator", 2, "4322 " RD EMPTY6 FROM, MLDP_S_PMSI(FROM_FIELD), NONE, SPAN(10, 22) },
    { "0x44", 1, "441C " S_PMSI FROM, MLDP_LEAF(FROM_FIELD), SPAN(2, 24), NONE },
    { "0x44 of AFI 2, IPv6 originator", 2, "4434 4322 " RD EMPTY6 FROM FROM6, MLDP_LEAF(FROM6_FIELD), SPAN(2, 36), NONE },
    { "0x47", 1, "4716 " RD AS EMPTY, MLDP_JOIN, NONE, SPAN(14, 10) },
    { "0x47 of AFI 2", 2, "4722 " RD AS EMPTY6, MLDP_JOIN, NONE, SPAN(14, 22) },
    { "MP2MP upstream", 1, "4717 " RD AS UP "0001 00", MLDP_JOIN, NONE, SPAN(14, 11) },
    { "MP2MP downstream", 1, "4717 " RD AS DOWN "0001 FF", MLDP_JOIN, NONE, SPAN(14, 11) },

    { "an opaque value of type 6 is kept, whatever it is", 1, "4719 " RD AS P2MP "0003 06 FFFF", MLDP_JOIN, NONE, SPAN(14, 13) },
    { "an opaque value of type 9 is kept, whatever it is", 1, "4718 " RD AS P2MP "0002 09 07", MLDP_JOIN, NONE, SPAN(14, 12) },
    { "two deep, by type 7", 1, "4723 " RD AS P2MP "000D 07 000A " EMPTY, MLDP_JOIN, NONE, SPAN(14, 23) },
    { "two deep, by type 8", 1, "472B " RD AS P2MP "0015 08 0012 " RD EMPTY, MLDP_JOIN, NONE, SPAN(14, 31) },
    { "two deep, the inner one of another type", 1, "4723 " RD AS UP "000D 07 000A " DOWN "0000", MLDP_JOIN, NONE, SPAN(14, 23) },
    { "two deep, the inner one of the other family", 1, "432F " RD P2MP "0019 07 0016 " EMPTY6 FROM, MLDP_S_PMSI(FROM_FIELD), NONE,
      SPAN(10, 35) },
    { "two deep, AFI 2, the inner one of the other family", 2, "472F " RD AS P2MP6 "000D 07 000A " EMPTY, MLDP_JOIN, NONE, SPAN(14,
      35) },
    { "a Leaf whose key is two deep", 1, "4429 4323 " RD P2MP "000D 07 000A " EMPTY FROM FROM, MLDP_LEAF(FROM_FIELD), SPAN(2, 37),
      NONE },
    { "three deep", 1, "4730 " RD AS P2MP "001A 07 0017 " UP "000D 07 000A " DOWN "0000", MLDP_JOIN, NONE, SPAN(14, 36) },
    { "four deep, an opaque value of type 1", 1, "4744 " RD AS P2MP "002E 07 002B " UP "0021 07 001E " DOWN "0014 07 0011 " NUMBERED,
      MLDP_JOIN, NONE, SPAN(14, 56) },
    { "four deep, by types 7, 8 and 7, then octets of type 6", 1,
      "4346 " RD P2MP "0030 07 002D " UP "0023 08 0020 " RD P2MP "000E 07 000B " DOWN "0001 06" FROM, MLDP_S_PMSI(FROM_FIELD), NONE,
      SPAN(10, 58) },

    { "0x43, a body of 254 octets", 1, "43FE " RD P2MP "00E8 " OCTETS_200 OCTETS_10 OCTETS_10 OCTETS_10 "0102" FROM,
      MLDP_S_PMSI(FROM_FIELD),
      NONE, SPAN(10, 242) },
    { "0x43, a body of 255 octets", 1, "43FF " RD P2MP "00E9 " OCTETS_200 OCTETS_10 OCTETS_10 OCTETS_10 "010203" FROM,
      MLDP_S_PMSI(FROM_FIELD), NONE, SPAN(10, 243) },
    { "0x44, a body of 255 octets", 1, "44FF 43F9 " RD P2MP "00E3 " OCTETS_200 OCTETS_10 OCTETS_10 "01020304050607" FROM FROM,
      MLDP_LEAF(FROM_FIELD), SPAN(2, 251), NONE },
    { "0x47, a body of 255 octets", 1, "47FF " RD AS P2MP "00E9 " OCTETS_200 OCTETS_10 OCTETS_10 OCTETS_10 "010203", MLDP_JOIN, NONE,
      SPAN(14, 243) },
};

static void same_address(const char *shows, const char *field, mvpn_address got, mvpn_address expected)
{
    same_octets(shows, field, got.octets, expected.octets, sizeof got.octets);
    same(shows, field, got.size, expected.size);
}

static void same_fields(const char *shows, mvpn_nlri got, mvpn_nlri expected)
{
    same(shows, "route_type", got.route_type, expected.route_type);
    same_octets(shows, "distinguisher", got.distinguisher.octets, expected.distinguisher.octets, 8);
    same(shows, "source_as", got.source_as, expected.source_as);
    same_address(shows, "source", got.source, expected.source);
    same_address(shows, "group", got.group, expected.group);
    same_address(shows, "originator", got.originator, expected.originator);
}

static void read_back(const row *r, lent nlri)
{
    mvpn_nlri_reading got = mvpn_nlri_read(r->afi, nlri.at, nlri.size);
    same(r->shows, "number", got.number, MVPN_DONE);
    same_fields(r->shows, got.nlri, r->nlri);
    same(r->shows, "key.start", got.key.start, r->key.start);
    same(r->shows, "key.size", got.key.size, r->key.size);
    same(r->shows, "fec.start", got.fec.start, r->fec.start);
    same(r->shows, "fec.size", got.fec.size, r->fec.size);
}

/* With an octet behind it. */
static void step_over(const row *r, lent nlri)
{
    lent run = lent_of(nlri.size + 1, 0x43);
    memcpy(run.at, nlri.at, nlri.size);
    mvpn_stepped got = mvpn_step(r->afi, run.at, run.size, 0);
    same(r->shows, "number of the step", got.number, MVPN_DONE);
    same(r->shows, "cursor", got.cursor, nlri.size);
    same(r->shows, "layout.route_type", got.layout.route_type, r->nlri.route_type);
    same(r->shows, "layout.length", got.layout.length, nlri.size - MVPN_NLRI_HEADER);
    same(r->shows, "layout.source", got.layout.source, 0);
    same(r->shows, "layout.group", got.layout.group, 0);
    same(r->shows, "layout.originator", got.layout.originator, r->nlri.originator.size);
    same(r->shows, "layout.key", got.layout.key, r->key.size);
    same(r->shows, "layout.fec", got.layout.fec, r->fec.size);
    free(run.at);
}

static mvpn_written write_into(const row *r, lent nlri, lent output)
{
    return mvpn_nlri_write(r->afi, r->nlri, nlri.at + r->key.start, r->key.size, nlri.at + r->fec.start, r->fec.size, output.at,
                           output.size);
}

/* Into an output with an octet to spare, and refused one short. */
static void write_back(const row *r, lent nlri)
{
    lent roomy = lent_of(nlri.size + 1, FILL), tight = lent_of(nlri.size - 1, FILL);
    mvpn_written w = write_into(r, nlri, roomy);
    same(r->shows, "number of writing", w.number, MVPN_DONE);
    same(r->shows, "size", w.size, nlri.size);
    same_output(r->shows, roomy, nlri.at, nlri.size);
    w = write_into(r, nlri, tight);
    same(r->shows, "number of writing, an octet short", w.number, MVPN_SPACE);
    same(r->shows, "size, an octet short", w.size, 0);
    untouched(r->shows, tight);
    free(roomy.at);
    free(tight.at);
}

/* ---- refused */

typedef struct {
    const char *shows;
    uint16_t afi;
    const char *octets;
    uint32_t number;
} refused_row;

static const refused_row refused[] = {
    { "AFI 3", 3, S_PMSI, MVPN_FAMILY },
    { "0x43, a body past the end", 1, "4316 " RD EMPTY "0A0000", MVPN_SHORT },
    { "0x43, an octet after it", 1, S_PMSI "00", MVPN_LENGTH },
    { "0x42", 1, "4216 " RD EMPTY FROM, MVPN_TYPE },
    { "0x41", 1, "4116 " RD EMPTY FROM, MVPN_TYPE },
    { "0x45", 1, "4516 " RD EMPTY FROM, MVPN_TYPE },
    { "0x46", 1, "4616 " RD AS EMPTY, MVPN_TYPE },
    { "0x48", 1, "4816 " RD AS EMPTY, MVPN_TYPE },
    { "0xC3", 1, "C316 " RD EMPTY FROM, MVPN_TYPE },

    { "0x43, Length 0", 1, "4300", MVPN_LENGTH },
    { "0x43, a body that ends inside the RD", 1, "4307 00000064 000000", MVPN_LENGTH },
    { "0x47, a body that ends inside the source AS", 1, "470B " RD "0000FD", MVPN_LENGTH },
    { "0x43, no FEC", 1, "4308 " RD, MVPN_LENGTH },
    { "0x43, the FEC's type alone", 1, "4309 " RD "06", MVPN_LENGTH },
    { "0x43, half a family", 1, "430A " RD "06 00", MVPN_LENGTH },
    { "0x43, no address length", 1, "430B " RD "06 0001", MVPN_LENGTH },
    { "0x43, half a root", 1, "430E " RD "06 0001 04 C000", MVPN_LENGTH },
    { "0x43, half an opaque length", 1, "4311 " RD P2MP "00", MVPN_LENGTH },
    { "0x43, an opaque value past the body", 1, "4316 " RD P2MP "0005 01020304", MVPN_LENGTH },
    { "0x43, an opaque value past the body, before its content", 1, "4316 " RD P2MP "0005 07 020304", MVPN_LENGTH },
    { "0x43, an opaque length of 65,535", 1, "4316 " RD P2MP "FFFF 01020304", MVPN_LENGTH },
    { "0x43, no originator", 1, "4312 " RD EMPTY, MVPN_LENGTH },
    { "0x43, an originator of 5 octets", 1, "4317 " RD EMPTY FROM "00", MVPN_LENGTH },
    { "0x47, an octet behind the FEC", 1, "4717 " RD AS EMPTY "00", MVPN_LENGTH },

    { "0x43, FEC type 5", 1, "4316 " RD "05 0001 04 C000020B 0000" FROM, MVPN_IDENT },
    { "0x43, FEC type 9, and nothing behind it", 1, "4309 " RD "09", MVPN_IDENT },
    { "0x43, family 2 under AFI 1", 1, "4322 " RD EMPTY6 FROM, MVPN_IDENT },
    { "0x43, family 2 under AFI 1, and nothing behind it", 1, "430B " RD "06 0002", MVPN_IDENT },
    { "0x43, family 1 under AFI 2", 2, S_PMSI, MVPN_IDENT },
    { "0x43, family 0", 1, "4316 " RD "06 0000 04 C000020B 0000" FROM, MVPN_IDENT },
    { "0x43, family 257", 1, "4316 " RD "06 0101 04 C000020B 0000" FROM, MVPN_IDENT },
    { "0x43, family 29, multi-topology IPv4", 1, "4316 " RD "06 001D 04 C000020B 0000" FROM, MVPN_IDENT },
    { "0x43, an address length of 16 in family 1", 1, "4322 " RD "06 0001 10 20010DB8 00010000 00000000 0000000B 0000" FROM,
      MVPN_IDENT },
    { "0x43, an address length of 32, and nothing behind it", 1, "430C " RD "06 0001 20", MVPN_IDENT },
    { "0x47 of AFI 2, an address length of 4", 2, "4716 " RD AS "06 0002 04 C000020B 0000", MVPN_IDENT },

    { "a held FEC: type 7 and no length", 1, "4717 " RD AS P2MP "0001 07", MVPN_IDENT },
    { "a held FEC: type 8 and half a length", 1, "4718 " RD AS P2MP "0002 08 00", MVPN_IDENT },
    { "a held FEC: none", 1, "4719 " RD AS P2MP "0003 07 0000", MVPN_IDENT },
    { "a held FEC: a length past the opaque value", 1, "4723 " RD AS P2MP "000D 07 000B " EMPTY, MVPN_IDENT },
    { "a held FEC: a length before the opaque value's end", 1, "4723 " RD AS P2MP "000D 07 0009 " EMPTY, MVPN_IDENT },
    { "a held FEC: half an RD", 1, "471D " RD AS P2MP "0007 08 0004 00000064", MVPN_IDENT },
    { "a held FEC: an RD and no FEC", 1, "4721 " RD AS P2MP "000B 08 0008 " RD, MVPN_IDENT },
    { "a held FEC: its last octet lacks", 1, "4722 " RD AS P2MP "000C 07 0009 " P2MP "00", MVPN_IDENT },
    { "a held FEC: an octet behind it", 1, "4724 " RD AS P2MP "000E 07 000B " EMPTY "00", MVPN_IDENT },
    { "a held FEC: an opaque value past it", 1, "4724 " RD AS P2MP "000E 07 000B " P2MP "0002 01", MVPN_IDENT },
    { "a held FEC of type 5", 1, "4723 " RD AS P2MP "000D 07 000A 05 0001 04 C000020B 0000", MVPN_IDENT },
    { "a held FEC of family 3", 1, "4723 " RD AS P2MP "000D 07 000A 06 0003 04 C000020B 0000", MVPN_IDENT },
    { "a held FEC of family 257", 1, "4723 " RD AS P2MP "000D 07 000A 06 0101 04 C000020B 0000", MVPN_IDENT },
    { "a held FEC of family 2, with an address length of 4", 1, "4723 " RD AS P2MP "000D 07 000A 06 0002 04 C000020B 0000",
      MVPN_IDENT },
    { "a bad held FEC before what lacks behind the FEC", 1, "431F " RD P2MP "000D 07 000A 05 0001 04 C000020B 0000", MVPN_IDENT },
    { "a bad FEC, the third", 1, "4730 " RD AS P2MP "001A 07 0017 " UP "000D 07 000A 09 0001 04 C000020D 0000", MVPN_IDENT },
    { "a bad FEC, the fourth", 1,
      "473D " RD AS P2MP "0027 07 0024 " P2MP "001A 07 0017 " UP "000D 07 000A 09 0001 04 C000020D 0000", MVPN_IDENT },

    { "five deep", 1, "474A " RD AS P2MP "0034 07 0031 " P2MP "0027 07 0024 " P2MP "001A 07 0017 " P2MP "000D 07 000A " EMPTY,
      MVPN_DEEP },
    { "the fourth opens with 7, and nothing behind it", 1,
      "473E " RD AS P2MP "0028 07 0025 " P2MP "001B 07 0018 " P2MP "000E 07 000B " P2MP "0001 07", MVPN_DEEP },
    { "the fourth opens with 8, whatever follows", 1,
      "4741 " RD AS P2MP "002B 07 0028 " P2MP "001E 07 001B " P2MP "0011 07 000E " P2MP "0004 08 FFFFFF", MVPN_DEEP },
    { "too deep before no originator", 1,
      "433A " RD P2MP "0028 07 0025 " P2MP "001B 07 0018 " P2MP "000E 07 000B " P2MP "0001 07", MVPN_DEEP },
    { "the fourth opens with 7, its opaque length is wrong", 1,
      "473E " RD AS P2MP "0028 07 0025 " P2MP "001B 07 0018 " P2MP "000E 07 000B " P2MP "0002 07", MVPN_IDENT },

    { "a Leaf for mLDP, no key", 1, "4404 " FROM, MVPN_KEY },
    { "a Leaf for mLDP, Length 0", 1, "4400", MVPN_KEY },
    { "a Leaf for mLDP, key of type 1", 1, "4412 010C " RD FROM FROM, MVPN_KEY },
    { "a Leaf for mLDP, key of type 2", 1, "4412 020C " RD AS FROM, MVPN_KEY },
    { "a Leaf for mLDP, key of type 3", 1, "4414 030E " RD "00 00 0A000001 " FROM, MVPN_KEY },
    { "a Leaf for mLDP, key of type 0x44", 1, "4422 441C " S_PMSI FROM FROM, MVPN_KEY },
    { "a Leaf for mLDP, key of type 0x47", 1, "441C 4716 " RD AS EMPTY FROM, MVPN_KEY },
    { "a Leaf for mLDP, key of unknown type", 1, "4406 4200 " FROM, MVPN_KEY },
    { "a Leaf for mLDP, key that is not whole", 1, "4417 4316 " RD EMPTY "0A0000", MVPN_KEY },
    { "a Leaf for mLDP, key with a bad FEC", 1, "441C 4316 " RD "05 0001 04 C000020B 0000" FROM FROM, MVPN_KEY },
    { "a Leaf for mLDP, key with a root of the other family", 2, "441C " S_PMSI FROM, MVPN_KEY },
    { "a Leaf for mLDP, key that is too deep", 1,
      "4444 433E " RD P2MP "0028 07 0025 " P2MP "001B 07 0018 " P2MP "000E 07 000B " P2MP "0001 07" FROM FROM, MVPN_KEY },
    { "a Leaf for mLDP, no originator", 1, "4418 " S_PMSI, MVPN_LENGTH },
    { "a Leaf for mLDP, an originator of 1 octet", 1, "4419 " S_PMSI "0A", MVPN_LENGTH },
    { "a Leaf for mLDP, an originator of 3 octets", 1, "441B " S_PMSI "0A0000", MVPN_LENGTH },
    { "a Leaf of type 4, key of type 0x43", 1, "041C " S_PMSI FROM, MVPN_KEY },
};

/* Refused with every field 0, by the walk in both modes too. */
static void refuse(const refused_row *r)
{
    lent nlri = hex(r->octets);
    mvpn_nlri_reading got = mvpn_nlri_read(r->afi, nlri.at, nlri.size);
    same(r->shows, "number", got.number, r->number);
    same_fields(r->shows, got.nlri, (mvpn_nlri){ .route_type = 0 });
    same(r->shows, "spans", got.key.start | got.key.size | got.fec.start | got.fec.size, 0);
    if (r->number == MVPN_KEY || r->number == MVPN_IDENT || r->number == MVPN_DEEP) {
        same(r->shows, "number of the walk", mvpn_walk(r->afi, MVPN_SKIP, nlri.at, nlri.size).number, r->number);
        same(r->shows, "number of the walk, old", mvpn_walk(r->afi, MVPN_OLD, nlri.at, nlri.size).number, r->number);
        same(r->shows, "number of the step", mvpn_step(r->afi, nlri.at, nlri.size, 0).number, r->number);
    }
    free(nlri.at);
}

/* ---- FEC elements, nested by this program: of each depth, by each holder, with roots of both families */

typedef struct { uint8_t octets[256]; size_t size; } nest;

static void append(nest *n, const uint8_t *octets, size_t size)
{
    memcpy(n->octets + n->size, octets, size);
    n->size += size;
}

static void append_number(nest *n, size_t number)
{
    append(n, (const uint8_t[]){ (uint8_t)(number >> 8), (uint8_t)number }, 2);
}

/* A FEC element of the family, around an opaque value. */
static nest around(unsigned family, const nest *opaque)
{
    static const uint8_t root[16] = { 192, 0, 2, 1 };
    nest n = { .size = 0 };
    append(&n, (const uint8_t[]){ 6, 0, (uint8_t)family, family == 1 ? 4 : 16 }, 4);
    append(&n, root, family == 1 ? 4 : 16);
    append_number(&n, opaque->size);
    append(&n, opaque->octets, opaque->size);
    return n;
}

/* The opaque value of type 7 or 8 that holds a FEC element. */
static nest holder_of(uint8_t type, const nest *fec)
{
    static const uint8_t distinguisher[8] = { 0, 0, 0, 100, 0, 0, 0, 7 };
    nest n = { .octets = { type }, .size = 1 };
    append_number(&n, fec->size + (type == 8 ? 8 : 0));
    append(&n, distinguisher, type == 8 ? 8 : 0);
    append(&n, fec->octets, fec->size);
    return n;
}

/* FEC elements around one, `depth` in all: bit i of `types` has the holder inside FEC element i from outside be of type 8, bit i of
 * `families` has its root be of family 2. */
static nest nested(nest innermost, unsigned depth, unsigned types, unsigned families)
{
    nest n = innermost;
    for (unsigned i = depth - 1; i > 0; i--) {
        nest held = holder_of(types >> (i - 1) & 1 ? 8 : 7, &n);
        n = around(families >> (i - 1) & 1 ? 2 : 1, &held);
    }
    return n;
}

/* The numbers of reading and of writing an NLRI of type 0x47 with this FEC element. */
static void same_number(const char *shows, uint16_t afi, const nest *fec, uint32_t reading, uint32_t writing)
{
    uint8_t output[MVPN_UNFINISHED];
    mvpn_nlri fields = MLDP_JOIN;
    nest nlri = { .octets = { 0x47, (uint8_t)(12 + fec->size), 0, 0, 0, 100, 0, 0, 0, 7, 0, 0, 0xFD, 0xE8 }, .size = 14 };
    append(&nlri, fec->octets, fec->size);
    same(shows, "number", mvpn_nlri_read(afi, nlri.octets, nlri.size).number, reading);
    mvpn_written w = mvpn_nlri_write(afi, fields, fec->octets, 0, fec->octets, fec->size, output, sizeof output);
    same(shows, "number of writing", w.number, writing);
    same(shows, "size", w.size, writing == MVPN_DONE ? nlri.size : 0);
    if (writing == MVPN_DONE)
        same_octets(shows, "NLRI written", output, nlri.octets, nlri.size);
}

/* Every truncation of what stands innermost: IDENT inside an opaque value; in the outermost LENGTH at reading, and at writing IDENT.
 * One octet too many is LENGTH behind the outermost, at writing IDENT. */
static void cut_innermost(uint16_t afi, nest innermost, unsigned depth, unsigned types, unsigned families)
{
    uint32_t reading = depth == 1 ? MVPN_LENGTH : MVPN_IDENT;
    for (size_t size = 0; size <= innermost.size + 1; size++) {
        nest changed = innermost;
        changed.octets[innermost.size] = 0;
        changed.size = size;
        nest fec = nested(changed, depth, types, families);
        if (size == innermost.size)
            same_number("FEC elements to four deep", afi, &fec, MVPN_DONE, MVPN_DONE);
        else
            same_number("the innermost FEC element cut, or longer", afi, &fec, reading, MVPN_IDENT);
    }
}

/* A fifth FEC element is not looked at: whole or cut, it is DEEP. */
static void too_deep(uint16_t afi, nest innermost, unsigned types, unsigned families)
{
    for (size_t size = 0; size <= innermost.size; size++) {
        nest changed = innermost;
        changed.size = size;
        nest fec = nested(changed, 5, types, families);
        same_number("FEC elements five deep", afi, &fec, MVPN_DEEP, MVPN_DEEP);
    }
}

/* The outermost root is of the AFI's family, and once of the other; those inside are of both. */
static void nests(void)
{
    static const nest number = { .octets = { 1, 0, 4, 0, 0, 0, 42 }, .size = 7 }, none = { .size = 0 };
    for (unsigned depth = 1; depth <= 5; depth++)
        for (unsigned types = 0; types < 1u << (depth - 1); types++)
            for (unsigned families = 0; families < 1u << depth; families++) {
                nest innermost = around(families >> (depth - 1) & 1 ? 2 : 1, depth % 2 == 0 ? &none : &number);
                uint16_t afi = families & 1 ? 2 : 1;
                if (depth <= 4)
                    cut_innermost(afi, innermost, depth, types, families);
                else
                    too_deep(afi, innermost, types, families);
                nest fec = nested(innermost, depth, types, families);
                same_number("a root of the other family", (uint16_t)(3 - afi), &fec, MVPN_IDENT, MVPN_IDENT);
            }
}

/* ---- refused writings */

typedef struct {
    const char *shows;
    uint16_t afi;
    mvpn_nlri nlri;
    const char *key, *fec;
    size_t output;
    uint32_t number;
} refused_writing;

/* FEC elements of 243 octets and 244, keys of 251 and 252: bodies of 255 octets and 256. */
#define FEC_243 P2MP "00E9 " OCTETS_200 OCTETS_10 OCTETS_10 OCTETS_10 "010203 "
#define FEC_244 P2MP "00EA " OCTETS_200 OCTETS_10 OCTETS_10 OCTETS_10 "01020304 "
#define KEY_251 "43F9 " RD P2MP "00E3 " OCTETS_200 OCTETS_10 OCTETS_10 "01020304050607 " FROM
#define KEY_252 "43FA " RD P2MP "00E4 " OCTETS_200 OCTETS_10 OCTETS_10 "0102030405060708 " FROM
#define DEEP_FEC P2MP "0028 07 0025 " P2MP "001B 07 0018 " P2MP "000E 07 000B " P2MP "0001 07 "

/* Several break a later rule as well, so that the order of the refusals shows. */
static const refused_writing refused_writings[] = {
    { "writing, AFI 0", 0, { .route_type = 0x42 }, "", "", 0, MVPN_FAMILY },
    { "writing, type 0x42", 1, { .route_type = 0x42 }, "", "", 0, MVPN_TYPE },
    { "writing, type 0x45", 1, { .route_type = 0x45, .originator = { .size = 5 } }, "", "", 0, MVPN_TYPE },
    { "writing, type 0x46", 2, { .route_type = 0x46 }, "", EMPTY6, 257, MVPN_TYPE },
    { "writing 0x43, no originator", 1, { .route_type = 0x43 }, "", "", 0, MVPN_WIDTH },
    { "writing 0x43, an originator of 5 octets", 1, { .route_type = 0x43, .originator = { .size = 5 } }, "", DEEP_FEC, 257,
      MVPN_WIDTH },
    { "writing 0x44, an originator of 5 octets", 1, { .route_type = 0x44, .originator = { .size = 5 } }, KEY_252, "", 257, MVPN_WIDTH },
    { "writing 0x43, no FEC", 1, MLDP_S_PMSI(FROM_FIELD), "", "", 0, MVPN_IDENT },
    { "writing 0x47, no FEC", 1, MLDP_JOIN, "", "", 257, MVPN_IDENT },
    { "writing 0x47, FEC type 9", 1, MLDP_JOIN, "", "09", 0, MVPN_IDENT },
    { "writing 0x47, a FEC that lacks its last octet", 1, MLDP_JOIN, "", P2MP "00", 257, MVPN_IDENT },
    { "writing 0x47, an opaque value past the FEC", 1, MLDP_JOIN, "", P2MP "0002 01", 257, MVPN_IDENT },
    { "writing 0x47, an octet behind the FEC", 1, MLDP_JOIN, "", EMPTY "00", 257, MVPN_IDENT },
    { "writing 0x47, two FECs", 1, MLDP_JOIN, "", EMPTY EMPTY, 257, MVPN_IDENT },
    { "writing 0x43, a root of the other family", 1, MLDP_S_PMSI(FROM_FIELD), "", EMPTY6, 257, MVPN_IDENT },
    { "writing 0x43 of AFI 2, a root of the other family", 2, MLDP_S_PMSI(FROM_FIELD), "", EMPTY, 257, MVPN_IDENT },
    { "writing 0x43, a held FEC that is bad", 1, MLDP_S_PMSI(FROM_FIELD), "", P2MP "0003 07 0000", 257, MVPN_IDENT },
    { "writing 0x47, too deep", 1, MLDP_JOIN, "", DEEP_FEC, 0, MVPN_DEEP },
    { "writing 0x47, too deep, an octet behind the FEC", 1, MLDP_JOIN, "", DEEP_FEC "00", 257, MVPN_IDENT },
    { "writing 0x47, a bad FEC before LONG", 1, MLDP_JOIN, "", FEC_244 "00", 257, MVPN_IDENT },
    { "writing 0x43, a body of 256 octets", 1, MLDP_S_PMSI(FROM_FIELD), "", FEC_244, 0, MVPN_LONG },
    { "writing 0x47, a body of 256 octets", 1, MLDP_JOIN, "", FEC_244, 300, MVPN_LONG },
    { "writing 0x43, a body of 267 octets", 1, MLDP_S_PMSI(FROM6_FIELD), "", FEC_243, 300, MVPN_LONG },
    { "writing 0x44, a body of 256 octets", 1, MLDP_LEAF(FROM_FIELD), KEY_252, "", 300, MVPN_LONG },
    { "writing 0x44, a body of 267 octets", 1, MLDP_LEAF(FROM6_FIELD), KEY_251, "", 300, MVPN_LONG },
    { "writing 0x44, a body of 256 octets whose key is none", 1, MLDP_LEAF(FROM_FIELD), "00 00 " OCTETS_200 OCTETS_50, "", 0,
      MVPN_LONG },
    { "writing 0x44, no key", 1, MLDP_LEAF(FROM_FIELD), "", "", 0, MVPN_KEY },
    { "writing 0x44, key of type 3", 1, MLDP_LEAF(FROM_FIELD), "030E " RD "00 00 0A000001", "", 257, MVPN_KEY },
    { "writing 0x44, key of type 0x47", 1, MLDP_LEAF(FROM_FIELD), "4716 " RD AS EMPTY, "", 257, MVPN_KEY },
    { "writing 0x44, key with an octet after it", 1, MLDP_LEAF(FROM_FIELD), S_PMSI "00", "", 257, MVPN_KEY },
    { "writing 0x44, key that is too deep", 1, MLDP_LEAF(FROM_FIELD), "4340 " RD DEEP_FEC FROM, "", 257, MVPN_KEY },
    { "writing 0x44, key of the other family", 2, MLDP_LEAF(FROM_FIELD), S_PMSI, "", 257, MVPN_KEY },
    { "writing type 4, key of type 0x43", 1, { .route_type = 4, .originator = FROM_FIELD }, S_PMSI, "", 257, MVPN_KEY },
    { "writing type 4, a body of 256 octets: no LONG", 1, { .route_type = 4, .originator = FROM_FIELD }, KEY_252, "", 300, MVPN_KEY },
    { "writing 0x43, no output", 1, MLDP_S_PMSI(FROM_FIELD), "", EMPTY, 0, MVPN_SPACE },
    { "writing 0x44, no output", 1, MLDP_LEAF(FROM_FIELD), S_PMSI, "", 0, MVPN_SPACE },
    { "writing 0x47, a body of 255 octets, an octet short", 1, MLDP_JOIN, "", FEC_243, 256, MVPN_SPACE },
};

static void refuse_writing(const refused_writing *r)
{
    lent key = hex(r->key), fec = hex(r->fec), output = lent_of(r->output, FILL);
    mvpn_written w = mvpn_nlri_write(r->afi, r->nlri, key.at, key.size, fec.at, fec.size, output.at, output.size);
    same(r->shows, "number", w.number, r->number);
    same(r->shows, "size", w.size, 0);
    untouched(r->shows, output);
    free(key.at);
    free(fec.at);
    free(output.at);
}

/* ---- fields that a type lacks are not looked at */

typedef struct {
    const char *shows;
    mvpn_nlri nlri;
    const char *key, *fec, *octets;
} lacking_row;

#define BAD_SOURCE .source = { .size = 3 }, .group = { .size = 255 }

static const lacking_row lacking[] = {
    { "0x43 lacks source, group, source AS and key",
      { .route_type = 0x43, .distinguisher = RD_FIELD, .originator = FROM_FIELD, .source_as = 7, BAD_SOURCE }, "0900", EMPTY, S_PMSI },
    { "0x44 lacks all but key and originator",
      { .route_type = 0x44, .distinguisher = RD_FIELD, .originator = FROM_FIELD, .source_as = 7, BAD_SOURCE }, S_PMSI, "09",
      "441C " S_PMSI FROM },
    { "0x47 lacks source, group, originator and key",
      { .route_type = 0x47, .distinguisher = RD_FIELD, .originator = { .size = 5 }, .source_as = 65000, BAD_SOURCE }, "0900", EMPTY,
      "4716 " RD AS EMPTY },
};

static void write_lacking(const lacking_row *r)
{
    lent key = hex(r->key), fec = hex(r->fec), expected = hex(r->octets), output = lent_of(expected.size, FILL);
    mvpn_written w = mvpn_nlri_write(1, r->nlri, key.at, key.size, fec.at, fec.size, output.at, output.size);
    same(r->shows, "number", w.number, MVPN_DONE);
    same(r->shows, "size", w.size, expected.size);
    same_output(r->shows, output, expected.at, expected.size);
    free(key.at);
    free(fec.at);
    free(expected.at);
    free(output.at);
}

/* ---- runs */

static void same_walk(const char *shows, uint32_t mode, const char *text, mvpn_walked expected)
{
    lent run = hex(text);
    mvpn_walked got = mvpn_walk(1, mode, run.at, run.size);
    same(shows, "number", got.number, expected.number);
    same(shows, "count", got.count, expected.count);
    same(shows, "offset", got.offset, expected.offset);
    same(shows, "skipped", got.skipped, expected.skipped);
    free(run.at);
}

/* The new types are read, and those about them are still skipped. */
static void walks(void)
{
    same_walk("one of each", MVPN_OLD, S_PMSI "441C " S_PMSI FROM "4716 " RD AS EMPTY, (mvpn_walked){ MVPN_DONE, 3, 78, 0 });
    same_walk("0x42 and 0x48 skipped", MVPN_SKIP, "4200 " S_PMSI "4801 00", (mvpn_walked){ MVPN_DONE, 1, 29, 2 });
    same_walk("0x42 in the old mode", MVPN_OLD, S_PMSI "4200", (mvpn_walked){ MVPN_TYPE, 1, 24, 0 });
    same_walk("a bad FEC is not skipped", MVPN_SKIP, S_PMSI "4309 " RD "05 " S_PMSI, (mvpn_walked){ MVPN_IDENT, 1, 24, 0 });
    same_walk("what is too deep is not skipped", MVPN_SKIP, "4200 473E " RD AS DEEP_FEC S_PMSI, (mvpn_walked){ MVPN_DEEP, 0, 2, 1 });
}

/* The longest NLRI, of 257 octets, in two pieces, wherever it is cut. */
static void in_pieces(void)
{
    lent nlri = hex("47FF " RD AS FEC_243);
    for (size_t cut = 0; cut <= nlri.size; cut++) {
        uint8_t unfinished[MVPN_UNFINISHED];
        mvpn_fed first = mvpn_pieces_feed(mvpn_pieces_start(1, MVPN_SKIP), unfinished, nlri.at, cut);
        mvpn_fed second = mvpn_pieces_feed(first.pieces, unfinished, nlri.at + cut, nlri.size - cut);
        same("257 octets in pieces", "size", cut == nlri.size ? first.size : second.size, nlri.size);
        same_octets("257 octets in pieces", "NLRI", unfinished, nlri.at, nlri.size);
        same("257 octets in pieces", "count", mvpn_pieces_finish(second.pieces).walked.count, 1);
    }
    free(nlri.at);
}

/* ---- the table takes type 3 only, and attributes are read as before */

#define BIER "00 0B 000010 01 0002 0A000001"

static void refused_by_the_table(const char *shows, lent table, const char *nlri, uint32_t number)
{
    lent before = copy_of(table);
    same(shows, "number of install", install(table, nlri, BIER).number, number);
    same(shows, "number of withdraw", withdraw(table, nlri), number);
    same_table(shows, table, before);
    free(before.at);
}

static void tables(void)
{
    lent table = made(1, 2);
    refused_by_the_table("0x43 at the table", table, S_PMSI, MVPN_KIND);
    refused_by_the_table("0x44 at the table", table, "441C " S_PMSI FROM, MVPN_KIND);
    refused_by_the_table("0x47 at the table", table, "4716 " RD AS EMPTY, MVPN_KIND);
    refused_by_the_table("0x43 with an octet after it at the table", table, S_PMSI "00", MVPN_LENGTH);
    refused_by_the_table("a bad FEC at the table", table, "4309 " RD "05", MVPN_IDENT);
    refused_by_the_table("too deep at the table", table, "473E " RD AS DEEP_FEC, MVPN_DEEP);
    free(table.at);
}

/* A list of one Source Active route that is none. */
static void in_a_list(const char *shows, const char *text, uint32_t number)
{
    static const uint8_t router[] = { 10, 0, 0, 1 }, group[] = { 239, 1, 1, 1 };
    uint8_t list[300];
    lent table = made(1, 1), nlri = hex(text), output = lent_of(MVPN_MATCH_OUTPUT, FILL);
    size_t size = mvpn_list_start(list, sizeof list, 1);
    size = mvpn_list_field(list, sizeof list, size, router, sizeof router);
    size = mvpn_list_field(list, sizeof list, size, nlri.at, nlri.size);
    mvpn_matched got = mvpn_match_shared(table.at, table.size, mvpn_no_items, sizeof mvpn_no_items, router, sizeof router, group,
                                         sizeof group, (mvpn_tree_facts){ 1, 0, 0 }, list, size, mvpn_no_items,
                                         sizeof mvpn_no_items, output.at, output.size);
    refused_matched(shows, got, output, number);
    free(table.at);
    free(nlri.at);
    free(output.at);
}

static void lists(void)
{
    in_a_list("0x43 in a list", S_PMSI, MVPN_KIND);
    in_a_list("a bad FEC in a list", "4309 " RD "05", MVPN_IDENT);
    in_a_list("too deep in a list", "473E " RD AS DEEP_FEC, MVPN_DEEP);
}

/* An attribute's opaque value is not read: it may open with 7 and hold nothing. */
static void attributes(void)
{
    lent attribute = hex("00 02 000010 " P2MP "0002 07 FF");
    mvpn_attribute_reading got = mvpn_attribute_read(attribute.at, attribute.size);
    same("an attribute's opaque value", "number", got.number, MVPN_DONE);
    same("an attribute's opaque value", "size", got.fec.opaque.size, 2);
    free(attribute.at);
}

int main(void)
{
    for (size_t i = 0; i < ROWS(accepted); i++) {
        lent nlri = hex(accepted[i].octets);
        read_back(&accepted[i], nlri);
        step_over(&accepted[i], nlri);
        write_back(&accepted[i], nlri);
        free(nlri.at);
    }
    for (size_t i = 0; i < ROWS(refused); i++)
        refuse(&refused[i]);
    nests();
    for (size_t i = 0; i < ROWS(refused_writings); i++)
        refuse_writing(&refused_writings[i]);
    for (size_t i = 0; i < ROWS(lacking); i++)
        write_lacking(&lacking[i]);
    walks();
    in_pieces();
    tables();
    lists();
    attributes();
    return verdict("C NLRIs for mLDP");
}
