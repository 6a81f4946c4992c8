/*
 * mvpn.h: multicast VPN routes. The calls
 *   - read and write MCAST-VPN NLRIs (RFC 6514, RFC 6625, RFC 7441) and the PMSI Tunnel attribute (RFC 6514, RFC 8556);
 *   - keep one VRF's S-PMSI A-D routes for one address family in a table, in memory that the caller lends, and list them;
 *   - find the route that a customer flow (C-S,C-G) or a shared tree (C-*,C-G) takes, and say why a flow takes it;
 *   - keep a router's routes while it restarts (RFC 4724), and make a sound table from what is good in a damaged one;
 *   - make the bit string of the egress routers that must get a BIER packet (RFC 8556, RFC 8279);
 *   - propose a few routes, with wildcards among them, such that each of many flows takes the tunnel wanted for it, and judge such
 *     proposals.
 *
 * The daemon does the rest: best paths, Route Targets, BGP sessions with their timers, and joining tunnels. It also supplies SSM
 * ranges other than the standard one, and what a match for a shared tree has to know: which PE is upstream, which groups are
 * BIDIR-PIM, the Source Active routes and the (C-S,C-G) states.
 *
 * Every call ends with a stated answer, whatever octets it is given. A call that refuses returns the refusal's number, changes no
 * octet of any buffer, and leaves every other field of its answer 0. There are three exceptions. A walk gives its counts and its
 * offset. A step gives its cursor. A reader of pieces keeps its state in its numbers, and each feed that reads also writes
 * `unfinished`, even if the NLRI is then refused.
 *
 * What the caller must ensure: a pointer is valid for the length given with it, which is at most PTRDIFF_MAX. If the length is 0,
 * the pointer may be anything, even null. No alignment is required. A buffer that is written overlaps no other argument.
 *
 * Threads: the library has no state of its own, keeps nothing between calls, allocates no memory and takes no lock. So any thread
 * may make any call, and an answer depends on the call's arguments alone. Octets that are only read may be lent to several calls at
 * once. While a call runs, nobody else may use a buffer that it writes. Only make, install, withdraw, mark, sweep and salvage write
 * a table, and a salvage only reads the damaged one. Matches, explanations and listings may run at once on one table while none of
 * those calls writes it; the caller must see to that. Calls on different tables are independent. A call uses at most 2 KiB of
 * stack.
 *
 * Octets are in network order, as on the wire. An AFI is the whole 16-bit number, 1 (IPv4) or 2 (IPv6).
 */
#ifndef MVPN_H
#define MVPN_H

#include <stddef.h>
#include <stdint.h>

/* The version of this header and its archive; before 1.0.0 a new minor version may change calls. */
#define MVPN_VERSION "0.18.0"
#define MVPN_VERSION_MAJOR 0
#define MVPN_VERSION_MINOR 18
#define MVPN_VERSION_PATCH 0

/* The version as one number, an octet for each part. mvpn_version gives the same number if the archive is of this version. */
#define MVPN_VERSION_NUMBER (MVPN_VERSION_MAJOR * 65536 + MVPN_VERSION_MINOR * 256 + MVPN_VERSION_PATCH)

#ifdef __cplusplus
extern "C" {
#endif

/* The numbers a call gives back. mvpn_number_text gives these words. The comment of each call below lists its refusals, without
 * MVPN_, in the order in which they are tried; the first that applies is given. */
enum {
    MVPN_DONE = 0,      /* the work was done */
    MVPN_SHORT = 1,     /* fewer octets than a header, a Length field or a list's items require */
    MVPN_TYPE = 2,      /* a route type that is not 1 to 7, 0x43, 0x44 or 0x47 */
    MVPN_LENGTH = 3,    /* the body ends inside a field, or what remains is not the last field, or octets follow a single NLRI */
    MVPN_WIDTH = 4,     /* an address length that the type and family do not allow */
    MVPN_KEY = 5,       /* a Leaf's key is not a well-formed NLRI, or is of the wrong type */
    MVPN_TUNNEL = 6,    /* a tunnel type that is unknown, or that the call does not take */
    MVPN_IDENT = 7,     /* an identifier that is not of its tunnel type's form, or in an NLRI a bad FEC element */
    MVPN_LONG = 8,      /* more octets or items than the call takes */
    MVPN_LABEL = 9,     /* BIER with label 0, or a label field over 16,777,215 */
    MVPN_FAMILY = 10,   /* an AFI that is not 1 or 2 */
    MVPN_TABLE = 11,    /* the lent memory is not a sound table, or not of a table's size */
    MVPN_KIND = 12,     /* a well-formed NLRI that is not of the type required */
    MVPN_ROOM = 13,     /* a new NLRI, and every place is taken */
    MVPN_ABSENT = 14,   /* the withdrawn NLRI is not in the table */
    MVPN_FLOW = 15,     /* an address or distinguisher of the wrong size, or a group that is not multicast */
    MVPN_SPACE = 16,    /* an output that is too small, or not of the size required */
    MVPN_DEEP = 17,     /* FEC elements hold one another over four deep */
    MVPN_RANGE = 18,    /* more than eight prefixes, or a bad one */
    MVPN_GROUP = 19,    /* a Source Active route for a group of the standard SSM range */
    MVPN_CONFLICT = 20  /* one flow is listed with two different attributes */
};

/* The name of a number that a call returns, without MVPN_. This function and those below whose names end in _name or _text give
 * constant strings for logs and listings, and "unknown" for a number that they do not know. */
static inline const char *
mvpn_number_name(uint32_t number)
{
    switch (number) {
    case MVPN_DONE: return "DONE";
    case MVPN_SHORT: return "SHORT";
    case MVPN_TYPE: return "TYPE";
    case MVPN_LENGTH: return "LENGTH";
    case MVPN_WIDTH: return "WIDTH";
    case MVPN_KEY: return "KEY";
    case MVPN_TUNNEL: return "TUNNEL";
    case MVPN_IDENT: return "IDENT";
    case MVPN_LONG: return "LONG";
    case MVPN_LABEL: return "LABEL";
    case MVPN_FAMILY: return "FAMILY";
    case MVPN_TABLE: return "TABLE";
    case MVPN_KIND: return "KIND";
    case MVPN_ROOM: return "ROOM";
    case MVPN_ABSENT: return "ABSENT";
    case MVPN_FLOW: return "FLOW";
    case MVPN_SPACE: return "SPACE";
    case MVPN_DEEP: return "DEEP";
    case MVPN_RANGE: return "RANGE";
    case MVPN_GROUP: return "GROUP";
    case MVPN_CONFLICT: return "CONFLICT";
    default: return "unknown";
    }
}

/* The meaning of a number that a call returns, in one line. */
static inline const char *
mvpn_number_text(uint32_t number)
{
    switch (number) {
    case MVPN_DONE: return "the work was done";
    case MVPN_SHORT: return "fewer octets than a header, a Length field or a list's items require";
    case MVPN_TYPE: return "a route type that is not 1 to 7, 0x43, 0x44 or 0x47";
    case MVPN_LENGTH: return "the body ends inside a field, or what remains is not the last field, or octets follow a single NLRI";
    case MVPN_WIDTH: return "an address length that the type and family do not allow";
    case MVPN_KEY: return "a Leaf's key is not a well-formed NLRI, or is of the wrong type";
    case MVPN_TUNNEL: return "a tunnel type that is unknown, or that the call does not take";
    case MVPN_IDENT: return "an identifier that is not of its tunnel type's form, or in an NLRI a bad FEC element";
    case MVPN_LONG: return "more octets or items than the call takes";
    case MVPN_LABEL: return "BIER with label 0, or a label field over 16,777,215";
    case MVPN_FAMILY: return "an AFI that is not 1 or 2";
    case MVPN_TABLE: return "the lent memory is not a sound table, or not of a table's size";
    case MVPN_KIND: return "a well-formed NLRI that is not of the type required";
    case MVPN_ROOM: return "a new NLRI, and every place is taken";
    case MVPN_ABSENT: return "the withdrawn NLRI is not in the table";
    case MVPN_FLOW: return "an address or distinguisher of the wrong size, or a group that is not multicast";
    case MVPN_SPACE: return "an output that is too small, or not of the size required";
    case MVPN_DEEP: return "FEC elements hold one another over four deep";
    case MVPN_RANGE: return "more than eight prefixes, or a bad one";
    case MVPN_GROUP: return "a Source Active route for a group of the standard SSM range";
    case MVPN_CONFLICT: return "one flow is listed with two different attributes";
    default: return "unknown";
    }
}

/* Address families. */
enum { MVPN_AFI_IPV4 = 1, MVPN_AFI_IPV6 = 2 };

/* The octets of an NLRI before its body: route type and Length. */
enum { MVPN_NLRI_HEADER = 2 };

/* The most octets that an NLRI (its header and a Length of 255), an attribute and a run may have. An output of that many octets
 * holds any NLRI, or any attribute, that is written. */
enum { MVPN_LONGEST_NLRI = 257, MVPN_LONGEST_ATTRIBUTE = 64, MVPN_LONGEST_RUN = 4096 };

/* Route types (RFC 6514, section 4), and those for customers that run mLDP (RFC 7441, section 3). */
enum {
    MVPN_INTRA_AS_I_PMSI = 1,
    MVPN_INTER_AS_I_PMSI = 2,
    MVPN_S_PMSI = 3,
    MVPN_LEAF = 4,
    MVPN_SOURCE_ACTIVE = 5,
    MVPN_SHARED_TREE_JOIN = 6,
    MVPN_SOURCE_TREE_JOIN = 7,
    MVPN_MLDP_S_PMSI = 0x43,
    MVPN_MLDP_LEAF = 0x44,
    MVPN_MLDP_SOURCE_TREE_JOIN = 0x47
};

/* The name of a route type in RFC 6514 or RFC 7441. */
static inline const char *
mvpn_route_type_name(uint32_t route_type)
{
    switch (route_type) {
    case MVPN_INTRA_AS_I_PMSI: return "Intra-AS I-PMSI A-D";
    case MVPN_INTER_AS_I_PMSI: return "Inter-AS I-PMSI A-D";
    case MVPN_S_PMSI: return "S-PMSI A-D";
    case MVPN_LEAF: return "Leaf A-D";
    case MVPN_SOURCE_ACTIVE: return "Source Active A-D";
    case MVPN_SHARED_TREE_JOIN: return "Shared Tree Join";
    case MVPN_SOURCE_TREE_JOIN: return "Source Tree Join";
    case MVPN_MLDP_S_PMSI: return "S-PMSI A-D for C-multicast mLDP";
    case MVPN_MLDP_LEAF: return "Leaf A-D for C-multicast mLDP";
    case MVPN_MLDP_SOURCE_TREE_JOIN: return "Source Tree Join for C-multicast mLDP";
    default: return "unknown";
    }
}

/* Tunnel types (RFC 6514, section 5; RFC 8556, section 2), with the fields of the identifier and the octets of each. */
enum {
    MVPN_TUNNEL_NONE = 0,                /* none: the route names no tunnel, and no match takes it */
    MVPN_TUNNEL_RSVP_TE_P2MP = 1,        /* extended tunnel ID 4, reserved 2, tunnel ID 2, P2MP ID 4 */
    MVPN_TUNNEL_MLDP_P2MP = 2,           /* a FEC element of type 6 */
    MVPN_TUNNEL_PIM_SSM = 3,             /* P-root node and P-multicast group, each 4 or each 16 */
    MVPN_TUNNEL_PIM_SM = 4,              /* sender and P-multicast group, each 4 or each 16 */
    MVPN_TUNNEL_BIDIR_PIM = 5,           /* sender and P-multicast group, each 4 or each 16 */
    MVPN_TUNNEL_INGRESS_REPLICATION = 6, /* the tunnel's end point, 4 or 16 */
    MVPN_TUNNEL_MLDP_MP2MP = 7,          /* a FEC element of type 7 or 8 */
    MVPN_TUNNEL_BIER = 11                /* sub-domain 1, BFR-id 2, BFR-prefix 4 or 16 */
};

/* The name of a tunnel type in RFC 6514 or RFC 8556. */
static inline const char *
mvpn_tunnel_type_name(uint32_t tunnel_type)
{
    switch (tunnel_type) {
    case MVPN_TUNNEL_NONE: return "No tunnel information present";
    case MVPN_TUNNEL_RSVP_TE_P2MP: return "RSVP-TE P2MP LSP";
    case MVPN_TUNNEL_MLDP_P2MP: return "mLDP P2MP LSP";
    case MVPN_TUNNEL_PIM_SSM: return "PIM-SSM Tree";
    case MVPN_TUNNEL_PIM_SM: return "PIM-SM Tree";
    case MVPN_TUNNEL_BIDIR_PIM: return "BIDIR-PIM Tree";
    case MVPN_TUNNEL_INGRESS_REPLICATION: return "Ingress Replication";
    case MVPN_TUNNEL_MLDP_MP2MP: return "mLDP MP2MP LSP";
    case MVPN_TUNNEL_BIER: return "BIER";
    default: return "unknown";
    }
}

/* The flag of an attribute that asks for Leaf A-D routes (RFC 6514, section 5). */
enum { MVPN_LEAF_INFORMATION_REQUIRED = 1 };

/* Types of FEC elements (RFC 6388). */
enum { MVPN_FEC_P2MP = 6, MVPN_FEC_MP2MP_UP = 7, MVPN_FEC_MP2MP_DOWN = 8 };

/* Group classes (RFC 4607). The groups of 232.0.0.0/8 and FF3x::/32, or those that the caller's own prefixes contain, are SSM; any
 * other multicast group is ASM. */
enum { MVPN_ASM = 1, MVPN_SSM = 2 };

/* A part of a buffer: `size` octets from octet `start`. */
typedef struct { size_t start, size; } mvpn_span;

/* Eight octets, kept as received. */
typedef struct { uint8_t octets[8]; } mvpn_route_distinguisher;

/* An address of 4 or 16 octets, or, as a source or group of type 3, of 0 octets: the wildcard. In an answer the octets past `size`
 * are 0; in an argument they are ignored. */
typedef struct { uint8_t octets[16]; uint8_t size; } mvpn_address;

/* The fields of an NLRI. In an answer the fields that the route type lacks are 0; in an argument they are ignored. A Leaf's key and
 * a FEC element are not among them: reading gives their spans, writing takes their octets. */
typedef struct {
    mvpn_route_distinguisher distinguisher; /* types 1, 2, 3, 5, 6, 7, 0x43, 0x47 */
    mvpn_address source;                    /* types 3, 5, 6, 7 */
    mvpn_address group;                     /* types 3, 5, 6, 7 */
    mvpn_address originator;                /* types 1, 3, 4, 0x43, 0x44 */
    uint32_t source_as;                     /* types 2, 6, 7, 0x47 */
    uint8_t route_type;
} mvpn_nlri;

/*
 * The FEC element of types 0x43 and 0x47 (RFC 6388, section 2.2) is a type (1 octet: 6, 7 or 8), an address family (2 octets), an
 * address length (1 octet: 4 or 16, to suit the family), the root, an opaque length (2 octets) and an opaque value. The family is
 * the AFI (RFC 7441, section 3).
 *
 * An opaque value that begins with 7 or 8 contains another FEC element (RFC 6512): a type (1 octet), a length (2 octets), in type 8
 * a route distinguisher (8 octets), then the FEC element. That one is of family 1 or 2, fills the rest, and may contain another, to
 * four elements deep. Other opaque values, and empty ones, are kept as octets. The first fault from left to right decides:
 *   LENGTH  the body ends inside the outermost FEC element; its opaque length is tested before its opaque value
 *   IDENT   a field is wrong, or there are too few or too many octets inside an opaque value
 *   DEEP    the fourth FEC element from outside has an opaque value that begins with 7 or 8, whatever follows
 */
typedef struct {
    uint32_t number;
    mvpn_nlri nlri;
    mvpn_span key; /* types 4, 0x44: where the key is in the NLRI read */
    mvpn_span fec; /* types 0x43, 0x47: where the FEC element, with all that it contains, is in the NLRI read */
} mvpn_nlri_reading;

typedef struct {
    uint32_t number;
    size_t size; /* octets written at the front of the output; those after them are untouched */
} mvpn_written;

/* The version of the archive: MVPN_VERSION_NUMBER, if it is that of this header. The call refuses nothing. */
uint32_t mvpn_version(void);

/*
 * Reads a single NLRI. Refusals: FAMILY, SHORT, TYPE, then the body from left to right (LENGTH, WIDTH, KEY, IDENT, DEEP), then
 * LENGTH for octets after it, then GROUP. Any fault inside a key is KEY. So is a key of the wrong kind: type 0x43 in type 4, types
 * 1 to 3 in type 0x44.
 *
 * GROUP: a Source Active route for an SSM group must be discarded (RFC 6514). Here and wherever GROUP is given, SSM groups are
 * those of the standard range, whatever prefixes other calls are given. A Source Active route for any other group is read, even if
 * the group is not multicast. Other route types for SSM groups are read too.
 */
mvpn_nlri_reading mvpn_nlri_read(uint16_t afi, const uint8_t *nlri, size_t nlri_len);

/*
 * Writes an NLRI at the front of the output. `key` is a Leaf's key: exactly one NLRI under the same AFI, of type 1, 2 or 3 for type
 * 4, of type 0x43 for type 0x44. `fec` is the FEC element of types 0x43 and 0x47: exactly one, else IDENT. Each is ignored for
 * other types. Refusals: FAMILY, TYPE, WIDTH, IDENT and DEEP, LONG (a body of type 0x43, 0x44 or 0x47 over 255 octets, by the sizes
 * given), KEY, GROUP, SPACE.
 */
mvpn_written mvpn_nlri_write(uint16_t afi, mvpn_nlri nlri, const uint8_t *key, size_t key_len,
                             const uint8_t *fec, size_t fec_len, uint8_t *output, size_t output_len);

/* How an NLRI is laid out: its route type, its Length field, and the size in octets of each field whose size varies (0
 * for a wildcard and for a field that the type lacks). */
typedef struct {
    size_t route_type;
    size_t length;
    size_t source;
    size_t group;
    size_t originator;
    size_t key; /* with its header */
    size_t fec;
} mvpn_layout;

typedef struct {
    uint32_t number;
    size_t cursor;      /* just past the NLRI read; else the cursor given */
    mvpn_layout layout; /* all 0 at the run's end, where the number is DONE */
} mvpn_stepped;

/*
 * The mode: what a walk or a reader of pieces does at an NLRI that is whole but refused with TYPE (its route type is unknown) or
 * with GROUP (it is a Source Active route for an SSM group). Every number except MVPN_SKIP is the old mode.
 */
enum {
    MVPN_SKIP = 0, /* steps over it by its Length field, and counts it as skipped */
    MVPN_OLD = 1   /* stops at it, as at any other refusal: for a conformance run */
};

typedef struct {
    uint32_t number;
    uint32_t count;   /* NLRIs read */
    uint32_t offset;  /* just past the last NLRI read or skipped: the run's end, or where the refused NLRI begins */
    uint32_t skipped; /* NLRIs stepped over, refused with TYPE or GROUP; 0 in the old mode */
} mvpn_walked;

/*
 * Reads the NLRI at a cursor in a run (0 at first). Its octets are those from run[cursor] to just before run[answer.cursor]. At the
 * run's end the answer is DONE with route type 0. Refusals: FAMILY, LONG (a run over 4,096 octets), SHORT for a cursor past the
 * end, then those of reading an NLRI; octets after it are the next NLRI. A step skips nothing: an unknown route type is TYPE, and a
 * Source Active route for an SSM group is GROUP.
 */
mvpn_stepped mvpn_step(uint16_t afi, const uint8_t *run, size_t run_len, size_t cursor);

/*
 * Walks a run of NLRIs up to the first refusal that its mode does not skip. The answer says how many were read, how many were
 * skipped, the offset just past the last of them, and the refusal's number, or DONE at the run's end. With FAMILY and LONG (a run
 * over 4,096 octets) the other fields are 0. Only a whole NLRI is skipped. One whose Length goes past the run is SHORT, an unknown
 * route type inside a Leaf's key is KEY, and a damaged Source Active route is LENGTH or WIDTH, whatever its group. Each of these
 * stops the walk.
 */
mvpn_walked mvpn_walk(uint16_t afi, uint32_t mode, const uint8_t *run, size_t run_len);

/*
 * A run that arrives in pieces, as a session delivers it. Wherever a run of at most 4,096 octets is cut, even with empty pieces, a
 * reader gives the NLRIs that the walk of its mode reads in the whole run, each once and in order. After finish it has that walk's
 * answer. It keeps at most one unfinished NLRI, in octets that the caller lends. The caller's loop:
 *
 *     uint8_t unfinished[MVPN_UNFINISHED];
 *     mvpn_pieces pieces = mvpn_pieces_start(afi, mode);
 *     mvpn_fed fed;
 *     while (next_piece(&piece, &size))
 *         while (size > 0) {
 *             fed = mvpn_pieces_feed(pieces, unfinished, piece, size);
 *             if (fed.size > 0) keep_nlri(unfinished, fed.size);
 *             pieces = fed.pieces, piece += fed.taken, size -= fed.taken;
 *         }
 *     pieces = mvpn_pieces_finish(pieces);
 *     if (pieces.walked.number == MVPN_DONE) use_kept_nlris();
 *
 * A reader's state is plain numbers. Only these calls may write it, and nobody else may write `unfinished` between two feeds. If
 * these calls did not make the state, or somebody else wrote `unfinished`, the answers mean nothing, but every call is still safe:
 * it ends, reads only the piece and `unfinished`, writes only `unfinished`, takes no more octets than the piece has, and gives no
 * more than `unfinished` has. An NLRI that it gives is well-formed under the state's AFI, but its octets need not have been handed
 * over. Such a feed may take nothing from a piece; the next one, with the reader that this feed returned, takes at least one octet,
 * so the loop ends.
 */
enum { MVPN_UNFINISHED = 257 }; /* the longest NLRI: its header and a Length of 255 */

typedef struct {
    mvpn_walked walked; /* the walk's answer for what was taken so far, except SHORT; after finish, the walk's answer */
    uint32_t afi, mode, stage, total, kept;
} mvpn_pieces;

typedef struct {
    mvpn_pieces pieces; /* the reader afterwards */
    size_t taken;       /* octets taken from the piece; the rest is handed over next */
    size_t size;        /* of the NLRI that is now whole at the front of `unfinished`; 0 if there is none */
} mvpn_fed;

/* Starts a reader of this mode. With a bad AFI the reader is finished from the start, and has the walk's answer: FAMILY, and the
 * others 0. */
mvpn_pieces mvpn_pieces_start(uint16_t afi, uint32_t mode);

/*
 * Hands over a piece, or the rest of one. Its octets are taken up to the end of one NLRI. At least one octet of a non-empty piece
 * is taken, if the reader was started and only these calls have written it and, since then, `unfinished`. `unfinished` is
 * MVPN_UNFINISHED octets; their initial content does not matter. An NLRI that is given stays there until the next feed. While the
 * reader reads, pieces.walked has DONE. From the feed that meets a stop or LONG, it has that number. Only finish gives SHORT.
 *   - In the mode MVPN_SKIP, an NLRI that is whole but refused with TYPE or GROUP is skipped: it is taken, but not given.
 *   - At the first NLRI that is whole, refused and not skipped, the reading stops: pieces are then taken whole and counted, and no
 *     NLRI is given.
 *   - If the octets taken before and the piece are over 4,096 together, the run is LONG, with the others 0, even after a stop. The
 *     piece is taken whole and gives no NLRI, the NLRIs given before are void, and this stays so.
 *   - After finish a piece is taken whole, and nothing is counted, given or written.
 */
mvpn_fed mvpn_pieces_feed(mvpn_pieces pieces, uint8_t *unfinished, const uint8_t *piece, size_t piece_len);

/*
 * Ends the run: `walked` has the walk's answer for all octets handed over, which is SHORT if an NLRI is unfinished. A finished
 * reader stays as it is.
 */
mvpn_pieces mvpn_pieces_finish(mvpn_pieces pieces);

/*
 * A list that a call takes is a count of items (2 octets), then the items. An item is a fixed number of fields, which the call
 * names; a field is its size (2 octets), then that many octets. A list that ends before its items do is SHORT. So is one of fewer
 * than two octets, whose count is taken as 0. Octets after the last item are ignored.
 */
enum { MVPN_LIST_COUNT = 2, MVPN_FIELD_SIZE = 2 };

/* The list that has no items. */
static const uint8_t mvpn_no_items[MVPN_LIST_COUNT] = {0, 0};

/* Starts a list of `count` items in `list`, a buffer of `space` octets. Returns how many octets the list has so far, or 0 if there
 * is no space. */
static inline size_t
mvpn_list_start(uint8_t *list, size_t space, uint16_t count)
{
    if (space < MVPN_LIST_COUNT) return 0;
    list[0] = (uint8_t)(count >> 8);
    list[1] = (uint8_t)(count & 255);
    return MVPN_LIST_COUNT;
}

/*
 * Appends a field to a list that has `size` octets, and gives the octets that it has then. It gives 0 and writes nothing if there
 * is no space, if the field has over 65,535 octets, or if `size` is under 2. So a caller need test only the last answer.
 */
static inline size_t
mvpn_list_field(uint8_t *list, size_t space, size_t size, const uint8_t *field, size_t field_len)
{
    size_t i;
    if (size < MVPN_LIST_COUNT || space < size || 65535 < field_len) return 0;
    if (space - size < MVPN_FIELD_SIZE + field_len) return 0;
    list[size] = (uint8_t)(field_len >> 8);
    list[size + 1] = (uint8_t)(field_len & 255);
    for (i = 0; i < field_len; i++) list[size + MVPN_FIELD_SIZE + i] = field[i];
    return size + MVPN_FIELD_SIZE + field_len;
}

/*
 * Prefixes are the SSM ranges of a network that has its own. A call takes them as a list of at most eight items of one field: a
 * length in bits (1 octet), then an address of the family's size, with no bit set past the length. They may overlap, and their
 * order does not matter.
 *   - If none is given (mvpn_no_items), the standard range decides: 232.0.0.0/8 and FF3x::/32 are SSM.
 *   - If one or more are given, they replace the standard range. A multicast group is SSM exactly when one of them contains it,
 *     that is, when its first bits, as many as the length says, are the prefix's. A prefix of length 0 contains every group.
 * Multicast groups are those of 224.0.0.0/4 and FF00::/8, whatever is given: a prefix outside these is accepted, but contains no
 * multicast group.
 *
 * A caller that also wants the standard range lists it with its own prefixes. 232.0.0.0/8 is one prefix. FF3x::/32 is sixteen, one
 * for each scope x, of which the caller lists those that it uses.
 *
 * GROUP depends on the standard range alone. A Source Active route for a group that only the caller's prefixes contain is read; a
 * caller that must discard it calls mvpn_group_class. For a group of the standard range that the prefixes make ASM,
 * mvpn_match_shared accepts no Source Active route.
 *
 * Refusals: RANGE (there are more than eight); SHORT (the list ends before its items do; a list of no octets does, so a null
 * pointer does not mean that none is given); RANGE (a prefix has an address that is not of the family's size, a length over that
 * size, or a bit set past the length).
 */

/* The most prefixes that a call takes, and the octets of the longest list of them, which is one for IPv6. */
enum { MVPN_MOST_PREFIXES = 8, MVPN_LONGEST_PREFIXES = 154 };

/*
 * Appends a prefix of `length` bits to a list that has `size` octets, and gives the octets that it has then. It gives 0 and writes
 * nothing if mvpn_list_field gives 0, or if the address has over 16 octets. The call that takes the list checks the rest of the
 * prefix.
 */
static inline size_t
mvpn_list_prefix(uint8_t *list, size_t space, size_t size, const uint8_t *address, size_t address_len, uint8_t length)
{
    uint8_t prefix[1 + 16];
    size_t i;
    if (16 < address_len) return 0;
    prefix[0] = length;
    for (i = 0; i < address_len; i++) prefix[1 + i] = address[i];
    return mvpn_list_field(list, space, size, prefix, 1 + address_len);
}

typedef struct { uint32_t number, group_class; } mvpn_group;

/* The class of a customer group under these prefixes. Refusals: FAMILY, RANGE and SHORT for the prefixes, FLOW. */
mvpn_group mvpn_group_class(uint16_t afi, const uint8_t *prefixes, size_t prefixes_len, const uint8_t *group, size_t group_len);

/* The shape of an attribute's mLDP FEC element (RFC 6388, section 2.2): its type (6, 7 or 8), its address family (1 or 2), and
 * where its root address and its opaque value are in the attribute read. The opaque value is not read. */
typedef struct {
    uint32_t fec_type, address_family;
    mvpn_span root, opaque;
} mvpn_fec;

typedef struct {
    uint32_t number;
    uint32_t flags;
    uint32_t tunnel_type;
    uint32_t label_field;               /* the whole 24-bit field */
    uint32_t label;                     /* the field divided by 16 */
    uint32_t leaf_information_required; /* 0 or 1: flag bit value 1 */
    mvpn_span identifier;               /* where the tunnel identifier is in the attribute read */
    mvpn_fec fec;                       /* tunnel types 2 and 7; else 0 */
} mvpn_attribute_reading;

/* Reads a PMSI Tunnel attribute. Refusals: LONG (over 64 octets), SHORT (under 5), TUNNEL, IDENT. */
mvpn_attribute_reading mvpn_attribute_read(const uint8_t *attribute, size_t attribute_len);

/*
 * Writes a PMSI Tunnel attribute at the front of the output. Refusals: LONG (an identifier over 59 octets), TUNNEL, IDENT, LABEL (a
 * label field over 16,777,215), SPACE.
 */
mvpn_written mvpn_attribute_write(uint8_t flags, uint8_t tunnel_type, uint32_t label_field,
                                  const uint8_t *identifier, size_t identifier_len, uint8_t *output, size_t output_len);

/*
 * A table is 8 octets of header, then 0 to 500 places of 128 octets. A place holds one S-PMSI A-D route, that is, its NLRI and its
 * PMSI Tunnel attribute, and in its last octet the route's mark: 1 if it is stale (mvpn_mark), else 0. Routes are in the order of
 * their NLRIs, octet by octet, and every octet after them is 0. So, for one family and number of places, a set of routes with their
 * marks has one image. A table may be copied, stored and lent again anywhere. A table of an earlier version of the library is one
 * whose routes have no marks.
 *
 * Install, withdraw, mark, sweep, both matches, explain, next and table_info look at every octet of the table, and refuse one that
 * is not sound; beyond that, their cost grows with the places that are taken. mvpn_salvage recovers the routes that are still good
 * in a refused table.
 *
 * A daemon with more than 500 routes keeps several tables, and gets the answers of one that holds all routes. It keeps a table for
 * each originator, since the candidates of a match are the routes of the router that it asks about. If one originator has more than
 * 500 routes, it keeps (C-S,C-G) routes in small tables, by a hash of originator, source and group (mvpn_shard).
 *
 * A change leaves most answers as they were. A withdrawal changes only answers that had the withdrawn NLRI. An install changes only
 * answers that had the installed NLRI, and answers that are the installed route afterwards. A mark or a sweep changes only answers
 * whose route it removed. A refused call changes none. mvpn(3) shows, under "What to ask again", how a daemon that keeps the
 * answers of its flows finds those to ask again.
 */
enum {
    MVPN_TABLE_HEADER = 8,
    MVPN_PLACE = 128,
    MVPN_MOST_PLACES = 500,
    MVPN_MATCH_OUTPUT = 124 /* the longest NLRI of type 3 (60 octets) and the longest attribute (64) */
};

/* The octets of a table of `places` places. */
#define MVPN_TABLE_SIZE(places) ((size_t)MVPN_TABLE_HEADER + (size_t)MVPN_PLACE * (size_t)(places))

/*
 * Says which of `tables` small tables is for the (C-S,C-G) routes of an originator, a source and a group: a number below `tables`,
 * or 0 if `tables` is 1 or 0. The originator's routes with wildcards are in another table. A flow is matched first in the small
 * table that its router, source and group choose. If that answer is not of tier 1, the flow is matched in the router's table of
 * wildcards. It is proved that this gives the answer of one table with all routes. mvpn(3) shows the lines under "More than 500
 * routes".
 *
 * The number depends on these octets alone, and is the same everywhere and in every version. It is 32-bit FNV-1a over the three
 * addresses, each as its size (its low octet) and then its octets; then MurmurHash3's last steps, because the low bits of FNV-1a
 * depend only on the low bits of the octets; then the remainder of the division by `tables`.
 */
static inline size_t
mvpn_shard(const uint8_t *originator, size_t originator_len, const uint8_t *source, size_t source_len,
           const uint8_t *group, size_t group_len, size_t tables)
{
    const uint8_t *const fields[] = {originator, source, group};
    const size_t sizes[] = {originator_len, source_len, group_len};
    uint32_t hash = 2166136261u;
    size_t field, i;
    for (field = 0; field < 3; field++) {
        hash = (hash ^ (uint8_t)sizes[field]) * 16777619u;
        for (i = 0; i < sizes[field]; i++) hash = (hash ^ fields[field][i]) * 16777619u;
    }
    hash = (hash ^ (hash >> 16)) * 0x85EBCA6Bu;
    hash = (hash ^ (hash >> 13)) * 0xC2B2AE35u;
    hash = hash ^ (hash >> 16);
    return tables > 1 ? hash % tables : 0;
}

/* Tiers of a match, in the order in which they are tried; no tier if no route matches. */
enum {
    MVPN_NO_TIER = 0,
    MVPN_SOURCE_AND_GROUP = 1,
    MVPN_SOURCE_ANY_GROUP = 2, /* SSM groups only */
    MVPN_ANY_SOURCE_GROUP = 3, /* ASM groups only */
    MVPN_ANY_SOURCE_ANY_GROUP = 4
};

/* The name of a tier: the kind of its routes. */
static inline const char *
mvpn_tier_name(uint32_t tier)
{
    switch (tier) {
    case MVPN_NO_TIER: return "none";
    case MVPN_SOURCE_AND_GROUP: return "(C-S,C-G)";
    case MVPN_SOURCE_ANY_GROUP: return "(C-S,C-*)";
    case MVPN_ANY_SOURCE_GROUP: return "(C-*,C-G)";
    case MVPN_ANY_SOURCE_ANY_GROUP: return "(C-*,C-*)";
    default: return "unknown";
    }
}

/* What an install did. */
enum { MVPN_NEW = 1, MVPN_REPLACED = 2 };

typedef struct { uint32_t number, outcome; } mvpn_installed; /* MVPN_NEW or MVPN_REPLACED */

typedef struct {
    uint32_t number;
    uint32_t tier; /* 1 to 4; 0 if no route matches */
    uint32_t nlri_size, attribute_size;
} mvpn_matched;

/*
 * Makes an empty table in the lent memory, whatever it held: every octet is written. Refusals: FAMILY, TABLE (a length other than
 * MVPN_TABLE_SIZE of 0 to 500).
 */
uint32_t mvpn_make(uint16_t afi, uint8_t *table, size_t table_len);

/*
 * Installs an S-PMSI A-D route with its attribute. A route that is already in the table gets this attribute, even in a full table,
 * and loses its mark, even if it had this attribute before. Refusals: TABLE, then those of reading an NLRI under the table's AFI
 * (LENGTH for octets after it, GROUP), KIND, those of reading an attribute, LABEL, ROOM. A refusal leaves the attribute and the
 * mark that the route had: a daemon that treats a bad update as a withdrawal must withdraw the route itself.
 */
mvpn_installed mvpn_install(uint8_t *table, size_t table_len, const uint8_t *nlri, size_t nlri_len,
                            const uint8_t *attribute, size_t attribute_len);

/*
 * Removes the route with this NLRI from the table, marked or not; its place can be used again. Refusals: TABLE, then those of
 * reading an NLRI under the table's AFI (LENGTH for octets after it, GROUP), KIND, ABSENT.
 */
uint32_t mvpn_withdraw(uint8_t *table, size_t table_len, const uint8_t *nlri, size_t nlri_len);

/*
 * Graceful restart (RFC 4724, section 4.2): while the session that carries a router's routes is down, they stay in the table,
 * marked as stale, and are matched as before.
 *   - When the session is lost, call mvpn_mark for each originator whose routes came over it, once each. A route that is already
 *     marked has not been advertised again since the previous loss, and is removed; so a second mark for the same loss would remove
 *     them all.
 *   - When a route is advertised again, mvpn_install removes its mark. A withdrawn route is removed, marked or not.
 *   - When End-of-RIB of the table's family comes, when the peer's Restart Time or a timer of the daemon runs out, or when the
 *     session comes back without the family's forwarding state, call mvpn_sweep for each of these originators.
 * If routes were removed, the daemon matches again the flows of that router that have a route. For a table whose routes all come
 * over one session, these lines mark the routes of every originator if `lost`, else sweep them:
 *
 *     uint8_t nlri[MVPN_MATCH_OUTPUT], route[MVPN_MATCH_OUTPUT];
 *     mvpn_address originators[MVPN_MOST_PLACES];
 *     mvpn_following next;
 *     mvpn_restarted restarted;
 *     size_t count = 0, size = 0, i;
 *     for (;;) {
 *         next = mvpn_next(table, table_len, nlri, size,
 *                          route, sizeof route);
 *         if (next.nlri_size == 0) break;
 *         size = next.nlri_size;
 *         memcpy(nlri, route, size);
 *         originators[count] =
 *             mvpn_nlri_read(afi, nlri, size).nlri.originator;
 *         i = 0;
 *         while (memcmp(&originators[i], &originators[count],
 *                       sizeof originators[i]) != 0)
 *             i++;
 *         if (i == count) count++;
 *     }
 *     if (next.number != MVPN_DONE) table_refused(next.number);
 *     for (i = 0; i < count; i++) {
 *         restarted = (lost ? mvpn_mark : mvpn_sweep)(
 *             table, table_len,
 *             originators[i].octets, originators[i].size);
 *         if (restarted.gone > 0) match_anew(&originators[i]);
 *     }
 *
 * A mark knows originators, not sessions. If one session carries the routes of several originators, as a route reflector's does,
 * each of them is marked. If the routes of one originator come over two sessions, a mark cannot tell over which of them a route
 * came. So, after the mark for the lost session, the daemon installs again the routes that it has from the other one; a sweep then
 * removes what it has from neither. Before a mark for the loss of the other session, it installs again the marked routes that are
 * to stay.
 */
typedef struct { uint32_t number, gone; } mvpn_restarted; /* how many routes were removed */

/*
 * Marks as stale the routes whose originator equals `router` in size and octets. Those of them that are already marked are removed,
 * and their places can be used again. For a router without routes the answer is DONE, with 0 removed. Refusals: TABLE, FLOW (a
 * router address not of 4 or 16 octets).
 */
mvpn_restarted mvpn_mark(uint8_t *table, size_t table_len, const uint8_t *router, size_t router_len);

/*
 * Removes the routes that are still marked and whose originator equals `router` in size and octets; their places can be used again.
 * For a router without such routes the answer is DONE, with 0 removed. Refusals: TABLE, FLOW (a router address not of 4 or 16
 * octets).
 */
mvpn_restarted mvpn_sweep(uint8_t *table, size_t table_len, const uint8_t *router, size_t router_len);

/*
 * Finds the route that the flow (source, group) takes (RFC 6625, section 3). The candidates are the routes whose originator equals
 * `router` in size and octets, and whose tunnel type is not 0. `router` is our own router for sending, the upstream PE for
 * receiving. A route of tunnel type 0 asks for tracking and names no tunnel: it is installed, replaced and withdrawn like others,
 * but passed over here (RFC 8556, section 4.1). A stale route is matched like any other, here and by the calls below. Refusals:
 * TABLE, RANGE and SHORT for the prefixes, FLOW, SPACE (an output under MVPN_MATCH_OUTPUT octets, even if the answer would fit or
 * nothing matches).
 *
 * The lowest tier that has a candidate wins. SSM and ASM are what mvpn_group_class gives with these prefixes and the table's AFI:
 *   1  source and group both equal
 *   2  source equal, group wildcard; for an SSM group
 *   3  source wildcard, group equal; for an ASM group
 *   4  both wildcard
 * Ties go to the lowest route distinguisher, compared as eight octets. If that route has tunnel type 0, the next one of its tier is
 * taken, before a later tier.
 *
 * The NLRI is written at the front of the output and the attribute straight after it; octets past them are untouched. No place
 * number is given. If no route matches, the answer is DONE with tier 0 and both sizes 0, and the output is untouched.
 */
mvpn_matched mvpn_match(const uint8_t *table, size_t table_len, const uint8_t *prefixes, size_t prefixes_len,
                        const uint8_t *router, size_t router_len, const uint8_t *source, size_t source_len,
                        const uint8_t *group, size_t group_len, uint8_t *output, size_t output_len);

/* Why a tier was taken, or was not. */
enum {
    MVPN_TAKEN = 1,             /* the route of the answer is of this tier */
    MVPN_NO_SUCH_ROUTE = 2,     /* the group's class allows this tier, but none of its routes may be taken: this router has
                                   none, or each has tunnel type 0 */
    MVPN_WRONG_GROUP_CLASS = 3, /* the group's class forbids this tier: tier 2 is for SSM groups, tier 3 for ASM groups */
    MVPN_EARLIER_TIER_WON = 4   /* an earlier tier was taken */
};

/* The name of a reason; 0, which a refused call gives, is "none". */
static inline const char *
mvpn_reason_name(uint32_t reason)
{
    switch (reason) {
    case 0: return "none";
    case MVPN_TAKEN: return "taken";
    case MVPN_NO_SUCH_ROUTE: return "no such route";
    case MVPN_WRONG_GROUP_CLASS: return "wrong group class";
    case MVPN_EARLIER_TIER_WON: return "an earlier tier won";
    default: return "unknown";
    }
}

typedef struct {
    mvpn_matched matched; /* the match's whole answer */
    uint32_t reasons[4];  /* for tiers 1 to 4 in order; 0 on a refusal */
} mvpn_explained;

/*
 * Finds the route that a flow takes, and says why. Its arguments, refusals, answer and output are those of mvpn_match, and each
 * tier, 1 to 4 in order, has a reason. Every tier after the one taken has MVPN_EARLIER_TIER_WON, whatever its class and routes. Any
 * other tier that is not taken has MVPN_WRONG_GROUP_CLASS if that applies, else MVPN_NO_SUCH_ROUTE.
 */
mvpn_explained mvpn_explain(const uint8_t *table, size_t table_len, const uint8_t *prefixes, size_t prefixes_len,
                            const uint8_t *router, size_t router_len, const uint8_t *source, size_t source_len,
                            const uint8_t *group, size_t group_len, uint8_t *output, size_t output_len);

/* The most items of each list for a shared tree. */
enum { MVPN_MOST_ITEMS = 256 };

/* What the daemon knows about a shared tree (C-*,C-G) and the PE asked about (RFC 6625, section 3.2.2). Each is 0 for no, and any
 * other number for yes. */
typedef struct {
    uint32_t upstream;             /* the PE is the upstream PE for the C-RP of the group */
    uint32_t bidirectional;        /* the group is a BIDIR-PIM group */
    uint32_t source_active_unused; /* Source Active A-D routes are not being used */
} mvpn_tree_facts;

/*
 * Finds the route that a shared tree (C-*,C-G) takes (RFC 6625, section 3.2.2). The candidates are the routes whose originator
 * equals `router`, the PE asked about, in size and octets, and whose tunnel type is not 0. For an ASM group a candidate is eligible
 * exactly when one of these holds:
 *   - facts.upstream;
 *   - a Source Active route of the list is for this group and was originated by this PE, and no state of the list has its source
 *     and its group;
 *   - facts.bidirectional;
 *   - facts.source_active_unused.
 * The daemon must say that Source Active routes are not being used; an empty list does not imply it.
 *
 * `source_actives` is a list of at most 256 items of two fields: the originator (4 or 16 octets) and the NLRI of a Source Active
 * A-D route. `states` is a list of at most 256 items of two fields: source and group of a (C-S,C-G) state, each of the family's
 * size.
 *
 * Refusals: TABLE; RANGE and SHORT for the prefixes; LONG (a count over 256 in either of these two lists); SHORT (either of them
 * ends before its items do); FLOW (`router` or an originator not of 4 or 16 octets, a state's source or group not of the family's
 * size, `group` not multicast or not of the family's size; only `group` must be multicast); then, for each Source Active route in
 * turn, those of reading an NLRI under the table's AFI (LENGTH for octets after it, GROUP) and KIND (not type 5); SPACE (an output
 * under MVPN_MATCH_OUTPUT octets, even if nothing matches).
 *
 * The answer and the output are like those of a match: tier 3 with an eligible route of a wildcard source and this group, else tier
 * 4 with an eligible route of both wildcards, else tier 0. Ties go to the lowest route distinguisher. An SSM group gets tier 0,
 * whatever the facts and lists say.
 */
mvpn_matched mvpn_match_shared(const uint8_t *table, size_t table_len, const uint8_t *prefixes, size_t prefixes_len,
                               const uint8_t *router, size_t router_len, const uint8_t *group, size_t group_len,
                               mvpn_tree_facts facts, const uint8_t *source_actives, size_t source_actives_len,
                               const uint8_t *states, size_t states_len, uint8_t *output, size_t output_len);

/* The octets of a bit string, and the most Leaf A-D routes that a call takes. */
enum { MVPN_BIER_STRING = 32, MVPN_MOST_LEAVES = 1024 };

typedef struct { uint32_t number, routers; } mvpn_egress; /* how many egress routers are in the string, one for each BFR-id */

/*
 * Makes the bit string, for one Set Identifier, of the egress routers that must get the BIER packet of a matched route: those that
 * have sent a Leaf A-D route for it (RFC 8556, section 4.1). The route is given by its NLRI and its attribute, as a match writes
 * them, and need not be in a table. `leaves` is a list of at most 1,024 items of two fields: the NLRI of a Leaf A-D route and its
 * PMSI Tunnel attribute.
 *
 * A Leaf counts exactly when
 *   - its key equals the route's NLRI, octet by octet,
 *   - its tunnel is BIER in the route's sub-domain,
 *   - and its BFR-id is not 0.
 * Its label may be 0, as RFC 8556 says; flags, BFR-prefix and originator make no difference.
 *
 * By RFC 8279 a BFR-id is in the set (id - 1) / 256, at the position (id - 1) % 256 + 1. Position 1 is the lowest bit of the last
 * of the 32 octets, position 256 the highest bit of the first. A bit is set exactly when the BFR-id of a Leaf that counts is in
 * this set, at that position; several Leaves with one BFR-id are one egress router. All 32 octets are written at the front of the
 * output, as zeros if no Leaf counts; octets past them are untouched.
 *
 * Refusals: as for install, those of reading an NLRI (FAMILY first; LENGTH for octets after it, GROUP), KIND (not type 3), those of
 * reading an attribute, LABEL; then TUNNEL (the route's tunnel is not BIER); LONG (a count over 1,024); SHORT (the list ends before
 * its items do); for each Leaf in turn, even one that does not count, those of reading an NLRI (LENGTH for octets after it, GROUP),
 * KIND (not type 4, so for type 0x44 too), those of reading an attribute; SPACE (an output under MVPN_BIER_STRING octets).
 *
 * A packet is sent once for each set that has egress routers, so a caller asks for the sets that the sub-domain uses, one after
 * another. Leaf A-D routes that answer the flag LIR-pF (RFC 8534) have keys other than the route's NLRI, and do not count.
 */
mvpn_egress mvpn_bier_string(uint16_t afi, const uint8_t *nlri, size_t nlri_len, const uint8_t *attribute, size_t attribute_len,
                             uint8_t set, const uint8_t *leaves, size_t leaves_len, uint8_t *output, size_t output_len);

typedef struct {
    uint32_t number;
    uint32_t nlri_size, attribute_size; /* 0: no route follows */
    uint32_t stale;                     /* 1: the route is marked as stale; else 0 */
} mvpn_following;

/*
 * Gives the route that follows an NLRI in the table, in the order of NLRIs, octet by octet. After no octets that is the first
 * route; after the last there is none. The order is by NLRI and not by place, so a route that comes or goes between two calls
 * shifts no other. `nlri` may be any octets, and need not be in the table. Refusals: TABLE, SPACE (an output under
 * MVPN_MATCH_OUTPUT octets, even if no route follows).
 *
 * The NLRI is written at the front of the output and the attribute straight after it, as by a match; octets past them are
 * untouched. If no route follows, the answer is DONE with the other fields 0, and the output is untouched.
 * The loop that lists a table:
 *
 *     uint8_t nlri[MVPN_MATCH_OUTPUT], route[MVPN_MATCH_OUTPUT];
 *     mvpn_following next;
 *     size_t size = 0;
 *     for (;;) {
 *         next = mvpn_next(table, table_len, nlri, size,
 *                          route, sizeof route);
 *         if (next.nlri_size == 0) break;
 *         show_route(route, next.nlri_size,
 *                    route + next.nlri_size, next.attribute_size);
 *         size = next.nlri_size;
 *         memcpy(nlri, route, size);
 *     }
 *     if (next.number != MVPN_DONE) table_refused(next.number);
 */
mvpn_following mvpn_next(const uint8_t *table, size_t table_len, const uint8_t *nlri, size_t nlri_len,
                         uint8_t *output, size_t output_len);

typedef struct {
    uint32_t number, afi, places, routes;
} mvpn_table_facts;

/* What a table says about itself: its AFI, its places, and how many routes are in them. Refusals: TABLE. */
mvpn_table_facts mvpn_table_info(const uint8_t *table, size_t table_len);

/*
 * A plan is the S-PMSI A-D routes that one originator advertises with one route distinguisher, so that each of up to 64 flows takes
 * the tunnel wanted for it. A route with wildcards serves many flows, so few routes are enough.
 *
 * `flows` is a list of at most 64 items of three fields: source and group, each of the family's size, and the PMSI Tunnel attribute
 * wanted, whose tunnel type is not 0. A flow may be listed again with the same attribute.
 *
 * Routes are proposed as table places, MVPN_PLACE octets each, one straight after another, in any order. A place has the sizes of
 * the NLRI and of the attribute, 1 octet each, the NLRI, the attribute, zeros, and in its last octet the mark. The places of a full
 * table are the octets after its header.
 *
 * Refusals of both calls, each tried over all flows before the next: FAMILY; RANGE and SHORT for the prefixes; LONG (a count of
 * flows over 64; for mvpn_judge also places over 8,192 octets); SHORT (the list of flows ends before its items do); FLOW (an
 * originator not of 4 or 16 octets, a distinguisher not of 8, a source or group not of the family's size, a group not multicast);
 * those of reading an attribute, where the first flow whose attribute is refused decides; LABEL (BIER with label 0); TUNNEL (tunnel
 * type 0); CONFLICT; and, for mvpn_plan alone, SPACE.
 */

/* The most flows of a plan, the most octets of the places proposed for one, and the octets of the longest list of flows that is
 * accepted, which is one for IPv6. */
enum { MVPN_MOST_FLOWS = 64, MVPN_LONGEST_PROPOSAL = 8192, MVPN_LONGEST_FLOWS = 6530 };

/*
 * Appends a flow, with the attribute wanted for it, to a list that has `size` octets, and gives the octets that it has then. It
 * gives 0 if mvpn_list_field gives 0 for one of the three fields. The call that takes the list checks the flow.
 */
static inline size_t
mvpn_list_flow(uint8_t *list, size_t space, size_t size, const uint8_t *source, size_t source_len,
               const uint8_t *group, size_t group_len, const uint8_t *attribute, size_t attribute_len)
{
    size = mvpn_list_field(list, space, size, source, source_len);
    size = mvpn_list_field(list, space, size, group, group_len);
    return mvpn_list_field(list, space, size, attribute, attribute_len);
}

typedef struct { uint32_t number, accepted; } mvpn_judged; /* 1: accepted; 0: not */

/*
 * Says whether the proposed routes, whoever proposes them, are a plan for these flows. They are accepted exactly when
 *   - `places` is whole places, none or more, and each is one that a sound table of this AFI could have: a route that install
 *     accepts, zeros after it, and a mark of 0 or 1. A place of zeros is not accepted;
 *   - every route has this originator, in size and octets, and this distinguisher;
 *   - no two have the same NLRI;
 *   - for each flow, a match among these routes alone, for the originator and with these prefixes, takes a route whose attribute is
 *     the one wanted, octet for octet.
 * A route that no flow takes does no harm, and neither does one of tunnel type 0, which no flow takes. If there are no flows, a
 * proposal of no routes is accepted too. The refusals are those above. A bad proposal is not refused: the answer is DONE and 0.
 */
mvpn_judged mvpn_judge(uint16_t afi, const uint8_t *prefixes, size_t prefixes_len,
                       const uint8_t *originator, size_t originator_len,
                       const uint8_t *distinguisher, size_t distinguisher_len,
                       const uint8_t *flows, size_t flows_len, const uint8_t *places, size_t places_len);

typedef struct { uint32_t number, routes; } mvpn_planned; /* how many routes are proposed, a place of MVPN_PLACE octets each */

/*
 * Proposes routes for these flows. mvpn_judge, with the same arguments, accepts what it proposes. The routes are few: none for no
 * flows, else at most one more than the number of different flows that do not want the commonest attribute. Different flows differ
 * in source or group, and the commonest attribute is the one that the largest number of them want. If several tie, the library
 * chooses one of them. It also chooses the order of the places, and makes the same choices for the same arguments.
 *
 * The places are written at the front of the output, with marks of 0; octets past them are untouched. The refusals are those above.
 * SPACE is an output under MVPN_PLACE octets for each listed flow, however few routes are proposed; a flow that is listed again
 * counts again. An output of MVPN_LONGEST_PROPOSAL octets is enough for every plan. mvpn(3) shows under "A plan for many flows" how
 * to take the routes from it.
 */
mvpn_planned mvpn_plan(uint16_t afi, const uint8_t *prefixes, size_t prefixes_len,
                       const uint8_t *originator, size_t originator_len,
                       const uint8_t *distinguisher, size_t distinguisher_len,
                       const uint8_t *flows, size_t flows_len, uint8_t *output, size_t output_len);

/* Why a salvage drops a place. */
enum { MVPN_BAD_PLACE = 1, MVPN_REPEATED_NLRI = 2 };

/* The octets that a salvage lists for each dropped place: its number (16 bits, from 0), and the reason. */
enum { MVPN_DROPPED_PLACE = 3 };

typedef struct { uint32_t number, kept, dropped; } mvpn_salvaged; /* how many places were kept, and how many dropped */

/*
 * Makes a sound table from what is still good in damaged memory, for example a table that is read back from flash after a fault.
 * The header of `damaged`, with its AFI and its count, is ignored, so the caller must know the AFI. Every place is examined. It is
 * good if a sound table of this AFI could have it: a route that install accepts, zeros after it, and a mark of 0 or 1.
 *   - A good place is kept, with its mark, unless a place kept before it has the same NLRI; then it is dropped with
 *     MVPN_REPEATED_NLRI.
 *   - A place of zeros is passed over: it is neither kept nor dropped.
 *   - Any other place is dropped with MVPN_BAD_PLACE, whatever its NLRI.
 * `table` is written whole, and is the sound table of the routes kept. The dropped places are listed at the front of `dropped`, in
 * their order, MVPN_DROPPED_PLACE octets each; octets past these are untouched. A sound table of this AFI comes back unchanged, and
 * nothing is dropped.
 *
 * Refusals: FAMILY, TABLE (a `damaged_len` other than MVPN_TABLE_SIZE of 0 to 500), SPACE (a `table_len` other than `damaged_len`,
 * or a `dropped_len` under MVPN_DROPPED_PLACE for each place of `damaged`, however few are dropped).
 *
 * A fault may also turn a route into another good one, or a place into zeros; this cannot be noticed. mvpn(3) says under "After a
 * fault" what a daemon does.
 */
mvpn_salvaged mvpn_salvage(uint16_t afi, const uint8_t *damaged, size_t damaged_len, uint8_t *table, size_t table_len,
                           uint8_t *dropped, size_t dropped_len);

#ifdef __cplusplus
}
#endif

#endif
