#include "runs.h"

#include "fields.h"
#include "print.h"
#include "restart.h"
#include "routes.h"

#include <stdio.h>
#include <string.h>

/* NLRIs of a run, each where it stands in the run, kept until it is known that nothing of the run is damaged. Those that the library
 * steps over are not among them. */
typedef struct {
    uint8_t octets[BGP_LONGEST_MESSAGE];
    uint16_t offsets[BGP_LONGEST_MESSAGE / MVPN_NLRI_HEADER];
    size_t count;
} kept_nlris;

static void keep_nlri(kept_nlris *kept, size_t offset, octets nlri)
{
    memcpy(kept->octets + offset, nlri.at, nlri.size);
    kept->offsets[kept->count++] = (uint16_t)offset;
}

/* Takes a piece off the front of what remains of a run; a piece of no octets is its end. */
static octets next_piece(octets *run, size_t piece_size)
{
    octets piece = { run->at, run->size < piece_size ? run->size : piece_size };
    *run = octets_behind(*run, piece.size);
    return piece;
}

/* Reads a run in pieces, and keeps its NLRIs: the loop of mvpn.h. An NLRI of a route type that the library does not know is no
 * damage (RFC 7606, section 5.4), nor is a Source Active A-D route for an SSM group, which is to be discarded (RFC 6514): in this mode
 * the library steps over both and counts them as skipped. So no such route is kept, or lent to a match for a shared tree. An NLRI that
 * is whole ends where the octets taken so far end. */
static mvpn_walked read_run(const route_run *routes, size_t piece_size, kept_nlris *kept)
{
    uint8_t unfinished[MVPN_UNFINISHED];
    mvpn_pieces pieces = mvpn_pieces_start(routes->afi, MVPN_SKIP);
    octets run = routes->run, piece;
    size_t taken = 0;
    while ((piece = next_piece(&run, piece_size)).size > 0)
        while (piece.size > 0) {
            mvpn_fed fed = mvpn_pieces_feed(pieces, unfinished, piece.at, piece.size);
            taken += fed.taken;
            if (fed.size > 0)
                keep_nlri(kept, taken - fed.size, (octets){ unfinished, fed.size });
            pieces = fed.pieces;
            piece = octets_behind(piece, fed.taken);
        }
    return mvpn_pieces_finish(pieces).walked;
}

static void use_nlri(customer_vrf *vrf, run_use use, const route_run *routes, octets nlri, octets tunnel)
{
    print_nlri(routes->afi, nlri);
    printf(": ");
    if (!is_used(nlri.at[0])) {
        vrf->other++;
        printf("not used");
    } else if (use == ANNOUNCE)
        announce_nlri(vrf, routes, nlri, tunnel);
    else if (use == WITHDRAW)
        withdraw_nlri(vrf, routes->afi, nlri);
    else
        treat_as_withdrawn(vrf, routes->afi, nlri);
}

/* Why an NLRI was skipped is the number that reading it alone gives. */
static void print_skipped(uint16_t afi, octets nlri)
{
    printf("skipped, ");
    print_number(mvpn_nlri_read(afi, nlri.at, nlri.size).number);
}

/* Of a run that was read to its end, what was not kept was skipped. */
static void use_nlris(customer_vrf *vrf, run_use use, const route_run *routes, const kept_nlris *kept, octets tunnel)
{
    size_t used = 0, offset = 0;
    while (offset < routes->run.size) {
        octets nlri = front_nlri(octets_behind(routes->run, offset));
        printf("    octet %zu: ", offset);
        if (used < kept->count && kept->offsets[used] == offset)
            use_nlri(vrf, use, routes, (octets){ kept->octets + kept->offsets[used++], nlri.size }, tunnel);
        else
            print_skipped(routes->afi, nlri);
        printf("\n");
        offset += nlri.size;
    }
}

static void print_walked(mvpn_walked walked)
{
    printf("%u NLRI%s", (unsigned)walked.count, walked.count == 1 ? "" : "s");
    if (walked.skipped > 0)
        printf(", and skipped %u", (unsigned)walked.skipped);
    printf("\n");
}

static void print_damaged(const route_run *routes, mvpn_walked walked)
{
    printf("nothing of it is used\n    octet %u: damaged NLRI, ", (unsigned)walked.offset);
    print_number(walked.number);
    print_refused("NLRI", front_nlri(octets_behind(routes->run, walked.offset)));
    printf("\n");
}

/* The whole run is read before any of it is used. Where an NLRI is damaged, nobody can tell which routes were meant, so nothing of that
 * run is installed or withdrawn, not even the NLRIs before the damage. RFC 7606, section 3, then asks to reset the session or to give up
 * the family, and it is the family that we give up: the other one is not concerned. */
void use_run(customer_vrf *vrf, run_use use, const route_run *routes, octets tunnel)
{
    kept_nlris kept;
    kept.count = 0;
    printf("  %s, %s: ", use == WITHDRAW ? "MP_UNREACH_NLRI" : "MP_REACH_NLRI", family_name(routes->afi));
    if (family_of(vrf, routes->afi)->is_disabled) {
        printf("ignored, the family is disabled\n");
        return;
    }
    mvpn_walked walked = read_run(routes, vrf->piece_size, &kept);
    if (walked.number == MVPN_DONE) {
        vrf->skipped += walked.skipped;
        print_walked(walked);
        use_nlris(vrf, use, routes, &kept, tunnel);
    } else {
        vrf->damaged_runs++;
        print_damaged(routes, walked);
        disable_family(vrf, routes->afi);
    }
}
