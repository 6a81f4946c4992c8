/*
 * How much stack each call of mvpn.h takes, in octets: its frames, its return address, and the arguments and the answer
 * that stand on the stack. Each call runs on a painted stack of its own; the deepest octet that lost its paint counts, and
 * of several runs of a call the deepest.
 */
#define _XOPEN_SOURCE 700
#include "checks.h"

#include <stdbool.h>
#include <ucontext.h>

/* What mvpn.h promises: 2 KiB. */
enum { MOST_OCTETS = 2048 };

/* ---- octets for the calls; AFI 2, every address of 16 octets, so that no field is short */

#define RD 0, 0, 0, 100, 0, 0, 0, 7
#define SOURCE 0x20, 0x01, 0x0D, 0xB8, 0, 0, 0, 0, 0, 0, 0, 0, 0, 0, 0, 1
#define GROUP 0xFF, 0x3E, 0, 0, 0, 0, 0, 0, 0, 0, 0, 0, 0, 0, 0, 1
#define ASM_GROUP 0xFF, 0x0E, 0, 0, 0, 0, 0, 0, 0, 0, 0, 0, 0, 0, 0, 1
#define ORIGINATOR 0x20, 0x01, 0x0D, 0xB8, 0, 0, 0, 0, 0, 0, 0, 0, 0, 0, 0, 2
#define S_PMSI 3, 58, RD, 128, SOURCE, 128, GROUP, ORIGINATOR

static const uint8_t source[] = { SOURCE }, group[] = { GROUP }, originator[] = { ORIGINATOR };
static const uint8_t intra[] = { 1, 24, RD, ORIGINATOR }, inter[] = { 2, 12, RD, 0, 0, 0, 1 }, s_pmsi[] = { S_PMSI };
static const uint8_t leaf[] = { 4, 76, S_PMSI, ORIGINATOR };
static const uint8_t active[] = { 5, 42, RD, 128, SOURCE, 128, ASM_GROUP }, discarded[] = { 5, 42, RD, 128, SOURCE, 128, GROUP };
static const uint8_t join[] = { 7, 46, RD, 0, 0, 0, 1, 128, SOURCE, 128, GROUP };
static const uint8_t run[] = { 4, 76, S_PMSI, ORIGINATOR, S_PMSI, 1, 24, RD, ORIGINATOR };

/* FEC elements four deep, every root of 16 octets; the innermost has an opaque value of one octet, its type. */
#define FEC_HEAD 6, 0, 2, 16, ORIGINATOR, 0
#define HELD(size) 8, 0, size, RD
#define FECS(innermost_opaque) \
    FEC_HEAD, 100, HELD(97), FEC_HEAD, 67, HELD(64), FEC_HEAD, 34, HELD(31), FEC_HEAD, 1, innermost_opaque

static const uint8_t fecs[] = { FECS(9) }, too_deep[] = { 0x47, 12 + sizeof fecs, RD, 0, 0, 0, 1, FECS(7) };
static const uint8_t mldp_s_pmsi[] = { 0x43, 8 + sizeof fecs + 16, RD, FECS(9), ORIGINATOR };
static const uint8_t mldp_leaf[] = { 0x44, sizeof mldp_s_pmsi + 16, 0x43, 8 + sizeof fecs + 16, RD, FECS(9), ORIGINATOR, ORIGINATOR };
static const uint8_t mldp_join[] = { 0x47, 12 + sizeof fecs, RD, 0, 0, 0, 1, FECS(9) };

static const uint8_t mldp[] = { 0, 2, 0, 0, 0, 6, 0, 2, 16, ORIGINATOR, 0, 3, 1, 2, 3 };
static const uint8_t bier[] = { 0, 11, 0, 0, 16, 1, 0, 2, ORIGINATOR }, pim[] = { 0, 3, 0, 0, 0, SOURCE, GROUP };

/* An unknown route type, and one between two NLRIs. */
#define UNKNOWN 9, 3, 1, 2, 3

static const uint8_t unknown[] = { UNKNOWN }, mixed[] = { 1, 24, RD, ORIGINATOR, UNKNOWN, S_PMSI };

static uint8_t output[MVPN_MATCH_OUTPUT], unfinished[MVPN_UNFINISHED], written[MVPN_UNFINISHED];

/* What NLRI writing takes; a type lacks some of it. */
static mvpn_nlri fields = { .distinguisher = { { RD } }, .source = { { SOURCE }, 16 }, .group = { { GROUP }, 16 },
                            .originator = { { ORIGINATOR }, 16 }, .source_as = 1 };
static const mvpn_nlri active_fields = { .distinguisher = { { RD } }, .source = { { SOURCE }, 16 }, .group = { { ASM_GROUP }, 16 },
                                         .route_type = 5 };

/* ---- tables: every place taken; all but one; the one that a run works on */

static uint8_t full[MVPN_TABLE_SIZE(MVPN_MOST_PLACES)], roomy[sizeof full], table[sizeof full];

/* The first and the last NLRI of the full table, and one that it does not hold. */
static uint8_t first[sizeof s_pmsi], last[sizeof s_pmsi], absent[sizeof s_pmsi];

/* The NLRI whose RD ends in this number. */
static void number_nlri(uint8_t *nlri, unsigned number)
{
    memcpy(nlri, s_pmsi, sizeof s_pmsi);
    nlri[8] = (uint8_t)(number >> 8);
    nlri[9] = (uint8_t)number;
}

/* Routes from this number on, with attributes of several forms. */
static void fill(uint8_t *memory, unsigned from)
{
    static const struct { const uint8_t *octets; size_t size; } attributes[] = {
        { mldp, sizeof mldp }, { bier, sizeof bier }, { pim, sizeof pim },
    };
    mvpn_make(2, memory, sizeof full);
    for (unsigned i = from; i < MVPN_MOST_PLACES; i++) {
        uint8_t nlri[sizeof s_pmsi];
        number_nlri(nlri, i);
        mvpn_install(memory, sizeof full, nlri, sizeof nlri, attributes[i % 3].octets, attributes[i % 3].size);
    }
}

/* ---- the runs; each tells whether the answer is the one that it is meant to measure */

static bool as_expected;

#define RUN(name, condition) static void name(void) { as_expected = (condition); }

RUN(nothing, true)

RUN(give_version, mvpn_version() == MVPN_VERSION_NUMBER)

#define READS(nlri) mvpn_nlri_read(2, nlri, sizeof nlri).number == MVPN_DONE
RUN(read_intra, READS(intra))
RUN(read_inter, READS(inter))
RUN(read_s_pmsi, READS(s_pmsi))
RUN(read_leaf, READS(leaf))
RUN(read_active, READS(active))
RUN(read_discarded, mvpn_nlri_read(2, discarded, sizeof discarded).number == MVPN_GROUP)
RUN(read_join, READS(join))
RUN(read_mldp_s_pmsi, READS(mldp_s_pmsi))
RUN(read_mldp_leaf, READS(mldp_leaf))
RUN(read_mldp_join, READS(mldp_join))
RUN(read_too_deep, mvpn_nlri_read(2, too_deep, sizeof too_deep).number == MVPN_DEEP)

#define WRITES_WITH(nlri, key) \
    (fields.route_type = nlri[0], \
     mvpn_nlri_write(2, fields, key, sizeof key, fecs, sizeof fecs, written, sizeof written).size == sizeof nlri)
#define WRITES(nlri) WRITES_WITH(nlri, s_pmsi)
RUN(write_intra, WRITES(intra))
RUN(write_inter, WRITES(inter))
RUN(write_s_pmsi, WRITES(s_pmsi))
RUN(write_leaf, WRITES(leaf))
RUN(write_active, mvpn_nlri_write(2, active_fields, s_pmsi, sizeof s_pmsi, fecs, sizeof fecs, written, sizeof written).size ==
                      sizeof active)
RUN(write_discarded, (fields.route_type = 5,
                      mvpn_nlri_write(2, fields, s_pmsi, sizeof s_pmsi, fecs, sizeof fecs, written, sizeof written).number ==
                          MVPN_GROUP))
RUN(write_join, WRITES(join))
RUN(write_mldp_s_pmsi, WRITES(mldp_s_pmsi))
RUN(write_mldp_leaf, WRITES_WITH(mldp_leaf, mldp_s_pmsi))
RUN(write_mldp_join, WRITES(mldp_join))

RUN(step_leaf, mvpn_step(2, run, sizeof run, 0).layout.key == sizeof s_pmsi)
RUN(step_s_pmsi, mvpn_step(2, run, sizeof run, sizeof leaf).layout.group == 16)
RUN(step_mldp_leaf, mvpn_step(2, mldp_leaf, sizeof mldp_leaf, 0).layout.key == sizeof mldp_s_pmsi)
RUN(step_mldp_join, mvpn_step(2, mldp_join, sizeof mldp_join, 0).layout.fec == sizeof fecs)
RUN(step_discarded, mvpn_step(2, discarded, sizeof discarded, 0).number == MVPN_GROUP)
RUN(walk_run, mvpn_walk(2, MVPN_SKIP, run, sizeof run).count == 3)
RUN(walk_skipping, mvpn_walk(2, MVPN_SKIP, mixed, sizeof mixed).skipped == 1)
RUN(walk_discarding, mvpn_walk(2, MVPN_SKIP, discarded, sizeof discarded).skipped == 1)
RUN(walk_mldp_leaf, mvpn_walk(2, MVPN_SKIP, mldp_leaf, sizeof mldp_leaf).count == 1)
RUN(walk_too_deep, mvpn_walk(2, MVPN_SKIP, too_deep, sizeof too_deep).number == MVPN_DEEP)
RUN(walk_stopping, mvpn_walk(2, MVPN_OLD, mixed, sizeof mixed).number == MVPN_TYPE)

RUN(start_pieces, mvpn_pieces_start(2, MVPN_SKIP).walked.number == MVPN_DONE)
RUN(start_old, mvpn_pieces_start(2, MVPN_OLD).walked.number == MVPN_DONE)
RUN(start_no_family, mvpn_pieces_start(3, MVPN_SKIP).walked.number == MVPN_FAMILY)

/* Readers just started, of each mode, and one that has read a part of an NLRI. */
static mvpn_pieces started, started_old, inside;

static void read_part(void)
{
    started = mvpn_pieces_start(2, MVPN_SKIP);
    started_old = mvpn_pieces_start(2, MVPN_OLD);
    inside = mvpn_pieces_feed(started, unfinished, leaf, 20).pieces;
}

static mvpn_fed fed;

#define FEEDS(reader, octets, len, wanted_taken, wanted_size) \
    (fed = mvpn_pieces_feed(reader, unfinished, octets, len), fed.taken == (wanted_taken) && fed.size == (wanted_size))
RUN(feed_whole, FEEDS(started, run, sizeof run, sizeof leaf, sizeof leaf))
RUN(feed_part, FEEDS(started, leaf, 20, 20, 0))
RUN(feed_skipped, FEEDS(started, unknown, sizeof unknown, sizeof unknown, 0))
RUN(feed_stopped, FEEDS(started_old, unknown, sizeof unknown, sizeof unknown, 0))
RUN(feed_discarded, FEEDS(started, discarded, sizeof discarded, sizeof discarded, 0))
RUN(feed_mldp_leaf, FEEDS(started, mldp_leaf, sizeof mldp_leaf, sizeof mldp_leaf, sizeof mldp_leaf))
RUN(feed_too_deep, FEEDS(started, too_deep, sizeof too_deep, sizeof too_deep, 0))
RUN(feed_long, FEEDS(started, full, sizeof full, sizeof full, 0))
RUN(finish_whole, mvpn_pieces_finish(started).walked.number == MVPN_DONE)
RUN(finish_part, mvpn_pieces_finish(inside).walked.number == MVPN_SHORT)

/* ---- prefixes: the most, of which the last alone holds the SSM groups; the same with a bit set past the last one's length */

static uint8_t prefixes[2 + 8 * (2 + 1 + 16)], bad_prefixes[sizeof prefixes];

static void fill_prefixes(void)
{
    uint8_t field[1 + 16] = { 127, 0xFF, 0x3D };
    size_t size = mvpn_list_start(prefixes, sizeof prefixes, 8);
    for (size_t i = 1; i < 8; i++)
        size = mvpn_list_field(prefixes, sizeof prefixes, size, field, sizeof field);
    field[0] = 15;
    field[2] = 0x3E;
    mvpn_list_field(prefixes, sizeof prefixes, size, field, sizeof field);
    memcpy(bad_prefixes, prefixes, sizeof bad_prefixes);
    bad_prefixes[sizeof bad_prefixes - 1] = 1;
}

#define NO_PREFIXES mvpn_no_items, sizeof mvpn_no_items
#define PREFIXES prefixes, sizeof prefixes
#define BAD_PREFIXES bad_prefixes, sizeof bad_prefixes

RUN(class_group, mvpn_group_class(2, NO_PREFIXES, group, sizeof group).group_class == MVPN_SSM)
RUN(class_by_prefixes, mvpn_group_class(2, PREFIXES, group, sizeof group).group_class == MVPN_SSM)
RUN(class_by_bad_prefixes, mvpn_group_class(2, BAD_PREFIXES, group, sizeof group).number == MVPN_RANGE)

#define READS_ATTRIBUTE(octets) mvpn_attribute_read(octets, sizeof octets).number == MVPN_DONE
RUN(read_mldp, READS_ATTRIBUTE(mldp))
RUN(read_bier, READS_ATTRIBUTE(bier))
RUN(read_pim, READS_ATTRIBUTE(pim))

#define WRITES_ATTRIBUTE(octets) \
    mvpn_attribute_write(0, octets[1], octets[4], octets + 5, sizeof octets - 5, output, sizeof output).size == sizeof octets
RUN(write_mldp, WRITES_ATTRIBUTE(mldp))
RUN(write_bier, WRITES_ATTRIBUTE(bier))
RUN(write_pim, WRITES_ATTRIBUTE(pim))

RUN(make_table, mvpn_make(2, table, sizeof table) == MVPN_DONE)

#define INSTALL(nlri, attribute) mvpn_install(table, sizeof table, nlri, sizeof nlri, attribute, sizeof attribute)
RUN(install_first, INSTALL(first, mldp).outcome == MVPN_NEW)
RUN(install_last, INSTALL(last, bier).outcome == MVPN_REPLACED)
RUN(install_without_room, INSTALL(absent, pim).number == MVPN_ROOM)
RUN(install_leaf, INSTALL(leaf, mldp).number == MVPN_KIND)
RUN(install_mldp_leaf, INSTALL(mldp_leaf, mldp).number == MVPN_KIND)

#define WITHDRAW(nlri) mvpn_withdraw(table, sizeof table, nlri, sizeof nlri)
RUN(withdraw_first, WITHDRAW(first) == MVPN_DONE)
RUN(withdraw_last, WITHDRAW(last) == MVPN_DONE)
RUN(withdraw_absent, WITHDRAW(absent) == MVPN_ABSENT)
RUN(withdraw_leaf, WITHDRAW(leaf) == MVPN_KIND)
RUN(withdraw_mldp_leaf, WITHDRAW(mldp_leaf) == MVPN_KIND)

/* ---- restarts: a table whose every route is marked, and one whose every second route is */

static uint8_t stale[sizeof full], half_stale[sizeof full];

static void fill_stale(void)
{
    memcpy(stale, full, sizeof stale);
    mvpn_mark(stale, sizeof stale, originator, sizeof originator);
    memcpy(half_stale, stale, sizeof half_stale);
    for (size_t i = 1; i <= MVPN_MOST_PLACES; i += 2)
        half_stale[MVPN_TABLE_SIZE(i) - 1] = 0;
}

static mvpn_restarted restarted;

#define RESTARTS(call, router, wanted_number, wanted_gone) \
    (restarted = call(table, sizeof table, router, sizeof router), \
     restarted.number == (wanted_number) && restarted.gone == (wanted_gone))
RUN(mark_all, RESTARTS(mvpn_mark, originator, MVPN_DONE, 0))
RUN(mark_marked, RESTARTS(mvpn_mark, originator, MVPN_DONE, MVPN_MOST_PLACES))
RUN(mark_half, RESTARTS(mvpn_mark, originator, MVPN_DONE, MVPN_MOST_PLACES / 2))
RUN(mark_none, RESTARTS(mvpn_mark, source, MVPN_DONE, 0))
RUN(mark_nobody, RESTARTS(mvpn_mark, s_pmsi, MVPN_FLOW, 0))
RUN(sweep_all, RESTARTS(mvpn_sweep, originator, MVPN_DONE, MVPN_MOST_PLACES))
RUN(sweep_half, RESTARTS(mvpn_sweep, originator, MVPN_DONE, MVPN_MOST_PLACES / 2))
RUN(sweep_none, RESTARTS(mvpn_sweep, source, MVPN_DONE, 0))
RUN(sweep_nobody, RESTARTS(mvpn_sweep, s_pmsi, MVPN_FLOW, 0))

/* ---- matches */

static mvpn_matched matched;

#define MATCHES(given, router, wanted_number, wanted_tier) \
    (matched = mvpn_match(table, sizeof table, given, router, sizeof router, source, sizeof source, group, sizeof group, output, \
                          sizeof output), \
     matched.number == (wanted_number) && matched.tier == (wanted_tier))
RUN(match_found, MATCHES(NO_PREFIXES, originator, MVPN_DONE, 1))
RUN(match_none, MATCHES(NO_PREFIXES, source, MVPN_DONE, 0))
RUN(match_by_prefixes, MATCHES(PREFIXES, originator, MVPN_DONE, 1))
RUN(match_by_bad_prefixes, MATCHES(BAD_PREFIXES, originator, MVPN_RANGE, 0))

static mvpn_explained explained;

#define EXPLAINS(given, router, wanted_number, wanted_tier, first_reason) \
    (explained = mvpn_explain(table, sizeof table, given, router, sizeof router, source, sizeof source, group, sizeof group, \
                              output, sizeof output), \
     explained.matched.number == (wanted_number) && explained.matched.tier == (wanted_tier) && \
         explained.reasons[0] == (first_reason))
RUN(explain_found, EXPLAINS(NO_PREFIXES, originator, MVPN_DONE, 1, MVPN_TAKEN))
RUN(explain_none, EXPLAINS(NO_PREFIXES, source, MVPN_DONE, 0, MVPN_NO_SUCH_ROUTE))
RUN(explain_by_prefixes, EXPLAINS(PREFIXES, originator, MVPN_DONE, 1, MVPN_TAKEN))
RUN(explain_by_bad_prefixes, EXPLAINS(BAD_PREFIXES, originator, MVPN_RANGE, 0, 0))

static mvpn_following following;

#define FOLLOWS(nlri, nlri_len, wanted) \
    (following = mvpn_next(table, sizeof table, nlri, nlri_len, output, sizeof output), \
     following.number == MVPN_DONE && following.nlri_size == (wanted))
RUN(next_first, FOLLOWS(NULL, 0, sizeof first))
RUN(next_of_first, FOLLOWS(first, sizeof first, sizeof first))
RUN(next_of_absent, FOLLOWS(absent, sizeof absent, 0))
RUN(next_stale, FOLLOWS(first, sizeof first, sizeof first) && following.stale == 1)

RUN(info_of_table, mvpn_table_info(table, sizeof table).routes == MVPN_MOST_PLACES)
RUN(info_of_no_table, mvpn_table_info(table, sizeof table - 1).number == MVPN_TABLE)

/* ---- salvage: the same places in reverse order, all bad for the octet before the mark, all of one NLRI, and of the other family */

static uint8_t reversed[sizeof full], bad[sizeof full], repeated[sizeof full], salvaged_table[sizeof full];
static uint8_t dropped[MVPN_DROPPED_PLACE * MVPN_MOST_PLACES];

static void fill_damaged(void)
{
    memcpy(bad, full, sizeof bad);
    for (size_t i = 0; i < MVPN_MOST_PLACES; i++) {
        memcpy(reversed + MVPN_TABLE_SIZE(MVPN_MOST_PLACES - 1 - i), full + MVPN_TABLE_SIZE(i), MVPN_PLACE);
        memcpy(repeated + MVPN_TABLE_SIZE(i), full + MVPN_TABLE_SIZE(0), MVPN_PLACE);
        bad[MVPN_TABLE_SIZE(i + 1) - 2] = 1;
    }
}

static mvpn_salvaged salvaged;

#define SALVAGES(afi, dropped_len, wanted_number, wanted_kept, wanted_dropped) \
    (salvaged = mvpn_salvage(afi, table, sizeof table, salvaged_table, sizeof salvaged_table, dropped, dropped_len), \
     salvaged.number == (wanted_number) && salvaged.kept == (wanted_kept) && salvaged.dropped == (wanted_dropped))
RUN(salvage_all, SALVAGES(2, sizeof dropped, MVPN_DONE, MVPN_MOST_PLACES, 0))
RUN(salvage_none, SALVAGES(2, sizeof dropped, MVPN_DONE, 0, MVPN_MOST_PLACES))
RUN(salvage_one, SALVAGES(2, sizeof dropped, MVPN_DONE, 1, MVPN_MOST_PLACES - 1))
RUN(salvage_of_other_family, SALVAGES(1, sizeof dropped, MVPN_DONE, 0, MVPN_MOST_PLACES))
RUN(salvage_without_space, SALVAGES(2, sizeof dropped - 1, MVPN_SPACE, 0, 0))

/* ---- plans: the most flows, that want as many attributes or one, and a route for each; the same with the last place bad, and with the
 * first flow listed again with another attribute */

static uint8_t wanted[2 + 64 * (2 + 16 + 2 + 16 + 2 + sizeof pim)], equal[sizeof wanted], torn[sizeof wanted];
static uint8_t proposed[64 * MVPN_PLACE], bad_proposed[sizeof proposed], planned_places[sizeof proposed];

static void fill_plans(void)
{
    uint8_t from[16], attribute[sizeof pim], *place = proposed;
    size_t size = mvpn_list_start(wanted, sizeof wanted, MVPN_MOST_FLOWS), same_size = mvpn_list_start(equal, sizeof equal, MVPN_MOST_FLOWS);
    memcpy(from, source, sizeof from);
    memcpy(attribute, pim, sizeof attribute);
    for (unsigned i = 0; i < MVPN_MOST_FLOWS; i++, place += MVPN_PLACE) {
        from[15] = (uint8_t)i;
        attribute[0] = (uint8_t)i;
        size = mvpn_list_flow(wanted, sizeof wanted, size, from, sizeof from, group, sizeof group, attribute, sizeof attribute);
        same_size = mvpn_list_flow(equal, sizeof equal, same_size, from, sizeof from, group, sizeof group, pim, sizeof pim);
        place[0] = sizeof s_pmsi;
        place[1] = sizeof attribute;
        memcpy(place + 2, s_pmsi, sizeof s_pmsi);
        place[2 + 26] = (uint8_t)i; /* the last octet of the source */
        memcpy(place + 2 + sizeof s_pmsi, attribute, sizeof attribute);
    }
    memcpy(bad_proposed, proposed, sizeof bad_proposed);
    bad_proposed[sizeof bad_proposed - 1] = 2;
    memcpy(torn, wanted, sizeof torn);
    torn[sizeof torn - sizeof pim - 2 - 16 - 2 - 1] = 0; /* the last octet of the last source, which is now the first one's */
}

static const uint8_t rd[] = { RD };
static mvpn_judged judged;
static mvpn_planned planned;

#define JUDGES(given, list, list_len, places, wanted_number, wanted_accepted) \
    (judged = mvpn_judge(2, given, originator, sizeof originator, rd, sizeof rd, list, list_len, places, sizeof places), \
     judged.number == (wanted_number) && judged.accepted == (wanted_accepted))
RUN(judge_accepted, JUDGES(NO_PREFIXES, wanted, sizeof wanted, proposed, MVPN_DONE, 1))
RUN(judge_by_prefixes, JUDGES(PREFIXES, wanted, sizeof wanted, proposed, MVPN_DONE, 1))
RUN(judge_not_accepted, JUDGES(NO_PREFIXES, equal, sizeof equal, proposed, MVPN_DONE, 0))
RUN(judge_bad_place, JUDGES(NO_PREFIXES, wanted, sizeof wanted, bad_proposed, MVPN_DONE, 0))
RUN(judge_conflict, JUDGES(NO_PREFIXES, torn, sizeof torn, proposed, MVPN_CONFLICT, 0))
RUN(judge_short, JUDGES(NO_PREFIXES, wanted, sizeof wanted - 1, proposed, MVPN_SHORT, 0))
RUN(judge_by_bad_prefixes, JUDGES(BAD_PREFIXES, wanted, sizeof wanted, proposed, MVPN_RANGE, 0))

#define PLANS(given, list, list_len, room, wanted_number, wanted_routes) \
    (planned = mvpn_plan(2, given, originator, sizeof originator, rd, sizeof rd, list, list_len, planned_places, room), \
     planned.number == (wanted_number) && planned.routes == (wanted_routes))
RUN(plan_many, PLANS(NO_PREFIXES, wanted, sizeof wanted, sizeof planned_places, MVPN_DONE, MVPN_MOST_FLOWS))
RUN(plan_one, PLANS(NO_PREFIXES, equal, sizeof equal, sizeof planned_places, MVPN_DONE, 1))
RUN(plan_by_prefixes, PLANS(PREFIXES, wanted, sizeof wanted, sizeof planned_places, MVPN_DONE, MVPN_MOST_FLOWS))
RUN(plan_none, PLANS(NO_PREFIXES, mvpn_no_items, sizeof mvpn_no_items, 0, MVPN_DONE, 0))
RUN(plan_conflict, PLANS(NO_PREFIXES, torn, sizeof torn, sizeof planned_places, MVPN_CONFLICT, 0))
RUN(plan_without_space, PLANS(NO_PREFIXES, wanted, sizeof wanted, sizeof planned_places - 1, MVPN_SPACE, 0))
RUN(plan_by_bad_prefixes, PLANS(BAD_PREFIXES, wanted, sizeof wanted, sizeof planned_places, MVPN_RANGE, 0))

/* ---- shared trees: a table of (C-*,C-G) and (C-*,C-*) routes of one PE, and the longest lists */

static const uint8_t shared_group[] = { ASM_GROUP };
static const uint8_t group_route[] = { 3, 42, RD, 0, 128, ASM_GROUP, ORIGINATOR };
static const uint8_t any_route[] = { 3, 26, RD, 0, 0, ORIGINATOR };
static const uint8_t shared_active[] = { 5, 42, RD, 128, SOURCE, 128, ASM_GROUP };

static uint8_t shared_trees[sizeof full], any_trees[sizeof full];
static uint8_t source_actives[2 + 256 * (2 + 16 + 2 + sizeof shared_active)], states[2 + 256 * (2 + 16 + 2 + 16)];

/* 256 items of two fields. */
static void fill_list(uint8_t *list, size_t space, const uint8_t *first_field, size_t first_len, const uint8_t *second_field,
                      size_t second_len)
{
    size_t size = mvpn_list_start(list, space, MVPN_MOST_ITEMS);
    for (unsigned i = 0; i < MVPN_MOST_ITEMS; i++) {
        size = mvpn_list_field(list, space, size, first_field, first_len);
        size = mvpn_list_field(list, space, size, second_field, second_len);
    }
}

static void fill_shared_trees(void)
{
    memcpy(any_trees, roomy, sizeof any_trees);
    mvpn_install(any_trees, sizeof any_trees, any_route, sizeof any_route, bier, sizeof bier);
    memcpy(shared_trees, any_trees, sizeof shared_trees);
    mvpn_withdraw(shared_trees, sizeof shared_trees, last, sizeof last);
    mvpn_install(shared_trees, sizeof shared_trees, group_route, sizeof group_route, mldp, sizeof mldp);
    fill_list(source_actives, sizeof source_actives, originator, sizeof originator, shared_active, sizeof shared_active);
    fill_list(states, sizeof states, source, sizeof source, group, sizeof group);
}

#define MATCHES_SHARED(given, asked, states_len, wanted_number, wanted_tier) \
    (matched = mvpn_match_shared(table, sizeof table, given, originator, sizeof originator, asked, sizeof asked, \
                                 (mvpn_tree_facts){ 0, 0, 0 }, source_actives, sizeof source_actives, states, states_len, \
                                 output, sizeof output), \
     matched.number == (wanted_number) && matched.tier == (wanted_tier))
RUN(shared_group_route, MATCHES_SHARED(NO_PREFIXES, shared_group, sizeof states, MVPN_DONE, 3))
RUN(shared_any_route, MATCHES_SHARED(NO_PREFIXES, shared_group, sizeof states, MVPN_DONE, 4))
RUN(shared_none, MATCHES_SHARED(NO_PREFIXES, group, sizeof states, MVPN_DONE, 0))
RUN(shared_short, MATCHES_SHARED(NO_PREFIXES, shared_group, sizeof states - 1, MVPN_SHORT, 0))
RUN(shared_by_prefixes, MATCHES_SHARED(PREFIXES, shared_group, sizeof states, MVPN_DONE, 3))
RUN(shared_none_by_prefixes, MATCHES_SHARED(PREFIXES, group, sizeof states, MVPN_DONE, 0))
RUN(shared_by_bad_prefixes, MATCHES_SHARED(BAD_PREFIXES, shared_group, sizeof states, MVPN_RANGE, 0))

/* ---- bit strings: the most Leaves, each of which counts; the same with another key, and one whose last Leaf is bad */

static const uint8_t other_leaf[] = { 4, 28 + 16, 3, 26, RD, 0, 0, ORIGINATOR, ORIGINATOR };

static uint8_t leaves[2 + MVPN_MOST_LEAVES * (2 + sizeof leaf + 2 + sizeof bier)];
static uint8_t other_leaves[2 + MVPN_MOST_LEAVES * (2 + sizeof other_leaf + 2 + sizeof mldp)], bad_leaves[sizeof leaves];
static uint8_t string[MVPN_BIER_STRING];

static void fill_leaves(void)
{
    uint8_t tunnel[sizeof bier];
    size_t size = mvpn_list_start(leaves, sizeof leaves, MVPN_MOST_LEAVES);
    size_t other_size = mvpn_list_start(other_leaves, sizeof other_leaves, MVPN_MOST_LEAVES);
    memcpy(tunnel, bier, sizeof tunnel);
    for (unsigned i = 1; i <= MVPN_MOST_LEAVES; i++) {
        tunnel[6] = (uint8_t)(i >> 8);
        tunnel[7] = (uint8_t)i;
        size = mvpn_list_field(leaves, sizeof leaves, size, leaf, sizeof leaf);
        size = mvpn_list_field(leaves, sizeof leaves, size, tunnel, sizeof tunnel);
        other_size = mvpn_list_field(other_leaves, sizeof other_leaves, other_size, other_leaf, sizeof other_leaf);
        other_size = mvpn_list_field(other_leaves, sizeof other_leaves, other_size, mldp, sizeof mldp);
    }
    memcpy(bad_leaves, leaves, sizeof bad_leaves);
    bad_leaves[sizeof bad_leaves - sizeof tunnel + 1] = 12; /* the tunnel type of the last */
}

static mvpn_egress egress;

#define STRINGS(list, list_len, tunnel, room, wanted_number, wanted_routers) \
    (egress = mvpn_bier_string(2, s_pmsi, sizeof s_pmsi, tunnel, sizeof tunnel, 3, list, list_len, string, room), \
     egress.number == (wanted_number) && egress.routers == (wanted_routers))
RUN(string_of_all, STRINGS(leaves, sizeof leaves, bier, sizeof string, MVPN_DONE, 256))
RUN(string_of_others, STRINGS(other_leaves, sizeof other_leaves, bier, sizeof string, MVPN_DONE, 0))
RUN(string_of_none, STRINGS(mvpn_no_items, sizeof mvpn_no_items, bier, sizeof string, MVPN_DONE, 0))
RUN(string_of_bad, STRINGS(bad_leaves, sizeof bad_leaves, bier, sizeof string, MVPN_TUNNEL, 0))
RUN(string_short, STRINGS(leaves, sizeof leaves - 1, bier, sizeof string, MVPN_SHORT, 0))
RUN(string_without_space, STRINGS(leaves, sizeof leaves, bier, sizeof string - 1, MVPN_SPACE, 0))
RUN(string_of_other_tunnel, STRINGS(leaves, sizeof leaves, pim, sizeof string, MVPN_TUNNEL, 0))

/* Runs of one call stand together. */
static const struct {
    const char *name;
    void (*run)(void);
    const uint8_t *before; /* what the table holds */
} runs[] = {
    { "mvpn_version", give_version, full },
    { "mvpn_nlri_read", read_intra, full },
    { "mvpn_nlri_read", read_inter, full },
    { "mvpn_nlri_read", read_s_pmsi, full },
    { "mvpn_nlri_read", read_leaf, full },
    { "mvpn_nlri_read", read_active, full },
    { "mvpn_nlri_read", read_discarded, full },
    { "mvpn_nlri_read", read_join, full },
    { "mvpn_nlri_read", read_mldp_s_pmsi, full },
    { "mvpn_nlri_read", read_mldp_leaf, full },
    { "mvpn_nlri_read", read_mldp_join, full },
    { "mvpn_nlri_read", read_too_deep, full },
    { "mvpn_nlri_write", write_intra, full },
    { "mvpn_nlri_write", write_inter, full },
    { "mvpn_nlri_write", write_s_pmsi, full },
    { "mvpn_nlri_write", write_leaf, full },
    { "mvpn_nlri_write", write_active, full },
    { "mvpn_nlri_write", write_discarded, full },
    { "mvpn_nlri_write", write_join, full },
    { "mvpn_nlri_write", write_mldp_s_pmsi, full },
    { "mvpn_nlri_write", write_mldp_leaf, full },
    { "mvpn_nlri_write", write_mldp_join, full },
    { "mvpn_step", step_leaf, full },
    { "mvpn_step", step_s_pmsi, full },
    { "mvpn_step", step_mldp_leaf, full },
    { "mvpn_step", step_mldp_join, full },
    { "mvpn_step", step_discarded, full },
    { "mvpn_walk", walk_run, full },
    { "mvpn_walk", walk_skipping, full },
    { "mvpn_walk", walk_discarding, full },
    { "mvpn_walk", walk_stopping, full },
    { "mvpn_walk", walk_mldp_leaf, full },
    { "mvpn_walk", walk_too_deep, full },
    { "mvpn_pieces_start", start_pieces, full },
    { "mvpn_pieces_start", start_old, full },
    { "mvpn_pieces_start", start_no_family, full },
    { "mvpn_pieces_feed", feed_whole, full },
    { "mvpn_pieces_feed", feed_part, full },
    { "mvpn_pieces_feed", feed_skipped, full },
    { "mvpn_pieces_feed", feed_discarded, full },
    { "mvpn_pieces_feed", feed_stopped, full },
    { "mvpn_pieces_feed", feed_mldp_leaf, full },
    { "mvpn_pieces_feed", feed_too_deep, full },
    { "mvpn_pieces_feed", feed_long, full },
    { "mvpn_pieces_finish", finish_whole, full },
    { "mvpn_pieces_finish", finish_part, full },
    { "mvpn_group_class", class_group, full },
    { "mvpn_group_class", class_by_prefixes, full },
    { "mvpn_group_class", class_by_bad_prefixes, full },
    { "mvpn_attribute_read", read_mldp, full },
    { "mvpn_attribute_read", read_bier, full },
    { "mvpn_attribute_read", read_pim, full },
    { "mvpn_attribute_write", write_mldp, full },
    { "mvpn_attribute_write", write_bier, full },
    { "mvpn_attribute_write", write_pim, full },
    { "mvpn_make", make_table, full },
    { "mvpn_install", install_first, roomy },
    { "mvpn_install", install_last, full },
    { "mvpn_install", install_last, stale },
    { "mvpn_install", install_without_room, full },
    { "mvpn_install", install_leaf, full },
    { "mvpn_install", install_mldp_leaf, full },
    { "mvpn_withdraw", withdraw_first, full },
    { "mvpn_withdraw", withdraw_last, full },
    { "mvpn_withdraw", withdraw_last, stale },
    { "mvpn_withdraw", withdraw_absent, full },
    { "mvpn_withdraw", withdraw_leaf, full },
    { "mvpn_withdraw", withdraw_mldp_leaf, full },
    { "mvpn_mark", mark_all, full },
    { "mvpn_mark", mark_marked, stale },
    { "mvpn_mark", mark_half, half_stale },
    { "mvpn_mark", mark_none, stale },
    { "mvpn_mark", mark_nobody, full },
    { "mvpn_sweep", sweep_all, stale },
    { "mvpn_sweep", sweep_half, half_stale },
    { "mvpn_sweep", sweep_none, stale },
    { "mvpn_sweep", sweep_nobody, full },
    { "mvpn_match", match_found, full },
    { "mvpn_match", match_found, stale },
    { "mvpn_match", match_none, full },
    { "mvpn_match", match_by_prefixes, full },
    { "mvpn_match", match_by_bad_prefixes, full },
    { "mvpn_explain", explain_found, full },
    { "mvpn_explain", explain_none, full },
    { "mvpn_explain", explain_by_prefixes, full },
    { "mvpn_explain", explain_by_bad_prefixes, full },
    { "mvpn_match_shared", shared_group_route, shared_trees },
    { "mvpn_match_shared", shared_any_route, any_trees },
    { "mvpn_match_shared", shared_none, shared_trees },
    { "mvpn_match_shared", shared_short, shared_trees },
    { "mvpn_match_shared", shared_by_prefixes, shared_trees },
    { "mvpn_match_shared", shared_none_by_prefixes, shared_trees },
    { "mvpn_match_shared", shared_by_bad_prefixes, shared_trees },
    { "mvpn_bier_string", string_of_all, full },
    { "mvpn_bier_string", string_of_others, full },
    { "mvpn_bier_string", string_of_none, full },
    { "mvpn_bier_string", string_of_bad, full },
    { "mvpn_bier_string", string_short, full },
    { "mvpn_bier_string", string_without_space, full },
    { "mvpn_bier_string", string_of_other_tunnel, full },
    { "mvpn_next", next_first, full },
    { "mvpn_next", next_of_first, full },
    { "mvpn_next", next_of_absent, full },
    { "mvpn_next", next_stale, stale },
    { "mvpn_table_info", info_of_table, full },
    { "mvpn_table_info", info_of_no_table, full },
    { "mvpn_judge", judge_accepted, full },
    { "mvpn_judge", judge_by_prefixes, full },
    { "mvpn_judge", judge_not_accepted, full },
    { "mvpn_judge", judge_bad_place, full },
    { "mvpn_judge", judge_conflict, full },
    { "mvpn_judge", judge_short, full },
    { "mvpn_judge", judge_by_bad_prefixes, full },
    { "mvpn_plan", plan_many, full },
    { "mvpn_plan", plan_one, full },
    { "mvpn_plan", plan_by_prefixes, full },
    { "mvpn_plan", plan_none, full },
    { "mvpn_plan", plan_conflict, full },
    { "mvpn_plan", plan_without_space, full },
    { "mvpn_plan", plan_by_bad_prefixes, full },
    { "mvpn_salvage", salvage_all, full },
    { "mvpn_salvage", salvage_all, stale },
    { "mvpn_salvage", salvage_all, reversed },
    { "mvpn_salvage", salvage_none, bad },
    { "mvpn_salvage", salvage_one, repeated },
    { "mvpn_salvage", salvage_of_other_family, full },
    { "mvpn_salvage", salvage_without_space, full },
};

/* ---- the painted stack */

static uint8_t stack[1 << 16];

/* How deep a run goes into a stack of this paint. */
static size_t depth_over(void (*run)(void), uint8_t paint)
{
    static ucontext_t here, there;
    size_t kept = 0;
    memset(stack, paint, sizeof stack);
    as_expected = false;
    if (getcontext(&there) != 0)
        return SIZE_MAX;
    there.uc_stack.ss_sp = stack;
    there.uc_stack.ss_size = sizeof stack;
    there.uc_link = &here;
    makecontext(&there, run, 0);
    if (swapcontext(&here, &there) != 0 || !as_expected)
        return SIZE_MAX;
    while (kept < sizeof stack && stack[kept] == paint)
        kept++;
    return sizeof stack - kept;
}

/* Of two paints, as a run may write one of them itself. A first run, off the painted stack, has the loader find the C
 * library's functions that the call uses. */
static size_t depth(void (*run)(void), const uint8_t *before)
{
    static const uint8_t paints[] = { 0xA5, 0x5A };
    size_t deepest = 0;
    memcpy(table, before, sizeof table);
    run();
    for (size_t i = 0; i < ROWS(paints); i++) {
        memcpy(table, before, sizeof table);
        size_t reached = depth_over(run, paints[i]);
        deepest = reached > deepest ? reached : deepest;
    }
    return deepest;
}

/* The octets of the call that the runs from `i` on are of; `i` moves past them. */
static size_t deepest_of(size_t *i, size_t base)
{
    const char *name = runs[*i].name;
    size_t deepest = 0;
    for (; *i < ROWS(runs) && strcmp(runs[*i].name, name) == 0; ++*i) {
        size_t reached = depth(runs[*i].run, runs[*i].before);
        if (reached == SIZE_MAX) {
            printf("FAILED: run %zu, of %s, gave another answer\n", *i, name);
            exit(EXIT_FAILURE);
        }
        deepest = reached - base > deepest ? reached - base : deepest;
    }
    return deepest;
}

int main(void)
{
    int status = EXIT_SUCCESS;
    number_nlri(first, 0);
    number_nlri(last, MVPN_MOST_PLACES - 1);
    number_nlri(absent, MVPN_MOST_PLACES);
    fill(full, 0);
    fill(roomy, 1);
    fill_stale();
    fill_damaged();
    fill_plans();
    fill_prefixes();
    fill_shared_trees();
    fill_leaves();
    read_part();
    size_t base = depth(nothing, full), greatest = 0;
    const char *greatest_name = "";
    for (size_t i = 0; i < ROWS(runs);) {
        const char *name = runs[i].name;
        size_t octets = deepest_of(&i, base);
        printf("%s %zu\n", name, octets);
        if (octets > greatest) {
            greatest = octets;
            greatest_name = name;
        }
        if (octets > MOST_OCTETS) {
            printf("FAILED: %s takes more than %d octets of stack\n", name, MOST_OCTETS);
            status = EXIT_FAILURE;
        }
    }
    printf("the greatest: %s, %zu octets of %d, a margin of %d\n", greatest_name, greatest, MOST_OCTETS,
           MOST_OCTETS - (int)greatest);
    return status;
}
