// mvpn.h in C++: it may be included twice, its types have the sizes that callers are built with (64-bit), its calls link,
// and its functions for lists, words and small tables compile.
#include "mvpn.h"
#include "mvpn.h"

#include <cstring>

static_assert(sizeof(mvpn_span) == 16, "mvpn_span");
static_assert(sizeof(mvpn_route_distinguisher) == 8, "mvpn_route_distinguisher");
static_assert(sizeof(mvpn_address) == 17, "mvpn_address");
static_assert(sizeof(mvpn_nlri) == 68, "mvpn_nlri");
static_assert(sizeof(mvpn_nlri_reading) == 104, "mvpn_nlri_reading");
static_assert(sizeof(mvpn_written) == 16, "mvpn_written");
static_assert(sizeof(mvpn_layout) == 56, "mvpn_layout");
static_assert(sizeof(mvpn_stepped) == 72, "mvpn_stepped");
static_assert(sizeof(mvpn_walked) == 16, "mvpn_walked");
static_assert(sizeof(mvpn_pieces) == 36, "mvpn_pieces");
static_assert(sizeof(mvpn_fed) == 56, "mvpn_fed");
static_assert(sizeof(mvpn_group) == 8, "mvpn_group");
static_assert(sizeof(mvpn_fec) == 40, "mvpn_fec");
static_assert(sizeof(mvpn_attribute_reading) == 80, "mvpn_attribute_reading");
static_assert(sizeof(mvpn_installed) == 8, "mvpn_installed");
static_assert(sizeof(mvpn_matched) == 16, "mvpn_matched");
static_assert(sizeof(mvpn_explained) == 32, "mvpn_explained");
static_assert(sizeof(mvpn_tree_facts) == 12, "mvpn_tree_facts");
static_assert(sizeof(mvpn_egress) == 8, "mvpn_egress");
static_assert(sizeof(mvpn_restarted) == 8, "mvpn_restarted");
static_assert(sizeof(mvpn_following) == 16, "mvpn_following");
static_assert(sizeof(mvpn_table_facts) == 16, "mvpn_table_facts");
static_assert(sizeof(mvpn_judged) == 8, "mvpn_judged");
static_assert(sizeof(mvpn_planned) == 8, "mvpn_planned");
static_assert(sizeof(mvpn_salvaged) == 12, "mvpn_salvaged");
static_assert(sizeof mvpn_no_items == 2, "mvpn_no_items");
static_assert(MVPN_TABLE_SIZE(MVPN_MOST_PLACES) == 64008, "MVPN_TABLE_SIZE");

// A list of one item of one field.
static bool lists()
{
    const uint8_t field[] = {7};
    uint8_t list[5];
    size_t size = mvpn_list_start(list, sizeof list, 1);
    return mvpn_list_field(list, sizeof list, size, field, sizeof field) == sizeof list && list[1] == 1 && list[4] == 7;
}

// A flow of three fields.
static bool flows()
{
    const uint8_t field[] = {7};
    uint8_t list[11];
    size_t size = mvpn_list_start(list, sizeof list, 1);
    return mvpn_list_flow(list, sizeof list, size, field, 1, field, 1, field, 1) == sizeof list && list[10] == 7;
}

static bool words()
{
    return std::strcmp(mvpn_number_name(MVPN_WIDTH), "WIDTH") == 0 && std::strcmp(mvpn_number_text(99), "unknown") == 0 &&
           std::strcmp(mvpn_tier_name(1), "(C-S,C-G)") == 0 && std::strcmp(mvpn_reason_name(1), "taken") == 0 &&
           std::strcmp(mvpn_route_type_name(4), "Leaf A-D") == 0 && std::strcmp(mvpn_tunnel_type_name(11), "BIER") == 0;
}

// The same number as in C: tests/c/shards.c.
static bool shards()
{
    const uint8_t router[] = {10, 0, 0, 1}, source[] = {192, 0, 2, 1}, group[] = {232, 1, 1, 1};
    return mvpn_shard(router, sizeof router, source, sizeof source, group, sizeof group, 4096) == 2862;
}

int main()
{
    const uint8_t octets[] = {0};
    uint8_t output[] = {0}, unfinished[MVPN_UNFINISHED];
    mvpn_fed fed = mvpn_pieces_feed(mvpn_pieces_start(1, MVPN_SKIP), unfinished, octets, 0);
    // With no octets: DONE of step, walk and pieces, and each other call's first refusal.
    bool as_expected = mvpn_nlri_read(1, octets, 0).number == MVPN_SHORT &&
                       mvpn_nlri_write(1, mvpn_nlri{}, octets, 0, octets, 0, output, 0).number == MVPN_TYPE &&
                       mvpn_step(1, octets, 0, 0).number == MVPN_DONE &&
                       mvpn_walk(1, MVPN_SKIP, octets, 0).number == MVPN_DONE &&
                       fed.size == 0 && mvpn_pieces_finish(fed.pieces).walked.number == MVPN_DONE &&
                       mvpn_group_class(1, octets, 0, octets, 0).number == MVPN_SHORT &&
                       mvpn_group_class(1, mvpn_no_items, sizeof mvpn_no_items, octets, 0).number == MVPN_FLOW &&
                       mvpn_attribute_read(octets, 0).number == MVPN_SHORT &&
                       mvpn_attribute_write(0, 0, 0, octets, 0, output, 0).number == MVPN_SPACE &&
                       mvpn_make(1, output, 0) == MVPN_TABLE &&
                       mvpn_install(output, 0, octets, 0, octets, 0).number == MVPN_TABLE &&
                       mvpn_withdraw(output, 0, octets, 0) == MVPN_TABLE &&
                       mvpn_mark(output, 0, octets, 0).number == MVPN_TABLE &&
                       mvpn_sweep(output, 0, octets, 0).number == MVPN_TABLE &&
                       mvpn_match(octets, 0, octets, 0, octets, 0, octets, 0, octets, 0, output, 0).number == MVPN_TABLE &&
                       mvpn_explain(octets, 0, octets, 0, octets, 0, octets, 0, octets, 0, output, 0).matched.number ==
                           MVPN_TABLE &&
                       mvpn_match_shared(octets, 0, octets, 0, octets, 0, octets, 0, mvpn_tree_facts{}, octets, 0, octets, 0,
                                         output, 0)
                               .number == MVPN_TABLE &&
                       mvpn_bier_string(1, octets, 0, octets, 0, 0, octets, 0, output, 0).number == MVPN_SHORT &&
                       mvpn_next(octets, 0, octets, 0, output, 0).number == MVPN_TABLE &&
                       mvpn_table_info(octets, 0).number == MVPN_TABLE &&
                       mvpn_judge(1, octets, 0, octets, 0, octets, 0, octets, 0, octets, 0).number == MVPN_SHORT &&
                       mvpn_plan(1, octets, 0, octets, 0, octets, 0, octets, 0, output, 0).number == MVPN_SHORT &&
                       mvpn_salvage(1, octets, 0, output, 0, output, 0).number == MVPN_TABLE && mvpn_version() == MVPN_VERSION_NUMBER;
    return as_expected && lists() && flows() && words() && shards() ? 0 : 1;
}
