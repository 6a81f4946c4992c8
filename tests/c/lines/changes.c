/*
 * Which answers a change of a table can change, by the lines that mvpn(3) shows: ask_again_lines.h is cut out of it. After each
 * change the flows that are to be asked again, and those whose answer is another one then, are as written here; no flow is among
 * these that is not among those.
 */
#include "checks.h"

#include <stdbool.h>

/* ---- flows whose answers are kept, each named by a letter */

typedef struct {
    char name;
    mvpn_address router, source, group;
    uint32_t tier; /* of its answer */
    mvpn_matched match;
    uint8_t output[MVPN_MATCH_OUTPUT];
    bool is_asked;
} kept_flow;

#define ADDRESS(...) { { __VA_ARGS__ }, 4 }

static kept_flow kept[] = {
    { .name = 'a', .router = ADDRESS(10, 0, 0, 1), .source = ADDRESS(192, 0, 2, 1), .group = ADDRESS(232, 1, 1, 1) },
    { .name = 'b', .router = ADDRESS(10, 0, 0, 1), .source = ADDRESS(192, 0, 2, 1), .group = ADDRESS(239, 1, 1, 1) },
    { .name = 'c', .router = ADDRESS(10, 0, 0, 1), .source = ADDRESS(192, 0, 2, 2), .group = ADDRESS(239, 1, 1, 1) },
    { .name = 'd', .router = ADDRESS(10, 0, 0, 2), .source = ADDRESS(192, 0, 2, 1), .group = ADDRESS(232, 1, 1, 1) },
    { .name = 'e', .router = ADDRESS(10, 0, 0, 1), .source = ADDRESS(192, 0, 2, 1), .group = ADDRESS(10, 1, 1, 1) },
};

/* ---- the lines, and what they call */

static void ask_again(kept_flow *flow)
{
    flow->is_asked = true;
}

static void ask_after_install(uint16_t afi, const uint8_t *prefixes, size_t prefixes_len, const uint8_t *nlri, size_t nlri_len,
                              kept_flow *flows, size_t count)
{
#include "ask_again_lines.h"
}

/* As mvpn(3) says of withdrawals. */
static void ask_after_withdrawal(lent nlri)
{
    for (size_t i = 0; i < ROWS(kept); i++)
        if (kept[i].match.nlri_size == nlri.size && memcmp(kept[i].output, nlri.at, nlri.size) == 0)
            ask_again(&kept[i]);
}

/* ---- changes, the flows that are asked again after each, and those that have another answer then */

#define RD(n) "00000064000000" n " "
#define ONE "0A000001"
#define TUNNEL(n) "00 06 0000" n " 0A000001"
#define NONE "01 00 000000"

typedef struct {
    const char *shows, *nlri, *attribute; /* no attribute: it is withdrawn */
    uint32_t number;
    const char *asked, *changed;
} change;

#define ANY_GROUP "0312 " RD("07") "20 C0000201 00 " ONE
#define ANY_SOURCE "0312 " RD("07") "00 20 EF010101 " ONE
#define BOTH(n) "0316 " RD(n) "20 C0000201 20 E8010101 " ONE
#define NEITHER(n, router) "030E " RD(n) "00 00 " router

/* By the standard range. */
static const change by_standard[] = {
    { "(C-*,C-*)", NEITHER("07", ONE), TUNNEL("10"), MVPN_DONE, "abc", "abc" },
    { "(C-S,C-*), for SSM alone", ANY_GROUP, TUNNEL("20"), MVPN_DONE, "a", "a" },
    { "(C-*,C-G), for ASM alone", ANY_SOURCE, TUNNEL("30"), MVPN_DONE, "bc", "bc" },
    { "(C-S,C-G) that names no tunnel", BOTH("07"), NONE, MVPN_DONE, "a", "" },
    { "the same with a tunnel", BOTH("07"), TUNNEL("40"), MVPN_DONE, "a", "a" },
    { "a refused install", BOTH("07"), "00 0B 000000 00 0001 0A000001", MVPN_LABEL, "", "" },
    { "another tunnel in a later tier", NEITHER("07", ONE), TUNNEL("50"), MVPN_DONE, "", "" },
    { "the next route distinguisher", BOTH("08"), TUNNEL("60"), MVPN_DONE, "a", "" },
    { "the route distinguisher before", BOTH("06"), TUNNEL("70"), MVPN_DONE, "a", "a" },
    { "another router", NEITHER("01", "0A000002"), TUNNEL("80"), MVPN_DONE, "d", "d" },
    { "a route that is not taken is withdrawn", BOTH("08"), NULL, MVPN_DONE, "", "" },
    { "one that is taken", BOTH("06"), NULL, MVPN_DONE, "a", "a" },
    { "one that is not there", BOTH("06"), NULL, MVPN_ABSENT, "", "" },
    { "a route taken by two flows", ANY_SOURCE, NULL, MVPN_DONE, "bc", "bc" },
    { "a route taken loses its tunnel", BOTH("07"), NONE, MVPN_DONE, "a", "a" },
    { "the last route of a router", NEITHER("01", "0A000002"), NULL, MVPN_DONE, "d", "d" },
};

/* With 239.0.0.0/8 as the only SSM range. */
static const change by_prefix[] = {
    { "(C-*,C-*)", NEITHER("07", ONE), TUNNEL("10"), MVPN_DONE, "abc", "abc" },
    { "(C-S,C-*), for SSM alone", ANY_GROUP, TUNNEL("20"), MVPN_DONE, "b", "b" },
    { "(C-*,C-G), for ASM alone", ANY_SOURCE, TUNNEL("30"), MVPN_DONE, "", "" },
};

/* The letters of the flows of which this is so, in turn. */
static void name_flow(char *names, const kept_flow *flow, bool is_so)
{
    size_t length = strlen(names);
    if (is_so) {
        names[length] = flow->name;
        names[length + 1] = '\0';
    }
}

static void same_names(const char *shows, const char *what, const char *got, const char *expected)
{
    same(shows, what, strlen(got), strlen(expected));
    same_octets(shows, what, (const uint8_t *)got, (const uint8_t *)expected, strlen(expected) + 1);
}

/* Asks the flow, and keeps its answer. Whether it is another one. */
static bool is_changed(lent table, lent prefixes, kept_flow *flow)
{
    kept_flow now = *flow;
    memset(now.output, FILL, sizeof now.output);
    now.match = mvpn_match(table.at, table.size, prefixes.at, prefixes.size, flow->router.octets, flow->router.size,
                           flow->source.octets, flow->source.size, flow->group.octets, flow->group.size, now.output,
                           sizeof now.output);
    now.tier = now.match.tier;
    now.is_asked = false;
    bool has_other = memcmp(&now.match, &flow->match, sizeof now.match) != 0 || memcmp(now.output, flow->output, sizeof now.output) != 0;
    *flow = now;
    return has_other;
}

static void make_change(lent table, lent prefixes, const change *c)
{
    lent nlri = hex(c->nlri), attribute = hex(c->attribute ? c->attribute : "");
    char asked[ROWS(kept) + 1] = "", changed[ROWS(kept) + 1] = "";
    uint32_t number = c->attribute ? mvpn_install(table.at, table.size, nlri.at, nlri.size, attribute.at, attribute.size).number
                                   : mvpn_withdraw(table.at, table.size, nlri.at, nlri.size);
    same(c->shows, "number", number, c->number);
    if (number == MVPN_DONE && c->attribute)
        ask_after_install(MVPN_AFI_IPV4, prefixes.at, prefixes.size, nlri.at, nlri.size, kept, ROWS(kept));
    else if (number == MVPN_DONE)
        ask_after_withdrawal(nlri);
    for (size_t i = 0; i < ROWS(kept); i++) {
        bool is_asked = kept[i].is_asked, has_other = is_changed(table, prefixes, &kept[i]);
        name_flow(asked, &kept[i], is_asked);
        name_flow(changed, &kept[i], has_other);
        same(c->shows, "a change that was not asked about", has_other && !is_asked, false);
    }
    same_names(c->shows, "flows asked again", asked, c->asked);
    same_names(c->shows, "flows with another answer", changed, c->changed);
    free(nlri.at);
    free(attribute.at);
}

static void make_changes(const char *prefixes_text, const change *changes, size_t count)
{
    lent table = made(MVPN_AFI_IPV4, 8), prefixes = list_of(prefixes_text);
    for (size_t i = 0; i < ROWS(kept); i++)
        is_changed(table, prefixes, &kept[i]);
    for (size_t i = 0; i < count; i++)
        make_change(table, prefixes, &changes[i]);
    free(table.at);
    free(prefixes.at);
}

int main(void)
{
    make_changes(NULL, by_standard, ROWS(by_standard));
    make_changes("0001 0005 08 EF000000", by_prefix, ROWS(by_prefix));
    return verdict("C changes");
}
