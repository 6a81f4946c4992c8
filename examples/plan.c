/*
 * Planning with mvpn.h: which S-PMSI A-D routes an originator advertises, so that each flow takes the tunnel that is wanted for it.
 *
 *     plan [FILE]
 *
 * FILE, or standard input, has a line for each thing that is told or asked. What stands behind a # is a comment.
 *
 *     family ipv4 | ipv6                               of the flows; IPv4 where it is not told
 *     originator ADDRESS                               who advertises the routes
 *     rd NUMBER:NUMBER                                 their route distinguisher: two octets and four
 *     ssm ADDRESS/LENGTH                               an SSM range; those that are told replace the standard one
 *     tunnel NAME bier LABEL SUB-DOMAIN BFR-ID PREFIX  a tunnel, by which flows and routes name it
 *     tunnel NAME ingress LABEL ADDRESS
 *     tunnel NAME pim-ssm ROOT GROUP
 *     tunnel NAME octets HEXADECIMAL                   any PMSI Tunnel attribute
 *     flow SOURCE GROUP NAME                           a flow, and the tunnel that is wanted for it
 *     route SOURCE GROUP NAME                          a route that somebody proposes; * is the wildcard
 *     plan                                             asks the library for routes for the flows told so far, and prints them
 *     judge                                            asks whether the routes told since the last `judge` are a plan for these flows
 *     clear                                            forgets the flows and the SSM ranges
 *
 * The routes of a plan are printed in the order of their NLRIs, as a table holds them, with the flows that take them.
 */
#include "mvpn.h"
#include "prefixes.h"
#include "print.h"
#include "text.h"

#include <stdio.h>
#include <stdlib.h>
#include <string.h>

enum { MOST_TUNNELS = 100, MOST_LINES = 100, LONGEST_LINE = 1000, MOST_WORDS = 8 };

typedef struct {
    char name[32];
    uint8_t attribute[MVPN_LONGEST_ATTRIBUTE + 1]; /* one octet more than the library takes, so that it may refuse one */
    size_t size;
} named_tunnel;

/* A flow with the tunnel that is wanted for it, or a route with its tunnel, whose source or group may have no octets. */
typedef struct {
    mvpn_address source, group;
    const named_tunnel *tunnel;
} assignment;

typedef struct { assignment of[MOST_LINES]; size_t count; } assignments;

typedef struct {
    uint16_t afi;
    mvpn_address originator;
    mvpn_route_distinguisher distinguisher;
    group_prefixes ranges;
    named_tunnel tunnels[MOST_TUNNELS];
    size_t tunnel_count;
    assignments flows, routes;
} planning;

/* ---- words of a line */

static bool is_wildcard_or_address(const char *word, mvpn_address *address)
{
    memset(address, 0, sizeof *address);
    return is_word(word, "*") || is_address(word, address);
}

/* ---- tunnels */

static bool write_bier(named_tunnel *tunnel, char **words)
{
    unsigned long label, sub_domain, bfr_id;
    mvpn_address prefix;
    uint8_t identifier[3 + 16];
    if (!is_number(words[0], 0xFFFFF, &label) || !is_number(words[1], 255, &sub_domain) || !is_number(words[2], 65535, &bfr_id) ||
        !is_address(words[3], &prefix))
        return false;
    identifier[0] = (uint8_t)sub_domain;
    identifier[1] = (uint8_t)(bfr_id >> 8);
    identifier[2] = (uint8_t)bfr_id;
    memcpy(identifier + 3, prefix.octets, prefix.size);
    tunnel->size = mvpn_attribute_write(0, MVPN_TUNNEL_BIER, (uint32_t)label << 4, identifier, 3u + prefix.size, tunnel->attribute,
                                        sizeof tunnel->attribute).size;
    return tunnel->size > 0;
}

static bool write_ingress(named_tunnel *tunnel, char **words)
{
    unsigned long label;
    mvpn_address end;
    if (!is_number(words[0], 0xFFFFF, &label) || !is_address(words[1], &end))
        return false;
    tunnel->size = mvpn_attribute_write(0, MVPN_TUNNEL_INGRESS_REPLICATION, (uint32_t)label << 4, end.octets, end.size,
                                        tunnel->attribute, sizeof tunnel->attribute).size;
    return tunnel->size > 0;
}

static bool write_pim_ssm(named_tunnel *tunnel, char **words)
{
    mvpn_address root, group;
    uint8_t identifier[32];
    if (!is_address(words[0], &root) || !is_address(words[1], &group))
        return false;
    memcpy(identifier, root.octets, root.size);
    memcpy(identifier + root.size, group.octets, group.size);
    tunnel->size = mvpn_attribute_write(0, MVPN_TUNNEL_PIM_SSM, 0, identifier, (size_t)root.size + group.size, tunnel->attribute,
                                        sizeof tunnel->attribute).size;
    return tunnel->size > 0;
}

static bool write_octets(named_tunnel *tunnel, const char *word)
{
    size_t digits = word ? strlen(word) : 1;
    if (digits % 2 != 0 || digits / 2 > sizeof tunnel->attribute || strspn(word, "0123456789ABCDEFabcdef") != digits)
        return false;
    for (tunnel->size = 0; tunnel->size < digits / 2; tunnel->size++) {
        const char octet[] = { word[2 * tunnel->size], word[2 * tunnel->size + 1], '\0' };
        tunnel->attribute[tunnel->size] = (uint8_t)strtoul(octet, NULL, 16);
    }
    return true;
}

static const named_tunnel *tunnel_named(const planning *plan, const char *name)
{
    for (size_t i = 0; i < plan->tunnel_count; i++)
        if (is_word(name, plan->tunnels[i].name))
            return &plan->tunnels[i];
    return NULL;
}

/* The name of the tunnel that has these octets. */
static const char *name_of(const planning *plan, const uint8_t *attribute, size_t size)
{
    for (size_t i = 0; i < plan->tunnel_count; i++)
        if (plan->tunnels[i].size == size && memcmp(plan->tunnels[i].attribute, attribute, size) == 0)
            return plan->tunnels[i].name;
    return "an unknown tunnel";
}

static bool add_tunnel(planning *plan, char **words)
{
    if (!words[0] || !words[1] || plan->tunnel_count == MOST_TUNNELS || strlen(words[0]) >= sizeof plan->tunnels->name ||
        tunnel_named(plan, words[0]))
        return false;
    named_tunnel *tunnel = &plan->tunnels[plan->tunnel_count];
    bool right = is_word(words[1], "bier") ? write_bier(tunnel, words + 2)
               : is_word(words[1], "ingress") ? write_ingress(tunnel, words + 2)
               : is_word(words[1], "pim-ssm") ? write_pim_ssm(tunnel, words + 2)
               : is_word(words[1], "octets") && write_octets(tunnel, words[2]);
    if (right) {
        strcpy(tunnel->name, words[0]);
        plan->tunnel_count++;
    }
    return right;
}

/* ---- what is lent to the library */

enum { LONGEST_LIST = 2 + MOST_LINES * (2 + 16 + 2 + 16 + 2 + MVPN_LONGEST_ATTRIBUTE + 1) };

static size_t write_flows(const planning *plan, uint8_t *list, size_t space)
{
    size_t size = mvpn_list_start(list, space, (uint16_t)plan->flows.count);
    for (size_t i = 0; i < plan->flows.count; i++) {
        const assignment *flow = &plan->flows.of[i];
        size = mvpn_list_flow(list, space, size, flow->source.octets, flow->source.size, flow->group.octets, flow->group.size,
                              flow->tunnel->attribute, flow->tunnel->size);
    }
    return size;
}

/* The place of a route: sizes, NLRI, attribute, zeros. A route that the library does not write is a place of zeros. */
static void write_place(const planning *plan, const assignment *route, uint8_t *place)
{
    mvpn_nlri nlri = { .route_type = MVPN_S_PMSI, .distinguisher = plan->distinguisher, .source = route->source,
                       .group = route->group, .originator = plan->originator };
    memset(place, 0, MVPN_PLACE);
    mvpn_written written = mvpn_nlri_write(plan->afi, nlri, NULL, 0, NULL, 0, place + 2, MVPN_PLACE - 2);
    if (written.size == 0 || 2 + written.size + route->tunnel->size >= MVPN_PLACE)
        return;
    place[0] = (uint8_t)written.size;
    place[1] = (uint8_t)route->tunnel->size;
    memcpy(place + 2 + written.size, route->tunnel->attribute, route->tunnel->size);
}

/* ---- what routes do: they are installed, listed and matched in a table */

enum { TABLE_SIZE = MVPN_TABLE_SIZE(MOST_LINES) };

/* Which routes the library does not install by themselves, and which repeat. */
static void install_places(const planning *plan, const uint8_t *places, size_t count, uint8_t *table)
{
    mvpn_make(plan->afi, table, TABLE_SIZE);
    for (size_t i = 0; i < count; i++) {
        const uint8_t *place = places + MVPN_PLACE * i;
        mvpn_installed installed = mvpn_install(table, TABLE_SIZE, place + 2, place[0], place + 2 + place[0], place[1]);
        if (installed.number != MVPN_DONE) {
            printf("  route %zu is refused, ", i + 1);
            print_number(installed.number);
            printf("\n");
        } else if (installed.outcome == MVPN_REPLACED)
            printf("  route %zu has the NLRI of one before it\n", i + 1);
    }
}

static void list_table(const planning *plan, const uint8_t *table)
{
    uint8_t nlri[MVPN_MATCH_OUTPUT], route[MVPN_MATCH_OUTPUT];
    size_t size = 0;
    for (;;) {
        mvpn_following next = mvpn_next(table, TABLE_SIZE, nlri, size, route, sizeof route);
        if (next.nlri_size == 0)
            break;
        const uint8_t *attribute = route + next.nlri_size;
        printf("  ");
        print_nlri(plan->afi, (octets){ route, next.nlri_size });
        printf("\n    %s: ", name_of(plan, attribute, next.attribute_size));
        print_attribute((octets){ attribute, next.attribute_size });
        printf("\n");
        size = next.nlri_size;
        memcpy(nlri, route, size);
    }
}

/* What a flow takes in the table, where it is asked for all flows or is not what is wanted. */
static void print_taken(const planning *plan, const uint8_t *table, const assignment *flow, bool always)
{
    uint8_t list[PREFIXES_SPACE], route[MVPN_MATCH_OUTPUT];
    octets prefixes = list_prefixes(&plan->ranges, list);
    mvpn_matched match = mvpn_match(table, TABLE_SIZE, prefixes.at, prefixes.size, plan->originator.octets, plan->originator.size,
                                    flow->source.octets, flow->source.size, flow->group.octets, flow->group.size, route, sizeof route);
    const uint8_t *attribute = route + match.nlri_size;
    bool served = match.tier != MVPN_NO_TIER && match.attribute_size == flow->tunnel->size &&
                  memcmp(attribute, flow->tunnel->attribute, match.attribute_size) == 0;
    if (served && !always)
        return;
    printf("  flow ");
    print_pair(&flow->source, &flow->group);
    if (!served)
        printf(" wants %s, and", flow->tunnel->name);
    if (match.tier == MVPN_NO_TIER) {
        printf(" takes no route\n");
        return;
    }
    mvpn_nlri fields = mvpn_nlri_read(plan->afi, route, match.nlri_size).nlri;
    printf(" takes %s, by ", name_of(plan, attribute, match.attribute_size));
    print_pair(&fields.source, &fields.group);
    printf("\n");
}

static void print_flows(const planning *plan, const uint8_t *table, bool always)
{
    for (size_t i = 0; i < plan->flows.count; i++)
        print_taken(plan, table, &plan->flows.of[i], always);
}

/* ---- what is asked */

static mvpn_judged judge(const planning *plan, const uint8_t *places, size_t places_len)
{
    uint8_t list[PREFIXES_SPACE], flows[LONGEST_LIST];
    octets prefixes = list_prefixes(&plan->ranges, list);
    size_t flows_len = write_flows(plan, flows, sizeof flows);
    return mvpn_judge(plan->afi, prefixes.at, prefixes.size, plan->originator.octets, plan->originator.size, plan->distinguisher.octets,
                      sizeof plan->distinguisher.octets, flows, flows_len, places, places_len);
}

static void print_refusal(uint32_t number)
{
    printf("refused, ");
    print_number(number);
    printf("\n");
}

static void make_plan(const planning *plan)
{
    static uint8_t table[TABLE_SIZE];
    uint8_t list[PREFIXES_SPACE], flows[LONGEST_LIST], places[MVPN_LONGEST_PROPOSAL];
    octets prefixes = list_prefixes(&plan->ranges, list);
    size_t flows_len = write_flows(plan, flows, sizeof flows);
    mvpn_planned planned = mvpn_plan(plan->afi, prefixes.at, prefixes.size, plan->originator.octets, plan->originator.size,
                                     plan->distinguisher.octets, sizeof plan->distinguisher.octets, flows, flows_len, places,
                                     sizeof places);
    printf("plan, %s, flows %zu: ", family_name(plan->afi), plan->flows.count);
    if (planned.number != MVPN_DONE) {
        print_refusal(planned.number);
        return;
    }
    mvpn_judged judged = judge(plan, places, (size_t)MVPN_PLACE * planned.routes);
    printf("routes %u, %s\n", (unsigned)planned.routes, judged.accepted ? "accepted" : "not accepted");
    install_places(plan, places, planned.routes, table);
    list_table(plan, table);
    print_flows(plan, table, true);
}

/* Of routes that are not accepted it prints what is wrong with them. */
static void judge_routes(planning *plan)
{
    static uint8_t table[TABLE_SIZE], places[MVPN_PLACE * MOST_LINES];
    for (size_t i = 0; i < plan->routes.count; i++)
        write_place(plan, &plan->routes.of[i], places + MVPN_PLACE * i);
    mvpn_judged judged = judge(plan, places, MVPN_PLACE * plan->routes.count);
    printf("judge, %s, flows %zu, routes %zu: ", family_name(plan->afi), plan->flows.count, plan->routes.count);
    if (judged.number != MVPN_DONE)
        print_refusal(judged.number);
    else {
        printf("%s\n", judged.accepted ? "accepted" : "not accepted");
        install_places(plan, places, plan->routes.count, table);
        print_flows(plan, table, false);
    }
    plan->routes.count = 0;
}

/* ---- the lines */

static bool set_family(planning *plan, const char *word)
{
    plan->afi = is_word(word, "ipv6") ? MVPN_AFI_IPV6 : MVPN_AFI_IPV4;
    return is_word(word, "ipv4") || is_word(word, "ipv6");
}

/* A route distinguisher of type 0: an autonomous system's number of two octets, and a number of four. */
static bool set_distinguisher(planning *plan, const char *word)
{
    unsigned long administrator, assigned;
    const char *end;
    if (!begins_with_number(word, 65535, &administrator, &end) || *end != ':' || !is_number(end + 1, 0xFFFFFFFF, &assigned))
        return false;
    plan->distinguisher = (mvpn_route_distinguisher){ { 0, 0, (uint8_t)(administrator >> 8), (uint8_t)administrator,
                                                        (uint8_t)(assigned >> 24), (uint8_t)(assigned >> 16),
                                                        (uint8_t)(assigned >> 8), (uint8_t)assigned } };
    return true;
}

static bool add_range(planning *plan, const char *word)
{
    group_prefix prefix;
    if (!is_prefix(word, &prefix))
        return false;
    hold_prefix(&plan->ranges, &prefix);
    return true;
}

static bool add_assignment(const planning *plan, assignments *list, char **words, bool wildcards)
{
    bool (*read)(const char *, mvpn_address *) = wildcards ? is_wildcard_or_address : is_address;
    assignment *added = &list->of[list->count];
    if (list->count == MOST_LINES || !read(words[0], &added->source) || !read(words[1], &added->group))
        return false;
    added->tunnel = tunnel_named(plan, words[2]);
    list->count += added->tunnel != NULL;
    return added->tunnel;
}

static bool read_line(planning *plan, char *line)
{
    char *words[MOST_WORDS + 1] = { NULL };
    size_t count = 0;
    line[strcspn(line, "#\n")] = '\0';
    for (char *word = strtok(line, " \t\r"); word && count < MOST_WORDS; word = strtok(NULL, " \t\r"))
        words[count++] = word;
    if (count == 0)
        return true;
    if (is_word(words[0], "family"))
        return set_family(plan, words[1]);
    if (is_word(words[0], "originator"))
        return is_address(words[1], &plan->originator);
    if (is_word(words[0], "rd"))
        return set_distinguisher(plan, words[1]);
    if (is_word(words[0], "ssm"))
        return add_range(plan, words[1]);
    if (is_word(words[0], "tunnel"))
        return add_tunnel(plan, words + 1);
    if (is_word(words[0], "flow"))
        return add_assignment(plan, &plan->flows, words + 1, false);
    if (is_word(words[0], "route"))
        return add_assignment(plan, &plan->routes, words + 1, true);
    if (is_word(words[0], "plan"))
        make_plan(plan);
    else if (is_word(words[0], "judge"))
        judge_routes(plan);
    else if (is_word(words[0], "clear"))
        plan->flows.count = plan->ranges.count = 0;
    else
        return false;
    return true;
}

int main(int argc, char **argv)
{
    static planning plan = { .afi = MVPN_AFI_IPV4 };
    char line[LONGEST_LINE];
    bool is_help = argc == 2 && is_word(argv[1], "--help");
    if (is_help || argc > 2) {
        fprintf(is_help ? stdout : stderr, "usage: plan [FILE]\n       plan --help\n");
        return is_help ? 0 : 2;
    }
    FILE *file = argc > 1 ? fopen(argv[1], "r") : stdin;
    if (!file) {
        fprintf(stderr, "plan: the file cannot be read\n");
        return 2;
    }
    for (size_t number = 1; fgets(line, sizeof line, file); number++)
        if (!read_line(&plan, line)) {
            fprintf(stderr, "plan: line %zu is not understood\n", number);
            return 2;
        }
    return ferror(file) ? 2 : 0;
}
