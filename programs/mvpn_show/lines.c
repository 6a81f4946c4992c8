#include "lines.h"

#include "json.h"
#include "print.h"
#include "text.h"

#include <stdio.h>

const char *line_kind_name(line_kind kind)
{
    static const char *const names[] = {
        [LINE_ROUTE] = "route",         [LINE_ATTRIBUTE] = "attribute", [LINE_ANNOUNCED] = "announced",
        [LINE_WITHDRAWN] = "withdrawn", [LINE_SKIPPED] = "skipped",     [LINE_REFUSED] = "refused",
        [LINE_DROPPED] = "dropped",     [LINE_TABLE] = "table",         [LINE_MESSAGE] = "message",
        [LINE_END_OF_RIB] = "End-of-RIB",
    };
    return names[kind];
}

/* "message 2, octet 48: " */
static void print_position(const line *shown)
{
    if (shown->message > 0)
        printf("message %zu", shown->message);
    if (shown->has_octet)
        printf("%soctet %zu", shown->message > 0 ? ", " : "", shown->octet);
    if (shown->message > 0 || shown->has_octet)
        printf(": ");
}

/* What the line is, where its fields do not tell, and why. Whether anything was printed. */
static bool print_event(const line *shown)
{
    bool is_told = shown->kind != LINE_ROUTE && shown->kind != LINE_ATTRIBUTE && shown->kind != LINE_MESSAGE;
    if (is_told)
        printf("%s", line_kind_name(shown->kind));
    if (shown->subject)
        printf(", %s", shown->subject);
    if (shown->fault)
        printf(", %s", shown->fault);
    if (shown->number != MVPN_DONE) {
        printf(", ");
        print_number(shown->number);
    }
    return is_told;
}

static void print_route(const line *shown)
{
    if (shown->nlri.size > 0)
        print_nlri(shown->afi, shown->nlri);
    if (shown->attribute.size > 0) {
        printf("%s", shown->nlri.size > 0 ? "; " : "");
        print_attribute(shown->attribute);
    }
    if (shown->next_hop.size == 4 || shown->next_hop.size == 16) {
        printf("; next hop ");
        print_address(shown->next_hop.at, shown->next_hop.size);
    }
    if (shown->stale)
        printf("; stale");
}

static void print_words(const line *shown)
{
    print_position(shown);
    bool is_begun = print_event(shown);
    if (is_begun && (shown->facts.count > 0 || shown->nlri.size > 0))
        printf(", ");
    print_fields(&shown->facts);
    print_route(shown);
    if (shown->unread.size > 0) {
        printf(": ");
        print_first_octets(shown->unread);
    }
    printf("\n");
}

void print_line(const line *shown, bool as_json)
{
    if (as_json)
        json_line(shown);
    else
        print_words(shown);
}

void print_explanation(const explanation *shown, bool as_json)
{
    mvpn_matched match = shown->found.matched;
    if (as_json) {
        json_explanation(shown);
        return;
    }
    print_flow("flow", &shown->flow, shown->group);
    if (match.number != MVPN_DONE) {
        printf("  refused, ");
        print_number(match.number);
        printf("\n");
        return;
    }
    if (match.tier == MVPN_NO_TIER)
        printf("  no route\n");
    else
        print_match(afi_of(&shown->flow.group), match, shown->output);
    print_reasons(&shown->flow, shown->found.reasons);
}
