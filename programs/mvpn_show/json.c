#include "json.h"

#include "print.h"

#include <ctype.h>
#include <inttypes.h>
#include <stdio.h>

/* ---- members: a comma stands before each but the first of its object, which the opening brace comes before */

/* Whether the next member is the first of its object. */
static bool is_first = true;

static void open_object(void)
{
    printf("{");
    is_first = true;
}

static void close_object(void)
{
    printf("}");
    is_first = false;
}

/* The name of a member, with what is put behind it, as "route type" and "_name". */
static void json_name(const char *name, const char *behind)
{
    printf("%s\"", is_first ? "" : ",");
    for (; *name; name++)
        putchar(*name == ' ' || *name == '-' ? '_' : tolower((unsigned char)*name));
    printf("%s\":", behind);
    is_first = false;
}

static void json_number(const char *name, size_t number)
{
    json_name(name, "");
    printf("%zu", number);
}

/* Texts here are ASCII without control characters. */
static void json_text(const char *name, const char *behind, const char *text)
{
    json_name(name, behind);
    putchar('"');
    for (; *text; text++)
        printf("%s%c", *text == '"' || *text == '\\' ? "\\" : "", *text);
    putchar('"');
}

static void json_truth(const char *name, bool truth)
{
    json_name(name, "");
    printf("%s", truth ? "true" : "false");
}

static void json_address(const char *name, const uint8_t *address, size_t size)
{
    json_name(name, "");
    putchar('"');
    print_address(address, size);
    putchar('"');
}

static void json_octets(const char *name, octets shown)
{
    json_name(name, "");
    putchar('"');
    for (size_t i = 0; i < shown.size; i++)
        printf("%02x", shown.at[i]);
    putchar('"');
}

/* ---- fields */

static void json_fields(const fields *shown);

static void json_nested(const field *shown)
{
    fields held = shown->kind == FIELD_NLRI ? nlri_fields((uint16_t)shown->number, shown->value)
                                            : fec_fields(shown->value, shown->number != 0);
    json_name(shown->name, "");
    open_object();
    json_fields(&held);
    close_object();
}

static void json_named(const field *shown)
{
    json_number(shown->name, shown->number);
    json_text(shown->name, "_name", shown->meaning);
}

static void json_distinguisher(const field *shown)
{
    json_name(shown->name, "");
    putchar('"');
    print_distinguisher(shown->value.at);
    putchar('"');
}

static void json_field(const field *shown)
{
    switch (shown->kind) {
    case FIELD_NAMED:
        json_named(shown);
        break;
    case FIELD_TRUTH:
        json_truth(shown->name, shown->number != 0);
        break;
    case FIELD_ADDRESS:
        json_address(shown->name, shown->address.octets, shown->address.size);
        break;
    case FIELD_PAIR:
        json_address("source", shown->address.octets, shown->address.size);
        json_address("group", shown->group.octets, shown->group.size);
        break;
    case FIELD_DISTINGUISHER:
        json_distinguisher(shown);
        break;
    case FIELD_OCTETS:
        json_octets(shown->name, shown->value);
        break;
    case FIELD_NLRI:
    case FIELD_FEC:
        json_nested(shown);
        break;
    default:
        json_number(shown->name, shown->number);
    }
}

static void json_fields(const fields *shown)
{
    for (size_t i = 0; i < shown->count; i++)
        json_field(&shown->of[i]);
}

static void json_route(uint16_t afi, octets nlri)
{
    fields route = nlri_fields(afi, nlri);
    json_name("route", "");
    open_object();
    json_fields(&route);
    close_object();
}

static void json_tunnel(octets attribute)
{
    fields tunnel = tunnel_fields(attribute), identifier = identifier_fields(attribute);
    json_name("tunnel", "");
    open_object();
    json_fields(&tunnel);
    json_fields(&identifier);
    close_object();
}

/* ---- lines */

static void json_refusal(uint32_t number)
{
    json_number("number", number);
    json_text("name", "", mvpn_number_name(number));
    json_text("text", "", mvpn_number_text(number));
}

/* The family is told with each route, since nothing in an NLRI tells it. */
static void json_parts(const line *shown)
{
    if (shown->nlri.size > 0) {
        json_number("afi", shown->afi);
        json_route(shown->afi, shown->nlri);
    }
    if (shown->attribute.size > 0)
        json_tunnel(shown->attribute);
    if (shown->next_hop.size == 4 || shown->next_hop.size == 16)
        json_address("next hop", shown->next_hop.at, shown->next_hop.size);
    if (shown->kind == LINE_ROUTE && shown->attribute.size > 0)
        json_truth("stale", shown->stale);
    if (shown->unread.size > 0)
        json_octets("octets", shown->unread);
}

void json_line(const line *shown)
{
    open_object();
    json_text("what", "", line_kind_name(shown->kind));
    if (shown->message > 0)
        json_number("message", shown->message);
    if (shown->has_octet)
        json_number("octet", shown->octet);
    if (shown->subject)
        json_text("subject", "", shown->subject);
    if (shown->fault)
        json_text("text", "", shown->fault);
    if (shown->number != MVPN_DONE)
        json_refusal(shown->number);
    json_fields(&shown->facts);
    json_parts(shown);
    close_object();
    printf("\n");
    is_first = true;
}

/* ---- explanations */

static void json_flow(const customer_flow *flow)
{
    json_address("source", flow->source.octets, flow->source.size);
    json_address("group", flow->group.octets, flow->group.size);
}

static void json_reason(const customer_flow *flow, uint32_t tier, uint32_t reason)
{
    customer_flow looked = looked_for(flow, tier);
    const char *detail = reason_detail(tier, reason);
    open_object();
    json_number("tier", tier);
    json_flow(&looked);
    json_number("reason", reason);
    json_text("reason", "_name", mvpn_reason_name(reason));
    if (detail)
        json_text("detail", "", detail);
    close_object();
}

static void json_answer(const explanation *shown)
{
    mvpn_matched match = shown->found.matched;
    json_number("tier", match.tier);
    json_text("tier", "_name", mvpn_tier_name(match.tier));
    if (match.tier != MVPN_NO_TIER) {
        json_route(shown->flow.group.size == 4 ? MVPN_AFI_IPV4 : MVPN_AFI_IPV6, (octets){ shown->output, match.nlri_size });
        json_tunnel((octets){ shown->output + match.nlri_size, match.attribute_size });
    }
    json_name("reasons", "");
    printf("[");
    for (uint32_t tier = 1; tier <= 4; tier++) {
        printf("%s", tier > 1 ? "," : "");
        json_reason(&shown->flow, tier, shown->found.reasons[tier - 1]);
    }
    printf("]");
}

void json_explanation(const explanation *shown)
{
    uint32_t number = shown->found.matched.number;
    open_object();
    json_text("what", "", "why");
    json_address("router", shown->flow.router.octets, shown->flow.router.size);
    json_flow(&shown->flow);
    if (shown->group.number == MVPN_DONE)
        json_text("group class", "", group_class_name(shown->group.group_class));
    if (number == MVPN_DONE)
        json_answer(shown);
    else
        json_refusal(number);
    close_object();
    printf("\n");
    is_first = true;
}
