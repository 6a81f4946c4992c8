#include "fields.h"
#include "print.h"
#include "show.h"
#include "tables.h"
#include "tell.h"
#include "text.h"
#include "update.h"

typedef struct {
    const view *shown;
    route_tables tables[2]; /* of IPv4 and IPv6: the routes that the messages leave, for flows that are explained */
    size_t count;           /* messages so far */
    bool is_refused;
} session;

/* The line of what stands at these octets of the message that is told. */
static line line_at(const session *told, line_kind kind, octets message, const uint8_t *at)
{
    return (line){ .kind = kind, .message = told->count, .has_octet = true, .octet = (size_t)(at - message.at) };
}

/* `read` is what was read of the message: its header alone where that is damaged. */
static void tell_fault(session *told, fault damage, octets read)
{
    line refused = { .kind = LINE_REFUSED, .message = told->count, .has_octet = true, .octet = damage.offset, .fault = damage.text };
    if (damage.offset < read.size)
        refused.unread = octets_behind(read, damage.offset);
    tell(told->shown, &refused);
    told->is_refused = true;
}

static void refuse_route(session *told, const line *route, octets nlri, uint32_t number)
{
    line refused = *route;
    refused.kind = LINE_REFUSED;
    refused.nlri = nlri;
    if (route->attribute.size > 0)
        refused.number = number;
    else
        refused.fault = "no PMSI Tunnel attribute that can be read";
    tell(told->shown, &refused);
    told->is_refused = true;
}

/* An S-PMSI A-D route that is announced without a tunnel that install takes is treated as withdrawn (RFC 6514, section 5). */
static void keep_route(session *told, const line *route, octets nlri)
{
    route_tables *tables = &told->tables[route->afi - MVPN_AFI_IPV4];
    uint32_t number = MVPN_DONE;
    if (route->kind == LINE_ANNOUNCED)
        number = install_route(tables, nlri, route->attribute).number;
    if (route->kind == LINE_WITHDRAWN || number != MVPN_DONE)
        withdraw_route(tables, nlri);
    if (number != MVPN_DONE)
        refuse_route(told, route, nlri, number);
}

/* Of a run with an NLRI that is refused, no route is kept. */
static void keep_routes(session *told, const line *whole, octets run)
{
    mvpn_stepped step;
    size_t at = 0;
    if (mvpn_walk(whole->afi, MVPN_SKIP, run.at, run.size).number != MVPN_DONE)
        return;
    while ((step = mvpn_step(whole->afi, run.at, run.size, at)).number != MVPN_DONE || step.layout.route_type != 0) {
        octets nlri = front_nlri(octets_behind(run, at));
        line route = *whole;
        route.octet += at;
        if (step.layout.route_type == MVPN_S_PMSI)
            keep_route(told, &route, nlri);
        at += nlri.size;
    }
}

static void tell_routes_of(session *told, line_kind kind, octets message, const route_run *routes, octets tunnel)
{
    if (!routes->afi)
        return;
    line whole = line_at(told, kind, message, routes->run.at);
    whole.afi = routes->afi;
    whole.next_hop = routes->next_hop;
    whole.attribute = tunnel;
    if (!tell_run(told->shown, &whole, routes->run))
        told->is_refused = true;
    if (told->shown->flow_count > 0)
        keep_routes(told, &whole, routes->run);
}

/* The tunnel of the announced routes; where it is refused, none. */
static octets tunnel_of(session *told, octets message, octets tunnel)
{
    line read = line_at(told, LINE_ATTRIBUTE, message, tunnel.at ? tunnel.at : message.at);
    if (!tunnel.at || mvpn_attribute_read(tunnel.at, tunnel.size).number == MVPN_DONE)
        return tunnel;
    tell_attribute(told->shown, &read, tunnel);
    told->is_refused = true;
    return (octets){ NULL, 0 };
}

static void tell_end_of_rib(session *told, const update *found)
{
    line end = { .kind = LINE_END_OF_RIB, .message = told->count };
    bool is_ours = found->attributes > 0;
    uint32_t afi = is_ours ? found->unreach.afi : MVPN_AFI_IPV4;
    add_named(&end.facts, "AFI", afi, family_name(afi));
    add_named(&end.facts, "SAFI", is_ours ? 5 : 1, is_ours ? "MCAST-VPN" : "unicast");
    tell(told->shown, &end);
}

/* Withdrawals come first: a route that is in both attributes is announced. */
static void tell_update(session *told, octets message)
{
    update found;
    fault damage = update_read(message, &found);
    if (damage.text) {
        tell_fault(told, damage, message);
        return;
    }
    if (is_end_of_rib(&found)) {
        tell_end_of_rib(told, &found);
        return;
    }
    octets tunnel = tunnel_of(told, message, found.tunnel), none = { NULL, 0 };
    tell_routes_of(told, LINE_WITHDRAWN, message, &found.unreach, none);
    tell_routes_of(told, LINE_ANNOUNCED, message, &found.reach, tunnel);
}

static void tell_message(session *told, octets message)
{
    uint8_t type = message_type(message);
    const char *name = message_type_name(type);
    line header = { .kind = LINE_MESSAGE, .message = told->count };
    add_named(&header.facts, "message type", type, name ? name : "unknown");
    add_number(&header.facts, FIELD_NUMBER, "length", (uint32_t)message.size);
    tell(told->shown, &header);
    if (type == BGP_UPDATE)
        tell_update(told, message);
    else if (!name)
        tell_fault(told, (fault){ "the type is not 1 to 5", BGP_HEADER - 1, SESSION_RESET }, message);
}

/* Behind a message whose header is damaged no other is found. */
static void tell_messages(session *told, octets input)
{
    octets rest = input, message;
    for (;;) {
        fault damage = message_take(&rest, &message);
        if (!damage.text && message.size == 0)
            return;
        told->count++;
        if (damage.text) {
            tell_fault(told, damage, (octets){ rest.at, rest.size < BGP_HEADER ? rest.size : BGP_HEADER });
            return;
        }
        tell_message(told, message);
    }
}

static mvpn_explained explain_in_tables(const void *tables, octets prefixes, const customer_flow *flow,
                                        uint8_t output[MVPN_MATCH_OUTPUT])
{
    return explain_flow((const route_tables *)tables + (afi_of(&flow->group) - MVPN_AFI_IPV4), prefixes, flow, output);
}

bool show_messages(const view *shown, octets input)
{
    session told = { .shown = shown };
    start_tables(&told.tables[0], MVPN_AFI_IPV4);
    start_tables(&told.tables[1], MVPN_AFI_IPV6);
    tell_messages(&told, input);
    bool are_explained = tell_explanations(shown, explain_in_tables, told.tables);
    end_tables(&told.tables[0]);
    end_tables(&told.tables[1]);
    return are_explained && !told.is_refused;
}
