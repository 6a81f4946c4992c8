#include "messages.h"

#include "print.h"
#include "restart.h"
#include "runs.h"
#include "update.h"

/* `from` are the octets of the message from the damaged one on, none where they were not read. */
static void drop(customer_vrf *vrf, fault damage, octets from)
{
    vrf->dropped++;
    printf("dropped, octet %zu: %s", damage.offset, damage.text);
    if (from.size > 0)
        print_refused("from there", from);
    printf("\n");
}

/* ---- UPDATE */

static void treat_routes_as_withdrawn(customer_vrf *vrf, const update *found)
{
    static const octets none = { NULL, 0 };
    printf("  %s, of all routes of the message\n", error_action_name(TREAT_AS_WITHDRAW));
    if (found->unreach.afi)
        use_run(vrf, WITHDRAW, &found->unreach, none);
    if (found->reach.afi)
        use_run(vrf, TREAT_WITHDRAWN, &found->reach, none);
}

static void use_malformed(customer_vrf *vrf, fault damage, octets message, const update *found)
{
    drop(vrf, damage, octets_behind(message, damage.offset));
    if (damage.action == TREAT_AS_WITHDRAW)
        treat_routes_as_withdrawn(vrf, found);
    else
        reset_session(vrf);
}

/* Whether the message has a PMSI Tunnel attribute that the library refuses. Of two attributes the first counts (RFC 7606, section 3). */
static bool has_bad_tunnel(const update *found)
{
    uint32_t number = found->tunnel.at ? mvpn_attribute_read(found->tunnel.at, found->tunnel.size).number : MVPN_DONE;
    if (found->repeated > 0)
        printf("  PMSI Tunnel attribute: given again; %s\n", error_action_name(ATTRIBUTE_DISCARD));
    if (number == MVPN_DONE)
        return false;
    printf("  PMSI Tunnel attribute: refused, ");
    print_number(number);
    print_refused("attribute", found->tunnel);
    printf("\n");
    return true;
}

/* Whether it is an End-of-RIB. */
static bool ends_rib(customer_vrf *vrf, const update *found)
{
    bool is_ours = found->attributes > 0;
    if (!is_end_of_rib(found))
        return false;
    printf("End-of-RIB, %s %s\n", is_ours ? family_name(found->unreach.afi) : "IPv4", is_ours ? "MCAST-VPN" : "unicast");
    if (is_ours)
        use_end_of_rib(vrf, found->unreach.afi);
    return true;
}

/* RFC 6514, section 5, treats the routes of such a message as withdrawn; RFC 7606, section 5.2, resets the session where it announces
 * none, as what was meant cannot be told. */
static void use_bad_tunnel(customer_vrf *vrf, const update *found)
{
    if (found->announces)
        treat_routes_as_withdrawn(vrf, found);
    else
        reset_session(vrf);
}

/* Withdrawals come first: a route that is in both attributes is announced. */
static void use_update(customer_vrf *vrf, octets message)
{
    update found;
    fault damage = update_read(message, &found);
    if (damage.text) {
        use_malformed(vrf, damage, message, &found);
        return;
    }
    if (ends_rib(vrf, &found))
        return;
    printf("path attributes %zu, of them not used %zu\n", found.attributes, found.unused);
    if (has_bad_tunnel(&found)) {
        use_bad_tunnel(vrf, &found);
        return;
    }
    if (found.unreach.afi)
        use_run(vrf, WITHDRAW, &found.unreach, found.tunnel);
    if (found.reach.afi)
        use_run(vrf, ANNOUNCE, &found.reach, found.tunnel);
}

/* ---- messages */

static void use_unknown(customer_vrf *vrf, octets message)
{
    size_t type = BGP_HEADER - 1;
    printf(": ");
    drop(vrf, (fault){ "the type is not 1 to 5", type, SESSION_RESET }, octets_behind(message, type));
    reset_session(vrf);
}

static void use_message(customer_vrf *vrf, octets message)
{
    uint8_t type = message_type(message);
    const char *name = message_type_name(type);
    printf("%s, %zu octets", name ? name : "unknown type", message.size);
    if (type == BGP_OPEN)
        use_open(vrf);
    else if (vrf->is_reset) {
        vrf->ignored++;
        printf(": ignored, the session was reset\n");
    } else if (type == BGP_UPDATE) {
        printf(": ");
        use_update(vrf, message);
    } else if (name)
        printf("\n");
    else
        use_unknown(vrf, message);
}

static void end_messages(customer_vrf *vrf, fault damage)
{
    drop(vrf, damage, (octets){ NULL, 0 });
    if (damage.action == SESSION_RESET)
        reset_session(vrf);
    printf("where the next message begins cannot be told: no more are read\n");
}

bool use_messages(customer_vrf *vrf, FILE *input)
{
    uint8_t buffer[BGP_LONGEST_MESSAGE];
    for (;;) {
        octets message;
        fault damage = message_read(input, buffer, &message);
        if (!damage.text && message.size == 0)
            return !ferror(input);
        vrf->messages++;
        printf("message %zu: ", vrf->messages);
        if (damage.text) {
            end_messages(vrf, damage);
            return false;
        }
        use_message(vrf, message);
    }
}
