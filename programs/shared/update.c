#include "update.h"

#include "mvpn.h"

#include <string.h>

const char *error_action_name(error_action action)
{
    switch (action) {
    case ATTRIBUTE_DISCARD:
        return "attribute discard";
    case TREAT_AS_WITHDRAW:
        return "treat-as-withdraw";
    case AFI_SAFI_DISABLE:
        return "AFI/SAFI disable";
    case SESSION_RESET:
        return "session reset";
    default:
        return "none";
    }
}

enum { MARKER = 16, TYPE_OFFSET = 18 };

/* The one attribute flag that says where the next attribute begins; the others are not judged here. */
enum { EXTENDED_LENGTH = 0x10 };

enum { MP_REACH_NLRI = 14, MP_UNREACH_NLRI = 15, PMSI_TUNNEL = 22 };

enum { SAFI_MCAST_VPN = 5 };

/* ---- octets off the front of what remains; false, with nothing taken, where too few remain */

static bool take(octets *rest, size_t size, octets *taken)
{
    if (rest->size < size)
        return false;
    *taken = (octets){ rest->at, size };
    *rest = octets_behind(*rest, size);
    return true;
}

static bool take_number(octets *rest, size_t size, size_t *number)
{
    octets field;
    if (!take(rest, size, &field))
        return false;
    *number = octets_number(field.at, size);
    return true;
}

/* A part that follows its own size, which is a number of `width` octets. */
static bool take_sized(octets *rest, size_t width, octets *part)
{
    octets after = *rest;
    size_t size;
    if (!take_number(&after, width, &size) || !take(&after, size, part))
        return false;
    *rest = after;
    return true;
}

/* ---- messages */

static const fault no_fault = { NULL, 0, NO_ACTION };

/* What is wrong with a header of which there are so many octets; else how many octets its message has. RFC 4271, section 6.1, resets the
 * session. An input that ends too early is the session's end, or that of a capture. */
static fault header_fault(octets header, size_t *size)
{
    if (header.size < BGP_HEADER)
        return (fault){ "the input ends inside the header", header.size, NO_ACTION };
    for (size_t i = 0; i < MARKER; i++)
        if (header.at[i] != 0xFF)
            return (fault){ "the marker is not all ones", i, SESSION_RESET };
    *size = octets_number(header.at + MARKER, 2);
    if (*size < BGP_HEADER || *size > BGP_LONGEST_MESSAGE)
        return (fault){ "the length is not 19 to 4,096", MARKER, SESSION_RESET };
    return no_fault;
}

static fault ends_inside(size_t got)
{
    return (fault){ "the input ends inside the message", got, NO_ACTION };
}

fault message_read(FILE *input, uint8_t buffer[BGP_LONGEST_MESSAGE], octets *message)
{
    size_t got = fread(buffer, 1, BGP_HEADER, input), size;
    *message = (octets){ buffer, 0 };
    if (got == 0)
        return no_fault;
    fault damage = header_fault((octets){ buffer, got }, &size);
    if (damage.text)
        return damage;
    got += fread(buffer + BGP_HEADER, 1, size - BGP_HEADER, input);
    if (got < size)
        return ends_inside(got);
    message->size = size;
    return no_fault;
}

fault message_take(octets *rest, octets *message)
{
    size_t size;
    *message = (octets){ rest->at, 0 };
    if (rest->size == 0)
        return no_fault;
    fault damage = header_fault(*rest, &size);
    if (damage.text)
        return damage;
    return take(rest, size, message) ? no_fault : ends_inside(rest->size);
}

uint8_t message_type(octets message)
{
    return message.at[TYPE_OFFSET];
}

const char *message_type_name(uint8_t type)
{
    switch (type) {
    case BGP_OPEN:
        return "OPEN";
    case BGP_UPDATE:
        return "UPDATE";
    case BGP_NOTIFICATION:
        return "NOTIFICATION";
    case BGP_KEEPALIVE:
        return "KEEPALIVE";
    case BGP_ROUTE_REFRESH:
        return "ROUTE-REFRESH";
    default:
        return NULL;
    }
}

/* ---- path attributes: what is wrong with the attribute; its offset is not told here */

/* What cannot be read of the routes, or cannot be told apart, resets the session (RFC 7606, sections 3 and 5). */
static fault resets(const char *text)
{
    return (fault){ text, 0, SESSION_RESET };
}

/* Keeps the NLRIs of a family that we use; counts the attribute as not used otherwise. */
static void keep_run(update *found, route_run *kept, size_t afi, size_t safi, octets run)
{
    if (safi == SAFI_MCAST_VPN && (afi == MVPN_AFI_IPV4 || afi == MVPN_AFI_IPV6)) {
        kept->afi = (uint16_t)afi;
        kept->run = run;
    } else
        found->unused++;
}

/* AFI, SAFI, the next hop with its size, a reserved octet, then NLRIs. */
static fault keep_reach(update *found, octets value)
{
    size_t afi, safi;
    octets reserved;
    if (found->reach.given)
        return resets("MP_REACH_NLRI is given twice");
    found->reach.given = found->announces = true;
    if (!take_number(&value, 2, &afi) || !take_number(&value, 1, &safi) ||
        !take_sized(&value, 1, &found->reach.next_hop) || !take(&value, 1, &reserved))
        return resets("MP_REACH_NLRI ends before its NLRIs");
    keep_run(found, &found->reach, afi, safi, value);
    return no_fault;
}

/* AFI, SAFI, then NLRIs. */
static fault keep_unreach(update *found, octets value)
{
    size_t afi, safi;
    if (found->unreach.given)
        return resets("MP_UNREACH_NLRI is given twice");
    found->unreach.given = true;
    if (!take_number(&value, 2, &afi) || !take_number(&value, 1, &safi))
        return resets("MP_UNREACH_NLRI ends before its NLRIs");
    keep_run(found, &found->unreach, afi, safi, value);
    return no_fault;
}

/* Of an attribute that is given twice the first counts and the others are discarded, but MP_REACH_NLRI and MP_UNREACH_NLRI must not be
 * given twice (RFC 7606, section 3). */
static fault keep_attribute(update *found, size_t type, octets value)
{
    found->attributes++;
    switch (type) {
    case MP_REACH_NLRI:
        return keep_reach(found, value);
    case MP_UNREACH_NLRI:
        return keep_unreach(found, value);
    case PMSI_TUNNEL:
        found->repeated += found->tunnel.at != NULL;
        if (!found->tunnel.at)
            found->tunnel = value;
        return no_fault;
    default:
        found->unused++;
        return no_fault;
    }
}

/* Flags, type code, the value with its size in one octet or two. Where they do not fit, the routes are treated as withdrawn (RFC 7606,
 * section 4), and where there are none that are announced, the session is reset (section 5.2). */
static fault read_attribute(octets *attributes, update *found)
{
    size_t flags, type;
    octets value;
    if (!take_number(attributes, 1, &flags) || !take_number(attributes, 1, &type) ||
        !take_sized(attributes, flags & EXTENDED_LENGTH ? 2 : 1, &value))
        return (fault){ "a path attribute runs past the end of the path attributes", 0,
                        found->announces ? TREAT_AS_WITHDRAW : SESSION_RESET };
    return keep_attribute(found, type, value);
}

/* ---- UPDATE */

/* The withdrawn routes before the path attributes, and the NLRIs after them, are IPv4 unicast: not ours. A length past the message's end
 * resets the session (RFC 4271, section 6.3). */
fault update_read(octets message, update *found)
{
    octets rest = octets_behind(message, BGP_HEADER), withdrawn, attributes;
    fault damage = no_fault;
    size_t offset = BGP_HEADER;

    memset(found, 0, sizeof *found);
    if (!take_sized(&rest, 2, &withdrawn))
        return (fault){ "the withdrawn routes run past the message's end", offset, SESSION_RESET };
    offset = (size_t)(rest.at - message.at);
    if (!take_sized(&rest, 2, &attributes))
        return (fault){ "the path attributes run past the message's end", offset, SESSION_RESET };
    found->unicast = withdrawn.size + rest.size;
    found->announces = rest.size > 0;
    while (!damage.text && attributes.size > 0) {
        offset = (size_t)(attributes.at - message.at);
        damage = read_attribute(&attributes, found);
    }
    if (damage.text)
        damage.offset = offset;
    return damage;
}

bool is_end_of_rib(const update *found)
{
    bool is_unicast = found->attributes == 0, is_ours = found->attributes == 1 && found->unreach.afi;
    return found->unicast == 0 && found->unreach.run.size == 0 && (is_unicast || is_ours);
}
