#include "fields.h"

#include <string.h>

/* ---- a field more */

static field *add(fields *found, field_kind kind, const char *name)
{
    field *added = &found->of[found->count++];
    memset(added, 0, sizeof *added);
    added->kind = kind;
    added->name = name;
    return added;
}

void add_named(fields *found, const char *name, uint32_t number, const char *meaning)
{
    field *added = add(found, FIELD_NAMED, name);
    added->number = number;
    added->meaning = meaning;
}

void add_number(fields *found, field_kind kind, const char *name, uint32_t number)
{
    add(found, kind, name)->number = number;
}

void add_address(fields *found, const char *name, const uint8_t *address, size_t size)
{
    field *added = add(found, FIELD_ADDRESS, name);
    memcpy(added->address.octets, address, size);
    added->address.size = (uint8_t)size;
}

static void add_value(fields *found, field_kind kind, const char *name, octets value, uint32_t number)
{
    field *added = add(found, kind, name);
    added->value = value;
    added->number = number;
}

static void add_pair(fields *found, const mvpn_address *source, const mvpn_address *group)
{
    field *added = add(found, FIELD_PAIR, "flow");
    added->address = *source;
    added->group = *group;
}

/* ---- NLRIs: route types by the fields that they have (RFC 6514, section 4; RFC 7441, section 3) */

enum { DISTINGUISHER = 8 };

static bool has_distinguisher(uint8_t type)
{
    return type != MVPN_LEAF && type != MVPN_MLDP_LEAF;
}

static bool has_source_as(uint8_t type)
{
    return type == MVPN_INTER_AS_I_PMSI || type == MVPN_SHARED_TREE_JOIN || type == MVPN_SOURCE_TREE_JOIN ||
           type == MVPN_MLDP_SOURCE_TREE_JOIN;
}

static bool has_pair(uint8_t type)
{
    return type == MVPN_S_PMSI || type == MVPN_SOURCE_ACTIVE || type == MVPN_SHARED_TREE_JOIN || type == MVPN_SOURCE_TREE_JOIN;
}

/* An NLRI has its header, and then as many octets as its Length says. */
octets front_nlri(octets rest)
{
    size_t size = rest.size < MVPN_NLRI_HEADER ? rest.size : MVPN_NLRI_HEADER + (size_t)rest.at[1];
    return (octets){ rest.at, size < rest.size ? size : rest.size };
}

/* The route distinguisher is the first field of every type that has one. */
fields nlri_fields(uint16_t afi, octets nlri)
{
    mvpn_nlri_reading reading = mvpn_nlri_read(afi, nlri.at, nlri.size);
    const mvpn_nlri *route = &reading.nlri;
    fields found = { .count = 0 };
    add_named(&found, "route type", route->route_type, mvpn_route_type_name(route->route_type));
    if (has_distinguisher(route->route_type))
        add_value(&found, FIELD_DISTINGUISHER, "RD", (octets){ nlri.at + MVPN_NLRI_HEADER, DISTINGUISHER }, 0);
    if (has_source_as(route->route_type))
        add_number(&found, FIELD_NUMBER, "source AS", route->source_as);
    if (has_pair(route->route_type))
        add_pair(&found, &route->source, &route->group);
    if (reading.key.size > 0)
        add_value(&found, FIELD_NLRI, "key", (octets){ nlri.at + reading.key.start, reading.key.size }, afi);
    if (reading.fec.size > 0)
        add_value(&found, FIELD_FEC, "FEC", (octets){ nlri.at + reading.fec.start, reading.fec.size }, true);
    if (route->originator.size > 0)
        add_address(&found, "originator", route->originator.octets, route->originator.size);
    return found;
}

/* ---- FEC elements */

/* The octets before the root: type 1, address family 2, address length 1. */
enum { FEC_HEADER = 4 };

/* Opaque values, by the type that they open with: a number that names an LSP (RFC 6388, section 2.3.1); a FEC element, in the second of
 * them behind a route distinguisher (RFC 6512). A length of two octets stands behind the type. */
enum { OPAQUE_GENERIC = 1, OPAQUE_RECURSIVE = 7, OPAQUE_VPN_RECURSIVE = 8, OPAQUE_HEADER = 3, GENERIC_SIZE = 4 };

static const char *fec_type_name(uint32_t fec_type)
{
    switch (fec_type) {
    case MVPN_FEC_P2MP: return "P2MP";
    case MVPN_FEC_MP2MP_UP: return "MP2MP upstream";
    case MVPN_FEC_MP2MP_DOWN: return "MP2MP downstream";
    default: return "unknown";
    }
}

static bool is_generic(octets opaque)
{
    return opaque.size == OPAQUE_HEADER + GENERIC_SIZE && opaque.at[0] == OPAQUE_GENERIC &&
           octets_number(opaque.at + 1, 2) == GENERIC_SIZE;
}

static bool holds_fec(octets opaque)
{
    return opaque.size > 0 && (opaque.at[0] == OPAQUE_RECURSIVE || opaque.at[0] == OPAQUE_VPN_RECURSIVE);
}

static void add_opaque(fields *found, octets opaque, bool is_read)
{
    if (is_read && holds_fec(opaque)) {
        octets held = octets_behind(opaque, OPAQUE_HEADER);
        if (opaque.at[0] == OPAQUE_VPN_RECURSIVE) {
            add_value(found, FIELD_DISTINGUISHER, "RD", (octets){ held.at, DISTINGUISHER }, 0);
            held = octets_behind(held, DISTINGUISHER);
        }
        add_value(found, FIELD_FEC, "FEC", held, true);
    } else if (is_generic(opaque))
        add_number(found, FIELD_NUMBER, "generic LSP identifier", octets_number(opaque.at + OPAQUE_HEADER, GENERIC_SIZE));
    else
        add_value(found, FIELD_OCTETS, "opaque value", opaque, 0);
}

fields fec_fields(octets fec, bool is_read)
{
    fields found = { .count = 0 };
    size_t root_size = fec.at[FEC_HEADER - 1];
    const uint8_t *opaque_length = fec.at + FEC_HEADER + root_size;
    add_named(&found, "FEC type", fec.at[0], fec_type_name(fec.at[0]));
    add_address(&found, "root", fec.at + FEC_HEADER, root_size);
    add_opaque(&found, (octets){ opaque_length + 2, octets_number(opaque_length, 2) }, is_read);
    return found;
}

/* ---- tunnels (RFC 6514, section 5; RFC 8556, section 2) */

fields tunnel_fields(octets attribute)
{
    mvpn_attribute_reading tunnel = mvpn_attribute_read(attribute.at, attribute.size);
    fields found = { .count = 0 };
    add_named(&found, "tunnel type", tunnel.tunnel_type, mvpn_tunnel_type_name(tunnel.tunnel_type));
    add_number(&found, FIELD_LABEL, "label", tunnel.label);
    add_number(&found, FIELD_FLAGS, "flags", tunnel.flags);
    add_number(&found, FIELD_TRUTH, "leaf information required", tunnel.leaf_information_required);
    return found;
}

/* Whether a FEC element that stands in an attribute, where the library does not read opaque values, is one that it reads in an NLRI. An
 * attribute has 64 octets at the most, so that an NLRI holds each. */
static bool fec_is_read(octets fec)
{
    uint8_t nlri[MVPN_NLRI_HEADER + DISTINGUISHER + MVPN_LONGEST_ATTRIBUTE + 4] = { MVPN_MLDP_S_PMSI };
    size_t body = DISTINGUISHER + fec.size + 4;
    nlri[1] = (uint8_t)body;
    memcpy(nlri + MVPN_NLRI_HEADER + DISTINGUISHER, fec.at, fec.size);
    return mvpn_nlri_read((uint16_t)octets_number(fec.at + 1, 2), nlri, MVPN_NLRI_HEADER + body).number == MVPN_DONE;
}

/* Extended tunnel ID 4, which is the root's address, reserved 2, tunnel ID 2, P2MP ID 4. */
static void add_rsvp_te(fields *found, const uint8_t *identifier)
{
    add_address(found, "extended tunnel ID", identifier, 4);
    add_number(found, FIELD_NUMBER, "tunnel ID", octets_number(identifier + 6, 2));
    add_number(found, FIELD_NUMBER, "P2MP ID", octets_number(identifier + 8, 4));
}

/* Two addresses of one size. */
static void add_pim(fields *found, const char *first, octets identifier)
{
    size_t size = identifier.size / 2;
    add_address(found, first, identifier.at, size);
    add_address(found, "P-multicast group", identifier.at + size, size);
}

/* Sub-domain 1, BFR-id 2, BFR-prefix 4 or 16. */
static void add_bier(fields *found, octets identifier)
{
    add_number(found, FIELD_NUMBER, "sub-domain", identifier.at[0]);
    add_number(found, FIELD_NUMBER, "BFR-id", octets_number(identifier.at + 1, 2));
    add_address(found, "BFR-prefix", identifier.at + 3, identifier.size - 3);
}

/* The library has read the attribute, so the identifier has its tunnel type's form. */
fields identifier_fields(octets attribute)
{
    mvpn_attribute_reading tunnel = mvpn_attribute_read(attribute.at, attribute.size);
    octets identifier = { attribute.at + tunnel.identifier.start, tunnel.identifier.size };
    fields found = { .count = 0 };
    switch (tunnel.tunnel_type) {
    case MVPN_TUNNEL_RSVP_TE_P2MP:
        add_rsvp_te(&found, identifier.at);
        break;
    case MVPN_TUNNEL_MLDP_P2MP:
    case MVPN_TUNNEL_MLDP_MP2MP:
        add_value(&found, FIELD_FEC, "FEC", identifier, fec_is_read(identifier));
        break;
    case MVPN_TUNNEL_PIM_SSM:
        add_pim(&found, "P-root node", identifier);
        break;
    case MVPN_TUNNEL_PIM_SM:
    case MVPN_TUNNEL_BIDIR_PIM:
        add_pim(&found, "sender", identifier);
        break;
    case MVPN_TUNNEL_INGRESS_REPLICATION:
        add_address(&found, "endpoint", identifier.at, identifier.size);
        break;
    case MVPN_TUNNEL_BIER:
        add_bier(&found, identifier);
        break;
    default:
        break;
    }
    return found;
}
