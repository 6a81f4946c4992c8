#include "print.h"

#include <inttypes.h>
#include <stdio.h>
#include <string.h>

/* The most octets of what was refused that are printed: those of an attribute that the library takes. */
enum { MOST_OCTETS = MVPN_LONGEST_ATTRIBUTE };

const char *family_name(uint32_t afi)
{
    return afi == MVPN_AFI_IPV4 ? "IPv4" : afi == MVPN_AFI_IPV6 ? "IPv6" : "unknown";
}

const char *group_class_name(uint32_t group_class)
{
    return group_class == MVPN_ASM ? "ASM" : group_class == MVPN_SSM ? "SSM" : "unknown";
}

/* ---- numbers and octets */

void print_number(uint32_t number)
{
    printf("%" PRIu32 " %s (%s)", number, mvpn_number_name(number), mvpn_number_text(number));
}

void print_octets(octets shown)
{
    if (shown.size == 0)
        printf("none");
    for (size_t i = 0; i < shown.size; i++)
        printf("%s%02X", i ? " " : "", shown.at[i]);
}

void print_first_octets(octets shown)
{
    bool are_many = shown.size > MOST_OCTETS;
    print_octets((octets){ shown.at, are_many ? MOST_OCTETS : shown.size });
    if (are_many)
        printf(" and %zu more", shown.size - MOST_OCTETS);
}

void print_bit_string(const uint8_t string[MVPN_BIER_STRING])
{
    for (size_t i = 0; i < MVPN_BIER_STRING; i++)
        printf("%s%02X", i > 0 && i % 8 == 0 ? " " : "", string[i]);
}

/* ---- addresses */

enum { IPV6_PARTS = 8 };

static void print_ipv4(const uint8_t *address)
{
    printf("%u.%u.%u.%u", address[0], address[1], address[2], address[3]);
}

static uint32_t ipv6_part(const uint8_t *address, size_t part)
{
    return octets_number(address + 2 * part, 2);
}

/* How many parts of zero follow one another from this part on. */
static size_t zeros_from(const uint8_t *address, size_t part)
{
    size_t count = 0;
    while (part + count < IPV6_PARTS && ipv6_part(address, part + count) == 0)
        count++;
    return count;
}

/* Where the longest run of zeros begins that "::" stands for, the first of several: RFC 5952, section 4.2. It has two parts or more;
 * where there is none such, its size is 0. */
static size_t longest_zeros(const uint8_t *address, size_t *size)
{
    size_t longest = 0;
    *size = 0;
    for (size_t part = 0; part < IPV6_PARTS; part++) {
        size_t zeros = zeros_from(address, part);
        if (zeros > 1 && zeros > *size) {
            longest = part;
            *size = zeros;
        }
    }
    return longest;
}

/* An address that stands for an IPv4 address ends in its notation: RFC 5952, section 5. */
static bool is_mapped(const uint8_t *address)
{
    return zeros_from(address, 0) == 5 && ipv6_part(address, 5) == 0xFFFF;
}

static void print_ipv6(const uint8_t *address)
{
    size_t zeros, at = longest_zeros(address, &zeros);
    for (size_t part = 0; part < IPV6_PARTS; part++) {
        if (zeros > 0 && part == at) {
            printf("::");
            part += zeros - 1;
        } else
            printf("%s%" PRIx32, part == 0 || (zeros > 0 && part == at + zeros) ? "" : ":", ipv6_part(address, part));
    }
}

void print_address(const uint8_t *address, size_t size)
{
    if (size == 0)
        printf("C-*");
    else if (size == 4)
        print_ipv4(address);
    else if (is_mapped(address)) {
        printf("::ffff:");
        print_ipv4(address + 12);
    } else
        print_ipv6(address);
}

void print_pair(const mvpn_address *source, const mvpn_address *group)
{
    printf("(");
    print_address(source->octets, source->size);
    printf(",");
    print_address(group->octets, group->size);
    printf(")");
}

/* The first two octets say how the other six are divided. */
void print_distinguisher(const uint8_t distinguisher[8])
{
    const uint8_t *value = distinguisher + 2;
    switch (octets_number(distinguisher, 2)) {
    case 0: /* AS of two octets, number of four */
        printf("%" PRIu32 ":%" PRIu32, octets_number(value, 2), octets_number(value + 2, 4));
        break;
    case 1: /* IPv4 address, number of two octets */
        print_ipv4(value);
        printf(":%" PRIu32, octets_number(value + 4, 2));
        break;
    case 2: /* AS of four octets, number of two */
        printf("%" PRIu32 ":%" PRIu32, octets_number(value, 4), octets_number(value + 4, 2));
        break;
    default:
        print_octets((octets){ distinguisher, 8 });
    }
}

/* ---- fields */

/* No flags, and what is not so, are not printed. */
static bool is_printed(const field *shown)
{
    return shown->number != 0 || (shown->kind != FIELD_FLAGS && shown->kind != FIELD_TRUTH);
}

static void print_nested(const field *shown)
{
    fields held = shown->kind == FIELD_NLRI ? nlri_fields((uint16_t)shown->number, shown->value)
                                            : fec_fields(shown->value, shown->number != 0);
    printf("[");
    print_fields(&held);
    printf("]");
}

/* What stands behind the field's name. */
static void print_value(const field *shown)
{
    switch (shown->kind) {
    case FIELD_FLAGS:
        printf("0x%02" PRIX32, shown->number);
        break;
    case FIELD_ADDRESS:
        print_address(shown->address.octets, shown->address.size);
        break;
    case FIELD_DISTINGUISHER:
        print_distinguisher(shown->value.at);
        break;
    case FIELD_OCTETS:
        print_octets(shown->value);
        break;
    case FIELD_NLRI:
    case FIELD_FEC:
        print_nested(shown);
        break;
    default:
        printf("%" PRIu32, shown->number);
    }
}

static void print_field(const field *shown)
{
    if (shown->kind == FIELD_NAMED)
        printf("%s", shown->meaning);
    else if (shown->kind == FIELD_PAIR)
        print_pair(&shown->address, &shown->group);
    else if (shown->kind == FIELD_TRUTH)
        printf("%s", shown->name);
    else if (shown->kind == FIELD_LABEL && shown->number == 0)
        printf("no %s", shown->name);
    else {
        printf("%s ", shown->name);
        print_value(shown);
    }
}

void print_fields(const fields *shown)
{
    for (size_t i = 0; i < shown->count; i++)
        if (is_printed(&shown->of[i])) {
            printf("%s", i ? ", " : "");
            print_field(&shown->of[i]);
        }
}

void print_nlri(uint16_t afi, octets nlri)
{
    fields route = nlri_fields(afi, nlri);
    print_fields(&route);
}

void print_tunnel(octets attribute)
{
    fields tunnel = tunnel_fields(attribute);
    print_fields(&tunnel);
}

void print_identifier(octets attribute)
{
    fields identifier = identifier_fields(attribute);
    if (identifier.count == 0)
        printf("none");
    print_fields(&identifier);
}

void print_attribute(octets attribute)
{
    print_tunnel(attribute);
    if (identifier_fields(attribute).count > 0) {
        printf("; ");
        print_identifier(attribute);
    }
}

/* ---- answers */

void print_flow(const char *what, const customer_flow *flow, mvpn_group group)
{
    printf("%s ", what);
    print_pair(&flow->source, &flow->group);
    printf(" of router ");
    print_address(flow->router.octets, flow->router.size);
    if (group.number == MVPN_DONE)
        printf(", %s group", group_class_name(group.group_class));
    printf("\n");
}

void print_match(uint16_t afi, mvpn_matched match, const uint8_t *output)
{
    octets nlri = { output, match.nlri_size }, attribute = { output + match.nlri_size, match.attribute_size };
    printf("  match:      tier %" PRIu32 ", %s\n  route:      ", match.tier, mvpn_tier_name(match.tier));
    print_nlri(afi, nlri);
    printf("\n  tunnel:     ");
    print_tunnel(attribute);
    printf("\n  identifier: ");
    print_identifier(attribute);
    printf("\n");
}

customer_flow looked_for(const customer_flow *flow, uint32_t tier)
{
    customer_flow looked = *flow;
    if (tier == MVPN_ANY_SOURCE_GROUP || tier == MVPN_ANY_SOURCE_ANY_GROUP)
        looked.source.size = 0;
    if (tier == MVPN_SOURCE_ANY_GROUP || tier == MVPN_ANY_SOURCE_ANY_GROUP)
        looked.group.size = 0;
    return looked;
}

const char *reason_detail(uint32_t tier, uint32_t reason)
{
    if (reason == MVPN_NO_SUCH_ROUTE)
        return "the router has none that names a tunnel";
    if (reason == MVPN_WRONG_GROUP_CLASS)
        return tier == MVPN_SOURCE_ANY_GROUP ? "such a route is for SSM groups, and this group is ASM"
                                             : "such a route is for ASM groups, and this group is SSM";
    return NULL;
}

void print_reasons(const customer_flow *flow, const uint32_t reasons[4])
{
    for (uint32_t tier = 1; tier <= 4; tier++) {
        uint32_t reason = reasons[tier - 1];
        customer_flow looked = looked_for(flow, tier);
        const char *detail = reason_detail(tier, reason);
        printf("  %-11s tier %" PRIu32 ", ", tier == 1 ? "why:" : "", tier);
        print_pair(&looked.source, &looked.group);
        printf(": %s%s%s\n", mvpn_reason_name(reason), detail ? ", " : "", detail ? detail : "");
    }
}
