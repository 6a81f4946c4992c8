/*
 * The words that mvpn.h has for numbers, tiers, reasons, route types and tunnel types: those of a few, and "unknown" for a number that
 * has none. That every number has its name and its text is tests/documents' to see.
 */
#include "checks.h"

static void is(const char *of, uint32_t number, const char *got, const char *expected)
{
    if (strcmp(got, expected) != 0)
        printf("%s of %" PRIu32 ": \"%s\", expected \"%s\"\n", of, number, got, expected);
    same(of, "words", strcmp(got, expected) == 0, 1);
}

typedef struct { const char *of, *(*words)(uint32_t); uint32_t number; const char *expected; } row;

static const row rows[] = {
    { "number_name", mvpn_number_name, MVPN_DONE, "DONE" },
    { "number_name", mvpn_number_name, MVPN_WIDTH, "WIDTH" },
    { "number_name", mvpn_number_name, MVPN_CONFLICT, "CONFLICT" },
    { "number_name", mvpn_number_name, MVPN_CONFLICT + 1, "unknown" },
    { "number_name", mvpn_number_name, UINT32_MAX, "unknown" },
    { "number_text", mvpn_number_text, MVPN_DONE, "the work was done" },
    { "number_text", mvpn_number_text, MVPN_WIDTH, "an address length that the type and family do not allow" },
    { "number_text", mvpn_number_text, MVPN_CONFLICT, "one flow is listed with two different attributes" },
    { "number_text", mvpn_number_text, MVPN_CONFLICT + 1, "unknown" },
    { "number_text", mvpn_number_text, UINT32_MAX, "unknown" },
    { "tier_name", mvpn_tier_name, 0, "none" },
    { "tier_name", mvpn_tier_name, 1, "(C-S,C-G)" },
    { "tier_name", mvpn_tier_name, 2, "(C-S,C-*)" },
    { "tier_name", mvpn_tier_name, 3, "(C-*,C-G)" },
    { "tier_name", mvpn_tier_name, 4, "(C-*,C-*)" },
    { "tier_name", mvpn_tier_name, 5, "unknown" },
    { "reason_name", mvpn_reason_name, 0, "none" },
    { "reason_name", mvpn_reason_name, 1, "taken" },
    { "reason_name", mvpn_reason_name, 2, "no such route" },
    { "reason_name", mvpn_reason_name, 3, "wrong group class" },
    { "reason_name", mvpn_reason_name, 4, "an earlier tier won" },
    { "reason_name", mvpn_reason_name, 5, "unknown" },
    { "route_type_name", mvpn_route_type_name, 0, "unknown" },
    { "route_type_name", mvpn_route_type_name, 1, "Intra-AS I-PMSI A-D" },
    { "route_type_name", mvpn_route_type_name, 2, "Inter-AS I-PMSI A-D" },
    { "route_type_name", mvpn_route_type_name, 3, "S-PMSI A-D" },
    { "route_type_name", mvpn_route_type_name, 4, "Leaf A-D" },
    { "route_type_name", mvpn_route_type_name, 5, "Source Active A-D" },
    { "route_type_name", mvpn_route_type_name, 6, "Shared Tree Join" },
    { "route_type_name", mvpn_route_type_name, 7, "Source Tree Join" },
    { "route_type_name", mvpn_route_type_name, 8, "unknown" },
    { "route_type_name", mvpn_route_type_name, 0x43, "S-PMSI A-D for C-multicast mLDP" },
    { "route_type_name", mvpn_route_type_name, 0x44, "Leaf A-D for C-multicast mLDP" },
    { "route_type_name", mvpn_route_type_name, 0x47, "Source Tree Join for C-multicast mLDP" },
    { "tunnel_type_name", mvpn_tunnel_type_name, 0, "No tunnel information present" },
    { "tunnel_type_name", mvpn_tunnel_type_name, 1, "RSVP-TE P2MP LSP" },
    { "tunnel_type_name", mvpn_tunnel_type_name, 2, "mLDP P2MP LSP" },
    { "tunnel_type_name", mvpn_tunnel_type_name, 3, "PIM-SSM Tree" },
    { "tunnel_type_name", mvpn_tunnel_type_name, 4, "PIM-SM Tree" },
    { "tunnel_type_name", mvpn_tunnel_type_name, 5, "BIDIR-PIM Tree" },
    { "tunnel_type_name", mvpn_tunnel_type_name, 6, "Ingress Replication" },
    { "tunnel_type_name", mvpn_tunnel_type_name, 7, "mLDP MP2MP LSP" },
    { "tunnel_type_name", mvpn_tunnel_type_name, 8, "unknown" },
    { "tunnel_type_name", mvpn_tunnel_type_name, 11, "BIER" },
};

int main(void)
{
    for (size_t i = 0; i < ROWS(rows); i++)
        is(rows[i].of, rows[i].number, rows[i].words(rows[i].number), rows[i].expected);
    return verdict("C words");
}
