/* Routes, tunnels, numbers and answers in words, on standard output. No line feed stands before or after them, but where it is said. */
#ifndef PRINT_H
#define PRINT_H

#include "fields.h"
#include "flow.h"
#include "mvpn.h"
#include "octets.h"

/* "IPv4", "SSM"; "unknown" for other numbers. */
const char *family_name(uint32_t afi);
const char *group_class_name(uint32_t group_class);

/* ---- values */

/* "1 SHORT (fewer octets than ..)" */
void print_number(uint32_t number);

/* In hexadecimal: "03 0E"; "none" for no octets. */
void print_octets(octets shown);

/* The same; of many octets the first 64, and how many more there are. */
void print_first_octets(octets shown);

/* "10.0.0.1"; "2001:db8::1", as RFC 5952 has it; "C-*" for the wildcard, which has no octets. */
void print_address(const uint8_t *address, size_t size);

/* "100:7", "10.0.0.1:7", "65536:7" (RFC 4364, section 4.2); one of another type in hexadecimal. */
void print_distinguisher(const uint8_t distinguisher[8]);

/* "(192.0.2.1,232.1.1.1)", "(C-*,232.1.1.1)" */
void print_pair(const mvpn_address *source, const mvpn_address *group);

/* ---- what the library has read, field after field */

void print_fields(const fields *shown);

/* "S-PMSI A-D, RD 100:7, (C-*,C-*), originator 10.0.0.1" */
void print_nlri(uint16_t afi, octets nlri);

/* Of a PMSI Tunnel attribute: "BIER, label 1000"; "sub-domain 0, BFR-id 1, BFR-prefix 10.0.0.1", or "none"; both, with a semicolon between
 * them. */
void print_tunnel(octets attribute);
void print_identifier(octets attribute);
void print_attribute(octets attribute);

/* A bit string of BIER, in hexadecimal, in words of eight octets. */
void print_bit_string(const uint8_t string[MVPN_BIER_STRING]);

/* ---- answers, in whole lines that end in a line feed */

/* The flow, its router and, where the group has one, its class. */
void print_flow(const char *what, const customer_flow *flow, mvpn_group group);

/* The tier, the route and the tunnel of an answer that has a route. The output of a match holds the route's NLRI and, straight after it,
 * its attribute. */
void print_match(uint16_t afi, mvpn_matched match, const uint8_t *output);

/* What each tier looks for, and why it was taken or not. */
void print_reasons(const customer_flow *flow, const uint32_t reasons[4]);

/* The source and the group that a tier looks for, each as the flow has it or the wildcard. */
customer_flow looked_for(const customer_flow *flow, uint32_t tier);

/* More than the reason's name says of it; NULL where there is no more to say. */
const char *reason_detail(uint32_t tier, uint32_t reason);

#endif
