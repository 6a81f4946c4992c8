/* Routes of each tier for one flow of router 10.0.0.1 and source 192.0.2.1, to an SSM or an ASM group; with a tunnel or without. */
#ifndef TIERS_H
#define TIERS_H

#include "checks.h"

#define ROUTER "0A000001 "
#define SOURCE "C0000201 "
#define SSM "E8010101 "
#define ASM "EF010101 "

/* A route distinguisher and an IPv6 address that end in N. */
#define RD(n) "00000064000000" n " "
#define IPV6(n) "20010DB8 00000000 00000000 000000" n " "

/* Their NLRIs, with the route distinguisher that ends in N. */
#define TIER_1(n, group) "0316 " RD(n) "20 " SOURCE "20 " group ROUTER
#define TIER_2(n) "0312 " RD(n) "20 " SOURCE "00 " ROUTER
#define TIER_3(n, group) "0312 " RD(n) "00 20 " group ROUTER
#define TIER_4(n) "030E " RD(n) "00 00 " ROUTER

/* The attribute of ingress replication with label field N, and one that names no tunnel. */
#define TUNNEL(n) "00 06 0000" n " 0A000001"
#define NONE "01 00 000000"

/* The most routes of a row's table; the first without NLRI ends them. */
enum { MOST = 5 };

/* Which of them is taken. */
enum { FIRST, SECOND, THIRD, FOURTH, NOBODY };

static inline lent holding_row(const route routes[MOST])
{
    size_t count = 0;
    while (count < MOST && routes[count].nlri)
        count++;
    return holding(1, MOST, routes, count);
}

static inline const route *taken_of(const route routes[MOST], size_t taken)
{
    return taken == NOBODY ? NULL : &routes[taken];
}

#endif
