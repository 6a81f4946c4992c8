#include "vrf.h"

#include "print.h"

#include <stdio.h>

static void start_family(customer_family *family, uint16_t afi)
{
    start_tables(&family->tables, afi);
    family->sources.most = MVPN_MOST_ITEMS;
    family->leaves.most = MVPN_MOST_LEAVES;
}

void start_vrf(customer_vrf *vrf)
{
    start_family(family_of(vrf, MVPN_AFI_IPV4), MVPN_AFI_IPV4);
    start_family(family_of(vrf, MVPN_AFI_IPV6), MVPN_AFI_IPV6);
}

void end_vrf(customer_vrf *vrf)
{
    end_tables(&family_of(vrf, MVPN_AFI_IPV4)->tables);
    end_tables(&family_of(vrf, MVPN_AFI_IPV6)->tables);
}

customer_family *family_of(customer_vrf *vrf, uint16_t afi)
{
    return &vrf->families[afi - MVPN_AFI_IPV4];
}

bool holds_routes(customer_vrf *vrf, uint16_t afi)
{
    customer_family *family = family_of(vrf, afi);
    return route_count(&family->tables) > 0 || family->sources.count > 0 || family->leaves.count > 0;
}

void print_refused(const char *what, octets refused)
{
    printf("\n      %s: ", what);
    print_first_octets(refused);
}
