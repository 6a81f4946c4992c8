#!/usr/bin/env bash
# Writes the sample messages as files of octets: make.bash FOLDER.
#
# Every function prints octets as hexadecimal digits. Lengths are counted, so what is damaged is damaged on purpose.
set -euo pipefail
folder=$1

# ---- numbers and addresses

# number OCTETS VALUE
number() {
    printf "%0$((2 * $1))X" "$2"
}

# sized OCTETS PART: the part behind its size, a number of that many octets.
sized() {
    number "$1" $((${#2} / 2))
    printf '%s' "$2"
}

# parts SEPARATOR FORMAT TEXT: each part of the text in that format.
parts() {
    local list
    IFS=$1 read -ra list <<<"$3"
    [ ${#list[@]} -eq 0 ] || printf "$2" "${list[@]}"
}

# address TEXT: an IPv4 address, or an IPv6 address in which '::' stands once; '*' is the wildcard, no octets.
address() {
    local front back
    case $1 in
    '*') ;;
    *::*)
        front=$(parts : '%4s' "${1%%::*}") back=$(parts : '%4s' "${1##*::}")
        printf "$front%$((32 - ${#front} - ${#back}))s$back" '' | tr ' a-f' '0A-F'
        ;;
    *) parts . '%02X' "$1" ;;
    esac
}

# rd TYPE:AS:NUMBER, rd 1:ADDRESS:NUMBER: a route distinguisher (RFC 4364, section 4.2); other types as six octets.
rd() {
    local type part last
    IFS=: read -r type part last <<<"$1"
    number 2 "$type"
    case $type in
    0) printf '%s%s' "$(number 2 "$part")" "$(number 4 "$last")" ;;
    1) printf '%s%s' "$(address "$part")" "$(number 2 "$last")" ;;
    2) printf '%s%s' "$(number 4 "$part")" "$(number 2 "$last")" ;;
    *) printf '%s' "$part" ;;
    esac
}

# ---- NLRIs (RFC 6514, section 4; RFC 6625, section 2)

# nlri TYPE BODY
nlri() {
    number 1 "$1"
    sized 1 "$2"
}

# field ADDRESS: the address behind its length in bits.
field() {
    local octets
    octets=$(address "$1")
    number 1 $((4 * ${#octets}))
    printf '%s' "$octets"
}

# s_pmsi RD SOURCE GROUP ORIGINATOR
s_pmsi() {
    nlri 3 "$(rd "$1")$(field "$2")$(field "$3")$(address "$4")"
}

# leaf KEY ORIGINATOR
leaf() {
    nlri 4 "$1$(address "$2")"
}

# source_active RD SOURCE GROUP
source_active() {
    nlri 5 "$(rd "$1")$(field "$2")$(field "$3")"
}

# ---- NLRIs for mLDP (RFC 7441, section 3; RFC 6388, section 2.2; RFC 6512)

# fec TYPE ROOT OPAQUE: an mLDP FEC element.
fec() {
    local root family=0001
    root=$(address "$2")
    [ ${#root} -eq 8 ] || family=0002
    printf '%s%s' "$1" "$family"
    sized 1 "$root"
    sized 2 "$3"
}

# generic NUMBER: the opaque value that is a number of four octets; recursive FEC, vpn_recursive RD FEC: one that holds a FEC element.
generic() {
    printf '01'
    sized 2 "$(number 4 "$1")"
}

recursive() {
    printf '07'
    sized 2 "$1"
}

vpn_recursive() {
    printf '08'
    sized 2 "$(rd "$1")$2"
}

# mldp_s_pmsi RD FEC ORIGINATOR, mldp_leaf KEY ORIGINATOR, mldp_join RD AS FEC
mldp_s_pmsi() {
    nlri 67 "$(rd "$1")$2$(address "$3")"
}

mldp_leaf() {
    nlri 68 "$1$(address "$2")"
}

mldp_join() {
    nlri 71 "$(rd "$1")$(number 4 "$2")$3"
}

# one_of_each: an NLRI of each route type of RFC 6514 but S-PMSI A-D, and one of a route type that is not defined.
one_of_each() {
    local rd as=0000FDE8
    rd=$(rd 0:100:7)
    nlri 1 "$rd$(address 10.0.0.1)"
    nlri 2 "$rd$as"
    leaf "$(s_pmsi 0:100:7 '*' '*' 10.0.0.1)" 10.0.0.2
    source_active 0:100:7 192.0.2.1 239.1.1.1
    nlri 6 "$rd$as$(field 192.0.2.9)$(field 239.1.1.1)"
    nlri 7 "$rd$as$(field 192.0.2.1)$(field 232.1.1.1)"
    nlri 9 ABCDEF
}

# ---- path attributes (RFC 4271, section 4.3; RFC 4760)

# attribute FLAGS TYPE VALUE
attribute() {
    printf '%s' "$1"
    number 1 "$2"
    sized 1 "$3"
}

# extended FLAGS TYPE VALUE: with the length in two octets.
extended() {
    number 1 $((0x$1 | 0x10))
    number 1 "$2"
    sized 2 "$3"
}

# reach_value NEXT_HOP AFI NLRIS, unreach_value AFI NLRIS: of SAFI 5.
reach_value() {
    printf '%s05%s00%s' "$(number 2 "$2")" "$(sized 1 "$(address "$1")")" "$3"
}

unreach_value() {
    printf '%s05%s' "$(number 2 "$1")" "$2"
}

# reach_by NEXT_HOP AFI NLRI...
reach_by() {
    local IFS=
    attribute 80 14 "$(reach_value "$1" "$2" "${*:3}")"
}

# reach AFI NLRI..., unreach AFI NLRI...: the next hop is of the same family.
reach() {
    local next_hop=10.0.0.1
    [ "$1" -ne 2 ] || next_hop=2001:db8::1
    reach_by $next_hop "$@"
}

unreach() {
    local IFS=
    attribute 80 15 "$(unreach_value "$1" "${*:2}")"
}

# The attributes that any BGP route has, and a Route Target: ORIGIN, AS_PATH, LOCAL_PREF, EXTENDED COMMUNITIES.
usual() {
    attribute 40 1 00
    attribute 40 2 ''
    attribute 40 5 00000064
    attribute C0 16 0002006400000007
}

# ---- tunnels (RFC 6514, section 5; RFC 8556, section 2)

# tunnel_value FLAGS TYPE LABEL IDENTIFIER
tunnel_value() {
    printf '%s' "$1"
    number 1 "$2"
    number 3 $(($3 * 16))
    printf '%s' "$4"
}

# tunnel FLAGS TYPE LABEL IDENTIFIER
tunnel() {
    attribute C0 22 "$(tunnel_value "$@")"
}

no_tunnel() {
    tunnel "$1" 0 0 ''
}

# rsvp_te ROOT TUNNEL P2MP
rsvp_te() {
    tunnel 00 1 0 "$(address "$1")0000$(number 2 "$2")$(number 4 "$3")"
}

# mldp_p2mp ROOT OPAQUE, mldp_mp2mp FEC_TYPE ROOT OPAQUE
mldp_p2mp() {
    tunnel 00 2 0 "$(fec 06 "$1" "$2")"
}

mldp_mp2mp() {
    tunnel 00 7 0 "$(fec "$1" "$2" "$3")"
}

# pim TYPE ADDRESS GROUP
pim() {
    tunnel 00 "$1" 0 "$(address "$2")$(address "$3")"
}

# ingress_replication FLAGS LABEL ENDPOINT
ingress_replication() {
    tunnel "$1" 6 "$2" "$(address "$3")"
}

# bier FLAGS LABEL SUBDOMAIN BFR_ID PREFIX
bier() {
    tunnel "$1" 11 "$2" "$(number 1 "$3")$(number 2 "$4")$(address "$5")"
}

# ---- messages (RFC 4271, section 4)

marker=FFFFFFFFFFFFFFFFFFFFFFFFFFFFFFFF

# message TYPE BODY
message() {
    printf '%s%s%s%s' "$marker" "$(number 2 $((19 + ${#2} / 2)))" "$(number 1 "$1")" "$2"
}

# opened: an OPEN (version 4, AS 100, hold time 90), by which a session begins.
opened() {
    message 1 "04$(number 2 100)$(number 2 90)$(address 10.0.0.1)00"
}

# in_sessions: messages that are read, each of them in a session of its own.
in_sessions() {
    sed "s/$marker/$(opened)&/g"
}

# graceful_open FLAGS_AND_TIME: an OPEN (version 4, AS 100, hold time 90) with the Graceful Restart Capability (RFC 5492; RFC
# 4724, section 3) for MCAST-VPN of IPv4 and IPv6, whose forwarding state was kept.
graceful_open() {
    local capability
    capability=40$(sized 1 "${1}0001058000020580")
    message 1 "04$(number 2 100)$(number 2 90)$(address 10.0.0.9)$(sized 1 "02$(sized 1 "$capability")")"
}

# update ATTRIBUTE...
update() {
    local IFS=
    message 2 "0000$(sized 2 "$*")"
}

# unicast_update WITHDRAWN NLRI ATTRIBUTE...: an UPDATE that speaks of IPv4 unicast routes as well.
unicast_update() {
    local IFS=
    message 2 "$(sized 2 "$1")$(sized 2 "${*:3}")$2"
}

# ---- the samples

ipv4() {
    local mldp deep

    # OPEN, KEEPALIVE, ROUTE-REFRESH: no routes in them
    opened
    message 4 ''
    message 5 00010005

    update "$(usual)" "$(reach 1 "$(s_pmsi 0:100:7 192.0.2.1 232.1.1.1 10.0.0.1)")" "$(mldp_p2mp 10.0.0.1 "$(generic 42)")"
    update "$(usual)" "$(reach 1 "$(s_pmsi 0:100:7 192.0.2.1 '*' 10.0.0.1)" "$(s_pmsi 0:100:7 192.0.2.9 '*' 10.0.0.1)")" \
        "$(pim 3 10.0.0.1 232.0.0.1)"
    update "$(usual)" "$(reach 1 "$(s_pmsi 0:100:7 '*' 239.1.1.1 10.0.0.1)")" "$(rsvp_te 10.0.0.1 5 1)"
    update "$(usual)" "$(reach 1 "$(s_pmsi 0:100:7 '*' '*' 10.0.0.1)" "$(s_pmsi 0:100:7 '*' 232.9.9.9 10.0.0.1)")" \
        "$(ingress_replication 01 3000 10.0.0.1)"

    # one source and group under three route distinguishers, the lowest neither first nor last
    update "$(usual)" "$(reach 1 "$(s_pmsi 1:10.0.0.1:9 192.0.2.1 239.2.2.2 10.0.0.1)")" "$(pim 3 10.0.0.1 232.0.0.2)"
    update "$(usual)" "$(reach 1 "$(s_pmsi 0:100:9 192.0.2.1 239.2.2.2 10.0.0.1)")" "$(pim 3 10.0.0.1 232.0.0.3)"
    update "$(usual)" "$(reach 1 "$(s_pmsi 2:65536:9 192.0.2.1 239.2.2.2 10.0.0.1)")" "$(pim 3 10.0.0.1 232.0.0.4)"

    # tracking (RFC 8556, section 4.1), which names no tunnel: under a lower route distinguisher still, for one source of a
    # group that has a route, and for one that is withdrawn below
    update "$(usual)" "$(reach 1 "$(s_pmsi 0:100:1 192.0.2.1 239.2.2.2 10.0.0.1)" \
        "$(s_pmsi 0:100:7 192.0.2.3 239.1.1.1 10.0.0.1)" "$(s_pmsi 0:100:7 192.0.2.3 239.1.1.2 10.0.0.1)")" "$(no_tunnel 01)"

    # routers with one route for everything, each with another kind of tunnel and of route distinguisher; the last one's names
    # no tunnel
    update "$(usual)" "$(reach 1 "$(s_pmsi 1:10.0.0.2:7 '*' '*' 10.0.0.2)")" "$(pim 4 10.0.0.2 239.0.0.1)"
    update "$(usual)" "$(reach 1 "$(s_pmsi 2:65536:7 '*' '*' 10.0.0.3)")" "$(pim 5 10.0.0.3 239.0.0.2)"
    update "$(usual)" "$(reach 1 "$(s_pmsi 0:100:8 '*' '*' 10.0.0.4)")" "$(rsvp_te 10.0.0.4 6 2)"
    update "$(usual)" "$(reach 1 "$(s_pmsi 0:100:8 '*' '*' 10.0.0.5)")" "$(mldp_mp2mp 08 10.0.0.99 "$(generic 43)")"
    update "$(usual)" "$(reach 1 "$(s_pmsi 0:100:8 '*' '*' 10.0.0.6)")" "$(no_tunnel 01)"

    update "$(usual)" "$(reach 1 "$(one_of_each)" "$(s_pmsi 0:100:7 192.0.2.7 232.7.7.7 10.0.0.1)")" \
        "$(bier 00 1001 0 1 10.0.0.1)"

    # route types that are not defined: first, one behind another, last; with no body and with the longest; alone
    update "$(usual)" "$(reach 1 "$(nlri 0 '')" "$(nlri 255 AB)" "$(s_pmsi 0:100:7 192.0.2.8 232.7.7.7 10.0.0.1)" "$(nlri 9 '')")" \
        "$(bier 00 1001 0 1 10.0.0.1)"
    update "$(extended 80 15 "$(unreach_value 1 "$(nlri 8 "$(printf '%0510d' 0)")$(s_pmsi 0:100:7 192.0.2.8 232.7.7.7 10.0.0.1)")")"
    update "$(unreach 1 "$(nlri 9 ABCDEF)")"

    # one of each type for mLDP; then FEC elements four deep, one of them with an IPv6 root, and an opaque value that holds none
    mldp=$(mldp_s_pmsi 0:100:7 "$(fec 06 192.0.2.11 "$(generic 42)")" 10.0.0.1)
    update "$(usual)" "$(reach 1 "$mldp" "$(mldp_leaf "$mldp" 10.0.0.2)" "$(mldp_join 0:100:7 65000 "$(fec 08 192.0.2.11 '')")")" \
        "$(bier 00 1001 0 1 10.0.0.1)"
    deep=$(fec 08 192.0.2.14 "$(generic 43)")
    deep=$(fec 07 2001:db8:1::13 "$(recursive "$deep")")
    deep=$(fec 06 192.0.2.12 "$(vpn_recursive 0:100:8 "$deep")")
    update "$(usual)" "$(reach 1 "$(mldp_s_pmsi 0:100:7 "$(fec 06 192.0.2.11 "$(recursive "$deep")")" 10.0.0.1)" \
        "$(mldp_join 0:100:7 65000 "$(fec 07 192.0.2.11 06ABCD)")")" "$(bier 00 1001 0 1 10.0.0.1)"

    # another tunnel for a route that is held, and two routes less
    update "$(usual)" "$(reach 1 "$(s_pmsi 0:100:7 '*' 239.1.1.1 10.0.0.1)")" "$(bier 01 1000 0 1 10.0.0.1)"
    update "$(unreach 1 "$(s_pmsi 0:100:7 192.0.2.9 '*' 10.0.0.1)" "$(s_pmsi 0:100:7 192.0.2.3 239.1.1.2 10.0.0.1)")"

    # End-of-RIB (RFC 4724, section 2): no NLRIs; then NOTIFICATION: administrative shutdown
    update "$(unreach 1)"
    message 3 0602
}

ipv6() {
    local source=2001:db8:1::1 pe=2001:db8::1 mldp
    update "$(usual)" "$(reach 2 "$(s_pmsi 0:100:7 $source ff3e::1 $pe)")" "$(mldp_p2mp $pe "$(generic 42)")"
    update "$(usual)" "$(reach 2 "$(s_pmsi 0:100:7 $source '*' $pe)" "$(s_pmsi 0:100:7 2001:db8:1::9 '*' $pe)")" \
        "$(pim 3 $pe ff3e::8000:1)"
    update "$(usual)" "$(reach 2 "$(s_pmsi 0:100:7 '*' ff0e::1 $pe)")" "$(ingress_replication 00 3000 $pe)"
    update "$(usual)" "$(reach 2 "$(s_pmsi 0:100:7 '*' '*' $pe)")" "$(bier 01 1000 1 258 $pe)"
    update "$(usual)" "$(reach 2 "$(s_pmsi 2:65536:7 '*' '*' $pe)")" "$(bier 01 1001 1 258 $pe)"

    # tracking: one source of a group that has a route, and everything under the lowest route distinguisher
    update "$(usual)" "$(reach 2 "$(s_pmsi 0:100:7 $source ff0e::1 $pe)" "$(s_pmsi 0:100:1 '*' '*' $pe)")" "$(no_tunnel 01)"

    # a router that is known by an IPv4 address: another router, in the same family
    update "$(usual)" "$(reach 2 "$(s_pmsi 1:10.0.0.1:7 '*' '*' 10.0.0.1)")" "$(mldp_mp2mp 07 10.0.0.99 '')"
    update "$(usual)" "$(reach 2 "$(s_pmsi 3:000000ABCDEF '*' '*' 10.0.0.2)")" "$(pim 5 2001:db8::2 ff0e::8000:3)"

    update "$(usual)" "$(reach 2 "$(s_pmsi 0:100:7 '*' ff0e::1 $pe)")" "$(pim 4 $pe ff0e::8000:2)"
    update "$(unreach 2 "$(s_pmsi 0:100:7 2001:db8:1::9 '*' $pe)")"

    # routes for mLDP, a Leaf among them
    mldp=$(mldp_s_pmsi 0:100:7 "$(fec 06 2001:db8:1::11 "$(recursive "$(fec 06 192.0.2.12 '')")")" $pe)
    update "$(usual)" "$(reach 2 "$mldp" "$(mldp_leaf "$mldp" $pe)" "$(mldp_join 0:100:7 65000 "$(fec 08 2001:db8:1::11 '')")")"
}

both() {
    local ipv4 ipv6 unknown
    ipv4=$(s_pmsi 0:100:7 192.0.2.1 232.1.1.1 10.0.0.1) ipv6=$(s_pmsi 0:100:7 2001:db8:1::1 ff3e::1 10.0.0.1)
    unknown=$(attribute C0 99 010203)
    update "$(usual)" "$(reach 2 "$ipv6" "$(s_pmsi 0:100:7 '*' '*' 10.0.0.1)")" "$(bier 00 1000 0 1 10.0.0.1)"

    # IPv4 routes announced and an IPv6 route withdrawn; an unknown attribute; lengths of two octets
    update "$(usual)" "$unknown" "$(extended 80 14 "$(reach_value 10.0.0.1 1 "$ipv4")")" \
        "$(extended C0 22 "$(tunnel_value 01 6 3000 "$(address 10.0.0.1)")")" "$(unreach 2 "$ipv6")"

    # 198.51.100.0/24 withdrawn and 203.0.113.0/24 announced: IPv4 unicast, before and behind the attributes
    unicast_update 18C63364 18CB0071 "$(usual)" "$(reach 1 "$(s_pmsi 0:100:7 '*' '*' 10.0.0.1)")" \
        "$(bier 00 1001 0 1 10.0.0.1)"

    # MP_REACH_NLRI of SAFI 128, and of an AFI that SAFI 5 does not go with
    update "$(usual)" "$(attribute 80 14 "000180$(sized 1 "0000000000000000$(address 10.0.0.1)")00")" \
        "$(unreach 1 "$(s_pmsi 0:100:7 '*' '*' 10.0.0.1)")"
    update "$(usual)" "$(reach 25 "$ipv4")" "$(bier 00 1001 0 1 10.0.0.1)"

    # a route in both attributes is announced; of two PMSI Tunnel attributes the first counts
    update "$(usual)" "$(reach 1 "$ipv4")" "$(unreach 1 "$ipv4")" "$(bier 00 1002 0 1 10.0.0.1)" "$(no_tunnel 00)"
}

shared() {
    local one moved gone ssm
    one=$(source_active 0:100:7 192.0.2.1 239.1.1.1) moved=$(source_active 0:100:9 192.0.2.4 239.1.1.4)
    gone=$(source_active 0:100:7 192.0.2.5 239.1.1.5) ssm=$(source_active 0:100:7 192.0.2.1 232.9.9.9)

    # 10.0.0.1 has routes for two groups, of which one is SSM, and one for everything; 10.0.0.2 has one for everything
    update "$(usual)" "$(reach 1 "$(s_pmsi 0:100:7 '*' 239.1.1.1 10.0.0.1)" "$(s_pmsi 0:100:7 '*' 232.9.9.9 10.0.0.1)")" \
        "$(bier 00 1000 0 1 10.0.0.1)"
    update "$(usual)" "$(reach 1 "$(s_pmsi 0:100:7 '*' '*' 10.0.0.1)")" "$(ingress_replication 00 3000 10.0.0.1)"
    update "$(usual)" "$(reach_by 10.0.0.2 1 "$(s_pmsi 0:100:8 '*' '*' 10.0.0.2)")" "$(mldp_p2mp 10.0.0.2 "$(generic 42)")"

    # tracking: 10.0.0.1 of one group more, 10.0.0.4 of everything
    update "$(usual)" "$(reach 1 "$(s_pmsi 0:100:7 '*' 239.1.1.5 10.0.0.1)" "$(s_pmsi 0:100:4 '*' '*' 10.0.0.4)")" "$(no_tunnel 01)"

    # the sources that each has found
    update "$(usual)" "$(reach 1 "$one" "$(source_active 0:100:7 192.0.2.2 239.1.1.1)")"
    update "$(usual)" "$(reach_by 10.0.0.2 1 "$(source_active 0:100:8 192.0.2.3 239.1.1.1)")"

    # announced by the one, then by the other; announced and withdrawn, and withdrawn again
    update "$(usual)" "$(reach 1 "$moved")"
    update "$(usual)" "$(reach_by 10.0.0.2 1 "$moved")"
    update "$(usual)" "$(reach 1 "$gone")"
    update "$(unreach 1 "$gone")"
    update "$(unreach 1 "$gone")"

    # a next hop of no octets: nobody's route, where one was kept and where none was
    update "$(usual)" "$(reach 1 "$gone")"
    update "$(usual)" "$(reach_by '*' 1 "$gone")"
    update "$(usual)" "$(reach_by '*' 1 "$(source_active 0:100:7 192.0.2.6 239.1.1.1)")"

    # a source of an SSM group, whose route is to be discarded (RFC 6514): before a route type that is not defined, between routes for
    # other groups, of which one is the last below the SSM range; and withdrawn
    update "$(usual)" "$(reach 1 "$(source_active 0:100:7 192.0.2.7 239.1.1.7)" "$ssm" "$(nlri 9 AB)" \
        "$(source_active 0:100:7 192.0.2.7 231.255.255.255)")"
    update "$(unreach 1 "$ssm")"

    # IPv6: a PE that is known by an IPv6 address, with a route for an SSM group between others, and one that is known by an IPv4
    # address
    update "$(usual)" "$(reach 2 "$(s_pmsi 0:100:7 '*' ff0e::1 2001:db8::1)" "$(source_active 0:100:7 2001:db8:1::1 ff3e::1)" \
        "$(source_active 0:100:7 2001:db8:1::1 ff0e::1)")" "$(pim 4 2001:db8::1 ff0e::8000:2)"
    update "$(usual)" "$(reach_by 10.0.0.1 2 "$(s_pmsi 1:10.0.0.1:7 '*' '*' 10.0.0.1)" \
        "$(source_active 1:10.0.0.1:7 2001:db8:1::2 ff0e::1)")" "$(bier 00 1001 0 1 10.0.0.1)"
}

restart() {
    local held every reflected tracked one another ipv6 pe=2001:db8::1
    held=$(s_pmsi 0:100:7 192.0.2.1 232.1.1.1 10.0.0.1) every=$(s_pmsi 0:100:7 '*' '*' 10.0.0.1)
    reflected=$(s_pmsi 0:100:8 '*' '*' 10.0.0.2) tracked=$(s_pmsi 0:100:7 192.0.2.3 239.1.1.1 10.0.0.1)
    one=$(source_active 0:100:7 192.0.2.1 239.1.1.1) another=$(source_active 0:100:7 192.0.2.2 239.1.1.1)
    ipv6=$(s_pmsi 0:100:7 '*' '*' $pe)

    # a route reflector sends the routes of two PEs, for IPv6 those of a third and one of the first, and that is all
    graceful_open 0078
    update "$(usual)" "$(reach 1 "$held")" "$(mldp_p2mp 10.0.0.1 "$(generic 42)")"
    update "$(usual)" "$(reach 1 "$every" "$(s_pmsi 0:100:7 '*' 239.1.1.1 10.0.0.1)")" "$(bier 00 1000 0 1 10.0.0.1)"
    update "$(usual)" "$(reach 1 "$tracked")" "$(no_tunnel 01)"
    update "$(usual)" "$(reach_by 10.0.0.2 1 "$reflected")" "$(ingress_replication 00 3000 10.0.0.2)"
    update "$(usual)" "$(reach 1 "$one" "$another")"
    update "$(usual)" "$(reach 2 "$ipv6" "$(s_pmsi 1:10.0.0.1:7 '*' '*' 10.0.0.1)")" "$(bier 01 1000 1 258 $pe)"
    update "$(unreach 1)"
    update "$(unreach 2)"

    # lost: one route comes again as it was, one with another tunnel, one that is new; one that is stale is withdrawn; one source
    # comes again; and for IPv6 one route, and that is all
    graceful_open 8078
    update "$(usual)" "$(reach 1 "$held")" "$(mldp_p2mp 10.0.0.1 "$(generic 42)")"
    update "$(usual)" "$(reach 1 "$(s_pmsi 0:100:7 '*' 239.1.1.1 10.0.0.1)" "$(s_pmsi 0:100:7 192.0.2.1 '*' 10.0.0.1)")" \
        "$(pim 3 10.0.0.1 232.0.0.1)"
    update "$(unreach 1 "$tracked")"
    update "$(usual)" "$(reach 1 "$one")"
    update "$(usual)" "$(reach 2 "$ipv6")" "$(bier 01 1000 1 258 $pe)"
    update "$(unreach 2)"

    # lost again before the end of IPv4: the other PE's route, one for everything and one source did not come since, and go; then
    # three routes come, and the end of IPv4, but not that of IPv6
    graceful_open 8078
    update "$(usual)" "$(reach 1 "$held")" "$(mldp_p2mp 10.0.0.1 "$(generic 42)")"
    update "$(usual)" "$(reach 1 "$(s_pmsi 0:100:7 '*' 239.1.1.1 10.0.0.1)")" "$(pim 3 10.0.0.1 232.0.0.1)"
    update "$(usual)" "$(reach_by 10.0.0.2 1 "$reflected")" "$(ingress_replication 00 3000 10.0.0.2)"
    update "$(unreach 1)"
}

# An egress router asks for a route: asks NEXT_HOP AFI KEY TUNNEL.
asks() {
    update "$(usual)" "$(reach_by "$1" "$2" "$(leaf "$3" "$1")")" "$4"
}

leaves() {
    local one any ipv6 pe=2001:db8::1
    one=$(s_pmsi 0:100:7 192.0.2.1 232.1.1.1 10.0.0.1) any=$(s_pmsi 0:100:7 '*' '*' 10.0.0.1)
    ipv6=$(s_pmsi 0:100:7 2001:db8:1::1 ff3e::1 $pe)

    # our own routes: one flow, and everything, for IPv4; one flow for IPv6; each asks for Leaf A-D routes
    graceful_open 0078
    update "$(usual)" "$(reach 1 "$one")" "$(bier 01 1000 0 1 10.0.0.1)"
    update "$(usual)" "$(reach 1 "$any")" "$(bier 01 1001 0 1 10.0.0.1)"
    update "$(usual)" "$(reach 2 "$ipv6")" "$(bier 01 1000 1 258 $pe)"

    # routers that ask for the flow: of set 0, of its last position, of set 1; one BFR-id of two routers; one router for everything
    asks 10.0.0.2 1 "$one" "$(bier 00 0 0 2 10.0.0.2)"
    asks 10.0.0.3 1 "$one" "$(bier 00 0 0 256 10.0.0.3)"
    asks 10.0.0.4 1 "$one" "$(bier 00 0 0 257 10.0.0.4)"
    asks 10.0.0.5 1 "$one" "$(bier 00 0 0 2 10.0.0.2)"
    asks 10.0.0.2 1 "$any" "$(bier 00 0 0 2 10.0.0.2)"

    # what does not count: another sub-domain, no BFR-id, another tunnel, the key of another route
    asks 10.0.0.6 1 "$one" "$(bier 00 0 1 6 10.0.0.6)"
    asks 10.0.0.7 1 "$one" "$(bier 00 0 0 0 10.0.0.7)"
    asks 10.0.0.8 1 "$one" "$(ingress_replication 00 3000 10.0.0.8)"
    asks 10.0.0.9 1 "$(s_pmsi 0:100:7 192.0.2.9 232.1.1.1 10.0.0.1)" "$(bier 00 0 0 9 10.0.0.9)"

    # another BFR-id for a router that has asked; one that no longer asks, and says so again; one whose attribute is damaged, and
    # one without
    asks 10.0.0.3 1 "$one" "$(bier 00 0 0 3 10.0.0.3)"
    update "$(unreach 1 "$(leaf "$one" 10.0.0.4)")"
    update "$(unreach 1 "$(leaf "$one" 10.0.0.4)")"
    asks 10.0.0.5 1 "$one" "$(tunnel 00 11 0 000002)"
    update "$(usual)" "$(reach_by 10.0.0.10 1 "$(leaf "$one" 10.0.0.10)")"

    # IPv6: routers of two sets, which are known by an IPv6 and by an IPv4 address
    asks 2001:db8::2 2 "$ipv6" "$(bier 00 0 1 513 2001:db8::2)"
    asks 10.0.0.3 2 "$ipv6" "$(bier 00 0 1 65535 10.0.0.3)"

    # the session is lost: our routes come again, some routers ask for the flow again and one for the first time, none for everything,
    # and that is all of IPv4; those of IPv6 stay stale
    graceful_open 8078
    update "$(usual)" "$(reach 1 "$one")" "$(bier 01 1000 0 1 10.0.0.1)"
    update "$(usual)" "$(reach 1 "$any")" "$(bier 01 1001 0 1 10.0.0.1)"
    asks 10.0.0.2 1 "$one" "$(bier 00 0 0 2 10.0.0.2)"
    asks 10.0.0.3 1 "$one" "$(bier 00 0 0 3 10.0.0.3)"
    asks 10.0.0.6 1 "$one" "$(bier 00 0 1 6 10.0.0.6)"
    asks 10.0.0.11 1 "$one" "$(bier 00 0 0 300 10.0.0.11)"
    update "$(unreach 1)"
}

# Announces a route with a tunnel: announce NLRI TUNNEL.
announce() {
    update "$(usual)" "$(reach 1 "$1")" "$2"
}

damaged_nlris() {
    local rd good=$1 tunnel=$2
    rd=$(rd 0:100:7)
    announce "$(nlri 1 "${rd}0A0000")" "$tunnel"                                # an originator of three octets
    announce "$(nlri 9 AB)$(nlri 3 "$rd$(field '*')$(field '*')0A0000")" "$tunnel" # the same, behind one that is skipped
    announce "${good}0320$rd" "$tunnel"                                         # a Length past the run's end
    announce "${good}0920$rd" "$tunnel"                                         # the same of a route type that is not defined
    announce "$(nlri 4 "$(nlri 9 "$rd")$(address 10.0.0.1)")" "$tunnel"         # a Leaf's key of such a type
    announce "$(nlri 4 "$(nlri 5 "$rd")$(address 10.0.0.1)")" "$tunnel"         # a Leaf's key that is Source Active
    announce "$good$(nlri 5 "$rd$(field 192.0.2.1)$(field 232.1.1.1)00")" "$tunnel" # Source Active for an SSM group, an octet too many
    update "$(unreach 1 "$(s_pmsi 0:100:7 '*' '*' 10.0.0.1)" 03)"                 # a withdrawal, and half a header
}

damaged_mldp_nlris() {
    local rd fec tunnel=$1 good key held root
    rd=$(rd 0:100:7) fec=$(fec 06 192.0.2.11 "$(generic 42)") good=$(s_pmsi 0:100:7 192.0.2.1 239.1.1.1 10.0.0.1)
    key=$(mldp_s_pmsi 0:100:7 "$fec" 10.0.0.1)
    held=$(fec 06 192.0.2.15 '')
    for root in 192.0.2.14 192.0.2.13 192.0.2.12; do
        held=$(fec 06 $root "$(recursive "$held")")
    done
    announce "$good$(mldp_s_pmsi 0:100:7 "$(fec 06 2001:db8:1::11 '')" 10.0.0.1)" "$tunnel"  # a root of the other family
    announce "$(nlri 71 "${rd}0000FDE8${fec}00")" "$tunnel"                              # an octet behind the FEC element
    announce "$(nlri 71 "${rd}0000FDE8${fec%??}")" "$tunnel"                                # a body that ends inside it
    announce "$(mldp_join 0:100:7 65000 "$(fec 06 192.0.2.11 "$(recursive "$fec")00")")" "$tunnel" # an octet behind one that is held
    announce "$(mldp_join 0:100:7 65000 "$(fec 06 192.0.2.11 "$(recursive "$held")")")" "$tunnel"  # five deep
    announce "$(mldp_leaf "$good" 10.0.0.1)" "$tunnel"                                      # keys of the other kind
    announce "$(nlri 4 "$key$(address 10.0.0.1)")" "$tunnel"
}

damaged_tunnels() {
    local route=$1
    announce "$route" "$(tunnel 00 1 0 "$(address 10.0.0.1)00000005000000")" # an RSVP-TE identifier of 11 octets
    announce "$route" "$(tunnel 00 8 0 '')"                                  # a tunnel type that is not defined
    announce "$route" "$(attribute C0 22 0006)"                              # two octets
    announce "$route" "$(tunnel 00 2 0 "$(fec 06 10.0.0.1 "$(generic 42)$(printf '%090d' 0)")")" # over 64 octets
    update "$(usual)" "$(reach 1 "$route")"                                  # none
}

damaged_frames() {
    local announced=$1
    update "$(usual)" C01608                                  # an attribute past the end, and no routes before it
    update "$(usual)" "$announced$announced"                  # MP_REACH_NLRI twice
    update "$(usual)" "$(attribute 80 14 000105040A0000)"     # a next hop past the end
    update "$(unreach 1)" "$(unreach 2)"                      # MP_UNREACH_NLRI twice
    update "$(attribute 80 15 0001)"                          # no SAFI
    message 2 "0009$(sized 2 "$announced")"                   # withdrawn routes past the attributes' length
    message 2 "0000$(number 2 $((${#announced} / 2 + 1)))$announced" # path attributes past the end
    message 2 00                                              # half a length
    message 9 ''                                              # a message type that is not defined
}

damaged() {
    local held any bier ipv6
    held=$(s_pmsi 0:100:7 192.0.2.1 232.1.1.1 10.0.0.1) any=$(s_pmsi 0:100:7 '*' '*' 10.0.0.1) bier=$(bier 00 1000 0 1 10.0.0.1)
    ipv6=$(s_pmsi 0:100:7 2001:db8:1::1 ff3e::1 2001:db8::1)

    # a damaged NLRI: the routes of IPv4 go, and it is disabled, while IPv6 is not
    announce "$held$any$(source_active 0:100:7 192.0.2.1 239.1.1.1)$(leaf "$any" 10.0.0.2)" "$bier"
    announce "$any$(nlri 3 "$(rd 0:100:7)18C0000200")" "$bier"
    announce "$held" "$bier"
    update "$(usual)" "$(reach 2 "$ipv6")" "$bier"
    update "$(unreach 1 "$any")"
    update "$(unreach 1)"

    # others, each in a session of its own
    damaged_nlris "$(s_pmsi 0:100:7 192.0.2.1 239.1.1.1 10.0.0.1)" "$bier" | in_sessions
    damaged_mldp_nlris "$bier" | in_sessions

    # tunnels that are refused: their routes are treated as withdrawn, those too that have no tunnel
    opened
    announce "$held$(source_active 0:100:7 192.0.2.1 239.1.1.1)$(leaf "$any" 10.0.0.2)" "$bier"
    damaged_tunnels "$(s_pmsi 0:100:7 192.0.2.2 232.1.1.1 10.0.0.1)"
    announce "$(source_active 0:100:7 192.0.2.1 239.1.1.1)$(leaf "$any" 10.0.0.2)$(mldp_join 0:100:7 65000 "$(fec 06 192.0.2.11 '')")" \
        "$(tunnel 00 8 0 '')"
    announce "$held" "$(bier 00 0 0 1 10.0.0.1)" # BIER needs a label; the route was held
    update "$(unreach 1 "$held")"                # and is gone

    # an attribute past the end, behind routes
    announce "$held" "$bier"
    update "$(usual)" "$(reach 1 "$held")" "$(unreach 1 "$any")" C01608

    # a tunnel that is refused, without routes that are announced: the session is reset, and messages are ignored
    announce "$held" "$bier"
    update "$(unreach 1 "$any")" "$(tunnel 00 8 0 '')"
    announce "$held" "$bier"
    message 4 ''
    message 9 ''
    damaged_frames "$(reach 1 "$held")" | in_sessions

    # a marker with a bit off: the end of what can be read
    opened
    announce "$held" "$bier"
    printf 'FE%s' "$(announce "$held" "$bier" | tail -c +3)"
    announce "$held" "$bier"
}

# octets NAME: the sample of that name, as a file of octets.
octets() {
    printf "$("$1" | sed 's/../\\x&/g')" >"$folder/$1.bin"
}

for sample in ipv4 ipv6 both shared restart leaves damaged; do
    octets "$sample"
done
