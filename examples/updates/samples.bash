#!/usr/bin/env bash
# Runs the program over the sample messages and asks it about flows and shared trees: samples.bash PROGRAM [OCTETS]. What it
# prints is samples.txt, whatever the octets of a piece.
set -euo pipefail
program=$(realpath "$1")
pieces=(${2:+--pieces "$2"})
cd "$(dirname "${BASH_SOURCE[0]}")"
kept=$(mktemp -d)
trap 'rm -rf "$kept"' EXIT

# run FILE [REQUEST]...
run() {
    printf '\n==== pe_daemon %s\n\n' "$1"
    "$program" "${pieces[@]}" "$@" || echo "exit status $?"
}

# ranges 'PREFIX...' FILE [REQUEST]...: the same with these SSM ranges. What is printed of the messages and of the tables, which is
# as without them, is left out.
ranges() {
    local prefix options=()
    for prefix in $1; do
        options+=(--ssm "$prefix")
    done
    printf '\n==== pe_daemon %s %s\n\n' "${options[*]}" "$2"
    "$program" "${options[@]}" "${pieces[@]}" "${@:2}" | sed -e '/^message 1:/,/^other NLRIs:/d' -e '/^IPv4 tables:/,$d'
}

# The tiers in turn; a route that was withdrawn, so the next tier has it; (C-*,C-G) is not for SSM groups; a tie, in which a
# tracking route has the lowest route distinguisher; a flow for which a tracking route stands in tier 1; the other kinds of
# tunnel; a router that has only a tracking route; a router without routes; a group that is not multicast; a source of the other
# family.
run ipv4.bin \
    10.0.0.1 192.0.2.1 232.1.1.1 \
    10.0.0.1 192.0.2.1 232.1.1.2 \
    10.0.0.1 192.0.2.1 239.1.1.1 \
    10.0.0.1 192.0.2.1 239.1.1.2 \
    10.0.0.1 192.0.2.9 232.1.1.2 \
    10.0.0.1 192.0.2.2 232.9.9.9 \
    10.0.0.1 192.0.2.1 239.2.2.2 \
    10.0.0.1 192.0.2.3 239.1.1.1 \
    10.0.0.2 192.0.2.1 232.1.1.1 \
    10.0.0.3 192.0.2.1 232.1.1.1 \
    10.0.0.4 192.0.2.1 232.1.1.1 \
    10.0.0.5 192.0.2.1 232.1.1.1 \
    10.0.0.6 192.0.2.1 232.1.1.1 \
    10.0.0.7 192.0.2.1 232.1.1.1 \
    10.0.0.1 192.0.2.1 192.0.2.2 \
    10.0.0.1 2001:db8:1::1 232.1.1.1

# ff3e:1::1 is an ASM group: only the first 32 bits of ff3e::1 make it SSM.
run ipv6.bin \
    2001:db8::1 2001:db8:1::1 ff3e::1 \
    2001:db8::1 2001:db8:1::1 ff3e::2 \
    2001:db8::1 2001:db8:1::1 ff0e::1 \
    2001:db8::1 2001:db8:1::1 ff3e:1::1 \
    2001:db8::1 2001:db8:1::9 ff3e::2 \
    10.0.0.1 2001:db8:1::1 ff3e::1 \
    10.0.0.2 2001:db8:1::1 ff3e::1

run both.bin 10.0.0.1 192.0.2.1 232.1.1.1 10.0.0.1 192.0.2.1 239.1.1.1 10.0.0.1 2001:db8:1::1 ff3e::1

# The tree of PE 10.0.0.1 is eligible by its Source Active routes until there is a state for each of them, then by what is told,
# one condition at a time; PE 10.0.0.2 has another Source Active route, and a route for everything only. Then a Source Active
# route that moved from the one to the other, one that was withdrawn, whose group has a tracking route, an SSM group, a PE
# without routes, one that has only a tracking route, a group that is not multicast, IPv6, and a state with a source of the other
# family.
run shared.bin \
    shared 10.0.0.1 239.1.1.1 \
    state 192.0.2.1 239.1.1.1 \
    shared 10.0.0.1 239.1.1.1 upstream \
    state 192.0.2.2 239.1.1.1 \
    shared 10.0.0.1 239.1.1.1 \
    shared 10.0.0.1 239.1.1.1 upstream \
    shared 10.0.0.1 239.1.1.1 bidir \
    shared 10.0.0.1 239.1.1.1 unused \
    shared 10.0.0.2 239.1.1.1 \
    shared 10.0.0.1 239.1.1.4 \
    shared 10.0.0.2 239.1.1.4 \
    shared 10.0.0.1 239.1.1.5 \
    shared 10.0.0.1 239.1.1.5 unused bidir upstream \
    shared 10.0.0.1 232.9.9.9 upstream bidir unused \
    shared 10.0.0.3 239.1.1.1 upstream \
    shared 10.0.0.4 239.1.1.1 upstream \
    shared 10.0.0.1 192.0.2.2 upstream \
    shared 2001:db8::1 ff0e::1 \
    shared 10.0.0.1 ff0e::1 \
    state 2001:db8:1::1 239.1.1.1 \
    shared 10.0.0.1 239.1.1.1 upstream

# A route that was announced again after each loss; one that went at the second loss; one that went at End-of-RIB, and one that
# was announced again after it had gone; a shared tree whose Source Active routes have gone, one at a loss and one at End-of-RIB;
# a route that is still stale, and is matched.
run restart.bin \
    10.0.0.1 192.0.2.1 232.1.1.1 \
    10.0.0.1 192.0.2.9 232.1.1.1 \
    10.0.0.1 192.0.2.1 232.1.1.2 \
    10.0.0.2 192.0.2.1 232.1.1.1 \
    shared 10.0.0.1 239.1.1.1 \
    2001:db8::1 2001:db8:1::1 ff3e::1

# A flow that two routers of set 0 and one of set 1 have asked for; one for everything, which nobody has asked for since the session was
# lost; the same of IPv6, whose Leaf A-D routes are stale, in the third set and in the last.
run leaves.bin \
    10.0.0.1 192.0.2.1 232.1.1.1 \
    10.0.0.1 192.0.2.9 232.1.1.1 \
    2001:db8::1 2001:db8:1::1 ff3e::1

# A flow to a group of the range takes tier 2, where it took tier 3; of flows to groups of the standard range one no longer takes tier
# 2, and one takes tier 3.
ranges 239.1.0.0/16 ipv4.bin \
    10.0.0.1 192.0.2.1 239.1.1.1 \
    10.0.0.1 192.0.2.1 232.1.1.2 \
    10.0.0.1 192.0.2.2 232.9.9.9

# Ranges of which one is inside another and one is a single group, and the standard range with them: what they hold is SSM, and
# nothing else.
ranges '239.0.0.0/8 239.1.1.0/24 225.1.1.1/32 232.0.0.0/8' ipv4.bin \
    10.0.0.1 192.0.2.1 239.1.1.1 \
    10.0.0.1 192.0.2.1 225.1.1.1 \
    10.0.0.1 192.0.2.1 225.1.1.2 \
    10.0.0.1 192.0.2.1 232.1.1.2

# With length 0 every group is SSM; with a range outside of multicast no group is, and an address in it is still no group.
ranges 0.0.0.0/0 ipv4.bin 10.0.0.1 192.0.2.1 239.1.1.1
ranges 10.0.0.0/8 ipv4.bin 10.0.0.1 192.0.2.1 232.1.1.2 10.0.0.1 192.0.2.1 10.1.1.1

# The most ranges of one family, and one of the other, which has its own.
ranges "239.1.0.0/16 $(printf 'ff3e:%d::/32 ' {8..1})" ipv6.bin \
    2001:db8::1 2001:db8:1::1 ff3e:1::1 \
    2001:db8::1 2001:db8:1::1 ff3e::2 \
    10.0.0.1 192.0.2.1 239.1.1.1

# A shared tree to a group of the range has no route, whatever is told; one to a group of the standard range has one.
ranges 239.1.1.0/24 shared.bin \
    shared 10.0.0.1 239.1.1.1 upstream bidir unused \
    shared 10.0.0.1 232.9.9.9 upstream

# tables 'OPTION...' [REQUEST]...: messages of standard input, with tables that are kept in files of a folder for them. What is printed
# of the messages behind the first, and the counts, are left out.
tables() {
    printf '\n==== pe_daemon %s -\n\n' "$1"
    # The options are several words.
    # shellcheck disable=SC2086
    { (cd "$kept" && "$program" $1 "${pieces[@]}" - "${@:2}") 2>&1 || echo "exit status $?"; } |
        sed -e '/^message 2:/,/^$/d' -e '/^messages:/,/^other NLRIs:/d' | cat -s
}

# put FILE OFFSET: what is read in the place of octets of a file.
put() {
    dd of="$kept/$1" bs=1 seek="$2" conv=notrunc status=none
}

# place FILE NUMBER: the octets of a place.
place() {
    dd if="$kept/$1" bs=1 skip=$((8 + 128 * $2)) count=128 status=none
}

# Tables that are not there yet; the same read back, with their marks; and read back when a session is opened, by which all of it is
# stale until it comes again.
both='--table ipv4 ipv4.table --table ipv6 ipv6.table'
tables "$both" 10.0.0.1 192.0.2.1 232.1.1.1 2001:db8::1 2001:db8:1::1 ff3e::1 <restart.bin
tables "$both" 10.0.0.1 192.0.2.1 232.1.1.1 2001:db8::1 2001:db8:1::1 ff3e::1 </dev/null
tables "$both" 10.0.0.1 192.0.2.1 232.1.1.1 <restart.bin

# A header of noise, a place with a bad tunnel type, and one that is repeated. Then a header of noise, and an originator that becomes
# another one: the place is good, and its route goes when the peer does not announce it.
printf '\xFF\xFF\xFF\xFF\xFF\xFF\xFF\xFF' | put ipv4.table 0
printf '\x08' | put ipv4.table $((8 + 128 + 2 + 20 + 1))
place ipv4.table 0 | put ipv4.table $((8 + 128 * 3))
tables '--table ipv4 ipv4.table' 10.0.0.1 192.0.2.1 232.1.1.1 10.0.0.1 192.0.2.1 239.1.1.1 </dev/null
tables '--table ipv4 ipv4.table' <restart.bin
printf '\xFF\xFF\xFF\xFF\xFF\xFF\xFF\xFF' | put ipv4.table 0
printf '\xFF' | put ipv4.table $((8 + 128 + 2 + 20 - 1))
tables '--table ipv4 ipv4.table' <restart.bin

# A table of the other family; files of an octet more and of one less than a table has, and one of none; a folder; a file in a folder
# that is not there.
tables '--table ipv6 ipv4.table' </dev/null
printf '\x00' | put ipv6.table 8200
tables '--table ipv6 ipv6.table' </dev/null
truncate -s 8199 "$kept/ipv6.table"
tables '--table ipv6 ipv6.table' </dev/null
truncate -s 0 "$kept/ipv6.table"
tables '--table ipv6 ipv6.table' </dev/null
tables '--table ipv4 .' <ipv4.bin
tables '--table ipv4 none/ipv4.table' </dev/null

# Nothing was installed for the first flow, and what was installed for the second is gone again.
run damaged.bin 10.0.0.1 192.0.2.1 239.1.1.1 10.0.0.1 192.0.2.1 232.1.1.1

# Standard input that ends inside a message, and inside a header.
head -c 100 ipv4.bin | run -
head -c 39 ipv4.bin | run -

# header LENGTH: the header of an UPDATE.
header() {
    printf '\xFF%.0s' {1..16}
    printf "$1\x02"
}

# Lengths of 18 and of 4,097 octets.
header '\x00\x12' | run -
header '\x10\x01' | run -

# source_active NUMBER: an UPDATE of 10.0.0.1, with the Source Active route of source 192.0.N.N and group 239.1.1.1.
source_active() {
    header '\x00\x37'
    printf '\x00\x00\x00\x20\x80\x0E\x1D\x00\x01\x05\x04\x0A\x00\x00\x01\x00\x05\x12\x00\x00\x00\x64\x00\x00\x00\x07'
    printf "\\x20\\xC0\\x00$(printf '\\x%02X\\x%02X' $(($1 / 256)) $(($1 % 256)))\\x20\\xEF\\x01\\x01\\x01"
}

# The most Source Active routes and states, all of them lent, and one more of each. The tree is eligible until the last state
# is held. What is printed of the messages between the first and the last two, and of all but the last two states, is left out.
mapfile -t states < <(printf 'state\n192.0.0.%d\n239.1.1.1\n' {0..254})
{ head -c 115 shared.bin && for i in {0..256}; do source_active "$i"; done; } |
    run - "${states[@]}" shared 10.0.0.1 239.1.1.1 state 192.0.0.255 239.1.1.1 shared 10.0.0.1 239.1.1.1 \
        state 192.0.1.0 239.1.1.1 |
    sed -e '8,772d' -e '/^state (192\.0\.0\.0,/,/^state (192\.0\.0\.254,/d' | cat -s

# Two addresses of three, words that are no addresses, and requests that are not whole.
run ipv4.bin 10.0.0.1 192.0.2.1 2>&1
run ipv4.bin 10.0.0.1 192.0.2.1 all 2>&1
run ipv4.bin shared 10.0.0.1 2>&1
run ipv4.bin shared 10.0.0.1 239.1.1.1 downstream 2>&1
run ipv4.bin state 192.0.2.1 2>&1

# Pieces of no octets, of more than a message has, of what is no number, and of nothing; SSM ranges that the library refuses, for a
# bit past the length, a length over the address, or as the ninth of a family; words that are no prefix, and none; a table of no family,
# and of no file; no file.
for words in '--pieces 0 ipv4.bin' '--pieces 4097 ipv4.bin' '--pieces 1O ipv4.bin' '--pieces' '--pieces 1' \
    '--ssm 239.232.1.0/16 ipv4.bin' '--ssm 239.232.0.0/33 ipv4.bin' '--ssm ff3e::/129 ipv6.bin' \
    "$(printf -- '--ssm 239.%d.0.0/16 ' {1..9})ipv4.bin" "$(printf -- '--ssm ff3e:%d::/32 ' {1..9})ipv6.bin" \
    '--ssm 239.232.0.0 ipv4.bin' '--ssm 239.232.0.0/256 ipv4.bin' '--ssm 239.232/16 ipv4.bin' '--ssm' '--ssm 239.232.0.0/16' \
    '--table ipv5 ipv5.table ipv4.bin' '--table' '--table ipv4' '--table ipv4 ipv4.table' ''; do
    printf '\n==== pe_daemon%s\n\n' "${words:+ $words}"
    # The words are several.
    # shellcheck disable=SC2086
    "$program" $words 2>&1 || echo "exit status $?"
done
