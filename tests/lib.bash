# What the tests share. A test that sources it stands in the repository's root and stops at its first failure.
# shellcheck disable=SC2034 # what is unused here is used there
set -euo pipefail
cd "$(dirname "${BASH_SOURCE[0]}")/.."

header=include/mvpn.h

# What `make` builds.
archive=target/staticlib/libmvpn.a
listing=target/bin/mvpn_list
showing=target/bin/mvpn_show

fail() {
    echo "${0##*/}: $*" >&2
    exit 1
}

# needs PROGRAM...: fails where one is missing.
needs() {
    local program
    for program; do
        command -v "$program" >/dev/null || fail "needs $program, and there is none"
    done
}

# built FILE...: fails where one is missing.
built() {
    local file
    for file; do
        [ -s "$file" ] || fail "needs $file: run \`make\` first"
    done
}

# The last line of a test that found nothing wrong.
as_expected() {
    echo "${0##*/}: as expected"
}

# ---- compilers

sanitizers=(-g '-fsanitize=address,undefined' -fno-sanitize-recover=all)
warnings=(-Wall -Wextra -Werror -pedantic)

# For a program that has its own flags for the header.
c_elsewhere() {
    "${CC:-gcc}" -std=c11 "${warnings[@]}" "$@"
}

c() {
    c_elsewhere -Iinclude "$@"
}

cpp() {
    "${CXX:-g++}" -std=c++17 "${warnings[@]}" -Iinclude "$@"
}

# ---- documents

# The calls that the header declares.
calls() {
    sed -n 's/^[a-z].* \(mvpn_[a-z_]*\)(.*/\1/p' "$header"
}

# The functions that it defines; the name of each begins a line.
helpers() {
    sed -n 's/^\(mvpn_[a-z_]*\)(.*/\1/p' "$header"
}

# The loop that the header shows to callers who read a run in pieces.
callers_loop() {
    sed -n "/The caller's loop:/,/\*\//s/^ \*     //p" "$header"
}

# The loop that the header shows to callers who list a table.
listing_loop() {
    sed -n "/The loop that lists a table:/,/\*\//s/^ \*     //p" "$header"
}

# The lines that the header shows to callers whose session was lost, or has sent all its routes again.
restart_lines() {
    sed -n "/else sweep them:/,/\*\//s/^ \*     //p" "$header"
}

# Where mvpn(3) ends the first part of a run that is too long.
first_part() {
    sed -n "/^The first part of a run ends here:/,/^\.fi/p" man/mvpn.3 | sed -e 1d -e '/^\./d' -e 's/\\-/-/g'
}

# shown_after PATTERN: the lines that mvpn(3) shows behind a line that the pattern meets.
shown_after() {
    sed -n "/$1/,/^\.fi/p" man/mvpn.3 | sed -e '1,/^\.nf/d' -e '/^\./d' -e 's/\\-/-/g'
}

# The lines of mvpn(3) for callers who keep answers, and for those with more than 500 routes: where a route stands, and a match.
ask_again_lines() {
    shown_after '^is the tier of a flow.s answer:$'
}

place_lines() {
    shown_after '^A route that is installed or withdrawn, .* belongs in this table:$'
}

several_lines() {
    shown_after '^A flow is matched like this:$'
}

# The function of mvpn(3) for callers whose table is full.
larger_lines() {
    shown_after '^that has the same routes, with their marks\.$'
}

# The lines of mvpn(3) for callers whose table was refused after a fault.
fault_lines() {
    shown_after '^that was refused:$'
}

# The lines of mvpn(3) for callers who plan.
plan_lines() {
    shown_after '^flows, at most 64, and advertise the routes that it proposes:$'
}

# blocks LANGUAGE FILE: the lines of the fenced blocks of that language.
blocks() {
    awk -v fence="\`\`\`$1" '$0 == fence { inside = 1; next } /^```/ { inside = 0 } inside' "$2"
}
