# More S-PMSI A-D routes of IPv4 than one table holds, and one list of them that is scanned: what the daemon example is told, and what it
# must tell. The routes are drawn, the same in each run, from few sources, groups and route distinguishers, so that ties and every tier
# are met.
#
#     awk -v tell=messages|routes|flows|answers [-v ended=1] -f many_routes.awk
#     awk -v tell=full -v routes=NUMBER -f many_routes.awk
#
# messages  a message in hexadecimal on each line: most of the routes; then the session is lost, and of these some are announced again,
#           with another label, and some withdrawn, and the other routes come; with `ended`, then End-of-RIB
# routes    what the daemon lists of each route that is held then, in any order
# flows     flows, as requests: router, source and group on each line
# answers   of each flow its tier and label, by a scan of the list of all routes
# full      messages that announce so many (C-*,C-G) routes of one PE, which all stand in one table

function drawn(below) { return int(rand() * below) }

# ---- octets

function address(text,  parts) {
    if (text == "*") return ""
    split(text, parts, ".")
    return sprintf("%02X%02X%02X%02X", parts[1], parts[2], parts[3], parts[4])
}

function sized(octets) { return sprintf("%02X%s", length(octets) / 2, octets) }

# An address behind its length in bits.
function field(text,  octets) { octets = address(text); return sprintf("%02X%s", 4 * length(octets), octets) }

function nlri(i) {
    return "03" sized(sprintf("00000064%08X", rd[i]) field(source[i]) field(group[i]) address(originator[i]))
}

function message(type, body) {
    return sprintf("FFFFFFFFFFFFFFFFFFFFFFFFFFFFFFFF%04X%02X%s", 19 + length(body) / 2, type, body)
}

function update(attributes) { return message(2, sprintf("0000%04X%s", length(attributes) / 2, attributes)) }

# A label of 0 stands for a route that names no tunnel.
function announced(i) {
    return update("800E" sized("000105040A00000100" nlri(i)) "C016" \
        sized(label[i] ? sprintf("0006%06X%s", 16 * label[i], address(originator[i])) : "0000000000"))
}

function withdrawn(i) { return update("800F" sized("000105" nlri(i))) }

# ---- the routes

function add(router, from, to, number,  key) {
    key = router " " from " " to " " number
    if (key in known) return
    known[key] = 1
    originator[count] = router; source[count] = from; group[count] = to; rd[count] = number
    label[count] = count % 17 ? 1 + count : 0
    count++
}

function draw_routes(  i) {
    for (i = 0; i < 1500; i++) add("10.0.0.1", "192.0.2." 1 + drawn(40), (drawn(2) ? "232" : "239") ".1.1." 1 + drawn(20), 1 + drawn(3))
    for (i = 0; i < 300; i++) add("10.0.0.2", "192.0.2." 1 + drawn(40), (drawn(2) ? "232" : "239") ".1.1." 1 + drawn(20), 1 + drawn(3))
    for (i = 0; i < 200; i++) add("10.0.0.1", "192.0.2." 1 + drawn(30), "*", 1 + drawn(9))
    for (i = 0; i < 250; i++) add("10.0.0.1", "*", (drawn(2) ? "232" : "239") ".1.1." 1 + drawn(15), 1 + drawn(9))
    add("10.0.0.1", "*", "*", 8); add("10.0.0.1", "*", "*", 7); add("10.0.0.2", "*", "*", 9)
}

# ---- what happens

function tell_message(text) { if (tell == "messages" || tell == "full") print text }

function announce(i) { held[i] = 1; stale[i] = 0; tell_message(announced(i)) }

function run(  i) {
    for (i = 0; i < count; i++) if (i % 5 != 4) announce(i)
    tell_message(message(1, "040064005A0A00000100"))
    for (i = 0; i < count; i++) stale[i] = 1
    for (i = count - 1; i >= 0; i--) {
        if (i % 3 == 0 && label[i]) label[i] += 10000
        if (i % 3 == 0 || i % 5 == 4) announce(i)
        if (i % 11 == 0) { held[i] = 0; tell_message(withdrawn(i)) }
    }
    if (ended) {
        tell_message(update("800F03000105"))
        for (i = 0; i < count; i++) if (stale[i]) held[i] = 0
    }
}

function wildcard(text) { return text == "*" ? "C-*" : text }

function tell_routes(  i) {
    for (i = 0; i < count; i++) if (held[i])
        printf "S-PMSI A-D, RD 100:%d, (%s,%s), originator %s%s %s\n", rd[i], wildcard(source[i]), wildcard(group[i]), originator[i],
            stale[i] ? ": stale, not announced again since the session was lost" : "",
            label[i] ? "Ingress Replication, label " label[i] "; endpoint " originator[i] : "No tunnel information present, no label"
}

# ---- flows

# The tier in which a flow takes a route; 0 where it does not.
function tier_of(i, router, from, to,  ssm) {
    ssm = to ~ /^232\./
    if (!held[i] || !label[i] || originator[i] != router) return 0
    if (source[i] == from && group[i] == to) return 1
    if (source[i] == from && group[i] == "*") return ssm ? 2 : 0
    if (source[i] == "*" && group[i] == to) return ssm ? 0 : 3
    return source[i] == "*" && group[i] == "*" ? 4 : 0
}

function scan(router, from, to,  i, tier, best, taken) {
    best = 5
    for (i = 0; i < count; i++) {
        tier = tier_of(i, router, from, to)
        if (tier && (tier < best || (tier == best && rd[i] < rd[taken]))) { best = tier; taken = i }
    }
    return best < 5 ? "tier " best " label " label[taken] : "no route"
}

function tell_flows(  i, router, from, to) {
    for (i = 0; i < 150; i++) {
        router = "10.0.0." (i % 4 ? 1 : 2); from = "192.0.2." 1 + drawn(45); to = (drawn(2) ? "232" : "239") ".1.1." 1 + drawn(22)
        if (tell == "flows") print router, from, to
        else print router, from, to, scan(router, from, to)
    }
}

function fill(  i) {
    for (i = 0; i < routes; i++) add("10.0.0.1", "*", "239.1." int(i / 256) "." i % 256, 7)
    for (i = 0; i < count; i++) announce(i)
}

BEGIN {
    srand(514)
    count = 0
    if (tell == "full") { fill(); exit }
    draw_routes()
    run()
    if (tell == "routes") tell_routes()
    if (tell == "flows" || tell == "answers") tell_flows()
}
