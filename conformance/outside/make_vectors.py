#!/usr/bin/env python3
"""Make vectors.txt: MCAST-VPN NLRI runs and PMSI Tunnel attributes with
tshark's decode of them.

The octets are made here. Every field written to vectors.txt is read off
tshark's decode. What this script knows of its own octets is only compared
with that decode, and a difference is a warning on stderr.

usage: make_vectors.py [output file]      (vectors.txt when not given)
"""

import collections
import ipaddress
import json
import os
import struct
import subprocess
import sys
import tempfile
import xml.etree.ElementTree as ET

SAFI_MCAST_VPN = 5
MP_REACH_NLRI = 14
PMSI_TUNNEL = 22

TEXT2PCAP = "text2pcap -q -T 179,179 {0}.txt {0}.pcap"
PDML = "tshark -n -r {0}.pcap -T pdml"
JSON = "tshark -n -r {0}.pcap -T json -x"

BGP = "bgp.update.path_attribute."
NLRI = "bgp.mcast_vpn_nlri"


# ---- Octets of the wire formats ----

def address(text):
    return ipaddress.ip_address(text).packed


# octets, and the line that this script would expect for each NLRI
Nlri = collections.namedtuple("Nlri", "octets fields")


def nlri(route_type, body, **fields):
    octets = bytes([route_type, len(body)]) + body
    return Nlri(octets, dict(fields, type=route_type, length=len(body)))


def prefixed(addr):
    """Length octet in bits and address; None is the wildcard."""
    return b"\0" if addr is None else bytes([8 * len(addr)]) + addr


def shown(addr):
    return "*" if addr is None else addr.hex()


def intra_as(rd, originator):
    return nlri(1, rd + originator, rd=rd.hex(), originator=originator.hex())


def inter_as(rd, source_as):
    return nlri(2, rd + struct.pack("!I", source_as),
                rd=rd.hex(), **{"as": str(source_as)})


def s_pmsi(rd, source, group, originator):
    return nlri(3, rd + prefixed(source) + prefixed(group) + originator,
                rd=rd.hex(), source=shown(source), group=shown(group),
                originator=originator.hex())


def leaf(key, originator):
    return nlri(4, key.octets + originator,
                originator=originator.hex(), key=key.octets.hex())


def source_active(rd, source, group):
    return nlri(5, rd + prefixed(source) + prefixed(group),
                rd=rd.hex(), source=shown(source), group=shown(group))


def join(route_type, rd, source_as, source, group):
    return nlri(route_type,
                rd + struct.pack("!I", source_as)
                + prefixed(source) + prefixed(group),
                rd=rd.hex(), source=shown(source), group=shown(group),
                **{"as": str(source_as)})


def fec(fec_type, root, opaque):
    return (struct.pack("!BHB", fec_type, 1 if len(root) == 4 else 2, len(root))
            + root + struct.pack("!H", len(opaque)) + opaque)


def generic_lsp(lsp_id):
    return struct.pack("!BHI", 1, 4, lsp_id)


def extended_opaque(ext_type, value):
    return struct.pack("!BHH", 255, ext_type, len(value)) + value


def rsvp_te(p2mp_id, tunnel_id, ext_tunnel_id):
    return address(p2mp_id) + struct.pack("!HH", 0, tunnel_id) \
        + address(ext_tunnel_id)


def update(attributes):
    body = struct.pack("!HH", 0, len(attributes)) + attributes
    return b"\xff" * 16 + struct.pack("!HB", 19 + len(body), 2) + body


def mp_reach(afi, run):
    next_hop = address("10.0.0.9" if afi == 1 else "2001:db8::9")
    value = (struct.pack("!HBB", afi, SAFI_MCAST_VPN, len(next_hop))
             + next_hop + b"\0" + run)
    return struct.pack("!BBH", 0x90, MP_REACH_NLRI, len(value)) + value


def pmsi_tunnel(value):
    return struct.pack("!BBB", 0xc0, PMSI_TUNNEL, len(value)) + value


# ---- The runs ----

Run = collections.namedtuple("Run", "about afi nlris")

RDS = [bytes.fromhex(h) for h in (
    "0000006400000007",     # type 0, 100:7
    "00010a0000010007",     # type 1, 10.0.0.1:7
    "00020001000000ff",     # type 2, 65536:255
    "0000000000000000",
    "ffffffffffffffff",     # no RD type; eight octets all the same
    "030e000000640000",     # looks like an NLRI header
)]
AS = [65000, 0, 23456, 65536, 4294967295]
FAMILY = {
    1: dict(source=["192.0.2.1", "198.51.100.255", "0.0.0.0", "32.32.32.32",
                    "255.255.255.255"],
            group=["232.1.1.1", "239.1.1.1", "224.0.0.0", "233.0.0.0",
                   "239.255.255.255"],
            originator=["10.0.0.1", "10.0.0.2", "203.0.113.254", "0.0.0.0",
                        "255.255.255.255"]),
    2: dict(source=["2001:db8::1", "2001:db8:ffff::ffff", "::",
                    "2020:2020:2020:2020:8080:8080:8080:8080",
                    "ffff:ffff:ffff:ffff:ffff:ffff:ffff:ffff"],
            group=["ff3e::1", "ff0e::8000:1", "ff3e:1::1", "ff00::",
                   "ff3f::ffff:ffff"],
            originator=["2001:db8::a", "2001:db8::b", "fe80::1", "::",
                        "ffff:ffff:ffff:ffff:ffff:ffff:ffff:ffff"]),
}


def family_runs(afi):
    s, g, o = ([address(a) for a in FAMILY[afi][k]]
               for k in ("source", "group", "originator"))
    keys = [
        ("type 1", intra_as(RDS[0], o[0])),
        ("type 2", inter_as(RDS[1], AS[0])),
        ("type 3 (S,G)", s_pmsi(RDS[0], s[0], g[0], o[0])),
        ("type 3 (S,*)", s_pmsi(RDS[1], s[0], None, o[0])),
        ("type 3 (*,G)", s_pmsi(RDS[2], None, g[1], o[1])),
        ("type 3 (*,*)", s_pmsi(RDS[0], None, None, o[0])),
    ]
    active = source_active(RDS[1], s[1], g[1])
    shared = join(6, RDS[2], AS[3], s[0], g[1])
    tree = join(7, RDS[0], AS[0], s[0], g[0])
    k = [n for _, n in keys]
    wild = k[5]
    high = s_pmsi(RDS[4], s[4], None, o[4])
    lookalike = s_pmsi(RDS[5], s[3], None, o[1])

    yield from (Run(about, afi, [n]) for about, n in keys)
    yield from (Run("type 4, key of " + about, afi, [leaf(n, o[2])])
                for about, n in keys)
    yield Run("type 3 (S,*), highest octets", afi, [high])
    yield Run("type 3 (S,*), octets like headers and length octets", afi,
              [lookalike])
    yield Run("type 5", afi, [active])
    yield Run("type 6", afi, [shared])
    yield Run("type 7", afi, [tree])

    yield Run("types 1, 2", afi, [k[0], k[1]])
    yield Run("type 3, all four of S or *, G or *", afi,
              [k[2], k[3], k[4], k[5]])
    yield Run("type 3 (*,*) twice, the same octets", afi, [wild, wild])
    yield Run("type 4 between types 1 and 2, lowest and highest octets", afi,
              [intra_as(RDS[3], o[3]),
               leaf(high, o[3]),
               inter_as(RDS[4], AS[4])])
    yield Run("types 5, 6, 7", afi, [active, shared, tree])
    yield Run("types 7, 6, 5, lowest and highest octets", afi,
              [join(7, RDS[3], AS[1], s[2], g[2]),
               join(6, RDS[4], AS[4], s[4], g[4]),
               source_active(RDS[3], s[2], g[4])])
    yield Run("types 1 to 5", afi,
              [k[0], k[1], k[2], leaf(k[2], o[1]), active])
    yield Run("types 3 to 7", afi, [k[3], leaf(k[5], o[4]), active, shared, tree])
    yield Run("five of type 4", afi,
              [leaf(n, o[i]) for i, n in enumerate(k[:5])])
    yield Run("octets like headers and length octets", afi,
              [s_pmsi(RDS[5], s[3], g[3], o[0]), s_pmsi(RDS[5], None, None, o[3]),
               join(7, RDS[5], AS[2], s[3], g[3]),
               leaf(lookalike, o[1])])
    yield Run("type 3 (*,*) last, after types 6 and 2", afi,
              [shared, inter_as(RDS[2], AS[1]), s_pmsi(RDS[3], None, None, o[3])])


RUNS = [r for afi in (1, 2) for r in family_runs(afi)]


# ---- The attributes ----

Attribute = collections.namedtuple("Attribute", "about octets fields")


def attribute(about, flags, tunnel_type, label_field, identifier):
    octets = (bytes([flags, tunnel_type]) + label_field.to_bytes(3, "big")
              + identifier)
    return Attribute(about, octets, "flags=%d type=%d label=%d identifier=%s"
                     % (flags, tunnel_type, label_field >> 4, identifier.hex()))


PE = address("10.0.0.1")
PE2 = address("203.0.113.254")
SSM = address("232.1.1.1")
ASM = address("239.255.0.1")

ATTRIBUTES = [
    attribute("no tunnel, all zero", 0, 0, 0, b""),
    attribute("no tunnel, LIR, label 0 though the field is not 0",
              1, 0, 0x00000f, b""),
    attribute("no tunnel, all ones", 255, 0, 0xffffff, b""),
    attribute("RSVP-TE P2MP LSP", 0, 1, 0, rsvp_te("10.0.0.1", 7, "10.0.0.1")),
    attribute("RSVP-TE P2MP LSP, LIR", 1, 1, 0x012341,
              rsvp_te("0.0.0.5", 65535, "203.0.113.254")),
    attribute("RSVP-TE P2MP LSP, all zero", 0, 1, 0x000010,
              rsvp_te("0.0.0.0", 0, "0.0.0.0")),
    attribute("RSVP-TE P2MP LSP, highest octets", 254, 1, 0xfffff0,
              rsvp_te("255.255.255.255", 65535, "255.255.255.255")),
    attribute("mLDP P2MP LSP, generic LSP identifier", 0, 2, 0,
              fec(6, PE, generic_lsp(10))),
    attribute("mLDP P2MP LSP, generic LSP identifier, LIR", 1, 2, 0x186a01,
              fec(6, PE2, generic_lsp(0xffffffff))),
    attribute("mLDP P2MP LSP, extended opaque type", 0, 2, 0x000020,
              fec(6, PE, extended_opaque(1, b"red"))),
    attribute("mLDP P2MP LSP, extended opaque type, value of 0 octets",
              0, 2, 0, fec(6, PE, extended_opaque(65535, b""))),
    attribute("mLDP P2MP LSP, extended opaque type, attribute of 64 octets",
              1, 2, 0xabcdef, fec(6, PE, extended_opaque(2, b"0123456789" * 4
                                                         + b"abcd"))),
    attribute("PIM-SSM tree", 0, 3, 0, PE + SSM),
    attribute("PIM-SSM tree, LIR", 1, 3, 0x000010, PE2 + SSM),
    attribute("PIM-SSM tree, highest octets", 128, 3, 0xffffff, b"\xff" * 8),
    attribute("PIM-SM tree", 0, 4, 0, PE + ASM),
    attribute("PIM-SM tree, LIR", 1, 4, 0x800000, PE2 + ASM),
    attribute("PIM-SM tree, identifier all zero", 2, 4, 0x00001f, b"\0" * 8),
    attribute("BIDIR-PIM tree", 0, 5, 0, PE + ASM),
    attribute("BIDIR-PIM tree, LIR", 1, 5, 0x7fffff, PE2 + ASM),
    attribute("BIDIR-PIM tree, octets of other type codes", 6, 5, 0x0b0706,
              bytes([6, 0, 1, 4, 7, 0, 2, 16])),
    attribute("ingress replication", 0, 6, 0x018701, PE),
    attribute("ingress replication, LIR", 1, 6, 0x000010, PE2),
    attribute("ingress replication, address all zero", 0, 6, 0, b"\0" * 4),
    attribute("ingress replication, address all ones", 64, 6, 0xfffff1,
              b"\xff" * 4),
    attribute("mLDP MP2MP LSP, FEC type 7", 0, 7, 0,
              fec(7, PE, generic_lsp(10))),
    attribute("mLDP MP2MP LSP, FEC type 7, LIR", 1, 7, 0x012340,
              fec(7, PE2, generic_lsp(0))),
    attribute("mLDP MP2MP LSP, FEC type 7, extended opaque type", 0, 7, 0x000030,
              fec(7, PE, extended_opaque(256, b"blue!"))),
    attribute("mLDP MP2MP LSP, FEC type 8", 0, 7, 0,
              fec(8, PE, generic_lsp(10))),
    attribute("mLDP MP2MP LSP, FEC type 8, LIR", 1, 7, 0xfedcba,
              fec(8, PE2, generic_lsp(0x01020304))),
    attribute("mLDP MP2MP LSP, FEC type 8, extended opaque type, "
              "attribute of 64 octets",
              0, 7, 0x00000f, fec(8, PE, extended_opaque(0, b"9876543210" * 4
                                                         + b"wxyz"))),
]


# ---- Cases left out: well-formed, and tshark is wrong ----

V4, V6 = address("10.0.0.1"), address("2001:db8::1")
S6, G6 = address("2001:db8::2"), address("ff3e::1")

WRONG_RUNS = [
    Run("route type 1, AFI 1, originator of 16 octets", 1, [intra_as(RDS[0], V6)]),
    Run("route type 1, AFI 2, originator of 4 octets", 2, [intra_as(RDS[0], V4)]),
    Run("route type 3, AFI 1, originator of 16 octets", 1,
        [s_pmsi(RDS[0], V4, SSM, V6)]),
    Run("route type 3, AFI 2, originator of 4 octets, an NLRI after it", 2,
        [s_pmsi(RDS[0], None, None, V4), s_pmsi(RDS[0], S6, G6, V6)]),
    Run("route type 4, AFI 1, originator of 16 octets", 1,
        [leaf(intra_as(RDS[0], V4), V6)]),
    Run("route type 4, AFI 2, originator of 4 octets", 2,
        [leaf(intra_as(RDS[0], V6), V4)]),
]

WRONG_ATTRIBUTES = [
    attribute("tunnel type 3, IPv6 addresses (32 octets)", 0, 3, 0, V6 + G6),
    attribute("tunnel type 4, IPv6 addresses (32 octets)", 0, 4, 0, V6 + G6),
    attribute("tunnel type 5, IPv6 addresses (32 octets)", 0, 5, 0, V6 + G6),
    attribute("tunnel type 6, IPv6 address (16 octets)", 0, 6, 0, V6),
    attribute("tunnel type 2, IPv6 root", 0, 2, 0, fec(6, V6, generic_lsp(10))),
    attribute("tunnel type 7, IPv6 root", 0, 7, 0, fec(7, V6, generic_lsp(10))),
    attribute("tunnel type 2, opaque value of 0 octets", 0, 2, 0, fec(6, PE, b"")),
    attribute("tunnel type 2, opaque type 3 (transit IPv4 source)", 0, 2, 0,
              fec(6, PE, struct.pack("!BH", 3, 8) + V4 + SSM)),
    attribute("tunnel type 2, opaque type 1 of 8 octets", 0, 2, 0,
              fec(6, PE, struct.pack("!BHII", 1, 8, 1, 2))),
    attribute("tunnel type 2, two opaque elements", 0, 2, 0,
              fec(6, PE, generic_lsp(1) + generic_lsp(2))),
    attribute("tunnel type 11 (BIER)", 0, 11, 0x000010, bytes([1, 0, 5]) + V4),
]


# ---- tshark ----

class Undecoded(Exception):
    """tshark reports a fault, or its fields do not cover all octets."""


def command(line, directory):
    # A home of its own keeps the user's preferences out.
    env = dict(os.environ, HOME=directory, XDG_CONFIG_HOME=directory,
               LC_ALL="C.UTF-8")
    done = subprocess.run(line.split(), cwd=directory, env=env,
                          stdout=subprocess.PIPE, stderr=subprocess.PIPE)
    if done.returncode != 0:
        sys.exit("%s: %s" % (line, done.stderr.decode(errors="replace")))
    return done.stdout


def hex_dump(octets):
    lines = ["%06x %s" % (i, octets[i:i + 16].hex(" "))
             for i in range(0, len(octets), 16)]
    return "\n".join(lines + ["%06x" % len(octets)]) + "\n"


def dissect(file, messages, directory):
    """tshark's decode, one packet a message: PDML packets and JSON packets."""
    with open(os.path.join(directory, file + ".txt"), "w") as f:
        f.write("\n".join(hex_dump(m) for m in messages))
    command(TEXT2PCAP.format(file), directory)
    packets = ET.fromstring(command(PDML.format(file), directory)).findall("packet")
    raw = json.loads(command(JSON.format(file), directory))
    if not len(packets) == len(raw) == len(messages):
        sys.exit("%s: %d messages, %d packets" % (file, len(messages), len(packets)))
    return list(zip(packets, raw))


def name(field):
    return field.get("name")


def pos(field):
    return int(field.get("pos"))


def size(field):
    return int(field.get("size"))


def value(field):
    """The field's octets as tshark gives them."""
    octets = bytes.fromhex(field.get("unmaskedvalue") or field.get("value") or "")
    if len(octets) != size(field):
        raise Undecoded("%s: %d octets given, size %d"
                        % (name(field), len(octets), size(field)))
    return octets


def number(field):
    return int(field.get("show"))


def refuse_experts(packet):
    for field in packet.iter():
        if name(field) == "_ws.expert":
            raise Undecoded("expert: " + field.get("showname").split(": ", 1)[1])
        if name(field) == "_ws.malformed":
            raise Undecoded("malformed packet")


def path_attribute(packet, code):
    refuse_experts(packet)
    found = [f for f in packet.iter("field")
             if name(f) == "bgp.update.path_attribute"]
    if len(found) != 1:
        raise Undecoded("%d path attributes" % len(found))
    types = [number(f) for f in found[0] if name(f) == BGP + "type_code"]
    if types != [code]:
        raise Undecoded("path attribute types %r" % types)
    return found[0]


def only(fields, wanted):
    found = [f for f in fields if name(f) == wanted]
    if len(found) != 1:
        raise Undecoded("%d fields %s" % (len(found), wanted))
    return found[0]


def cover(fields, start, length, gaps=()):
    """The fields follow each other from start and end at start + length."""
    at = start
    for field in fields:
        while at - start in gaps:
            at += 1
        if pos(field) != at:
            raise Undecoded("fields stop at octet %d of %d" % (at - start, length))
        at += size(field)
    if at != start + length:
        raise Undecoded("its fields take %d octets, there are %d"
                        % (at - start, length))


ORDER = ("rd", "as", "source", "group", "originator", "key")
# fields of each route type, in tshark's names after bgp.mcast_vpn_nlri_
BODY = {
    1: ("rd", "origin_router"),
    2: ("rd", "source_as"),
    3: ("rd", "source_length", "source_addr", "group_length", "group_addr",
        "origin_router"),
    4: ("route_key", "origin_router"),
    5: ("rd", "source_length", "source_addr", "group_length", "group_addr"),
    6: ("rd", "source_as", "source_length", "source_addr", "group_length",
        "group_addr"),
}
BODY[7] = BODY[6]
OUR_NAME = {"rd": "rd", "origin_router": "originator", "source_addr": "source",
            "group_addr": "group", "route_key": "key"}


# RFC 4607
SSM_RANGE = [ipaddress.ip_network("232.0.0.0/8")] + [
    ipaddress.ip_network("ff3%x::/32" % scope) for scope in range(16)]


def is_discarded(route_type, fields):
    """A Source Active A-D route for an SSM group (RFC 6514, section 4.5)."""
    if route_type != 5:
        return False
    group = ipaddress.ip_address(bytes.fromhex(fields["group"]))
    return any(group in network for network in SSM_RANGE)


def nlri_line(offset, route_type, length, fields):
    word = "discarded" if is_discarded(route_type, fields) else "nlri"
    return " ".join(["%s %d %d %d" % (word, offset, route_type, length)]
                    + ["%s=%s" % (k, fields[k]) for k in ORDER if k in fields])


def read_nlri(route_type, body):
    """Fields of one NLRI from the children of its bgp.mcast_vpn_nlri."""
    fields, lengths, seen = {}, {}, []
    cover(list(body), pos(body), size(body))
    for field in body:
        short = name(field)[len(NLRI) + 1:]
        for suffix in ("_ipv4", "_ipv6"):
            if short.endswith(suffix):
                short = short[:-len(suffix)]
        seen.append(short)
        if short in ("source_length", "group_length"):
            lengths[short.split("_")[0]] = number(field)
        elif short == "source_as":
            fields["as"] = number(field)
        else:
            fields[OUR_NAME[short]] = value(field).hex()
    for which, bits in lengths.items():
        if bits == 0 and which not in fields:
            fields[which] = "*"      # tshark: a length of 0 and no address field
            seen.insert(seen.index(which + "_length") + 1, which + "_addr")
        elif len(fields[which]) * 4 != bits:
            raise Undecoded("%s length %d, address %s" % (which, bits, fields[which]))
    if tuple(seen) != BODY[route_type]:
        raise Undecoded("type %d with fields %s" % (route_type, " ".join(seen)))
    return fields


def read_run(packet):
    """AFI, octets, NLRI lines and size of a run, all from tshark's fields."""
    attr = path_attribute(packet, MP_REACH_NLRI)
    afi = number(only(attr, BGP + "mp_reach_nlri.afi"))
    safi = number(only(attr, BGP + "mp_reach_nlri.safi"))
    run = only(attr, BGP[:-1] + ".mp_reach_nlri")
    if safi != SAFI_MCAST_VPN:
        raise Undecoded("SAFI %d" % safi)
    if pos(run) + size(run) != pos(attr) + size(attr):
        raise Undecoded("octets after the run")
    children = list(run)
    cover(children, pos(run), size(run))
    lines, octets = [], b""
    for i in range(0, len(children), 3):
        head = children[i:i + 3]
        if [name(f) for f in head] != [NLRI + "_route_type", NLRI + "_length", NLRI]:
            raise Undecoded("fields " + " ".join(name(f) for f in head))
        route_type, length = number(head[0]), number(head[1])
        if size(head[2]) != length:
            raise Undecoded("length %d, body %d" % (length, size(head[2])))
        lines.append(nlri_line(pos(head[0]) - pos(run), route_type, length,
                               read_nlri(route_type, head[2])))
        octets += b"".join(value(f) for f in head)
    return afi, octets, lines, size(run)


def find(tree, key):
    if isinstance(tree, dict):
        if key in tree:
            return tree[key]
        tree = list(tree.values())
    if isinstance(tree, list):
        for branch in tree:
            found = find(branch, key)
            if found is not None:
                return found
    return None


def read_attribute(packet, raw):
    """Octets and the fields line of an attribute, all from tshark's fields."""
    attr = path_attribute(packet, PMSI_TUNNEL)
    flags, kind, label, ident = (only(attr, BGP + n) for n in (
        "pmsi.tunnel.flags", "pmsi.tunnel.type", "mpls_label_value_20bits",
        "pmsi.tunnel.id"))
    cover([flags, kind, label, ident], pos(flags),
          pos(attr) + size(attr) - pos(flags))
    # tshark gives the identifier as a whole without a value in PDML; its
    # octets are in the JSON, its parts in both.
    octets = b""
    if size(ident) != 0:
        given = find(raw, BGP + "pmsi.tunnel.id_raw")
        if given[1:3] != [pos(ident), size(ident)]:
            raise Undecoded("identifier at %r" % given[1:3])
        octets = bytes.fromhex(given[0])
    parts = [f for f in ident if name(f) != BGP + "pmsi.tunnel_id.not_present"]
    # tshark has no field for the two zero octets before an RSVP-TE tunnel id.
    cover(parts, pos(ident), size(ident),
          gaps=(4, 5) if number(kind) == 1 else ())
    for part in parts:
        at = pos(part) - pos(ident)
        if octets[at:at + size(part)] != value(part):
            raise Undecoded("%s differs from the identifier" % name(part))
    whole = value(flags) + value(kind) + value(label) + octets
    return whole, "flags=%d type=%d label=%d identifier=%s" % (
        number(flags), number(kind), number(label), octets.hex())


# ---- Comparing with what was made ----

def expected_run(run):
    lines, offset = [], 0
    for n in run.nlris:
        lines.append(nlri_line(offset, n.fields["type"], n.fields["length"], n.fields))
        offset += len(n.octets)
    return run.afi, b"".join(n.octets for n in run.nlris), lines, offset


def expected_attribute(attr):
    return attr.octets, attr.fields


def difference(got, wanted):
    return "; ".join("tshark %r, made %r" % pair
                     for pair in zip(got, wanted) if pair[0] != pair[1])


def warn(text):
    print("warning: " + text, file=sys.stderr)


def decode(cases, packets, read, expected):
    """Pairs of case and decode. Undecoded ones are left out with a warning."""
    kept = []
    for case, packet in zip(cases, packets):
        try:
            got = read(*packet)
        except Undecoded as fault:
            warn("%s: left out: %s" % (case.about, fault))
            continue
        differs = difference(got, expected(case))
        if differs:
            warn("%s: mismatch: %s" % (case.about, differs))
        kept.append((case, got))
    return kept


def wrong(cases, packets, read, expected):
    """What tshark does with each case that it is known to get wrong."""
    found = []
    for case, packet in zip(cases, packets):
        try:
            how = difference(read(*packet), expected(case))
            if how:
                how = "no fault shown, but other fields than were put in"
        except Undecoded as fault:
            how = str(fault)
        if not how:
            warn("%s: tshark is right here after all" % case.about)
            how = "decoded right by this version; could be taken in"
        found.append((case.about, how))
    return found


HEADER = """\
MCAST-VPN NLRI runs (SAFI 5) and PMSI Tunnel attributes (path attribute 22),
with the decode that another program, tshark, gives of them.

Made by make_vectors.py with
  {version}
Each run stands in the MP_REACH_NLRI attribute of a BGP UPDATE message, each
PMSI Tunnel attribute alone in one. The commands:
  {text2pcap_runs}
  {pdml_runs}
  {text2pcap_attributes}
  {pdml_attributes}
  {json_attributes}

Lines
  run <afi> <octets>
  nlri <offset> <type> <length> and the fields that the type has, of
    rd= as= source= group= originator= key=
  discarded, and the same: a Source Active A-D route (type 5) for an SSM group,
    which a router discards (RFC 6514, section 4.5), and tshark decodes
  end <offset> <number>
  attribute <octets>
  fields flags= type= label= identifier=
Octets are hex; offset, type, length, as, flags, type, label are decimal.
label is the 20-bit label as tshark gives it (the 24-bit field without its
last four bits). identifier= with nothing after it is 0 octets.

All values are read off tshark's fields (PDML name, show, value, pos, size),
none from the script that made the octets; only the comment over a block is
the script's. A block is written only if tshark has no expert item and no
malformed mark for the packet, and its fields follow each other from the first
octet to the last without a gap (but for RSVP-TE, below). This gives the line
"end <size of the run> 0". The script also compares the decode with what it
put in: of the blocks here {mismatches} differ.

Where tshark's decode leaves something out:
- Wildcard: tshark gives a length of 0 and no address field. Written as *.
- Leaf's route key: tshark gives it as octets only and does not read into
  it. Every key here is also a run by itself, with tshark's decode.
- Tunnel identifier: PDML has pos and size of the whole but no value. Its
  octets are from the JSON output, compared with the parts in PDML.
- RSVP-TE: no field for the two zero octets before the tunnel id. They are
  in the whole.
- No tunnel: the whole has size 0. tshark's child "Tunnel ID not present" has a
  position outside the attribute and is not used.
- The last four bits of the label field: no field of their own. The three
  octets (unmaskedvalue) are compared with the attribute's.

What tshark gets right: all route types with an originator of the family's
size, wildcards, runs of several NLRIs; tunnel types 0 to 7 with IPv4
addresses, mLDP opaque values that are one element of type 1 (4 octets) or 255.

What tshark gets wrong; such cases were tried and are left out (after the
colon, how it went):
{wrong}
tshark takes the originator's size from the family. In route type 4 with the
other size the key so comes out 12 octets too long or too short.
"""


def main():
    output = sys.argv[1] if len(sys.argv) > 1 else "vectors.txt"
    with tempfile.TemporaryDirectory() as directory:
        version = command("tshark --version", directory).decode().splitlines()[0]

        def run_packets(file, runs):
            return [(pdml,) for pdml, _ in dissect(file, [
                update(mp_reach(r.afi, b"".join(n.octets for n in r.nlris)))
                for r in runs], directory)]

        def attribute_packets(file, attributes):
            return dissect(file, [update(pmsi_tunnel(a.octets))
                                  for a in attributes], directory)

        runs = decode(RUNS, run_packets("runs", RUNS), read_run, expected_run)
        attributes = decode(ATTRIBUTES, attribute_packets("attributes", ATTRIBUTES),
                            read_attribute, expected_attribute)
        left_out = wrong(WRONG_RUNS, run_packets("wrong_runs", WRONG_RUNS),
                         read_run, expected_run)
        left_out += wrong(WRONG_ATTRIBUTES,
                          attribute_packets("wrong_attributes", WRONG_ATTRIBUTES),
                          read_attribute, expected_attribute)

    header = HEADER.format(
        version=version,
        mismatches=sum(got != expected_run(case) for case, got in runs)
        + sum(got != expected_attribute(case) for case, got in attributes),
        text2pcap_runs=TEXT2PCAP.format("runs"),
        pdml_runs=PDML.format("runs"),
        text2pcap_attributes=TEXT2PCAP.format("attributes"),
        pdml_attributes=PDML.format("attributes"),
        json_attributes=JSON.format("attributes"),
        wrong="\n".join("- %s: %s" % w for w in left_out))

    text = ["# " + line if line else "#" for line in header.splitlines()]
    for case, (afi, octets, lines, end) in runs:
        text += ["", "# AFI %d, %s" % (afi, case.about),
                 "run %d %s" % (afi, octets.hex())]
        text += lines + ["end %d 0" % end]
    for case, (octets, fields) in attributes:
        text += ["", "# " + case.about, "attribute " + octets.hex(),
                 "fields " + fields]
    with open(output, "w") as f:
        f.write("\n".join(text) + "\n")

    print("%d runs, %d NLRIs, %d attributes; %d cases left out" % (
        len(runs), sum(len(got[2]) for _, got in runs), len(attributes),
        len(left_out)), file=sys.stderr)


if __name__ == "__main__":
    main()
