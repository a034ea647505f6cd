#!/usr/bin/env python3
"""Writes crates/vectors/stdin: frames with the fields that tshark reads from them.

Run by hand, where tshark is installed; docs/VECTORS.md says how the table is made.

    python3 tools/vectors.py > crates/vectors/stdin
"""
import random
import struct
import subprocess
import sys
import tempfile
import xml.etree.ElementTree

RNG = random.Random(20260117)

# ---- what tshark is asked for; the first occurrence of each is the outermost header's

ASKED = [
    "eth.dst", "eth.src", "eth.type", "eth.len", "eth.invalid_lentype",
    "vlan.priority", "vlan.dei", "vlan.id", "vlan.etype", "vlan.len",
    "ip.proto", "ip.dsfield", "ip.ttl", "ip.flags.mf", "ip.frag_offset", "ip.src", "ip.dst",
    "ip.hdr_len", "ip.len", "tcp.srcport", "tcp.dstport", "tcp.flags", "udp.srcport", "udp.dstport",
]

SETTINGS = [
    "ip.defragment:FALSE", "ip.tso_support:FALSE", "tcp.desegment_tcp_streams:FALSE", "tcp.relative_sequence_numbers:FALSE",
]

COLUMNS = ["dst", "src", "type", "vlan", "frag", "proto", "tos", "ttl", "flags", "ip.src", "ip.dst", "sport", "dport"]
# the IPv4 header and the transport part: where they begin in the frame, and their lengths
COLUMNS += ["ip.at", "ip.hdr", "data.at", "data.len"]

# ---- frames

A = bytes.fromhex("020000000001")
B = bytes.fromhex("0200000000b2")
ALL = b"\xff" * 6


def mac():
    return bytes([RNG.choice([0x02, 0x06, 0x52, 0x00, 0x3c])]) + RNG.randbytes(5)


def addr():
    return bytes([RNG.choice([10, 172, 192, 203]), *RNG.randbytes(3)])


def port():
    # above the ports whose payloads tshark takes apart further
    return RNG.randrange(20000, 65536)


def eth(type_word, rest, dst=None, src=None, tags=()):
    head = (dst or mac()) + (src or mac())
    for word, tci in tags:
        head += struct.pack(">HH", word, tci)
    return head + struct.pack(">H", type_word) + rest


def ipv4(proto, rest, options=b"", total=None, version=4, ihl=None, tos=None, ttl=None, frag=0, src=None, dst=None):
    length = 20 + len(options) + len(rest)
    return struct.pack(
        ">BBHHHBBH4s4s",
        version << 4 | (5 + len(options) // 4 if ihl is None else ihl),
        RNG.randrange(256) if tos is None else tos,
        length if total is None else total,
        RNG.randrange(65536),
        frag,
        RNG.randrange(1, 256) if ttl is None else ttl,
        proto,
        0,
        src or addr(),
        dst or addr(),
    ) + options + rest


def udp(rest=b"", length=None, sport=None, dport=None):
    return struct.pack(">HHHH", sport or port(), dport or port(), 8 + len(rest) if length is None else length, 0) + rest


def tcp(flags, rest=b"", options=b"", doff=None):
    word = (5 + len(options) // 4 if doff is None else doff) << 12 | flags
    return struct.pack(">HHIIHHHH", port(), port(), RNG.randrange(2**32), RNG.randrange(2**32), word, 1024, 0, 0) + options + rest


def some(most=24):
    return RNG.randbytes(RNG.randrange(most + 1))


FRAMES = []  # (group, in-port, frame, columns that the rules give instead, why)


def add(group, frame, in_port=None, rule=None, why=None):
    FRAMES.append((group, RNG.randrange(1, 64) if in_port is None else in_port, frame, rule or {}, why))


NO_IP = dict.fromkeys(COLUMNS[4:], "-")
NO_PORTS = {"sport": "-", "dport": "-"}


def plain():
    for n in range(40):
        add("UDP", eth(0x0800, ipv4(17, udp(some()))))
    for flags in [0x002, 0x012, 0x010, 0x018, 0x011, 0x004, 0x014, 0x000, 0x029, 0x03F, 0x0C2, 0x1FF, 0x100, 0xFFF, 0x800, 0x400, 0x200]:
        add("TCP, its flags", eth(0x0800, ipv4(6, tcp(flags, some()))))
    for n in range(24):
        add("TCP", eth(0x0800, ipv4(6, tcp(RNG.randrange(0x1000), some()))))
    for options in [b"\x02\x04\x05\xb4", b"\x01\x01\x08\x0a" + bytes(8), b"\x02\x04\x05\xb4\x04\x02\x08\x0a" + bytes(8) + b"\x01\x03\x03\x07", b"\x01" * 40]:
        for flags in [0x002, 0x018]:
            add("TCP options", eth(0x0800, ipv4(6, tcp(flags, some(), options))))
    for tos in [0x00, 0x01, 0x02, 0x03, 0x10, 0x2E << 2, 0xFF]:
        add("TOS", eth(0x0800, ipv4(17, udp(), tos=tos)))
    for ttl in [0, 1, 2, 63, 64, 128, 255]:
        add("TTL", eth(0x0800, ipv4(17, udp(), ttl=ttl, dst=bytes([10, 1, 2, 3]))))
    for dst, to in [(ALL, b"\xff" * 4), (bytes.fromhex("01005e000016"), bytes([239, 1, 2, 3])), (A, bytes(4)), (B, bytes([127, 0, 0, 1]))]:
        add("Addresses", eth(0x0800, ipv4(17, udp(b"x" * 8), src=bytes(4), dst=to), dst=dst))
    for sport, dport in [(1, 65535), (65535, 1), (0x00FF, 0xFF00), (0x0100, 0x0001), (40000, 40000)]:
        add("Ports", eth(0x0800, ipv4(17, udp(some(), sport=sport, dport=dport))))
    for in_port in [1, 2, 31, 32, 62, 63]:
        add("In-ports", eth(0x0800, ipv4(17, udp(some()))), in_port=in_port)


def tagged():
    for tci in [0x0000, 0x0001, 0x0FFF, 0x1000, 0x1001, 0x1FFF, 0x2000, 0x6064, 0x7064, 0xE000, 0xF000, 0xEFFF, 0xFFFF, 0x0100, 0x8001]:
        add("Tagged UDP", eth(0x0800, ipv4(17, udp(some())), tags=[(0x8100, tci)]))
    for n in range(12):
        add("Tagged TCP", eth(0x0800, ipv4(6, tcp(RNG.randrange(0x1000), some())), tags=[(0x8100, RNG.randrange(65536))]))
    for n in range(4):
        add("Tagged ARP", eth(0x0806, arp(), tags=[(0x8100, RNG.randrange(65536))]))
    for n in range(3):
        add("Tagged IPv6", eth(0x86DD, ipv6(17, udp(some())), tags=[(0x8100, RNG.randrange(65536))]))
    for n in [0, 3, 46, 1500]:
        add("Tagged, a length", eth(n, b"\x42\x42\x03" + bytes(43), tags=[(0x8100, 0x0064)]))
    for frag in [0x2000, 0x2001, 0x00B9]:
        add("Tagged fragments", eth(0x0800, ipv4(17, udp(some()), frag=frag), tags=[(0x8100, RNG.randrange(65536))]))
    for type_word in [0x88B5, 0x0801, 0xFFFF]:
        add("Tagged, other types", eth(type_word, some(), tags=[(0x8100, RNG.randrange(65536))]))
    add("Tagged, only the header", eth(0x88B5, b"", tags=[(0x8100, 0x1005)]))
    add("Tagged, only the header", eth(0x0800, b"", tags=[(0x8100, 0x0005)]))


def twice_tagged():
    why = "second-tag"
    for n in range(6):
        inner = (0x8100, RNG.randrange(65536))
        add("Two tags", eth(0x0800, ipv4(RNG.choice([17]), udp(some())), tags=[(0x8100, RNG.randrange(65536)), inner]), rule=NO_IP, why=why)
    for n in range(3):
        add("Two tags", eth(0x0800, ipv4(6, tcp(0x018)), tags=[(0x8100, 0x0007), (0x8100, RNG.randrange(65536))]), rule=NO_IP, why=why)
    add("Two tags", eth(0x0806, arp(), tags=[(0x8100, 0x0007), (0x8100, 0x1008)]))
    add("Two tags", eth(0x0800, ipv4(17, udp()), tags=[(0x8100, 1), (0x8100, 2), (0x8100, 3)]), rule=NO_IP, why=why)
    add("A service tag", eth(0x0806, arp(), tags=[(0x88A8, 5)]))
    for n in range(3):
        add("A service tag", eth(0x0800, ipv4(17, udp(some())), tags=[(0x88A8, 5), (0x8100, 6)]), rule=dict(NO_IP, vlan="-"), why="service-tag")
    add("A service tag", eth(0x0800, ipv4(17, udp(some())), tags=[(0x88A8, 0x0FFF)]), rule=NO_IP, why="service-tag")
    add("A service tag behind a tag", eth(0x0800, ipv4(17, udp(some())), tags=[(0x8100, 9), (0x88A8, 10)]), rule=NO_IP, why="service-tag")


def arp():
    return struct.pack(">HHBBH6s4s6s4s", 1, 0x0800, 6, 4, RNG.choice([1, 2]), mac(), addr(), bytes(6), addr())


def ipv6(next_header, rest):
    return struct.pack(">IHBB16s16s", 6 << 28, len(rest), next_header, 64, RNG.randbytes(16), RNG.randbytes(16)) + rest


def others():
    for n in range(10):
        add("ARP", eth(0x0806, arp() + bytes(RNG.choice([0, 18])), dst=RNG.choice([ALL, None])))
    for n in range(8):
        add("IPv6", eth(0x86DD, ipv6(RNG.choice([6, 17]), RNG.choice([tcp(0x002), udp(some())]))))
    for n in [0, 1, 3, 38, 46, 100, 1499, 1500]:
        add("802.3, a length", eth(n, b"\x42\x42\x03" + bytes(43)), rule={"type": "0x05ff"}, why="length-zero")
    for n in [1501, 1535]:
        add("A type word of 1501 to 1535", eth(n, bytes(46)))
    for n in [1536, 0x0601]:
        add("The least types", eth(n, bytes(46)))
    for n in [0x88CC, 0x88B5, 0x8847, 0x8863, 0x9000, 0x07FF, 0x0801, 0x0008, 0x8101, 0xFFFF, 0x22F0]:
        if n >= 1536:
            add("Other types", eth(n, bytes(46)))
    for n in range(3):
        mpls = struct.pack(">I", RNG.randrange(16, 2**20) << 12 | 0x140)
        add("IPv4 behind MPLS", eth(0x8847, mpls + ipv4(17, udp(some()))), rule=NO_IP, why="other-type")
    pppoe = ipv4(17, udp(some()))
    add("IPv4 behind PPPoE", eth(0x8864, struct.pack(">BBHHH", 0x11, 0, 7, 2 + len(pppoe), 0x0021) + pppoe), rule=NO_IP, why="other-type")
    add("Only the header", eth(0x88B5, b""))
    add("Only the header", eth(0x0806, b""))
    add("Only the header", eth(0x0000, b""), rule={"type": "0x05ff"}, why="length-zero")


def protocols():
    for n in range(8):
        add("ICMP", eth(0x0800, ipv4(1, struct.pack(">BBHHH", RNG.choice([0, 8]), 0, 0, 7, n) + some())))
    for kind in [3, 11]:
        inner = ipv4(17, udp(), total=64)
        add("ICMP that quotes UDP", eth(0x0800, ipv4(1, struct.pack(">BBHI", kind, 0, 0, 0) + inner)))
        inner = ipv4(6, tcp(0x012))
        add("ICMP that quotes TCP", eth(0x0800, ipv4(1, struct.pack(">BBHI", kind, 1, 0, 0) + inner)))
    for n in range(6):
        chunk = struct.pack(">BBHIIHHI", 1, 0, 20, 7, 4096, 5, 5, 9)
        add("SCTP", eth(0x0800, ipv4(132, struct.pack(">HHII", port(), port(), 3, 0) + chunk)))
    for n in range(3):
        add("UDP-Lite", eth(0x0800, ipv4(136, udp(b"lite" * 3, length=8))))
    for n in range(3):
        add("GRE around IPv4", eth(0x0800, ipv4(47, struct.pack(">HH", 0, 0x0800) + ipv4(17, udp(some())))))
        add("IPv4 in IPv4", eth(0x0800, ipv4(4, ipv4(6, tcp(0x010)))))
    for proto in [0, 2, 50, 51, 89, 103, 112, 253, 254, 255]:
        add("Other protocols", eth(0x0800, ipv4(proto, bytes(24))))
    for proto in [253, 17, 6, 1]:
        if proto == 253:
            add("A header and no more", eth(0x0800, ipv4(proto, b"")))


def fragments():
    for n in range(8):
        add("First fragments of UDP", eth(0x0800, ipv4(17, udp(some(), length=2000), frag=0x2000)))
    for n in range(4):
        add("First fragments of TCP", eth(0x0800, ipv4(6, tcp(RNG.randrange(0x1000), some()), frag=0x2000)))
    for frag in [0x0001, 0x2001, 0x00B9, 0x20B9, 0x1FFF, 0x3FFF, 0x0100, 0x1000, 0x4001, 0x8001, 0xFFFF]:
        add("Later fragments", eth(0x0800, ipv4(RNG.choice([6, 17]), tcp(0x012), frag=frag)))
    add("Later fragments", eth(0x0800, ipv4(17, b"", frag=0x0005)))
    for frag in [0x4000, 0x8000, 0xC000]:
        add("Whole, other flag bits", eth(0x0800, ipv4(17, udp(some()), frag=frag)))
        add("Whole, other flag bits", eth(0x0800, ipv4(6, tcp(0x010), frag=frag)))
    for frag in [0x6000, 0xA000, 0xE000]:
        add("First, other flag bits", eth(0x0800, ipv4(6, tcp(0x018), frag=frag)))
    add("First fragment, ICMP", eth(0x0800, ipv4(1, struct.pack(">BBHHH", 8, 0, 0, 7, 1) + bytes(16), frag=0x2000)))


def lengths():
    for options in [b"\x01" * 4, b"\x94\x04\x00\x00", b"\x07\x07\x04" + bytes(4) + b"\x00", b"\x01" * 20, b"\x01" * 40]:
        add("IP options, UDP", eth(0x0800, ipv4(17, udp(some()), options)))
        add("IP options, TCP", eth(0x0800, ipv4(6, tcp(RNG.randrange(0x1000), some()), options)))
    add("IP options, later fragment", eth(0x0800, ipv4(17, udp(), b"\x01" * 8, frag=0x0003)))
    for pad in [1, 2, 4, 18, 100]:
        add("Padding behind UDP", eth(0x0800, ipv4(17, udp(some(8))) + bytes(pad)))
        add("Padding behind TCP", eth(0x0800, ipv4(6, tcp(0x014)) + b"\xee" * pad))
        add("Padding behind a tagged packet", eth(0x0800, ipv4(17, udp(some(8))) + b"\xdd" * pad, tags=[(0x8100, 77)]))
    # the total length leaves the transport bytes short, though the frame goes on with what looks like them
    for n in range(1, 8):
        packet = ipv4(17, udp(b"abcd"), total=20 + n)
        add("Short UDP", eth(0x0800, packet), rule=NO_PORTS if n >= 2 else {}, why="short-udp")
    for n in [4, 7]:
        add("Short UDP, options", eth(0x0800, ipv4(17, udp(b"abcd"), b"\x01" * 8, total=28 + n)), rule=NO_PORTS, why="short-udp")
    add("Short UDP, no bytes", eth(0x0800, ipv4(17, b"")))
    for n in [1, 4, 8, 12, 13, 14, 16, 18, 19]:
        packet = ipv4(6, tcp(0x012, b"abcdefgh"), total=20 + n)
        add("Short TCP", eth(0x0800, packet), rule=dict(NO_PORTS, flags="-"), why="short-tcp")
    add("Short TCP, no bytes", eth(0x0800, ipv4(6, b"")))
    add("Short first fragment", eth(0x0800, ipv4(6, tcp(0x010)[:16], frag=0x2000)), rule=dict(NO_PORTS, flags="-"), why="short-tcp")
    add("UDP of just 8 bytes", eth(0x0800, ipv4(17, udp())))
    add("UDP of just 8 bytes, padded", eth(0x0800, ipv4(17, udp()) + bytes(18)))
    add("TCP of just 20 bytes", eth(0x0800, ipv4(6, tcp(0x002))))
    add("TCP of just 20 bytes, padded", eth(0x0800, ipv4(6, tcp(0x002)) + bytes(6)))
    for length in [0, 7, 8, 9, 4000, 65535]:
        add("UDP's own length", eth(0x0800, ipv4(17, udp(b"abcdefgh", length=length))))
    for doff in [6, 10, 15]:
        add("TCP's own header length, too long", eth(0x0800, ipv4(6, tcp(0x018, doff=doff))))
    for doff in [0, 1, 4]:
        add("TCP's own header length, too short", eth(0x0800, ipv4(6, tcp(0x018, doff=doff))), rule={"flags": "0x018"}, why="tcp-header")


def unsound():
    for n in [1, 2, 4, 8, 9, 12, 16, 19]:
        add("Cut IPv4 header", eth(0x0800, ipv4(17, udp())[:n]), rule=NO_IP, why="cut-header")
    for n in [10, 19]:
        add("Cut IPv4 header, tagged", eth(0x0800, ipv4(17, udp())[:n], tags=[(0x8100, 3)]), rule=NO_IP, why="cut-header")
    for version in [0, 3, 5, 15]:
        add("Other versions", eth(0x0800, ipv4(17, udp(b"abcd"), version=version)), rule=NO_IP, why="version")
    add("IPv6 under IPv4's type", eth(0x0800, ipv6(17, udp(some()))), rule=NO_IP, why="version")
    for ihl in [0, 1, 4]:
        add("Header length under 20", eth(0x0800, ipv4(17, udp(b"abcd"), ihl=ihl)), rule=NO_IP, why="header-length")
    for total in [0, 1, 19]:
        add("Total length under the header's", eth(0x0800, ipv4(17, udp(b"abcd"), total=total)), rule=NO_IP, why="total-length")
    for total in [20, 23]:
        add("Total length under the header's, options", eth(0x0800, ipv4(17, udp(b"abcd"), b"\x01" * 4, total=total)), rule=NO_IP, why="total-length")
    for more in [1, 2, 100, 1000]:
        add("Total length over the bytes", eth(0x0800, ipv4(17, udp(b"abcd"), total=32 + more)), rule=NO_IP, why="total-length")
        add("Total length over the bytes", eth(0x0800, ipv4(6, tcp(0x018, b"abcd"), total=44 + more)), rule=NO_IP, why="total-length")
    add("Total length over the bytes, tagged", eth(0x0800, ipv4(17, udp(b"abcd"), total=33), tags=[(0x8100, 3)]), rule=NO_IP, why="total-length")
    add("Total length over the bytes, 65535", eth(0x0800, ipv4(17, udp(b"abcd"), total=65535)), rule=NO_IP, why="total-length")
    add("Header over the bytes", eth(0x0800, ipv4(17, b"", ihl=15)), rule=NO_IP, why="header-length")
    add("Header of 60 in a frame of 34", eth(0x0800, ipv4(17, b"", ihl=15, total=60)), rule=NO_IP, why="header-length")
    add("Total length is just all", eth(0x0800, ipv4(17, udp(b"abcd"))))
    add("Total length is just the header", eth(0x0800, ipv4(253, b"") + bytes(26)))


def refused():
    good = eth(0x0800, ipv4(17, udp()))
    for in_port in [0, 64, 65, 255, 256, 65535]:
        add("Refused in-ports", good, in_port=in_port, rule="refused 1 %d" % in_port, why="refused")
    add("Refused in-ports", good[:5], in_port=64, rule="refused 1 64", why="refused")
    for n in [1, 6, 12, 13]:
        add("Refused, under 14 bytes", good[:n], rule="refused 2 %d" % n, why="refused")
    tagged = eth(0x0800, ipv4(17, udp()), tags=[(0x8100, 5)])
    for n in [14, 15, 16, 17]:
        add("Refused, tagged and under 18 bytes", tagged[:n], rule="refused 4 %d" % n, why="refused")
    add("Refused, tagged and under 14 bytes", tagged[:13], rule="refused 2 13", why="refused")


# ---- tshark

def pcap(frames):
    out = struct.pack("<IHHiIII", 0xA1B2C3D4, 2, 4, 0, 0, 65535, 1)
    for n, frame in enumerate(frames):
        out += struct.pack("<IIII", n, 0, len(frame), len(frame)) + frame
    return out


def tshark(file, *words):
    command = ["tshark", "-n", "-r", file.name, *words]
    for setting in SETTINGS:
        command += ["-o", setting]
    return subprocess.run(command, check=True, capture_output=True, text=True).stdout


# The fields of each frame by their names, and under `at` where its first IPv4 header begins.
def ask(frames):
    with tempfile.NamedTemporaryFile(suffix=".pcap") as file:
        file.write(pcap(frames))
        file.flush()
        wanted = [word for field in ASKED for word in ("-e", field)]
        text = tshark(file, "-T", "fields", "-E", "occurrence=f", "-E", "separator=|", *wanted)
        tree = xml.etree.ElementTree.fromstring(tshark(file, "-T", "pdml"))
    rows = [dict(zip(ASKED, line.split("|"))) for line in text.rstrip("\n").split("\n")]
    packets = tree.findall("packet")
    assert len(rows) == len(packets) == len(frames), (len(rows), len(packets), len(frames))
    for row, packet in zip(rows, packets):
        header = packet.find("proto[@name='ip']")
        row["at"] = "" if header is None else header.get("pos")
    return rows


# The key's columns, by what tshark says. `-` stands where it says nothing.
def columns(row):
    out = dict.fromkeys(COLUMNS, "-")
    out["dst"] = row["eth.dst"]
    out["src"] = row["eth.src"]
    tagged = row["vlan.id"] != ""
    kind = row["vlan.etype"] if row["vlan.etype"] and row["eth.type"] == "0x8100" else row["eth.type"]
    length = row["vlan.len"] or row["eth.len"] or row["eth.invalid_lentype"]
    out["type"] = kind if not length else "0x05ff"
    if tagged:
        tci = int(row["vlan.priority"]) << 13 | 0x1000 | int(row["vlan.id"])
        out["vlan"] = "0x%04x" % tci
    if row["ip.proto"] == "":
        return out
    if int(row["ip.frag_offset"]) > 0:
        out["frag"] = "3"
    else:
        out["frag"] = "1" if row["ip.flags.mf"] in ("1", "True") else "0"
    out["proto"] = row["ip.proto"]
    out["tos"] = row["ip.dsfield"]
    out["ttl"] = row["ip.ttl"]
    out["ip.src"] = row["ip.src"]
    out["ip.dst"] = row["ip.dst"]
    out["ip.at"] = row["at"]
    out["ip.hdr"] = row["ip.hdr_len"]
    if out["frag"] != "3":
        out["data.at"] = str(int(row["at"]) + int(row["ip.hdr_len"]))
        out["data.len"] = str(int(row["ip.len"]) - int(row["ip.hdr_len"]))
    # ports further in, as those that an ICMP message quotes, are no ports of this packet
    if row["ip.proto"] == "6":
        out["sport"] = row["tcp.srcport"] or "-"
        out["dport"] = row["tcp.dstport"] or "-"
        out["flags"] = "0x%03x" % int(row["tcp.flags"], 16) if row["tcp.flags"] else "-"
    if row["ip.proto"] == "17":
        out["sport"] = row["udp.srcport"] or "-"
        out["dport"] = row["udp.dstport"] or "-"
    return out


def main():
    for make in [plain, tagged, twice_tagged, others, protocols, fragments, lengths, unsound, refused]:
        make()
    rows = ask([frame for _, _, frame, _, _ in FRAMES])
    print("# in-port, frame, " + ", ".join(COLUMNS) + ", who says so")
    group = None
    counts = {}
    for (name, in_port, frame, rule, why), row in zip(FRAMES, rows):
        if name != group:
            print("\n# " + name)
            group = name
        if isinstance(rule, str):
            fields = rule.split()
        else:
            seen = columns(row)
            says = dict(seen, **rule)
            if says == seen:
                why = None
            fields = [says[c] for c in COLUMNS]
        by = "rules:" + why if why else "tshark"
        counts[by] = counts.get(by, 0) + 1
        print(in_port, frame.hex(), *fields, by)
    for by in sorted(counts):
        print(counts[by], by, file=sys.stderr)
    print(len(FRAMES), "frames", file=sys.stderr)


main()
