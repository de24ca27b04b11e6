#!/usr/bin/env python3
"""Makes a capture that Wireshark opens from a transcript of `run`: pcapng, one interface a kind of link, one packet for each item or message.

Packets of GTP-U are octet for octet those of the transcript, over UDP port 2152 and IPv4. Control messages stand over UDP at the port number that
their protocol has for SCTP; radio items stand over UDP in Wireshark's framing of PDCP-NR. Addresses are made from node names and carry them in the
capture. Event n stands at second n, its lines microseconds after one another. Each packet has a comment with its line and COUNT. docs/lab.md has the tables
of addresses, ports and interfaces. Octets of `inject` never stood on a link: the comment says that they are injected.

Nothing here is proved, and nothing here is a capture of a network: it shows what a transcript says.

Usage: tools/to_pcapng.py [--at sender|receiver] [--events FIRST-LAST] [--ue uU] [--bearer bB] TRANSCRIPT CAPTURE      (`-` is standard input or output)
"""

import struct
import sys

import endpoints
import selection
import transcripts
from endpoints import KINDS, role

APPLICATION = "fellgrater tools/to_pcapng.py"
REMARK = "Made from a transcript, not captured; not proved. Time is the number of the event in seconds."
LINKTYPE_IPV4 = 228
SECTION_HEADER, INTERFACE, NAMES, PACKET = 0x0A0D0D0A, 1, 4, 6
COMMENT, IF_NAME, IF_DESCRIPTION, IF_TSRESOL, SHB_USERAPPL = 1, 2, 3, 9, 4
NRB_IPV4 = 1
UDP = 17
USER_PLANE, PAYLOAD_TAG, SN_LENGTH_TAG, DIRECTION_TAG, BEARER_TAG, UE_TAG = 2, 1, 2, 3, 5, 6
THIRD_OCTETS = {"cp": 1, "up": 2, "du": 3}


# ---- addresses


def address(node):
    """The IPv4 address of a node: 10.1 is gNB A, 10.2 gNB B, 10.0.0.1 the core, and 10.3.0.N the terminal uN."""
    if node == "core":
        return bytes([10, 0, 0, 1])
    if role(node) == "ue":
        return bytes([10, 3, 0, int(node[1:])])
    gnb, unit = node.split(".")
    return bytes([10, 1 if gnb == "A" else 2, THIRD_OCTETS[unit[:2]], int(unit[2:] or 1)])


# ---- IPv4 and UDP


def checksum(data):
    """The checksum of the Internet protocols (RFC 1071)."""
    whole = data + bytes(len(data) % 2)
    total = sum(struct.unpack(f">{len(whole) // 2}H", whole))
    while total > 0xFFFF:
        total = (total & 0xFFFF) + (total >> 16)
    return total ^ 0xFFFF


def datagram(sender, receiver, port, payload):
    """A UDP datagram over IPv4 from a node to another one."""
    source, target, length = address(sender), address(receiver), 8 + len(payload)
    pseudo = source + target + struct.pack(">BBH", 0, UDP, length)
    udp = struct.pack(">HHH", port, port, length)
    sum_of_udp = checksum(pseudo + udp + b"\0\0" + payload) or 0xFFFF
    start = struct.pack(">BBHHHBB", 0x45, 0, 20 + length, 0, 0x4000, 64, UDP)
    return start + struct.pack(">H", checksum(start + b"\0\0" + source + target)) + source + target + udp + struct.pack(">H", sum_of_udp) + payload


def framed_pdcp(line, bits):
    """Wireshark's framing of a PDCP-NR PDU in UDP (`pdcp_nr_udp`): user plane, then length of numbers, direction, bearer and terminal by tags, then the PDU."""
    is_down, bearer, terminal = line.direction == "dl", int(line.bearer[1:]), int(line.ue[1:])
    tags = struct.pack(">8BH", USER_PLANE, SN_LENGTH_TAG, bits, DIRECTION_TAG, is_down, BEARER_TAG, bearer, UE_TAG, terminal)
    return b"pdcp-nr" + tags + bytes([PAYLOAD_TAG]) + line.octets


# ---- pcapng


def padded(data):
    return data + bytes(-len(data) % 4)


def block(kind, body):
    length = 12 + len(body)
    return struct.pack("<II", kind, length) + body + struct.pack("<I", length)


def option(code, data):
    return struct.pack("<HH", code, len(data)) + padded(data)


def options(*given):
    return b"".join(option(code, text.encode()) for code, text in given) + option(0, b"")


def section_header():
    return block(SECTION_HEADER, struct.pack("<IHHq", 0x1A2B3C4D, 1, 0, -1) + options((COMMENT, REMARK), (SHB_USERAPPL, APPLICATION)))


def interface(kind):
    body = struct.pack("<HHI", LINKTYPE_IPV4, 0, 0) + option(IF_TSRESOL, b"\6")
    return block(INTERFACE, body + options((IF_NAME, kind.name), (IF_DESCRIPTION, kind.title)))


def names(nodes):
    """The names of addresses, which Wireshark shows in their place."""
    records = b""
    for node in nodes:
        data = address(node) + node.encode() + b"\0"
        records += struct.pack("<HH", NRB_IPV4, len(data)) + padded(data)
    return block(NAMES, records + struct.pack("<HH", 0, 0))


def packet(kind, time, data, comment):
    head = struct.pack("<IIIII", KINDS.index(kind), time >> 32, time & 0xFFFFFFFF, len(data), len(data))
    return block(PACKET, head + padded(data) + options((COMMENT, comment)))


# ---- the transcript


def comment_of(line, bits):
    if line.kind == "event":
        where = f"at {line.link}" if "link" in line.fields else f"from {line.sender} to {line.receiver}"
        return f"line {line.number}, event {line.event}: injected {where}"
    words = [f"line {line.number}, event {line.event}: {line.words}"]
    if not line.is_control:
        words += [f"{bits}-bit PDCP SN", "no COUNT" if line.count is None else f"COUNT {line.count}"]
    return "; ".join(words)


def packet_of(line, ends, bits):
    payload = framed_pdcp(line, bits) if ends.kind.stands == "PDCP" else line.octets
    return datagram(ends.sender, ends.receiver, ends.kind.port, payload)


def capture(found, kind, chosen=selection.ALL):
    """The octets of a capture of the lines of a kind, `put` or `got`, and of what is injected, that are chosen."""
    shown = [(line, ends, bits) for line, ends, bits in found if ends and line.kind in (kind, "event") and chosen.has_line(line)]
    nodes = sorted({node for _, ends, _ in shown for node in (ends.sender, ends.receiver)}, key=transcripts.NODES.index)
    blocks = [section_header(), *map(interface, KINDS), names(nodes)]
    for line, ends, bits in shown:
        blocks.append(packet(ends.kind, line.event * 1_000_000 + line.place, packet_of(line, ends, bits), comment_of(line, bits)))
    return b"".join(blocks)


def main():
    asked = transcripts.Asked(__doc__)
    asked.add_argument("--at", choices=("sender", "receiver"), default="sender", help="where the capture is taken: what is put (the default), or what is got")
    selection.ask(asked)
    asked.add_argument("transcript")
    asked.add_argument("capture")
    given = asked.parse_intermixed_args()
    try:
        found = endpoints.read_with_ends(given.transcript)
        data = capture(found, "put" if given.at == "sender" else "got", selection.chosen(given, found))
        transcripts.write_file(given.capture, data)
    except (transcripts.Wrong, OSError) as wrong:
        return transcripts.report("to_pcapng", given.transcript, wrong)
    return 0


if __name__ == "__main__":
    sys.exit(main())
