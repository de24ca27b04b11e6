#!/usr/bin/env python3
"""Takes from a capture (pcap or pcapng) what a script or the codec can use, and says on standard error what it left out, and why.

`offers`: each packet of N3 in GTP-U over UDP port 2152 becomes a line `offer uU bB DIR HEX`. A tunnel, that is a destination address and TEID, is a bearer of its own: the first is u1 b1, the
ninth u2 b1, in the order in which they come, or as --tunnel says. The direction is `ul` where a PDU Session Container says that the packet goes up, else `dl`.
`messages TYPE`: the octets of each control message become a line for `decode TYPE`: of SCTP by their payload protocol (F1AP-PDU 62, E1AP-PDU 64, XnAP-PDU 61), and of the captures of
tools/to_pcapng.py by their UDP port.

Captures are of Ethernet (with VLAN tags), raw IP, Linux cooked or loopback. IP fragments, SCTP chunks in fragments and IPv6 extension headers aren't put together: they are told as left out.
Nothing here is proved.

Usage: tools/from_pcap.py offers [--tunnel ADDRESS/TEID=uU/bB/DIR].. CAPTURE [OUT]
       tools/from_pcap.py messages TYPE CAPTURE [OUT]      (`-` is standard input or output)
"""

import argparse
import collections
import dataclasses
import ipaddress
import re
import struct
import sys

import endpoints
import packet_reader
import transcripts
from transcripts import Wrong

SECTION, INTERFACE, SIMPLE, ENHANCED = 0x0A0D0D0A, 1, 3, 6
PCAP = {b"\xa1\xb2\xc3\xd4": ">", b"\xd4\xc3\xb2\xa1": "<", b"\xa1\xb2\x3c\x4d": ">", b"\x4d\x3c\xb2\xa1": "<"}
COMMENT, IF_NAME, IPV4, IPV6, UDP, SCTP = 1, 2, 0x0800, 0x86DD, 17, 132
VLANS = (0x8100, 0x88A8)
# where the type of what follows stands in the header of a link, and the header's length; None where IP follows by itself
LINKS = {1: (12, 14), 113: (14, 16), 276: (0, 20), 101: None, 228: None, 229: None, 0: (None, 4), 108: (None, 4)}
LONGEST = 2048
PDU_SESSION_CONTAINER = 0x85
PAYLOAD_PROTOCOLS = {62: "F1AP-PDU", 64: "E1AP-PDU", 61: "XnAP-PDU"}
PORTS = {kind.port: kind.stands for kind in endpoints.KINDS if kind.is_control}
TYPES = sorted({*PAYLOAD_PROTOCOLS.values(), *PORTS.values()})


class LeftOut(Exception):
    """Why a packet isn't taken."""


@dataclasses.dataclass(frozen=True)
class Frame:
    """A packet of a capture: its number, from 1, its kind of link, the name of its interface, its octets, and its comment."""

    number: int
    link: int
    interface: str
    octets: bytes
    comment: str = ""


@dataclasses.dataclass(frozen=True)
class Datagram:
    """What IP carries: the protocol, the destination's address, and the octets."""

    protocol: int
    target: str
    octets: bytes


# ---- pcap and pcapng


def frames_of(data):
    """The packets of a capture. Wrong where it is none."""
    if data[:4] in PCAP:
        return frames_of_pcap(data, PCAP[data[:4]])
    if data[:4] == struct.pack(">I", SECTION):
        return frames_of_pcapng(data)
    raise Wrong(0, "neither pcap nor pcapng")


def frames_of_pcap(data, order):
    if len(data) < 24:
        raise Wrong(0, "cut off in its header")
    link, at, number = struct.unpack_from(f"{order}I", data, 20)[0] & 0xFFFF, 24, 0
    while at < len(data):
        number += 1
        length = struct.unpack_from(f"{order}I", data, at + 8)[0] if at + 16 <= len(data) else len(data)
        if at + 16 + length > len(data):
            raise Wrong(0, f"cut off in packet {number}")
        yield Frame(number, link, "", data[at + 16 : at + 16 + length])
        at += 16 + length


def frames_of_pcapng(data):
    at, order, interfaces, number = 0, "<", [], 0
    while at < len(data):
        if data[at : at + 4] == struct.pack(">I", SECTION):
            order = ">" if data[at + 8 : at + 12] == b"\x1a\x2b\x3c\x4d" else "<"
            interfaces = []
        kind, length = struct.unpack_from(f"{order}II", data, at) if at + 12 <= len(data) else (0, 0)
        if length < 12 or length % 4 or at + length > len(data):
            raise Wrong(0, f"a block of wrong length at octet {at}")
        body = data[at + 8 : at + length - 4]
        if kind == INTERFACE and len(body) >= 8:
            interfaces.append((struct.unpack_from(f"{order}H", body)[0], option_of(body[8:], order, IF_NAME)))
        elif kind in (ENHANCED, SIMPLE):
            number += 1
            yield frame_of_block(number, kind, body, order, interfaces)
        at += length


def frame_of_block(number, kind, body, order, interfaces):
    head = 20 if kind == ENHANCED else 4
    if len(body) < head:
        raise Wrong(0, f"cut off in packet {number}")
    place, length = (struct.unpack_from(f"{order}I", body)[0], struct.unpack_from(f"{order}I", body, 12)[0]) if kind == ENHANCED else (0, len(body) - 4)
    if place >= len(interfaces) or head + length > len(body):
        raise Wrong(0, f"packet {number} has no such interface, or more octets than its block")
    comment = option_of(body[head + (length + 3) // 4 * 4 :], order, COMMENT)
    return Frame(number, *interfaces[place], body[head : head + length], comment)


def option_of(options, order, wanted):
    """The text of an option of a block; an empty one where it isn't there."""
    at = 0
    while at + 4 <= len(options):
        code, length = struct.unpack_from(f"{order}HH", options, at)
        if code == wanted:
            return options[at + 4 : at + 4 + length].decode(errors="replace")
        at += 4 + (length + 3) // 4 * 4
    return ""


# ---- IP


def ip_of(frame):
    """The octets of IP in a frame. LeftOut where it has none, or its octets were injected by a script (tools/to_pcapng.py says so in the comment)."""
    if re.match(r"line \d+, event \d+: injected ", frame.comment):
        raise LeftOut("injected by a script")
    if frame.link not in LINKS:
        raise LeftOut(f"a link of kind {frame.link}")
    if LINKS[frame.link] is None:
        return frame.octets
    place, length = LINKS[frame.link]
    if len(frame.octets) < length:
        raise LeftOut("cut off in the header of its link")
    kind = struct.unpack_from(">H", frame.octets, place)[0] if place is not None else None
    while kind in VLANS and len(frame.octets) >= length + 4:
        kind, length = struct.unpack_from(">H", frame.octets, length + 2)[0], length + 4
    if kind not in (IPV4, IPV6, None):
        raise LeftOut(f"Ethernet type 0x{kind:04X}, not IP")
    return frame.octets[length:]


def datagram_of(octets):
    """What IP carries. LeftOut where it isn't whole."""
    version = octets[0] >> 4 if octets else 0
    if version == 4 and len(octets) >= 20:
        head, total = 4 * (octets[0] & 15), struct.unpack_from(">H", octets, 2)[0]
        if struct.unpack_from(">H", octets, 6)[0] & 0x3FFF:
            raise LeftOut("a fragment of IP")
        if head < 20 or not head <= total <= len(octets):
            raise LeftOut("IPv4 that is cut off, or of wrong length")
        return Datagram(octets[9], str(ipaddress.IPv4Address(octets[16:20])), octets[head:total])
    if version == 6 and len(octets) >= 40:
        total = 40 + struct.unpack_from(">H", octets, 4)[0]
        if total > len(octets):
            raise LeftOut("IPv6 that is cut off")
        return Datagram(octets[6], str(ipaddress.IPv6Address(octets[24:40])), octets[40:total])
    raise LeftOut("no IP")


def udp_of(datagram):
    """The destination's port and the payload of UDP."""
    length = struct.unpack_from(">H", datagram.octets, 4)[0] if len(datagram.octets) >= 8 else 0
    if not 8 <= length <= len(datagram.octets):
        raise LeftOut("UDP that is cut off, or of wrong length")
    return struct.unpack_from(">H", datagram.octets, 2)[0], datagram.octets[8:length]


# ---- offers


def offered(frame):
    """The tunnel, direction and packet of a frame of N3. LeftOut where it is another one."""
    if frame.interface in {kind.name for kind in endpoints.KINDS if kind is not endpoints.N3}:
        raise LeftOut(f"on {frame.interface}, not N3")
    datagram = datagram_of(ip_of(frame))
    if datagram.protocol != UDP:
        raise LeftOut(f"protocol {datagram.protocol}, not UDP")
    port, payload = udp_of(datagram)
    if port != endpoints.GTPU_PORT:
        raise LeftOut("UDP to another port than 2152")
    packet = packet_reader.read_gtpu(payload)
    if packet is None:
        raise LeftOut("no packet of GTP-U")
    return (datagram.target, packet.teid), *direction_of(packet)


def direction_of(packet):
    if packet.kind != packet_reader.G_PDU:
        raise LeftOut(f"GTP-U message {packet.kind}, not a G-PDU")
    if {packet_reader.NR_RAN_CONTAINER, packet_reader.PDCP_PDU_NUMBER, packet_reader.LONG_PDCP_PDU_NUMBER} & packet.headers.keys():
        raise LeftOut("a G-PDU of F1-U or Xn-U")
    if not packet.payload:
        raise LeftOut("a G-PDU without a packet")
    if len(packet.payload) > LONGEST:
        raise LeftOut(f"a packet above {LONGEST} octets")
    container = packet.headers.get(PDU_SESSION_CONTAINER, b"\0")
    return "ul" if container and container[0] >> 4 == 1 else "dl", packet.payload


def bearer_of(tunnels, tunnel, direction):
    """The terminal, bearer and direction of a tunnel: the chosen ones, or the next bearer."""
    if tunnel not in tunnels:
        number = sum(1 for names in tunnels.values() if names[3])
        if number == 128:
            raise LeftOut("of a 129th tunnel")
        tunnels[tunnel] = (f"u{1 + number // 8}", f"b{1 + number % 8}", None, True)
    ue, bearer, chosen, _ = tunnels[tunnel]
    return f"{ue} {bearer} {chosen or direction}"


def offers(frames, tunnels, left_out):
    for frame in frames:
        try:
            tunnel, direction, packet = offered(frame)
            yield f"offer {bearer_of(tunnels, tunnel, direction)} {packet.hex().upper()}"
        except LeftOut as why:
            left_out[str(why)] += 1


# ---- messages


def messages_in(frame, of_type):
    """The octets of the control messages of a type in a frame. LeftOut where it has none."""
    datagram = datagram_of(ip_of(frame))
    if datagram.protocol == UDP:
        port, payload = udp_of(datagram)
        if PORTS.get(port) != of_type:
            raise LeftOut(f"UDP port {port}" + (f", {PORTS[port]}" if port in PORTS else ""))
        return [payload]
    if datagram.protocol != SCTP:
        raise LeftOut(f"protocol {datagram.protocol}, neither UDP nor SCTP")
    found = [payload for kind, payload in chunks_of(datagram.octets) if PAYLOAD_PROTOCOLS.get(kind) == of_type]
    if not found:
        raise LeftOut("SCTP without such a message")
    return found


def chunks_of(octets):
    """The payload protocol and the payload of each whole DATA chunk of SCTP."""
    at = 12
    while at + 4 <= len(octets):
        kind, flags, length = struct.unpack_from(">BBH", octets, at)
        if length < 4 or at + length > len(octets):
            raise LeftOut("SCTP that is cut off, or of wrong length")
        if kind == 0 and length > 16:
            if flags & 3 != 3:
                raise LeftOut("a fragment of an SCTP message")
            yield struct.unpack_from(">I", octets, at + 12)[0], octets[at + 16 : at + length]
        at += (length + 3) // 4 * 4


def messages(frames, of_type, left_out):
    yield "module builtin 2"
    for frame in frames:
        try:
            for payload in messages_in(frame, of_type):
                yield payload.hex().upper()
        except LeftOut as why:
            left_out[str(why)] += 1


# ---- the tool


def read_tunnel(word):
    """`ADDRESS/TEID=uU/bB/DIR`: the tunnel and its bearer."""
    found = re.fullmatch("([0-9A-Fa-f.:]+)/(0x[0-9A-Fa-f]+|[0-9]+)=(u[0-9]+)/(b[0-9])/(dl|ul)", word)
    try:
        if not found:
            raise ValueError
        return (str(ipaddress.ip_address(found[1])), int(found[2], 0)), (transcripts.ue(found[3]), transcripts.bearer(found[4]), found[5], False)
    except (ValueError, transcripts.WrongWord):
        raise argparse.ArgumentTypeError(f"awaited ADDRESS/TEID=uU/bB/DIR, as 10.0.0.2/0x1a=u1/b1/dl, and it is '{word}'") from None


def told(left_out):
    return "".join(f"from_pcap: left out {count}: {why}\n" for why, count in sorted(left_out.items(), key=lambda entry: (-entry[1], entry[0])))


def run(given):
    data = sys.stdin.buffer.read() if given.capture == "-" else open(given.capture, "rb").read()
    left_out, frames = collections.Counter(), frames_of(data)
    if given.what == "offers":
        lines = offers(frames, dict(given.tunnel), left_out)
    else:
        lines = messages(frames, given.type, left_out)
    text = "".join(f"{line}\n" for line in lines)
    transcripts.write_file(given.out, text.encode())
    print(told(left_out) or "from_pcap: nothing was left out\n", end="", file=sys.stderr)
    return 0


def main():
    asked = transcripts.Asked(__doc__)
    what = asked.add_subparsers(dest="what", required=True, parser_class=argparse.ArgumentParser)
    parts = what.add_parser("offers"), what.add_parser("messages")
    parts[0].add_argument("--tunnel", type=read_tunnel, action="append", default=[], metavar="ADDRESS/TEID=uU/bB/DIR")
    parts[1].add_argument("type", choices=TYPES)
    for part in parts:
        part.error = asked.error
        part.add_argument("capture")
        part.add_argument("out", nargs="?", default="-")
    given = asked.parse_args()
    try:
        return run(given)
    except (Wrong, OSError) as wrong:
        return transcripts.report("from_pcap", given.capture, wrong)


if __name__ == "__main__":
    sys.exit(main())
