"""Reads the octets of GTP-U (TS 29.281), of this profile's NR-U frames (after TS 38.425) and of PDCP (TS 38.323), for names in pictures. docs/definitions/links.md has
the layouts.

Nothing here is proved: octets of no layout are called so, without the reason that the program has for them.
"""

import dataclasses

G_PDU, END_MARKER = 255, 254
NR_RAN_CONTAINER, PDCP_PDU_NUMBER, LONG_PDCP_PDU_NUMBER = 0x84, 0xC0, 0x82


@dataclasses.dataclass(frozen=True)
class Gtpu:
    """A packet of GTP-U: its message type, TEID, the content of each extension header by its type, and the payload."""

    kind: int
    teid: int
    headers: dict
    payload: bytes


def read_gtpu(data):
    """The packet of GTP-U that these octets are, or None."""
    if len(data) < 8 or data[0] >> 4 != 3 or len(data) != 8 + int.from_bytes(data[2:4], "big"):
        return None
    headers, at = {}, 8
    if data[0] & 7:
        if len(data) < 12:
            return None
        kind, at = data[11] if data[0] & 4 else 0, 12
        while kind:
            length = 4 * data[at] if at < len(data) else 0
            if not length or at + length > len(data):
                return None
            headers[kind] = data[at + 1 : at + length - 1]
            kind, at = data[at + length - 1], at + length
    return Gtpu(data[1], int.from_bytes(data[4:8], "big"), headers, data[at:])


def number_of(data):
    return int.from_bytes(data, "big")


def name_of_frame(frame):
    """What an NR-U frame is, in words."""
    if frame[0] >> 4 == 0 and len(frame) >= 5:
        words = ["polling frame" if frame[0] & 1 else "data", f"NR-U {number_of(frame[2:5])}"]
        return ", ".join(words + ["restart"] * (frame[1] & 1))
    if frame[0] >> 4 == 1 and len(frame) >= 6:
        return "delivery status" + name_of_status(frame)
    return "a frame of no kind"


def name_of_status(frame):
    at, words = 6, ""
    if frame[0] & 1 and len(frame) > at:
        ranges = [number_of(frame[at + 1 + 3 * i : at + 4 + 3 * i]) for i in range(2 * frame[at])]
        words += ", lost NR-U " + " ".join(f"{start} to {end}" for start, end in zip(ranges[::2], ranges[1::2]))
        at += 1 + 6 * frame[at]
    if frame[0] & 4:
        words += f", delivered SN {number_of(frame[at:at + 3])}"
    return words


def name_of_pdcp(data, bits):
    """What a PDCP PDU is, in words, where sequence numbers have so many bits."""
    length = 2 if bits == 12 else 3
    if data and data[0] & 0x80 and len(data) > length:
        return f"PDCP SN {number_of(data[:length]) & (1 << bits) - 1}"
    if data and data[0] & 0xF0 == 0 and len(data) >= 5:
        stored = "".join(f"{octet:08b}" for octet in data[5:])
        return f"status report, FMC {number_of(data[1:5])}" + (f", bitmap {shortened(stored)}" if stored else "")
    return "no PDU of PDCP"


def shortened(text):
    return text if len(text) <= 24 else text[:21] + "..."


def name_of_packet(data, bits, is_n3):
    """What a packet of GTP-U is, in words."""
    packet = read_gtpu(data)
    if packet is None:
        return "no packet of GTP-U"
    if packet.kind == END_MARKER:
        return "End Marker"
    if packet.kind != G_PDU:
        return f"GTP-U message {packet.kind}"
    frame = packet.headers.get(NR_RAN_CONTAINER)
    if frame is not None:
        return ", ".join([name_of_frame(frame), *([name_of_pdcp(packet.payload, bits)] if packet.payload else [])])
    for kind, length in ((PDCP_PDU_NUMBER, 2), (LONG_PDCP_PDU_NUMBER, 3)):
        if kind in packet.headers:
            return f"G-PDU with PDCP PDU number {number_of(packet.headers[kind][:length])}"
    return f"G-PDU {beginning(packet.payload)}" if is_n3 else f"G-PDU, {name_of_pdcp(packet.payload, bits)}"


def beginning(data):
    """The first octets of a packet, by which a person knows it again."""
    return data[:4].hex().upper() + (" .." if len(data) > 4 else "")
