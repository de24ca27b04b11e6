#!/usr/bin/env python3
"""Checks tools/to_pcapng.py: the captures of the examples, by a small reader of pcapng; what is said of a wrong input; and, where tshark is installed, that with the command of
docs/lab.md Wireshark reads every packet of GTP-U with its extension headers, and finds no packet malformed but what a script injects.

Nothing here is a proof.

Usage: tools/captures_check.py
"""

import re
import struct
import subprocess
import sys
import tempfile

import checks
import endpoints
import packet_reader
import selection
import stories
import to_pcapng

# what a packet on N3 is, worked out by hand: IPv4 from 10.0.0.1 to 10.1.2.1, UDP 2152, and the octets of the line
FIRST = bytes.fromhex("4500002500004000401124C60A0000010A010201" "08680868001162F8" "30FF00010000000145")
# who puts, on which kind of link, in lines of examples/handover-with-data-in-flight.out
ENDS = {
    3: ("N3", "core", "A.up1"), 10: ("F1-U-DL", "A.up1", "A.du1"), 25: ("Uu-DL", "A.du1", "u1"), 32: ("F1-U-UL", "A.du1", "A.up1"), 34: ("Xn-C", "A.cp", "B.cp"),
    37: ("E1", "B.cp", "B.up1"), 41: ("F1-C", "B.cp", "B.du1"), 49: ("Xn-U-DL", "A.up1", "B.up1"), 69: ("Xn-U-UL", "A.up1", "B.up1"), 74: ("RRC", "A.du1", "u1"),
    80: ("Uu-UL", "u1", "B.du1"), 88: ("N2", "B.cp", "core"), 94: ("N3", "core", "A.up1"), 109: ("F1-U-UL", "A.du1", "A.up1"), 121: ("Xn-U-DL", "A.up1", "B.up1"),
}
BEGIN = "> static u1 A 1 1 12 1 64\n"
WRONG = [
    ("", ": an empty transcript"),
    ("what\n", ":1: awaited a line of a transcript of run"),
    (BEGIN + "\n", ":2: an empty line"),
    ("put A.up1/1 u1 b1 dl - 30\n", ":1: 'put' before the first event"),
    (BEGIN + "> jump\n", ":2: awaited an event after '>'"),
    (BEGIN + "put A.up3/1 u1 b1 dl - 30\n", ":2: awaited a node, as A.cp, B.up1, A.du2, core or u1 as word 2, and it is 'A.up3/1'"),
    (BEGIN + "put A.up1/1 u1 b1 dl - 3\n", ":2: awaited octets, an even number of hexadecimal digits as word 7, and it is '3'"),
    (BEGIN + "put A.up1/1 u1 b1 dl -\n", ":2: awaited 6 words after 'put', and there are 5"),
    (BEGIN + "put A.up1/9 u1 b1 dl - 30\n", ":2: no line before this one says who puts on A.up1/9"),
    (BEGIN + "put #1 A.du1 B.du1 u1 00\n", ":2: A.du1 and B.du1 share no interface"),
    (BEGIN + "end 2\n", ":2: 'end 2' after 1 events"),
    (BEGIN + "end 1\n> tick\n", ":3: a line after 'end 1'"),
    (BEGIN + "deliver u1 b1 dl 0 \xe9\n", ":2: an octet that is no character of a transcript"),
]


# ---- a reader of pcapng


def blocks(data):
    """The blocks of a capture: type and body."""
    at = 0
    while at < len(data):
        kind, length = struct.unpack_from("<II", data, at)
        assert length % 4 == 0 and struct.unpack_from("<I", data, at + length - 4)[0] == length, f"a block of wrong length at {at}"
        yield kind, data[at + 8 : at + length - 4]
        at += length


def options(data):
    found, at = {}, 0
    while at < len(data):
        code, length = struct.unpack_from("<HH", data, at)
        found[code] = data[at + 4 : at + 4 + length]
        at += 4 + (length + 3) // 4 * 4
    return found


def read_names(body):
    """The names of addresses."""
    found, at = {}, 0
    while True:
        kind, length = struct.unpack_from("<HH", body, at)
        if not kind:
            return found
        found[body[at + 4 : at + 8]] = body[at + 8 : at + 3 + length].decode()
        at += 4 + (length + 3) // 4 * 4


def read_capture(data):
    """The interfaces, names and packets of a capture; a packet is its interface, time, octets and comment."""
    interfaces, names, packets = [], {}, []
    for place, (kind, body) in enumerate(blocks(data)):
        assert (kind == 0x0A0D0D0A) == (place == 0), "a section header stands first, and only there"
        if kind == 1:
            assert struct.unpack_from("<H", body)[0] == 228, "an interface is of raw IPv4"
            interfaces.append(options(body[8:])[2].decode())
        elif kind == 4:
            names = read_names(body)
        elif kind == 6:
            interface, high, low, length, full = struct.unpack_from("<IIIII", body)
            assert length == full
            octets, rest = body[20 : 20 + length], body[20 + (length + 3) // 4 * 4 :]
            packets.append((interfaces[interface], high << 32 | low, octets, options(rest)[1].decode()))
    return interfaces, names, packets


# ---- the captures


def check_packet(found, names, line, ends):
    """Whether a packet of a capture is the one of its line."""
    interface, time, octets, comment = found
    at = f"line {line.number}"
    assert interface == ends.kind.name, at
    assert time // 1_000_000 == line.event, at
    assert (names[octets[12:16]], names[octets[16:20]]) == (ends.sender, ends.receiver), at
    length = struct.unpack_from(">H", octets, 2)[0]
    assert length == len(octets) and struct.unpack_from(">H", octets, 24)[0] == length - 20 and octets[9] == 17, at
    assert to_pcapng.checksum(octets[:20]) == 0, f"{at}: the checksum of IPv4"
    assert to_pcapng.checksum(octets[12:20] + struct.pack(">HH", 17, length - 20) + octets[20:]) == 0, f"{at}: the checksum of UDP"
    assert struct.unpack_from(">HH", octets, 20) == (ends.kind.port, ends.kind.port), at
    payload = octets[28:]
    assert payload.endswith(line.octets) and (ends.kind.stands == "PDCP" or payload == line.octets), f"{at}: other octets"
    what = f"injected {'at' if '/' in line.text else 'from'} " if line.kind == "event" else f"{line.kind} {line.link} "
    assert comment.startswith(f"line {line.number}, event {line.event}: {what}"), at
    if not line.is_control and line.kind != "event":
        assert comment.endswith("no COUNT" if line.count is None else f"COUNT {line.count}"), at


def check_story(path):
    """The packets of both captures of a transcript."""
    found = endpoints.read_with_ends(path)
    for kind in ("put", "got"):
        lines = [(line, ends) for line, ends, _ in found if line.kind == kind or is_injected(line)]
        interfaces, names, packets = read_capture(to_pcapng.capture(found, kind))
        assert interfaces == [entry.name for entry in endpoints.KINDS]
        assert len(packets) == len(lines), f"{path}: {len(packets)} packets for {len(lines)} lines"
        times = [time for _, time, _, _ in packets]
        assert times == sorted(set(times)), f"{path}: times that don't rise"
        for packet, (line, ends) in zip(packets, lines):
            check_packet(packet, names, line, ends)
    return len(packets)


def is_injected(line):
    """Whether a line is an `inject` that isn't refused."""
    return line.kind == "event" and line.what == "inject" and not line.refused


def test_injected():
    """What examples/foreign-octets.script injects: ten of its fifteen are given to a unit."""
    _, _, packets = read_capture(to_pcapng.capture(endpoints.read_with_ends(stories.EXAMPLES / "foreign-octets.out"), "put"))
    injected = [(name, octets[28:].hex().upper(), comment) for name, _, octets, comment in packets if "injected" in comment]
    assert len(injected) == 10
    assert injected[0] == ("F1-C", "0006", "line 4, event 3: injected from A.du1 to A.cp")
    assert injected[3] == ("N3", "40FF000000000001", "line 12, event 7: injected at A.up1/1")


def test_chosen():
    """A range of events, a terminal and a bearer choose packets."""
    found = endpoints.read_with_ends(stories.EXAMPLES / "usual-day.out")
    for chosen, pattern in ((selection.Selection(first=7, last=9), r"line \d+, event [789]:"), (selection.Selection(bearer="b2"), r".* (u1 b2 .*|u[01])(;|$)"),
                            (selection.Selection(ue="u2"), r".* u0$")):
        comments = [comment for *_, comment in read_capture(to_pcapng.capture(found, "put", chosen))[2]]
        assert comments and all(re.match(pattern, comment) for comment in comments), f"{chosen}: {comments}"


def test_by_hand():
    _, names, packets = read_capture(to_pcapng.capture(endpoints.read_with_ends(stories.EXAMPLES / "first-packet.out"), "put"))
    assert packets[0] == ("N3", 2_000_001, FIRST, "line 3, event 2: put A.up1/1 u1 b1 dl -; 12-bit PDCP SN; no COUNT"), packets[0]
    assert names[bytes([10, 3, 0, 1])] == "u1" and names[bytes([10, 1, 3, 1])] == "A.du1"
    found = {line.number: (ends.kind.name, ends.sender, ends.receiver) for line, ends, _ in endpoints.read_with_ends(stories.EXAMPLES / "handover-with-data-in-flight.out") if ends}
    for number, ends in ENDS.items():
        assert found[number] == ends, f"line {number}: {found[number]}, not {ends}"


# ---- tshark


LUA = stories.TOOLS / "wireshark/splitgnb.lua"


def tshark(capture, *words):
    """The lines of what tshark says of a capture, with the command that docs/lab.md gives."""
    with tempfile.NamedTemporaryFile(suffix=".pcapng") as file:
        file.write(capture)
        file.flush()
        ran = subprocess.run(["tshark", "-X", f"lua_script:{LUA}", "-N", "n", "-r", file.name, *words], capture_output=True, text=True, check=True)
    return ran.stdout.splitlines()


FIELDS = ("frame.interface_name", "gtp.message", "gtp.teid", "gtp.ext_hdr.next", "gtp.ext_hdr.pdcp_sn", "gtp.ext_hdr.long_pdcp_sn", "nrup.pdu_type", "frame.comment")


def fields_of(line, ends):
    """What tshark is to say of a packet of GTP-U."""
    packet = packet_reader.read_gtpu(line.octets)
    kinds = [str(int(kind)) for kind in packet.headers] + ["0"] * bool(packet.headers)
    numbers = [packet.headers.get(kind, b"")[:length] for kind, length in ((0xC0, 2), (0x82, 3))]
    frame = packet.headers.get(0x84)
    return [ends.kind.name, str(packet.kind), str(packet.teid), ",".join(kinds), *(str(int.from_bytes(octets, "big")) if octets else "" for octets in numbers),
            "" if frame is None else str(frame[0] >> 4)]


def check_with_tshark(paths):
    """Asks tshark of all captures at once, each a section of one file."""
    found = [(path, line, ends) for path in paths for line, ends, _ in endpoints.read_with_ends(path) if line.kind == "put" or is_injected(line)]
    sections = b"".join(to_pcapng.capture(endpoints.read_with_ends(path), "put") for path in paths)
    words = [word for field in ("_ws.malformed", "_ws.expert.message", *FIELDS) for word in ("-e", field)]
    told = tshark(sections, "-T", "fields", "-E", "separator=|", *words)
    assert len(told) == len(found), f"tshark reads {len(told)} packets, not {len(found)}"
    for text, (path, line, ends) in zip(told, found):
        malformed, expert, *values, comment = text.split("|")
        at = f"{path}, line {line.number}"
        assert comment.startswith(f"line {line.number},"), f"{at}: {comment}"
        if is_injected(line):
            continue
        assert not malformed and expert == comment, f"{at}: tshark finds {malformed} {expert}"
        if ends.kind.stands == "GTP-U":
            values = [values[0], *(",".join(str(int(number, 0)) for number in value.split(",") if number) for value in values[1:])]
            assert values == fields_of(line, ends), f"{at}: tshark reads {values}, not {fields_of(line, ends)}"


def test_captures():
    assert sum(map(check_story, stories.transcripts())) > 2000


def test_wrong_inputs():
    stories.check_wrong_inputs("to_pcapng", WRONG, "-")


def test_with_tshark():
    if not checks.is_here("tshark", "tshark"):
        checks.not_looked_at("tshark isn't installed, and Wireshark was not asked")
    check_with_tshark(stories.transcripts())


if __name__ == "__main__":
    sys.exit(checks.run(__file__))
