#!/usr/bin/env python3
"""Checks tools/from_pcap.py: it takes from the captures of the examples what their transcripts have; each kind of link and file, by captures that are made here by hand; each reason to leave
something out; and what is said of wrong inputs.

Usage: tools/from_pcap_check.py
"""

import collections
import struct
import subprocess
import sys

import checks
import endpoints
import from_pcap
import stories
import to_pcapng

# a G-PDU of TEID 1 with the packet AABB; the same with a PDU Session Container that says uplink
DOWN, UP = bytes.fromhex("30FF000200000001AABB"), bytes.fromhex("34FF000A000000020000008501100900CCDD")
SETUP = bytes.fromhex("00010014000002000200020001001100070200412E647531")


def ip4(payload, protocol=17, more=0):
    return struct.pack(">BBHHHBBH", 0x45, 0, 20 + len(payload), 0, more, 64, protocol, 0) + bytes([10, 0, 0, 1]) + bytes([10, 0, 0, 2]) + payload


def udp(payload, port=2152, length=None):
    return struct.pack(">HHHH", 2152, port, 8 + len(payload) if length is None else length, 0) + payload


def ip6(payload):
    return struct.pack(">IHBB", 6 << 28, len(payload), 17, 64) + bytes(16) + bytes(15) + b"\1" + payload


def sctp(*chunks):
    """SCTP with DATA chunks: flags, payload protocol and payload of each."""
    body = b"".join(struct.pack(">BBHIHHI", 0, flags, 16 + len(data), 1, 0, 0, kind) + data + bytes(-len(data) % 4) for flags, kind, data in chunks)
    return struct.pack(">HHII", 38472, 38472, 0, 0) + body


def pcap(link, packets, order="<"):
    head = struct.pack(f"{order}IHHiIII", 0xA1B2C3D4, 2, 4, 0, 0, 65535, link)
    return head + b"".join(struct.pack(f"{order}IIII", 0, 0, len(data), len(data)) + data for data in packets)


def taken(data):
    """The offers of a capture, and what is left out."""
    left_out = collections.Counter()
    return list(from_pcap.offers(from_pcap.frames_of(data), {}, left_out)), dict(left_out)


def test_examples():
    """What is offered down and put on N3 in each story, and each of its control messages, comes out of its capture."""
    for path in stories.transcripts():
        found = endpoints.read_with_ends(path)
        data, left_out = to_pcapng.capture(found, "put"), collections.Counter()
        packets = [line.octets[8:].hex().upper() for line, ends, _ in found if line.kind == "put" and ends.kind is endpoints.N3 and line.octets[1] == 255]
        assert [line.split(" ")[-1] for line in taken(data)[0]] == packets, path
        for of_type in from_pcap.TYPES:
            wanted = [line.octets.hex().upper() for line, ends, _ in found if line.kind == "put" and ends.kind.stands == of_type]
            assert list(from_pcap.messages(from_pcap.frames_of(data), of_type, left_out)) == ["module builtin 2", *wanted], path


def test_links():
    """The same packet in each kind of link and order of octets."""
    inner, mac = ip4(udp(DOWN)), bytes(12)
    for link, data in ((101, inner), (228, inner), (1, mac + b"\x08\0" + inner), (1, mac + b"\x81\0\0\1\x08\0" + inner), (1, mac + b"\x88\xa8\0\1\x81\0\0\2\x08\0" + inner),
                       (113, bytes(14) + b"\x08\0" + inner), (276, b"\x08\0" + bytes(18) + inner), (0, b"\2\0\0\0" + inner), (101, ip6(udp(DOWN)))):
        for order in "<>":
            assert taken(pcap(link, [data], order)) == (["offer u1 b1 dl AABB"], {}), link


def test_bearers():
    """A tunnel is a bearer of its own; a PDU Session Container says what goes up; --tunnel chooses."""
    packets = [ip4(udp(DOWN)), ip4(udp(UP)), ip4(udp(DOWN)), *(ip4(udp(DOWN[:7] + bytes([teid]) + DOWN[8:])) for teid in range(3, 10))]
    lines, left_out = taken(pcap(101, packets))
    assert lines == ["offer u1 b1 dl AABB", "offer u1 b2 ul CCDD", "offer u1 b1 dl AABB", *(f"offer u1 b{number} dl AABB" for number in range(3, 9)), "offer u2 b1 dl AABB"] and not left_out


def test_left_out():
    for data, why in (
        (bytes(12) + b"\x08\x06", "Ethernet type 0x0806, not IP"), (bytes(5), "cut off in the header of its link"), (bytes(12) + b"\x08\0\x10", "no IP"),
        (bytes(12) + b"\x08\0" + ip4(udp(DOWN), more=0x2000), "a fragment of IP"), (bytes(12) + b"\x08\0" + ip4(udp(DOWN))[:-1], "IPv4 that is cut off, or of wrong length"),
        (bytes(12) + b"\x86\xdd" + ip6(udp(DOWN))[:-1], "IPv6 that is cut off"), (bytes(12) + b"\x08\0" + ip4(DOWN, 6), "protocol 6, not UDP"),
        (bytes(12) + b"\x08\0" + ip4(udp(DOWN, length=99)), "UDP that is cut off, or of wrong length"), (bytes(12) + b"\x08\0" + ip4(udp(DOWN, 53)), "UDP to another port than 2152"),
        (bytes(12) + b"\x08\0" + ip4(udp(DOWN[:-1])), "no packet of GTP-U"), (bytes(12) + b"\x08\0" + ip4(udp(b"\x30\xfe" + bytes(6))), "GTP-U message 254, not a G-PDU"),
        (bytes(12) + b"\x08\0" + ip4(udp(b"\x30\xff" + bytes(6))), "a G-PDU without a packet"),
        (bytes(12) + b"\x08\0" + ip4(udp(b"\x30\xff" + (2049).to_bytes(2, "big") + bytes(4 + 2049))), "a packet above 2048 octets"),
        (bytes(12) + b"\x08\0" + ip4(udp(bytes.fromhex("34FF000F00000001000000840200000000000000800045"))), "a G-PDU of F1-U or Xn-U"),
    ):
        assert taken(pcap(1, [data])) == ([], {why: 1}), why
    assert taken(pcap(147, [DOWN])) == ([], {"a link of kind 147": 1})
    injected = to_pcapng.capture(endpoints.read_with_ends(stories.EXAMPLES / "foreign-octets.out"), "put")
    assert taken(injected)[1]["injected by a script"] == 3


def test_messages():
    left_out = collections.Counter()
    packets = [ip4(sctp((3, 62, SETUP), (3, 64, b"\1")), 132), ip4(sctp((3, 64, b"\1")), 132), ip4(sctp((2, 62, SETUP)), 132), ip4(sctp((3, 62, SETUP))[:-2], 132), ip4(b"", 6)]
    found = list(from_pcap.messages(from_pcap.frames_of(pcap(101, packets)), "F1AP-PDU", left_out))
    assert found == ["module builtin 2", SETUP.hex().upper()]
    assert left_out == {"SCTP without such a message": 1, "a fragment of an SCTP message": 1, "SCTP that is cut off, or of wrong length": 1, "protocol 6, neither UDP nor SCTP": 1}


@checks.of_octets(300, 200)
def test_random_octets(octets):
    """Whatever stands in a capture, it is taken, left out, or said to be wrong."""
    for data in (octets, pcap(1, [octets]), pcap(101, [ip4(udp(octets))]), pcap(101, [ip4(octets, 132)]), to_pcapng.section_header() + octets):
        try:
            taken(data)
            list(from_pcap.messages(from_pcap.frames_of(data), "F1AP-PDU", collections.Counter()))
        except from_pcap.Wrong:
            pass


def run(*words):
    return subprocess.run([sys.executable, stories.TOOLS / "from_pcap.py", *map(str, words)], capture_output=True, text=True, check=False)


def test_calls(tmp_path):
    path = tmp_path / "a.pcap"
    path.write_bytes(pcap(1, [bytes(12) + b"\x08\0" + ip4(udp(DOWN)), bytes(12) + b"\x08\x06"]))
    ran = run("offers", "--tunnel", "10.0.0.2/0x1=u3/b2/ul", path)
    assert (ran.returncode, ran.stdout, ran.stderr) == (0, "offer u3 b2 ul AABB\n", "from_pcap: left out 1: Ethernet type 0x0806, not IP\n"), ran
    path.write_bytes(pcap(101, [ip4(udp(DOWN))]))
    assert run("offers", path).stderr == "from_pcap: nothing was left out\n"
    whole = path.read_bytes()
    block = to_pcapng.section_header()
    for data, said in ((b"", ": neither pcap nor pcapng"), (b"hello", ": neither pcap nor pcapng"), (whole[:20], ": cut off in its header"), (whole[:-1], ": cut off in packet 1"),
                       (block[:-2], ": a block of wrong length at octet 0"), (block + struct.pack("<IIIIIII", 6, 32, 0, 0, 0, 0, 0)[:28] + struct.pack("<I", 32), ": packet 1 has no such interface, or more octets than its block")):
        path.write_bytes(data)
        ran = run("offers", path)
        assert (ran.returncode, ran.stdout, ran.stderr) == (2, "", f"from_pcap: {path}{said}\n"), ran
    for words, said in ((["offers", tmp_path / "none"], f"{tmp_path / 'none'}: No such file or directory"), ([], "the following arguments are required: what"),
                        (["offers", "--tunnel", "x", path], "argument --tunnel: awaited ADDRESS/TEID=uU/bB/DIR, as 10.0.0.2/0x1a=u1/b1/dl, and it is 'x'"),
                        (["offers", "--tunnel", "10.0.0.2/1=u17/b1/dl", path], "argument --tunnel: awaited ADDRESS/TEID=uU/bB/DIR, as 10.0.0.2/0x1a=u1/b1/dl, and it is '10.0.0.2/1=u17/b1/dl'")):
        ran = run(*words)
        assert (ran.returncode, ran.stderr) == (2, f"from_pcap: {said}\n"), ran


if __name__ == "__main__":
    sys.exit(checks.run(__file__))
