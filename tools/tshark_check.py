#!/usr/bin/env python3
"""Compares Wireshark's reading of packets with the tables in crates/tests_packets.

Each packet is put into a UDP datagram to port 2152. Of those of the tables `PACKETS..` and of the test
`packets_with_numbers` tshark is asked for the GTP-U header, and of those of `DATA_FRAMES` and `STATUSES` for the NR-U
frame. Where tshark isn't installed this is said, and the check passes.

Usage: tools/tshark_check.py
"""

import pathlib
import re
import shutil
import struct
import subprocess
import sys
import tempfile

CRATES = pathlib.Path(__file__).resolve().parents[1] / "crates"
TABLE = CRATES / "tests_packets/src/gtpu_packets.rt"
FRAMES = CRATES / "tests_packets/src/frames.rt"
KINDS = {"EchoRequest": 1, "EchoResponse": 2, "ErrorIndication": 26, "EndMarker": 254, "GPdu": 255}
FIELDS = [
    "gtp.flags.version", "gtp.flags.payload", "gtp.flags.e", "gtp.flags.s", "gtp.flags.pn", "gtp.message", "gtp.length",
    "gtp.teid", "gtp.seq_number", "gtp.npdu_number", "gtp.ext_hdr.next", "gtp.ext_hdr.length", "gtp.ext_hdr.pdcp_sn",
    "gtp.ext_hdr.long_pdcp_sn",
]
FRAME_FIELDS = [
    "nrup.pdu_type", "nrup.report_polling", "nrup.retransmission_flag", "nrup.seq_num", "nrup.lost_pkt_rpt",
    "nrup.high_delivered_nr_pdcp_sn_ind", "nrup.desrd_buff_sz_data_radio_bearer", "nrup.num_lost_nru_seq_num",
    "nrup.start_num_lost_nru_seq_num", "nrup.end_num_lost_nru_seq_num", "nrup.high_success_delivered_nr_pdcp_sn",
]


def octets(text):
    return bytes.fromhex(text.replace("\\x", ""))


def table(text, name, row):
    """The rows of the tables with such a name; none is passed over, as each table says how many it has."""
    found = []
    for title, count, body in re.findall(rf"const ({name}): \[.*?; (\d+)\] = \[(.*?)\];", text):
        rows = re.findall(row, body)
        if len(rows) != int(count):
            sys.exit(f"{len(rows)} rows of {count} were understood in {title}")
        found += rows
    return found


def tables():
    """The rows of each table: a name, the octets, and the value that they stand for as tshark's fields."""
    text = re.sub(r"\s+", " ", TABLE.read_text())
    row = r'\( ?b"([^"]*)", Kind::(\w+), (\w+), (\w+), b"([^"]*)", b"[^"]*",? ?\)'
    for body, kind, teid, first, chain in table(text, r"PACKETS\w*", row):
        yield of_packet(octets(body), kind, teid, {}, first, octets(chain))
    test = text.split("fn packets_with_numbers(")[1].split("#[test]")[0]
    named = dict(re.findall(r'let (\w+) = (b"[^"]*")', test))
    row = r'Packet \{ (.*?)\.\.packet\( ?Kind::(\w+), (\w+), (\w+), (.*?), b"[^"]*" ?\) \}; let octets = b"([^"]*)"'
    rows = re.findall(row, test)
    if len(rows) != test.count("..packet("):
        sys.exit(f"{len(rows)} rows of {test.count('..packet(')} were understood in packets_with_numbers")
    for more, kind, teid, first, chain, body in rows:
        optional = {key: int(value, 0) for key, value in re.findall(r"(\w+): Some\((\w+)\)", more)}
        yield of_packet(octets(body), kind, teid, optional, first, octets(named.get(chain, chain)[2:-1]))


def of_packet(data, kind, teid, optional, first, chain):
    value = fields(data, KINDS[kind], int(teid.replace("_", ""), 0), optional, int(first, 0), chain)
    return data.hex(), data, value


def fields(data, kind, teid, optional, first, chain):
    """What tshark tells of such a packet; a field that isn't there is empty."""
    types, lengths, numbers, long_numbers, at = [first] if first else [], [], [], [], 0
    while at < len(chain):
        header = chain[at : at + 4 * chain[at]]
        lengths.append(header[0])
        if types[-1] == 0xC0:
            numbers.append(int.from_bytes(header[1:3], "big"))
        if types[-1] == 0x82:
            long_numbers.append(int.from_bytes(header[1:4], "big"))
        types.append(header[-1])
        at += len(header)
    return {
        "gtp.flags.version": [1],
        "gtp.flags.payload": [1],
        "gtp.flags.e": [int(first != 0)],
        "gtp.flags.s": [int("seq" in optional)],
        "gtp.flags.pn": [int("npdu" in optional)],
        "gtp.message": [kind],
        "gtp.length": [len(data) - 8],
        "gtp.teid": [teid],
        "gtp.seq_number": [optional["seq"]] if "seq" in optional else [],
        "gtp.npdu_number": [optional["npdu"]] if "npdu" in optional else [],
        "gtp.ext_hdr.next": types,
        "gtp.ext_hdr.length": lengths,
        "gtp.ext_hdr.pdcp_sn": numbers,
        "gtp.ext_hdr.long_pdcp_sn": long_numbers,
    }


def frames():
    """The rows of the tables of frames: the octets of a packet, and the frame in it as tshark's fields."""
    text = re.sub(r"\s+", " ", FRAMES.read_text())
    room = int(re.search(r"const ROOM: u32 = ([\d_]+);", text)[1])
    for data, *words in table(text, "DATA_FRAMES", r'\( ?"([0-9A-F]+)", (\w+), (\w+), (\d+),? ?\)'):
        yield data, bytes.fromhex(data), data_fields(*words)
    for data, *words in table(text, "STATUSES", r'\( ?"([0-9A-F]+)", &\[(.*?)\], (None|Some\(\d+\)),? ?\)'):
        yield data, bytes.fromhex(data), status_fields(*words, room)


def data_fields(poll, restart, number):
    return of_frame({
        "nrup.pdu_type": [0],
        "nrup.report_polling": [int(poll == "true")],
        "nrup.retransmission_flag": [int(restart == "true")],
        "nrup.seq_num": [int(number)],
    })


def status_fields(lost, delivered, room):
    ranges = [(int(start), int(end)) for start, end in re.findall(r"\((\d+), (\d+)\)", lost)]
    number = [int(text) for text in re.findall(r"Some\((\d+)\)", delivered)]
    return of_frame({
        "nrup.pdu_type": [1],
        "nrup.lost_pkt_rpt": [int(ranges != [])],
        "nrup.high_delivered_nr_pdcp_sn_ind": [int(number != [])],
        "nrup.desrd_buff_sz_data_radio_bearer": [room],
        "nrup.num_lost_nru_seq_num": [len(ranges)] if ranges else [],
        "nrup.start_num_lost_nru_seq_num": [start for start, _ in ranges],
        "nrup.end_num_lost_nru_seq_num": [end for _, end in ranges],
        "nrup.high_success_delivered_nr_pdcp_sn": number,
    })


def of_frame(told):
    return {field: told.get(field, []) for field in FRAME_FIELDS}


def capture(packets):
    """A pcap file with each packet in a UDP datagram over IPv4."""
    out = struct.pack("<IHHiIII", 0xA1B2C3D4, 2, 4, 0, 0, 65535, 228)
    for data in packets:
        udp = struct.pack(">HHHH", 2152, 2152, 8 + len(data), 0) + data
        ip = struct.pack(">BBHHHBBH4s4s", 0x45, 0, 20 + len(udp), 0, 0, 64, 17, 0, bytes([10, 0, 0, 1]), bytes([10, 0, 0, 2]))
        out += struct.pack("<IIII", 0, 0, len(ip + udp), len(ip + udp)) + ip + udp
    return out


def numbers(text):
    """The numbers of a field that may stand several times; truth values are numbers too."""
    words = {"True": 1, "False": 0}
    return [words[word] if word in words else int(word, 0) for word in text.split(",") if word]


def count_differences(rows, names):
    """Asks tshark for these fields of each packet, and says where they are others than the table's."""
    with tempfile.NamedTemporaryFile(suffix=".pcap") as file:
        file.write(capture(data for _, data, _ in rows))
        file.flush()
        command = ["tshark", "-r", file.name, "-T", "fields", "-E", "separator=|", "-E", "occurrence=a"]
        for field in names:
            command += ["-e", field]
        answer = subprocess.run(command, capture_output=True, text=True)
    if answer.returncode != 0:
        sys.exit(f"tshark failed: {answer.stderr}")
    lines = answer.stdout.splitlines()
    if len(lines) != len(rows):
        sys.exit(f"tshark told of {len(lines)} packets, not {len(rows)}")
    wrong = 0
    for (name, _, wanted), line in zip(rows, lines):
        for field, text in zip(names, line.split("|"), strict=True):
            told = numbers(text)
            if told != wanted[field]:
                wrong += 1
                print(f"{name}: {field} is {told}, not {wanted[field]}")
    return wrong


def main():
    packets, in_packets = list(tables()), list(frames())
    if len(packets) < 20 or len(in_packets) < 10:
        sys.exit(f"only {len(packets)} packets and {len(in_packets)} frames were found in {TABLE} and {FRAMES}")
    if shutil.which("tshark") is None:
        print(f"tshark isn't installed: {len(packets)} packets and {len(in_packets)} frames are not compared")
        return
    if count_differences(packets, FIELDS) + count_differences(in_packets, FRAME_FIELDS):
        sys.exit(1)
    print(f"{len(packets)} packets and {len(in_packets)} frames are read alike")


if __name__ == "__main__":
    main()
