#!/usr/bin/env python3
"""Checks the dissector in tools/wireshark: that its table is what tools/to_lua.py makes of the profile's module, and, where tshark is installed, that it reads each message
and each packet of the stories as the program (tools/control_messages.py) and tools/packet_reader.py do, and that what it finds malformed of changed octets the program refuses.

Nothing here is a proof.

Usage: tools/dissector_check.py
"""

import random
import re
import sys

import captures_check
import checks
import control_messages
import endpoints
import packet_reader
import profile_reader
import program
import stories
import to_lua
import to_pcapng
import transcripts

LUA = captures_check.LUA
TABLE = stories.TOOLS / "wireshark/splitgnb_profile.lua"
# fields of control messages and of the user plane, each with the parts of a value that it shows
SHOWN = ("message", "ue", "instance", "epoch", "teid", "bearer", "mode", "cause", "name", "dlNext", "ulFirst", "ulReceived", "quota", "sn", "final", "forward", "gnb", "up",
         "du", "bearers", "container")
USER_PLANE = ("nrup.seq_num", "nrup.high_success_delivered_nr_pdcp_sn", "nrup.start_num_lost_nru_seq_num", "splitgnb.pdcp.sn", "splitgnb.pdcp.fmc", "splitgnb.packet",
              "splitgnb.ue", "splitgnb.bearer", "splitgnb.direction", "splitgnb.count", "splitgnb.event", "splitgnb.line", "splitgnb.injected")
CHANGES, SEED = 300, 1


def tshark(capture, *fields):
    """The values of these fields in each packet, by the dissector."""
    words = [word for field in fields for word in ("-e", field)]
    lines = captures_check.tshark(capture, "-T", "fields", "-E", "separator=|", "-E", "occurrence=a", *words)
    return [line.split("|") for line in lines]


# ---- messages


def parts_of(value):
    """The named parts of a value that are no lists or sequences, in their order."""
    if isinstance(value, list):
        return [part for entry in value for part in parts_of(entry)]
    if not isinstance(value, dict):
        return []
    found = []
    for name, part in value.items():
        if name == "container":
            found.append((name, part["octets"]))
        found += parts_of(part) if isinstance(part, (dict, list)) else [(name, part)]
    return found


def shown(name, part):
    """A part as tshark prints it: of an enumeration the index."""
    enumerations = {"mode": "Mode", "cause": "Cause", "sn": "SnBits", "gnb": "Gnb"}
    if name in enumerations:
        return str(profile_reader.profile()[enumerations[name]]["names"].index(part))
    if isinstance(part, bool):
        return str(int(part))
    return part.lower() if name == "container" else str(part)


def fields_of_message(line, kind):
    name, elements = endpoints.read_message(line, kind)
    values = {field: [] for field in SHOWN}
    values["message"] = [] if kind is endpoints.RRC else [name]
    for part, value in parts_of(elements):
        if part in values:
            values[part].append(shown(part, value))
    return [",".join(values[field]) for field in SHOWN]


def written(name):
    """The name of a field as Wireshark writes it: forwardDown is forward_down."""
    return re.sub("[A-Z]", lambda letter: f"_{letter[0].lower()}", name)


def truth(text):
    return text.replace("True", "1").replace("False", "0")


def check_messages(found, capture):
    told = tshark(capture, "splitgnb.malformed", *(f"splitgnb.{written(field)}" for field in SHOWN))
    assert len(told) == len(found)
    for (malformed, *values), (path, line, ends, _) in zip(told, found):
        assert not malformed, f"{path}, line {line.number}: {malformed}"
        if ends.kind.is_control:
            values, awaited = [truth(value) for value in values], fields_of_message(line, ends.kind)
            assert values == awaited, f"{path}, line {line.number}: the dissector reads {values}, not {awaited}"


# ---- the user plane


def fields_of_item(line, ends, bits):
    """What the dissector is to show of an item of a tunnel or radio."""
    shown = {field: "" for field in USER_PLANE} | {
        "splitgnb.ue": line.ue[1:], "splitgnb.bearer": line.bearer[1:], "splitgnb.direction": line.direction, "splitgnb.event": str(line.event), "splitgnb.line": str(line.number),
        "splitgnb.count": "" if line.count is None else str(line.count)}
    if ends.kind.stands == "PDCP":
        return list((shown | fields_of_pdcp(line.octets, bits)).values())
    packet = packet_reader.read_gtpu(line.octets)
    frame = packet.headers.get(0x84)
    shown |= fields_of_frame(frame) if frame else {}
    if ends.kind in (endpoints.F1U_DL, endpoints.F1U_UL):
        shown |= fields_of_pdcp(packet.payload, bits)
    elif packet.kind == packet_reader.G_PDU:
        shown |= fields_of_forwarded(packet)
    return list(shown.values())


def fields_of_frame(frame):
    if frame[0] >> 4 == 0:
        return {"nrup.seq_num": str(int.from_bytes(frame[2:5], "big"))}
    at, found = 6, {}
    if frame[0] & 1:
        found["nrup.start_num_lost_nru_seq_num"] = ",".join(str(int.from_bytes(frame[7 + 6 * i : 10 + 6 * i], "big")) for i in range(frame[6]))
        at += 1 + 6 * frame[6]
    if frame[0] & 4:
        found["nrup.high_success_delivered_nr_pdcp_sn"] = str(int.from_bytes(frame[at : at + 3], "big"))
    return found


def fields_of_pdcp(data, bits):
    length = 2 if bits == 12 else 3
    if not data:
        return {}
    if data[0] & 0x80:
        return {"splitgnb.pdcp.sn": str(int.from_bytes(data[:length], "big") % 2**bits), "splitgnb.packet": data[length:].hex()}
    return {"splitgnb.pdcp.fmc": str(int.from_bytes(data[1:5], "big"))}


def fields_of_forwarded(packet):
    found = {"splitgnb.packet": packet.payload.hex()}
    for kind, length in ((0xC0, 2), (0x82, 3)):
        if kind in packet.headers:
            found["splitgnb.pdcp.sn"] = str(int.from_bytes(packet.headers[kind][:length], "big"))
    return found


def check_items(found, capture):
    told = tshark(capture, *USER_PLANE)
    for values, (path, line, ends, bits) in zip(told, found):
        if not ends.kind.is_control:
            values = [str(int(value, 0)) if re.fullmatch("0x[0-9a-f]+", value) else value for value in values]
            awaited = fields_of_item(line, ends, bits)
            assert values == awaited, f"{path}, line {line.number}: the dissector reads {values}, not {awaited}"


# ---- changed octets


def changed(chance, octets):
    """Octets with one octet changed, left out or put in."""
    place, kind = chance.randrange(len(octets)), chance.random()
    if kind < 0.7:
        return octets[:place] + bytes([chance.randrange(256)]) + octets[place + 1 :]
    return octets[:place] + octets[place + 1 :] if kind < 0.85 else octets[:place] + chance.randbytes(1) + octets[place:]


def check_changed(found, seed):
    """Whether the program refuses each changed message that the dissector calls malformed, or finds no token in its container; how many those are, and how many the program refuses. It refuses more: it
    has rules for which elements a message has, in which order, and how short a number is."""
    chance = random.Random(seed)
    controls = [(line, ends.kind) for _, line, ends, _ in found if ends.kind.is_control]
    blocks, changes = [to_pcapng.section_header(), *map(to_pcapng.interface, endpoints.KINDS)], []
    for number in range(CHANGES):
        line, kind = chance.choice(controls)
        octets = changed(chance, line.octets) or b"\0"
        blocks.append(to_pcapng.packet(kind, number, to_pcapng.datagram(line.sender, line.receiver, kind.port, octets), octets.hex()))
        changes.append((kind.stands, octets))
    control_messages.read_all(changes)
    told = tshark(b"".join(blocks), "splitgnb.malformed", "_ws.lua.error")
    for (malformed, error), (name, octets) in zip(told, changes, strict=True):
        assert not error, f"{octets.hex()}: {error}"
        assert not malformed or is_refused(name, octets), f"{name} {octets.hex()}: the dissector says '{malformed}', and the program reads it"
    return sum(malformed != "" for malformed, _ in told), sum(is_refused(*change) for change in changes)


def is_refused(name, octets):
    """Whether octets are no value of a type, or have a container without a token."""
    value = control_messages.read(name, octets)
    if value is None:
        return True
    [elements] = value.values()
    carried = elements.get("container", {}) if isinstance(elements, dict) else {}
    return "octets" in carried and carried["octets"] != "" and "RrcToken" not in carried


def items():
    """Each message and packet that the stories put, and their capture."""
    paths = [path for path in stories.transcripts() if path.name != "window.out"]
    found = [(path, *entry) for path in paths for entry in endpoints.with_ends(transcripts.read_file(path)) if entry[0].kind == "put"]
    return found, b"".join(to_pcapng.capture([entry for entry in endpoints.read_with_ends(path) if entry[0].kind == "put"], "put") for path in paths)


def test_table():
    assert TABLE.read_text() == to_lua.table(), f"{TABLE} isn't what tools/to_lua.py writes"


def test_stories():
    look_with_tshark()
    found, capture = items()
    check_messages(found, capture)
    check_items(found, capture)


def test_changed():
    look_with_tshark()
    wrong, refused = check_changed(items()[0], SEED)
    assert wrong * 2 > refused, f"of {CHANGES} changed messages the program refuses {refused}, and the dissector finds but {wrong} malformed"


def look_with_tshark():
    if not checks.is_here("tshark", "tshark"):
        checks.not_looked_at("tshark isn't installed, and the dissector was not run")


if __name__ == "__main__":
    program.prepare()
    sys.exit(checks.run(__file__))
