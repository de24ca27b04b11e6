#!/usr/bin/env python3
"""Compares two transcripts of `run`, and says the first event at which they part, and why. The numbers of control messages and the TEIDs may differ: each message is called by its
name, ends, terminal and place among those alike, each tunnel by its node, kind, bearer and place, in the lines and in the octets.

The status is 0 where they are alike, 1 where they part, 2 where an input is wrong. Nothing here is proved.

Usage: tools/compare.py TRANSCRIPT TRANSCRIPT
"""

import collections
import dataclasses
import difflib
import sys

import endpoints
import packet_reader
import transcripts
from transcripts import Message, Tunnel

# so many events are compared after the one at which they part: that takes as many steps as their square
LONGEST = 2000
TUNNELS = ("uplinks", "downlinks", "n3", "forwardDown", "forwardUp")


@dataclasses.dataclass
class Transcript:
    """A transcript: its path, a name for each of its messages and tunnels, and its events, each as its lines with their ends; the lines before the first event stand first."""

    path: str
    names: dict
    events: list

    def parts(self, event, place):
        """What a line of an event says by names: two lines alike have the same parts. None where the event has no such line."""
        lines = self.events[event] if event < len(self.events) else []
        return parts_of(self.names, *lines[place]) if place < len(lines) else None

    def line(self, event, place):
        return self.events[event][place][0]


# ---- names


def names_of(found):
    """A name for each control message and tunnel of a transcript, that doesn't have its number: by the line that has it first."""
    names, counts = {}, collections.Counter()
    for line, ends, _ in found:
        for link, key in keys_of(line, ends):
            if link not in names:
                counts[key] += 1
                names[link] = f"{key} {counts[key]}"
    return names


def keys_of(line, ends):
    """The links that a line has, each with what is said of it there: that of a `put`, and the tunnels that a response tells of."""
    if line.kind != "put" or not isinstance(line.link, (Message, Tunnel)):
        return []
    if isinstance(line.link, Tunnel):
        return [(line.link, f"{line.link.node} {ends.kind.name} {line.ue} {line.bearer}")]
    name, elements = endpoints.read_message(line, ends.kind)
    own = [(Tunnel(line.sender, entry["teid"]), f"{line.sender} {part} {line.ue} b{entry['bearer']}")
           for part in TUNNELS if name and name.endswith("Response") for entry in elements.get(part, []) if isinstance(entry, dict)]
    return [(line.link, f"{name or 'octets on ' + ends.kind.name} {line.sender} {line.receiver} {line.ue}"), *own]


def named_elements(names, line, ends):
    """What a control message says, with the names of tunnels in place of their TEIDs; None where its octets say nothing."""
    name, elements = endpoints.read_message(line, ends.kind)
    if name is None:
        return None
    at = {part: line.sender for part in TUNNELS} if name.endswith("Response") else {}
    at |= {part: node for part, _, node in endpoints.told_by(name, elements, line.receiver)}
    found = {"message": name}
    for part, value in elements.items():
        is_tunnels = part in TUNNELS and at.get(part) and isinstance(value, list)
        found[part] = [(entry["bearer"], named(names, Tunnel(at[part], entry["teid"]))) for entry in value] if is_tunnels else value
    return found


def named(names, link):
    return names.get(link, str(link))


def parts_of(names, line, ends, bits):
    """What a line says, by names."""
    if line.kind in ("put", "got"):
        return {"kind": line.kind, "link": named(names, line.link), **of_content(names, line, ends, bits)}
    parts = {"kind": line.kind, **line.fields}
    if "link" in parts:
        parts["link"] = named(names, parts["link"])
        if "octets" in parts:
            parts["octets"] = without_teid(line)
    return parts


def of_content(names, line, ends, bits):
    if isinstance(line.link, Message):
        elements = named_elements(names, line, ends)
        return {"sender": line.sender, "receiver": line.receiver, "ue": line.ue, **(elements or {"octets": line.octets})}
    what = packet_reader.name_of_packet(line.octets, bits, ends.kind in (endpoints.N3, endpoints.XNU_DL)) if isinstance(line.link, Tunnel) else packet_reader.name_of_pdcp(line.octets, bits)
    return {"ue": line.ue, "bearer": line.bearer, "direction": line.direction, "COUNT": line.count, "packet": what, "octets": without_teid(line)}


def without_teid(line):
    """The octets of an item; those of a tunnel with zeros in place of its own TEID, where that stands in the header."""
    is_own = isinstance(line.link, Tunnel) and line.octets[4:8] == line.link.teid.to_bytes(4, "big")
    return line.octets[:4] + bytes(4) + line.octets[8:] if is_own else line.octets


def read(path):
    found, events = endpoints.read_with_ends(path), [[]]
    for entry in found:
        if entry[0].kind == "event":
            events.append([])
        events[-1].append(entry)
    return Transcript(path, names_of(found), events)


# ---- where they part


def first_part(one, other):
    """The first event in which two transcripts differ, and the place of the first line in it that differs or is missing; None where there is none."""
    for event in range(max(len(one.events), len(other.events))):
        place = 0
        while True:
            parts = one.parts(event, place), other.parts(event, place)
            if parts[0] != parts[1]:
                return event, place
            if parts[0] is None:
                break
            place += 1
    return None


def why(one, other):
    """In which parts two lines differ."""
    if one is None or other is None:
        return "only one of them goes on"
    if one["kind"] != other["kind"]:
        return f"{kind_of(one)} in one, {kind_of(other)} in the other"
    differing = [part for part in {**one, **other} if one.get(part) != other.get(part)]
    # octets are told where nothing of what they say differs
    told = [part for part in differing if part != "octets"] or differing
    return "; ".join(f"{part}: {shown(one.get(part))} and {shown(other.get(part))}" for part in told)


def kind_of(parts):
    return f"event '{parts['what']}'" if parts["kind"] == "event" else f"'{parts['kind']}'"


def shown(value):
    return value.hex().upper() if isinstance(value, bytes) else "none" if value is None else str(value)


def place_of(transcript, event, place):
    if transcript.parts(event, place) is None:
        return f"  {transcript.path}: nothing more"
    line = transcript.line(event, place)
    return f"  {transcript.path}:{line.number}: {line.text}"


def after(one, other, event):
    """How the rest goes on: how many of its events are alike again, in their order."""
    if max(len(one.events), len(other.events)) - event > LONGEST:
        return f"  the events after it weren't compared: there are more than {LONGEST}"
    texts = [[str(transcript.parts(at, 0)) for at in range(event, len(transcript.events))] for transcript in (one, other)]
    alike = sum(block.size for block in difflib.SequenceMatcher(None, *texts, autojunk=False).get_matching_blocks())
    return f"  from there on {alike} events of the scripts are the same, of {len(texts[0])} and {len(texts[1])}"


def told(one, other):
    """What is said of two transcripts, and whether they are alike."""
    found = first_part(one, other)
    if found is None:
        return f"alike: {len(one.events) - 1} events", True
    event, place = found
    begins = [transcript.line(event, 0).text.removeprefix("> ") for transcript in (one, other) if event and transcript.parts(event, 0)]
    lines = [f"they part at event {event}: {transcripts.shortened((begins or ['the beginning'])[0])}", place_of(one, event, place), place_of(other, event, place),
             f"  why: {why(one.parts(event, place), other.parts(event, place))}", after(one, other, event)]
    return "\n".join(lines), False


def main():
    asked = transcripts.Asked(__doc__)
    asked.add_argument("transcript", nargs=2)
    given = asked.parse_args()
    read_ones = []
    for path in given.transcript:
        try:
            read_ones.append(read(path))
        except (transcripts.Wrong, OSError) as wrong:
            return transcripts.report("compare", path, wrong)
    text, is_alike = told(*read_ones)
    print(text)
    return int(not is_alike)


if __name__ == "__main__":
    sys.exit(main())
