#!/usr/bin/env python3
"""Sums up a transcript of `run`: what each bearer was offered, delivered and still owes; what was lost, dropped and held; the control messages by name; and the events that were
refused or failed, with their numbers and the lines of their script.

The script is the file of the transcript's name with `.script` in place of `.out`, or the one of --script; where there is none, lines of scripts aren't told. With --strict the status
is 1 where an event was refused or failed, a bearer is busy, the network is unsettled, or the transcript doesn't end with `end`. A wrong input has status 2.

Nothing here is proved: a summary counts what a transcript says.

Usage: tools/summary.py [--strict] [--json] [--script FILE] TRANSCRIPT      (`-` is standard input)
"""

import collections
import dataclasses
import itertools
import json
import pathlib
import sys

import endpoints
import suite
import transcripts
from transcripts import Message, Wrong

REMARKABLE = ("refused", "failed", "busy", "unsettled", "outstanding", "stop")


@dataclasses.dataclass
class Bearer:
    """What a bearer was offered in a direction, and what of it was delivered: numbers of packets and of octets."""

    offered: int = 0
    delivered: int = 0
    offered_octets: int = 0
    delivered_octets: int = 0


@dataclasses.dataclass
class Sum:
    """What a transcript comes to."""

    events: list = dataclasses.field(default_factory=list)
    ending: str = "cut off"
    bearers: dict = dataclasses.field(default_factory=lambda: collections.defaultdict(Bearer))
    lost: collections.Counter = dataclasses.field(default_factory=collections.Counter)
    dropped: collections.Counter = dataclasses.field(default_factory=collections.Counter)
    held: collections.Counter = dataclasses.field(default_factory=collections.Counter)
    messages: dict = dataclasses.field(default_factory=lambda: collections.defaultdict(collections.Counter))
    remarkable: list = dataclasses.field(default_factory=list)


class Adder:
    """Adds the lines of a transcript up, one after another."""

    def __init__(self):
        self.sum, self.event, self.taken, self.kinds = Sum(), None, None, {}
        # of each control message its name and whether it was got, lost, or neither yet
        self.names, self.states = {}, {}

    def take(self, line, ends):
        method = getattr(self, f"take_{line.kind}", None)
        if method:
            method(line, ends)
        if line.kind in REMARKABLE:
            self.sum.remarkable.append((line.event, line.text))

    def take_event(self, line, _):
        self.event, self.taken = line, None
        self.sum.events.append(line.text.removeprefix("> "))
        if line.what == "inject":
            self.taken = "injected octets"
        if line.what == "offer" and not line.refused:
            way = self.sum.bearers[line.ue, line.bearer, line.direction]
            way.offered, way.offered_octets = way.offered + 1, way.offered_octets + len(line.octets)

    def take_put(self, line, ends):
        self.kinds[line.link] = ends.kind.name
        if line.is_control:
            self.names[line.link] = endpoints.read_message(line, ends.kind)[0] or f"octets on {ends.kind.name}"
            if ends.kind is endpoints.RRC:
                self.names[line.link] = f"RRC {self.names[line.link]}"
            self.sum.messages[self.names[line.link]]["put"] += 1

    def take_got(self, line, ends):
        self.taken = self.name_of(line.link)
        if line.is_control:
            counts = self.sum.messages[self.name_of(line.link)]
            counts["again" if self.states.get(line.link) == "got" else "got"] += 1
            self.states[line.link] = "got"

    def take_deliver(self, line, _):
        way = self.sum.bearers[line.ue, line.bearer, line.direction]
        way.delivered, way.delivered_octets = way.delivered + 1, way.delivered_octets + len(line.octets)

    def take_lost(self, line, _):
        if isinstance(line.link, Message):
            self.sum.messages[self.name_of(line.link)]["lost"] += 1
            self.states.setdefault(line.link, "lost")
        else:
            self.sum.lost[self.name_of(line.link), str(line.link)] += line.items

    def take_drop(self, line, _):
        self.sum.dropped[line.reason, line.node, self.taken or "an input of the event itself"] += 1

    def take_held(self, line, _):
        self.sum.held[line.reason, self.name_of(line.link), str(line.link)] += 1

    def take_end(self, line, _):
        self.sum.ending = "end"

    def take_stop(self, line, _):
        self.sum.ending = f"stopped with status {line.code}"

    def name_of(self, link):
        """The name of a control message, and of another link its kind."""
        return self.names.get(link, "an unknown message") if isinstance(link, Message) else self.kinds.get(link, "a link")

    def finish(self):
        for link, name in self.names.items():
            self.sum.messages[name]["in flight"] += link not in self.states
        return self.sum


def add_up(path):
    """What the transcript at a path comes to."""
    adder = Adder()
    for line, ends, _ in endpoints.read_with_ends(path):
        adder.take(line, ends)
    return adder.finish()


# ---- the script


def lines_of_script(path, found):
    """The line of each event in the script at a path. Wrong where the script isn't that of the transcript."""
    events = suite.events_of(path, pathlib.Path(path).read_bytes(), "run")
    for number, (text, event) in enumerate(itertools.zip_longest(found.events, events[: len(found.events)]), 1):
        if event is None:
            raise Wrong(0, f"event {number} is '{transcripts.shortened(text)}', and {path} has {len(events)} events")
        if not same_event(event.text, text):
            raise Wrong(0, f"event {number} is '{transcripts.shortened(text)}', and in {path}, line {event.line}, it is '{transcripts.shortened(event.text)}'")
    return [event.line for event in events]


def same_event(one, other):
    """Whether two events are the same, whatever the case of their digits."""
    return one == other or one.rsplit(" ", 1)[0] == other.rsplit(" ", 1)[0] and one.upper() == other.upper()


def script_of(given):
    """The path of the script: the one that is named, or the one beside the transcript; None where there is none."""
    if given.script:
        return given.script
    beside = pathlib.Path(given.transcript).with_suffix(".script")
    return beside if given.transcript != "-" and beside.exists() else None


# ---- what is told


def as_json(found, lines):
    """The summary as one object: bearers, lost, dropped, held, messages and events as lists of objects."""
    return {
        "events": len(found.events), "ending": found.ending,
        "bearers": [{"ue": ue, "bearer": bearer, "direction": way, "offered": one.offered, "delivered": one.delivered, "outstanding": one.offered - one.delivered,
                     "offeredOctets": one.offered_octets, "deliveredOctets": one.delivered_octets} for (ue, bearer, way), one in in_order(found.bearers)],
        "lost": [{"kind": kind, "link": link, "items": count} for (kind, link), count in sorted(found.lost.items())],
        "dropped": [{"reason": reason, "node": node, "from": what, "items": count} for (reason, node, what), count in sorted(found.dropped.items())],
        "held": [{"reason": reason, "kind": kind, "link": link, "times": count} for (reason, kind, link), count in sorted(found.held.items())],
        "messages": [{"name": name, "put": counts["put"], "given": counts["got"], "givenAgain": counts["again"], "lost": counts["lost"], "inFlight": counts["in flight"]}
                     for name, counts in sorted(found.messages.items())],
        "remarkable": [{"event": number, "scriptLine": line_of(number, lines), "text": found.events[number - 1] if number else None, "line": printed}
                       for number, printed in found.remarkable],
    }


def in_order(bearers):
    return sorted(bearers.items(), key=lambda entry: (int(entry[0][0][1:]), int(entry[0][1][1:]), entry[0][2]))


def line_of(number, lines):
    return lines[number - 1] if lines and 0 < number <= len(lines) else None


def table(title, heads, rows):
    """A table as text, its columns as wide as they must be; nothing where it has no rows."""
    if not rows:
        return []
    texts = [heads, *[[("-" if cell is None else str(cell)) for cell in row] for row in rows]]
    widths = [max(len(row[column]) for row in texts) for column in range(len(heads))]
    return [title, *["  " + "  ".join(cell.ljust(width) for cell, width in zip(row, widths)).rstrip() for row in texts], ""]


def as_text(told):
    """The summary as tables."""
    parts = [f"{told['events']} events; ending: {told['ending']}", ""]
    for title, part, heads in (
        ("Packets", "bearers", ("ue", "bearer", "direction", "offered", "delivered", "outstanding")), ("Lost", "lost", ("kind", "link", "items")),
        ("Dropped", "dropped", ("reason", "node", "from", "items")), ("Held", "held", ("reason", "kind", "link", "times")),
        ("Control messages", "messages", ("name", "put", "given", "givenAgain", "lost", "inFlight")), ("Events to look at", "remarkable", ("event", "scriptLine", "text", "line")),
    ):
        parts += table(title, [spaced(head) for head in heads], [[row[head] for head in heads] for row in told[part]])
    return "\n".join(parts)


def spaced(head):
    return "".join(f" {letter.lower()}" if letter.isupper() else letter for letter in head)


def main():
    asked = transcripts.Asked(__doc__)
    asked.add_argument("--strict", action="store_true", help="status 1 where something was refused, failed, busy, unsettled, or not read to its end")
    asked.add_argument("--json", action="store_true", help="one object of JSON")
    asked.add_argument("--script", help="the script of the transcript")
    asked.add_argument("transcript")
    given = asked.parse_intermixed_args()
    try:
        found, script = add_up(given.transcript), script_of(given)
        told = as_json(found, lines_of_script(script, found) if script else None)
    except (transcripts.Wrong, OSError) as wrong:
        return transcripts.report("summary", given.transcript, wrong)
    except suite.WrongCase as wrong:
        print(f"summary: {wrong}", file=sys.stderr)
        return 2
    print(json.dumps(told, indent=1) if given.json else as_text(told))
    return int(given.strict and (bool(found.remarkable) or found.ending != "end"))


if __name__ == "__main__":
    sys.exit(main())
