"""Reads a transcript of `run`, line by line, for the tools that draw and convert it. What a line may be is said in docs/definitions/scenario-text.md.

Nothing here is proved.
"""

import argparse
import dataclasses
import pathlib
import re
import sys

LIMIT = 2**32 - 1
GNBS = ("A", "B")
UNITS = tuple(f"{gnb}.{unit}" for gnb in GNBS for unit in ("cp", "up1", "up2", "du1", "du2"))
UES = tuple(f"u{number}" for number in range(1, 17))
NODES = (*UNITS, "core", *UES)
HELD = ("Quota", "Ahead", "NoStatus", "NotArrived", "Early")
DROPPED = ("Undecodable", "Criticality", "NoContext", "NoTunnel", "Stale", "Busy", "Duplicate", "Gap", "Unexpected")
CAUSES = ("quota", "busy", "unit", "timeout")


class Wrong(Exception):
    """What is wrong with an input, and on which line; 0 where it is no line's fault."""

    def __init__(self, line, what):
        super().__init__(what)
        self.line, self.what = line, what


class WrongWord(Exception):
    """A word that may not stand in its place."""


@dataclasses.dataclass(frozen=True)
class Tunnel:
    """A tunnel, by the node at its end and its TEID."""

    node: str
    teid: int

    def __str__(self):
        return f"{self.node}/{self.teid}"


@dataclasses.dataclass(frozen=True)
class Radio:
    """The radio of a bearer, in one direction and epoch."""

    ue: str
    bearer: str
    direction: str
    epoch: int

    def __str__(self):
        return f"r/{self.ue}/{self.bearer}/{self.direction}/{self.epoch}"


@dataclasses.dataclass(frozen=True)
class Message:
    """A control message, by its number."""

    number: int

    def __str__(self):
        return f"#{self.number}"


@dataclasses.dataclass
class Line:
    """A line of a transcript: its kind is its first word, `event` for `>`; `event` counts the events up to it, `place` the lines since its event."""

    number: int
    event: int
    place: int
    kind: str
    text: str
    fields: dict
    refused: bool = False

    def __getattr__(self, name):
        try:
            return self.fields[name]
        except KeyError:
            raise AttributeError(name) from None

    @property
    def words(self):
        """The line without its octets."""
        return self.text.rsplit(" ", 1)[0] if self.kind in ("put", "got", "deliver") else self.text

    @property
    def is_control(self):
        return self.kind in ("put", "got") and isinstance(self.link, Message)


# ---- words


def number(low, high):
    def read(word):
        if not re.fullmatch("0|[1-9][0-9]{0,9}", word) or not low <= int(word) <= high:
            raise WrongWord(f"a number from {low} to {high}")
        return int(word)
    return read


def one_of(words, what):
    def read(word):
        if word not in words:
            raise WrongWord(what)
        return word
    return read


def named(words):
    return one_of(words, f"one of {', '.join(words)}")


ue = one_of(UES, "a UE, u1 to u16")
ue_or_none = one_of(("u0", *UES), "a UE, u1 to u16, or u0")
bearer = one_of([f"b{i}" for i in range(1, 9)], "a bearer, b1 to b8")
direction = named(("dl", "ul"))
node = one_of(NODES, "a node, as A.cp, B.up1, A.du2, core or u1")
gnb = named(GNBS)
large = number(0, LIMIT)


def count(word):
    return None if word == "-" else large(word)


def octets(word):
    if not re.fullmatch("([0-9A-Fa-f]{2})+", word):
        raise WrongWord("octets, an even number of hexadecimal digits")
    return bytes.fromhex(word)


def tunnel(word):
    name, slash, teid = word.partition("/")
    if not slash:
        raise WrongWord("a tunnel, as A.up1/3")
    return Tunnel(node(name), number(1, LIMIT)(teid))


def message(word):
    if not word.startswith("#"):
        raise WrongWord("a control message, as #12")
    return Message(number(1, LIMIT)(word[1:]))


def radio(word):
    parts = word.split("/")
    if len(parts) != 5 or parts[0] != "r":
        raise WrongWord("a radio, as r/u1/b1/dl/1")
    return Radio(ue(parts[1]), bearer(parts[2]), direction(parts[3]), large(parts[4]))


def link(word):
    if word.startswith("#"):
        return message(word)
    return radio(word) if word.startswith("r/") else tunnel(word)


# ---- lines

PLAN = {"ue": ue, "gnb": gnb, "up": number(1, 2), "du": number(1, 2), "bits": one_of(("12", "18"), "12 or 18"), "bearers": number(1, 8),
        "quota": number(4, 4096)}
OF_UE = {"ue": ue}
OF_BEARER = {"ue": ue, "bearer": bearer}
OF_WAY = {**OF_BEARER, "direction": direction}
ITEM = {"link": link, **OF_WAY, "count": count, "octets": octets}
CONTROL = {"link": message, "sender": node, "receiver": node, "ue": ue_or_none, "octets": octets}
EVENTS = {
    "static": PLAN, "start": {}, "attach": PLAN, "offer": {**OF_WAY, "octets": octets}, "get": {"link": tunnel}, "air": OF_WAY, "ack": OF_WAY,
    "give": {"link": message}, "lose": {"link": link}, "poll": OF_BEARER, "pump": {}, "tick": {}, "fail": OF_UE, "arrive": OF_UE, "return": OF_UE,
    "handover": {"ue": ue, "gnb": gnb, "up": number(1, 2), "du": number(1, 2)}, "cancel": OF_UE, "release": OF_UE, "ask": OF_BEARER, "settle": {},
}
INJECTED_ITEM = {"link": tunnel, "octets": octets}
INJECTED_MESSAGE = {"sender": node, "receiver": node, "octets": octets}
LINES = {
    "deliver": {**OF_WAY, "count": large, "octets": octets}, "lost": {"link": link, "items": number(1, LIMIT)},
    "drop": {"node": node, "reason": named(DROPPED)}, "held": {"link": link, "reason": named(HELD)},
    "failed": {"node": node, "ue": ue, "cause": named(CAUSES)}, "quiet": {**OF_BEARER, "dl": large, "ul": large}, "busy": OF_BEARER,
    "settled": {"rounds": large}, "unsettled": {"rounds": large}, "refused": {"reason": str}, "outstanding": {**OF_WAY, "span": large, "window": large},
    "end": {"events": large}, "stop": {"code": large, "place": large, "reason": large}, "module": {"line": large, "column": large, "reason": large},
    "differs": {"name": str},
}


def form_of(words):
    """The kind of a line, and the words that it has after its first ones: (kind, how many first ones, form)."""
    first = words[0]
    if first in ("put", "got"):
        return first, 1, CONTROL if words[1:2] and words[1].startswith("#") else ITEM
    if first == ">":
        if words[1:2] == ["inject"]:
            return "event", 2, INJECTED_ITEM if words[2:3] and "/" in words[2] else INJECTED_MESSAGE
        if words[1:2] and words[1] in EVENTS:
            return "event", 2, EVENTS[words[1]]
        raise WrongWord("an event after '>'")
    if first not in LINES:
        raise WrongWord("a line of a transcript of run")
    return first, 1, LINES[first]


def read_line(text):
    """The kind and the fields of a line."""
    words = text.split(" ")
    kind, skipped, form = form_of(words)
    rest = words[skipped:]
    if len(rest) != len(form):
        raise WrongWord(f"{len(form)} words after '{' '.join(words[:skipped])}', and there are {len(rest)}")
    fields = {"what": words[1]} if kind == "event" else {}
    for place, ((name, reader), word) in enumerate(zip(form.items(), rest), skipped + 1):
        fields[name] = read_word(reader, word, place)
    return kind, fields


def read_word(reader, word, place):
    """What a word stands for; WrongWord with the word and its place in the line, from 1, where it may not stand there."""
    try:
        return reader(word)
    except WrongWord as wrong:
        raise WrongWord(f"{wrong} as word {place}, and it is '{shortened(word)}'") from None


def shortened(word):
    return word if len(word) <= 40 else word[:37] + "..."


def lines_of(text):
    """The lines of a text; each ends with LF or CR LF, which the last one may lack."""
    found = text.replace("\r\n", "\n").split("\n")
    return found[:-1] if found[-1] == "" else found


def read(text):
    """The lines of a transcript. A transcript that was cut off before its last line is read too."""
    lines, events, place = [], 0, 0
    for at, content in enumerate(lines_of(text), 1):
        try:
            kind, fields = read_line(content)
        except WrongWord as wrong:
            raise Wrong(at, f"awaited {wrong}" if content else "an empty line") from None
        place += 1
        if kind == "event":
            events, place = events + 1, 0
        check_order(lines, at, kind, fields, events)
        if kind == "refused":
            lines[-1].refused = True
        lines.append(Line(at, events, place, kind, content, fields))
    if not lines:
        raise Wrong(0, "an empty transcript")
    return lines


def check_order(before, at, kind, fields, events):
    """Whether a line may stand after those before it."""
    if before and before[-1].kind in ("end", "stop"):
        raise Wrong(at, f"a line after '{before[-1].text}'")
    if not events and kind not in ("end", "stop", "module", "differs"):
        raise Wrong(at, f"'{kind}' before the first event")
    if kind == "refused" and before[-1].kind != "event":
        raise Wrong(at, "'refused' doesn't follow an event")
    if kind == "end" and fields["events"] != events:
        raise Wrong(at, f"'end {fields['events']}' after {events} events")


def read_file(path):
    """The lines of the transcript at a path; `-` is standard input."""
    data = sys.stdin.buffer.read() if path == "-" else open(path, "rb").read()
    try:
        return read(data.decode("ascii"))
    except UnicodeDecodeError as wrong:
        raise Wrong(data[: wrong.start].count(b"\n") + 1, "an octet that is no character of a transcript") from None


def write_file(path, data):
    """Writes octets to a path; `-` is standard output."""
    if path == "-":
        sys.stdout.buffer.write(data)
        return
    with open(path, "wb") as out:
        out.write(data)


class Asked(argparse.ArgumentParser):
    """The words that a tool takes. What is wrong with them is said in one line, as what is wrong with an input."""

    def __init__(self, usage):
        super().__init__(prog=pathlib.Path(sys.argv[0]).stem, description=usage, formatter_class=argparse.RawDescriptionHelpFormatter)

    def error(self, message):
        self.exit(2, f"{self.prog}: {message}\n")


def report(tool, path, wrong):
    """Says on standard error, in one line, what is wrong with an input; the status to end with."""
    if isinstance(wrong, OSError):
        place, what = wrong.filename or path, wrong.strerror
    else:
        place, what = (f"{path}:{wrong.line}" if wrong.line else path), wrong.what
    print(f"{tool}: {place}: {what}", file=sys.stderr)
    return 2
