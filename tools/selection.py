"""What a tool shows of a transcript, by its words: a range of events, a terminal, a bearer. What names no terminal, or no bearer, is of all of them.

Nothing here is proved.
"""

import argparse
import dataclasses
import re

import transcripts


@dataclasses.dataclass(frozen=True)
class Selection:
    """The events from the first to the last (None: to the end) of a terminal and bearer (None: of all)."""

    first: int = 0
    last: int = None
    ue: str = None
    bearer: str = None

    def has_event(self, number):
        return self.first <= number and (self.last is None or number <= self.last)

    def has(self, ue, bearer):
        return (self.ue is None or ue in (None, "u0", self.ue)) and (self.bearer is None or bearer in (None, self.bearer))

    def has_line(self, line):
        return self.has_event(line.event) and self.has(line.fields.get("ue"), line.fields.get("bearer"))


ALL = Selection()


def read_range(word):
    """`FIRST-LAST`, or one event."""
    found = re.fullmatch(r"([1-9][0-9]*)(?:-([1-9][0-9]*))?", word)
    first, last = (int(found[1]), int(found[2] or found[1])) if found else (1, 0)
    if first > last:
        raise argparse.ArgumentTypeError(f"'{word}' is no range of events, as 3-20")
    return first, last


def reader(read):
    """A reader of a word of a transcript, as argparse takes it."""
    def converted(word):
        try:
            return read(word)
        except transcripts.WrongWord as wrong:
            raise argparse.ArgumentTypeError(f"awaited {wrong}, and it is '{word}'") from None
    return converted


def ask(asked):
    """Has a tool take the words of a selection."""
    asked.add_argument("--events", type=read_range, metavar="FIRST-LAST", help="these events alone")
    asked.add_argument("--ue", type=reader(transcripts.ue), metavar="uU", help="this terminal alone, and what is of none")
    asked.add_argument("--bearer", type=reader(transcripts.bearer), metavar="bB", help="this bearer alone, and what is of none")


def chosen(given, found):
    """The selection of the words that were given, of a transcript with its ends. Wrong where it has no such event."""
    first, last = given.events or (0, None)
    events = found[-1][0].event
    if (last or 0) > events:
        raise transcripts.Wrong(0, f"there is no event {last}: the transcript has {events}")
    return Selection(first, last, given.ue, given.bearer)
