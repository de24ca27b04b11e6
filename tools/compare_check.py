#!/usr/bin/env python3
"""Checks tools/compare.py: a story with other message numbers and TEIDs is like itself; each line that is changed is found, with its event; and what is said of wrong inputs.

Usage: tools/compare_check.py
"""

import random
import re
import sys

import checks
import control_messages
import stories
import transcripts
from captures_check import WRONG
from endpoints import control_kind

# stories in which no terminal is set up without messages: there TEIDs are told by messages alone
STORIES = ("usual-day",)
SHIFT = 20


def renumbered(text):
    """A transcript with other message numbers, and with other TEIDs in its words, headers and messages."""
    return "\n".join(map(renumbered_line, text.splitlines())) + "\n"


def renumbered_line(text):
    words = [renumbered_word(word) for word in text.split(" ")]
    kind, fields = transcripts.read_line(text)
    link = fields.get("link")
    if "octets" in fields and isinstance(link, transcripts.Tunnel):
        words[-1] = (fields["octets"][:4] + (link.teid + SHIFT).to_bytes(4, "big") + fields["octets"][8:]).hex().upper()
    if kind in ("put", "got") and isinstance(link, transcripts.Message):
        line = transcripts.Line(0, 0, 0, kind, text, fields)
        words[-1] = with_other_teids(control_kind(line).stands, fields["octets"]).hex().upper()
    return " ".join(words)


def renumbered_word(word):
    found = re.fullmatch(r"(#|[AB]\.(?:up|du)[12]/)(\d+)", word)
    return f"{found[1]}{int(found[2]) + SHIFT}" if found else word


def shifted(value):
    """A decoded message with other TEIDs."""
    if isinstance(value, dict):
        return {name: part + SHIFT if name == "teid" else shifted(part) for name, part in value.items()}
    return [shifted(part) for part in value] if isinstance(value, list) else value


def changed_at(octets, place):
    return octets[:place] + bytes([(octets[place] + SHIFT) % 256]) + octets[place + 1 :]


def with_other_teids(name, octets):
    """The octets of a message with other TEIDs, of one octet each: those whose change the program reads as another TEID."""
    value, found = control_messages.read(name, octets), octets
    control_messages.read_all([(name, changed_at(octets, place)) for place in range(len(octets) if teids(value) else 0)])
    for place in range(len(octets) if teids(value) else 0):
        before, after = teids(value), teids(control_messages.read(name, changed_at(octets, place)) or {})
        if len(before) == len(after) and [late - early for early, late in zip(before, after) if late != early] == [SHIFT]:
            found = changed_at(found, place)
    assert control_messages.read(name, found) == shifted(value)
    return found


def teids(value):
    if isinstance(value, dict):
        return [teid for name, part in value.items() for teid in ([part] if name == "teid" else teids(part))]
    return [teid for part in value for teid in teids(part)] if isinstance(value, list) else []


def compare(tmp_path, one, other):
    paths = tmp_path / "one.out", tmp_path / "other.out"
    for path, text in zip(paths, (one, other)):
        path.write_text(text)
    ran = stories.run_tool("compare", *paths)
    assert ran.stderr == "", ran.stderr
    return ran.returncode, ran.stdout.replace(f"{tmp_path}/", "")


def test_other_numbers_are_alike(tmp_path):
    for story in STORIES:
        text = (stories.EXAMPLES / f"{story}.out").read_text()
        other = renumbered(text)
        assert other != text and "#21 " in other and "#1 " not in other
        events = text.count("\n> ") + 1
        assert compare(tmp_path, text, other) == (0, f"alike: {events} events\n"), story


def test_each_change_is_found(tmp_path):
    """A line that is left out, or whose last word is another, is the first difference; a TEID that changes alone is one too."""
    text = (stories.EXAMPLES / "lost-on-f1-u.out").read_text()
    lines, chance = text.splitlines(), random.Random(1)
    for place in chance.sample([place for place, line in enumerate(lines) if line.startswith(("deliver", "drop"))], 4):
        event = sum(line.startswith("> ") for line in lines[: place + 1])
        status, said = compare(tmp_path, text, "\n".join(lines[:place] + lines[place + 1 :]) + "\n")
        assert status == 1 and said.startswith(f"they part at event {event}: ") and f"one.out:{place + 1}: {lines[place]}\n" in said, said


def test_why(tmp_path):
    begin = "> static u1 A 1 1 12 1 64\n"
    request = "put #1 A.cp A.du1 u1 000200250000060001000100000200020001000300020001000500030000020009000100000C000100\n"
    for one, other, said in (
        ("> tick\nend 2\n", "> pump\nend 2\n", "they part at event 2: tick\n  one.out:2: > tick\n  other.out:2: > pump\n  why: what: tick and pump\n  from there on 0 events of the scripts are the same, of 1 and 1\n"),
        ("> tick\nend 2\n", "", "they part at event 1: static u1 A 1 1 12 1 64\n  one.out: nothing more\n"),
        (f"> tick\n{request}end 2\n", f"> tick\n{request.replace('000200020001', '000200020005')}end 2\n", "instance"),
        ("> tick\nfailed A.cp u1 busy\nend 2\n", "> tick\nfailed A.cp u1 timeout\nend 2\n", "  why: cause: busy and timeout\n"),
        ("> tick\ndrop A.cp Stale\nend 2\n", "> tick\nbusy u1 b1\nend 2\n", "  why: 'drop' in one, 'busy' in the other\n"),
    ):
        status, told = compare(tmp_path, begin + one, begin + other)
        if said.endswith("nothing more\n"):
            assert status == 1 and "other.out: nothing more\n  why: only one of them goes on\n" in told, told
        elif said == "instance":
            assert status == 1 and re.search(r"why: .*: \d+ and \d+", told), told
        else:
            assert status == 1 and said in told, told


def test_wrong_inputs():
    stories.check_wrong_inputs("compare", [row for row in WRONG if row[0]], stories.EXAMPLES / "window.out")
    ran = stories.run_tool("compare", stories.EXAMPLES / "window.out")
    assert (ran.returncode, ran.stderr) == (2, "compare: the following arguments are required: transcript\n"), ran


if __name__ == "__main__":
    sys.exit(checks.run(__file__))
