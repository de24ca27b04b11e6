#!/usr/bin/env python3
"""Runs random scripts on the program and on another reading of the same specification, and compares what they print.

A third of them are of one static bearer, with wrong lines, and with the profile's text as their module, changed or not; the others have every event of the
language. Those are chosen a few at a time by the lines that our own program gave so far, so that most of them find something to act on: which items stand
on links, and which control messages are in flight. The other reading sees the whole script only.

The other reading is a program that takes the word `run` and a script on its input, as ours does. Without one nothing is
compared, and the last line says so (other_reading.py).

Usage: tools/random_scripts.py [--count N] [--seed S] [COMMAND ..]
"""

import collections
import functools
import re
import subprocess
import sys

import other_reading

QUOTAS = [4, 5, 8, 64, 4096]
NODES = [*(gnb + unit for gnb in ("A.", "B.") for unit in ("cp", "up1", "up2", "du1", "du2")), "core", "u1", "u2"]
TUNNELS = ["A.up1/1"] * 6 + ["A.du1/1"] * 6 + ["A.up1/2", "A.up1/9", "A.du1/2", "B.du2/1", "core/1", "u1/1"]
# what no script may have
WRONG = [
    "", "; a remark", "jump", "offer u1 b1 dl", "offer u1 b1 dl 4", "offer u1 b1 dl 4G", "offer u17 b1 dl 45", "offer u1 b9 dl 45",
    "offer  u1 b1 dl 45", "offer u1 b1 dl 45 ", "get A.up1", "get A.up3/1", "get A.up1/0", "get A.up1/4294967296", "air u1 b1",
    "air u1 b1 dl dl", "static u1 C 1 1 12 1 64", "static u1 A 1 1 13 1 64", "static u1 A 1 1 12 1 3", "static u1 A 1 1 12 1 4097",
]


def offer(chance):
    length = chance.choice([1, 2, 3, 40, 2048, 2049]) if chance.random() < 0.2 else chance.randint(1, 4)
    ue = chance.choice(["u1"] * 19 + ["u2"])
    bearer = chance.choice(["b1"] * 9 + ["b2"])
    return f"offer {ue} {bearer} dl {chance.randbytes(length).hex()}"


def event(chance, quota):
    kind = chance.random()
    if kind < 0.35:
        return offer(chance)
    if kind < 0.7:
        return f"get {chance.choice(TUNNELS)}"
    if kind < 0.97:
        return f"air {chance.choice(['u1'] * 12 + ['u2'])} b1 dl"
    return f"static u1 A 1 1 12 1 {quota}"


@functools.cache
def profile():
    """The lines of the profile's module."""
    return subprocess.run([*other_reading.PROGRAM, "profile"], stdout=subprocess.PIPE, check=True).stdout.decode().splitlines()


def text(chance):
    """The header of a text, and the profile's module, with one change or none."""
    lines, place = list(profile()), chance.randrange(len(profile()))
    kind = chance.random()
    if kind < 0.2:
        lines[place] = re.sub("[0-9]+", lambda _: str(chance.choice([0, 1, 2, 5, 4095])), lines[place], count=1)
    elif kind < 0.3:
        del lines[place]
    elif kind < 0.4:
        lines.insert(chance.randrange(1, len(lines)), chance.choice(["T ::= BOOLEAN", "-- a remark", "Flag ::= BOOLEAN", ""]))
    elif kind < 0.45:
        lines[-1] += chance.choice([" x", " -- a remark", "\nEND"])
    return ["module text", *lines]


def header(chance):
    kind = chance.random()
    if kind < 0.9:
        return ["module builtin"]
    if kind < 0.97:
        return text(chance)
    return [chance.choice(["module", "module builtin ", "module builtin 2", "module builtin 3", "module text x", "builtin", ""])]


def static_script(chance):
    """One static bearer, a few packets down, and perhaps a line that is wrong."""
    quota = chance.choice(QUOTAS)
    lines = header(chance)
    if chance.random() < 0.9:
        lines.append(f"static u1 A 1 1 12 1 {quota}")
    lines += [event(chance, quota) for _ in range(chance.randint(1, 60))]
    if chance.random() < 0.4:
        lines.insert(chance.randint(1, len(lines)), chance.choice(WRONG))
    return "\n".join(lines) + chance.choice(["", "\n"])


class Links:
    """What a transcript leaves on links, near enough to choose events by: an event that finds nothing is refused, and that is a case too."""

    def __init__(self, transcript):
        self.items, self.carried, self.flying, self.last = collections.Counter(), collections.Counter(), set(), 0
        for kind, link, number in re.findall(r"^(put|got|lost) (\S+)(?: (\d+)$)?", transcript, re.MULTILINE):
            if link.startswith("#"):
                self.message(kind, int(link[1:]))
            else:
                self.items[link] += {"put": 1, "got": -1, "lost": -int(number or 1)}[kind]
                self.carried[link] += kind == "got"

    def message(self, kind, number):
        self.last = max(self.last, number)
        if kind == "put":
            self.flying.add(number)
        else:
            self.flying.discard(number)

    def full(self, radio):
        """The tunnels on which something stands, or the bearers, directions and epochs of such radios."""
        return sorted(link for link, count in self.items.items() if count > 0 and link.startswith("r/") == radio)


def radio_event(word, link):
    return " ".join([word, *link.split("/")[1:4]])


def goal(chance):
    return f"{chance.choice('AB')} {chance.choice('12')} {chance.choice('12')}"


def packet(chance, ue, bearers):
    return f"offer {ue} b{chance.randint(1, bearers)} {chance.choice(['dl', 'dl', 'ul'])} {chance.randbytes(2).hex()}"


def procedure(chance, ue):
    """The events of a procedure, which goes well or doesn't."""
    over = [f"handover {ue} {goal(chance)}", "pump", "tick", "pump", f"arrive {ue}", "pump"]
    back = [f"fail {ue}", f"return {ue}", "pump"]
    return chance.choice([
        over, over, over, over[:4] + [f"return {ue}", "pump"], over[:2] + [f"cancel {ue}", "pump"], over[:5] + back, over[: chance.randint(1, 5)],
        [over[0], "pump", f"fail {ue}", *over[2:]], over + [f"handover {ue} {goal(chance)}", *over[1:]], back, back, ["settle"], ["tick"] * 9, [f"release {ue}", "pump"],
    ])


def on_links(chance, links):
    """One event on what stands on links."""
    tunnels, radios, flying = links.full(False), links.full(True), sorted(links.flying)
    kind = chance.random()
    if kind < 0.4 and tunnels:
        return f"get {chance.choice(tunnels)}"
    if kind < 0.6 and radios:
        return radio_event("air", chance.choice(radios))
    if kind < 0.7 and links.carried:
        return radio_event("ack", chance.choice([link for link in sorted(links.carried) if link.startswith("r/")] or ["r/u1/b1/dl/1"]))
    if kind < 0.85 and flying:
        return f"give #{flying[0] if chance.random() < 0.4 else chance.choice(flying)}"
    if kind < 0.9 and links.last:
        return f"give #{chance.randint(1, links.last + 1)}"
    if kind < 0.94 and flying:
        return f"lose #{chance.choice(flying)}"
    if kind < 0.98 and tunnels:
        return f"lose {chance.choice([tunnel for tunnel in tunnels if '.du' in tunnel] or tunnels)}"
    return chance.choice(["pump", "tick"])


def beside_links(chance, ue, bearers, links):
    """One event that asks for nothing on links, or that brings octets of others."""
    bearer = f"b{chance.randint(1, bearers)}"
    octets = chance.randbytes(chance.choice([1, 8, 20])).hex()
    tunnels = sorted(link for link in links.items if not link.startswith("r/")) or ["A.up1/1"]
    return chance.choice([
        packet(chance, ue, bearers), packet(chance, ue, bearers), packet(chance, ue, bearers), packet(chance, ue, bearers), "pump", "tick", f"poll {ue} {bearer}", f"ask {ue} {bearer}",
        f"inject {chance.choice(NODES)} {chance.choice(NODES)} {octets}", f"inject {chance.choice(tunnels)} {octets}", f"arrive {ue}", f"return {ue}",
        f"cancel {ue}", "start",
    ])


def more(chance, plans, transcript):
    """The next events, by what stands on links before them."""
    links = Links(transcript)
    ue, bearers = chance.choice(plans) if chance.random() < 0.97 else ("u16", 1)
    if chance.random() < 0.35:
        events = procedure(chance, ue)
        for _ in range(chance.choice([0, 0, 1, 3])):
            events.insert(chance.randint(0, len(events)), packet(chance, ue, bearers))
        return events
    return [on_links(chance, links) if chance.random() < 0.7 else beside_links(chance, ue, bearers, links) for _ in range(chance.randint(2, 10))]


def begun(chance):
    """The first events, and each terminal with the number of its bearers."""
    lines, plans = ["module builtin"], []
    if attaches := chance.random() < 0.4:
        lines += ["start", "pump"]
    for number in chance.sample(range(1, 17), chance.choice([1, 1, 2, 3])):
        ue, bearers = f"u{number}", chance.choice([1, 1, 2, 3])
        word = "attach" if attaches and chance.random() < 0.7 else "static"
        lines.append(f"{word} {ue} {goal(chance)} {chance.choice(['12', '12', '18'])} {bearers} {chance.choice([4, 5, 8, 64])}")
        if word == "attach" and chance.random() < 0.9:
            lines += ["pump", f"arrive {ue}", "pump"]
        plans.append((ue, bearers))
    return lines, plans


def whole_script(chance):
    lines, plans = begun(chance)
    for _ in range(chance.randint(4, 14)):
        status, output = other_reading.answer(other_reading.PROGRAM, ["run"], "\n".join(lines) + "\n")
        if status:
            break
        lines += more(chance, plans, output.decode())
    return "\n".join([*lines, *chance.choice([[], ["settle"]]), ""])


def script(chance):
    return static_script(chance) if chance.random() < 0.33 else whole_script(chance)


if __name__ == "__main__":
    sys.exit(other_reading.compare(__doc__, "scripts", 300, lambda chance: (["run"], script(chance)), lambda status, _output: str(status)))
