#!/usr/bin/env python3
"""Runs random scripts of the word `um` on the program and on another reading of the same specification, and compares what they print.

The other reading is tools/plain_um.py, or a program of yours that takes the words of `um` and a script on its input, as ours does.

Usage: tools/random_um.py [--count N] [--seed S] [COMMAND ..]
"""

import pathlib
import sys

import other_reading

PLAIN = pathlib.Path(__file__).with_name("plain_um.py")
# what no script may have
WRONG = [
    "", "; a remark", "jump", " tick", "offer", "offer 4", "offer 4G", "offer  45", "offer 45 ", "offer 45 45", "give", "give 1", "give #0", "give #01", "give #4294967296",
    "give #4294967295", "again #", "lose #1 1", "tick 1", "ask b1", "Tick", "tick\r", "ask\t", "offer\t45",
]


def packet(chance):
    length = chance.choice([40, 2047, 2048, 2049]) if chance.random() < 0.02 else chance.randint(1, 3)
    digits = chance.randbytes(length).hex()
    return digits.upper() if chance.random() < 0.5 else digits


class Link:
    """What the scripts know of a link: how many messages were put, and which are on it."""

    def __init__(self, chance):
        self.chance = chance
        self.puts = 0
        self.on_link = []

    def offer(self):
        self.puts += 1
        self.on_link.append(self.puts)
        return f"offer {packet(self.chance)}"

    def pick(self, far):
        """A message near the oldest one on the link, or now and then any number."""
        if not self.on_link or self.chance.random() < 0.03:
            return self.chance.randint(1, self.puts + 2)
        return self.on_link[min(int(self.chance.expovariate(1 / far)), len(self.on_link) - 1)]

    def of_message(self, word, far):
        number = self.pick(far)
        if word != "again" and number in self.on_link:
            self.on_link.remove(number)
        return f"{word} #{number}"


def short(chance):
    """Events in any order, few messages, much loss."""
    link, lines = Link(chance), []
    for _ in range(chance.randint(1, 80)):
        word = chance.choice(["offer"] * 7 + ["give"] * 6 + ["again", "lose", "tick", "tick", "tick", "ask"])
        lines.append(link.offer() if word == "offer" else link.of_message(word, 3) if word in ("give", "again", "lose") else word)
    return lines


def flow(chance, length, far):
    """A flow of messages that are given nearly in order: numbers wrap."""
    link, lines = Link(chance), []
    in_flight = chance.randint(1, 40)
    for _ in range(length):
        if len(link.on_link) <= in_flight:
            lines.append(link.offer())
            continue
        word = chance.choice(["give"] * 30 + ["again", "lose", "tick", "ask"])
        lines.append(link.of_message(word, far) if word in ("give", "again", "lose") else word)
    return lines


def edges(chance, bits):
    """Messages at the edges of what is held and of what may be outstanding."""
    link = Link(chance)
    lines = [link.offer() for _ in range(chance.choice([1023, 1024, 1025, 1026, 2047, 2048]))]
    for number in chance.sample([1, 2, 1023, 1024, 1025, 1026, link.puts], 5):
        lines.append(f"{chance.choice(['give', 'give', 'again', 'lose'])} #{number}")
        lines += chance.choice([[], ["tick"], ["ask"], ["tick", "tick", "ask"]])
    lines += [f"give #{number}" for number in range(1, chance.choice([2, 40, 1025]))]
    offers = chance.choice([0, 1, 2, 1024]) if bits == 12 else 0
    return lines + [link.offer() for _ in range(offers)] + ["ask"]


def call(chance):
    bits = chance.choice(["12", "12", "18"])
    ticks = chance.choice(["1", "2", "3", "7", "1000"])
    kind = chance.random()
    if kind < 0.6:
        lines = short(chance)
    elif kind < 0.8:
        lines = flow(chance, chance.randint(200, 1500), chance.choice([1, 3, 200]))
    elif kind < 0.9:
        lines = flow(chance, chance.randint(8_400, 13_000), 2)
    else:
        lines = edges(chance, int(bits))
    if chance.random() < 0.3:
        lines.insert(chance.randint(0, len(lines)), chance.choice(WRONG))
    if chance.random() < 0.05:
        bits, ticks = chance.choice([("13", "2"), ("12", "0"), ("12", "1001"), ("18", "02"), ("12", "+1"), ("012", "2")])
    return ["um", bits, ticks], "\n".join(lines) + chance.choice(["", "\n"])


if __name__ == "__main__":
    sys.exit(other_reading.compare(__doc__, "scripts of um", 100, call, lambda status, _output: str(status), [sys.executable, str(PLAIN)]))
