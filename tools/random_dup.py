#!/usr/bin/env python3
"""Runs random scripts of the word `duplicate` on the program and on another reading of the same specification, and compares what they print.

The other reading is tools/plain_dup.py, or a program of yours that takes the words of `duplicate` and a script on its input, as ours does.

Usage: tools/random_dup.py [--count N] [--seed S] [COMMAND ..]
"""

import pathlib
import sys

import other_reading

PLAIN = pathlib.Path(__file__).with_name("plain_dup.py")
# what no script may have
WRONG = [
    "", "; a remark", "jump", " drain", "offer", "offer 4", "offer 4G", "offer  45", "offer 45 45", "carry", "carry 0", "carry 3", "carry L1", "carry 01", "confirm 1 1", "fail both",
    "mend 4294967297", "mode", "mode 3", "mode Both", "mode both both", "drain 1", "ask 1", "Ask", "ask\r", "carry\t1",
]


def packet(chance):
    length = chance.choice([40, 2047, 2048, 2049]) if chance.random() < 0.01 else chance.randint(1, 3)
    digits = chance.randbytes(length).hex()
    return digits.upper() if chance.random() < 0.5 else digits


def some(chance, event, most):
    return [event] * chance.randint(1, most)


def of_leg(chance, word, most=1):
    return some(chance, f"{word} {chance.randint(1, 2)}", most)


def change(chance):
    """A leg fails or is mended, or the mode changes."""
    word = chance.choice(["fail", "fail", "mend", "mend", "mend", "mode", "mode"])
    return [f"mode {chance.choice(['both', '1', '2'])}"] if word == "mode" else of_leg(chance, word)


def short(chance):
    """Events in any order, with few packets."""
    lines, changes = [], chance.choice([0.05, 0.2, 0.5])
    for _ in range(chance.randint(1, 80)):
        if chance.random() < changes:
            lines += change(chance)
            continue
        word = chance.choice(["offer"] * 6 + ["carry"] * 6 + ["confirm"] * 4 + ["drain", "ask"])
        if word == "offer":
            lines += [f"offer {packet(chance)}" for _ in range(chance.choice([1, 1, 2, 6]))]
        else:
            lines += of_leg(chance, word, 4) if word in ("carry", "confirm") else [word]
    return [*lines, "ask"]


def changing(chance):
    """The mode changes while a leg is down or both are, with packets that are carried, confirmed or neither."""
    lines = [f"offer {packet(chance)}" for _ in range(chance.randint(0, 6))]
    for _ in range(chance.randint(2, 12)):
        lines += of_leg(chance, "carry", 3) * chance.randint(0, 1) + of_leg(chance, "confirm", 3) * chance.randint(0, 1)
        lines += [line for _ in range(chance.randint(1, 3)) for line in change(chance)]
        lines += [f"offer {packet(chance)}"] * chance.randint(0, 2) + chance.choice([[], [], ["ask"], ["drain"], ["drain", "ask"]])
    return lines + chance.choice([["ask"], ["mend 1", "mend 2", "drain", "ask"], ["mode both", "drain", "ask"]])


def flow(chance, packets, burst):
    """A flow of packets over legs that fail now and then: numbers wrap."""
    lines, offers = [], 0
    while offers < packets:
        word = chance.choice(["offer"] * 7 + ["carry"] * 6 + ["confirm"] * 6 + ["change", "drain"])
        if word == "offer":
            more = chance.randint(1, burst)
            lines += [f"offer {packet(chance)}" for _ in range(more)]
            offers += more
        else:
            lines += change(chance) if word == "change" else ["drain"] if word == "drain" else of_leg(chance, word, burst)
    return [*lines, "mend 1", "mend 2", "drain", "ask"]


def edges(chance):
    """Packets at the edges of the window and of what may be outstanding."""
    if chance.random() < 0.5:
        lines = ["offer 00", "carry 1", "carry 2", "confirm 2"]
        for number in range(chance.choice([2045, 2046, 2047, 2048, 2049])):
            lines += [f"offer {number:04x}", "carry 2", "confirm 2"]
        return lines + chance.choice([["ask"], ["confirm 1", "offer 01", "ask"], ["offer 01"], ["offer 01", "offer 02"], ["drain", "ask"]])
    lines = [f"offer {number:04x}" for number in range(chance.choice([2046, 2047, 2048, 2049, 4095, 4097]))]
    lines += chance.choice([[], ["fail 1"], ["fail 1", "fail 2"], ["mode 2"]]) + of_leg(chance, "carry", 3) + of_leg(chance, "confirm", 3)
    return lines + chance.choice([["ask"], ["drain", "ask"], ["mend 1", "drain", "ask"], ["mode 1", "drain", "ask"]])


def call(chance):
    bits = chance.choice(["12", "12", "18"])
    quota = chance.choice(["4", "4", "5", "64", "2047", "2048", "4096"])
    kind = chance.random()
    if kind < 0.4:
        lines = short(chance)
    elif kind < 0.75:
        lines = changing(chance)
    elif kind < 0.85:
        lines = flow(chance, chance.randint(100, 500), chance.choice([3, 5, 100]))
    elif kind < 0.93:
        bits, quota = "12", chance.choice(["4", "9", "64", "2048"])
        lines = flow(chance, chance.randint(4_200, 5_000), 60)
    else:
        lines = edges(chance)
    if chance.random() < 0.2:
        lines.insert(chance.randint(0, len(lines)), chance.choice(WRONG))
    if chance.random() < 0.03:
        bits, quota = chance.choice([("13", "4"), ("12", "3"), ("12", "4097"), ("18", "04"), ("12", "+4"), ("012", "4")])
    return ["duplicate", bits, quota], "\n".join(lines) + chance.choice(["", "\n"])


if __name__ == "__main__":
    sys.exit(other_reading.compare(__doc__, "scripts of duplicate", 100, call, lambda status, _output: str(status), [sys.executable, str(PLAIN)]))
