#!/usr/bin/env python3
"""Decodes random and spoilt octets of messages by the word `decode` and by another reading of the same specification, and compares what they print.

The octets are those of the control messages in examples/, some with bytes changed and some cut off, as values of the three interfaces' types.
The other reading is a program that takes the word, a type and an input, as ours does. Without one nothing is compared, and the last
line says so (other_reading.py).

Usage: tools/random_values.py [--count N] [--seed S] [COMMAND ..]
"""

import functools
import re
import sys

import other_reading

EXAMPLES = other_reading.TOP / "examples"
TYPES = ["F1AP-PDU", "E1AP-PDU", "XnAP-PDU"]
HEADERS = ["module builtin", "module builtin 2"]
MESSAGE = re.compile(r"^put #\d+ \S+ \S+ u\d+ ([0-9A-F]+)$", re.MULTILINE)


@functools.cache
def messages():
    """The octets of all control messages of the examples."""
    return [bytes.fromhex(found) for file in sorted(EXAMPLES.glob("*.out")) for found in MESSAGE.findall(file.read_text())]


def spoilt(chance, octets):
    """The octets with a few bytes changed, or cut off, or as they are."""
    left = bytearray(octets)
    for _ in range(chance.choice([0, 0, 1, 1, 2])):
        left[chance.randrange(len(left))] = chance.randrange(256)
    return bytes(left[: chance.randrange(len(left) + 1)] if chance.random() < 0.2 else left)


def make(chance):
    lines = [spoilt(chance, chance.choice(messages())).hex().upper() for _ in range(chance.randint(1, 3))]
    return ["decode", chance.choice(TYPES)], "\n".join([chance.choice(HEADERS), *lines, ""])


def told(status, output):
    """The status, and for a refused line the reason."""
    reason = re.search(rb"^wrong \d+ (\d+) ", output, re.MULTILINE)
    return f"{status} for {int(reason[1])}" if reason else str(status)


if __name__ == "__main__":
    if not messages():
        sys.exit("examples/ has no control messages")
    sys.exit(other_reading.compare(__doc__, "values", 300, make, told))
