#!/usr/bin/env python3
"""Decodes random octets in random pieces by the decoder that is fed in pieces and by another reading of the same specification, and compares
what they answer to each piece, at the end, and to the whole.

The octets are those of random values of the types of random modules, some with bits changed, some cut off and some with others after them, and
random ones. The other reading is `codec.py`, a module in Python, of the folder that GNB_OTHER_READING names. Where it isn't given, nothing is compared, and the
last line says so.

Usage: tools/random_pieces.py [--count N] [--seed S] [COMMAND ..]
"""

import argparse
import collections
import importlib.util
import itertools
import pathlib
import random
import subprocess
import sys

import other_reading
import random_modules

TOP = pathlib.Path(__file__).resolve().parents[1]
CRATE = TOP / "crates/decode_pieces"
# What the gate built, or else the sources, interpreted.
BUILT = CRATE / "out/decode_pieces"
PROGRAM = [BUILT] if BUILT.exists() else ["rt", "try"]


def codec():
    """The other reading, or None."""
    file = other_reading.other_file("codec.py")
    if file is None:
        return None
    found = importlib.util.spec_from_file_location("codec", file)
    made = importlib.util.module_from_spec(found)
    found.loader.exec_module(made)
    return made


def module_of(chance, other):
    """A random module's text that is read, and the module."""
    while True:
        text = random_modules.laid_out(chance, random_modules.Maker(chance).tokens()).encode()
        try:
            return text, other.read_module(text)[0]
        except other.ModuleError:
            pass


def grown(chance, other, module, name):
    """Octets that spell a value of the type, or nearly: what is wrong is drawn again from its first bit on."""
    octets = bytearray(chance.randbytes(chance.randint(0, 3)))
    for _ in range(chance.choice([10, 60, 250])):
        try:
            _, used = other.decode_front(module, name, bytes(octets))
            return bytes(octets[:used])
        except other.Refused as refused:
            if refused.reason == 1:
                octets.append(chance.choice([0, 0, 1, 2, 0x40, 0x80, 0xFF, chance.randrange(256)]))
            else:
                draw_again(chance, octets, refused.bit)
    return bytes(octets)


def draw_again(chance, octets, bit):
    """Draws an octet's bits again from this bit on, more often zeros, or the octet after it."""
    at = min(bit // 8 + chance.choice([0, 0, 1]), len(octets) - 1)
    mask = 0xFF >> (bit % 8) if at == bit // 8 else 0xFF
    octets[at] = octets[at] & ~mask & 0xFF | chance.choice([0, 1, chance.randrange(256), chance.randrange(256)]) & mask
    if chance.random() < 0.1:
        del octets[at + 1 :]


def spoilt(chance, octets):
    """The octets with bits changed, cut off, or with others after them, or as they are."""
    left = bytearray(octets)
    kind = chance.random()
    if kind < 0.35 and left:
        for _ in range(chance.randint(1, 3)):
            left[chance.randrange(len(left))] ^= 1 << chance.randrange(8)
    elif kind < 0.5:
        del left[chance.randint(0, len(left)) :]
    elif kind < 0.65:
        left += chance.randbytes(chance.randint(1, 3))
    elif kind < 0.7:
        left = bytearray(chance.randbytes(chance.randint(0, 12)))
    return bytes(left)


def cuts(chance, size):
    """How many octets each piece has; the last one has those that are left."""
    kind, pieces, left = chance.random(), [], size
    while left > 0 and len(pieces) < 40:
        piece = size if kind < 0.2 else 1 if kind < 0.6 else chance.randint(0, 5)
        pieces.append(min(piece, left))
        left -= pieces[-1]
    return [*pieces, left] + [chance.choice([0, 1])] * (chance.random() < 0.2)


def answers(other, module, name, octets, pieces):
    """What the other reading answers to each piece, at the end, and to all octets as a whole, on one line."""
    decoder, at, said = other.Decoder(module, name), 0, []
    for piece in pieces:
        try:
            said.append(" ".join(map(str, decoder.feed(octets[at : at + piece]))))
        except other.Refused as refused:
            said.append(told(refused))
        at += piece
    said = [one for answer, alike in itertools.groupby(said) for one in ([f"more {len(list(alike))}"] if answer == "more" else alike)]
    return "; ".join([*said, ended(other, decoder.finish)]) + " | " + ended(other, lambda: other.decode(module, name, octets))


def ended(other, call):
    """What a call answers that gives a value or a refusal."""
    try:
        call()
        return "value"
    except other.Refused as refused:
        return told(refused)


def told(refused):
    return f"wrong {refused.bit} {refused.reason} {refused.path}"


def cases(chance, other, count):
    """So many cases with what the other reading answers, and lines that name a module before those of its types."""
    made = []
    while len(made) < count:
        text, module = module_of(chance, other)
        for _ in range(min(chance.randint(3, 12), count - len(made))):
            name = chance.choice(list(module.types))
            octets = spoilt(chance, grown(chance, other, module, name))
            pieces = cuts(chance, len(octets))
            line = f"{name} {octets.hex().upper() or '-'} {','.join(map(str, pieces))}"
            made.append((text, line, answers(other, module, name, octets, pieces)))
    return made


def input_of(made):
    """The lines of all cases, each module's text before those of its types."""
    lines, last = [], None
    for text, line, _ in made:
        if text is not last:
            lines.append(f"module {text.hex().upper()}")
            last = text
        lines.append(line)
    return "\n".join([*lines, ""])


def main():
    asked = argparse.ArgumentParser(description=__doc__, formatter_class=argparse.RawDescriptionHelpFormatter)
    asked.add_argument("--count", type=int, default=300)
    asked.add_argument("--seed", type=int, default=1)
    asked.add_argument("command", nargs="*")
    given = asked.parse_args()
    other = codec()
    if other is None:
        print(f"{given.count} random octets in pieces are left out\n{other_reading.NOT_COMPARED}")
        return 0
    made = cases(random.Random(given.seed), other, given.count)
    ran = subprocess.run(given.command or PROGRAM, cwd=CRATE, input=input_of(made).encode(), stdout=subprocess.PIPE, stderr=subprocess.DEVNULL, check=False)
    ours = ran.stdout.decode().splitlines()
    if len(ours) != len(made):
        print(f"of {len(made)} cases {len(ours)} were answered")
        return 1
    outcomes = collections.Counter()
    for (text, line, theirs), said in zip(made, ours):
        if said != theirs:
            print(f"octets in pieces are decoded differently: {line}\n{text.decode()}\n-- ours: {said}\n-- theirs: {theirs}")
            return 1
        last = said.split(" | ")[0].split("; ")[-1].split()
        outcomes[f"wrong for {last[2]:>2}" if last[0] == "wrong" else last[0]] += 1
    print(f"{len(made)} random octets in pieces are decoded alike; at the end: {dict(sorted(outcomes.items()))}")
    return 0


if __name__ == "__main__":
    sys.exit(main())
