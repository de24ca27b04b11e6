#!/usr/bin/env python3
"""Texts of modules that are large in one way each, and the time and memory that `check` takes for them.

Each kind makes one thing as large as a text allows: a chain of sets between two loops, types one inside another, sets, ids of a set, names of types,
members and enumeration items, references in a chain, and types that refer to the last one. At most the input's limit of 16 MiB is a text that the
program reads. With --write a text is printed; else the kinds are measured at the sizes given, in KiB.

Nothing here is proved, and a measurement is one of this machine at this time: other work on it shows.

Usage: tools/slow_modules.py [--write KIND] [--program COMMAND] [KIB ..]
"""

import argparse
import itertools
import pathlib
import shlex
import sys
import tempfile
import time

import bench

SIZES = (1024, 4096, 16000)
KIB = 1024
# as many as the bounds of modules allow
TYPES, IDS, CODES, ROOT, ADDITIONS = 1000, 65536, 256, 256, 64


def module(parts):
    return "module text\nM DEFINITIONS AUTOMATIC TAGS ::= BEGIN\n" + "".join(parts) + "END\n"


def upto(size, part):
    """The parts by their numbers, as many as fit in so many octets."""
    parts, octets = [], 0
    for number in itertools.count():
        new = part(number)
        octets += len(new)
        if octets > size:
            return parts
        parts.append(new)


def row(number, what):
    return f"{{ID {number} CRITICALITY ignore TYPE {what} PRESENCE optional}}"


def one_set(name, *rows):
    return f"{name} PROTOCOL-IES ::= {{{'|'.join(rows)}, ...}}\n"


def chain(size):
    """Sets in a chain between two loops, the last one first."""
    links = upto(size, lambda n: one_set(f"S{n + 1}", row(0, f"ProtocolIE-Container {{{{S{n}}}}}")))
    loops = f"X ::= SEQUENCE {{a X, b ProtocolIE-Container {{{{S{len(links)}}}}}}}\nY ::= SEQUENCE {{a Y}}\n"
    return module([*reversed(links), one_set("S0", row(0, "Y")), loops])


def lists(size):
    """SEQUENCE OF in SEQUENCE OF."""
    return module(["T ::= ", "SEQUENCE OF " * (size // 12), "BOOLEAN\n"])


def braces(size):
    """SEQUENCE in SEQUENCE."""
    depth = size // 13
    return module(["T ::= ", "SEQUENCE {a " * depth, "BOOLEAN", "}" * depth, "\n"])


def sets(size):
    """Sets of one row."""
    return module(upto(size, lambda n: one_set(f"S{n}", row(0, "BOOLEAN"))))


def ids(size):
    """Sets of all ids that there are, the greatest first."""
    rows = [row(number, "BOOLEAN") for number in reversed(range(IDS))]
    each = len(one_set("S0", *rows))
    whole = [one_set(f"S{n}", *rows) for n in range(size // each)]
    left = (size - sum(map(len, whole))) // len(rows[0])
    return module([*whole, one_set("S", *rows[:max(left, 1)])])


def codes(size):
    """Sets of all codes that there are."""
    def one(name):
        rows = (f"{{INITIATING MESSAGE BOOLEAN PROCEDURE CODE {number} CRITICALITY ignore}}" for number in range(CODES))
        return f"{name} ELEMENTARY-PROCEDURE ::= {{{'|'.join(rows)}, ...}}\n"
    return module(upto(size, lambda n: one(f"S{n}")))


def listed(word, what, number):
    """A type with as many names as there may be."""
    names = [f"a{n:x}{what}" for n in range(ROOT)] + ["..."] + [f"b{n:x}{what}" for n in range(ADDITIONS)]
    return f"{word} {{{','.join(names)}}}"


def items(size):
    """Sets of full enumerations."""
    return module(upto(size, lambda n: one_set(f"S{n}", row(0, listed("ENUMERATED", "", n)))))


def members(size):
    """Sets of full SEQUENCEs."""
    return module(upto(size, lambda n: one_set(f"S{n}", row(0, listed("SEQUENCE", " T", n)))) + ["T ::= BOOLEAN\n"])


def references(size):
    """References in a chain, the last one first, with sets of references to its beginning."""
    types = [f"T{n + 1} ::= T{n}\n" for n in range(TYPES - 1)]
    more = upto(size - sum(map(len, types)), lambda n: one_set(f"S{n}", row(0, f"T{TYPES - 1}")))
    return module([*reversed(types), "T0 ::= BOOLEAN\n", *more])


def last(size):
    """Sets that refer to the one after them."""
    links = upto(size, lambda n: one_set(f"S{n}", row(0, f"SEQUENCE {{a ProtocolIE-Container {{{{S{n + 1}}}}}}}")))
    return module([*links, one_set(f"S{len(links)}", row(0, "BOOLEAN"))])


def first(size):
    """Sets that refer to the one before them."""
    links = upto(size, lambda n: one_set(f"S{n + 1}", row(0, f"ProtocolIE-Container {{{{S{n}}}}}")))
    return module([one_set("S0", row(0, "BOOLEAN")), *links])


def unfinished(size):
    """A type that doesn't end."""
    return module(["T ::= ", "SEQUENCE {a CHOICE {b " * (size // 22)])


def comments(size):
    """Comments alone."""
    return module(["-- a\n" * (size // 5)])


KINDS = {kind.__name__: kind for kind in (chain, lists, braces, sets, ids, codes, items, members, references, last, first, unfinished, comments)}


def measured(command, text, folder):
    given, taken = folder / "given", folder / "taken"
    given.write_text(text)
    begin = time.monotonic()
    status, seconds, peak = bench.measure([*command, "check"], given, taken)
    return f"{status} | {seconds:.2f} | {time.monotonic() - begin:.2f} | {peak / bench.MEBIBYTE:.0f}"


def main():
    asked = argparse.ArgumentParser(description=__doc__, formatter_class=argparse.RawDescriptionHelpFormatter)
    asked.add_argument("--write", choices=KINDS)
    asked.add_argument("--only", choices=KINDS, action="append")
    asked.add_argument("--program", type=shlex.split, default=[str(bench.PROGRAM)])
    asked.add_argument("sizes", nargs="*", type=int, default=SIZES)
    given = asked.parse_args()
    if given.write:
        sys.stdout.write(KINDS[given.write](given.sizes[0] * KIB))
        return 0
    print("| Text | KiB | Status | Processor seconds | Seconds | Peak MiB |\n|---|---|---|---|---|---|")
    with tempfile.TemporaryDirectory() as folder:
        for name in given.only or KINDS:
            for size in given.sizes:
                text = KINDS[name](size * KIB)
                print(f"| {name}: {KINDS[name].__doc__} | {len(text) // KIB} | {measured(given.program, text, pathlib.Path(folder))} |", flush=True)
    return 0


if __name__ == "__main__":
    sys.exit(main())
