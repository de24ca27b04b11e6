#!/usr/bin/env python3
"""Measures `decode` and `encode` on lines of the profile's messages, at two sizes: processor time and its ratio between the sizes, lines a second, peak memory, and how many
times as fast as another reading of the specification the program is, where one is here, on the same lines.

The lines are the F1AP messages of the examples over and over, as octets, and as the JSON that the program makes of them. An input has 16 MiB at most, so many lines are given in
several calls; their times are added, and the peak is that of the greatest. The program is run several times, and the least of its times is printed; the other reading once.

Nothing here is proved, and a measurement is one of this machine at this time: other work on it shows.

Usage: tools/bench_values.py [--small N] [--large N] [--runs N] [--program COMMAND] [--other COMMAND]
"""

import argparse
import itertools
import pathlib
import shlex
import shutil
import sys
import tempfile

import bench
import other_reading
import random_values

TYPE = "F1AP-PDU"
HEADER = "module builtin\n"
LARGEST_INPUT = 16_777_216


def inputs(lines):
    """The lines as inputs of at most 16 MiB."""
    text, left = [HEADER], LARGEST_INPUT - len(HEADER)
    for line in lines:
        if len(line) + 1 > left:
            yield "".join(text)
            text, left = [HEADER], LARGEST_INPUT - len(HEADER)
        text.append(line + "\n")
        left -= len(line) + 1
    yield "".join(text)


def run(command, word, lines, folder):
    """The seconds and the peak memory of all calls with these lines, and what they print."""
    seconds, peak, printed = 0.0, 0, []
    given, taken = folder / "given", folder / "taken"
    for text in inputs(lines):
        given.write_text(text)
        status, took, memory = bench.measure([*command, word, TYPE], given, taken)
        if status:
            raise bench.Unmeasured(f"{word} ended with status {status}")
        seconds, peak = seconds + took, max(peak, memory)
        printed += taken.read_text().splitlines()
    return seconds, peak, printed


def is_message(program, octets, folder):
    try:
        run(program, "decode", [octets.hex().upper()], folder)
    except bench.Unmeasured:
        return False
    return True


def repeated(lines, count):
    return list(itertools.islice(itertools.cycle(lines), count))


def least(runs, command, word, lines, folder):
    """The least seconds of so many runs, the most memory, and what they print."""
    by_turns = [run(command, word, lines, folder) for _ in range(runs)]
    return min(it[0] for it in by_turns), max(it[1] for it in by_turns), by_turns[0][2]


def compared(other, word, lines, printed, folder):
    """The seconds of the other reading for these lines, where one is here; it prints the same."""
    if not other:
        return None
    seconds, _, text = run(other, word, lines, folder)
    if text != printed:
        raise bench.Unmeasured(f"{word}: the other reading prints something else")
    return seconds


def row_of(word, lines, first, asked, folder):
    """A row of the table, and its seconds. The second size has the ratio of its time to the first one's."""
    (program, other), runs = asked
    seconds, peak, printed = least(runs, program, word, lines, folder)
    theirs = compared(other, word, lines, printed, folder)
    rate = f"{len(lines) / seconds:,.0f}" if seconds else "-"
    ratio = f"{seconds / first:.2f}" if first else "-"
    faster = f"{theirs:.3f} | {theirs / seconds:.0f}" if theirs and seconds else "- | -"
    return seconds, f"| {word} | {len(lines)} | {seconds:.3f} | {ratio} | {rate} | {peak / bench.MEBIBYTE:.1f} | {faster} |"


def print_table(asked, sizes, folder):
    (program, _), _ = asked
    messages = sorted({it for it in random_values.messages() if is_message(program, it, folder)})
    if not messages:
        raise bench.Unmeasured(f"the examples have no message that decodes as {TYPE}")
    octets = [it.hex().upper() for it in messages]
    _, _, shown = run(program, "decode", octets, folder)
    print(f"| Word | Lines | Seconds | Times the smaller size's (size: {sizes[1] / sizes[0]:.2f}) | Lines a second | Peak MiB | The other reading, seconds | Times as fast |")
    print("|---|---|---|---|---|---|---|---|", flush=True)
    for word, lines in (("decode", octets), ("encode", shown)):
        first = None
        for size in sizes:
            first, row = row_of(word, repeated(lines, size), first, asked, folder)
            print(row, flush=True)


def main():
    asked = argparse.ArgumentParser(description=__doc__, formatter_class=argparse.RawDescriptionHelpFormatter)
    asked.add_argument("--small", type=int, default=25_000)
    asked.add_argument("--large", type=int, default=100_000)
    asked.add_argument("--runs", type=int, default=5, help="how often the program is run")
    asked.add_argument("--program", default=str(bench.PROGRAM), help="the command that is measured")
    asked.add_argument("--other", default=other_reading.other_command(), help="the other reading; '' for none")
    given = asked.parse_args()
    if not 1 <= given.small < given.large:
        asked.error("the sizes are two numbers from 1 on, the smaller one first")
    if given.runs < 1:
        asked.error("the program is run at least once")
    program = shlex.split(given.program)
    if not program or shutil.which(program[0]) is None:
        print(f"bench_values: '{given.program}' is no program that can be run; `rt ci` builds the one that is measured", file=sys.stderr)
        return bench.USAGE
    with tempfile.TemporaryDirectory() as folder:
        try:
            print_table(((program, shlex.split(given.other)), given.runs), (given.small, given.large), pathlib.Path(folder))
        except bench.Unmeasured as why:
            print(f"bench_values: {why}", file=sys.stderr)
            return 1
    return 0


if __name__ == "__main__":
    sys.exit(main())
