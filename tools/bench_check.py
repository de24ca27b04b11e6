#!/usr/bin/env python3
"""Checks tools/bench.py on a small program in place of ours: one that copies its input for `run`, fails for `generate`, and has no other word; and
tools/bench_up.py and tools/bench_codec.py on ones that do nothing, or fail. Of the program itself it looks at the ratios of tools/bench.py, on sizes ten times smaller: no
word may take three times as long for twice as much.

Nothing here is a proof, and no other time is judged.

Usage: tools/bench_check.py
"""

import pathlib
import re
import shlex
import sys
import tempfile

import bench
import program
import stories

PROGRAM = """#!/bin/sh
case $1 in
run) cat ;;
generate) exit 4 ;;
*) exit 2 ;;
esac
"""
# the other program prints something else
OTHER = PROGRAM.replace("cat", "tail -n 1")
NUMBER = r"[0-9]+\.[0-9]+"
# processor time is counted in ticks of the system, so a short call may have none
RATIO = rf"({NUMBER}|-)"
MEASURED = rf"{NUMBER} \| {NUMBER} \| {NUMBER} \| {NUMBER}"
FASTER = r"([0-9]+|-) \(on 8, prints something else\)"
EMPTY = r"  \|" * 7
ROWS = [
    r"\| Word \| Size \| Seconds .*\| Times as fast as another reading \| Erlang, seconds \|",
    r"\|(---\|){10}",
    rf"\| run \| 18 packets \| {NUMBER} \| - \| {MEASURED} \|  \| - \|",
    rf"\| run \| 36 packets \| {NUMBER} \| {RATIO} \| {MEASURED} \| {FASTER} \| - \|",
    rf"\| run, control \| 100 messages \| {NUMBER} \| - \| {MEASURED} \|  \| - \|",
    rf"\| run, control \| 200 messages \| {NUMBER} \| {RATIO} \| {MEASURED} \| {FASTER} \| - \|",
    *[rf"\| generate \| {size} packets \| ended with status 4 \|{EMPTY}" for size in (10, 20)],
    *[rf"\| encode \| {size} values \| isn't a word of it \|{EMPTY}" for size in (10, 20)],
    *[rf"\| decode \| {size} values \| needs encode, which isn't a word of it \|{EMPTY}" for size in (10, 20)],
    *[rf"\| verify \| {size} packets \| isn't a word of it \|{EMPTY}" for size in (8, 16)],
    *[rf"\| verify, control \| {size} messages \| isn't a word of it \|{EMPTY}" for size in (12, 25)],
    *[rf"\| verify, both \| {size} packets \| isn't a word of it \|{EMPTY}" for size in (8, 16)],
]


def check_table(folder):
    program, other = folder / "program", folder / "other"
    for path, text in ((program, PROGRAM), (other, OTHER)):
        path.write_text(text)
        path.chmod(0o755)
    ran = stories.run_tool("bench", "--part", "5000", "--program", str(program), "--other", str(other))
    assert ran.returncode == 0, ran.stderr
    lines = ran.stdout.splitlines()
    for line, awaited in zip(lines, ROWS, strict=True):
        assert re.fullmatch(awaited, line), f"{line!r} isn't {awaited!r}"


def check_wrong(folder):
    ran = stories.run_tool("bench", "--program", str(folder / "none"))
    said = f"bench: '{folder / 'none'}' is no program that can be run; `rt ci` builds the one that is measured\n"
    assert (ran.returncode, ran.stdout, ran.stderr) == (2, "", said), ran.stderr
    ran = stories.run_tool("bench", "--part", "0")
    assert (ran.returncode, ran.stdout, ran.stderr) == (2, "", "bench: --part is a number from 1 to 10000, and it is 0\n"), ran.stderr


UP_ROWS = [
    r"\| Packets each way \| Seconds .*\| Packets a second \| Peak MiB \|",
    r"\|(---\|){5}",
    rf"\| 10 \| {NUMBER} \| - \| ([0-9,]+|-) \| {NUMBER} \|",
    rf"\| 40 \| {NUMBER} \| ({NUMBER}|-) \| ([0-9,]+|-) \| {NUMBER} \|",
]


def check_up(folder):
    program = folder / "tests"
    program.write_text('#!/bin/sh\n[ "$1" = packets::carries_packets ] && [ "$PACKETS" -ne 41 ]\n')
    program.chmod(0o755)
    ran = stories.run_tool("bench_up", "--small", "10", "--large", "40", "--program", str(program))
    assert ran.returncode == 0, ran.stderr
    for line, awaited in zip(ran.stdout.splitlines(), UP_ROWS, strict=True):
        assert re.fullmatch(awaited, line), f"{line!r} isn't {awaited!r}"
    ran = stories.run_tool("bench_up", "--small", "10", "--large", "41", "--program", str(program))
    assert (ran.returncode, ran.stderr) == (2, "bench_up: with 41 packets the test ended with status 1\n"), ran.stderr
    ran = stories.run_tool("bench_up", "--program", str(folder / "none"))
    said = f"bench_up: '{folder / 'none'}' is no program that can be run; 'rt test' in crates/tests_cu_up builds the one that is measured\n"
    assert (ran.returncode, ran.stdout, ran.stderr) == (2, "", said), ran.stderr


CODEC_ROWS = [
    r"\| Calls \| Values \| Seconds: the least \| The middle \| .*\| Values a second \| Peak MiB \| Erlang, seconds: the least \| The middle \|",
    r"\|(---\|){9}",
    *[
        rf"\| {word} \| {size} \| {NUMBER} \| {NUMBER} \| ({NUMBER}|-) \| ([0-9,]+|-) \| {NUMBER} \| ({NUMBER}|-) \| ({NUMBER}|-) \|"
        for word in ("decode", "encode")
        for size in (8, 32)
    ],
]


def check_codec(folder):
    program = folder / "codec"
    program.write_text('#!/bin/sh\n[ "$1" = values::codec::reads_values ] || [ "$1" = values::codec::writes_values ] && [ "$VALUES" -ne 40 ]\n')
    program.chmod(0o755)
    ran = stories.run_tool("bench_codec", "--small", "8", "--large", "32", "--runs", "2", "--program", str(program))
    assert ran.returncode == 0, ran.stderr
    for line, awaited in zip(ran.stdout.splitlines(), CODEC_ROWS, strict=True):
        assert re.fullmatch(awaited, line), f"{line!r} isn't {awaited!r}"
    ran = stories.run_tool("bench_codec", "--runs", "0", "--program", str(program))
    assert (ran.returncode, ran.stdout) == (2, "") and ran.stderr.endswith("error: each is run at least once\n"), ran.stderr
    ran = stories.run_tool("bench_codec", "--small", "8", "--large", "40", "--program", str(program))
    assert (ran.returncode, ran.stderr) == (1, "bench_codec: decode of 40 values: the test ended with status 1\n"), ran.stderr


# what grows as the size does takes twice as long for twice as much, and what grows as its square does four times; the least of so many measurements is looked at
GREATEST_RATIO, MEASUREMENTS = 3, 3


def ratios():
    """How many times as long the program takes for twice as much, by what is measured."""
    ran = stories.run_tool("bench", "--part", "10", "--program", shlex.join(program.command()), "--other", "")
    assert ran.returncode == 0, ran.stderr
    rows = [[cell.strip() for cell in line.split("|")[1:-1]] for line in ran.stdout.splitlines()[2:]]
    assert len(rows) == 2 * len(bench.ROWS) and all(len(cells) == 10 for cells in rows), ran.stdout
    return {cells[0]: float(cells[3]) for cells in rows[1::2]}


def check_ratios():
    program.prepare()
    least = ratios()
    for _ in range(MEASUREMENTS - 1):
        if max(least.values()) >= GREATEST_RATIO:
            least = {name: min(ratio, least[name]) for name, ratio in ratios().items()}
    wrong = {name: ratio for name, ratio in least.items() if ratio >= GREATEST_RATIO}
    assert not wrong, f"for twice as much the program takes so many times as long, by word: {wrong}"


def main():
    check_ratios()
    with tempfile.TemporaryDirectory() as folder:
        check_table(pathlib.Path(folder))
        check_wrong(pathlib.Path(folder))
        check_up(pathlib.Path(folder))
        check_codec(pathlib.Path(folder))
    print(f"the tables of measurements have their rows, and no word takes {GREATEST_RATIO} times as long for twice as much")


if __name__ == "__main__":
    sys.exit(main())
