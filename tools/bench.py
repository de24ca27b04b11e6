#!/usr/bin/env python3
"""Measures the words of the program at two sizes each, of which the larger one is twice the smaller: processor time and its ratio between the sizes, and peak memory. Beside that
stands what others take: `cat` to write the same bytes, and `awk` to read and write the same lines; another reading of the specification, where one is here; and Erlang's asn1,
where it is installed.

| Row | What a size counts |
|---|---|
| `run` | packets of a static downlink bearer, each offered, sent, carried, confirmed, and its delivery status got |
| `run`, control | control messages: those of `start`, put again at each tick |
| `generate` | its number |
| `encode` | values of a module of plain types, as JSON |
| `decode` | the same values, as octets |
| `verify` | packets, as in the first row, whose transcript is judged |
| `verify`, control | control messages that are put: those of `start` are given again and again, and each is answered |
| `verify`, both | packets, before which five times as many control messages are put: half of the bytes each |

The other reading is measured on fewer (a row says on how many), and told as how many times as fast the program is on these; where it prints something else this is said. Of Erlang the
calls alone are measured: it reads no JSON and prints nothing. A word that the program doesn't have is said so.

Nothing here is proved, and a measurement is one of this machine at this time: other work on it shows.

Usage: tools/bench.py [--part K] [--program COMMAND] [--other COMMAND]      (--part K: the sizes are so many times smaller)
"""

import dataclasses
import json
import os
import pathlib
import shlex
import shutil
import subprocess
import sys
import tempfile
import time
import typing

import other_reading
import transcripts

PROGRAM = other_reading.TOP / "crates/scenario_cli/out/scenario_cli"
MODULE = """M DEFINITIONS AUTOMATIC TAGS ::= BEGIN
T ::= SEQUENCE {number INTEGER (0..4294967295), flag BOOLEAN, kind ENUMERATED {a, b, c}, octets OCTET STRING,
  list SEQUENCE (SIZE (1..8)) OF INTEGER (0..255), name PrintableString (SIZE (1..150, ...)) OPTIONAL, ...}
END
"""
ERLANG = pathlib.Path(__file__).resolve().with_name("bench_asn1.escript")
USAGE = 2
MEBIBYTE = 1024  # in KiB
# `start` puts a message of each CU-UP and DU, and each tick puts them again
STARTED = 8
# so many times fewer for the other reading than for the program
FEWER = 50
LARGEST_PART = 10_000


class Unmeasured(Exception):
    """Why there is no measurement."""


def high_water(process):
    """The peak memory of a process so far in KiB, 0 where it has ended."""
    try:
        lines = pathlib.Path(f"/proc/{process}/status").read_text().splitlines()
    except OSError:
        return 0
    return next((int(line.split()[1]) for line in lines if line.startswith("VmHWM:")), 0)


def measure(command, given, taken):
    """Runs a command with a file as its input, and another one for its output: its status, processor seconds, and peak memory in KiB.

    The peak is asked for while it runs: what the system says at its end is at least what this program itself needs, which counts until the command begins."""
    source = os.open(given, os.O_RDONLY)
    sink = os.open(taken, os.O_WRONLY | os.O_CREAT | os.O_TRUNC)
    quiet = os.open(os.devnull, os.O_WRONLY)
    try:
        actions = [(os.POSIX_SPAWN_DUP2, source, 0), (os.POSIX_SPAWN_DUP2, sink, 1), (os.POSIX_SPAWN_DUP2, quiet, 2)]
        process = os.posix_spawnp(command[0], command, os.environ, file_actions=actions)
        ended, peak = 0, 0
        while not ended:
            peak = max(peak, high_water(process))
            time.sleep(0.002)
            ended, status, usage = os.wait4(process, os.WNOHANG)
    finally:
        for handle in (source, sink, quiet):
            os.close(handle)
    return os.waitstatus_to_exitcode(status), usage.ru_utime + usage.ru_stime, peak or usage.ru_maxrss


# ---- inputs


@dataclasses.dataclass(frozen=True)
class Call:
    """A call: its words, and the file of its input."""

    words: list
    given: pathlib.Path


@dataclasses.dataclass(frozen=True)
class Row:
    """What is measured: its name, what a size counts, the larger size, and the call of a size."""

    name: str
    unit: str
    size: int
    call: typing.Callable


def written(path, lines):
    path.write_text("\n".join(lines) + "\n")
    return path


def of_packets(size):
    """The events of so many packets, each taken to the terminal and confirmed to the CU-UP."""
    events = ["static u1 A 1 1 12 1 4096"]
    for number in range(size):
        events += [f"offer u1 b1 dl {number:08X}", "get A.up1/1", "get A.du1/1", "air u1 b1 dl", "ack u1 b1 dl", "get A.up1/2"]
    return events


def packets(size, folder, _):
    """A script of so many packets."""
    return Call(["run"], written(folder / "packets", ["module builtin", *of_packets(size)]))


def messages(size, folder, _):
    """A script that puts so many control messages."""
    return Call(["run"], written(folder / "messages", ["module builtin", "start", *["tick"] * (size // STARTED - 1)]))


def generated(size, folder, _):
    return Call(["generate", str(size)], written(folder / "nothing", []))


def value_of(number):
    """A value of the plain module as JSON."""
    value = {"number": number * 40503 % 2**32, "flag": number % 2 == 0, "kind": "abc"[number % 3], "octets": f"{number:016X}" * (1 + number % 4),
             "list": [number % 256] * (1 + number % 8), "name": f"value {number}"}
    return json.dumps(value if number % 5 else value | {"name": "Z"}, separators=(",", ":"))


def values(size, folder, _):
    return Call(["encode", "T"], written(folder / "values", ["module text", MODULE.strip(), *map(value_of, range(size))]))


def octets(size, folder, program):
    """What the program's `encode` prints of the values."""
    call, taken = values(size, folder, program), folder / "encoded"
    status, _, _ = measure([*program, *call.words], call.given, taken)
    if status:
        raise Unmeasured("needs encode, which isn't a word of it" if status == USAGE else f"encode ended with status {status}")
    return Call(["decode", "T"], written(folder / "octets", ["module text", MODULE.strip(), *taken.read_text().splitlines()]))


def answered(size):
    """Events in which so many control messages are put: the first ones are given again and again, and each is answered."""
    return ["start", *(f"give #{1 + number % STARTED}" for number in range(size - STARTED))]


def transcript(events, folder, program):
    """The transcript that the program prints of these events, to be judged."""
    taken = folder / "judged"
    status, _, _ = measure([*program, "run"], written(folder / "events", ["module builtin", *events]), taken)
    if status:
        raise Unmeasured("needs run, which isn't a word of it" if status == USAGE else f"run ended with status {status}")
    return Call(["verify"], taken)


def judged_packets(size, folder, program):
    return transcript(of_packets(size), folder, program)


def judged_messages(size, folder, program):
    return transcript(answered(size), folder, program)


def judged_both(size, folder, program):
    return transcript([*answered(max(5 * size, STARTED)), *of_packets(size)], folder, program)


# scripts and inputs of the larger sizes are just below 16 MiB
ROWS = (
    Row("run", "packets", 180_000, packets),
    Row("run, control", "messages", 1_000_000, messages),
    Row("generate", "packets", 100_000, generated),
    Row("encode", "values", 100_000, values),
    Row("decode", "values", 100_000, octets),
    Row("verify", "packets", 26_000, judged_packets),
    Row("verify, control", "messages", 125_000, judged_messages),
    Row("verify, both", "packets", 13_000, judged_both),
)

# ---- measurements


def measured(command, call, taken):
    status, seconds, memory = measure([*command, *call.words], call.given, taken)
    if status:
        raise Unmeasured("isn't a word of it" if status == USAGE else f"ended with status {status}")
    return seconds, memory


def copied(call, taken, copy):
    """The seconds that `cat` takes to write an output, and that `awk` takes to read the lines of an input and write those of the output."""
    _, writing, _ = measure(["cat"], taken, copy)
    _, reading_lines, _ = measure(["awk", "END { print NR }"], call.given, copy)
    _, writing_lines, _ = measure(["awk", "{ print }"], taken, copy)
    return writing, reading_lines + writing_lines


def erlang(row, size, folder, program):
    """The seconds of Erlang's asn1, where it is installed and has such calls."""
    if row.name not in ("encode", "decode") or shutil.which("escript") is None:
        return "-"
    (folder / "M.asn1").write_text(MODULE)
    lines = octets(size, folder, program).given.read_text().splitlines()
    written(folder / "hex", lines[lines.index("END") + 1 :])
    ran = subprocess.run(["escript", ERLANG, folder, row.name, folder / "hex"], capture_output=True, text=True, check=False)
    return f"{float(ran.stdout):.3f}" if ran.returncode == 0 else "failed"


def times_as_fast(row, size, folder, commands):
    """How many times as fast as the other reading the program is, on fewer; and whether both print the same."""
    program, other = commands
    if not other:
        return "-"
    call, ours, theirs = row.call(size, folder, program), folder / "ours", folder / "theirs"
    seconds, _ = measured(program, call, ours)
    _, their_seconds, _ = measure([*other, *call.words], call.given, theirs)
    alike = "" if theirs.read_bytes() == ours.read_bytes() else ", prints something else"
    return f"{their_seconds / seconds:.0f} (on {size}{alike})" if seconds else f"- (on {size}{alike})"


def cells_of(row, size, first, folder, commands):
    """The seconds of a row, and its cells after the name."""
    program, _ = commands
    taken = folder / "taken"
    call = row.call(size, folder, program)
    seconds, memory = measured(program, call, taken)
    writing, lines = copied(call, taken, folder / "copy")
    ratio = f"{seconds / first:.2f}" if first else "-"
    faster = "" if first is None else times_as_fast(row, max(size // FEWER, STARTED), folder, commands)
    written_size = taken.stat().st_size / 1024 / MEBIBYTE
    return seconds, [f"{seconds:.3f}", ratio, f"{memory / MEBIBYTE:.1f}", f"{written_size:.1f}", f"{writing:.3f}", f"{lines:.3f}", faster, erlang(row, size, folder, program)]


HEADS = ("Word", "Size", "Seconds", "Times the smaller size's", "Peak MiB", "Output MiB", "Its bytes alone, seconds", "Its lines alone, seconds", "Times as fast as another reading",
         "Erlang, seconds")


def table(part, folder, commands):
    yield "| " + " | ".join(HEADS) + " |"
    yield "|" + "---|" * len(HEADS)
    for row in ROWS:
        first = None
        for size in (max(row.size // part // 2, STARTED), max(row.size // part, 2 * STARTED)):
            try:
                first, cells = cells_of(row, size, first, folder, commands)
            except Unmeasured as why:
                first, cells = None, [str(why)] + [""] * (len(HEADS) - 3)
            yield f"| {row.name} | {size:,} {row.unit} | " + " | ".join(cells) + " |"


def main():
    asked = transcripts.Asked(__doc__)
    asked.add_argument("--part", type=int, default=1)
    asked.add_argument("--program", default=str(PROGRAM), help="the command that is measured")
    asked.add_argument("--other", default=other_reading.other_command(), help="the other reading; '' for none")
    given = asked.parse_args()
    if not 1 <= given.part <= LARGEST_PART:
        asked.error(f"--part is a number from 1 to {LARGEST_PART}, and it is {given.part}")
    program = shlex.split(given.program)
    if not program or shutil.which(program[0]) is None:
        print(f"bench: '{given.program}' is no program that can be run; `rt ci` builds the one that is measured", file=sys.stderr)
        return USAGE
    with tempfile.TemporaryDirectory() as folder:
        for line in table(given.part, pathlib.Path(folder), (program, shlex.split(given.other))):
            print(line, flush=True)
    return 0


if __name__ == "__main__":
    sys.exit(main())
