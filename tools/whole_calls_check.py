#!/usr/bin/env python3
"""Checks whole calls of the program (tools/whole_calls.py): what is printed, and the status, where a read gives and a write takes one octet, 16, or 4,096 at most.

Each read and each write of a call fails in turn. After a write that failed there is no further call, the status is 7, and what was printed is a front of what is printed
where none fails. After a read that failed there is no further read, and the status is 6: what the lines before it give is printed, and then `stop 6 TAKEN 0`, with the octets that were
taken before.

A C compiler makes the library that does so (tools/failing_calls.c); where there is none this is said, and the calls are compared in whole pieces alone. Nothing here is proved.

Usage: tools/whole_calls_check.py
"""

import argparse
import collections
import concurrent.futures
import os
import pathlib
import shutil
import subprocess
import sys
import tempfile

import program
from whole_calls import CALLS, LONG_CALLS, LONG_ENDS, PROFILES

PIECES = (1, 16, 4096)
READ_FAILED, WRITE_FAILED = 6, 7
# a module that is wrong, after whose `END` nothing is read
WRONG_MODULE = "module text\nM END\nEND\n"

# a child in which a call failed: the call's kind and number, the octets that were written before it, the child's status, its reads and writes from there on, and what it wrote
Child = collections.namedtuple("Child", "kind number before status reads writes output")


class Run:
    """A call of the program: its status and output, and with a report its children, its reads and its writes."""

    def __init__(self, words, given, library=None, piece=None, in_turn=False):
        with tempfile.TemporaryDirectory() as folder:
            path, report = pathlib.Path(folder, "given"), pathlib.Path(folder, "report")
            path.write_bytes(given.encode())
            around = dict(os.environ)
            if library:
                around.update(LD_PRELOAD=library, PIECE=str(piece))
            if in_turn:
                around["FAILING_CALLS"] = str(report)
            with path.open("rb") as source:
                ran = subprocess.run([*program.command(), *words.split()], stdin=source, capture_output=True, env=around, check=False)
            self.status, self.printed = ran.returncode, ran.stdout.decode(errors="replace")
            self.children, self.reads, self.writes = read_report(report.read_text()) if in_turn else ([], None, None)


def read_report(text):
    *lines, last = text.splitlines()
    _, reads, writes = last.split()
    children = []
    for line in lines:
        kind, *numbers, output = line.split()
        children.append(Child(kind, *map(int, numbers), "" if output == "-" else bytes.fromhex(output).decode(errors="replace")))
    return children, int(reads), int(writes)


def status_of(printed):
    """The status of a call, by the last line that it prints."""
    last = printed.splitlines()[-1] if printed else ""
    return int(last.split()[1]) if last.startswith("stop ") else 0


# ---- what is awaited where a call fails


def header_of(words):
    return "module builtin\n" if words == "run" else ""


def lines_of_events(words, given, printed):
    """Each event's line of a script with what it prints, where each line after the header is one; None of another call."""
    if words.split()[0] not in ("run", "um", "duplicate") or status_of(printed):
        return None
    header = header_of(words)
    events = printed[: printed.rindex("end ")].split("> ")[1:]
    lines = [event.split("\n", 1)[0] + "\n" for event in events]
    return list(zip(lines, events, strict=True)) if given in (header + "".join(lines), header + "".join(lines)[:-1]) else None


def front_of(call, taken):
    """What the lines among its first octets print, where that is known exactly: of a text that is judged nothing, until its verdict is known."""
    words, given, printed = call
    if words == "verify":
        return ""
    events = lines_of_events(words, given, printed)
    if events is None:
        return None
    end, front = len(header_of(words)), ""
    for line, event in events:
        end += len(line)
        front += f"> {event}" if end <= taken else ""
    return front


def wrong_read(call, piece, child):
    """What is wrong with a child in which a read failed."""
    words, given, printed = call
    taken = min(len(given), (child.number - 1) * piece)
    stop, written = f"stop {READ_FAILED} {taken} 0\n", printed[: child.before] + child.output
    if (child.status, child.reads) != (READ_FAILED, 0) or not written.endswith(stop):
        return f"status {child.status}, {child.reads} further reads, and at the end {written[-60:]!r}"
    front, awaited = written.removesuffix(stop), front_of(call, taken)
    is_front = printed.startswith(front) and (not front or front.endswith("\n")) if awaited is None else front == awaited
    return None if is_front else f"before the stop {front[-60:]!r} is printed"


def wrong_write(call, piece, child):
    """What is wrong with a child in which a write failed."""
    if child[3:] != (WRITE_FAILED, 0, 0, ""):
        return f"status {child.status}, {child.reads} reads and {child.writes} writes after it"
    is_one_text = piece == 1 or call in PROFILES
    if is_one_text and child.before != (child.number - 1) * piece:
        return f"{child.before} octets are written before it"
    return None


def awaited_reads(call, piece):
    """How many reads a call makes: none where nothing is read, and all of a script or transcript that is read to its end; None where that isn't fixed."""
    words, given, printed = call
    if status_of(printed) == 2 or words.split()[0] in ("profile", "generate"):
        return 0
    if given.startswith(WRONG_MODULE) and piece == 1:
        return len(WRONG_MODULE)
    is_judged_to_its_end = words == "verify" and (not status_of(printed) or printed.endswith(" 8\n"))
    return -(-len(given) // piece) + 1 if is_judged_to_its_end or lines_of_events(*call) else None


# ---- the calls


def differences(call, library, piece):
    """What is wrong with a call in pieces, where none fails and where each read and write fails; and how many failed."""
    words, given, printed = call
    ran, wrong = Run(words, given, library, piece, in_turn=True), []
    if (ran.status, ran.printed) != (status_of(printed), printed):
        wrong.append(f"status {ran.status}, {ran.printed[-200:]!r}")
    if awaited_reads(call, piece) not in (None, ran.reads):
        wrong.append(f"{ran.reads} reads")
    if piece == 1 and ran.writes != len(printed):
        wrong.append(f"{ran.writes} writes")
    for child in ran.children if not wrong else []:
        text = (wrong_read if child.kind == "read" else wrong_write)(call, piece, child)
        if text:
            wrong.append(f"{child.kind} {child.number} fails: {text}")
    return wrong, len(ran.children)


def plain_differences(call, library, is_end):
    """What is wrong with a call in which nothing fails, of which all that is printed is known, or the end."""
    words, given, printed = call
    ran = Run(words, given, library, 4096)
    is_printed = ran.printed.endswith(printed) if is_end else ran.printed == printed
    return [] if (ran.status, is_printed) == (status_of(printed), True) else [f"status {ran.status}, {ran.printed[-200:]!r}"]


def report(call, piece, wrong):
    words, given, _ = call
    for text in wrong[:3]:
        print(f"{words}, of an input that ends with {given[-40:]!r}, in pieces of {piece}: {text}")


def made_library(folder):
    compiler = shutil.which("cc")
    if compiler is None:
        print("no C compiler is here: no read and no write is made to fail")
        return None
    library = f"{folder}/failing_calls.so"
    subprocess.run([compiler, "-shared", "-fPIC", "-o", library, program.TOP / "tools/failing_calls.c", "-ldl"], check=True)
    return library


def check(library):
    """Checks all calls: how many are wrong, and how many reads and writes were made to fail."""
    with concurrent.futures.ThreadPoolExecutor(os.cpu_count()) as lanes:
        pieces = [(call, piece) for call in CALLS for piece in PIECES] if library else []
        whole = [(call, False) for call in [*LONG_CALLS, *([] if library else CALLS)]] + [(call, True) for call in LONG_ENDS]
        compared = [(call, piece, lanes.submit(differences, call, library, piece)) for call, piece in pieces]
        others = [(call, lanes.submit(plain_differences, call, library, is_end)) for call, is_end in whole]
        results = [(call, piece, *made.result()) for call, piece, made in compared]
        results += [(call, 4096, made.result(), 0) for call, made in others]
    for call, piece, wrong, _ in results:
        report(call, piece, wrong)
    return sum(bool(wrong) for _, _, wrong, _ in results), sum(failed for *_, failed in results)


def main():
    argparse.ArgumentParser(description=__doc__, formatter_class=argparse.RawDescriptionHelpFormatter).parse_args()
    program.prepare()
    with tempfile.TemporaryDirectory() as folder:
        wrong, failed = check(made_library(folder))
    if wrong:
        return 1
    print(f"{len(CALLS) + len(LONG_CALLS) + len(LONG_ENDS)} calls print what they should, also where one of {failed:,} reads and writes fails")
    return 0


if __name__ == "__main__":
    sys.exit(main())
