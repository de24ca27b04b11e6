#!/usr/bin/env python3
"""Lets each request for memory fail in turn: of the program, in each example that has an input (tools/examples.py), in each call of `encode` and `decode` that
tools/whole_calls.py has a row of, and in three of `verify`, of which each asks a thousand times and more; or, where crates of tests are named, of each of their tests.

Every run of the program must end with status 9 and a front of what is printed where none fails; or, where it can do without what it asked for, as where none fails. Every test must pass: those of tests_cu_up, tests_du_node and
tests_cu_control do where the step in which memory ran out answers that and nothing else, a later step answers it too, and another unit then does the steps as
they should be; so do those of tests_transactions, of a call. Tests of other crates mostly fail where memory runs out.

A C compiler makes the library that lets a request fail; where there is none this is said, and the check passes. Nothing of this is proved.

Usage: tools/failing_allocations.py [--rows | CRATE..]
    --rows: the rows alone.
"""

import os
import pathlib
import shutil
import subprocess
import sys
import tempfile

from suite import call_of, is_input
from whole_calls import CONFIRM, HANDOVER, TRANSCRIPT, VALUES, sound, unsound

# what judges control messages asks for its memory first
VERIFIED = [sound(TRANSCRIPT), sound(HANDOVER), ("verify", CONFIRM[:-1] + "00\nend 1\n", unsound(2, 7))]
TOP = pathlib.Path(__file__).resolve().parents[1]
PROGRAM = TOP / "crates/scenario_cli/out/scenario_cli"
USAGE = 2
# a test that can be as long as one likes is short here
PACKETS = "3"


def answer(library, words, given, number):
    around = dict(os.environ, LD_PRELOAD=library, FAILING_ALLOCATION=str(number), PACKETS=PACKETS)
    ran = subprocess.run(words, input=given, capture_output=True, env=around, check=False)
    return ran.returncode, ran.stdout, ran.stderr


# ---- the program


def examples():
    """The examples' calls of the program: a name, the words, and the input."""
    for path in sorted(path for path in (TOP / "examples").iterdir() if is_input(path)):
        yield path.name, *call_of(path)


def rows():
    """The calls of `encode` and `decode` that tools/whole_calls.py has a row of, and those of `verify`."""
    for number, (words, given, _) in enumerate([*VALUES, *VERIFIED], 1):
        yield f"row {number}, {words}", words.split(), given.encode()


def each_fails(library, name, words, given):
    command = [PROGRAM, *words]
    status, transcript, said = answer(library, command, given, 0)
    requests = int(said.splitlines()[-1])
    if status == 9 or requests == 0:
        return f"status {status} with {requests} requests, where none fails"
    needless = 0
    for number in range(1, requests + 1):
        ended, front, _ = answer(library, command, given, number)
        if (ended, front) == (status, transcript):
            needless += 1
        elif ended != 9 or not transcript.startswith(front):
            return f"request {number} failed: status {ended}, {len(front)} octets"
    print(f"{name}: each of {requests} requests failed in turn, {requests - needless} with status 9 and a front of what is printed, {needless} as if none failed")
    return None


def calls_fail(library, calls):
    subprocess.run([TOP / "gnb", "run"], input=b"module builtin\n", stdout=subprocess.DEVNULL, check=True)
    for name, words, given in calls:
        wrong = each_fails(library, name, words, given)
        if wrong:
            print(f"{name}: {wrong}")
            return 1
    return 0


# ---- tests


def tests_of(crate):
    """The program that has a crate's tests."""
    return TOP / "crates" / crate / "out" / f"{crate}_tests"


def each_passes(library, program, test):
    status, _, said = answer(library, [program, test], b"", 0)
    if status:
        return f"status {status}, where no request fails"
    requests = int(said.splitlines()[-1])
    for number in range(1, requests + 1):
        status, _, said = answer(library, [program, test], b"", number)
        if status:
            return f"request {number} failed: status {status}, {said.decode(errors='replace').partition(chr(10))[0]}"
    print(f"{test}: passes, whichever of {requests} requests fails")
    return None


def tests_pass(library, crate):
    program = tests_of(crate)
    listed = subprocess.run([program, "--list"], capture_output=True, text=True, check=True).stdout.splitlines()
    for test in [line.removesuffix(": test") for line in listed if line.endswith(": test")]:
        wrong = each_passes(library, program, test)
        if wrong:
            print(f"{crate}, {test}: {wrong}")
            return 1
    return 0


def main():
    with_examples, crates = "--rows" not in sys.argv, [word for word in sys.argv[1:] if word != "--rows"]
    for crate in crates:
        if not tests_of(crate).is_file():
            print(f"failing_allocations: there is no {tests_of(crate)}; 'rt test' in the folder of a crate of tests makes it", file=sys.stderr)
            return USAGE
    compiler = shutil.which("cc")
    if compiler is None:
        print("no C compiler is here: no request for memory is made to fail")
        return 0
    with tempfile.TemporaryDirectory() as folder:
        library = f"{folder}/failing.so"
        subprocess.run([compiler, "-shared", "-fPIC", "-o", library, TOP / "tools/failing_allocations.c", "-ldl"], check=True)
        if not crates:
            return calls_fail(library, [*(examples() if with_examples else []), *rows()])
        return max(tests_pass(library, crate) for crate in crates)


if __name__ == "__main__":
    sys.exit(main())
