"""Compares what the program prints with what another reading of the same specification prints.

The other reading is a program that takes the same words and input as ours: `gnb.py` of the folder that the variable GNB_OTHER_READING names, which isn't part of this
repository. Where it isn't given, nothing is compared: this is the last line (NOT_COMPARED), and the status is 0. Where it names no such file, this is an error.
"""

import argparse
import collections
import concurrent.futures
import os
import pathlib
import random
import subprocess
import sys

TOP = pathlib.Path(__file__).resolve().parents[1]
PROGRAM = [str(TOP / "gnb")]
VARIABLE = "GNB_OTHER_READING"
NOT_COMPARED = f"not compared: {VARIABLE} names no other reading of the specification"


def other_file(name):
    """The file of this name of the other reading, or None where the variable isn't given. A folder that lacks it ends the program with status 2."""
    folder = os.environ.get(VARIABLE)
    if not folder:
        return None
    path = pathlib.Path(folder) / name
    if not path.is_file():
        print(f"{VARIABLE}: {path} is no file", file=sys.stderr)
        sys.exit(2)
    return path


def other_command():
    """The command of the other reading in one text, '' where there is none."""
    found = other_file("gnb.py")
    return f"{sys.executable} {found}" if found else ""


def answer(command, words, text):
    """The status and the output of a program."""
    ran = subprocess.run([*command, *words], input=text.encode(), stdout=subprocess.PIPE, stderr=subprocess.DEVNULL, check=False)
    return ran.returncode, ran.stdout


def compare(usage, what, count, make, told, plain=None, asks=False, chosen="random"):
    """Compares so many calls, each with words and an input made by chance; `told` names what a status and an output came to, and `plain` is the
    other reading where none is named. Where calls are made with its help (`asks`), `make` takes it before chance. `chosen` is how they were chosen."""
    asked = argparse.ArgumentParser(description=usage, formatter_class=argparse.RawDescriptionHelpFormatter)
    asked.add_argument("--count", type=int, default=count)
    asked.add_argument("--seed", type=int, default=1)
    asked.add_argument("command", nargs="*")
    given = asked.parse_args()
    found = None if given.command or plain else other_file("gnb.py")
    other = given.command or plain or (found and [sys.executable, str(found)])
    if other is None:
        print(f"{given.count} {chosen} {what} are left out\n{NOT_COMPARED}")
        return 0
    chances = [random.Random(given.seed * 1_000_003 + number) for number in range(given.count)]
    outcomes = collections.Counter()
    answer(PROGRAM, ["profile"], "")  # builds the program before several are run side by side
    with concurrent.futures.ThreadPoolExecutor(os.cpu_count()) as pool:
        calls = list(pool.map(lambda chance: make(other, chance) if asks else make(chance), chances))
        both = pool.map(lambda call: (answer(PROGRAM, *call), answer(other, *call)), calls)
        for (words, text), (ours, theirs) in zip(calls, both):
            if ours != theirs:
                print(f"{chosen} {what} differ: {words}\n{text}\n-- ours: {ours}\n-- theirs: {theirs}")
                return 1
            outcomes[told(*ours)] += 1
    print(f"{given.count} {chosen} {what} are alike; by status: {dict(sorted(outcomes.items()))}")
    return 0
