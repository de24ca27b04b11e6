"""Calls the program for the tools: the one that `./gnb` of this repository runs, or the command in the variable GNB_PROGRAM, as one that was built without proofs.

Nothing here is proved.
"""

import functools
import os
import pathlib
import shlex
import subprocess
import sys

TOP = pathlib.Path(__file__).resolve().parents[1]
TIMED_OUT = 124


class NoProgram(Exception):
    """The program can't be run; the text says why, in one line."""


def command():
    """The words that start the program."""
    given = os.environ.get("GNB_PROGRAM")
    return shlex.split(given) if given else kept(TOP)


@functools.cache
def kept(top):
    """The words that start the program of a repository. Where tools/kept_program.py is there, it is asked once for the program that `./gnb` runs, so that not every call looks at all sources;
    what it says of that program, as that nothing of it is proved, is said once. NoProgram where there is none."""
    tool = top / "tools/kept_program.py"
    if not tool.exists():
        return [str(top / "gnb")]
    ran = subprocess.run([sys.executable, tool], stdin=subprocess.DEVNULL, capture_output=True, text=True, check=False)
    if ran.returncode or not ran.stdout.strip():
        raise NoProgram((ran.stderr.strip().splitlines() or [f"{tool}: status {ran.returncode}"])[-1])
    sys.stderr.write(ran.stderr)
    return [ran.stdout.strip()]


def call(words, given=b"", seconds=None):
    """Calls the program with these words on this input (octets): what it came to, with `stdout` and `stderr` as octets. After so many seconds it is ended, with
    status TIMED_OUT. NoProgram where it doesn't start."""
    try:
        return subprocess.run([*command(), *words], input=given, capture_output=True, check=False, timeout=seconds)
    except subprocess.TimeoutExpired as ended:
        return subprocess.CompletedProcess(words, TIMED_OUT, ended.stdout or b"", ended.stderr or b"")
    except OSError as wrong:
        raise NoProgram(f"{command()[0]}: {wrong.strerror}") from None


def prepare():
    """Calls the program once, which builds it where it isn't built. NoProgram where that fails."""
    ran = call(["profile"])
    if ran.returncode:
        said = ran.stderr.decode(errors="replace").strip().splitlines()
        raise NoProgram(f"{command()[0]}: status {ran.returncode}" + (f", {said[-1]}" if said else ""))


def has_word(word):
    """Whether the program has a word: with one that it hasn't it prints `stop 2 0 0` and reads nothing."""
    return not call([word]).stdout.startswith(b"stop 2 ")
