#!/usr/bin/env python3
"""Gives the program its input through a pipe, line by line, and reads the answer to each line before the next one is given: an answer that waits for more input never comes.

Each example of `run`, `um`, `duplicate`, `encode` and `decode` is given so, and some inputs more. What is awaited is what the same input gives as a whole. An answer is, of a script's event,
its own line (`> EVENT`) and the lines below it; of a line of `encode` or `decode`, a line. A last line `end ..` or `stop ..` comes with the end of the input, or of the run. `verify` answers once, at the
first line that breaks a rule, or at the end.

Usage: tools/pipe_check.py
"""

import os
import select
import subprocess
import sys
import time

import checks
import program
import stories
import suite

ENDINGS = (".script", *suite.WITH_WORDS, *suite.OF_TYPES)
LAST = (b"end ", b"stop ")
# how long an answer is awaited
SECONDS = 60
OFFERS = "".join(f"offer {number:04X}\n" for number in range(1, 41))
MORE = [
    (["um", "12", "20"], OFFERS + "".join(f"give #{number}\n" for number in (2, 1, 4, 3, 40)) + "tick\n" * 21 + "ask\n"),
    (["duplicate", "12", "64"], OFFERS + "carry leg1\nconfirm leg1\n" * 3 + "carry leg2\ndrain\nask\n"),
    (["decode", "F1AP-PDU"], "module builtin\n" + "000600150000030001000100000700040340000200634001AA\nzz\n\n" * 20),
    (["encode", "T"], "module text\nM DEFINITIONS AUTOMATIC TAGS ::= BEGIN\nT ::= SEQUENCE OF INTEGER (0..255)\nEND\n" + "".join(f"{list(range(size))}\n" for size in range(60))),
    (["run"], "module builtin\nstart\npump\nattach u1 A 1 1 12 1 64\n; nothing\n\npump\nsettle\nask u1 b1\n"),
]


class Late(Exception):
    """An answer that didn't come before the next line was given."""


class Piped:
    """The program, which reads from a pipe and writes to one."""

    def __init__(self, words):
        self.process = subprocess.Popen([*program.command(), *words], stdin=subprocess.PIPE, stdout=subprocess.PIPE, stderr=subprocess.DEVNULL, bufsize=0)

    def give(self, octets):
        """Gives octets; where the program has ended they are passed over."""
        try:
            self.process.stdin.write(octets)
        except BrokenPipeError:
            pass

    def read(self, size, seconds):
        """So many octets of what is written, or fewer where no more come in time or at all."""
        taken, until = b"", time.monotonic() + seconds
        while len(taken) < size:
            ready, _, _ = select.select([self.process.stdout], [], [], max(0, until - time.monotonic()))
            more = os.read(self.process.stdout.fileno(), size - len(taken)) if ready else b""
            if not more:
                break
            taken += more
        return taken

    def end(self):
        """Ends the input; what is written after that."""
        self.process.stdin.close()
        with self.process.stdout:
            rest = self.process.stdout.read()
        self.process.wait()
        return rest

    def kill(self):
        """Ends the program."""
        self.process.kill()
        self.end()


def answers_of(word, written):
    """What was written, answer by answer."""
    answers = []
    for line in written.splitlines(keepends=True):
        if answers and word not in ("encode", "decode") and not line.startswith((b"> ", *LAST)):
            answers[-1] += line
        else:
            answers.append(line)
    return answers


def answered_lines(word, given):
    """The lines, each with whether it is answered: those of the header, of its module, and a script's remarks and empty lines aren't."""
    lines = given.splitlines(keepends=True)
    header = 0
    if word not in ("um", "duplicate"):
        header = lines.index(b"END\n") + 1 if lines[0] == b"module text\n" else 1
    is_script = word not in ("encode", "decode")
    return [(line, number >= header and not (is_script and line.strip()[:1] in (b"", b";"))) for number, line in enumerate(lines)]


def drive(words, given, seconds=SECONDS):
    """Gives the lines one by one; Late where an answer doesn't come before the next line. A line in two pieces, as a terminal or a network may give it."""
    answers = answers_of(words[0], program.call(words, given).stdout)
    piped = Piped(words)
    for number, (line, is_answered) in enumerate(answered_lines(words[0], given), 1):
        piped.give(line[: len(line) // 2])
        piped.give(line[len(line) // 2 :])
        if is_answered and answers and not answers[0].startswith(LAST):
            awaited = answers.pop(0)
            came = piped.read(len(awaited), seconds)
            if came != awaited:
                piped.kill()
                raise Late(f"{' '.join(words)}: line {number}, {line[:60]}: awaited {awaited[:200]}, and {came[:200]} came")
    assert piped.end() == b"".join(answers), words


def test_examples():
    cases = [path for path in suite.cases_of(stories.EXAMPLES) if path.suffix in ENDINGS]
    assert {suite.call_of(path)[0][0] for path in cases} == {"run", "um", "duplicate", "encode", "decode"}
    for path in cases:
        drive(*suite.call_of(path))


def test_more_inputs():
    for words, given in MORE:
        drive(words, given.encode())


def test_a_verdict_comes_at_its_line():
    """Of a transcript whose twelfth line breaks a rule, no more than this line is given."""
    lines = (stories.EXAMPLES / "first-packet-unsound.verify").read_bytes().splitlines(keepends=True)
    verdict, piped = (stories.EXAMPLES / "first-packet-unsound.out").read_bytes(), Piped(["verify"])
    for line in lines[:12]:
        piped.give(line)
    came = piped.read(len(verdict), SECONDS)
    piped.kill()
    assert came == verdict, came


def test_an_answer_that_waits_is_noticed():
    """A program that reads its whole input first answers nothing in time."""
    waits = "import sys; given = sys.stdin.read(); print('> ask'); print('waiting 0 0 0')"
    before = os.environ.get("GNB_PROGRAM")
    os.environ["GNB_PROGRAM"] = f'{sys.executable} -c "{waits}"'
    try:
        drive(["um", "12", "20"], b"ask\n", seconds=0.5)
    except Late:
        return
    finally:
        if before is None:
            del os.environ["GNB_PROGRAM"]
        else:
            os.environ["GNB_PROGRAM"] = before
    raise AssertionError("an answer that waited wasn't noticed")


if __name__ == "__main__":
    program.prepare()
    sys.exit(checks.run(__file__))
