#!/usr/bin/env python3
"""Runs each case of a folder and of the folders in it, and judges what the program prints.

A case is a file by its ending: NAME.script is an input of `run`, NAME.check of `check`, NAME.verify of `verify`, NAME.um and NAME.dup of the call in their first line after `; gnb`,
NAME.TYPE.encode and NAME.TYPE.decode of `encode TYPE` and `decode TYPE`; NAME.words has the words of a call that reads nothing. Where NAME.out stands beside it, what is
printed is that transcript. In a script of `run`, `um` or `duplicate` a line `;= LINE` is a line that the event above it prints, and `;! LINE` one that it doesn't
print; `*` stands for octets, `?` for the characters of a word. Several `;=` of one event come in their order. docs/scripts.md shows how to write them.

The verdict of a case is pass, fail, or none where nothing is expected of it. The status of the call is that of its last line: it is `stop STATUS ..`, or the status is 0.
Standard error has a line that begins with `gnb: ` where the status isn't 0, and no other lines than such where it is. Where the program has the word `verify`, what a script of `run` prints is
sound; but a run without its last line, after a write that failed or out of memory, isn't judged so, nor is what is printed of another module than the profile's.

The status of the tool is 0 where no case fails, 1 where one fails, 2 where an input is wrong. Nothing here is proved.

Usage: tools/suite.py [--junit FILE] [--seconds N] FOLDER..      (a file is a case by itself)
"""

import dataclasses
import pathlib
import re
import sys
import time
import xml.etree.ElementTree as ElementTree

import patterns
import program
import transcripts

WORDS = {".script": "run", ".check": "check", ".verify": "verify"}
WITH_WORDS = (".um", ".dup")
OF_TYPES = (".encode", ".decode")
ENDINGS = (*WORDS, *WITH_WORDS, *OF_TYPES, ".words")
SECONDS = 120
SHOWN = 4
# what is printed then is no whole transcript: another module, a write that failed, out of memory
UNJUDGED = (3, 7, 9)


class WrongCase(Exception):
    """What is wrong with a case, as `FILE:LINE: what`."""


# ---- the cases


def is_input(path):
    """Whether a file is a case with an input."""
    return path.suffix in ENDINGS and path.suffix != ".words"


def call_of(path):
    """The words of a case's call, and its input as octets. WrongCase where its name or first line has no such words."""
    if path.suffix == ".words":
        return path.read_text().split(), b""
    given = path.read_bytes()
    if path.suffix in WITH_WORDS:
        first = given.split(b"\n", 1)[0].decode(errors="replace")
        if not re.fullmatch("; gnb (um|duplicate) .+", first):
            raise WrongCase(f"{path}:1: awaited '; gnb um N T' or '; gnb duplicate N Q', and it is '{transcripts.shortened(first)}'")
        return first.removeprefix("; gnb ").split(), given
    if path.suffix in OF_TYPES:
        name, dot, of_type = path.stem.rpartition(".")
        if not dot:
            raise WrongCase(f"{path}: awaited a name with a type, as NAME.TYPE{path.suffix}")
        return [path.suffix[1:], of_type], given
    return [WORDS[path.suffix]], given


def cases_of(folder):
    """The cases of a folder and of those in it. WrongCase where there is none, or a transcript has no case."""
    if not folder.exists():
        raise WrongCase(f"{folder}: No such file or directory")
    if folder.is_file() and folder.suffix not in ENDINGS:
        raise WrongCase(f"{folder}: awaited a folder, or a file that ends with {', '.join(ENDINGS)}")
    files = [folder] if folder.is_file() else sorted(path for path in folder.rglob("*") if path.is_file())
    cases = [path for path in files if path.suffix in ENDINGS]
    known = {path.with_suffix(".out") for path in cases}
    for path in files:
        if path.suffix == ".out" and path not in known:
            raise WrongCase(f"{path}: no case is beside this transcript")
    if not cases:
        raise WrongCase(f"{folder}: no case in it; a case ends with {', '.join(ENDINGS)}")
    return cases


# ---- scripts and their remarks


@dataclasses.dataclass
class Event:
    """An event of a script: its line, and the remarks after it, each as its line, whether it must come, and its pattern."""

    line: int
    text: str
    remarks: list = dataclasses.field(default_factory=list)


def header_length(lines):
    """How many lines the header of an input is."""
    if lines[:1] != ["module text"]:
        return 1
    return lines.index("END") + 1 if "END" in lines else len(lines)


def events_of(path, given, call):
    """The events of a script with their remarks. WrongCase where a remark is wrong."""
    lines, events = given.decode("latin-1").split("\n"), []
    header = header_length(lines) if call == "run" else 0
    for number, text in enumerate(lines[header:], header + 1):
        if text.startswith((";=", ";!")):
            add_remark(path, number, text, events, call)
        elif text and not text.startswith(";"):
            events.append(Event(number, text))
    return events


def add_remark(path, number, text, events, call):
    if not events:
        raise WrongCase(f"{path}:{number}: a remark before the first event: '{transcripts.shortened(text)}'")
    if len(text) < 4 or text[2] != " ":
        raise WrongCase(f"{path}:{number}: awaited a blank and a line after '{text[:2]}'")
    try:
        events[-1].remarks.append((number, text[1] == "=", patterns.read(text[3:], call)))
    except transcripts.WrongWord as wrong:
        raise WrongCase(f"{path}:{number}: awaited {wrong}") from None


def blocks_of(printed):
    """What was printed before the first event, and by each event: the number of its first line, from 0, and its lines."""
    blocks = [(0, [])]
    for number, line in enumerate(printed):
        if line.startswith("> "):
            blocks.append((number, []))
        blocks[-1][1].append(line)
    return blocks


def printed_by(events, blocks):
    """The lines that each event printed, without its own. A `stop` that names the line of an event that wasn't applied is printed by that one."""
    found = [lines[1:] for _, lines in blocks[1:]]
    lines = found[-1] if found else blocks[0][1]
    last = lines[-1].split(" ") if lines else []
    if len(found) < len(events) and last[:2] == ["stop", "4"] and last[2] == str(events[len(found)].line):
        found.append([lines[-1]])
        lines.pop()
    return found + [[] for _ in events[len(found) :]]


# ---- judging


@dataclasses.dataclass
class Verdict:
    """What came of a case: pass, fail or none; what is wrong, as lines with their places, and how many seconds it took."""

    path: pathlib.Path
    word: str
    problems: list
    seconds: float


def status_of(transcript):
    """The status that a transcript's last line has; 0 where it is no `stop` line."""
    lines = transcript.splitlines()
    last = lines[-1].split(" ") if lines else []
    return int(last[1]) if last[:1] == ["stop"] and len(last) > 1 and last[1].isdigit() else 0


def judged_remarks(path, events, printed):
    """What is wrong by the remarks of a script."""
    problems = []
    for event, lines in zip(events, printed_by(events, blocks_of(printed))):
        rest = lines
        for number, must_come, pattern in event.remarks:
            places = [place for place, line in enumerate(rest if must_come else lines) if pattern.matches(line)]
            if must_come and places:
                rest = rest[places[0] + 1 :]
            elif must_come or places:
                came = f"not '{pattern.text}'" if must_come else f"'{lines[places[0]]}', which must not come"
                problems.append(f"{path}:{number}: '{event.text}' prints {came}; it prints {listed(lines, pattern.text)}")
    return problems


def listed(lines, awaited):
    """Some lines: those of the awaited kind, or else the first ones; and how many others there are."""
    near = [line for line in lines if line.split(" ")[0] == awaited.split(" ")[0]] or lines
    shown = [f"'{transcripts.shortened(line)}'" for line in near[:SHOWN]]
    others = len(lines) - len(shown)
    return (", ".join(shown) or "nothing") + (f" and {others} other line{'s' * (others > 1)}" if others else "")


def first_difference(path, stored, printed, lines):
    """Where what is printed leaves the stored transcript, with the line of the input that it comes from; nothing where it doesn't."""
    if stored == printed:
        return []
    awaited, found = stored.split("\n"), printed.split("\n")
    place = next((at for at, (one, other) in enumerate(zip(awaited, found)) if one != other), min(len(awaited), len(found)))
    one, other = (f"'{texts[place]}'" if place < len(texts) and (texts[place] or place < len(texts) - 1) else "the end" for texts in (awaited, found))
    at = lines(found, place)
    return [f"{path}:{at}: {path.with_suffix('.out').name}:{place + 1} has {one}, and {other} is printed" if at
            else f"{path}: {path.with_suffix('.out').name}:{place + 1} has {one}, and {other} is printed"]


def lines_of_events(events):
    """For a line that was printed, the line of the event that it comes from."""
    def line_of(printed, place):
        before = sum(line.startswith("> ") for line in printed[: place + 1])
        return events[min(before, len(events)) - 1].line if before and events else None
    return line_of


def lines_of_values(given):
    """For an answer of `encode` or `decode`, the line that is answered."""
    lines = given.decode("latin-1").splitlines()
    header = header_length(lines)
    return lambda printed, place: min(header + place + 1, len(lines))


def of_call(ran):
    """What is wrong with a call by itself."""
    status, said = status_of(ran.stdout.decode("latin-1")), ran.stderr.decode(errors="replace").splitlines()
    problems = [] if ran.returncode == status else [f"the status is {ran.returncode}, and the last line says {status}"]
    odd = [line for line in said if not line.startswith("gnb: ")]
    if odd and not ran.returncode:
        problems.append(f"standard error has '{transcripts.shortened(odd[0])}'")
    elif ran.returncode and len(odd) == len(said):
        problems.append(f"the status is {ran.returncode}, and standard error says nothing of it")
    return problems


def of_soundness(words, ran, seconds):
    """What `verify` says of a transcript of `run` that has its last line."""
    if words != ["run"] or ran.returncode in UNJUDGED:
        return []
    checked = program.call(["verify"], ran.stdout, seconds)
    lines = len(ran.stdout.splitlines())
    if (checked.returncode, checked.stdout) == (0, f"sound {lines}\n".encode()):
        return []
    said = checked.stdout.decode("latin-1").splitlines()
    return [f"the transcript isn't sound: '{said[0]}'" if said else f"the transcript of {lines} lines wasn't judged: status {checked.returncode}"]


def read_case(path):
    """The words, the input and the events of a case. WrongCase where one is wrong."""
    words, given = call_of(path)
    return words, given, events_of(path, given, words[0]) if path.suffix in (".script", *WITH_WORDS) else []


def judge(path, seconds=SECONDS, verifies=False):
    """The verdict of a case, with the soundness of its transcript where the program verifies. WrongCase where its input is wrong."""
    words, given, events = read_case(path)
    begun = time.monotonic()
    ran = program.call(words, given, seconds)
    taken, printed, transcript = time.monotonic() - begun, ran.stdout.decode("latin-1"), path.with_suffix(".out")
    if ran.returncode == program.TIMED_OUT:
        # what it printed so far says nothing
        return Verdict(path, "fail", [f"{path}: it didn't end within {seconds} seconds"], taken)
    lines = lines_of_events(events) if events else lines_of_values(given) if path.suffix in OF_TYPES else lambda found, place: None
    problems = judged_remarks(path, events, printed.splitlines())
    if transcript.exists():
        problems = first_difference(path, transcript.read_bytes().decode("latin-1"), printed, lines) + problems
    is_judged = transcript.exists() or any(event.remarks for event in events)
    if is_judged:
        problems += [f"{path}: {what}" for what in of_call(ran)]
    problems += [f"{path}: {what}" for what in of_soundness(words, ran, seconds)] if verifies else []
    return Verdict(path, "fail" if problems else "pass" if is_judged else "none", problems, taken)


# ---- the report


def valid(text):
    """A text that XML can have."""
    return re.sub("[^\t\n\x20-\ud7ff\ue000-\ufffd]", "?", text)


def junit(verdicts, note):
    """The report as JUnit's XML has it: a test suite for each folder; a case of which nothing is expected is skipped."""
    root = ElementTree.Element("testsuites")
    for folder in dict.fromkeys(verdict.path.parent for verdict in verdicts):
        own = [verdict for verdict in verdicts if verdict.path.parent == folder]
        count = {word: str(sum(verdict.word == word for verdict in own)) for word in ("fail", "none")}
        suite = ElementTree.SubElement(root, "testsuite", name=str(folder), tests=str(len(own)), failures=count["fail"], skipped=count["none"], errors="0",
                                       time=f"{sum(verdict.seconds for verdict in own):.3f}")
        ElementTree.SubElement(ElementTree.SubElement(suite, "properties"), "property", name="soundness", value=note)
        for verdict in own:
            case = ElementTree.SubElement(suite, "testcase", classname=str(folder), name=verdict.path.name, time=f"{verdict.seconds:.3f}")
            if verdict.word == "fail":
                ElementTree.SubElement(case, "failure", message=valid(verdict.problems[0])).text = valid("\n".join(verdict.problems))
            elif verdict.word == "none":
                ElementTree.SubElement(case, "skipped", message="nothing is expected of it")
    ElementTree.indent(root)
    return ElementTree.tostring(root, encoding="utf-8", xml_declaration=True) + b"\n"


def told(verdict):
    return f"{verdict.word}  " + (verdict.problems[0] if verdict.problems else str(verdict.path))


def run(folders, seconds=SECONDS, report=None):
    """Judges the cases of folders, prints the verdicts, and writes the report; the status to end with."""
    program.prepare()
    paths = list(dict.fromkeys(path for folder in folders for path in cases_of(pathlib.Path(folder))))
    for path in paths:
        # what is wrong with a case is told before any of them runs
        read_case(path)
    verifies = program.has_word("verify")
    note = "looked at by 'verify'" if verifies else "not looked at: the program has no word 'verify'"
    verdicts = []
    for path in paths:
        verdicts.append(judge(path, seconds, verifies))
        print(told(verdicts[-1]), flush=True)
    words = [verdict.word for verdict in verdicts]
    print(f"{len(words)} cases: {words.count('pass')} pass, {words.count('fail')} fail, {words.count('none')} none; soundness was {note}")
    if report:
        pathlib.Path(report).write_bytes(junit(verdicts, note))
    return int("fail" in words)


def main(arguments=None):
    asked = transcripts.Asked(__doc__)
    asked.add_argument("--junit", metavar="FILE", help="the report as JUnit's XML")
    asked.add_argument("--seconds", type=int, default=SECONDS, help="a case that takes longer fails")
    asked.add_argument("folder", nargs="+")
    given = asked.parse_args(arguments)
    try:
        return run(given.folder, given.seconds, given.junit)
    except (WrongCase, program.NoProgram, OSError) as wrong:
        what = f"{wrong.filename}: {wrong.strerror}" if isinstance(wrong, OSError) else wrong
        print(f"suite: {what}", file=sys.stderr)
        return 2


if __name__ == "__main__":
    sys.exit(main())
