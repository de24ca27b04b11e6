#!/usr/bin/env python3
"""The codec as a laboratory's tool, around the program's words `encode` and `decode`: each line of the input is a value of a type, in hexadecimal digits or as JSON, and is answered by one line.

The module is the one of the input's header, where it has one (`module builtin`, `module builtin 2` or `module text` with a text that ends with END), else that of --module, else the
profile. Digits may have blanks between them, and 0x before them. A line that is no value is answered by `wrong BIT REASON PATH`, as the program prints it, and is
told on standard error; the lines after it are answered too. An input may have any length: the program is called as often as needed. With --names
`decode` writes the names of procedures and information elements beside their numbers, as the members "#procedure" and "#element"; `encode` passes over members whose
names begin with #. `types` lists the types of a module.

The status is 0 where each line is a value, 1 where one isn't, 2 where the call is wrong. What a call of the program answers is proved of the program; nothing of this tool is.

Usage: tools/codec.py decode|encode [--module 1|2|FILE] [--names] TYPE [FILE]
       tools/codec.py types [--module 1|2|FILE]      (`-`, or no file, is standard input)
"""

import collections
import itertools
import json
import os
import re
import sys

import profile_reader
import program
import transcripts

VALUE, TOO_LONG, USAGE = 8, 11, 2
# how much is given to one call: well below the 16,777,216 bytes that the program takes
BYTES = 4 << 20
LINES = 1 << 16
HEADERS = {"1": ["module builtin"], "2": ["module builtin 2"]}
REASONS = {1: "a field passes the last octet", 2: "a pad bit is 1", 3: "out of its range", 4: "longer than it has to be", 5: "no such alternative or name", 6: "a length of no form",
           7: "a character that the type doesn't have", 8: "a field passes its open type", 9: "octets are left", 10: "a mandatory element is missing",
           11: "elements out of order or given twice", 12: "longer than an encoding may be", 13: "additions without any", 100: "not hexadecimal digits", 101: "no JSON", 102: "not of the type's shape",
           103: "out of the type's range", 104: "its encoding passes 131072 octets"}


class WrongCall(Exception):
    """Why nothing can be encoded or decoded, in one line."""


# ---- the module


def header_of(word):
    """The lines of a header for a module by its word: 1, 2, or the path of a text."""
    if word in HEADERS:
        return HEADERS[word]
    with open(word, encoding="latin-1") as text:
        return ["module text", *text.read().splitlines()]


def split_header(lines, word):
    """The header, how many lines of the input it is, and the lines after it."""
    first = next(lines, None)
    if first is None or not first.startswith(b"module "):
        return header_of(word or "1"), 0, itertools.chain([] if first is None else [first], lines)
    if word:
        raise WrongCall("the input has a header, and --module names a module too")
    header = [first]
    if first == b"module text":
        header += itertools.takewhile(lambda line: line != b"END", lines)
        header.append(b"END")
    return [line.decode("latin-1") for line in header], len(header), lines


def text_of(word):
    """The text of a module by its word."""
    if word in HEADERS:
        return program.call(["profile"] + ["2"] * (word == "2")).stdout.decode()
    return "\n".join(header_of(word)[1:]) + "\n"


def types_of(text):
    """The types of a module's text, each with how it begins."""
    tokens, found = profile_reader.tokens_of(text), []
    for place, token in enumerate(tokens):
        if token == "::=" and tokens[place - 1] not in ("TAGS", "PROTOCOL-IES", "ELEMENTARY-PROCEDURE"):
            found.append((tokens[place - 1], beginning(tokens[place + 1 : place + 6])))
    return found


def beginning(tokens):
    if tokens[0] in ("BIT", "OCTET"):
        return f"{tokens[0]} STRING"
    return "SEQUENCE OF" if tokens[0] == "SEQUENCE" and tokens[1] != "{" else tokens[0]


def checked_types(word):
    """The types of a module, of which the program says that it is one, and how many types it has."""
    text = text_of(word)
    ran = program.call(["check"], ("\n".join(HEADERS.get(word) or ["module text", text.rstrip("\n")]) + "\n").encode("latin-1"))
    found = types_of(text)
    if ran.returncode:
        raise WrongCall(said_by(ran))
    if ran.stdout.split()[-1] != str(len(found)).encode():
        raise WrongCall(f"the program finds {ran.stdout.decode().split()[-1]} types in the module, and this tool {len(found)}")
    return found


# ---- calls of the program


def said_by(ran):
    lines = [line for line in ran.stderr.decode(errors="replace").splitlines() if line.startswith("gnb: ")]
    return lines[-1].removeprefix("gnb: ") if lines else f"the program ends with status {ran.returncode}"


def batches(lines):
    """Takes from the front of lines (a deque over an iterator) as many as are asked for, below BYTES together, and at least one."""
    waiting = collections.deque()

    def take(room):
        batch, size = [], 0
        while len(batch) < room:
            line = waiting.popleft() if waiting else next(lines, None)
            if line is None:
                break
            if batch and size + len(line) > BYTES:
                waiting.appendleft(line)
                break
            batch.append(line)
            size += len(line) + 1
        return batch
    return take, waiting


def answers(word, of_type, header, lines):
    """The answer to each line: whether it is a value, and the line of output. WrongCall where the program can't answer at all."""
    head = "\n".join(header).encode("latin-1") + b"\n"
    take, waiting = batches(iter(lines))
    room, batch = LINES, take(LINES)
    # without a line the program still says what is wrong with the type or the module
    is_first = True
    while batch or is_first:
        is_first = False
        ran = program.call([word, of_type], head + b"".join(line + b"\n" for line in batch))
        given = ran.stdout.decode("latin-1").splitlines()
        if ran.returncode not in (0, VALUE, TOO_LONG) or (ran.returncode == TOO_LONG and len(batch) > 1):
            raise WrongCall(said_by(ran))
        values = given if ran.returncode == 0 else given[: -2 if ran.returncode == VALUE else -1]
        yield from ((True, line) for line in values)
        room = min(2 * room, LINES)
        if ran.returncode:
            yield False, given[-2] if ran.returncode == VALUE else given[-1]
            waiting.extendleft(reversed(batch[len(values) + 1 :]))
            # what comes after a bad line is tried in small calls first, so that an input of bad lines alone takes linear time
            room = max(1, 2 * len(values))
        batch = take(room)


def plain_digits(line):
    """A line of digits without blanks and without 0x."""
    return b"".join(re.sub(b"^0[xX]", b"", word) for word in line.split())


def without_names(line):
    """A line of JSON without members whose names begin with #; a line that is no JSON as it is."""
    if b'"#' not in line:
        return line
    try:
        return json.dumps(json.loads(line, object_pairs_hook=lambda pairs: {name: value for name, value in pairs if not name.startswith("#")}), separators=(",", ":")).encode()
    except ValueError:
        return line


# ---- names


class Names:
    """The names of a module's procedures, by the set of a type; the names of information elements are the profile's, or else those of their types."""

    def __init__(self, word, of_type):
        self.module = profile_reader.read_module(text_of(word))
        self.is_profile = word in HEADERS
        form = self.module.get(of_type, {})
        self.rows = self.module[form["set"]]["rows"] if form.get("form") == "pdu" else []

    def of(self, value):
        """A decoded value with names."""
        [(outcome, body)] = value.items() if isinstance(value, dict) and len(value) == 1 else [(None, None)]
        if outcome not in profile_reader.OUTCOMES or not isinstance(body, dict) or not self.rows:
            return value
        row = next((row for row in self.rows if row["code"] == body.get("procedureCode")), None)
        message = row["messages"][profile_reader.OUTCOMES.index(outcome)] if row else None
        return {outcome: {key: part for name, part in body.items() for key, part in self.of_member(message, name, part)}}

    def of_member(self, message, name, part):
        if name == "procedureCode":
            return [(name, part), *([("#procedure", message)] if message else [])]
        if name == "value" and isinstance(part, dict):
            return [(name, {key: self.of_elements(message, entry) if key == "protocolIEs" else entry for key, entry in part.items()})]
        return [(name, part)]

    def of_elements(self, message, entries):
        container = next(part["type"] for part in self.module[message]["root"] if part["name"] == "protocolIEs")
        types = {row["id"]: row["type"] for row in self.module[container["set"]]["rows"]}
        return [{key: value for name, part in entry.items() for key, value in self.of_id(types, name, part)} for entry in entries]

    def of_id(self, types, name, part):
        known = types.get(part) if name == "id" else None
        shown = profile_reader.ELEMENTS.get(part, known) if known and self.is_profile else known
        return [(name, part), *([("#element", shown)] if shown else [])]


def word_of(header):
    """The word of a module by its header's lines."""
    return {"module builtin": "1", "module builtin 2": "2"}.get(header[0])


def names_of(header, of_type):
    word = word_of(header)
    if word is None:
        raise WrongCall("--names reads the profile's module alone: give no header, or 'module builtin' or 'module builtin 2'")
    return Names(word, of_type)


# ---- the tool


def lines_of(stream):
    """The lines of a stream of octets, without their ends."""
    return (line.rstrip(b"\n").rstrip(b"\r") for line in stream)


def answer(given, stream, name):
    """Answers each line of a stream; the status to end with."""
    header, length, lines = split_header(lines_of(stream), given.module)
    names = names_of(header, given.type) if given.names and given.what == "decode" else None
    prepared = map(plain_digits if given.what == "decode" else without_names, lines)
    wrong = 0
    for number, (is_value, line) in enumerate(answers(given.what, given.type, header, prepared), length + 1):
        if not is_value:
            wrong += 1
            print(f"codec: {name}:{number}: {line}: {words_of(line)}", file=sys.stderr)
        elif names:
            line = json.dumps(names.of(json.loads(line)), separators=(",", ":"))
        print(line)
    return int(wrong > 0)


def words_of(line):
    """The reason of a line `wrong BIT REASON PATH` in words."""
    words = line.split(" ")
    return REASONS.get(int(words[2]), "unknown") if words[0] == "wrong" else "longer than the program takes"


def run(given):
    if given.what == "types":
        print("\n".join(f"{name}  {kind}" for name, kind in checked_types(given.module or "1")))
        return 0
    if not given.type:
        raise WrongCall(f"{given.what} needs a type")
    if given.file == "-":
        return answer(given, sys.stdin.buffer, "-")
    with open(given.file, "rb") as stream:
        return answer(given, stream, given.file)


def main():
    asked = transcripts.Asked(__doc__)
    asked.add_argument("what", choices=("decode", "encode", "types"))
    asked.add_argument("type", nargs="?")
    asked.add_argument("file", nargs="?", default="-")
    asked.add_argument("--module", metavar="1|2|FILE", help="version 1 or 2 of the profile, or a file with a module's text")
    asked.add_argument("--names", action="store_true", help="names of procedures and information elements beside their numbers")
    try:
        return run(asked.parse_intermixed_args())
    except BrokenPipeError:
        # whoever reads has enough
        os.dup2(os.open(os.devnull, os.O_WRONLY), sys.stdout.fileno())
        return 1
    except (WrongCall, program.NoProgram, OSError) as wrong:
        print(f"codec: {f'{wrong.filename}: {wrong.strerror}' if isinstance(wrong, OSError) else wrong}", file=sys.stderr)
        return USAGE


if __name__ == "__main__":
    sys.exit(main())
