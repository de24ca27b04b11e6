#!/usr/bin/env python3
"""Checks random and mutated module texts with the program and with another reading of the same specification, and
compares what they print.

The other reading is a program that takes the word `check` and an input, as ours does. Without one nothing is
compared, and the last line says so (other_reading.py).

Usage: tools/random_modules.py [--count N] [--seed S] [COMMAND ..]
"""

import re
import sys

import other_reading

# numbers at the bounds of what a module may say, and beyond
NUMBERS = [
    "0", "1", "2", "3", "7", "63", "64", "255", "256", "65535", "65536", "4294967295", "9223372036854775807", "9223372036854775808",
    "18446744073709551615", "18446744073709551616", "-1", "-0", "-9223372036854775808", "-9223372036854775809", "007", "99999999999999999999999",
]
WORDS = [
    "BOOLEAN", "INTEGER", "ENUMERATED", "BIT", "OCTET", "STRING", "PrintableString", "SEQUENCE", "CHOICE", "OF", "SIZE", "OPTIONAL", "BEGIN",
    "END", "DEFINITIONS", "AUTOMATIC", "TAGS", "PROTOCOL-IES", "ELEMENTARY-PROCEDURE", "ID", "TYPE", "PRESENCE", "CRITICALITY", "reject", "mandatory",
    "REAL", "SET", "NULL", "DEFAULT", "IMPORTS", "EXPLICIT", "CLASS", "[", "::=", "...", "..", "{", "}", "(", ")", ",", "|", ":", ".", "-", "_",
    "é", "\x00", "a-", "-b", "a--b", "T", "x", "Type0", "Absent",
]
LOWER = "abcdefghijklmnopqrstuvwxyz"
GAPS = [" ", " ", " ", " ", "\n", "\n", "  ", "\t", "\r\n", "\r", " -- a remark\n", " -- one -- ", " -- a - b\n", "\n\n", " --\n", " ---- "]


class Maker:
    """Makes the tokens of a module; the names that it defines are given beforehand."""

    def __init__(self, chance):
        self.chance = chance
        self.types = [f"Type{i}" for i in range(chance.randint(1, 6))]
        self.ies = [f"Ies{i}" for i in range(chance.choice([0, 0, 1, 2]))]
        self.procedures = [f"Procedures{i}" for i in range(chance.choice([0, 0, 0, 1]))]
        self.later = []  # the types that the one being made may refer to without reaching itself

    def names(self, most):
        count = self.chance.randint(1, most)
        return [self.chance.choice(LOWER) + (f"-{i}" if self.chance.random() < 0.3 else str(i)) for i in range(count)]

    def listed(self, parts):
        return [token for i, part in enumerate(parts) for token in ([","] if i else []) + part]

    def additions(self, part):
        if self.chance.random() < 0.6:
            return []
        named = self.names(3) if self.chance.random() < 0.6 else []
        return [["..."]] + [part("added-" + name) for name in named]

    def enumerated(self):
        if self.chance.random() < 0.1:
            root, added = self.chance.choice([(256, 0), (257, 0), (1, 64), (1, 65)])
            names = [[f"e{i}"] for i in range(root)] + ([["..."]] + [[f"a{i}"] for i in range(added)] if added else [])
        else:
            names = [[name] for name in self.names(5)] + self.additions(lambda name: [name])
        return ["ENUMERATED", "{", *self.listed(names), "}"]

    def size(self, varies=False):
        low, high = self.chance.choice([("1", "3"), ("1", "20"), ("2", "64"), ("8", "255"), ("65534", "65535"), ("1", "65535"), ("16", "17")])
        more = [",", "..."] if self.chance.random() < 0.2 else []
        if self.chance.random() < 0.3:
            return []
        return ["(", "SIZE", "(", low, *(["..", high] if varies or self.chance.random() < 0.6 else []), *more, ")", ")"]

    def integer(self):
        low, high = self.chance.choice([("0", "255"), ("-1", "7"), ("0", "0"), ("-9223372036854775808", "9223372036854775807"), ("0", "18446744073709551615"), ("1", "65536")])
        return ["INTEGER", "(", low, "..", high, *([",", "..."] if self.chance.random() < 0.2 else []), ")"]

    def members(self, optional, depth):
        def member(name):
            return [name, *self.type(depth), *(["OPTIONAL"] if optional and self.chance.random() < 0.3 else [])]

        return self.listed([member(name) for name in self.names(4)] + self.additions(member))

    def type(self, depth=0):
        kind = self.chance.randint(0, 12 if depth < 3 else 6)
        if kind == 0:
            return ["BOOLEAN"]
        if kind == 1:
            return self.integer()
        if kind == 2:
            return self.enumerated()
        if kind == 3:
            return [*self.chance.choice([["BIT", "STRING"], ["OCTET", "STRING"]]), *self.size()]
        if kind == 4:
            return ["PrintableString", *self.size(self.chance.random() < 0.95)]
        if kind in (5, 6):
            return [self.chance.choice(self.later or ["BOOLEAN"]) if self.chance.random() < 0.95 else self.chance.choice(self.types)]
        if kind in (7, 8):
            return ["SEQUENCE", "{", *(self.members(True, depth + 1) if self.chance.random() < 0.9 else []), "}"]
        if kind == 9:
            return ["CHOICE", "{", *self.members(False, depth + 1), "}"]
        if kind == 10:
            return ["SEQUENCE", *self.size(), "OF", *self.type(depth + 1)]
        if self.ies and self.chance.random() < 0.6:
            return ["ProtocolIE-Container", "{", "{", self.chance.choice(self.ies), "}", "}"]
        return ["Protocol-PDU", "{", "{", self.chance.choice(self.procedures), "}", "}"] if self.procedures else self.nested()

    def nested(self):
        depth = self.chance.choice([1, 2, 58, 59, 60, 61]) if self.chance.random() < 0.3 else 1
        return ["SEQUENCE", "OF"] * depth + ["BOOLEAN"]

    def set_of(self, row):
        rows = [row(i) for i in range(self.chance.randint(1, 3))]
        return ["{", *[token for i, one in enumerate(rows) for token in (["|"] if i else []) + one], ",", "...", "}"]

    def ie(self, i):
        kind = self.chance.choice(["reject", "ignore", "notify"])
        return ["{", "ID", str(i), "CRITICALITY", kind, "TYPE", *self.type(2), "PRESENCE", self.chance.choice(["mandatory", "optional"]), "}"]

    def procedure(self, i):
        more = ["SUCCESSFUL", "OUTCOME", *self.type(2)] if self.chance.random() < 0.5 else []
        return ["{", "INITIATING", "MESSAGE", *self.type(2), *more, "PROCEDURE", "CODE", str(i), "CRITICALITY", "reject", "}"]

    def tokens(self):
        parts = []
        for i, name in enumerate(self.types):
            self.later = self.types[i + 1:]
            parts.append([name, "::=", *self.type()])
        self.later = []
        parts += [[name, "PROTOCOL-IES", "::=", *self.set_of(self.ie)] for name in self.ies]
        parts += [[name, "ELEMENTARY-PROCEDURE", "::=", *self.set_of(self.procedure)] for name in self.procedures]
        self.chance.shuffle(parts)
        if self.chance.random() < 0.02:
            parts.append([token for i in range(1001 - len(self.types)) for token in (f"Many{i}", "::=", "BOOLEAN")])
        body = [token for part in parts for token in part]
        return [self.chance.choice(["M", "A-Module", "Ngap2"]), "DEFINITIONS", "AUTOMATIC", "TAGS", "::=", "BEGIN", *body, "END"]


def some_place(chance, tokens, pattern):
    """The place of a token of this form, or of any one where there is none."""
    places = [i for i, token in enumerate(tokens) if re.fullmatch(pattern, token)]
    return chance.choice(places or range(len(tokens)))


def mutated(chance, tokens):
    """One change of the tokens."""
    kind = chance.choice(["drop", "double", "replace", "insert", "swap", "number", "number", "extend", "rename", "rename", "rename"])
    place = chance.randrange(len(tokens))
    if kind == "number":
        place = some_place(chance, tokens, "-?[0-9]+")
        return tokens[:place] + [chance.choice(NUMBERS)] + tokens[place + 1:]
    if kind == "extend":
        place = some_place(chance, tokens, "[})]")
        return tokens[:place] + chance.choice([[",", "..."], [",", "x1"], [",", "...", ",", "x1", "BOOLEAN"], [",", "...", ",", "x1"]]) + tokens[place:]
    if kind == "rename":
        form = chance.choice(["[A-Z][A-Za-z]+[0-9]", "[a-z][a-z0-9-]*[0-9]"])
        name = tokens[some_place(chance, tokens, form)] if chance.random() < 0.6 else "Absent"
        place = some_place(chance, tokens, form)
        return tokens[:place] + [name] + tokens[place + 1:]
    if kind == "swap":
        changed, other = list(tokens), chance.randrange(len(tokens))
        changed[place], changed[other] = changed[other], changed[place]
        return changed
    middle = {"drop": [], "double": [tokens[place]] * 2, "replace": [chance.choice(WORDS)], "insert": [chance.choice(WORDS), tokens[place]]}
    return tokens[:place] + middle[kind] + tokens[place + 1:]


def laid_out(chance, tokens):
    """The tokens with gaps between them, and `END` mostly alone on its line."""
    text = ""
    for i, token in enumerate(tokens):
        if i:
            tight = re.match("[A-Za-z0-9]", text[-1:]) is None and chance.random() < 0.3 and text[-1:] not in "-.:"
            text += "" if tight else chance.choice(GAPS)
        if token == "END" and i == len(tokens) - 1 and chance.random() < 0.8:
            text = text.rstrip(" \t\r") + ("" if text.endswith("\n") else "\n")
        text += token
    return text


def spoiled(chance, text):
    """One change of the octets, or none."""
    kind = chance.random()
    if kind < 0.8 or not text:
        return text
    place = chance.randrange(len(text))
    if kind < 0.87:
        return text[:place]
    if kind < 0.94:
        return text[:place] + chance.choice("\t\r\n -[]@:.\"'*_é\x00A0a") + text[place + 1:]
    return text[:place] + text[place + 1:]


def module_input(chance):
    tokens = Maker(chance).tokens()
    for _ in range(chance.choice([0, 0, 0, 1, 1, 1, 2])):
        tokens = mutated(chance, tokens) if tokens else tokens
    text = spoiled(chance, laid_out(chance, tokens))
    behind = chance.random()
    if behind < 0.4:
        text += "\n"
    elif behind < 0.6:
        text += chance.choice(["\n\n", "\nmore\n", " \n", " -- a remark\n", " -- a remark", "\r\n", " END\n", "\nEND\n", " x\nEND\n", "\n-- END\n", "\n  END\n", "--", " -\n"])
    if chance.random() < 0.03:
        return chance.choice(["module builtin", "module builtin 2"]) + chance.choice(["", "\n", "\n\n", "\nmore", " ", " 2\n", " 3\n", "\r\n"])
    header = "module text\n" if chance.random() < 0.97 else chance.choice(["module\n", "module x\n", "module text x\n", "module text ", "module text\r\n", "", "\n", " module text\n"])
    return header + text


def told(status, output):
    """The status, with the reason in the last line."""
    return "0" if status == 0 else f"{status} for {int(output.split(bytes([10]))[-2].split()[3])}"


if __name__ == "__main__":
    sys.exit(other_reading.compare(__doc__, "modules", 350, lambda chance: (["check"], module_input(chance)), told))
