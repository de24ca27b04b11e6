#!/usr/bin/env python3
"""Encodes random values of random types by the word `encode`, spoilt JSON texts too, and decodes spoilt spellings by `decode`; and compares what the program prints with
what another reading of the same specification prints.

Each call has a module of its own with a type T. Of the calls a third gives JSON of values as it may be written (half of it as values are printed, else members in any order, digits in either case, white
space, names escaped), a third JSON in which something was changed, and a third octets: those that the other reading spells of such values, with bits changed or
cut off. The other reading is a program that takes the word, a type and an input, as ours does. Without one nothing is compared, and the last
line says so (other_reading.py).

Usage: tools/random_json.py [--count N] [--seed S] [COMMAND ..]
"""

import json
import re
import sys

import other_reading

HEXADECIMAL = "0123456789ABCDEFabcdef"
PRINTABLE = "ABCXYZabcxyz0189 '()+,-./:=?"
CRITICALITIES = ["reject", "ignore", "notify"]
OUTCOMES = ["initiatingMessage", "successfulOutcome", "unsuccessfulOutcome"]
RANGES = [
    (0, 0), (0, 1), (0, 255), (-1, 7), (-128, 127), (0, 65535), (1, 65536), (0, 65536), (-2**31, 2**31 - 1), (0, 2**36 - 1), (-2**63, 2**63 - 1), (0, 2**64 - 1),
]
SIZES = [(1, 1), (1, 3), (2, 2), (1, 20), (3, 4), (8, 64), (16, 16), (17, 17), (1, 300), (1, 65535), (127, 129)]
# what stands for some other JSON
OTHERS = [
    None, True, False, 0, -1, 1, 255, 256, 65535, 65536, 2**63 - 1, 2**63, 2**64 - 1, -2**63, "", "0", "01", "AB", "abc", "@", "reject", [], {}, [0], [0, "AB"], [63, "AB"],
    {"unknown": 0}, {"unknown": 63}, {"unknown": 64}, {"...": [0, "AB"]}, {"...": [True]}, {"a": True},
]
# and what `json` doesn't write
SPELLINGS = ["1.0", "-0", "1e2", "18446744073709551616", "-9223372036854775809", '"\\ud800"', '"\\u0041B"', "01", "tru", '"\t"', "NaN", "[1,]", '{"a":true,"a":1}', "1e999", '"é"']


class Type:
    """A type: its text, JSON of a value of it, and JSON of a value whose size is near a bound."""

    def __init__(self, text, value):
        self.text, self.value = text, value


class Maker:
    """Makes types and values by chance. Sets are written beside the types that name them. Once it is loose, what it makes is now and then outside the bounds of the type."""

    def __init__(self, chance):
        self.chance, self.sets, self.names, self.loose = chance, [], 0, False

    def name(self):
        self.names += 1
        return f"{self.chance.choice('abyz')}{self.names}"

    def often(self, share):
        return self.chance.random() < share

    # ---- types without types inside

    def boolean(self):
        return Type("BOOLEAN", lambda: self.often(0.5))

    def integer(self):
        low, high = self.chance.choice(RANGES)
        extensible = high < 2**63 and self.often(0.3)

        def value():
            if self.loose and self.often(0.3):
                return self.chance.choice([low - 1, high + 1])
            if extensible and self.often(0.3):
                return self.chance.choice([low - 1, high + 1, 0, -2**63, 2**63 - 1]) if low > -2**63 else high
            return self.chance.choice([low, high, self.chance.randint(low, high)])

        return Type(f"INTEGER ({low}..{high}{', ...' if extensible else ''})", value)

    def enumerated(self):
        root = [self.name() for _ in range(self.chance.choice([1, 2, 3, 9]))]
        extensible = self.often(0.5)
        added = [self.name() for _ in range(self.chance.choice([0, 0, 1, 3]))] if extensible else []

        def value():
            if extensible and self.often(0.3):
                return {"unknown": self.chance.randint(len(added), 63)}
            return self.chance.choice(root + added)

        return Type(f"ENUMERATED {{{', '.join(root + ['...'] * extensible + added)}}}", value)

    def size(self, varies=False):
        """A size as text, and a call that gives a length."""
        if self.often(0.3):
            return "", lambda: self.chance.choice([0, 1, 2, 3, 5, 20, 127, 128, 130])
        low, high = self.chance.choice([it for it in SIZES if not varies or it[0] < it[1] > 2])
        extensible = self.often(0.3)
        text = f"(SIZE ({low if low == high else f'{low}..{high}'}{', ...' if extensible else ''}))"
        lengths = [low, high, self.chance.randint(low, high)] if high < 1000 else [low, 2, 130]
        others = [0, low - 1, high + 1] if high < 1000 else [low - 1]
        return text, lambda: self.chance.choice(lengths + others * (extensible or self.loose and self.often(0.3)))

    def string(self):
        kind = self.chance.choice(["BIT STRING", "OCTET STRING", "PrintableString"])
        text, length = self.size(kind == "PrintableString")
        letters = {"BIT STRING": "01", "OCTET STRING": HEXADECIMAL, "PrintableString": PRINTABLE}[kind]
        return Type(f"{kind} {text}", lambda: self.letters(letters, length() * (2 if letters is HEXADECIMAL else 1)))

    def letters(self, letters, count):
        return "".join(self.chance.choice(letters) for _ in range(count))

    def raw(self):
        return self.letters(HEXADECIMAL, 2 * self.chance.choice([1, 1, 2, 5, 130]))

    # ---- types with types inside

    def parts(self, depth, optional):
        """Components or alternatives: their text, and their names with their types."""
        found = [(self.name(), self.type(depth + 1), optional and self.often(0.4)) for _ in range(self.chance.choice([1, 2, 3]))]
        return [f"{name} {of.text}{' OPTIONAL' if maybe else ''}" for name, of, maybe in found], found

    def sequence(self, depth):
        texts, root = self.parts(depth, True) if self.often(0.95) else ([], [])
        extensible = self.often(0.5)
        more, added = self.parts(depth, False) if extensible and self.often(0.6) else ([], [])

        def value():
            found = {name: of.value() for name, of, maybe in root if not maybe or self.often(0.5)}
            if extensible and self.often(0.5):
                marks = [of.value() if self.often(0.6) else None for _, of, _ in added]
                if self.often(0.5):
                    marks += [self.raw() if self.often(0.6) else None for _ in range(self.chance.choice([1, 2]))]
                if any(mark is not None for mark in marks):
                    found["..."] = marks
            return found

        return Type(f"SEQUENCE {{{', '.join(texts + ['...'] * extensible + more)}}}", value)

    def choice(self, depth):
        texts, root = self.parts(depth, False)
        extensible = self.often(0.5)
        more, added = self.parts(depth, False) if extensible and self.often(0.5) else ([], [])

        def value():
            if extensible and self.often(0.3):
                return {"...": [self.chance.randint(len(added), 63), self.raw()]}
            name, of, _ = self.chance.choice(root + added)
            return {name: of.value()}

        return Type(f"CHOICE {{{', '.join(texts + ['...'] * extensible + more)}}}", value)

    def list(self, depth):
        text, length = self.size()
        of = self.type(depth + 1)
        return Type(f"SEQUENCE {text} OF {of.text}", lambda: [of.value() for _ in range(min(length(), 400))])

    def container(self, depth):
        rows = [(number, self.chance.choice(CRITICALITIES), self.type(depth + 1), self.often(0.5)) for number in sorted(self.chance.sample(range(6), self.chance.choice([1, 2, 3])))]
        self.chance.shuffle(rows)
        texts = [f"{{ID {number} CRITICALITY {kind} TYPE {of.text} PRESENCE {'optional' if maybe else 'mandatory'}}}" for number, kind, of, maybe in rows]
        name = f"Set{len(self.sets)}"
        self.sets.append(f"{name} PROTOCOL-IES ::= {{{' | '.join(texts)}, ...}}")

        def value():
            given = self.chance.sample(rows, len(rows)) if self.loose else rows
            found = [{"id": number, "criticality": kind, "value": of.value()} for number, kind, of, maybe in given if self.often(0.5 if maybe else 0.9) or not maybe and not self.loose]
            for number in self.chance.sample(range(6, 12), self.chance.choice([0, 0, 1, 2])):
                found.insert(self.chance.randint(0, len(found)), {"id": number, "criticality": self.chance.choice(CRITICALITIES), "raw": self.raw()})
            return found

        return Type(f"ProtocolIE-Container {{{{{name}}}}}", value)

    def pdu(self, depth):
        code, messages = self.chance.randint(0, 255), [self.type(depth + 1) for _ in range(self.chance.choice([1, 2, 3]))]
        kinds = ["INITIATING MESSAGE", "SUCCESSFUL OUTCOME", "UNSUCCESSFUL OUTCOME"]
        row = " ".join(f"{kind} {of.text}" for kind, of in zip(kinds, messages))
        name = f"Set{len(self.sets)}"
        self.sets.append(f"{name} ELEMENTARY-PROCEDURE ::= {{{{{row} PROCEDURE CODE {code} CRITICALITY reject}}, ...}}")

        def value():
            if self.often(0.1):
                return {"...": [self.chance.randint(0, 63), self.raw()]}
            place, body = self.chance.randrange(3), {"criticality": self.chance.choice(CRITICALITIES)}
            if place < len(messages) and self.often(0.7):
                return {OUTCOMES[place]: body | {"procedureCode": code, "value": messages[place].value()}}
            return {OUTCOMES[place]: body | {"procedureCode": code if place >= len(messages) else (code + 1) % 256, "raw": self.raw()}}

        return Type(f"Protocol-PDU {{{{{name}}}}}", value)

    def type(self, depth=0):
        plain = [self.boolean, self.integer, self.integer, self.enumerated, self.string, self.string]
        if depth > 2 or self.often(0.4 if depth else 0.2):
            return self.chance.choice(plain)()
        return self.chance.choice([self.sequence, self.sequence, self.choice, self.list, self.container, self.pdu])(depth)

    # ---- spoilt JSON

    def inside(self, value):
        """The lists and objects of a value, each with a key or an index."""
        found = []
        pairs = list(value.items()) if isinstance(value, dict) else list(enumerate(value)) if isinstance(value, list) else []
        for key, member in pairs:
            found += [(value, key), *self.inside(member)]
        return found

    def near(self, member):
        """What is nearly this member."""
        if isinstance(member, bool) or member is None:
            return self.chance.choice([None, 1, "true"])
        if isinstance(member, int):
            return member + self.chance.choice([-1, 1, 256, 65536, 2**62])
        if isinstance(member, str):
            return self.chance.choice([member + "0", member + "00", member[:-1], member[2:], member + "@", member + "é", member * 2])
        if isinstance(member, list):
            return self.chance.choice([member[:-1], member + member[-1:], member[::-1], member + [None]])
        return self.chance.choice([dict(list(member.items())[:-1]), member | {"more": 1}, member | {"...": ["00"]}, member | {"raw": "AB"}])

    def changed(self, value):
        """One change somewhere in a value."""
        places = self.inside(value)
        if not places or self.often(0.1):
            return self.chance.choice([self.near(value), self.chance.choice(OTHERS)])
        around, key = self.chance.choice(places)
        kind = self.chance.choice(["near", "near", "near", "other", "drop", "more", "rename"])
        if kind == "near":
            around[key] = self.near(around[key])
        elif kind == "other":
            around[key] = self.chance.choice(OTHERS)
        elif kind == "drop":
            del around[key]
        elif kind == "rename" and isinstance(around, dict):
            around[self.chance.choice([*around, "value", "raw", "id", "..."])] = around.pop(key)
        elif isinstance(around, dict):
            around[self.chance.choice(["...", "value", "raw", "more"])] = self.chance.choice(OTHERS)
        else:
            around.insert(self.chance.randint(0, len(around)), self.chance.choice([around[key], *OTHERS]))
        return value

    def written(self, value):
        """JSON as it may be written, half of it as values are printed, which is read in another way."""
        if self.often(0.5):
            return json.dumps(value, ensure_ascii=False, separators=(",", ":"), sort_keys=True)
        text = json.dumps(self.shuffled(value), ensure_ascii=self.often(0.5), separators=self.chance.choice([(",", ":"), (", ", ": "), (" ,\t", " :\r")]))
        if self.often(0.1):
            text = re.sub(r'"([a-z])', lambda found: f'"\\u{ord(found[1]):04x}', text, count=1)
        return text

    def shuffled(self, value):
        if isinstance(value, dict):
            members = [(key, self.shuffled(member)) for key, member in value.items()]
            self.chance.shuffle(members)
            return dict(members)
        return [self.shuffled(member) for member in value] if isinstance(value, list) else value

    def spoilt(self, text):
        """A text with other letters somewhere, or with a member spelled otherwise."""
        place = self.chance.randrange(len(text) + 1)
        kind = self.chance.choice(["cut", "drop", "insert", "member", "member"])
        if kind == "cut":
            return text[:place]
        if kind == "drop":
            return text[:place] + text[place + 1:]
        if kind == "insert":
            return text[:place] + self.chance.choice(list('{}[],:"\\ 0-.é\t')) + text[place:]
        plain = list(re.finditer(r'true|false|null|-?[0-9]+|"[^"\\]*"', text))
        found = self.chance.choice(plain) if plain else None
        return text[: found.start()] + self.chance.choice(SPELLINGS) + text[found.end():] if found else text


def changed_octets(chance, octets):
    """Octets with bits changed, or cut off, or with more after them."""
    left = bytearray(octets)
    for _ in range(chance.choice([0, 1, 1, 1, 2, 4])):
        if left:
            left[chance.randrange(min(len(left), 24))] ^= 1 << chance.randrange(8)
    kind = chance.random()
    return bytes(left[: chance.randrange(len(left) + 1)] if kind < 0.2 else left + bytes([chance.randrange(256)]) if kind < 0.25 else left)


def module_with(maker, of):
    return ["module text", "M DEFINITIONS AUTOMATIC TAGS ::= BEGIN", *maker.sets, f"T ::= {of.text}", "END"]


def call(lines, way):
    return [way, "T"], "\n".join([*lines, ""])


def spelled(other, lines, text):
    """The octets that the other reading spells of a line of JSON, none where it refuses it."""
    _, output = other_reading.answer(other, *call([*lines, text], "encode"))
    first = output.split(b"\n")[0].decode()
    return bytes.fromhex(first) if re.fullmatch("([0-9A-F]{2})+", first) else b"\x00"


def make(other, chance):
    maker = Maker(chance)
    of = maker.type()
    lines = module_with(maker, of)
    kind = chance.choice(["values", "changed", "octets"])
    if kind == "values":
        return call([*lines, *(maker.written(of.value()) for _ in range(chance.randint(1, 4)))], "encode")
    if kind == "changed":
        maker.loose = chance.random() < 0.5
        text = maker.written(of.value() if maker.loose else maker.changed(of.value()))
        return call([*lines, maker.spoilt(text) if chance.random() < 0.2 else text], "encode")
    digits = changed_octets(chance, spelled(other, lines, maker.written(of.value()))).hex()
    return call([*lines, digits.upper() if chance.random() < 0.8 else digits], "decode")


def told(status, output):
    """The status, and for a refused line the reason."""
    reason = re.search(rb"^wrong \d+ (\d+) ", output, re.MULTILINE)
    return f"{status} for {int(reason[1])}" if reason else str(status)


if __name__ == "__main__":
    sys.exit(other_reading.compare(__doc__, "calls of encode and decode", 300, make, told, asks=True))
