#!/usr/bin/env python3
"""Checks tools/codec.py with the program: headers, forms of digits, bad lines, names, types of a module, inputs of several calls; and what it says of wrong calls.

Usage: tools/codec_check.py
"""

import json
import subprocess
import sys

import checks
import codec
import program
import stories

OCTETS = "000600150000030001000100000700040340000200634001AA"
VALUE = (stories.EXAMPLES / "uplink-transfer-json.F1AP-PDU.encode").read_text().splitlines()[1]
TEXT = "M DEFINITIONS AUTOMATIC TAGS ::= BEGIN\nT ::= SEQUENCE {a BOOLEAN, b INTEGER (0..255)}\n-- U ::= BOOLEAN\nW ::= SEQUENCE OF BOOLEAN\nX ::= OCTET STRING\nEND\n"


def run(*words, given=""):
    ran = subprocess.run([sys.executable, stories.TOOLS / "codec.py", *map(str, words)], input=given, capture_output=True, text=True, check=False)
    return ran.returncode, ran.stdout, ran.stderr


def test_forms_of_digits(tmp_path):
    digits = [OCTETS, OCTETS.lower(), f"0x{OCTETS}", " ".join(OCTETS[at : at + 2] for at in range(0, len(OCTETS), 2)), f"0X{OCTETS[:10]} {OCTETS[10:]}\r"]
    for header in ("", "module builtin\n", "module builtin 2\n"):
        assert run("decode", "F1AP-PDU", given=header + "\n".join(digits)) == (0, f"{VALUE}\n" * len(digits), "")
    path = tmp_path / "in.txt"
    path.write_text(OCTETS)
    assert run("decode", "--module", "2", "F1AP-PDU", path) == (0, f"{VALUE}\n", "")


def test_bad_lines(tmp_path):
    """Each line is answered, by the reasons of docs/definitions/program.md and aper.md: no digits, an empty encoding cut off, octets left, one digit too many."""
    path = tmp_path / "in.txt"
    path.write_text(f"{OCTETS}\nzz\n\n{OCTETS}00\n{OCTETS}0\n{OCTETS}\n")
    status, out, said = run("decode", "F1AP-PDU", path)
    assert status == 1 and out.splitlines() == [VALUE, "wrong 0 100 -", "wrong 0 1 -", f"wrong {4 * len(OCTETS)} 9 -", "wrong 0 100 -", VALUE]
    assert said.splitlines()[:2] == [f"codec: {path}:2: wrong 0 100 -: not hexadecimal digits", f"codec: {path}:3: wrong 0 1 -: a field passes the last octet"]
    assert run("encode", "F1AP-PDU", given=f"module builtin\n{{\n{VALUE}\n") == (1, f"wrong 0 101 -\n{OCTETS}\n", "codec: -:2: wrong 0 101 -: no JSON\n")


def test_names():
    status, out, said = run("decode", "--names", "F1AP-PDU", given=OCTETS)
    body = json.loads(out)["initiatingMessage"]
    assert (status, said, body["#procedure"]) == (0, "", "ULRRCMessageTransfer")
    assert [(entry["id"], entry.get("#element")) for entry in body["value"]["protocolIEs"]] == [(1, "ue"), (7, "container"), (99, None)]
    assert run("encode", "F1AP-PDU", given=out) == (0, f"{OCTETS}\n", "")
    # a procedure that the profile doesn't have has no name, and a token is no message
    assert "#procedure" not in run("decode", "--names", "F1AP-PDU", given="006300020000")[1]
    assert run("decode", "--names", "RrcToken", given="400002") == run("decode", "RrcToken", given="400002")


def test_modules(tmp_path):
    path = tmp_path / "m.asn1"
    path.write_text(TEXT)
    assert run("types", "--module", path) == (0, "T  SEQUENCE\nW  SEQUENCE OF\nX  OCTET STRING\n", "")
    status, out, _ = run("types")
    assert status == 0 and len(out.splitlines()) == 53 and out.startswith("UE  INTEGER\nBearer  INTEGER\n")
    assert run("decode", "--module", path, "T", given="80C8") == (0, '{"a":true,"b":200}\n', "")
    assert run("encode", "T", given=f"module text\n{TEXT}" + '{"a":true,"b":200}\n') == (0, "80C8\n", "")


def test_several_calls():
    """An input in small pieces, with bad lines between, is answered as in one call a line."""
    lines = [b"80C8", b"zz", b"", b"00FF", b"80C800"] * 4
    header = ["module text", *TEXT.splitlines()]
    wanted = [next(iter(codec.answers("decode", "T", header, [line]))) for line in lines[:5]] * 4
    before = codec.BYTES, codec.LINES
    try:
        for codec.BYTES, codec.LINES in ((1, 100), (10, 2), (1000, 3), (1000, 1000)):
            assert list(codec.answers("decode", "T", header, lines)) == wanted
    finally:
        codec.BYTES, codec.LINES = before
    assert [answer for answer, _ in wanted[:5]] == [True, False, False, True, False]


def test_a_line_that_is_too_long():
    found = list(codec.answers("decode", "T", ["module text", *TEXT.splitlines()], [b"80C8", b"0" * 17_000_000, b"80C8"]))
    assert found == [(True, '{"a":true,"b":200}'), (False, "stop 11 16777217 0"), (True, '{"a":true,"b":200}')]


@checks.of_octets(8, 24)
def test_random_octets(octets):
    """Lines of random octets, three each, are answered as each by itself."""
    lines = [octets[at : at + 3].hex().encode() for at in range(0, len(octets), 3)]
    each = [next(iter(codec.answers("decode", "RrcToken", ["module builtin"], [line]))) for line in lines]
    assert list(codec.answers("decode", "RrcToken", ["module builtin"], lines)) == each


def test_wrong_calls(tmp_path):
    none, text = tmp_path / "none", tmp_path / "m.asn1"
    text.write_text("M DEFIN\nEND\n")
    for words, given, said in (
        (["decode"], "", "decode needs a type"), (["recode", "T"], "", "argument what: invalid choice: 'recode' (choose from 'decode', 'encode', 'types')"),
        (["decode", "T", none], "", f"{none}: No such file or directory"), (["types", "--module", none], "", f"{none}: No such file or directory"),
        (["decode", "--module", "2", "T"], "module builtin\n", "the input has a header, and --module names a module too"),
        (["decode", "--names", "T"], f"module text\n{TEXT}80C8\n", "--names reads the profile's module alone: give no header, or 'module builtin' or 'module builtin 2'"),
    ):
        assert run(*words, given=given) == (2, "", f"codec: {said}\n"), words
    for words, given in ((["decode", "Nope"], ""), (["decode", "Nope"], "00"), (["types", "--module", text], ""), (["decode", "T"], "module other\n")):
        status, out, said = run(*words, given=given)
        assert status == 2 and out == "" and said.startswith("codec: ") and said.count("\n") == 1, said


if __name__ == "__main__":
    program.prepare()
    sys.exit(checks.run(__file__))
