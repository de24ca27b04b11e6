#!/usr/bin/env python3
"""Checks tools/control_messages.py: what it says of messages of the worked rows, of each control message of the examples beside a search through its JSON, and of octets that are no message.

Usage: tools/messages_check.py
"""

import json
import sys

import checks
import control_messages
import endpoints
import program
import stories
import transcripts

# worked by hand, after docs/definitions/messages.md and aper.md
ROWS = [
    ("F1AP-PDU", "000600150000030001000100000700040340000200634001AA",
     {"ULRRCMessageTransfer": {"ue": 1, "container": {"octets": "400002", "RrcToken": {"reestablish": {"ue": 1, "epoch": 2}}}, "#99": {"criticality": "ignore", "raw": "AA"}}}),
    ("F1AP-PDU", "000200250000060001000100000200020001000300020001000500030000020009000100000C000100",
     {"UEContextSetupRequest": {"ue": 1, "instance": 1, "epoch": 1, "uplinks": [{"bearer": 1, "teid": 2}], "sn": "len12", "peer": {"gnb": "a", "up": 1}}}),
    ("F1AP-PDU", "0006", None), ("F1AP-PDU", "000600150000030001000100000700040340000200634001AA00", None), ("RrcToken", "FF", None),
    ("RrcToken", "400002", {"reestablish": {"ue": 1, "epoch": 2}}),
    # a procedure that the profile doesn't have
    ("F1AP-PDU", "006300020000", {"initiatingMessage of procedure 99": {"raw": "0000"}}),
]


def messages():
    """The type and octets of each control message of the examples, each once."""
    found = {}
    for path in stories.transcripts():
        for line, ends, _ in endpoints.with_ends(transcripts.read_file(path)):
            if line.is_control:
                found[ends.kind.stands, line.octets] = None
    return list(found)


def test_by_hand():
    for of_type, octets, value in ROWS:
        assert control_messages.read(of_type, bytes.fromhex(octets)) == value, octets


def test_examples():
    """Each message of the examples is one; its elements are as many as the list in its JSON has, with the same values."""
    found = messages()
    assert len(found) > 100
    for of_type in sorted({of_type for of_type, _ in found}):
        listed = [octets for its, octets in found if its == of_type]
        ran = program.call(["decode", of_type], "\n".join(["module builtin 2", *(octets.hex() for octets in listed), ""]).encode())
        assert ran.returncode == 0
        for octets, line in zip(listed, ran.stdout.decode().splitlines(), strict=True):
            [(name, elements)] = control_messages.read(of_type, octets).items()
            if of_type != "RrcToken":
                [body] = json.loads(line).values()
                values = [element["value"] for element in body["value"]["protocolIEs"]]
                assert [part["octets"] if isinstance(part, dict) and "octets" in part else part for part in elements.values()] == values, (name, line)


def test_without_a_program(tmp_path):
    """A tool that has a control message to read says in one line that the program can't be run; one without messages needs no program."""
    story = stories.EXAMPLES / "usual-day.out"
    with checks.as_program(tmp_path, "import sys\nprint('gnb: no rt is in PATH', file=sys.stderr)\nsys.exit(1)\n"):
        ran = stories.run_tool("to_chart", story)
        assert (ran.returncode, ran.stdout, ran.stderr) == (2, "", f"to_chart: {story}: its control messages can't be read: no rt is in PATH\n"), ran
        assert stories.run_tool("to_chart", stories.EXAMPLES / "lost-on-f1-u.out").returncode == 0


if __name__ == "__main__":
    program.prepare()
    sys.exit(checks.run(__file__))
