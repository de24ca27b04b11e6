#!/usr/bin/env python3
"""Checks tools/summary.py: what it says of stories as a person counts it, its numbers of all stories beside lines that are counted otherwise, its statuses, and what it says of wrong inputs.

Usage: tools/summary_check.py
"""

import json
import re
import sys

import checks
import stories
import summary
from captures_check import WRONG

BEGIN = "> static u1 A 1 1 12 1 64\n"
# the F1AP message that each example of the README decodes: a UL RRC Message Transfer
UPLINK = "000600150000030001000100000700040340000200634001AA"
AGAIN = (BEGIN + f"> tick\nput #1 A.du1 A.cp u1 {UPLINK}\nput #2 A.du1 A.cp u1 {UPLINK}\nput #3 A.du1 A.cp u1 {UPLINK}\n> give #1\ngot #1 A.du1 A.cp u1 {UPLINK}\n"
         + f"> give #1\ngot #1 A.du1 A.cp u1 {UPLINK}\ndrop A.cp Stale\n> lose #2\nlost #2 1\n> ask u1 b1\nbusy u1 b1\nend 6\n")


def told(*words):
    ran = stories.run_tool("summary", "--json", *words)
    assert ran.returncode == 0, ran.stderr
    return json.loads(ran.stdout)


def test_by_hand():
    found = told(stories.EXAMPLES / "lost-on-f1-u.out")
    assert (found["events"], found["ending"], found["remarkable"], found["held"], found["messages"]) == (18, "end", [], [], [])
    assert found["bearers"] == [{"ue": "u1", "bearer": "b1", "direction": "dl", "offered": 3, "delivered": 3, "outstanding": 0, "offeredOctets": 3, "deliveredOctets": 3}]
    assert found["lost"] == [{"kind": "F1-U-DL", "link": "A.du1/1", "items": 1}]
    assert found["dropped"] == [{"reason": "Duplicate", "node": "u1", "from": "Uu-DL", "items": 1}, {"reason": "Gap", "node": "A.du1", "from": "F1-U-DL", "items": 1}]


def test_held_and_refused():
    found = told(stories.EXAMPLES / "late-sn-status.out")
    assert {entry["reason"] for entry in found["held"]} == {"NoStatus"}
    assert next(entry for entry in found["messages"] if entry["name"] == "SNStatusTransfer")["lost"] == 2
    refused = told(stories.EXAMPLES / "foreign-octets.out")["remarkable"]
    assert [(entry["event"], entry["scriptLine"], entry["line"]) for entry in refused] == [
        (6, 12, "refused Decodable"), (14, 25, "refused Decodable"), (15, 26, "refused Decodable"), (16, 28, "refused NoLink"), (17, 29, "refused NoSuch")]


def test_messages(tmp_path):
    path = tmp_path / "again.out"
    path.write_text(AGAIN)
    found = told(path)
    assert found["messages"] == [{"name": "ULRRCMessageTransfer", "put": 3, "given": 1, "givenAgain": 1, "lost": 1, "inFlight": 1}]
    assert found["dropped"] == [{"reason": "Stale", "node": "A.cp", "from": "ULRRCMessageTransfer", "items": 1}]
    assert found["remarkable"] == [{"event": 6, "scriptLine": None, "text": "ask u1 b1", "line": "busy u1 b1"}]


def test_stories():
    """The numbers of each story, beside those of a search through its text."""
    for path in stories.transcripts():
        text, found = path.read_text(), summary.as_json(summary.add_up(path), None)
        assert sum(entry["put"] for entry in found["messages"]) == len(re.findall("^put #", text, re.M)), path
        assert sum(entry["given"] + entry["givenAgain"] for entry in found["messages"]) == len(re.findall("^got #", text, re.M)), path
        assert sum(entry["items"] for entry in found["lost"]) == sum(map(int, re.findall(r"^lost [^#\n]+ (\d+)$", text, re.M))), path
        assert sum(entry["items"] for entry in found["dropped"]) == len(re.findall("^drop ", text, re.M)), path
        assert sum(entry["times"] for entry in found["held"]) == len(re.findall("^held ", text, re.M)), path
        assert sum(entry["delivered"] for entry in found["bearers"]) == len(re.findall("^deliver ", text, re.M)), path
        offers = len(re.findall("^> offer ", text, re.M)) - len(re.findall("^> offer .*\nrefused ", text, re.M))
        assert sum(entry["offered"] for entry in found["bearers"]) == offers, path
        assert len(found["remarkable"]) == len(re.findall("^(refused|failed|busy|unsettled|outstanding|stop) ?", text, re.M)), path


def test_strict(tmp_path):
    cut = tmp_path / "cut.out"
    cut.write_text(BEGIN)
    for path, status in ((stories.EXAMPLES / "lost-on-f1-u.out", 0), (stories.EXAMPLES / "foreign-octets.out", 1), (stories.EXAMPLES / "wrong-line.out", 1), (cut, 1)):
        assert stories.run_tool("summary", "--strict", path).returncode == status, path
        assert stories.run_tool("summary", path).returncode == 0, path


def test_text():
    ran = stories.run_tool("summary", stories.EXAMPLES / "lost-on-f1-u.out")
    assert ran.stdout.startswith("18 events; ending: end\n\nPackets\n  ue  bearer  direction  offered  delivered  outstanding\n  u1  b1      dl         3        3          0\n\nLost\n")


def test_wrong_inputs(tmp_path):
    stories.check_wrong_inputs("summary", WRONG)
    story, script = stories.EXAMPLES / "lost-on-f1-u.out", tmp_path / "other.script"
    for text, said in (("module builtin\nstatic u1 A 1 1 12 1 64\n", f"summary: {story}: event 2 is 'offer u1 b1 dl 01', and {script} has 1 events\n"),
                       ("module builtin\n; so\ntick\n", f"summary: {story}: event 1 is 'static u1 A 1 1 12 1 64', and in {script}, line 3, it is 'tick'\n"),
                       ("module builtin\ntick\n;= tock\n", f"summary: {script}:3: awaited a line of a transcript of run\n")):
        script.write_text(text)
        ran = stories.run_tool("summary", "--script", script, story)
        assert (ran.returncode, ran.stdout, ran.stderr) == (2, "", said), ran
    ran = stories.run_tool("summary", "--script", tmp_path / "none", story)
    assert (ran.returncode, ran.stderr) == (2, f"summary: {tmp_path / 'none'}: No such file or directory\n"), ran


if __name__ == "__main__":
    sys.exit(checks.run(__file__))
