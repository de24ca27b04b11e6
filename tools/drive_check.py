#!/usr/bin/env python3
"""Checks tools/drive.py with the program: what commands become, that the plain script prints what was heard, what is expected and doesn't come, and what is said of wrong commands.

Usage: tools/drive_check.py
"""

import subprocess
import sys

import checks
import drive
import program
import stories

STATIC = "static u1 A 1 1 12 1 64\n"
# commands, and the plain script that they become after the header; by the numbers of examples/late-sn-status.out and docs/definitions/scenario-text.md
BECOMES = [
    (STATIC + "; so\noffer u1 b1 dl 01\nget n3 u1 b1\nget f1-u-dl u1 b1\n", "static u1 A 1 1 12 1 64\n; so\noffer u1 b1 dl 01\nget A.up1/1\nget A.du1/1\n"),
    (STATIC + "offer u1 b1 dl 01\nget n3 u1 b1\nlose f1-u-dl u1 b1\n", "static u1 A 1 1 12 1 64\noffer u1 b1 dl 01\nget A.up1/1\nlose A.du1/1\n"),
    (STATIC + "repeat 3 offer u1 b1 dl {i:04X}\n", STATIC + "offer u1 b1 dl 0000\noffer u1 b1 dl 0001\noffer u1 b1 dl 0002\n"),
    (STATIC + "repeat 2 offer u1 b1 dl 0{i}\nuntil put A.du1/1 u1 b1 dl 1 * do get n3 u1 b1\n", STATIC + "offer u1 b1 dl 00\noffer u1 b1 dl 01\nget A.up1/1\nget A.up1/1\n"),
    (STATIC + "ask u1 b1\nexpect quiet u1 b1 0 0\nnever busy ? ?\n", STATIC + "ask u1 b1\n;= quiet u1 b1 0 0\n;! busy ? ?\n"),
    ("start\nlose F1SetupRequest\ngive next A.up1 A.cp\ngive E1SetupResponse\n", "start\nlose #3\ngive #1\ngive #9\n"),
    ("start\nhold E1AP until got #3 A.du1 A.cp u0 *\nhold F1SetupResponse\npump\n", "start\ngive #3\ngive #1\ngive #2\ngive #4\ngive #5\ngive #6\ngive #7\ngive #8\ngive #10\ngive #11\n"
     + "give #13\ngive #14\n"),
    (STATIC + "handover u1 B 1 1\nhold SNStatusTransfer\npump\nlose SNStatusTransfer\nlet SNStatusTransfer\ntick\n",
     STATIC + "handover u1 B 1 1\n" + "".join(f"give #{number}\n" for number in range(1, 9)) + "lose #9\ntick\n"),
]
# commands; what is said of them after their line
UNMET = [
    (STATIC + "give SNStatusTransfer\n", ":2: no message SNStatusTransfer is in flight"), (STATIC + "give next A.cp B.cp\n", ":2: no message from A.cp to B.cp is in flight"),
    (STATIC + "get n3 u1 b1\n", ":2: nothing stands on a tunnel n3 of u1 b1"), (STATIC + "ask u1 b1\nexpect busy u1 b1\n", ":3: 'ask u1 b1' prints no line 'busy u1 b1'"),
    (STATIC + "ask u1 b1\nnever quiet ? ? ? ?\n", ":3: 'ask u1 b1' prints a line 'quiet ? ? ? ?'"),
]
WRONG = [
    ("tock\n", ":1: awaited an event or a command, and it is 'tock'"), (STATIC + "get A.up3/1\n", ":2: awaited a node, as A.cp, B.up1, A.du2, core or u1 as word 3, and it is 'A.up3/1'"),
    (STATIC + "get n3 u1\n", ":2: awaited a terminal and a bearer, as u1 b1"), (STATIC + "get n3 u1 b9\n", ":2: awaited a bearer, b1 to b8"),
    (STATIC + "give next A.cp\n", ":2: awaited FROM and TO, and there is 'A.cp'"), (STATIC + "hold SNStatusTransfer till x\n", ":2: awaited 'until' and a line after 'hold SNStatusTransfer'"),
    (STATIC + "let F1AP\n", ":2: 'F1AP' isn't held"), (STATIC + "hold F1AP\nsettle\n", ":3: 'settle' would give what is held: take 'until quiet', or 'let' it"),
    (STATIC + "repeat x tick\n", ":2: awaited a number from 1 to 999999 and a command after 'repeat'"),
    (STATIC + "until end 1\n", ":2: awaited 'quiet', or a line, 'do' and a command, after 'until'"), (STATIC + "expect delivr\n", ":2: awaited a line of a transcript of run"),
]


def run(path, text, *words):
    path.write_text(text)
    return subprocess.run([sys.executable, stories.TOOLS / "drive.py", *map(str, words), path], capture_output=True, text=True, check=False)


def test_what_commands_become(tmp_path):
    for commands, script in BECOMES:
        ran = run(tmp_path / "a.drive", commands)
        assert (ran.returncode, ran.stdout, ran.stderr) == (0, f"module builtin\n{script}", ""), ran


def test_until_quiet(tmp_path):
    """Losses, a failed radio and a handover come to rest, with all delivered; the plain script and its transcript are those of the program."""
    commands = ("start\npump\nattach u1 A 1 1 12 2 64\nuntil quiet\noffer u1 b1 dl 01\nget n3 u1 b1\nlose f1-u-dl u1 b1\nuntil quiet\nrepeat 3 offer u1 b2 ul {i:04X}\nfail u1\nuntil quiet\n"
                "handover u1 B 1 2\nhold SNStatusTransfer\npump\nlose SNStatusTransfer\nlet SNStatusTransfer\noffer u1 b1 dl 02\nuntil quiet\nask u1 b1\nexpect quiet u1 b1 2 0\nask u1 b2\nexpect quiet u1 b2 0 3\n")
    script, transcript = tmp_path / "a.script", tmp_path / "a.out"
    ran = run(tmp_path / "a.drive", commands, "--script", script, "--transcript", transcript)
    assert (ran.returncode, ran.stdout, ran.stderr) == (0, "", ""), ran
    assert program.call(["run"], script.read_bytes()).stdout == transcript.read_bytes()
    assert drive.ASKED not in script.read_text() and script.read_text().endswith("ask u1 b2\n;= quiet u1 b2 0 3\n")


def test_the_class():
    driven = drive.Drive()
    driven.event("static u1 A 1 1 12 1 64")
    assert driven.event("offer u1 b1 dl 45") == ["put A.up1/1 u1 b1 dl - 30FF00010000000145"]
    assert driven.get("n3", "u1", "b1")[0] == "got A.up1/1 u1 b1 dl - 30FF00010000000145"
    driven.until_quiet()
    assert driven.event("ask u1 b1") == ["quiet u1 b1 1 0"]
    assert driven.finish().endswith(b"quiet u1 b1 1 0\nend %d\n" % driven.count)


def test_unmet_and_wrong(tmp_path):
    for status, rows in ((1, UNMET), (2, WRONG)):
        for commands, said in rows:
            path = tmp_path / "a.drive"
            ran = run(path, commands)
            assert (ran.returncode, ran.stderr) == (status, f"drive: {path}{said}\n"), ran
            assert (ran.stdout == "") == (status == 2), ran
    ran = subprocess.run([sys.executable, stories.TOOLS / "drive.py", tmp_path / "none"], capture_output=True, text=True, check=False)
    assert (ran.returncode, ran.stderr) == (2, f"drive: {tmp_path / 'none'}: No such file or directory\n"), ran


def test_a_program_that_ends(tmp_path):
    with checks.as_program(tmp_path, "import sys\nif sys.argv[1] == 'run':\n    sys.exit(9)\n"):
        ran = run(tmp_path / "a.drive", STATIC)
    assert ran.returncode in (1, 2) and ran.stderr.startswith("drive: "), ran


if __name__ == "__main__":
    program.prepare()
    sys.exit(checks.run(__file__))
