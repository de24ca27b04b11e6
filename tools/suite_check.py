#!/usr/bin/env python3
"""Checks tools/suite.py on a program that prints what its input says: the line `;> LINE` has it print LINE, `;status N` ends it with status N, `;error TEXT` has it write to standard
error, and `;wait` has it never end.

Usage: tools/suite_check.py
"""

import subprocess
import sys
import xml.etree.ElementTree as ElementTree

import checks
import program
import stories
import suite

PROGRAM = """
import re, sys, time
if sys.argv[1:] == ["verify"] or sys.argv[1] not in ("run", "um", "decode", "profile", "check"):
    print("stop 2 0 0")
    sys.exit(2)
text = sys.stdin.read() if sys.argv[1] != "profile" else ""
for line in re.findall("^;> (.*)$", text, re.M):
    print(line, flush=True)
for line in re.findall("^;error (.*)$", text, re.M):
    print(line, file=sys.stderr)
while ";wait" in text:
    time.sleep(1)
sys.exit(int((re.findall("^;status (.*)$", text, re.M) or ["0"])[0]))
"""
# says of a transcript with `quiet` that it isn't sound, of one with `busy` nothing; a script has what is printed and the status between bars
VERIFIES = """
import sys
text = sys.stdin.read()
if sys.argv[1:] == ["verify"]:
    if "busy" not in text:
        print("unsound 2 5" if "quiet" in text else f"sound {len(text.splitlines())}")
    sys.exit(12 if "quiet" in text else 11 if "busy" in text else 0)
_, printed, status, *_ = (text + "|||").split("|")
print(printed, file=sys.stdout)
print("gnb: so", file=sys.stderr)
sys.exit(int(status or 0))
"""
HEAD = "module builtin\n"
# a script; its verdict, and what is told of it
CASES = {
    "nothing.script": (HEAD + "tick\n;> > tick\n;> end 1\n", "none", ""),
    "comes.script": (HEAD + "tick\n;> > tick\n;> settled 3\n;= settled 3\n;> end 1\n", "pass", ""),
    "star.script": (HEAD + "tick\n;> > tick\n;> deliver u1 b1 dl 0 4500\n;= deliver u1 b1 dl ? *\n;> end 1\n", "pass", ""),
    "small.script": (HEAD + "tick\n;> > tick\n;> deliver u1 b1 dl 0 4F\n;= deliver u1 b1 dl 0 4f\n;> end 1\n", "pass", ""),
    "number.script": (HEAD + "tick\n;> > tick\n;> got #12 A.cp A.du1 u1 00\n;= got #? A.cp A.du? u1 *\n;> end 1\n", "pass", ""),
    "star-no-octets.script": (HEAD + "tick\n;= deliver u1 b1 dl 0 *\n;> > tick\n;> deliver u1 b1 dl 0 4\n;> end 1\n", "fail",
                              ":3: 'tick' prints not 'deliver u1 b1 dl 0 *'; it prints 'deliver u1 b1 dl 0 4' and 1 other line"),
    "absent.script": (HEAD + "tick\n;> > tick\n;= settled 3\n;> end 1\n", "fail", ":4: 'tick' prints not 'settled 3'; it prints 'end 1'"),
    "forbidden.script": (HEAD + "tick\n;> > tick\n;> refused Empty\n;! refused ?\n;> end 1\n", "fail",
                         ":5: 'tick' prints 'refused Empty', which must not come; it prints 'refused Empty' and 1 other line"),
    "not-forbidden.script": (HEAD + "tick\n;! refused ?\nask u1 b1\n;> > tick\n;> > ask u1 b1\n;> refused Empty\n;= refused Empty\n;> end 2\n", "pass", ""),
    "order.script": (HEAD + "tick\n;> > tick\n;> settled 1\n;> busy u1 b1\n;= busy u1 b1\n;= settled 1\n;> end 1\n", "fail",
                     ":7: 'tick' prints not 'settled 1'; it prints 'settled 1' and 2 other lines"),
    "twice.script": (HEAD + "tick\n;> > tick\n;> busy u1 b1\n;= busy u1 b1\n;= busy u1 b1\n;> end 1\n", "fail",
                     ":6: 'tick' prints not 'busy u1 b1'; it prints 'busy u1 b1' and 1 other line"),
    "stop.script": (HEAD + "tick\ntock\n;= stop 4 3 1\n;> > tick\n;> stop 4 3 1\n;status 4\n;error gnb: a word\n", "pass", ""),
    "no-stop.script": (HEAD + "tick\n;= stop 4 3 1\ntock\n;> > tick\n;> stop 4 4 1\n;status 4\n;error gnb: a word\n", "fail",
                       ":3: 'tick' prints not 'stop 4 3 1'; it prints nothing"),
    "status.script": (HEAD + "tick\n;= end 1\n;> > tick\n;> end 1\n;status 3\n;error gnb: so\n", "fail", ": the status is 3, and the last line says 0"),
    "silent.script": (HEAD + "tick\n;= stop 6 0 0\n;> > tick\n;> stop 6 0 0\n;status 6\n", "fail", ": the status is 6, and standard error says nothing of it"),
    "usage.script": (HEAD + "tick\n;= stop 4 2 1\n;> > tick\n;> stop 4 2 1\n;status 4\n;error gnb: so\n;error and so on\n", "pass", ""),
    "unexplained.script": (HEAD + "tick\n;= stop 4 2 1\n;> > tick\n;> stop 4 2 1\n;status 4\n;error so\n", "fail", ": the status is 4, and standard error says nothing of it"),
    "odd.script": (HEAD + "tick\n;= end 1\n;> > tick\n;> end 1\n;error oh\n", "fail", ": standard error has 'oh'"),
    "wait.script": (HEAD + "tick\n;= end 1\n;> > tick\n;> end 1\n;wait\n", "fail", ": it didn't end within 1 seconds"),
    "text.script": ("module text\n;= no remark\nEND\ntick\n;> > tick\n;> settled 1\n;= settled 1\n;> end 1\n", "pass", ""),
    "bearer.um": ("; gnb um 12 2\n\nask\n;> > ask\n;> waiting 0 0 0\n;= waiting 0 ? 0\n;> end 1\n", "pass", ""),
    "values.T.decode": (HEAD + ";> 01\n;> 02\n", "fail", ":2: values.T.out:1 has '1', and '01' is printed"),
    "stored.script": (HEAD + "tick\n;> > tick\ntick\n;> > tick\n;> settled 1\n;> end 2\n", "fail", ":4: stored.script.out"),
}
STORED = {"values.T.out": "1\n02\n", "stored.out": "> tick\n> tick\nsettled 2\nend 2\n"}
CASES["stored.script"] = (*CASES["stored.script"][:2], ":4: stored.out:3 has 'settled 2', and 'settled 1' is printed")
# a file, and what is said of it after its name
WRONG = {
    "a.script": (HEAD + ";= end 1\n", ":2: a remark before the first event: ';= end 1'"),
    "b.script": (HEAD + "tick\n;=end 1\n", ":3: awaited a blank and a line after ';='"),
    "c.script": (HEAD + "tick\n;! \n", ":3: awaited a blank and a line after ';!'"),
    "d.script": (HEAD + "tick\n;! delivr u1\n", ":3: awaited a line of a transcript of run"),
    "e.script": (HEAD + "tick\n;! deliver u1 b1 dl 0\n", ":3: awaited 5 words after 'deliver', and there are 4"),
    "f.script": (HEAD + "tick\n;! deliver u1 b9 dl 0 *\n", ":3: awaited a bearer, b1 to b8 as word 3, and it is 'b9'"),
    "g.script": (HEAD + "tick\n;= > tick\n", ":3: awaited a line that an event prints, not the event"),
    "h.script": (HEAD + "tick\n;! drop A.cp Stal\n", ":3: awaited one of Undecodable, Criticality, NoContext, NoTunnel, Stale, Busy, Duplicate, Gap, Unexpected as word 3, and it is 'Stal'"),
    "i.um": ("; um 12 2\n", ":1: awaited '; gnb um N T' or '; gnb duplicate N Q', and it is '; um 12 2'"),
    "j.um": ("; gnb um 12 2\nask\n;! busy u1 b1\n", ":3: awaited one of put, got, deliver, drop, held, lost, waiting, refused, outstanding, end, stop as word 1, and it is 'busy'"),
    "k.decode": (HEAD, ": awaited a name with a type, as NAME.TYPE.decode"),
    "l.out": ("end 0\n", ": no case is beside this transcript"),
    "m.text": ("", ": awaited a folder, or a file that ends with .script, .check, .verify, .um, .dup, .encode, .decode, .words"),
}


def write(folder, files):
    folder.mkdir(exist_ok=True)
    for name, text in files.items():
        (folder / name).write_text(text)


def test_verdicts(tmp_path):
    folder = tmp_path / "cases"
    write(folder, {name: text for name, (text, _, _) in CASES.items()} | STORED)
    with checks.as_program(tmp_path, PROGRAM):
        for name, (_, word, told) in CASES.items():
            verdict = suite.judge(folder / name, 1 if name == "wait.script" else 300)
            problems = f"{folder / name}{told}" if told else ""
            assert (verdict.word, "".join(verdict.problems[:1])) == (word, problems), f"{name}: {verdict.word}, {verdict.problems}"


def test_report(tmp_path):
    folder, report = tmp_path / "cases", tmp_path / "out.xml"
    write(folder, {name: CASES[name][0] for name in ("nothing.script", "comes.script", "absent.script")})
    with checks.as_program(tmp_path, PROGRAM):
        ran = stories.run_tool("suite", "--junit", report, folder)
    assert ran.returncode == 1 and ran.stdout.splitlines() == [
        f"fail  {folder}/absent.script:4: 'tick' prints not 'settled 3'; it prints 'end 1'",
        f"pass  {folder}/comes.script", f"none  {folder}/nothing.script",
        "3 cases: 1 pass, 1 fail, 1 none; soundness was not looked at: the program has no word 'verify'"], ran
    [found] = ElementTree.parse(report).getroot()
    assert [found.get(name) for name in ("tests", "failures", "skipped", "errors")] == ["3", "1", "1", "0"]
    assert [(case.get("name"), [child.tag for child in case]) for case in found.iter("testcase")] == [
        ("absent.script", ["failure"]), ("comes.script", []), ("nothing.script", ["skipped"])]
    assert found.find("properties/property").get("value") == "not looked at: the program has no word 'verify'"


def test_soundness(tmp_path):
    folder = tmp_path / "cases"
    write(folder, {"a.script": "|> tick\nsettled 0\nquiet u1 b1 0 0\nend 1|", "b.script": "|> tick\nend 1|", "c.script": "|> tick\nquiet u1 b1 0 0\nstop 4 2 1|4|",
                   "d.script": "|differs quiet\nstop 3 0 20|3|", "e.script": "|> tick\nbusy u1 b1\nend 1|", "f.verify": "|quiet|"})
    with checks.as_program(tmp_path, VERIFIES):
        ran = stories.run_tool("suite", folder)
    assert ran.returncode == 1 and ran.stdout.splitlines() == [
        f"fail  {folder}/a.script: the transcript isn't sound: 'unsound 2 5'", f"none  {folder}/b.script",
        f"fail  {folder}/c.script: the transcript isn't sound: 'unsound 2 5'", f"none  {folder}/d.script",
        f"fail  {folder}/e.script: the transcript of 3 lines wasn't judged: status 11", f"none  {folder}/f.verify",
        "6 cases: 0 pass, 3 fail, 3 none; soundness was looked at by 'verify'"], ran


def test_wrong_inputs(tmp_path):
    with checks.as_program(tmp_path, PROGRAM):
        for name, (text, said) in WRONG.items():
            folder = tmp_path / name.split(".")[0]
            write(folder, {name: text})
            path = folder / name
            ran = stories.run_tool("suite", path if name == "m.text" else folder)
            assert (ran.returncode, ran.stdout, ran.stderr) == (2, "", f"suite: {path}{said}\n"), f"{name}: {ran}"
        (tmp_path / "empty").mkdir()
        for words, said in (([tmp_path / "none"], f"{tmp_path / 'none'}: No such file or directory"), ([], "the following arguments are required: folder"),
                            ([tmp_path / "empty"], f"{tmp_path / 'empty'}: no case in it; a case ends with .script, .check, .verify, .um, .dup, .encode, .decode, .words")):
            ran = stories.run_tool("suite", *words)
            assert (ran.returncode, ran.stderr) == (2, f"suite: {said}\n"), ran


def test_without_a_program(tmp_path):
    write(tmp_path, {"a.script": HEAD})
    with checks.as_program(tmp_path, "import sys\nprint('gnb: no rt in PATH', file=sys.stderr)\nsys.exit(1)\n"):
        ran = stories.run_tool("suite", tmp_path)
    assert (ran.returncode, ran.stderr) == (2, f"suite: {sys.executable}: status 1, gnb: no rt in PATH\n"), ran


def test_the_kept_program(tmp_path):
    """The program that `./gnb` runs is asked for once, by the tool that knows it; why there is none is said."""
    write(tmp_path / "tools", {"kept_program.py": "print('/kept/gnb')\n"})
    assert program.kept(tmp_path) == ["/kept/gnb"] and program.kept(tmp_path / "none") == [str(tmp_path / "none/gnb")]
    write(tmp_path / "other", {})
    write(tmp_path / "other/tools", {"kept_program.py": "import sys\nprint('gnb: no rt is in PATH', file=sys.stderr)\nsys.exit(1)\n"})
    try:
        program.kept(tmp_path / "other")
    except program.NoProgram as wrong:
        assert str(wrong) == "gnb: no rt is in PATH"
    else:
        raise AssertionError("a program is told of where there is none")


def test_usage():
    assert subprocess.run([sys.executable, stories.TOOLS / "suite.py", "--help"], capture_output=True, check=True).stdout.startswith(b"usage: suite")


if __name__ == "__main__":
    sys.exit(checks.run(__file__))
