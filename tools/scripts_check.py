#!/usr/bin/env python3
"""Checks docs/scripts.md and the suites: each script of the page passes and each list of commands becomes a script that passes, with the program; and each script beside a file `.drive`
in examples/suites is what tools/drive.py makes of that.

Usage: tools/scripts_check.py
"""

import re
import subprocess
import sys

import checks
import program
import stories
import suite

PAGE = stories.TOOLS.parent / "docs/scripts.md"
SUITES = stories.EXAMPLES / "suites"


def blocks(kind):
    """The blocks of the page of a kind: a name, and the text."""
    return re.findall(f"^```{kind} (\\S+)\n(.*?)^```$", PAGE.read_text(), re.MULTILINE | re.DOTALL)


def driven(path):
    """The plain script that commands become."""
    ran = subprocess.run([sys.executable, stories.TOOLS / "drive.py", path], capture_output=True, text=True, check=False)
    assert (ran.returncode, ran.stderr) == (0, ""), f"{path}: {ran.stderr}"
    return ran.stdout


def test_scripts_of_the_page(tmp_path):
    found = blocks("script") + [(f"{name}.script", None) for name, _ in blocks("drive")]
    assert len(found) >= 3
    for name, text in blocks("drive"):
        (tmp_path / name).write_text(text)
        (tmp_path / f"{name}.script").write_text(driven(tmp_path / name))
    for name, text in blocks("script"):
        (tmp_path / name).write_text(text)
    for name, _ in found:
        verdict = suite.judge(tmp_path / name)
        assert verdict.word == ("none" if name == "first.script" else "pass"), verdict.problems


def test_what_the_page_says_of_a_failure(tmp_path):
    text = dict(blocks("script"))["expected.script"].replace("quiet u1 b1 1 0", "quiet u1 b1 2 0")
    (tmp_path / "expected.script").write_text(text)
    told = suite.told(suite.judge(tmp_path / "expected.script")).replace(f"{tmp_path}/", "")
    assert f"\n{told}\n" in PAGE.read_text(), told


def test_driven_scripts():
    paths = sorted(SUITES.rglob("*.drive"))
    assert paths
    for path in paths:
        assert path.with_suffix(".script").read_text() == driven(path), f"{path.with_suffix('.script')} isn't what tools/drive.py makes of {path.name}"


def test_each_suite_can_fail(tmp_path):
    """A program that prints nothing passes no case of the suites."""
    with checks.as_program(tmp_path, "import sys\nsys.stdin.read()\n"):
        for path in sorted(SUITES.rglob("*.script")):
            assert suite.judge(path).word == "fail", path


if __name__ == "__main__":
    program.prepare()
    sys.exit(checks.run(__file__))
