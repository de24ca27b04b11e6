"""The transcripts by which the tools of docs/lab.md are tested, those of the examples that are scripts of `run`; and how a tool is given a wrong input."""

import pathlib
import subprocess
import sys
import tempfile

TOOLS = pathlib.Path(__file__).resolve().parent
EXAMPLES = TOOLS.parent / "examples"


def transcripts():
    """The transcripts with at least one event."""
    paths = [path.with_suffix(".out") for path in sorted(EXAMPLES.glob("*.script"))]
    return [path for path in paths if path.read_text().startswith(">")]


def run_tool(tool, *words):
    return subprocess.run([sys.executable, TOOLS / f"{tool}.py", *words], capture_output=True, text=True, check=False)


def check_wrong_inputs(tool, wrong, *more):
    """Whether a tool says of each wrong input, in one line, what is wrong in which line of it, with status 2 and no output. Further words stand after the input."""
    with tempfile.TemporaryDirectory() as folder:
        path = pathlib.Path(folder) / "wrong.out"
        for text, awaited in wrong:
            path.write_bytes(text.encode("latin-1"))
            ran = run_tool(tool, path, *more)
            said = f"{tool}: {path}{awaited}\n"
            assert (ran.returncode, ran.stdout, ran.stderr) == (2, "", said), f"{text!r}: status {ran.returncode}, {ran.stderr!r}, not {said!r}"
        ran = run_tool(tool, path.with_name("none.out"), *more)
        assert ran.returncode == 2 and ran.stderr == f"{tool}: {path.with_name('none.out')}: No such file or directory\n", ran.stderr
