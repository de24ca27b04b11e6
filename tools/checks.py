"""Runs the tests of a check, the functions of its file whose names begin with `test_`: by pytest where it is installed, and else one after another. A test may take `tmp_path`, a new
folder.

Nothing here is proved.
"""

import contextlib
import importlib.util
import inspect
import os
import pathlib
import random
import runpy
import shutil
import subprocess
import sys
import tempfile

HAS_HYPOTHESIS = importlib.util.find_spec("hypothesis") is not None


class NotLookedAt(Exception):
    """Why a test didn't look, where pytest isn't installed."""


def pytest_command():
    """The words that start pytest, or None where it isn't installed."""
    if importlib.util.find_spec("pytest"):
        return [sys.executable, "-m", "pytest"]
    found = shutil.which("pytest-3")
    return [found] if found else None


def not_looked_at(why):
    """Ends a test that can't look here: pytest calls it skipped and says why, and so does the plain run."""
    try:
        import pytest
    except ImportError:
        raise NotLookedAt(why) from None
    pytest.skip(f"not looked at: {why}")


def run(path):
    """Runs the tests of a file; the status to end with. REPORTS is a folder for pytest's report as JUnit's XML."""
    command, name = pytest_command(), pathlib.Path(path).stem
    if command is None:
        return run_plainly(path, name)
    words = ["-q", "-rs", "-p", "no:cacheprovider", "--rootdir", str(pathlib.Path(path).parent)]
    reports = os.environ.get("REPORTS")
    words += [f"--junit-xml={reports}/{name}.xml"] if reports else []
    return subprocess.run([*command, *words, str(path)], check=False, env={**os.environ, "PYTHONDONTWRITEBYTECODE": "1"}).returncode


def run_plainly(path, name):
    tests, passed = {key: value for key, value in runpy.run_path(str(path)).items() if key.startswith("test_")}, 0
    for key, test in tests.items():
        with tempfile.TemporaryDirectory() as folder:
            try:
                test(*[pathlib.Path(folder)] * ("tmp_path" in inspect.signature(test).parameters))
                passed += 1
            except NotLookedAt as why:
                print(f"{name}: {key} not looked at: {why}")
    print(f"{name}: {passed} of {len(tests)} tests passed; pytest isn't installed, so they were run plainly")
    return 0


def of_octets(count, longest):
    """Makes a test of octets one of so many random ones: chosen and made smaller by hypothesis where it is installed, and else by Python's `random`."""
    def made(test):
        if HAS_HYPOTHESIS:
            from hypothesis import given, settings, strategies
            return settings(max_examples=count, derandomize=True, deadline=None, database=None)(given(strategies.binary(max_size=longest))(test))

        def plain():
            chance = random.Random(1)
            for _ in range(count):
                test(chance.randbytes(chance.randrange(longest + 1)))
        plain.__name__ = test.__name__
        return plain
    return made


def is_here(name, package):
    """Whether a program is installed. Where it isn't, and this is root on Debian, it is installed from Debian's package, if that goes."""
    if shutil.which(name) is None and os.geteuid() == 0 and shutil.which("apt-get"):
        quiet = {"stdin": subprocess.DEVNULL, "stdout": subprocess.DEVNULL, "stderr": subprocess.DEVNULL, "check": False, "env": {**os.environ, "DEBIAN_FRONTEND": "noninteractive"}}
        with contextlib.suppress(subprocess.TimeoutExpired):
            subprocess.run(["apt-get", "update", "-q"], timeout=120, **quiet)
            subprocess.run(["apt-get", "install", "-y", "-q", package], timeout=600, **quiet)
    return shutil.which(name) is not None


@contextlib.contextmanager
def as_program(folder, text):
    """Has a script of Python stand for the program, as a file in this folder, until the block ends."""
    path, before = folder / "gnb.py", os.environ.get("GNB_PROGRAM")
    path.write_text(text)
    os.environ["GNB_PROGRAM"] = f"{sys.executable} {path}"
    try:
        yield
    finally:
        os.environ.pop("GNB_PROGRAM") if before is None else os.environ.update(GNB_PROGRAM=before)
