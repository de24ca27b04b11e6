#!/usr/bin/env python3
"""Measures the codec alone, without JSON, digits and lines, at two sizes: processor time and its ratio between the sizes, values a second and peak memory; and beside it Erlang's
asn1 on the same octets of the same module, where it is installed.

It runs two tests of tests_values, as 'rt test' in its folder or the gate built them: one decodes eight spellings over and over, the other encodes their values and compares
the octets. Of Erlang the calls alone are measured; of the tests all, so their start counts, and reading the module. Each is run several times, by turns with the other, and the
least and the middle of its times are printed: where other work takes a processor away for a while, the least says most.

Nothing here is proved, and a measurement is one of this machine at this time: other work on it shows.

Usage: tools/bench_codec.py [--small N] [--large N] [--runs N] [--program FILE]
"""

import argparse
import os
import pathlib
import re
import shutil
import subprocess
import sys
import tempfile

import bench
import other_reading

CRATE = other_reading.TOP / "crates/tests_values"
PROGRAM = CRATE / "out/tests_values_tests"
TESTS = {"decode": "values::codec::reads_values", "encode": "values::codec::writes_values"}
LARGEST = 2**32 - 8


def table_of_tests():
    """The module of the tests, and the octets of its values in hex."""
    source = (CRATE / "src/values/codec.rt").read_text()
    module = re.search(r'MODULE: &\[u8\] = b"(.*?)";', source, re.DOTALL)
    spelled = re.search(r"SPELLED: \[&str; \d+\] = \[(.*?)\];", source, re.DOTALL)
    if not module or not spelled:
        raise bench.Unmeasured("crates/tests_values/src/values/codec.rt has no module and no octets")
    return module[1].replace("\\n\\\n", "\n").replace("\\n", "\n"), re.findall('"([0-9A-F]+)"', spelled[1])


def erlang(word, count, folder):
    """The seconds of Erlang's calls for so many values, where it is installed."""
    if shutil.which("escript") is None:
        return None
    module, spelled = table_of_tests()
    (folder / "M.asn1").write_text(module)
    (folder / "hex").write_text("\n".join(spelled * (count // len(spelled))) + "\n")
    ran = subprocess.run(["escript", bench.ERLANG, folder, word, folder / "hex"], capture_output=True, text=True, check=False)
    if ran.returncode:
        raise bench.Unmeasured(f"Erlang's {word} ended with status {ran.returncode}: {ran.stdout}{ran.stderr}")
    return float(ran.stdout)


def ours(program, word, count, folder):
    """The seconds of a test for so many values, and the most memory that it held."""
    os.environ["VALUES"] = str(count)
    given = folder / "nothing"
    given.write_text("")
    status, seconds, memory = bench.measure([program, TESTS[word]], given, folder / "taken")
    if status:
        raise bench.Unmeasured(f"{word} of {count} values: the test ended with status {status}")
    return seconds, memory


def shown(times):
    """The least and the middle of some seconds, where there are any."""
    known = sorted(it for it in times if it is not None)
    return f"{known[0]:.3f} | {known[len(known) // 2]:.3f}" if known else "- | -"


def row_of(program, word, count, folder, asked):
    """A row of the table, and its least seconds. The second size has the ratio of its time to the first one's."""
    runs, first = asked
    by_turns = [(*ours(program, word, count, folder), erlang(word, count, folder)) for _ in range(runs)]
    least = min(it[0] for it in by_turns)
    ratio = f"{least / first:.2f}" if first else "-"
    rate = f"{count / least:,.0f}" if least else "-"
    memory = max(it[1] for it in by_turns) / bench.MEBIBYTE
    return least, f"| {word} | {count} | {shown(it[0] for it in by_turns)} | {ratio} | {rate} | {memory:.1f} | {shown(it[2] for it in by_turns)} |"


def print_table(program, sizes, runs, folder):
    times = f"Times the smaller size's (size: {sizes[1] / sizes[0]:.2f})"
    print(f"| Calls | Values | Seconds: the least | The middle | {times} | Values a second | Peak MiB | Erlang, seconds: the least | The middle |")
    print("|---|---|---|---|---|---|---|---|---|", flush=True)
    for word in TESTS:
        first = None
        for size in sizes:
            first, row = row_of(program, word, size, folder, (runs, first))
            print(row, flush=True)


def main():
    asked = argparse.ArgumentParser(description=__doc__, formatter_class=argparse.RawDescriptionHelpFormatter)
    asked.add_argument("--small", type=int, default=200_000)
    asked.add_argument("--large", type=int, default=800_000)
    asked.add_argument("--runs", type=int, default=5, help="how often each is run")
    asked.add_argument("--program", default=str(PROGRAM), help="the tests of tests_values")
    given = asked.parse_args()
    if not 8 <= given.small < given.large <= LARGEST or given.small % 8 or given.large % 8:
        asked.error(f"the sizes are two multiples of 8 from 8 to {LARGEST}, the smaller one first")
    if given.runs < 1:
        asked.error("each is run at least once")
    if shutil.which(given.program) is None:
        print(f"bench_codec: '{given.program}' is no program that can be run; 'rt test' in crates/tests_values builds the one that is measured", file=sys.stderr)
        return bench.USAGE
    with tempfile.TemporaryDirectory() as folder:
        try:
            print_table(given.program, (given.small, given.large), given.runs, pathlib.Path(folder))
        except bench.Unmeasured as why:
            print(f"bench_codec: {why}", file=sys.stderr)
            return 1
    return 0


if __name__ == "__main__":
    sys.exit(main())
