#!/usr/bin/env python3
"""Runs a script that puts as many control messages as a run may ever put, and one more: there the program ends with status 10, and all of it takes less than a GiB.

`start` puts eight messages, a request of each CU-UP and DU; each `give` of the first one is answered by one message, as often as it is given.

Usage: tools/last_message.py
"""

import pathlib
import sys
import tempfile

import bench
import other_reading

MOST = 1_000_000
STARTED = 8
GIBIBYTE = 1024 * 1024  # in KiB
# the number of the counter of control messages
COUNTER = 1


def script():
    """The lines of the script; the last one would put a message too many."""
    return ["module builtin", "start", *["give #1"] * (MOST - STARTED + 1)]


def last_lines(path):
    """The last lines of a long file."""
    with path.open("rb") as taken:
        taken.seek(max(0, path.stat().st_size - 1000))
        return taken.read().decode().splitlines()[-6:]


def main():
    lines = script()
    other_reading.answer(other_reading.PROGRAM, ["profile"], "")  # builds the program
    with tempfile.TemporaryDirectory() as folder:
        given, taken = pathlib.Path(folder, "given"), pathlib.Path(folder, "taken")
        given.write_text("\n".join(lines) + "\n")
        status, _, peak = bench.measure([str(bench.PROGRAM), "run"], given, taken)
        shown = last_lines(taken)
    is_put = any(line.startswith(f"put #{MOST} ") for line in shown)
    if status != 10 or shown[-1] != f"stop 10 {len(lines)} {COUNTER}" or not is_put:
        print(f"after {MOST} messages the program ends with status {status}:\n" + "\n".join(shown))
        return 1
    if peak >= GIBIBYTE:
        print(f"{MOST} messages take {peak} KiB")
        return 1
    print(f"the program ends at the message after the {MOST:,}th, within a GiB")
    return 0


if __name__ == "__main__":
    sys.exit(main())
