#!/usr/bin/env python3
"""Measures a CU-UP that carries packets, at two sizes: processor time and its ratio between the sizes, packets a second, and peak memory.

It runs the test `carries_packets` of tests_cu_up, as 'rt test' in its folder or the gate built it: a packet of one octet comes from the core and is sent to the DU, the
DU confirms it, and one comes from the DU and is delivered; so many times. Each answer is compared, which is measured too; nothing is read or printed.

Nothing here is proved, and a measurement is one of this machine at this time: other work on it shows.

Usage: tools/bench_up.py [--small N] [--large N] [--program FILE]
"""

import os
import pathlib
import shutil
import sys
import tempfile

import bench
import other_reading
import transcripts

PROGRAM = other_reading.TOP / "crates/tests_cu_up/out/tests_cu_up_tests"
TEST = "packets::carries_packets"
LARGEST = 2**32 - 1


def row_of(program, packets, folder, first):
    """A row of the table, and its seconds. The second size has the ratio of its time to the first one's."""
    os.environ["PACKETS"] = str(packets)
    given = folder / "nothing"
    given.write_text("")
    status, seconds, memory = bench.measure([program, TEST], given, folder / "taken")
    if status:
        raise bench.Unmeasured(f"with {packets} packets the test ended with status {status}")
    ratio = f"{seconds / first:.2f}" if first else "-"
    rate = f"{2 * packets / seconds:,.0f}" if seconds else "-"
    return seconds, f"| {packets} | {seconds:.3f} | {ratio} | {rate} | {memory / bench.MEBIBYTE:.1f} |"


def print_table(program, sizes, folder):
    print(f"| Packets each way | Seconds | Times the smaller size's (size: {sizes[1] / sizes[0]:.2f}) | Packets a second | Peak MiB |")
    print("|---|---|---|---|---|", flush=True)
    first = None
    for size in sizes:
        first, row = row_of(program, size, folder, first)
        print(row, flush=True)


def main():
    asked = transcripts.Asked(__doc__)
    asked.add_argument("--small", type=int, default=100_000)
    asked.add_argument("--large", type=int, default=400_000)
    asked.add_argument("--program", default=str(PROGRAM), help="the tests of tests_cu_up")
    given = asked.parse_args()
    if not 1 <= given.small < given.large <= LARGEST:
        asked.error(f"the sizes are two numbers from 1 to {LARGEST}, the smaller one first")
    if shutil.which(given.program) is None:
        print(f"bench_up: '{given.program}' is no program that can be run; 'rt test' in crates/tests_cu_up builds the one that is measured", file=sys.stderr)
        return bench.USAGE
    with tempfile.TemporaryDirectory() as folder:
        try:
            print_table(given.program, (given.small, given.large), pathlib.Path(folder))
        except bench.Unmeasured as why:
            print(f"bench_up: {why}", file=sys.stderr)
            return bench.USAGE
    return 0


if __name__ == "__main__":
    sys.exit(main())
