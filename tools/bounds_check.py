#!/usr/bin/env python3
"""Passes each bound once past which the program could answer out of memory and still be proved: many offers, a long packet, a repeated request whose answer isn't known yet, JSON many objects
deep, integers below -1, long texts of hexadecimal digits. Each call must end with status 0 and print what its row says.

No clause says that there is memory, so only a run can show it. One bound no run comes to: the last instance of a request, 2^32 - 1; there `begin` of `Caller` may answer nothing else than Spent, by
its contract.

Usage: tools/bounds_check.py [COMMAND ..]
    COMMAND ..: the program, with its first words; without one ./gnb
"""

import argparse
import subprocess
import sys

import other_reading

OFFERS = 1_100
PLACED = "module builtin\nstatic u1 A 1 1 12 1 4096\n"
LONGEST_PACKET = "45" * 2048
LONG = "45" * 3000
DEEP = "".join(f"{outer} ::= SEQUENCE {{{inner.lower()} {inner}}}\n" for outer, inner in zip("TABCDE", "ABCDEF"))
MODULE = f"""module text
M DEFINITIONS AUTOMATIC TAGS ::= BEGIN
{DEEP}F ::= SEQUENCE {{number INTEGER (-5..5)}}
N ::= INTEGER (-9223372036854775808..9223372036854775807)
S ::= OCTET STRING (SIZE (1..65535))
END
"""


def one_each(form, count=OFFERS):
    """The line that this form gives for each number from 1 on."""
    return "".join(form.format(number) + "\n" for number in range(1, count + 1))


# ---- what is done; the words, the input, and how many lines of the output are so or begin with these words
ROWS = [
    ("downlink packets", "run", PLACED + one_each("offer u1 b1 dl 45") + "settle\n", {f"quiet u1 b1 {OFFERS} 0": 1, f"deliver u1 b1 dl {OFFERS - 1} 45": 1}),
    ("uplink packets", "run", PLACED + one_each("offer u1 b1 ul 45") + "settle\n", {f"quiet u1 b1 0 {OFFERS}": 1, f"deliver u1 b1 ul {OFFERS - 1} 45": 1}),
    ("packets of an unacknowledged bearer", "um 12 2", one_each("offer 45") + one_each("give #{}"), {f"deliver {OFFERS - 1} 45": 1}),
    ("packets of two legs", "duplicate 12 4096", one_each("offer 45") + one_each("carry 1") + one_each("confirm 1"), {f"deliver {OFFERS - 1} 45": 1}),
    ("the longest packet", "run", f"{PLACED}offer u1 b1 dl {LONGEST_PACKET}\nsettle\n", {f"deliver u1 b1 dl 0 {LONGEST_PACKET}": 1}),
    # the target puts a request of its own, and nothing more where it knows the first one and has no answer yet
    ("a repeated request without an answer", "run", PLACED + "handover u1 B 1 1\ngive #1\ngive #1\n", {"got #1": 2, "put": 2, "end 4": 1}),
    ("JSON of seven objects", "encode T", MODULE + '{"a":{"b":{"c":{"d":{"e":{"f":{"number":-3}}}}}}}\n', {"20": 1}),
    ("octets of seven objects", "decode T", MODULE + "20\n", {'{"a":{"b":{"c":{"d":{"e":{"f":{"number":-3}}}}}}}': 1}),
    ("JSON of an integer below -1", "encode N", MODULE + "-1000\n", {"E07FFFFFFFFFFFFC18": 1}),
    ("octets of an integer below -1", "decode N", MODULE + "E07FFFFFFFFFFFFC18\n", {"-1000": 1}),
    ("JSON of many octets", "encode S", f'{MODULE}"{LONG}"\n', {"0BB7" + LONG: 1}),
    ("many octets", "decode S", f"{MODULE}0BB7{LONG}\n", {f'"{LONG}"': 1}),
]


def fault(command, words, given, awaited):
    """What a call does otherwise; '' where it does as its row says."""
    ran = subprocess.run([*command, *words.split()], input=given.encode(), capture_output=True, check=False)
    if ran.returncode:
        return f"status {ran.returncode}, {ran.stderr.decode()[-200:]!r}"
    lines = ran.stdout.decode().splitlines()
    counts = {begun: sum(f"{line} ".startswith(f"{begun} ") for line in lines) for begun in awaited}
    missing = [f"{counts[begun]} lines '{begun[:60]}' in place of {times}" for begun, times in awaited.items() if counts[begun] != times]
    return "; ".join(missing) and f"{'; '.join(missing)}; its last line is {lines[-1:]!r}"[:600]


def main():
    asked = argparse.ArgumentParser(description=__doc__, formatter_class=argparse.RawDescriptionHelpFormatter)
    asked.add_argument("command", nargs="*")
    command = asked.parse_args().command or other_reading.PROGRAM
    wrong = [(what, found) for what, words, given, awaited in ROWS if (found := fault(command, words, given, awaited))]
    for what, found in wrong:
        print(f"{what}: {found}")
    if not wrong:
        print(f"{len(ROWS)} bounds are passed with memory left")
    return 1 if wrong else 0


if __name__ == "__main__":
    sys.exit(main())
