#!/usr/bin/env python3
"""Runs the scripts that `generate` makes, written out, by the word `run`, and compares what their transcripts say with the line of `generate`: the packets offered and
delivered, the returns, the events, and whether the bearer is quiet in the end.

Usage: tools/generated_runs.py [N ..]
"""

import collections
import sys

import other_reading

SIZES = [1, 99, 100, 250]
RETURN_AFTER = 100


def packet(number):
    """The events of a packet: down to the terminal, and its delivery status back."""
    downlink = f"get A.du1/{number // RETURN_AFTER + 1}"
    return [f"offer u1 b1 dl {number:08X}", "get A.up1/1", downlink, "air u1 b1 dl", "ack u1 b1 dl", "get A.up1/2"]


def comes_back(returns):
    """The events of a radio failure and a return, so many with this one."""
    downlink = f"get A.du1/{returns + 1}"
    return ["fail u1", "return u1", "pump", downlink, "air u1 b1 dl", "ack u1 b1 dl", "air u1 b1 ul", "ack u1 b1 ul", "get A.up1/2"]


def script(packets):
    lines = ["module builtin", "static u1 A 1 1 12 1 64"]
    for number in range(packets):
        lines += packet(number)
        if (number + 1) % RETURN_AFTER == 0:
            lines += comes_back((number + 1) // RETURN_AFTER)
    return [*lines, "ask u1 b1"]


def summary(transcript):
    """The line of `generate`, counted in a transcript."""
    lines = transcript.splitlines()
    words = collections.Counter(line.split(" ")[0] for line in lines)
    events = collections.Counter(line.split(" ")[1] for line in lines if line.startswith("> "))
    quiet = int(any(line.startswith("quiet u1 b1 ") for line in lines[-2:]))
    return f"generated {events['offer']} delivered {words['deliver']} returns {events['return']} events {words['>']} quiet {quiet}\n"


def main():
    sizes = [int(word) for word in sys.argv[1:]] or SIZES
    for packets in sizes:
        status, transcript = other_reading.answer(other_reading.PROGRAM, ["run"], "\n".join(script(packets)) + "\n")
        counted = (status, summary(transcript.decode()))
        told = other_reading.answer(other_reading.PROGRAM, ["generate", str(packets)], "")
        if (told[0], told[1].decode()) != counted:
            print(f"of {packets} packets `generate` tells {told}, and its script has {counted}")
            return 1
    print(f"generate tells what its script has, of {', '.join(map(str, sizes))} packets")
    return 0


if __name__ == "__main__":
    sys.exit(main())
