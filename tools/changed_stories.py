#!/usr/bin/env python3
"""Changes the stories of handovers of examples/ in one place each, and compares what the program prints of them with another reading of the specification: after each
event the network is left to itself (`settle`); and each item that comes to a DU is lost instead (`lose`), after which the rest goes on, and the network is left to itself.

Of each transcript the packets that are delivered must be the first that were offered, each once, in their order, both ways; and a bearer that is told quiet has
delivered all. This is tested here, and not proved.

Usage: tools/changed_stories.py [-- OTHER ..]
"""

import collections
import re
import sys

import other_reading

STORIES = ["handover-with-data-in-flight", "second-handover", "late-sn-status", "missed-access"]
TO_A_DU = re.compile(r"get ([AB]\.du[12]/\d+)")


def events_of(story):
    lines = (other_reading.TOP / "examples" / f"{story}.script").read_text().splitlines()
    return [line for line in lines[1:] if line and not line.startswith(";")]


def changed(events):
    """The story with one change, for each place of a change."""
    for end in range(1, len(events) + 1):
        yield [*events[:end], "settle"]
    for place, event in enumerate(events):
        item = TO_A_DU.fullmatch(event)
        if item:
            yield [*events[:place], f"lose {item[1]}", *events[place + 1 :], "settle"]


def scripts():
    for story in STORIES:
        for events in changed(events_of(story)):
            yield ["run"], "\n".join(["module builtin", *events, ""])


def is_kept(transcript):
    """Whether each way of each bearer has delivered the first packets that were offered, and all where it is told quiet."""
    offered, delivered, last = collections.defaultdict(list), collections.defaultdict(list), []
    for line in transcript.splitlines():
        match line.split(" "):
            case [">", "offer", ue, bearer, way, packet]:
                last = offered[ue, bearer, way]
                last.append(packet)
            case [">", *_]:
                last = []
            case ["refused", *_] if last:
                last.pop()
            case ["deliver", ue, bearer, way, _, packet]:
                delivered[ue, bearer, way].append(packet)
            case ["quiet", ue, bearer, *_]:
                if any(delivered[ue, bearer, way] != offered[ue, bearer, way] for way in ("dl", "ul")):
                    return False
    return all(packets == offered[bearer][: len(packets)] for bearer, packets in delivered.items())


def told(status, output):
    if not is_kept(output.decode()):
        sys.exit(f"a changed story delivers what it shouldn't:\n{output.decode()}")
    return str(status)


def main():
    waiting = list(scripts())
    return other_reading.compare(__doc__, "changes of stories", len(waiting), lambda chance: waiting.pop(), told, chosen="listed")


if __name__ == "__main__":
    sys.exit(main())
