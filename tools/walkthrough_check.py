#!/usr/bin/env python3
"""Checks that docs/walkthrough.md has every line of the transcript that it goes through, in order, and no other: the lines of its blocks that begin with `>`, `put` and so on, without
the remarks, which are indented.

Nothing here is a proof.

Usage: tools/walkthrough_check.py
"""

import sys

import stories

PAGE = stories.TOOLS.parent / "docs/walkthrough.md"
STORY = stories.EXAMPLES / "handover-with-data-in-flight.out"


def quoted(page):
    """The lines of a page's blocks without a language that aren't indented."""
    found, block = [], None
    for line in page.splitlines():
        if line.startswith("```"):
            block = line if block is None else None
        elif block == "```" and not line.startswith("    "):
            found.append(line)
    return found


def main():
    lines, awaited = quoted(PAGE.read_text()), STORY.read_text().splitlines()
    for place, (line, its) in enumerate(zip(lines, awaited), 1):
        if line != its:
            sys.exit(f"{PAGE}: '{line}' stands where {STORY.name} has '{its}' in line {place}")
    if len(lines) != len(awaited):
        sys.exit(f"{PAGE} has {len(lines)} lines of a transcript, and {STORY.name} has {len(awaited)}")
    print(f"the walkthrough has the {len(lines)} lines of its transcript")


if __name__ == "__main__":
    main()
