#!/usr/bin/env python3
"""Writes the tables of docs/architecture.md: for each family of crates.txt its crates, what each is, its public calls, and its lines.

A table stands between a line `<!-- table -->` and a line `<!-- end -->` under the heading of its family; what stands around it is written by hand. What a
crate is, is the first sentence of its first file's doc comment, without its kind and what stands in brackets of standards; of a long one what stands before a colon
or semicolon. Calls are public functions, and methods of public types and traits (of a crate of theorems: the theorems); code are the lines of src/ that are neither
blank nor a comment, and lines all of src/, specs/ and proofs/, both in hundreds.

Usage: tools/architecture.py [--write]
    --write: writes the tables; without it, only says where page and repository differ. A heading that the page lacks is not written: that is by hand.
Its exit status is 1 where page and repository differ, and 2 where it was called wrongly.
"""

import re
import sys

import crate_facts as facts

PAGE = facts.TOP / "docs/architecture.md"
BEGIN, END = "<!-- table -->", "<!-- end -->"
HEAD = ["| Crate | What it is | Calls | Code | Lines |", "|---|---|--:|--:|--:|"]
# What says where a standard has it: of no use in a list.
KIND = re.compile(r"^(?:Definitions alone|Proof steps|Law): ")
LONG, FEW = 90, 5
STANDARD = re.compile(r" \((?:after |in the part |the class 1 procedures )?(?:ITU-T|TS|X\.|RFC|BASIC)[^()]*(?:\([^()]*\)[^()]*)*\)")


def short(says):
    """What a crate is, in few words."""
    says = KIND.sub("", STANDARD.sub("", says)).rstrip(".")
    cuts = [says[: cut.start()] for cut in re.finditer(r"[:;] ", says)] if len(says) > LONG else []
    says = next((part for part in cuts if len(part.split()) >= FEW and part.count("(") == part.count(")")), says)
    return says[:1].upper() + says[1:]


def hundreds(count):
    """A number of lines in hundreds, so that the page needn't follow each line."""
    return f"{round(count, -2):,}" if count >= 50 else "0"


def row(name):
    says = short(facts.sentence(facts.paragraph(facts.head_of(facts.root_of(name))))).replace("|", "\\|")
    return f"| `{name}` | {says} | {facts.call_count(name)} | {hundreds(facts.code_lines(name))} | {hundreds(facts.all_lines(name))} |"


def table(heading):
    """The lines of a family's table."""
    return [*HEAD, *map(row, facts.families()[heading])]


def parts(lines):
    """By heading, where its table stands in the page: the places of its first line and of the line after its last."""
    found, heading, begin = {}, "", None
    for place, line in enumerate(lines):
        if line.startswith("### "):
            heading = line[len("### "):].strip()
        elif line == BEGIN:
            begin = place + 1
        elif line == END and begin is not None:
            found[heading] = (begin, place)
            begin = None
    return found


def faults(lines):
    """Where page and repository differ."""
    found = parts(lines)
    for heading in facts.families():
        if heading not in found:
            yield f"docs/architecture.md: has no table under '### {heading}'"
    for heading, (begin, end) in found.items():
        if heading not in facts.families():
            yield f"docs/architecture.md:{begin}: crates.txt has no family '{heading}'"
            continue
        new = table(heading)
        for place in range(max(len(new), end - begin)):
            old_row = lines[begin + place] if begin + place < end else "no row"
            new_row = new[place] if place < len(new) else "no row"
            if old_row != new_row:
                yield f"docs/architecture.md:{begin + place + 1}: has '{old_row[:100]}'; the repository says '{new_row[:100]}'"
                break


def written(lines):
    """The page's lines with all tables as the repository says."""
    for heading, (begin, end) in sorted(parts(lines).items(), key=lambda part: -part[1][0]):
        if heading in facts.families():
            lines[begin:end] = table(heading)
    return lines


def main():
    words = sys.argv[1:]
    if words not in ([], ["--write"]):
        print(__doc__)
        return 2
    lines = PAGE.read_text().splitlines()
    if words:
        lines = written(lines)
        PAGE.write_text("\n".join(lines) + "\n")
    said = list(faults(lines))
    print("".join(f"{fault}\n" for fault in said), end="")
    if not said:
        print(f"docs/architecture.md says of {len(facts.uses())} crates what the repository says")
    return 1 if said else 0


if __name__ == "__main__":
    sys.exit(main())
