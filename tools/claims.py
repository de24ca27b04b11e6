#!/usr/bin/env python3
"""Checks that each claim of docs/claims.md names a contract that is there, and that the crates' pages name contracts of their crates.

- A row of a table of docs/claims.md has a claim, what it assumes and its contracts; claim and assumption are at most 40 words. A contract is a link whose
  label is a function, a clause or a definition, and whose file has that name.
- Each crate of theorems (`law_..`) is named by a row, so that no theorem stands there of which a reader isn't told.
- In crates/NAME/README.md, what stands in backquotes after 'Contract:' are names of that crate, or of another one of this repository.

Nothing is written. That a claim says no more than its contract is not checked: it is read.

Usage: tools/claims.py
Its exit status is 1 where page and repository differ; each line says in which row, or on which page.
"""

import functools
import re
import sys

import crate_facts as facts

PAGE = facts.TOP / "docs/claims.md"
MOST_WORDS = 40
LINK = re.compile(r"\[`([^`]+)`\]\(([^)#]+)\)")
HEAD = ("Claim", "Assumes", "Contract")


def rows():
    """The rows of the page's tables of claims: (line, cells)."""
    inside = False
    for number, line in enumerate(PAGE.read_text().splitlines(), 1):
        cells = [cell.strip() for cell in line.strip().strip("|").split("|")] if line.startswith("|") else None
        if cells and tuple(cells) == HEAD:
            inside = True
        elif cells is None:
            inside = False
        elif inside and not line.startswith("|--"):
            yield number, cells


def row_faults(number, cells):
    """What is wrong with one row."""
    if len(cells) != len(HEAD):
        yield f"docs/claims.md:{number}: has {len(cells)} cells, not {len(HEAD)}"
        return
    words = len(cells[0].split()) + len(cells[1].split())
    if words > MOST_WORDS:
        yield f"docs/claims.md:{number}: claim and assumption have {words} words, more than {MOST_WORDS}: {cells[0][:60]}"
    links = LINK.findall(cells[2])
    if not links:
        yield f"docs/claims.md:{number}: names no contract: {cells[0][:60]}"
    for name, target in links:
        path = (PAGE.parent / target).resolve()
        if not path.is_file():
            yield f"docs/claims.md:{number}: {name}: there is no file {target}"
        elif name not in facts.names_in(path):
            yield f"docs/claims.md:{number}: {target} has no function, clause or definition {name}"


def law_faults(found):
    """Crates of theorems that no row names."""
    named = {target.split("crates/")[-1].split("/")[0] for _, cells in found for _, target in LINK.findall(cells[-1])}
    for name in facts.uses():
        if facts.kind_of(name) == "law" and name not in named:
            yield f"docs/claims.md: no row names a contract of {name}"


@functools.cache
def all_names():
    return frozenset().union(*map(facts.names_of, facts.uses())) | facts.uses().keys()


def page_faults(name):
    """Contracts of a crate's page that no crate has."""
    path = facts.CRATES / name / "README.md"
    for number, line in enumerate(path.read_text().splitlines() if path.exists() else (), 1):
        for contract in re.findall(r"`([^`]+)`", line.partition("Contract: ")[2]):
            last = re.split(r"::|\.|/", contract.removesuffix(".rt").removesuffix(".antt"))[-1]
            if last not in facts.names_of(name) and last not in all_names() and not (facts.CRATES / name / contract).exists():
                yield f"crates/{name}/README.md:{number}: no crate has {contract}"


def main():
    if len(sys.argv) > 1:
        print(__doc__)
        return 2
    found = list(rows())
    said = [fault for number, cells in found for fault in row_faults(number, cells)]
    said += list(law_faults(found))
    said += [fault for name in facts.uses() for fault in page_faults(name)]
    print("".join(f"{fault}\n" for fault in said), end="")
    if not found:
        print("docs/claims.md: has no table of claims")
        return 1
    if not said:
        print(f"{len(found)} claims name contracts that are there")
    return 1 if said else 0


if __name__ == "__main__":
    sys.exit(main())
