#!/usr/bin/env python3
"""Checks the house: each crate's place, its kind and what that kind may stand on, and its size.

- A crate stands in crates.txt after the crates that it lists, under a heading; it has a folder, and each folder a line.
- A crate lists only crates that it names, in an import, a clause or a path.
- Definitions (`FAMILY_defs`) list only crates of which their definitions cite something, and have types alone: no function but the
  conversion of an error that an `impl From` is.
- Steps of proofs (`proof_SUBJECT`) are named by clauses, ghost imports and tactics alone: no runtime `use` goes through them.
- Theorems (`law_SENTENCE`) have functions with empty bodies, and code, definitions and tests don't stand on them, not by other crates either.
- Nothing lists a crate of tests (`tests_SUBJECT`).
- A crate that is no law has at most 2,000 lines of code (neither blank nor a comment) and 150 functions. PAST_THE_BOUND says which
  have more; its numbers may only become smaller, and a crate that keeps the bound leaves it.
- `rt` looks at the crates below a crate once for each way to them through the lists: all ways together stay below WAYS.
- docs/architecture.md has a table for each heading (tools/architecture.py checks what stands in it).

Usage: tools/layers.py
Its exit status is 1 where the repository breaks a rule: each line says which crate, and where. What is past the bound is always printed.
"""

import functools
import re
import sys

from crate_facts import CRATES, TOP, below, code_lines, families, function_count, kind_of, root_of, sources, text_of, uses

MOST_LINES, MOST_FUNCTIONS = 2000, 150
# Crates that are past the bound today, with the lines and functions that they have at most.
PAST_THE_BOUND = {}
# An older kit takes five milliseconds for each way, one after another.
WAYS = 750_000
# A runtime import or path that goes through a crate, and what is no runtime code of a file: ghost imports, attributes, comments, clauses.
NOT_RUN = re.compile(r"^ *(?:ghost use [^;]*;|#!?\[.*\]$|//.*$)|\bensures\b[^{]*\{[^{}]*\}|\brequires\b[^{]*\{[^{}]*\}", re.MULTILINE)
NAMED = re.compile(r"Rattle\.(\w+)|\b(\w+)::|(?<=\buse )(\w+)\b")
HEAD = re.compile(r"(?:pub )?(?:const )?fn (\w+)")


def place_faults():
    """Crates out of their order, without a heading, a line or a folder."""
    on_disk = {path.name for path in CRATES.iterdir() if (path / "src").is_dir()}
    for name in sorted(uses().keys() ^ on_disk):
        yield f"{name}: stands in one of crates.txt and crates/ alone"
    for name in families().get("", ()):
        yield f"{name}: stands in crates.txt before the first heading"
    before = set()
    for name, listed in uses().items():
        for use in listed:
            if use in uses() and use not in before:
                yield f"{name}: lists {use}, which stands after it"
        before.add(name)


@functools.cache
def named(name):
    """The words by which a crate can name others: in its imports, clauses and paths."""
    found = set()
    for part in ("src", "specs", "proofs"):
        for path in sources(name, part):
            for words in NAMED.findall(text_of(path)):
                found.update(words)
    return found


@functools.cache
def cited(name):
    """The crates whose definitions a crate's definitions cite."""
    return {of for path in sources(name, "specs") for of in re.findall(r"Rattle\.(\w+)\.specs\.", text_of(path))}


def list_faults(name):
    """What a crate lists and doesn't name, or may not list by its kind."""
    for use in uses()[name]:
        if use not in uses():
            continue
        if use not in named(name):
            yield f"{name}: lists {use}, which it doesn't name"
        if kind_of(use) == "tests":
            yield f"{name}: lists {use}, a crate of tests"
        if kind_of(name) == "defs" and use not in cited(name):
            yield f"{name}: lists {use}, of which its definitions cite nothing"
    if kind_of(name) in ("code", "defs", "tests"):
        for law in sorted(it for it in below(name) if kind_of(it) == "law"):
            yield f"{name}: stands on {law}, a crate of laws"


@functools.cache
def runtime_text(path):
    """A file's text without what isn't run."""
    return NOT_RUN.sub("", text_of(path))


def runtime_faults(name):
    """Runtime imports that go through steps of proofs, or of code through laws."""
    for use in uses()[name]:
        if use not in uses() or not (kind_of(use) == "proof" or kind_of(use) == "law" and kind_of(name) != "law"):
            continue
        word = re.compile(rf"\buse {use}\b|(?<![\w.:]){use}::")
        for path in sources(name):
            if word.search(runtime_text(path)):
                yield f"{name}: {path.relative_to(CRATES / name)} uses {use} at runtime"


def busy_functions(text):
    """The functions of a file that have something to do: their bodies begin at the end of a head or on a line of their own, and aren't `{}`."""
    function = ""
    for line in text.splitlines():
        if head := HEAD.match(line):
            function = head[1]
        if function and (line == "{" or head and line.endswith("{")):
            yield function
            function = ""


def body_faults(name):
    """Functions of definitions that aren't conversions of errors, and theorems with something to do."""
    for path in sources(name):
        text = text_of(path)
        where = path.relative_to(CRATES / name)
        if kind_of(name) == "defs":
            for found in re.findall(r"^ *(?:pub )?fn (\w+)", re.sub(r"^impl From<.*?^\}", "", text, flags=re.MULTILINE | re.DOTALL), re.MULTILINE):
                yield f"{name}: {where} has code beside its definitions: {found}"
        if kind_of(name) == "law":
            for function in busy_functions(text):
                yield f"{name}: {where}: {function} has something to do"


def sizes(name):
    return code_lines(name), function_count(name)


def is_past(size):
    return size[0] > MOST_LINES or size[1] > MOST_FUNCTIONS


def size_faults():
    """Crates past the bound that weren't, or by more than before; and rows of PAST_THE_BOUND that are too large."""
    for name in uses():
        size, most = sizes(name), PAST_THE_BOUND.get(name)
        if most is None:
            if is_past(size) and kind_of(name) != "law":
                yield f"{name}: has {size[0]} lines of code and {size[1]} functions; {MOST_LINES} and {MOST_FUNCTIONS} are the bound"
        elif not is_past(size):
            yield f"{name}: keeps the bound now: take it out of PAST_THE_BOUND"
        elif size[0] > most[0] or size[1] > most[1]:
            yield f"{name}: has {size[0]} lines of code and {size[1]} functions, more than the {most[0]} and {most[1]} of PAST_THE_BOUND"
        elif size != most:
            yield f"{name}: has {size[0]} lines of code and {size[1]} functions now: lower its row in PAST_THE_BOUND"
    for name in sorted(PAST_THE_BOUND.keys() - uses().keys()):
        yield f"{name}: stands in PAST_THE_BOUND, and isn't there"


@functools.cache
def ways(name):
    """How many ways lead through the lists to a crate and those below it."""
    return 1 + sum(ways(use) for use in uses()[name] if use in uses())


def way_faults():
    total = sum(map(ways, uses()))
    if total > WAYS:
        most = sorted(uses(), key=ways, reverse=True)[:5]
        yield f"crates.txt: {total} ways through the lists, more than {WAYS}; most have {', '.join(f'{name} ({ways(name)})' for name in most)}"


def page_faults():
    """Headings of crates.txt that docs/architecture.md hasn't in this order, or the other way round."""
    page = re.findall(r"^### (.*)$", (TOP / "docs/architecture.md").read_text(), re.MULTILINE)
    if page != list(families()):
        yield f"docs/architecture.md: its headings are {', '.join(page)}; those of crates.txt are {', '.join(families())}"


def faults():
    out_of_place = list(place_faults())
    yield from out_of_place
    # What follows goes down the lists, which may not lead in a circle.
    if out_of_place:
        return
    for name in uses():
        if root_of(name).exists():
            yield from list_faults(name)
            yield from runtime_faults(name)
            yield from body_faults(name)
    yield from size_faults()
    yield from way_faults()
    yield from page_faults()


def main():
    if len(sys.argv) > 1:
        print(__doc__)
        return 2
    found = list(faults())
    print("".join(f"{fault}\n" for fault in found), end="")
    for name in PAST_THE_BOUND:
        print(f"past the bound: {name}, {sizes(name)[0]} lines of code and {sizes(name)[1]} functions")
    if not found:
        print(f"{len(uses())} crates keep to their layers and kinds, with {sum(map(ways, uses()))} ways through the lists")
    return 1 if found else 0


if __name__ == "__main__":
    sys.exit(main())
