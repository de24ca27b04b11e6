#!/usr/bin/env python3
"""Checks that pages name only files, crates and modules that are there.

- A link leads to a file or a folder, and its anchor to a heading.
- A word in backquotes that is a path (`crates/..`, `docs/..`, `tools/..`, `examples/..`, or one that ends in .rt, .antt, .py or .md) is one: from the top of the repository,
  from the page's folder, or, where it is only a file's name, of some file. One that begins with src/, specs/ or proofs/ may be of a crate that the page names: then it may
  leave out modules between.
- A word in backquotes that begins with a crate's name and `::` goes on with names of that crate.
- A word in backquotes that looks like a crate of a kind (`law_..`, `proof_..`, `tests_..`, `.._defs`) is a crate, or a module or name of one.

Usage: tools/page_names.py [PAGE..]
    PAGE..: these pages; without one, docs/adding.md, architecture.md, claims.md and check-times.md, and the page of each crate.
Its exit status is 1 where a page names something else, and 2 where a page can't be read.
"""

import functools
import pathlib
import re
import sys

import crate_facts as facts

PAGES = ("docs/adding.md", "docs/architecture.md", "docs/claims.md", "docs/check-times.md")
LINK = re.compile(r"\]\(([^)\s]+)\)")
WORD = re.compile(r"`([^`]+)`")
PATH = re.compile(r"(?:crates|docs|tools|examples|\.ci)/[\w./+-]*|[\w/+-]+(?:/[\w+-]+)*\.(?:rt|antt|py|md)")
NAME = re.compile(r"[A-Za-z]\w*(?:::[A-Za-z]\w*)+")
KIND = re.compile(r"(?:law|proof|tests)_\w+|\w+_defs")
# What stands for a name that is to be chosen.
CHOSEN = re.compile(r"NAME|WORD|SUBJECT|SENTENCE|FAMILY|\.\.")


@functools.cache
def file_names():
    """The names of all files of the repository, but of what is built."""
    return frozenset(path.name for part in ("crates", "docs", "tools", "examples") for path in (facts.TOP / part).rglob("*") if "out" not in path.parts)


@functools.cache
def all_names():
    return frozenset().union(*map(facts.names_of, facts.uses())) | facts.uses().keys()


def anchors(path):
    """The anchors of a page's headings."""
    heads = re.findall(r"^#+ (.*)$", path.read_text(), re.MULTILINE)
    return {re.sub(r"[^\w -]", "", head.lower()).strip().replace(" ", "-") for head in heads}


def link_fault(page, target):
    if re.match(r"[a-z]+:", target):
        return ""
    name, _, anchor = target.partition("#")
    path = (page.parent / name).resolve() if name else page
    if not path.exists():
        return f"links to {target}, which isn't there"
    if anchor and path.suffix == ".md" and anchor not in anchors(path):
        return f"links to {target}, which has no such heading"
    return ""


@functools.cache
def crates_named(page):
    """The crates that a page names."""
    return set(re.findall(r"\w+", page.read_text())) & facts.uses().keys()


def is_path(page, word):
    """Whether a word that looks like a path is one."""
    if any((folder / word).exists() for folder in (facts.TOP, page.parent)):
        return True
    part, _, rest = word.partition("/")
    if part in ("src", "specs", "proofs") and facts.CRATES not in page.parents:
        return any(path.as_posix().endswith(f"/{rest}") for name in crates_named(page) for path in facts.sources(name, part))
    return "/" not in word and word in file_names()


def word_fault(page, word):
    """What is wrong with a word in backquotes, or nothing."""
    if CHOSEN.search(word):
        return ""
    if PATH.fullmatch(word):
        return "" if is_path(page, word) else f"names {word}, which isn't there"
    if NAME.fullmatch(word):
        first, *others = word.split("::")
        if first in facts.uses() and not facts.names_of(first) >= set(others):
            return f"names {word}; {first} has no {', '.join(sorted(set(others) - facts.names_of(first)))}"
    if KIND.fullmatch(word) and word not in all_names():
        return f"names {word}, which is no crate, and no module or name of one"
    return ""


def page_faults(page):
    for number, line in enumerate(page.read_text().splitlines(), 1):
        said = [link_fault(page, target) for target in LINK.findall(line)]
        said += [word_fault(page, word) for word in WORD.findall(line)]
        for fault in said:
            if fault:
                yield f"{page.relative_to(facts.TOP)}:{number}: {fault}"


def main():
    given = [pathlib.Path(word).resolve() for word in sys.argv[1:]]
    pages = given or [facts.TOP / page for page in PAGES] + sorted(facts.CRATES.glob("*/README.md"))
    if lacking := [str(page) for page in pages if not page.is_file() or not page.is_relative_to(facts.TOP)]:
        print(f"no page of this repository: {' '.join(lacking)}\n{__doc__}")
        return 2
    found = [fault for page in pages for fault in page_faults(page)]
    print("".join(f"{fault}\n" for fault in found), end="")
    if not found:
        print(f"{len(pages)} pages name what is there")
    return 1 if found else 0


if __name__ == "__main__":
    sys.exit(main())
