#!/usr/bin/env python3
"""Writes what each crate's README.md has of the code: what the crate is, what it stands on, its public calls, theorems or definitions, and its modules.

A page begins with what this tool writes, up to the line MARK; what stands after that line is written by hand, and stays. Sentences are the first ones of
doc comments in src/, and of the comments at the head of files in specs/.

Usage: tools/crate_pages.py [--write] [NAME..]
    --write: writes the pages; without it, only says where a page and its crate differ, or where a crate has none.
    NAME..: these crates alone.
Its exit status is 1 where page and crate differ, and 2 where it was called wrongly.
"""

import sys

import crate_facts as facts

MARK = "<!-- tools/crate_pages.py writes what stands above; what follows is written by hand. -->"
KINDS = {
    "code": "Code of the product, with public contracts",
    "defs": "Definitions alone: what a reader has to believe",
    "proof": "Steps of proofs, for contracts and theorems of other crates; no code runs through them",
    "law": "Theorems: each is the contract of a function with nothing to do, and no code stands on them",
    "tests": "Tests alone",
}
# A crate with more types than this has them listed by name.
MOST_TYPES = 12


def family_of(name):
    return next(heading for heading, members in facts.families().items() if name in members)


def page(name):
    """The part of a crate's page that this tool writes."""
    first = facts.paragraph(facts.head_of(facts.root_of(name)))
    parts = [f"# `{name}`", first, about(name), *sections(name), MARK]
    return "\n\n".join(part for part in parts if part) + "\n"


def about(name):
    kind = "Program of the tests" if is_program_of_tests(name) else KINDS[facts.kind_of(name)]
    own = [use for use in facts.uses()[name] if use in facts.uses()]
    kit = [use for use in facts.uses()[name] if use not in facts.uses()]
    stands = f"It stands on {quoted(own)}." if own else "It stands on no other crate of this repository."
    kit_part = f" It uses {quoted(kit)} of the kit." if kit else ""
    family = family_of(name)
    return f"{kind}. Family: [{family}](../../docs/architecture.md#{anchor(family)}). {stands}{kit_part}"


def is_program_of_tests(name):
    return facts.kind_of(name) == "code" and family_of(name) == "Tests"


def anchor(heading):
    return heading.lower().replace(" ", "-")


def quoted(names):
    return ", ".join(f"`{name}`" for name in names)


def sections(name):
    kind = facts.kind_of(name)
    if kind == "code":
        yield calls(name)
    if kind == "defs":
        yield definitions(name)
    yield inside(name, "Theorems" if kind == "law" else "Inside", with_functions=kind in ("law", "proof"))


def calls(name):
    """The public functions of a crate, and its types with their methods."""
    items = [(path, item) for path, item in facts.public_items(name).items()]
    rows = [row(path, item) for path, item in items if item.kind == "fn" or item.methods]
    types = [path for path, item in items if item.kind in ("struct", "enum", "trait") and not item.methods]
    if types and (not rows or len(types) <= MOST_TYPES):
        rows.append(f"- Types without calls: {quoted(types)}")
    elif types:
        rows.append(f"- {len(types)} types without calls")
    return "\n".join(["## Public calls", "", *rows]) if rows else ""


def row(path, item):
    says = f": {item.says}" if item.says else ""
    own = f" Calls: {quoted(item.methods)}." if item.methods else ""
    return f"- `{path}`{says}{own}" if says or not own else f"- `{path}`:{own}"


def definitions(name):
    """The files of definitions, each with its first sentence."""
    rows = []
    for path in facts.sources(name, "specs"):
        comment = []
        for line in facts.text_of(path).splitlines():
            if not line.startswith("--"):
                break
            comment.append(line[2:].strip())
        if comment:
            rows.append(f"- `{path.relative_to(facts.CRATES / name)}`: {facts.sentence(facts.paragraph(comment))}")
    return "\n".join(["## Definitions", "", *rows]) if rows else ""


def inside(name, title, with_functions):
    """The modules of a crate, those of laws and proofs with their functions."""
    rows = []
    if with_functions:
        rows += [f"- {names}" for names in [functions_of(name, "")] if names]
    for module, says in facts.modules(name).items():
        names = functions_of(name, f"{module}::") if with_functions else ""
        rows.append(f"- `{module}`: {says}{f' ({names})' if names else ''}")
    return "\n".join([f"## {title}", "", *rows]) if rows else ""


def functions_of(name, prefix):
    """The public functions of one module of a crate, as words."""
    found = [path[len(prefix):] for path, item in facts.public_items(name).items() if path.startswith(prefix) and item.kind == "fn"]
    return quoted([path for path in found if "::" not in path])


def read(name):
    """A crate's page as it is: what the tool wrote, and what was written by hand."""
    path = facts.CRATES / name / "README.md"
    text = path.read_text() if path.exists() else ""
    written, mark, own = text.partition(f"{MARK}\n")
    return (written + mark, own) if mark else ("", text)


def fault(name):
    """Where a page and its crate differ, or nothing."""
    written, _ = read(name)
    new = page(name)
    if written == new:
        return ""
    path = f"crates/{name}/README.md"
    if not written:
        return f"{path}: no page, or none with the line that parts what is written by hand"
    for number, (old_line, new_line) in enumerate(zip(written.splitlines(), new.splitlines()), 1):
        if old_line != new_line:
            return f"{path}:{number}: has '{old_line[:90]}'; the crate says '{new_line[:90]}'"
    return f"{path}: has {len(written.splitlines())} lines before that line; the crate says {len(new.splitlines())}"


def stray_pages():
    """Pages in folders that aren't crates of crates.txt."""
    known = {facts.CRATES / name / "README.md" for name in facts.uses()}
    return [f"{path.relative_to(facts.TOP)}: stands in no crate of crates.txt" for path in facts.CRATES.glob("*/README.md") if path not in known]


def main():
    words = sys.argv[1:]
    if unknown := [word for word in words if word != "--write" and word not in facts.uses()]:
        print(f"unknown: {' '.join(unknown)}\n{__doc__}")
        return 2
    wanted = [word for word in words if word != "--write"] or list(facts.uses())
    if "--write" in words:
        for name in wanted:
            (facts.CRATES / name / "README.md").write_text(page(name) + read(name)[1])
        print(f"{len(wanted)} pages written")
        return 0
    found = [said for said in map(fault, wanted) if said] + stray_pages()
    print("".join(f"{said}\n" for said in found), end="")
    if not found:
        print(f"{len(wanted)} pages say what their crates say")
    return 1 if found else 0


if __name__ == "__main__":
    sys.exit(main())
