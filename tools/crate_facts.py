"""What tools ask of the crates: their order and families, what stands on the first page of each, and what each one names.

Everything is read from the repository as it is: crates.txt, and the files of crates/NAME/. Nothing is proved or built, and nothing is kept.
"""

import collections
import functools
import pathlib
import re

TOP = pathlib.Path(__file__).resolve().parents[1]
CRATES = TOP / "crates"
HEADING = "# == "
KINDS = {
    "code": "code",
    "defs": "definitions alone",
    "proof": "steps of proofs",
    "law": "theorems",
    "tests": "tests",
}
# A declaration of a file of src/, with what stands before it on its line.
ITEM = re.compile(r"^( *)(pub )?(?:unsafe )?(?:const )?(fn|struct|enum|trait|type|mod) (\w+)", re.MULTILINE)
IMPLEMENTATION = re.compile(r"^impl(?:<.*?>)? (?:[\w:]+(?:<.*>)? for )?&?(?:\w+::)*(\w+)", re.MULTILINE)
REEXPORT = re.compile(r"^pub use ([^;]+);", re.MULTILINE)
# What a clause can cite, or a page can name, of a file of definitions or lemmas: its head, a field, a constructor, a lemma.
DEFINED = re.compile(r"^ *(?:abbrev |opaque )?(?:pub )?(?:record |data |abbrev )?(?:pub )?([^\s:()]+)(?= .*:| *:|\s*$)", re.MULTILINE)

# One public item of a crate's code: 'fn', 'struct' and so on, its name, its first sentence, and the names of its public methods.
Item = collections.namedtuple("Item", "kind name says methods")


@functools.cache
def families():
    """The headings of crates.txt with their crates, and what each crate lists: {heading: {crate: [names]}}."""
    found, heading = {}, ""
    for line in (TOP / "crates.txt").read_text().splitlines():
        if line.startswith(HEADING):
            heading = line[len(HEADING):].strip()
        elif line.strip() and not line.startswith("#"):
            name, _, uses = line.partition(":")
            found.setdefault(heading, {})[name.split()[0]] = uses.split("#")[0].split()
    return found


@functools.cache
def uses():
    """What each crate of crates.txt lists, in its order: of this repository and of the kit."""
    return {name: listed for members in families().values() for name, listed in members.items()}


@functools.cache
def below(name):
    """All crates of this repository that a crate stands on."""
    found = set()
    for use in uses()[name]:
        if use in uses():
            found |= {use} | below(use)
    return frozenset(found)


def kind_of(name):
    """What a crate is by its name: a word of KINDS."""
    if name.endswith("_defs"):
        return "defs"
    for kind in ("proof", "law", "tests"):
        if name.startswith(f"{kind}_"):
            return kind
    return "code"


@functools.cache
def sources(name, part="src"):
    """The files of one part of a crate, src, specs or proofs."""
    suffix = ".rt" if part == "src" else ".antt"
    return sorted((CRATES / name / part).rglob(f"*{suffix}"))


@functools.cache
def text_of(path):
    return path.read_text()


def root_of(name):
    """The first file of a crate: src/lib.rt, or src/main.rt of a program."""
    library = CRATES / name / "src/lib.rt"
    return library if library.exists() else CRATES / name / "src/main.rt"


def head_of(path):
    """The doc comment at the head of a file, as lines without their signs."""
    found = []
    for line in text_of(path).splitlines():
        if not line.startswith("//!"):
            break
        found.append(line[3:].strip())
    return found


def paragraph(lines):
    """The first paragraph of lines, as one line."""
    found = []
    for line in lines:
        if not line or line.startswith("- "):
            break
        found.append(line)
    return " ".join(found)


def sentence(text):
    """The first sentence of a text."""
    found = re.match(r".*?[^.\s]\.(?=\s|$)", text)
    return found[0] if found else text


def listed_modules(name):
    """The modules that a crate's first page lists, each with its sentence: '- `module`: ..'."""
    found, last = {}, None
    for line in head_of(root_of(name)):
        row = re.match(r"- `(\w+)`: (.*)", line)
        if row:
            last = row[1]
            found[last] = row[2]
        elif last and line and not line.startswith("- "):
            found[last] += f" {line}"
        else:
            last = None
    return found


def module_file(name, module):
    return CRATES / name / "src" / f"{module}.rt"


def modules(name):
    """The modules of a crate with a sentence each: as its first page has it, or else the first sentence of the module's own head."""
    found = listed_modules(name)
    for module in re.findall(r"^(?:pub )?mod (\w+);", without_tests(text_of(root_of(name))), re.MULTILINE):
        path = module_file(name, module)
        if module not in found and path.exists():
            found[module] = sentence(paragraph(head_of(path)))
    return found


def without_tests(text):
    """A file's text without modules of tests."""
    return re.sub(r"^#\[cfg\(test\)\]\s*\n(?:pub )?mod \w+;\n", "", text, flags=re.MULTILINE)


@functools.cache
def items_in(path):
    """The declarations of a file of src/: (indented, public, kind, name, place)."""
    return [(bool(row[1]), bool(row[2]), row[3], row[4], row.start()) for row in ITEM.finditer(text_of(path))]


@functools.cache
def homes(name):
    """Where a crate declares each name at the outer level of a file: {name: [(file, kind, public, place)]}."""
    found = collections.defaultdict(list)
    for path in sources(name):
        for indented, public, kind, item, place in items_in(path):
            if not indented:
                found[item].append((path, kind, public, place))
    return found


def doc_before(text, at):
    """The first sentence of the doc comment that stands before a place of a text, over attributes."""
    lines = text[:at].splitlines()
    found = []
    while lines and (lines[-1].lstrip().startswith(("///", "#[")) or (found and lines[-1].lstrip().startswith("///"))):
        line = lines.pop().lstrip()
        if line.startswith("///"):
            found.insert(0, line[3:].strip())
    return sentence(paragraph(found))


def top_of(name, path):
    """The module of a crate's root in which a file stands, or the file's own name."""
    return path.relative_to(CRATES / name / "src").parts[0].removesuffix(".rt")


@functools.cache
def methods(name):
    """By type and by the module of the root: the public methods of a crate's own types, and the methods of its traits."""
    found = collections.defaultdict(lambda: collections.defaultdict(list))
    for path in sources(name):
        text, top = text_of(path), top_of(name, path)
        for block in IMPLEMENTATION.finditer(text):
            found[block[1]][top] += re.findall(r"^    pub (?:const )?fn (\w+)", block_of(text, block.start()), re.MULTILINE)
        for block in re.finditer(r"^pub trait (\w+)", text, re.MULTILINE):
            found[block[1]][top] += re.findall(r"^    (?:const )?fn (\w+)", block_of(text, block.start()), re.MULTILINE)
    return found


def methods_of(name, item, top):
    """The public methods of a type that stands in a module of the root; another module with a type of the same name has its own."""
    others = {top_of(name, path) for path, kind, _, _ in homes(name)[item] if kind in ("struct", "enum", "trait")}
    return tuple(method for where, own in methods(name)[item].items() if where == top or where not in others for method in own)


def block_of(text, start):
    """What stands from a place of a text up to the line that ends its block."""
    end = text.find("\n}", start)
    return text[start: len(text) if end < 0 else end]


@functools.cache
def public_items(name):
    """The public items of a crate, by the path under which others name them: {path: Item}."""
    found = {}
    collect(name, root_of(name), "", found)
    return found


def collect(name, path, prefix, found):
    """Adds the public items of a file and of its public modules."""
    text = without_tests(text_of(path))
    for row in ITEM.finditer(text):
        indent, public, kind, item = row.groups()
        if indent or not public:
            continue
        inner = inner_file(path, item)
        if kind == "mod" and inner:
            collect(name, inner, f"{prefix}{item}::", found)
        elif kind != "mod":
            found[prefix + item] = Item(kind, item, doc_before(text, row.start()), methods_of(name, item, top_of(name, path)))
    for row in REEXPORT.finditer(text):
        # What stands in another module of the crate is named there, unless the root passes it on.
        if row[1].startswith("crate::") and prefix:
            continue
        for item in passed_on(row[1]):
            declared = declaration(name, item, path if prefix else None)
            if declared:
                # Others name it by the shorter path.
                for longer in [there for there in found if there.startswith(prefix) and there.endswith(f"::{item}") and found[there] == declared]:
                    del found[longer]
                found[prefix + item] = declared


def inner_file(path, module):
    """The file of a module that a file declares."""
    folder = path.parent if path.name in ("lib.rt", "main.rt") else path.with_suffix("")
    inner = folder / f"{module}.rt"
    return inner if inner.exists() else None


def passed_on(words):
    """The names that a `pub use` passes on."""
    listed = re.search(r"\{(.*)\}", words, re.DOTALL)
    names = listed[1].split(",") if listed else [words.split("::")[-1]]
    return [item.split(" as ")[-1].strip() for item in names if item.strip()]


def declaration(name, item, below_file):
    """The declaration of a public item in a crate, or in the module of the root that a file is of; or None."""
    for path, kind, public, place in homes(name)[item]:
        top = top_of(name, path)
        if public and kind != "mod" and (below_file is None or top == top_of(name, below_file)):
            return Item(kind, item, doc_before(text_of(path), place), methods_of(name, item, top))
    return None


def call_count(name):
    """How many public calls a crate has: functions, and methods of public types and traits."""
    return sum((item.kind == "fn") + len(item.methods) for item in public_items(name).values())


def code_lines(name):
    """How many lines of src/ are neither blank nor a comment."""
    return sum(1 for path in sources(name) for line in text_of(path).splitlines() if line.strip() and not line.lstrip().startswith("//"))


def all_lines(name):
    """How many lines a crate has, code, definitions and proofs."""
    return sum(len(text_of(path).splitlines()) for part in ("src", "specs", "proofs") for path in sources(name, part))


def function_count(name):
    """How many functions src/ has, methods and functions of tests among them."""
    return sum(len(re.findall(r"^ *(?:pub(?:\(\w+\))? )?(?:const )?fn \w+", text_of(path), re.MULTILINE)) for path in sources(name))


@functools.cache
def names_in(path):
    """The names that a file of a crate gives: functions, types, clauses and modules of code; definitions, fields and lemmas of the logic."""
    text = text_of(path)
    if path.suffix == ".antt":
        return set(DEFINED.findall(text))
    found = {item for _, _, _, item, _ in items_in(path)}
    return found | set(re.findall(r"^ *ensures (\w+) \{", text, re.MULTILINE)) | set(re.findall(r"^    ([A-Z]\w*)\b", text, re.MULTILINE))


@functools.cache
def names_of(name):
    """The names that a crate gives, in all of its files, those of its modules among them."""
    found = set()
    for part in ("src", "specs", "proofs"):
        for path in sources(name, part):
            found |= names_in(path) | {path.stem}
    return found
