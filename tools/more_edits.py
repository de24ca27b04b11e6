#!/usr/bin/env python3
"""Tries the must-fail edits that `rt ci` leaves out: those of crates/NAME/more-edits/, which have the form of crates/NAME/must-fail/.

`rt ci` proves a whole crate once more for its first edit, which was a third of the gate. Here an edit is tried at the function whose body it changes:
a check of that function and of those that it calls alone (`rattle check --only`), over the libraries that `rt ci` left in crates/*/out. It is refused
where that function is not proved. Edits of a crate whose functions don't call one another are tried in one check.

Usage: tools/more_edits.py --quick MINUTES | --list | NAME..
    --quick: of each crate the edits of small functions, by the lines of what they lead to (QUICK_LINES); `.ci/run` calls it after `rt ci`. After these
        minutes no further check is begun, and how many edits were left is said; each day begins at another crate.
    NAME..: all edits of these crates, however much they lead to.
    --list: only says how many there are, and whether each text that they change stands exactly once in its file.
Its exit status is 1 where an edit was not refused, or cannot be applied, and 2 where it was called wrongly.
"""

import concurrent.futures
import datetime
import functools
import os
import pathlib
import re
import shutil
import subprocess
import sys
import tempfile
import time

ROOT = pathlib.Path(__file__).resolve().parents[1]
CRATES = ROOT / "crates"
# What the edited functions of one quick check lead to, in lines of bodies: some ten seconds.
QUICK_LINES = 45
# By how many crates each day's quick edits begin further on, so that a machine that can't try all of them tries others the next day.
DAYS_STEP = 50
PARTS = ("src", "specs", "proofs")
FUNCTION = re.compile(r"( *)(?:pub(?:\([a-z ]+\))? )?(?:const )?fn (\w+)")
IMPLEMENTATION = re.compile(r"impl(?:<(.*?)>)? (?:(\w[\w:]*)(?:<(.*)>)? for )?&?(\w[\w:]*)")


class Function:
    """A function of a crate: the end of its path, with its type or else its module, the lines of its body, and the names that it calls."""

    def __init__(self, path, name, first, last, body):
        self.path, self.name, self.first, self.last = path, name, first, last
        self.lines = len(body)
        self.calls = set(re.findall(r"\b(\w+)(?:::<[^(]*>)?\(", "\n".join(body)))


class Edit:
    """An edit: its file's name, the pairs of texts, and the function whose body it changes. A line 'slow: ..' says why no quick check has it."""

    def __init__(self, file):
        self.file, self.name = file, f"{file.parents[1].name}/{file.name}"
        self.pairs, self.is_slow, path, old = [], False, "", ""
        for line in file.read_text().splitlines():
            if line.startswith("file: "):
                path = line[len("file: "):].strip()
            elif line.startswith("old: "):
                old = line[len("old: "):]
            elif line.startswith("new:"):
                self.pairs.append((path, old, line[len("new:"):].removeprefix(" ")))
            elif line.startswith("slow: "):
                self.is_slow = True

    def faults(self):
        """Where a text that the edit changes doesn't stand exactly once in its file."""
        for path, old, _ in self.pairs:
            file = self.file.parents[1] / path
            found = file.read_text().count(old) if file.is_file() else 0
            if found != 1:
                yield f"{self.name}: a text of {path} stands there {found} times"

    def function(self):
        """The one function whose body it changes, if it is one."""
        found = {function_at(self.file.parents[1].name, path, old) for path, old, _ in self.pairs}
        return found.pop() if len(found) == 1 else None


def module_of(path):
    """The path of the module in a file below src/."""
    parts = [part for part in pathlib.PurePath(path).with_suffix("").parts[1:] if part not in ("lib", "main", "mod")]
    return "".join(f"{part}::" for part in parts)


def owner_of(implementation):
    """What a check calls the type of an `impl` line, with the trait and the types that this is of: `MemoryFromAllocError::`."""
    if not implementation:
        return ""
    own, trait, arguments, owner = (it or "" for it in implementation.groups())
    parameters = {parameter.split(":")[0].strip() for parameter in own.split(",")}
    given = [argument for argument in re.findall(r"(?<!')\b[A-Z]\w*", arguments) if argument not in parameters]
    return "".join([owner.split("::")[-1], trait.split("::")[-1], *given]) + "::"


def functions_in(folder, path):
    """The functions of a file with a body of their own, as `rt fmt` lays them out."""
    lines, owner = (folder / path).read_text().split("\n"), ""
    for at, line in enumerate(lines):
        if line.startswith("impl"):
            owner = owner_of(IMPLEMENTATION.match(line))
        elif line == "}":
            owner = ""
        found = FUNCTION.match(line)
        if found:
            indent = found[1]
            begin = next((k for k in range(at, len(lines)) if lines[k].startswith(indent + "{") or k == at and line.endswith("{")), None)
            if begin is None or lines[begin] == indent + "{}":
                continue
            end = next((k for k in range(begin, len(lines)) if lines[k] == indent + "}"), None)
            if end is not None:
                yield Function(f"{owner or module_of(path)}{found[2]}", found[2], begin, end, lines[begin + 1 : end])


@functools.cache
def functions_of(crate):
    """The functions of a crate, by file."""
    folder = CRATES / crate
    files = sorted(str(file.relative_to(folder)) for file in folder.glob("src/**/*.rt"))
    return {path: list(functions_in(folder, path)) for path in files}


def function_at(crate, path, text):
    """The function in whose body a text of a file stands."""
    file = CRATES / crate / path
    at = file.read_text().split(text)[0].count("\n") if file.is_file() else -1
    return next((it for it in functions_of(crate).get(path, []) if it.first < at < it.last), None)


@functools.cache
def reached(crate, function):
    """The functions that a function leads to, itself among them: by names, so rather too many."""
    everyone = [it for found in functions_of(crate).values() for it in found]
    seen, left = set(), [function]
    while left:
        it = left.pop()
        if it not in seen:
            seen.add(it)
            left += [other for other in everyone if other.name in it.calls]
    return frozenset(seen)


def edits_of(crate):
    return [Edit(file) for file in sorted((CRATES / crate / "more-edits").glob("*.edit"))]


def is_apart(crate, one, other):
    """Whether two edits can be tried in one check: the proof of neither function rests on the other's, and neither edit writes what the other changes."""
    function, next_function = one.function(), other.function()
    if function in reached(crate, next_function) or next_function in reached(crate, function):
        return False
    return not any(path == next_path and (old in next_new or next_old in new)
                   for path, old, new in one.pairs for next_path, next_old, next_new in other.pairs)


def batches(crate, edits):
    """The edits in groups that one check can try: of functions that don't lead to one another, and alone what is in no function."""
    groups, alone = [], [[edit] for edit in edits if not edit.function()]
    for edit in (it for it in edits if it.function()):
        group = next((it for it in groups if all(is_apart(crate, edit, other) for other in it)), None)
        if group is None:
            groups.append([edit])
        else:
            group.append(edit)
    return groups + alone


def quick_batch(crate):
    """The edits of a crate's smallest functions that one short check can try."""
    weights = {edit: sum(it.lines for it in reached(crate, edit.function())) for edit in edits_of(crate) if edit.function() and not edit.is_slow}
    chosen, left = [], QUICK_LINES
    for edit in sorted(weights, key=weights.get):
        is_first = not chosen
        if (is_first or weights[edit] <= left) and all(is_apart(crate, edit, it) for it in chosen):
            chosen.append(edit)
            left -= weights[edit]
    return chosen


@functools.cache
def uses():
    """What each crate uses, by crates.txt."""
    lines = (line.partition("#")[0].partition(":") for line in (ROOT / "crates.txt").read_text().splitlines())
    return {name.split()[0]: used.split() for name, colon, used in lines if colon}


@functools.cache
def below(crate):
    found = []
    for name in uses().get(crate, []):
        found += [it for it in [name, *below(name)] if it not in found]
    return found


def command(crate, functions):
    """The check of some functions of a crate, or without any of all of it, over the libraries that `rt ci` left."""
    kit = pathlib.Path(shutil.which("rt")).resolve().parents[1]
    library = lambda name: f"{CRATES}/{name}/out/rlib/{name}.rlib" if name in uses() else f"{kit}/rlibs/{name}.rlib"
    root = "lib" if (CRATES / crate / "src/lib.rt").is_file() else "main"
    words = [f"{kit}/bin/rattle", "check", "--crate-name", crate, f"src/{root}.rt"]
    words += [f"--extern={name}={library(name)}" for name in dict.fromkeys([*uses()[crate], "std"])]
    words += [f"-Ldependency={os.path.dirname(library(name))}" for name in [*below(crate), "std"]]
    words += ["--antt-project", f"{kit}/rattle/logic/antt-project.json", "--logic-built", f"{kit}/logic_built"]
    return [*words, *(f"--only={function.path}" for function in functions)]


def checked(crate, edits):
    """What a check of the edited functions prints, over a copy of the crate with these edits."""
    with tempfile.TemporaryDirectory(prefix="more-edits-") as room:
        for part in PARTS:
            if (CRATES / crate / part).is_dir():
                shutil.copytree(CRATES / crate / part, f"{room}/{part}")
        for path, old, new in (pair for edit in edits for pair in edit.pairs):
            file = pathlib.Path(room, path)
            file.write_text(file.read_text().replace(old, new))
        words = command(crate, [edit.function() for edit in edits if edit.function()])
        return subprocess.run(words, cwd=room, stdin=subprocess.DEVNULL, stdout=subprocess.PIPE, stderr=subprocess.STDOUT, errors="replace").stdout


def is_refused(edit, said):
    """Whether a check says of the edited function, or else of the crate, that it is not proved, and not that it could not tell."""
    if not edit.function():
        return said[-1].startswith("logic=not-proved")
    line = re.compile(rf"fn {edit.file.parents[1].name}::(\w+::)*{re.escape(edit.function().path)}: (not proved|no proof)")
    return any(line.match(it) for it in said)


def tried(crate, edits):
    """Tries edits of one crate in one check, and returns those that it did not refuse, each with what was said."""
    said = checked(crate, edits).rstrip("\n").split("\n")
    if re.fullmatch(r"only=\d+ proved=\d+|logic=(not-)?proved.*", said[-1]):
        return [f"{edit.name}: NOT REFUSED" for edit in edits if not is_refused(edit, said)]
    if len(edits) > 1:
        return [fault for edit in edits for fault in tried(crate, [edit])]
    told = next((line for line in said if "error" in line), said[-1])
    return [f"{edits[0].name}: the check gave no verdict: {told[:200]}"]


def all_tried(groups, end=float("inf")):
    """Tries groups of edits side by side, one a processor, those that can begin before the end."""
    with concurrent.futures.ThreadPoolExecutor(len(os.sched_getaffinity(0))) as pool:
        found = list(pool.map(lambda it: tried(*it) if time.monotonic() < end else None, groups))
    faults = [fault for it in found if it for fault in it]
    done = sum(len(edits) for (_, edits), it in zip(groups, found) if it is not None)
    left = sum(len(edits) for _, edits in groups) - done
    print("\n".join([*faults, f"{done} edits tried, {len(faults)} not refused, {left} not begun in time"]))
    return 1 if faults else 0


def listed(crates):
    edits = [edit for crate in crates for edit in edits_of(crate)]
    faults = [fault for edit in edits for fault in edit.faults()]
    print("\n".join([*faults, f"{len(edits)} edits beside those of rt ci, {len(faults)} faults"]))
    return 1 if faults else 0


def main():
    words = sys.argv[1:]
    crates = sorted(folder.parent.name for folder in CRATES.glob("*/more-edits"))
    if words == ["--list"]:
        return listed(crates)
    if len(words) == 2 and words[0] == "--quick" and words[1].isdigit():
        groups = [(crate, quick_batch(crate)) for crate in crates if quick_batch(crate)]
        first = datetime.date.today().toordinal() * DAYS_STEP % len(groups)
        return all_tried(groups[first:] + groups[:first], time.monotonic() + 60 * int(words[1]))
    unknown = [word for word in words if word not in crates]
    if unknown or not words:
        print("\n".join([f"{word}: no such crate, or it has no more edits" for word in unknown] or [__doc__]))
        return 2
    return all_tried([(crate, group) for crate in words for group in batches(crate, edits_of(crate))])


if __name__ == "__main__":
    sys.exit(main())
