#!/usr/bin/env python3
"""Measures what the gate's checks cost, writes the table of docs/check-times.md from what was measured, and checks that page.

`rt ci` keeps no times. So its processes are looked at once a second while it runs, by /proc: processor seconds of a check are the highest sum seen of its process and of
those that it began. A check that takes less than a second can be missed.

Usage: tools/check_times.py
    checks that the page has a measured row for each crate of crates.txt and no other, and that its sums are those of its rows; says which crates are dear by
    the rule.
tools/check_times.py --run TIMES COMMAND..
    runs a command, as `rt ci`, and writes TIMES: rows of crate, kind (proof, tests, edits) and processor seconds, parted by tabs, after lines `# NAME: VALUE`.
    (Seconds before the kind are read too.)
    Its exit status is the command's.
tools/check_times.py --watch TIMES PID
    the same of a command that runs already, until it ends or this tool is stopped (SIGTERM). What ended before isn't there.
tools/check_times.py --write TIMES [TIMES..]
    writes the generated part of the page. Of several files the last one that has a crate's check counts.
Its exit status is 1 where page and repository differ, and 2 where it was called wrongly, or a file of times can't be read: then it says which line.
"""

import collections
import datetime
import os
import pathlib
import platform
import re
import signal
import subprocess
import sys
import time

import crate_facts as facts

PAGE = facts.TOP / "docs/check-times.md"
BEGIN, END = "<!-- table -->", "<!-- end -->"
KINDS = ("proof", "tests", "edits")
HEAD = ["| Crate | Proof | Tests | Edits | By the rule |", "|---|--:|--:|--:|--:|"]
# The rule: seconds of start, seconds for each crate below, seconds for each line.
START, EACH_BELOW, EACH_LINE = 13, 0.26, 0.001
# The budget in processor minutes: all checks, tests, the longest chain of proofs.
BUDGET = {"sum": 240, "tests": 20, "chain": 55}
# A check that takes so much more than the rule says is dear.
DEAR_BY, DEAR_FROM = 4, 60
TICK = os.sysconf("SC_CLK_TCK")
DESCENDS = ("date", "machine", "processors", "command", "minutes", "processor minutes")


class Wrong(Exception):
    """A file that can't be read, or a call that isn't one."""


# -- measuring

class Process:
    """One line of /proc: whose child it is, since when it is there, and what it and its children that ended took, in seconds."""

    def __init__(self, pid):
        stat = pathlib.Path(f"/proc/{pid}/stat").read_text()
        fields = stat.rpartition(")")[2].split()
        self.pid, self.parent, self.since = pid, int(fields[1]), fields[19]
        self.seconds = sum(map(int, fields[11:15])) / TICK
        self.words = pathlib.Path(f"/proc/{pid}/cmdline").read_bytes().decode(errors="replace").split("\0")
        self.folder = ""
        if self.is_check():
            self.folder = os.readlink(f"/proc/{pid}/cwd")

    def is_check(self):
        return os.path.basename(self.words[0]) == "rattle" and "--crate-name" in self.words

    def check(self):
        """The crate that it checks, and the kind of the check."""
        crate = self.words[self.words.index("--crate-name") + 1]
        is_edit = any("/rt-edit" in word for word in [self.folder, *self.words])
        return crate, "edits" if is_edit else "tests" if "--test" in self.words else "proof"


def processes():
    """All processes that can be looked at, by their numbers."""
    found = {}
    for name in os.listdir("/proc"):
        if name.isdigit():
            try:
                found[int(name)] = Process(int(name))
            except OSError:
                # It ended meanwhile, or is another user's.
                continue
    return found


def is_below(found, process, top):
    """Whether a process was begun by another one, or by one that it began."""
    for _ in range(len(found)):
        if process.pid == top:
            return True
        if process.parent not in found:
            return False
        process = found[process.parent]
    return False


def look(top, checks):
    """Adds what the checks below a process took until now: {(pid, since): (crate, kind, seconds)}."""
    found = processes()
    sums = collections.Counter()
    for process in found.values():
        upper = process
        outermost = None
        while upper is not None:
            if upper.is_check():
                outermost = upper
            upper = found.get(upper.parent)
        if outermost is not None:
            sums[outermost.pid] += process.seconds
    for pid, seconds in sums.items():
        process = found[pid]
        if is_below(found, process, top):
            key = (pid, process.since)
            before = checks.get(key, ("", "", 0))[2]
            checks[key] = (*process.check(), max(before, seconds))


def watch(top, is_running):
    """Looks once a second while something runs; gives the seconds by crate and kind."""
    checks = {}
    # Also where a shell began it in the background, and there it hears nothing else.
    signal.signal(signal.SIGTERM, signal.default_int_handler)
    try:
        while is_running():
            look(top, checks)
            time.sleep(1)
    except KeyboardInterrupt:
        # What was seen until then is worth writing.
        print("stopped: what was seen is written", file=sys.stderr)
    sums = collections.Counter()
    for crate, kind, seconds in checks.values():
        sums[crate, kind] += seconds
    return sums


def processor():
    for line in pathlib.Path("/proc/cpuinfo").read_text().splitlines():
        if line.startswith("model name"):
            return line.partition(":")[2].strip()
    return platform.machine()


def save(path, sums, command, minutes, processor_minutes):
    about = {
        "date": datetime.date.today().isoformat(),
        "machine": processor(),
        "processors": len(os.sched_getaffinity(0)),
        "command": command,
        "minutes": round(minutes),
        "processor minutes": round(processor_minutes) if processor_minutes else "not measured",
    }
    lines = [f"# {name}: {value}" for name, value in about.items()]
    lines += [f"{crate}\t{kind}\t{seconds:.1f}" for (crate, kind), seconds in sorted(sums.items())]
    pathlib.Path(path).write_text("\n".join(lines) + "\n")
    print(f"{path}: {len(sums)} checks, {sum(sums.values()) / 60:.0f} processor minutes")


def run(path, words):
    began = time.monotonic()
    command = subprocess.Popen(words)
    sums = watch(command.pid, lambda: command.poll() is None)
    used = os.times()
    save(path, sums, " ".join(words), (time.monotonic() - began) / 60, (used.children_user + used.children_system) / 60)
    return command.returncode


def watch_other(path, pid):
    began = time.monotonic()
    words = Process(pid).words
    sums = watch(pid, lambda: os.path.exists(f"/proc/{pid}"))
    save(path, sums, f"{' '.join(words).strip()} (seen in part)", (time.monotonic() - began) / 60, None)
    return 0


# -- the page

def read_times(paths):
    """The measured seconds by crate and kind, and what the last file says of its run."""
    sums, about = {}, {}
    for path in paths:
        try:
            lines = pathlib.Path(path).read_text().splitlines()
        except (OSError, UnicodeDecodeError) as error:
            raise Wrong(f"{path}: can't be read: {error}") from error
        for number, line in enumerate(lines, 1):
            if line.startswith("# ") and ": " in line:
                name, _, value = line[2:].partition(": ")
                about[name] = value
            elif line.strip():
                crate, kind, seconds = row_of(path, number, line)
                sums[crate, kind] = seconds
    return sums, about


def row_of(path, number, line):
    cells = line.split("\t")
    if len(cells) == 3 and cells[2] in KINDS:
        cells = [cells[0], cells[2], cells[1]]
    if len(cells) != 3 or cells[1] not in KINDS or not re.fullmatch(r"\d+(\.\d+)?", cells[2]):
        raise Wrong(f"{path}:{number}: awaited a crate, one of {', '.join(KINDS)}, and seconds, parted by tabs; read '{line[:60]}'")
    return cells[0], cells[1], float(cells[2])


def rule(name):
    """What the rule says that a proof costs, in seconds."""
    return START + EACH_BELOW * len(facts.below(name)) + EACH_LINE * facts.all_lines(name)


def chain(proofs):
    """The longest chain of crates, each on the one before: its processor seconds, and its crates from the lowest on."""
    best = {}
    for name, listed in facts.uses().items():
        seconds, way = max((best[use] for use in listed if use in best), default=(0, []))
        best[name] = (seconds + proofs.get(name, 0), [*way, name])
    return max(best.values())


def cell(seconds):
    return "" if seconds is None else str(round(seconds))


def table(sums):
    """The lines of the table, in the order of crates.txt."""
    rows = []
    for name in facts.uses():
        cells = [cell(sums.get((name, kind))) for kind in KINDS]
        rows.append(f"| `{name}` | {' | '.join(cells)} | {cell(rule(name))} |")
    return [*HEAD, *rows]


def summary(sums):
    """The lines before the table: the sums, with their budgets."""
    minutes = {kind: sum(seconds for (_, its), seconds in sums.items() if its == kind) / 60 for kind in KINDS}
    seconds, way = chain({crate: taken for (crate, kind), taken in sums.items() if kind == "proof"})
    return [
        "| | Processor minutes | Budget |",
        "|---|--:|--:|",
        f"| all checks | {sum(minutes.values()):.0f} | {BUDGET['sum']} |",
        f"| proofs | {minutes['proof']:.0f} | |",
        f"| tests | {minutes['tests']:.0f} | {BUDGET['tests']} |",
        f"| must-fail edits | {minutes['edits']:.0f} | |",
        f"| the longest chain of proofs, {len(way)} crates up to `{way[-1]}` | {seconds / 60:.0f} | {BUDGET['chain']} |",
        "",
    ]


def generated(sums, about):
    said = [f"{name}: {about[name]}" for name in DESCENDS if name in about]
    return [f"Last run: {'; '.join(said) if said else 'not said'}.", "", *summary(sums), *table(sums)]


def page_parts():
    """The page's lines, and the places of the first generated line and of the line after the last."""
    lines = PAGE.read_text().splitlines()
    if BEGIN not in lines or END not in lines:
        raise Wrong(f"{PAGE.relative_to(facts.TOP)}: has no lines {BEGIN} and {END}")
    return lines, lines.index(BEGIN) + 1, lines.index(END)


def write(paths):
    sums, about = read_times(paths)
    lines, begin, end = page_parts()
    if unknown := sorted({crate for crate, _ in sums if crate not in facts.uses()}):
        print(f"of no crate of crates.txt, left out: {' '.join(unknown)}")
    # Whole seconds, so that the sums are those of the rows.
    lines[begin:end] = generated({key: round(seconds) for key, seconds in sums.items() if key[0] in facts.uses()}, about)
    PAGE.write_text("\n".join(lines) + "\n")
    return check()


def page_times(lines, begin):
    """The rows of the page's table: {(crate, kind): seconds}, and the crates that have a row with the line where it stands."""
    sums, where = {}, {}
    for number, line in enumerate(lines, begin + 1):
        row = re.fullmatch(r"\| `(\w+)` \|(.*)\|", line)
        if row:
            where[row[1]] = number
            for kind, value in zip(KINDS, row[2].split("|")):
                if value.strip():
                    sums[row[1], kind] = float(value)
    return sums, where


def check():
    lines, begin, end = page_parts()
    sums, where = page_times(lines[begin:end], begin)
    name = PAGE.relative_to(facts.TOP)
    faults = [f"{name}:{number}: has {crate}, which crates.txt hasn't" for crate, number in where.items() if crate not in facts.uses()]
    for crate in facts.uses():
        if crate not in where:
            faults.append(f"{name}: has no row of {crate}")
        elif not any((crate, kind) in sums for kind in KINDS):
            faults.append(f"{name}:{where[crate]}: {crate} was not measured")
    faults += [f"{name}: lacks '{line}'" for line in summary(sums) if line and line not in lines]
    print("".join(f"{fault}\n" for fault in faults), end="")
    for crate in facts.uses():
        seconds = sums.get((crate, "proof"), 0)
        if seconds >= DEAR_FROM and seconds > DEAR_BY * rule(crate):
            print(f"dear: {crate}, {seconds:.0f} seconds; the rule says {rule(crate):.0f}")
    if not faults:
        print(f"{name} has the times of {len(where)} crates, {sum(sums.values()) / 60:.0f} processor minutes")
    return 1 if faults else 0


def main():
    words = sys.argv[1:]
    try:
        if not words:
            return check()
        if words[0] == "--write" and len(words) > 1:
            return write(words[1:])
        if words[0] == "--run" and len(words) > 2:
            return run(words[1], words[2:])
        if words[0] == "--watch" and len(words) == 3 and words[2].isdigit() and os.path.exists(f"/proc/{words[2]}"):
            return watch_other(words[1], int(words[2]))
    except Wrong as wrong:
        print(wrong)
        return 2
    print(__doc__)
    return 2


if __name__ == "__main__":
    sys.exit(main())
