#!/usr/bin/env python3
"""Reads random event lines, right and spoilt, with `scenario_text` and with another reading of the same grammar, and compares what they say.

The other reading is a Python file with `read_event` and `event_text`: FILE, or `scenario_text.py` of the folder that GNB_OTHER_READING names. Where neither is
given, nothing is compared, and the last line says so. A small program over `scenario_text` is built outside the repository, unproved, by `rt try`.

Usage: tools/random_events.py [--count N] [--seed S] [FILE]
"""

import argparse
import importlib.util
import pathlib
import random
import shutil
import subprocess
import sys
import tempfile

import other_reading

TOP = pathlib.Path(__file__).resolve().parents[1]
CRATES = ["gnb_types", "scenario_text"]
MAIN = """//! Reads an event a line, and prints its text or the reason that it isn't one.
#![tactic(auto)]

use scenario_text::line::OutLine;
use scenario_text::print::print_line;
use scenario_text::read::{TextError, read_event};
use std::io;
use std::io::{BufRead, BufReader};

fn main(rt: HostRuntime) -> io::Result<()> {
    let alloc = rt.alloc();
    for line in BufReader::new(alloc, rt.reader())?.lines(alloc) {
        let line = line?;
        match read_event(alloc, line.as_str().as_bytes()) {
            Ok(event) => {
                let shown = OutLine::Happens { event };
                if let Ok(text) = print_line(alloc, &shown) {
                    if let Ok(text) = std::str::from_utf8(text.as_slice()) {
                        println!(rt; "{text}")?;
                    }
                }
            }
            Err(TextError::Refused(reason)) => println!(rt; "{}", reason as u8 + 1)?,
            Err(TextError::Memory) => println!(rt; "memory")?,
        }
    }
    Ok(())
}
"""

GOOD = {
    "ue": lambda r: f"u{r.randint(1, 16)}",
    "bearer": lambda r: f"b{r.randint(1, 8)}",
    "gnb": lambda r: r.choice("AB"),
    "unit": lambda r: r.choice("12"),
    "bits": lambda r: r.choice(["12", "18"]),
    "bearers": lambda r: str(r.randint(1, 8)),
    "quota": lambda r: str(r.choice([4, 5, 64, 4095, 4096, r.randint(4, 4096)])),
    "dir": lambda r: r.choice(["dl", "ul"]),
    "hex": lambda r: "".join(r.choice("0123456789abcdefABCDEF") for _ in range(2 * r.choice([1, 2, 3, 40]))),
    "node": lambda r: r.choice([g + u for g in "AB" for u in (".cp", ".up1", ".up2", ".du1", ".du2")] + ["core", "u1", "u16"]),
    "tunnel": lambda r: GOOD["node"](r) + "/" + number(r),
    "message": lambda r: "#" + number(r),
}
PLAN = ["ue", "gnb", "unit", "unit", "bits", "bearers", "quota"]
FORMS = [("static", PLAN), ("attach", PLAN), ("offer", ["ue", "bearer", "dir", "hex"]), ("get", ["tunnel"]), ("give", ["message"]), ("lose", ["message"]),
         ("lose", ["tunnel"]), ("handover", ["ue", "gnb", "unit", "unit"]), ("inject", ["node", "node", "hex"]), ("inject", ["tunnel", "hex"])]
FORMS += [(k, ["ue", "bearer", "dir"]) for k in ("air", "ack")] + [(k, ["ue", "bearer"]) for k in ("poll", "ask")]
FORMS += [(k, ["ue"]) for k in ("fail", "arrive", "return", "cancel", "release")] + [(k, []) for k in ("start", "pump", "tick", "settle")]
BAD = ["", "0", "1", "01", "u0", "u17", "b0", "b9", "C", "3", "13", "4097", "dl", "DL", "4G", "454", "A.up3/1", "A.up1/0", "A.up1", "#0", "#", "#01", "4294967296",
       "A.up1/4294967296", "A.up1/1/1", "/1", "core/", "A.cp", "x/#1", "#1/2", "u1", "-1", "+1", "99999999999999999999999", "get", "A.", "A.up", "A.up12", "b", "u"]


def number(r):
    return str(r.choice([1, 2, 9, 10, 4294967295, r.randint(1, 2**32 - 1)]))


def event(r):
    keyword, places = r.choice(FORMS)
    words = [keyword] + [GOOD[p](r) for p in places]
    for _ in range(r.choice([0, 0, 1, 1, 2])):
        at = r.randrange(len(words))
        kind = r.random()
        if kind < 0.5:
            words[at] = r.choice(BAD)
        elif kind < 0.65:
            words.insert(at + 1, r.choice(BAD))
        elif kind < 0.8 and len(words) > 1:
            del words[at]
        elif kind < 0.9 and words[at]:
            word = list(words[at])
            word[r.randrange(len(word))] = r.choice("0189aAgGuUbB./# dl")
            words[at] = "".join(word)
        else:
            words.append("")
    return " ".join(words)


def build(folder):
    (folder / "crates").mkdir()
    for crate in CRATES:
        shutil.copytree(TOP / "crates" / crate, folder / "crates" / crate, ignore=shutil.ignore_patterns("out"))
    lines = [line for line in (TOP / "crates.txt").read_text().splitlines() if line.split(":")[0] in CRATES]
    (folder / "crates.txt").write_text("\n".join([*lines, "event_lines: gnb_types scenario_text"]) + "\n")
    (folder / "crates/event_lines/src").mkdir(parents=True)
    (folder / "crates/event_lines/src/main.rt").write_text(MAIN)
    return folder / "crates/event_lines"


def run(crate, lines):
    ran = subprocess.run(["rt", "try"], cwd=crate, input="".join(line + "\n" for line in lines).encode(), stdout=subprocess.PIPE, stderr=subprocess.STDOUT, check=False)
    return ran.stdout.decode().splitlines()


def main():
    asked = argparse.ArgumentParser(description=__doc__, formatter_class=argparse.RawDescriptionHelpFormatter)
    asked.add_argument("--count", type=int, default=5000)
    asked.add_argument("--seed", type=int, default=1)
    asked.add_argument("file", nargs="?", type=pathlib.Path)
    given = asked.parse_args()
    file = given.file or other_reading.other_file("scenario_text.py")
    if file is None:
        print(f"{given.count} random event lines are left out\n{other_reading.NOT_COMPARED}")
        return 0
    spec = importlib.util.spec_from_file_location("other", file)
    other = importlib.util.module_from_spec(spec)
    spec.loader.exec_module(other)
    chance = random.Random(given.seed)
    lines = [event(chance) for _ in range(given.count)]
    theirs = []
    for line in lines:
        try:
            theirs.append("> " + other.event_text(other.read_event(line.encode())))
        except other.TextError as error:
            theirs.append(str(error.reason))
    with tempfile.TemporaryDirectory() as folder:
        said = run(build(pathlib.Path(folder)), lines)
    ours = [line for line in said if line.startswith("> ") or line in "12345"]
    if len(ours) != len(lines):
        print("the reader could not be run:\n" + "\n".join(said[:20]))
        return 1
    for line, a, b in zip(lines, ours, theirs):
        if a != b:
            print(f"readings of {line!r} differ: ours {a!r}, theirs {b!r}")
            return 1
    print(f"{len(lines)} random event lines are alike; {sum(a.startswith('>') for a in ours)} are events")
    return 0


if __name__ == "__main__":
    sys.exit(main())
