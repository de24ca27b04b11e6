#!/usr/bin/env python3
"""Lists where the code says out of memory other than by an allocator's error, and compares it with the places that are known.

No clause says when memory is there, so a body that answers out of memory at once would prove. `Memory` (crates/gnb_types) is therefore made of an allocator's error, or by one of two named
calls, `told` and `too_many`. What is listed here, of crates/*/src but for the tests:
- each use of `too_many`, and each other way to make a `Memory` or an allocator's error;
- each use of `told`, and each variant `Memory` or `OutOfMemory` of an enum that is made, outside an `impl From<Memory>` (or `From<AllocError>`, `From<AllocFailed<..>>`) and outside a match
  arm whose pattern has such a variant.
A pattern, a comparison and a contract make nothing. First the check plants bodies that claim memory at once, and sees that each is found.

Usage: tools/memory_claims.py [--list]
    --list: prints all places that are found.
Its exit status is 1 where a place is found that isn't known, or a known one is gone.
"""

import argparse
import collections
import re
import sys

import crate_facts as facts

# Why memory had run out at a place, or what is so otherwise.
ERROR_OF = "`{}` fails out of memory alone".format
STATE = "the state is set where an allocation failed"
PAST_COUNT = "no memory has room for more than 2^64 of them"
# By the file from crates/ on and the function: how many claims there are, and why.
KNOWN = {
    ("aper/src/decoder.rt", "printed"): (1, ERROR_OF("path_text")),
    ("aper_decode/src/container.rt", "put_raw"): (1, ERROR_OF("push")),
    ("aper_decode/src/decoder.rt", "refused"): (1, ERROR_OF("path_of")),
    ("aper_decode/src/list.rt", "refuse"): (1, ERROR_OF("push")),
    ("aper_stream/src/decoder/decoder.rt", "answer"): (1, STATE),
    ("aper_stream/src/decoder/decoder.rt", "end"): (1, ERROR_OF("take_piece")),
    ("aper_stream/src/decoder/decoder.rt", "finished"): (1, STATE),
    ("aper_stream/src/decoder/decoder.rt", "refused"): (1, ERROR_OF("path_of")),
    ("aper_stream/src/decoder/turns.rt", "take_turns"): (1, "2^64 turns are more than a decoder takes: each takes octets, or goes a step out or in"),
    ("aper_stream/src/steps/step.rt", "made"): (1, ERROR_OF("string_value")),
    ("bits_core/src/writer.rt", "put_bits"): (1, STATE),
    ("bits_core/src/writer.rt", "put_octets"): (1, STATE),
    ("command_bearers/src/script_word/run.rt", "run_lines"): (2, ERROR_OF("LineReader::new` and `begin")),
    ("command_bearers/src/script_word/run.rt", "take_line"): (1, ERROR_OF("apply")),
    ("command_verify/src/judging.rt", "judge"): (2, ERROR_OF("LineReader::new` and `Checker::new")),
    ("command_verify/src/report.rt", "verify"): (1, ERROR_OF("verdict_text")),
    ("command_run/src/generate/run.rt", "pass"): (1, ERROR_OF("event")),
    ("command_run/src/generate/word.rt", "run_generated"): (2, ERROR_OF("run` and `text")),
    ("command_run/src/run.rt", "finish"): (1, ERROR_OF("text_at")),
    ("command_run/src/script.rt", "apply_event"): (2, ERROR_OF("happen` and `event_text")),
    ("command_run/src/script.rt", "run"): (2, ERROR_OF("LineReader::new` and `World::new")),
    ("command_values/src/answer.rt", "whole"): (1, ERROR_OF("from_slice")),
    ("command_values/src/lines.rt", "put_answer"): (2, ERROR_OF("fed` and `append")),
    ("command_values/src/run.rt", "finish"): (1, ERROR_OF("text_at")),
    ("command_values/src/run.rt", "run"): (1, ERROR_OF("LineReader::new")),
    ("command_values/src/run.rt", "with_given"): (1, ERROR_OF("profile_of")),
    ("commands/src/command_check/report.rt", "check_input"): (1, ERROR_OF("answer_text")),
    ("commands/src/command_output/write.rt", "write_lines"): (1, ERROR_OF("text_of")),
    ("cu_control/src/control.rt", "place_static"): (2, ERROR_OF("place_static")),
    ("cu_cp_records/src/control_actions/tokens.rt", "told_epoch"): (1, "an attempt ends before its epoch passes 2^32 - 1; no clause says so yet"),
    ("dup/src/run/run.rt", "apply"): (1, STATE),
    ("dup_bearer/src/dup_pdcp/tx.rt", "offered"): (2, ERROR_OF("offer")),
    ("dup_bearer/src/legs/items.rt", "put"): (1, "so many packets take more memory than there is"),
    ("gnb_base/src/lines.rt", "next"): (1, STATE),
    ("gnb_base/src/lines.rt", "read_more"): (1, ERROR_OF("extend_from_slice")),
    ("gnb_base/src/lines.rt", "turn"): (2, ERROR_OF("take_line` and `take_last")),
    ("gnb_types/src/items.rt", "told"): (1, "the named call itself"),
    ("gnb_types/src/items.rt", "too_many"): (1, "the named call itself"),
    ("json_fields/src/simple/refusal.rt", "under"): (1, ERROR_OF("push")),
    ("links/src/link_tallies/tallies.rt", "enter"): (1, PAST_COUNT),
    ("links/src/link_tallies/tallies.rt", "show"): (1, PAST_COUNT),
    ("links/src/links_bag/bag.rt", "put"): (2, ERROR_OF("reserve` and `one_more")),
    ("run_links/src/book.rt", "deliver"): (1, "no run makes 2^64 deliveries"),
    ("run_links/src/book.rt", "offer"): (1, "no run makes 2^64 offers"),
    ("scenario_cli/src/top.rt", "generate_over"): (1, ERROR_OF("ProfileCodec::new")),
    ("scenario_cli/src/top.rt", "run_over"): (1, ERROR_OF("ProfileCodec::new")),
    ("scenario_cli/src/top.rt", "verify_text"): (1, ERROR_OF("ProfileCodec::new")),
    ("transcript_check/src/checker.rt", "after"): (1, STATE),
    ("transcript_check/src/checker.rt", "answer"): (1, STATE),
    ("transcript_check/src/checker.rt", "finish"): (1, STATE),
    ("transcript_check/src/checker.rt", "line"): (1, ERROR_OF("after")),
    ("um/src/run/world.rt", "apply"): (1, STATE),
    ("um/src/run/world.rt", "run_out"): (1, "its callers have an error of memory"),
    ("um/src/run/world.rt", "tick"): (1, ERROR_OF("tick")),
    ("um/src/um_pdcp/rx.rt", "take"): (1, STATE),
    ("um/src/um_pdcp/rx.rt", "tick"): (1, STATE),
    ("values_json/src/lib.rt", "json_of_value"): (1, "names and texts of a value are UTF-8, and its numbers have 64 bits; no clause says so yet"),
    ("values_json/src/reading.rt", "refused"): (2, "`Refusal` has no other variant than `Fault`, and `path_text` fails out of memory alone"),
    ("values_json/src/reading.rt", "tree_of"): (1, "the fault of the text says that it is memory"),
    ("world/src/radios/radios.rt", "radio_parts"): (3, PAST_COUNT),
    ("world/src/settling/limit.rt", "add"): (1, PAST_COUNT),
    ("world/src/settling/limit.rt", "rounds_for"): (1, PAST_COUNT),
    ("world_events/src/injects/injects.rt", "inject_to_core"): (2, "what can't be read spends no counter, and no message is put for it"),
}

IDENTIFIER = r"[A-Za-z_]\w*"
VARIANT = re.compile(r"\b[A-Z]\w*::(?:Memory|OutOfMemory)\b")
SAYING = re.compile(VARIANT.pattern + r"|\bMemory::told\b")
# A `Memory` or an allocator's error that is made: by a call of the type but `from`, or by its fields.
MADE = re.compile(r"\bMemory::(?!from\b|told\b)[a-z_]\w*|(?<![:\w])Memory \{(?= *failed)|\bAllocFailed\b(?= *(?:\{|::\w))|(?:[(=|{;]|=>|\breturn)\s*AllocError\b(?!::)")
IMPORTED = re.compile(r"^\s*(?:pub )?use [\w:]*\b[A-Z]\w*::(?:\*|Memory\b|OutOfMemory\b|\{[^}]*\b(?:OutOf)?Memory\b)", re.MULTILINE)
USE = re.compile(r"^\s*(?:pub )?use [^;]*;", re.MULTILINE)
CONTRACT = re.compile(r"\b(?:ensures|requires|decreases|invariant)\b(?: +[\w-]+)? *\{")
CONVERSION = re.compile(r"\bimpl(?:<[^{}]*?>)? From<(?:[a-z_]\w*::)*(?:Memory|NoMemory|AllocError|AllocFailed<[^{}]*?>)> for [^{]*\{")
FUNCTION = re.compile(r"\bfn (" + IDENTIFIER + r")")
# What stands after a pattern.
PATTERN_END = re.compile(r"[\s)]*(?:\|[^={};]*|if\b[^={};]*)?(?:=>|=(?![=>]))")
COMPARED = re.compile(r"[=!]= *(?:Err\(|Some\()*$")
# (the second word of `matches!` is a pattern)
MATCHED = re.compile(r"\bmatches!\([^(),]*, *(?:Err\(|Some\()*$")
CLOSING = {"(": ")", "[": "]", "{": "}"}
OPENING = {close: opened for opened, close in CLOSING.items()}

Place = collections.namedtuple("Place", "path function")


# ---- the text without what makes nothing
def blanked(text, first, last):
    return text[:first] + re.sub(r"[^\n]", " ", text[first:last]) + text[last:]


def block_end(text, opened):
    """The place after the bracket that closes this one."""
    depth = 0
    for place in range(opened, len(text)):
        if text[place] in CLOSING:
            depth += 1
        elif text[place] in OPENING:
            depth -= 1
            if depth == 0:
                return place + 1
    return len(text)


def code_of(text):
    """The text with comments, texts in quotes, ghost items and contracts blanked; each place stays where it is."""
    for pattern in (r"//[^\n]*", r'b?"(?:\\.|[^"\\])*"', r"b?'(?:\\.|[^'\\\n])'"):
        text = re.sub(pattern, lambda found: re.sub(r"[^\n]", " ", found.group()), text)
    for pattern in (re.compile(r"^\s*ghost [^;{]*\{", re.MULTILINE), CONTRACT):
        for found in list(pattern.finditer(text)):
            text = blanked(text, found.start(), block_end(text, found.end() - 1))
    return re.sub(r"^\s*ghost [^;{]*;", lambda found: " " * len(found.group()), text, flags=re.MULTILINE)


# ---- what stands around a place
def arm_pattern(text, arrow):
    """The pattern before this `=>`."""
    place = arrow - 1
    while place >= 0:
        if text[place] in OPENING and text[place] != "}":
            place = opening_of(text, place) - 1
            continue
        if text[place] in ",;}" or text[place] in CLOSING:
            if text[place] == "}" and re.match(r"\s*(?:\||if\b|=>)", text[place + 1:]):
                place = opening_of(text, place) - 1
                continue
            break
        place -= 1
    return text[place + 1:arrow]


def opening_of(text, closed):
    depth = 0
    for place in range(closed, -1, -1):
        if text[place] in OPENING:
            depth += 1
        elif text[place] in CLOSING:
            depth -= 1
            if depth == 0:
                return place
    return 0


def patterns_around(text, place):
    """The patterns of the match arms in which this place stands, the innermost first."""
    depth = 0
    while place > 0:
        place -= 1
        if text[place] in OPENING:
            place = opening_of(text, place)
        elif text[place] in CLOSING:
            depth += 1
            if re.search(r"\bfn [^{};]*$", text[:place]) and text[place] == "{":
                return
        elif text[place] == ">" and text[place - 1] == "=":
            yield arm_pattern(text, place - 1)
            place = past_arm(text, place - 1)
        elif text[place] in ",;" and not inside_call(text, place):
            place = enclosing(text, place)
            if place and re.search(r"\bfn [^{};]*$", text[:place]):
                return


def enclosing(text, place):
    """The bracket in which this place stands; 0 where there is none."""
    while place > 0:
        place -= 1
        if text[place] in OPENING:
            place = opening_of(text, place)
        elif text[place] in CLOSING:
            return place
    return 0


def inside_call(text, place):
    return text[enclosing(text, place)] in "(["


def past_arm(text, arrow):
    """The brace of the match in which this arm stands."""
    return enclosing(text, arrow)


def converts(text):
    """Where the conversions of an error that only memory makes begin and end."""
    return [(found.start(), block_end(text, found.end() - 1)) for found in CONVERSION.finditer(text)]


def is_made(text, found, spans):
    """Whether this variant is made here, and of nothing that says out of memory."""
    if PATTERN_END.match(text, found.end()) or COMPARED.search(text[:found.start()]) or MATCHED.search(text[:found.start()]):
        return False
    if any(first <= found.start() < last for first, last in spans):
        return False
    return not any(VARIANT.search(pattern) for pattern in patterns_around(text, found.start()))


def function_at(text, place):
    names = FUNCTION.findall(text[:place])
    return names[-1] if names else ""


def claims_in(path, text):
    """How many claims stand in each function of a file."""
    text = code_of(text)
    spans = converts(text)
    found = [place.start() for place in SAYING.finditer(text) if is_made(text, place, spans)]
    run = USE.sub(lambda line: " " * len(line.group()), text)
    found += [place.start() for place in MADE.finditer(run) if not any(first <= place.start() < last for first, last in spans)]
    found += [place.start() for place in IMPORTED.finditer(text)]
    return collections.Counter(Place(path, function_at(text, place)) for place in found)


# ---- all files, and planted bodies
def sources():
    for path in sorted(facts.CRATES.glob("*/src/**/*.rt")):
        name = str(path.relative_to(facts.CRATES))
        if not name.startswith("tests_"):
            yield name, path.read_text()


PLANTED = (
    "fn planted() -> Result<(), Cause> {\n    Err(Cause::Memory)\n}\n",
    "fn planted(x: u32) -> Result<(), Cause> {\n    if x > 3 {\n        return Err(Cause::OutOfMemory);\n    }\n    Ok(())\n}\n",
    "fn planted(x: Result<(), Wrong>) -> Result<(), Cause> {\n    match x {\n        Err(Wrong::Memory) => Err(Cause::Memory),\n        Err(_) => Err(Cause::Memory),\n        Ok(()) => Ok(()),\n    }\n}\n",
    "fn planted() -> Result<(), Memory> {\n    Err(Memory::told())\n}\n",
    "fn planted(x: Option<u32>) -> Result<u32, Memory> {\n    x.ok_or(Memory::too_many())\n}\n",
    "fn planted() -> Result<(), Memory> {\n    Err(Memory { failed: () })\n}\n",
    "fn planted() -> Result<(), Memory> {\n    Err(Memory::from(AllocError))\n}\n",
    "impl From<Wrong> for Cause {\n    fn planted(error: Wrong) -> Cause {\n        Cause::Memory\n    }\n}\n",
)
# What claims nothing new.
TOLD = (
    "fn planted(x: Result<(), Wrong>) -> Result<(), Cause> {\n    match x {\n        Err(Wrong::Memory) => Err(Cause::Memory),\n        Ok(()) => Ok(()),\n    }\n}\n",
    "fn planted(x: Result<(), Wrong>) -> Result<(), Cause> {\n    match x {\n        Err(Wrong::Memory) => {\n            let y = 3;\n            Err(Cause::Memory)\n        }\n        Ok(()) => Ok(()),\n    }\n}\n",
    "impl From<Memory> for Cause {\n    fn planted(_error: Memory) -> Cause {\n        Cause::Memory\n    }\n}\n",
)


def planted_faults():
    """The planted bodies that are judged wrong, each put at the end of every file in turn of a few."""
    for name, text in list(sources())[::40]:
        for body in PLANTED + TOLD:
            seen = claims_in(name, text + "\n" + body)[Place(name, "planted")]
            if seen != (1 if body in PLANTED else 0):
                yield f"a planted body at the end of {name} counts {seen} times:\n{body}"


def differences(found):
    for place in sorted(set(found) | {Place(*key) for key in KNOWN}):
        known = KNOWN.get(tuple(place), (0, ""))[0]
        if found[place] != known:
            yield f"{place.path}, {place.function or 'outside functions'}: {found[place]} claims of memory, and {known} are known"


def main():
    parser = argparse.ArgumentParser(description=__doc__, formatter_class=argparse.RawDescriptionHelpFormatter)
    parser.add_argument("--list", action="store_true")
    options = parser.parse_args()
    found = collections.Counter()
    for name, text in sources():
        found += claims_in(name, text)
    if options.list:
        for place in sorted(found):
            print(f"{place.path} {place.function} {found[place]}: {KNOWN.get(tuple(place), (0, 'not known'))[1]}")
    faults = list(planted_faults()) + list(differences(found))
    for fault in faults:
        print(f"memory_claims.py: {fault}", file=sys.stderr)
    print(f"memory_claims.py: {found.total()} claims of memory beside an allocator's error, {len(faults)} faults", file=sys.stderr)
    return 1 if faults else 0


if __name__ == "__main__":
    sys.exit(main())
