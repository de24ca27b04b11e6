#!/usr/bin/env python3
"""Checks the word `verify`: what the program prints of random scripts and of the examples is sound; and of mutants of these transcripts the program says what another reading of
the rules says, which is tools/plain_verify.py.

A mutant has one to three changes: a line is dropped, doubled, swapped with another one or put in; a digit, a number, a COUNT or an octet is changed, or all octets of one text wherever they
are put and got; digits are in lower case; a link or a name is another one; `end` has another number, or the end is cut off. The plain reading has no codec, so the octets of control messages
stay as they were printed (rule 7), but for digits in lower case.

With --other the reading of the folder that the variable GNB_OTHER_READING names is compared in its place, on 4,000 mutants, among them such with changed control messages; without the
variable nothing is compared, and the last line says so (other_reading.py).

Usage: tools/random_verify.py [--count N] [--scripts N] [--seed S] [--other]
"""

import argparse
import collections
import concurrent.futures
import os
import pathlib
import random
import re
import sys

import other_reading
import program
import random_scripts
import stories

PLAIN = pathlib.Path(__file__).with_name("plain_verify.py")
# a longer transcript is cut before it is changed: the plain reading's time grows with the square of its lines
LONGEST = 400
NUMBERS = ["-", "0", "1", "2", "3", "5", "00", "4096", "262144", "4294967295", "4294967296", "18446744073709551615", "18446744073709551616"]
NAMES = ["dl", "ul", "u1", "u2", "b1", "b2", "A.up1/1", "A.up1/2", "A.du1/1", "B.up1/3", "core/1", "r/u1/b1/dl/1", "r/u1/b1/ul/1", "#1", "#2", "core", "A.cp", "Empty", "Quota", "Ahead", "end", "x", ""]
LINES = [
    "refused Empty", "refused Size", "lost A.up1/1 1", "lost A.du1/1 1", "lost r/u1/b1/dl/1 9", "lost #1 1", "lost #1 2", "> pump", "> tick", "> offer u1 b1 dl 45", "> offer u1 b1 dl 4a",
    "> static u1 A 1 1 18 1 64", "> attach u1 A 1 1 12 8 64", "> move u1 2 2", "end 3", "stop 6 1 0", "outstanding u1 b1 dl 2049 2048", "outstanding u1 b1 ul 1 4294967296",
    "drop A.cp Stale", "held r/u1/b1/dl/1 Quota", "settled 2", "quiet u1 b1 1 0", "busy u1 b1", "deliver u1 b1 dl 0 45", "", " ", "; a remark", "differs Quota", "module 1 1 1",
]

# ---- changes: each takes chance and the lines, and gives lines


def is_control(line):
    return line.startswith(("put #", "got #"))


def place_of(chance, lines, wanted=lambda line: True):
    """The place of such a line, or None."""
    places = [place for place, line in enumerate(lines) if wanted(line)]
    return chance.choice(places) if places else None


def with_line(lines, place, line):
    return [*lines[:place], line, *lines[place + 1 :]]


def with_word(chance, lines, is_wanted, make, wanted=lambda line: True):
    """The lines with another word in place of one that is wanted."""
    place = place_of(chance, lines, lambda line: wanted(line) and any(map(is_wanted, line.split(" "))))
    if place is None:
        return lines
    words = lines[place].split(" ")
    at = chance.choice([at for at, word in enumerate(words) if is_wanted(word)])
    words[at] = make(words[at])
    return with_line(lines, place, " ".join(words))


def is_octets(word):
    return re.fullmatch("([0-9A-F]{2})+", word) is not None


def dropped(chance, lines):
    place = place_of(chance, lines)
    return lines[:place] + lines[place + 1 :]


def doubled(chance, lines):
    place, line = place_of(chance, lines), chance.choice(lines)
    return [*lines[:place], line, *lines[place:]]


def swapped(chance, lines):
    one, other = place_of(chance, lines), place_of(chance, lines)
    return with_line(with_line(lines, one, lines[other]), other, lines[one])


def put_in(chance, lines):
    place = chance.randint(0, len(lines))
    return [*lines[:place], chance.choice(LINES), *lines[place:]]


def other_digit(chance, lines):
    """A digit anywhere but in a control message's octets."""
    def made(word):
        at = chance.choice([at for at, letter in enumerate(word) if letter.isdigit()])
        return word[:at] + chance.choice("0123456789ABCDEF") + word[at + 1 :]
    return with_word(chance, lines, lambda word: any(map(str.isdigit, word)), made, lambda line: not is_control(line))


def other_number(chance, lines):
    return with_word(chance, lines, lambda word: re.fullmatch("[0-9]{1,9}", word), lambda word: chance.choice([*NUMBERS, str(int(word) + 1)]), lambda line: not is_control(line))


def other_count(chance, lines):
    """Another COUNT in a `deliver` or `put`, and perhaps in the line that takes what was put."""
    place = place_of(chance, lines, lambda line: line.startswith(("deliver ", "put ")) and not is_control(line))
    if place is None:
        return lines
    words = lines[place].split(" ")
    at = -2
    new = chance.choice([*NUMBERS[:5], "4096", "262144", str(int(words[at]) + 1) if words[at].isdigit() else "0"])
    changed = {lines[place]: " ".join([*words[:at], new, words[-1]])}
    if chance.random() < 0.6:
        changed |= {"got" + old[3:]: "got" + other[3:] for old, other in changed.items() if old.startswith("put")}
    return [changed.get(line, line) for line in lines]


def octet_in(chance, word):
    at = 2 * chance.randrange(len(word) // 2)
    return word[:at] + chance.choice([f"{chance.randrange(256):02X}", "00", "01", "FF", f"{int(word[at : at + 2], 16) ^ 1 << chance.randrange(8):02X}", ""]) + word[at + 2 :]


def other_octet(chance, lines):
    return with_word(chance, lines, is_octets, lambda word: octet_in(chance, word), lambda line: not is_control(line) and is_octets(line.split(" ")[-1]))


def other_octets(chance, lines, wanted=lambda line: line.startswith("put ") and not is_control(line)):
    """The octets of a put are others, wherever they are put and got."""
    place = place_of(chance, lines, wanted)
    if place is None:
        return lines
    old = lines[place].split(" ")[-1]
    new = octet_in(chance, old)
    return [line[: -len(old)] + new if line.startswith(("put ", "got ")) and line.endswith(f" {old}") else line for line in lines]


def other_control(chance, lines):
    return other_octets(chance, lines, lambda line: line.startswith("put #"))


def in_lower_case(chance, lines):
    return with_word(chance, lines, is_octets, str.lower)


def renamed(chance, lines):
    return with_word(chance, lines, lambda word: not is_octets(word), lambda _: chance.choice(NAMES))


def other_end(chance, lines):
    kept = lines[:-1] if lines[-1].startswith("end ") else lines
    return [*kept, f"end {sum(line.startswith('> ') for line in kept) + chance.choice([-1, 0, 1, 2])}".replace("-1", "0")]


def cut(chance, lines):
    return lines[: chance.randint(0, len(lines))]


def counted_anew(_, lines):
    """The last line has the number of the events that are there now: what an earlier change dropped isn't told by it."""
    return [*lines[:-1], f"end {sum(line.startswith('> ') for line in lines)}"] if lines[-1].startswith("end ") else lines


CHANGES = [dropped, doubled, swapped, put_in, other_digit, other_number, other_count, other_octet, other_octets, in_lower_case, renamed, other_end, cut]


def mutant(chance, lines, with_codec):
    """The text of a changed transcript."""
    if len(lines) > LONGEST:
        lines = [*lines[: chance.randint(1, LONGEST)], "stop 6 0 0"]
    for _ in range(chance.choice([1, 1, 1, 2, 3])):
        lines = chance.choice(CHANGES + [other_control] * 2 * with_codec)(chance, lines or [chance.choice(LINES)])
    if lines and chance.random() < 0.6:
        lines = counted_anew(chance, lines)
    return "\n".join(lines) + chance.choice(["\n", "\n", "\n", "", "\n\n", "\r\n"])


# ---- transcripts


def is_transcript(text):
    """Whether it is a transcript of a run: one of another module than the profile's has a line of its own."""
    return not any(line.startswith(("module ", "differs ")) for line in text.splitlines()[-2:])


def transcripts(chances, pool):
    """The transcripts of random scripts and of the examples, each with a name."""
    printed = pool.map(lambda chance: other_reading.answer(program.command(), ["run"], random_scripts.script(chance))[1].decode(), chances)
    found = [(f"random script {number}", text) for number, text in enumerate(printed)]
    found += [(path.name, path.read_text()) for path in sorted(stories.EXAMPLES.glob("**/*.out")) if path.with_suffix(".script").exists()]
    return [(name, text) for name, text in found if is_transcript(text)]


def sound_faults(found, pool):
    """The transcripts that the program doesn't call sound."""
    answers = pool.map(lambda named: other_reading.answer(program.command(), ["verify"], named[1]), found)
    for (name, text), (status, said) in zip(found, answers):
        if (status, said) != (0, f"sound {len(text.splitlines())}\n".encode()):
            yield f"{name}: what is printed isn't sound: status {status}, {said.decode(errors='replace')!r}"


def told(said):
    return re.sub(rb"^(sound) .*|^(unsound) [0-9]+ ([0-9]).*", lambda found: found[1] or b"rule " + found[3], said.splitlines()[0]).decode()


def compared(found, other, given, pool):
    """Compares the answers on mutants: what differs, or None, and how often each answer came."""
    chances = [random.Random(given.seed * 1_000_003 + number) for number in range(given.count)]
    texts = [mutant(chance, chance.choice(found)[1].splitlines(), given.other) for chance in chances]
    both = pool.map(lambda text: [other_reading.answer(command, ["verify"], text) for command in (program.command(), other)], texts)
    outcomes = collections.Counter()
    for text, (ours, theirs) in zip(texts, both):
        if ours != theirs:
            return f"readings of a mutant differ:\n{text}\n-- ours: {ours}\n-- theirs: {theirs}", outcomes
        outcomes[told(ours[1])] += 1
    return None, outcomes


def main():
    asked = argparse.ArgumentParser(description=__doc__, formatter_class=argparse.RawDescriptionHelpFormatter)
    asked.add_argument("--count", type=int, help="how many mutants: 100, and 4,000 with --other")
    asked.add_argument("--scripts", type=int, default=30, help="how many random scripts")
    asked.add_argument("--seed", type=int, default=1)
    asked.add_argument("--other", action="store_true", help="compares with the other reading of the specification")
    given = asked.parse_args()
    given.count = given.count or (4000 if given.other else 100)
    file = other_reading.other_file("gnb.py") if given.other else PLAIN
    if file is None:
        print(f"{given.count} mutants are left out\n{other_reading.NOT_COMPARED}")
        return 0
    program.prepare()
    # the sources are looked at once, and not at each call that a random script is made with
    other_reading.PROGRAM = program.command()
    if not program.has_word("verify"):
        print("not looked at: the program has no word 'verify'")
        return 1
    with concurrent.futures.ThreadPoolExecutor(os.cpu_count()) as pool:
        found = transcripts([random.Random(f"{given.seed} {number}") for number in range(given.scripts)], pool)
        if faults := list(sound_faults(found, pool)):
            print("\n".join(faults))
            return 1
        difference, outcomes = compared(found, [sys.executable, str(file)], given, pool)
    if difference:
        print(difference)
        return 1
    print(f"{len(found)} transcripts are sound, and of {given.count} mutants both readings say the same: {dict(sorted(outcomes.items()))}")
    return 0


if __name__ == "__main__":
    sys.exit(main())
