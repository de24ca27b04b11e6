"""Patterns of lines of a transcript, as remarks of a script have them (tools/suite.py, docs/scripts.md): a word of a pattern is a word of the line; `*` stands for octets, and
`?`, which may stand within a word, for any characters of one word.

Nothing here is proved.
"""

import dataclasses
import re

import transcripts

OCTETS = re.compile("([0-9A-F]{2})+")
# lines whose last word is octets, which are printed in upper case
WITH_OCTETS = ("put", "got", "deliver")
# for each kind of line of `um` and `duplicate`, how many words may follow
UM = {"put": (3,), "got": (3,), "deliver": (2,), "drop": (1,), "held": (2,), "lost": (2,), "waiting": (3,), "refused": (1,), "outstanding": (2,), "end": (1,), "stop": (3,)}
DUPLICATE = {"put": (3,), "got": (3,), "deliver": (2,), "drop": (1,), "lost": (2,), "quiet": (1,), "busy": (0,), "refused": (1,), "outstanding": (2,), "end": (1,), "stop": (3,)}


@dataclasses.dataclass(frozen=True)
class Pattern:
    """A pattern: its text as it was written, and for each word what a line's word must be: a text, or an expression where it has a wildcard."""

    text: str
    words: tuple

    def matches(self, line):
        words = line.split(" ")
        return len(words) == len(self.words) and all(form == word if isinstance(form, str) else form.fullmatch(word) for form, word in zip(self.words, words))


def word_form(word):
    if word == "*":
        return OCTETS
    return re.compile("[^ ]+".join(map(re.escape, word.split("?")))) if "?" in word else word


def read(text, call):
    """The pattern that a text is, for lines of a call (`run`, `um` or `duplicate`). transcripts.WrongWord where no such line is one."""
    words = text.split(" ")
    if call == "run":
        check_words(words)
    else:
        check_count(words, UM if call == "um" else DUPLICATE)
    if words[0] in WITH_OCTETS:
        words[-1] = words[-1].upper()
    return Pattern(text, tuple(map(word_form, words)))


def check_count(words, lines):
    counts = lines.get(words[0])
    if counts is None:
        raise transcripts.WrongWord(f"one of {', '.join(lines)} as word 1, and it is '{transcripts.shortened(words[0])}'")
    if len(words) - 1 not in counts:
        raise transcripts.WrongWord(f"{counts[0]} words after '{words[0]}', and there are {len(words) - 1}")


def check_words(words):
    """Whether a line of `run` may be so: how many words it has, and each word that isn't left open."""
    if words[0] == ">":
        raise transcripts.WrongWord("a line that an event prints, not the event")
    _, first, form = transcripts.form_of(as_control(words))
    check_count(words, {words[0]: (len(form),)})
    for place, ((_, reader), word) in enumerate(zip(form.items(), words[first:]), first + 1):
        if word != "*" and "?" not in word:
            transcripts.read_word(reader, word, place)


def as_control(words):
    """A `put` or `got` whose link is left open has as many words as its kind has."""
    is_open = words[0] in ("put", "got") and len(words) == 1 + len(transcripts.CONTROL) and "?" in words[1]
    return [words[0], "#1", *words[2:]] if is_open else words
