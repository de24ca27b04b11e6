"""What the plain readings of scripts share (tools/plain_um.py and tools/plain_dup.py): the lines of an input, the words of an event, and the run of
the events.

A script, as these readings have it, has ARGUMENTS, which gives for each event's word how each word after it is read; `window`, how many COUNTs may be
outstanding; `span`, how many are; and `does`, the steps of an event, each as its lines.
"""

import re

LIMIT = 16_777_216  # bytes of an input
LONGEST_PACKET = 2_048
WORD, NUMBER, HEX, EXTRA = 1, 2, 3, 4  # why a line is no event


class WrongLine(Exception):
    pass


class Spent(Exception):
    """A counter, by its number, would pass its last value."""


def hexadecimal(octets):
    return octets.hex().upper()


def pdu(bits, count, packet):
    """A data PDU of TS 38.323, 6.2.2.2 or 6.2.2.3."""
    number = count % (1 << bits)
    octets = (0x800000 | number).to_bytes(3, "big") if bits == 18 else (0x8000 | number).to_bytes(2, "big")
    return hexadecimal(octets + packet)


def received_count(bits, rx_deliv, rcvd_sn):
    """TS 38.323, 5.2.2.1: RCVD_COUNT from RCVD_SN."""
    window = 1 << (bits - 1)
    hfn, sn = rx_deliv >> bits, rx_deliv % (1 << bits)
    if rcvd_sn < sn - window:
        hfn += 1
    elif rcvd_sn >= sn + window:
        hfn -= 1
    return (hfn << bits) + rcvd_sn


def packet_of(word):
    if not re.fullmatch("([0-9A-Fa-f]{2})+", word):
        raise WrongLine(HEX)
    return bytes.fromhex(word)


def number_of(word, least, most):
    """A number without a sign and without zeros before it; None where the word isn't one in this range."""
    return int(word) if re.fullmatch("0|[1-9][0-9]{0,9}", word) and least <= int(word) <= most else None


def event_of(line, arguments):
    """An event's word, and what the word after it stands for."""
    first, *words = line.split(" ")
    if first not in arguments:
        raise WrongLine(WORD)
    value = None
    for read in arguments[first]:
        if not words:
            raise WrongLine(WORD)
        value = read(words.pop(0))
    if words:
        raise WrongLine(EXTRA)
    return first, value


def lines_of(octets):
    """The lines among the first bytes, and whether the input is longer."""
    longer = len(octets) > LIMIT
    *lines, last = octets[:LIMIT].decode("latin-1").split("\n")
    return lines + [last] * (last != "" and not longer), longer


def happens(script, word, value):
    """The lines of an event, and the stop that it ends in, if any: its status and its reason."""
    printed = []
    try:
        for lines in script.does(word, value):
            printed += lines
            if script.span() > script.window:
                return [*printed, f"outstanding {script.span()} {script.window}"], (5, 0)
    except Spent as spent:
        return printed, (10, spent.args[0])
    return printed, None


def run(script, octets):
    """The lines that are printed, the `stop` line among them, and the status."""
    printed, events = [], 0
    lines, longer = lines_of(octets)
    for place, line in enumerate(lines, 1):
        if line == "" or line[0] == ";":
            continue
        try:
            word, value = event_of(line, script.ARGUMENTS)
        except WrongLine as wrong:
            return [*printed, f"stop 4 {place} {wrong.args[0]}"], 4
        more, stop = happens(script, word, value)
        printed += [f"> {word}" if value is None else f"> {word} {script.shown(value)}", *more]
        if stop is not None:
            return [*printed, f"stop {stop[0]} {place} {stop[1]}"], stop[0]
        events += 1
    if longer:
        return [*printed, f"stop 11 {LIMIT + 1} 0"], 11
    return [*printed, f"end {events}"], 0


def answer(script, octets):
    """The text and the status of a call; without a script its words are no form."""
    printed, status = run(script, octets) if script is not None else (["stop 2 0 0"], 2)
    return "".join(f"{line}\n" for line in printed), status
