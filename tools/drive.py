#!/usr/bin/env python3
"""Drives `run` as it goes: a program of commands that name messages and tunnels by what they are becomes a plain script, event by event, with each next event chosen by what was printed
so far. The plain script and its transcript are what counts: at the end the script is run once more, by itself, and must print the same.

A line is an event of the script language, a comment (`;`), or one of these. NAME is a message's name as SNStatusTransfer, FROM and TO are nodes; where they are left out, any will do.

    give NAME [FROM TO]          the oldest message in flight of that name; `give next [FROM TO]` of any name
    lose NAME [FROM TO]          likewise
    get KIND uU bB               the oldest item of a tunnel of a kind (n3, f1-u-dl, f1-u-ul, xn-u-dl, xn-u-ul) of a bearer
    lose KIND uU bB              likewise
    hold WHAT [until LINE]       from here on `pump` and `until quiet` leave messages of an interface (F1AP, E1AP, XnAP, N2, RRC) or name in flight, until such a line is printed
    let WHAT                     they are given again
    repeat N COMMAND             a command N times; in it {i} is the number of the turn, from 0, and {i:08X} that number in eight hexadecimal digits
    until LINE do COMMAND        a command again and again until such a line is printed, at most 1000 times
    until quiet                  everything in flight is given, got, carried and confirmed, with ticks, until each bearer is quiet, in at most 100 rounds
    expect LINE, never LINE      the last event printed such a line, or none; they become the remarks `;= LINE` and `;! LINE`

LINE is a line with `*` for octets and `?` for the characters of a word, as in docs/scripts.md. The class Drive has the same as methods, for programs in Python.

The status is 0, 1 where something that is expected doesn't come, 2 where a line is wrong. Nothing of this tool is proved; what is promised of the script's run is promised of the plain script.

Usage: tools/drive.py [--script FILE] [--transcript FILE] COMMANDS      (`-` is standard input; without --script the plain script goes to standard output)
"""

import collections
import re
import subprocess
import sys

import endpoints
import patterns
import program
import transcripts
from transcripts import Message, Radio, Tunnel, WrongWord

KINDS = {kind.name.lower(): kind for kind in (endpoints.N3, endpoints.F1U_DL, endpoints.F1U_UL, endpoints.XNU_DL, endpoints.XNU_UL)}
INTERFACES = {"F1AP": endpoints.F1AP, "E1AP": endpoints.E1AP, "XnAP": endpoints.XNAP, "N2": endpoints.N2, "RRC": endpoints.RRC}
# an event that changes nothing and is answered in one line: it tells that the lines of the event before it are whole, and is left out of the script
ASKED = "get core/4294967295"
TURNS, ROUNDS = 1000, 100
PLAIN = (*transcripts.EVENTS, "inject")


class Unmet(Exception):
    """Something that is expected didn't come."""


class WrongCommand(Exception):
    """What is wrong with a command."""


class Network:
    """What the lines so far say of the links: the messages in flight with their names, and what stands on tunnels and radios, oldest first."""

    def __init__(self):
        self.known, self.flying, self.links, self.carried, self.bearers = endpoints.Endpoints(), {}, {}, collections.Counter(), {}
        self.standing = collections.Counter()
        # what a terminal is to do next: 'arrive' after a command, 'return' after its radio failed
        self.next = {}

    def see(self, line):
        self.known.see(line)
        self.see_terminal(line)
        if line.kind == "event" and line.what in ("static", "attach") and not line.refused:
            self.bearers[line.ue] = line.bearers
        elif line.kind == "event" and line.what == "ack" and not line.refused:
            self.confirm(line)
        elif line.kind in ("put", "got", "lost"):
            getattr(self, line.kind)(line)

    def see_terminal(self, line):
        if line.kind == "event" and not line.refused and line.what in ("fail", "arrive", "return", "release"):
            self.next.pop(line.ue, None)
            self.next |= {line.ue: "return"} if line.what == "fail" else {}
        elif line.kind == "got" and line.is_control and line.receiver in transcripts.UES and endpoints.read_message(line, endpoints.RRC)[0] == "command":
            self.next[line.receiver] = "arrive"
        elif line.kind == "drop" and line.node in self.next:
            del self.next[line.node]

    def is_idle(self):
        """Whether nothing is in flight, stands on a link or awaits its confirmation, and no terminal is under way."""
        return not (self.flying or self.next or any(self.standing.values()) or any(self.carried.values()))

    def shape(self):
        """What is in flight and under way, for a look whether a round changed something."""
        return sorted(self.flying), +self.standing, +self.carried, dict(self.next)

    def put(self, line):
        ends = self.known.ends(line)
        if line.is_control:
            self.flying[line.link.number] = (endpoints.read_message(line, ends.kind)[0] or "octets", ends)
        else:
            self.links[line.link] = (ends.kind, line.ue, line.bearer)
            self.standing[line.link] += 1

    def got(self, line):
        if line.is_control:
            self.flying.pop(line.link.number, None)
        else:
            self.standing[line.link] -= 1
            if isinstance(line.link, Radio):
                self.carried[line.link] += 1

    def lost(self, line):
        if isinstance(line.link, Message):
            self.flying.pop(line.link.number, None)
        elif isinstance(line.link, Radio):
            self.standing[line.link] = self.carried[line.link] = 0
        else:
            self.standing[line.link] -= line.items

    def confirm(self, event):
        for radio, count in self.carried.items():
            if count and (radio.ue, radio.bearer, radio.direction) == (event.ue, event.bearer, event.direction):
                self.carried[radio] -= 1

    def message(self, name, sender, receiver, held=()):
        """The number of the oldest message in flight of a name between two nodes, each None for any, that isn't held; None where there is none."""
        return next((number for number, (its, ends) in sorted(self.flying.items())
                     if name in (None, its) and sender in (None, ends.sender) and receiver in (None, ends.receiver) and not is_held(held, its, ends)), None)

    def tunnel(self, kind, ue, bearer):
        """The tunnel of this kind of a bearer on which something stands, the one that was put on first; None where there is none."""
        return next((link for link, its in self.links.items() if its == (kind, ue, bearer) and self.standing[link] > 0), None)


def is_held(held, name, ends):
    return any(what in (name, interface_of(ends.kind)) for what, _ in held)


def interface_of(kind):
    return next((name for name, its in INTERFACES.items() if its == kind), None)


class Drive:
    """The program under way. `script` has the plain lines so far, `lines` what the last event printed, `transcript` all that was printed."""

    def __init__(self):
        self.network, self.script, self.transcript, self.lines, self.held, self.count = Network(), ["module builtin"], [], [], [], 0
        try:
            self.process = subprocess.Popen([*program.command(), "run"], stdin=subprocess.PIPE, stdout=subprocess.PIPE, stderr=subprocess.DEVNULL)
        except OSError as wrong:
            raise program.NoProgram(f"{program.command()[0]}: {wrong.strerror}") from None
        self.process.stdin.write(b"module builtin\n")

    # ---- the program

    def event(self, text):
        """Applies an event of the script language, and gives the lines that it printed. WrongCommand where it is no event; Unmet where the run ends with it."""
        try:
            transcripts.read_line(f"> {text}")
        except WrongWord as wrong:
            raise WrongCommand(f"awaited {wrong}") from None
        try:
            self.process.stdin.write(f"{text}\n{ASKED}\n".encode())
            self.process.stdin.flush()
        except BrokenPipeError:
            raise program.NoProgram(f"{program.command()[0]}: it ended before '{text}'") from None
        self.script.append(text)
        self.count += 1
        printed = self.answer()
        self.transcript += printed
        self.lines = printed[1:]
        self.see(printed)
        return self.lines

    def answer(self):
        """The lines of the event that was written last, up to the event that is asked after it. Unmet where the run ends."""
        printed = []
        while not printed or printed[-1] != f"> {ASKED}":
            line = self.process.stdout.readline().decode("latin-1").rstrip("\n")
            if line == "" or line.startswith("stop "):
                self.transcript += [*printed, line]
                raise Unmet(f"the run ends after '{self.script[-1]}': {line or 'no last line'}")
            printed.append(line)
        self.process.stdout.readline()
        return printed[:-1]

    def see(self, printed):
        lines = [transcripts.Line(0, self.count, place, *transcripts.read_line(text)[:1], text, transcripts.read_line(text)[1]) for place, text in enumerate(printed)]
        lines[0].refused = len(lines) > 1 and lines[1].kind == "refused"
        endpoints.read_messages(lines)
        for line in lines:
            self.network.see(line)
        self.held = [(what, pattern) for what, pattern in self.held if pattern is None or not any(map(pattern.matches, self.lines))]

    def finish(self):
        """Ends the program, and runs the plain script by itself: its transcript, as octets. Unmet where that is another one than was heard."""
        self.process.stdin.close()
        self.process.wait()
        ran = program.call(["run"], self.text().encode())
        heard = [*self.transcript, f"end {self.count}"] if not self.transcript[-1:] or not self.transcript[-1].startswith("stop ") else self.transcript
        if ran.stdout.decode("latin-1").splitlines() != heard:
            raise Unmet("the plain script by itself prints something else than was heard")
        return ran.stdout

    def text(self):
        """The plain script."""
        return "\n".join(self.script) + "\n"

    # ---- commands

    def message(self, name=None, sender=None, receiver=None):
        number = self.network.message(name, sender, receiver, () if name else self.held)
        if number is None:
            between = f" from {sender} to {receiver}" if sender else ""
            raise Unmet(f"no message{f' {name}' if name else ''}{between} is in flight")
        return f"#{number}"

    def give(self, name=None, sender=None, receiver=None):
        return self.event(f"give {self.message(name, sender, receiver)}")

    def lose(self, name=None, sender=None, receiver=None):
        return self.event(f"lose {self.message(name, sender, receiver)}")

    def tunnel(self, kind, ue, bearer):
        found = self.network.tunnel(KINDS[kind], ue, bearer)
        if found is None:
            raise Unmet(f"nothing stands on a tunnel {kind} of {ue} {bearer}")
        return found

    def get(self, kind, ue, bearer):
        return self.event(f"get {self.tunnel(kind, ue, bearer)}")

    def lose_item(self, kind, ue, bearer):
        return self.event(f"lose {self.tunnel(kind, ue, bearer)}")

    def hold(self, what, until=None):
        self.held.append((what, patterns.read(until, "run") if until else None))

    def let(self, what):
        if what not in [its for its, _ in self.held]:
            raise WrongCommand(f"'{what}' isn't held")
        self.held = [(its, pattern) for its, pattern in self.held if its != what]

    def pump(self):
        """`pump`, or where something is held each other message in flight, the least number first."""
        if not self.held:
            return self.event("pump")
        for _ in range(TURNS):
            number = self.network.message(None, None, None, self.held)
            if number is None:
                return self.lines
            self.event(f"give #{number}")
        raise Unmet(f"messages are in flight after {TURNS} were given")

    def until(self, line, command):
        """Does a command, a function, until a line like this is printed."""
        pattern = patterns.read(line, "run")
        for _ in range(TURNS):
            command()
            if any(map(pattern.matches, self.lines)):
                return
        raise Unmet(f"no line '{line}' came within {TURNS} turns")

    def expect(self, line, comes=True):
        """Looks whether the last event printed such a line, and leaves a remark in the script."""
        pattern = patterns.read(line, "run")
        self.script.append(f";{'=' if comes else '!'} {line}")
        if any(map(pattern.matches, self.lines)) != comes:
            raise Unmet(f"'{self.events()[-1]}' prints {'no' if comes else 'a'} line '{line}'")

    def events(self):
        return [line for line in self.script[1:] if not line.startswith(";")]

    # ---- until quiet

    def until_quiet(self):
        """Rounds of all that is under way, but of what is held, until each bearer is quiet: a terminal that was commanded arrives, one whose radio failed returns, and a bearer with
        unconfirmed packets is polled."""
        for _ in range(ROUNDS):
            before = self.network.shape()
            for ue, what in sorted(self.network.next.items()):
                self.event(f"{what} {ue}")
            self.pump()
            self.empty_tunnels()
            self.empty_radios()
            self.pump()
            if self.network.is_idle() and self.is_quiet():
                return
            if self.network.is_idle() or self.network.shape() == before:
                self.event("tick")
        raise Unmet(f"some bearer isn't quiet after {ROUNDS} rounds")

    def empty_tunnels(self):
        for link in [link for link in self.network.links if isinstance(link, Tunnel)]:
            while self.network.standing[link] > 0:
                before = self.network.standing[link]
                self.event(f"get {link}")
                if self.network.standing[link] >= before:
                    break

    def empty_radios(self):
        for radio in [link for link in self.network.links if isinstance(link, Radio)]:
            way = f"{radio.ue} {radio.bearer} {radio.direction}"
            while self.network.standing[radio] > 0 and not self.event(f"air {way}")[:1] == ["refused NoRadio"] and self.lines[0].split(" ")[0] not in ("refused", "held"):
                pass
            while self.network.carried[radio] > 0 and self.event(f"ack {way}")[:1] not in (["refused NoRadio"], ["refused Empty"]):
                pass

    def is_quiet(self):
        """Asks each bearer; one that is busy is polled."""
        bearers = [f"{ue} b{number}" for ue, count in self.network.bearers.items() for number in range(1, count + 1)]
        busy = [bearer for bearer in bearers if self.event(f"ask {bearer}")[0].startswith("busy")]
        for bearer in busy:
            self.event(f"poll {bearer}")
        return not busy


# ---- the language


def nodes(words):
    """The two nodes of a command, or none."""
    if not words:
        return None, None
    if len(words) != 2:
        raise WrongCommand(f"awaited FROM and TO, and there is '{' '.join(words)}'")
    return tuple(map(transcripts.node, words))


def of_bearer(words):
    if len(words) != 2:
        raise WrongCommand("awaited a terminal and a bearer, as u1 b1")
    return transcripts.ue(words[0]), transcripts.bearer(words[1])


def held_name(words):
    if not words or not re.fullmatch("[A-Za-z][A-Za-z0-9]*", words[0]):
        raise WrongCommand("awaited F1AP, E1AP, XnAP, N2, RRC or the name of a message")
    return words[0]


def do_give(drive, words):
    name, *rest = words
    drive.give(None if name == "next" else name, *nodes(rest))


def do_lose(drive, words):
    if words[0] in KINDS:
        drive.lose_item(words[0], *of_bearer(words[1:]))
    else:
        drive.lose(None if words[0] == "next" else words[0], *nodes(words[1:]))


def do_get(drive, words):
    drive.get(words[0], *of_bearer(words[1:]))


def do_hold(drive, words):
    what = held_name(words)
    if words[1:2] not in ([], ["until"]) or len(words) == 2:
        raise WrongCommand(f"awaited 'until' and a line after 'hold {what}'")
    drive.hold(what, " ".join(words[2:]) or None)


def do_repeat(drive, words):
    if len(words) < 2 or not re.fullmatch("[1-9][0-9]{0,5}", words[0]):
        raise WrongCommand("awaited a number from 1 to 999999 and a command after 'repeat'")
    for turn in range(int(words[0])):
        do(drive, re.sub(r"\{i(?::(0?[0-9]*[dX]))?\}", lambda found: format(turn, found[1] or "d"), " ".join(words[1:])))


def do_until(drive, words):
    if words == ["quiet"]:
        return drive.until_quiet()
    line, is_there, command = " ".join(words).partition(" do ")
    if not is_there:
        raise WrongCommand("awaited 'quiet', or a line, 'do' and a command, after 'until'")
    return drive.until(line, lambda: do(drive, command))


COMMANDS = {"hold": do_hold, "let": lambda drive, words: drive.let(held_name(words)), "repeat": do_repeat, "until": do_until,
            "expect": lambda drive, words: drive.expect(" ".join(words)), "never": lambda drive, words: drive.expect(" ".join(words), False)}


def do(drive, text):
    """Does a command. WrongCommand or WrongWord where it is wrong, Unmet where what it names isn't there."""
    first, *words = text.split(" ")
    if first in COMMANDS:
        COMMANDS[first](drive, words)
    elif text == "pump":
        drive.pump()
    elif text == "settle" and drive.held:
        raise WrongCommand("'settle' would give what is held: take 'until quiet', or 'let' it")
    elif first in ("give", "lose") and words and re.fullmatch("[A-Za-z][A-Za-z0-9-]*", words[0]):
        (do_give if first == "give" else do_lose)(drive, words)
    elif first == "get" and words and words[0] in KINDS:
        do_get(drive, words)
    elif first in PLAIN:
        drive.event(text)
    else:
        raise WrongCommand(f"awaited an event or a command, and it is '{transcripts.shortened(first)}'")


def drive_lines(drive, path, lines):
    """Does the commands of a file; the status, with what is wrong told on standard error."""
    for number, text in enumerate(lines, 1):
        if text == "" or text.startswith(";"):
            drive.script.append(text)
            continue
        try:
            do(drive, text)
        except (WrongCommand, WrongWord) as wrong:
            what = wrong if isinstance(wrong, WrongCommand) else f"awaited {wrong}"
            print(f"drive: {path}:{number}: {what}", file=sys.stderr)
            return 2
        except Unmet as unmet:
            print(f"drive: {path}:{number}: {unmet}", file=sys.stderr)
            return 1
    return 0


def run(given):
    text = sys.stdin.read() if given.commands == "-" else open(given.commands, encoding="latin-1").read()
    program.prepare()
    drive = Drive()
    status = drive_lines(drive, given.commands, transcripts.lines_of(text))
    try:
        transcript = drive.finish()
    except Unmet as unmet:
        print(f"drive: {given.commands}: {unmet}", file=sys.stderr)
        return status or 1
    if status != 2:
        transcripts.write_file(given.script or "-", drive.text().encode("latin-1"))
        if given.transcript:
            transcripts.write_file(given.transcript, transcript)
    return status


def main():
    asked = transcripts.Asked(__doc__)
    asked.add_argument("--script", metavar="FILE", help="where the plain script goes")
    asked.add_argument("--transcript", metavar="FILE", help="where its transcript goes")
    asked.add_argument("commands")
    given = asked.parse_args()
    try:
        return run(given)
    except (program.NoProgram, OSError) as wrong:
        print(f"drive: {f'{wrong.filename}: {wrong.strerror}' if isinstance(wrong, OSError) else wrong}", file=sys.stderr)
        return 2


if __name__ == "__main__":
    sys.exit(main())
