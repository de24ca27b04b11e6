#!/usr/bin/env python3
"""The word `duplicate` once more, in plain Python: a bearer with PDCP duplication over two legs (TS 38.323, 5.2.1, 5.2.2.1 and 5.11), with the variables
TX_NEXT and RX_DELIV of the standard. It is what random scripts are compared with; the program doesn't use it.

Usage: tools/plain_dup.py duplicate N Q < SCRIPT
"""

import sys

from plain_script import LONGEST_PACKET, NUMBER, WORD, Spent, WrongLine, answer, hexadecimal, number_of, packet_of, pdu, received_count

LAST_COUNT = (1 << 32) - 2  # the last COUNT that is given
COUNTS = 4  # the counter of COUNTs
MODES = {"both": (1, 2), "1": (1,), "2": (2,)}  # the legs of each mode


class Leg:
    """The COUNTs of what it holds, the oldest first; so many of them were carried."""

    def __init__(self):
        self.items, self.carried, self.is_up = [], 0, True

    def coming(self):
        return self.items[self.carried :]


def leg_of(word):
    leg = number_of(word, 1, 2)
    if leg is None:
        raise WrongLine(NUMBER)
    return leg


def mode_of(word):
    if word not in MODES:
        raise WrongLine(WORD)
    return word


class Script:
    """The transmitting entity, its legs, and the receiving entity."""

    ARGUMENTS = {
        "offer": [packet_of], "carry": [leg_of], "confirm": [leg_of], "fail": [leg_of], "mend": [leg_of], "mode": [mode_of], "drain": [], "ask": [],
    }

    def __init__(self, bits, quota):
        self.bits, self.window = bits, 1 << (bits - 1)
        self.quota = quota
        self.packets = []  # that were accepted; the one at C has COUNT C, or comes to have it
        self.first = self.tx_next = 0  # from the first unconfirmed COUNT up to the next one
        self.mode = "both"
        self.legs = {1: Leg(), 2: Leg()}
        self.rx_deliv = 0
        self.received = {}  # stored under their COUNTs

    def pdu(self, count):
        return pdu(self.bits, count, self.packets[count])

    def takes(self, leg):
        return leg in MODES[self.mode] and self.legs[leg].is_up

    def put(self, leg, count):
        self.legs[leg].items.append(count)
        return f"put L{leg} {count} {self.pdu(count)}"

    def put_all(self, leg):
        return [self.put(leg, count) for count in range(self.first, self.tx_next)] if self.takes(leg) else []

    def keep(self, leg, kept):
        """All but these leave the leg."""
        held = self.legs[leg]
        lost = len(held.items) - len(kept)
        held.items, held.carried = kept, min(held.carried, len(kept))
        return [f"lost L{leg} {lost}"] if lost else []

    def number(self):
        """What waits is numbered as far as the window goes, whichever legs are up, and each packet is put on each leg that takes it."""
        lines = []
        while self.tx_next < len(self.packets) and self.tx_next - self.first < min(self.window - 1, self.quota):
            if self.tx_next > LAST_COUNT:
                raise Spent(COUNTS)
            lines += [self.put(leg, self.tx_next) for leg in (1, 2) if self.takes(leg)]
            self.tx_next += 1
        return lines

    def offer(self, packet):
        if len(packet) > LONGEST_PACKET:
            return ["refused Size"]
        if len(self.packets) - self.first >= self.quota:
            return ["refused Quota"]
        self.packets.append(packet)
        return self.number()

    def receive(self, number, packet):
        count = received_count(self.bits, self.rx_deliv, number)
        if count < self.rx_deliv or count in self.received:
            return ["drop Duplicate"]
        self.received[count] = packet
        lines = []
        while self.rx_deliv in self.received:
            lines.append(f"deliver {self.rx_deliv} {hexadecimal(self.received.pop(self.rx_deliv))}")
            self.rx_deliv += 1
        return lines

    def carry(self, leg):
        coming = self.legs[leg].coming()
        if not coming:
            return ["refused Empty"]
        self.legs[leg].carried += 1
        return [f"got L{leg} {coming[0]} {self.pdu(coming[0])}", *self.receive(coming[0] % (1 << self.bits), self.packets[coming[0]])]

    def confirm(self, leg):
        held, other = self.legs[leg], self.legs[3 - leg]
        if not held.carried:
            return ["refused Empty"]
        held.carried -= 1
        number = held.items.pop(0) % (1 << self.bits)
        # the last COUNT with this number that was given
        count = self.tx_next - 1 - (self.tx_next - 1 - number) % (1 << self.bits)
        self.first = max(self.first, count + 1)
        kept = [later for later in other.coming() if later > count]
        return [*self.keep(3 - leg, other.items[: other.carried] + kept), *self.number()]

    def fail(self, leg):
        self.legs[leg].is_up = False
        return self.keep(leg, [])

    def mend(self, leg):
        self.legs[leg].is_up = True
        return self.put_all(leg)

    def of_leg(self, word, leg):
        """An event of a leg: one that is down is mended, and no other event is of it."""
        if self.legs[leg].is_up == (word == "mend"):
            return ["refused Up" if word == "mend" else "refused Down"]
        return {"carry": self.carry, "confirm": self.confirm, "fail": self.fail, "mend": self.mend}[word](leg)

    def change_mode(self, mode):
        """A leg that leaves the mode loses all, and then one that enters it gets all that is unconfirmed."""
        if mode == self.mode:
            return ["refused Same"]
        old, self.mode = MODES[self.mode], mode
        lost = [line for leg in (1, 2) if leg in old and leg not in MODES[mode] for line in self.keep(leg, [])]
        return lost + [line for leg in (1, 2) if leg not in old and leg in MODES[mode] for line in self.put_all(leg)]

    def drain(self):
        """Each leg that is up in turn, until both are empty: all that it holds is carried, and then confirmed."""
        while self.legs[1].items or self.legs[2].items:
            for leg in (1, 2):
                while self.legs[leg].is_up and self.legs[leg].coming():
                    yield self.carry(leg)
                while self.legs[leg].is_up and self.legs[leg].carried:
                    yield self.confirm(leg)

    def ask(self):
        rests = self.first == len(self.packets) and not self.legs[1].items and not self.legs[2].items
        return [f"quiet {self.rx_deliv}" if rests else "busy"]

    def span(self):
        """From the least COUNT that is undelivered or stands on a leg up to the last one that was given."""
        return self.tx_next - min([self.tx_next, self.rx_deliv, *self.legs[1].items[:1], *self.legs[2].items[:1]])

    def does(self, word, value):
        if word == "drain":
            yield from self.drain()
        elif word == "offer":
            yield self.offer(value)
        elif word == "mode":
            yield self.change_mode(value)
        elif word == "ask":
            yield self.ask()
        else:
            yield self.of_leg(word, value)

    def shown(self, value):
        return hexadecimal(value) if isinstance(value, bytes) else str(value)


def script_of(words):
    quota = number_of(words[2], 4, 4096) if len(words) == 3 else None
    return Script(int(words[1]), quota) if quota is not None and words[0] == "duplicate" and words[1] in ("12", "18") else None


if __name__ == "__main__":
    text, status = answer(script_of(sys.argv[1:]), sys.stdin.buffer.read())
    sys.stdout.write(text)
    sys.exit(status)
