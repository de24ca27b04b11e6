#!/usr/bin/env python3
"""The word `um` once more, in plain Python: the receiving side of TS 38.323, 5.2.2, as the standard writes it, with HFN and SN and its variables
RX_DELIV, RX_NEXT and RX_REORD. It is what random scripts are compared with; the program doesn't use it.

Usage: tools/plain_um.py um N T < SCRIPT
"""

import sys

from plain_script import LONGEST_PACKET, NUMBER, Spent, WrongLine, answer, hexadecimal, number_of, packet_of, pdu, received_count

MOST_MESSAGES = 1_000_000
MESSAGES = 1  # the counter of messages
AHEAD = 1_024  # a COUNT as far above RX_DELIV is held


class Bearer:
    """The receiving entity: the packets that it stores under their COUNTs, and the ticks that t-Reordering has left, where it runs."""

    def __init__(self, ticks):
        self.ticks = ticks
        self.rx_deliv = self.rx_next = self.rx_reord = 0
        self.left = None
        self.stored = {}

    def refusal(self, count):
        if count < self.rx_deliv:
            return "drop Late"
        if count in self.stored:
            return "drop Duplicate"
        return "held" if count >= self.rx_deliv + AHEAD else None

    def up_from(self, count):
        """What is stored from this COUNT on without a gap, and the first COUNT after it."""
        up = []
        while count in self.stored:
            up.append((count, self.stored.pop(count)))
            count += 1
        return up, count

    def receive(self, count, packet):
        self.stored[count] = packet
        if count >= self.rx_next:
            self.rx_next = count + 1
        up = []
        if count == self.rx_deliv:
            up, self.rx_deliv = self.up_from(count)
        if self.left is not None and self.rx_deliv >= self.rx_reord:
            self.left = None
        self.start_if_awaiting()
        return up

    def start_if_awaiting(self):
        if self.left is None and self.rx_deliv < self.rx_next:
            self.rx_reord, self.left = self.rx_next, self.ticks

    def tick(self):
        """5.2.2.2, where the timer expires."""
        if self.left is None:
            return []
        self.left -= 1
        if self.left:
            return []
        self.left = None
        below = sorted(count for count in self.stored if count < self.rx_reord)
        up = [(count, self.stored.pop(count)) for count in below]
        more, self.rx_deliv = self.up_from(self.rx_reord)
        self.start_if_awaiting()
        return up + more


def message_of(word):
    number = number_of(word[1:], 1, 0xFFFFFFFF) if word[:1] == "#" else None
    if number is None:
        raise WrongLine(NUMBER)
    return number


def delivered(up):
    return [f"deliver {count} {hexadecimal(packet)}" for count, packet in up]


class Script:
    """The sender, the link and the receiving entity."""

    ARGUMENTS = {"offer": [packet_of], "give": [message_of], "again": [message_of], "lose": [message_of], "tick": [], "ask": []}

    def __init__(self, bits, ticks):
        self.bits, self.window = bits, 1 << (bits - 1)
        self.rx = Bearer(ticks)
        self.packets = []  # of message M at M - 1, whose COUNT is M - 1 too
        self.on_link = set()

    def offer(self, packet):
        if len(packet) > LONGEST_PACKET:
            return ["refused Size"]
        if len(self.packets) == MOST_MESSAGES:
            raise Spent(MESSAGES)
        count = len(self.packets)
        self.packets.append(packet)
        self.on_link.add(count)
        return [f"put #{count + 1} {count} {pdu(self.bits, count, packet)}"]

    def of_message(self, number, done):
        if number > len(self.packets):
            return ["refused NoSuch"]
        if number - 1 not in self.on_link:
            return ["refused Empty"]
        return done(number - 1)

    def lose(self, count):
        self.on_link.remove(count)
        return [f"lost #{count + 1} 1"]

    def give(self, count, stays):
        found = received_count(self.bits, self.rx.rx_deliv, count % (1 << self.bits))
        why = self.rx.refusal(found)
        if why == "held":
            return [f"held #{count + 1} Ahead"]
        if not stays:
            self.on_link.remove(count)
        got = f"got #{count + 1} {count} {pdu(self.bits, count, self.packets[count])}"
        return [got, why] if why else [got, *delivered(self.rx.receive(found, self.packets[count]))]

    def span(self):
        """From the least COUNT that is awaited or on the link up to the last one that was numbered."""
        return len(self.packets) - min(self.on_link | {self.rx.rx_deliv}) if self.packets else 0

    def lines(self, word, value):
        if word == "offer":
            return self.offer(value)
        if word == "tick":
            return delivered(self.rx.tick())
        if word == "ask":
            return [f"waiting {self.rx.rx_deliv} {self.rx.rx_next} {len(self.rx.stored)}"]
        done = self.lose if word == "lose" else lambda count: self.give(count, word == "again")
        return self.of_message(value, done)

    def does(self, word, value):
        """Each event is one step."""
        yield self.lines(word, value)

    def shown(self, value):
        return f"#{value}" if isinstance(value, int) else hexadecimal(value)


def script_of(words):
    ticks = number_of(words[2], 1, 1000) if len(words) == 3 else None
    return Script(int(words[1]), ticks) if ticks is not None and words[0] == "um" and words[1] in ("12", "18") else None


if __name__ == "__main__":
    text, status = answer(script_of(sys.argv[1:]), sys.stdin.buffer.read())
    sys.stdout.write(text)
    sys.exit(status)
