#!/usr/bin/env python3
"""The word `verify` once more, in plain Python, after docs/definitions/verify.md: each rule looks back over all lines before the one that it judges, so the time grows with
the square of the text. It is what changed transcripts are compared with; the program doesn't use it.

Rule 7 isn't read here, since it needs a codec: the octets of each control message that is put count as its spelling. Texts that are given to both readings leave these octets as
the program printed them.

Usage: tools/plain_verify.py verify < TRANSCRIPT
"""

import collections
import re
import sys

from plain_script import LIMIT, LONGEST_PACKET, lines_of

FORM, WIRE, PACKET, COUNT, ORDER, SEEN, END = 1, 2, 3, 4, 5, 6, 8
TOP_32, TOP_64 = 2**32 - 1, 2**64 - 1

# ---- words


def number(least, most):
    def fits(word):
        return re.fullmatch("0|[1-9][0-9]{0,19}", word) is not None and least <= int(word) <= most
    return fits


def of(pattern):
    return lambda word: re.fullmatch(pattern, word) is not None


def one_of(text):
    return lambda word: word in text.split()


def is_tunnel(word):
    end, slash, teid = word.partition("/")
    return slash == "/" and is_node(end) and number(1, TOP_32)(teid)


def is_radio(word):
    words = word.split("/")
    return len(words) == 5 and words[0] == "r" and is_ue(words[1]) and is_bearer(words[2]) and is_direction(words[3]) and number(0, TOP_32)(words[4])


def is_message(word):
    return word[:1] == "#" and number(1, TOP_32)(word[1:])


is_ue, is_bearer, is_direction = of("u([1-9]|1[0-6])"), of("b[1-8]"), one_of("dl ul")
is_node = of("[AB][.](cp|up1|up2|du1|du2)|core|u([1-9]|1[0-6])")
is_octets = of("([0-9A-F]{2})+")
PLACES = {
    "UE": is_ue, "OWNER": of("u(0|[1-9]|1[0-6])"), "BEARER": is_bearer, "DIR": is_direction, "GNB": one_of("A B"), "NODE": is_node, "TUNNEL": is_tunnel, "RADIO": is_radio,
    "#M": is_message, "OCTETS": is_octets, "UNIT": number(1, 2), "BITS": one_of("12 18"), "BEARERS": number(1, 8), "QUOTA": number(4, 4096),
    "COUNT": number(0, TOP_32), "COUNT?": lambda word: word == "-" or number(0, TOP_32)(word), "ITEMS": number(1, TOP_64), "LARGE": number(0, TOP_64), "STATUS": number(0, 255),
    "WHY": number(0, 65535), "HELD": one_of("Quota Ahead NoStatus NotArrived Early"), "CAUSE": one_of("quota busy unit timeout"),
    "DROPPED": one_of("Undecodable Criticality NoContext NoTunnel Stale Busy Duplicate Gap Unexpected"),
    "REFUSED": one_of("Attached NotStarted NoBearer NoPath Size Quota NoSuch Empty NoRadio NotAllowed NoUe NotAccessing NoHome Busy Same TooLate NoLink Decodable"),
}
# in capitals what stands for a word of that kind
FORMS = [form.split() for form in """
> static UE GNB UNIT UNIT BITS BEARERS QUOTA
> attach UE GNB UNIT UNIT BITS BEARERS QUOTA
> start
> offer UE BEARER DIR OCTETS
> get TUNNEL
> air UE BEARER DIR
> ack UE BEARER DIR
> give #M
> lose #M
> lose TUNNEL
> poll UE BEARER
> pump
> tick
> fail UE
> arrive UE
> return UE
> handover UE GNB UNIT UNIT
> cancel UE
> release UE
> ask UE BEARER
> settle
> inject NODE NODE OCTETS
> inject TUNNEL OCTETS
put TUNNEL UE BEARER DIR COUNT? OCTETS
got TUNNEL UE BEARER DIR COUNT? OCTETS
put RADIO UE BEARER DIR COUNT? OCTETS
got RADIO UE BEARER DIR COUNT? OCTETS
put #M NODE NODE OWNER OCTETS
got #M NODE NODE OWNER OCTETS
deliver UE BEARER DIR COUNT OCTETS
lost TUNNEL ITEMS
lost RADIO ITEMS
lost #M ITEMS
drop NODE DROPPED
held TUNNEL HELD
held RADIO Ahead
failed NODE UE CAUSE
quiet UE BEARER LARGE LARGE
busy UE BEARER
settled LARGE
unsettled LARGE
refused REFUSED
outstanding UE BEARER DIR LARGE LARGE
end LARGE
stop STATUS LARGE WHY
""".strip().splitlines()]


def line_of(text):
    """The words of a line of a transcript; None of a text that is none."""
    words = text.split(" ")
    if not any(len(form) == len(words) and all(PLACES.get(place, place.__eq__)(word) for place, word in zip(form, words)) for form in FORMS):
        return None
    if len(words) == 7 and words[1].startswith("r/") and words[1].split("/")[1:4] != words[2:5]:
        return None
    return words


# ---- what octets say: a packet, and a PDCP number, where there are any

Says = collections.namedtuple("Says", "kind packet number")


def value(octets):
    return int.from_bytes(octets, "big")


def is_sized(octets):
    return 1 <= len(octets) <= LONGEST_PACKET


def pdu(bits, octets):
    """TS 38.323, 6.2.2.2, 6.2.2.3 and 6.2.3.1."""
    long = 2 if bits == 12 else 3
    if octets[:1] >= b"\x80":
        return Says("pdu", octets[long:], value(octets[:long]) % (1 << bits)) if is_sized(octets[long:]) else None
    return Says("pdu", None, None) if len(octets) >= 5 and octets[0] < 16 and is_sized(octets) else None


def packet_of_gtpu(octets):
    """TS 29.281: the message type, the extension headers, each a type and a content, and the payload; None with other optional fields, or of no packet."""
    if len(octets) < 8 or octets[0] >> 4 != 3 or value(octets[2:4]) != len(octets) - 8 or octets[0] & 3:
        return None
    if not octets[0] & 4:
        return octets[1], [], octets[8:]
    headers, at = [], 12
    following = octets[11] if len(octets) >= 12 else None
    while following:
        size = 4 * octets[at] if at < len(octets) else 0
        if size == 0 or at + size > len(octets):
            return None
        headers.append((following, octets[at + 1 : at + size - 1]))
        following, at = octets[at + size - 1], at + size
    return None if following is None else (octets[1], headers, octets[at:])


def is_padding(octets):
    return octets in (b"", b"\0", b"\0\0", b"\0\0\0")


def data_frame(content):
    """Whether a data frame of NR-U polls; None of other octets."""
    is_frame = len(content) >= 5 and content[0] < 2 and content[1] < 2 and is_padding(content[5:])
    return content[0] == 1 if is_frame else None


def status_frame(content):
    """The number that a delivery status of NR-U confirms, or '-'; None of other octets."""
    if len(content) < 6 or content[0] not in (16, 17, 20, 21) or content[1] != 0:
        return None
    at = 6
    if content[0] & 1:
        count = content[6] if len(content) > 6 else 0
        at = 7 + 6 * count
        if not 1 <= count <= 7 or len(content) < at:
            return None
        numbers = [value(content[place : place + 3]) for place in range(7, at, 3)]
        if any(start > end for start, end in zip(numbers[::2], numbers[1::2])) or any(end >= start for end, start in zip(numbers[1::2], numbers[2::2])):
            return None
    confirmed = "-"
    if content[0] & 4:
        if len(content) < at + 3:
            return None
        confirmed, at = value(content[at : at + 3]), at + 3
    return confirmed if is_padding(content[at:]) else None


def at_du(bits, kind, headers, payload):
    if kind != 255 or [code for code, _ in headers] != [0x84]:
        return None
    polls = data_frame(headers[0][1])
    if polls:
        return Says("poll", None, None) if not payload else None
    return pdu(bits, payload) if polls is False else None


def at_cu_up(bits, direction, kind, headers, payload):
    if kind == 254:
        return Says("end", None, None) if not headers and not payload else None
    if kind != 255 or len(headers) > 1:
        return None
    if not headers:
        return pdu(bits, payload) if direction == "ul" else Says("fresh", payload, None) if is_sized(payload) else None
    [(code, content)] = headers
    if code == 0x84:
        confirmed = status_frame(content)
        return Says("status", None, None if confirmed == "-" else confirmed) if confirmed is not None and not payload else None
    wanted = (0xC0, 2) if bits == 12 else (0x82, 6)
    if (code, len(content)) != wanted or not is_sized(payload):
        return None
    return Says("numbered", payload, value(content[:3]) % (1 << bits))


def says_of(link, direction, bits, octets):
    """What octets say on a link; None where they have no layout there."""
    if link.startswith("r/"):
        return pdu(bits, octets)
    packet, unit = packet_of_gtpu(octets), link[2:4]
    if packet is None or unit not in ("du", "up"):
        return None
    return at_du(bits, *packet) if unit == "du" else at_cu_up(bits, direction, *packet)


# ---- looking back: `past` has the lines before, the oldest first


def is_item(line):
    return line[0] in ("put", "got") and line[1][0] != "#"


def is_control(line):
    return line[0] in ("put", "got") and line[1][0] == "#"


def accepted(past):
    """The words of each event that the line after it doesn't refuse."""
    return [line[1:] for line, after in zip(past, [*past[1:], [""]]) if line[0] == ">" and after[0] != "refused"]


def offered(key, past):
    """The packets that were offered on a terminal's bearer and direction."""
    return [bytes.fromhex(event[4]) for event in accepted(past) if event[0] == "offer" and event[1:4] == key]


def delivered(key, past):
    return [line for line in past if line[0] == "deliver" and line[1:4] == key]


def standing(link, past):
    """What was put on a tunnel or radio, and neither taken nor lost, the oldest first."""
    items = []
    for line in past:
        if line[0] == "put" and line[1] == link:
            items.append(line[2:])
        elif line[0] == "got" and line[1] == link:
            items = items[1:]
        elif line[0] == "lost" and line[1] == link:
            items = [] if link.startswith("r/") else items[int(line[2]) :]
    return items


def messages(past):
    return [line[1:] for line in past if is_control(line) and line[0] == "put"]


def reading(past, line):
    """The bits of a bearer's numbers, and what an item of it says; None where the bearer wasn't set, or the octets have no layout."""
    _, link, ue, bearer, direction, _, octets = line
    plans = [event for event in accepted(past) if event[0] in ("static", "attach") and event[1] == ue]
    if not plans or int(bearer[1:]) > int(plans[0][6]):
        return None
    bits = int(plans[0][5])
    says = says_of(link, direction, bits, bytes.fromhex(octets))
    return None if says is None else (bits, says)


def is_at_receiver(link, direction):
    return link.startswith("r/") if direction == "dl" else link[1:4] == ".up"


# ---- the rules: each says whether a line keeps it


def keeps_form(past, line):
    return line is not None and may_follow(past, line) and (line[0] != "end" or int(line[1]) == sum(before[0] == ">" for before in past))


def may_follow(past, line):
    if not past:
        return line[0] in (">", "end", "stop")
    return past[-1][0] not in ("end", "stop") and (past[-1][0] != "outstanding" or line[0] == "stop")


def keeps_wire(past, line):
    if line[0] == "got" and is_item(line):
        return standing(line[1], past)[:1] == [line[2:]]
    if line[0] == "put" and is_control(line):
        return int(line[1][1:]) == len(messages(past)) + 1
    if line[0] == "got":
        return messages(past)[int(line[1][1:]) - 1 : int(line[1][1:])] == [line[1:]]
    return not (line[0] == "lost" and is_tunnel(line[1])) or int(line[2]) <= len(standing(line[1], past))


def keeps_packet(past, line):
    return not (line[0] == "put" and is_item(line)) or reading(past, line) is not None


def is_packet(packets, count, packet):
    return packets[count : count + 1] == [packet]


def keeps_count(past, line):
    if line[0] == "deliver":
        return is_packet(offered(line[1:4], past), int(line[4]), bytes.fromhex(line[5]))
    if not is_item(line) or line[5] == "-":
        return True
    found = reading(past, line)
    if found is None:
        return False
    (bits, says), count = found, int(line[5])
    is_right = says.number is None or (says.number - count) % (1 << bits) == 0
    return is_right and (says.packet is None or is_packet(offered(line[2:5], past), count, says.packet))


def keeps_order(past, line):
    if line[0] == "deliver":
        return int(line[4]) == len(delivered(line[1:4], past))
    if line[0] != "quiet":
        return True
    keys = [[*line[1:3], direction] for direction in ("dl", "ul")]
    return all(int(said) == len(offered(key, past)) == len(delivered(key, past)) for key, said in zip(keys, line[3:]))


def keeps_seen(past, line):
    if line[0] == "put" and is_item(line):
        _, says = reading(past, line)
        return says.packet is None or says.packet in offered(line[2:5], past)
    return line[0] != "deliver" or any(brings(past[:place], before, line) for place, before in enumerate(past))


def brings(past, line, delivery):
    """Whether a line takes, at the receiver, an item with the packet and the COUNT that are delivered."""
    if line[0] != "got" or not is_item(line) or line[2:6] != delivery[1:5] or not is_at_receiver(line[1], line[4]):
        return False
    found = reading(past, line)
    return found is not None and found[1].packet == bytes.fromhex(delivery[5])


RULES = [(FORM, keeps_form), (WIRE, keeps_wire), (PACKET, keeps_packet), (COUNT, keeps_count), (ORDER, keeps_order), (SEEN, keeps_seen)]


def broken(texts):
    """The first place at which a rule is broken, counted from 1, and the least such rule; None where the texts are sound."""
    past = []
    for place, text in enumerate(texts, 1):
        line = line_of(text)
        for rule, keeps in RULES:
            if not keeps(past, line):
                return place, rule
        past.append(line)
    return None if past and past[-1][0] in ("end", "stop") else (len(past) + 1, END)


def answer(octets):
    """The text and the status of a call. Whole lines are judged before a byte too many is reported; of a text that is too long no end is judged."""
    texts, longer = lines_of(octets)
    place, rule = broken(texts) or (0, 0)
    if rule and not (longer and place > len(texts)):
        return f"unsound {place} {rule}\nstop 12 {place} {rule}\n", 12
    return (f"stop 11 {LIMIT + 1} 0\n", 11) if longer else (f"sound {len(texts)}\n", 0)


if __name__ == "__main__":
    said, status = answer(sys.stdin.buffer.read()) if sys.argv[1:] == ["verify"] else ("stop 2 0 0\n", 2)
    sys.stdout.write(said)
    sys.exit(status)
