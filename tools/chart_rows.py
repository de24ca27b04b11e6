"""Makes the rows of a message sequence chart from a transcript of `run`, for tools/to_chart.py.

A message or packet is an arrow in the row in which it is got; where it was put earlier than one row before, a lane beside the sender's lifeline leads from there to
the arrow. What a unit does with it (`deliver`, `drop`, `held`, `failed`) is a mark in a row of its own, and what is lost, or in flight at the end, an arrow that
doesn't arrive. Rows that repeat are folded into one that says how many they are.

Nothing here is proved.
"""

import collections
import dataclasses
import json
import re

import endpoints
import packet_reader
import selection
from endpoints import N3, XNU_DL, XNU_UL, role
from transcripts import NODES, Message, Radio, Wrong

LANES = 8
# characters of the column of events
LABEL = 31
# so many rows may be a block that repeats, and so many rows at least are folded
BLOCK, FEWEST = 8, 5
ROLES = ("ue", "du", "cp", "up", "core")
NOTES = ("quiet", "busy", "settled", "unsettled", "outstanding", "end", "stop", "module", "differs")


@dataclasses.dataclass(eq=False)
class Flight:
    """An item or a message that was put: its lane, and the rows in which it is put and leaves the link."""

    line: object
    ends: object
    label: str
    title: str
    style: str
    put_row: int
    last_row: int = None
    lane: int = None


@dataclasses.dataclass
class Arrow:
    """An arrow of a row; `end` is "arrives", "lost" or "flies"."""

    flight: Flight
    label: str
    end: str = "arrives"


@dataclasses.dataclass
class Mark:
    """What a unit does, at its lifeline; `sort` is deliver, drop, held, failed, or note, which has no node."""

    node: str
    sort: str
    label: str
    title: str


@dataclasses.dataclass
class Row:
    """A row of a chart: the event that begins in it, what is drawn in it, what is put in it, and of which terminal and bearer that is. The title has what the label leaves out."""

    event: int
    label: str = ""
    title: str = ""
    refused: str = ""
    event_of: tuple = (None, None)
    content: object = None
    content_of: tuple = (None, None)
    puts: list = dataclasses.field(default_factory=list)


@dataclasses.dataclass(frozen=True)
class Lane:
    """A part of a lane beside a lifeline, from one row to another one."""

    node: str
    is_right: bool
    number: int
    style: str
    of: tuple
    first: int
    last: int


@dataclasses.dataclass
class Chart:
    """A chart: its lifelines from left to right, its rows, what is put in or before them, and for each row the lanes that pass it."""

    nodes: list
    rows: list
    flights: list
    lanes: list = dataclasses.field(default_factory=list)
    # the number of rows on the pages before
    first: int = 0
    # where the lifelines stand; chart_svg.py makes these
    columns: list = dataclasses.field(default_factory=list)


# ---- words


def spelled(name):
    """The name of a message in words, as 3GPP has it."""
    name = re.sub("^(DL|UL)(RRC)", r"\1 \2 ", name)
    return re.sub(r"(?<=[a-z0-9])(?=[A-Z])|(?<=[A-Z])(?=[A-Z][a-z])", " ", name).replace("  ", " ")


def words_of_message(name, elements, token):
    """What is said of a message in brackets: token, epoch, mode, cause, SN status."""
    words = []
    token_name, parts = token
    if token_name:
        words.append(f"{token_name}, epoch {parts['epoch']}" + (f", to {parts['gnb'].upper()}.du{parts['du']}" if "gnb" in parts else ""))
    if "epoch" in elements and name != token_name:
        words.append(f"epoch {elements['epoch']}")
    words += [str(elements[part]) for part in ("mode", "cause") if part in elements]
    words += [f"b{status['bearer']} DL {status['dlNext']} UL {status['ulFirst']}" for status in elements.get("statuses", [])]
    if "final" in elements:
        words.append("final" if elements["final"] else "not final")
    return ", ".join(words)


def label_of_message(line, kind, is_one):
    """The label of a control message; with its terminal, where the chart has more than one."""
    name, elements = endpoints.read_message(line, kind)
    who = "" if is_one or line.ue == "u0" else line.ue
    if name is None:
        return f"{line.link} {who + ' ' if who else ''}{kind.name}, octets that are no message"
    words = ", ".join(filter(None, (who, words_of_message(name, elements, endpoints.token_of(kind, name, elements)))))
    shown = "RRC" if kind is endpoints.RRC else spelled(name)
    return f"{line.link} {shown}" + (f" ({words})" if words else "")


def label_of_packet(line, kind, bits, is_one):
    if isinstance(line.link, Radio):
        name = packet_reader.name_of_pdcp(line.octets, bits)
    else:
        name = packet_reader.name_of_packet(line.octets, bits, kind in (N3, XNU_DL))
    count = "" if line.count is None else f"COUNT {line.count}: "
    return f"{who_of(line, is_one)} {count}{name}"


def who_of(line, is_one):
    """The bearer of a line; with its terminal, where the chart has more than one."""
    return line.bearer if is_one else f"{line.ue} {line.bearer}"


def style_of(line, ends):
    if ends.kind.is_control:
        return "control"
    if isinstance(line.link, Radio):
        return "radio"
    return "forward" if ends.kind in (XNU_DL, XNU_UL) else "packet"


def title_of(line, ends, label):
    """What is shown where a pointer rests: the words, the link, the elements and the octets."""
    words = [label, f"{ends.kind.title}; put in line {line.number}, event {line.event}"]
    if ends.kind.is_control:
        name, elements = endpoints.read_message(line, ends.kind)
        words += [json.dumps({name: elements}, indent=1)] if name else []
    else:
        words.append(f"link {line.link}")
    return "\n".join([*words, grouped(line.octets)])


def grouped(octets):
    """Octets as a dump: 16 a line."""
    return "\n".join(octets[at : at + 16].hex(" ").upper() for at in range(0, len(octets), 16))


def whose(line):
    """The terminal and bearer of a line, None where it names none."""
    ue = line.fields.get("ue")
    return (None if ue == "u0" else ue), line.fields.get("bearer")


# ---- rows


class Maker:
    """Makes the rows, line after line."""

    def __init__(self, is_one=True):
        self.rows, self.flights, self.is_one = [], [], is_one
        # what stands on each tunnel and radio, oldest first; and each control message ever put
        self.standing, self.messages = collections.defaultdict(collections.deque), {}
        self.of_step = (None, None)
        self.ends = {}

    def take(self, line, ends, bits):
        if line.kind == "event":
            label, whole = label_of_event(line), line.text.removeprefix("> ")
            self.rows.append(Row(line.event, label, whole if whole != label else "", event_of=whose(line)))
            self.of_step = whose(line)
        elif line.kind == "put":
            self.put(line, ends, bits)
        elif line.kind == "got":
            self.got(line, ends, bits)
        elif line.kind == "lost":
            self.lost(line)
        elif line.kind == "refused":
            self.rows[-1].refused = line.reason
        else:
            self.mark(line)

    def new_content(self, line, content, of):
        """Puts what is drawn into the row of its event, where that is empty, or into a new one."""
        if not self.rows or self.rows[-1].content or self.rows[-1].puts or self.rows[-1].event != line.event:
            self.rows.append(Row(line.event))
        self.rows[-1].content, self.rows[-1].content_of = content, of

    def put(self, line, ends, bits):
        label = label_of_message(line, ends.kind, self.is_one) if ends.kind.is_control else label_of_packet(line, ends.kind, bits, self.is_one)
        flight = Flight(line, ends, label, title_of(line, ends, label), style_of(line, ends), len(self.rows) - 1)
        self.flights.append(flight)
        self.ends[line.link] = ends
        self.rows[-1].puts.append(flight)
        if isinstance(line.link, Message):
            self.messages[line.link] = flight
        else:
            self.standing[line.link].append(flight)

    def got(self, line, ends, bits):
        self.of_step = whose(line)
        flight, again = self.taken(line)
        self.new_content(line, Arrow(flight, flight.label + (" (given again)" if again else "")), whose(line))
        if not again:
            flight.last_row = len(self.rows) - 1

    def taken(self, line):
        """What a `got` line takes, and whether it was taken before."""
        if isinstance(line.link, Message):
            flight = self.messages.get(line.link)
        else:
            flight = self.standing[line.link].popleft() if self.standing[line.link] else None
        if flight is None or flight.line.octets != line.octets:
            raise Wrong(line.number, f"no line before this one puts what is got from {line.link}")
        return flight, flight.last_row is not None

    def lost(self, line):
        if isinstance(line.link, Message):
            flights = [self.messages[line.link]] if line.link in self.messages else []
        else:
            flights = self.lost_of_link(line)
        if line.link not in self.ends:
            raise Wrong(line.number, f"no line before this one puts anything on {line.link}")
        first = flights[0] if flights else None
        shown = first or Flight(line, self.ends[line.link], "", "", "packet", len(self.rows) - 1)
        label = f"lost: {shown.label}" if line.items == 1 and first else f"lost: {line.items} on {line.link}"
        self.new_content(line, Arrow(shown, label, "lost"), whose(shown.line) if first else self.of_step)
        for flight in flights:
            flight.last_row = len(self.rows) - 1

    def lost_of_link(self, line):
        """A radio loses all that it holds, carried or not; a tunnel so many from the oldest on."""
        standing = self.standing[line.link]
        count = len(standing) if isinstance(line.link, Radio) else line.items
        if count > len(standing):
            raise Wrong(line.number, f"{line.items} are lost on {line.link}, and {len(standing)} stand there")
        return [standing.popleft() for _ in range(count)]

    def mark(self, line):
        if line.kind in NOTES:
            content, of = Mark(None, "note", line.text, line.text), whose(line)
        elif line.kind == "deliver":
            content, of = self.mark_of_delivery(line), whose(line)
        elif line.kind == "held":
            content, of = self.mark_of_held(line), self.of_held(line)
        elif line.kind == "failed":
            content, of = Mark(line.node, "failed", f"failed {line.ue}: {line.cause}", line.text), whose(line)
        else:
            content, of = Mark(line.node, "drop", f"drop{self.who_of_step()}: {line.reason}", line.text), self.of_step
        self.new_content(line, content, of)

    def mark_of_delivery(self, line):
        node = line.ue if line.direction == "dl" else self.rows_receiver(line)
        count = f"{len(line.octets)} octet" + "s" * (len(line.octets) != 1)
        return Mark(node, "deliver", f"deliver {who_of(line, self.is_one)} COUNT {line.count} ({count})", f"{line.words}\n{grouped(line.octets)}")

    def rows_receiver(self, line):
        """The CU-UP that delivers an uplink packet: the unit that got something last."""
        for row in reversed(self.rows):
            if isinstance(row.content, Arrow) and row.content.end == "arrives":
                return row.content.flight.ends.receiver
        raise Wrong(line.number, "nothing was got before this delivery")

    def who_of_step(self):
        return "" if self.is_one or self.of_step[0] is None else f" {self.of_step[0]}"

    def mark_of_held(self, line):
        receiver = line.link.ue if isinstance(line.link, Radio) else line.link.node
        return Mark(receiver, "held", f"held on {line.link}: {line.reason}", line.text)

    def of_held(self, line):
        return whose(self.standing[line.link][0].line) if self.standing[line.link] else (None, None)

    def finish(self, last):
        """What is in flight at the end: each control message, and how many items stand on each link."""
        for flight in self.messages.values():
            if flight.last_row is None:
                self.fly(last, flight, f"in flight: {flight.label}")
        for link, standing in self.standing.items():
            if standing:
                self.fly(last, standing[0], f"{len(standing)} on {link}: {standing[0].label}" + " .." * (len(standing) > 1))

    def fly(self, last, flight, label):
        self.rows.append(Row(last.event, content=Arrow(flight, label, "flies"), content_of=whose(flight.line)))
        flight.last_row = len(self.rows) - 1


def label_of_event(line):
    """An event, with long words and the whole made short enough for its column."""
    words = line.text.removeprefix("> ").split(" ")
    label = " ".join(word if len(word) <= 14 else word[:12] + ".." for word in words)
    return label if len(label) <= LABEL else label[: LABEL - 2] + ".."


def give_lanes(chart):
    """Gives each flight that stays on its link longer than one row a lane beside its sender, of the first that is free; all that find none share the last one."""
    places = {node: place for place, node in enumerate(chart.nodes)}
    busy_until = collections.defaultdict(lambda: [-1] * (LANES - 1))
    found, shared = [], collections.defaultdict(list)
    for flight in sorted(chart.flights, key=lambda flight: flight.put_row):
        end = len(chart.rows) if flight.last_row is None else flight.last_row
        if end - flight.put_row <= 1:
            continue
        side = (flight.ends.sender, places[flight.ends.receiver] > places[flight.ends.sender])
        free = [lane for lane, until in enumerate(busy_until[side]) if until <= flight.put_row]
        flight.lane = free[0] if free else LANES - 1
        if free:
            busy_until[side][flight.lane] = end
            found.append(Lane(*side, flight.lane, flight.style, whose(flight.line), flight.put_row, end))
        else:
            shared[(*side, LANES - 1, flight.style, whose(flight.line))].append((flight.put_row, end))
    found += [Lane(*key, *span) for key, spans in shared.items() for span in joined(spans)]
    chart.lanes = by_row(found, len(chart.rows))


def joined(spans):
    """Spans, in the order of their begins, with those joined that meet."""
    found = []
    for first, last in spans:
        if found and first <= found[-1][1]:
            found[-1] = (found[-1][0], max(last, found[-1][1]))
        else:
            found.append((first, last))
    return found


def by_row(lanes, rows):
    found = [[] for _ in range(rows)]
    for lane in lanes:
        for row in range(max(lane.first, 0), min(lane.last + 1, rows)):
            found[row].append(lane)
    return found


def in_order(nodes):
    return sorted(nodes, key=lambda node: (ROLES.index(role(node)), NODES.index(node)))


def make(found, chosen=selection.ALL, folds=True):
    """The chart of what is chosen of a transcript, of which each line is there with its ends. Where `folds` holds, rows that repeat are folded."""
    maker = Maker(is_one=len(terminals_of(found, chosen)) < 2)
    for line, ends, bits in found:
        maker.take(line, ends, bits)
    if chosen.last is None:
        maker.finish(found[-1][0])
    rows, flights = chosen_rows(maker.rows, maker.flights, chosen)
    return laid_out(*(folded(rows, flights) if folds else (rows, flights)))


def terminals_of(found, chosen):
    """The terminals that are named by what is chosen."""
    return {line.fields.get("ue") for line, _, _ in found if chosen.has_line(line)} - {None, "u0"}


def laid_out(rows, flights, first=0):
    """The chart of these rows, with its lifelines and lanes."""
    nodes = {node for row in rows for node in nodes_of(row)} | {node for flight in flights for node in (flight.ends.sender, flight.ends.receiver)}
    chart = Chart(in_order(nodes) or ["core"], rows, flights, first=first)
    give_lanes(chart)
    return chart


def pages_of(chart, length):
    """The charts of a chart's pages, of so many rows each. Each page is to be drawn before the next one is taken: they share their flights."""
    spans = [(flight, flight.put_row, flight.last_row) for flight in chart.flights]
    for begin in range(0, len(chart.rows), length):
        for flight, put, last in spans:
            flight.put_row, flight.last_row, flight.lane = put, last, None
        rows = chart.rows[begin : begin + length]
        yield laid_out(rows, moved(chart.flights, {place: place - begin for place in range(begin, begin + len(rows))}, len(chart.rows)), begin)


def chosen_rows(rows, flights, chosen):
    """The rows of what is chosen, and the flights that are seen in them."""
    kept, places = [], {}
    for place, row in enumerate(rows):
        if chosen.has_event(row.event) and has_something(row, chosen):
            places[place] = len(kept)
            kept.append(row)
    return kept, moved([flight for flight in flights if chosen.has(*whose(flight.line))], places, len(rows))


def has_something(row, chosen):
    """Takes from a row what isn't chosen; whether something is left."""
    row.puts = [flight for flight in row.puts if chosen.has(*whose(flight.line))]
    if not chosen.has(*row.event_of):
        row.label = row.refused = ""
    if not chosen.has(*row.content_of):
        row.content = None
    return bool(row.label or row.content or row.puts)


def moved(flights, places, count):
    """The flights that are seen in rows at new places, of so many rows; -1 is before the first of them, and their number after the last."""
    low, high, size, new = min(places, default=0), max(places, default=-1), len(set(places.values())), []
    for flight in flights:
        put, last = flight.put_row, count if flight.last_row is None else flight.last_row
        if put <= high and last >= low and places:
            flight.put_row = places.get(put, -1)
            flight.last_row = None if flight.last_row is None else places.get(last, size if last > high else flight.put_row)
            new.append(flight)
    return new


# ---- folding


# numbers and octets of a label
NUMBERS = re.compile(r"\b[0-9A-F]{2,}\b|[0-9]+")


def shape_of(row):
    """What a row looks like but for its numbers and octets; two rows of one shape are alike."""
    event = re.sub("#[0-9]+", "#", row.label)
    event = event.rsplit(" ", 1)[0] if event.startswith("offer ") else event
    content = row.content
    if isinstance(content, Arrow):
        drawn = (content.end, content.flight.ends, content.flight.style, NUMBERS.sub("", content.label))
    else:
        drawn = (content.node, content.sort, NUMBERS.sub("", content.label)) if content else None
    return event, row.refused, drawn, row.content_of, tuple(NUMBERS.sub("", flight.label) for flight in row.puts)


def repeats_at(shapes, place):
    """The length of the block that repeats from a place on, and how often it stands there; the one that covers most."""
    best = (1, 1)
    for length in range(1, BLOCK + 1):
        count = 1
        while shapes[place : place + length] == shapes[place + count * length : place + (count + 1) * length]:
            count += 1
        if (count - 2) * length >= FEWEST and count > 2 and count * length > best[0] * best[1]:
            best = (length, count)
    return best


def folded(rows, flights):
    """The rows with blocks that repeat folded: of each the first and the last stand, and between them a row says how many there are. What arrives in a folded row isn't seen."""
    shapes, kept, places, hidden, place = [shape_of(row) for row in rows], [], {}, set(), 0
    while place < len(rows):
        length, count = repeats_at(shapes, place)
        middle = range(place + length, place + (count - 1) * length)
        for row in range(place, place + length):
            places[row] = len(kept)
            kept.append(rows[row])
        if middle:
            places |= {row: len(kept) for row in middle}
            hidden |= set(middle)
            kept.append(fold_of(rows[middle.start : middle.stop], length))
        place += length + len(middle)
    return kept, moved([flight for flight in flights if flight.last_row not in hidden], places, len(rows))


def fold_of(rows, length):
    first, last, times = rows[0].event, rows[-1].event, len(rows) // length
    label = f"{times} more times the {'row' if length == 1 else f'{length} rows'} above, event{f's {first} to' if first < last else ''} {last}"
    of = {row.content_of for row in rows}
    return Row(first, content=Mark(None, "fold", label, label), content_of=of.pop() if len(of) == 1 else (None, None))


def nodes_of(row):
    if isinstance(row.content, Arrow):
        return [row.content.flight.ends.sender, row.content.flight.ends.receiver]
    return [row.content.node] if row.content and row.content.node else []
