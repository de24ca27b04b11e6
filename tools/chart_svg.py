"""Draws the rows of tools/chart_rows.py as SVG, and as an HTML page of one small SVG a row, so that a filter hides rows and a printer cuts between them.

Nothing here is proved.
"""

import functools
import html

from chart_rows import Arrow, Mark, whose
from endpoints import role

EVENTS_WIDTH, FIRST, SPACING, MARGIN = 206, 262, 116, 76
# room for a refusal beside its event, and the most that a label may have between two lifelines
REFUSED_WIDTH, LONGEST = 110, 460
ROW, HEAD, LANE_FIRST, LANE_STEP = 20, 40, 5, 4
CHARACTER = 5.6
TITLES = {"ue": "UE", "du": "gNB-DU", "cp": "gNB-CU-CP", "up": "gNB-CU-UP", "core": "5GC"}
NOT_PROVED = "Drawn from a transcript by tools/to_chart.py; a picture, not a proof."

STYLE = """
svg { font: 10px "Helvetica Neue", Helvetica, Arial, "DejaVu Sans", sans-serif; background: #fff; }
text { fill: #111; }
.halo { paint-order: stroke; stroke: #fff; stroke-width: 3px; stroke-linejoin: round; }
.life { stroke: #bbb; }
.rule { stroke: #ddd; }
.box { fill: #fff; stroke: #333; }
.name { font-weight: bold; font-size: 11px; text-anchor: middle; }
.title { font-weight: bold; font-size: 12px; }
.role, .small { font-size: 9px; fill: #444; }
.role { text-anchor: middle; }
.event { font-family: "DejaVu Sans Mono", Menlo, Consolas, monospace; font-size: 9px; }
.number { fill: #777; text-anchor: end; }
.refused { fill: #b00020; font-weight: bold; }
.line, .lane { fill: none; }
.control { stroke: #0b3d91; stroke-width: 1.4; }
.packet { stroke: #333; stroke-width: .8; }
.forward { stroke: #8a4b08; stroke-width: 1; stroke-dasharray: 7 2; }
.radio { stroke: #1b6e3c; stroke-width: .9; stroke-dasharray: 3 2; }
.lane { stroke-dasharray: none; stroke-opacity: .55; }
.tip { stroke-dasharray: none; stroke-linejoin: miter; }
.control.tip { fill: #0b3d91; }
.label-control { fill: #0b3d91; font-weight: bold; }
.label-forward { fill: #8a4b08; }
.label-radio { fill: #1b6e3c; }
.cross { stroke: #b00020; stroke-width: 1.8; fill: none; }
.flies { stroke: #555; fill: #fff; }
.deliver { fill: #1b6e3c; stroke: none; }
.held { fill: #fff; stroke: #b06000; stroke-width: 1.4; }
.note { fill: #f4f4f4; stroke: #999; }
.fold { fill: #fff; stroke: #999; stroke-dasharray: 2 2; }
"""

# ---- places


def width_of_text(text, weight=1.0):
    return len(text) * CHARACTER * weight


def needs_of(chart):
    """For each label the first and the last lifeline between which it is to have room, and how much."""
    found = {}
    for row in chart.rows:
        span, room = need_of(chart, row.content)
        if span:
            found[span] = max(found.get(span, 0), min(room, LONGEST))
    return found


def need_of(chart, content):
    """The lifelines, by number, between which the label of a row stands, and its room; None where it needs none."""
    if isinstance(content, Arrow):
        ends = sorted(chart.nodes.index(node) for node in (content.flight.ends.sender, content.flight.ends.receiver))
        return tuple(ends), width_of_text(content.label, weight_of(content.flight.style)) + 2 * LANE_FIRST + LANE_STEP
    if content is None or content.node is None:
        return None, 0
    at = chart.nodes.index(content.node)
    is_last = at == len(chart.nodes) - 1
    return (None, 0) if len(chart.nodes) == 1 else ((at - 1, at) if is_last else (at, at + 1), width_of_text(content.label) + 24)


def weight_of(style):
    return 1.08 if style == "control" else 1


def columns_of(chart):
    """Where the lifelines stand: as far apart as labels between them need, the narrow ones first; few lifelines share the width of the legend."""
    begin = FIRST + (REFUSED_WIDTH if any(row.refused for row in chart.rows) else 0)
    gaps = [max(SPACING, (legend_width() - begin - MARGIN) // max(len(chart.nodes) - 1, 1))] * (len(chart.nodes) - 1)
    for (first, last), room in sorted(needs_of(chart).items(), key=lambda need: (need[0][1] - need[0][0], need[0])):
        lacking = room - sum(gaps[first:last])
        for gap in range(first, last):
            gaps[gap] += max(0, lacking) / (last - first)
    return [round(begin + sum(gaps[:place])) for place in range(len(chart.nodes))]


def place(chart, node):
    if not chart.columns:
        chart.columns = columns_of(chart)
    return chart.columns[chart.nodes.index(node)]


def width_of(chart):
    return max(place(chart, chart.nodes[-1]) + MARGIN, 0)


def fitted(chart, text, first, last, weight=1.0):
    """A label, shortened where it is longer than the room between two places."""
    room = int((abs(last - first) - 2 * LANE_FIRST) / (CHARACTER * weight))
    return text if len(text) <= room or len(chart.nodes) < 2 else text[: max(room - 2, 8)] + ".."


def lane_place(chart, node, is_right, number):
    return place(chart, node) + (1 if is_right else -1) * (LANE_FIRST + LANE_STEP * number)


def begin_of(chart, flight):
    """Where the arrow of a flight begins: at its lane, or at the sender's lifeline."""
    start = place(chart, flight.ends.sender)
    if flight.lane is None:
        return start
    return lane_place(chart, flight.ends.sender, place(chart, flight.ends.receiver) > start, flight.lane)


def clamped(chart, middle, text, weight=1.0):
    """The middle of a text so that it stays within the chart."""
    half = len(text) * CHARACTER * weight / 2 + 4
    return min(max(middle, EVENTS_WIDTH + half), max(width_of(chart) - half, EVENTS_WIDTH + half))


# ---- elements of SVG


def escaped(text):
    return html.escape(text, quote=True)


def group(of, classes, title, parts):
    """Elements that belong to a terminal and bearer, with what is shown where a pointer rests."""
    ue, bearer = of
    named = (f' data-ue="{ue}"' if ue else "") + (f' data-bearer="{bearer}"' if bearer else "")
    shown = f"<title>{escaped(title)}</title>" if title else ""
    return f'<g class="{classes}"{named}>{shown}{"".join(parts)}</g>'


def text(x, y, content, classes, anchor=None):
    anchored = f' text-anchor="{anchor}"' if anchor else ""
    return f'<text x="{x:g}" y="{y:g}" class="{classes}"{anchored}>{escaped(content)}</text>'


def path(steps, classes):
    return f'<path d="{steps}" class="{classes}"/>'


def tip(x, y, sign, style):
    """The head of an arrow that points to x: full for a control message, open for a packet."""
    end = "Z" if style == "control" else ""
    return path(f"M{x - 7 * sign:g} {y - 3.2:g}L{x:g} {y:g}L{x - 7 * sign:g} {y + 3.2:g}{end}", f"tip line {style}")


def cross(x, y):
    return path(f"M{x - 4:g} {y - 4:g}l8 8m0 -8l-8 8", "cross")


# ---- a row, from its top at 0 to ROW


def row_elements(chart, number):
    row = chart.rows[number]
    parts = [path(f"M{place(chart, node)} 0V{ROW}", "life") for node in chart.nodes]
    parts += [lane_piece(chart, lane, number) for lane in chart.lanes[number]]
    parts += [put_mark(chart, flight) for flight in row.puts if flight.lane is not None or not row.content]
    if row.label:
        parts.append(event_elements(chart, row))
    if isinstance(row.content, Arrow):
        parts.append(arrow_elements(chart, row))
    elif isinstance(row.content, Mark):
        parts.append(mark_elements(chart, row))
    return parts


MIDDLE, PUT = ROW - 6, ROW - 2


def lane_piece(chart, lane, number):
    x = lane_place(chart, lane.node, lane.is_right, lane.number)
    top = PUT if number == lane.first else 0
    bottom = MIDDLE if number == lane.last else ROW
    # a lane alone doesn't keep a row in sight of the filter
    return group(lane.of, "piece passes", "", [path(f"M{x:g} {top}V{bottom}", f"lane {lane.style}")])


def put_mark(chart, flight):
    """Where a message or packet is put that is got later: a dot at the lifeline, and a stroke to its lane."""
    start, lane = place(chart, flight.ends.sender), begin_of(chart, flight)
    dot = f'<circle cx="{start}" cy="{PUT}" r="2" class="{flight.style}"/>'
    return group(whose(flight.line), "piece", flight.title, [path(f"M{start} {PUT}H{lane:g}", f"lane {flight.style}"), dot])


def text_of_event(row):
    return f"{row.event} {row.label}" + (f": refused, {row.refused}" if row.refused else "")


def event_elements(chart, row):
    parts = [path(f"M4 .5H{width_of(chart) - 4}", "rule"), text(26, MIDDLE + 1, str(row.event), "event number"), text(32, MIDDLE + 1, row.label, "event")]
    if row.refused:
        parts.append(text(EVENTS_WIDTH + 8, MIDDLE + 1, f"refused: {row.refused}", "refused halo"))
    return group(row.event_of, "piece begins", row.title, parts)


def arrow_elements(chart, row):
    arrow, flight = row.content, row.content.flight
    start, end = begin_of(chart, flight), place(chart, flight.ends.receiver)
    sign = 1 if end > start else -1
    stop = end - sign if arrow.end == "arrives" else start + (end - start) * .6
    parts = [path(f"M{start:g} {MIDDLE}H{stop:g}", f"line {flight.style}")]
    if arrow.end == "arrives":
        parts.append(tip(end, MIDDLE, sign, flight.style))
    else:
        parts.append(cross(stop, MIDDLE) if arrow.end == "lost" else f'<circle cx="{stop:g}" cy="{MIDDLE}" r="3" class="flies"/>')
    weight = weight_of(flight.style)
    label = fitted(chart, arrow.label, place(chart, flight.ends.sender), end, weight)
    middle = clamped(chart, (place(chart, flight.ends.sender) + end) / 2, label, weight)
    parts.append(text(middle, MIDDLE - 4, label, f"halo label-{flight.style}", "middle"))
    return group(row.content_of, "piece", flight.title or arrow.label, parts)


def mark_elements(chart, row):
    mark = row.content
    if mark.node is None:
        return group(row.content_of, "piece", mark.title, note_shape(chart, mark))
    x = place(chart, mark.node)
    is_last = mark.node == chart.nodes[-1] and len(chart.nodes) > 1
    label = text(x - 10 if is_last else x + 10, MIDDLE + 1, mark.label, "halo", "end" if is_last else None)
    return group(row.content_of, "piece", mark.title, [MARKS[mark.sort](x), label])


def note_shape(chart, mark):
    half = len(mark.label) * CHARACTER / 2 + 8
    middle = (place(chart, chart.nodes[0]) + place(chart, chart.nodes[-1])) / 2
    middle = clamped(chart, middle, mark.label)
    box = f'<rect x="{middle - half:g}" y="3" width="{2 * half:g}" height="{ROW - 5}" rx="3" class="{mark.sort}"/>'
    return [box, text(middle, MIDDLE, mark.label, "", "middle")]


MARKS = {
    "deliver": lambda x: path(f"M{x - 5} {MIDDLE - 7}h10l-5 9z", "deliver"),
    "drop": lambda x: cross(x, MIDDLE - 2),
    "failed": lambda x: cross(x, MIDDLE - 2),
    "held": lambda x: f'<rect x="{x - 5}" y="{MIDDLE - 7}" width="10" height="9" class="held"/>' + path(f"M{x - 2} {MIDDLE - 5}v5m4 0v-5", "held"),
}

# ---- heads and legend


def head_elements(chart):
    parts = []
    for node in chart.nodes:
        x = place(chart, node)
        parts.append(f'<rect x="{x - 34}" y="4" width="68" height="{HEAD - 8}" rx="2" class="box"/>')
        parts += [text(x, 19, node, "name"), text(x, 31, TITLES[role(node)], "role")]
    parts.append(text(12, 31, "event", "small"))
    return parts


LEGEND = (("control", "control message"), ("packet", "packet on N3 or F1-U"), ("forward", "forwarded packet (Xn-U)"), ("radio", "PDU on the radio"))
SIGNS = (("deliver", "deliver"), ("drop", "drop, failed, lost"), ("held", "held"))


def legend_elements(y):
    parts, x = [], 32
    for style, words in LEGEND:
        parts += [path(f"M{x} {y - 3}h30", f"line {style}"), tip(x + 31, y - 3, 1, style), text(x + 37, y, words, "small")]
        x += 56 + len(words) * 5
    for sort, words in SIGNS:
        parts += [f'<g transform="translate({x},{y - MIDDLE + 1})">{MARKS[sort](5)}</g>', text(x + 15, y, words, "small")]
        x += 34 + len(words) * 5
    return parts + [f'<circle cx="{x}" cy="{y - 3}" r="3" class="flies"/>', text(x + 9, y, "in flight at the end", "small")]


@functools.cache
def legend_width():
    return 32 + sum(56 + len(words) * 5 for _, words in LEGEND) + sum(34 + len(words) * 5 for _, words in SIGNS) + 120


def svg(width, height, parts, style=""):
    named = f"<style>{style}</style>" if style else ""
    return (f'<svg xmlns="http://www.w3.org/2000/svg" viewBox="0 0 {width:g} {height:g}" width="{width:g}" height="{height:g}">'
            f"{named}{''.join(parts)}</svg>")


def picture(chart, title):
    """The whole chart as one SVG."""
    top = 46
    width, height = max(width_of(chart), legend_width()), top + HEAD + ROW * len(chart.rows) + HEAD + 8
    parts = [f'<rect width="{width:g}" height="{height:g}" fill="#fff"/>', text(12, 16, title, "title"), text(width - 12, 16, NOT_PROVED, "small", "end")]
    parts += legend_elements(34)
    parts.append(f'<g transform="translate(0,{top})">{"".join(head_elements(chart))}</g>')
    for number in range(len(chart.rows)):
        parts.append(f'<g transform="translate(0,{top + HEAD + ROW * number})">{"".join(row_elements(chart, number))}</g>')
    parts.append(f'<g transform="translate(0,{height - HEAD - 6})">{"".join(head_elements(chart))}</g>')
    return svg(width, height, parts, STYLE) + "\n"


# ---- the page

PAGE_STYLE = STYLE + """
body { margin: 0 12px; font: 13px Helvetica, Arial, sans-serif; }
h1 { font-size: 16px; }
table { border-collapse: collapse; }
td, th { padding: 0; line-height: 0; }
thead th { position: sticky; top: 0; background: #fff; border-bottom: 1px solid #ccc; }
tr { break-inside: avoid; }
.hidden { display: none; }
.piece:hover .line, .piece:hover .lane { stroke-width: 2.4; }
form label { margin-right: 14px; }
@page { size: A4 landscape; margin: 10mm; }
@media print { form { display: none; } table, td, th { width: 100%; } td svg, th svg { width: 100%; height: auto; } thead th { position: static; } }
"""

SCRIPT = """
const chosen = name => document.querySelector(`select[name=${name}]`).value;
const fits = (piece, name) => !chosen(name) || !piece.dataset[name] || piece.dataset[name] === chosen(name);
function filter() {
  for (const row of document.querySelectorAll('tbody tr')) {
    const pieces = [...row.querySelectorAll('.piece')];
    for (const piece of pieces) piece.classList.toggle('hidden', !(fits(piece, 'ue') && fits(piece, 'bearer')));
    const shown = pieces.filter(piece => !piece.classList.contains('hidden') && !piece.classList.contains('passes'));
    row.classList.toggle('hidden', shown.length === 0);
  }
}
for (const select of document.querySelectorAll('select')) select.addEventListener('change', filter);
"""


def named_by(chart, part):
    """The terminals, or the bearers, that a chart has."""
    found = {of[part] for row in chart.rows for of in (row.content_of, row.event_of)} | {whose(flight.line)[part] for flight in chart.flights}
    return sorted(found - {None}, key=lambda name: int(name[1:]))


def choice(name, words, names):
    entries = "".join(f'<option value="{entry}">{entry}</option>' for entry in names)
    return f'<label>{words} <select name="{name}"><option value="">all</option>{entries}</select></label>'


def table_row(chart, number, width):
    return f"<tr><td>{svg(width, ROW, row_elements(chart, number))}</td></tr>"


def page(chart, title):
    """The chart as a page: a small SVG a row, a head that stays in sight and is printed on each page, and a filter."""
    width = max(width_of(chart), legend_width())
    head = svg(width, HEAD, head_elements(chart))
    rows = "\n".join(table_row(chart, number, width) for number in range(len(chart.rows)))
    form = f"<form>{choice('ue', 'UE', named_by(chart, 0))}{choice('bearer', 'bearer', named_by(chart, 1))} octets are shown where the pointer rests</form>"
    return f"""<!DOCTYPE html>
<html lang="en"><head><meta charset="utf-8"><title>{escaped(title)}</title><style>{PAGE_STYLE}</style></head>
<body><h1>{escaped(title)}</h1><p>{NOT_PROVED}</p>{form}{svg(width, 24, legend_elements(16))}
<table><thead><tr><th>{head}</th></tr></thead><tbody>
{rows}
</tbody></table><script>{SCRIPT}</script></body></html>
"""
