#!/usr/bin/env python3
"""Checks tools/to_chart.py: that the charts of the examples are well-formed, that each line of a transcript is drawn at its lifelines and in its order, that the pictures in docs
are those of today, and what is said of a wrong input. Where mscgen is installed it is asked whether it reads the texts.

Nothing here is a proof.

Usage: tools/charts_check.py [--write]      (--write makes the pictures of docs anew)
"""

import pathlib
import re
import shutil
import subprocess
import sys
import tempfile
import xml.etree.ElementTree as ElementTree

import chart_rows
import chart_svg
import checks
import endpoints
import program
import selection
import stories
import to_chart
import transcripts
from captures_check import BEGIN
from captures_check import WRONG as WRONG_TRANSCRIPTS

SVG = "{http://www.w3.org/2000/svg}"
PICTURES = stories.TOOLS.parent / "docs/pictures"
# the pictures of docs: the story, and the title
DRAWN = {
    "usual-day": "A usual day",
    "handover-with-data-in-flight": "An Xn handover with data in flight",
    "missed-access": "A missed access and the way back",
    "late-sn-status": "A late SN status",
    "cancelled-handover": "A cancelled handover",
    "lost-on-f1-u": "Loss on F1-U and its repair",
    "second-handover": "A second handover while the End Marker is under way",
    "foreign-octets": "Foreign octets",
}
# a longer chart is made, but not drawn here: that would take seconds
DRAWN_ROWS = 1000
WRONG = [
    *WRONG_TRANSCRIPTS[::6],
    (BEGIN + "got A.up1/1 u1 b1 dl - 30\n", ":2: no line before this one puts what is got from A.up1/1"),
    (BEGIN + "lost A.du1/1 2\n", ":2: 2 are lost on A.du1/1, and 0 stand there"),
    (BEGIN + "deliver u1 b1 ul 0 45\n", ":2: nothing was got before this delivery"),
]
# the rows of examples/lost-on-f1-u.out up to the return of the lost packet, as a person would write them
ROWS = """
1 static u1 A 1 1 12 1 64
2 offer u1 b1 dl 01
3 offer u1 b1 dl 02
4 offer u1 b1 dl 03
5 get A.up1/1 | core -> A.up1: b1 G-PDU 01
6 get A.up1/1 | core -> A.up1: b1 G-PDU 02
7 get A.up1/1 | core -> A.up1: b1 G-PDU 03
8 get A.du1/1 | A.up1 -> A.du1: b1 COUNT 0: data, NR-U 0, PDCP SN 0
9 lose A.du1/1 | A.up1 x A.du1: lost: b1 COUNT 1: data, NR-U 1, PDCP SN 1
10 get A.du1/1 | A.up1 -> A.du1: b1 COUNT 2: data, NR-U 2, PDCP SN 2
 | A.du1 drop: Gap
11 air u1 b1 dl | A.du1 -> u1: b1 COUNT 0: PDCP SN 0
 | u1 deliver b1 COUNT 0 (1 octet)
12 ack u1 b1 dl
13 poll u1 b1
14 get A.du1/1 | A.up1 -> A.du1: b1 polling frame, NR-U 3
15 get A.up1/2 | A.du1 -> A.up1: b1 delivery status, lost NR-U 1 to 1
16 get A.up1/2 | A.du1 -> A.up1: b1 COUNT 0: delivery status, delivered SN 0
17 get A.up1/2 | A.du1 -> A.up1: b1 delivery status
18 settle | A.up1 -> A.du1: b1 COUNT 0: data, NR-U 4, restart, PDCP SN 0
""".strip("\n").splitlines()


def text_of(row):
    """A row as words: its event, and what is drawn."""
    content = row.content
    if content is None:
        return chart_svg.text_of_event(row)
    if isinstance(content, chart_rows.Mark):
        drawn = f"{content.node} {content.label}"
    else:
        sign = {"arrives": "->", "lost": "x", "flies": "o"}[content.end]
        drawn = f"{content.flight.ends.sender} {sign} {content.flight.ends.receiver}: {content.label}"
    return f"{chart_svg.text_of_event(row) if row.label else ''} | {drawn}"


def test_by_hand():
    chart = chart_rows.make(endpoints.read_with_ends(stories.EXAMPLES / "lost-on-f1-u.out"))
    assert chart.nodes == ["u1", "A.du1", "A.up1", "core"], chart.nodes
    for row, awaited in zip(chart.rows, ROWS):
        assert text_of(row) == awaited, f"{text_of(row)!r}, not {awaited!r}"


def check_rows(chart, lines):
    """Whether each line that is drawn has its row, in the order of the lines."""
    awaited = [line.kind for line in lines if line.kind not in ("event", "put", "refused")]
    drawn = [kind_of(row.content) for row in chart.rows if row.content and not is_flying(row.content)]
    for kind, sort in zip(awaited, drawn, strict=True):
        assert kind == sort or (sort == "note" and kind in chart_rows.NOTES), f"a row of {sort} stands for '{kind}'"
    events = [row.event for row in chart.rows if row.label]
    assert events == [line.event for line in lines if line.kind == "event"]
    assert [row.event for row in chart.rows if row.refused] == [line.event for line in lines if line.kind == "refused"]


def kind_of(content):
    if isinstance(content, chart_rows.Mark):
        return content.sort
    return "lost" if content.end == "lost" else "got"


def is_flying(content):
    return isinstance(content, chart_rows.Arrow) and content.end == "flies"


def check_lanes(chart):
    """Whether no two lanes have the same place at once, but for the last one, which is shared."""
    for number, lanes in enumerate(chart.lanes):
        places = [(lane.node, lane.is_right, lane.number) for lane in lanes if lane.number < chart_rows.LANES - 1 and lane.first < number < lane.last]
        assert len(places) == len(set(places)), f"two lanes have one place in row {number}"


def check_picture(chart, text):
    """Whether a picture is XML, its texts stay within it, and there is no script and nothing from elsewhere in it."""
    root = ElementTree.fromstring(text)
    width, height = (float(root.get(side)) for side in ("width", "height"))
    assert height > chart_svg.ROW * len(chart.rows)
    for element in root.iter(f"{SVG}text"):
        half = len(element.text or "") * chart_svg.CHARACTER / 2 if element.get("text-anchor") == "middle" else 0
        x = float(element.get("x"))
        assert half - 12 <= x <= width - half + 12, f"'{element.text}' at {x} leaves a picture of width {width}"
    assert not re.search(r"<script|href=|url\(", text)


def check_page(chart, text):
    assert text.count("<svg") == len(chart.rows) + 2
    for picture in re.findall(r"<svg.*?</svg>", text, re.DOTALL):
        ElementTree.fromstring(picture)
    assert not re.search(r"src=|href=|url\(", text)


def check_story(path):
    """A transcript's chart in each form; how many rows it has."""
    found = endpoints.read_with_ends(path)
    chart = chart_rows.make(found, folds=False)
    check_rows(chart, [line for line, _, _ in found])
    check_lanes(chart)
    check_room(chart)
    if len(chart.rows) > DRAWN_ROWS:
        return len(chart.rows)
    check_picture(chart, chart_svg.picture(chart, path.name))
    check_page(chart, chart_svg.page(chart, path.name))
    text = to_chart.msc(chart)
    assert text.count('"') % 2 == 0
    if shutil.which("mscgen"):
        ran = subprocess.run(["mscgen", "-T", "svg", "-i", "-", "-o", "/dev/null"], input=text, capture_output=True, text=True, check=False)
        assert ran.returncode == 0, f"{path}: mscgen says {ran.stderr}"
    return len(chart.rows)


def test_ranges():
    """A range of events has the rows of these events alone, with the lanes that reach into it."""
    found = endpoints.read_with_ends(stories.EXAMPLES / "handover-with-data-in-flight.out")
    whole, part = chart_rows.make(found), chart_rows.make(found, selection.Selection(14, 19))
    assert [text_of(row) for row in part.rows] == [text_of(row) for row in whole.rows if 14 <= row.event <= 19]
    assert any(flight.put_row < 0 for flight in part.flights) and "A.up1" in part.nodes
    check_picture(part, chart_svg.picture(part, "a part"))


def test_selection():
    """A terminal and a bearer choose rows in every form: what is of another one is left out, what is of none stays; with one terminal labels don't name it."""
    found = endpoints.read_with_ends(stories.EXAMPLES / "failed-preparation.out")
    whole, part = (chart_rows.make(found, chosen) for chosen in (selection.ALL, selection.Selection(ue="u2")))
    assert any("u1 b2 COUNT 0" in text_of(row) for row in whole.rows) and "2 static u2 B 1 2 12 1 4096" in map(text_of, whole.rows)
    assert not any("u1" in text_of(row) for row in part.rows) and "18 pump" in map(text_of, part.rows)
    usual = endpoints.read_with_ends(stories.EXAMPLES / "usual-day.out")
    rows = [text_of(row) for row in chart_rows.make(usual, selection.Selection(bearer="b2")).rows]
    assert not any(" b1 " in row for row in rows) and any("deliver b2 COUNT 1 (1 octet)" in row for row in rows) and any("UE Context Setup Request" in row for row in rows)
    for form in ("--html", "--msc"):
        ran = stories.run_tool("to_chart", form, "--ue", "u2", str(stories.EXAMPLES / "failed-preparation.out"))
        assert ran.returncode == 0 and "static u2 B" in ran.stdout and "static u1 A" not in ran.stdout, ran.stderr


def test_folding():
    """Of 2,051 offers the first and the last stand, and a row says how many are between; each block of four rows likewise."""
    rows = chart_rows.make(endpoints.read_with_ends(stories.EXAMPLES / "window.out")).rows
    folds = [row.content.label for row in rows if row.content and not isinstance(row.content, chart_rows.Arrow) and row.content.sort == "fold"]
    assert folds[0] == "2049 more times the row above, events 3 to 2051" and len(rows) < 100, (folds, len(rows))
    text = BEGIN + "".join(f"> offer u1 b1 ul {n:04X}\nput r/u1/b1/ul/1 u1 b1 ul {n} 8{n:03X}00\n> air u1 b1 ul\ngot r/u1/b1/ul/1 u1 b1 ul {n} 8{n:03X}00\n> tick\n" for n in range(20))
    found = list(endpoints.with_ends(transcripts.read(text)))
    rows = [text_of(row) for row in chart_rows.make(found).rows]
    assert rows[:4] == ["1 static u1 A 1 1 12 1 64", "2 offer u1 b1 ul 0000", "3 air u1 b1 ul | u1 -> A.du1: b1 COUNT 0: PDCP SN 0", "4 tick"], rows
    assert rows[4] == " | None 18 more times the 3 rows above, events 5 to 58" and rows[5] == "59 offer u1 b1 ul 0013" and len(rows) == 8, rows
    assert len(chart_rows.make(found, folds=False).rows) == 61


def test_pages():
    """A chart of more rows than a page has is drawn on pages, whose rows together are all of it; standard output takes one page alone."""
    story = stories.EXAMPLES / "usual-day.out"
    count = len(chart_rows.make(endpoints.read_with_ends(story)).rows)
    with tempfile.TemporaryDirectory() as folder:
        path, pages = pathlib.Path(folder) / "day.svg", -(-count // 20)
        ran = stories.run_tool("to_chart", "--rows", "20", story, path)
        assert (ran.returncode, ran.stderr) == (0, f"to_chart: {count} rows on {pages} pages, {path} to {path.with_name(f'day-{pages}.svg')}\n"), ran
        names = sorted(entry.name for entry in pathlib.Path(folder).iterdir())
        assert names == sorted(["day.svg", *(f"day-{number}.svg" for number in range(2, pages + 1))])
        drawn = "".join((path.parent / name).read_text() for name in names)
        assert all(drawn.count(f">{event}</text>") == 1 for event in range(1, 30))
    ran = stories.run_tool("to_chart", "--rows", "20", story)
    assert (ran.returncode, ran.stdout) == (2, "") and ran.stderr == f"to_chart: {story}: {count} rows need {pages} pages: name a file, or choose with --events, --ue, --bearer or --rows\n"


def check_room(chart):
    """Whether each label of an arrow stays between its lifelines, but for those that are shortened."""
    for row in chart.rows:
        if isinstance(row.content, chart_rows.Arrow):
            places = [chart_svg.place(chart, node) for node in (row.content.flight.ends.sender, row.content.flight.ends.receiver)]
            label = chart_svg.fitted(chart, row.content.label, *places, chart_svg.weight_of(row.content.flight.style))
            assert chart_svg.width_of_text(label) <= abs(places[0] - places[1]), f"'{label}' runs over the lifelines of its arrow"


def test_without_events():
    """A transcript of a script whose module is refused has no event and no unit; its lines are drawn."""
    chart = chart_rows.make(list(endpoints.with_ends(transcripts.read("differs Quota\nstop 3 0 20\n"))))
    assert [row.content.label for row in chart.rows] == ["differs Quota", "stop 3 0 20"]
    check_picture(chart, chart_svg.picture(chart, "no event"))


def test_odd_messages():
    """Messages that no unit of ours puts: an alternative past the root, an unknown procedure, an unknown mode, and no message."""
    odd = ["8000", "8003AAAAAA", "0063000100", "000300260000060001000100000200020001000B0001A00000"]
    text = BEGIN + "".join(f"put #{number} A.cp A.du1 u1 {octets}\n" for number, octets in enumerate(odd, 1))
    text += "put #5 A.du1 u1 u1 800141\nput #6 A.cp A.du1 u1 00050010000002000100010000070004038001AA\n"
    chart = chart_rows.make(list(endpoints.with_ends(transcripts.read(text))))
    assert sum(is_flying(row.content) for row in chart.rows) == 6
    check_picture(chart, chart_svg.picture(chart, "odd"))


def test_words():
    names = {"DLRRCMessageTransfer": "DL RRC Message Transfer", "UEContextSetupRequest": "UE Context Setup Request", "SNStatusTransfer": "SN Status Transfer",
             "F1SetupRequest": "F1 Setup Request", "HandoverRequestAcknowledge": "Handover Request Acknowledge"}
    for name, spelled in names.items():
        assert chart_rows.spelled(name) == spelled, chart_rows.spelled(name)


def test_wrong_words():
    story = str(stories.EXAMPLES / "lost-on-f1-u.out")
    no_range = "argument --events: '{}' is no range of events, as 3-20"
    for words, awaited in ((["--ue", "u17"], "argument --ue: awaited a UE, u1 to u16, and it is 'u17'"), (["--bearer", "b0"], "argument --bearer: awaited a bearer, b1 to b8, and it is 'b0'"),
                           (["--rows", "3"], "argument --rows: '3' is no number from 10 to 999999"), (["--events", "0-3"], no_range.format("0-3")), (["--events", "4-2"], no_range.format("4-2")), (["--html", "--msc"], "not allowed with argument --html")):
        ran = stories.run_tool("to_chart", *words, story)
        assert ran.returncode == 2 and re.fullmatch(f"to_chart: .*{awaited}\n", ran.stderr), ran.stderr
    ran = stories.run_tool("to_chart", "--events", "17-19", story)
    assert (ran.returncode, ran.stderr) == (2, f"to_chart: {story}: there is no event 19: the transcript has 18\n"), ran.stderr


def picture_of(story, title):
    return chart_svg.picture(chart_rows.make(endpoints.read_with_ends(stories.EXAMPLES / f"{story}.out")), title)


def check_docs(is_to_write):
    """Whether the pictures of docs are those that the tool draws."""
    for story, title in DRAWN.items():
        path, text = PICTURES / f"{story}.svg", picture_of(story, title)
        if is_to_write:
            path.parent.mkdir(exist_ok=True)
            path.write_text(text)
        assert path.exists() and path.read_text() == text, f"{path} isn't what tools/to_chart.py draws: tools/charts_check.py --write draws it anew"


def test_charts():
    assert sum(map(check_story, stories.transcripts())) > 4000


def test_wrong_inputs():
    stories.check_wrong_inputs("to_chart", WRONG, "-")


def test_docs():
    check_docs(is_to_write=False)


if __name__ == "__main__":
    program.prepare()
    if sys.argv[1:] == ["--write"]:
        check_docs(is_to_write=True)
    sys.exit(checks.run(__file__))
