#!/usr/bin/env python3
"""Draws a transcript of `run`, or a range of its events, as a message sequence chart like those of 3GPP's stage 2: one lifeline a unit, time going down.

The chart is one self-contained SVG (the default), an HTML page that filters by UE and bearer (--html), or the text that mscgen draws (--msc). A name that ends with .html or .msc
chooses the form too. Octets are shown where a pointer rests. Rows that repeat are folded; a chart of more than 500 rows is drawn on pages: CHART.svg, CHART-2.svg and so on. docs/lab.md
explains the marks.

Nothing here is proved: a chart shows what a transcript says.

Usage: tools/to_chart.py [--html | --msc] [--events FIRST-LAST] [--ue uU] [--bearer bB] [--all-rows] [--rows N] [--title TEXT] TRANSCRIPT [CHART]      (`-` is standard input or output)
"""

import argparse
import pathlib
import re
import sys

import chart_rows
import chart_svg
import endpoints
import selection
import transcripts

# the rows of a page: a picture of so many opens at once in a browser
ROWS = 500


def msc(chart):
    """The chart as text of mscgen: an arc for each row."""
    lines = ["# Made by tools/to_chart.py from a transcript; not proved.", "msc {", f'  hscale="{max(1, 0.3 * len(chart.nodes)):.1f}", wordwraparcs="0";']
    lines.append("  " + ", ".join(f'"{node}"' for node in chart.nodes) + ";")
    for row in chart.rows:
        if row.label:
            lines.append(f'  --- [label="{quoted(chart_svg.text_of_event(row))}"];')
        if row.content:
            lines.append(f"  {arc(chart, row.content)};")
    return "\n".join([*lines, "}", ""])


def arc(chart, content):
    if isinstance(content, chart_rows.Mark):
        if content.node is None:
            return f'--- [label="{quoted(content.label)}", linecolour="#ffffff"]'
        return f'"{content.node}" note "{content.node}" [label="{quoted(content.label)}"]'
    flight = content.flight
    sign = {"arrives": "=>" if flight.style == "control" else "->", "lost": "-x", "flies": ">>"}[content.end]
    return f'"{flight.ends.sender}" {sign} "{flight.ends.receiver}" [label="{quoted(content.label)}"]'


def quoted(text):
    return text.replace("\\", "\\\\").replace('"', '\\"')


def rows(word):
    """How many rows a page has."""
    if not re.fullmatch("[1-9][0-9]{1,5}", word):
        raise argparse.ArgumentTypeError(f"'{word}' is no number from 10 to 999999")
    return int(word)


def form_of(given):
    if given.html or given.chart.endswith(".html"):
        return "html"
    return "msc" if given.msc or given.chart.endswith(".msc") else "svg"


def drawn(chart, form, title):
    """The text of a chart in a form."""
    if form == "msc":
        return msc(chart)
    return chart_svg.page(chart, title) if form == "html" else chart_svg.picture(chart, title)


def page_name(name, number):
    """The name of a page's file: that of the chart, with a number from the second page on."""
    path = pathlib.Path(name)
    return str(path if number == 1 else path.with_name(f"{path.stem}-{number}{path.suffix}"))


def write(found, given):
    """Draws what is asked for, on as many pages as it needs."""
    chart = chart_rows.make(found, selection.chosen(given, found), not given.all_rows)
    title = given.title or (given.transcript if given.transcript != "-" else "a transcript")
    pages = -(-len(chart.rows) // given.rows)
    if pages > 1 and given.chart == "-":
        raise transcripts.Wrong(0, f"{len(chart.rows)} rows need {pages} pages: name a file, or choose with --events, --ue, --bearer or --rows")
    if not chart.rows:
        raise transcripts.Wrong(0, "nothing of the transcript is chosen")
    for number, page in enumerate(chart_rows.pages_of(chart, given.rows), 1):
        named = title + (f", page {number} of {pages}" if pages > 1 else "")
        transcripts.write_file(page_name(given.chart, number) if pages > 1 else given.chart, drawn(page, form_of(given), named).encode())
    if pages > 1:
        print(f"to_chart: {len(chart.rows)} rows on {pages} pages, {page_name(given.chart, 1)} to {page_name(given.chart, pages)}", file=sys.stderr)


def main():
    asked = transcripts.Asked(__doc__)
    form = asked.add_mutually_exclusive_group()
    form.add_argument("--html", action="store_true", help="an HTML page with a filter")
    form.add_argument("--msc", action="store_true", help="the text that mscgen draws")
    selection.ask(asked)
    asked.add_argument("--all-rows", action="store_true", help="rows that repeat aren't folded")
    asked.add_argument("--rows", type=rows, default=ROWS, metavar="N", help=f"so many rows a page, {ROWS} where nothing else is said")
    asked.add_argument("--title", help="the title; the transcript's name where none is given")
    asked.add_argument("transcript")
    asked.add_argument("chart", nargs="?", default="-")
    given = asked.parse_intermixed_args()
    try:
        write(endpoints.read_with_ends(given.transcript), given)
    except (transcripts.Wrong, OSError) as wrong:
        return transcripts.report("to_chart", given.transcript, wrong)
    return 0


if __name__ == "__main__":
    sys.exit(main())
