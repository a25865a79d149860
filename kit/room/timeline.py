"""`room timeline`: the timeline of a list alone, as a page or a drawing."""

from __future__ import annotations

import argparse
from typing import Tuple

from room.cli import rate_argument
from room.errors import NOTHING_TO_DO, KitError, printable
from room.files import read_bytes, write_new
from room.report import free_name, refuse_taken
from room.station import DONE, EventTable, Station, event_table

NAME = "timeline"
HELP = "Draws the timeline of a list, before there is a project or a scan, as HTML or SVG."
MORE = """\
FILE is a new file; one that ends in .svg is a drawing. Without -o it is LIST's name with `.timeline.html`, or with
`.timeline.svg` for --svg, in the current folder, and a number before that where the name is taken.

status: 0 written; 2 the list can't be read, or is refused: `./room check` says more"""


def add_arguments(parser: argparse.ArgumentParser) -> None:
    parser.add_argument("list", metavar="LIST", help="the edit list, or - for standard input")
    parser.add_argument("rate", metavar="RATE", type=rate_argument, help="23.976, 24, 25, 29.97 or 30")
    parser.add_argument("-o", dest="output", metavar="FILE", help="write into this new file")
    parser.add_argument("--svg", action="store_true", help="a drawing, and no page")


def run(arguments: argparse.Namespace) -> int:
    from room.report.markup import size_in_words

    is_drawing = arguments.svg or (arguments.output or "").lower().endswith(".svg")
    output = arguments.output or free_name("list" if arguments.list == "-" else arguments.list, ".timeline.svg" if is_drawing else ".timeline.html")
    refuse_taken(output)
    answer = Station().list_bytes(read_bytes(arguments.list), arguments.rate)
    if answer.status != DONE:
        raise KitError(f"{printable(arguments.list)}: {answer.last}: `./room check` says more")
    written = (svg_of if is_drawing else html_of_list)(arguments.list, event_table(answer)).encode("utf-8", "replace")
    write_new(output, written)
    print(f"wrote {printable(output)}, {size_in_words(len(written))}")
    return NOTHING_TO_DO


def html_of_list(path: str, table: EventTable) -> str:
    """The page: timeline and events."""
    from room.project_file import Project
    from room.report import tables
    from room.report.markup import count, text
    from room.report.page import Page, data_of, html_of, timeline_part
    from room.report.record import record_of
    from room.report.state import State
    from room.report.timeline import Marks
    from pathlib import Path

    record = record_of(table, [])
    state = State(Project(path, Path("."), b"", table.rate, 1, 1, path), table=table, record=record)
    mode = "drop-frame" if table.is_drop else "non-drop"
    words = f"{count(len(table.events), 'event')}, {count(record.count, 'frame')}, {record.label(0)} to {record.label(record.count - 1)}, at {table.rate} {mode}"
    page = Page(f"{Path(path).name}: timeline", head=f"<p>{text(words)}</p>", data=data_of(record))
    page.add("timeline", "Timeline", timeline_part(record, Marks()))
    page.add("events", "Events", tables.events(state, set()))
    return html_of(page)


def svg_of(path: str, table: EventTable) -> str:
    """The drawing alone: the rows below one another, in the colours of the page."""
    from room.report.page import asset
    from room.report.record import record_of
    from room.report.timeline import HEIGHT, PATTERNS, WIDTH, Marks, rows_of

    rows = rows_of(record_of(table, []), Marks())
    width, height = _size(WIDTH, HEIGHT, len(rows))
    parts = [str(row).replace("<svg ", f'<svg x="10" y="{10 + place * (HEIGHT + 8)}" width="{WIDTH}" height="{HEIGHT}" ', 1) for place, row in enumerate(rows)]
    css = asset("report.css").replace("<", "&lt;").replace(">", "&gt;")
    return (
        f'<svg xmlns="http://www.w3.org/2000/svg" viewBox="0 0 {width} {height}" width="{width}" height="{height}" class="drawing">'
        f'<style>{css}</style>{PATTERNS}<rect width="{width}" height="{height}" style="fill:var(--panel)"/>{"".join(parts)}</svg>\n'
    )


def _size(width: int, height: int, rows: int) -> Tuple[int, int]:
    return width + 20, rows * (height + 8) + 12
