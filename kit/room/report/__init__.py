"""`room report`: one HTML file of a project, its reel and what the station says of both."""

from __future__ import annotations

import argparse
import gc
from pathlib import Path
from typing import TYPE_CHECKING, Optional, Tuple

from room.errors import NOTHING_TO_DO, TO_DECIDE, KitError, printable
from room.files import write_new
from room.station import Station

if TYPE_CHECKING:
    from room.report.state import State

NAME = "report"
HELP = "Writes a page of a project to look at: state, timeline, pictures, levels, differences, events and pull list."
MORE = """\
The page is one HTML file that needs nothing else. Without -o it is PROJECT's name with `.report.html`, in the current
folder, and a number before that where the name is taken. Without --fast every frame that is done is read twice, by
`verify` and by `qc`; how far that is stands on standard error where that is a terminal.

status: 0 the page is written; 1 it is, and shows what a person has to decide: a refusal, damage, another job's reel,
a ledger that is bad; 2 the project can't be read, or the page can't be written"""


def add_arguments(parser: argparse.ArgumentParser) -> None:
    parser.add_argument("project", metavar="PROJECT", help="the project's file")
    parser.add_argument("-o", dest="output", metavar="FILE", help="write into this new file")
    parser.add_argument("--old", metavar="PROJECT", help="an old project: what the new one changes is shown too")
    parser.add_argument("--fast", action="store_true", help="ask nothing that reads all frames: no levels, nothing verified")
    parser.add_argument("--linear", action="store_true", help="show the codes as they are, without the curve of `sheet`")


def run(arguments: argparse.Namespace) -> int:
    from room.report.markup import size_in_words
    from room.report.state import is_to_decide

    output = arguments.output or free_name(arguments.project, ".report.html")
    refuse_taken(output)
    data, state = made(arguments.project, arguments.old, arguments.fast, arguments.linear)
    write_new(output, data)
    print(f"wrote {printable(output)}, {size_in_words(len(data))}")
    return TO_DECIDE if is_to_decide(state) else NOTHING_TO_DO


def made(path: str, old: Optional[str], is_fast: bool, is_linear: bool, reload: int = 0) -> Tuple[bytes, State]:
    """The page's bytes, and the state that it shows."""
    from room.report.differences import differences_of
    from room.report.page import html_of, page_of
    from room.report.state import state_of

    # All that is made is kept until the page is written: looking for what isn't takes a seventh of the time.
    gc.disable()
    try:
        station = Station()
        state = state_of(path, station, is_fast)
        page = page_of(state, differences_of(state, old, station) if old else None, is_linear)
        page.reload = reload
        return html_of(page).encode("utf-8", "replace"), state
    finally:
        gc.enable()


def free_name(path: str, ending: str) -> str:
    """A name in the current folder that isn't taken, after the file that is shown."""
    stem = Path(path).stem or "page"
    name = stem + ending
    number = 2
    while Path(name).exists():
        name = f"{stem}.{number}{ending}"
        number += 1
    return name


def refuse_taken(path: str) -> None:
    """Says at once that a file is there, and not when the reel has been read."""
    if Path(path).exists():
        raise KitError(f"{printable(path)} is there already, and nothing is written over")
