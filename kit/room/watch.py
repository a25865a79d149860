"""`room watch`: the page of a project, written anew while a run goes on."""

from __future__ import annotations

import argparse
import os
import time
from pathlib import Path
from typing import Tuple

from room.errors import NOTHING_TO_DO, TO_DECIDE, KitError, printable, system_words
from room.report import made
from room.station import BAD_LEDGER, Station

NAME = "watch"
HELP = "Writes the page of a project anew while a run goes on, at most once in ten seconds, until the reel is done."
MORE = """\
The page is that of `./room report --fast`, in PROJECT's name with `.watch.html` in the current folder, or in FILE. This
command alone replaces a file, and only one that it has written itself; a reader never finds half of it. It serves
nothing: open the file, and reload it, or let --reload have the browser do so. Ctrl-C ends it.

status: 0 the reel is done; 1 the station refuses the job, or the reel is another job's; 2 the project can't be read,
or the page can't be written"""

EVERY = 10.0
# A ledger is half written for a moment as a run begins.
PATIENCE = 3
MARK = b"<!-- written by room watch, which writes over this file -->\n"


def add_arguments(parser: argparse.ArgumentParser) -> None:
    parser.add_argument("project", metavar="PROJECT", help="the project's file")
    parser.add_argument("-o", dest="output", metavar="FILE", help="write into this file, which isn't there or is an earlier watch's")
    parser.add_argument("--linear", action="store_true", help="show the codes as they are, without the curve of `sheet`")
    parser.add_argument("--reload", action="store_true", help="have the browser read the page again each ten seconds")


def run(arguments: argparse.Namespace) -> int:
    from room.report.page import frames_in_words
    from room.report.state import is_to_decide

    output = Path(arguments.output or Path(arguments.project).stem + ".watch.html")
    refuse_others(output)
    seen: Tuple[object, ...] = ()
    bad = 0
    while True:
        begun = time.monotonic()
        data, state = made(arguments.project, None, True, arguments.linear, int(EVERY) if arguments.reload else 0)
        status = state.asked.get("status")
        bad = bad + 1 if status is not None and status.answer.status == BAD_LEDGER else 0
        is_over = (is_to_decide(state) and not 0 < bad < PATIENCE) or state.is_whole
        if is_over and arguments.reload:
            data = data.replace(b'<meta http-equiv="refresh" content="10">', b"")
        now = (state.acknowledged, is_to_decide(state), is_over)
        if now != seen:
            replace(output, data)
            print(f"{time.strftime('%H:%M:%S')} wrote {printable(str(output))}: {frames_in_words(state)}", flush=True)
            seen = now
        if is_over:
            return TO_DECIDE if is_to_decide(state) else NOTHING_TO_DO
        time.sleep(max(EVERY - (time.monotonic() - begun), 0.1))


def refuse_others(path: Path) -> None:
    """A file that this command hasn't written stays."""
    if not os.path.lexists(path):
        return
    try:
        with open(path, "rb") as file:
            is_own = file.read(400).find(MARK) >= 0
    except OSError as error:
        raise KitError(system_words(error)) from None
    if not is_own:
        raise KitError(f"{printable(str(path))} is there already, and isn't what an earlier watch wrote: it stays")


def replace(path: Path, data: bytes) -> None:
    """Puts the page in its place at once: a reader finds the old one or the new one."""
    refuse_others(path)
    begun = path.with_name(f".{path.name}.{os.getpid()}")
    head, rest = data.split(b"\n", 1)
    try:
        with open(begun, "xb") as file:
            file.write(head + b"\n" + MARK + rest)
        os.replace(begun, path)
    except OSError as error:
        begun.unlink(missing_ok=True)
        raise KitError(system_words(error)) from None
