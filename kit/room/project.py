"""`room project`: the project of a list, with the scans that lie below folders."""

from __future__ import annotations

import argparse
import os
import re
import sys
from collections import Counter
from dataclasses import dataclass, field
from pathlib import Path
from typing import Dict, List, Set, Tuple

from room.cli import rate_argument
from room.errors import NOTHING_TO_DO, TO_DECIDE, KitError, printable
from room.files import put, read_bytes
from room.findings import Finding, put_heads
from room.list_text import lines_of
from room.needs import modes_of, ranges_of, reckoned
from room.sequences import Match, Scans, find_sequences, matches_of
from room.station import DONE, EventTable, Station, event_table
from room.timecode import Counting
from room.view import FILE_REELS

NAME = "project"
HELP = "Writes a project for a list: finds its scans below folders, and marks what it couldn't find."
MORE = """\
The project goes to standard output, or to a FILE that isn't there yet; its paths are relative to the current
folder, or to FILE's. A reel is found by its name in folders and files, and by the timecode of DPX heads. A
key that couldn't be found stands there as a note, so that the station refuses the project by that key.
Files that aren't named as the station reads them get a prefix below `links`: `./room link` makes the links.

status: 0 everything was found; 1 something is marked; 2 the list or a folder can't be read"""

LINKS = "links"


@dataclass
class Table:
    """A `[[reel]]` table as it is written: rows of keys, notes above it, and what is to be said of it."""

    rows: List[str] = field(default_factory=list)
    notes: List[str] = field(default_factory=list)
    said: List[str] = field(default_factory=list)
    sizes: List[Tuple[int, int]] = field(default_factory=list)


def add_arguments(parser: argparse.ArgumentParser) -> None:
    parser.add_argument("list", metavar="LIST", help="the edit list")
    parser.add_argument("rate", metavar="RATE", type=rate_argument, help="23.976, 24, 25, 29.97 or 30")
    parser.add_argument("folders", metavar="FOLDER", nargs="+", help="where scans lie, at any depth")
    parser.add_argument("-o", dest="output", metavar="FILE", help="write into this new file")


def run(arguments: argparse.Namespace) -> int:
    data = read_bytes(arguments.list)
    answer = Station().list_bytes(data, arguments.rate)
    if answer.status != DONE:
        raise KitError(f"{printable(arguments.list)}: {answer.last}: `./room check` says more, and `./room rewrite` may mend it")
    base = Path(arguments.output).parent if arguments.output else Path(".")
    sequences = find_sequences(arguments.folders)
    text, findings = project_text(arguments.list, data, event_table(answer), sequences, base)
    put(arguments.output, text.encode("utf-8"))
    put_heads(arguments.list, findings, sys.stderr)
    return TO_DECIDE if any(finding.is_to_decide for finding in findings) else NOTHING_TO_DO


def project_text(path: str, data: bytes, table: EventTable, sequences: List[Scans], base: Path) -> Tuple[str, List[Finding]]:
    """The project's text, and what couldn't be found."""
    findings: List[Finding] = []
    frames_of = reckoned(table, modes_of(table))
    first_lines: Dict[str, int] = {}
    for event in table.events:
        first_lines.setdefault(event.reel, event.line)
    tables: List[Table] = []
    for name in sorted(frames_of, key=lambda name: first_lines[name]):
        counting = Counting(table.rate, _is_drop(table, name, findings))
        made = reel_table(name, frames_of[name], counting, sequences, base)
        if name.upper() in FILE_REELS:
            made.said.append("it is no tape, and may stand for several files: `./room rewrite` gives each its clip's name")
        findings += [Finding(first_lines[name], "warning", f"reel {name}: {said}") for said in made.said]
        tables.append(made)
    rows = top_rows(path, data, table, [size for made in tables for size in made.sizes], base, findings)
    for made in tables:
        rows += [""] + [f"# {note}" for note in made.notes] + ["[[reel]]"] + made.rows
    return "".join(row + "\n" for row in rows), findings


def _is_drop(table: EventTable, name: str, findings: List[Finding]) -> bool:
    """How a reel's labels count, by those of its events."""
    lines = {";" in event.source_in: event.line for event in table.events if event.reel == name}
    if len(lines) > 1:
        findings.append(Finding(max(lines.values()), "warning", f"reel {name} is counted with drop-frame and without: one of them is wrong"))
    return True in lines


def top_rows(path: str, data: bytes, table: EventTable, sizes: List[Tuple[int, int]], base: Path, findings: List[Finding]) -> List[str]:
    """The keys before the reels."""
    rows = ["# Written by `./room project`. Read it before you run: the station decides.", f'title = "{_title(data)}"', f"rate = {table.rate}"]
    if sizes:
        (width, height), _ = Counter(sizes).most_common(1)[0]
        rows += [f"width = {width}", f"height = {height}"]
        others = sorted({f"{w} by {h}" for w, h in sizes if (w, h) != (width, height)})
        if others:
            findings.append(Finding(0, "warning", f"most scans have {width} by {height} pixels, and others {', '.join(others)}"))
    else:
        rows += ["# width = 0     NOT FOUND: no scan's head was read", "# height = 0"]
        findings.append(Finding(0, "warning", "no scan was found, so width and height are marked"))
    edl = _relative(path, base)
    if _is_path(edl, 255):
        return rows + [f'edl = "{_quoted(edl)}"']
    findings.append(Finding(0, "warning", "the list's path isn't 1 to 255 printing ASCII characters: give it another name"))
    return rows + ["# edl = \"\"     NOT SAID: its path isn't 1 to 255 printing ASCII characters"]


def _title(data: bytes) -> str:
    """The list's title, as far as a project takes it."""
    for line in lines_of(data)[:50]:
        text = line.text.strip(" \t")
        if text.startswith("TITLE:"):
            return _quoted(re.sub("[^ -~]", "_", text[6:].strip(" \t"))[:199])
    return ""


def reel_table(name: str, frames: Set[int], counting: Counting, sequences: List[Scans], base: Path) -> Table:
    """The table of a reel."""
    made = Table(rows=[f'name = "{_quoted(name)}"'])
    ranges = ranges_of(frames)
    inside = sorted(frame for frame in frames if 0 <= frame < counting.frames_in_day)
    first, last = (inside[0], inside[-1]) if inside else (0, 0)
    made.notes.append(f"The list wants {len(frames)} frames, from {counting.label(first)} to {counting.label(last)}, in {len(ranges)} {'range' if len(ranges) == 1 else 'ranges'}.")
    matches = matches_of(name, frames, counting, sequences)
    if not matches:
        made.notes.append("NOT FOUND: no folder or file is called so, and no head's timecode fits.")
        made.rows += [f'# prefix = ""', f'# start = "{counting.label(first)}"', f"# frames = {last - first + 1}"]
        made.said.append("no scans were found; its keys are marked, and the station refuses the project by them")
    else:
        _fill(made, name, frames, counting, matches, base)
    if counting.is_drop:
        made.rows.append("drop = true")
    return made


def _fill(made: Table, name: str, frames: Set[int], counting: Counting, matches: List[Match], base: Path) -> None:
    """The keys of a reel whose scans were found."""
    for match in matches:
        head = match.sequence.head
        made.notes.append(f"{printable(match.sequence.spelled)}: {match.sequence.count} files, {match.how}")
        if head is not None and head.width and head.fault not in ("8.1", "8.12"):
            made.sizes.append((head.width, head.height))
        if head is not None and head.fault is not None:
            made.said.append(f"{match.sequence.path(0)} isn't read by the station ({head.fault})")
    known = [match for match in matches if match.first_frame is not None]
    if len(matches) == 1 and _is_named_well(matches[0].sequence, base):
        _direct(made, matches[0], counting, base)
    else:
        plain_name = re.sub(r"[^A-Za-z0-9_.-]", "_", name)
        made.notes.append("These names aren't read as they are: `./room link PROJECT FOLDER` makes links under the prefix.")
        made.rows.append(f'prefix = "{LINKS}/{plain_name}/{plain_name}."')
        _span(made, known, counting)
    if known and not any(m.first_frame is not None and any(m.first_frame <= f < m.first_frame + m.sequence.count for f in frames) for m in known):
        made.said.append("none of the frames that the list wants is among its scans by their timecode")
    if any(match.how == "by timecode alone" for match in matches):
        made.said.append(f"its scans are known by timecode alone: look at {matches[0].sequence.path(0)}")


def _direct(made: Table, match: Match, counting: Counting, base: Path) -> None:
    """One sequence that the station reads as it lies there."""
    made.rows.append(f'prefix = "{_quoted(_relative(match.sequence.prefix, base))}"')
    if match.first_frame is None:
        _mark_start(made)
        made.rows += [f"frames = {match.sequence.count}", f"file = {match.sequence.first}"]
        return
    made.rows += [f'start = "{counting.label(match.first_frame)}"', f"frames = {match.sequence.count}"]
    if match.sequence.first != match.first_frame:
        made.rows.append(f"file = {match.sequence.first}")


def _span(made: Table, known: List[Match], counting: Counting) -> None:
    """The range of frames that several sequences have together."""
    if not known:
        _mark_start(made)
        made.rows.append("# frames = 0")
        return
    first = min(match.first_frame or 0 for match in known)
    end = max((match.first_frame or 0) + match.sequence.count for match in known)
    made.rows += [f'start = "{counting.label(first)}"', f"frames = {end - first}"]


def _mark_start(made: Table) -> None:
    made.rows.append('# start = ""     NOT FOUND: the heads tell no timecode, and the numbers are no frames of the list')
    made.said.append("the label of its first scan isn't known; `start` is marked, and the station refuses the project by it")


def _is_named_well(sequence: Scans, base: Path) -> bool:
    return sequence.is_station_named and _is_path(_relative(sequence.prefix, base), 200)


def _is_path(path: str, longest: int) -> bool:
    return re.fullmatch(f"[ -~]{{1,{longest}}}", path) is not None


def _relative(path: str, base: Path) -> str:
    """A path as the project has it: an absolute one stays, another is relative to the project's folder."""
    if os.path.isabs(path):
        return path
    folder, name = os.path.split(path)
    relative = os.path.relpath(os.path.abspath(folder or "."), os.path.abspath(base))
    return name if relative == "." else os.path.join(relative, name)


def _quoted(text: str) -> str:
    return text.replace("\\", "\\\\").replace('"', '\\"')
