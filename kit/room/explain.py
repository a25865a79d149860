"""`room explain`: an answer of the station, with what the project adds to it."""

from __future__ import annotations

import argparse
import difflib
import os
import re
import sys
from typing import Any, Callable, Dict, List

from room.dpx import read_head
from room.errors import NOTHING_TO_DO, TO_DECIDE, KitError, printable
from room.files import read_bytes
from room.findings import Finding, shown_line
from room.keep import FOLDER, kept_differences
from room.list_text import lines_of
from room.page import keys_of_project
from room.project_file import REEL_KEYS, TOP_KEYS, Project, TomlError, key_lines, parse, read_project, reel_lines
from room.station import Refusal, refusal_of
from room.taken import Refused, read_list

NAME = "explain"
HELP = "Says what a project adds to an answer of the station: the line, the path, the key, and what is there."
MORE = """\
LINE is the answer as it was printed, such as `refused 15.2 line 4 reel A001 frame 86404`; without it, lines are
read from standard input, and what is no answer is passed over. What the answer means in general, ./explain says.

status: 0 something was said; 1 these words are no answer, or there is nothing to add; 2 the project can't be read"""


def add_arguments(parser: argparse.ArgumentParser) -> None:
    parser.add_argument("project", metavar="PROJECT", help="the project's file")
    parser.add_argument("line", metavar="LINE", nargs="*", help="the words of an answer")


def run(arguments: argparse.Namespace) -> int:
    lines = [" ".join(arguments.line)] if arguments.line else sys.stdin.read(1 << 22).splitlines()
    said = False
    for line in lines:
        for row in explain(arguments.project, line.strip()):
            print(row)
            said = True
    if not said:
        print("room explain: there is nothing that the project adds to this", file=sys.stderr)
    return NOTHING_TO_DO if said else TO_DECIDE


def explain(path: str, line: str) -> List[str]:
    """What the project adds to an answer, in rows; none where it is no answer, or nothing is known."""
    # (of an old project the user names that one)
    words = line[4:] if line.startswith("old ") else line
    refused = refusal_of(line)
    if refused is not None:
        return of_refusal(path, refused)
    if words.startswith("other job "):
        return of_other_job(path)
    if words.startswith("changed reel "):
        parts = words.split(" ")
        return of_scan(path, Refusal("15.2", reel=parts[2], frame=int(parts[4]))) if len(parts) == 5 and parts[4].lstrip("-").isdigit() else []
    if words == "source fault":
        return of_source_fault(path)
    if words.startswith("bad ledger "):
        return of_ledger(path)
    return []


def of_refusal(path: str, refused: Refusal) -> List[str]:
    """By the refusal's number."""
    section = refused.number.split(".")[0]
    by_section: Dict[str, Callable[[str, Refusal], List[str]]] = {
        "0": of_file, "2": of_list_line, "3": of_list_line, "4": of_list_line, "7": of_list_line,
        "10": of_cube_line, "13": of_reel, "14": of_key, "15": of_job,
    }
    handler = by_section.get(section)
    return handler(path, refused) if handler is not None else []


def of_file(path: str, refused: Refusal) -> List[str]:
    """0.1: which path was tried, and what is there in its place."""
    if refused.file == "project" or refused.file == "frame":
        return near_files(path)
    project = read_project_as_far(path)
    key = "edl" if refused.file == "list" else "cube"
    value = project.get(key)
    if not isinstance(value, str):
        return [f"the project has no text for its key {key}"]
    line = key_lines(read_bytes(path), key)
    rows = [f"{path}:{line[0] if line else 0}: {key} = \"{value}\""]
    own = os.path.join(os.path.dirname(path), value)
    if not os.path.isabs(value) and not os.path.exists(value) and os.path.exists(own):
        return rows + [f"paths are relative to the current folder ({os.getcwd()}); {own} is there: change to the project's folder first"]
    return rows + near_files(value)


def near_files(path: str) -> List[str]:
    """Whether the folder is there, and files whose names are nearly this one."""
    folder = os.path.dirname(path) or "."
    if os.path.lexists(path):
        return [f"{path} is there now" if os.path.exists(path) else f"{path} is a link that leads nowhere"]
    if not os.path.isdir(folder):
        return [f"{path}: its folder {folder} isn't there" if folder != "." else f"{path} isn't there"]
    name = os.path.basename(path)
    names = os.listdir(folder)
    alike = [other for other in names if other.lower() == name.lower()] or difflib.get_close_matches(name, names, 3)
    rows = [f"{path}: its folder is there, the file isn't"]
    return rows + [f"there is {os.path.join(folder, other) if folder != '.' else other}" for other in sorted(alike)[:3]]


def read_project_as_far(path: str) -> Dict[str, Any]:
    """The table of a project, whatever is wrong with its values."""
    try:
        return parse(read_bytes(path))
    except TomlError as error:
        raise KitError(f"{printable(path)}:{error.line}:{error.column}: it is no TOML: {error}") from None


def of_list_line(path: str, refused: Refusal) -> List[str]:
    """The list's line with a caret, what the kit can add to it, and for 7.1 both lines."""
    project = read_project(path)
    name = str(project.base / project.edl)
    data = project.list_bytes()
    lines = lines_of(data)
    reading = read_list(lines, project.rate, len(data))
    rows: List[str] = []
    for number in [n for n in (refused.with_line, refused.line) if n]:
        if number > len(lines):
            continue
        own = next((r for r in reading.refused if (r.number, r.line) == (refused.number, number)), Refused("", number))
        rows.append(f"{printable(name)}:{number}:" + (f" {own.added}" if own.added else ""))
        rows += shown_line(Finding(number, "", "", lines[number - 1].text, own.column, own.width))
    if refused.line == 0:
        rows += [f"{printable(name)}: {r.added}" for r in reading.refused if r.number == refused.number and r.added]
        rows = rows or [f"{printable(name)}: {len(lines)} lines, {len(reading.events)} picture lines taken, {len(reading.sound_lines)} passed over as sound"]
    return rows


def of_cube_line(path: str, refused: Refusal) -> List[str]:
    """The cube's line."""
    project = read_project(path)
    if project.cube is None or not refused.line:
        return [f"the cube is {project.cube}"] if project.cube else []
    name = str(project.base / project.cube)
    rows = read_bytes(name).split(b"\n", refused.line)
    text = rows[refused.line - 1].decode("utf-8", "replace").rstrip("\r") if len(rows) >= refused.line else ""
    return [f"{printable(name)}:{refused.line}:"] + shown_line(Finding(refused.line, "", "", text))


def of_reel(path: str, refused: Refusal) -> List[str]:
    """13.1 and 13.2: the reel's table, and the other one of its name."""
    data = read_bytes(path)
    tables = read_project_as_far(path).get("reel", [])
    place = (refused.place or 1) - 1
    if not isinstance(tables, list) or place >= len(tables):
        return []
    lines = reel_lines(data)
    table = tables[place]
    line = lines[place] if place < len(lines) else 0
    keys = ", ".join(f"{key} {table.get(key, '(none)')}" for key in ("start", "frames", "file"))
    rows = [f"{path}:{line}: reel {table.get('name')}, {keys}"]
    same = [k for k in range(place) if tables[k].get("name") == table.get("name")]
    return rows + [f"{path}:{lines[k]}: the reel of this name before it" for k in same if k < len(lines)]


def of_key(path: str, refused: Refusal) -> List[str]:
    """14: the text's line and column, the key's value, or the keys that aren't known."""
    data = read_bytes(path)
    try:
        table = parse(data)
    except TomlError as error:
        row = data.split(b"\n")[error.line - 1 : error.line]
        text = row[0].decode("utf-8", "replace").rstrip("\r") if row else ""
        return [f"{printable(path)}:{error.line}:{error.column}: {error}"] + shown_line(Finding(0, "", "", text, max(error.column - 1, 0), 1))
    unknown = unknown_keys(path, data, table)
    if refused.number == "14.5":
        return unknown
    name = keys_of_project().get(refused.key or 0)
    if name is None:
        return unknown
    return of_known_key(path, data, table, refused, name) + unknown


def of_known_key(path: str, data: bytes, table: Dict[str, Any], refused: Refusal, name: str) -> List[str]:
    """A key that is missing or has a wrong value: where it is or should be."""
    tables = table.get("reel", [])
    place = (refused.place or 0) - 1
    holder = tables[place] if place >= 0 and isinstance(tables, list) and place < len(tables) else table
    lines = reel_lines(data)
    where = f"the reel at line {lines[place]}" if 0 <= place < len(lines) else "the top of the project"
    if isinstance(holder, dict) and name in holder:
        first = lines[place] if 0 <= place < len(lines) else 0
        line = next((number for number in key_lines(data, name) if number > first), 0)
        return [f"{printable(path)}:{line}: in {where}: {name} = {holder[name]!r}"]
    rows = [f"{printable(path)}: {where} has no key {name}"]
    behind = [number for number in key_lines(data, name) if lines and number > lines[0]]
    if place < 0 and behind:
        rows.append(f"{printable(path)}:{behind[0]}: there it stands, behind a [[reel]], so it is that reel's: put it above line {lines[0]}")
    return rows


def unknown_keys(path: str, data: bytes, table: Dict[str, Any]) -> List[str]:
    """Keys that a project doesn't have, with the name that is nearly theirs."""
    rows: List[str] = []
    tables = table.get("reel", [])
    holders = [(table, TOP_KEYS)] + [(each, REEL_KEYS) for each in (tables if isinstance(tables, list) else []) if isinstance(each, dict)]
    seen = set()
    for holder, known in holders:
        for key in holder:
            if key in known or key in seen:
                continue
            seen.add(key)
            near = difflib.get_close_matches(key, known, 1)
            line = key_lines(data, key)
            other = TOP_KEYS if known is REEL_KEYS else REEL_KEYS
            hint = f"; did you mean {near[0]}?" if near else "; it is a key of the top, above the first [[reel]]" if key in other and known is REEL_KEYS else ""
            rows.append(f"{printable(path)}:{line[0] if line else 0}: the key {printable(key)} isn't known{hint}")
    return rows


def of_job(path: str, refused: Refusal) -> List[str]:
    """15: reels, scans and cuts."""
    if refused.number == "15.5":
        project = read_project(path)
        place = (refused.cut or 1) - 1
        return [f"cut {refused.cut} is \"{project.cuts[place]}\""] if place < len(project.cuts) else []
    rows = of_list_line(path, refused)
    if refused.number == "15.1":
        return rows + of_lacking_reel(path, refused)
    return rows + of_scan(path, refused)


def of_lacking_reel(path: str, refused: Refusal) -> List[str]:
    """15.1: the reel that the list's line has, and the reels that there are."""
    project = read_project(path)
    taken = [event for event in read_list(lines_of(project.list_bytes()), project.rate).events if event.line == refused.line]
    name = taken[0].reel if taken else "?"
    names = [reel.name for reel in project.reels]
    if name.upper() == "AX":
        return ["the reel is AX: that is no tape, and may stand for several files: `./room rewrite` names reels by their clips"]
    alike = [other for other in names if other.lower() == name.lower()] or difflib.get_close_matches(name, names, 1)
    return [f"the reel is {name}; the project has {', '.join(names[:20]) or 'none'}"] + [f"did you mean {other}?" for other in alike]


def of_scan(path: str, refused: Refusal) -> List[str]:
    """The path of the scan, whether folder and file are there, and both sizes."""
    project = read_project(path)
    reel = project.reel(refused.reel or "")
    if reel is None or refused.frame is None:
        return []
    counting = reel.counting(project.rate)
    if not reel.first <= refused.frame < reel.end:
        held = f"{counting.label(reel.first)} to {counting.label(reel.end - 1)}"
        return [f"{path}:{reel.line}: reel {reel.name} has {held} ({reel.frames} frames), and frame {refused.frame} is {counting.label(refused.frame)}"]
    scan = reel.path_of(refused.frame)
    rows = [f"{path}:{reel.line}: reel {reel.name}, frame {refused.frame}, {counting.label(refused.frame)}: {scan}"]
    head = read_head(str(project.base / scan))
    if head is None:
        return rows + near_scans(project, scan)
    if head.trouble is not None:
        return rows + [f"it can't be read: {head.trouble}"]
    if refused.number == "15.4":
        return rows + [f"the scan has {head.width} by {head.height} pixels, the project {project.width} by {project.height}"]
    return rows + [f"it is there now; its head has {'the fault ' + head.fault if head.fault else 'no fault'}"]


def near_scans(project: Project, scan: str) -> List[str]:
    """A scan that isn't there: its folder, and a file of its kind that is there."""
    folder = os.path.dirname(str(project.base / scan)) or "."
    if not os.path.isdir(folder):
        parent, name = os.path.split(folder.rstrip("/"))
        alike = [other for other in os.listdir(parent or ".") if other.lower() == name.lower()] if os.path.isdir(parent or ".") else []
        hints = [f"there is {os.path.join(parent, other)}, which differs in capitals" for other in alike]
        if scan.startswith("~"):
            hints.append("a ~ isn't the home folder in a project: write the whole path")
        return [f"the folder {folder} isn't there"] + hints
    names = sorted(name for name in os.listdir(folder) if name.lower().endswith(".dpx"))
    rows = ["its folder is there, the file isn't" + (f"; the folder has {len(names)} DPX files, {names[0]} to {names[-1]}" if names else "; the folder has no DPX file")]
    stem = re.escape(os.path.basename(scan)[:-11])
    if names and not any(re.fullmatch(stem + r"[0-9]{7}\.dpx", name) for name in names):
        rows.append("none of them is named by the prefix, seven digits and .dpx")
    return rows


def of_other_job(path: str) -> List[str]:
    """Which of project, list and cube differs from what `keep` kept."""
    project = read_project(path)
    rows = kept_differences(project)
    if rows is None:
        return [f"nothing is kept beside the reel folder: `./room keep` before a run lets this be told ({project.base / FOLDER})"]
    return rows or ["project, list and cube are those that were kept: the reel folder is of another job than the kept one"]


def of_source_fault(path: str) -> List[str]:
    """Which of the files can't be read."""
    rows: List[str] = []
    try:
        project = read_project(path)
    except KitError as error:
        return [str(error)]
    for name in [project.edl] + ([project.cube] if project.cube else []):
        try:
            read_bytes(str(project.base / name))
        except KitError as error:
            rows.append(str(error))
    for reel in project.reels:
        head = read_head(str(project.base / reel.path_of(reel.first)))
        if head is not None and head.trouble is not None:
            rows.append(head.trouble)
    return rows or ["project, list, cube and the first scan of each reel can be read: `./room scans` looks at all of them"]


def of_ledger(path: str) -> List[str]:
    """What lies in the reel folder."""
    folder = read_project(path).base / "conform.out"
    names = sorted(name for name in os.listdir(folder) if name.startswith("conform.")) if folder.is_dir() else []
    return [f"{folder / name}: {os.path.getsize(folder / name)} bytes" for name in names] or [f"{folder} has no ledger"]
