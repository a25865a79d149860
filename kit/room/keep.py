"""`room keep`: copies of a project, its list and its cube beside the reel folder."""

from __future__ import annotations

import argparse
import hashlib
import os
import shutil
from dataclasses import dataclass
from pathlib import Path
from typing import List, Optional

from room.errors import NOTHING_TO_DO, TO_DECIDE, KitError, printable
from room.files import read_bytes, write_new
from room.project_file import Project, read_project

NAME = "keep"
HELP = "Copies project, list and cube beside the reel folder, or says which of the three differs from what is kept."
MORE = """\
The copies go into `conform.kept`, beside `conform.out`. Keep a project before its first run: a list that an
editor writes over is then still there, so that `adopt` can be had, and so that `other job` can be explained.
Where `conform.kept` is there, nothing is copied: it is compared. When the reel moves to `conform.old`, move
`conform.kept` aside with it.

status: 0 kept, or the same as what is kept; 1 something differs; 2 the project can't be read"""

FOLDER = "conform.kept"
TABLE = "kept.txt"


@dataclass(frozen=True)
class Kept:
    """One of the three: what it is, the path that it had, the name of its copy, and its SHA-256."""

    what: str
    path: str
    name: str
    digest: str


def add_arguments(parser: argparse.ArgumentParser) -> None:
    parser.add_argument("project", metavar="PROJECT", help="the project's file")


def run(arguments: argparse.Namespace) -> int:
    project = read_project(arguments.project)
    folder = project.base / FOLDER
    if os.path.lexists(folder):
        rows = differences(project)
        for row in rows or [f"{folder} has the same project, list and cube"]:
            print(row)
        return TO_DECIDE if rows else NOTHING_TO_DO
    for kept in keep(project):
        print(f"kept {kept.what} {printable(kept.path)} as {printable(str(folder / kept.name))}")
    return NOTHING_TO_DO


def inputs_of(project: Project) -> List[Kept]:
    """The three texts that make a job, without their copies."""
    paths = [("project", project.path_in_base), ("list", project.edl)]
    if project.cube is not None:
        paths.append(("cube", project.cube))
    found: List[Kept] = []
    for what, path in paths:
        digest = hashlib.sha256(read_bytes(str(project.base / path))).hexdigest()
        name = os.path.basename(path)
        if any(other.name == name for other in found) or name == TABLE:
            name = f"{what}.{name}"
        found.append(Kept(what, path, name, digest))
    return found


def keep(project: Project) -> List[Kept]:
    """Copies them. The folder gets its name when it is whole."""
    inputs = inputs_of(project)
    begun = project.base / f".{FOLDER}.{os.getpid()}"
    begun.mkdir()
    try:
        for kept in inputs:
            write_new(str(begun / kept.name), read_bytes(str(project.base / kept.path)))
        rows = "".join(f"{kept.what}\t{kept.digest}\t{kept.name}\t{kept.path}\n" for kept in inputs)
        write_new(str(begun / TABLE), rows.encode("utf-8", "surrogateescape"))
        os.rename(begun, project.base / FOLDER)
    except BaseException:
        shutil.rmtree(begun, ignore_errors=True)
        raise
    return inputs


def read_kept(base: Path) -> List[Kept]:
    """What is kept, by the table in the folder."""
    path = base / FOLDER / TABLE
    rows = [row.split("\t") for row in read_bytes(str(path)).decode("utf-8", "surrogateescape").splitlines()]
    if any(len(row) != 4 for row in rows):
        raise KitError(f"{path}: it isn't as `./room keep` writes it")
    return [Kept(row[0], row[3], row[2], row[1]) for row in rows]


def differences(project: Project) -> List[str]:
    """Which of the three differs from what is kept, with the first line that does."""
    now = {kept.what: kept for kept in inputs_of(project)}
    rows: List[str] = []
    for old in read_kept(project.base):
        new = now.pop(old.what, None)
        if new is None:
            rows.append(f"the {old.what} is gone: the kept job has {old.path}")
        elif new.digest != old.digest:
            rows.append(f"the {old.what} differs: {printable(new.path)}{_first_difference(project, old, new)}")
    rows += [f"the {kept.what} is new: {kept.path}" for kept in now.values()]
    return rows


def _first_difference(project: Project, old: Kept, new: Kept) -> str:
    """The first line that differs, old and new."""
    before = read_bytes(str(project.base / FOLDER / old.name)).split(b"\n")
    after = read_bytes(str(project.base / new.path)).split(b"\n")
    for place in range(max(len(before), len(after))):
        pair = [_shown(rows[place]) if place < len(rows) else "(no line)" for rows in (before, after)]
        if place >= len(before) or place >= len(after) or before[place] != after[place]:
            return f", first at line {place + 1}: kept `{pair[0]}`, now `{pair[1]}`"
    return ""


def _shown(row: bytes) -> str:
    text = printable(row.decode("utf-8", "replace").rstrip("\r"))
    return text if len(text) <= 100 else text[:98] + ".."


def kept_differences(project: Project) -> Optional[List[str]]:
    """The differences where something is kept."""
    return differences(project) if (project.base / FOLDER).is_dir() else None
