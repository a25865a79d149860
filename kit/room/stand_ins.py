"""`room stand-ins`: stand-ins for the scans of a project."""

from __future__ import annotations

import argparse
import os
from pathlib import Path

from room.dpx import HEAD, stand_in_head
from room.errors import NOTHING_TO_DO, KitError, printable
from room.files import make_folder, read_bytes, write_new
from room.project_file import Project, Reel, read_project

NAME = "stand-ins"
HELP = "Makes a folder with a project and a stand-in for each frame of its reels, so that it can be planned before its scans are there."
MORE = """\
The new folder gets copies of the project, its list and its cube at the paths that they have here, and a file
for each frame. A stand-in has the head of a black scan of the project's size, and is as long as one; behind
its head it takes no room on the disk. Nothing is put into the project's own folder. Then:

    cd FOLDER
    conform pull PROJECT MARGIN

status: 0 made; 2 something can't be read, is there already, or leads out of the folder"""


def add_arguments(parser: argparse.ArgumentParser) -> None:
    parser.add_argument("project", metavar="PROJECT", help="the project's file")
    parser.add_argument("folder", metavar="FOLDER", help="a folder that isn't there yet")


def run(arguments: argparse.Namespace) -> int:
    project = read_project(arguments.project)
    folder = Path(arguments.folder)
    texts = [project.path_in_base, project.edl] + ([project.cube] if project.cube else [])
    for text in texts:
        if not is_within(text):
            raise KitError(f"{printable(text)} leads out of the folder")
    for reel in project.reels:
        if not is_within(reel.prefix):
            raise KitError(f"reel {printable(reel.name)}: the prefix leads out of the folder")
    copies = [(text, read_bytes(str(project.base / text))) for text in texts if text != project.cube or (project.base / text).is_file()]
    make_folder(folder)
    for text, data in copies:
        (folder / text).parent.mkdir(parents=True, exist_ok=True)
        write_new(str(folder / text), data)
    print(f"{sum(make_reel(project, reel, folder) for reel in project.reels)} stand-ins")
    return NOTHING_TO_DO


def is_within(path: str) -> bool:
    """Whether a path doesn't lead out of the folder that it begins in."""
    return not os.path.isabs(path) and ".." not in path.split("/")


def make_reel(project: Project, reel: Reel, folder: Path) -> int:
    """The stand-ins of a reel, and how many they are. One that another reel has made already stays."""
    head = stand_in_head(project.width, project.height)
    size = HEAD + 4 * project.width * project.height
    (folder / f"{reel.prefix}x").parent.mkdir(parents=True, exist_ok=True)
    for frame in range(reel.first, reel.end):
        try:
            with open(folder / reel.path_of(frame), "xb") as file:
                file.write(head)
                file.truncate(size)
        except FileExistsError:
            continue
    return reel.frames

