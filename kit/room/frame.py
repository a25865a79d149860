"""`room frame`: one frame by any of its names, and its other names."""

from __future__ import annotations

import argparse
import os
import re
from typing import List, Optional

from room.errors import NOTHING_TO_DO, TO_DECIDE, KitError, printable
from room.needs import Job, job_of
from room.project_file import read_project
from room.station import PlanFrame, Side, Station
from room.timecode import Counting, parts_of

NAME = "frame"
HELP = "Turns any name of a frame into all of them: index, label, file, event, and source frames."
MORE = """\
WHICH is one of
  12                       an index from 0, as `qc` and `damaged` have it
  01:00:00:12              a label of the record
  r001.0086412.dpx         a file of the reel, or its number alone
  A001 86410               a reel and the number of a source frame, as `plan` has it
  A001 01:00:00:10         a reel and a label of its own
  a001/a001.0086410.dpx    the path of a scan

status: 0 found; 1 the job has no such frame; 2 the project or its list can't be read"""

REEL_FILE = re.compile(r"(?:.*/)?r([0-9]{3})\.([0-9]{7})\.dpx")
MOST_SHOWN = 20


def add_arguments(parser: argparse.ArgumentParser) -> None:
    parser.add_argument("project", metavar="PROJECT", help="the project's file")
    parser.add_argument("which", metavar="WHICH", nargs="+", help="a frame, in one or two words")


def run(arguments: argparse.Namespace) -> int:
    job = job_of(read_project(arguments.project), Station())
    words = [word for part in arguments.which for word in part.split()]
    found = find_frames(job, words)
    if not found:
        first, last = job.frames[0].label, job.frames[-1].label
        print(f"the job has no frame {printable(' '.join(words))}; it has {len(job.frames)}, from {first} to {last}")
        return TO_DECIDE
    for place, frame in enumerate(found[:MOST_SHOWN]):
        if place:
            print()
        for row in names_of(job, frame):
            print(row)
    if len(found) > MOST_SHOWN:
        print(f"\nand {len(found) - MOST_SHOWN} more frames show it")
    return NOTHING_TO_DO


def find_frames(job: Job, words: List[str]) -> List[PlanFrame]:
    """The record frames that the words name: one, or of a source frame all that show it."""
    if len(words) == 2:
        return showing(job, source_of(job, words[0], words[1]))
    if len(words) != 1:
        raise KitError("a frame is one word, or a reel and a frame of it")
    word = words[0]
    file = REEL_FILE.fullmatch(word)
    if file is not None:
        named = [f for f in job.frames if (f.record_reel, number_of(job, f)) == (int(file.group(1)), int(file.group(2)))]
        if named:
            return named
    if parts_of(word):
        return [frame for frame in job.frames if re.sub("[;.,]", ":", frame.label) == re.sub("[;.,]", ":", word)]
    if re.fullmatch(r"[0-9]{1,9}", word):
        index = int(word)
        return [job.frames[index]] if index < len(job.frames) else [f for f in job.frames if number_of(job, f) == index]
    return showing(job, source_of_path(job, word))


def number_of(job: Job, frame: PlanFrame) -> int:
    """The number in the name of a frame's file: that of its label."""
    return Counting(job.table.rate, job.table.is_drop).number(frame.label)


def source_of(job: Job, name: str, word: str) -> Optional[Side]:
    """A source frame by its reel and its number, or by its label there."""
    if re.fullmatch(r"[0-9]{1,9}", word):
        return Side(name, int(word))
    reel = job.project.reel(name)
    if reel is None:
        raise KitError(f"the project has no reel {printable(name)}")
    number = reel.counting(job.project.rate).near_number(word)
    if number is None:
        raise KitError(f"{printable(word)} is neither a number nor a label of reel {printable(name)}")
    return Side(name, number)


def source_of_path(job: Job, word: str) -> Optional[Side]:
    """A source frame by the path of its scan, as the project has it or from the current folder."""
    paths = {word, os.path.relpath(os.path.abspath(word), os.path.abspath(job.project.base))}
    for reel in job.project.reels:
        for path in paths:
            match = re.fullmatch(re.escape(reel.prefix) + r"([0-9]{7})\.dpx", path)
            frame = int(match.group(1)) - reel.first_file + reel.first if match else -1
            if reel.first <= frame < reel.end:
                return Side(reel.name, frame)
    raise KitError(f"{printable(word)} is no name of a frame: `./room frame --help` has the forms")


def showing(job: Job, source: Optional[Side]) -> List[PlanFrame]:
    """The record frames that show a source frame."""
    return [frame for frame in job.frames if source in frame.sides]


def names_of(job: Job, frame: PlanFrame) -> List[str]:
    """All names of a record frame, a row each."""
    rows = [
        f"index    {frame.index}",
        f"label    {frame.label}",
        f"file     r{frame.record_reel:03}.{number_of(job, frame):07}.dpx",
    ]
    event = job.event_of(frame)
    if event is None:
        return rows + ["event    none: a gap, which is black"]
    rows.append(f"event    line {event.line}: {printable(job.line_text(event.line).strip())}")
    if frame.transition:
        rows.append(f"shows    frame {frame.place} of a {'dissolve' if frame.transition == 'D' else 'wipe ' + frame.transition[1:]} of {frame.length}")
    names = ("from", "to") if len(frame.sides) == 2 else ("source",)
    return rows + [f"{name:<8} {side_in_words(job, side)}" for name, side in zip(names, frame.sides)]


def side_in_words(job: Job, side: Side) -> str:
    """A source frame's names."""
    if side.is_black:
        return "black"
    reel = job.project.reel(side.reel)
    if reel is None:
        return f"{side.reel} {side.frame}, a reel that the project lacks"
    label = reel.counting(job.project.rate).label(side.frame)
    if not reel.first <= side.frame < reel.end:
        return f"{side.reel} {side.frame}  {label}  outside of the reel by start and frames"
    return f"{side.reel} {side.frame}  {label}  {reel.path_of(side.frame)}"
