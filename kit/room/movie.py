"""`room movie`: the FFmpeg line of a review movie of a whole reel."""

from __future__ import annotations

import argparse
import os
import shlex
import shutil
import subprocess
import sys
from dataclasses import dataclass
from pathlib import Path
from typing import List, Tuple

from room.errors import NOTHING_TO_DO, TO_DECIDE, KitError, printable
from room.project_file import Project, read_project
from room.station import DONE, LONGEST_PATH, Answer, PlanFrame, Station, numbers_of, plan_frames
from room.timecode import Counting

NAME = "movie"
HELP = "Prints the FFmpeg line that makes a review movie of a whole reel, and runs it with --make."
MORE = """\
The movie has the record's timecode, and its size is halved until it is at most 1920 wide. A job of several record
reels has a line for each. The codes are shown as they lie there. 24 stands for 23.976 too: --slow makes it so.
Files are new ones: without -o PROJECT's name with `.mov`, in the current folder.

status: 0 printed, or made; 1 the reel isn't whole, or is another job's; 2 the project can't be read, FFmpeg isn't
there, or it failed"""

WIDEST = 1920


@dataclass(frozen=True)
class RecordReel:
    """A record reel: its number, the label and the number of its first frame, and how many frames it has."""

    number: int
    label: str
    first: int
    frames: int


def add_arguments(parser: argparse.ArgumentParser) -> None:
    parser.add_argument("project", metavar="PROJECT", help="the project's file")
    parser.add_argument("--make", action="store_true", help="run it, where FFmpeg is")
    parser.add_argument("--slow", action="store_true", help="23.976 frames a second for 24, and 29.97 for 30")
    parser.add_argument("-o", dest="output", metavar="FILE", help="the movie's new file")


def run(arguments: argparse.Namespace) -> int:
    project = read_project(arguments.project)
    station = Station()
    refused, reels = whole_reels(project, station)
    if refused:
        print(refused)
        return TO_DECIDE
    outputs = names_of(arguments.output or Path(arguments.project).stem + ".mov", reels)
    lines = [line_of(project, reel, output, arguments.slow) for reel, output in zip(reels, outputs)]
    for line in lines:
        print(printable(shlex.join(line)))
    if arguments.make:
        make(lines, outputs)
    return NOTHING_TO_DO


def whole_reels(project: Project, station: Station) -> Tuple[str, List[RecordReel]]:
    """The record reels of a job that is done; else in words what it lacks."""
    if len(os.fsencode(project.path_in_base)) > LONGEST_PATH:
        raise KitError(f"the station takes paths of at most {LONGEST_PATH} bytes: {project.path}")
    status = station.ask("status", project.path_in_base, folder=project.base)
    plan: Answer = station.plan(project.path_in_base, project.base)
    for answer in (plan, status):
        if answer.status != DONE:
            return f"no movie can be made: {answer.last}", []
    numbers = numbers_of(status)
    done, frames = numbers.get("acknowledged", 0), numbers.get("frames", 0)
    if done != frames:
        return f"no movie can be made yet: {done} of {frames} frames are done, and FFmpeg stops at the first that is lacking", []
    return "", record_reels(plan_frames(plan), project.rate)


def record_reels(frames: List[PlanFrame], rate: int) -> List[RecordReel]:
    """The record reels of a plan."""
    counting = Counting(rate, ";" in frames[0].label)
    starts = [frame for place, frame in enumerate(frames) if place == 0 or frames[place - 1].record_reel != frame.record_reel]
    ends = [frame.index for frame in starts[1:]] + [len(frames)]
    return [RecordReel(frame.record_reel, frame.label, counting.number(frame.label), end - frame.index) for frame, end in zip(starts, ends)]


def names_of(output: str, reels: List[RecordReel]) -> List[str]:
    """A file for each record reel."""
    if len(reels) == 1:
        return [output]
    path = Path(output)
    return [str(path.with_name(f"{path.stem}.r{reel.number:03}{path.suffix}")) for reel in reels]


def size_of(width: int, height: int) -> Tuple[int, int]:
    """Halved until it is at most 1920 wide, and even, as the codec wants it."""
    while width > WIDEST:
        width, height = width // 2, height // 2
    return max(width - width % 2, 2), max(height - height % 2, 2)


def speed_of(rate: int, is_drop: bool, is_slow: bool) -> str:
    """Frames a second. FFmpeg takes drop-frame labels at 29.97 alone."""
    if rate == 25:
        return "25"
    return f"{rate}000/1001" if is_slow or is_drop else str(rate)


def line_of(project: Project, reel: RecordReel, output: str, is_slow: bool) -> List[str]:
    """The words of the line."""
    out = str(project.base / "conform.out").replace("%", "%%")
    width, height = size_of(project.width, project.height)
    scale = ["-vf", f"scale={width}:{height}:flags=area"] if (width, height) != (project.width, project.height) else []
    return [
        "ffmpeg", "-nostdin", "-n", "-framerate", speed_of(project.rate, ";" in reel.label, is_slow), "-start_number", str(reel.first),
        "-i", f"{out}/r{reel.number:03}.%07d.dpx", "-frames:v", str(reel.frames), "-timecode", reel.label, *scale,
        "-c:v", "libx264", "-crf", "18", "-pix_fmt", "yuv420p", f"./{output}" if output.startswith("-") else output,
    ]


def make(lines: List[List[str]], outputs: List[str]) -> None:
    """Runs the lines. FFmpeg's own words go to standard error."""
    if shutil.which("ffmpeg") is None:
        raise KitError("ffmpeg isn't on the path: install it, or run the line where it is")
    for output in outputs:
        if os.path.lexists(output):
            raise KitError(f"{printable(output)} is there already, and nothing is written over")
    stats = ["-stats"] if sys.stderr.isatty() else []
    for line, output in zip(lines, outputs):
        done = subprocess.run([line[0], "-hide_banner", "-loglevel", "error", *stats, *line[1:]], stdin=subprocess.DEVNULL, check=False)
        if done.returncode != 0:
            raise KitError(f"ffmpeg ended with status {done.returncode}; look at {printable(output)} before you keep it")
        print(f"made {printable(output)}")
