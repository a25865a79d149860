"""`room link`: links of scans under the names that the station reads."""

from __future__ import annotations

import argparse
import os
import sys
from dataclasses import dataclass, field
from typing import List, Optional, Set

from room.errors import NOTHING_TO_DO, TO_DECIDE
from room.findings import Finding, put_heads
from room.project_file import Project, Reel, read_project
from room.sequences import Match, Scans, find_sequences, matches_of

NAME = "link"
HELP = "Links scans of any names under the paths that a project's reels have, and writes over nothing."
MORE = """\
For each reel of the project its scans are looked for below the folders, as `./room project` does: by name and
by the timecode of the heads; where heads tell none, by file numbers. Any number of digits is taken, and any
number of ranges. A link is symbolic and relative.

status: 0 every reel has scans; 1 a reel has none, or something was left out; 2 the project can't be read"""


@dataclass
class Counts:
    """What was done."""

    linked: int = 0
    there: int = 0
    left_out: int = 0
    findings: List[Finding] = field(default_factory=list)


def add_arguments(parser: argparse.ArgumentParser) -> None:
    parser.add_argument("project", metavar="PROJECT", help="the project's file")
    parser.add_argument("folders", metavar="FOLDER", nargs="+", help="where scans lie, at any depth")
    parser.add_argument("--reel", metavar="NAME", help="all scans below the folders are of this reel, whatever they are called")


def run(arguments: argparse.Namespace) -> int:
    project = read_project(arguments.project)
    own = {os.path.realpath(os.path.dirname(project.base / reel.path_of(reel.first))) for reel in project.reels}
    sequences = [s for s in find_sequences(arguments.folders) if not _is_made_of_links(s) or os.path.realpath(s.folder or ".") not in own]
    counts = Counts()
    reels = [reel for reel in project.reels if arguments.reel in (None, reel.name)]
    if not reels:
        counts.findings.append(Finding(0, "warning", f"the project has no reel {arguments.reel}" if arguments.reel else "the project has no reels"))
    for reel in reels:
        link_reel(project, reel, sequences, arguments.reel is not None, counts)
    put_heads(arguments.project, counts.findings, sys.stderr)
    print(f"{counts.linked} linked, {counts.there} there already, {counts.left_out} left out")
    return TO_DECIDE if any(finding.is_to_decide for finding in counts.findings) else NOTHING_TO_DO


def _is_made_of_links(sequence: Scans) -> bool:
    return os.path.islink(sequence.path(0))


def link_reel(project: Project, reel: Reel, sequences: List[Scans], is_all_of_it: bool, counts: Counts) -> None:
    """The links of one reel."""
    counting = reel.counting(project.rate)
    if is_all_of_it:
        matches = [Match(sequence, sequence.first_frame(counting), "as you said") for sequence in sequences]
    else:
        matches = matches_of(reel.name, range(reel.first, reel.end), counting, sequences)
    if not matches:
        counts.findings.append(Finding(reel.line, "warning", f"reel {reel.name}: no scans were found"))
    taken: Set[int] = set()
    for match in matches:
        first = match.first_frame if match.how != "by name alone" or match.first_frame is not None else None
        first = first if first is not None else by_number(reel, match.sequence, len(matches))
        if first is None:
            text = f"reel {reel.name}: which frames {match.sequence.spelled} are, neither heads nor numbers tell"
            counts.findings.append(Finding(reel.line, "warning", text))
            counts.left_out += match.sequence.count
        else:
            link_sequence(project, reel, match, first, taken, counts)


def by_number(reel: Reel, sequence: Scans, many: int) -> Optional[int]:
    """The frame of a sequence's first file by its numbers: those of the project's files, those of frames, or a count that fits."""
    end = sequence.first + sequence.count
    if reel.first_file <= sequence.first and end <= reel.first_file + reel.frames:
        return reel.first + sequence.first - reel.first_file
    if reel.first <= sequence.first and end <= reel.end:
        return sequence.first
    return reel.first if many == 1 and sequence.count == reel.frames else None


def link_sequence(project: Project, reel: Reel, match: Match, first: int, taken: Set[int], counts: Counts) -> None:
    """The links of one sequence, and a line that says so."""
    made: List[int] = []
    for place in range(match.sequence.count):
        frame = first + place
        if not reel.first <= frame < reel.end:
            continue
        outcome = link_file(project, reel, frame, match.sequence.path(place), taken, counts)
        if outcome:
            made.append(frame)
    if made:
        text = f"linked {reel.path_of(made[0])} to {reel.path_of(made[-1])}, {len(made)} links: {match.sequence.spelled}, {match.how}"
        counts.findings.append(Finding(reel.line, "changed", text))


def link_file(project: Project, reel: Reel, frame: int, scan: str, taken: Set[int], counts: Counts) -> bool:
    """One link, where nothing is in its place."""
    path = str(project.base / reel.path_of(frame))
    folder = os.path.dirname(path) or "."
    os.makedirs(folder, exist_ok=True)
    if os.path.lexists(path):
        if os.path.exists(path) and os.path.samefile(path, scan):
            counts.there += 1
            taken.add(frame)
        else:
            counts.left_out += 1
            why = "another scan of this frame" if frame in taken else "another file"
            counts.findings.append(Finding(reel.line, "warning", f"{path} is {why} already, so {scan} is left out"))
        return False
    os.symlink(os.path.relpath(os.path.realpath(scan), os.path.realpath(folder)), path)
    counts.linked += 1
    taken.add(frame)
    return True
