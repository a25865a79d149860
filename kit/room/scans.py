"""`room scans`: every scan that a project's job wants and can't use, at once."""

from __future__ import annotations

import argparse
import sys
from dataclasses import dataclass
from typing import Dict, List, Optional, Set, Tuple

from room.dpx import read_head
from room.errors import NOTHING_TO_DO, TO_DECIDE
from room.findings import Finding, put_heads
from room.needs import Job, job_of, needed, ranges_of
from room.page import title_of
from room.project_file import Project, Reel, read_project
from room.station import Station
from room.timecode import Counting

NAME = "scans"
HELP = "Names every scan that a project wants and that is missing or wrong, by path and in ranges."
MORE = """\
Told are: a reel that the project lacks, frames that a reel doesn't have by `start` and `frames`, files that
aren't there, heads that the station doesn't read, another size, and heads whose own timecode isn't the label
that the project gives them. The scans themselves are read no further than their heads.

status: 0 every scan is there and right; 1 some aren't; 2 the project or its list can't be read"""


@dataclass(frozen=True)
class Trouble:
    """What is wrong with one scan. Scans in a row with the same trouble make one line."""

    kind: str
    text: str


def add_arguments(parser: argparse.ArgumentParser) -> None:
    parser.add_argument("project", metavar="PROJECT", help="the project's file")


def run(arguments: argparse.Namespace) -> int:
    project = read_project(arguments.project)
    job = job_of(project, Station())
    findings, wanted, sound = look_at_scans(job)
    put_heads(arguments.project, findings, sys.stdout)
    print(f"{wanted} scans wanted, {sound} sound, {wanted - sound} missing or wrong")
    return NOTHING_TO_DO if wanted == sound and not findings else TO_DECIDE


def look_at_scans(job: Job) -> Tuple[List[Finding], int, int]:
    """All findings, how many scans are wanted, and how many of them are right."""
    findings: List[Finding] = []
    frames_of = needed(job)
    sound = 0
    for name in sorted(frames_of):
        reel = job.project.reel(name)
        if reel is None:
            findings.append(lacking_reel(job, name, frames_of[name]))
            continue
        findings += other_counting(job, reel)
        troubles = troubles_of(job.project, reel, frames_of[name])
        sound += len(frames_of[name]) - len(troubles)
        findings += ranges_in_words(job.project, reel, troubles)
    return sorted(findings, key=lambda finding: finding.line), sum(len(frames) for frames in frames_of.values()), sound


def lacking_reel(job: Job, name: str, frames: Set[int]) -> Finding:
    """A reel of the list that has no table in the project."""
    lines = [event.line for event in job.table.events if event.reel == name]
    alike = [reel.name for reel in job.project.reels if reel.name.lower() == name.lower()]
    text = f"the project has no reel {name}, of which the list wants {len(frames)} frames (line {lines[0]} of the list)"
    if alike:
        text += f"; it has {alike[0]}, which differs in capitals"
    return Finding(0, "refused 15.1", text)


def other_counting(job: Job, reel: Reel) -> List[Finding]:
    """A reel whose `drop` isn't how the list counts its labels: 108 frames an hour, which the station can't tell."""
    if job.project.rate != 30:
        return []
    lines = [event.line for event in job.table.events if event.reel == reel.name and (";" in event.source_in) != reel.is_drop]
    if not lines:
        return []
    counts = "drop-frame" if reel.is_drop else "non-drop"
    text = f"reel {reel.name} counts {counts}, and the list counts its labels otherwise (line {lines[0]} of the list): mend `drop`, or the list's FCM lines"
    return [Finding(reel.line, "warning", text)]


def troubles_of(project: Project, reel: Reel, frames: Set[int]) -> Dict[int, Trouble]:
    """The troubles of a reel's scans, by frame."""
    found: Dict[int, Trouble] = {}
    for frame in sorted(frames):
        trouble = trouble_of(project, reel, frame)
        if trouble is not None:
            found[frame] = trouble
    return found


def trouble_of(project: Project, reel: Reel, frame: int) -> Optional[Trouble]:
    """What is wrong with the scan of a frame."""
    if not reel.first <= frame < reel.end:
        return Trouble("outside", "")
    head = read_head(str(project.base / reel.path_of(frame)))
    if head is None:
        return Trouble("missing", "")
    if head.trouble is not None:
        return Trouble("unreadable", head.trouble)
    if head.fault is not None:
        return Trouble(f"refused 15.3 fault {head.fault}", title_of(head.fault).lower())
    if (head.width, head.height) != (project.width, project.height):
        return Trouble("refused 15.4", f"{head.width} by {head.height} pixels, and the project has {project.width} by {project.height}")
    counting = reel.counting(project.rate)
    if head.timecode is not None and head.timecode != counting.label(frame).replace(";", ":"):
        return Trouble("timecode", _how_far(counting, head.timecode, frame))
    return None


def _how_far(counting: Counting, timecode: str, frame: int) -> str:
    """By how many frames the head's label is off."""
    number = counting.near_number(timecode)
    if number is None:
        return f"the heads have labels such as {timecode}, which aren't of rate {counting}"
    far = number - frame
    return f"the heads' own timecode is {abs(far)} frames {'later' if far > 0 else 'earlier'} than the project's label"


def ranges_in_words(project: Project, reel: Reel, troubles: Dict[int, Trouble]) -> List[Finding]:
    """A line for each range of frames with one trouble."""
    by_trouble: Dict[Trouble, List[int]] = {}
    for frame, trouble in troubles.items():
        by_trouble.setdefault(trouble, []).append(frame)
    findings: List[Finding] = []
    for trouble, frames in by_trouble.items():
        for first, last in ranges_of(frames):
            findings.append(_finding(project, reel, trouble, first, last))
    return findings


def _finding(project: Project, reel: Reel, trouble: Trouble, first: int, last: int) -> Finding:
    counting = reel.counting(project.rate)
    many = f"{last - first + 1} frames" if last > first else "1 frame"
    labels = f"{counting.label(first)} to {counting.label(last)}" if last > first else counting.label(first)
    if trouble.kind == "outside":
        text = f"reel {reel.name} has {counting.label(reel.first)} to {counting.label(reel.end - 1)} by start and frames, and not {labels} ({many})"
        return Finding(reel.line, "refused 15.2", text)
    paths = reel.path_of(first) + (f" to {reel.path_of(last)}" if last > first else "")
    kind = {"missing": "missing", "unreadable": "unreadable", "timecode": "warning"}.get(trouble.kind, trouble.kind)
    text = f"{paths}, {many}, {labels}" + (f": {trouble.text}" if trouble.text else "")
    if trouble.kind == "timecode":
        text += ": mend `start` or `file`, or the frames are the wrong ones"
    return Finding(reel.line, kind, text)
