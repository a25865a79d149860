"""What a project changes against an old one, by event.

A frame of the new list shows what the old one showed at its label, or it is moved: the old list shows that elsewhere, so that an
adoption can take it over. Or it is new, and has to be rendered.
"""

from __future__ import annotations

import os
from dataclasses import dataclass, field
from typing import Dict, List, Optional

from room.compare import Shown, gone_in_words, shown, unlike
from room.errors import KitError
from room.needs import Job, job_of, ranges_of
from room.project_file import read_project
from room.report.record import Range
from room.report.state import State
from room.station import DONE, Event, PlanFrame, Side, Station, event_table, plan_frames


@dataclass
class Difference:
    """An event of the new list, or black between events, and its frames that show something else than at their label before."""

    event: Optional[Event]
    first: PlanFrame
    frames: int = 0
    new: List[int] = field(default_factory=list)
    moved: List[int] = field(default_factory=list)
    before: str = ""
    after: str = ""

    @property
    def ranges(self) -> List[Range]:
        return ranges_with_ends(self.new + self.moved)


@dataclass
class Differences:
    """All of them, and in words what keeps any frame from being taken over, and which events went."""

    old: str
    found: List[Difference] = field(default_factory=list)
    unlike: List[str] = field(default_factory=list)
    gone: List[str] = field(default_factory=list)
    trouble: str = ""

    @property
    def new(self) -> List[int]:
        return [frame for difference in self.found for frame in difference.new]

    @property
    def moved(self) -> List[int]:
        return [frame for difference in self.found for frame in difference.moved]


def ranges_with_ends(frames: List[int]) -> List[Range]:
    """Frames as ranges, their ends excluded."""
    return [(start, last + 1) for start, last in ranges_of(frames)]


def differences_of(state: State, path: str, station: Station) -> Differences:
    """The old project is planned as it stands, and over stand-ins where its scans have gone. What can't be read, the page says."""
    found = Differences(path)
    new = state.job()
    if new is None:
        found.trouble = "the new list isn't planned, so nothing is compared"
        return found
    try:
        old = old_job(path, station)
    except KitError as error:
        found.trouble = str(error)
        return found
    found.unlike = unlike(old.project, new.project)
    found.found = compared(old, new, is_all_new=bool(found.unlike))
    found.gone = gone_in_words(old, new)
    return found


def compared(old: Job, new: Job, is_all_new: bool) -> List[Difference]:
    """The events with a frame that isn't the same, in the order of the record."""
    before: Dict[str, Shown] = {frame.label: shown(old, frame) for frame in old.frames}
    old_frames = {frame.label: frame for frame in old.frames}
    known = set(before.values())
    found: List[Difference] = []
    for frame in new.frames:
        event = new.event_of(frame)
        if not found or found[-1].event is not event:
            found.append(Difference(event, frame))
        each = found[-1]
        each.frames += 1
        now = shown(new, frame)
        if not is_all_new and before.get(frame.label) == now:
            continue
        if not each.new and not each.moved:
            each.before, each.after = in_words(old, old_frames.get(frame.label)), in_words(new, frame)
        (each.moved if now in known and not is_all_new else each.new).append(frame.index)
    return [each for each in found if each.new or each.moved]


def old_job(path: str, station: Station) -> Job:
    """The job of the old project."""
    project = read_project(path)
    words = project.path_in_base
    if len(os.fsencode(words)) <= 255 and len(os.fsencode(project.edl)) <= 255 and (project.base / project.edl).is_file():
        plan = station.plan(words, project.base)
        table = station.ask("list", project.edl, str(project.rate), folder=project.base)
        if plan.status == DONE and table.status == DONE:
            return Job(project, event_table(table), plan_frames(plan), project.list_bytes())
    return job_of(project, station)


def in_words(job: Job, frame: Optional[PlanFrame]) -> str:
    """What a frame shows."""
    if frame is None:
        return "not in the record"
    sides = " and ".join(side_in_words(job, side) for side in frame.sides)
    if not frame.transition:
        return sides
    return f"{'dissolve' if frame.transition == 'D' else 'wipe ' + frame.transition[1:]} {frame.place}/{frame.length} of {sides}"


def side_in_words(job: Job, side: Side) -> str:
    """A source frame by its reel and its label there."""
    if side.is_black:
        return "black"
    reel = job.project.reel(side.reel)
    return f"{side.reel} {reel.counting(job.project.rate).label(side.frame)}" if reel is not None else f"{side.reel} {side.frame}"
