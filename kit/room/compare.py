"""`room compare`: what a new list changes, and what an adoption would take over."""

from __future__ import annotations

import argparse
from dataclasses import dataclass
from typing import Dict, List, Optional, Set, Tuple

from room.errors import NOTHING_TO_DO, TO_DECIDE
from room.needs import Job, job_of, ranges_of
from room.project_file import Project, read_project
from room.station import Event, PlanFrame, Side, Station

NAME = "compare"
HELP = "Says what a new project changes against an old one, by event and in frames, before anything is rendered."
MORE = """\
Both projects are planned, over stand-ins, so no scan is wanted. A frame can be taken over by `adopt` where the
old job has one that shows the same: the same scans by their paths, and the same place in the same transition.

status: 0 compared; 1 nothing can be taken over, since size, black or cube differ; 2 a project can't be read"""

# What a frame shows: its transition, its place in it, and its sides as paths.
Shown = Tuple[str, int, int, Tuple[Optional[str], ...]]


@dataclass
class EventChange:
    """An event of the new list: how many of its frames the old job shows too, and which it doesn't."""

    event: Optional[Event]
    same: int
    rendered: List[int]


def add_arguments(parser: argparse.ArgumentParser) -> None:
    parser.add_argument("old", metavar="OLD", help="the old project's file")
    parser.add_argument("new", metavar="NEW", help="the new project's file")


def run(arguments: argparse.Namespace) -> int:
    station = Station()
    old = job_of(read_project(arguments.old), station)
    new = job_of(read_project(arguments.new), station)
    differ = unlike(old.project, new.project)
    rows = report(old, new, differ)
    for row in rows:
        print(row)
    return TO_DECIDE if differ else NOTHING_TO_DO


def unlike(old: Project, new: Project) -> List[str]:
    """The keys that keep frames from being taken over."""
    pairs = (
        ("width", old.width, new.width),
        ("height", old.height, new.height),
        ("black", old.black, new.black),
        ("cube", old.cube, new.cube),
    )
    return [f"{key} was {before} and is {now}" for key, before, now in pairs if before != now]


def shown(job: Job, frame: PlanFrame) -> Shown:
    """What a frame shows, without what it is called."""
    return frame.transition, frame.place, frame.length, tuple(path_of(job, side) for side in frame.sides)


def path_of(job: Job, side: Side) -> Optional[str]:
    """The path of a side's scan; black has none. Of a reel that the project lacks the reel stands in its place."""
    if side.is_black:
        return None
    reel = job.project.reel(side.reel)
    return reel.path_of(side.frame) if reel is not None else f"{side.reel} {side.frame}"


def changes(old: Job, new: Job, is_all_new: bool) -> List[EventChange]:
    """The events of the new job in the order of its record, black between them among these."""
    known: Set[Shown] = set() if is_all_new else {shown(old, frame) for frame in old.frames}
    found: List[EventChange] = []
    for frame in new.frames:
        event = new.event_of(frame)
        if not found or found[-1].event is not event:
            found.append(EventChange(event, 0, []))
        if shown(new, frame) in known:
            found[-1].same += 1
        else:
            found[-1].rendered.append(frame.index)
    return found


def report(old: Job, new: Job, differ: List[str]) -> List[str]:
    """The lines of the comparison: an event that changes each, events that went, and the sums."""
    rows = [f"{reason}: nothing is taken over" for reason in differ]
    found = changes(old, new, bool(differ))
    labels = [frame.label for frame in new.frames]
    for change in found:
        if change.rendered:
            rows.append(change_in_words(change, labels))
    rows += gone_in_words(old, new)
    taken = sum(change.same for change in found)
    if not rows:
        rows.append("nothing changes")
    return rows + [f"frames {len(new.frames)}", f"taken over {taken}", f"rendered {len(new.frames) - taken}"]


def change_in_words(change: EventChange, labels: List[str]) -> str:
    """An event's line."""
    spans = [labels[a] if a == b else f"{labels[a]} to {labels[b]}" for a, b in ranges_of(change.rendered)]
    many = len(change.rendered)
    shown_spans = ", ".join(spans[:6]) + (f" and {len(spans) - 6} more ranges" if len(spans) > 6 else "")
    what = f"line {change.event.line}, reel {change.event.reel}" if change.event is not None else "black"
    return f"{what}: {many} of {many + change.same} frames are rendered: {shown_spans}"


def gone_in_words(old: Job, new: Job) -> List[str]:
    """Events of the old job of which the new one shows no frame."""
    known = {shown(new, frame) for frame in new.frames}
    kept: Dict[int, bool] = {}
    for frame in old.frames:
        event = old.event_of(frame)
        if event is not None:
            kept[event.line] = kept.get(event.line, False) or shown(old, frame) in known
    by_line = {event.line: event for event in old.table.events}
    gone = [by_line[line] for line, is_kept in kept.items() if not is_kept]
    return [f"gone: line {event.line} of the old list, reel {event.reel}, {event.record_in} to {event.record_out}" for event in gone]
