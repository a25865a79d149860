"""What a project's job shows, frame by frame, whether its scans are there or not.

The station plans: its list and its reels go into a folder of their own, with a stand-in for each source frame, so that `plan`
meets no scan that is missing. Which stand-ins that takes is reckoned here first; what the station then asks for besides is made,
and asked again. What comes back is what `plan` printed.
"""

from __future__ import annotations

import bisect
import os
import tempfile
from dataclasses import dataclass
from pathlib import Path
from typing import Dict, Iterable, List, Optional, Set, Tuple

from room.dpx import stand_in_head
from room.errors import KitError, printable
from room.project_file import Project
from room.station import DONE, Answer, Event, EventTable, PlanFrame, Station, event_table, plan_frames, refusal_of
from room.timecode import Counting

# Files that one stand-in may be linked to; file systems stop at some 65,000.
LINKS = 30_000
ROUNDS = 200


@dataclass
class Job:
    """A project's list and plan, as the station tells them."""

    project: Project
    table: EventTable
    frames: List[PlanFrame]
    text: bytes

    def __post_init__(self) -> None:
        counting = Counting(self.table.rate, self.table.is_drop)
        rows = [(counting.number(e.record_in), counting.number(e.record_out), e) for e in self.table.events]
        self._ranges = sorted((row for row in rows if row[0] < row[1]), key=lambda row: row[:2])
        self._starts = [row[0] for row in self._ranges]
        self._counting = counting

    def event_of(self, frame: PlanFrame) -> Optional[Event]:
        """The event whose record range has this frame."""
        number = self._counting.number(frame.label)
        place = bisect.bisect_right(self._starts, number) - 1
        return self._ranges[place][2] if place >= 0 and number < self._ranges[place][1] else None

    def line_text(self, line: int) -> str:
        """A line of the list."""
        rows = self.text.split(b"\n")
        return rows[line - 1].decode("utf-8", "replace").rstrip("\r") if 1 <= line <= len(rows) else ""


def job_of(project: Project, station: Station) -> Job:
    """The job of a project. A list that is refused raises KitError with the station's own line."""
    text = project.list_bytes()
    answer = station.list_bytes(text, project.rate)
    if answer.status != DONE:
        raise KitError(f"{printable(str(project.base / project.edl))}: {answer.last}: `./room check` says more")
    table = event_table(answer)
    return Job(project, table, plan_frames(plan_over_stand_ins(project, table, text, station)), text)


def needed(job: Job) -> Dict[str, Set[int]]:
    """The source frames that the job shows, by reel."""
    found: Dict[str, Set[int]] = {}
    for frame in job.frames:
        for side in frame.sides:
            if not side.is_black:
                found.setdefault(side.reel, set()).add(side.frame)
    return found


def reckoned(table: EventTable, modes: Dict[int, bool]) -> Dict[str, Set[int]]:
    """Source frames by the kit's own reckoning, with those that the event before a transition goes on to."""
    record = Counting(table.rate, table.is_drop)
    found: Dict[str, Set[int]] = {}
    for place, event in enumerate(table.events):
        following = table.events[place + 1] if place + 1 < len(table.events) else None
        length = record.number(event.record_out) - record.number(event.record_in)
        if following is not None and following.transition != "C":
            length += following.duration
        if event.reel == "BL" or length == 0:
            continue
        first = Counting(table.rate, modes.get(event.line, False)).number(event.source_in)
        speed = table.rate * 100 if event.speed is None else event.speed
        found.setdefault(event.reel, set()).update(first + k * speed // (100 * table.rate) for k in range(length))
    return found


def modes_of(table: EventTable) -> Dict[int, bool]:
    """How each event's source counts: its labels are printed in their own mode."""
    return {event.line: ";" in event.source_in for event in table.events}


def plan_over_stand_ins(project: Project, table: EventTable, text: bytes, station: Station) -> Answer:
    """The plan of the project's list, over stand-ins for whatever it shows."""
    reels = {reel: number for number, reel in enumerate(sorted({e.reel for e in table.events if e.reel != "BL"}))}
    cuts = "cuts = [" + ", ".join(f'"{cut}"' for cut in project.cuts) + "]\n" if project.cuts else ""
    rows = [f'rate = {project.rate}\nwidth = 1\nheight = 1\nedl = "list.edl"\n{cuts}']
    day = Counting(project.rate).frames_in_day
    rows += [f'[[reel]]\nname = "{_quoted(reel)}"\nprefix = "{n}/"\nstart = "00:00:00:00"\nframes = {day}\n' for reel, n in reels.items()]
    with tempfile.TemporaryDirectory(prefix="room.") as name:
        folder = Path(name)
        (folder / "list.edl").write_bytes(text)
        (folder / "job.toml").write_text("".join(rows), encoding="ascii")
        stand_ins = _StandIns(folder)
        for reel, frames in reckoned(table, modes_of(table)).items():
            stand_ins.make(reels[reel], (frame for frame in frames if 0 <= frame < day))
        return _ask_until_planned(station, folder, stand_ins, reels, project)


def _ask_until_planned(station: Station, folder: Path, stand_ins: "_StandIns", reels: Dict[str, int], project: Project) -> Answer:
    for _ in range(ROUNDS):
        answer = station.plan("job.toml", folder)
        refused = refusal_of(answer.last)
        if answer.status == DONE:
            return answer
        if refused is None or refused.number != "15.2" or refused.reel not in reels or refused.frame is None or refused.frame < 0:
            break
        stand_ins.make(reels[refused.reel], [refused.frame])
    raise KitError(f"{printable(project.path)}: the job can't be planned: {answer.last}: `./explain` says more")


def _quoted(text: str) -> str:
    return text.replace("\\", "\\\\").replace('"', '\\"')


class _StandIns:
    """Scans of one pixel, links of a few files."""

    def __init__(self, folder: Path) -> None:
        self.folder = folder
        self.made = 0
        self.source: Optional[Path] = None

    def make(self, reel: int, frames: Iterable[int]) -> None:
        (self.folder / str(reel)).mkdir(exist_ok=True)
        for frame in frames:
            if self.source is None or self.made % LINKS == 0:
                self.source = self.folder / f"stand-in.{self.made}"
                self.source.write_bytes(stand_in_head(1, 1) + bytes(4))
            self.made += 1
            os.link(self.source, self.folder / str(reel) / f"{frame:07}.dpx")


def ranges_of(numbers: Iterable[int]) -> List[Tuple[int, int]]:
    """Numbers as ranges: first and last of each."""
    found: List[Tuple[int, int]] = []
    for number in sorted(numbers):
        if found and found[-1][1] + 1 == number:
            found[-1] = (found[-1][0], number)
        else:
            found.append((number, number))
    return found
