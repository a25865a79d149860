"""What the station says of a project, and what a person reads of it first.

Every answer is asked here, once, and kept with the time at which it came. What is refused is no error: the page says so.
"""

from __future__ import annotations

import os
import time
from dataclasses import dataclass, field
from pathlib import Path
from typing import Dict, List, Optional, Tuple

from room.errors import KitError, printable
from room.explain import explain
from room.needs import Job
from room.page import sections
from room.project_file import Project, read_project
from room.report import progress
from room.report.markup import count
from room.report.record import Record, record_of
from room.station import (
    DAMAGED, DONE, EventTable, PlanFrame, PullRange, QcLine, Station, Answer, event_table, numbers_of, plan_frames, pull_ranges, qc_lines,
    refusal_of,
)

HEAD = 2048
OUT = "conform.out"
NO_COMMAND = 1


@dataclass(frozen=True)
class Asked:
    """An answer of the station, when it came, and how many seconds it took."""

    words: str
    answer: Answer
    at: float
    took: float


@dataclass(frozen=True)
class Fact:
    """A line of the head. Its kind is `good`, `open`, `bad` or `plain`; the words say the same."""

    kind: str
    name: str
    words: str
    more: Tuple[str, ...] = ()


@dataclass
class State:
    """A project and the station's answers, read."""

    project: Project
    asked: Dict[str, Asked] = field(default_factory=dict)
    table: Optional[EventTable] = None
    frames: List[PlanFrame] = field(default_factory=list)
    record: Optional[Record] = None
    acknowledged: int = 0
    done: bytearray = field(default_factory=bytearray)
    done_by: str = ""
    damaged: Optional[int] = None
    levels: List[QcLine] = field(default_factory=list)
    pull: List[PullRange] = field(default_factory=list)

    @property
    def title(self) -> str:
        return self.project.title or Path(self.project.path).stem

    @property
    def out(self) -> Path:
        return self.project.base / OUT

    @property
    def frame_size(self) -> int:
        """How long a frame's file is."""
        return HEAD + 4 * self.project.width * self.project.height

    @property
    def is_whole(self) -> bool:
        return bool(self.frames) and self.acknowledged == len(self.frames)

    def answer(self, command: str) -> Optional[Answer]:
        return self.asked[command].answer if command in self.asked else None

    def file_name(self, frame: PlanFrame) -> str:
        """The name of a frame's file."""
        assert self.record is not None
        return f"r{frame.record_reel:03}.{self.record.first + frame.index:07}.dpx"

    def job(self) -> Optional[Job]:
        """The list and the plan as one, where both are had."""
        if self.table is None or not self.frames:
            return None
        return Job(self.project, self.table, self.frames, b"")


def state_of(path: str, station: Station, is_fast: bool) -> State:
    """Asks the station all that a page shows."""
    state = State(read_project(path))
    project = _path_for_station(state)
    _ask_list(state, station)
    if _ask(state, station, "plan", project).status == DONE:
        state.frames = plan_frames(state.asked["plan"].answer)
    if state.table is not None:
        state.record = record_of(state.table, state.frames)
    if not state.frames:
        return state
    answer = _ask(state, station, "pull", project, "0")
    state.pull = pull_ranges(answer) if answer.status == DONE else []
    answer = _ask(state, station, "status", project)
    if answer.status == DONE:
        state.acknowledged = numbers_of(answer).get("acknowledged", 0)
        if is_fast or not state.acknowledged:
            _ask_sums(state, station, project)
        else:
            _ask_pictures(state, station, project)
    _find_done(state)
    return state


def _path_for_station(state: State) -> str:
    return state.project.path_in_base


def _ask(state: State, station: Station, *words: str, size: int = 0) -> Answer:
    """Asks one command in the project's folder, and keeps the answer."""
    begun = time.monotonic()
    answer = progress.ask(station, list(words), state.project.base, size)
    state.asked[words[0]] = Asked(" ".join(words), answer, time.time(), time.monotonic() - begun)
    return answer


def _ask_list(state: State, station: Station) -> None:
    """The event table. A list that isn't there or has a long path is told of by `plan`."""
    if len(os.fsencode(state.project.edl)) > 255 or not (state.project.base / state.project.edl).is_file():
        return
    answer = _ask(state, station, "list", state.project.edl, str(state.project.rate))
    if answer.status == DONE:
        state.table = event_table(answer)


def _ask_sums(state: State, station: Station, project: str) -> bool:
    """`sums`, where this program has it: which frames are done, without reading one."""
    if not state.acknowledged or state.is_whole:
        return False
    answer = _ask(state, station, "sums", project)
    if answer.status == NO_COMMAND:
        del state.asked["sums"]
    return answer.status == DONE


def _ask_pictures(state: State, station: Station, project: str) -> None:
    """The two answers that read every frame."""
    size = state.acknowledged * state.frame_size
    answer = _ask(state, station, "verify", project, size=size)
    words = answer.last.split(" ")
    if answer.status == DAMAGED and len(words) == 5 and words[2].isdigit():
        state.damaged = int(words[2])
    answer = _ask(state, station, "qc", project, size=size)
    if answer.status == DONE:
        state.levels = [line for line in qc_lines(answer) if line.frame < len(state.frames)]


def _find_done(state: State) -> None:
    """Which frames are done: by `qc`, by `sums`, or by the files that are as long as they have to be."""
    total = len(state.frames)
    state.done = bytearray(total)
    sums = state.answer("sums")
    if not state.acknowledged:
        return
    if state.is_whole:
        state.done = bytearray(b"\1") * total
    elif state.levels:
        for line in state.levels:
            state.done[line.frame] = 1
    elif sums is not None and len(sums.lines) == state.acknowledged:
        names = {os.path.basename(row[66:]) for row in sums.lines}
        state.done = bytearray(state.file_name(frame) in names for frame in state.frames)
    else:
        state.done = bytearray(_is_long_enough(state, frame) for frame in state.frames)
        state.done_by = "Which frames are done is told by their files, since `qc` wasn't asked: a frame that is just being written may be among them."


def _is_long_enough(state: State, frame: PlanFrame) -> bool:
    try:
        return os.stat(state.out / state.file_name(frame)).st_size == state.frame_size
    except OSError:
        return False


def is_to_decide(state: State) -> bool:
    """Whether something was found that a person has to decide."""
    return any(fact.kind == "bad" for fact in facts(state))


def facts(state: State) -> List[Fact]:
    """The head's lines, the most important first."""
    return [summary(state), *_record_facts(state), *_reel_facts(state)]


def summary(state: State) -> Fact:
    """The one line that a person reads who reads no other."""
    for command in ("list", "plan", "status"):
        answer = state.answer(command)
        if answer is not None and answer.status != DONE:
            return refused_fact(state, command, answer)
    total = len(state.frames)
    if not state.acknowledged:
        return Fact("open", "Nothing is rendered yet", f"The job is planned: {count(total, 'frame')}. The reel folder has none of them.")
    verify = state.answer("verify")
    if verify is not None and verify.status != DONE:
        return damaged_fact(state, verify)
    if not state.is_whole:
        share = state.acknowledged / total
        return Fact("open", "Half done", f"{state.acknowledged} of {count(total, 'frame')} are done, {share:.0%}. `run` goes on from there.")
    if verify is None:
        return Fact("good", "Done", f"All {count(total, 'frame')} are done. Whether they are still what was written wasn't asked.")
    return Fact("good", "Done and verified", f"All {count(total, 'frame')} are done, and each file is what was written.")


def damaged_fact(state: State, answer: Answer) -> Fact:
    """`verify` found a frame, or couldn't read the reel."""
    if state.damaged is None or state.damaged >= len(state.frames):
        return Fact("bad", "Not verified", answer.last, _advice(answer.last))
    frame = state.frames[state.damaged]
    words = f"Frame {frame.index}, {frame.label}, isn't what was written: {OUT}/{state.file_name(frame)}. It is the first such frame; there may be more."
    done = f"{state.acknowledged} of {count(len(state.frames), 'frame')} are done."
    return Fact("bad", "Damaged", words, (done, *_advice(answer.last)))


def refused_fact(state: State, command: str, answer: Answer) -> Fact:
    """An answer that isn't done, with what the project adds to it and what to do."""
    line = answer.last or f"status {answer.status}"
    names = {3: "Another job's reel", 4: "A bad ledger", 2: "Refused"}
    refused = refusal_of(line)
    title = sections()[refused.number].title if refused is not None and refused.number in sections() else ""
    rows = [f"{title[:1].upper()}{title[1:]}."] if title else []
    try:
        rows += explain(state.project.path, line)
    except (KitError, OSError, ValueError):
        pass
    return Fact("bad", names.get(answer.status, "No answer"), f"`{command}` says: {line}", (*rows, *_advice(line)))


def _advice(line: str) -> Tuple[str, ...]:
    """What docs/refusals.md advises: by the refusal's number, or by the answer's first words."""
    refused = refusal_of(line)
    key = refused.number if refused is not None else next((k for k in sections() if k and line.startswith(k)), "")
    advice = sections()[key].advice if key in sections() else ""
    return (f"What to do: {advice}",) if advice else ()


def _record_facts(state: State) -> List[Fact]:
    project, record = state.project, state.record
    rows: List[Fact] = []
    if record is not None:
        seconds = record.count / record.counting.rate
        length = f"{seconds:.0f} s" if seconds < 90 else f"{seconds / 60:.1f} min"
        mode = "drop-frame" if record.counting.is_drop else "non-drop"
        words = f"{count(record.count, 'frame')}, {record.label(0)} to {record.label(record.count - 1)}, {length} at {record.counting.rate} {mode}"
        rows.append(Fact("plain", "Record", words))
    rows.append(Fact("plain", "Picture", f"{project.width} by {project.height} pixels" + (f", cube {project.cube}" if project.cube else "")))
    if state.table is not None and record is not None:
        rows.append(Fact("plain", "List", f"{project.edl}: {count(len(state.table.events), 'event')} of {count(len(record.colours), 'reel')}"))
    else:
        rows.append(Fact("plain", "List", project.edl))
    return rows


def _reel_facts(state: State) -> List[Fact]:
    """How far the reel is, and whether it was verified."""
    status = state.answer("status")
    if status is None or status.status != DONE:
        return []
    rows = [Fact("good" if state.is_whole else "open", "Frames done", f"{state.acknowledged} of {len(state.frames)}", (state.done_by,) if state.done_by else ())]
    verify = state.answer("verify")
    if verify is None:
        rows.append(Fact("plain", "Verified", "not asked" if state.acknowledged else "nothing to verify yet"))
    elif verify.status == DONE:
        verified = numbers_of(verify).get("verified", 0)
        rows.append(Fact("good" if verified else "plain", "Verified", f"{count(verified, 'file')} compared with what was written" if verified else "the ledger keeps no digests"))
    else:
        rows.append(Fact("bad", "Verified", printable(" ".join(verify.last.split(" ")[:3]))))
    return rows
