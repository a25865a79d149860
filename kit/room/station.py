"""The station's program, and what it prints, as values.

A `Station` starts `./conform` of this repository, whatever the current folder is, and hands back its answer. The functions behind
it read the printed text of `list`, `plan`, `pull`, `status`, `qc`, and the lines of refusals. Nothing here knows more than what is
printed; a line that isn't as docs/refusals.md and the README say raises KitError.
"""

from __future__ import annotations

import os
import re
import subprocess
import tempfile
from dataclasses import dataclass, field
from pathlib import Path
from typing import Dict, List, Optional, Tuple

from room.errors import KitError

TOP = Path(__file__).resolve().parents[2]
PROGRAM = TOP / "conform"
# The station takes paths of at most so many bytes.
LONGEST_PATH = 255

DONE, USAGE, REFUSED, OTHER_JOB, BAD_LEDGER, DAMAGED, CHANGED, SOURCE_FAULT, DISK_FAULT, UNHEARD, NO_MEMORY = range(11)


@dataclass(frozen=True)
class Answer:
    """What the program printed, and its status."""

    status: int
    text: str

    @property
    def lines(self) -> List[str]:
        return self.text.splitlines()

    @property
    def last(self) -> str:
        return self.lines[-1] if self.lines else ""


@dataclass(frozen=True)
class Refusal:
    """A line `refused ..`: its number, and what else it has. Line, key and reel count as they are printed; None isn't there."""

    number: str
    file: Optional[str] = None
    line: Optional[int] = None
    with_line: Optional[int] = None
    reel: Optional[str] = None
    frame: Optional[int] = None
    fault: Optional[str] = None
    key: Optional[int] = None
    place: Optional[int] = None
    cut: Optional[int] = None
    is_old: bool = False


@dataclass(frozen=True)
class Event:
    """An event of `list`. Labels are as printed; the speed is in hundredths of a frame a second, or None."""

    line: int
    reel: str
    source_in: str
    source_out: str
    record_in: str
    record_out: str
    transition: str
    wipe: Optional[int]
    duration: int
    speed: Optional[int]


@dataclass(frozen=True)
class EventTable:
    """What `list` prints: the rate, whether records count drop-frame, and the events in the list's order."""

    rate: int
    is_drop: bool
    events: List[Event]


@dataclass(frozen=True)
class Side:
    """One picture of a record frame: a reel and the number of its source frame, or black (`reel` is BL)."""

    reel: str
    frame: int = 0

    @property
    def is_black(self) -> bool:
        return self.reel == "BL"


@dataclass(frozen=True)
class PlanFrame:
    """A record frame of `plan`: its index from 0, the record reel, its label, and one side or two.

    Of a transition `transition` is `D` or `W001`, `place` and `length` are its k of d, and the old side comes first.
    """

    index: int
    record_reel: int
    label: str
    sides: Tuple[Side, ...]
    transition: str = ""
    place: int = 0
    length: int = 0


@dataclass(frozen=True)
class PullRange:
    """A range of `pull`: a reel, the labels of its first and last frame, and how many frames it has."""

    reel: str
    first: str
    last: str
    frames: int


@dataclass(frozen=True)
class QcLine:
    """A line of `qc`: the frame's index and its three counts."""

    frame: int
    high: int
    low: int
    sum: int


@dataclass
class Station:
    """The program, as `./conform` starts it, or another program of the same words."""

    program: Path = field(default_factory=lambda: PROGRAM)

    def ask(self, *words: str, folder: Optional[Path] = None) -> Answer:
        """Runs one command, in this folder or the current one, and waits for its answer.

        What `./conform` says on standard error goes there too: where the program isn't built yet, that is how far it is.
        """
        try:
            done = subprocess.run([str(self.program), *words], cwd=folder, stdin=subprocess.DEVNULL, stdout=subprocess.PIPE, check=False)
        except (OSError, ValueError) as error:
            raise KitError(f"the station can't be started: {error}") from None
        if done.returncode > NO_MEMORY or done.returncode < 0:
            raise KitError(f"the station gave no answer (status {done.returncode})")
        return Answer(done.returncode, done.stdout.decode("utf-8", "replace"))

    def list_bytes(self, data: bytes, rate: int) -> Answer:
        """`list` over a list of these bytes. They go through a file of their own, since the station takes no long paths."""
        with tempfile.TemporaryDirectory(prefix="room.") as name:
            folder = Path(name)
            (folder / "list.edl").write_bytes(data)
            return self.ask("list", "list.edl", str(rate), folder=folder)

    def plan(self, project: str, folder: Optional[Path] = None) -> Answer:
        """`plan` of a project, in the folder to which its paths are relative."""
        if len(os.fsencode(project)) > LONGEST_PATH:
            raise KitError(f"the station takes paths of at most {LONGEST_PATH} bytes: {project}")
        return self.ask("plan", project, folder=folder)


_FORMS = (
    re.compile(r"(?P<number>0\.1) (?P<file>frame|project|list|cube)"),
    re.compile(r"(?P<number>7\.1) line (?P<line>\d+) with (?P<with_line>\d+)"),
    re.compile(r"(?P<number>13\.\d+) reel (?P<place>\d+)"),
    re.compile(r"(?P<number>14\.\d+) key (?P<key>\d+) reel (?P<place>\d+)"),
    re.compile(r"(?P<number>15\.5) cut (?P<cut>\d+)"),
    re.compile(r"(?P<number>15\.\d+) line (?P<line>\d+) reel (?P<reel>[^ ]+) frame (?P<frame>-?\d+)(?: fault (?P<fault>8\.\d+))?"),
    re.compile(r"(?P<number>\d+\.\d+) line (?P<line>\d+)"),
)
_WHOLE = ("line", "with_line", "place", "key", "cut", "frame")


def refusal_of(line: str) -> Optional[Refusal]:
    """The refusal that a printed line is, if it is one."""
    is_old = line.startswith("old ")
    words = line[4:] if is_old else line
    if not words.startswith("refused "):
        return None
    for form in _FORMS:
        match = form.fullmatch(words[len("refused ") :])
        if match is not None:
            found: Dict[str, str] = {name: value for name, value in match.groupdict().items() if value is not None}
            numbers = {name: int(found.pop(name)) for name in _WHOLE if name in found}
            return Refusal(is_old=is_old, **numbers, **found)  # type: ignore[arg-type]
    return None


_NUMBER = re.compile(r"-?\d+")


def _unreadable(line: str) -> KitError:
    return KitError(f"the station printed a line that the kit doesn't know: {line[:200]}")


def event_table(answer: Answer) -> EventTable:
    """The table that `list` printed."""
    head = re.fullmatch(r"rate (\d+) (non-drop|drop)", answer.lines[0] if answer.lines else "")
    if answer.status != DONE or head is None:
        raise _unreadable(answer.last)
    return EventTable(int(head.group(1)), head.group(2) == "drop", [_event(line) for line in answer.lines[1:-1]])


def _event(line: str) -> Event:
    words = line.split(" ")
    shape = re.fullmatch(r"C|D(\d+)|W(\d+)/(\d+)", words[6]) if len(words) == 8 else None
    if shape is None:
        raise _unreadable(line)
    return Event(
        line=int(words[0]),
        reel=words[1],
        source_in=words[2],
        source_out=words[3],
        record_in=words[4],
        record_out=words[5],
        transition=words[6][0],
        wipe=int(shape.group(2)) if shape.group(2) else None,
        duration=int(shape.group(1) or shape.group(3) or 0),
        speed=None if words[7] == "-" else int(words[7]),
    )


def plan_frames(answer: Answer) -> List[PlanFrame]:
    """The record frames that `plan` printed."""
    if answer.status != DONE or not answer.last.startswith("frames "):
        raise _unreadable(answer.last)
    frames: List[PlanFrame] = []
    record_reel = 1
    for line in answer.lines[:-1]:
        words = line.split(" ")
        if words[0] == "reel" and len(words) == 2:
            record_reel = int(words[1])
        else:
            frames.append(_plan_frame(len(frames), record_reel, words))
    if answer.last != f"frames {len(frames)}":
        raise _unreadable(answer.last)
    return frames


def _plan_frame(index: int, record_reel: int, words: List[str]) -> PlanFrame:
    # A transition has a second token `k/d`; a reel has no such name behind a label unless a frame follows it.
    place = re.fullmatch(r"(\d+)/(\d+)", words[2]) if len(words) > 4 and "/" in words[2] else None
    if place is not None:
        sides = _sides(words[3:])
        return PlanFrame(index, record_reel, words[0], sides, words[1], int(place.group(1)), int(place.group(2)))
    return PlanFrame(index, record_reel, words[0], _sides(words[1:]))


def _sides(words: List[str]) -> Tuple[Side, ...]:
    sides: List[Side] = []
    place = 0
    while place < len(words):
        if words[place] == "BL":
            sides.append(Side("BL"))
            place += 1
        elif place + 1 < len(words) and _NUMBER.fullmatch(words[place + 1]):
            sides.append(Side(words[place], int(words[place + 1])))
            place += 2
        else:
            raise _unreadable(" ".join(words))
    return tuple(sides)


def pull_ranges(answer: Answer) -> List[PullRange]:
    """The ranges that `pull` printed."""
    if answer.status != DONE or not answer.last.startswith("ranges "):
        raise _unreadable(answer.last)
    rows = [line.split(" ") for line in answer.lines[:-1]]
    return [PullRange(row[0], row[1], row[2], int(row[3])) for row in rows]


def numbers_of(answer: Answer) -> Dict[str, int]:
    """The numbers of `status`, `run`, `verify` or `adopt` by their words, such as `frames` and `acknowledged`."""
    rows = [line.split(" ") for line in answer.lines]
    if answer.status != DONE or any(len(row) != 2 or not row[1].isdigit() for row in rows):
        raise _unreadable(answer.last)
    return {row[0]: int(row[1]) for row in rows}


def qc_lines(answer: Answer) -> List[QcLine]:
    """The table that `qc` printed."""
    if answer.status != DONE or not answer.last.startswith("frames "):
        raise _unreadable(answer.last)
    return [QcLine(*(int(word) for word in line.split(" "))) for line in answer.lines[1:-1]]
