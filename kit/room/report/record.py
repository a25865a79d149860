"""What a page draws: the events of a list on the frames of its record, and where `plan` is had the frames themselves.

Frames count from 0, the record's first. A `Span` is an event that has frames; events of no length show in transitions alone.
"""

from __future__ import annotations

from dataclasses import dataclass, field
from typing import Dict, List, Tuple

from room.station import Event, EventTable, PlanFrame
from room.taken import WIPES
from room.timecode import Counting

# So many colours tell reels apart; the reel's name stands beside each.
COLOURS = 8

Range = Tuple[int, int]


@dataclass(frozen=True)
class Span:
    """An event and its frames, the end excluded; `outgoing` is the reel from which a transition comes."""

    event: Event
    start: int
    end: int
    outgoing: str = ""

    @property
    def length(self) -> int:
        return self.end - self.start

    @property
    def behind(self) -> int:
        """The first frame behind the transition; the last frame where the transition is as long as the event."""
        return min(self.start + self.event.duration, self.end - 1)

    @property
    def shown(self) -> int:
        """The frame that stands for the event: from the middle of what is behind its transition."""
        return (self.behind + self.end) // 2 if self.end > self.behind + 1 else self.behind


@dataclass
class Record:
    """The frames of a record, and what is on them."""

    counting: Counting
    first: int
    count: int
    spans: List[Span]
    gaps: List[Range]
    reels: List[Tuple[int, int]] = field(default_factory=list)
    colours: Dict[str, int] = field(default_factory=dict)

    def __post_init__(self) -> None:
        for name in (name for span in self.spans for name in (span.outgoing, span.event.reel)):
            if name and name != "BL":
                self.colours.setdefault(name, len(self.colours) % COLOURS)

    def label(self, index: int) -> str:
        return self.counting.label(self.first + index)

    def colour(self, reel: str) -> str:
        """The class of a reel's colour."""
        return f"r{self.colours[reel]}" if reel in self.colours else "black"


def record_of(table: EventTable, frames: List[PlanFrame]) -> Record:
    """The record of a list, with the record reels of its plan where there is one."""
    counting = Counting(table.rate, table.is_drop)
    numbers = [(counting.number(event.record_in), counting.number(event.record_out)) for event in table.events]
    lasting = [pair for pair in numbers if pair[1] > pair[0]]
    first = counting.number(frames[0].label) if frames else min(pair[0] for pair in lasting)
    count = len(frames) or max(pair[1] for pair in numbers) - first
    spans: List[Span] = []
    for place, (event, (start, end)) in enumerate(zip(table.events, numbers)):
        if end > start:
            outgoing = table.events[place - 1].reel if event.transition != "C" and place else ""
            spans.append(Span(event, start - first, end - first, outgoing))
    spans.sort(key=lambda span: span.start)
    return Record(counting, first, count, spans, _gaps(spans, count), _record_reels(frames))


def _gaps(spans: List[Span], count: int) -> List[Range]:
    """The ranges that no event has: they are black."""
    gaps: List[Range] = []
    place = 0
    for span in spans:
        if span.start > place:
            gaps.append((place, span.start))
        place = max(place, span.end)
    return gaps + [(place, count)] if place < count else gaps


def _record_reels(frames: List[PlanFrame]) -> List[Tuple[int, int]]:
    """The number and the first frame of each record reel, where there are several."""
    found: List[Tuple[int, int]] = []
    for frame in frames:
        if not found or found[-1][0] != frame.record_reel:
            found.append((frame.record_reel, frame.index))
    return found if len(found) > 1 else []


def how_in_words(event: Event) -> str:
    """How an event comes in."""
    if event.transition == "C":
        return "cut"
    frames = f"{event.duration} frame{'' if event.duration == 1 else 's'}"
    if event.transition == "D":
        return f"dissolve, {frames}"
    return f"wipe {event.wipe:03} {WIPES.get(event.wipe or 0, '')}, {frames}"


def speed_in_words(event: Event, rate: int) -> str:
    """The speed of an event with a motion line: a share of play speed."""
    if event.speed is None:
        return ""
    return "freeze" if event.speed == 0 else f"{event.speed / rate:.4g}%"
