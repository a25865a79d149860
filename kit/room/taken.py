"""A list by the station's own rules, read on behind each fault.

The station tells the first refusal and stops. This reading follows the same rules and tells all of them, so that a list is mended
in one round. It is a copy of rules that stand elsewhere (docs/refusals.md, sections 2 to 7), so what it says is a proposal:
`check` and `rewrite` ask the station's `list` besides, and where the two differ the station is right.
"""

from __future__ import annotations

import bisect
import itertools
import re
from dataclasses import dataclass, field
from typing import Dict, List, Optional

from room.edit_list import TOKEN, fcm_words, says_drop
from room.least import Least
from room.list_text import LONGEST, Line
from room.timecode import Counting

NAME = re.compile(r"[!-~]{1,64}")
NUMBER = re.compile(r"[0-9]{1,6}")
SOUND = re.compile(r"[A0-9/]+|NONE")
WIPE = re.compile(r"W([0-9]{3})")
DURATION = re.compile(r"[0-9]{1,5}")
SPEED = re.compile(r"([+-]?)([0-9]{1,4})(?:\.([0-9]{1,2}))?")
WIPES = {
    1: "from the left",
    2: "from the top",
    3: "from the upper left corner",
    4: "from the upper right corner",
    5: "from the lower right corner",
    6: "from the lower left corner",
    21: "from the middle to both sides",
    22: "from the middle up and down",
    41: "along a diagonal from the upper left",
    101: "a box from the centre",
    102: "a diamond from the centre",
}
MOST_EVENTS = 10_000
LONGEST_REEL = 262_144


@dataclass(frozen=True)
class Refused:
    """A refusal: its number (`3.2`), its line, where in the line it lies, and what the kit can add to the page's words."""

    number: str
    line: int
    column: int = 0
    width: int = 0
    added: str = ""
    other_line: int = 0


@dataclass
class Taken:
    """A picture line that the station takes: all times are numbers of frames."""

    line: int
    event: int
    reel: str
    is_drop: bool
    source_in: int
    source_out: int
    record_in: int
    record_out: int
    transition: str
    wipe: int
    duration: int
    speed: Optional[int] = None
    motion_line: int = 0

    @property
    def length(self) -> int:
        return self.record_out - self.record_in

    @property
    def is_black(self) -> bool:
        return self.reel == "BL"


@dataclass
class Head:
    """An event line of any channels, as motion lines see it."""

    line: int
    event: int
    reel: str
    taken: Optional[Taken]


@dataclass
class Reading:
    """What a list comes to: the events that are taken, all refusals, and the lines that are passed over as sound."""

    rate: int
    is_drop: bool = False
    events: List[Taken] = field(default_factory=list)
    refused: List[Refused] = field(default_factory=list)
    sound_lines: List[int] = field(default_factory=list)

    @property
    def first(self) -> Optional[Refused]:
        """The refusal that `list` tells: lines by themselves first, then lengths, then the list as a whole."""
        own = [r for r in self.refused if r.number not in ("4.1", "4.8", "7.1", "7.2")]
        later = [r for r in self.refused if r.number in ("4.1", "4.8")]
        return min(own, key=lambda r: r.line) if own else (later[0] if later else None)


def read_list(lines: List[Line], rate: int, size: int = 0) -> Reading:
    """The list of these lines at a rate; `size` is the number of the file's bytes."""
    reader = _Reader(rate)
    if size > LONGEST:
        reader.reading.refused.append(Refused("3.7", 0, added=f"it has {size} bytes"))
        return reader.reading
    for line in lines:
        reader.read(line)
    reader.end()
    return reader.reading


def tokens_of(text: str) -> List[str]:
    """What stands between blanks and tabs."""
    return text.split() if text.isascii() and text.isprintable() else TOKEN.findall(text)


class _Reader:
    """One pass over the lines, with what holds at each."""

    def __init__(self, rate: int) -> None:
        self.reading = Reading(rate)
        self.rate = rate
        self.plain, self.drop = Counting(rate), Counting(rate, True)
        self.is_drop = False
        self.record_drop: Optional[bool] = None
        self.last_out: Optional[int] = None
        # Behind a picture line that is refused nobody knows where it ends, so the next transition isn't judged by it.
        self.is_last_known = True
        self.pictures = 0
        self.run: List[Head] = []
        self.by_reel: Dict[str, List[Head]] = {}
        self.moved: Dict[str, int] = {}
        # Events whose motion line is refused: their lengths aren't judged either.
        self.unsure_runs: List[List[Head]] = []
        self.has_refused_event = False

    def refuse(self, number: str, line: Line, token: int, added: str = "") -> None:
        """A refusal at the token with this number, or at the last one where the line has fewer."""
        spans = [match.span() for match in itertools.islice(TOKEN.finditer(line.text), token + 1)]
        column, end = spans[-1]
        self.reading.refused.append(Refused(number, line.number, column, end - column, added))

    def read(self, line: Line) -> None:
        start = line.text.lstrip(" \t")
        if "0" <= start[:1] <= "9":
            self.read_event(line, tokens_of(start))
        elif start.startswith("FCM:"):
            self.read_fcm(line)
        elif start[:3] in ("M2", "M2 ", "M2\t"):
            self.read_motion(line, tokens_of(start))

    def read_fcm(self, line: Line) -> None:
        words = fcm_words(line.text) or ""
        tokens = words.replace("\t", " ").split(" ")
        tokens = [token for token in tokens if token]
        is_plain = tokens[:2] in (["DROP", "FRAME"], ["NON-DROP", "FRAME"]) or tokens[:3] == ["NON", "DROP", "FRAME"]
        means = says_drop(words)
        if not is_plain or (means and self.rate != 30):
            behind = line.text.find("FCM:") + 4
            start = len(line.text) - len(line.text[behind:].lstrip(" \t"))
            width = max(1, len(line.text.rstrip(" \t")) - start)
            self.reading.refused.append(Refused("3.5", line.number, start, width))
        if means is not None:
            self.is_drop = means and self.rate == 30

    def read_event(self, line: Line, words: List[str]) -> None:
        if NUMBER.fullmatch(words[0]) is None:
            return self.refuse_event("3.1", line, words, 0, "the event number is one to six digits")
        if len(words) < 2 or NAME.fullmatch(words[1]) is None:
            return self.refuse_event("3.1", line, words, 1, "a reel is 1 to 64 printing ASCII characters")
        if len(words) < 3:
            return self.refuse_event("3.1", line, words, 2, "the line ends here")
        if "V" in words[2] or words[2] == "B":
            self.read_picture(line, words)
        elif SOUND.fullmatch(words[2]):
            self.reading.sound_lines.append(line.number)
            self.begin_record()
            self.add_to_run(Head(line.number, int(words[0]), words[1], None))
        else:
            self.refuse_event("3.2", line, words, 2)

    def begin_record(self) -> None:
        if self.record_drop is None:
            self.record_drop = self.is_drop

    def refuse_event(self, number: str, line: Line, words: List[str], token: int, added: str = "") -> None:
        """A refused event line may be a picture line: what stands behind it is judged with care."""
        self.refuse(number, line, token, added)
        self.begin_record()
        self.is_last_known = False
        self.has_refused_event = True
        digits = re.match("[0-9]{1,6}", words[0])
        head = Head(line.number, int(digits.group()) if digits else -1, words[1] if len(words) > 1 else "", None)
        self.add_to_run(head)
        self.doubt_run()

    def add_to_run(self, head: Head) -> None:
        if not self.run or self.run[-1].event != head.event:
            self.run = []
            self.by_reel = {}
            self.moved = {}
        self.run.append(head)
        self.by_reel.setdefault(head.reel, []).append(head)

    def doubt_run(self) -> None:
        """The lengths of this run's events aren't judged."""
        if not self.unsure_runs or self.unsure_runs[-1] is not self.run:
            self.unsure_runs.append(self.run)

    def read_picture(self, line: Line, words: List[str]) -> None:
        if len(words) < 4:
            return self.refuse_event("3.1", line, words, 3, "the line ends here")
        shape = words[3]
        wipe = WIPE.fullmatch(shape) if shape[0] == "W" else None
        if shape != "C" and shape != "D" and wipe is None:
            return self.refuse_event("3.3" if shape[0] == "K" else "3.6", line, words, 3)
        times = 4
        if shape != "C":
            if len(words) < 5 or DURATION.fullmatch(words[4]) is None:
                return self.refuse_event("3.6", line, words, 4, "a duration is one to five digits")
            times = 5
        if len(words) < times + 4:
            return self.refuse_event("3.1", line, words, len(words), "four labels are wanted")
        duration = int(words[4]) if times == 5 else 0
        code = int(wipe.group(1)) if wipe else 0
        self.judge_picture(line, words, times, shape[0], code, duration)

    def judge_picture(self, line: Line, words: List[str], times: int, shape: str, wipe: int, duration: int) -> None:
        """A picture line whose tokens are right: its labels, its length and its transition."""
        self.begin_record()
        self.pictures += 1
        numbers: List[int] = []
        source, record = self.source_counting, self.record_counting
        for place, counting in enumerate((source, source, record, record)):
            fault, number = counting.read(words[times + place])
            if fault is not None:
                which = ("source in", "source out", "record in", "record out")[place]
                return self.refuse_event(fault, line, words, times + place, f"the {which}")
            numbers.append(number)
        taken = Taken(line.number, int(words[0]), words[1], self.is_drop, *numbers, shape, wipe, duration)
        if taken.length < 0:
            return self.refuse_event("4.2", line, words, times + 3, f"the record ends {-taken.length} frames before it begins")
        if self.pictures > MOST_EVENTS:
            return self.refuse_event("4.7", line, words, 0)
        self.judge_transition(line, taken)
        self.last_out, self.is_last_known = taken.record_out, True
        self.reading.events.append(taken)
        self.add_to_run(Head(line.number, taken.event, taken.reel, taken))

    @property
    def source_counting(self) -> Counting:
        return self.drop if self.is_drop else self.plain

    @property
    def record_counting(self) -> Counting:
        return self.drop if self.record_drop else self.plain

    def judge_transition(self, line: Line, taken: Taken) -> None:
        if taken.transition == "C":
            return
        if taken.transition == "W" and taken.wipe not in WIPES:
            self.refuse("4.5", line, 3, "there are " + ", ".join(f"{code:03} {shape}" for code, shape in WIPES.items()))
        elif self.is_last_known and self.last_out != taken.record_in:
            self.refuse("4.3", line, 3, self.no_from(taken))
        elif not 1 <= taken.duration <= taken.length:
            self.refuse("4.4", line, 3, f"the transition has {taken.duration} frames, the event {taken.length}")

    def no_from(self, taken: Taken) -> str:
        if self.last_out is None:
            return "it is the first picture line"
        return f"the picture line before ends {abs(taken.record_in - self.last_out)} frames " + (
            "earlier" if self.last_out < taken.record_in else "later"
        )

    def read_motion(self, line: Line, words: List[str]) -> None:
        faulty = None
        if len(words) < 2 or NAME.fullmatch(words[1]) is None:
            faulty = 1
        elif len(words) < 3 or SPEED.fullmatch(words[2]) is None:
            faulty = 2
        elif len(words) < 4:
            faulty = 3
        if faulty is not None:
            self.refuse("3.4", line, faulty)
            self.doubt_run()
            return
        fault, _ = self.source_counting.read(words[3])
        if fault is not None:
            self.refuse(fault, line, 3, "the trigger")
        self.bind_motion(line, words[1], words[2], is_refused=fault is not None)

    def bind_motion(self, line: Line, reel: str, speed: str, is_refused: bool) -> None:
        """The first motion line of a reel belongs to the run's first event line of that reel, and so on."""
        own = self.by_reel.get(reel, [])
        place = self.moved.get(reel, 0)
        self.moved[reel] = place + 1
        if place >= len(own):
            if not is_refused:
                self.refuse("4.6", line, 1)
            self.doubt_run()
            return
        taken = own[place].taken
        if taken is not None:
            taken.speed = hundredths(speed)
            taken.motion_line = line.number

    def end(self) -> None:
        reading = self.reading
        reading.is_drop = bool(self.record_drop)
        unsure = {head.line for run in self.unsure_runs for head in run}
        for taken in reading.events:
            source = taken.source_out - taken.source_in
            if taken.speed is None and not taken.is_black and source != taken.length and taken.line not in unsure:
                reading.refused.append(Refused("4.1", taken.line, added=lengths_in_words(source, taken.length, self.rate)))
        if not any(taken.length > 0 for taken in reading.events) and not self.has_refused_event:
            reading.refused.append(Refused("4.8", 0))
        reading.refused.extend(timeline_refusals(reading.events))


def hundredths(speed: str) -> int:
    """A speed as a number of hundredths of a frame a second."""
    match = SPEED.fullmatch(speed)
    if match is None:
        raise ValueError(speed)
    value = int(match.group(2)) * 100 + int((match.group(3) or "0").ljust(2, "0"))
    return -value if match.group(1) == "-" else value


def lengths_in_words(source: int, record: int, rate: int) -> str:
    """Both lengths, and the speed that would fit."""
    if source < 0:
        return f"the source ends {-source} frames before it begins, and no source passes midnight; the record has {record} frames"
    text = f"the source has {source} frames, the record {record}"
    if source > 0 and record > 0:
        text += f"; a motion line of {spelled_speed(round(source * rate * 100 / record))} would fit"
    return text


def spelled_speed(value: int) -> str:
    """A speed in hundredths, as lists spell it."""
    whole, part = divmod(abs(value), 100)
    text = f"{whole:03}.{part:02}"
    return ("-" if value < 0 else "") + (text[:-1] if text.endswith("0") else text)


def timeline_refusals(events: List[Taken]) -> List[Refused]:
    """7.1 of each line that shares a record frame with an earlier one, with the earliest such one, and 7.2."""
    lasting = [taken for taken in events if taken.length > 0]
    refused = _overlaps(lasting)
    if lasting:
        frames = max(taken.record_out for taken in events) - min(taken.record_in for taken in lasting)
        if frames > LONGEST_REEL:
            refused.append(Refused("7.2", 0, added=f"it has {frames} frames"))
    return refused


def _overlaps(lasting: List[Taken]) -> List[Refused]:
    """Lines are put in, one after another; those that share no frame with an earlier one stay sorted by their record in."""
    refused: List[Refused] = []
    starts: List[int] = []
    ends: List[int] = []
    lines: List[int] = []
    earliest: Optional[Least] = None
    overlapping: List[Taken] = []
    for taken in lasting:
        place = bisect.bisect_right(ends, taken.record_in)
        near = [other.line for other in overlapping if other.record_in < taken.record_out and taken.record_in < other.record_out]
        if place < len(starts) and starts[place] < taken.record_out:
            if earliest is None:
                earliest = Least(other.record_in for other in lasting)
                for start, line in zip(starts, lines):
                    earliest.put(start, line)
            near.append(earliest.of(starts[place], taken.record_out))
        if near:
            refused.append(Refused("7.1", taken.line, other_line=min(near)))
            if len(overlapping) < 50:
                overlapping.append(taken)
        else:
            starts.insert(place, taken.record_in)
            ends.insert(place, taken.record_out)
            lines.insert(place, taken.line)
            if earliest is not None:
                earliest.put(taken.record_in, taken.line)
    return refused
