"""The timeline: a row for each minute of the record, on two tracks by turn, as a drawing that is the same in a page and alone.

Colour tells reels apart, and the reel's name stands in its event where there is room. What is not a plain cut has a form of its
own: a slope is a dissolve, the incoming picture's shape at half way a wipe, a strip below a speed, hatching a gap.
"""

from __future__ import annotations

import bisect
from dataclasses import dataclass, field
from typing import Dict, List, Tuple

from room.report.markup import count, number, text
from room.report.record import Range, Record, Span, how_in_words, speed_in_words
from room.station import Event

WIDTH = 1200
TRACKS = (18, 46)
TALL = 26
LANE = 76
CHANGES = 88
HEIGHT = 96
# Where there are differences, the names of record reels stand below them.
TALLER = 112
# A letter of the drawing's type, which is of one width.
LETTER = 6.7
LONGEST_ROW = 90

# The incoming picture's shape half way through a wipe, by its code, in a square of 1.
WIPE_SHAPES: Dict[int, str] = {
    1: "0,0 .5,0 .5,1 0,1",
    2: "0,0 1,0 1,.5 0,.5",
    3: "0,0 .7,0 .7,.7 0,.7",
    4: ".3,0 1,0 1,.7 .3,.7",
    5: ".3,.3 1,.3 1,1 .3,1",
    6: "0,.3 .7,.3 .7,1 0,1",
    21: ".25,0 .75,0 .75,1 .25,1",
    22: "0,.25 1,.25 1,.75 0,.75",
    41: "0,0 1,0 0,1",
    101: ".15,.15 .85,.15 .85,.85 .15,.85",
    102: ".5,0 1,.5 .5,1 0,.5",
}

PATTERNS = """\
<defs>\
<pattern id="gap" width="6" height="6" patternUnits="userSpaceOnUse" patternTransform="rotate(45)"><rect width="1.5" height="6" class="mark"/></pattern>\
<pattern id="todo" width="5" height="5" patternUnits="userSpaceOnUse" patternTransform="rotate(45)"><rect width="1" height="5" class="mark"/></pattern>\
<pattern id="speed" width="6" height="4" patternUnits="userSpaceOnUse"><path d="M0 0l3 2l-3 2" class="on"/></pattern>\
<pattern id="reverse" width="6" height="4" patternUnits="userSpaceOnUse"><path d="M6 0l-3 2l3 2" class="on"/></pattern>\
<pattern id="freeze" width="6" height="4" patternUnits="userSpaceOnUse"><rect width="3" height="4" class="on"/></pattern>\
</defs>"""


@dataclass
class Marks:
    """What is drawn below the events: ranges that are done, the damaged frames, and ranges that are new or moved against an old list."""

    done: List[Range] = field(default_factory=list)
    damaged: List[int] = field(default_factory=list)
    new: List[Range] = field(default_factory=list)
    moved: List[Range] = field(default_factory=list)
    has_reel: bool = False


@dataclass(frozen=True)
class Row:
    """A row of the drawing: its frames, the end excluded, and how many frames its width is."""

    start: int
    end: int
    scale: int
    drawing: str

    def __str__(self) -> str:
        return self.drawing


def rows_of(record: Record, marks: Marks) -> List[Row]:
    """The rows: one of a short record, else one for each minute."""
    minute = 60 * record.counting.rate
    scale = record.count if record.count <= LONGEST_ROW * record.counting.rate else minute
    starts = [span.start for span in record.spans]
    found: List[Row] = []
    for start in range(0, record.count, scale):
        end = min(start + scale, record.count)
        draw = _Drawing(record, start, end, scale)
        draw.height = TALLER if record.reels and (marks.new or marks.moved) else HEIGHT
        draw.record_reels()
        last = bisect.bisect_left(starts, end)
        first = max(bisect.bisect_right(starts, start) - 1, 0)
        for place in range(first, last):
            draw.span(place, record.spans[place])
        draw.ground(marks)
        found.append(Row(start, end, scale, draw.whole()))
    return found


class _Drawing:
    """One row, while it is drawn."""

    def __init__(self, record: Record, start: int, end: int, scale: int) -> None:
        self.record = record
        self.start = start
        self.end = end
        self.scale = scale
        self.events = 0
        self.height = HEIGHT
        self.parts: List[str] = []

    def x(self, frame: float) -> float:
        """Where a frame begins. The view cuts off what is outside of the row."""
        return (frame - self.start) * WIDTH / self.scale

    def whole(self) -> str:
        label = self.record.label
        name = f"{label(self.start)} to {label(self.end - 1)}: {count(self.events, 'event')}"
        return f'<svg viewBox="0 0 {WIDTH} {self.height}" role="img" aria-label="{name}">' + "".join(self.parts) + "</svg>"

    def span(self, place: int, span: Span) -> None:
        """An event with its transition, its speed and its name."""
        if span.end <= self.start:
            return
        self.events += 1
        top = TRACKS[place % 2]
        left, right = self.x(span.start), self.x(span.end)
        through = self.x(span.start + span.event.duration)
        colour = self.record.colour(span.event.reel)
        self.parts.append(f'<g class="{colour}"><title>{text(title_of(span, self.record.counting.rate))}</title>')
        if span.event.transition == "C":
            self.parts.append(f'<path d="M{number(left)} {top}H{number(right)}v{TALL}H{number(left)}z"/>')
        elif span.event.transition == "D":
            self.parts.append(f'<path d="M{number(left)} {top + TALL}L{number(through)} {top}H{number(right)}v{TALL}z"/>')
        else:
            self.parts.append(_wipe(span.event, left, through, top) + f'<path d="M{number(through)} {top}H{number(right)}v{TALL}H{number(through)}z"/>')
        self.speed(span.event, max(through, 0), right, top)
        self.name(span.event, max(through, 0), min(right, WIDTH), top)
        self.parts.append("</g>")
        if span.event.transition != "C":
            self.tail(place, span, left, through)

    def tail(self, place: int, span: Span, left: float, through: float) -> None:
        """The picture that goes out, on the other track: falling for a dissolve, whole for a wipe."""
        top = TRACKS[(place + 1) % 2]
        fall = number(left) if span.event.transition == "D" else number(through)
        self.parts.append(f'<path class="{self.record.colour(span.outgoing)} tail" d="M{number(left)} {top}H{number(through)}L{fall} {top + TALL}H{number(left)}z"/>')

    def speed(self, event: Event, left: float, right: float, top: int) -> None:
        """A strip along the lower edge: its arrows go the way that the picture does. Patterns begin at multiples of 4."""
        if event.speed is not None and right > left:
            kind = "freeze" if event.speed == 0 else "speed" if event.speed > 0 else "reverse"
            self.parts.append(f'<rect fill="url(#{kind})" x="{number(left)}" y="{top + TALL - 4}" width="{number(right - left)}" height="4"/>')

    def name(self, event: Event, left: float, right: float, top: int) -> None:
        """The reel's name, and the speed behind it, as far as they have room."""
        room = right - left - 6
        words = event.reel
        speed = speed_in_words(event, self.record.counting.rate)
        if speed and len(f"{words} {speed}") * LETTER <= room:
            words = f"{words} {speed}"
        if len(words) * LETTER <= room:
            self.parts.append(f'<text x="{number(left + 4)}" y="{top + 14}">{text(words)}</text>')

    def ground(self, marks: Marks) -> None:
        """What isn't an event: gaps, record reels, the time, and the lanes below."""
        record = self.record
        for start, end in self.inside(record.gaps):
            left, right = self.x(start), max(self.x(end), self.x(start) + 4)
            title = f"gap: {count(end - start, 'black frame')} from {record.label(start)}"
            self.parts.append(f'<rect class="gap" x="{number(left)}" y="{TRACKS[0]}" width="{number(right - left)}" height="{2 * TALL + 2}"><title>{title}</title></rect>')
        self.time()
        if marks.has_reel:
            self.lane(marks)
        for kind, ranges in (("new", marks.new), ("moved", marks.moved)):
            for start, end in self.inside(ranges):
                left, right = self.x(start), max(self.x(end), self.x(start) + 4)
                title = f"{kind}: {count(end - start, 'frame')} from {record.label(start)}"
                self.parts.append(f'<path class="{kind}" d="M{number(left)} {CHANGES}H{number(right)}l-1 5H{number(left + 1)}z"><title>{title}</title></path>')

    def record_reels(self) -> None:
        """Where record reels begin. The line lies behind the events."""
        for reel, start in self.record.reels:
            if self.start <= start < self.end:
                left = self.x(start)
                at, anchor = (left + 4, "start") if left < WIDTH - 70 else (left - 4, "end")
                self.parts.append(f'<path class="reel" d="M{number(left)} 0V{self.height}"/><text class="note" x="{number(at)}" y="{self.height - 3}" text-anchor="{anchor}">reel {reel}</text>')

    def lane(self, marks: Marks) -> None:
        """What is done is solid, what isn't is hatched, and a damaged frame has a mark that stands out of the lane."""
        width = number(self.x(self.end))
        self.parts.append(f'<rect class="todo" x="0" y="{LANE}" width="{width}" height="8"><title>not done</title></rect>')
        for start, end in self.inside(marks.done):
            left = max(self.x(start), 0)
            right = min(self.x(end), WIDTH)
            self.parts.append(f'<rect class="done" x="{number(left)}" y="{LANE}" width="{number(max(right - left, 0.6))}" height="8"><title>done: frames {start} to {end - 1}</title></rect>')
        for frame in marks.damaged:
            if self.start <= frame < self.end:
                self.parts.append(f'<path class="bad" d="M{number(self.x(frame + 0.5))} {LANE - 5}l9 9l-9 9l-9 -9z"><title>damaged: frame {frame}, {self.record.label(frame)}</title></path>')

    def inside(self, ranges: List[Range]) -> List[Range]:
        """The ranges that reach into this row."""
        first = bisect.bisect_left(ranges, (self.start, self.start))
        found: List[Range] = [pair for pair in ranges[max(first - 1, 0) : first] if pair[1] > self.start]
        for pair in ranges[first:]:
            if pair[0] >= self.end:
                break
            found.append(pair)
        return found

    def time(self) -> None:
        """Labels of the record, as many as there is room for."""
        rate = self.record.counting.rate
        steps = [1, 2, 5, rate // 2, *(rate * seconds for seconds in (1, 2, 5, 10, 15, 30))]
        step = next(step for step in steps if step * WIDTH / self.scale >= 110 or step == steps[-1])
        ticks: List[str] = []
        for frame in range(self.start, self.end, step):
            left = self.x(frame)
            ticks.append(f"M{number(left)} 2V{TRACKS[0]}")
            if left <= WIDTH - 12 * LETTER - 6:
                self.parts.append(f'<text class="note" x="{number(left + 4)}" y="12">{self.record.label(frame)}</text>')
        self.parts.append(f'<path class="tick" d="{"".join(ticks)}"/>')


def _wipe(event: Event, left: float, right: float, top: int) -> str:
    """A frame, and in it the incoming picture's shape half way."""
    width = right - left
    points = [point.split(",") for point in WIPE_SHAPES.get(event.wipe or 0, WIPE_SHAPES[1]).split()]
    shape = "L".join(f"{number(left + float(x) * width)} {number(top + float(y) * TALL)}" for x, y in points)
    return f'<path class="wipe" d="M{number(left)} {top}H{number(right)}v{TALL}H{number(left)}z"/><path d="M{shape}z"/>'


def title_of(span: Span, rate: int) -> str:
    """An event in words."""
    event = span.event
    speed = speed_in_words(event, rate)
    words = f"line {event.line}: {event.reel} {event.source_in}, record {event.record_in} to {event.record_out}, {how_in_words(event)}"
    if span.outgoing:
        words += f" from {span.outgoing}"
    return f"{words}, {'freeze' if speed == 'freeze' else 'speed ' + speed}" if speed else words


def ranges_of_flags(flags: bytearray) -> List[Range]:
    """Where flags are set, as ranges with their ends excluded."""
    found: List[Range] = []
    place = flags.find(1)
    while place >= 0:
        end = flags.find(0, place)
        end = len(flags) if end < 0 else end
        found.append((place, end))
        place = flags.find(1, end)
    return found


def legend(record: Record, marks: Marks) -> List[Tuple[str, str, bool]]:
    """The key: a class, its words, and whether it is a reel."""
    events = [span.event for span in record.spans]
    rows = [(record.colour(reel), reel, True) for reel in list(record.colours)[:60]]
    if len(record.colours) > 60:
        rows.append(("", f"and {len(record.colours) - 60} more reels", True))
    kinds = (
        ("dissolve", "dissolve", any(event.transition == "D" for event in events)),
        ("wipe", "wipe, half way", any(event.transition == "W" for event in events)),
        ("gap", "gap, black", bool(record.gaps) or any(event.reel == "BL" for event in events)),
        ("speed", "speed", any((event.speed or 0) > 0 for event in events)),
        ("reverse", "reverse", any((event.speed or 0) < 0 for event in events)),
        ("freeze", "freeze", any(event.speed == 0 for event in events)),
        ("done", "done", bool(marks.done)),
        ("todo", "not done", marks.has_reel and sum(b - a for a, b in marks.done) < record.count),
        ("bad", "damaged", bool(marks.damaged)),
        ("new", "new against the old list", bool(marks.new)),
        ("moved", "moved, shown elsewhere before", bool(marks.moved)),
        ("reel", "a record reel begins", bool(record.reels)),
    )
    return rows + [(kind, words, False) for kind, words, is_there in kinds if is_there]
