"""The levels of a reel by frame: the mean, and how much of the picture is clipped and crushed, with the cuts behind.

They are drawn in rows of five minutes; what a column has is drawn from its least to its greatest value.
"""

from __future__ import annotations

import base64
import zlib
from array import array
from dataclasses import dataclass
from typing import Dict, List, Sequence, Set, Tuple

from room.report.markup import number
from room.report.record import Record
from room.station import QcLine

COLUMNS = 600
ROW_MINUTES = 5
GREATEST_CODE = 1023
# A jump is a change of the mean by so much of the greatest mean, and by so many codes at least.
JUMP_SHARE = 0.12
JUMP_CODES = 12
MOST_JUMPS = 40

# Name, words, top and height in the drawing.
CURVES = (
    ("mean", "Mean level", 18, 84),
    ("clipped", "Clipped", 122, 40),
    ("crushed", "Crushed", 182, 40),
)
HEIGHT = 226


@dataclass(frozen=True)
class Jump:
    """A frame whose mean differs much from that of the frame before, where the list has no cause."""

    frame: int
    before: float
    after: float


@dataclass
class Levels:
    """The curves over the frames of a record. Means are codes of 0 to 1023, the others counts of pixels."""

    frames: List[int]
    mean: List[float]
    high: List[int]
    low: List[int]
    pixels: int

    @property
    def tops(self) -> Tuple[float, float, float]:
        """What the upper edge of each curve stands for."""
        least = max(self.pixels * 0.001, 1)
        return float(GREATEST_CODE), max(least, *self.high, 0), max(least, *self.low, 0)


def levels_of(lines: Sequence[QcLine], pixels: int) -> Levels:
    """The table of `qc` as curves."""
    return Levels(
        [line.frame for line in lines],
        [line.sum / (3 * pixels) for line in lines],
        [line.high for line in lines],
        [line.low for line in lines],
        pixels,
    )


def rows_of(record: Record) -> List[Tuple[int, int, int]]:
    """Rows as ranges of frames, and how many frames the width is."""
    minute = 60 * record.counting.rate
    scale = record.count if record.count <= (ROW_MINUTES + 1) * minute else ROW_MINUTES * minute
    return [(start, min(start + scale, record.count), scale) for start in range(0, record.count, scale)]


def drawing(record: Record, levels: Levels, start: int, end: int, scale: int) -> str:
    """The three curves of a row, and the cuts behind them."""
    name = f"levels from {record.label(start)} to {record.label(end - 1)}"
    cuts = "".join(f"M{number((span.start - start) * COLUMNS / scale)} 0V{HEIGHT}" for span in record.spans if start < span.start < end)
    parts = [f'<svg viewBox="0 0 {COLUMNS} {HEIGHT}" preserveAspectRatio="none" role="img" aria-label="{name}"><path class="cut" d="{cuts}"/>']
    for values, top_value, (kind, _, top, height) in zip((levels.mean, levels.high, levels.low), levels.tops, CURVES):
        path = curve(levels.frames, values, start, end, scale, top_value, top, height)
        parts.append(f'<path class="base" d="M0 {top + height + 1}H{COLUMNS}"/><path class="curve {kind}" d="{path}"/>')
    return "".join(parts) + "</svg>"


def curve(frames: Sequence[int], values: Sequence[float], start: int, end: int, scale: int, top_value: float, top: int, height: int) -> str:
    """A path. Where there are fewer frames than columns a frame is a step, else a column goes from its least to its greatest value."""
    columns = min(COLUMNS, scale)
    found: Dict[int, Tuple[float, float]] = {}
    for frame, value in zip(frames, values):
        if start <= frame < end:
            column = (frame - start) * columns // scale
            low, high = found.get(column, (value, value))
            found[column] = (min(low, value), max(high, value))
    width = COLUMNS / columns
    parts: List[str] = []
    before = None
    for column, (low, high) in found.items():
        a, b = (round(top + height * (1 - min(value / top_value, 1))) for value in (low, high))
        x = number(column * width)
        if before is None or before[0] != column - 1:
            parts.append(f"M{x} {b}")
        else:
            parts.append(f"V{b}" if before[1] != b else "")
        parts.append((f"V{a}" if a != b else "") + f"H{number((column + 1) * width)}")
        before = (column, a)
    return "".join(parts)


def jumps_of(record: Record, levels: Levels) -> List[Jump]:
    """The greatest jumps that no cut, transition or gap explains, in the order of the record."""
    known = _known_changes(record)
    least = max(JUMP_CODES, JUMP_SHARE * max(levels.mean, default=0))
    found: List[Jump] = []
    for place in range(1, len(levels.frames)):
        frame, before, after = levels.frames[place], levels.mean[place - 1], levels.mean[place]
        if abs(after - before) >= least and levels.frames[place - 1] == frame - 1 and frame not in known:
            found.append(Jump(frame, before, after))
    greatest = sorted(found, key=lambda jump: -abs(jump.after - jump.before))[:MOST_JUMPS]
    return sorted(greatest, key=lambda jump: jump.frame)


def _known_changes(record: Record) -> Set[int]:
    """Frames at which the list changes the picture: cuts, ends, and all of a transition with the frame behind it."""
    known: Set[int] = set()
    for span in record.spans:
        known.update(range(span.start, span.start + span.event.duration + 1))
        known.add(span.end)
    return known


def packed(levels: Levels, total: int) -> str:
    """What the cursor tells, for the script: tenths of the mean plus one, then both counts, a column after the other, deflated."""
    mean, high, low = array("I", bytes(4 * total)), array("I", bytes(4 * total)), array("I", bytes(4 * total))
    for frame, value, clipped, crushed in zip(levels.frames, levels.mean, levels.high, levels.low):
        mean[frame], high[frame], low[frame] = round(value * 10) + 1, clipped, crushed
    data = b"".join(_little_endian(column) for column in (mean, high, low))
    return base64.b64encode(zlib.compress(data, 9)).decode("ascii")


def _little_endian(column: "array[int]") -> bytes:
    import sys

    if sys.byteorder == "big":
        column.byteswap()
    # Bytes of one weight lie together, so that they pack well.
    data = column.tobytes()
    return b"".join(data[k::4] for k in range(4))
