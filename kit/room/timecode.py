"""Labels of timecode, as SMPTE ST 12-1 counts them.

A `Counting` is a rate with or without drop-frame. It turns a label into its number in the day and back: frame 0 is the label
00:00:00:00. Drop-frame counting is defined at rate 30 alone; it passes over the labels with frame 00 and 01 of second 00 in each
minute, but for every tenth one.
"""

from __future__ import annotations

import re
from dataclasses import dataclass
from functools import lru_cache
from typing import Optional, Tuple

RATES = (24, 25, 30)

# What the station takes as a label, by its shape alone.
SHAPE = re.compile(r"([0-9]{2})[:;]([0-9]{2})[:;]([0-9]{2})[:;]([0-9]{2})")

LOOSE_SHAPE = re.compile(r"([0-9]{2})[:;.,]([0-9]{2})[:;.,]([0-9]{2})[:;.,]([0-9]{2})")

# The rates of a second that is a thousandth longer count as these do.
RATE_WORDS = {"23.976": 24, "23.98": 24, "24": 24, "25": 25, "29.97": 30, "30": 30}


@dataclass(frozen=True)
class Counting:
    """How labels are counted: `rate` frames a second, with drop-frame or without."""

    rate: int
    is_drop: bool = False

    @property
    def frames_in_day(self) -> int:
        """How many labels a day has."""
        return 2_589_408 if self.is_drop else 86_400 * self.rate

    def read(self, label: str) -> Tuple[Optional[str], int]:
        """Both at once: the station's refusal of a label, or nothing, and its number where it has one."""
        return _read(self.rate, self.is_drop, label)

    def fault_of(self, label: str) -> Optional[str]:
        """The station's refusal of a label in this counting, such as `2.2`, or nothing where it is taken."""
        return _read(self.rate, self.is_drop, label)[0]

    def number(self, label: str) -> int:
        """The number of a label in its day. A label that isn't taken raises ValueError."""
        fault, number = _read(self.rate, self.is_drop, label)
        if fault is not None:
            raise ValueError(f"{label} is no label at {self} ({fault})")
        return number

    def near_number(self, label: str) -> Optional[int]:
        """The number of a label, also where its separators tell another counting; nothing where it has no number."""
        fault, number = _read(self.rate, self.is_drop, label)
        return None if fault in ("2.1", "2.2", "2.3") else number

    def label(self, number: int) -> str:
        """The label of a number. Numbers outside of the day have none: the text says so."""
        if number < 0:
            return "before 00:00:00:00"
        if number >= self.frames_in_day:
            return "past the day"
        separator = ":"
        if self.is_drop:
            separator = ";"
            tens, rest = divmod(number, 17_982)
            number += 18 * tens + (0 if rest < 1800 else 2 * (1 + (rest - 1800) // 1798))
        seconds, frame = divmod(number, self.rate)
        return f"{seconds // 3600:02}:{seconds // 60 % 60:02}:{seconds % 60:02}{separator}{frame:02}"

    def __str__(self) -> str:
        return f"{self.rate} drop-frame" if self.is_drop else str(self.rate)


@lru_cache(maxsize=1 << 17)
def _read(rate: int, is_drop: bool, label: str) -> Tuple[Optional[str], int]:
    """A label's first fault in the station's order, and its number where it has one. Lists name most labels several times."""
    match = SHAPE.fullmatch(label)
    if match is None:
        return "2.1", 0
    hour, minute, second, frame = map(int, match.groups())
    if hour > 23 or minute > 59 or second > 59 or frame >= rate:
        return "2.2", 0
    minutes = hour * 60 + minute
    if not is_drop:
        return "2.4" if ";" in label else None, (minutes * 60 + second) * rate + frame
    if frame < 2 and second == 0 and minute % 10:
        return "2.3", 0
    return None, minutes * 1798 + minutes // 10 * 2 + second * 30 + frame


def rate_of_word(word: str) -> int:
    """The station's rate that a word names: 23.976 counts as 24, and 29.97 as 30. Other words raise ValueError."""
    if word not in RATE_WORDS:
        raise ValueError(f"the rate is one of {', '.join(RATE_WORDS)}")
    return RATE_WORDS[word]


def parts_of(label: str) -> Tuple[int, ...]:
    """The four numbers of a label of any separators, or none where it is no label."""
    match = LOOSE_SHAPE.fullmatch(label)
    return tuple(int(part) for part in match.groups()) if match else ()
