"""Sequences of DPX files below folders, and which reel of a list each is."""

from __future__ import annotations

import os
import re
from dataclasses import dataclass
from typing import Collection, Dict, List, Optional, Sequence, Set, Tuple

from room.dpx import Head, read_head
from room.errors import KitError, printable
from room.timecode import Counting

FILE = re.compile(r"(?P<stem>.*?)(?P<number>[0-9]{1,9})\.(?P<ending>[dD][pP][xX])")
# Names of sequences and reels are compared without what stands between their letters.
PLAIN = re.compile(r"[^a-z0-9]+")


@dataclass
class Scans:
    """Files of one folder and one stem whose numbers follow one another. `head` is the first file's; `last` the last one's."""

    folder: str
    stem: str
    digits: int
    ending: str
    first: int
    count: int
    head: Optional[Head] = None
    last: Optional[Head] = None

    def path(self, place: int) -> str:
        """The path of its file at a place, from 0."""
        return os.path.join(self.folder, f"{self.stem}{self.first + place:0{self.digits}}.{self.ending}")

    @property
    def prefix(self) -> str:
        return os.path.join(self.folder, self.stem)

    @property
    def is_station_named(self) -> bool:
        """Whether its files have names that the station reads: seven digits and `.dpx`."""
        return self.digits == 7 and self.ending == "dpx"

    def first_frame(self, counting: Counting) -> Optional[int]:
        """The frame of its first file by the timecode of the heads, where the last one's agrees."""
        if self.head is None or self.head.timecode is None:
            return None
        number = counting.near_number(self.head.timecode)
        end = self.last.timecode if self.last is not None else None
        if number is None or (self.count > 1 and end is not None and counting.near_number(end) != number + self.count - 1):
            return None
        return number

    @property
    def spelled(self) -> str:
        """Its files in a word, such as `scans/a001.[0001-0048].dpx`."""
        last = self.first + self.count - 1
        return f"{self.prefix}[{self.first:0{self.digits}}-{last:0{self.digits}}].{self.ending}"


def find_sequences(folders: Sequence[str]) -> List[Scans]:
    """All sequences below these folders, in the order of their paths. A link to a folder is followed once."""
    found: List[Scans] = []
    seen: Set[str] = set()
    for top in folders:
        if not os.path.isdir(top):
            raise KitError(f"{printable(top)} is no folder")
        for folder, inner, names in os.walk(top, followlinks=True):
            real = os.path.realpath(folder)
            if real in seen:
                inner[:] = []
                continue
            seen.add(real)
            inner.sort()
            found += sequences_in(folder, names)
    for sequence in found:
        sequence.head = read_head(sequence.path(0))
        sequence.last = read_head(sequence.path(sequence.count - 1)) if sequence.count > 1 else None
    return found


def sequences_in(folder: str, names: Sequence[str]) -> List[Scans]:
    """The sequences of one folder's file names."""
    numbers: Dict[Tuple[str, int, str], List[int]] = {}
    for name in names:
        match = FILE.fullmatch(name)
        if match is None:
            continue
        key = (match.group("stem"), len(match.group("number")), match.group("ending"))
        numbers.setdefault(key, []).append(int(match.group("number")))
    found: List[Scans] = []
    for stem, digits, ending in sorted(numbers):
        for number in sorted(numbers[(stem, digits, ending)]):
            last = found[-1] if found else None
            if last is not None and (last.stem, last.digits, last.ending) == (stem, digits, ending) and last.first + last.count == number:
                last.count += 1
            else:
                found.append(Scans("" if folder == "." else folder, stem, digits, ending, number, 1))
    return found


def plain(name: str) -> str:
    """A name's letters and digits alone, in small letters."""
    return PLAIN.sub("", name.lower())


def likeness(reel: str, sequence: Scans) -> int:
    """How much a sequence's names look like a reel's: 3 the same, 2 one begins with the other, 1 the reel stands within, 0 not."""
    wanted = plain(reel)
    parts = [sequence.stem, *reversed(os.path.abspath(sequence.folder or ".").split(os.sep)[-3:])]
    names = [plain(part) for part in parts if plain(part)]
    if not wanted:
        return 0
    if wanted in names:
        return 3
    if any(name.startswith(wanted) or (len(name) > 3 and wanted.startswith(name)) for name in names):
        return 2
    return 1 if len(wanted) > 2 and any(wanted in name for name in names) else 0


@dataclass
class Match:
    """A sequence that is a reel's, the frame of its first file, and how that is known."""

    sequence: Scans
    first_frame: Optional[int]
    how: str


def matches_of(reel: str, frames: Collection[int], counting: Counting, sequences: List[Scans]) -> List[Match]:
    """The sequences of a reel: by name and timecode, by name and number, by name alone, or by timecode alone where that is one."""
    named = [(likeness(reel, sequence), sequence) for sequence in sequences]
    best = max((score for score, _ in named), default=0)
    own = [sequence for score, sequence in named if score == best and score > 0]
    timed = [match for match in (by_timecode(sequence, frames, counting) for sequence in own) if match is not None]
    if timed:
        return [Match(match.sequence, match.first_frame, "by name and timecode") for match in timed]
    numbered = [Match(s, s.first, "by name and number") for s in own if s.head and s.head.timecode is None and _meets(s.first, s.count, frames)]
    if numbered:
        return numbered
    if own:
        return [Match(sequence, sequence.first_frame(counting), "by name alone") for sequence in own]
    others = [match for match in (by_timecode(sequence, frames, counting) for sequence in sequences) if match is not None]
    return others if len(others) == 1 else []


def by_timecode(sequence: Scans, frames: Collection[int], counting: Counting) -> Optional[Match]:
    """The sequence, where its heads' timecode meets the wanted frames."""
    first = sequence.first_frame(counting)
    if first is None or not _meets(first, sequence.count, frames):
        return None
    return Match(sequence, first, "by timecode alone")


def _meets(first: int, count: int, frames: Collection[int]) -> bool:
    if isinstance(frames, range):
        return first < frames.stop and frames.start < first + count
    return any(first <= frame < first + count for frame in frames)
