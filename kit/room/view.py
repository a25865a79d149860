"""A list as a person sees it: its edits with their events, motion lines and notes, beside what the station takes.

An edit is a row of event lines with one number, and the motion lines and notes behind it.
"""

from __future__ import annotations

import os
import re
from dataclasses import dataclass, field
from functools import cached_property, lru_cache
from typing import Dict, Iterable, List, Optional, Tuple

from room.edit_list import EventLine, MotionLine, Note, fcm_words, read_event, read_motion, read_note
from room.list_text import Line
from room.taken import Reading, Taken, read_list
from room.timecode import Counting

# The words for a file that has no tape: the reel is then no source.
FILE_REELS = ("AX", "AUX")

NOT_A_DIGIT = re.compile("[^0-9]")
ENDING = re.compile(r"\.(mov|mxf|mp4|m4v|avi|dpx|exr|r3d|ari|arx|braw|crm|psd|tiff?|jpe?g|png)$", re.IGNORECASE)


@dataclass(eq=False)
class Entry:
    """An event line of an edit, its clip's name where a note gives one, and the event that the station takes of it."""

    line: Line
    event: EventLine
    clip: str = ""
    taken: Optional[Taken] = None


@dataclass(eq=False)
class Edit:
    """Event lines of one number, and what belongs to them. Its pictures are asked for once all lines are added."""

    entries: List[Entry] = field(default_factory=list)
    motions: List[Tuple[Line, MotionLine]] = field(default_factory=list)
    notes: List[Tuple[Line, Note]] = field(default_factory=list)

    @cached_property
    def pictures(self) -> List[Entry]:
        return [entry for entry in self.entries if entry.event.is_picture]

    def note(self, key: str) -> str:
        """The first value that a note of this key gives."""
        return next((note.value for _, note in self.notes if note.key == key and note.value), "")

    @property
    def has_still(self) -> bool:
        return any(note.key.endswith("CLIP IS A STILL") for _, note in self.notes)


@dataclass
class View:
    """A whole list at a rate. What the station takes of it is read when it is first asked for."""

    lines: List[Line]
    rate: int
    size: int
    edits: List[Edit] = field(default_factory=list)
    early_motions: List[Tuple[Line, MotionLine]] = field(default_factory=list)
    notes: List[Tuple[Line, Note]] = field(default_factory=list)
    fcm: List[Tuple[Line, str]] = field(default_factory=list)

    @cached_property
    def reading(self) -> Reading:
        """The station's own reading, whose events are given to the entries."""
        reading = read_list(self.lines, self.rate, self.size)
        taken = {event.line: event for event in reading.events}
        for entry in self.entries:
            entry.taken = taken.get(entry.line.number)
        return reading

    @cached_property
    def entries(self) -> List[Entry]:
        return [entry for edit in self.edits for entry in edit.entries]

    @cached_property
    def pictures(self) -> List[Entry]:
        return [entry for entry in self.entries if entry.event.is_picture]

    def change(self, texts: Iterable[Tuple[int, str]]) -> bool:
        """Gives lines, by their numbers, another text. Where one doesn't stay what it was, the view has to be made anew."""
        self.__dict__.pop("reading", None)
        self.__dict__.pop("uses_semicolons", None)
        return all(self._change_event(number, text) or self._change_motion(number, text) for number, text in texts)

    def _change_event(self, number: int, text: str) -> bool:
        """An event line stays one if its number, and whether it has picture and a transition, are the same."""
        entry = self._entries_by_line.get(number)
        start = text[:80].lstrip(" \t")
        event = _event_of(text, start) if entry is not None and start else None
        if entry is None or event is None:
            return False
        old = entry.event
        if event.number != old.number or event.is_picture != old.is_picture or event.is_transition != old.is_transition:
            return False
        entry.event = event
        entry.line.text = text
        return True

    def _change_motion(self, number: int, text: str) -> bool:
        motions, place = self._motions_by_line.get(number, ([], 0))
        motion = read_motion(text) if motions and text[:80].lstrip(" \t").startswith("M2") and read_event(text) is None else None
        if motion is None:
            return False
        line = motions[place][0]
        motions[place] = (line, motion)
        line.text = text
        return True

    @cached_property
    def _entries_by_line(self) -> Dict[int, Entry]:
        return {entry.line.number: entry for entry in self.entries}

    @cached_property
    def _motions_by_line(self) -> Dict[int, Tuple[List[Tuple[Line, MotionLine]], int]]:
        lists = [self.early_motions, *(edit.motions for edit in self.edits)]
        return {line.number: (motions, place) for motions in lists for place, (line, _) in enumerate(motions)}

    def text_of(self, number: int) -> Optional[str]:
        """The line with this number."""
        return self.lines[number - 1].text if 1 <= number <= len(self.lines) else None

    @cached_property
    def uses_semicolons(self) -> bool:
        """Whether separators tell how labels count: a list with no `;` at all says nothing by its `:`."""
        return any(";" in label for entry in self.pictures for label in entry.event.labels)


def view_of(lines: List[Line], rate: int, size: int = 0) -> View:
    """The view of these lines."""
    view = View(lines, rate, size)
    is_open = False
    for line in lines:
        is_open = _add(view, line, is_open)
    for edit in view.edits:
        if edit.notes:
            name_clips(edit)
    return view


def _event_of(text: str, start: str) -> Optional[EventLine]:
    """The event of a line that begins so behind its blanks."""
    return None if start.startswith(("*", "FCM:", "FROM ")) else read_event(text)


def _add(view: View, line: Line, is_open: bool) -> bool:
    """Adds a line; the answer is whether an event line of the same number would belong to the last edit."""
    start = line.text[:80].lstrip(" \t")
    if not start:
        return is_open
    if start[0] == "*":
        _add_note(view, line)
        return False
    event = read_event(line.text) if "0" <= start[0] <= "9" else _event_of(line.text, start)
    if event is not None:
        if not is_open or view.edits[-1].entries[-1].event.number != event.number:
            view.edits.append(Edit())
        view.edits[-1].entries.append(Entry(line, event))
        return True
    words = fcm_words(line.text)
    if words is not None:
        view.fcm.append((line, words))
        return is_open
    motion = read_motion(line.text) if start.startswith("M2") else None
    if motion is not None:
        (view.edits[-1].motions if view.edits else view.early_motions).append((line, motion))
        return False
    _add_note(view, line)
    return False


def _add_note(view: View, line: Line) -> None:
    """Adds a line that is no event, where it has a note."""
    note = read_note(line.text)
    if note is not None:
        view.notes.append((line, note))
        if view.edits:
            view.edits[-1].notes.append((line, note))


def name_clips(edit: Edit) -> None:
    """Gives each picture line its clip: in a transition FROM names the line before, and TO the incoming one."""
    named: Dict[str, str] = {}
    for _, note in edit.notes:
        if note.value:
            named.setdefault(note.key, note.value)
    of_from = named.get("FROM CLIP NAME") or os.path.basename(named.get("SOURCE FILE") or named.get("FROM FILE") or "")
    of_to = named.get("TO CLIP NAME", "")
    pictures = edit.pictures
    for place, entry in enumerate(pictures):
        is_last = place == len(pictures) - 1
        if is_last and entry.event.is_transition:
            entry.clip = of_to or (of_from if len(pictures) == 1 else "")
        else:
            entry.clip = of_from


@lru_cache(maxsize=1 << 16)
def name_of_clip(clip: str) -> str:
    """A clip's name without the ending of its file, for comparing."""
    return ENDING.sub("", clip.strip())


def contradicting_reels(view: View) -> Dict[str, Tuple[Entry, Entry]]:
    """Reels that have two clips at one source time, neither of whose names begins with the other: they stand for several files.

    The second condition leaves alone a tape whose editor gave a shot a longer name, such as `24-1` and `24-1 (FREEZE)`.
    """
    by_reel: Dict[str, List[Tuple[int, int, str, Entry]]] = {}
    counting = Counting(view.rate)
    for entry in view.pictures:
        name = name_of_clip(entry.clip) if entry.clip else ""
        if not name or entry.event.is_black:
            continue
        times = [counting.near_number(label.replace(";", ":")) for label in entry.event.labels[:2]]
        if None in times:
            continue
        source_in, source_out = times
        assert source_in is not None and source_out is not None
        by_reel.setdefault(entry.event.reel, []).append((source_in, max(source_out, source_in), name, entry))
    found: Dict[str, Tuple[Entry, Entry]] = {}
    for reel, uses in by_reel.items():
        if len({name for _, _, name, _ in uses}) > 1:
            pair = _contradiction(sorted(uses, key=lambda use: use[:2]))
            if pair is not None:
                found[reel] = pair
    return found


def _contradiction(uses: List[Tuple[int, int, str, Entry]]) -> Optional[Tuple[Entry, Entry]]:
    """Two uses of one time under names that don't go together, by one pass over the uses in the order of their times."""
    open_uses: List[Tuple[int, int, str, Entry]] = []
    for use in uses:
        open_uses = [other for other in open_uses if other[1] > use[0]]
        for other in open_uses:
            if use[1] > use[0] and not use[2].startswith(other[2]) and not other[2].startswith(use[2]):
                return (other[3], use[3]) if other[3].line.number < use[3].line.number else (use[3], other[3])
        # More than a few names at one time tell nothing new.
        if use[1] > use[0] and len(open_uses) < 20:
            open_uses.append(use)
    return None


def is_ascending_reverse(taken: Taken, rate: int) -> bool:
    """Whether a reversed event lists its range in ascending order: as long as the speed asks for, so that play would leave it."""
    if taken.speed is None or taken.speed >= 0 or taken.is_black or taken.length == 0:
        return False
    source = taken.source_out - taken.source_in
    wanted = taken.length * -taken.speed / (100 * rate)
    return source > 1 and abs(source - wanted) <= 1


def is_same_reel_transition(edit: Edit) -> bool:
    """Whether an edit is a transition from a reel into itself."""
    pictures = edit.pictures
    return len(pictures) == 2 and pictures[1].event.is_transition and pictures[0].event.reel == pictures[1].event.reel


def same_time(label: str, other: str) -> bool:
    """Whether two labels have the same digits, whatever separates them."""
    return label == other or digits_of(label) == digits_of(other)


def digits_of(label: str) -> str:
    """A label's digits."""
    return NOT_A_DIGIT.sub("", label)
