"""Rules of `rewrite` for motion: lines with M2, stills and reverses."""

from __future__ import annotations

from collections import defaultdict, deque
from decimal import Decimal, InvalidOperation
from typing import Deque, Dict, List, Optional, Set, Tuple, cast

from room.draft import Draft, Row, entries_by_line
from room.edit_list import MotionLine, read_motion
from room.list_text import Line
from room.taken import SPEED
from room.timecode import Counting
from room.view import Edit, Entry, digits_of, is_ascending_reverse, is_same_reel_transition, same_time

Motion = Tuple[Line, MotionLine]
Source = Tuple[str, str]

# How a program lists the source of a reverse, as far as is known: `range` in ascending order, so that play begins at its end;
# `first` with the frame at which play begins as source in, which is the station's own reading.
HABITS: Dict[str, str] = {
    "avid": "range",
    "resolve": "range",
    "premiere": "range",
    "otio": "range",
    "fcp": "first",
    "cmx": "first",
}


def motions_before_events(draft: Draft) -> None:
    """A motion line that stands before the event whose reel and source in it names goes behind it."""
    edits = draft.view.edits
    if not edits:
        return
    moves: List[Tuple[Row, Row]] = []
    for line, motion in draft.view.early_motions:
        if _source(motion) in _sources(edits[0]) or len(edits[0].pictures) == 1:
            moves.append((draft.row(line), draft.row(edits[0].entries[-1].line)))
        else:
            draft.ask(line, "this motion line stands before the first event, and isn't that event's")
    for edit, following in zip(edits, edits[1:]):
        if not edit.motions:
            continue
        own, next_ones = _sources(edit), _sources(following)
        has_its_own = any(_source(motion) in next_ones for _, motion in following.motions)
        for line, motion in edit.motions:
            if not has_its_own and _source(motion) not in own and _source(motion) in next_ones:
                moves.append((draft.row(line), draft.row(following.entries[-1].line)))
    draft.move_behind(moves, "a motion line stands behind its event")


def _source(motion: MotionLine) -> Source:
    """The reel and the time that a motion line names."""
    return motion.reel, digits_of(motion.trigger)


def _sources(edit: Edit) -> Set[Source]:
    """The reel and the source in of each event line of an edit."""
    return {(entry.event.reel, digits_of(entry.event.labels[0])) for entry in edit.entries}


def _behind(edit: Edit) -> int:
    """The place behind the last event line of an edit, from 0."""
    return edit.entries[-1].line.number


def owners(edit: Edit) -> Dict[int, Entry]:
    """Whose motion each motion line of an edit is, by the line's number: its trigger tells, then its reel, then its being alone."""
    found: Dict[int, Entry] = {}
    if not edit.motions:
        return found
    by_time, by_reel, by_both = (cast(Dict[object, Deque[Entry]], defaultdict(deque)) for _ in range(3))
    for entry in edit.pictures:
        reel, time = entry.event.reel, digits_of(entry.event.labels[0])
        for group in (by_time[time], by_reel[reel], by_both[reel, time]):
            group.append(entry)
    alone = deque(edit.pictures if len(edit.pictures) == 1 else ())
    owned: Set[Entry] = set()
    for line, motion in edit.motions:
        reel, time = _source(motion)
        for group in (by_both[reel, time], by_reel[reel], by_time[time], alone):
            while group and group[0] in owned:
                group.popleft()
            if group:
                found[line.number] = group[0]
                owned.add(group[0])
                break
    return found


def motion_fields(draft: Draft) -> None:
    """Reel, speed and trigger of motion lines: the event's reel, two decimals, and the event's source in where there is none."""
    for edit in draft.view.edits:
        found = owners(edit)
        reels = {entry.event.reel for entry in edit.entries} if edit.motions else set()
        for line, motion in edit.motions:
            entry = found.get(line.number)
            if entry is not None:
                _fields_of_motion(draft, line, motion, entry)
            elif motion.reel not in reels:
                draft.ask(line, f"this motion line of {motion.reel or 'no reel'} fits no event before it")


def _fields_of_motion(draft: Draft, line: Line, motion: MotionLine, entry: Entry) -> None:
    """From the line's end to its start, so that places stay right."""
    row = draft.row(line)
    if not motion.trigger:
        draft.put(row, motion.trigger_span, entry.event.labels[0], "trigger", "the source in of its event")
    if not motion.speed:
        draft.ask(line, "this motion line has no speed")
    elif SPEED.fullmatch(motion.speed) is None:
        new = two_decimals(motion.speed)
        if new is None:
            draft.ask(line, f"the speed {motion.speed} is past what a motion line takes, four digits before the point")
        else:
            moved = moved_by(motion.speed, new, entry, draft.rate)
            draft.put(row, motion.speed_span, new, "speed", f"a speed has two decimals at most; the last frame is off by {moved:.3f} frames")
            if moved >= Decimal("0.5"):
                draft.ask(line, f"with the speed {new} the event ends {moved:.1f} frames off what {motion.speed} would show")
    if motion.reel != entry.event.reel and entry.event.reel:
        draft.put(row, motion.reel_span, entry.event.reel, "motion's reel", f"its event on line {draft.row(entry.line).number} has this one")


def two_decimals(speed: str) -> Optional[str]:
    """A speed with at most two decimals and four digits before the point, or nothing where it is too large."""
    try:
        value = Decimal(speed).quantize(Decimal("0.01"))
    except InvalidOperation:
        return None
    if abs(value) >= 10_000:
        return None
    sign = "-" if value < 0 else ""
    text = f"{sign}{abs(value):06.2f}"
    return text[:-1] if text.endswith("0") else text


def moved_by(old: str, new: str, entry: Entry, rate: int) -> Decimal:
    """How many frames the event's last frame moves by another speed."""
    counting = Counting(rate)
    start, end = (counting.near_number(label.replace(";", ":")) for label in entry.event.labels[2:])
    frames = (end or 0) - (start or 0)
    return abs(Decimal(old) - Decimal(new)) * max(frames - 1, 0) / rate


def motion_stills(draft: Draft) -> None:
    """A still without a motion line is held by one of speed 0."""
    for edit in reversed(draft.view.edits):
        if not edit.has_still or edit.motions or not edit.pictures:
            continue
        event = edit.pictures[-1].event
        if event.is_black or not event.reel:
            continue
        text = f"M2   {event.reel:<8}       000.0                {event.labels[0]}"
        draft.insert(_behind(edit), text, "the clip is a still, and without it would play on")


def motion_sides(draft: Draft) -> None:
    """In a transition within one reel the first motion line goes to the outgoing side: it gets one at play speed of its own."""
    moves: List[Tuple[Row, Row]] = []
    for edit in reversed(draft.view.edits):
        if not is_same_reel_transition(edit):
            continue
        out, incoming = edit.pictures
        motions = [(line, m) for line, m in edit.motions if m.reel == out.event.reel]
        if not motions or same_time(out.event.labels[0], incoming.event.labels[0]):
            continue
        first_line, first = motions[0]
        if not same_time(first.trigger, incoming.event.labels[0]):
            continue
        if len(motions) == 1:
            text = f"M2   {out.event.reel:<8}       {draft.rate:03}.0                {out.event.labels[0]}"
            draft.insert(first_line.number - 1, text, "the outgoing side plays on, and the motion line behind is the incoming side's")
        elif same_time(motions[1][1].trigger, out.event.labels[0]):
            moves.insert(0, (draft.row(first_line), draft.row(motions[1][0])))
    draft.move_behind(moves, "the outgoing side's motion line comes first")


def reverses(draft: Draft) -> None:
    """A reverse whose range stands in ascending order begins at the range's last frame; which habit a list has, its program says."""
    if not any("-" in line.text for line in draft.view.lines if line.text.lstrip(" \t").startswith("M2")):
        return
    entries = entries_by_line(draft.view)
    habit = HABITS.get(draft.options.habit or "")
    for taken in draft.view.reading.events:
        entry = entries.get(taken.line)
        if entry is None or not is_ascending_reverse(taken, draft.rate):
            continue
        counting = Counting(draft.rate, taken.is_drop)
        new = counting.label(taken.source_out - 1)
        if ";" not in entry.event.labels[0]:
            new = new.replace(";", ":")
        if habit is None:
            if_ascending = f"if the program lists its range in ascending order, play begins at {new} and not at {entry.event.labels[0]}"
            draft.ask(entry.line, f"a reverse: {if_ascending}; `--from PROGRAM` says which")
        elif habit == "range" and new != entry.event.labels[0]:
            _begin_reverse(draft, entry, taken.motion_line, new)


def _begin_reverse(draft: Draft, entry: Entry, motion_line: int, new: str) -> None:
    """Moves source in, and the trigger of its motion line with it."""
    old = entry.event.labels[0]
    draft.put(draft.row(entry.line), entry.event.label_spans[0], new, "source in", f"{draft.options.habit} lists the range of a reverse in ascending order")
    row = draft.rows[motion_line - 1]
    motion = read_motion(row.text)
    if motion is not None and same_time(motion.trigger, old):
        draft.put(row, motion.trigger_span, new, "trigger", "it is the event's source in")

