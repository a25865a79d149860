"""Rules of `rewrite` for drop-frame counting at rate 30: FCM lines where separators contradict the mode in force.

Source labels count in the mode of the last FCM line before them. Record labels count in the mode at the first event line, of
whatever channels: so a line that is passed over as sound can fix it, and FCM lines behind it change sources alone.
"""

from __future__ import annotations

from typing import List, Optional, Tuple

from room.draft import Draft, Row
from room.edit_list import EventLine, MotionLine, fcm_words, read_event, read_motion, says_drop
from room.timecode import Counting

FIXES_RECORD = "000  BL       NONE  C"


def fcm_around(draft: Draft) -> None:
    """Switches the mode where an event's separators ask for the other one."""
    if draft.rate != 30 or not draft.view.uses_semicolons:
        return
    records = [entry.event.labels[2] for entry in draft.view.pictures] + [entry.event.labels[3] for entry in draft.view.pictures]
    is_record_drop = any(";" in label for label in records)
    mode = False
    is_fixed = False
    place = 0
    while place < len(draft.rows):
        row = draft.rows[place]
        words = fcm_words(row.text) if row.text.lstrip(" \t").startswith("FCM:") else None
        if words is not None and says_drop(words) is not None:
            mode = bool(says_drop(words))
        elif row.text.lstrip(" \t")[:1].isdigit() or row.text.lstrip(" \t").startswith("M2"):
            place, mode, is_fixed = _at_row(draft, row, place, mode, is_fixed, is_record_drop)
        place += 1


def _at_row(draft: Draft, row: Row, place: int, mode: bool, is_fixed: bool, is_record_drop: bool) -> Tuple[int, bool, bool]:
    """An event line or a motion line, and the rows that it wants before it."""
    event = read_event(row.text)
    motion = read_motion(row.text) if event is None else None
    wanted = _wanted(event, motion, mode)
    if event is not None and not is_fixed or (event is None and motion is None and not is_fixed):
        place, mode = _fix_record(draft, place, mode, is_record_drop, wanted)
        is_fixed = True
    if wanted is not None and wanted != mode:
        _insert_fcm(draft, place, wanted, "this event's labels are counted so, by their separators")
        place, mode = place + 1, wanted
    return place, mode, is_fixed


def _fix_record(draft: Draft, place: int, mode: bool, is_record_drop: bool, wanted: Optional[bool]) -> Tuple[int, bool]:
    """Before the first event line: the mode of the record, and a line that keeps it where that event's source counts otherwise."""
    if mode != is_record_drop:
        if mode and not is_record_drop and wanted is not False:
            # Nothing but the FCM line tells how these records count: it is believed.
            return place, mode
        _insert_fcm(draft, place, is_record_drop, "record labels are counted so, by their separators")
        place, mode = place + 1, is_record_drop
    if wanted is not None and wanted != mode:
        draft.insert(place, FIXES_RECORD, "this line, which is passed over, keeps how the record counts")
        place += 1
    return place, mode


def _insert_fcm(draft: Draft, place: int, is_drop: bool, why: str) -> None:
    draft.insert(place, "FCM: DROP FRAME" if is_drop else "FCM: NON-DROP FRAME", why)


def _wanted(event: Optional[EventLine], motion: Optional[MotionLine], mode: bool) -> Optional[bool]:
    """The mode that the source labels of a line ask for; nothing where either does."""
    labels: List[str] = []
    if event is not None and event.is_picture:
        labels = list(event.labels[:2])
    elif motion is not None:
        labels = [motion.trigger]
    if any(";" in label for label in labels):
        return True
    if not mode or event is None or event.is_black:
        # (a motion line's `:` is taken in both modes, but for a label that drop-frame passes over)
        passed_over = any(Counting(30, True).fault_of(label) == "2.3" for label in labels)
        return False if mode and passed_over else None
    drop, plain = Counting(30, True), Counting(30)
    if all(drop.near_number(label) == plain.near_number(label) for label in labels):
        return None
    return False
