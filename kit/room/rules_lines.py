"""Rules of `rewrite` for single lines: FCM words, event numbers, letters, labels, transitions, keys, tracks and reel names."""

from __future__ import annotations

import re
import unicodedata
from typing import Dict, Set

from room.draft import Draft
from room.edit_list import says_drop
from room.taken import NUMBER
from room.timecode import Counting
from room.view import Edit, View

LONGEST_NAME = 64
PLAIN_NAME = re.compile(f"[!-~]{{1,{LONGEST_NAME}}}")
SHORT_WIPE = re.compile("W([0-9]{1,2})")


def fcm_words(draft: Draft) -> None:
    """FCM lines in the spelling that is heard. Drop-frame is defined at 30 alone, so at another rate the labels count plainly."""
    for line, words in draft.view.fcm:
        row = draft.row(line)
        means = says_drop(words)
        if means is None:
            draft.ask(line, f"this FCM line says neither drop frame nor non-drop frame: {words}")
            continue
        new = "FCM: DROP FRAME" if means else "FCM: NON-DROP FRAME"
        if means and draft.rate != 30:
            draft.rewrite_row(row, "FCM: NON-DROP FRAME", f"`{line.text.strip()}` to `FCM: NON-DROP FRAME`: at {draft.rate} no label is dropped")
        elif not _is_heard(line.text, means):
            draft.rewrite_row(row, new, f"`{line.text.strip()}` to `{new}`: the station's spelling")


def _is_heard(text: str, is_drop: bool) -> bool:
    words = text.strip(" \t")
    if not words.startswith("FCM:"):
        return False
    tokens = words[4:].split()
    return tokens[:2] == ["DROP", "FRAME"] if is_drop else tokens[:2] == ["NON-DROP", "FRAME"] or tokens[:3] == ["NON", "DROP", "FRAME"]


def event_numbers(draft: Draft) -> None:
    """Numbers that aren't one to six digits get one that no other event has, the same for a row of lines with one number."""
    used: Set[int] = {int(e.event.number) for e in draft.view.entries if NUMBER.fullmatch(e.event.number)}
    free = max(used, default=0) + 1
    for edit in draft.view.edits:
        old = edit.entries[0].event.number
        if NUMBER.fullmatch(old):
            continue
        while free in used or free > 999_999:
            free = free + 1 if free < 999_999 else 1
        used.add(free)
        for entry in edit.entries:
            draft.put(draft.row(entry.line), entry.event.number_span, f"{free:03}", "event number", "it has one to six digits, and this one is free")


def capitals(draft: Draft) -> None:
    """Channels and transitions are in capitals."""
    for entry in draft.view.entries:
        row = draft.row(entry.line)
        transition = row.text[slice(*entry.event.transition_span)]
        if transition != transition.upper():
            draft.put(row, entry.event.transition_span, transition.upper(), "transition", "the station reads capitals")
        if entry.event.channels != entry.event.channels.upper():
            draft.put(row, entry.event.channels_span, entry.event.channels.upper(), "channels", "the station reads capitals")


def label_points(draft: Draft) -> None:
    """Points and commas in labels become colons, or in drop-frame counting the last one a semicolon."""
    view = draft.view
    is_drop = draft.rate == 30 and any(says_drop(words) for _, words in view.fcm)
    points = re.compile("[.,]" if draft.rate == 30 else "[.,;]")
    for entry in view.pictures:
        for place, label in enumerate(entry.event.labels):
            if points.search(label) is None:
                continue
            new = re.sub("[.,]", ":", label[:8]) + (re.sub("[.,]", ";" if is_drop else ":", label[8]) + label[9:])
            if draft.rate != 30:
                new = new.replace(";", ":")
            if new != label:
                why = "no frame is dropped at this rate" if ";" in label else "the station's separators"
                draft.put(draft.row(entry.line), entry.event.label_spans[place], new, "label", why)
    for line, motion in view.early_motions + [each for edit in view.edits for each in edit.motions]:
        new = points.sub(":", motion.trigger)
        if new != motion.trigger:
            draft.put(draft.row(line), motion.trigger_span, new, "trigger", "the station's separators")


def wipe_digits(draft: Draft) -> None:
    """A wipe's code has three digits."""
    for entry in draft.view.pictures:
        code = SHORT_WIPE.fullmatch(entry.event.transition)
        if code is not None:
            draft.put(draft.row(entry.line), entry.event.transition_span, f"W{int(code.group(1)):03}", "wipe", "its code has three digits")


def durations(draft: Draft) -> None:
    """A cut has no duration, and a transition of no frames is a cut."""
    for entry in draft.view.pictures:
        event, row = entry.event, draft.row(entry.line)
        if not event.duration:
            continue
        if event.transition == "C":
            if int(event.duration) > 0:
                draft.ask(entry.line, f"a cut with a duration of {int(event.duration)} frames: is it a dissolve? The number is left off")
            draft.put(row, event.duration_span, "", "duration", "a cut has none")
        elif event.is_transition and int(event.duration) == 0:
            draft.put(row, event.duration_span, "", "duration", "a transition of no frames is a cut")
            draft.put(row, event.transition_span, "C", "transition", "a transition of no frames is a cut")


def keys(draft: Draft) -> None:
    """The background of a key is a cut like any other; the key itself is made elsewhere."""
    for edit in draft.view.edits:
        backgrounds = [e for e in edit.pictures if e.event.transition.upper() == "KB"]
        for entry in edit.pictures:
            row = draft.row(entry.line)
            if not entry.event.is_key:
                continue
            if entry in backgrounds:
                draft.put(row, entry.event.transition_span, "C", "transition", "the background of a key is cut in")
                continue
            name = edit.note("KEY CLIP NAME") or entry.clip or entry.event.reel
            draft.ask(entry.line, f"the key {name} over record {entry.event.labels[2]} to {entry.event.labels[3]} has to be made elsewhere")
            draft.leave_out(row, "a key isn't conformed")


def tracks(draft: Draft) -> None:
    """Where two video tracks share record frames, one is kept: each track is a list of its own."""
    view = draft.view
    numbers = sorted({entry.event.track for entry in view.pictures})
    if draft.options.track is None and (len(numbers) < 2 or not _tracks_share(view)):
        return
    if draft.options.track not in (None, *numbers):
        draft.ask(None, f"the list has no track V{draft.options.track}; it has {', '.join(f'V{number}' for number in numbers)}")
        return
    kept = draft.options.track if draft.options.track is not None else numbers[0]
    for number in numbers:
        if number != kept:
            draft.ask(None, f"track V{number} is left out, since it lies over another: `--track {number}` gives a list of its own")
    for edit in view.edits:
        _leave_track(draft, edit, kept)


def _tracks_share(view: View) -> bool:
    """Whether two events of different tracks share record frames, by one pass in the order of their record in."""
    counting = Counting(view.rate)
    ranges = []
    for entry in view.pictures:
        start, end = (counting.near_number(label.replace(";", ":")) for label in entry.event.labels[2:])
        if start is not None and end is not None and start < end:
            ranges.append((start, end, entry.event.track))
    ends: Dict[int, int] = {}
    for start, end, track in sorted(ranges):
        if any(other_end > start for other, other_end in ends.items() if other != track):
            return True
        ends[track] = max(end, ends.get(track, 0))
    return False


def _leave_track(draft: Draft, edit: Edit, kept: int) -> None:
    """Turns the lines of other tracks into notes; where none is left of an edit, what stands behind them too."""
    others = [entry for entry in edit.pictures if entry.event.track != kept]
    for entry in others:
        draft.leave_out(draft.row(entry.line), f"track V{entry.event.track}")
    if others and len(others) == len(edit.pictures):
        for line, _ in [*edit.motions, *edit.notes]:
            draft.leave_out(draft.row(line), "it belongs to an event that is left out")


def reel_names(draft: Draft) -> None:
    """Blanks and letters outside of ASCII in reel names. Two names that would become one are told apart."""
    view = draft.view
    reels = [entry.event.reel for entry in view.pictures]
    used = {reel for reel in reels if is_plain_name(reel)}
    given: Dict[str, str] = {}
    for entry in view.entries:
        event = entry.event
        if is_plain_name(event.reel) or not event.reel:
            if not event.reel and event.is_picture:
                draft.ask(entry.line, "the event has no reel")
            continue
        same = " ".join(event.reel.split())
        if same not in given:
            given[same] = free_name(plain_name(same), used)
            used.add(given[same])
        draft.put(draft.row(entry.line), event.reel_span, given[same], "reel", why_not_plain(event.reel))
    _motion_names(draft, view, given)


def _motion_names(draft: Draft, view: View, given: Dict[str, str]) -> None:
    """Motion lines of reels that got another name."""
    for line, motion in view.early_motions + [each for edit in view.edits for each in edit.motions]:
        new = given.get(" ".join(motion.reel.split()))
        if new is not None:
            draft.put(draft.row(line), motion.reel_span, new, "motion's reel", "its event's")


def is_plain_name(name: str) -> bool:
    """Whether the station takes it as a reel's name."""
    return PLAIN_NAME.fullmatch(name) is not None


def why_not_plain(name: str) -> str:
    if " " in name or "\t" in name:
        return "a reel has no blank in its name"
    if len(name) > LONGEST_NAME:
        return f"a reel's name has at most {LONGEST_NAME} characters"
    return "a reel's name is in ASCII"


def plain_name(name: str) -> str:
    """A name of printing ASCII characters without blanks: accents are left off, and what has no likeness becomes `_`."""
    name = name.encode("utf-8", "surrogateescape").decode("utf-8", "replace") if _is_utf8(name) else _latin(name)
    name = name.replace("ß", "ss").replace("Æ", "AE").replace("æ", "ae").replace("Ø", "O").replace("ø", "o")
    letters = [c for c in unicodedata.normalize("NFKD", name) if not unicodedata.combining(c)]
    text = re.sub("[^!-~]+", "_", "".join(letters))
    return text[:LONGEST_NAME] or "_"


def _is_utf8(name: str) -> bool:
    return not re.search("[\udc80-\udcff]", name)


def _latin(name: str) -> str:
    """Bytes that were no UTF-8, as the letters of Latin-1."""
    return re.sub("[\udc80-\udcff]", lambda match: chr(ord(match.group()) - 0xDC00), name)


def free_name(name: str, used: Set[str]) -> str:
    """The name, or with a number behind it where another reel has it. `BL` is black, and no reel's name."""
    if name not in used and name != "BL":
        return name
    number = 2
    while f"{name[: LONGEST_NAME - len(str(number)) - 1]}_{number}" in used:
        number += 1
    return f"{name[: LONGEST_NAME - len(str(number)) - 1]}_{number}"
