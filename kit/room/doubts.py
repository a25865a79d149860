"""What the station takes without a word, and a person should know of: a function for each kind of doubt.

Each function goes through a list's view and gives findings. A `warning` is something to decide, a `note` is told and no more.
"""

from __future__ import annotations

from typing import Callable, Dict, Iterator, List, Optional, Tuple

from room.edit_list import says_drop
from room.findings import Finding
from room.list_text import has_lone_returns, other_kind, utf16_of, UTF8_MARK
from room.taken import read_list
from room.timecode import RATES, Counting
from room.view import FILE_REELS, Entry, View, contradicting_reels, digits_of, is_ascending_reverse, name_of_clip, same_time

Span = Tuple[int, int]
REWRITE = "`./room rewrite` does it."


def at(view: View, line: int, kind: str, text: str, span: Optional[Span] = None, advice: str = "") -> Finding:
    """A finding with the list's line, and a caret where it is known."""
    column, width = (span[0], span[1] - span[0]) if span else (0, 0)
    return Finding(line, kind, text, view.text_of(line), column, width, [advice] if advice else [])


def numbers_in_words(numbers: List[int]) -> str:
    """Line numbers with the word for them, the first few of many."""
    shown = ", ".join(str(number) for number in numbers[:8])
    word = "line" if len(numbers) == 1 else "lines"
    return f"{word} {shown}" + (f" and {len(numbers) - 8} more" if len(numbers) > 8 else "")


def kind_of_file(data: bytes) -> Iterator[Finding]:
    """Files that are no list, and encodings in which the station reads no line of one."""
    kind = other_kind(data)
    if kind is not None:
        yield Finding(0, "warning", f"it looks like {kind}, and not like an edit list", advice=["Export the sequence as an EDL (CMX 3600)."])
    if utf16_of(data) is not None:
        yield Finding(0, "warning", "it is in UTF-16, of which the station reads no line", advice=["Save it as plain text. " + REWRITE])
    if data.startswith(UTF8_MARK):
        yield Finding(1, "warning", "a byte order mark stands before the first line, so that line is a note", advice=["Leave the mark off. " + REWRITE])
    if has_lone_returns(data):
        yield Finding(0, "warning", "lines end in a carriage return alone, so the whole list is one line", advice=["End lines in LF. " + REWRITE])


def markers(view: View) -> Iterator[Finding]:
    """A list of markers has an event of one frame for each: it would become a reel of single frames and black."""
    lines = [line.number for line, note in view.notes if note.key == "MARKER"]
    if lines and len(lines) >= len(view.pictures):
        yield at(view, lines[0], "warning", f"this is a list of markers, and not of cuts ({len(lines)} markers)", advice="Export the timeline as an EDL.")


def passed_over(view: View) -> Iterator[Finding]:
    """Picture lines that the station takes for sound or for a note: their shots are black, and nobody is told."""
    sound = set(view.reading.sound_lines)
    refused = {refused.line for refused in view.reading.refused}
    lost = 0
    for entry in view.pictures:
        number = entry.line.number
        if entry.taken is not None or number in refused:
            continue
        lost += 1
        if number in sound:
            why = f"the reel `{entry.event.reel}` has a blank, so its last part stands where the channels should"
            yield at(view, number, "warning", f"this picture line is passed over as sound: {why}", entry.event.reel_span, "Give the reel a name without blanks. " + REWRITE)
        else:
            why = "an event line begins with a digit"
            yield at(view, number, "warning", f"this line is passed over as a note: {why}", entry.event.number_span, "Give the event a number. " + REWRITE)
    if lost:
        pictures = len(view.pictures)
        yield Finding(0, "warning", f"the file has {pictures} picture lines, and {lost} of them {'is' if lost == 1 else 'are'} passed over without a word")


def colour_decisions(view: View) -> Iterator[Finding]:
    """CDLs are notes: the station grades by the project's cube alone."""
    lines = [line.number for line, note in view.notes if note.key == "ASC_SOP"]
    lines = lines or [line.number for line, note in view.notes if note.key == "ASC_SAT"]
    if lines:
        many = f"{len(lines)} events have a CDL that isn't used" if len(lines) > 1 else "1 event has a CDL that isn't used"
        advice = "The station knows one look for the whole reel, the project's cube: put the grade there, or make it elsewhere."
        yield at(view, lines[0], "warning", f"{many}: {numbers_in_words(lines)}", advice=advice)


def effects(view: View) -> Iterator[Finding]:
    """Effects under the letters of a dissolve or a cut: dips, resizes and whatever else has a name."""
    by_name: Dict[str, List[int]] = {}
    for line, note in view.notes:
        if note.key in ("EFFECT NAME IS", "EFFECTS NAME IS") and note.value:
            by_name.setdefault(note.value.upper(), []).append(line.number)
    for name, lines in by_name.items():
        if "DISSOLVE" in name or "WIPE" in name:
            continue
        what = "a plain dissolve is made" if "DIP" in name or "FADE" in name else "what the event line says is made"
        advice = "A dip is two dissolves: one into an event of reel BL, and one out of it." if "DIP" in name else "Make it elsewhere and cut it in, or leave it out."
        yield at(view, lines[0], "warning", f"the effect {name} isn't made, {what}: {numbers_in_words(lines)}", advice=advice)


def stills(view: View) -> Iterator[Finding]:
    """A still without a motion line plays on through its source."""
    for edit in view.edits:
        for entry in edit.pictures[-1:]:
            if edit.has_still and not edit.motions and entry.taken is not None and entry.taken.speed is None and entry.taken.length > 1:
                text = f"the clip is a still, and no motion line holds it: it plays on for {entry.taken.length} frames"
                yield at(view, entry.line.number, "warning", text, advice=f"Write `M2 {entry.event.reel} 000.0 {entry.event.labels[0]}` behind it. " + REWRITE)


def named_speeds(view: View) -> Iterator[Finding]:
    """A speed that only a note tells."""
    for edit in view.edits:
        for line, note in edit.notes:
            if note.key in ("SPEED CHANGE", "TIMEWARP EFFECT") and not edit.motions:
                yield at(view, line.number, "warning", "a speed is told in a note alone, and a note isn't heard", advice="Write a motion line (M2) behind the event.")


def other_names(view: View) -> Iterator[Finding]:
    """Reels that have a longer name in a note."""
    lines = [line.number for line, note in view.notes if note.key in ("REEL", "FINAL CUT PRO REEL")]
    if lines:
        yield at(view, lines[0], "note", f"a reel has another name in a note, which isn't used: {numbers_in_words(lines)}")


def delays(view: View) -> Iterator[Finding]:
    """A split that delays the picture, and not the sound."""
    for line, note in view.notes:
        if note.key == "SPLIT" and "VIDEO DELAY" in note.value.upper():
            yield at(view, line.number, "warning", "a delay of the picture is told in a note, and a note isn't heard", advice="Export the list without splits.")


def counting_of_sources(view: View) -> Iterator[Finding]:
    """Source labels whose separators contradict the FCM line in force: 108 frames an hour."""
    if view.rate != 30 or not view.uses_semicolons:
        return
    for entry in view.pictures:
        taken = entry.taken
        if taken is None or taken.is_black or not taken.is_drop:
            continue
        label = entry.event.labels[0]
        if ";" in label or ";" in entry.event.labels[1]:
            continue
        other = Counting(30).number(label)
        if other == taken.source_in:
            continue
        text = f"the source counts non-drop by its `:` and is read as drop-frame: {label} is frame {taken.source_in}, and not {other}"
        advice = "Put `FCM: NON-DROP FRAME` before the event and `FCM: DROP FRAME` behind it. " + REWRITE
        yield at(view, entry.line.number, "warning", text, entry.event.label_spans[0], advice)


def counting_of_records(view: View) -> Iterator[Finding]:
    """Record labels of both separators: the mode at the first event line holds for all of them."""
    if view.rate != 30 or not view.uses_semicolons or not view.reading.is_drop:
        return
    lines = [entry.line.number for entry in view.pictures if entry.taken is not None and ";" not in entry.event.labels[2]]
    if lines and len(lines) < len(view.pictures):
        yield at(view, lines[0], "warning", f"record labels of both kinds, `:` and `;`: all count as drop-frame ({numbers_in_words(lines)})")


def unheard_fcm(view: View) -> Iterator[Finding]:
    """An FCM line that the station doesn't hear, since it isn't in capitals."""
    for line, words in view.fcm:
        if not line.text.lstrip(" \t").startswith("FCM:") and says_drop(words) is not None:
            yield at(view, line.number, "warning", "this FCM line isn't in capitals, so it is a note", advice="Write `FCM:` in capitals. " + REWRITE)


def rate_of_labels(view: View) -> Iterator[Finding]:
    """Labels that look like another rate. Cuts on whole seconds fit every rate, so only lists with many others are spoken of."""
    frames = [int(label[9:]) for entry in view.pictures for label in entry.event.labels]
    highest = max(frames, default=0)
    if highest >= 30:
        text = f"a label has frame {highest}, so the list counts 50 or 60 frames a second, which the station doesn't"
        yield Finding(0, "warning", text, advice=["Export it from a sequence of 24, 25 or 30 frames a second."])
    elif view.rate > 24 and highest < 24 and sum(1 for frame in frames if frame) >= 12:
        yield Finding(0, "note", f"no label has a frame over {highest}: if this list was made at 24, say 24 and not {view.rate}")
    elif view.rate == 30 and highest == 24 and len(frames) >= 12:
        yield Finding(0, "note", "no label has a frame over 24: if this list was made at 25, say 25 and not 30")


def other_rate(view: View) -> Iterator[Finding]:
    """Lengths and labels that don't fit, and do at another rate: the list was made at that one."""
    if not any(refused.number in ("2.2", "4.1") for refused in view.reading.refused):
        return
    for rate in RATES:
        if rate != view.rate and not read_list(view.lines, rate, view.size).refused:
            yield Finding(0, "warning", f"at {rate} no line of it is refused: was the list made at {rate}, and not at {view.rate}?")


def motion_sides(view: View) -> Iterator[Finding]:
    """A motion line whose trigger is another event's source in: in a transition within one reel it goes to the outgoing side."""
    by_line = {entry.line.number: entry for entry in view.entries}
    by_source: Dict[Tuple[str, str, str], Entry] = {}
    for entry in view.entries:
        by_source.setdefault(_key(entry, entry.event.labels[0]), entry)
    triggers = {line.number: motion for edit in view.edits for line, motion in edit.motions}
    for taken in view.reading.events:
        motion = triggers.get(taken.motion_line)
        entry = by_line.get(taken.line)
        if motion is None or entry is None or same_time(motion.trigger, entry.event.labels[0]):
            continue
        meant = by_source.get(_key(entry, motion.trigger))
        if meant is not None:
            text = f"this motion line goes to line {taken.line}, and its trigger is the source in of line {meant.line.number}"
            advice = f"Write one at play speed for line {taken.line} before it. " + REWRITE
            yield at(view, taken.motion_line, "warning", text, motion.trigger_span, advice)
        else:
            text = f"the trigger {motion.trigger} isn't the source in of line {taken.line}, to which this motion line goes"
            yield at(view, taken.motion_line, "note", text, motion.trigger_span)


def _key(entry: Entry, label: str) -> Tuple[str, str, str]:
    """An event's number, its reel, and a time of it."""
    return entry.event.number, entry.event.reel, digits_of(label)


def file_reels(view: View) -> Iterator[Finding]:
    """Reel AX: whatever is on no tape has it, so files of one timecode become one picture."""
    lines = [entry.line.number for entry in view.pictures if entry.event.reel.upper() in FILE_REELS]
    clips = {name_of_clip(entry.clip) for entry in view.pictures if entry.event.reel.upper() in FILE_REELS and entry.clip}
    nameless = [entry.line.number for entry in view.pictures if entry.event.reel.upper() in FILE_REELS and not entry.clip]
    if not lines:
        return
    many = f"{len(clips)} files" if len(clips) > 1 else "a file"
    text = f"reel AX is no tape: it stands for {many} here ({numbers_in_words(lines)})"
    yield at(view, lines[0], "warning", text, advice="Give each file a reel of its own, by its clip's name. " + REWRITE)
    if nameless:
        yield at(view, nameless[0], "warning", f"no note names the clip of reel AX: {numbers_in_words(nameless)}", advice="Ask for a list with clip names.")


def cut_reels(view: View) -> Iterator[Finding]:
    """Names cut to eight letters, or one name for all: two clips at one time of a reel can't both be there."""
    for reel, (first, second) in contradicting_reels(view).items():
        if reel.upper() in FILE_REELS:
            continue
        text = f"reel {reel} has two clips at one time: {first.clip} (line {first.line.number}) and {second.clip} (line {second.line.number})"
        advice = "One name stands for several files. Give each a reel by its clip's name. " + REWRITE
        yield at(view, second.line.number, "warning", text, second.event.reel_span, advice)


def reverses(view: View) -> Iterator[Finding]:
    """A reverse whose range is listed in ascending order: play begins at source in and leaves the range at once."""
    for entry in view.pictures:
        taken = entry.taken
        if taken is None or not is_ascending_reverse(taken, view.rate):
            continue
        counting = Counting(view.rate, taken.is_drop)
        last = taken.source_in + (taken.length - 1) * (taken.speed or 0) // (100 * view.rate)
        text = f"this reverse plays from {counting.label(taken.source_in)} down to {counting.label(last)}, outside of its own range"
        advice = f"If the program lists ranges in ascending order, source in has to be {counting.label(taken.source_out - 1)}: `./room rewrite --from avid` does it."
        yield at(view, entry.line.number, "warning", text, entry.event.label_spans[0], advice)


def black_names(view: View) -> Iterator[Finding]:
    """Black under another name than BL is a reel like any other."""
    lines = [entry.line.number for entry in view.pictures if entry.event.reel.upper() in ("BLACK", "BLK", "BL") and entry.event.reel != "BL"]
    if lines:
        yield at(view, lines[0], "warning", f"black has the reel BL, in capitals, for the station: {numbers_in_words(lines)}", advice="If this is black, write BL.")


def alike_names(view: View) -> Iterator[Finding]:
    """Reels that differ in capitals alone are two reels to the station."""
    spellings: Dict[str, Dict[str, int]] = {}
    for entry in view.pictures:
        spellings.setdefault(entry.event.reel.lower(), {}).setdefault(entry.event.reel, entry.line.number)
    for names in spellings.values():
        if len(names) > 1:
            yield at(view, max(names.values()), "note", f"the reels {' and '.join(names)} differ in capitals alone, and are two reels")


def gaps(view: View) -> Iterator[Finding]:
    """Black between two events that no event gives."""
    taken = sorted((event for event in view.reading.events if event.length > 0), key=lambda event: event.record_in)
    counting = Counting(view.rate, view.reading.is_drop)
    holes = [(before.record_out, after) for before, after in zip(taken, taken[1:]) if after.record_in > before.record_out]
    for start, after in holes[:20]:
        yield at(view, after.line, "note", f"{after.record_in - start} frames before it, from {counting.label(start)} on, have no event and are black")
    if len(holes) > 20:
        yield Finding(0, "note", f"{len(holes) - 20} more gaps are black")


DOUBTS: Tuple[Callable[[View], Iterator[Finding]], ...] = (
    markers,
    passed_over,
    colour_decisions,
    effects,
    stills,
    named_speeds,
    other_names,
    delays,
    counting_of_sources,
    counting_of_records,
    unheard_fcm,
    rate_of_labels,
    other_rate,
    motion_sides,
    file_reels,
    cut_reels,
    reverses,
    black_names,
    alike_names,
    gaps,
)
