"""Lists that are generated in many dialects from a timeline that is known, so that what a rewriting gives can be compared with it."""

from __future__ import annotations

import random
from dataclasses import dataclass, field
from typing import List, Optional, Tuple

from room.taken import spelled_speed
from room.timecode import Counting


@dataclass
class Shown:
    """What an event shows: a clip from a frame on, at a speed, over a range of the record."""

    clip: str
    source_in: int
    source_out: int
    record_in: int
    record_out: int
    transition: str = "C"
    duration: int = 0
    speed: Optional[int] = None
    is_drop_source: bool = False


@dataclass
class Generated:
    """A list in bytes, its rate, the timeline that is meant, and which habits of writing it has."""

    data: bytes
    rate: int
    shown: List[Shown]
    habits: List[str] = field(default_factory=list)
    is_drop: bool = False


HABITS = (
    "AX", "blank reels", "letters", "durations of cuts", "wipe digits", "points", "numbers with letters", "mark", "CR LF", "UTF-16",
    "motion reels", "three decimals", "motion first", "FCM words", "small letters", "lone returns", "notes", "no blanks", "sound",
)


def generate(seed: int) -> Generated:
    """The list of a seed. One in four has no habit at all, and is taken as it is."""
    random_ = random.Random(seed)
    rate = random_.choice((24, 25, 30))
    is_drop = rate == 30 and random_.random() < 0.4
    habits = [] if random_.random() < 0.25 else random_.sample(HABITS, random_.randrange(1, 4))
    if is_drop:
        habits = [habit for habit in habits if habit not in ("points",)]
    # (a point doesn't tell drop-frame from non-drop, so such lists have one counting)
    shown = timeline(random_, rate, is_drop, "plain" if not habits or "points" in habits else "mixed")
    if not habits and any(each.is_drop_source != is_drop for each in shown):
        habits = ["mixed counting"]
    rows = written(random_, rate, is_drop, shown, habits)
    return Generated(encoded(rows, habits), rate, shown, habits, is_drop)


def timeline(random_: random.Random, rate: int, is_drop: bool, kind: str) -> List[Shown]:
    """Events that follow one another, now and then with a gap, a dissolve, a wipe, a speed, a freeze or black."""
    clips = [f"{letter}{random_.randrange(1, 900):03}C{random_.randrange(1, 99):03}" for letter in "ABCDEFG"[: random_.randrange(2, 7)]]
    at = random_.randrange(0, 3) * 3600 * rate + random_.randrange(0, 2000)
    shown: List[Shown] = []
    for _ in range(random_.randrange(1, 9)):
        length = random_.randrange(4, 90)
        clip = random_.choice(clips)
        source = random_.randrange(200, 200_000)
        speed = random_.choice((None, None, None, None, 0, 1200, 4800, 3150, -rate * 100))
        drop_source = is_drop if random_.random() < 0.8 or kind == "plain" else rate == 30 and not is_drop
        source_out = source + (length if speed is None else random_.randrange(length + 40, length + 80))
        each = Shown(clip, source, source_out, at, at + length, speed=speed, is_drop_source=drop_source)
        if shown and shown[-1].record_out == at and random_.random() < 0.3:
            each.transition = random_.choice(("D", "D", "W001", "W021"))
            each.duration = random_.randrange(1, length + 1)
            before = shown[-1]
            shown.append(Shown(before.clip, before.source_out, before.source_out, at, at, is_drop_source=before.is_drop_source))
        shown.append(each)
        at += length + (random_.randrange(1, 50) if random_.random() < 0.1 else 0)
    return shown


def clip_of(shown: Shown, habits: List[str]) -> str:
    """The name of a clip's file or tape, as a note or a reel has it."""
    name = shown.clip
    if "letters" in habits:
        name = name.replace("A", "Ä").replace("C", "Ç")
    if "blank reels" in habits and "AX" not in habits:
        name = name[:4] + " " + name[4:]
    return name


def label(number: int, rate: int, is_drop: bool, habits: List[str]) -> str:
    text = Counting(rate, is_drop).label(number)
    return text[:8] + "." + text[9:] if "points" in habits else text


def written(random_: random.Random, rate: int, is_drop: bool, shown: List[Shown], habits: List[str]) -> List[str]:
    """The rows of the list."""
    rows = ["TITLE: GENERATED"]
    if is_drop:
        rows.append("FCM: DROP-FRAME" if "FCM words" in habits else "FCM: DROP FRAME")
    elif "FCM words" in habits:
        rows.append("FCM: NON-DROP-FRAME")
    number = 0
    place = 0
    while place < len(shown):
        number += 1
        has_outgoing = shown[place].record_in == shown[place].record_out
        edit = shown[place : place + (2 if has_outgoing else 1)]
        place += len(edit)
        rows += edit_rows(random_, number, edit, rate, is_drop, habits)
    return rows


def edit_rows(random_: random.Random, number: int, edit: List[Shown], rate: int, is_drop: bool, habits: List[str]) -> List[str]:
    """The rows of one edit: event lines, motion lines, notes and sound."""
    word = f"{number:03}A" if "numbers with letters" in habits else f"{number:03}"
    events = [event_row(word, each, rate, is_drop, habits) for each in edit]
    motions = [motion_row(each, rate, habits) for each in edit if each.speed is not None]
    notes: List[str] = []
    if "AX" in habits or "notes" in habits:
        notes.append(f"* FROM CLIP NAME: {clip_of(edit[0], habits)}" + (".mov" if "AX" in habits else ""))
        if len(edit) > 1:
            notes.append(f"* TO CLIP NAME:  {clip_of(edit[1], habits)}" + (".mov" if "AX" in habits else ""))
    if "sound" in habits:
        notes.append(f"{word}  {'AX' if 'AX' in habits else 'A001'}   AA    C        00:00:00:00 00:00:01:00 00:00:00:00 00:00:01:00")
    if "motion first" in habits and len(edit) == 1 and "motion reels" not in habits:
        return motions + events + notes
    return events + motions + notes


def event_row(word: str, each: Shown, rate: int, is_drop: bool, habits: List[str]) -> str:
    reel = "AX" if "AX" in habits else clip_of(each, habits)
    shape = each.transition
    if shape[0] == "W" and "wipe digits" in habits:
        shape = "W" + str(int(shape[1:]))
    duration = f"{each.duration:03}" if each.duration else "000" if "durations of cuts" in habits else ""
    times = " ".join((
        label(each.source_in, rate, each.is_drop_source, habits),
        label(each.source_out, rate, each.is_drop_source, habits),
        label(each.record_in, rate, is_drop, habits),
        label(each.record_out, rate, is_drop, habits),
    ))
    channels = "V"
    if "small letters" in habits:
        shape, channels = shape.lower(), "v"
    gap = " " if "no blanks" in habits else "  "
    return f"{word}{gap}{reel:<8} {channels}     {shape:<4} {duration:<3} {times}"


def motion_row(each: Shown, rate: int, habits: List[str]) -> str:
    reel = "AX" if "AX" in habits else clip_of(each, habits)
    if "motion reels" in habits:
        reel = "clip one" if each.record_in % 2 else ""
    assert each.speed is not None
    speed = spelled_speed(each.speed)
    if "three decimals" in habits:
        speed = f"{'-' if each.speed < 0 else ''}{abs(each.speed) / 100:07.3f}"
    return f"M2   {reel:<8}       {speed}                {label(each.source_in, rate, each.is_drop_source, habits)}"


def encoded(rows: List[str], habits: List[str]) -> bytes:
    end = "\r\n" if "CR LF" in habits else "\r" if "lone returns" in habits else "\n"
    text = end.join(rows) + end
    if "UTF-16" in habits:
        return b"\xff\xfe" + text.encode("utf-16-le")
    return (b"\xef\xbb\xbf" if "mark" in habits else b"") + text.encode("utf-8")


def meaning(shown: Shown) -> Tuple[int, int, int, str, int, Optional[int]]:
    """What `list` has to say of an event, but for its reel and its source out."""
    return (shown.source_in, shown.record_in, shown.record_out, shown.transition[0], shown.duration, shown.speed)
