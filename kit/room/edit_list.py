"""Edit lists as editing systems write them.

Where the station's own reading (`taken.py`) is strict, this one is generous: it finds the event in a line whose reel has a
blank, whose labels have points or whose event number has a letter. It says what a person sees in a line, and never what the
station takes.
"""

from __future__ import annotations

import re
from dataclasses import dataclass
from functools import lru_cache
from typing import List, Optional, Tuple

from room.timecode import parts_of

TOKEN = re.compile(r"[^ \t]+")
LABEL = r"[0-9]{2}[:;.,][0-9]{2}[:;.,][0-9]{2}[:;.,][0-9]{2}"
FOUR_LABELS = re.compile(rf"(?<![^ \t])({LABEL})[ \t]+({LABEL})[ \t]+({LABEL})[ \t]+({LABEL})(?![^ \t\r])")
ONE_LABEL = re.compile(LABEL)
TRANSITION = re.compile(r"[CcDd]|[Ww][0-9]*|[Kk][BbOo]?")
# An event line of the usual form: a token for each field, and several for a reel with blanks. Its number and its channels are
# looked at behind that.
USUAL = re.compile(
    rf"[ \t]*([^ \t]+)[ \t]+([^ \t]+(?:[ \t]+[^ \t]+)*?)[ \t]+([^ \t]+)[ \t]+({TRANSITION.pattern})(?:[ \t]+([0-9]+))?"
    rf"[ \t]+({LABEL})[ \t]+({LABEL})[ \t]+({LABEL})[ \t]+({LABEL})(?![^ \t\r])"
)
CHANNELS = re.compile(r"[Bb]|NONE|[AaVv0-9/,&+]+|[^ \t]*[Vv][^ \t]*")
SPEED = re.compile(r"[+-]?(?:[0-9]+\.?[0-9]*|\.[0-9]+)")
DIGIT = re.compile("[0-9]")
TRACK = re.compile("V([0-9]+)")
NOT_A_LETTER = re.compile("[^A-Z]+")
# No event line of any system is longer before its labels.
LONGEST_HEAD = 4096

Span = Tuple[int, int]


@dataclass(eq=False)
class EventLine:
    """An event line: its fields as they stand there, where (`.._span`), and whether its channels have picture. Nobody changes it."""

    number: str
    reel: str
    channels: str
    transition: str
    duration: str
    labels: Tuple[str, str, str, str]
    number_span: Span
    reel_span: Span
    channels_span: Span
    transition_span: Span
    duration_span: Span
    label_spans: Tuple[Span, Span, Span, Span]
    is_picture: bool

    @property
    def is_black(self) -> bool:
        return self.reel == "BL"

    @property
    def is_transition(self) -> bool:
        """Whether it comes in by a dissolve or a wipe."""
        return self.transition[:1].upper() in ("D", "W")

    @property
    def is_key(self) -> bool:
        return self.transition[:1].upper() == "K"

    @property
    def track(self) -> int:
        """The number of its video track: `V` is the first."""
        match = TRACK.search(self.channels.upper()) if len(self.channels) > 1 else None
        return int(match.group(1)) if match else 1


@dataclass(eq=False)
class MotionLine:
    """A line that begins with M2, and where its fields stand. Speed or trigger is empty where none is found."""

    reel: str
    speed: str
    trigger: str
    reel_span: Span
    speed_span: Span
    trigger_span: Span


@dataclass(frozen=True)
class Note:
    """Any other line with words in it: a key word in capitals without the star, and what stands behind it."""

    key: str
    value: str


@lru_cache(maxsize=1 << 16)
def read_event(text: str) -> Optional[EventLine]:
    """The event of a line, if a person would see one in it."""
    match = USUAL.match(text)
    if match is None or match.start(6) > LONGEST_HEAD:
        return _read_unusual(text)
    number, reel, channels, transition, duration, *_ = match.groups()
    if len(reel) > 10 and ONE_LABEL.search(reel) or len(number) > 10 and ONE_LABEL.search(number):
        return _read_unusual(text)
    if DIGIT.search(number) is None or number[0] == "*" or CHANNELS.fullmatch(channels) is None:
        return None
    span = match.span
    end = match.end(4)
    duration_span = (end, end) if duration is None else span(5)
    label_spans = (span(6), span(7), span(8), span(9))
    return EventLine(
        number, reel, channels, transition, duration or "", match.group(6, 7, 8, 9),  # type: ignore[arg-type]
        span(1), span(2), span(3), span(4), duration_span, label_spans, has_picture(channels),
    )


def has_picture(channels: str) -> bool:
    """Whether channels have picture."""
    return "V" in channels or "v" in channels or channels in ("B", "b")


def _read_unusual(text: str) -> Optional[EventLine]:
    """The event of a line whose reel is missing, or in which something else isn't usual."""
    match = FOUR_LABELS.search(text)
    if match is None or match.start() > LONGEST_HEAD:
        return None
    tokens = [(m.start(), m.end()) for m in TOKEN.finditer(text, 0, match.start())]
    if not tokens or not DIGIT.search(text[slice(*tokens[0])]) or text[tokens[0][0]] == "*":
        return None
    place = _place_of_transition(text, tokens)
    if place is None or place < 2 or CHANNELS.fullmatch(text[slice(*tokens[place - 1])]) is None:
        return None
    number, channels, transition = tokens[0], tokens[place - 1], tokens[place]
    last = tokens[-1]
    has_duration = len(tokens) > place + 1 and text[slice(*last)].isdigit()
    before_duration = tokens[-2] if has_duration else last
    transition = (transition[0], before_duration[1])
    reel = (tokens[1][0], tokens[place - 2][1]) if place > 2 else (number[1], number[1])
    spans = (match.span(1), match.span(2), match.span(3), match.span(4))
    return EventLine(
        number=text[slice(*number)],
        reel=text[slice(*reel)],
        channels=text[slice(*channels)],
        transition="".join(text[slice(*transition)].split()),
        duration=text[slice(*last)] if has_duration else "",
        labels=(match.group(1), match.group(2), match.group(3), match.group(4)),
        number_span=number,
        reel_span=reel,
        channels_span=channels,
        transition_span=transition,
        duration_span=last if has_duration else (transition[1], transition[1]),
        label_spans=spans,
        is_picture=has_picture(text[slice(*channels)]),
    )


def _place_of_transition(text: str, tokens: List[Span]) -> Optional[int]:
    """Which token is the transition: the last one, or the one before a duration; a key has its second letter behind a blank."""
    words = [text[slice(*token)] for token in tokens[-3:]]
    place = len(tokens) - 1
    if len(words) > 1 and words[-1].isdigit():
        place -= 1
        words.pop()
    if len(words) > 1 and words[-1].upper() in ("B", "O") and words[-2].upper() == "K":
        return place - 1
    return place if words and TRANSITION.fullmatch(words[-1]) else None


@lru_cache(maxsize=1 << 16)
def read_motion(text: str) -> Optional[MotionLine]:
    """The motion of a line that begins with M2: the reel is whatever stands before the speed."""
    tokens = [(m.start(), m.end()) for m in TOKEN.finditer(text)]
    if not tokens or text[slice(*tokens[0])] != "M2" or len(tokens) > 200:
        return None
    words = [text[slice(*token)] for token in tokens]
    trigger = next((k for k in range(1, len(words)) if parts_of(words[k])), len(words))
    speed = next((k for k in range(trigger - 1, 0, -1) if SPEED.fullmatch(words[k])), None)
    end = tokens[-1][1]
    none = (end, end)
    trigger_span = tokens[trigger] if trigger < len(words) else none
    speed_span = tokens[speed] if speed is not None else (trigger_span[0], trigger_span[0])
    reel_end = speed if speed is not None else trigger
    reel_span = (tokens[1][0], tokens[reel_end - 1][1]) if reel_end > 1 else (tokens[0][1], tokens[0][1])
    return MotionLine(
        reel=text[slice(*reel_span)],
        speed=text[slice(*speed_span)],
        trigger=text[slice(*trigger_span)],
        reel_span=reel_span,
        speed_span=speed_span,
        trigger_span=trigger_span,
    )


NOTE = re.compile(
    r"(?P<name>(?:FROM|TO|KEY) CLIP NAME|(?:FROM|SOURCE) FILE(?: PATH)?|(?:FROM |TO )?CLIP IS A STILL|EFFECTS? NAME IS"
    r"|ASC_SOP|ASC_SAT|FINAL CUT PRO REEL|REEL(?= .* IS )|SPEED CHANGE|TIMEWARP EFFECT|SPLIT)[ \t]*:?[ \t]*(?P<rest>.*)",
    re.IGNORECASE,
)
MARKER = re.compile(r"\|C:[A-Za-z]+.*\|M:")


@lru_cache(maxsize=1 << 16)
def read_note(text: str) -> Optional[Note]:
    """The note of a line, where it has a key word that this kit knows."""
    stripped = text[:LONGEST_HEAD].strip(" \t\r")
    if MARKER.match(stripped):
        return Note("MARKER", stripped)
    words = stripped.lstrip("*").lstrip(" \t")
    match = NOTE.match(words)
    if match is None:
        return None
    return Note(match.group("name").upper(), match.group("rest").strip(" \t"))


def fcm_words(text: str) -> Optional[str]:
    """What a line says behind `FCM:`, or nothing where it is no such line."""
    stripped = text[:LONGEST_HEAD].strip(" \t\r")
    return stripped[4:].strip(" \t") if stripped[:4].upper() == "FCM:" else None


def says_drop(words: str) -> Optional[bool]:
    """Whether the words behind `FCM:` mean drop-frame, in whatever spelling; nothing where they don't say."""
    plain = NOT_A_LETTER.sub("", words.upper())
    if plain.startswith(("NONDROP", "NDF")):
        return False
    if plain.startswith(("DROP", "DF")):
        return True
    return None


def is_label(word: str) -> bool:
    """Whether a word is a label by any separators."""
    return ONE_LABEL.fullmatch(word) is not None
