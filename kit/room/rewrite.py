"""`room rewrite`: a list in the station's dialect."""

from __future__ import annotations

import argparse
import sys
from typing import Callable, List, Optional, Tuple

from room.check import let_station_decide
from room.cli import rate_argument
from room.doubts import black_names, delays, effects, markers
from room.draft import Draft, Options, Row
from room.errors import NOTHING_TO_DO, TO_DECIDE
from room.files import put, read_bytes
from room.findings import Finding, put_heads
from room.list_text import lines_of, other_kind, plain_text
from room.page import title_of
from room.rules_counting import fcm_around
from room.rules_lines import capitals, durations, event_numbers, fcm_words, keys, label_points, reel_names, tracks, wipe_digits
from room.rules_motion import HABITS, motion_fields, motion_sides, motion_stills, motions_before_events, reverses
from room.rules_reels import clip_reels
from room.station import Station
from room.taken import read_list

NAME = "rewrite"
HELP = "Writes a list in the station's dialect, and names each change and what can't be decided."
MORE = """\
The new list goes to standard output, or to a FILE that isn't there yet; each change is a line on standard
error, FILE:LINE: with old, new and why. Where no rule applies the list is the same, byte for byte.

--reels: without it reel AX gets its clips' names, and others where two clips can't be one tape;
  clip: all reels by clip name; keep: none; ask: none, and a line for each that stands for files
--from: how the program lists a reverse: """ + ", ".join(f"{name} ({habit})" for name, habit in HABITS.items()) + """
  (range: in ascending order, so that play begins at the end; first: source in is the first frame shown)

status: 0 the list is taken; 1 a person has to decide something; 2 the list can't be read"""

# In this order: a rule sees what those before it made.
RULES: Tuple[Callable[[Draft], None], ...] = (
    fcm_words,
    event_numbers,
    capitals,
    label_points,
    wipe_digits,
    durations,
    keys,
    reel_names,
    motions_before_events,
    motion_fields,
    tracks,
    motion_stills,
    clip_reels,
    motion_sides,
    reverses,
    fcm_around,
)

# Doubts that no rule decides.
UNDECIDED = (effects, black_names, delays)


def add_arguments(parser: argparse.ArgumentParser) -> None:
    parser.add_argument("list", metavar="LIST", help="the edit list, or - for standard input")
    parser.add_argument("rate", metavar="RATE", type=rate_argument, help="23.976, 24, 25, 29.97 or 30")
    parser.add_argument("-o", dest="output", metavar="FILE", help="write into this new file")
    parser.add_argument("--from", dest="habit", choices=sorted(HABITS), metavar="PROGRAM", help=f"the program it came from: {', '.join(sorted(HABITS))}")
    parser.add_argument("--reels", choices=("clip", "keep", "ask"), default="auto", help="reels by clip name: all, none, or ask")
    parser.add_argument("--track", type=int, metavar="N", help="the video track to keep, where there are several")


def run(arguments: argparse.Namespace) -> int:
    data = read_bytes(arguments.list)
    options = Options(arguments.rate, arguments.habit, arguments.reels, arguments.track)
    new, findings = rewrite(data, options, Station())
    put(arguments.output, new)
    put_heads(arguments.list, findings, sys.stderr)
    return TO_DECIDE if any(finding.is_to_decide for finding in findings) else NOTHING_TO_DO


def rewrite(data: bytes, options: Options, station: Optional[Station]) -> Tuple[bytes, List[Finding]]:
    """The new list and what is to be said of it, in the order of the lines of the old one."""
    kind = other_kind(data)
    if kind is not None:
        return data, [Finding(0, "warning", f"it looks like {kind}, and not like an edit list: it is left as it is")]
    text, said = plain_text(data)
    draft = Draft([Row(line.number, line.text, line.end) for line in lines_of(text)], options)
    draft.findings += [Finding(0, "changed", sentence) for sentence in said]
    if not draft.view.entries:
        draft.ask(None, "no line looks like an event: is it an edit list?")
    elif any(markers(draft.view)):
        draft.findings += list(markers(draft.view))
    else:
        apply_rules(draft)
    draft.findings += still_refused(draft, station)
    return draft.bytes(), sorted(draft.findings, key=lambda finding: finding.line)


def apply_rules(draft: Draft) -> None:
    """All rules, each once, and then what no rule decides."""
    for rule in RULES:
        rule(draft)
    for doubt in UNDECIDED:
        for finding in doubt(draft.view):
            finding.line = draft.number_of(finding.line)
            draft.findings.append(finding)


def still_refused(draft: Draft, station: Optional[Station]) -> List[Finding]:
    """What the station refuses of the new list. Line numbers are those of the given list."""
    data = draft.bytes()
    reading = read_list(lines_of(data), draft.rate, len(data))
    if station is not None:
        let_station_decide(reading, data, draft.rate, station)
    findings: List[Finding] = []
    for refused in reading.refused:
        text = title_of(refused.number) + (f": {refused.added}" if refused.added else "")
        if refused.other_line:
            text += f": it shares frames with line {draft.number_of(refused.other_line)}"
        findings.append(Finding(draft.number_of(refused.line), f"refused {refused.number}", text))
    return findings

