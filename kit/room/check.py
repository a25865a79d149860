"""`room check`: all that a person should know of a list before it is planned."""

from __future__ import annotations

import argparse
import sys
from typing import Dict, List, Optional, Tuple

from room.cli import rate_argument
from room.doubts import DOUBTS, kind_of_file
from room.errors import NOTHING_TO_DO, TO_DECIDE
from room.files import read_bytes
from room.findings import Finding, put_findings
from room.list_text import lines_of
from room.page import advice_of, title_of
from room.station import DONE, REFUSED, Station, refusal_of
from room.taken import Reading, Refused, read_list
from room.view import View, view_of

NAME = "check"
HELP = "Tells all that a person should know of a list before it is planned, and not the first fault alone."
MORE = """\
A finding is a line FILE:LINE: with `refused` (the station doesn't take it), `warning` (it is taken, and the
pictures may be wrong) or `note`; below it are the list's own line and what to do. Without RATE the rate that
fits the labels is taken, and said.

status: 0 nothing but notes; 1 something is refused or doubtful; 2 the list can't be read"""


def add_arguments(parser: argparse.ArgumentParser) -> None:
    parser.add_argument("list", metavar="LIST", help="the edit list, or - for standard input")
    parser.add_argument("rate", metavar="RATE", nargs="?", type=rate_argument, help="23.976, 24, 25, 29.97 or 30")


def run(arguments: argparse.Namespace) -> int:
    data = read_bytes(arguments.list)
    findings = check(data, arguments.rate, Station())
    put_findings(arguments.list, findings, sys.stdout)
    print(summary(findings))
    return TO_DECIDE if any(finding.is_to_decide for finding in findings) else NOTHING_TO_DO


def summary(findings: List[Finding]) -> str:
    """The last line: how many findings of each kind."""
    refused = sum(1 for finding in findings if finding.kind.startswith("refused"))
    warnings = sum(1 for finding in findings if finding.kind == "warning")
    notes = sum(1 for finding in findings if finding.kind == "note")
    return f"{refused} refused, {counted(warnings, 'warning')}, {counted(notes, 'note')}"


def counted(number: int, word: str) -> str:
    """A number with its word, as one or many."""
    return f"{number} {word}" if number == 1 else f"{number} {word}s"


def check(data: bytes, rate: Optional[int], station: Optional[Station]) -> List[Finding]:
    """All findings of a list, in the order of its lines. Without a station they are the kit's own reading alone."""
    findings = list(kind_of_file(data))
    lines = lines_of(data)
    if rate is None:
        rate, said = likely_rate(data)
        findings.append(said)
    view = view_of(lines, rate, len(data))
    if station is not None:
        let_station_decide(view.reading, data, rate, station)
    findings += refusals(view)
    for doubt in DOUBTS:
        findings += doubt(view)
    return sorted(findings, key=lambda finding: finding.line)


def likely_rate(data: bytes) -> Tuple[int, Finding]:
    """The first rate at which no line is refused, or else the one with the fewest refusals."""
    lines = lines_of(data)
    found: Dict[int, int] = {rate: len(read_list(lines, rate, len(data)).refused) for rate in (24, 25, 30)}
    rate = min(found, key=lambda rate: found[rate])
    fitting = [str(each) for each in found if found[each] == found[rate]]
    text = f"no rate is given: it is read at {rate}"
    if len(fitting) > 1:
        text += f", though {' and '.join(fitting)} fit it alike: say which it is"
    return rate, Finding(0, "note", text)


def let_station_decide(reading: Reading, data: bytes, rate: int, station: Station) -> None:
    """Asks `list`, and puts the kit's own refusals right where they differ."""
    answer = station.list_bytes(data, rate)
    if answer.status == DONE:
        reading.refused = [refused for refused in reading.refused if refused.number in ("7.1", "7.2")]
    elif answer.status == REFUSED:
        told = refusal_of(answer.last)
        if told is not None and all((each.number, each.line) != (told.number, told.line) for each in reading.refused):
            reading.refused.append(Refused(told.number, told.line or 0))


def refusals(view: View) -> List[Finding]:
    """What the station refuses, with the line, a caret and the page's advice, which is given once for each number."""
    findings: List[Finding] = []
    advised: Dict[str, int] = {}
    for refused in sorted(view.reading.refused, key=lambda refused: refused.line):
        text = title_of(refused.number)
        if refused.other_line:
            text += f": it shares frames with line {refused.other_line}"
        if refused.added:
            text += f": {refused.added}"
        if refused.number in advised:
            advice = [f"What to do: as at line {advised[refused.number]}."]
        else:
            advised[refused.number] = refused.line
            advice = list(advice_of(refused.number))
        source = view.text_of(refused.line)
        findings.append(Finding(refused.line, f"refused {refused.number}", text, source, refused.column, refused.width, advice))
    return findings
