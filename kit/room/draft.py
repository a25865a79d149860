"""A list that is being rewritten: its rows, and every change with its place, old, new and why."""

from __future__ import annotations

from dataclasses import dataclass, field
from typing import Dict, List, Optional, Tuple

from room.findings import Finding
from room.list_text import Line, encode
from room.view import Entry, View, view_of

Span = Tuple[int, int]


@dataclass
class Options:
    """What the command line says of the rules."""

    rate: int
    habit: Optional[str] = None
    reels: str = "auto"
    track: Optional[int] = None


@dataclass(eq=False)
class Row:
    """A line of the new list. `number` is the line that it was in the file that was given; of an added one, the line it stands at.

    `place` is that among the rows, from 1, in the present view.
    """

    number: int
    text: str
    end: str
    place: int = 0


@dataclass
class Draft:
    """The rows so far, and what was said. Rules change rows through the calls below, so that nothing changes unsaid."""

    rows: List[Row]
    options: Options
    findings: List[Finding] = field(default_factory=list)
    _view: Optional[View] = None
    _touched: Dict[Row, None] = field(default_factory=dict)

    @property
    def rate(self) -> int:
        return self.options.rate

    @property
    def view(self) -> View:
        """What the rows are now. Its lines are numbered by their places among the rows."""
        view = self._view
        if view is not None and self._touched and not view.change((row.place, row.text) for row in self._touched):
            view = None
        if view is None:
            for place, row in enumerate(self.rows, 1):
                row.place = place
            view = self._view = view_of([Line(row.place, row.text, row.end) for row in self.rows], self.rate)
        self._touched.clear()
        return view

    @property
    def line_end(self) -> str:
        """The line end of an added line: that of the list's first line."""
        return self.rows[0].end or "\n" if self.rows else "\n"

    def row(self, line: Line) -> Row:
        """The row of a line of the present view."""
        return self.rows[line.number - 1]

    def number_of(self, place: int) -> int:
        """The line of the given file that the row at a place (from 1) was."""
        return self.rows[place - 1].number if 1 <= place <= len(self.rows) else 0

    def ask(self, line: Optional[Line], text: str) -> None:
        """Something that a person has to decide."""
        self.findings.append(Finding(self.row(line).number if line else 0, "warning", text))

    def say(self, row: Row, text: str) -> None:
        self.findings.append(Finding(row.number, "changed", text))

    def put(self, row: Row, span: Span, new: str, what: str, why: str) -> None:
        """Puts another token in the place of one, and keeps the columns behind it where there is room."""
        old = row.text[slice(*span)]
        self.say(row, f"{what} {old or '(none)'} to {new or '(none)'}: {why}")
        row.text = replaced(row.text, span, new)
        self._touched[row] = None

    def rewrite_row(self, row: Row, text: str, said: str) -> None:
        """Gives a row another text."""
        self.say(row, said)
        row.text = text
        self._touched[row] = None

    def leave_out(self, row: Row, why: str) -> None:
        """Turns a line into a note, so that the station passes it over and a person still sees it."""
        self.rewrite_row(row, "* LEFT OUT: " + row.text.strip(" \t"), f"left out, as a note: {why}")

    def insert(self, place: int, text: str, why: str) -> None:
        """Adds a row before the one at a place (from 0), or behind the last one."""
        near = self.rows[min(place, len(self.rows) - 1)]
        if place > 0 and self.rows[place - 1].end == "":
            self.rows[place - 1].end = self.line_end
        row = Row(near.number, text, self.line_end)
        self.rows.insert(place, row)
        self.findings.append(Finding(near.number, "changed", f"added `{text}`: {why}"))
        self._view = None

    def move_behind(self, moves: List[Tuple[Row, Row]], why: str) -> None:
        """Moves each first row directly behind the second, which isn't moved itself; those behind one row keep their order."""
        if not moves:
            return
        moved = {row for row, _ in moves}
        first_left = next(row for row in self.rows if row not in moved)
        behind: Dict[Row, List[Row]] = {}
        for row, anchor in reversed(moves):
            end = (first_left if row is self.rows[0] else self.rows[0]).end or "\n"
            anchor.end = anchor.end or end
            row.end = row.end or end
            behind.setdefault(anchor, []).append(row)
            self.say(row, f"moved behind line {anchor.number}: {why}")
        left = [row for row in self.rows if row not in moved]
        self.rows = [each for row in left for each in (row, *reversed(behind.get(row, ())))]
        self._view = None

    def bytes(self) -> bytes:
        """The list as it stands."""
        return encode("".join(row.text + row.end for row in self.rows))


def replaced(text: str, span: Span, new: str) -> str:
    """A text with another token at a place. What stands behind keeps its column where blanks can be spared or added."""
    start, end = span
    behind = text[end:]
    blanks = len(behind) - len(behind.lstrip(" "))
    grown = len(new) - (end - start)
    if start == end:
        # (a token that was missing: it is set apart by blanks)
        before = "" if text[:start].endswith((" ", "\t")) or not text[:start] else " "
        return text[:start] + before + new + (behind if behind[:1] in ("", " ", "\t") else " " + behind)
    if not behind.strip():
        return text[:start] + new + behind
    if grown > 0 and blanks > 1:
        behind = behind[min(grown, blanks - 1) :]
    elif grown < 0 and blanks > 0:
        behind = " " * -grown + behind
    return text[:start] + new + behind


def entries_by_line(view: View) -> Dict[int, Entry]:
    """The event lines of a view by their line."""
    return {entry.line.number: entry for entry in view.entries}
