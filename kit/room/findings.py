"""What a command found or changed: a line `FILE:LINE: ..` each, and what belongs to it indented behind it."""

from __future__ import annotations

from dataclasses import dataclass, field
from typing import Iterable, List, Optional, TextIO

from room.errors import printable

# The longest piece of a line of a list that is shown.
SHOWN = 160


@dataclass
class Finding:
    """One thing that was found.

    `kind` is `refused N`, `warning`, `note` or `changed`, and of scans `missing` or `unreadable` besides. `line` counts from 1; 0 is the file as a whole. `text` is one line;
    `source` is the line of the file that is shown below it, with a caret under `column` for `width` characters where they are
    given; `advice` is what to do.
    """

    line: int
    kind: str
    text: str
    source: Optional[str] = None
    column: int = 0
    width: int = 0
    advice: List[str] = field(default_factory=list)

    @property
    def is_to_decide(self) -> bool:
        """Whether a person has to decide something: a note and a change are told and no more."""
        return self.kind not in ("note", "changed")


def head_of(file: str, finding: Finding) -> str:
    """The one line of a finding in a file, whose name is printable."""
    return f"{file}:{finding.line}: {finding.kind}: {printable(finding.text)}"


def shown_line(finding: Finding) -> List[str]:
    """The line of the file, and carets below what is meant."""
    if finding.source is None:
        return []
    start = max(0, finding.column + finding.width - SHOWN) if finding.column >= SHOWN - 40 else 0
    before = "" if start == 0 else ".."
    piece = finding.source[start : start + SHOWN]
    behind = ".." if start + SHOWN < len(finding.source) else ""
    rows = ["    " + before + "".join(c if c.isprintable() else " " if c == "\t" else "?" for c in piece) + behind]
    if finding.width > 0:
        width = min(finding.width, SHOWN)
        rows.append("    " + " " * (len(before) + finding.column - start) + "^" * width)
    return rows


def put_findings(file: str, findings: Iterable[Finding], out: TextIO) -> None:
    """Puts findings in full: the line, the file's own line with a caret, and the advice."""
    shown = printable(file)
    for finding in findings:
        rows = [head_of(shown, finding), *shown_line(finding), *("    " + printable(row) for row in finding.advice)]
        out.write("\n".join(rows) + "\n")


def put_heads(file: str, findings: Iterable[Finding], out: TextIO) -> None:
    """Puts findings as one line each."""
    shown = printable(file)
    for finding in findings:
        out.write(head_of(shown, finding) + "\n")
