"""The tables of a page: events, pull list, jumps, differences and the answers that all of it is made of."""

from __future__ import annotations

import time
from typing import Iterable, List, Sequence, Set

from room.report.differences import Difference, Differences
from room.report.levels import Jump
from room.report.markup import count, marked, text
from room.report.record import Record, how_in_words, speed_in_words
from room.report.state import State


def table(name: str, heads: Sequence[str], rows: Iterable[str]) -> str:
    """A table that scrolls within its place and can be reached with a keyboard. Rows are cells already."""
    head = "".join(f'<th scope="col">{text(each)}' for each in heads)
    return (
        f'<div class="wide" tabindex="0" role="region" aria-label="{text(name)}"><table><thead><tr>{head}</thead><tbody>'
        + "".join(f"<tr{row}" for row in rows)
        + "</tbody></table></div>"
    )


def cells(*values: str) -> str:
    """Cells of one row behind its beginning."""
    return "".join(f"<td>{value}" for value in values)


def reel_name(record: Record, reel: str) -> str:
    return f'<i class="key {record.colour(reel)}"></i>{text(reel)}'


def events(state: State, linked: Set[int]) -> str:
    """The events in the list's order; the number leads to the event's picture."""
    record = state.record
    if record is None or state.table is None:
        return ""
    lengths = {span.event.line: span.length for span in record.spans}
    rows: List[str] = []
    for event in state.table.events:
        number = f'<a href="#p{event.line}">{event.line}</a>' if event.line in linked else str(event.line)
        rows.append(
            f' id="e{event.line}"><th scope="row">{number}'
            + cells(
                reel_name(record, event.reel), event.source_in, event.source_out, event.record_in, event.record_out,
                str(lengths.get(event.line, 0)), text(how_in_words(event)), text(speed_in_words(event, record.counting.rate)),
            )
        )
    return table("events", ("line", "reel", "source in", "source out", "record in", "record out", "frames", "comes in by", "speed"), rows)


def pull(state: State) -> str:
    """Which source frames the job needs."""
    answer = state.answer("pull")
    if state.record is None or answer is None or not state.pull:
        return f"<p>{text(answer.last) if answer is not None and answer.status else 'No answer of <code>pull</code> is there.' if answer is None else 'No source frame is needed.'}</p>"
    record = state.record
    rows = [f'><th scope="row">{reel_name(record, each.reel)}' + cells(each.first, each.last, str(each.frames)) for each in state.pull]
    total = sum(each.frames for each in state.pull)
    return table("pull list", ("reel", "first", "last", "frames"), rows) + f"<p>{count(len(state.pull), 'range')}, {count(total, 'frame')}.</p>"


def jumps(record: Record, found: List[Jump]) -> str:
    """Jumps of the mean that the list doesn't explain."""
    if not found:
        return "<p>The mean jumps nowhere but where the list changes the picture.</p>"
    rows = [f'><th scope="row">{jump.frame}' + cells(record.label(jump.frame), f"{jump.before:.0f}", f"{jump.after:.0f}") for jump in found]
    words = f"<p>{count(len(found), 'jump')} of the mean where the list has no cut, transition or gap: worth a look.</p>"
    return words + table("jumps that aren't cuts", ("frame", "label", "mean before", "mean there"), rows)


def differences(record: Record, found: Differences) -> str:
    """What the old list showed in each changed event, and what the new one shows."""
    if found.trouble:
        return f"<p>{marked(found.trouble)}</p>"
    said = "".join(f"<p>{text(reason)}: nothing can be taken over, and all is new.</p>" for reason in found.unlike)
    if not found.found and not found.gone:
        return said + "<p>Nothing changes.</p>"
    rows: List[str] = []
    for each in found.found:
        place = f'<a href="#e{each.event.line}">line {each.event.line}</a>' if each.event is not None else "black"
        reel = reel_name(record, each.event.reel) if each.event is not None else ""
        numbers = (f"{len(each.new)} of {each.frames}", f"{len(each.moved)} of {each.frames}")
        rows.append(f'><th scope="row">{place}' + cells(reel, *numbers, spans_in_words(record, each), text(each.before), text(each.after)))
    words = f"{len(found.new)} of {count(record.count, 'frame')} are new, and {len(found.moved)} moved: {text(found.old)} shows them elsewhere."
    said += f"<p>{words}</p>"
    if rows:
        said += table("differences", ("event", "reel", "new", "moved", "where", "the first showed", "and shows"), rows)
    return said + "".join(f"<p>{text(words)}</p>" for words in found.gone[:200])


def spans_in_words(record: Record, each: Difference) -> str:
    """Where an event's frames differ."""
    spans = [f"{record.label(a)} to {record.label(b - 1)}" if b - a > 1 else record.label(a) for a, b in each.ranges]
    return ", ".join(spans[:3]) + (f" and {len(spans) - 3} more" if len(spans) > 3 else "")


def answers(state: State) -> str:
    """What was asked, when, and what was answered."""
    rows: List[str] = []
    for asked in state.asked.values():
        at = time.strftime("%Y-%m-%d %H:%M:%S", time.localtime(asked.at))
        rows.append(f'><th scope="row"><code>{text(asked.words)}</code>' + cells(at, f"{asked.took:.1f} s", str(asked.answer.status), f'<span class="break">{text(asked.answer.last[:200])}</span>'))
    return table("answers", ("asked", "answered", "took", "status", "last line"), rows)
