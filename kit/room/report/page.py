"""The page: its parts put together as one HTML file that needs nothing else."""

from __future__ import annotations

import itertools
import json
import time
from dataclasses import dataclass, field
from pathlib import Path
from typing import Dict, List, Optional, Tuple

from room.report import levels, tables, timeline
from room.report.differences import Differences, ranges_with_ends
from room.report.markup import count, marked, number, text
from room.report.pictures import Picture, Pictures
from room.report.record import Record, Span
from room.report.state import Fact, State, facts

HERE = Path(__file__).resolve().parent
HINT = "Arrow keys move by a frame and by an event, Page Up and Page Down by a second."


@dataclass
class Page:
    """A title, and sections by their names and words."""

    title: str
    sections: List[Tuple[str, str, str]] = field(default_factory=list)
    head: str = ""
    data: Dict[str, object] = field(default_factory=dict)
    reload: int = 0

    def add(self, name: str, words: str, body: str) -> None:
        self.sections.append((name, words, body))


def asset(name: str) -> str:
    """A file beside this module."""
    return (HERE / name).read_text(encoding="utf-8")


def html_of(page: Page) -> str:
    """The whole file."""
    title = text(page.title)
    links = " ".join(f'<a href="#{name}">{words}</a>' for name, words, _ in page.sections)
    body = "".join(f'<section id="{name}" aria-labelledby="{name}-head"><h2 id="{name}-head">{words}</h2>{part}</section>\n' for name, words, part in page.sections)
    data = json.dumps(page.data, separators=(",", ":")).replace("<", "\\u003c")
    script = f'<script type="application/json" id="data">{data}</script>\n<script>{asset("report.js")}</script>' if page.data else ""
    again = f'<meta http-equiv="refresh" content="{page.reload}">' if page.reload else ""
    return f"""<!doctype html>
<html lang="en"><head><meta charset="utf-8"><meta name="viewport" content="width=device-width,initial-scale=1">{again}
<meta name="generator" content="room"><link rel="icon" href="data:,"><title>{title}</title><style>{asset("report.css")}</style></head>
<body><svg width="0" height="0" style="position:absolute" aria-hidden="true">{timeline.PATTERNS}</svg>
<header><div class="bar"><h1>{title}</h1><nav aria-label="parts of the page">{links}</nav></div></header>
<main>{page.head}
{body}</main>
<footer><p>Made {time.strftime("%Y-%m-%d %H:%M:%S")} by <code>./room</code> of what the station printed and of the frames as they lay there. It is a display: \
what is done and what is sound, <code>status</code> and <code>verify</code> say.</p></footer>
<div id="reading" role="status" aria-live="polite" hidden></div>
{script}</body></html>
"""


def page_of(state: State, differences: Optional[Differences], is_linear: bool) -> Page:
    """The page of a project."""
    page = Page(f"{state.title}: report", head=head_of(facts(state)))
    record = state.record
    if record is not None:
        marks = marks_of(state, differences)
        page.add("timeline", "Timeline", timeline_part(record, marks))
        page.data = data_of(record)
        if state.frames:
            page.add("pictures", "Pictures", pictures_part(state, record, is_linear))
            page.add("levels", "Levels", levels_part(state, record, page.data))
        if differences is not None:
            page.add("differences", "Differences", tables.differences(record, differences))
        page.add("events", "Events", tables.events(state, {span.event.line for span in record.spans} if state.frames else set()))
        page.add("pull", "Pull list", tables.pull(state))
    page.add("answers", "Answers", tables.answers(state))
    return page


def head_of(rows: List[Fact]) -> str:
    """The state in words: one sentence first, facts below."""
    first = rows[0]
    more = paragraphs(first.more)
    said = f'<div class="summary {first.kind}" id="state" role="region" aria-label="state"><b>{text(first.name)}</b><p>{marked(first.words)}</p>{more}</div>'
    cells = "".join(
        f'<div class="{fact.kind}"><dt>{text(fact.name)}<dd>{marked(fact.words)}' + "".join(f'<p class="soft">{marked(words)}</p>' for words in fact.more) + "</div>"
        for fact in rows[1:]
    )
    return f'{said}<dl class="facts">{cells}</dl>'


def paragraphs(rows: Tuple[str, ...]) -> str:
    """Rows as paragraphs. What is indented is a line of a file, perhaps with a caret below it, and keeps its columns."""
    parts: List[str] = []
    for is_shown, group in itertools.groupby(rows, key=lambda row: row.startswith("  ")):
        if is_shown:
            parts.append('<pre tabindex="0">' + "\n".join(text(row) for row in group) + "</pre>")
        else:
            parts += [f"<p>{marked(row)}</p>" for row in group]
    return "".join(parts)


def marks_of(state: State, differences: Optional[Differences]) -> timeline.Marks:
    """What the timeline has below its events."""
    damaged = [state.damaged] if state.damaged is not None else []
    new = ranges_with_ends(differences.new) if differences is not None else []
    moved = ranges_with_ends(differences.moved) if differences is not None else []
    return timeline.Marks(timeline.ranges_of_flags(state.done), damaged, new, moved, has_reel=bool(state.frames))


def timeline_part(record: Record, marks: timeline.Marks) -> str:
    """The rows and their key."""
    rows = "".join(f'<div class="row" data-frames="{row.start} {row.end} {row.scale}">{row}</div>' for row in timeline.rows_of(record, marks))
    key = "".join(f"<li>{_key(kind, is_reel)}{text(words)}" for kind, words, is_reel in timeline.legend(record, marks))
    return (
        f'<p class="soft hint" hidden>{HINT}</p><div class="rows drawing" tabindex="0" role="group" aria-label="timeline">{rows}</div>'
        f'<ul class="legend" aria-label="key of the timeline">{key}</ul>'
    )


_KEYS = {
    "dissolve": '<path class="r0" d="M2 13L18 1h4v12z"/>',
    "wipe": '<path class="wipe" d="M2 1h18v12H2z"/><path class="r0" d="M2 1h9v12H2z"/>',
    "speed": '<rect class="r0" width="22" height="14"/><rect fill="url(#speed)" y="8" width="22" height="4"/>',
    "reverse": '<rect class="r0" width="22" height="14"/><rect fill="url(#reverse)" y="8" width="22" height="4"/>',
    "freeze": '<rect class="r0" width="22" height="14"/><rect fill="url(#freeze)" y="8" width="22" height="4"/>',
    "gap": '<rect class="gap" width="22" height="14"/>',
    "todo": '<rect class="todo" width="22" height="14"/>',
    "done": '<rect class="done" y="3" width="22" height="8"/>',
    "bad": '<path class="bad" d="M11 0l7 7l-7 7l-7 -7z"/>',
    "new": '<path class="new" d="M2 4H20l-2 6H4z"/>',
    "moved": '<path class="moved" d="M2 4H20l-2 6H4z"/>',
    "reel": '<path class="reel" d="M11 0V14"/>',
}


def _key(kind: str, is_reel: bool) -> str:
    if is_reel:
        return f'<i class="key {kind}"></i>'
    return f'<svg viewBox="0 0 22 14" aria-hidden="true">{_KEYS[kind]}</svg>'


def pictures_part(state: State, record: Record, is_linear: bool) -> str:
    """A cell for each event."""
    wanted = sum(3 if span.outgoing else 1 for span in record.spans)
    pictures = Pictures(state, wanted, is_linear)
    curve = "as the codes lie there" if is_linear else "with the curve of <code>sheet</code>"
    cells = "".join(_cell(state, record, pictures, span) for span in record.spans)
    words = f"Each event by a frame from its middle, or from behind its transition, {curve}. What is hatched isn't done."
    return f'<p class="soft">{words}</p><ul class="cells">{cells}</ul>'


def _cell(state: State, record: Record, pictures: Pictures, span: Span) -> str:
    """An event's picture with its names, and on demand both sides of its transition."""
    event = span.event
    frame = state.frames[span.shown]
    source = next((side for side in frame.sides[-1:]), None)
    reel = state.project.reel(source.reel) if source is not None and not source.is_black else None
    label = reel.counting(state.project.rate).label(source.frame) if reel is not None and source is not None else "black"
    sides = ""
    if span.outgoing:
        before, behind = max(span.start - 1, 0), span.behind
        # Where nothing lasts before the transition, its own first frame has the outgoing picture.
        before = before if state.frames[before].sides[-1].reel == span.outgoing else span.start
        sides = (
            f"<details><summary>both sides</summary><div>{_side(state, record, pictures, before, 'from ' + span.outgoing)}"
            f"{_side(state, record, pictures, behind, 'to ' + event.reel)}</div></details>"
        )
    damaged = '<span class="damage">damaged</span>' if state.damaged == span.shown else ""
    if state.damaged is not None and not damaged and span.start <= state.damaged < span.end:
        damaged = f'<span class="damage">frame {state.damaged} of it is damaged</span>'
    return (
        f'<li id="p{event.line}">{_image(state, pictures, span.shown, f"line {event.line}, {event.reel}")}{damaged}'
        f'<a href="#e{event.line}">{event.line}</a> <b>{text(event.reel)}</b>'
        f'<span class="label">{record.label(span.shown)}</span><span class="label soft">{label}</span>{sides}'
    )


def _side(state: State, record: Record, pictures: Pictures, index: int, words: str) -> str:
    image = _image(state, pictures, index, f"{words}, {record.label(index)}")
    return f"<figure>{image}<figcaption>{text(words)}<br>{record.label(index)}</figcaption></figure>"


def _image(state: State, pictures: Pictures, index: int, name: str) -> str:
    """A frame's picture, or hatching with a word that says why there is none."""
    project = state.project
    if not state.done[index]:
        return _no_image(project.width, project.height, "not done", name)
    picture: Optional[Picture] = pictures.of(index)
    if picture is None:
        return _no_image(project.width, project.height, "lost or cut", name)
    few = ' class="few"' if picture.width < 80 else ""
    return f'<img{few} src="{picture.address}" width="{picture.width}" height="{picture.height}" alt="{text(name)}" decoding="async" style="height:auto">'


def _no_image(width: int, height: int, why: str, name: str) -> str:
    ratio = max(min(width / height, 4), 0.5)
    return f'<div class="none" role="img" aria-label="{text(name)}: {why}" style="aspect-ratio:{number(ratio, 3)}"><span>{why}</span></div>'


def levels_part(state: State, record: Record, data: Dict[str, object]) -> str:
    """The curves, the jumps, or why there are none."""
    if not state.levels:
        return f"<p>{_why_no_levels(state)}</p>"
    found = levels.levels_of(state.levels, state.project.width * state.project.height)
    data["levels"] = levels.packed(found, record.count)
    data["pixels"] = found.pixels
    rows = "".join(_levels_row(record, found, *row) for row in levels.rows_of(record))
    return (
        f'<p class="soft">Clipped are pixels with a code of 1020 or more, crushed those with one of 3 or less. Lines behind are cuts. <span class="hint" hidden>{HINT}</span></p>'
        f'<div class="rows levels" tabindex="0" role="group" aria-label="levels">{rows}</div>{tables.jumps(record, levels.jumps_of(record, found))}'
    )


def _levels_row(record: Record, found: levels.Levels, start: int, end: int, scale: int) -> str:
    tops = found.tops
    ends = (f"0 to {levels.GREATEST_CODE}", *(f"0 to {100 * top / found.pixels:.3g}% of the picture" for top in tops[1:]))
    names = "".join(f'<span class="name" style="top:{top - 16}px">{words}, {span}</span>' for (_, words, top, _), span in zip(levels.CURVES, ends))
    share = number(100 * (end - start) / scale)
    time_row = f'<div class="time" style="width:{share}%"><span>{record.label(start)}</span><span>{record.label(end - 1)}</span></div>'
    return f'<div class="row" data-frames="{start} {end} {scale}">{levels.drawing(record, found, start, end, scale)}{names}{time_row}</div>'


def _why_no_levels(state: State) -> str:
    """Why there is no table of `qc`."""
    answer = state.answer("qc")
    if answer is not None and answer.status:
        return f"<code>qc</code> says: {text(answer.last)}"
    if state.acknowledged and answer is None:
        return "Levels read every frame, and weren't asked (<code>--fast</code>)."
    return "No frame is done, so there are no levels."


def data_of(record: Record) -> Dict[str, object]:
    """What the script of the cursor knows."""
    reels = sorted({span.event.reel for span in record.spans})
    places = {reel: place for place, reel in enumerate(reels)}
    return {
        "count": record.count, "first": record.first, "rate": record.counting.rate, "drop": record.counting.is_drop, "reels": reels,
        "events": [[span.start, span.end, span.event.line, places[span.event.reel]] for span in record.spans],
    }


def frames_in_words(state: State) -> str:
    """How far the reel is, for a line on the terminal."""
    return f"{state.acknowledged} of {count(len(state.frames), 'frame')} done" if state.frames else "not planned"
