"""What the pages say of a refusal: its title, and what to do; and the keys of a project. Nothing of it is said twice."""

from __future__ import annotations

import re
from functools import lru_cache
from typing import Dict, List, NamedTuple, Tuple

from room.station import TOP

PAGE = TOP / "docs" / "refusals.md"
MANUAL = TOP / "docs" / "manual.md"
WIDTH = 96


class Section(NamedTuple):
    """A section of the page: what stands behind the colon of its heading, and the paragraph that says what to do."""

    title: str
    advice: str


@lru_cache(maxsize=1)
def sections() -> Dict[str, Section]:
    """All sections by their keys, such as `3.2`. Without the page there are none."""
    try:
        text = PAGE.read_text(encoding="utf-8")
    except OSError:
        return {}
    found: Dict[str, Section] = {}
    for part in text.split("\n### ")[1:]:
        heading, _, body = part.partition("\n")
        key, _, title = heading.partition(": ")
        match = re.search(r"^What to do: (.*)$", body, re.MULTILINE)
        found[key] = Section(title, match.group(1) if match else "")
    return found


@lru_cache(maxsize=1)
def keys_of_project() -> Dict[int, str]:
    """The names of a project's keys by their numbers, of the manual's table. Without the manual there are none."""
    try:
        text = MANUAL.read_text(encoding="utf-8")
    except OSError:
        return {}
    return {int(number): name for number, name in re.findall(r"^\| (\d+) \| `([a-z]+)` \|", text, re.MULTILINE)}


def title_of(key: str) -> str:
    """The title of a section, or nothing where there is none."""
    return sections().get(key, Section("", "")).title


def advice_of(key: str) -> Tuple[str, ...]:
    """What to do, broken into lines."""
    advice = sections().get(key, Section("", "")).advice
    return tuple(broken("What to do: " + advice)) if advice else ()


def broken(text: str) -> List[str]:
    """A text with its lines broken at blanks."""
    rows: List[str] = []
    row = ""
    for word in text.split():
        if row and len(row) + 1 + len(word) > WIDTH:
            rows.append(row)
            row = word
        else:
            row = f"{row} {word}" if row else word
    return rows + [row] if row else rows
