"""Text and numbers as they stand in a page. Whatever a list or a project says comes out as text."""

from __future__ import annotations

import html
import re

from room.errors import printable


def text(words: str) -> str:
    """Words between tags or inside a quoted attribute: nothing in them is markup, and nothing spoils a line."""
    return html.escape(printable(words), quote=True)


def marked(words: str) -> str:
    """The same, with what stands between backticks as code."""
    return re.sub("`([^`]+)`", r"<code>\1</code>", text(words))


def number(value: float, digits: int = 1) -> str:
    """A coordinate, as short as it can be written."""
    written = f"{value:.{digits}f}"
    return written.rstrip("0").rstrip(".") if "." in written else written


def count(value: int, one: str, many: str = "") -> str:
    """A number with its noun."""
    return f"{value} {one if value == 1 else many or one + 's'}"


def size_in_words(size: int) -> str:
    """A length in bytes, as people say it."""
    if size < 1000:
        return f"{size} bytes"
    return f"{size / 1000:.0f} kB" if size < 1_000_000 else f"{size / 1_000_000:.1f} MB"
