"""The one error that ends a command: a line for the user, and the status."""

from __future__ import annotations

NOTHING_TO_DO = 0
TO_DECIDE = 1
UNREADABLE = 2


class KitError(Exception):
    """An input that can't be read, or something that can't be made. Its text is one line."""


def system_words(error: OSError) -> str:
    """The system's own words for an error, with the file that it is about."""
    words = error.strerror or str(error)
    if error.filename is not None:
        return f"{printable(str(error.filename))}: {words}"
    return words


def printable(text: str) -> str:
    """A text with every character that would spoil one line, or can't be written, as an escape."""
    return text if text.isprintable() else "".join(c if c.isprintable() else _escape(c) for c in text)


def _escape(character: str) -> str:
    """A character that isn't printed; a byte that was no UTF-8 is shown as that byte."""
    code = ord(character)
    if 0xDC80 <= code <= 0xDCFF:
        return f"\\x{code - 0xDC00:02x}"
    return character.encode("unicode_escape", "surrogatepass").decode("ascii")
