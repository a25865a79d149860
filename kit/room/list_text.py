"""The text of a list: its bytes as lines, what kind of file it is, and how it was written.

Bytes that aren't UTF-8 are kept as they are (`surrogateescape`), so that a line that nobody changes comes out byte for byte.
"""

from __future__ import annotations

from dataclasses import dataclass
from typing import List, Optional, Tuple

# Files that are handed in by mistake, by how they begin.
OTHER_KINDS: Tuple[Tuple[bytes, str], ...] = (
    (b"<?xml", "XML, such as an FCPXML or a Final Cut Pro 7 file"),
    (b"<fcpxml", "FCPXML"),
    (b"<xmeml", "a Final Cut Pro 7 XML file"),
    (b"\xd0\xcf\x11\xe0", "an AAF or OMF file"),
    (b"{", "JSON, such as an OpenTimelineIO file"),
    (b"Heading", "an Avid Log Exchange file"),
    (b"SDPX", "a DPX picture"),
    (b"XPDS", "a DPX picture"),
    (b"PK\x03\x04", "a ZIP archive"),
    (b"%PDF", "a PDF document"),
    (b"\x1f\x8b", "a packed file (gzip)"),
    (b"{\\rtf", "a text with styles (RTF)"),
)
UTF8_MARK = b"\xef\xbb\xbf"
LONGEST = 4_194_304


@dataclass
class Line:
    """A line of the file: its number from 1, its text without its end, and that end (LF, CR LF or nothing)."""

    number: int
    text: str
    end: str


def decode(data: bytes) -> str:
    """Bytes as a text that gives the same bytes back."""
    return data.decode("utf-8", "surrogateescape")


def encode(text: str) -> bytes:
    """The bytes of a text that was decoded so."""
    return text.encode("utf-8", "surrogateescape")


def lines_of(data: bytes) -> List[Line]:
    """The lines as the station counts them: LF ends one, and one CR before it belongs to the end."""
    pieces = decode(data).split("\n")
    last = pieces.pop()
    lines = [Line(number, piece[:-1], "\r\n") if piece[-1:] == "\r" else Line(number, piece, "\n") for number, piece in enumerate(pieces, 1)]
    if last:
        lines.append(Line(len(lines) + 1, last[:-1], "\r") if last[-1] == "\r" else Line(len(lines) + 1, last, ""))
    return lines


def other_kind(data: bytes) -> Optional[str]:
    """What kind of file it looks like, where that is no edit list."""
    start = data.removeprefix(UTF8_MARK).lstrip(b" \t\r\n")
    return next((name for mark, name in OTHER_KINDS if start.startswith(mark)), None)


def utf16_of(data: bytes) -> Optional[str]:
    """The name of the encoding where it is UTF-16, with a byte order mark or without."""
    if data[:2] == b"\xff\xfe":
        return "utf-16-le"
    if data[:2] == b"\xfe\xff":
        return "utf-16-be"
    sample = data[:4096]
    half = len(sample) // 2
    even, odd = sample[0::2].count(0), sample[1::2].count(0)
    if half >= 4 and odd > 0.9 * half and even < 0.1 * half:
        return "utf-16-le"
    if half >= 4 and even > 0.9 * half and odd < 0.1 * half:
        return "utf-16-be"
    return None


def has_lone_returns(data: bytes) -> bool:
    """Whether lines end in a carriage return alone, so that the station sees one long line."""
    return b"\n" not in data and b"\r" in data.rstrip(b"\r\n")


def plain_text(data: bytes) -> Tuple[bytes, List[str]]:
    """The bytes as plain text with LF for line ends, and what was done to them, a sentence each."""
    said: List[str] = []
    encoding = utf16_of(data)
    if encoding is not None:
        body = data[2:] if data[:2] in (b"\xff\xfe", b"\xfe\xff") else data
        data = body.decode(encoding, "replace").encode("utf-8", "replace")
        said.append("the list is in UTF-16, of which the station reads no line: it is written as plain text")
    if data.startswith(UTF8_MARK):
        data = data[len(UTF8_MARK) :]
        said.append("a byte order mark made the first line a note: it is left off")
    if has_lone_returns(data):
        data = data.replace(b"\r", b"\n")
        said.append("lines ended in a carriage return alone, so the list was one line: they end in LF")
    return data, said
