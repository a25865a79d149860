"""`room rewrite-scans`: scans whose pixels begin where the station doesn't read them, written anew."""

from __future__ import annotations

import argparse
import os
import struct
import sys
from typing import Optional

from room.dpx import HEAD, MAGIC, UNDEFINED
from room.errors import NOTHING_TO_DO, TO_DECIDE, printable

NAME = "rewrite-scans"
HELP = "Writes scans anew whose pixels begin where the station doesn't read them (8.10), as FFmpeg's do; it changes no pixel."
MORE = """\
Each file is written under its own name into the folder, which is made where it isn't there. The pixels are
moved to byte 2048 and compared. Of the header, what SMPTE 268M has before byte 1664 stays, but for the offset
of the pixels, the file's size and the lengths of the headers; where a header ends before byte 2048, an industry
header follows in which nothing is defined. A scan whose pixels begin in the right place is copied.

status: 0 all written; 1 some were left out: not a DPX file, or its name is there already"""

GENERIC = 1664
INDUSTRY = 384
LAST_OFFSET = 1_048_576
PIECE = 1 << 20


def add_arguments(parser: argparse.ArgumentParser) -> None:
    parser.add_argument("files", metavar="FILE", nargs="+", help="scans")
    parser.add_argument("folder", metavar="FOLDER", help="where the new scans go")


def run(arguments: argparse.Namespace) -> int:
    os.makedirs(arguments.folder, exist_ok=True)
    counts = {"rewritten": 0, "copied": 0, "left out": 0}
    for scan in arguments.files:
        try:
            counts[rewrite(scan, os.path.join(arguments.folder, os.path.basename(scan)))] += 1
        except (OSError, ValueError) as error:
            counts["left out"] += 1
            why = error.strerror if isinstance(error, OSError) and error.strerror else str(error)
            print(f"left out: {printable(scan)}: {why}", file=sys.stderr)
    print(", ".join(f"{number} {what}" for what, number in counts.items()))
    return TO_DECIDE if counts["left out"] else NOTHING_TO_DO


def rewrite(scan: str, new: str) -> str:
    """Writes one scan anew, and says whether it was rewritten or copied. What is in its place stays, and raises an error."""
    if os.path.lexists(new):
        raise ValueError(f"{printable(new)} is there already")
    if not os.path.isfile(scan):
        raise ValueError("it is no file that can be read")
    with open(scan, "rb") as file:
        start = file.read(HEAD)
        size = os.fstat(file.fileno()).st_size
    pixels = pixels_of(start, size)
    if pixels is None:
        raise ValueError("it is no DPX file with one element and its pixels behind a whole header")
    if HEAD <= pixels <= LAST_OFFSET:
        write_compared(scan, new, b"", 0)
        return "copied"
    write_compared(scan, new, new_head(start, pixels, size), pixels)
    return "rewritten"


def pixels_of(start: bytes, size: int) -> Optional[int]:
    """Where the pixels begin; nothing where it is no scan that can be written anew."""
    order = MAGIC.get(start[:4])
    if order is None or size < GENERIC or struct.unpack_from(order + "H", start, 770)[0] != 1:
        return None
    (pixels,) = struct.unpack_from(order + "I", start, 808)
    if pixels in (0, UNDEFINED):
        (pixels,) = struct.unpack_from(order + "I", start, 4)
    return int(pixels) if GENERIC <= pixels <= size else None


def new_head(start: bytes, pixels: int, size: int) -> bytes:
    """The 2,048 bytes before the pixels."""
    order = MAGIC[start[:4]]
    head = bytearray(start[:GENERIC] + industry() if pixels < HEAD else start[:HEAD])
    if pixels < HEAD:
        struct.pack_into(order + "I", head, 28, INDUSTRY)
    # What a user wrote behind the header isn't kept.
    for offset, value in ((32, 0), (4, HEAD), (808, HEAD), (16, HEAD + size - pixels)):
        struct.pack_into(order + "I", head, offset, value)
    return bytes(head)


def industry() -> bytes:
    """An industry header in which nothing is defined: its texts are empty, its numbers all bits one."""
    zeros, ones = b"\0", b"\xff"
    return zeros * 48 + ones * 20 + zeros * 188 + ones * 11 + zeros + ones * 40 + zeros * 76


def write_compared(scan: str, new: str, head: bytes, pixels: int) -> None:
    """Writes under another name, compares what was written, and gives it its name where none has it."""
    begun = os.path.join(os.path.dirname(new), f".room.{os.getpid()}.{os.path.basename(new)[:100]}")
    try:
        with open(scan, "rb") as source, open(begun, "xb") as target:
            source.seek(pixels)
            target.write(head)
            while piece := source.read(PIECE):
                target.write(piece)
        if not is_same(scan, pixels, begun, len(head)):
            raise ValueError("what was written isn't what was read")
        # A link fails where the name is there; a renaming would write over it.
        os.link(begun, new)
    finally:
        if os.path.lexists(begun):
            os.unlink(begun)


def is_same(scan: str, at: int, new: str, new_at: int) -> bool:
    """Whether two files are the same from these places on."""
    with open(scan, "rb") as one, open(new, "rb") as other:
        one.seek(at)
        other.seek(new_at)
        while True:
            piece = one.read(PIECE)
            if piece != other.read(PIECE):
                return False
            if not piece:
                return True
