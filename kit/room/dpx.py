"""Heads of DPX files (SMPTE 268M): what the station reads of them, which of its faults they have, and their timecode.

The faults are those of docs/refusals.md, section 8, in its order.
"""

from __future__ import annotations

import os
import struct
from dataclasses import dataclass
from typing import Optional

from room.errors import system_words

HEAD = 2048
UNDEFINED = 0xFFFFFFFF
MAGIC = {b"SDPX": ">", b"XPDS": "<"}


@dataclass(frozen=True)
class Head:
    """A file's head. `fault` is 8.1 to 8.13 where the station doesn't read it; `timecode` is a label where the head tells one."""

    path: str
    fault: Optional[str]
    width: int = 0
    height: int = 0
    offset: int = 0
    timecode: Optional[str] = None
    trouble: Optional[str] = None


def read_head(path: str) -> Optional[Head]:
    """The head of a file; nothing where it isn't there. A file that can't be read has its trouble in the system's words."""
    try:
        with open(path, "rb") as file:
            data = file.read(HEAD)
            size = os.fstat(file.fileno()).st_size
    except FileNotFoundError:
        return None
    except OSError as error:
        return Head(path, None, trouble=system_words(error))
    return head_of(path, data.ljust(HEAD, b"\0"), size)


def head_of(path: str, data: bytes, size: int) -> Head:
    """The head that these 2,048 bytes are, of a file of this size."""
    order = MAGIC.get(data[:4])
    if order is None:
        return Head(path, "8.1")

    def u16(offset: int) -> int:
        return int(struct.unpack_from(order + "H", data, offset)[0])

    def u32(offset: int) -> int:
        return int(struct.unpack_from(order + "I", data, offset)[0])

    width, height = u32(772), u32(776)
    offset = u32(808) if u32(808) not in (0, UNDEFINED) else u32(4)
    padding = 0 if u32(812) == UNDEFINED else u32(812)
    length = offset + (height - 1) * (4 * width + padding) + 4 * width
    faults = (
        ("8.2", u16(770) != 1),
        ("8.3", data[800] != 50),
        ("8.4", data[803] != 10),
        ("8.5", u16(804) != 1),
        ("8.6", u16(806) not in (0, 0xFFFF)),
        ("8.7", u16(768) not in (0, 0xFFFF)),
        ("8.8", u32(780) not in (0, UNDEFINED)),
        ("8.9", u32(660) not in (0, UNDEFINED)),
        ("8.10", not 2048 <= offset <= 1_048_576),
        ("8.11", padding % 4 != 0 or padding > 4092),
        ("8.12", not (1 <= width <= 4096 and 1 <= height <= 4096)),
        ("8.13", size < length),
    )
    fault = next((number for number, holds in faults if holds), None)
    return Head(path, fault, width, height, offset, _timecode(u32(1920), offset))


def _timecode(digits: int, offset: int) -> Optional[str]:
    """The label of eight binary-coded digits. All bits one, and all bits zero, tell nothing; nor does a file that begins its pixels there."""
    if digits in (0, UNDEFINED) or offset < 1924:
        return None
    text = f"{digits & 0x3F7F7F3F:08x}"
    label = f"{text[0:2]}:{text[2:4]}:{text[4:6]}:{text[6:8]}"
    if not text.isdigit() or int(text[0:2]) > 23 or int(text[2:4]) > 59 or int(text[4:6]) > 59:
        return None
    return label


def stand_in_head(width: int, height: int) -> bytes:
    """The head of a black scan of this size, big-endian."""
    data = bytearray(HEAD)
    data[0:4] = b"SDPX"
    struct.pack_into(">HII", data, 770, 1, width, height)
    data[800] = 50
    data[803] = 10
    struct.pack_into(">H", data, 804, 1)
    struct.pack_into(">I", data, 808, HEAD)
    return bytes(data)
