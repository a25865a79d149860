"""Scans for tests: heads of DPX files with pixels of one code."""

from __future__ import annotations

import struct
from pathlib import Path
from typing import Optional

from room.dpx import stand_in_head


def make_scan(path: Path, width: int = 2, height: int = 2, timecode: Optional[str] = None, code: int = 100) -> None:
    """A scan of this size; its head tells the label where one is given."""
    head = bytearray(stand_in_head(width, height))
    digits = int(timecode.replace(":", "").replace(";", ""), 16) if timecode else 0xFFFFFFFF
    struct.pack_into(">I", head, 1920, digits)
    path.parent.mkdir(parents=True, exist_ok=True)
    path.write_bytes(bytes(head) + struct.pack(">I", code << 22 | code << 12 | code << 2) * (width * height))


def patch(path: Path, offset: int, data: bytes) -> None:
    """Other bytes at a place of a file."""
    whole = bytearray(path.read_bytes())
    whole[offset : offset + len(data)] = data
    path.write_bytes(bytes(whole))


