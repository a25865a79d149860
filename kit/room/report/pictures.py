"""Small pictures of frames, from the files as they lie in the reel folder.

A file has its pixels behind byte 2048, a big-endian word each: `r << 22 | g << 12 | b << 2`, codes of 10 bits. All is done over
whole planes of bytes, so that a thousand pictures take no longer than a reader waits for: a plane is cut out by a stride, put into
its eight bits by a table, and planes are put together as one long number each.
"""

from __future__ import annotations

import base64
import os
import struct
import zlib
from dataclasses import dataclass
from typing import Dict, List, Optional, Tuple

from room.report.state import HEAD, State

WIDEST = 160
# With many pictures each is smaller, so that the page opens.
MANY = ((200, 160), (600, 120), (1 << 30, 96))

try:
    from PIL import Image
except ImportError:  # (PNG by zlib is enough)
    Image = None  # type: ignore[assignment]

_GREEN_HIGH = bytes((v & 0x3F) << 2 for v in range(256))
_GREEN_LOW = bytes(v >> 6 for v in range(256))
_BLUE_HIGH = bytes((v & 0x0F) << 4 for v in range(256))
_BLUE_LOW = bytes(v >> 4 for v in range(256))
# The curve of `sheet`: the square, since codes of printing densities look pale on a screen.
_SQUARE = bytes((v * v + 127) // 255 for v in range(256))
_PLAIN = bytes(range(256))


@dataclass(frozen=True)
class Picture:
    """A picture: its kind and bytes, and how large it is."""

    kind: str
    data: bytes
    width: int
    height: int

    @property
    def address(self) -> str:
        return f"data:image/{self.kind};base64,{base64.b64encode(self.data).decode('ascii')}"


class Pictures:
    """The pictures of a reel's frames, each made once."""

    def __init__(self, state: State, wanted: int, is_linear: bool) -> None:
        self.state = state
        self.widest = next(width for most, width in MANY if wanted <= most)
        self.samples = 4 if wanted <= 100 else 2
        self.curve = _PLAIN if is_linear else _SQUARE
        self.made: Dict[int, Optional[Picture]] = {}

    def of(self, index: int) -> Optional[Picture]:
        """The picture of a frame that is done; nothing where its file is lost or has another length."""
        if index not in self.made:
            project = self.state.project
            path = os.path.join(self.state.out, self.state.file_name(self.state.frames[index]))
            self.made[index] = read_picture(path, project.width, project.height, self.widest, self.samples, self.curve)
        return self.made[index]


def read_picture(path: str, width: int, height: int, widest: int, samples: int, curve: bytes) -> Optional[Picture]:
    """The small picture of a file of this size."""
    step = -(-width // widest)
    across, down = width // step, max(height // step, 1)
    try:
        with open(path, "rb") as file:
            if os.fstat(file.fileno()).st_size != HEAD + 4 * width * height:
                return None
            planes = _planes(file.fileno(), width, height, step, min(samples, step))
    except OSError:
        return None
    if planes is None:
        return None
    pixels = bytearray(3 * across * down)
    for channel, plane in enumerate(planes):
        pixels[channel::3] = plane.translate(curve)
    return _packed(bytes(pixels), across, down)


def _planes(handle: int, width: int, height: int, step: int, samples: int) -> Optional[Tuple[bytes, bytes, bytes]]:
    """Red, green and blue: of each box of `step` by `step` pixels the mean of a few, spread over it."""
    across, down = width // step, max(height // step, 1)
    offsets = [(2 * k + 1) * step // (2 * samples) for k in range(samples)]
    found: List[Tuple[bytes, bytes, bytes]] = []
    for below in offsets:
        rows = [os.pread(handle, 4 * step * across, HEAD + 4 * width * min(y * step + below, height - 1)) for y in range(down)]
        words = b"".join(rows)
        if len(words) != 4 * step * across * down:
            return None
        for aside in offsets:
            found.append(_channels([words[4 * aside + k :: 4 * step] for k in range(4)]))
    while len(found) > 1:
        found = [_mean_of(found[k], found[k + 1]) for k in range(0, len(found) - 1, 2)] + (found[-1:] if len(found) % 2 else [])
    return found[0]


def _channels(lanes: List[bytes]) -> Tuple[bytes, bytes, bytes]:
    """The upper eight bits of each channel, from the four bytes of the words."""
    green = _joined(lanes[1].translate(_GREEN_HIGH), lanes[2].translate(_GREEN_LOW))
    blue = _joined(lanes[2].translate(_BLUE_HIGH), lanes[3].translate(_BLUE_LOW))
    return lanes[0], green, blue


def _joined(high: bytes, low: bytes) -> bytes:
    """Byte by byte the bits of both."""
    return (int.from_bytes(high, "big") | int.from_bytes(low, "big")).to_bytes(len(high), "big")


def _mean_of(one: Tuple[bytes, bytes, bytes], other: Tuple[bytes, bytes, bytes]) -> Tuple[bytes, bytes, bytes]:
    """The mean of two pictures."""
    return _mean(one[0], other[0]), _mean(one[1], other[1]), _mean(one[2], other[2])


def _mean(one: bytes, other: bytes) -> bytes:
    """Byte by byte the mean, rounded down: what both have, and half of what one has."""
    a, b = int.from_bytes(one, "big"), int.from_bytes(other, "big")
    half = ((a ^ b) >> 1) & int.from_bytes(b"\x7f" * len(one), "big")
    return ((a & b) + half).to_bytes(len(one), "big")


def _minus(one: bytes, other: bytes) -> bytes:
    """Byte by byte the difference, modulo 256."""
    a, b = int.from_bytes(one, "big"), int.from_bytes(other, "big")
    top = int.from_bytes(b"\x80" * len(one), "big")
    rest = int.from_bytes(b"\x7f" * len(one), "big")
    return (((a | top) - (b & rest)) ^ ((a ^ ~b) & top)).to_bytes(len(one), "big")


def _packed(pixels: bytes, width: int, height: int) -> Picture:
    """As JPEG where Pillow is there, else as PNG."""
    if Image is not None and width * height > 1024:
        import io

        out = io.BytesIO()
        Image.frombytes("RGB", (width, height), pixels).save(out, "JPEG", quality=82)
        return Picture("jpeg", out.getvalue(), width, height)
    return Picture("png", png(pixels, width, height), width, height)


def png(pixels: bytes, width: int, height: int) -> bytes:
    """A PNG file of 8 bits a channel; each row is told by its difference from the one above."""
    row = 3 * width
    differences = _minus(pixels, bytes(row) + pixels[:-row])
    rows = b"".join(b"\2" + differences[k : k + row] for k in range(0, len(pixels), row))
    head = struct.pack(">IIBBBBB", width, height, 8, 2, 0, 0, 0)
    return b"\x89PNG\r\n\x1a\n" + _chunk(b"IHDR", head) + _chunk(b"IDAT", zlib.compress(rows, 6)) + _chunk(b"IEND", b"")


def _chunk(kind: bytes, data: bytes) -> bytes:
    return struct.pack(">I", len(data)) + kind + data + struct.pack(">I", zlib.crc32(kind + data))
