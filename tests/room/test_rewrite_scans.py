"""`rewrite-scans`: the station reads what it writes, with every pixel as it was, and nothing that is there is changed."""

from __future__ import annotations

import os
import struct
import unittest
from typing import Dict
from unittest import mock

from helpers import InFolder, conform
from room import rewrite_scans

ORDERS = {"big": ">", "little": "<"}


def pixels(order: str) -> bytes:
    """15 words whose two lowest bits are 0."""
    return b"".join(struct.pack(ORDERS[order] + "I", (number * 286_331_153 + 19_088_743) & 0xFFFFFFFC) for number in range(15))


def scan(order: str, at: int, told: int) -> bytes:
    """A scan of 5 by 3 pixels whose pixels begin at an offset, which is told at byte 808 or not."""
    head = bytearray(at)
    sign = ORDERS[order]
    head[0:4] = b"SDPX" if order == "big" else b"XPDS"
    struct.pack_into(sign + "I", head, 4, at)
    head[8:12] = b"V1.0"
    struct.pack_into(sign + "I", head, 16, at + 60)
    head[160:168] = b"a writer"
    struct.pack_into(sign + "HII", head, 770, 1, 5, 3)
    head[800], head[803] = 50, 10
    struct.pack_into(sign + "H", head, 804, 1)
    struct.pack_into(sign + "I", head, 808, told)
    return bytes(head) + pixels(order)


class TestRewriteScans(InFolder):
    def setUp(self) -> None:
        super().setUp()
        self.scans: Dict[str, bytes] = {}
        for order in ORDERS:
            for name, at, told in (("", 1664, 1664), (".by-4", 1664, 0), (".1700", 1700, 1700), (".far", 1_048_580, 1_048_580), (".fine", 4096, 4096)):
                self.scans[f"{order}{name}.dpx"] = scan(order, at, told)
        (self.folder / "a reel").mkdir()
        for name, data in self.scans.items():
            (self.folder / "a reel" / name).write_bytes(data)
        self.files = [f"a reel/{name}" for name in sorted(self.scans)]

    def test_each_is_read_with_its_pixels(self) -> None:
        self.assertEqual(conform("frame", "a reel/big.dpx", folder=self.folder).out, "refused 8.10 line 0\n")
        typed = self.room("rewrite-scans", *self.files, "new reel")
        self.assertEqual((typed.status, typed.out, typed.err), (0, "8 rewritten, 2 copied, 0 left out\n", ""))
        self.assertEqual({name: (self.folder / "a reel" / name).read_bytes() for name in self.scans}, self.scans)
        self.assertEqual(sorted(os.listdir(self.folder / "new reel")), sorted(self.scans))
        for name in self.scans:
            with self.subTest(scan=name):
                new = (self.folder / "new reel" / name).read_bytes()
                order = name.split(".")[0]
                self.assertEqual(new[160:168], b"a writer")
                if "fine" in name:
                    self.assertEqual(new, self.scans[name])
                else:
                    self.assertEqual(new[2048:], pixels(order))
                    self.assertEqual(struct.unpack_from(ORDERS[order] + "I", new, 16)[0], len(new))
                    self.assertEqual(struct.unpack_from(ORDERS[order] + "I", new, 1920)[0], 0xFFFFFFFF if "far" not in name and "1700" not in name else struct.unpack_from("=I", new, 1920)[0])
                self.assertEqual(conform("frame", f"new reel/{name}", folder=self.folder).status, 0)

    def test_nothing_is_written_over(self) -> None:
        self.room("rewrite-scans", *self.files, "new reel")
        before = {name: (self.folder / name).read_bytes() for name in self.names()}
        typed = self.room("rewrite-scans", *self.files, "new reel")
        self.assertEqual((typed.status, typed.out), (1, "0 rewritten, 0 copied, 10 left out\n"))
        self.assertIn("left out: a reel/big.dpx: new reel/big.dpx is there already", typed.err)
        self.assertEqual(self.room("rewrite-scans", "a reel/big.dpx", "a reel").out, "0 rewritten, 0 copied, 1 left out\n")
        self.assertEqual({name: (self.folder / name).read_bytes() for name in self.names()}, before)

    def test_what_is_no_scan_is_left_out(self) -> None:
        self.write("text.dpx", "text\n")
        (self.folder / "short.dpx").write_bytes(self.scans["big.dpx"][:1663])
        (self.folder / "zeros.dpx").write_bytes(bytes(1664))
        (self.folder / "folder.dpx").mkdir()
        typed = self.room("rewrite-scans", "text.dpx", "short.dpx", "zeros.dpx", "folder.dpx", "none.dpx", "a reel/big.dpx", "others")
        self.assertEqual((typed.status, typed.out), (1, "1 rewritten, 0 copied, 5 left out\n"))
        self.assertEqual(len(typed.err.splitlines()), 5)
        self.assertEqual(self.room("rewrite-scans", "a reel/big.dpx").status, 2)

    def test_what_is_written_is_compared(self) -> None:
        """A disk that keeps other bytes than it was given: the scan is left out, and nothing of it stays."""
        one, other, shorter = (self.write(name, text) for name, text in (("one", "head1234"), ("other", "1235"), ("shorter", "123")))
        self.assertTrue(rewrite_scans.is_same(str(one), 4, str(self.write("same", "1234")), 0))
        self.assertFalse(rewrite_scans.is_same(str(one), 4, str(other), 0))
        self.assertFalse(rewrite_scans.is_same(str(one), 4, str(shorter), 0))
        with mock.patch.object(rewrite_scans, "is_same", return_value=False):
            typed = self.room("rewrite-scans", "a reel/big.dpx", "new reel")
        self.assertEqual((typed.status, typed.out), (1, "0 rewritten, 0 copied, 1 left out\n"))
        self.assertEqual(os.listdir(self.folder / "new reel"), [])


if __name__ == "__main__":
    unittest.main()
