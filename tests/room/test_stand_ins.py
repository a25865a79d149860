"""`stand-ins`: what it makes is planned, and pulled from, as the scans will be; and what it doesn't make."""

from __future__ import annotations

import os
import unittest

from helpers import InFolder, Typed, conform, room

PROJECT = """title = "STAND-INS"   # a note
rate = 30
width = 1_920
height = 8
edl = 'lists/reel.edl'
cube = "look.cube"
cuts = ["01:00:00;04",
    "01:00:00;06"]

[[reel]]
name = "A1"
prefix = "scans/a 1."
start = "00:01:00:00"
frames = 9

  [[reel]]
  frames = 1001 # many
  name="D%d"
  prefix="scans/100%d/d."
  start="00:00:59;20"
  drop = true

[[reel]]
name = "F"
prefix = "f"
start = "10:00:00:00"
frames = 3
file = 7
"""
LIST = """FCM: DROP FRAME
1 D%d V C 00:01:30;00 00:01:30;04 01:00:00;00 01:00:00;04
FCM: NON-DROP FRAME
2 A1 V C 00:01:00:04 00:01:00:06 01:00:00:04 01:00:00:06
3 F V C 10:00:00:00 10:00:00:03 01:00:00:06 01:00:00:09
"""
SIZE = 2048 + 4 * 1920 * 8


class TestStandIns(InFolder):
    def setUp(self) -> None:
        super().setUp()
        self.write("job/reel.toml", PROJECT)
        self.write("job/look.cube", "LUT_1D_SIZE 2\n0 0 0\n1 1 1\n")
        self.write("job/lists/reel.edl", LIST)

    def make(self, *words: str) -> Typed:
        return room("stand-ins", *words, folder=self.folder / "job")

    def test_they_are_planned_as_scans(self) -> None:
        before = {name: (self.folder / name).read_bytes() for name in self.names()}
        typed = self.make("reel.toml", "../wanted")
        self.assertEqual((typed.status, typed.out, typed.err), (0, "1013 stand-ins\n", ""))
        self.assertEqual({name: (self.folder / name).read_bytes() for name in before}, before)
        made = [name for name in self.names() if name.endswith(".dpx")]
        self.assertEqual(len(made), 1013)
        one = os.stat(self.folder / "wanted/scans/a 1.0001800.dpx")
        self.assertEqual(one.st_size, SIZE)
        self.assertLess(one.st_blocks * 512, SIZE)
        for name in ("scans/100%d/d.0001790.dpx", "scans/100%d/d.0002790.dpx", "f0000007.dpx", "f0000009.dpx"):
            self.assertIn("wanted/" + name, made)
        pulled = conform("pull", "reel.toml", "1", folder=self.folder / "wanted").out
        self.assertEqual(pulled, "A1 00:01:00:03 00:01:00:06 4\nD%d 00:01:29;29 00:01:30;04 6\nF 10:00:00:00 10:00:00:02 3\nranges 3 frames 13\n")
        planned = conform("plan", "reel.toml", folder=self.folder / "wanted").out.splitlines()
        self.assertEqual((planned[-1], sum(line.startswith("reel ") for line in planned)), ("frames 9", 3))
        os.truncate(self.folder / "wanted/scans/a 1.0001804.dpx", 2048)
        self.assertEqual(conform("pull", "reel.toml", "1", folder=self.folder / "wanted").out, "refused 15.3 line 4 reel A1 frame 1804 fault 8.13\n")

    def test_what_it_does_not_make(self) -> None:
        self.make("reel.toml", "../wanted")
        for old, new, said in (
            ("", "", "../wanted is there already, and nothing is written over"),
            ("rate = 30", "rate = 23", "other.toml:2: rate isn't 24, 25 or 30"),
            ("reel.edl", "none.edl", "lists/none.edl: No such file or directory"),
            ('prefix = "f"', 'prefix = "../f"', "reel F: the prefix leads out of the folder"),
            ('prefix = "f"', 'prefix = "/f"', "reel F: the prefix leads out of the folder"),
            ('start = "10:00', 'start = "10.00', "other.toml:23: start: 10.00:00:00 is no label at 30 (2.1)"),
        ):
            with self.subTest(said=said):
                self.write("job/other.toml", PROJECT.replace(old, new, 1))
                typed = self.make("other.toml", "../wanted" if not old else "../new")
                self.assertEqual((typed.status, typed.out, typed.err), (2, "", f"room stand-ins: {said}\n"))
                self.assertFalse((self.folder / "new").exists())
        self.assertEqual(self.make("none.toml", "../new").err, "room stand-ins: none.toml: No such file or directory\n")
        self.assertEqual(self.make("reel.toml").status, 2)


if __name__ == "__main__":
    unittest.main()
