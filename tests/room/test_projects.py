"""`project`, `link` and `scans`, from a list and folders of scans to a project that the station plans."""

from __future__ import annotations

import os
import unittest

from helpers import InFolder, conform, room
from room.timecode import Counting
from scans_made import make_scan, patch

LIST = """TITLE: REEL ONE
001  A001C003 V     C        14:02:11:05 14:02:11:15 01:00:00:00 01:00:00:10
002  B002     V     C        02:00:00:00 02:00:00:10 01:00:00:10 01:00:00:20
003  B002     V     C        02:00:10:00 02:00:10:10 01:00:00:20 01:00:01:06
"""
COUNTING = Counting(24)


class TestProjects(InFolder):
    def scans(self, name: str, first: int, count: int, label: str = "", digits: int = 7, ending: str = "dpx", **options: int) -> None:
        """Scans `name` and a number, whose heads count on from a label."""
        start = COUNTING.number(label) if label else 0
        for place in range(count):
            timecode = COUNTING.label(start + place) if label else None
            make_scan(self.folder / f"{name}{first + place:0{digits}}.{ending}", timecode=timecode, **options)

    def test_a_project_of_scans_that_need_no_links(self) -> None:
        self.write("reel.edl", LIST)
        self.scans("scans/a001c003/a001c003.", 1001, 24, "14:02:11:00")
        self.scans("scans/b002/b002.", COUNTING.number("02:00:00:00"), 300, width=2)
        typed = self.room("project", "reel.edl", "24", "scans", "-o", "reel.toml")
        self.assertEqual((typed.status, typed.err), (0, ""))
        text = (self.folder / "reel.toml").read_text()
        self.assertIn('prefix = "scans/a001c003/a001c003."\nstart = "14:02:11:00"\nframes = 24\nfile = 1001\n', text)
        self.assertIn('prefix = "scans/b002/b002."\nstart = "02:00:00:00"\nframes = 300\n\n'.rstrip("\n"), text)
        planned = conform("plan", "reel.toml", folder=self.folder)
        self.assertEqual((planned.status, planned.out.splitlines()[-1]), (0, "frames 30"))
        self.assertEqual(self.room("scans", "reel.toml").out, "30 scans wanted, 30 sound, 0 missing or wrong\n")

    def test_nothing_is_written_over(self) -> None:
        self.write("reel.edl", LIST)
        self.write("reel.toml", "mine")
        typed = self.room("project", "reel.edl", "24", ".", "-o", "reel.toml")
        self.assertEqual((typed.status, typed.err), (2, "room project: reel.toml is there already, and nothing is written over\n"))
        self.assertEqual((self.folder / "reel.toml").read_text(), "mine")

    def test_what_is_not_found_is_refused_by_its_key(self) -> None:
        self.write("reel.edl", LIST)
        self.scans("scans/b002/b002.", 1, 20, "02:00:00:00")
        typed = self.room("project", "reel.edl", "24", "scans", "-o", "reel.toml")
        self.assertEqual(typed.status, 1)
        self.assertIn("reel.edl:2: warning: reel A001C003: no scans were found", typed.err)
        self.assertEqual(conform("plan", "reel.toml", folder=self.folder).out, "refused 14.2 key 11 reel 1\n")
        typed = self.room("explain", "reel.toml", "refused", "14.2", "key", "11", "reel", "1")
        self.assertRegex(typed.out, r"reel.toml: the reel at line \d+ has no key prefix\n")

    def test_a_reel_that_is_no_tape(self) -> None:
        self.write("reel.edl", LIST.replace("A001C003", "AX      "))
        self.assertIn("reel.edl:2: warning: reel AX: it is no tape", self.room("project", "reel.edl", "24", ".").err)

    def test_ranges_and_four_digits_are_linked(self) -> None:
        self.write("reel.edl", LIST)
        self.scans("lab/day 1/A001C003_", 1001, 12, "14:02:11:03", digits=4, ending="DPX")
        self.scans("lab/one/B002.", 1, 12, "02:00:00:00", digits=6)
        self.scans("lab/two/B002.", 1, 12, "02:00:09:23", digits=6)
        typed = self.room("project", "reel.edl", "24", "lab", "-o", "reel.toml")
        self.assertEqual((typed.status, typed.err), (0, ""))
        linked = self.room("link", "reel.toml", "lab")
        self.assertEqual((linked.status, linked.out), (0, "36 linked, 0 there already, 0 left out\n"))
        self.assertEqual(linked.err.count("reel.toml:"), 3)
        self.assertTrue((self.folder / "links/B002/B002.0172800.dpx").is_symlink())
        self.assertFalse(os.path.isabs(os.readlink(self.folder / "links/B002/B002.0172800.dpx")))
        self.assertEqual(conform("plan", "reel.toml", folder=self.folder).status, 0)
        self.assertEqual(self.room("scans", "reel.toml").status, 0)
        again = self.room("link", "reel.toml", "lab")
        self.assertEqual((again.status, again.out), (0, "0 linked, 36 there already, 0 left out\n"))
        again = self.room("link", "reel.toml", ".")
        self.assertEqual(again.out, "0 linked, 36 there already, 0 left out\n")

    def test_a_link_takes_no_others_place(self) -> None:
        self.write("reel.edl", LIST)
        self.scans("lab/A001C003.", 1, 3, "14:02:11:05", digits=4)
        project = 'rate = 24\nwidth = 2\nheight = 2\nedl = "reel.edl"\n[[reel]]\nname = "A001C003"\nprefix = "s/"\nstart = "14:02:11:05"\nframes = 10\n'
        self.write("reel.toml", project)
        first = COUNTING.number("14:02:11:05")
        self.write(f"s/{first + 1:07}.dpx", "another")
        typed = self.room("link", "reel.toml", "lab")
        self.assertEqual((typed.status, typed.out), (1, "2 linked, 0 there already, 1 left out\n"))
        self.assertIn("is another file already", typed.err)
        self.assertEqual((self.folder / f"s/{first + 1:07}.dpx").read_text(), "another")

    def test_scans_of_any_name_by_word(self) -> None:
        self.write("reel.edl", LIST)
        self.scans("lab/x", 7, 10, digits=3)
        self.write("reel.toml", 'rate = 24\nwidth = 2\nheight = 2\nedl = "reel.edl"\n[[reel]]\nname = "A001C003"\nprefix = "s/"\nstart = "14:02:11:05"\nframes = 10\n')
        self.assertEqual(self.room("link", "reel.toml", "lab").status, 1)
        typed = self.room("link", "reel.toml", "lab", "--reel", "A001C003")
        self.assertEqual((typed.status, typed.out), (0, "10 linked, 0 there already, 0 left out\n"))
        self.assertEqual(self.room("link", "reel.toml", "lab", "--reel", "Z").status, 1)
        self.assertEqual(self.room("link", "reel.toml", "none").err, "room link: none is no folder\n")


class TestScans(InFolder):
    """Every trouble of a scan, at once and in ranges."""

    def setUp(self) -> None:
        super().setUp()
        self.write("reel.edl", LIST)
        rows = ["rate = 24", "width = 2", "height = 2", 'edl = "reel.edl"']
        for name, start, frames in (("A001C003", "14:02:11:05", 10), ("B002", "02:00:00:00", 245)):
            rows += ["[[reel]]", f'name = "{name}"', f'prefix = "{name}/"', f'start = "{start}"', f"frames = {frames}"]
        self.write("reel.toml", "\n".join(rows) + "\n")
        self.first = COUNTING.number("14:02:11:05")
        for frame in range(self.first, self.first + 10):
            make_scan(self.path("A001C003", frame), timecode=COUNTING.label(frame))
        for frame in range(172_800, 172_810):
            make_scan(self.path("B002", frame), timecode=COUNTING.label(frame))
        for frame in range(173_040, 173_045):
            make_scan(self.path("B002", frame))

    def path(self, name: str, frame: int):
        return self.folder / name / f"{frame:07}.dpx"

    def test_all_at_once(self) -> None:
        for frame in (self.first, self.first + 1, self.first + 5):
            self.path("A001C003", frame).unlink()
        make_scan(self.path("A001C003", self.first + 2), width=4)
        patch(self.path("A001C003", self.first + 3), 803, b"\x0c")
        for frame in range(172_802, 172_806):
            make_scan(self.path("B002", frame), timecode=COUNTING.label(frame + 24))
        typed = self.room("scans", "reel.toml")
        first = self.first
        self.assertEqual(typed.out.splitlines(), [
            f"reel.toml:5: missing: A001C003/{first:07}.dpx to A001C003/{first + 1:07}.dpx, 2 frames, 14:02:11:05 to 14:02:11:06",
            f"reel.toml:5: missing: A001C003/{first + 5:07}.dpx, 1 frame, 14:02:11:10",
            f"reel.toml:5: refused 15.4: A001C003/{first + 2:07}.dpx, 1 frame, 14:02:11:07: 4 by 2 pixels, and the project has 2 by 2",
            f"reel.toml:5: refused 15.3 fault 8.4: A001C003/{first + 3:07}.dpx, 1 frame, 14:02:11:08: the bit size",
            "reel.toml:10: warning: B002/0172802.dpx to B002/0172805.dpx, 4 frames, 02:00:00:02 to 02:00:00:05: the heads' own timecode is "
            "24 frames later than the project's label: mend `start` or `file`, or the frames are the wrong ones",
            "reel.toml:10: refused 15.2: reel B002 has 02:00:00:00 to 02:00:10:04 by start and frames, and not 02:00:10:05 to 02:00:10:09 (5 frames)",
            "30 scans wanted, 16 sound, 14 missing or wrong",
        ])
        self.assertEqual(typed.status, 1)

    def test_a_reel_that_is_lacking(self) -> None:
        text = (self.folder / "reel.toml").read_text()
        self.write("reel.toml", text.replace('"B002"', '"b002"'))
        typed = self.room("scans", "reel.toml")
        self.assertIn("reel.toml:0: refused 15.1: the project has no reel B002, of which the list wants 20 frames (line 3 of the list); it has b002", typed.out)
        self.assertEqual(typed.status, 1)

    def test_a_reel_that_counts_otherwise(self) -> None:
        self.write("drop.edl", "FCM: DROP FRAME\n001 T V C 01:00:00;00 01:00:00;02 01:00:00;00 01:00:00;02\n")
        first = Counting(30, True).number("01:00:00;00")
        for frame in (first, first + 1):
            make_scan(self.path("T", frame), timecode=Counting(30, True).label(frame))
        text = 'rate = 30\nwidth = 2\nheight = 2\nedl = "drop.edl"\n[[reel]]\nname = "T"\nprefix = "T/"\nstart = "00:59:50:00"\nframes = 900\n'
        self.write("drop.toml", text)
        typed = self.room("scans", "drop.toml")
        self.assertIn("drop.toml:5: warning: reel T counts non-drop, and the list counts its labels otherwise (line 2 of the list)", typed.out)
        self.write("drop.toml", text.replace("00:59:50:00", "00:59:50;00") + "drop = true\n")
        self.assertEqual(self.room("scans", "drop.toml").out, "2 scans wanted, 2 sound, 0 missing or wrong\n")

    def test_from_another_folder(self) -> None:
        for frame in range(173_045, 173_050):
            make_scan(self.path("B002", frame))
        text = (self.folder / "reel.toml").read_text()
        self.write("reel.toml", text.replace("245", "250"))
        os.makedirs(self.folder / "elsewhere")
        typed = room("scans", "../reel.toml", folder=self.folder / "elsewhere")
        self.assertEqual((typed.status, typed.out), (0, "30 scans wanted, 30 sound, 0 missing or wrong\n"))

    def test_a_list_that_is_refused_is_named(self) -> None:
        self.write("reel.edl", LIST.replace(" V ", " Q "))
        typed = self.room("scans", "reel.toml")
        self.assertEqual((typed.status, typed.err), (2, "room scans: reel.edl: refused 3.2 line 2: `./room check` says more\n"))


if __name__ == "__main__":
    unittest.main()
