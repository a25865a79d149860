"""`compare`, `frame`, `explain` and `keep`, over the desk project."""

from __future__ import annotations

import os
import shutil
import unittest
from pathlib import Path

from helpers import TOP, InFolder, conform, room
from scans_made import make_scan

DESK = TOP / "samples" / "desk"
LINE_8 = "003  B002     V     D    004 02:00:00:00 02:00:00:12 01:00:00:12 01:00:01:00"


class OverDesk(InFolder):
    def setUp(self) -> None:
        super().setUp()
        for name in ("desk.edl", "desk.toml", "reels.toml"):
            shutil.copy(DESK / name, self.folder / name)
        for name, first in (("a001", 86_400), ("b002", 172_800)):
            for frame in range(first, first + 48):
                make_scan(self.folder / name / f"{name}.{frame:07}.dpx")

    def edit(self, name: str, old: str, new: str, to: str = "") -> Path:
        """A file with one text in the place of another, under its own name or another one."""
        text = (self.folder / name).read_bytes().decode()
        self.assertIn(old, text)
        return self.write(to or name, text.replace(old, new, 1))

    def answers(self, *words: str) -> str:
        """The line that the station answers."""
        return conform(*words, folder=self.folder).out.strip().splitlines()[-1]

    def explained(self, project: str, line: str) -> str:
        typed = self.room("explain", project, *line.split())
        self.assertEqual((typed.status, typed.err), (0, ""), line)
        return typed.out


class TestCompare(OverDesk):
    def test_a_shorter_dissolve(self) -> None:
        self.edit("desk.edl", "D    004", "D    002", "new.edl")
        self.edit("desk.toml", "desk.edl", "new.edl", "new.toml")
        typed = self.room("compare", "desk.toml", "new.toml")
        self.assertEqual((typed.status, typed.err), (0, ""))
        self.assertEqual(typed.out, "line 8, reel B002: 4 of 12 frames are rendered: 01:00:00:12 to 01:00:00:15\nframes 24\ntaken over 20\nrendered 4\n")
        # What an adoption then does.
        conform("run", "desk.toml", folder=self.folder)
        os.rename(self.folder / "conform.out", self.folder / "conform.old")
        self.assertEqual(conform("adopt", "new.toml", "desk.toml", folder=self.folder).out, "frames 24\nkept 0\nadopted 20\nrendered 4\n")

    def test_the_same(self) -> None:
        self.assertEqual(self.room("compare", "desk.toml", "desk.toml").out, "nothing changes\nframes 24\ntaken over 24\nrendered 0\n")

    def test_an_event_that_went(self) -> None:
        lines = (self.folder / "desk.edl").read_text().splitlines(True)
        self.write("new.edl", "".join(line for line in lines if not line.startswith("001")))
        self.edit("desk.toml", "desk.edl", "new.edl", "new.toml")
        typed = self.room("compare", "desk.toml", "new.toml")
        self.assertEqual(typed.out.splitlines()[0], "gone: line 4 of the old list, reel A001, 01:00:00:00 to 01:00:00:10")

    def test_another_size(self) -> None:
        self.edit("desk.toml", "width = 2", "width = 4", "new.toml")
        typed = self.room("compare", "desk.toml", "new.toml")
        self.assertEqual(typed.status, 1)
        self.assertEqual((typed.out.splitlines()[0], typed.out.splitlines()[-2]), ("width was 2 and is 4: nothing is taken over", "taken over 0"))

    def test_no_scans_are_wanted(self) -> None:
        shutil.rmtree(self.folder / "a001")
        self.assertEqual(self.room("compare", "desk.toml", "desk.toml").status, 0)


class TestFrame(OverDesk):
    FRAME_13 = (
        "index    13\nlabel    01:00:00:13\nfile     r001.0086413.dpx\n"
        f"event    line 8: {LINE_8}\nshows    frame 1 of a dissolve of 4\n"
        "from     A001 86411  01:00:00:11  a001/a001.0086411.dpx\nto       B002 172801  02:00:00:01  b002/b002.0172801.dpx\n"
    )

    def test_any_name_gives_all(self) -> None:
        for words in (["13"], ["01:00:00:13"], ["r001.0086413.dpx"], ["conform.out/r001.0086413.dpx"], ["86413"], ["B002", "172801"],
                      ["B002", "02:00:00:01"], ["b002/b002.0172801.dpx"], ["A001 86411"], ["./a001/a001.0086411.dpx"]):
            with self.subTest(words=words):
                typed = self.room("frame", "desk.toml", *words)
                self.assertEqual((typed.status, typed.out, typed.err), (0, self.FRAME_13, ""))

    def test_the_first_and_the_last_frame_of_an_event(self) -> None:
        for index, line in ((0, 4), (9, 4), (12, 8), (23, 8)):
            self.assertIn(f"event    line {line}: ", self.room("frame", "desk.toml", str(index)).out)

    def test_a_gap(self) -> None:
        self.assertTrue(self.room("frame", "desk.toml", "10").out.endswith("event    none: a gap, which is black\n"))

    def test_the_second_reel(self) -> None:
        self.assertIn("file     r002.0086412.dpx\n", self.room("frame", "reels.toml", "12").out)

    def test_none(self) -> None:
        typed = self.room("frame", "desk.toml", "24")
        self.assertEqual((typed.status, typed.out), (1, "the job has no frame 24; it has 24, from 01:00:00:00 to 01:00:00:23\n"))
        self.assertEqual(self.room("frame", "desk.toml", "A001", "86440").status, 1)
        self.assertEqual(self.room("frame", "desk.toml", "what").status, 2)
        self.assertEqual(self.room("frame", "desk.toml", "C009", "01:00:00:00").err, "room frame: the project has no reel C009\n")

    def test_its_scan_may_be_missing(self) -> None:
        shutil.rmtree(self.folder / "b002")
        self.assertEqual(self.room("frame", "desk.toml", "13").out, self.FRAME_13)


class TestExplain(OverDesk):
    """The mistakes of a project that an answer alone doesn't tell apart."""

    def test_a_key_that_is_misspelt(self) -> None:
        self.edit("desk.toml", "frames = 48", "frame = 48")
        line = self.answers("plan", "desk.toml")
        self.assertEqual(line, "refused 14.2 key 14 reel 1")
        said = self.explained("desk.toml", line)
        self.assertEqual(said, "desk.toml: the reel at line 8 has no key frames\ndesk.toml:12: the key frame isn't known; did you mean frames?\n")

    def test_an_unknown_key(self) -> None:
        self.edit("desk.toml", "black =", "blacks =")
        line = self.answers("plan", "desk.toml")
        self.assertEqual(self.explained("desk.toml", line), "desk.toml:5: the key blacks isn't known; did you mean black?\n")

    def test_what_is_no_toml(self) -> None:
        self.edit("desk.toml", '"a001/a001."', '"a001/a001.')
        line = self.answers("plan", "desk.toml")
        said = self.explained("desk.toml", line).splitlines()
        self.assertTrue(said[0].startswith("desk.toml:10:"), said)
        self.assertEqual(said[1], '    prefix = "a001/a001.')

    def test_a_key_behind_the_reels(self) -> None:
        text = (self.folder / "desk.toml").read_text().replace('edl = "desk.edl"\n', "") + 'edl = "desk.edl"\n'
        self.write("desk.toml", text)
        said = self.explained("desk.toml", self.answers("plan", "desk.toml"))
        self.assertIn("there it stands, behind a [[reel]], so it is that reel's: put it above line 7", said)

    def test_four_causes_of_one_line(self) -> None:
        for old, new, wanted in (
            ("a001/a001.", "A001/a001.", "the folder A001 isn't there\nthere is a001, which differs in capitals"),
            ("a001/a001.", "a001/a001", "none of them is named by the prefix, seven digits and .dpx"),
            ("a001/a001.", "~/a001.", "a ~ isn't the home folder in a project: write the whole path"),
            ("01:00:00:00", "00:00:00:00", "reel A001 has 00:00:00:00 to 00:00:01:23 (48 frames), and frame 86400 is 01:00:00:00"),
        ):
            with self.subTest(new=new):
                shutil.copy(DESK / "desk.toml", self.folder / "desk.toml")
                self.edit("desk.toml", old, new)
                line = self.answers("plan", "desk.toml")
                self.assertEqual(line, "refused 15.2 line 4 reel A001 frame 86400")
                self.assertIn(wanted, self.explained("desk.toml", line))

    def test_a_line_with_its_caret(self) -> None:
        self.edit("desk.edl", "01:00:00:12 01:00:01:00", "01:00:00:12 01:00:01:24")
        line = self.answers("plan", "desk.toml")
        self.assertEqual(line, "refused 2.2 line 8")
        column = LINE_8.index("01:00:01:00")
        self.assertEqual(self.explained("desk.toml", line), f"desk.edl:8: the record out\n    {LINE_8[:-11]}01:00:01:24\n    {' ' * column}{'^' * 11}\n")

    def test_both_lengths(self) -> None:
        self.edit("desk.edl", "01:00:00:00 01:00:00:10 01:00:00:00 01:00:00:10", "01:00:00:00 01:00:00:20 01:00:00:00 01:00:00:10")
        said = self.explained("desk.toml", self.answers("plan", "desk.toml"))
        self.assertIn("desk.edl:4: the source has 20 frames, the record 10; a motion line of 048.0 would fit", said)

    def test_both_sizes(self) -> None:
        self.edit("desk.toml", "width = 2", "width = 4")
        said = self.explained("desk.toml", self.answers("plan", "desk.toml"))
        self.assertIn("the scan has 2 by 2 pixels, the project 4 by 2", said)

    def test_the_path_of_a_list(self) -> None:
        self.edit("desk.toml", "desk.edl", "desk.EDL")
        self.assertEqual(self.explained("desk.toml", self.answers("plan", "desk.toml")),
                         'desk.toml:6: edl = "desk.EDL"\ndesk.EDL: its folder is there, the file isn\'t\nthere is desk.edl\n')

    def test_another_folder(self) -> None:
        (self.folder / "inner").mkdir()
        said = room("explain", "../desk.toml", "refused", "0.1", "list", folder=self.folder / "inner").out
        self.assertIn("../desk.edl is there: change to the project's folder first", said)

    def test_reels_that_are_lacking(self) -> None:
        self.edit("desk.toml", 'name = "A001"', 'name = "a001"')
        self.assertIn("the reel is A001; the project has a001, B002\ndid you mean a001?\n", self.explained("desk.toml", self.answers("plan", "desk.toml")))

    def test_a_reel_that_is_no_tape(self) -> None:
        self.edit("desk.edl", "001  A001  ", "001  AX    ")
        said = self.explained("desk.toml", self.answers("plan", "desk.toml"))
        self.assertIn("the reel is AX: that is no tape, and may stand for several files", said)

    def test_standard_input_and_what_is_no_answer(self) -> None:
        typed = self.room("explain", "desk.toml", given=b"01:00:00:09 A001 86409\nrefused 15.2 line 4 reel A001 frame 86404\n")
        self.assertEqual((typed.status, len(typed.out.splitlines())), (0, 4))
        for line in ("no such thing", "frames 24", "usage: conform", "refused 99.9 line 0", "refused", "changed reel A001 frame x"):
            self.assertEqual(self.room("explain", "desk.toml", line).status, 1, line)

    def test_every_form_has_an_answer_of_one_kind(self) -> None:
        for line in ("refused 2.1 line 900", "refused 3.7 line 0", "refused 4.8 line 0", "refused 7.1 line 8 with 4", "refused 7.2 line 0", "refused 10.3 line 4",
                     "refused 13.1 reel 2", "refused 13.2 reel 99", "refused 14.4 key 5 reel 0", "refused 14.3 key 9 reel 0", "refused 15.5 cut 4",
                     "refused 15.3 line 4 reel A001 frame 86404 fault 8.4", "changed reel A001 frame 86404", "source fault", "bad ledger 63", "old refused 0.1 project"):
            typed = self.room("explain", "desk.toml", line)
            self.assertIn(typed.status, (0, 1), line)
            self.assertNotIn("kit itself", typed.err, line)


class TestKeep(OverDesk):
    def test_an_adoption_can_be_had(self) -> None:
        kept = self.room("keep", "desk.toml")
        self.assertEqual((kept.status, kept.out), (0, "kept project desk.toml as conform.kept/desk.toml\nkept list desk.edl as conform.kept/desk.edl\n"))
        self.assertEqual(self.room("keep", "desk.toml").out, "conform.kept has the same project, list and cube\n")
        conform("run", "desk.toml", folder=self.folder)
        self.edit("desk.edl", "D    004", "D    002")
        other = self.answers("run", "desk.toml")
        self.assertTrue(other.startswith("other job "))
        said = self.explained("desk.toml", other)
        self.assertTrue(said.startswith("the list differs: desk.edl, first at line 8: kept `003  B002"), said)
        self.assertEqual(self.room("keep", "desk.toml").status, 1)
        # The steps of docs/room.md.
        os.rename(self.folder / "desk.edl", self.folder / "new.edl")
        self.edit("desk.toml", "desk.edl", "new.edl", "new.toml")
        shutil.copy(self.folder / "conform.kept/desk.edl", self.folder / "desk.edl")
        os.rename(self.folder / "conform.out", self.folder / "conform.old")
        self.assertEqual(self.answers("adopt", "new.toml", "desk.toml"), "rendered 4")

    def test_nothing_half_made_is_left(self) -> None:
        (self.folder / "desk.edl").unlink()
        typed = self.room("keep", "desk.toml")
        self.assertEqual(typed.status, 2)
        self.assertEqual([name for name in os.listdir(self.folder) if "kept" in name], [])

    def test_nothing_is_kept_yet(self) -> None:
        self.assertIn("nothing is kept beside the reel folder", self.explained("desk.toml", "other job 00 11"))


if __name__ == "__main__":
    unittest.main()
