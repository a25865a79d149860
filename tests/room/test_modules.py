"""The shared modules: timecode counted frame by frame, the station's printed answers, project files, and heads of scans."""

from __future__ import annotations

import struct
import unittest

from helpers import TOP, InFolder, conform, quick_station
from room import project_file
from room.dpx import read_head, stand_in_head
from room.errors import KitError, printable
from room.findings import Finding, shown_line
from room.list_text import lines_of, plain_text
from room.page import advice_of, keys_of_project, sections, title_of
from room.project_file import TomlError, parse_plain, read_project
from room.sequences import sequences_in
from room.station import Answer, Refusal, Side, Station, event_table, numbers_of, plan_frames, pull_ranges, qc_lines, refusal_of
from room.timecode import Counting, rate_of_word
from scans_made import make_scan, patch


class TestTimecode(unittest.TestCase):
    def test_labels_by_counting(self) -> None:
        for rate, is_drop in ((24, False), (25, False), (30, False), (30, True)):
            counting = Counting(rate, is_drop)
            hour = minute = second = frame = 0
            for number in range(40_000):
                label = f"{hour:02}:{minute:02}:{second:02}{';' if is_drop else ':'}{frame:02}"
                self.assertEqual((counting.label(number), counting.number(label)), (label, number))
                frame += 1
                if frame == rate:
                    frame, second = 0, second + 1
                    if second == 60:
                        second, minute = 0, minute + 1
                        if minute == 60:
                            minute, hour = 0, hour + 1
                        if is_drop and minute % 10:
                            frame = 2

    def test_the_ends_of_a_day(self) -> None:
        for rate, is_drop, last in ((24, False, "23:59:59:23"), (30, True, "23:59:59;29")):
            counting = Counting(rate, is_drop)
            self.assertEqual(counting.label(counting.frames_in_day - 1), last)
            self.assertEqual(counting.number(last), counting.frames_in_day - 1)
            self.assertEqual((counting.label(-1), counting.label(counting.frames_in_day)), ("before 00:00:00:00", "past the day"))

    def test_faults(self) -> None:
        rows = (("01:00:00", 24, False, "2.1"), ("01:00:00:24", 24, False, "2.2"), ("24:00:00:00", 25, False, "2.2"), ("00:01:00;01", 30, True, "2.3"),
                ("00:10:00;01", 30, True, None), ("01:00:00;02", 30, False, "2.4"), ("01;00:00:02", 24, False, "2.4"), ("00:01:00:02", 30, True, None))
        for label, rate, is_drop, fault in rows:
            self.assertEqual(Counting(rate, is_drop).fault_of(label), fault, label)
        self.assertEqual([rate_of_word(word) for word in ("23.976", "29.97", "25")], [24, 30, 25])
        self.assertRaises(ValueError, rate_of_word, "60")


class TestStation(unittest.TestCase):
    def test_refusals(self) -> None:
        rows = {
            "refused 0.1 cube": Refusal("0.1", file="cube"),
            "refused 3.2 line 4": Refusal("3.2", line=4),
            "refused 7.1 line 12 with 4": Refusal("7.1", line=12, with_line=4),
            "refused 13.2 reel 3": Refusal("13.2", place=3),
            "refused 14.3 key 9 reel 0": Refusal("14.3", key=9, place=0),
            "refused 15.5 cut 2": Refusal("15.5", cut=2),
            "refused 15.4 line 4 reel A/1;$x frame -20": Refusal("15.4", line=4, reel="A/1;$x", frame=-20),
            "old refused 15.3 line 4 reel A frame 1 fault 8.13": Refusal("15.3", line=4, reel="A", frame=1, fault="8.13", is_old=True),
        }
        for line, refused in rows.items():
            self.assertEqual(refusal_of(line), refused)
        for line in ("refused", "refused 3.2", "frames 24", "old other job a b", "refused 3.2 line x"):
            self.assertIsNone(refusal_of(line))

    def test_tables(self) -> None:
        table = event_table(Answer(0, (TOP / "samples/desk.table").read_text()))
        self.assertEqual([(e.line, e.reel, e.transition, e.duration, e.speed) for e in table.events], [(4, "A001", "C", 0, None), (7, "A001", "C", 0, None), (8, "B002", "D", 4, None)])
        text = "rate 30 drop\n2 A1 00:00:59;28 00:01:00;02 01:00:00;00 01:00:00;02 W021/1 -725\nevents 1\n"
        event = event_table(Answer(0, text)).events[0]
        self.assertEqual((event.transition, event.wipe, event.duration, event.speed), ("W", 21, 1, -725))

    def test_plans(self) -> None:
        text = "reel 1\n01:00:00:00 A001 86400\n01:00:00:01 BL\nreel 2\n01:00:00:02 D 0/2 A001 -4 BL\n01:00:00:03 W001 1/2 BL B002 7\nframes 4\n"
        frames = plan_frames(Answer(0, text))
        self.assertEqual([frame.sides for frame in frames], [(Side("A001", 86400),), (Side("BL"),), (Side("A001", -4), Side("BL")), (Side("BL"), Side("B002", 7))])
        self.assertEqual([(f.record_reel, f.transition, f.place, f.length) for f in frames], [(1, "", 0, 0), (1, "", 0, 0), (2, "D", 0, 2), (2, "W001", 1, 2)])
        self.assertRaises(KitError, plan_frames, Answer(2, "refused 15.1 line 3\n"))
        self.assertRaises(KitError, plan_frames, Answer(0, "01:00:00:00 A001 86400\nframes 2\n"))

    def test_the_rest(self) -> None:
        self.assertEqual(pull_ranges(Answer(0, "A001 01:00:00:00 01:00:00:15 16\nranges 1 frames 16\n"))[0].frames, 16)
        self.assertEqual(numbers_of(Answer(0, "frames 24\nacknowledged 3\n")), {"frames": 24, "acknowledged": 3})
        self.assertEqual([line.sum for line in qc_lines(Answer(0, "qc high low sum\n0 0 0 1200\nframes 1\n"))], [1200])
        self.assertRaises(KitError, Station(TOP / "none").ask, "list")
        self.assertEqual(quick_station().ask("list").status, 1)


class TestProjectFile(InFolder):
    TEXTS = (
        (TOP / "samples/desk/desk.toml").read_text(), (TOP / "samples/desk/reels.toml").read_text(),
        'rate = 2_4\nx = \'a # b\' # note\ny = [1, 2,\n  3] # more\nz = ["a]", "b\\u00e9\\"c"]\n[[reel]]\nname = "A"\n[[ reel ]] # two\ndrop = true\n', "",
    )

    def test_both_readers_read_alike(self) -> None:
        if project_file.tomllib is None:
            self.skipTest("this Python has no reader of TOML")
        for text in self.TEXTS:
            self.assertEqual(parse_plain(text), project_file.tomllib.loads(text))
        for text in ("a", "a = ", 'a = 1\na = 2\n', "[table]\n"):
            self.assertRaises(TomlError, parse_plain, text)

    def test_paths_of_frames(self) -> None:
        self.write("p.toml", 'rate = 24\nwidth = 2\nheight = 2\nedl = "x"\n[[reel]]\nname = "A"\nprefix = "a/"\nstart = "01:00:00:00"\nframes = 48\nfile = 7\n')
        reel = read_project(str(self.folder / "p.toml")).reels[0]
        self.assertEqual((reel.first, reel.end, reel.path_of(86402), reel.line), (86400, 86448, "a/0000009.dpx", 5))

    def test_faults_are_one_line(self) -> None:
        good = (TOP / "samples/desk/desk.toml").read_text()
        for old, new in (("rate = 24", "rate = 23"), ("width = 2", 'width = "2"'), ('edl = "desk.edl"\n', ""), ('"01:00:00:00"', '"01.00"'), ("frames = 48", "frames = 0"),
                         ("[[reel]]", "[reel]"), ("height = 2", "height = 2 2"), ('name = "A001"', "name = 3"), ("frames = 48", "frames = 48\ndrop = true")):
            self.write("p.toml", good.replace(old, new, 1))
            with self.subTest(new=new), self.assertRaises(KitError) as caught:
                read_project(str(self.folder / "p.toml"))
            self.assertEqual(len(str(caught.exception).splitlines()), 1)


class TestHeads(InFolder):
    def test_faults_are_the_stations(self) -> None:
        """Each field of the reader's table, and the answer of `frame` to the same file."""
        rows = ((0, b"NONE"), (770, b"\0\2"), (800, b"\1"), (803, b"\x0c"), (804, b"\0\2"), (806, b"\0\1"), (768, b"\0\1"), (780, b"\0\0\0\1"), (660, b"\0\0\0\1"),
                (808, struct.pack(">I", 1664)), (812, b"\0\0\0\3"), (772, b"\0\0\x20\0"), (776, b"\0\0\0\0"), (772, struct.pack(">I", 3)), (808, b"\0\0\0\0"), (808, b"\xff" * 4), (812, b"\xff" * 4))
        path = self.folder / "x.dpx"
        told = set()
        for offset, data in rows:
            make_scan(path)
            patch(path, offset, data)
            answer = conform("frame", "x.dpx", folder=self.folder).out
            head = read_head(str(path))
            assert head is not None
            wanted = f"refused {head.fault} line 0\n" if head.fault else ""
            with self.subTest(offset=offset, data=data):
                self.assertTrue(answer == wanted or (head.fault is None and answer.startswith("SDPX")), answer[:40])
            told.add(head.fault)
        self.assertEqual(len(told), 14)

    def test_timecode_and_what_is_not_there(self) -> None:
        make_scan(self.folder / "x.dpx", timecode="01:02:03:04")
        head = read_head(str(self.folder / "x.dpx"))
        self.assertEqual((head.timecode, head.width, head.fault), ("01:02:03:04", 2, None))
        self.assertIsNone(read_head(str(self.folder / "none.dpx")))
        self.assertIn("directory", read_head(str(self.folder)).trouble)
        self.assertEqual(len(stand_in_head(5, 3)), 2048)


class TestSmallThings(unittest.TestCase):
    def test_sequences(self) -> None:
        found = sequences_in("f", ["a.0002.dpx", "a.0001.dpx", "a.0004.dpx", "b1.DPX", "c.dpx", "x.tif", "a.00005.dpx"])
        self.assertEqual([s.spelled for s in found], ["f/a.[0001-0002].dpx", "f/a.[0004-0004].dpx", "f/a.[00005-00005].dpx", "f/b[1-1].DPX"])

    def test_lines(self) -> None:
        self.assertEqual([(line.text, line.end) for line in lines_of(b"a\r\nb\r\r\nc")], [("a", "\r\n"), ("b\r", "\r\n"), ("c", "")])
        self.assertEqual(plain_text("\ufeffa\r".encode())[0], b"a\r")
        self.assertEqual(plain_text(b"\xfe\xff" + "a\nb".encode("utf-16-be"))[0], b"a\nb")

    def test_the_page_has_each_number(self) -> None:
        self.assertGreater(len(sections()), 60)
        for number in ("2.1", "3.7", "4.8", "7.1", "15.4"):
            self.assertTrue(title_of(number) and advice_of(number))
        self.assertEqual(keys_of_project()[14], "frames")

    def test_a_caret_in_a_long_line(self) -> None:
        rows = shown_line(Finding(1, "note", "", "x" * 500 + "HERE" + "y" * 500, 500, 4))
        self.assertEqual(rows[1].index("^"), rows[0].index("HERE"))
        rows = shown_line(Finding(1, "note", "", "a\tb\x00c", 2, 1))
        self.assertEqual(rows, ["    a b?c", "      ^"])
        self.assertEqual(printable("a\nb\udcff"), "a\\nb\\xff")


if __name__ == "__main__":
    unittest.main()
