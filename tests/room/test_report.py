"""`report`, `timeline`, `watch` and `movie`: what is written and told, without a browser; `tests/room/report` opens the pages."""

from __future__ import annotations

import re
import shutil
import struct
import threading
import unittest
import zlib
from pathlib import Path
from typing import Dict, List, Tuple

from helpers import TOP, InFolder, conform, quick_station
from reels_made import MADE, damaged, desk, half_done, in_reels
from room import movie, watch
from room.report import levels, pictures, progress, timeline
from room.report.markup import marked, size_in_words, text
from room.report.record import record_of
from room.report.state import state_of
from room.station import QcLine, Station, event_table
from room.taken import WIPES

CSS = (TOP / "kit/room/report/report.css").read_text()


def png_pixels(data: bytes) -> Tuple[int, int, List[Tuple[int, int, int]]]:
    """A PNG of 8 bits a channel, read by its standard: its size, and its pixels."""
    assert data[:8] == b"\x89PNG\r\n\x1a\n"
    chunks: Dict[bytes, bytes] = {}
    place = 8
    while place < len(data):
        (length,) = struct.unpack_from(">I", data, place)
        kind, body = data[place + 4 : place + 8], data[place + 8 : place + 8 + length]
        assert struct.unpack_from(">I", data, place + 8 + length) == (zlib.crc32(kind + body),)
        chunks[kind] = body
        place += 12 + length
    width, height, depth, colour = struct.unpack_from(">IIBB", chunks[b"IHDR"])
    assert (depth, colour) == (8, 2)
    raw = zlib.decompress(chunks[b"IDAT"])
    above = bytes(3 * width)
    pixels: List[Tuple[int, int, int]] = []
    for row in range(height):
        line = raw[row * (3 * width + 1) : (row + 1) * (3 * width + 1)]
        assert line[0] == 2
        above = bytes((a + b) & 255 for a, b in zip(line[1:], above))
        pixels += [tuple(above[k : k + 3]) for k in range(0, 3 * width, 3)]  # type: ignore[misc]
    return width, height, pixels


def write_frame(path: Path, width: int, height: int, codes: List[Tuple[int, int, int]]) -> None:
    words = b"".join(struct.pack(">I", r << 22 | g << 12 | b << 2) for r, g, b in codes)
    path.write_bytes(bytes(2048) + words)


class TestPictures(InFolder):
    def test_codes_become_their_upper_eight_bits(self) -> None:
        codes = [(0, 1023, 4), (1020, 515, 260), (3, 64, 1), (513, 2, 1022), (7, 8, 9), (640, 320, 160)]
        write_frame(self.folder / "f.dpx", 3, 2, codes)
        made = pictures.read_picture(str(self.folder / "f.dpx"), 3, 2, 160, 4, pictures._PLAIN)
        assert made is not None
        self.assertEqual(png_pixels(made.data), (3, 2, [tuple(code >> 2 for code in pixel) for pixel in codes]))

    def test_the_curve_is_the_square(self) -> None:
        write_frame(self.folder / "f.dpx", 2, 1, [(0, 512, 1023), (256, 768, 100)])
        made = pictures.read_picture(str(self.folder / "f.dpx"), 2, 1, 160, 4, pictures._SQUARE)
        assert made is not None
        for pixel, codes in zip(png_pixels(made.data)[2], ((0, 512, 1023), (256, 768, 100))):
            for value, code in zip(pixel, codes):
                self.assertAlmostEqual(value, code * code / 1023 / 4, delta=2)

    def test_a_large_frame_is_a_small_picture_of_means(self) -> None:
        width, height = 700, 30
        codes = [(4 * (x // 5 % 200), 4 * (y // 5), 800) for y in range(height) for x in range(width)]
        write_frame(self.folder / "f.dpx", width, height, codes)
        made = pictures.read_picture(str(self.folder / "f.dpx"), width, height, 160, 4, pictures._PLAIN)
        assert made is not None
        small, tall, pixels = png_pixels(made.data)
        self.assertEqual((small, tall), (140, 6))
        for place in (0, 1, 139, 140 * 5 + 70):
            red, green, blue = pixels[place]
            self.assertEqual((red, green, blue), (place % 140, place // 140, 200))

    def test_a_mean_of_bytes(self) -> None:
        self.assertEqual(pictures._mean(bytes([0, 255, 7, 100]), bytes([255, 255, 8, 50])), bytes([127, 255, 7, 75]))
        self.assertEqual(pictures._minus(bytes([0, 255, 7]), bytes([1, 255, 200])), bytes([255, 0, 63]))

    def test_a_lost_or_cut_file_has_none(self) -> None:
        self.assertIsNone(pictures.read_picture(str(self.folder / "none"), 2, 2, 160, 4, pictures._PLAIN))
        (self.folder / "cut.dpx").write_bytes(bytes(2048 + 15))
        self.assertIsNone(pictures.read_picture(str(self.folder / "cut.dpx"), 2, 2, 160, 4, pictures._PLAIN))


class TestReport(InFolder):
    def test_a_new_file_with_a_name_that_is_said(self) -> None:
        folder = desk(self.folder / "desk").parent
        self.folder = folder
        for name in ("desk.report.html", "desk.2.report.html"):
            said = self.room("report", "desk.toml", "--fast")
            self.assertEqual((said.status, said.err), (0, ""))
            self.assertRegex(said.out, rf"^wrote {re.escape(name)}, [0-9]+ kB\n$")
        said = self.room("report", "desk.toml", "-o", "desk.edl")
        self.assertEqual((said.status, said.err), (2, "room report: desk.edl is there already, and nothing is written over\n"))
        self.assertEqual(self.room("report", "desk.toml", "-o", "no/page.html").status, 2)
        self.assertEqual(self.room("report", "none.toml").status, 2)

    def test_statuses_by_state(self) -> None:
        wanted = {"damaged": 1, "another job": 1, "bad ledger": 1, "refused scan": 1, "refused list": 1}
        for name, make in MADE.items():
            path = make(self.folder / name)
            with self.subTest(state=name):
                self.assertEqual(self.room("report", str(path), "-o", str(path.parent / "page.html")).status, wanted.get(name, 0))

    def test_a_picture_from_behind_the_transition(self) -> None:
        state = state_of(str(desk(self.folder / "desk")), quick_station(), False)
        assert state.record is not None
        first, second = state.record.spans
        self.assertEqual([(s.start, s.end, s.behind, s.shown, s.outgoing) for s in (first, second)], [(0, 10, 0, 5, ""), (12, 24, 16, 20, "A001")])
        self.assertEqual(state.frames[second.shown].sides[0].reel, "B002")
        self.assertEqual((state.record.gaps, state.is_whole, len(state.levels)), ([(10, 12)], True, 24))

    def test_half_done_and_damaged(self) -> None:
        state = state_of(str(half_done(self.folder / "half")), quick_station(), False)
        self.assertEqual((state.acknowledged, timeline.ranges_of_flags(state.done)), (13, [(0, 13)]))
        state = state_of(str(damaged(self.folder / "damaged")), quick_station(), False)
        self.assertEqual((state.damaged, state.acknowledged), (18, 24))

    def test_fast_asks_nothing_that_reads_a_picture(self) -> None:
        state = state_of(str(half_done(self.folder / "half")), quick_station(), True)
        self.assertEqual(sorted(set(state.asked) - {"sums"}), ["list", "plan", "pull", "status"])
        if "sums" in state.asked:
            self.assertEqual(timeline.ranges_of_flags(state.done), [(0, 13)])
        else:
            self.assertIn("told by their files", state.done_by)

    def test_sums_tells_what_is_done_where_the_program_has_it(self) -> None:
        path = half_done(self.folder / "half")
        rows = "".join(f"{'0' * 64}  r001.{number:07}.dpx\\n" for number in range(86400, 86413))
        fake = self.write("station", f"#!/bin/sh\n[ \"$1\" = sums ] && printf '{rows}' && exit 0\nexec '{quick_station().program}' \"$@\"\n")
        fake.chmod(0o755)
        state = state_of(str(path), Station(fake), True)
        self.assertEqual((state.done_by, timeline.ranges_of_flags(state.done)), ("", [(0, 13)]))

    def test_differences(self) -> None:
        folder = desk(self.folder / "desk").parent
        (folder / "new.edl").write_text((folder / "desk.edl").read_text().replace("D    004", "D    002"))
        (folder / "new.toml").write_text((folder / "desk.toml").read_text().replace("desk.edl", "new.edl"))
        self.folder = folder
        self.assertEqual(self.room("report", "new.toml", "--old", "desk.toml", "-o", "page.html").status, 1)
        page = (folder / "page.html").read_text()
        self.assertIn("4 of 24 frames are new, and 0 moved", page)
        self.assertIn("<td>4 of 12<td>0 of 12<td>01:00:00:12 to 01:00:00:15<td>dissolve 0/4 of A001 01:00:00:10 and B002 02:00:00:00<td>dissolve 0/2", page)
        self.room("report", "new.toml", "--old", "none.toml", "-o", "other.html")
        self.assertIn("none.toml: No such file", (folder / "other.html").read_text())

    def test_old_frames_that_moved(self) -> None:
        folder = desk(self.folder / "desk").parent
        (folder / "new.edl").write_text((folder / "desk.edl").read_text().replace("01:00:00:00 01:00:00:10\n*", "01:00:00:01 01:00:00:11\n*").replace("002  A001", "* "))
        (folder / "new.toml").write_text((folder / "desk.toml").read_text().replace("desk.edl", "new.edl"))
        self.folder = folder
        self.room("report", "new.toml", "--old", "desk.toml", "-o", "page.html", "--fast")
        self.assertIn("9 of 9 moved".replace("9 of 9", "0 of 23 frames are new, and 10"), (folder / "page.html").read_text())

    def test_the_page_needs_nothing_else(self) -> None:
        path = desk(self.folder / "desk")
        self.room("report", str(path), "-o", str(self.folder / "page.html"))
        page = (self.folder / "page.html").read_text()
        links = re.findall(r'(?:src|href)="([^"#]{1,20})|url\(([^#)]{1,20})', page)
        self.assertEqual([link for link in links if not (link[0] or link[1]).startswith("data:")], [])
        self.assertNotIn("http", re.sub(r'http-equiv|xmlns="http://www.w3.org/2000/svg"', "", page))


class TestTimeline(InFolder):
    def test_every_wipe_has_its_shape(self) -> None:
        self.assertEqual(sorted(timeline.WIPE_SHAPES), sorted(WIPES))

    def test_a_row_for_each_minute(self) -> None:
        rows = [f"{k:03} R V C 00:00:00:00 00:00:05:00 01:{k // 12:02}:{k % 12 * 5:02}:00 01:{(k + 1) // 12:02}:{(k + 1) % 12 * 5:02}:00" for k in range(30)]
        record = record_of(event_table(quick_station().list_bytes("\n".join(rows).encode(), 24)), [])
        found = timeline.rows_of(record, timeline.Marks(done=[(0, 1500)], has_reel=True))
        self.assertEqual([(row.start, row.end, row.scale) for row in found], [(0, 1440, 1440), (1440, 2880, 1440), (2880, 3600, 1440)])
        self.assertEqual([row.drawing.count("<g ") for row in found], [12, 12, 6])
        self.assertEqual([row.drawing.count('class="done"') for row in found], [1, 1, 0])

    def test_speeds_gaps_and_names_that_have_no_room(self) -> None:
        edl = "1 LONG_NAME_OF_A_REEL V C 01:00:00:00 01:00:00:02 01:00:00:00 01:00:00:02\n2 B V C 01:00:00:00 01:00:01:00 01:01:00:00 01:01:02:00\nM2 B -012.0 01:00:00:00\n"
        record = record_of(event_table(quick_station().list_bytes(edl.encode(), 24)), [])
        drawing = "".join(map(str, timeline.rows_of(record, timeline.Marks())))
        self.assertIn("LONG_NAME", drawing.partition("</title>")[0])
        self.assertNotIn(">LONG_NAME", drawing)
        self.assertIn('fill="url(#reverse)"', drawing)
        self.assertIn('class="gap"', drawing)

    def test_html_and_svg_by_name(self) -> None:
        self.write("a.edl", "1 A V C 01:00:00:00 01:00:01:00 01:00:00:00 01:00:01:00\n")
        self.assertEqual(self.room("timeline", "a.edl", "24").out.split(",")[0], "wrote a.timeline.html")
        self.assertEqual(self.room("timeline", "a.edl", "24", "-o", "a.svg").status, 0)
        self.assertEqual(self.room("timeline", "a.edl", "24", "--svg").out.split(",")[0], "wrote a.timeline.svg")
        self.assertTrue((self.folder / "a.svg").read_text().startswith("<svg "))
        self.write("bad.edl", "1 A V Q\n")
        said = self.room("timeline", "bad.edl", "24")
        self.assertEqual((said.status, said.err), (2, "room timeline: bad.edl: refused 3.6 line 1: `./room check` says more\n"))


class TestLevels(unittest.TestCase):
    def test_jumps_are_those_that_the_list_does_not_explain(self) -> None:
        edl = b"1 A V C 01:00:00:00 01:00:00:10 01:00:00:00 01:00:00:10\n2 B V C 01:00:00:00 01:00:00:07 01:00:00:13 01:00:00:20\n"
        record = record_of(event_table(quick_station().list_bytes(edl, 24)), [])
        means = [100] * 5 + [300] * 5 + [0] * 3 + [700] * 2 + [705] * 5
        found = levels.levels_of([QcLine(k, 0, 0, mean * 12) for k, mean in enumerate(means)], 4)
        self.assertEqual([(jump.frame, jump.before, jump.after) for jump in levels.jumps_of(record, found)], [(5, 100, 300)])
        self.assertEqual(levels.curve([0, 1, 2], [0, 10, 10], 0, 3, 3, 10, 2, 84), "M0 86H200V2H400H600")
        self.assertIn('class="cut" d="M390 0V226"', levels.drawing(record, found, 0, 20, 20))


class TestWatch(InFolder):
    def test_it_ends_when_the_reel_is_done_and_replaces_its_own_file_alone(self) -> None:
        path = half_done(self.folder / "desk")
        self.folder = path.parent
        kept, watch.EVERY = watch.EVERY, 0.2
        self.addCleanup(setattr, watch, "EVERY", kept)
        ender = threading.Timer(1.5, lambda: conform("run", "desk.toml", folder=path.parent))
        ender.start()
        said = self.room("watch", "desk.toml")
        ender.join()
        self.assertEqual((said.status, said.err), (0, ""))
        told = [row.split(": ")[1] for row in said.out.splitlines()]
        self.assertEqual((told[0], told[-1], len(set(told))), ("13 of 24 frames done", "24 of 24 frames done", len(told)))
        self.assertEqual([name for name in self.names() if "watch" in name], ["desk.watch.html"])
        self.assertEqual(self.room("watch", "desk.toml").status, 0)
        before = (path.parent / "desk.edl").read_bytes()
        self.assertEqual(self.room("watch", "desk.toml", "-o", "desk.edl").status, 2)
        self.assertEqual((path.parent / "desk.edl").read_bytes(), before)

    def test_a_refused_job_ends_it(self) -> None:
        path = MADE["refused scan"](self.folder / "desk")
        self.folder = path.parent
        self.assertEqual(self.room("watch", "desk.toml").status, 1)


class TestMovie(InFolder):
    def test_the_line(self) -> None:
        path = desk(self.folder / "desk")
        self.folder = path.parent
        line = "ffmpeg -nostdin -n -framerate 24 -start_number 86400 -i conform.out/r001.%07d.dpx -frames:v 24 -timecode 01:00:00:00 -c:v libx264 -crf 18 -pix_fmt yuv420p desk.mov\n"
        said = self.room("movie", "desk.toml")
        self.assertEqual((said.status, said.out, said.err), (0, line, ""))

    def test_record_reels_have_a_line_each(self) -> None:
        path = in_reels(self.folder / "desk")
        self.folder = path.parent
        rows = self.room("movie", "reels.toml", "--slow").out.splitlines()
        self.assertEqual([row.split(" -i ")[1].split(" -c:v")[0] for row in rows],
                         ["conform.out/r001.%07d.dpx -frames:v 12 -timecode 01:00:00:00", "conform.out/r002.%07d.dpx -frames:v 12 -timecode 01:00:00:12"])
        self.assertTrue(all("-framerate 24000/1001" in row for row in rows))
        self.assertEqual([row.split()[-1] for row in rows], ["reels.r001.mov", "reels.r002.mov"])

    def test_a_reel_that_is_not_whole_has_none(self) -> None:
        path = half_done(self.folder / "desk")
        self.folder = path.parent
        said = self.room("movie", "desk.toml", "--make")
        self.assertEqual((said.status, said.out), (1, "no movie can be made yet: 13 of 24 frames are done, and FFmpeg stops at the first that is lacking\n"))

    def test_sizes_and_speeds(self) -> None:
        sizes = [movie.size_of(*size) for size in ((1920, 1080), (2048, 1556), (4096, 2160), (1828, 1332), (3, 3), (1, 1), (3996, 2161))]
        self.assertEqual(sizes, [(1920, 1080), (1024, 778), (1024, 540), (1828, 1332), (2, 2), (2, 2), (998, 540)])
        speeds = [movie.speed_of(*case) for case in ((24, False, False), (24, False, True), (30, True, False), (30, False, False), (25, False, True))]
        self.assertEqual(speeds, ["24", "24000/1001", "30000/1001", "30", "25"])

    @unittest.skipIf(shutil.which("ffmpeg") is None or shutil.which("ffprobe") is None, "there is no FFmpeg on the path")
    def test_it_is_made(self) -> None:
        import subprocess

        path = desk(self.folder / "desk")
        self.folder = path.parent
        said = self.room("movie", "desk.toml", "--make")
        self.assertEqual((said.status, said.out.splitlines()[-1]), (0, "made desk.mov"), said)
        words = ["ffprobe", "-v", "error", "-count_frames", "-show_entries", "stream=nb_read_frames:stream_tags=timecode", "-of", "csv=p=0", "desk.mov"]
        probed = subprocess.run(words, cwd=path.parent, capture_output=True, text=True, check=True).stdout
        self.assertIn("24", probed)
        self.assertIn("01:00:00:00", probed)
        self.assertEqual(self.room("movie", "desk.toml", "--make").status, 2)


class TestWords(unittest.TestCase):
    def test_nothing_that_is_said_is_markup(self) -> None:
        self.assertEqual(text("<i>\"&'\n\x07"), "&lt;i&gt;&quot;&amp;&#x27;\\n\\x07")
        self.assertEqual(marked("`a<b` c"), "<code>a&lt;b</code> c")
        self.assertEqual([size_in_words(size) for size in (999, 1500, 2_340_000)], ["999 bytes", "2 kB", "2.3 MB"])

    def test_progress(self) -> None:
        self.assertEqual(progress.line("verify", 50, 200, 10.0), "verify: [#######.......................] 25%, 10 s, 30 s left")
        self.assertEqual(progress.line("qc", None, 200, 3.4), "qc: 3 s")
        self.assertEqual(progress.line("qc", 0, 200, 3.4), "qc: [..............................] 0%, 3 s")


def themes() -> Dict[str, Dict[str, Tuple[int, int, int]]]:
    """The colours of the page by theme."""
    found: Dict[str, Dict[str, Tuple[int, int, int]]] = {}
    for name, block in zip(("light", "dark", "print"), re.findall(r":root\{([^}]*)\}", CSS)):
        found[name] = {}
        for key, value in re.findall(r"--([a-z0-9]+):#([0-9a-f]{3,6})", block):
            digits = value if len(value) == 6 else "".join(2 * digit for digit in value)
            found[name][key] = tuple(int(digits[k : k + 2], 16) for k in (0, 2, 4))  # type: ignore[assignment]
    return found


def contrast(one: Tuple[int, ...], other: Tuple[int, ...]) -> float:
    """The ratio of two colours' luminances, as WCAG 2 defines it."""

    def luminance(colour: Tuple[int, ...]) -> float:
        parts = [value / 255 / 12.92 if value / 255 <= 0.04045 else ((value / 255 + 0.055) / 1.055) ** 2.4 for value in colour]
        return 0.2126 * parts[0] + 0.7152 * parts[1] + 0.0722 * parts[2]

    high, low = sorted((luminance(one), luminance(other)), reverse=True)
    return (high + 0.05) / (low + 0.05)


class TestColours(unittest.TestCase):
    def test_contrast_is_at_least_four_and_a_half(self) -> None:
        self.assertAlmostEqual(contrast((255, 255, 255), (0, 0, 0)), 21)
        self.assertEqual(sorted(themes()), ["dark", "light", "print"])
        for name, colours in themes().items():
            pairs = [(text, ground) for text in ("ink", "soft", "link", "good", "open", "bad") for ground in ("ground", "panel")]
            pairs += [("on", f"r{number}") for number in range(8)] + [("ground", "ink")]
            for text_colour, ground in pairs:
                with self.subTest(theme=name, text=text_colour, ground=ground):
                    self.assertGreaterEqual(contrast(colours[text_colour], colours[ground]), 4.5)
            for shape in [*(f"r{number}" for number in range(8)), "good", "bad", "open", "soft"]:
                with self.subTest(theme=name, shape=shape):
                    self.assertGreaterEqual(contrast(colours[shape], colours["panel"]), 3)


if __name__ == "__main__":
    unittest.main()
