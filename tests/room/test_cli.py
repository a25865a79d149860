"""The command line as it is typed: help, statuses, and answers of one line whatever comes."""

from __future__ import annotations

import os
import random
import subprocess
import sys
import unittest
from typing import Any, Callable

from helpers import TOP, InFolder, quick_station, typed
from long_lists import SHAPES, event, long_list
from room.check import check
from room.cli import COMMANDS, parser
from room.draft import Options
from room.edit_list import read_event, read_motion, read_note
from room.rewrite import rewrite

ROOM = TOP / "room"


def steps(what: Callable[[], object]) -> int:
    """How many lines of Python are gone through where nothing was read before: the same from run to run."""
    count = 0

    def counting(*_: Any) -> Any:
        nonlocal count
        count += 1
        return counting

    for read in (read_event, read_motion, read_note):
        read.cache_clear()
    before = sys.gettrace()
    sys.settrace(counting)
    try:
        what()
    finally:
        sys.settrace(before)
    return count


ODD = (
    b"", b"\0", b"\n", b"\r", b"\xff\xfe", b"\xfe\xff", b"\xef\xbb\xbf", b"\0" * 100_000, bytes(range(256)) * 100, b"A" * 2_000_000, b"1" * 2_000_000,
    b"001 " * 300_000, b"M2 " * 300_000, b"001 A V C " + b"01:00:00:00 " * 100_000, b"M2 A 1 " + b"01:00:00:00 " * 100_000, b"FCM:" + b" " * 2_000_000,
    b"* FROM CLIP NAME:" + b" " * 2_000_000 + b"x", b"001" + b" " * 2_000_000 + b"A V C 01:00:00:00 01:00:01:00 01:00:00:00 01:00:01:00",
    b"001 A V C 01:00:00:00 01:00:01:00 01:00:00:00 01:00:01:00", "M2 \u0663 \u0663 01:00:00:00\n\u0661 A V C".encode(), b"|C:" + b"a" * 1_000_000,
)


class TestTyped(InFolder):
    def test_help_names_every_command(self) -> None:
        said = typed(ROOM, "--help")
        self.assertEqual((said.status, said.err), (0, ""))
        for name in COMMANDS:
            self.assertIn(f"    {name.replace('_', '-')}", said.out)
            self.assertIn("status", parser()._subparsers._group_actions[0].choices[name.replace("_", "-")].format_help())  # type: ignore[union-attr]

    def test_wrong_words_are_one_line_and_status_2(self) -> None:
        self.write("reel.edl", "TITLE: X\n")
        for words in ([], ["nothing"], ["check"], ["check", "reel.edl", "23"], ["check", "none.edl", "24"], ["rewrite", "reel.edl"], ["check", "."], ["scans", "none.toml"],
                      ["rewrite", "reel.edl", "24", "--from", "me"], ["frame", "reel.edl", "1"], ["explain", "none.toml", "refused 2.1 line 1"], ["check", "x" * 5000, "24"]):
            with self.subTest(words=words):
                said = typed(ROOM, *words, folder=self.folder)
                self.assertEqual(said.status, 2, said)
                self.assertEqual((len(said.err.splitlines()[-1:]), said.out), (1, ""))
                self.assertNotIn("Traceback", said.err)

    def test_a_link_and_another_folder(self) -> None:
        os.symlink(ROOM, self.folder / "room")
        self.write("reel.edl", "001 A001 V C 01:00:00:00 01:00:01:00 01:00:00:00 01:00:01:00\n")
        said = typed(self.folder / "room", "check", "reel.edl", "23.976", folder=self.folder)
        self.assertEqual((said.status, said.out, said.err), (0, "0 refused, 0 warnings, 0 notes\n", ""))

    def test_a_list_through_pipes(self) -> None:
        data = b"001A A001 V C 01:00:00:00 01:00:01:00 01:00:00:00 01:00:01:00"
        said = typed(ROOM, "rewrite", "-", "24", given=data)
        self.assertEqual((said.status, said.out), (0, "001  A001 V C 01:00:00:00 01:00:01:00 01:00:00:00 01:00:01:00"))
        self.assertEqual(said.err, "-:1: changed: event number 001A to 001: it has one to six digits, and this one is free\n")

    def test_a_reader_that_goes_away(self) -> None:
        rows = b"".join(b"%d A V C 1\n" % number for number in range(5000))
        with subprocess.Popen([str(ROOM), "check", "-", "24"], stdin=subprocess.PIPE, stdout=subprocess.PIPE, stderr=subprocess.PIPE) as started:
            assert started.stdin and started.stdout and started.stderr
            started.stdin.write(rows)
            started.stdin.close()
            started.stdout.readline()
            started.stdout.close()
            self.assertNotIn(b"Traceback", started.stderr.read())

    def test_names_that_are_not_utf_8(self) -> None:
        name = os.fsdecode(b"r\xffel.edl")
        (self.folder / name).write_bytes(b"001 A001 V Q 1\n")
        said = subprocess.run([str(ROOM), "check", os.fsencode(name), "24"], cwd=self.folder, capture_output=True, check=False)
        self.assertEqual(said.returncode, 1)
        self.assertIn(b"r\\xffel.edl:1: refused 3.6:", said.stdout)

    def test_a_new_file_is_written_once(self) -> None:
        self.write("reel.edl", "001A A001 V C 01:00:00:00 01:00:01:00 01:00:00:00 01:00:01:00\n")
        self.assertEqual(self.room("rewrite", "reel.edl", "24", "-o", "new.edl").status, 0)
        new = (self.folder / "new.edl").read_bytes()
        self.assertEqual(self.room("rewrite", "reel.edl", "24", "-o", "reel.edl").status, 2)
        self.assertEqual(self.room("rewrite", "reel.edl", "24", "-o", "new.edl").err, "room rewrite: new.edl is there already, and nothing is written over\n")
        self.assertEqual(self.room("rewrite", "reel.edl", "24", "-o", "no/new.edl").status, 2)
        self.assertEqual(((self.folder / "new.edl").read_bytes(), len(self.names())), (new, 2))


class TestOddBytes(unittest.TestCase):
    def test_whatever_comes_has_an_answer(self) -> None:
        for data in ODD:
            for rate in (None, 24, 30):
                with self.subTest(data=data[:20], rate=rate):
                    check(data, rate, None)
                    new, _ = rewrite(data, Options(rate or 25, "avid"), None)
                    self.assertEqual(rewrite(new, Options(rate or 25, "avid"), None)[0], new)

    def test_lists_with_bytes_changed(self) -> None:
        lists = [path.read_bytes() for path in sorted((TOP / "tests/room/lists").glob("*/list.edl"))]
        random_ = random.Random(7)
        for number in range(400):
            data = bytearray(random_.choice(lists) or b"x")
            for _ in range(random_.randrange(1, 9)):
                at = random_.randrange(len(data))
                data[at : at + random_.randrange(2)] = random_.choice((b"", b";", b"\n", b" ", b"\xff", b"M2 ", b"001 ", b" V2 ", b"\0", b"FCM: DROP FRAME\n"))
                data = data or bytearray(b"x")
            with self.subTest(number=number, data=bytes(data)):
                rate = random_.choice((24, 25, 30))
                check(bytes(data), rate, None)
                new, _ = rewrite(bytes(data), Options(rate, "avid"), None)
                self.assertEqual(rewrite(new, Options(rate, "avid"), None)[0], new)

    def test_ten_thousand_events(self) -> None:
        data = "".join(event(number) + f"* FROM CLIP NAME: {number}\n" for number in range(10_000)).encode()
        changed = data.replace(b"  A0", b"  AX", 1).replace(b" V     C ", b" v     c ")
        found = check(data, 24, None)
        self.assertEqual([finding.text for finding in found if finding.is_to_decide], [])
        new, found = rewrite(changed, Options(24), None)
        self.assertEqual((new.count(b" V     C "), len([finding for finding in found if finding.kind == "changed"])), (10_000, 20_000))

    def test_four_times_the_events_take_some_four_times_as_many_steps(self) -> None:
        """Where something is looked for again and again, four times the events take sixteen times as many. (bench/room has the time.)"""
        for shape in SHAPES:
            for what in (lambda data: check(data, 24, None), lambda data: rewrite(data, Options(24, "avid"), None)):
                few, many = (steps(lambda: what(long_list(shape, count).encode())) for count in (250, 1000))
                with self.subTest(shape=shape, few=few, many=many):
                    self.assertLess(many / few, 5)

    def test_the_station_is_right_where_the_kit_differs(self) -> None:
        data = b"001 A001 V C 01:00:00:00 01:00:01:00 01:00:00:00 01:00:01:00\n"
        self.assertEqual(check(data, 24, quick_station()), [])


if __name__ == "__main__":
    unittest.main()
