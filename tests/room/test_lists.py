"""What `check` says of each list in `lists`, and what `rewrite` makes of it.

A folder is a list: `list.edl`, `words` (the rate and the options of a rewriting), `checked` (what `check` puts, and its status),
`said` (what `rewrite` says, and its status) and `new.edl`, the new list, which isn't there where the list stays as it is.
"""

from __future__ import annotations

import argparse
import io
import unittest
from pathlib import Path
from typing import Dict, Optional

from helpers import TOP, quick_station
from room import rewrite as rewriting
from room.check import check, summary
from room.draft import Options
from room.findings import put_findings, put_heads
from room.station import DONE, Station

LISTS = TOP / "tests" / "room" / "lists"
# Lists that the station takes rightly: byte for byte they stay as they are, and nothing is to be decided.
RIGHT = (
    "avid-cmx3600", "avid-file32", "avid-fade-bl", "fcp7", "edlx", "nucoda", "lightworks", "mode-c", "fcm-switch", "otio-no-spaces",
    "otio-dissolve-one-line",
)


def outcome_of(folder: Path, station: Station) -> Dict[str, Optional[bytes]]:
    """The files that the kit makes of a list."""
    parser = argparse.ArgumentParser()
    rewriting.add_arguments(parser)
    words = parser.parse_args(["list.edl", *(folder / "words").read_text().split()])
    data = (folder / "list.edl").read_bytes()
    found = check(data, words.rate, station)
    checked = io.StringIO()
    put_findings("list.edl", found, checked)
    checked.write(f"{summary(found)}\nstatus {int(any(finding.is_to_decide for finding in found))}\n")
    new, said = rewriting.rewrite(data, Options(words.rate, words.habit, words.reels, words.track), station)
    told = io.StringIO()
    put_heads("list.edl", said, told)
    told.write(f"status {int(any(finding.is_to_decide for finding in said))}\n")
    return {"checked": checked.getvalue().encode(), "said": told.getvalue().encode(), "new.edl": None if new == data else new}


class TestLists(unittest.TestCase):
    def test_there_are_many(self) -> None:
        self.assertGreaterEqual(len(list(LISTS.iterdir())), 60)

    def test_each_list(self) -> None:
        station = quick_station()
        for folder in sorted(LISTS.iterdir()):
            made = outcome_of(folder, station)
            for name, data in made.items():
                with self.subTest(list=folder.name, file=name):
                    self.maxDiff = None
                    file = folder / name
                    wanted = file.read_bytes() if file.exists() else None
                    self.assertEqual(_text(data), _text(wanted))

    def test_right_lists_stay(self) -> None:
        for name in RIGHT:
            with self.subTest(list=name):
                self.assertFalse((LISTS / name / "new.edl").exists())
                self.assertEqual((LISTS / name / "said").read_text(), "status 0\n")

    def test_what_is_said_to_be_taken_is_taken(self) -> None:
        station = quick_station()
        for folder in sorted(LISTS.iterdir()):
            said = (folder / "said").read_text()
            if "refused" in said or "no line looks like" in said or "looks like" in said:
                continue
            file = folder / "new.edl" if (folder / "new.edl").exists() else folder / "list.edl"
            rate = {"23.976": "24", "29.97": "30"}.get(*[(folder / "words").read_text().split()[0]] * 2)
            with self.subTest(list=folder.name):
                self.assertEqual(station.list_bytes(file.read_bytes(), int(rate)).status, DONE)


def _text(data: Optional[bytes]) -> Optional[str]:
    return None if data is None else data.decode("utf-8", "backslashreplace")


if __name__ == "__main__":
    unittest.main()
