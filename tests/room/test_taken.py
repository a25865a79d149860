"""The kit's reading by the station's rules is the station's: over lists that are wrong in many ways, the first refusal is the same."""

from __future__ import annotations

import random
import unittest
from typing import List

from helpers import quick_station
from room.list_text import lines_of
from room.station import DONE, event_table, refusal_of
from room.taken import read_list
from room.timecode import Counting

REELS = ("A001", "B002", "BL", "AX", "A 1", "", "MÜ", "x" * 64, "x" * 65, "V", "12")
CHANNELS = ("V", "V", "V", "V", "B", "AA/V", "A", "NONE", "12", "Q", "")
SHAPES = ("C", "C", "C", "D 004", "D    012", "W001 003", "W01 003", "W999 003", "K B", "D", "D 000", "C 000", "d 004", "D 123456")
SPEEDS = ("024.0", "-7.25", "+3", "030.003", "99999", ".5", "12.", "0", "-0", "x")
NOTES = (
    "* FROM CLIP NAME: X", "", "  \t", "FCM: DROP FRAME", "FCM: NON-DROP FRAME", "FCM: NON DROP FRAME  more", "FCM:DROP FRAME", "FCM: DROP", "fcm: drop frame",
    "TITLE: X", "M2", "M2 A001", "M2 A001 012.0", "AUD 3 4", "0000001 A001 V C", "1 A001", "1", "7", "1a A V C", "\x0b001 A", "é",
)


def label(random_: random.Random, rate: int) -> str:
    if random_.random() < 0.06:
        return random_.choice(("00:00:60:00", "24:00:00:00", "00:00:00:24", "00:00:00:29", "00:01:00;00", "1:0:0:0", "01.00:00:00", "00:00:00:0x", "01;00;00;00"))
    return Counting(rate).label(random_.randrange(0, 200))


def line(random_: random.Random, rate: int, at: List[int]) -> str:
    kind = random_.random()
    reel = random_.choice(REELS) if random_.random() < 0.4 else random_.choice(("A001", "B002"))
    if kind < 0.15:
        return random_.choice(NOTES)
    if kind < 0.35:
        return " ".join(("M2", reel, random_.choice(SPEEDS) if random_.random() < 0.4 else "012.0", label(random_, rate)))
    source, length = random_.randrange(100), random_.randrange(0, 20)
    counting = Counting(rate)
    times = [counting.label(source), counting.label(source + length), counting.label(at[0]), counting.label(at[0] + length)]
    at[0] += length
    if random_.random() < 0.15:
        times[random_.randrange(4)] = label(random_, rate)
    if random_.random() < 0.1:
        times = times[: random_.randrange(4)]
    if random_.random() < 0.1:
        times = [time[:8] + ";" + time[9:] for time in times]
    channels = random_.choice(CHANNELS) if random_.random() < 0.3 else "V"
    shape = random_.choice(SHAPES) if random_.random() < 0.5 else "C"
    words = [str(random_.randrange(1, 4)), reel, channels, shape, *times]
    return random_.choice((" ", "  ", "\t")).join(words) + random_.choice(("", "", " ", " more", "\r"))


def text(random_: random.Random, rate: int) -> bytes:
    at = [0]
    rows = [line(random_, rate, at) for _ in range(random_.randrange(1, 9))]
    if rate == 30 and random_.random() < 0.4:
        rows.insert(0, "FCM: DROP FRAME")
    return random_.choice(("\n", "\n", "\r\n")).join(rows).encode("utf-8")


class TestTaken(unittest.TestCase):
    def test_the_first_refusal_and_the_events_are_the_stations(self) -> None:
        station = quick_station()
        random_ = random.Random(57)
        refusals = set()
        for number in range(700):
            rate = random_.choice((24, 25, 30))
            data = text(random_, rate)
            answer = station.list_bytes(data, rate)
            reading = read_list(lines_of(data), rate, len(data))
            with self.subTest(number=number, rate=rate, data=data, station=answer.last):
                if answer.status != DONE:
                    told = refusal_of(answer.last)
                    self.assertIsNotNone(told)
                    self.assertIsNotNone(reading.first)
                    self.assertEqual((told.number, told.line), (reading.first.number, reading.first.line))
                    refusals.add(told.number)
                else:
                    self.assertIsNone(reading.first)
                    self.compare(answer, reading)
        self.assertGreater(len(refusals), 14, refusals)

    def compare(self, answer, reading) -> None:
        table = event_table(answer)
        self.assertEqual(table.is_drop, reading.is_drop)
        self.assertEqual([(e.line, e.reel, e.speed, e.transition, e.duration) for e in table.events],
                         [(e.line, e.reel, e.speed, e.transition, e.duration) for e in reading.events])
        for event, taken in zip(table.events, reading.events):
            source, record = Counting(table.rate, taken.is_drop), Counting(table.rate, table.is_drop)
            self.assertEqual((source.label(taken.source_in), source.label(taken.source_out)), (event.source_in, event.source_out))
            self.assertEqual((record.label(taken.record_in), record.label(taken.record_out)), (event.record_in, event.record_out))


if __name__ == "__main__":
    unittest.main()
