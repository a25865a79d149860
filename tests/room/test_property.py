"""What `rewrite` gives, over 2,000 generated lists: it is taken by `list`, it means what was meant, and twice is the same as once."""

from __future__ import annotations

import unittest

from helpers import quick_station
from generated import Generated, generate, meaning
from room.draft import Draft, Options, Row
from room.list_text import Line, lines_of, plain_text
from room.rewrite import RULES, rewrite
from room.station import DONE, event_table
from room.taken import read_list
from room.timecode import Counting
from room.view import View, view_of

MANY = 2000


def shown(view: View) -> object:
    """A view's values, but for the clips, of which a rule of reels adds some."""
    edits = [
        ([(entry.line, vars(entry.event)) for entry in edit.entries], [(line, vars(motion)) for line, motion in edit.motions], edit.notes)
        for edit in view.edits
    ]
    early = [(line, vars(motion)) for line, motion in view.early_motions]
    return view.lines, edits, early, view.notes, view.fcm, view.uses_semicolons, [(vars(taken)) for taken in view.reading.events], view.reading.refused


class TestProperty(unittest.TestCase):
    def test_lists_are_taken_mean_the_same_and_stay(self) -> None:
        station = quick_station()
        same = 0
        for seed in range(MANY):
            made = generate(seed)
            with self.subTest(seed=seed, rate=made.rate, habits=made.habits):
                new, findings = rewrite(made.data, Options(made.rate), None)
                self.assertEqual([f.text for f in findings if f.kind != "changed"], [])
                if not findings:
                    self.assertEqual(new, made.data)
                    same += 1
                again, said = rewrite(new, Options(made.rate), None)
                self.assertEqual((again, said), (new, []))
                answer = station.list_bytes(new, made.rate)
                self.assertEqual(answer.status, DONE, answer.text)
                self.compare(made, event_table(answer), new)
        self.assertGreater(same, MANY // 8)

    def test_the_view_behind_each_rule_is_one_made_anew(self) -> None:
        """A rule's changes are put into the view at hand, in place of reading all rows again."""
        kept = 0
        for seed in range(400):
            made = generate(seed)
            draft = Draft([Row(line.number, line.text, line.end) for line in lines_of(plain_text(made.data)[0])], Options(made.rate, "avid"))
            for rule in RULES:
                before = draft.view
                rule(draft)
                with self.subTest(seed=seed, rule=rule.__name__):
                    now = [Line(place + 1, row.text, row.end) for place, row in enumerate(draft.rows)]
                    self.assertEqual(shown(draft.view), shown(view_of(now, made.rate)))
                kept += draft.view is before and draft.findings != []
        self.assertGreater(kept, 400)

    def compare(self, made: Generated, table, new: bytes) -> None:
        """The events are those that were meant, and each clip has one reel of its own."""
        self.assertEqual(len(table.events), len(made.shown))
        self.assertEqual(table.is_drop, made.is_drop)
        record = Counting(made.rate, table.is_drop)
        taken = read_list(lines_of(new), made.rate).events
        reels = {}
        for event, shown, own in zip(table.events, made.shown, taken):
            source = Counting(made.rate, own.is_drop)
            speed = event.speed
            if speed == made.rate * 100 and shown.speed is None and shown.record_in == shown.record_out:
                speed = None  # (an outgoing side at play speed, which changes nothing)
            told = (source.number(event.source_in), record.number(event.record_in), record.number(event.record_out), event.transition, event.duration, speed)
            self.assertEqual(told, meaning(shown))
            self.assertEqual(reels.setdefault(shown.clip, event.reel), event.reel)
        self.assertEqual(len(set(reels.values())), len(reels))


if __name__ == "__main__":
    unittest.main()
