"""Which lines mend a line that was refused, so that its slip makes no status."""

import unittest

from planner.mended import Refused, mends

NAMES = {"v01", "v02", "there", "arrive", "images", "shift", "early", "early.max", "warm"}
MENDED = [
    ("verdcit", "verdict"),
    ("verdict now", "verdict"),
    ("set warm -15", "set bound warm -15"),
    ("set bound shfit 5", "set bound shift 5"),
    ("set bound shift 9:30", "set bound shift 570"),
    ("set bound early 5", "set bound early.max 5"),
    ("set link arrive 90 40", "set link arrive 40 90"),
    ("at 127", "at 127 arrive"),
    ("at 100 images", "at 100 arrive"),
    ("v1 at 30 there", "v01 at 30 there"),
    ("v01 at 30 images", "v01 at 30 there"),
]
LOST = [
    ("set bound shfit 5", "set bound warm 5"),
    ("set bound shift 5x", "set bound warm 5"),
    ("v02 at 30 there", "v01 at 30 there"),
    ("at 60 arrive", "at 90"),
    ("verdcit", "plan"),
    ("add v09.stnu", "add v08.stnu"),
    ("set bound ready-3 5", "set bound ready-4 5"),
    ("done", "at 127 arrive"),
]


class Mends(unittest.TestCase):
    def test_what_mends_a_slip_and_what_does_not(self):
        for slip, line in MENDED:
            self.assertTrue(mends(line, slip, NAMES), (slip, line))
        for slip, line in LOST:
            self.assertFalse(mends(line, slip, NAMES), (slip, line))

    def test_questions_may_stand_between_and_other_lines_may_not(self):
        for between, is_question, is_left in (("status", True, False), ("at 90", False, True)):
            refused = Refused(lambda: NAMES)
            refused.refuse("at 100 arive")
            refused.take(between, is_question)
            refused.take("at 100 arrive")
            self.assertEqual(bool(refused), is_left)

    def test_the_same_line_mends_at_any_time(self):
        refused = Refused(lambda: NAMES)
        refused.refuse("done")
        refused.take("at 127 arrive")
        self.assertTrue(refused)
        refused.take("done")
        self.assertFalse(refused)
