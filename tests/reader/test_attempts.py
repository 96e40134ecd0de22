"""Which attempt's answer stays and what the chain then holds, with answers that are given in place of solves."""
import unittest
from unittest import mock

from second_reading import ladder
from second_reading.making import first
from second_reading.program import FOUND, RAY, STUCK, UNIT, Answer, Column, Program

PROGRAM = Program(1, (Column(UNIT, 2 * UNIT, UNIT),), (), (), ())


def weak(number):
    """A weak answer that is not poor, told from others by its point."""
    return Answer(FOUND, (number,), (), True)


def poor(number):
    """A weak answer that is poor, told from others by its point."""
    return Answer(FOUND, (number,), (), True, True)


def good(number, kind=FOUND):
    """A good answer, told from others by its point."""
    return Answer(kind, (number,), ())


class Attempts(unittest.TestCase):
    def course(self, solves, wide, with_table=True, clean=True):
        """The answer, whether the chain goes on with its table (`old`) or a new one (`new`), and the trace.

        The solves of tables give one answer after another, all of which have to be asked for, and wide numbers give theirs.
        """
        chain, trace = first(PROGRAM) if with_table else None, []
        with mock.patch.object(ladder, "go", side_effect=list(solves)) as asked, \
                mock.patch.object(ladder, "wide_answer", side_effect=[wide] if wide != "unasked" else []), \
                mock.patch.object(ladder, "rebuild", return_value=clean):
            answer, left = ladder.answer_of(chain, PROGRAM, trace)
        self.assertEqual(asked.call_count, len(solves))
        return answer, None if left is None else "old" if left is chain else "new", trace

    def test_first(self):
        self.assertEqual(self.course([good(1)], "unasked"), (good(1), "old", []))
        self.assertEqual(self.course([good(1, RAY)], "unasked"), (good(1, RAY), "old", []))

    def test_clean_table(self):
        """Turns on it begin after a weak answer, and end with one that is not poor."""
        for first_one in (weak(1), poor(1)):
            self.assertEqual(self.course([first_one, good(2)], "unasked"), (good(2), "old", ["weak"]))
            self.assertEqual(self.course([first_one, weak(2)], "unasked"), (weak(2), "old", ["weak", "weak"]))
        self.assertEqual(self.course([None, good(2)], "unasked"), (good(2), "old", ["stuck"]))
        self.assertEqual(self.course([None, weak(2)], "unasked"), (weak(2), "old", ["stuck", "weak"]))

    def test_new_table(self):
        trace = ["stuck", "weak", "anew"]
        self.assertEqual(self.course([None, poor(2), good(3)], "unasked"), (good(3), "new", trace))
        self.assertEqual(self.course([weak(1), poor(2), weak(3)], "unasked"), (weak(3), "new", ["weak", "weak", "anew", "weak"]))
        self.assertEqual(self.course([weak(1), good(3)], "unasked", clean=False), (good(3), "new", ["weak", "anew"]))
        self.assertEqual(self.course([good(3)], "unasked", with_table=False), (good(3), "new", ["anew"]))

    def test_wide_numbers(self):
        """Their answer is the last one, also where it is weak, and no chain is left."""
        trace = ["weak", "weak", "anew", "weak", "wide"]
        self.assertEqual(self.course([poor(1), poor(2), poor(3)], good(4)), (good(4), None, trace))
        self.assertEqual(self.course([None], weak(4), with_table=False), (weak(4), None, ["anew", "stuck", "wide"]))

    def test_a_weak_answer_stays(self):
        """The last poor one stays, and of the chain what the new table left. Where turns after it have no answer others are asked, poor or not."""
        trace = ["weak", "weak", "anew", "weak"]
        self.assertEqual(self.course([poor(1), poor(2), poor(3)], None), (poor(3), "new", trace))
        trace = ["weak", "stuck", "anew", "stuck"]
        self.assertEqual(self.course([weak(1), None, None], None), (weak(1), None, trace))
        self.assertEqual(self.course([None, poor(2), None], None), (poor(2), None, ["stuck", "weak", "anew", "stuck"]))

    def test_stuck(self):
        answer, chain, _ = self.course([None, None, None], None)
        self.assertEqual((answer, chain), (Answer(STUCK, (UNIT,), ()), None))
