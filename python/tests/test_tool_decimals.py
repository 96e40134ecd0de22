"""Exact decimals, and probabilities as weights. Expected values are worked out by hand."""
import unittest
from fractions import Fraction as F

from hydroplan.tools.located_json import Refused
from hydroplan.tools.decimals import Direction, decimal_text, full_weights, last_digit, simplest_between, stopping_weights, whole
from hydroplan.tools.stochopt import Quantity
from hydroplan.tools.profile import MOST_WEIGHT


def given(*texts):
    return [Quantity(F(text), text, "here") for text in texts]


class Decimals(unittest.TestCase):
    def test_texts(self):
        rows = [
            (F(1, 3), 4, Direction.NEAREST, "0.3333"), (F(2, 3), 4, Direction.NEAREST, "0.6667"),
            (F(2, 3), 4, Direction.DOWN, "0.6666"), (F(-2, 3), 4, Direction.DOWN, "-0.6667"),
            (F(-2, 3), 4, Direction.UP, "-0.6666"), (F(1, 3), 2, Direction.UP, "0.34"),
            (F(5, 2), 0, Direction.NEAREST, "2"), (F(7, 2), 0, Direction.NEAREST, "4"),
            (F(1, 10**9), 6, Direction.NEAREST, "0"), (F(-1, 10**9), 6, Direction.DOWN, "-0.000001"),
            (F(1205, 100), 6, Direction.NEAREST, "12.05"), (F(-7), 3, Direction.UP, "-7"),
        ]
        for value, digits, direction, text in rows:
            with self.subTest(value=value, direction=direction):
                self.assertEqual(decimal_text(value, digits, direction), text)

    def test_whole(self):
        self.assertEqual([whole(F(-1, 2), way) for way in (Direction.DOWN, Direction.UP, Direction.NEAREST)], [-1, 0, 0])

    def test_simplest_fraction_of_an_interval(self):
        rows = [
            (F("0.33325"), F("0.33335"), F(1, 3)), (F("0.1"), F("0.1"), F(1, 10)), (F("3.14155"), F("3.14165"), F(355, 113)),
            (F(0), F(1, 2), F(0)), (F("2.5"), F("3.5"), F(3)),
        ]
        for low, high, simplest in rows:
            with self.subTest(low=low):
                self.assertEqual(simplest_between(low, high), simplest)

    def test_last_digit(self):
        self.assertEqual([last_digit(it) for it in ("0.125", "3e1", "2.50E-3", "7")], [F(1, 1000), 10, F(1, 10**5), 1])


class Weights(unittest.TestCase):
    def test_exact_shares(self):
        rows = [
            (("0.4", "0.6"), (2, 3)), (("0.25", "0.25", "0.5"), (1, 1, 2)), (("1.0",), (1,)), (("1e-1", "9e-1"), (1, 9)),
            (("0.125", "0.875"), (1, 7)), (("0.33", "0.33", "0.34"), (33, 33, 34)),
        ]
        for texts, weights in rows:
            with self.subTest(texts=texts):
                self.assertEqual(full_weights(given(*texts), "here", False), weights)

    def test_thirds_as_floats_write_them(self):
        third = "0.3333333333333333"
        self.assertEqual(full_weights(given(third, third, third), "here", False), (1, 1, 1))
        self.assertEqual(full_weights(given(third, "0.6666666666666666"), "here", False), (1, 2))

    def test_shares_with_too_great_a_denominator_have_the_greatest_total(self):
        texts = ("0.1234567", "0.2345678", "0.6419755")
        weights = full_weights(given(*texts), "here", False)
        self.assertEqual(sum(weights), MOST_WEIGHT)
        for text, weight in zip(texts, weights):
            self.assertLessEqual(abs(F(weight, MOST_WEIGHT) - F(text)), F(1, MOST_WEIGHT))

    def test_a_tiny_share_keeps_a_weight_of_one(self):
        self.assertEqual(full_weights(given("0.0000000001", "0.9999999999"), "here", False), (1, MOST_WEIGHT - 1))

    def test_sums_that_are_not_one(self):
        with self.assertRaises(Refused) as caught:
            full_weights(given("0.4", "0.5"), "here", False)
        self.assertEqual((caught.exception.kind, caught.exception.place), ("Probability", "here"))
        self.assertEqual(full_weights(given("0.4", "0.5"), "here", True), (4, 5))
        with self.assertRaises(Refused):
            full_weights(given("0"), "here", True)

    def test_what_successors_leave_of_one_ends_the_horizon(self):
        rows = [
            (("0.9",), (9, 1)), (("0.25", "0.5"), (1, 2, 1)), (("0.5", "0.5"), (1, 1, 0)), (("0.95", "0.01"), (95, 1, 4)),
            (("0.3333333333333333", "0.3333333333333333"), (1, 1, 1)), (("0.9999999999999999",), (1, 0)),
        ]
        for texts, weights in rows:
            with self.subTest(texts=texts):
                self.assertEqual(stopping_weights(given(*texts), "here"), weights)

    def test_successors_above_one(self):
        with self.assertRaises(Refused):
            stopping_weights(given("0.9", "0.2"), "here")


if __name__ == "__main__":
    unittest.main()
