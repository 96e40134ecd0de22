"""Variables, expressions and constraints by operators; and what is said of those that are none."""
import unittest
from decimal import Decimal
from fractions import Fraction as F

from model_support import HERE, needs_numpy
from hydroplan.errors import ModelError, NotLinear
from hydroplan.exact import at_least, at_most, exact, exact_weight, text_of
from hydroplan.model import Model, between, dot, total

FILE = __file__


class Numbers(unittest.TestCase):
    def test_values(self):
        for given, value in (
            (3, F(3)), (0.1, F(1, 10)), (0.1 + 0.2, F("0.30000000000000004")), (Decimal("2.50"), F(5, 2)), (F(1, 3), F(1, 3)),
            ("1/3", F(1, 3)), (" -2.5e3 ", F(-2500)), (".5", F(1, 2)), (1e20, F(10**20)),
        ):
            self.assertEqual(exact(given), value)

    def test_what_is_no_number(self):
        for given in ("", "x", "1/0", "1_0", "nan", True, None, float("inf"), float("nan"), Decimal("NaN"), [1]):
            with self.assertRaisesRegex(ModelError, "the bound has to be a number, and is "):
                exact(given, "the bound")
        with self.assertRaisesRegex(ModelError, "more than 300 digits"):
            exact("1e301")

    def test_weights(self):
        for given, value in (
            (1 / 6, F(1, 6)), (0.1, F(1, 10)), (0.3333, F(3333, 10000)), (0.123456789, F("0.123456789")), ("2/3", F(2, 3)), (5, F(5)),
        ):
            self.assertEqual(exact_weight(given, "the weight"), value)
        with self.assertRaisesRegex(ModelError, "the weight is below 0: -1"):
            exact_weight(-1, "the weight")

    def test_texts(self):
        self.assertEqual([text_of(it) for it in (F(5), F(-1, 8), F(1, 10), F(0))], ["5", "-0.125", "0.1", "0"])
        self.assertEqual(text_of(F(1, 3)), "0." + "3" * 60)

    def test_directed_floats(self):
        for value in (F(1, 3), F(-1, 3), F(10**20 + 1), F(1, 2)):
            self.assertLessEqual(F(at_most(value)), value)
            self.assertGreaterEqual(F(at_least(value)), value)
        self.assertEqual((at_most(F(1, 2)), at_least(F(1, 2))), (0.5, 0.5))
        self.assertLess(at_most(F(1, 3)), at_least(F(1, 3)))

    @needs_numpy
    def test_numbers_of_numpy(self):
        import numpy

        x = Model().stage("s").variable("x", 0, 1)
        for two in (numpy.float64(2), numpy.int32(2)):
            self.assertEqual((two * x).terms[x], 2)
        self.assertEqual([exact(it) for it in (numpy.float64(0.1), numpy.float32(0.1), numpy.int64(3))], [F(1, 10), F(1, 10), F(3)])


class Expressions(unittest.TestCase):
    def setUp(self):
        self.stage = Model().stage("s")
        self.x, self.y = self.stage.variable("x", 0, 1), self.stage.variable("y", 0, 1)

    def test_sums_are_exact(self):
        x, y = self.x, self.y
        found = 0.8 * (2.5 * x) + sum([x, y]) - "0.1" * y / 2 - 3 + Decimal(1)
        self.assertEqual((found.terms, found.constant), ({x: F(3), y: F(19, 20)}, F(-2)))
        self.assertEqual((-(x - 1)).constant, 1)
        self.assertEqual((5 - x).terms, {x: F(-1)})
        self.assertEqual((+x).terms, {x: F(1)})
        self.assertEqual(repr(2 * x + 1), "2 x + 1")
        found = total([x, 2 * y + 1, x, "0.5"])
        self.assertEqual((found.terms, found.constant, total([]).terms), ({x: 2, y: 2}, F(3, 2), {}))
        found = dot((2, "0.5"), [x + 1, 4 * y])
        self.assertEqual((found.terms, found.constant, dot([], []).terms), ({x: 2, y: 2}, 2, {}))
        with self.assertRaisesRegex(ModelError, r"\Adot has 1 numbers for 2 terms \(.*expressions.py:\d+\)\Z"):
            dot([1], [x, y])
        with self.assertRaisesRegex(ModelError, r"\Aa number of dot \(.*expressions.py:\d+\) has to be a number, and is 'x'\Z"):
            dot(["x"], [x])

    def test_several_constraints(self):
        x, y = self.x, self.y
        found = x.stage.add_all(it <= 1 for it in (x, y))
        self.assertEqual([it.relation.upper for it in found], [1, 1])
        self.assertEqual(x.stage.constraints[-2:], found)
        with self.assertRaisesRegex(ModelError, r"a constraint is 3, and no comparison of expressions"):
            x.stage.add_all([x <= 2, 3])

    def test_comparisons_are_constraints(self):
        x, y = self.x, self.y
        for relation, sides in (
            (x + 1 == y + 3, ("EqualTo", 2, 2)), (2 * x <= 3, ("LessThan", None, 3)), (3 <= x, ("GreaterThan", 3, None)),
            (x - 1 >= y, ("GreaterThan", 1, None)), (between(1, x + y + 1, 2), ("Interval", 0, 1)),
        ):
            self.assertEqual((relation.set_type, relation.lower, relation.upper), sides)
        self.assertEqual((x + 1 == y + 3).terms.terms, {x: 1, y: -1})


class Refusals(unittest.TestCase):
    def setUp(self):
        self.model = Model()
        self.stage = self.model.stage("s")
        self.x, self.y = self.stage.variable("x", 0, 1), self.stage.variable("y", 0, 1)
        self.line = self.x.place.line

    def refused(self, made, *said, kind=ModelError):
        with self.assertRaises(kind) as caught:
            made()
        for part in said:
            self.assertIn(part, str(caught.exception))
        self.assertIn(FILE, str(caught.exception))

    def test_a_product_names_both_variables_and_their_lines(self):
        self.refused(
            lambda: (2 * self.x) * (self.y + 1), f'the product of "x" ({FILE}:{self.line}) and "y" ({FILE}:{self.line}) is not linear',
            kind=NotLinear,
        )
        wet = self.stage.random("wet")
        self.refused(lambda: wet * self.x, 'the product of "wet"', "a random factor is stated by nodes", kind=NotLinear)
        self.refused(lambda: self.x * self.x, 'the product of "x"', kind=NotLinear)

    def test_other_expressions(self):
        self.refused(lambda: self.x / self.y, "the quotient of", kind=NotLinear)
        self.refused(lambda: 1 / self.x, 'a number divided by "x"', kind=NotLinear)
        self.refused(lambda: self.x ** 2, 'a power of "x"', kind=NotLinear)
        self.refused(lambda: self.x / 0, '"x"', "is divided by 0")
        self.refused(lambda: self.x + "much", "'much' is neither a number nor an expression")
        self.refused(lambda: self.stage.state("v", 0, 1) + 1, 'the state "v" has two variables: use its .incoming or its .outgoing')

    def test_comparisons(self):
        self.refused(lambda: 0 <= self.x <= 1, "write between(10, x, 20)")
        self.refused(lambda: self.x < 1, "use <= or >=")
        self.refused(lambda: self.x > 1, "use <= or >=")
        self.refused(lambda: self.x != 1, "!= is no constraint")
        self.refused(lambda: bool(self.x + 1), "neither true nor false")
        self.refused(lambda: between(2, self.x, 1), "the lower side 2 is above the upper side 1")
        self.refused(lambda: between("low", self.x, 1), "the lower side (", "has to be a number, and is 'low'")

    def test_constraints(self):
        self.refused(lambda: self.stage.add(self.x + 1, name="row"), 'constraint "row" is 1 x + 1, and no comparison')
        self.refused(lambda: self.stage.add(self.x - self.x <= 1), "a constraint has no variables: they cancel out")
        self.stage.add(self.x <= 1, name="row")
        self.refused(lambda: self.stage.add(self.y <= 1, name="row"), 'constraint "row"', "has the name of one that is there already")
        other = self.model.stage("other")
        self.refused(
            lambda: other.add(self.x <= 1, name="row"), 'constraint "row" of stage "other"', f'the variable "x" ({FILE}:{self.line}) of stage "s"',
        )
        self.refused(lambda: other.minimize(self.x), 'the objective of stage "other"')

    def test_variables(self):
        self.refused(lambda: self.stage.variable("x", 0, 1), 'the variable "x" of stage "s"', f'is there already: "x" ({FILE}:{self.line})')
        self.refused(lambda: self.stage.variable("z", 2, 1), 'the lower bound 2 of "z" is above its upper bound 1')
        self.refused(lambda: self.stage.variable("z", "low", 1), 'the lower bound of "z"', "has to be a number, and is 'low'")
        self.stage.state("v", 0, 1)
        self.refused(lambda: self.stage.state("v", 0, 1), 'the state "v" of stage "s" is there already')
        self.refused(lambda: self.stage.random("v_in"), 'the variable "v_in" of stage "s"')

    def test_the_line_is_that_of_the_users_code(self):
        self.assertIn(HERE.replace("model_support", "test_model_expressions"), str(self.x.place))


if __name__ == "__main__":
    unittest.main()
