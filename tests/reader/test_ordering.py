"""The order in which a node's realizations are solved: small lists by hand, and what training makes of it, worked out too."""
import unittest

from command_rows import PROGRAM
from second_reading.node import UNIT
from second_reading.ordering import nearest_order, solving_order
from second_reading.problem import problem_of
from second_reading.training import Entry, Training


def training_of(name):
    """Training by seed 7 over a problem of tests/program."""
    return Training(problem_of((PROGRAM / "data" / f"{name}.json").read_bytes()), 7)


class Orders(unittest.TestCase):
    def test_nearest_to_the_one_before(self):
        """From 0 to 2; from there 5 is 3 away and -3 is 5 away, though -3 is nearer to 0."""
        self.assertEqual(nearest_order([(0,), (5,), (-3,), (2,)]), [0, 3, 1, 2])

    def test_ties(self):
        """7 and 3 are as near to 5: the one that comes first in the file is taken, and 9 is nearer to 7 than 3 is."""
        self.assertEqual(nearest_order([(5,), (7,), (3,), (9,)]), [0, 1, 3, 2])
        self.assertEqual(nearest_order([(5,), (3,), (7,), (9,)]), [0, 1, 2, 3])

    def test_the_same_values(self):
        """A realization with the values of the one before is nearest to it."""
        self.assertEqual(nearest_order([(4,), (6,), (4,), (6,), (4,)]), [0, 2, 4, 1, 3])

    def test_differences_are_added(self):
        """(3, 3) is 6 away and (0, 5) is 5 away, though the greatest difference of (3, 3) is 3, and its length below 5."""
        self.assertEqual(nearest_order([(0, 0), (3, 3), (0, 5)]), [0, 2, 1])

    def test_without_random_values(self):
        self.assertEqual(nearest_order([(), (), ()]), [0, 1, 2])
        self.assertEqual(nearest_order([(8,)]), [0])

    def test_five_as_they_are_listed(self):
        """Five keep the order of the file, six do not."""
        self.assertEqual(solving_order([(0,), (9,), (1,), (8,), (2,)]), [0, 1, 2, 3, 4])
        self.assertEqual(solving_order([(0,), (9,), (1,), (8,), (2,), (7,)]), [0, 2, 4, 5, 3, 1])


class Solves(unittest.TestCase):
    """Without water in store, w less x meets 9 units with 4 at 5 each, 3 at 9 and the rest at 20.

    So a unit of water is worth 20 up to w - x = 2, 9 up to 5, 5 up to 9 and nothing beyond. At 2 and 9 both values are right, and a solve
    that goes on from the one before changes no more than it has to: it has the value that is nearer to the last one.
    """

    def test_order(self):
        """The distances along the order are 4, 6, 3, 2, 8 and 5. From (3, 1) both (8, 2) and (6, 4) are 6 away."""
        values = [it.values for it in training_of("solving-order").problem.places[0].realizations]
        self.assertEqual(values, [(0, 0), (8, 2), (11, 2), (12, 1), (6, 4), (9, 6), (3, 1)])
        self.assertEqual(solving_order(values), [0, 6, 1, 2, 3, 5, 4])

    def test_certificates(self):
        """One chain goes through w - x = 0, 2, 6, worth 20, 20 and 5, the other through 9, 11, 3, 2, worth 5, 0, 9 and 9.

        Both begin at the solve of the first realization with one unit in store, which is worth 20. In the order of the file 2 would come
        behind 11, 2 and 3, and be worth 9 in the last realization too.
        """
        training, entry = training_of("solving-order"), Entry(1)
        made = training.certificates(0, [0], entry)
        self.assertEqual([it.rows for it in made], [(-UNIT * worth, UNIT * worth) for worth in (20, 5, 5, 0, 9, 9, 20)])
        self.assertEqual(entry.unanswered, 0)

    def test_the_first_without_decisions(self):
        """Of 9 + x at most 3 + 4 + 3 + 2 are met, so neither (6, 4) nor (9, 6) has decisions: the latter is solved first."""
        training = training_of("solving-order-no-stage")
        training.train(1)
        self.assertEqual((training.stopped.iteration, training.stopped.cause.values), (1, (9, 6)))
