"""Years as they are, groups of years and Markov classes, worked by hand on small records; means, weights, seeds."""
import random
import unittest
from decimal import Decimal as D
from fractions import Fraction as F
from itertools import product
from math import floor

from inflow_support import needs_numpy, needs_scipy, record_of, two_stations
from hydroplan.inflows import (
    Horizon, InflowError, class_probabilities, grouped_years, independent_years, markov_classes, statistics_by_stage,
)
from hydroplan.inflows.realizations import rounded

HALF = F(1, 2)


def values_of(own, station="a"):
    """Weight and value of each realization."""
    return [(it.weight, it.values[station]) for it in own.realizations]


def mean_of(own, station):
    return sum(it.weight * F(it.values[station]) for it in own.realizations) / own.weight


class Rounding(unittest.TestCase):
    def test_largest_remainders_by_hand(self):
        self.assertEqual(rounded([F(1, 3), F(1, 3), F(1, 3)], [1, 1, 1]), [1, 0, 0])
        self.assertEqual(rounded([F("1.2"), F("2.7"), F("-0.4")], [1, 1, 1]), [1, 3, -1])  # 3.5 becomes 3, as 3 and 4 are as near
        self.assertEqual(rounded([F("1.2"), F("2.7"), F("-0.3")], [1, 1, 1]), [1, 3, 0])

    def test_weights_by_hand(self):
        # 3/4 + 3/4 are wanted beside the whole parts: with weights 3 and 1 the sums 0, 1, 3, 4 can be had, and 1 is the nearest
        self.assertEqual(rounded([F(1, 4), F(3, 4)], [3, 1]), [0, 1])
        self.assertEqual(rounded([HALF, HALF, HALF], [2, 2, 1]), [1, 0, 0])

    def test_no_rounding_is_nearer_and_none_as_near_changes_less(self):
        draw = random.Random(3)
        for _ in range(200):
            count = draw.randint(1, 6)
            values, weights = [F(draw.randint(-40, 40), 8) for _ in range(count)], [draw.randint(1, 5) for _ in range(count)]
            wanted = sum(w * v for w, v in zip(weights, values))

            def measure(found):
                off = abs(sum(w * it for w, it in zip(weights, found)) - wanted)
                return off, sum(w * (it - v) ** 2 for w, it, v in zip(weights, found, values))

            ways = [[floor(v) + up for v, up in zip(values, ups)] for ups in product((0, 1), repeat=count)
                    if all(v != floor(v) or not up for v, up in zip(values, ups))]
            found = rounded(values, weights)
            self.assertIn(found, ways)
            self.assertEqual(measure(found), min(map(measure, ways)))
            self.assertLessEqual(measure(found)[0], F(max(weights), 2))


class Years(unittest.TestCase):
    def test_by_hand(self):
        little = F("1.04")
        record = record_of([(little, 7), (20, 1)], [(little, 8), (30, 2)], [(little, 9), (40, 3)], stations="ab")
        found = independent_years(record, Horizon(3, start=2, resolution="0.1"))
        self.assertEqual([(it.stage, it.step, it.weight) for it in found.stages], [(1, 2, 3), (2, 1, 3), (3, 2, 3)])
        self.assertEqual([it.values for it in found.stages[0].realizations], [{"a": 20, "b": 1}, {"a": 30, "b": 2}, {"a": 40, "b": 3}])
        # the total of 3.12 becomes 3.1, and the first of equal remainders goes up
        self.assertEqual(values_of(found.stages[1]), [(1, D("1.1")), (1, D("1.0")), (1, D("1.0"))])
        self.assertEqual([it.years for it in found.stages[0].realizations], [(2001,), (2002,), (2003,)])
        self.assertEqual((found.about.unit, found.about.resolution), ("hm3", D("0.1")))
        self.assertEqual(str(found.stages[1].realizations[1].values["a"]), "1.0")

    def test_the_record_at_its_own_resolution(self):
        record = two_stations()
        found = independent_years(record, Horizon(24, start=4, resolution="0.01"))
        for own in found.stages:
            for at, it in enumerate(own.realizations):
                self.assertEqual(tuple(it.values.values()), record.values[at][own.step - 1])

    def test_means_at_a_coarse_resolution(self):
        record = two_stations()
        for own in independent_years(record, Horizon(12, resolution=5)).stages:
            for at, name in enumerate(record.stations):
                self.assertLessEqual(abs(mean_of(own, name) - record.mean(own.step, at)), F(5, 20))

    def test_horizons(self):
        record = record_of([1, 2], [3, 4])
        for horizon, said in (
            (Horizon(0), "at least one stage, and not 0"), (Horizon(1, start=3), "the start is one of the steps 1 to 2, and not 3"),
            (Horizon(1, resolution="1/3"), "the resolution is a decimal above 0, and not 1/3"),
            (Horizon(1, resolution=0), "the resolution is a decimal above 0"),
            (Horizon(1, resolution="1e-13"), r"more than 2\^40: take a coarser one"),
        ):
            with self.assertRaisesRegex(InflowError, said):
                independent_years(record, horizon)


@needs_numpy
@needs_scipy
class Groups(unittest.TestCase):
    def test_by_hand(self):
        record = record_of([(30, 1)], [(1, 5)], [(10, 3)], [(2, 5)], [(12, 3)], [(31, 1)], [(11, 3)], stations="ab")
        found = grouped_years(record, Horizon(2, resolution="0.5"), 3, seed=4)
        self.assertEqual(values_of(found.stages[0]), [(2, D("1.5")), (3, D("11.0")), (2, D("30.5"))])
        self.assertEqual(values_of(found.stages[1], "b"), [(2, 5), (3, 3), (2, 1)])
        self.assertEqual([it.years for it in found.stages[0].realizations], [(2002, 2004), (2003, 2005, 2007), (2001, 2006)])
        self.assertEqual(mean_of(found.stages[0], "a"), record.mean(1, 0))

    def test_standardized_stations_count_alike(self):
        # squared distances within groups by b are 40,000, by the least of a 10,000 + 64: but 6 and 7.5 when standardized
        record = record_of(*([(a, b)] for b in (1, 9) for a in (900, 1000, 1100)), stations="ab")
        found = grouped_years(record, Horizon(1), 2, seed=1)
        self.assertEqual(values_of(found.stages[0], "b"), [(3, 1), (3, 9)])

    def test_means_and_weights(self):
        record = two_stations()
        for groups, resolution in ((1, "0.1"), (4, "0.1"), (4, 5), (10, "0.01")):
            found = grouped_years(record, Horizon(12, resolution=resolution), groups, seed=7)
            for own in found.stages:
                self.assertEqual((own.weight, len(own.realizations)), (10, groups))
                self.assertEqual(sorted(year for it in own.realizations for year in it.years), list(record.years))
                self.assertEqual([it.weight for it in own.realizations], [len(it.years) for it in own.realizations])
                most = F(max(it.weight for it in own.realizations), 20) * F(resolution)
                for at, name in enumerate(record.stations):
                    self.assertLessEqual(abs(mean_of(own, name) - record.mean(own.step, at)), most)

    def test_as_many_groups_as_years_are_the_years(self):
        record = two_stations()
        horizon = Horizon(12, resolution="0.01")
        for own, years in zip(grouped_years(record, horizon, 10, seed=1).stages, independent_years(record, horizon).stages):
            self.assertEqual(sorted(own.realizations, key=lambda it: it.years), list(years.realizations))

    def test_fewer_different_years_than_groups(self):
        found = grouped_years(record_of([0, 1], [0, 5], [0, 9], [0, 1]), Horizon(2), 3, seed=1)
        self.assertEqual([values_of(it) for it in found.stages], [[(4, 0)], [(2, 1), (1, 5), (1, 9)]])
        self.assertEqual(found.about.notes, ("step 1 has no more than 1 groups: as many years differ",))

    def test_the_seed_decides(self):
        record, horizon = two_stations(), Horizon(24)
        found = [grouped_years(record, horizon, 4, seed=seed) for seed in (1, 1, 2)]
        self.assertEqual(found[0], found[1])
        self.assertNotEqual(found[0].stages, found[2].stages)
        other = grouped_years(record, Horizon(3, start=7), 4, seed=1)
        self.assertEqual([it.realizations for it in other.stages], [it.realizations for it in found[0].stages[6:9]])

    def test_refusals(self):
        record = record_of([1], [1], [2])
        for groups, seed, said in ((0, 1, "the number of groups is 1 to 3, .* not 0"), (4, 1, "not 4"), (1, -1, "a seed is")):
            with self.assertRaisesRegex(InflowError, said):
                grouped_years(record, Horizon(1), groups, seed=seed)


class Classes(unittest.TestCase):
    # classes of step 1: 0 1 0 1; of step 2: 0 0 1 1
    RECORD = record_of([1, 20], [3, 10], [2, 40], [4, 30])

    def test_transitions_by_hand(self):
        found = markov_classes(self.RECORD, Horizon(3), 2)
        self.assertEqual(found.initial, (2, 2))
        # within a year: 0 to 0, 1 to 0, 0 to 1, 1 to 1; over its end: 0 to 1, 0 to 0, 1 to 1
        self.assertEqual(found.transitions, (((1, 1), (1, 1)), ((1, 1), (0, 1))))
        self.assertEqual([[values_of(own) for own in layer] for layer in found.stages[:2]], [
            [[(1, 1), (1, 2)], [(1, 3), (1, 4)]], [[(1, 20), (1, 10)], [(1, 40), (1, 30)]]])
        self.assertEqual(found.about.notes, ("never made from step 2 to 1, and weight 0: class 1 to 0",))

    def test_distribution_by_hand(self):
        found = markov_classes(self.RECORD, Horizon(3), 2)
        self.assertEqual(class_probabilities(found), [[HALF, HALF], [HALF, HALF], [F(1, 4), F(3, 4)]])
        stages = statistics_by_stage(found)
        self.assertEqual([it.mean["a"] for it in stages], [F(5, 2), 25, 3])
        # stage 3: squares 1/4 (1 + 4)/2 + 3/4 (9 + 16)/2 = 10, less 9; with stage 2: 15 (1.5 + 3.5)/4 + 35/2 3.5 = 80, less 25 times 3
        self.assertAlmostEqual(stages[2].deviation["a"], 1, 12)
        self.assertAlmostEqual(stages[2].lag["a"], 5 / 125 ** 0.5, 12)
        self.assertEqual((stages[0].lag["a"], stages[1].lag["a"]), (None, 0))

    def test_means_of_the_first_year_are_the_records(self):
        record = two_stations()
        found = markov_classes(record, Horizon(12, resolution="0.01"), 3, by="bygd")
        self.assertEqual([sum(map(sum, matrix)) for matrix in found.transitions], [10] * 11)
        for at, it in enumerate(statistics_by_stage(found), 1):
            self.assertEqual(list(it.mean.values()), [record.mean(at, station) for station in (0, 1)])
        self.assertEqual(sum(map(sum, markov_classes(record, Horizon(2, start=12), 3).transitions[0])), 9)

    def test_classes_of_a_station_and_equal_years(self):
        record = record_of([(1, 9)], [(1, 8)], [(1, 7)], [(0, 6)], [(5, 6)], stations="ab")
        found = [markov_classes(record, Horizon(1), 2, by=by).stages[0] for by in ("a", "b", None)]
        self.assertEqual([[it.years[0] for it in layer[0].realizations] for layer in found], [
            [2001, 2002, 2004], [2003, 2004, 2005], [2002, 2003, 2004]])
        self.assertEqual([own.number for own in found[0]], [0, 1])

    def test_the_class_before_the_first_stage(self):
        self.assertEqual(markov_classes(self.RECORD, Horizon(1), 2, before=1).initial, (0, 1))
        self.assertEqual(markov_classes(self.RECORD, Horizon(1), 2, before=0).initial, (1, 1))

    def test_a_class_that_is_never_left(self):
        found = markov_classes(self.RECORD, Horizon(2, start=2), 4)
        self.assertEqual(found.transitions[0][2], (1, 1, 1, 1))  # the last year is alone in class 2 of step 2
        self.assertIn("never left from step 2 to 1, and led on by the classes' years: class 2", found.about.notes)

    def test_a_class_that_is_never_come_to(self):
        found = markov_classes(record_of([9, 3], [1, 1], [2, 2]), Horizon(2, start=2), 2)
        self.assertEqual(found.transitions[0], ((1, 0), (1, 0)))
        self.assertEqual(found.about.notes, (
            "never made from step 2 to 1, and weight 0: class 0 to 1, 1 to 1", "never come to from step 2 to 1: class 1"))

    def test_refusals(self):
        for classes, chosen, said in (
            (0, {}, "the number of classes is 1 to 4"), (5, {}, "not 5"), (2, {"before": 2}, "the class before is 0 to 1, and not 2"),
            (2, {"by": "x"}, "no station"),
        ):
            with self.assertRaisesRegex(InflowError, said):
                markov_classes(self.RECORD, Horizon(2), classes, **chosen)


if __name__ == "__main__":
    unittest.main()
