"""PAR(1): coefficients against fractions and a series with known ones, shocks by hand, and inflow that does not fall below 0."""
import random
import unittest
from decimal import Decimal as D
from fractions import Fraction as F
from math import sqrt

from inflow_support import needs_numpy, record_of, two_stations
from hydroplan.inflows import Horizon, InflowError, drawn_paths, periodic_autoregression, statistics_by_stage, statistics_of
from hydroplan.inflows.autoregressive import coefficient, deviation_of, fitted, keeps_deviation

# means 5 and 5, variances 5 and 2, covariance within a year 3
SMALL = record_of([2, 3], [4, 5], [6, 5], [8, 7])


def estimated(record):
    known = {step: statistics_of(record, step) for step in range(1, record.steps + 1)}
    return {step: [coefficient(known, name, step) for name in record.stations] for step in known}


def product_mean(one, other):
    """The mean product of two lists, less the product of their means."""
    count = len(one)
    return sum((a * b for a, b in zip(one, other)), F(0)) / count - sum(one, F(0)) * sum(other, F(0)) / count**2


def squared(record, step, station):
    """The square of b with its sign, by fractions: r^2 d(s)^2 / d(s-1)^2."""
    before, after = ([row[station] for row in rows] for rows in zip(*((one, other) for _, one, other in record.pairs_of(step))))
    own, earlier = ([row[station] for row in record.of_step(it)] for it in (step, step - 1 or record.steps))
    cross = product_mean(before, after)
    r2 = cross * abs(cross) / product_mean(before, before) / product_mean(after, after)
    return r2 * product_mean(own, own) / product_mean(earlier, earlier)


@needs_numpy
class Estimates(unittest.TestCase):
    def test_by_hand(self):
        found = statistics_of(SMALL, 2)
        self.assertEqual(found.mean["a"], 5)
        self.assertAlmostEqual(estimated(SMALL)[2][0], 3 / 5, 12)
        self.assertAlmostEqual(found.deviation["a"], sqrt(2), 12)
        self.assertAlmostEqual(found.lag["a"], 3 / sqrt(10), 12)
        # over the end of a year: (3, 4), (5, 6), (5, 8) have the covariance 4/3 and the variances 8/9 and 8/3
        self.assertAlmostEqual(statistics_of(SMALL, 1).lag["a"], (4 / 3) / sqrt(8 / 9 * 8 / 3), 12)

    def test_against_fractions(self):
        record = two_stations()
        for step, found in estimated(record).items():
            for station, it in enumerate(found):
                self.assertAlmostEqual(it * abs(it), float(squared(record, step, station)), 10)

    def test_what_does_not_vary_has_no_coefficient(self):
        self.assertEqual(estimated(record_of([1, 3], [1, 5], [1, 9])), {1: [0.0], 2: [0.0]})

    def test_a_series_with_known_coefficients(self):
        years, source = 3000, random.Random(5)
        means, deviations, r = (100, 200, 150), (20, 30, 25), (0.6, 0.3, -0.4)
        rows, before = [], source.gauss(0, 1)
        for _ in range(years):
            row = []
            for m, d, it in zip(means, deviations, r):
                before = it * before + sqrt(1 - it**2) * source.gauss(0, 1)
                row.append(F(round(1000 * (m + d * before)), 1000))
            rows.append(row)
        record = record_of(*rows)
        for step, found in estimated(record).items():
            m, d, it, own = means[step - 1], deviations[step - 1], r[step - 1], statistics_of(record, step)
            self.assertLess(abs(float(own.mean["a"]) - m), 4 * d / sqrt(years))
            self.assertLess(abs(own.deviation["a"] - d), 4 * d / sqrt(2 * years))
            self.assertLess(abs(own.lag["a"] - it), 4 * (1 - it**2) / sqrt(years))
            self.assertLess(abs(found[0] - it * d / deviations[step - 2]), 5 * d / deviations[step - 2] / sqrt(years))


class Shocks(unittest.TestCase):
    def test_by_hand(self):
        given = [F(-2), F(-1), F(1), F(2)]
        self.assertEqual(fitted(given, F(1), sqrt(2.5), -1), [-1, 0, 2, 3])  # none is below the least one
        self.assertEqual(fitted(given, F(3), 2 * sqrt(2.5), -1), [-1, 1, 5, 7])
        # at or above 0: of 0, 0, c + k, c + 2k with the mean 1.5 and the mean square 2.5 + 2.25, k is the root of 2
        found = fitted(given, F(3, 2), sqrt(2.5), 0)
        for it, wanted in zip(found, (0, 0, 3 - sqrt(0.5), 3 + sqrt(0.5))):
            self.assertAlmostEqual(float(it), wanted, 5)
        self.assertEqual(sum(found), 6)

    def test_mean_and_deviation_of_drawn_residuals(self):
        draw, kept = random.Random(2), 0
        for _ in range(100):
            residuals = [F(draw.randint(-100, 100)) for _ in range(20)]
            residuals = [it - sum(residuals) / 20 for it in residuals]
            mean = F(draw.randint(0, 40))
            deviation = deviation_of([float(it) for it in residuals])
            found = fitted(residuals, mean, deviation, -10)
            self.assertEqual((sum(found), min(found) >= -10), (20 * mean, True))
            ratio = deviation_of([float(it) for it in found]) / deviation
            if keeps_deviation(residuals, mean, deviation, -10):
                self.assertAlmostEqual(ratio, 1, 5)
                kept += 1
            else:
                self.assertLess(ratio, 1)
            order = sorted(range(20), key=lambda at: residuals[at])
            self.assertEqual([found[at] for at in order], sorted(found))
        self.assertTrue(20 < kept < 100)

    def test_the_deviation_is_smaller_where_there_is_no_way(self):
        # the mean is the least shock: all of them are; or the residuals do not vary
        for residuals, least in (([F(-1), F(1)], 3), ([F(0), F(0)], 0)):
            self.assertEqual(fitted(residuals, F(3), 1.0, least), [3, 3])
            self.assertFalse(keeps_deviation(residuals, F(3), 1.0, least))
        self.assertTrue(keeps_deviation([F(-1), F(1)], F(3), 1.0, 2))


@needs_numpy
class Autoregressions(unittest.TestCase):
    def test_by_hand(self):
        found = periodic_autoregression(SMALL, Horizon(1, start=2, resolution="0.1"))
        stage, = found.stages
        self.assertEqual((found.previous, stage.coefficients, stage.raised, stage.changed), ({"a": 5}, {"a": D("0.6")}, {"a": 0}, ()))
        # residuals -0.2, 0.6, -0.6, 0.2 beside 5 - 0.6 times 5
        self.assertEqual([it.values["a"] for it in stage.shocks.realizations], [D("1.8"), D("2.6"), D("1.4"), D("2.2")])
        self.assertEqual([(it.weight, it.years) for it in stage.shocks.realizations], [(1, (year,)) for year in SMALL.years])
        self.assertEqual((stage.lower, stage.upper), ({"a": D("4.4")}, {"a": D("5.6")}))
        self.assertEqual((found.about.method, found.about.notes), ("PAR(1)", ()))

    def test_shocks_are_joint(self):
        # at 10 times the inflow and far from 0, b's shocks are 10 times those of a in each year
        years = ((2, 3), (4, 5), (6, 5), (8, 7))
        record = record_of(*([(100 + it, 1000 + 10 * it) for it in year] for year in years), stations="ab")
        for stage in periodic_autoregression(record, Horizon(2, start=2, resolution="0.01")).stages:
            for it in stage.shocks.realizations:
                self.assertLess(abs(it.values["b"] - 10 * it.values["a"]), D("0.1"))
            self.assertEqual(len(stage.shocks.realizations), 5 - stage.shocks.stage)

    def test_raised_shocks_by_hand(self):
        # means 4 and 8, variances 24 and 16, covariance -12, so b is -1/2; the inflow before is 12
        record = record_of([10, 0], [0, 10], [0, 10], [0, 10], [10, 10])
        found = periodic_autoregression(record, Horizon(1, start=2, resolution="0.5"), previous={"a": 12})
        stage, = found.stages
        self.assertAlmostEqual(stage.estimates["a"], -1 / 2, 12)
        self.assertEqual((stage.coefficients["a"], stage.changed), (D("-0.5"), ()))
        # the mean shock is 10, the least one 6, the residuals -5, 0, 0, 0, 5 have the variance 10. Above 6 are 0, c, c, c, c + 5k with
        # the mean 4 and the mean square 26: c is 5 less the root of 2.5 and 5k is 20 - 4c, so the shocks are 6, 9.42 and 15.74
        self.assertEqual([it.values["a"] for it in stage.shocks.realizations], [6, D("9.5"), D("9.5"), D("9.5"), D("15.5")])
        self.assertEqual((stage.lower["a"], stage.upper["a"]), (0, D("9.5")))
        self.assertEqual(found.about.notes, (
            "shocks raised, so that inflow stays at or above 0: 1 of 5; most, 1 of 5, for a in stage 1, step 2",))

    def test_a_coefficient_that_is_drawn_towards_0(self):
        # means 5 and 5, covariance 5.5, variances 5 and 6.5, the inflow before 0: shocks are at or above 0. From 1.1 to 0.6 the first
        # shock, 1 - 2b beside its mean, is below 0. At 0.3 the mean is 3.5, and k up to 2.575 gives 0, 2.78, 3.81, 7.41 with a mean
        # square of 19.3, of which 6.05 + 3.5^2 are wanted; at 0.4 k up to 2.804 gives 0, 2.50, 3.07, 6.43, below 5.7 + 3^2
        found = periodic_autoregression(
            record_of([2, 1], [4, 5], [6, 6], [8, 8]), Horizon(1, start=2), previous={"a": 0}, coefficient_step="0.1", most_raised=0)
        stage, = found.stages
        self.assertAlmostEqual(stage.estimates["a"], 1.1, 12)
        self.assertEqual((stage.coefficients["a"], stage.changed, stage.raised["a"]), (D("0.3"), ("a",), 0))
        self.assertEqual(sum(it.values["a"] for it in stage.shocks.realizations), 14)
        self.assertEqual(min(it.values["a"] for it in stage.shocks.realizations), 0)
        self.assertAlmostEqual(statistics_by_stage(found)[0].deviation["a"], sqrt(6.05), 1)
        self.assertEqual(found.about.notes, (
            "coefficient drawn towards 0, so that inflow stays at or above 0: a, step 2: 0.3 in place of 1.100",))

    def test_no_path_falls_below_0(self):
        record = two_stations()
        for start in (1, 8):
            found = periodic_autoregression(record, Horizon(36, start=start))
            self.assertTrue(any(it.raised["aure"] for it in found.stages) and any(it.changed for it in found.stages))
            for name in record.stations:
                self.stays_at_or_above_0(found, name)

    def test_drawn_records(self):
        draw = random.Random(9)
        draws = (
            lambda before: draw.choice((0, 0, 0, draw.randint(1, 50))), lambda before: draw.randint(0, 9),
            lambda before: F(round(1000 * draw.lognormvariate(0, 1.5)), 1000), lambda before: max(0, 60 - before + draw.randint(-5, 5)),
        )
        for _ in range(40):
            steps, one, years, before = draw.randint(1, 5), draw.choice(draws), [], F(30)
            for _ in range(draw.randint(3, 12)):
                row = []
                for _ in range(steps):
                    before = one(before)
                    row.append(before)
                years.append(row)
            record = record_of(*years)
            found = periodic_autoregression(record, Horizon(2 * steps + 1, start=steps), most_raised=draw.choice(("0.2", 1)))
            self.stays_at_or_above_0(found, "a")
            for stage, it in zip(found.stages, statistics_by_stage(found)):
                self.assertLessEqual(abs(it.mean["a"] - record.mean(it.step, 0)), F(1, 20 * len(stage.shocks.realizations)))

    def stays_at_or_above_0(self, found, name):
        """The least and the greatest inflow of any path, stage by stage, are between the bounds, and these at or above 0."""
        low = high = F(found.previous[name])
        for it in found.stages:
            ends = [F(it.coefficients[name]) * end for end in (low, high)]
            shocks = [F(own.values[name]) for own in it.shocks.realizations]
            low, high = min(ends) + min(shocks), max(ends) + max(shocks)
            self.assertTrue(0 <= it.lower[name] <= low <= high <= it.upper[name])

    def test_few_shocks_are_raised(self):
        for most in ("0.1", 0):
            for it in periodic_autoregression(two_stations(), Horizon(24), most_raised=most).stages:
                raised = [count for name, count in it.raised.items() if it.coefficients[name]]
                self.assertTrue(all(count <= F(most) * len(it.shocks.realizations) for count in raised))

    def test_means_are_the_records(self):
        record = two_stations()
        for resolution in ("0.1", 2):
            found = periodic_autoregression(record, Horizon(36, start=5, resolution=resolution))
            for stage, it in zip(found.stages, statistics_by_stage(found)):
                for at, name in enumerate(record.stations):
                    count = len(stage.shocks.realizations)
                    self.assertLessEqual(abs(it.mean[name] - record.mean(it.step, at)), F(resolution) / (2 * count))

    def test_a_known_start_fades(self):
        found = periodic_autoregression(SMALL, Horizon(2, start=2, resolution="0.01"), previous={"a": 10})
        self.assertEqual(statistics_by_stage(found)[0].mean["a"], 5 + F("0.6") * 5)
        self.assertEqual(found.previous["a"], 10)

    def test_deviations_and_correlations(self):
        record = two_stations()
        found = periodic_autoregression(record, Horizon(36, resolution="0.01"))
        for stage, it in list(zip(found.stages, statistics_by_stage(found)))[24:]:
            known = statistics_of(record, it.step)
            for name in record.stations:
                self.assertLess(abs(it.deviation[name] / known.deviation[name] - 1), 0.002)
                if name not in stage.changed:
                    self.assertLess(abs(it.lag[name] - known.lag[name]), 0.02)

    def test_drawn_paths_have_the_exact_distribution(self):
        found, count = periodic_autoregression(two_stations(), Horizon(24)), 2000
        paths = drawn_paths(found, count, seed=1)
        self.assertGreaterEqual(min(value for path in paths for it in path for value in it.values()), -1e-9)
        for at, it in enumerate(statistics_by_stage(found)):
            for name, deviation in it.deviation.items():
                own = [path[at][name] for path in paths]
                mean = sum(own) / count
                self.assertLess(abs(mean - float(it.mean[name])), 4.5 * deviation / sqrt(count))
                self.assertLess(abs(sqrt(sum((v - mean) ** 2 for v in own) / count) / deviation - 1), 0.15)
                if at:
                    before, r = [path[at - 1][name] for path in paths], it.lag[name]
                    found_r = _correlation(before, own)
                    self.assertLess(abs(found_r - r), 0.1)

    def test_every_path_has_the_exact_distribution(self):
        record = record_of([(2, 7), (3, 1)], [(4, 5), (5, 2)], [(6, 1), (5, 9)], [(8, 2), (7, 4)], stations="ab")
        found = periodic_autoregression(record, Horizon(3, start=2), previous={"a": 4, "b": 6})
        paths = [[{name: F(value) for name, value in found.previous.items()}]]
        for it in found.stages:
            b = {name: F(value) for name, value in it.coefficients.items()}
            shocks = [own.values for own in it.shocks.realizations]
            paths = [[*path, {name: b[name] * path[-1][name] + F(w[name]) for name in b}] for path in paths for w in shocks]
        self.assertEqual(len(paths), 4 * 3 * 4)
        for at, it in enumerate(statistics_by_stage(found), 1):
            columns = {name: [path[at][name] for path in paths] for name in it.mean}
            for name, own in columns.items():
                before = [path[at - 1][name] for path in paths]
                self.assertEqual(it.mean[name], sum(own) / len(own))
                self.assertAlmostEqual(it.deviation[name], sqrt(product_mean(own, own)), 9)
                if at > 1:
                    self.assertAlmostEqual(it.lag[name], _correlation(before, own), 9)
            self.assertAlmostEqual(it.cross["a", "b"], _correlation(*columns.values()), 9)

    def test_refusals(self):
        for record, chosen, said in (
            (record_of([1, 2], [2, 3]), {}, "at least 3 years"), (record_of([1], [-1], [2]), {}, "at or above 0"),
            (SMALL, {"previous": {"b": 1}}, "a previous inflow is expected for each of a, and not for b"),
            (SMALL, {"previous": {"a": -1}}, "a previous inflow is at or above 0"),
            (SMALL, {"coefficient_step": 0}, "the step of coefficients is a decimal above 0"),
        ):
            with self.assertRaisesRegex(InflowError, said):
                periodic_autoregression(record, Horizon(2), **chosen)


def _correlation(one, other):
    means = [sum(it) / len(it) for it in (one, other)]
    cross = sum((a - means[0]) * (b - means[1]) for a, b in zip(one, other))
    return cross / sqrt(sum((a - means[0]) ** 2 for a in one) * sum((b - means[1]) ** 2 for b in other))


if __name__ == "__main__":
    unittest.main()
