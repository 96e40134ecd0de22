"""Reports as values, the series that are drawn of them, and the command `plot`. Expected values are worked out by hand."""
import importlib.util
import io
import sys
import tempfile
import time
import unittest
from fractions import Fraction as F
from pathlib import Path

from tool_support import EXAMPLES, S, cursor, run
from hydroplan.tools.back import BadReport
from hydroplan.tools.plot_command import main
from hydroplan.tools.reports import Cut, read_report
from hydroplan.tools.series import (
    SHARES, Active, converging, policy_cost, ranked, residuals, stages_of, storage, water_values_along, water_values_at,
)

HEAD = 'hydroplan 1\nscale 16777216\nstate 0 "v"\nnode 0 "a b"\nnode 1 "c"\n'

# the cuts of node 0 cross at v = 4: 0 and 20 - 5 v; those of node 1 at v = 6: 3 and 9 - v
CHECK = HEAD + f"""cut 0 0 0 0
cut 0 1 {20 * S} {-5 * S}
cut 1 0 {3 * S} 0
cut 1 1 {9 * S} {-S}
iteration 1 bound {5 * S // 2}
iteration 2 bound {3 * S}
total iterations 2 unsettled 4
bound {3 * S}
rest 7
"""


def trace(number, first, second, cost):
    """A scenario of two stages with these incoming states and this cost in each stage."""
    return f"""scenario {number}
stage 0 node 0 found
in "v" {int(first * S)}
random "w" -3
value "o" {S}
row 0 residual {number * S}
row 1 residual {-2 * S}
cost {cost * S}
stage 1 node 1 stuck
in "v" {int(second * S)}
value "o" 0
row 0 residual 0
cost {cost * S}
end {2 * cost * S}
"""


SIMULATION = HEAD + trace(0, F(2), F(5), 10) + trace(1, F(6), F(7), 20) + trace(2, F(3), F(13, 2), 60) + f"bound {3 * S}\n"


def report(text):
    return read_report(io.StringIO(text))


class Reading(unittest.TestCase):
    def test_a_report_of_check(self):
        found = report(CHECK)
        self.assertEqual((found.states, found.nodes), (["v"], ["a b", "c"]))
        self.assertEqual((found.cuts[1], found.unit), (Cut(0, 1, 20 * S, (-5 * S,)), S))
        self.assertEqual(found.iterations, [(1, F(5, 2)), (2, F(3))])
        self.assertEqual((found.unsettled, found.bound, found.rest), (4, 3, 7))

    def test_traces(self):
        found = report(SIMULATION)
        self.assertEqual([it.total for it in found.scenarios], [20, 40, 120])
        stage = found.scenarios[1].stages[0]
        self.assertEqual((stage.number, stage.node, stage.kind), (0, 0, "found"))
        self.assertEqual((stage.incoming, stage.residual), ({"v": 6 * S}, 2 * S))
        self.assertEqual(found.scenarios[0].stages[1].kind, "stuck")

    def test_texts_that_are_no_reports(self):
        rows = [
            ("hello\n", "begins with"), ("", "no nodes"), ("hydroplan 1\n", "no nodes"), (HEAD + "what 1\n", "line 6"),
            (HEAD + "cut 0 0 1\n", "not one slope per state"), (HEAD + "cost 5\n", "line 6"), (HEAD + 'scenario 0\nin "v" 1\n', "line 7"),
            (HEAD + "bound x\n", "line 6"),
        ]
        for text, part in rows:
            with self.subTest(text=text[-20:]):
                with self.assertRaises(BadReport) as caught:
                    report(text)
                self.assertIn(part, str(caught.exception))


    def test_numbers_in_the_users_units(self):
        head = 'hydroplan-user 1\ndigits 3\nstate 0 "v"\nnode 0 "n"\n'
        found = report(head + 'cut 0 0 -0.5 1.25\niteration 1 bound 7\nscenario 0\nstage 0 node 0 found\nin "v" 2.5\nrow 0 residual 0.001\nend 3\n')
        self.assertEqual((found.unit, found.cuts, found.iterations), (1000, [Cut(0, 0, -500, (1250,))], [(1, 7)]))
        stage = found.scenarios[0].stages[0]
        self.assertEqual((stage.incoming, stage.residual, found.scenarios[0].total), ({"v": 2500}, 1, 3))
        exact = report('hydroplan-user 1\nexact\nstate 0 "v"\nnode 0 "n"\ncut 0 0 -1/3 2/7\nbound 5/3\n')
        self.assertEqual((exact.cuts, exact.bound), ([Cut(0, 0, F(-1, 3), (F(2, 7),))], F(5, 3)))
        with self.assertRaises(BadReport):
            report(head + "bound 1.0001\n")


class Series(unittest.TestCase):
    def test_quantiles_by_nearest_rank(self):
        # shares 0, 1/10, 1/4, 1/2, 3/4, 9/10, 1
        self.assertEqual(ranked([40, 10, 30, 20]), [10, 10, 10, 20, 30, 40, 40])
        self.assertEqual(ranked([5, 4, 3, 2, F(1, 2)]), [F(1, 2), F(1, 2), 2, 3, 4, 5, 5])
        self.assertEqual(ranked([7]), [7] * 7)

    def test_active_cuts(self):
        cuts = report(CHECK).cuts[:2]
        for unit in (1, 10):
            self.assertEqual([Active.of(cuts, False, unit).at((at * unit,)) for at in (0, 3, 4, 5)], [(-5 * S,), (-5 * S,), (0,), (0,)])
            self.assertEqual([Active.of(cuts, True, unit).at((at * unit,)) for at in (3, 5)], [(0,), (-5 * S,)])

    def test_storage(self):
        (found,) = storage(report(SIMULATION))
        # incoming 2, 3, 6 and 5, 6.5, 7; shares 0, 1/10, 1/4, 1/2, 3/4, 9/10, 1 of three values
        self.assertEqual(found.quantiles, ((2, 2, 2, 3, 6, 6, 6), (5, 5, 5, F(13, 2), 7, 7, 7)))
        self.assertEqual((found.name, found.stages, len(SHARES)), ("v", (0, 1), 7))

    def test_residuals_are_the_greatest_of_a_step(self):
        (found,) = residuals(report(SIMULATION))
        # max of |number| and |-2| for scenarios 0, 1, 2; nothing is missed in stage 1
        self.assertEqual(found.quantiles, ((2,) * 7, (0,) * 7))

    def test_the_policy_s_cost(self):
        self.assertEqual(policy_cost(report(SIMULATION)).value, 60)
        self.assertIn("mean of 3", policy_cost(report(SIMULATION)).label)
        self.assertEqual(policy_cost(report(CHECK + f"upper {7 * S}\n")).value, 7)
        self.assertIsNone(policy_cost(report(CHECK)))

    def test_the_part_that_converges(self):
        # of a rise of 100 a twentieth is left from 95 on
        rising = [(at, F(bound)) for at, bound in enumerate((0, 50, 94, 95, 99, 99, 100), 1)]
        self.assertEqual(converging(rising), rising[3:])
        self.assertEqual(converging([(at, -bound) for at, bound in rising]), [(at, -bound) for at, bound in rising[3:]])
        for still in ([], [(1, F(3))], [(1, F(0)), (2, F(8)), (3, F(8))]):
            self.assertEqual(converging(still), [])

    def test_water_values_along_a_simulation(self):
        (found,) = water_values_along(report(CHECK), report(SIMULATION))
        # node 0 at 2, 3, 6: 5, 5, 0; node 1 at 5, 6.5, 7: 1, 0, 0
        self.assertEqual(found.quantiles, ((0, 0, 0, 5, 5, 5, 5), (0, 0, 0, 0, 1, 1, 1)))
        with self.assertRaises(ValueError):
            water_values_along(report(CHECK), report(SIMULATION.replace('node 1 "c"', 'node 1 "d"')))

    def test_water_values_at_a_state(self):
        points = water_values_at(report(CHECK), {"v": F(3)}, {"a b": 4})
        self.assertEqual([(it.stage, it.node, it.value) for it in points["v"]], [(4, "a b", 5), (1, "c", 1)])
        for state in ({}, {"v": F(1), "x": F(1)}):
            with self.assertRaises(ValueError):
                water_values_at(report(CHECK), state, {})

    def test_earnings_have_water_values_of_the_other_sign(self):
        user = 'hydroplan-user 1\nsense max\ndigits 6\nstate 0 "v"\nnode 0 "n"\ncut 0 0 20 0\ncut 0 1 2 1.5\nbound 3\n'
        points = water_values_at(report(user), {"v": F(4)}, {})
        # earnings are at most 20 and at most 2 + 1.5 v, which is 8 at v = 4
        self.assertEqual(points["v"][0].value, F(3, 2))

    def test_stages_are_longest_paths(self):
        text = (EXAMPLES / "two_reservoirs.json").read_text(encoding="utf-8")
        self.assertEqual(stages_of(cursor(text)), {"spring": 0, "summer dry": 1, "summer wet": 1, "autumn": 2})
        skip = cursor('{"root":{"successors":{"a":1,"c":1}},"nodes":{"a":{"successors":{"b":1,"c":1}},"b":{"successors":{"c":1}},"c":{}}}')
        self.assertEqual(stages_of(skip), {"a": 0, "b": 1, "c": 2})


class Plot(unittest.TestCase):
    def setUp(self):
        made = tempfile.TemporaryDirectory()
        self.addCleanup(made.cleanup)
        self.folder = Path(made.name)
        self.check, self.simulation = self.folder / "check.txt", self.folder / "simulation.txt"
        self.check.write_text(CHECK, encoding="utf-8")
        self.simulation.write_text(SIMULATION, encoding="utf-8")

    def commands(self):
        return [
            ("bounds", self.check, "--cost", self.simulation), ("water-values", self.check, "--at", self.simulation),
            ("water-values", self.check, "--state", "v=3"), ("storage", self.simulation), ("residuals", self.simulation),
        ]

    def test_tables(self):
        firsts = [
            "check\t1\t2.5", "v\t0\t0\t0\t0\t5\t5\t5\t5", "v\t0\ta b\t5", "v\t0\t2\t2\t2\t3\t6\t6\t6", "greatest residual of a step\t0" + "\t2" * 7,
        ]
        for words, first in zip(self.commands(), firsts):
            with self.subTest(words=words[0]):
                status, out, err = run(main, *words)
                self.assertEqual((status, err), (0, ""))
                self.assertEqual(out.splitlines()[1], first)
        status, out, _ = run(main, "bounds", self.check, "--cost", self.simulation)
        self.assertEqual(out.splitlines()[-1], "mean of 3 simulated costs (nothing is claimed of it)\t\t60")

    def test_faults(self):
        rows = [
            (("bounds", self.simulation), "no report has iterations"), (("storage", self.check), "no scenarios"),
            (("water-values", self.simulation, "--state", "v=3"), "no cuts"), (("water-values", self.check), "either --at or --state"),
            (("water-values", self.check, "--state", "v"), "NAME=VALUE"), (("water-values", self.check, "--state", "v=x"), "Invalid literal"),
            (("residuals", self.folder / "nothing.txt"), "No such file"),
        ]
        for words, part in rows:
            with self.subTest(words=words):
                status, out, err = run(main, *words)
                self.assertEqual((status, out), (1, ""))
                self.assertIn(part, err)

    def test_the_place_of_a_fault_is_told(self):
        for old, new, line in (("cost", "coast", 13), ('in "v" 3', 'in "v" x', 8), ("row 1 residual -", "row 1 residual x", 12)):
            self.simulation.write_text(SIMULATION.replace(old, new, 1), encoding="utf-8")
            status, _, err = run(main, "residuals" if old.startswith("row") else "storage", self.simulation)
            self.assertEqual(status, 1)
            self.assertIn(f"plot: line {line} (", err)

    def test_units_are_not_mixed(self):
        users = self.folder / "users.txt"
        users.write_text('hydroplan-user 1\ndigits 6\nstate 0 "v"\nnode 0 "a b"\nnode 1 "c"\ncut 0 0 1 1\niteration 1 bound 2.5\n', encoding="utf-8")
        earnings = self.folder / "earnings.txt"
        earnings.write_text(users.read_text(encoding="utf-8").replace("digits", "sense max\ndigits"), encoding="utf-8")
        mixed = "is in units of the problem file and users in your units: turn all or none of them by `convert back`"
        rows = [
            (("bounds", self.check, users), f"check {mixed}"), (("bounds", users, earnings), "one has costs and the other earnings"),
            (("bounds", users, "--cost", self.simulation), "users is in your units and simulation in units of the problem file"),
            (("water-values", users, "--at", self.simulation), "users is in your units and simulation in units of the problem file"),
        ]
        for words, part in rows:
            with self.subTest(words=words):
                status, out, err = run(main, *words)
                self.assertEqual((status, out), (1, ""))
                self.assertIn(part, err)

    def test_names_forge_no_line_of_a_table(self):
        name = '"v\\n\\tv\u202e\u2028\u0085\u061c"'
        for file in (self.check, self.simulation):
            file.write_text(file.read_text(encoding="utf-8").replace('"v"', name).replace('"a b"', '"a\\r\u2069"'), encoding="utf-8")
        shown = "v\\u{000A}\\u{0009}v\\u{202E}\\u{2028}\\u{0085}\\u{061C}"
        for words, first in (
            (("storage", self.simulation), f"{shown}\t0\t2"), (("water-values", self.check, "--at", self.simulation), f"{shown}\t0\t0"),
        ):
            status, out, err = run(main, *words)
            self.assertEqual((status, err, len(out.split("\n"))), (0, "", 4))
            self.assertTrue(out.split("\n")[1].startswith(first))
        status, out, _ = run(main, "water-values", self.check, "--state", 'v\n\tv\u202e\u2028\u0085\u061c=3')
        self.assertEqual(out.split("\n")[1], f"{shown}\t0\ta\\u{{000D}}\\u{{2069}}\t5")
        _, _, err = run(main, "water-values", self.check, "--state", "w=3")
        self.assertEqual(err, f"plot: the states are {shown}: give each of them, and no other\n")

    def test_a_thousand_scenarios_of_36_stages_take_seconds_and_not_minutes(self):
        stage = "".join(f'in "v{at}" {3 * S + at}\n' for at in range(8)) + "".join(f'random "w{at}" 1\n' for at in range(11))
        stage += "".join(f'value "q{at}" {at * S}\n' for at in range(38)) + "".join(f"row {at} residual 0\n" for at in range(11)) + f"cost {S}\n"
        scenario = "".join(f"stage {at} node {at} found\n{stage}" for at in range(36)) + f"end {S}\n"
        head = HEAD.split("state")[0] + "".join(f'state {at} "v{at}"\n' for at in range(8)) + "".join(f'node {at} "n{at}"\n' for at in range(36))
        with self.simulation.open("w", encoding="utf-8") as file:
            file.write(head)
            for number in range(1000):
                file.write(f"scenario {number}\n{scenario}")
        drawn = ["--output", self.folder / "drawing"] if importlib.util.find_spec("matplotlib") else []

        def seconds():
            begun = time.process_time()
            self.assertEqual(run(main, "storage", self.simulation, *drawn)[0], 0)
            return time.process_time() - begun

        # three to five seconds on a free processor; one that other work shares, or an older one, may take some times as long
        self.assertTrue(any(seconds() <= 20 for _ in range(3)))

    @unittest.skipUnless(importlib.util.find_spec("matplotlib"), "matplotlib is not there")
    def test_axes(self):
        from hydroplan.tools import drawing

        bounds = [(at, F(bound)) for at, bound in enumerate((0, 50, 94, 95, 99, 99, 100), 1)]
        whole, closer = drawing.draw_bounds([("_a$b\u202e", bounds)], None, "bound\n[cost]", "a\nb").axes
        self.assertEqual((closer.get_xlim(), closer.get_xlabel(), closer.get_ylabel()), ((4, 7), "iteration [number]", "bound\n[cost]"))
        self.assertEqual(closer.get_ylim(), (95 - 0.25, 100 + 0.25))
        self.assertEqual((whole.get_title(), whole.get_legend_handles_labels()[1]), ("a\\u{000A}b", ["\u200b_a\\$b\\u{202E}"]))
        self.assertEqual(len(drawing.draw_bounds([("a", bounds[:1])], None, "", "").axes), 1)
        (panel,) = drawing.draw_fans(storage(report(SIMULATION.replace('"v"', '"v$\u2028"'))), "incoming state\n[units]", "t").axes
        self.assertEqual((panel.get_ylabel(), panel.get_xlabel()), ("v\\$\\u{2028}: incoming state\n[units]", "stage [number, from 0]"))
        (panel,) = drawing.draw_points(water_values_at(report(CHECK), {"v": F(3)}, {}), "water value\n[cost]", False, "t").axes
        self.assertEqual((panel.get_ylabel(), panel.get_xlabel()), ("v: water value\n[cost]", "node [number]"))

    @unittest.skipUnless(importlib.util.find_spec("matplotlib"), "matplotlib is not there")
    def test_drawings(self):
        for number, words in enumerate(self.commands()):
            with self.subTest(words=words[0]):
                prefix = self.folder / f"drawing.{number}"
                status, out, err = run(main, *words, "--output", prefix)
                self.assertEqual((status, err), (0, ""))
                self.assertEqual(out.splitlines(), [f"{prefix}.png", f"{prefix}.svg"])
                self.assertTrue(Path(f"{prefix}.png").read_bytes().startswith(b"\x89PNG"))
                self.assertIn("<svg", Path(f"{prefix}.svg").read_text(encoding="utf-8"))

    @unittest.skipIf(importlib.util.find_spec("matplotlib"), "matplotlib is there")
    def test_without_matplotlib_a_drawing_is_refused_and_said_why(self):
        status, out, err = run(main, "storage", self.simulation, "--output", self.folder / "drawing")
        self.assertEqual((status, out), (1, ""))
        self.assertIn(f"{sys.executable} has no matplotlib, which drawings need: sudo apt-get install python3-matplotlib", err)


if __name__ == "__main__":
    unittest.main()
