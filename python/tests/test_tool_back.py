"""Reports back to the user's units, by the newsvendor's scales: costs times 40 and negated, u times 4, d times 2."""
import io
import json
import unittest
from fractions import Fraction as F

from tool_support import DATA, S, run
from hydroplan.tools.back import BadReport, Back
from hydroplan.tools.convert_command import main
from hydroplan.tools.reports import read_report
from hydroplan.tools.scales import Scales, SubproblemScales

REPORT = f"""hydroplan 1
scale 16777216
state 0 "x"
node 0 "first_stage"
node 1 "second_stage"
cut 1 0 {-80 * S} {60 * S}
iteration 1 bound {-100 * S - 1}
total iterations 1 unsettled 0
scenario 0
stage 0 node 1 found
in "x" {S * 5 // 2}
random "d" 29
value "x_out" {S}
value "u" {30 * S}
row 0 residual 4
row 1 residual {-2 * S}
cost {-150 * S}
end {-150 * S}
bound {-100 * S - 1}
rest 3
"""

# by hand: 80/40 = 2; -60/40 = -1.5; (100 + 1/S)/40 is above 2.5, and a bound of earnings goes up; 29/2; 30/4; 4/(4 S); -2/4; 150/40
EXPECTED = """hydroplan-user 1
sense max
digits 6
state 0 "x"
node 0 "first_stage"
node 1 "second_stage"
cut 1 0 2 -1.5
iteration 1 bound 2.500001
total iterations 1 unsettled 0
scenario 0
stage 0 node 1 found
in "x" 2.5
random "d" 14.5
value "x_out" 1
value "u" 7.5
row 0 residual 0
row 1 residual -0.5
cost 3.75
end 3.75
bound 2.500001
rest 3
"""


def scales(negated=True, cost=F(40), state=F(1)):
    second = SubproblemScales({"u": F(4), "d": F(2)}, {0: F(4), 1: F(4)}, {}, [0, 1], {"x_out": "x"})
    first = SubproblemScales({}, {}, {}, [], {"x_out": "x"})
    nodes = {"first_stage": "first", "second_stage": "second"}
    return Scales(cost, None, {"x": state}, {"first": first, "second": second}, nodes, negated)


def turned(report, own, digits=6):
    return "".join(line + "\n" for line in Back(own, digits).lines(io.StringIO(report)))


class Turning(unittest.TestCase):
    def test_all_lines(self):
        self.assertEqual(turned(REPORT, scales()), EXPECTED)

    def test_exact_fractions(self):
        text = turned(REPORT, scales(), None)
        self.assertIn(f"bound {F(100 * S + 1, 40 * S)}\n", text)
        self.assertIn(f"row 0 residual 1/{S}\n", text)
        self.assertIn("\nexact\n", text)

    def test_costs_that_are_not_negated_and_a_scaled_state(self):
        text = turned(REPORT, scales(False, F(8), F(10)))
        # -80/8; 60/8 times 10; a lower bound of -12.5 - 1/(8 S) goes down
        self.assertIn("cut 1 0 -10 75\n", text)
        self.assertIn("bound -12.500001\n", text)
        self.assertIn('in "x" 0.25\n', text)
        self.assertIn('value "x_out" 0.1\n', text)
        self.assertNotIn("sense", text)

    def test_the_upper_side_of_a_policy_goes_the_other_way(self):
        self.assertIn("upper 2.5\n", turned(REPORT + f"upper {-100 * S - 1}\n", scales()))
        self.assertIn("upper 2.500001\n", turned(REPORT + f"upper {100 * S + 1}\n", scales(False)))

    def test_what_was_turned_is_read_as_a_report(self):
        report = read_report(io.StringIO(EXPECTED))
        self.assertTrue(report.maximises)
        self.assertEqual((report.value(report.cuts[0].alpha), report.value(report.cuts[0].slopes[0])), (2, F(-3, 2)))
        stage = report.scenarios[0].stages[0]
        self.assertEqual((report.value(stage.incoming["x"]), report.value(stage.residual)), (F(5, 2), F(1, 2)))


class Names(unittest.TestCase):
    def test_forge_no_line_and_are_read_again(self):
        name, shown = "x\u202e\u2028\x85\x07", '"x\\u202e\\u2028\\u0085\\u0007"'
        own = scales()
        own.states = {name: F(1)}
        second = own.subproblems[own.nodes["second_stage"]]
        second.outgoing["x_out"] = name
        written = REPORT.replace('"x"', json.dumps(name, ensure_ascii=False))
        lines = turned(written, own)
        self.assertEqual("".join(lines), EXPECTED.replace('"x"', shown))
        self.assertEqual(read_report(io.StringIO("".join(lines))).states, [name])

    def test_in_refusals(self):
        status, _, err = run(main, "back", "--scales", DATA / "newsvendor.bounds.json", typed="x\n")
        self.assertEqual(status, 1)
        status, _, err = run(main, "problem", "no\nsuch\u202efile", "--write-scales", "none")
        self.assertEqual((status, len(err.splitlines())), (1, 1))
        self.assertNotIn("\u202e", err)


class Solved(unittest.TestCase):
    """Bounds that the program came to in 25 iterations of the converted files, against optima that were found by hand."""

    def test_newsvendor(self):
        # the eleventh paper earns 0.6 times 1.5, less 1.25 and 0.4 times 0.1: so 10 papers, each earning 1.5 - 1.25
        bound = Back(scales(), None)._bound("-1677721605")
        self.assertTrue(0 <= F(bound) - F(5, 2) < F(1, 10**6))

    def test_reservoir(self):
        # the last stage costs 276.475 - 38.475 v up to v = 6.5; node 2 leaves 6.5, node 1 runs its turbine at 8
        last = {volume: F("276.475") - F("38.475") * volume for volume in (F("6.5"), F("4.8"), F("6.2"))}
        first = F("42.75") * (F("7.75") - F("0.9") * 8) + F("3.125")
        dry, wet = (first - volume / 2 + F("0.95") * last[volume] for volume in (F("4.8"), F("6.2")))
        second = F("42.75") * (F("7.75") - F("0.9") * F("6.25")) + F("3.125") - F("3.25") + last[F("6.5")]
        optimum = (dry / 4 + wet * 3 / 4) / 3 + second * 2 / 3
        bound = Back(scales(False, F(8)), None)._bound("13723826401")
        self.assertTrue(0 <= optimum - F(bound) < F(1, 10**5))


class Faults(unittest.TestCase):
    def test_reports_that_do_not_fit(self):
        rows = [
            ("scale 16777216", "scale 1000", "line 2"), ("hydroplan 1", "hydroplan 2", "line 1"), ('state 0 "x"', 'state 0 "y"', "another problem"),
            ('node 1 "second_stage"', 'node 1 "third_stage"', "another problem"), ("rest 3", "remainder 3", "no line of a report"),
            ('value "u"', 'value "v"', "line 14"), ("row 1 residual", "row 2 residual", "line 16"),
            (f"cut 1 0 {-80 * S} {60 * S}", "cut 1 0 5", "not one slope per state"), ("random \"d\" 29", "random d 29", "line 12"),
        ]
        for old, new, part in rows:
            with self.subTest(new=new):
                self.assertIn(old, REPORT)
                with self.assertRaises(BadReport) as caught:
                    turned(REPORT.replace(old, new), scales())
                self.assertIn(part, str(caught.exception))

    def test_what_is_no_report(self):
        for text, part in (("", "empty"), (EXPECTED, "begins with"), ("hydroplan: memory\n", "begins with")):
            with self.subTest(text=text[:20]):
                with self.assertRaises(BadReport) as caught:
                    turned(text, scales())
                self.assertIn(part, str(caught.exception))

    def test_scales_that_are_not_complete(self):
        status, out, err = run(main, "back", "--scales", DATA / "newsvendor.bounds.json", typed=REPORT)
        self.assertEqual((status, out), (1, ""))
        self.assertIn("has not all scales", err)


if __name__ == "__main__":
    unittest.main()
