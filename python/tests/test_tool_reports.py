"""Reports of evaluate and robust as values. The lines are those that docs/use/FORMAT.md gives."""
import unittest
from fractions import Fraction as F

from tool_support import S
from hydroplan.tools.back import BadReport
from hydroplan.tools.reports import read_report

HEAD = ["hydroplan 1", f"scale {S}", 'state 0 "v"', 'node 0 "a"', 'node 1 "b"']


class Reports(unittest.TestCase):
    def test_the_worst_weights(self):
        report = read_report([*HEAD, f"plane 0 0 {3 * S} {-S}", f"plane 1 1 {S // 2} 0", f"worst {7 * S}"])
        planes = [(it.node, it.place, report.value(it.alpha), tuple(map(report.value, it.slopes))) for it in report.planes]
        self.assertEqual(planes, [(0, 0, F(3), (F(-1),)), (1, 1, F(1, 2), (F(0),))])
        self.assertEqual((report.worst, report.cuts), (F(7), []))

    def test_a_policy_that_meets_its_rows(self):
        report = read_report([*HEAD, f"upper {5 * S}", f"bound {4 * S}"])
        self.assertEqual((report.upper, report.bound, report.missed, report.branches), (F(5), F(4), None, []))

    def test_a_policy_that_misses_a_row(self):
        report = read_report([*HEAD, "branch 0 2", "branch 1 0", f"row 3 residual {S // 4}", f"bound {4 * S}"])
        self.assertEqual((report.branches, report.missed, report.upper), ([(0, 2), (1, 0)], (3, F(1, 4)), None))

    def test_lines_that_are_none(self):
        for line in ("plane 0 0 1", "branch 1", "worst"):
            with self.assertRaises(BadReport):
                read_report([*HEAD, line])


if __name__ == "__main__":
    unittest.main()
