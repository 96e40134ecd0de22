"""Reports of the program as results: numbers exact, divided by their scales, with the names of the user's model."""
from __future__ import annotations

from fractions import Fraction
from typing import Dict, List, Optional, Tuple

from .exact import at_least, at_most
from .programs import Compiled
from .results import Check, Cut, Evaluation, MissedRow, Robust, Simulation
from .tools.back import Back
from .tools.profile import SCALE
from .tools.reports import Cut as ReportCut, Report, read_report
from .traces import scenarios_of


def money(compiled: Compiled, number: int) -> Fraction:
    """A cost or a bound of the program in the user's money: divided by both scales, and negated where costs were."""
    value = Fraction(number, SCALE) / (compiled.scales.cost or 1)
    return -value if compiled.maximizes else value


def bound_float(compiled: Compiled, value: Fraction) -> float:
    """A bound as the nearest float that still is one: not above it, or, where the model maximizes, not below."""
    return at_least(value) if compiled.maximizes else at_most(value)


def upper_float(compiled: Compiled, value: Fraction) -> float:
    """A bound on the other side as the nearest float that still is one."""
    return at_most(value) if compiled.maximizes else at_least(value)


def report_of(compiled: Compiled, output: str) -> Report:
    """The report in the user's units, in exact fractions: the unit of its cuts is 1."""
    return read_report(Back(compiled.scales, None).lines(output.rstrip("\n").split("\n")))


def bounds_of(compiled: Compiled, report: Report) -> Tuple[float, ...]:
    """The bound after each iteration."""
    return tuple(bound_float(compiled, bound) for _, bound in report.iterations)


def end_costs(compiled: Compiled, output: str) -> List[float]:
    """The costs of the scenarios of a report, without the rest of it."""
    ends = (line[4:] for line in output.split("\n") if line.startswith("end "))
    return [float(money(compiled, int(number))) for number in ends]


def check_of(compiled: Compiled, output: str) -> Check:
    """The result of `check`."""
    report = report_of(compiled, output)
    by_node: Dict[str, List[ReportCut]] = {name: [] for name in report.nodes}
    for cut in report.cuts:
        by_node[report.nodes[cut.node]].append(cut)
    bound = report.bound or Fraction(0)
    return Check(
        tuple(_cut(report, it) for it in report.cuts), bounds_of(compiled, report), bound_float(compiled, bound), bound,
        report.unsettled or 0, report.rest or 0, compiled.maximizes, tuple(report.states),
        {name: tuple(cuts) for name, cuts in by_node.items()},
    )


def _cut(report: Report, cut: ReportCut) -> Cut:
    slopes = {name: float(report.value(slope)) for name, slope in zip(report.states, cut.slopes)}
    return Cut(report.nodes[cut.node], cut.place, float(report.value(cut.alpha)), slopes)


def simulation_of(compiled: Compiled, output: str) -> Simulation:
    """The result of `simulate` or `validate`."""
    lines = output.rstrip("\n").split("\n")
    bound = money(compiled, int(lines[-1].rpartition(" ")[2]))
    return Simulation(tuple(scenarios_of(compiled, lines)), bound_float(compiled, bound), bound, compiled.maximizes)


def evaluation_of(compiled: Compiled, output: str) -> Evaluation:
    """The result of `evaluate`."""
    report = report_of(compiled, output)
    bound = report.bound or Fraction(0)
    upper = None if report.upper is None else upper_float(compiled, report.upper)
    return Evaluation(upper, report.upper, bound_float(compiled, bound), bound, _missed(compiled, report), compiled.maximizes)


def _missed(compiled: Compiled, report: Report) -> Optional[MissedRow]:
    if report.missed is None:
        return None
    branch = tuple((report.nodes[node], realization) for node, realization in report.branches)
    number, residual = report.missed
    return MissedRow(branch, compiled.row_names(branch[-1][0])[number], float(residual))


def robust_of(compiled: Compiled, output: str) -> Robust:
    """The result of `robust`."""
    report = report_of(compiled, output)
    worst = report.worst or Fraction(0)
    return Robust(bound_float(compiled, worst), worst, tuple(_cut(report, it) for it in report.planes), compiled.maximizes)
