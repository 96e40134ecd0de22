"""A study beside its extensive form: the least costs that HiGHS finds of the study and of its compiled problem, the certified bound, and what
the whole policy costs at most."""
from __future__ import annotations

import json
from dataclasses import dataclass, fields, replace
from fractions import Fraction
from typing import Optional

from extensive_plants import Extensive
from file_meaning import least_cost
from rounding_loss import rounding_loss
from stage_alone import missed_alone
from study_readings import read_case
from hydroplan.errors import NoStageSolution
from hydroplan.runs import check, evaluate, train
from hydroplan.study import read_study

FIRST_ITERATIONS = 20
MOST_ITERATIONS = 320
MOST_MISSED = 1e-3
# HiGHS and the program's own solver meet rows within 1e-7 or so, times what a unit is worth
NEAR = Fraction(1, 10**8)
# where the ledger says that numbers were rounded: each of them by a thousandth at most
ROUNDED = Fraction(1, 100)
UNROUNDED = "0 numbers were rounded"
# rows that are missed by less, in hm3 and MWh together, may be met but for what HiGHS tolerates
TOLERATED = 1e-6


@dataclass(frozen=True)
class Compared:
    """Numbers of a study, in money. `optimum` is none where HiGHS finds no plan of the study, and `meant` where it finds none of the problem
    that the study was compiled to. `bound` is none where training finds a stage without a solution.

    `upper` is none where the whole policy misses a row: by `missed`, in units of the row. `loss` is by how much the bound may stay below
    the optimum by rounding, and `near` the room that floats of HiGHS need, or numbers that the ledger rounded. `lacking` is what HiGHS cannot
    meet of the rows of all stages, where it finds no plan, and `lacking_alone` what it cannot meet of that one stage.
    """

    optimum: Optional[Fraction]
    meant: Optional[Fraction] = None
    bound: Optional[Fraction] = None
    upper: Optional[Fraction] = None
    missed: Optional[float] = None
    loss: Fraction = Fraction(0)
    near: Fraction = Fraction(0)
    iterations: int = 0
    rounded: str = UNROUNDED
    lacking: float = 0.0
    lacking_alone: float = 0.0

    def __str__(self) -> str:
        """All numbers, as decimals."""
        named = ((it.name, getattr(self, it.name)) for it in fields(self))
        return ", ".join(f"{name} {float(value):.12g}" if isinstance(value, Fraction) else f"{name} {value}" for name, value in named)

    def ending(self) -> str:
        """How the comparison ended, in words that are counted."""
        if self.bound is not None:
            return "the optimum"
        return "no plan" if self.optimum is None else "a dead end"

    def fault(self) -> str:
        """What is wrong, nothing where the study means what it says."""
        return self._fault_of_meaning() or (self._fault_without_a_bound() if self.bound is None else self._fault_of_the_bound())

    def _fault_of_meaning(self) -> str:
        """What is wrong with the compiled problem: its least cost is that of the study, whatever training makes of it."""
        if self.optimum is None or self.meant is None:
            return "" if self.optimum is self.meant else f"HiGHS finds a plan of the study or of its problem, and not of both: {self}"
        return "" if abs(self.meant - self.optimum) <= self.near else f"the problem has another optimum than the study: {self}"

    def _fault_of_the_bound(self) -> str:
        """What is wrong where training ended with a bound."""
        if self.optimum is None:
            return f"HiGHS finds no plan, and training does: {self}"
        if self.bound > self.optimum + self.near:
            return f"the bound is above the optimum: {self}"
        if self.bound < self.optimum - self.loss - self.near:
            return f"the bound stays below the optimum: {self}"
        if self.upper is not None and self.upper < self.optimum - self.near:
            return f"the policy costs less than the optimum: {self}"
        return "" if self.upper is not None or 0 < self.missed <= MOST_MISSED else f"the policy misses too much: {self}"

    def _fault_without_a_bound(self) -> str:
        """What is wrong where training ended at a stage: HiGHS has to find it without a solution too, and all stages, where it has no plan."""
        if self.lacking_alone <= TOLERATED:
            return f"HiGHS has a solution for the stage at which training ended: {self}"
        return f"HiGHS has no plan, and does not show that there is none: {self}" if self.optimum is None and self.lacking <= TOLERATED else ""


def compared(folder) -> Compared:
    """Trains a study until its bound is the optimum but for rounding, and evaluates its policy."""
    case, study = read_case(folder), read_study(folder)
    extensive = Extensive(case)
    optimum, meant = _found(extensive.optimum), _found(lambda: meaning(study.compiled))
    near = (NEAR if study.compiled.ledger[-1] == UNROUNDED else ROUNDED) * max(1, abs(optimum or 0))
    own = Compared(optimum, meant, near=near, rounded=study.compiled.ledger[-1])
    try:
        return _trained(study, own)
    except NoStageSolution as fault:
        stage = next(it.stage for it in study.system.graph().nodes if it.name == fault.node)
        alone = missed_alone(case, stage, fault.values, fault.state)
        return replace(own, lacking=extensive.missed() if optimum is None else 0.0, lacking_alone=alone)


def meaning(compiled) -> float:
    """The least cost of a compiled problem by what its file says, in money."""
    return least_cost(json.loads(compiled.problem)) / float(compiled.scales.cost or 1)


def _found(least) -> Optional[Fraction]:
    """A least cost, none where HiGHS finds no plan."""
    try:
        return Fraction(least())
    except AssertionError:
        return None


def _trained(study, own):
    """The comparison of a study that can be trained."""
    journal, compiled = study.folder / "drawn.journal", study.compiled
    enough = (own.optimum or 0) - own.near
    iterations, loss = FIRST_ITERATIONS, rounding_loss(compiled)
    found = train(compiled, journal, seed=7, iterations=iterations, progress=False)
    while found.exact_bound < enough - loss:
        loss = rounding_loss(compiled, check(compiled, journal))
        if found.exact_bound >= enough - loss or iterations > MOST_ITERATIONS:
            break
        iterations *= 2
        found = train(compiled, journal, seed=7, iterations=iterations, progress=False)
    policy = evaluate(compiled, journal)
    missed = None if policy.missed is None else float(abs(policy.missed.residual))
    return replace(own, bound=policy.exact_bound, upper=policy.exact_upper, missed=missed, loss=loss, iterations=iterations)
