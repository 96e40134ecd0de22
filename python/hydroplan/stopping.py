"""Rules by which training stops. Names and the first three forms are those of SDDP.jl (Dowson and Kapelevich 2021)."""
from __future__ import annotations

from dataclasses import dataclass
from typing import Optional, Sequence

from .errors import RuleError
from .limits import MOST_ITERATIONS
from .results import GapCheck


class StopRule:
    """A rule of when to stop: one of the classes below."""


@dataclass(frozen=True)
class IterationLimit(StopRule):
    """Stops when the journal has so many iterations; those of earlier trainings count."""

    iterations: int


@dataclass(frozen=True)
class TimeLimit(StopRule):
    """Stops after so many seconds of this training. The iteration at hand is given up."""

    seconds: float


@dataclass(frozen=True)
class BoundStalling(StopRule):
    """Stops when the bound moved by no more than `relative` of itself, or `absolute` in money, over the last `iterations`.

    It looks each `every` iterations.
    """

    iterations: int = 50
    relative: float = 1e-6
    absolute: float = 0.0
    every: int = 10

    def reason(self, bounds: Sequence[float]) -> Optional[str]:
        """Why training stops, none where it goes on."""
        if len(bounds) <= self.iterations:
            return None
        moved = abs(bounds[-1] - bounds[-1 - self.iterations])
        if moved > max(self.absolute, self.relative * abs(bounds[-1])):
            return None
        return f"the bound moved by {moved:g} over the last {self.iterations} iterations"


@dataclass(frozen=True)
class Statistical(StopRule):
    """Stops when the policy is shown to be near the bound, at a confidence.

    Each `every` iterations the policy is followed along so many fresh scenarios, drawn from seeds that training does not use. It
    stops when the gap between their mean and the bound, and half the width of the mean's confidence interval, are together
    at most `relative` of the mean, or `absolute` in money. It goes on where the mean is better than the bound by more than that and
    half the width, which no policy can be: such scenarios are not like all. Of a mean of samples nothing is proved.
    """

    scenarios: int = 100
    every: int = 20
    confidence: float = 0.95
    relative: float = 0.01
    absolute: float = 0.0

    def reason(self, checks: Sequence[GapCheck]) -> Optional[str]:
        """Why training stops, none where it goes on."""
        if not checks:
            return None
        last = checks[-1]
        near = max(self.absolute, self.relative * abs(last.mean))
        if last.gap + last.half_width > near or last.gap < -last.half_width - near:
            return None
        return f"the mean of {last.scenarios} scenarios is within {last.gap + last.half_width:g} of the bound"


def checked(rules: Sequence[StopRule]) -> Sequence[StopRule]:
    """The rules, or RuleError where a number of one makes no sense."""
    for rule in rules:
        if isinstance(rule, IterationLimit) and not 0 <= rule.iterations <= MOST_ITERATIONS:
            raise RuleError(f"a journal has 0 to {MOST_ITERATIONS} iterations, not {rule.iterations}")
        if isinstance(rule, (BoundStalling, Statistical)) and rule.every < 1:
            raise RuleError(f"a rule looks each 1 or more iterations, not each {rule.every}")
        if isinstance(rule, Statistical) and not (0 < rule.confidence < 1 and rule.scenarios > 1):
            raise RuleError("a statistical rule has a confidence between 0 and 1, and at least 2 scenarios")
        if isinstance(rule, TimeLimit) and rule.seconds <= 0:
            raise RuleError(f"a time limit is above 0 seconds, not {rule.seconds}")
        if isinstance(rule, BoundStalling) and rule.iterations < 1:
            raise RuleError(f"a bound stalls over 1 or more iterations, not {rule.iterations}")
    return rules
