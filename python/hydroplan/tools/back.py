"""A report of the program in the user's units, line by line, by the scales that the converter wrote.

Outside the proved core. Bounds are rounded to the side on which they stay bounds; all other numbers to the nearest. Names stay JSON
strings; characters in them that could forge a line or turn its order are escaped as JSON escapes them.
"""
from __future__ import annotations

import json
from dataclasses import dataclass, field
from fractions import Fraction
from typing import Callable, Iterable, Iterator, Optional

from .decimals import Direction, decimal_text, exact_text
from .profile import SCALE
from .scales import Scales
from .shown_names import shown_in_json

HEAD = "hydroplan 1"
USER_HEAD = "hydroplan-user 1"


class BadReport(Exception):
    """A line that is none of a report, or that the scales do not fit."""


def split_name(text: str) -> tuple[str, str]:
    """A name at the front, written as a JSON string, and what stands behind it."""
    name, end = json.JSONDecoder(strict=False).raw_decode(text)
    if not isinstance(name, str):
        raise ValueError("a name is expected")
    return name, text[end:].strip()


@dataclass
class Back:
    """Turns lines back. `digits` behind the point, or none for exact fractions."""

    scales: Scales
    digits: Optional[int]
    states: list[str] = field(default_factory=list)
    nodes: list[str] = field(default_factory=list)
    node: str = ""

    def lines(self, report: Iterable[str]) -> Iterator[str]:
        """The lines of the report in the user's units, or BadReport."""
        number = 0
        for number, line in enumerate(report, 1):
            if number == 1 and line.rstrip("\n") != HEAD:
                raise BadReport(f"line 1: a report begins with `{HEAD}`, not with `{line.strip()[:60]}`")
            try:
                yield from self._line(line.rstrip("\n"))
            except (ValueError, KeyError, IndexError) as fault:
                raise BadReport(f"line {number} ({line.strip()[:60]}): {fault!r}") from None
        if number == 0:
            raise BadReport("the report is empty")

    def _line(self, line: str) -> list[str]:
        word, _, rest = line.partition(" ")
        if line == HEAD:
            return [USER_HEAD]
        if word == "scale":
            return self._scale(rest)
        if word in ("total", "rest", "scenario"):
            return [line]
        turn: dict[str, Callable[[str], str]] = {
            "state": self._state, "node": self._node, "stage": self._stage, "branch": self._branch,
            "cut": self._cut, "plane": self._cut, "iteration": self._iteration, "bound": self._bound,
            "worst": self._bound, "upper": self._upper, "in": self._incoming, "random": self._random,
            "value": self._value, "row": self._row, "cost": self._cost, "end": self._cost,
        }
        if word not in turn:
            raise ValueError("no line of a report")
        return [f"{word} {turn[word](rest)}"]

    def _scale(self, rest: str) -> list[str]:
        if int(rest) != SCALE:
            raise ValueError(f"the scale is not {SCALE}")
        sense = ["sense max"] if self.scales.negated else []
        return [*sense, "exact" if self.digits is None else f"digits {self.digits}"]

    def _text(self, value: Fraction, direction: Direction = Direction.NEAREST) -> str:
        return exact_text(value) if self.digits is None else decimal_text(value, self.digits, direction)

    def _money(self, number: str, scale: int = SCALE) -> Fraction:
        value = Fraction(int(number), scale) / self.scales.whole_cost()
        return -value if self.scales.negated else value

    def _state(self, rest: str) -> str:
        number, _, name = rest.partition(" ")
        self.states.append(split_name(name)[0])
        if int(number) != len(self.states) - 1 or self.states[-1] not in self.scales.states:
            raise ValueError("the scales are those of another problem")
        return shown_in_json(rest)

    def _node(self, rest: str) -> str:
        number, _, name = rest.partition(" ")
        self.nodes.append(split_name(name)[0])
        if int(number) != len(self.nodes) - 1 or self.nodes[-1] not in self.scales.nodes:
            raise ValueError("the scales are those of another problem")
        return shown_in_json(rest)

    def _stage(self, rest: str) -> str:
        self.node = self.nodes[int(rest.split()[2])]
        return rest

    def _branch(self, rest: str) -> str:
        self.node = self.nodes[int(rest.split()[0])]
        return rest

    def _cut(self, rest: str) -> str:
        node, place, alpha, *slopes = rest.split()
        if len(slopes) != len(self.states):
            raise ValueError("not one slope per state")
        turned = [self._money(slope) * self.scales.states[name] for name, slope in zip(self.states, slopes)]
        return " ".join([node, place, *(self._text(number) for number in (self._money(alpha), *turned))])

    def _iteration(self, rest: str) -> str:
        number, word, bound = rest.split()
        return f"{number} {word} {self._bound(bound)}"

    def _bound(self, rest: str) -> str:
        return self._text(self._money(rest), Direction.UP if self.scales.negated else Direction.DOWN)

    def _upper(self, rest: str) -> str:
        return self._text(self._money(rest), Direction.DOWN if self.scales.negated else Direction.UP)

    def _incoming(self, rest: str) -> str:
        name, number = split_name(rest)
        return self._named(name, Fraction(int(number), SCALE) / self.scales.states[name])

    def _random(self, rest: str) -> str:
        name, number = split_name(rest)
        return self._named(name, Fraction(int(number)) / self._variable_scale(name))

    def _value(self, rest: str) -> str:
        name, number = split_name(rest)
        return self._named(name, Fraction(int(number), SCALE) / self._variable_scale(name))

    def _named(self, name: str, value: Fraction) -> str:
        return f"{shown_in_json(json.dumps(name, ensure_ascii=False))} {self._text(value)}"

    def _variable_scale(self, name: str) -> Fraction:
        own = self.scales.subproblems[self.scales.nodes[self.node]]
        return own.variables[name] if name in own.variables else self.scales.states[own.outgoing[name]]

    def _row(self, rest: str) -> str:
        number, word, residual = rest.split()
        own = self.scales.subproblems[self.scales.nodes[self.node]]
        value = Fraction(int(residual), SCALE) / own.constraints[own.rows[int(number)]]
        return f"{number} {word} {self._text(value)}"

    def _cost(self, rest: str) -> str:
        return self._text(self._money(rest))
