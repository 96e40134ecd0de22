"""A stochastic program in the form that files and Python share, and the problem in whole numbers that it is compiled to.

One code compiles both: the steps of `./hydroplan convert`. What they refuse is told with the part's name and line.
"""
from __future__ import annotations

from dataclasses import dataclass, field
from fractions import Fraction
from os import PathLike
from pathlib import Path
from typing import Dict, List, Mapping, Optional, Tuple, Union

from .errors import ModelError, ModelRefused
from .exact import Number, exact, text_of
from .stochopt_writer import stochopt_text
from .tools.converting import Bounds, Options, compile_model, ledger_lines, problem_text
from .tools.located_json import Cursor, NotJson, Refused, byte_order, parse
from .tools.likeness import unknown_word
from .tools.stochopt import Model as SharedModel, Quantity, read_model
from .tools.scales import Scales, SubproblemScales, write_scales

Resolution = Union[Number, Mapping[str, Number], None]
Sides = Tuple[Optional[Number], Optional[Number]]


@dataclass(frozen=True)
class Compiled:
    """A problem in whole numbers.

    `problem` is what the program reads on standard input: its bytes belong to a journal. A number of the program divided by
    its scale in `scales` is in the user's units. `ledger` has a line for whatever was rounded, left out or added, and
    `shared` is the model without what was left out.
    """

    problem: bytes
    scales: Scales
    ledger: Tuple[str, ...]
    shared: SharedModel = field(repr=False)

    @property
    def warnings(self) -> Tuple[str, ...]:
        """The ledger's lines on rows whose coefficients stay more than 10^5 apart."""
        return tuple(line for line in self.ledger if line.startswith("range:"))

    @property
    def maximizes(self) -> bool:
        """Whether the user's model maximizes; bounds are then above what any policy earns."""
        return self.scales.negated

    @property
    def node_names(self) -> List[str]:
        """The nodes in the order in which the program numbers them."""
        return byte_order(iter(self.scales.nodes))

    @property
    def state_names(self) -> List[str]:
        """The states in the order in which the program numbers them."""
        return byte_order(iter(self.scales.states))

    def row_names(self, node: str) -> List[str]:
        """The names of a node's rows in their order; one without a name is called by its number, as in `#0`."""
        subproblem = self.scales.nodes[node]
        constraints = self.shared.subproblems[subproblem].constraints
        rows = self.scales.subproblems[subproblem].rows
        return [constraints[at].name or f"#{number}" for number, at in enumerate(rows)]

    def write(self, problem: Union[str, PathLike[str]], scales: Union[str, PathLike[str], None] = None) -> None:
        """Writes the problem to a file, and the scales to another that `./hydroplan convert back` and `./hydroplan watch` read."""
        Path(problem).write_bytes(self.problem)
        if scales is not None:
            Path(scales).write_text(write_scales(self.scales), encoding="utf-8")


@dataclass(frozen=True)
class Program:
    """A stochastic program with exact numbers, as a file of StochOptFormat or a `Model` gives it."""

    shared: SharedModel

    def compile(
        self, resolution: Resolution = None, *, successor_total: int = 1, largest: int = 10**9,
        tolerance: Number = "0.001", bounds: Optional[Mapping[str, Sides]] = None,
    ) -> Compiled:
        """The problem in whole numbers, or ModelRefused.

        `resolution` is the least step that is kept, in the user's units: one number for all states and variables, or one by
        the name of a state, of a variable or `cost`. What it leaves out is found: the least scale that makes all numbers
        whole, none above `largest`, where that can be. Nothing is rounded by more than the part `tolerance`.
        `successor_total` is what the weights of a node's successors add up to at least; 256 rounds cuts finer.
        `bounds` are those of decisions that have none, by name.
        """
        options = Options(True, False, largest, exact(tolerance, "the tolerance"), successor_total)
        try:
            found = compile_model(self.shared, self._scales(resolution), _bounds(bounds or {}), options)
            data = problem_text(found.problem).encode("utf-8")
        except Refused as refused:
            raise ModelRefused(refused.kind, refused.reason, refused.place) from None
        except ValueError as fault:
            raise ModelError(str(fault)) from None
        return Compiled(data, found.scales, tuple(ledger_lines(found.ledger)), found.model)

    def to_stochopt(self) -> str:
        """The program as a file of StochOptFormat 1.0, which `./hydroplan convert` and other tools read.

        Fractions without an end, as 1/3, are written with 60 digits, which `./hydroplan convert` takes for the fraction again.
        """
        return stochopt_text(self.shared)

    def _scales(self, resolution: Resolution) -> Scales:
        """Scales by the least steps that are kept: their reciprocals."""
        chosen = Scales()
        if resolution is None:
            return chosen
        if not isinstance(resolution, Mapping):
            chosen.values = _scale(resolution, "the resolution")
            return chosen
        known = {"cost", *self.shared.states, *(name for it in self.shared.subproblems.values() for name in it.variables)}
        for name, step in resolution.items():
            if name not in known:
                raise ModelError(f"a resolution is given, and {unknown_word(name, byte_order(iter(known)))}")
            self._choose(chosen, name, _scale(step, f'the resolution of "{name}"'))
        return chosen

    def _choose(self, chosen: Scales, name: str, scale: Fraction) -> None:
        """The scale of the costs, of a state, or of a variable in all stages that have it."""
        if name == "cost":
            chosen.cost = scale
        elif name in self.shared.states:
            chosen.states[name] = scale
        for key, subproblem in self.shared.subproblems.items():
            if name in subproblem.variables and name not in subproblem.states_of():
                chosen.subproblems.setdefault(key, SubproblemScales()).variables[name] = scale
            elif name in subproblem.states_of():
                chosen.states[subproblem.states_of()[name]] = scale


def _scale(step: Number, what: str) -> Fraction:
    found = exact(step, what)
    if found <= 0:
        raise ModelError(f"{what} is above 0, not {step}")
    return 1 / found


def _bounds(given: Mapping[str, Sides]) -> Bounds:
    sides: Dict[str, Tuple[Optional[Quantity], Optional[Quantity]]] = {}
    for name, (lower, upper) in given.items():
        low, high = (None if it is None else _quantity(it, f'the bound of "{name}"') for it in (lower, upper))
        sides[name] = (low, high)
    return Bounds({}, sides)


def _quantity(number: Number, what: str) -> Quantity:
    value = exact(number, what)
    return Quantity(value, text_of(value), what)


def read_stochopt(path: Union[str, PathLike[str]]) -> Program:
    """The program in a file of StochOptFormat, or ModelRefused with path, line and column."""
    try:
        document = parse(Path(path).read_bytes())
        return Program(read_model(Cursor(document, document.root)))
    except NotJson as fault:
        raise ModelRefused("NotJson", fault.reason, f"{path} (line {fault.line}, column {fault.column})") from None
    except Refused as refused:
        raise ModelRefused(refused.kind, refused.reason, f"{path}: {refused.place}") from None
