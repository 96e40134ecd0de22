"""Decisions of a simulation as fractions in the user's units, from the lines of the report themselves."""
from __future__ import annotations

import json
from dataclasses import dataclass, field
from fractions import Fraction
from typing import Dict, List

import model_support  # noqa: F401
from hydroplan.core import find_program, run

UNIT = 1 << 24


@dataclass
class ExactStage:
    """A stage of a path: numbers by name; `missed` has by how much each row is missed."""

    number: int
    incoming: Dict[str, Fraction] = field(default_factory=dict)
    randoms: Dict[str, Fraction] = field(default_factory=dict)
    values: Dict[str, Fraction] = field(default_factory=dict)
    missed: Dict[str, Fraction] = field(default_factory=dict)
    cost: Fraction = Fraction(0)


def exact_paths(compiled, journal, seed, scenarios) -> List[List[ExactStage]]:
    """The paths of `simulate`."""
    ended = run(find_program(), ["simulate", str(journal), str(seed), str(scenarios)], compiled.problem)
    assert ended.status == 0, ended.errors
    paths: List[List[ExactStage]] = []
    path: List[ExactStage] = []
    for line in ended.output.splitlines():
        words = line.split()
        if words[0] == "stage":
            path.append(ExactStage(int(words[1]) + 1))
            node = compiled.node_names[int(words[3])]
        elif words[0] == "end":
            paths.append(path)
            path = []
        elif path:
            _take(compiled, node, path[-1], line)
    return paths


def _take(compiled, node, stage, line) -> None:
    """Takes a line of a stage."""
    own = compiled.scales.subproblems[compiled.scales.nodes[node]]
    shared = compiled.shared.subproblems[compiled.scales.nodes[node]]
    word, _, rest = line.partition(" ")
    if word in ("in", "random", "value"):
        name, number = json.loads(rest.rpartition(" ")[0]), int(rest.rpartition(" ")[2])
        state = name if word == "in" else shared.states_of().get(name)
        scale = compiled.scales.states[state] if state is not None else own.variables[name]
        table = {"in": stage.incoming, "random": stage.randoms, "value": stage.values}[word]
        table[name] = Fraction(number, 1 if word == "random" else UNIT) / scale
    elif word == "row":
        number, _, residual = rest.split()
        row = own.rows[int(number)]
        stage.missed[compiled.row_names(node)[int(number)]] = Fraction(int(residual), UNIT) / own.constraints[row]
    elif word == "cost":
        stage.cost = Fraction(int(rest), UNIT) / (compiled.scales.cost or 1)
