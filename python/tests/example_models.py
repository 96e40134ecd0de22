"""The problems of examples/ made anew by the package's own words: stages, states, variables, constraints and nodes."""
from __future__ import annotations

import json

from model_support import TOP
from hydroplan.expressions import total
from hydroplan.model import Model, between

NAMES = ("one_reservoir", "two_reservoirs", "three_stages", "farmer", "markov_year", "five_reservoirs")


def example(name: str) -> dict:
    """The problem in a file of examples/."""
    return json.loads((TOP / "examples" / f"{name}.json").read_text(encoding="utf-8"))


def initial_value(given: object) -> object:
    """An initial value, which a file gives as a number or in an object."""
    return given["initial_value"] if isinstance(given, dict) else given


def model_of(problem: dict) -> Model:
    """The model; bounds of incoming states are left out, since they come of themselves."""
    model = Model({name: initial_value(it) for name, it in problem["root"]["state_variables"].items()})
    for name, subproblem in problem["subproblems"].items():
        fill(model.stage(name), subproblem)
    for name, node in problem["nodes"].items():
        realizations = [(it["probability"], it.get("support", {})) for it in node.get("realizations", [])]
        model.node(name, model.stages[node["subproblem"]], realizations, node.get("successors"), node.get("stop", 0))
    model.root(problem["root"]["successors"])
    return model


def fill(stage, subproblem):
    """Fills a stage."""
    program, randoms = subproblem["subproblem"], subproblem.get("random_variables", [])
    sides = {it["function"]["name"]: it["set"] for it in program["constraints"] if it["function"]["type"] == "Variable"}
    states, variables = subproblem["state_variables"], {}
    for name, ends in states.items():
        bound = sides[ends["out"]]
        state = stage.state(name, bound["lower"], bound["upper"])
        variables.update({ends["in"]: state.incoming, ends["out"]: state.outgoing})
    for name in (it["name"] for it in program["variables"]):
        if name not in variables:
            bound = sides.get(name, {})
            variables[name] = stage.random(name) if name in randoms else stage.variable(name, bound["lower"], bound["upper"])
    for row in program["constraints"]:
        if row["function"]["type"] != "Variable":
            stage.add(relation(expression(row["function"], variables), row["set"]), name=row.get("name"))
    stage.minimize(expression(program["objective"]["function"], variables))


def expression(function, variables):
    """A linear function."""
    return total([it["coefficient"] * variables[it["variable"]] for it in function["terms"]]) + function["constant"]


def relation(left, sides):
    """A constraint between sides."""
    if sides["type"] == "Interval":
        return between(sides["lower"], left, sides["upper"])
    return {
        "EqualTo": lambda: left == sides["value"], "LessThan": lambda: left <= sides["upper"], "GreaterThan": lambda: left >= sides["lower"],
    }[sides["type"]]()
