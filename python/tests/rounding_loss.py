"""How far the bound of a training may stay below the least cost by rounding alone: derived on paper, for training that has converged.

S is 2^24, and Q the total of a node's successor weights, 1 at a last node. Training has converged where along each branch of its policy each
node has a cut that was made at the state that comes in, with the last cuts behind it. Then the bound is at least what this policy costs,
and so the least cost, less what the cuts of each node lose. A cut is the least value of a stage's cost over the boxes of its variables where
each row, and each cut of the next node, stands with a multiplier in place of being kept (docs/inside/THEORY.md). At best multipliers that
is the least cost of the stage; rounding loses this, and no more:

- `_coefficients`: a cut's slopes are rounded down to multiples of 1/S where the box begins, and its first number once more. So it loses 1/S
  for each unit by which a state may be above the least one, and 1/S.
- `_rows`: a row's multiplier is rounded down by less than 1/(SQ), so the cost is less by what the row's side is above the row, at most.
- `_shares`: multipliers of the next node's cuts are rounded down by less than 1/(SQ) each, and what is then missing to their sum is added to
  the greatest. So the cost is less by how far one cut is above another, somewhere in the box of the states, at most. Of tight cuts in a basis
  slopes are independent, with 1 beside them: there are no more than states in which slopes differ, and one.
- `_places`: a decision is rounded down to a multiple of 1/S, so a cut is made less than 1/S beside the state for which the node before
  asks. There it is less by the difference of two slopes, at most.

Nothing here is for the tolerances of a solver in floating point: who compares has to allow for these. Nor is anything for answers that are a
little beside the best ones, which the solver takes for good (`test_weak_answers`): no study is known whose bound is lower for them.
"""
from __future__ import annotations

import json
from fractions import Fraction
from itertools import permutations

UNIT = 1 << 24


def rounding_loss(compiled, check=None) -> Fraction:
    """The loss in money, summed over the nodes of a linear graph: of coefficients and rows, and with a `check` of shares and places too."""
    problem = json.loads(compiled.problem)
    loss = sum((_coefficients(problem, it) + _rows(problem, it) for it in problem["nodes"].values()), Fraction(0)) / (compiled.scales.cost or 1)
    if check is not None:
        links = ((it, next_one) for it in problem["nodes"].values() for next_one in it.get("successors", {}))
        loss += sum((_link(compiled, problem, it, _distinct(check, next_one)) for it, next_one in links), Fraction(0))
    return loss / UNIT


def _coefficients(problem, node) -> int:
    """What is lost by rounding slopes and the first number of a cut, times S."""
    boxes, states = _boxes(problem, node), _subproblem(problem, node)["state_variables"].values()
    return 1 + sum(boxes[it["in"]][1] - boxes[it["in"]][0] for it in states)


def _rows(problem, node) -> Fraction:
    """What is lost by rounding the multipliers of rows, times S."""
    boxes, rows = _boxes(problem, node), _subproblem(problem, node)["subproblem"]["constraints"]
    return Fraction(sum(_above(it, boxes) for it in rows if it["function"]["type"] != "Variable"), _total(node))


def _above(row, boxes) -> int:
    """By how much a side of a row is above the row, at most."""
    least = sum(min(it["coefficient"] * side for side in boxes[it["variable"]]) for it in row["function"]["terms"])
    return max(0, *(row["set"][side] - row["function"].get("constant", 0) - least for side in ("value", "lower", "upper") if side in row["set"]))


def _link(compiled, problem, node, cuts) -> Fraction:
    """What is lost between a node and the next, whose distinct cuts are given: shares and places, times S."""
    names = list(_subproblem(problem, node)["state_variables"])
    slopes = [[slope for _, own in cuts for slope in [own[at]]] for at in range(len(names))]
    differ = [max(it) - min(it) for it in slopes]
    at_once = min(len(cuts) - 1, sum(it > 0 for it in differ))
    return at_once * _apart(cuts, _out(compiled, problem, node)) / _total(node) + sum(
        (difference / compiled.scales.states[name] for name, difference in zip(names, differ)), Fraction(0)
    )


def _apart(cuts, box) -> Fraction:
    """By how much one cut is above another, somewhere in a box, at most."""
    return max((
        one[0] - other[0] + sum(max((high - low) * side for side in sides) for high, low, sides in zip(one[1], other[1], box))
        for one, other in permutations(cuts, 2)
    ), default=Fraction(0))


def _distinct(check, node):
    """The cuts of a node in money and the units of states: each first number with its slopes."""
    return list({(Fraction(it.alpha), tuple(map(Fraction, it.slopes))) for it in check.exact_cuts[node]})


def _out(compiled, problem, node):
    """The least and the greatest number of each state behind a node."""
    boxes = _boxes(problem, node)
    states = _subproblem(problem, node)["state_variables"].items()
    return [[side / compiled.scales.states[name] for side in boxes[it["out"]]] for name, it in states]


def _boxes(problem, node):
    """The least and the greatest number of each variable. What comes in may be the initial value, or what has a bound as it goes out."""
    subproblem = _subproblem(problem, node)
    rows = [it for it in subproblem["subproblem"]["constraints"] if it["function"]["type"] == "Variable"]
    found = {it["function"]["name"]: (it["set"].get("lower", 0), it["set"].get("upper", 0)) for it in rows}
    for state, variables in subproblem["state_variables"].items():
        initial = problem["root"]["state_variables"][state]
        low, high = found[variables["out"]]
        found.setdefault(variables["in"], (min(low, initial), max(high, initial)))
    for name in subproblem["random_variables"]:
        values = [it["support"][name] for it in node["realizations"]]
        found[name] = (min(values), max(values))
    return found


def _subproblem(problem, node):
    return problem["subproblems"][node["subproblem"]]


def _total(node) -> int:
    return sum(node.get("successors", {}).values()) or 1
