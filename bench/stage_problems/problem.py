#!/usr/bin/env python3
"""Prints a problem of two nodes, one after the other, whose stage has so many states (50 where no number is given): a reservoir and a
plant for each, and four rows and decisions for each state, so 200 of both. Each node has ten realizations with an inflow for each
reservoir. All incoming states have bounds."""
import json
import sys


def affine(*terms):
    return {"type": "ScalarAffineFunction", "terms": [{"coefficient": factor, "variable": name} for factor, name in terms]}


def row(kind, *terms, **sides):
    return {"function": affine(*terms), "set": {"type": kind, **sides}}


def bound(name, low, high):
    return {"function": {"type": "Variable", "name": name}, "set": {"type": "Interval", "lower": low, "upper": high}}


def reservoir(k, count):
    """The bounds and rows of one reservoir, with what flows in from the one before it and with the plant beside it."""
    above = [(-1, f"q{k - 1}"), (-1, f"s{k - 1}")] if k else []
    after = (k + 1) % count
    return [
        bound(f"i{k}", 0, 100), bound(f"o{k}", 0, 100), bound(f"q{k}", 0, 40 + k % 7), bound(f"s{k}", 0, 5000), bound(f"g{k}", 0, 60),
        row("EqualTo", (1, f"o{k}"), (1, f"q{k}"), (1, f"s{k}"), *above, (-1, f"i{k}"), (-1, f"w{k}"), value=0),
        row("GreaterThan", (2 + k % 3, f"q{k}"), (1, f"g{k}"), lower=30 + k % 11),
        row("LessThan", (1, f"o{k}"), (1, f"i{after}"), (1, f"s{after}"), upper=9000),
        row("Interval", (1, f"g{k}"), (-1, f"g{after}"), lower=-50, upper=50),
    ]


def stage(count):
    each = range(count)
    costs = [term for k in each for term in ((5 + k % 9, f"g{k}"), (1, f"s{k}"))]
    return {
        "state_variables": {f"r{k:02d}": {"in": f"i{k}", "out": f"o{k}"} for k in each},
        "random_variables": [f"w{k}" for k in each],
        "subproblem": {
            "variables": [{"name": f"{letter}{k}"} for k in each for letter in "ioqsgw"],
            "objective": {"sense": "min", "function": {**affine(*costs), "constant": 0}},
            "constraints": [rule for k in each for rule in reservoir(k, count)],
        },
    }


def node(number, count, successors):
    inflows = [{f"w{k}": (number * 13 + r * 17 + k * 19) % 20 for k in range(count)} for r in range(10)]
    realizations = [{"probability": 1 + r, "support": support} for r, support in enumerate(inflows)]
    return {"subproblem": "stage", "realizations": realizations, "successors": successors}


def problem(count):
    return {
        "version": {"major": 1},
        "root": {"state_variables": {f"r{k:02d}": 50 + k % 10 for k in range(count)}, "successors": {"0": 1}},
        "nodes": {"0": node(0, count, {"1": 1}), "1": node(1, count, {})},
        "subproblems": {"stage": stage(count)},
    }


json.dump(problem(int(sys.argv[1]) if len(sys.argv) > 1 else 50), sys.stdout, separators=(",", ":"))
print()
