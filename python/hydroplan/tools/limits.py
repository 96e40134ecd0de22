"""The formulas that bound what a run takes (docs/use/FORMAT.md), computed from a problem file, and what fits them.

Outside the proved core: it reads the problem again on its own, and the program's line decides.
"""
from __future__ import annotations

from math import lcm
from typing import Any, Callable, NamedTuple, Optional

MOST_ITERATIONS = 2_000
MOST_PATHS = 64
MOST_SIMULATIONS = 1_000

# the greatest value of each formula
GREATEST = {1: 1 << 24, 2: 1 << 22, 3: 1 << 26, 4: 1 << 22, 5: 1 << 16, 6: 1 << 40, 7: 1 << 60}
MEANINGS = {
    1: "cuts of {value:,} numbers, limit {greatest:,}",
    2: "a table of {value:,} numbers for a node's program, limit {greatest:,}",
    3: "a record of {value:,} bytes, limit {greatest:,}",
    4: "a report of {value:,} numbers, limit {greatest:,}",
    5: "a policy of {value:,} branches, limit {greatest:,}",
    6: "probabilities of branches with a denominator of {value:,}, limit {greatest:,}",
    7: "the greatest cost of a stage times the stages: {value:,}, limit {greatest:,}",
}


class Sizes(NamedTuple):
    """The counts of a node: its rows, decisions, random values, realizations and successors."""

    rows: int
    decisions: int
    randoms: int
    realizations: int
    successors: int

    def table(self, paths: int) -> int:
        """Formula 2, for so many paths in all."""
        return (self.rows + (paths + 1) * self.successors) * (self.decisions + self.successors)

    def bytes(self, paths: int) -> int:
        """What the node adds to formula 3, for so many paths in all."""
        return 2 + self.realizations * (8 * self.rows + self.successors * (4 + 12 * (paths + 1)))


class Extent(NamedTuple):
    """The counts of a problem: its states, the nodes on its longest path, and each node's, in the byte order of names."""

    states: int
    longest: int
    nodes: tuple[Sizes, ...]

    def exceeded(self, iterations: int, batch: int) -> Optional[tuple[int, int]]:
        """The first of the formulas 1 to 3 that so many iterations exceed, with its value; none where all hold."""
        paths = iterations * batch
        rows = [(1, paths * self.longest * (self.states + 1))]
        rows += [(2, node.table(paths)) for node in self.nodes]
        rows.append((3, batch * (10 + sum(node.bytes(paths) for node in self.nodes))))
        return next((row for row in rows if row[1] > GREATEST[row[0]]), None)

    def most_iterations(self, batch: int) -> int:
        """The most iterations of a batch that no formula forbids."""
        return _greatest(MOST_ITERATIONS, lambda count: self.exceeded(count, batch) is None)

    def most_paths(self, iterations: int) -> int:
        """The greatest batch of so many iterations that no formula forbids, 0 where none is left."""
        return _greatest(MOST_PATHS, lambda batch: self.exceeded(iterations, batch) is None)

    def numbers(self) -> int:
        """What formula 4 has for each scenario."""
        widths = (node.decisions + node.rows + node.randoms + self.states + 4 for node in self.nodes)
        return self.longest * max(widths, default=0)

    def most_scenarios(self) -> int:
        """The most scenarios that formula 4 allows."""
        return min(MOST_SIMULATIONS, GREATEST[4] // max(1, self.numbers()))


def _greatest(most: int, holds: Callable[[int], bool]) -> int:
    """The greatest number up to `most` for which all numbers from 1 on hold; 0 where 1 does not."""
    low, high = 0, most
    while low < high:
        middle = (low + high + 1) // 2
        low, high = (middle, high) if holds(middle) else (low, middle - 1)
    return low


def extent_of(problem: dict[str, Any]) -> Extent:
    """The counts of a problem that the program accepts. KeyError, TypeError or the like where it is none."""
    subproblems = {name: _counts(it) for name, it in problem["subproblems"].items()}
    nodes = []
    for name in sorted(problem["nodes"], key=str.encode):
        node = problem["nodes"][name]
        realizations = len(node.get("realizations", [])) or 1
        nodes.append(Sizes(*subproblems[node["subproblem"]], realizations, len(node.get("successors", {}))))
    return Extent(len(problem["root"].get("state_variables", {})), longest_path(problem), tuple(nodes))


def _counts(subproblem: dict[str, Any]) -> tuple[int, int, int]:
    """The rows, the decisions and the random variables of a subproblem."""
    randoms = subproblem.get("random_variables", [])
    incoming = [it["in"] for it in subproblem.get("state_variables", {}).values()]
    program = subproblem["subproblem"]
    rows = sum(not _is_bound(it["function"], randoms) for it in program["constraints"])
    return rows, len(program["variables"]) - len(randoms) - len(incoming), len(randoms)


def _is_bound(function: dict[str, Any], randoms: list[str]) -> bool:
    return function["type"] == "Variable" and function.get("name", function.get("variable")) not in randoms


def in_order(problem: dict[str, Any]) -> list[str]:
    """The nodes' names, each before those that it leads to."""
    nodes, done, found = problem["nodes"], set(), []
    for start in nodes:
        way = [(start, iter(nodes[start].get("successors", {})))]
        while way and start not in done:
            name, rest = way[-1]
            follower = next((it for it in rest if it not in done), None)
            if follower is None:
                way.pop()
                done.add(name)
                found.append(name)
            else:
                way.append((follower, iter(nodes[follower].get("successors", {}))))
    return found[::-1]


def longest_path(problem: dict[str, Any]) -> int:
    """The number of nodes on the longest path from the root."""
    lengths: dict[str, int] = {}
    for name in reversed(in_order(problem)):
        followers = problem["nodes"][name].get("successors", {})
        lengths[name] = 1 + max((lengths[it] for it in followers), default=0)
    return max((lengths[it] for it in problem["root"]["successors"]), default=0)


def branches(problem: dict[str, Any]) -> int:
    """Formula 5: the branches of the root's successors together."""
    found: dict[str, int] = {}
    for name in reversed(in_order(problem)):
        node = problem["nodes"][name]
        below = sum(found[it] for it in node.get("successors", {}))
        found[name] = (len(node.get("realizations", [])) or 1) * (1 + below)
    return sum(found[it] for it in problem["root"]["successors"])


def denominator(problem: dict[str, Any]) -> int:
    """Formula 6: a common denominator of the probabilities of all branches."""
    found: dict[str, int] = {}
    for name in reversed(in_order(problem)):
        node = problem["nodes"][name]
        followers = node.get("successors", {})
        weights = sum(it["probability"] for it in node.get("realizations", [])) or 1
        onward = sum(followers.values()) + node.get("stop", 0) if followers else 1
        found[name] = weights * onward * lcm(*(found[it] for it in followers))
    first: dict[str, int] = problem["root"]["successors"]
    return sum(first.values()) * lcm(*(found[it] for it in first))
