"""What a problem file says, by the names in it, as one linear program over the scenario tree.

A second reading of the format, with no code of the program or of the package: each variable of a branch is a column, its incoming and its
random variables too, and each thing that the file says of them is an equation or a row. Nothing is left out because it looks needless, and no
name that the file does not have gets a number.
"""
from __future__ import annotations

from dataclasses import dataclass
from typing import Dict, Iterator, List, Optional, Tuple


@dataclass
class Affine:
    """A function of the variables: what each name counts, names that come twice together, and a constant."""

    terms: Dict[str, int]
    constant: int


@dataclass
class Stage:
    """A stage: the states with the names of both variables, the random variables, what is to be least, and the constraints with their sides."""

    states: List[Tuple[str, str, str]]
    randoms: List[str]
    objective: Affine
    constraints: List[Tuple[Affine, Optional[int], Optional[int]]]


@dataclass
class Branch:
    """A branch of the scenario tree: the node's stage, the values that come, its probability, and the branch before it."""

    stage: Stage
    support: Dict[str, int]
    chance: float
    before: Optional["Branch"]
    number: int


def function_said(said: dict) -> Affine:
    """The function that the file says: a variable, or a sum of terms and a constant."""
    if said["type"] == "Variable":
        return Affine({said["name"] if "name" in said else said["variable"]: 1}, 0)
    assert said["type"] == "ScalarAffineFunction"
    terms: Dict[str, int] = {}
    for term in said["terms"]:
        terms[term["variable"]] = terms.get(term["variable"], 0) + term["coefficient"]
    return Affine(terms, said.get("constant", 0))


def sides_said(said: dict) -> Tuple[Optional[int], Optional[int]]:
    """Between which numbers a set lies, none where a side is open."""
    kind = said["type"]
    if kind == "EqualTo":
        return said["value"], said["value"]
    if kind == "Interval":
        return said["lower"], said["upper"]
    return (said["lower"], None) if kind == "GreaterThan" else (None, said["upper"])


def stage_said(said: dict) -> Stage:
    """The stage that a subproblem of the file says."""
    model = said["subproblem"]
    sense = model["objective"]["sense"]
    assert sense in ("min", "feasibility")
    return Stage(
        [(name, both["in"], both["out"]) for name, both in said.get("state_variables", {}).items()],
        said.get("random_variables", []),
        function_said(model["objective"]["function"]) if sense == "min" else Affine({}, 0),
        [(function_said(row["function"]), *sides_said(row["set"])) for row in model["constraints"]],
    )


def branches_at(file: dict, name: str, chance: float, before: Optional[Branch]) -> Iterator[Branch]:
    """The branches of a node that comes with this probability, and all that follow them."""
    node = file["nodes"][name]
    stage = stage_said(file["subproblems"][node["subproblem"]])
    realizations = node.get("realizations") or [{"probability": 1, "support": {}}]
    total = sum(it["probability"] for it in realizations)
    links = node.get("successors", {})
    ahead = node.get("stop", 0) + sum(links.values())
    for it in realizations:
        branch = Branch(stage, it.get("support", {}), chance * it["probability"] / total, before, -1)
        yield branch
        for successor, weight in links.items():
            yield from branches_at(file, successor, branch.chance * weight / ahead, branch)


def tree_said(file: dict) -> List[Branch]:
    """All branches of the file's scenario tree, each behind the one before it."""
    links = file["root"]["successors"]
    total = sum(links.values())
    found = [it for name, weight in links.items() for it in branches_at(file, name, weight / total, None)]
    for number, branch in enumerate(found):
        branch.number = number
    return found


def initial_said(file: dict) -> Dict[str, int]:
    """The number of each state before the first stage."""
    said = file["root"].get("state_variables", {})
    return {name: it["initial_value"] if isinstance(it, dict) else it for name, it in said.items()}


class TreeProgram:
    """One linear program over all branches, with a column for each name of each branch."""

    def __init__(self) -> None:
        self.columns: Dict[Tuple[int, str], int] = {}
        self.rows: List[Tuple[Dict[int, float], Optional[float], Optional[float]]] = []
        self.costs: Dict[int, float] = {}
        self.constant = 0.0

    def column(self, branch: Branch, name: str) -> int:
        """The column of a name in a branch."""
        return self.columns.setdefault((branch.number, name), len(self.columns))

    def row(self, branch: Branch, function: Affine, low: Optional[int], high: Optional[int]) -> None:
        """Keeps a function of a branch's variables between both sides."""
        terms = {self.column(branch, name): float(factor) for name, factor in function.terms.items()}
        self.rows.append((terms, None if low is None else low - function.constant, None if high is None else high - function.constant))

    def add(self, branch: Branch, initial: Dict[str, int]) -> None:
        """Takes in what the file says of one branch."""
        after = {name: out for name, _, out in branch.before.stage.states} if branch.before else {}
        for name, incoming, _ in branch.stage.states:
            here = self.column(branch, incoming)
            if branch.before is None:
                self.rows.append(({here: 1.0}, initial[name], initial[name]))
            else:
                self.rows.append(({here: 1.0, self.column(branch.before, after[name]): -1.0}, 0, 0))
        for name in branch.stage.randoms:
            self.row(branch, Affine({name: 1}, 0), branch.support[name], branch.support[name])
        for function, low, high in branch.stage.constraints:
            self.row(branch, function, low, high)
        self.constant += branch.chance * branch.stage.objective.constant
        for name, factor in branch.stage.objective.terms.items():
            at = self.column(branch, name)
            self.costs[at] = self.costs.get(at, 0.0) + branch.chance * factor

    def least(self) -> float:
        """The least cost, by the simplex code of HiGHS."""
        from scipy.optimize import Bounds, LinearConstraint, milp
        from scipy.sparse import coo_matrix

        entries = [(at, column, factor) for at, (terms, _, _) in enumerate(self.rows) for column, factor in terms.items()]
        rows, columns, factors = zip(*entries)
        matrix = coo_matrix((factors, (rows, columns)), shape=(len(self.rows), len(self.columns)))
        low = [float("-inf") if side is None else float(side) for _, side, _ in self.rows]
        high = [float("inf") if side is None else float(side) for _, _, side in self.rows]
        costs = [self.costs.get(at, 0.0) for at in range(len(self.columns))]
        solved = milp(costs, constraints=LinearConstraint(matrix.tocsr(), low, high), bounds=Bounds(float("-inf"), float("inf")))
        assert solved.success, solved.message
        return solved.fun + self.constant


def least_cost(file: dict) -> float:
    """The least expected cost of a policy of the file."""
    program, initial = TreeProgram(), initial_said(file)
    for branch in tree_said(file):
        program.add(branch, initial)
    return program.least()
