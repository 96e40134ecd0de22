"""Stage programs of nodes over pools of cuts, and what a chain of solves answers to them."""
from __future__ import annotations

from dataclasses import replace
from typing import List, Optional, Sequence, Tuple

from .cuts import Pools
from .ladder import Chain, answer_of, begin, start
from .node import UNIT, Node, StageRow, Successor, decisions_of, given_part
from .problem import Place, Problem
from .program import FINER, Answer, Column, Cut, Program, Row
from .program import UNIT as RAW
from .settling import classified

Ends = Tuple[int, int]


class NoDecision(Exception):
    """A node has no decisions at some values and an incoming state, as these multipliers of its rows show."""

    def __init__(self, number: int, values: Sequence[int], state: Sequence[int], rows: Sequence[int]) -> None:
        super().__init__(number)
        self.number, self.values, self.state, self.rows = number, tuple(values), tuple(state), tuple(rows)


def ends_of(place: Place, cut: Cut) -> Ends:
    """The least and the greatest value of a cut over what may leave a stage."""
    boxes = [place.stage.node.boxes[out] for out in place.stage.outs]
    ends = [sorted((slope * low, slope * high)) for slope, (low, high) in zip(cut.slopes, boxes)]
    return cut.alpha + sum(low for low, _ in ends), cut.alpha + sum(high for _, high in ends)


def future_column(place: Place, weight: int, pool: Sequence[Cut]) -> Column:
    """The cost to come at a successor: from the first cut's least value to the greatest of all cuts."""
    return Column(FINER * ends_of(place, pool[0])[0], FINER * max(ends_of(place, cut)[1] for cut in pool), RAW * weight)


def side_at(row: StageRow, side: Optional[int], values: Sequence[int], state: Sequence[int]) -> Optional[int]:
    """A side less what is given."""
    return None if side is None else RAW * side - FINER * given_part(row, values, state)


def own_row(row: StageRow, values: Sequence[int], state: Sequence[int]) -> Row:
    """A row of the problem, as it bounds the decisions."""
    low, high = (side_at(row, side, values, state) for side in (row.low, row.high))
    return Row(low, high, tuple((decision, RAW * it) for decision, it in row.terms))


def own_rows(place: Place, values: Sequence[int], state: Sequence[int]) -> Tuple[Row, ...]:
    """The rows of the problem at some values and a state."""
    return tuple(own_row(row, values, state) for row in place.stage.node.rows)


def program_of(place: Place, pools: Pools, values: Sequence[int], state: Sequence[int]) -> Program:
    """The stage program of a node."""
    node, followers = place.stage.node, [(pools[number], weight) for number, weight in place.successors]
    columns = [Column(RAW * low, RAW * high, RAW * place.total * cost) for (low, high), cost in zip(node.boxes, node.costs)]
    columns += [future_column(place, weight, pool) for pool, weight in followers]
    rows = own_rows(place, values, state)
    return Program(len(node.boxes), tuple(columns), rows, place.stage.outs, tuple(tuple(pool) for pool, _ in followers))


def reference(place: Place, pools: Pools) -> Program:
    """The program by which a node's start is made: its first realization, at a quarter of the box from its least state."""
    state = [UNIT // 4 * (3 * low + high) for low, high in place.box]
    return program_of(place, pools, place.realizations[0].values, state)


def node_with_pools(place: Place, pools: Pools) -> Node:
    """The node as certificates are made at it."""
    return replace(place.stage.node, successors=tuple(Successor(weight, len(pools[number])) for number, weight in place.successors))


class Solver:
    """The chains of a problem's nodes. Starts belong to nodes alone, so each is made once."""

    def __init__(self, problem: Problem, pools: Pools) -> None:
        self.problem = problem
        self.starts: List[Chain] = [start(reference(place, pools), []) for place in problem.places]

    def answers(self, number: int, pools: Pools, given: Sequence[Sequence[int]], state: Sequence[int]) -> List[Answer]:
        """The answers at a node to the programs of some values, one after another in one chain."""
        place, found = self.problem.places[number], []
        if not given:
            return found
        program = program_of(place, pools, given[0], state)
        chain = begin(self.starts[number], program)
        for values in given:
            sides = [(row.low, row.high) for row in own_rows(place, values, state)]
            answer, chain = answer_of(chain, program.with_sides(sides), [])
            found.append(answer)
        return found

    def worth(self, number: int, values: Sequence[int], state: Sequence[int], answer: Answer) -> bool:
        """Whether an answer is of use; a ray that shows that there are no decisions ends it all."""
        kind, rows = classified(self.problem.places[number].stage.node, values, state, answer)
        if kind == "Infeasible":
            raise NoDecision(number, values, state, rows or ())
        return kind == "Found"

    def decided(self, number: int, pools: Pools, values: Sequence[int], state: Sequence[int]) -> Tuple[Answer, bool, List[int]]:
        """The answer at a node in a chain of its own, whether it is of use, and its decisions, rounded down and taken into their boxes."""
        answer = self.answers(number, pools, [values], state)[0]
        of_use = self.worth(number, values, state, answer)
        return answer, of_use, decisions_of(self.problem.places[number].stage.node, answer.point)

    def left(self, number: int, decisions: Sequence[int]) -> List[int]:
        """Returns the state that leaves a node."""
        return [decisions[out] for out in self.problem.places[number].stage.outs]
