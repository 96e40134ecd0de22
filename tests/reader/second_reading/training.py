"""Iterations of training: paths walked forward, certificates and cuts made backward, as one thread does it."""
from __future__ import annotations

from dataclasses import dataclass, field
from typing import Dict, List, Optional, Sequence, Tuple, Union

from .cuts import OutOfRange, Pools, base_pools, bound_of, cut_of
from .drawing import Path, path_of, stream_of
from .node import UNIT
from .ordering import solving_order
from .problem import Problem
from .program import Answer, Program
from .settling import Certificate, certificate_of_duals
from .stages import NoDecision, Solver, node_with_pools, program_of

Step = Tuple[int, List[Certificate]]
"""A node, with a certificate for each of its realizations."""

LEAST_WORK = 1 << 20
"""The cells of all tables together from which on realizations go in two chains."""


def takes_long(program: Program, solves: int) -> bool:
    """Whether so many solves of such programs take long: by the cells of own rows and of eight cuts' rows in all of them together."""
    return len(program.columns) * (len(program.own) + 8) * solves >= LEAST_WORK


@dataclass
class Entry:
    """The entry of a path: its steps, the last node first, and how many answers were of no use."""

    iteration: int
    steps: List[Step] = field(default_factory=list)
    unanswered: int = 0


@dataclass
class Stopped:
    """The cause that ended an iteration: a node without decisions, or one of whose cut the sizes leave 128 bits."""

    iteration: int
    cause: Union[NoDecision, OutOfRange]
    number: int = 0


class Training:
    """Training of a problem by a seed, with so many paths an iteration.

    `two`: whether the realizations of a node go in two chains; without it they do where they take long.
    """

    def __init__(self, problem: Problem, seed: int, batch: int = 1, two: Optional[bool] = None) -> None:
        self.problem, self.seed, self.batch, self.two = problem, seed, batch, two
        self.pools: Pools = base_pools(problem)
        self.solver = Solver(problem, self.pools)
        self.records: List[List[Entry]] = []
        self.bounds: List[int] = []
        self.stopped: Optional[Stopped] = None

    def walk(self, path: Path, entry: Entry) -> List[List[int]]:
        """The incoming states along a path, over the pools as they are."""
        state, states = [UNIT * it for it in self.problem.initial], []
        for number, realization in path:
            states.append(state)
            values = self.problem.places[number].realizations[realization].values
            _, of_use, decisions = self.solver.decided(number, self.pools, values, state)
            entry.unanswered += not of_use
            state = self.solver.left(number, decisions)
        return states

    def in_two_chains(self, number: int, state: Sequence[int]) -> bool:
        """Whether the realizations of a node go in two chains."""
        if self.two is not None:
            return self.two
        place = self.problem.places[number]
        return takes_long(program_of(place, self.pools, place.realizations[0].values, state), len(place.realizations))

    def certificates(self, number: int, state: Sequence[int], entry: Entry) -> List[Certificate]:
        """The certificates of all realizations of a node at a state, in the order of the file.

        The solving order is one chain, or where that takes long its first half is one and the rest another. The first in that order without
        decisions stops it all.
        """
        place = self.problem.places[number]
        given = [it.values for it in place.realizations]
        order = solving_order(given)
        count = len(order) // 2 if self.in_two_chains(number, state) else len(order)
        answers: Dict[int, Answer] = {}
        for part in (order[:count], order[count:]):
            answers.update(zip(part, self.solver.answers(number, self.pools, [given[it] for it in part], state)))
        for it in order:
            entry.unanswered += not self.solver.worth(number, given[it], state, answers[it])
        node = node_with_pools(place, self.pools)
        return [certificate_of_duals(node, answers[it]) for it in range(len(given))]

    def sweep(self, path: Path, states: Sequence[Sequence[int]], entry: Entry) -> None:
        """Makes a cut at each node of a path, from its last to its first."""
        for (number, _), state in zip(reversed(path), reversed(states)):
            made = self.certificates(number, state, entry)
            try:
                cut = cut_of(self.problem.places[number], self.pools, made)
            except OutOfRange as cause:
                self.stopped = Stopped(entry.iteration, cause, number)
                raise
            self.pools[number].append(cut)
            entry.steps.append((number, made))

    def iterate(self) -> bool:
        """Goes through one iteration, and says whether nothing stopped it. Pools of one that stopped are of no use."""
        iteration = len(self.records) + 1
        streams = [stream_of(iteration, self.batch, it) for it in range(1, self.batch + 1)]
        paths = [path_of(self.problem, self.seed, it) for it in streams]
        entries = [Entry(iteration) for _ in paths]
        try:
            walked = [self.walk(path, entry) for path, entry in zip(paths, entries)]
            for path, states, entry in zip(paths, walked, entries):
                self.sweep(path, states, entry)
        except NoDecision as cause:
            self.stopped = Stopped(iteration, cause)
        except OutOfRange:
            pass
        if self.stopped is None:
            self.records.append(entries)
            self.bounds.append(bound_of(self.problem, self.pools))
        return self.stopped is None

    def put(self, entries: List[Entry]) -> None:
        """Makes the cuts of an iteration that was kept."""
        for number, made in (step for entry in entries for step in entry.steps):
            self.pools[number].append(cut_of(self.problem.places[number], self.pools, made))
        self.records.append(entries)
        self.bounds.append(bound_of(self.problem, self.pools))

    def train(self, count: int) -> None:
        """Goes on until there are so many iterations, or one is stopped."""
        while len(self.records) < count and self.iterate():
            pass

    @property
    def unanswered(self) -> int:
        """How many answers were of no use."""
        return sum(entry.unanswered for entries in self.records for entry in entries)
