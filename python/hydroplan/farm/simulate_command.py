"""The command `simulate` on a cluster."""
from __future__ import annotations

import tempfile
from dataclasses import dataclass
from pathlib import Path
from typing import Callable, Iterator, Optional

from ..core import Place
from .asking import Asking
from .checking import Checking
from .engine import Engine
from .plan import Plan
from .program import program_to_run
from .shape import shape_of
from .simulating import FarmSimulation, parts_of


@dataclass(frozen=True)
class SimulationWords:
    """The words of `simulate`: the journal, the seed, the scenarios, and when a worker is silent."""

    journal: Path
    seed: int
    count: int
    seconds: float = 600.0
    program: Optional[Place] = None


def simulate(words: SimulationWords, problem: bytes, say: Callable[[str], None], engine_from: Callable[[], Engine]) -> Iterator[str]:
    """Follows the policy of a journal along scenarios that workers simulate; the lines of the report, as one program would write them.

    FarmError with a status as in docs/use/FORMAT.md where the program refuses the problem, the journal or the words, or no worker is left.
    """
    shape, program = shape_of(problem), program_to_run(words.program)
    simulation = FarmSimulation(problem, shape, program, words.journal, parts_of(shape, words.seed, words.count))
    with tempfile.TemporaryDirectory(prefix="hydroplan-farm-") as folder:
        (Path(folder) / "problem.json").write_bytes(problem)
        head = simulation.look(Checking(program, words.journal.resolve(), Path(folder) / "problem.json"))
        yield from head
        engine = engine_from()
        try:
            # refusals of a simulation are kept with those of the training of the same journal
            yield from simulation.run(Asking(engine, Plan(words.journal, shape.digest), words.seconds, say))
        finally:
            engine.close(simulation.run_name)
