"""Processes that begin before most modules are there, since Python takes longer to read these than the processes take to begin.

They begin early where the words plainly ask for the training of a new journal on this machine, by the programs in `bin`. Whoever comes later
takes those of the same program, problem and paths. The others are ended.
"""
from __future__ import annotations

import os
import sys

from .process import Process, command, unnamed

TYPE_CHECKING = False
if TYPE_CHECKING:
    from typing import List, Optional, Sequence, Tuple

PACKAGE = os.path.dirname(os.path.dirname(os.path.realpath(__file__)))
INSTALLED = os.path.join(PACKAGE, "program")
# what `repository.TOP` is, without the library that it takes a while to read
TOP = INSTALLED if os.path.isdir(INSTALLED) else os.path.dirname(os.path.dirname(PACKAGE))
DOOR, KEPT = os.path.join(TOP, "hydroplan"), os.path.join(TOP, "bin", "hydroplan-x86_64-linux")
KEPT_WORKER = os.path.join(TOP, "bin", "worker", "hydroplan_worker-x86_64-linux")
NEWER = [os.path.join(TOP, "crates", it, "out", it) for it in ("hydroplan", "hydroplan_worker")]
WORKER_VARIABLE = "HYDROPLAN_WORKER"
MOST_PROBLEM = 1 << 24
MOST = {"seed": (1 << 64) - 1, "count": 2_000, "batch": 64, "--workers": 64, "--timeout": 1_000_000}


class Early:
    """A process of the living worker, with what it was sent: the problem, so many paths of an iteration, and perhaps its first order.

    `written` are the bytes that it took of these.
    """

    def __init__(self, program: str, problem: bytes, paths: int) -> None:
        self.process = Process(command(program, []))
        self.is_of = (program, problem, paths)
        self.written = 0
        self.first: Optional[Tuple[int, int]] = None
        """The seed and the count of its first order, where it has one."""

    def write(self, pieces: Sequence[bytes]) -> bool:
        """Writes pieces; whether it took all of them."""
        try:
            done = os.writev(self.process.input, pieces)
        except OSError:
            return False
        self.written += done
        return done == sum(map(len, pieces))


class Begun:
    """What is begun: the problem that was read, processes of the living worker, and the run that makes the journal, with its words."""

    def __init__(self) -> None:
        self.problem: Optional[bytes] = None
        self._workers: List[Early] = []
        self._making: Optional[Tuple[List[str], bytes, Process]] = None

    def begin(self, words: Sequence[str]) -> None:
        """Reads the problem and begins what the words plainly ask for."""
        found = _plain(words)
        if found is None or not _is_plain_here(words[1]):
            return
        from .summed import OtherSum, compared

        try:
            program, worker = compared(KEPT), compared(KEPT_WORKER)
        except (OtherSum, OSError):
            return  # they are compared again, and refused
        try:
            self.problem = sys.stdin.buffer.read(MOST_PROBLEM + 1)
        except OSError:
            return  # it is read again, and fails again
        if len(self.problem) <= MOST_PROBLEM:
            self._begin(found, program, worker, [words[1], words[2], "0", *words[4:5 if "batch" in found else 4]])

    def _begin(self, found: "dict[str, int]", program: str, worker: str, making: List[str]) -> None:
        assert self.problem is not None
        paths, problem = found.get("batch", 1), self.problem
        for _ in range(found["--workers"]):
            self._workers.append(Early(worker, problem, paths))
            self._workers[-1].write([paths.to_bytes(2, "big"), len(problem).to_bytes(4, "big"), problem])
        asked = command(program, ["train", *making])
        with unnamed(problem) as source:
            self._making = (asked, problem, Process(asked, source))
        self._order(found)

    def _order(self, found: "dict[str, int]") -> None:
        """Has the workers begin the first round, where they took the problem."""
        from .rounds import iterations_of_round, part_seed

        for part, count in enumerate(iterations_of_round(0, found["count"], found["--workers"])):
            worker, seed = self._workers[part], part_seed(found["seed"], part)
            if worker.written == 6 + len(worker.is_of[1]) and worker.write([training(seed, count)]):
                worker.first = (seed, count)

    def worker(self, program: object, problem: bytes, paths: int) -> Optional[Early]:
        """A process of a worker, which is nobody else's from now on."""
        at = next((at for at, it in enumerate(self._workers) if it.is_of == (str(program), problem, paths)), None)
        return None if at is None else self._workers.pop(at)

    def making(self, words: Sequence[str], problem: bytes) -> Optional[Process]:
        """The run with these words, which is nobody else's from now on."""
        if self._making is None or self._making[:2] != (list(words), problem):
            return None
        made, self._making = self._making[2], None
        return made

    def end(self) -> None:
        """Ends what nobody took."""
        left = [it.process for it in self._workers] + ([] if self._making is None else [self._making[2]])
        self._workers, self._making, self.problem = [], None, None
        for process in left:
            process.end()


BEGUN = Begun()


def training(seed: int, count: int) -> bytes:
    """The order to train so many iterations."""
    return b"T" + seed.to_bytes(8, "big") + count.to_bytes(4, "big")


def is_plain(words: Sequence[str]) -> bool:
    """Whether the words plainly ask for a training on this machine, by so many processes."""
    return _plain(words) is not None


def _plain(words: Sequence[str]) -> "Optional[dict[str, int]]":
    """The numbers of `train JOURNAL SEED COUNT [BATCH] --workers N [--timeout SECONDS]`, if the words are that."""
    front = next((at for at, it in enumerate(words) if it.startswith("-")), len(words))
    names, options = ["seed", "count", "batch"], words[front:]
    if words[:1] != ["train"] or front not in (4, 5) or not words[1] or len(options) % 2:
        return None
    given = [*zip(names, words[2:front]), *zip(options[::2], options[1::2])]
    found = {name: int(it) for name, it in given if name in MOST and it.isascii() and it.isdigit() and str(int(it)) == it}
    is_good = len(found) == len(given) and all(it <= MOST[name] for name, it in found.items())
    least = min([1, *(it for name, it in found.items() if name != "seed")])
    return found if is_good and least > 0 and "--workers" in found else None


def _is_plain_here(journal: str) -> bool:
    """Whether the journal is not there yet, and the programs in `bin` are those that will be asked."""
    is_new = not os.path.lexists(journal) and WORKER_VARIABLE not in os.environ and not any(map(os.path.exists, NEWER))
    return is_new and all(os.path.isfile(it) and os.access(it, os.X_OK) for it in (DOOR, KEPT, KEPT_WORKER))
