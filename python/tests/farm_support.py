"""What the tests of the farm share: problems, journals, records by hand, and an engine of plain calls, among which some lie."""
from __future__ import annotations

import hashlib
import json
import shutil
import subprocess
import tempfile
import unittest
from functools import lru_cache
from pathlib import Path
from typing import Callable, Dict, Iterable, List, Optional, Sequence, Tuple

from model_support import TOP

from hydroplan.farm import work
from hydroplan.farm.engine import DONE, FAILED, GONE, RUNNING
from hydroplan.farm.errors import WorkerFault, WorkerLeft
from hydroplan.farm.train_command import Words, train

PROGRAM = TOP / "bin" / "hydroplan-x86_64-linux"
EXAMPLES = sorted((TOP / "examples").glob("*.json"))
UNIT = 1 << 24


def ran(problem: bytes, *words: str) -> str:
    """What the program prints on a problem. AssertionError where it ends with a status other than 0."""
    ended = subprocess.run([str(PROGRAM), *words], input=problem, capture_output=True, check=False)
    if ended.returncode != 0:
        raise AssertionError(ended.stderr.decode())
    return ended.stdout.decode()


@lru_cache(maxsize=None)
def example(name: str) -> bytes:
    """An example as a problem: descriptions of plants are made to one."""
    text = (TOP / "examples" / f"{name}.json").read_bytes()
    return ran(text, "hydro").encode() if "stages" in json.loads(text) else text


def trained(problem: bytes, journal: Path, seed: int, count: int, *batch: str) -> Path:
    """A journal that the program trained."""
    ran(problem, "train", str(journal), str(seed), str(count), *batch)
    return journal


def with_seed(journal: Path, copy: Path, seed: int) -> Path:
    """A copy of a journal with another seed in its head (docs/use/FORMAT.md: bytes 43 to 50)."""
    data = bytearray(journal.read_bytes())
    data[43:51] = seed.to_bytes(8, "big")
    copy.write_bytes(data)
    return copy


def bound_of(report: str) -> int:
    """The last bound of a report."""
    return int(next(line for line in reversed(report.splitlines()) if line.startswith("bound ")).split()[1])


def cuts_of(report: str) -> List[Tuple[str, ...]]:
    """The cuts of a report of `check` behind the base cuts, without their places, in order."""
    lines = [line.split() for line in report.splitlines() if line.startswith("cut ")]
    return sorted((it[1], *it[3:]) for it in lines if it[2] != "0")


def number(value: int, size: int) -> bytes:
    """A number in so many bytes."""
    return value.to_bytes(size, "big")


def journal_bytes(problem: bytes, seed: int, payloads: Iterable[bytes], batch: Optional[int] = None) -> bytes:
    """A journal, by docs/use/FORMAT.md."""
    version = number(1, 2) if batch is None else number(2, 2)
    head = b"\x01HYDPLAN1" + version + hashlib.sha256(problem).digest() + number(seed, 8) + (b"" if batch is None else number(batch, 2))
    return head + b"".join(b"\x01" + number(len(it), 4) + it for it in payloads) + b"\x00"


class Folder(unittest.TestCase):
    """A test with a folder of its own."""

    def setUp(self) -> None:
        room = tempfile.TemporaryDirectory()
        self.addCleanup(room.cleanup)
        self.room = Path(room.name)


Lie = Callable[[Dict[str, object], bytes], object]


# of a worker that leaves when it is done, before its answer is had
LEFT = "left"


class PlainCall:
    """A call that is done at once: what the worker says of it."""

    def __init__(self, found: object) -> None:
        self._found = found

    def state(self) -> str:
        return self._found if self._found in (RUNNING, GONE, FAILED) else DONE

    def answer(self, most: int) -> bytes:
        if self._found == LEFT:
            raise WorkerLeft("it left before its answer could be had")
        if not isinstance(self._found, bytes) or len(self._found) > most:
            raise WorkerFault("its answer is no bytes, or more than were asked for")
        return self._found

    def drop(self) -> None:
        pass


class PlainEngine:
    """Workers that are plain functions of this process. `lies` says what some of them do to the answer that they have to give."""

    def __init__(self, names: Iterable[str], lies: Optional[Dict[str, Lie]] = None) -> None:
        self.names = list(names)
        self.lies = lies or {}
        self.asked: List[str] = []
        self.orders: List[Dict[str, object]] = []

    def workers(self) -> Dict[str, str]:
        return {f"at-{name}": name for name in self.names}

    def ahead(self, run: str, name: str, parts: Sequence[Sequence[bytes]], count: int, seeds: Dict[str, Tuple[int, int]]) -> None:
        """These workers take records with their orders alone."""

    def tell(self, run: str, name: str, parts: Sequence[Sequence[bytes]]) -> None:
        """These workers tell nothing of what they joined."""

    def spent(self, run: str) -> None:
        """What they take is not known."""

    def ready(self, problem: bytes, paths: int) -> None:
        pass

    def begin(self, address: str, order: Dict[str, object]) -> PlainCall:
        name = address[3:]
        self.asked.append(name)
        self.orders.append(dict(order))
        own = dict(order, run=f"{order['run']}-{name}", place=str(PROGRAM))
        lie = self.lies.get(name)
        answer = work.perform(own)
        return PlainCall(answer if lie is None else lie(own, answer))

    def rest(self, run: str, seconds: float) -> None:
        pass

    def wait(self, calls: Iterable[PlainCall], seconds: float) -> None:
        pass

    def close(self, run: str) -> None:
        for name in self.names:
            work.forget(f"{run}-{name}")


def farmed(problem: bytes, journal: Path, engine: PlainEngine, count: int, parts: int, seconds: float = 600, batch: Optional[int] = None):
    """A journal that a farm of plain workers trained with seed 7; the report, and what was said meanwhile."""
    said: List[str] = []
    words = Words(journal, 7, count, batch, parts, None, seconds)
    return train(words, problem, said.append, lambda _: engine), said


def copied(folder: Path, copy: Path) -> Path:
    """A copy of a file."""
    shutil.copyfile(folder, copy)
    return copy
