"""The joined journal as a worker keeps it for the built program, which reads all of it at each order."""
from __future__ import annotations

import subprocess
from pathlib import Path
from typing import Any, List, Mapping, Optional, Sequence, Tuple

from .joined import Front, front_of, moved_round
from .journals import Growing, Head, framed, unframed
from .program import command, unnamed
from .shape import Shape, shape_of

MOST_LINE = 1 << 12

Order = Mapping[str, Any]


class KeptJournal:
    """A folder with a journal. `name` is that of its records, `own` has its last answer, `own_name` the name of the order to it."""

    def __init__(self, order: Order) -> None:
        self.name, self.own_name = "", ""
        self.own: List[bytes] = []
        import tempfile

        self.folder = Path(tempfile.mkdtemp(prefix="hydroplan-farm-", dir=_place()))
        self._journal = self.folder / "journal"
        self._problem: bytes = order["problem"]
        (self.folder / "problem.json").write_bytes(self._problem)
        self._journal.write_bytes(_head(order) + order["whole"] + b"\x00")
        self._end = self._journal.stat().st_size - 1
        self._front: Optional[Tuple[Shape, Front]] = None

    def join(self, parts: Sequence[Sequence[bytes]], paths: int) -> None:
        """Puts the records of parts behind those that are there. PartFault where one is none."""
        shape, front = self._front or self._looked()
        moved, after = moved_round(shape, front, parts, paths)
        with self._journal.open("r+b") as journal:
            journal.seek(self._end)
            journal.write(b"".join(b"\x01" + framed(it) for it in moved) + b"\x00")
        self._end, self._front = after.end, (shape, after)

    def _looked(self) -> Tuple[Shape, Front]:
        """The shape of the problem, and the front of the journal, which has no more records than it was given."""
        self._cut()
        shape = shape_of(self._problem)
        with Growing(self._journal) as journal:
            return shape, front_of(shape, journal)

    def _cut(self) -> None:
        """Takes back what was trained behind the joined records."""
        with self._journal.open("r+b") as journal:
            journal.truncate(self._end)
            journal.seek(self._end)
            journal.write(b"\x00")

    def _run(self, order: Order, program: Path, words: List[str], output: Path) -> Tuple[int, str]:
        """Runs the program; its status, below 0 where it was killed, and the front of what it said."""
        self._cut()
        with self._journal.open("r+b") as journal:
            journal.write(_head(order))
        with (self.folder / "problem.json").open("rb") as source, output.open("wb") as report, unnamed() as errors:
            try:
                ended = subprocess.run(
                    command(program, words), stdin=source, stdout=report, stderr=errors, timeout=order["seconds"], check=False, cwd=self.folder,
                )
            except subprocess.TimeoutExpired:
                return -1, "the time was over"
            errors.seek(0)
            return ended.returncode, errors.read(MOST_LINE).decode("utf-8", "replace")

    def train(self, order: Order, program: Path) -> Tuple[int, str, bytes]:
        """Trains to the count of the order; the status, the line, and the records that came with commit bytes between them."""
        status, line = self._run(order, program, ["train", "journal", str(order["seed"]), str(order["count"])], Path("/dev/null"))
        if status != 0:
            return status, line, b""
        with self._journal.open("rb") as journal:
            journal.seek(self._end)
            tail = journal.read(order["most"] + 2)
        if tail[:1] != b"\x01" or len(tail) > order["most"] + 1:
            return status, line, tail
        self._keep_own(order, tail[1:-1])
        return status, line, tail[1:-1]

    def _keep_own(self, order: Order, tail: bytes) -> None:
        """Keeps the records for the next round."""
        try:
            self.own, self.own_name = unframed(tail, order["most"]), order["order"]
        except ValueError:
            self.own, self.own_name = [], ""

    def simulate(self, order: Order, program: Path) -> Tuple[int, str, bytes]:
        """Simulates; the status, the line, and the report."""
        report = self.folder / "report"
        status, line = self._run(order, program, ["simulate", "journal", str(order["draws"]), str(order["scenarios"])], report)
        with report.open("rb") as file:
            return status, line, file.read(order["most"] + 1)

    def end(self) -> None:
        """Removes the folder."""
        import shutil

        shutil.rmtree(self.folder, ignore_errors=True)


def _head(order: Order) -> bytes:
    return Head(order["digest"], order["seed"], order["batch"]).bytes()


def _place() -> Optional[str]:
    """The folder in which a worker of dask keeps its files; none elsewhere."""
    try:
        from distributed import get_worker
        return str(get_worker().local_directory)
    except (ImportError, ValueError):
        return None
