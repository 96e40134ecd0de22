"""A scheduler of dask and workers, each a process of its own, for tests. `liar.py` makes a worker of them lie."""
from __future__ import annotations

import json
import os
import signal
import subprocess
import sys
import time
from importlib.util import find_spec
from pathlib import Path
from typing import Dict, List, Optional

from farm_support import PROGRAM, TOP

HAS_DISTRIBUTED = find_spec("distributed") is not None
FIRST_SECONDS = 60

LIAR = """
import hydroplan.farm.work as work

# dask runs this file more than once
if not hasattr(work, "honest"):
    work.honest = work.answer


def answer(order):
    answer = work.honest(order)
    {lie}

work.answer = answer
"""


def environment() -> Dict[str, str]:
    """The environment in which the package is found."""
    kept = {name: value for name, value in os.environ.items() if name != "PYTHONPATH"}
    return {**kept, "PYTHONPATH": str(TOP / "python"), "DASK_DISTRIBUTED__SCHEDULER__PICKLE": "False"}


def farm_command(*words: str) -> List[str]:
    """The command line of the farm."""
    return [sys.executable, "-m", "hydroplan.farm", *words, "--program", str(PROGRAM)]


class Cluster:
    """A scheduler, and workers by their names. Leaving the context kills all of them."""

    def __init__(self, folder: Path) -> None:
        self._folder = folder
        self._file = folder / "scheduler.json"
        self._running: Dict[str, "subprocess.Popen[bytes]"] = {}
        self._start("scheduler", "scheduler", "--host", "127.0.0.1", "--port", "0", "--no-dashboard", "--scheduler-file", str(self._file))
        begun = time.monotonic()
        while not self._is_written():
            if time.monotonic() - begun > FIRST_SECONDS:
                raise AssertionError("the scheduler does not begin")
            time.sleep(0.05)

    def _is_written(self) -> bool:
        """Whether the scheduler has written where it is, to the end."""
        return self._file.exists() and self._file.read_text(encoding="utf-8").rstrip().endswith("}")

    def __enter__(self) -> Cluster:
        return self

    def __exit__(self, *fault: object) -> None:
        for name in list(self._running):
            self.kill(name)

    @property
    def address(self) -> str:
        """The scheduler's address."""
        return str(json.loads(self._file.read_text(encoding="utf-8"))["address"])

    def _start(self, name: str, kind: str, *words: str) -> None:
        with (self._folder / f"{name}.log").open("wb") as log:
            self._running[name] = subprocess.Popen(
                [sys.executable, "-m", f"distributed.cli.dask_{kind}", *words], stdout=log, stderr=log, env=environment(),
                cwd=self._folder, start_new_session=True,
            )

    def start_worker(self, name: str, lie: Optional[str] = None) -> None:
        """Starts a worker, which does to each answer what `lie` says."""
        words = ["--nthreads", "1", "--no-nanny", "--no-dashboard", "--name", name, "--local-directory", str(self._folder / f"of-{name}")]
        if lie is not None:
            preload = self._folder / f"{name}_preload.py"
            preload.write_text(LIAR.format(lie=lie), encoding="utf-8")
            words += ["--preload", str(preload)]
        self._start(name, "worker", self.address, *words)

    def kill(self, name: str) -> None:
        """Kills a worker, with all processes that it began."""
        process = self._running.pop(name)
        try:
            os.killpg(process.pid, signal.SIGKILL)
        except ProcessLookupError:
            pass
        process.wait()
