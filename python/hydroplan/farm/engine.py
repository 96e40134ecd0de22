"""By what orders reach workers and answers come back: workers by their addresses, calls on one of them, and what became of a call.

One such engine is dask.distributed, for machines of a cluster. All that this package knows of it stands here.
"""
from __future__ import annotations

import importlib
import time
import warnings
from contextlib import suppress
from typing import Any, Callable, Dict, Iterable, List, Mapping, Optional, Protocol, Sequence, Tuple

from .errors import FarmError, WorkerFault, WorkerLeft
from .work import Order, answer, forget

NOT_RUN = 1
# what answers are written as: bytes and plain values, never pickled objects
PLAIN = ["msgpack"]
LOOKS_EVERY = 0.2
RUNNING, DONE, FAILED, GONE = "running", "done", "failed", "gone"


class Call(Protocol):
    """An order that a worker has."""

    def state(self) -> str:
        """RUNNING, DONE, FAILED where it raised an exception, or GONE where its worker left."""

    def answer(self, most: int) -> bytes:
        """What came of a call that is done; WorkerFault where that is no bytes, or more than so many, WorkerLeft where its worker left with it."""

    def drop(self) -> None:
        """Forgets the call. The worker may be busy with it for a while."""


class Teller(Protocol):
    """A worker that tells rounds as they stand joined."""

    def told(self) -> Optional[List[bytes]]:
        """The records of the first round that it was asked to tell and that was not had yet, once all are there. ProcessFault where it is gone."""

    def wait(self, seconds: float) -> None:
        """Waits until it tells more, and no longer than so many seconds."""


class Engine(Protocol):
    """Workers that take orders."""

    def workers(self) -> Dict[str, str]:
        """The workers that are there: their names by their addresses."""

    def ready(self, problem: bytes, paths: int) -> None:
        """Is told of what problem the first orders will be, and of how many paths an iteration, so that workers may begin to read it."""

    def ahead(self, run: str, name: str, parts: Sequence[Sequence[bytes]], count: int, seeds: Mapping[str, Tuple[int, int]]) -> None:
        """Is told of the records of the first parts of a round, of so many in all, which orders behind it will bring: workers may take them before.

        `seeds` has the seeds and counts of these orders by the addresses of those who will probably have them; they may begin with all parts.
        """

    def tell(self, run: str, name: str, parts: Sequence[Sequence[bytes]]) -> Optional[Teller]:
        """The worker that tells a round as it stands joined, where one was asked to ahead, or may be asked now."""

    def spent(self, run: str) -> Optional[float]:
        """The processor seconds that workers took for a run, where that is known. Of processes that were killed it need not have any."""

    def begin(self, address: str, order: Order) -> Call:
        """Gives an order to a worker."""

    def rest(self, run: str, seconds: float) -> None:
        """Waits until one of the workers that have begun ahead says something, and no longer than so many seconds."""

    def wait(self, calls: Iterable[Call], seconds: float) -> None:
        """Waits until one of these calls is not running any more, and no longer than so many seconds."""

    def close(self, run: str) -> None:
        """Lets the workers forget a run, and ends those that were started for it."""


def _distributed() -> Any:
    """The library; FarmError where it is not there."""
    try:
        return importlib.import_module("distributed")
    except ImportError:
        raise FarmError("dask.distributed is not there: sudo apt-get install python3-distributed", NOT_RUN) from None


class DaskCall:
    """A call by dask: one task, on one worker, without a second try of dask's own."""

    def __init__(self, client: Any, address: str, order: Order, workers: Callable[[], Dict[str, str]]) -> None:
        self._client = client
        self._address = address
        self._workers = workers
        with warnings.catch_warnings():
            warnings.simplefilter("ignore")  # it warns of large tasks, as the first one is for each worker
            self.future = client.submit(answer, order, workers=[address], allow_other_workers=False, pure=False, retries=0)

    def state(self) -> str:
        """As `Call.state`."""
        status = self.future.status
        if status == "finished":
            return DONE
        if status in ("error", "cancelled", "lost"):
            return FAILED
        return RUNNING if self._address in self._workers() else GONE

    def answer(self, most: int) -> bytes:
        """As `Call.answer`. The size is asked for before the bytes are."""
        size = sum(self._client.nbytes([self.future.key], summary=False).values())
        if size > most + 1024:
            raise WorkerFault(f"it sent {size:,} bytes, where {most:,} are the most")
        found = self._result()
        if not isinstance(found, bytes) or len(found) > most:
            raise WorkerFault("its answer is no bytes, or more than were asked for")
        return found

    def _result(self) -> object:
        """What the task gave, asked for until a minute is over: a worker that was killed when it was done does not give it any more."""
        for _ in range(60):
            try:
                return self.future.result(timeout=1)
            except WorkerFault:
                raise
            except Exception as fault:  # whatever its answer may be
                if self._address not in self._workers():
                    raise WorkerLeft("it left before its answer could be had") from None
                if type(fault).__name__ != "TimeoutError":
                    raise WorkerFault(f"its answer could not be had ({type(fault).__name__})") from None
        raise WorkerFault("its answer could not be had within a minute")

    def drop(self) -> None:
        """As `Call.drop`."""
        self.future.cancel()


class DaskEngine:
    """Workers of a scheduler of dask."""

    def __init__(self, scheduler: str, seconds: float = 30) -> None:
        distributed = _distributed()
        logging = importlib.import_module("logging")
        for name in ("distributed", "asyncio"):  # what goes wrong with a worker is said in one line, so their own lines are not shown
            logging.getLogger(name).setLevel(logging.CRITICAL + 1)
        self._seen: Dict[str, str] = {}
        self._looked = -LOOKS_EVERY
        importlib.import_module("dask.config").set({"distributed.scheduler.pickle": False})
        try:
            self._client: Any = distributed.Client(
                scheduler, timeout=seconds, set_as_default=False, serializers=PLAIN, deserializers=PLAIN,
            )
        except (OSError, ValueError) as fault:
            raise FarmError(f"the cluster cannot be reached: {fault}", NOT_RUN) from None
        self._guard()

    def _guard(self) -> None:
        """Has this process make no object of what a worker pickled: neither of exceptions, nor of the types of results."""
        handlers = self._client._stream_handlers
        handlers["task-erred"] = self._on_exception
        handlers["key-in-memory"] = self._on_result
        self._client.scheduler_comm.comm.deserialize = False

    def _on_exception(self, key: Optional[str] = None, **ignored: object) -> None:
        state = self._client.futures.get(key)
        if state is not None:
            state.set_error(WorkerFault("it raised an exception"), None)

    def _on_result(self, key: Optional[str] = None, **ignored: object) -> None:
        state = self._client.futures.get(key)
        if state is not None:
            state.finish(None)

    def workers(self) -> Dict[str, str]:
        """As `Engine.workers`, as it was a moment ago at most: the scheduler is not asked each time."""
        if time.monotonic() - self._looked > LOOKS_EVERY:
            infos = self._infos()
            self._seen = {address: str(info.get("name", address)) for address, info in sorted(infos.items())}
            self._looked = time.monotonic()
        return self._seen

    def _infos(self) -> Dict[str, Dict[str, Any]]:
        """What the scheduler says of its workers; FarmError where it is gone."""
        try:
            return dict(self._client.scheduler_info()["workers"])
        except Exception:  # the library has several, among them KeyError
            raise FarmError("the scheduler does not answer any more; what was proved is kept, and the same words go on", NOT_RUN) from None

    def ready(self, problem: bytes, paths: int) -> None:
        """As `Engine.ready`. Workers elsewhere are told by their first order."""

    def ahead(self, run: str, name: str, parts: Sequence[Sequence[bytes]], count: int, seeds: Mapping[str, Tuple[int, int]]) -> None:
        """As `Engine.ahead`. Workers elsewhere are told by their next order."""

    def tell(self, run: str, name: str, parts: Sequence[Sequence[bytes]]) -> Optional[Teller]:
        """As `Engine.tell`. What workers elsewhere say of others' records is not asked for."""
        return None

    def spent(self, run: str) -> Optional[float]:
        """As `Engine.spent`. Workers elsewhere do not say."""
        return None

    def begin(self, address: str, order: Order) -> Call:
        """As `Engine.begin`."""
        return DaskCall(self._client, address, order, self.workers)

    def rest(self, run: str, seconds: float) -> None:
        """As `Engine.rest`. Workers elsewhere do not begin ahead."""

    def wait(self, calls: Iterable[Call], seconds: float) -> None:
        """As `Engine.wait`."""
        futures = [it.future for it in calls if isinstance(it, DaskCall)]
        if not futures:
            return
        try:
            _distributed().wait(futures, timeout=seconds, return_when="FIRST_COMPLETED")
        except Exception:  # the time was over, or a call failed: its state says so
            pass

    def close(self, run: str) -> None:
        """As `Engine.close`. Where the scheduler is gone there is nobody to tell."""
        with suppress(Exception):
            for address in self.workers():
                _distributed().fire_and_forget(self._client.submit(forget, run, workers=[address], pure=False))
        with suppress(Exception):
            self._client.close()
