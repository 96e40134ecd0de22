"""The Rattle kit: the crates of the repository, the words that check one, and the libraries that they need."""
import functools
import importlib.machinery
import importlib.util
import os
import subprocess
import sys
import threading
from pathlib import Path
from types import ModuleType
from typing import Any, List, NamedTuple


BUILDING = threading.Lock()


@functools.lru_cache(maxsize=None)
def folder() -> Path:
    """Returns the kit's folder, in which the page lies that `rt doc` names. Raises OSError where there is no kit."""
    ran = subprocess.run(["rt", "doc"], stdout=subprocess.PIPE, check=False, text=True)
    return Path(ran.stdout.strip()).parent


@functools.lru_cache(maxsize=None)
def library() -> ModuleType:
    """Returns the kit's own module that reads crates.txt and says how a crate is checked."""
    loader = importlib.machinery.SourceFileLoader("rtlib", str(folder() / "bin" / "rtlib.py"))
    spec = importlib.util.spec_from_loader("rtlib", loader)
    made = importlib.util.module_from_spec(spec)
    sys.modules["rtlib"] = made
    loader.exec_module(made)
    # (a sum of all below is asked for many times, and the sources stay as they are)
    made.Crate.stamp = functools.lru_cache(maxsize=None)(made.Crate.stamp)
    made.guarded()
    return made


def crates(root: Path) -> List[Any]:
    """Returns the crates of the repository, each after those that it stands on."""
    return library().crates_below(str(root))


def newest(files: List[str]) -> float:
    """Returns when the youngest of the files was changed, in seconds."""
    return max((os.path.getmtime(it) for it in files), default=0.0)


def is_built(crate: Any) -> bool:
    """Returns whether a crate's library stands there and was built of the sources at hand: by the kit's stamp, or, where the gate
    left none, by being younger than all sources of the crate and of those below."""
    if os.path.isfile(f"{os.path.dirname(crate.rlib)}/stamp"):
        return crate.is_built()
    file = f"{crate.rlib}/format"
    sources = [path for it in [crate, *crate.below()] for path in library().files_of(it.folder)]
    return os.path.isfile(file) and newest(sources) < os.path.getmtime(file)


def build_below(crate: Any) -> bool:
    """Builds the libraries below a crate where one is missing or was built of other sources, and returns whether all are there."""
    below = crate.below()
    with BUILDING:
        if all(is_built(it) for it in below):
            return True
        return not any(it.build_rlib(["--jobs", "1"], anew=False) for it in below)


class Checked(NamedTuple):
    """What came of a check: its status, its output, and the seconds of a processor that it took."""

    status: int
    said: str
    seconds: float


def timed(words: List[str], room: str) -> Checked:
    """Runs a program in a folder and returns what came of it. Its seconds do not depend on what else the machine does."""
    with subprocess.Popen(words, cwd=room, stdin=subprocess.DEVNULL, stdout=subprocess.PIPE, stderr=subprocess.STDOUT,
                          errors="replace") as process:
        said = process.stdout.read()
        _, status, used = os.wait4(process.pid, 0)
        process.returncode = os.waitstatus_to_exitcode(status)
    return Checked(process.returncode, said, used.ru_utime + used.ru_stime)


def check(crate: Any, room: str, kept: str, only: List[str]) -> Checked:
    """Runs the check of a crate over its files in another folder, of the named paths alone where there are any."""
    kit = library()
    words = [kit.RATTLE, "check", *crate.words(["--jobs", "1"], keeps=False), "--incremental", kept]
    words += [word for path in only for word in ("--only", path)]
    return timed([*kit.guarded(), *words], room)
