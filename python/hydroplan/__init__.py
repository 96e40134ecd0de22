"""Models of multistage stochastic programs in Python, runs of hydroplan on them, and the commands in Python beside the program.

`hydroplan.model` makes models and compiles them to problems in whole numbers; `hydroplan.runs` trains, checks, simulates and
evaluates policies by the program; `hydroplan.tools` has the commands. All of it stands outside the proved core: a bound is
proved of the problem that was compiled, and its ledger says what was rounded.

The names of `__all__` are imported where they are asked for first, since the script `hydroplan` waits for the commands.
"""
import sys

# looked at before anything that an older interpreter could not read
if sys.version_info < (3, 9):
    sys.exit(f"hydroplan: {sys.executable} is Python {sys.version.split()[0]}, and 3.9 is needed at least: sudo apt-get install python3")

TYPE_CHECKING = False
if TYPE_CHECKING:
    from .model import Model, PolicyGraph, between, equally, read_stochopt, total
    from .runs import check, evaluate, robust, simulate, train, validate

__version__ = "1.0.0"
__all__ = [
    "Model", "PolicyGraph", "between", "check", "equally", "evaluate", "read_stochopt", "robust", "simulate", "total", "train",
    "validate",
]
_OF_RUNS = ("check", "evaluate", "robust", "simulate", "train", "validate")


def __getattr__(name: str) -> object:
    """A name of `__all__`, from the module that has it. AttributeError for any other."""
    if name not in __all__:
        raise AttributeError(f"module {__name__!r} has no attribute {name!r}")
    from importlib import import_module

    found: object = getattr(import_module("." + ("runs" if name in _OF_RUNS else "model"), __name__), name)
    globals()[name] = found
    return found


def __dir__() -> "list[str]":
    return sorted({*globals(), *__all__})
