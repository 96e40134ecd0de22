"""The words of `python3 -m hydroplan.farm`. Outside the proved core."""
from __future__ import annotations

import argparse
import os
import sys
from pathlib import Path
from typing import Any, List, Optional

from ..tools.shown_names import shown_name

from ..errors import ProgramMissing
from .early import BEGUN
from .errors import FarmError
from .journals import DEVICE_FAILED
from .shape import MOST_ITERATIONS, MOST_PATHS, shape_of
from .train_command import Words, engine_of, train

NAME = "python3 -m hydroplan.farm"
MOST_PROBLEM = 1 << 24
MOST_SEED = (1 << 64) - 1
MOST_PARTS = 1_000
MOST_DRAWN = 1_000_000
OUTPUT_FAILED, INTERRUPTED = 11, 130


def whole(least: int, most: int) -> "type[int]":
    """Reads a whole number in digits alone, from the least to the greatest."""
    def read(word: str) -> int:
        if not (word.isascii() and word.isdigit()) or (word[0] == "0" and word != "0") or not least <= int(word) <= most:
            raise argparse.ArgumentTypeError(f"`{shown_name(word)}` is no whole number from {least:,} to {most:,}, in digits alone")
        return int(word)
    return read  # type: ignore[return-value]


class Formatter(argparse.HelpFormatter):
    """The texts of help, as wide as the terminal. The one of the library imports `shutil` for that, and is made for each word."""

    def __init__(self, prog: str) -> None:
        super().__init__(prog, width=_width() - 2)


def _width() -> int:
    """The columns of the terminal, as `shutil.get_terminal_size` has them."""
    named = os.environ.get("COLUMNS", "")
    if named.isascii() and named.isdigit() and int(named) > 0:
        return int(named)
    try:
        return os.get_terminal_size(1).columns or 80
    except OSError:
        return 80


class Parser(argparse.ArgumentParser):
    """A parser of the words of a command."""

    def __init__(self, **words: Any) -> None:
        super().__init__(formatter_class=Formatter, **words)


def parser() -> argparse.ArgumentParser:
    """The commands and their words."""
    made = Parser(prog=NAME, description="Training on many machines, none of them trusted.")
    commands = made.add_subparsers(dest="command", required=True, metavar="COMMAND", prog=NAME)
    joining = commands.add_parser("join", help="joins journals of one problem into a new one, which `check` accepts")
    joining.add_argument("--batch", type=whole(1, MOST_PATHS), help="pack the paths into records of so many (default: as they are)")
    joining.add_argument("target", metavar="OUT", type=Path, help="the journal to write, which may not be there yet")
    joining.add_argument("journals", metavar="JOURNAL", nargs="+", type=Path, help="the journals, of which the first gives the seed")
    training = commands.add_parser("train", help="trains a journal in rounds, on processes of this machine or on workers of a scheduler")
    training.add_argument("journal", metavar="JOURNAL", type=Path, help="the journal, which is made where it is not there")
    training.add_argument("seed", metavar="SEED", type=whole(0, MOST_SEED), help="decides which paths are drawn")
    training.add_argument("count", metavar="COUNT", type=whole(0, MOST_ITERATIONS), help="the iterations that the journal is to have")
    training.add_argument("batch", metavar="BATCH", nargs="?", type=whole(1, MOST_PATHS), help="the paths of an iteration (default: 1)")
    add_cluster(training)
    simulating = commands.add_parser("simulate", help="follows the policy of a journal along drawn scenarios, on as many workers")
    simulating.add_argument("journal", metavar="JOURNAL", type=Path, help="the journal, which is only read")
    simulating.add_argument("seed", metavar="SEED", type=whole(0, MOST_SEED), help="decides which scenarios are drawn")
    simulating.add_argument("count", metavar="COUNT", type=whole(0, MOST_DRAWN), help="the number of scenarios")
    add_cluster(simulating)
    return made


def add_cluster(made: argparse.ArgumentParser) -> None:
    """The words that say where the workers are."""
    made.add_argument("--workers", metavar="N", type=whole(1, MOST_PARTS), help="parts of a round; without --scheduler as many processes here")
    made.add_argument("--scheduler", metavar="ADDRESS", help="the address of a scheduler of dask, as tcp://10.0.0.1:8786")
    made.add_argument("--timeout", metavar="SECONDS", type=whole(1, 1_000_000), default=600, help="when a first worker is silent (default: 600)")
    made.add_argument("--program", metavar="FILE", help="the program, in place of the one that is found")


def read_problem() -> bytes:
    """The problem on standard input; FarmError with statuses 3 and 4, as the program has them."""
    try:
        problem = sys.stdin.buffer.read(MOST_PROBLEM + 1) if BEGUN.problem is None else BEGUN.problem
    except OSError:
        raise FarmError("problem could not be read", 3) from None
    if len(problem) > MOST_PROBLEM:
        raise FarmError(f"problem is longer than {MOST_PROBLEM} bytes", 4)
    return problem


def run_join(words: argparse.Namespace) -> None:
    """Joins journals, and says what came of it."""
    from .joining import join

    made = join(shape_of(read_problem()), words.target, words.journals, words.batch)
    paths = "" if made.paths == 1 else f" of {made.paths} paths"
    print(
        f"joined {len(words.journals)} journals, which share {made.shared} records: {made.records} records{paths} in {shown_name(str(words.target))}"
    )


def run_train(words: argparse.Namespace) -> None:
    """Trains, says what goes on on standard error, and prints the report."""
    asked = Words(
        words.journal, words.seed, words.count, words.batch, words.workers, words.scheduler, float(words.timeout), words.program,
    )
    print("\n".join(train(asked, read_problem(), say)))


def run_simulate(words: argparse.Namespace) -> None:
    """Simulates, and prints the report as it comes."""
    from .simulate_command import SimulationWords, simulate

    asked = SimulationWords(words.journal, words.seed, words.count, float(words.timeout), words.program)
    cluster = Words(words.journal, words.seed, words.count, None, words.workers, words.scheduler, float(words.timeout), words.program)
    for line in simulate(asked, read_problem(), say, lambda: engine_of(cluster)):
        print(line)


def say(text: str) -> None:
    """Writes a line on standard error; a name in it cannot forge another line."""
    print(f"hydroplan: {shown_name(text)}", file=sys.stderr, flush=True)


def main(words: Optional[List[str]] = None) -> int:
    """Runs a command; the status, as docs/use/FORMAT.md has it."""
    found = parser().parse_args(words)
    try:
        {"join": run_join, "train": run_train, "simulate": run_simulate}[found.command](found)
    except FarmError as fault:
        say(str(fault))
        return fault.status
    except ProgramMissing as fault:
        say(str(fault))
        return 1
    except BrokenPipeError:
        return OUTPUT_FAILED
    except OSError as fault:
        say(f"a file or a connection failed: {fault}")
        return DEVICE_FAILED
    except KeyboardInterrupt:
        say("interrupted: what was proved is kept, and the same words go on from there")
        return INTERRUPTED
    finally:
        BEGUN.end()
    return 0
