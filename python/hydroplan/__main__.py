"""The commands in Python: `python3 -m hydroplan COMMAND ..`, and what the script `hydroplan` hands on or has done beside a run.

Outside the proved core. Each part is imported where it is asked for, since the script waits for it.
"""
from __future__ import annotations

import sys

from .commands import COMMANDS

TYPE_CHECKING = False
if TYPE_CHECKING:
    from typing import NoReturn, Sequence

    from .commands import Tool

# what the script asks for beside a run: `main` of this module of `tools` takes the words one by one
BESIDE = {"before-training": "before_training", "too-much": "too_much"}
# the tools that go on where nobody reads any more what they print, since they write files
WRITING = ("study", "join")


def main(words: Sequence[str]) -> int:
    """Runs a command of the tools, or whatever else the script hands on; the status: 1 where a library is missing, 2 where words are wrong."""
    name, rest = (words[0], words[1:]) if words else ("", words)
    if name in BESIDE:
        from importlib import import_module

        status: int = import_module(f"hydroplan.tools.{BESIDE[name]}").main(*rest)
        return status
    if name in COMMANDS.tools and name != "join":
        return run_tool(name, COMMANDS.tools[name], rest, rest)
    from .tools.script_words import run_words

    return run_words(words)


def run_tool(name: str, tool: Tool, rest: Sequence[str], words: Sequence[str]) -> int:
    """Runs a tool, whose `main` takes `words`; `rest` stands behind its name. 1 where a library is missing that no other interpreter has.

    `plot` says by itself what it lacks, and what it does without.
    """
    needed = tool.libraries_for(rest)
    if needed:
        from .interpreters import line_on, missing, other_interpreter, run_there

        lacking = missing(needed)
        other = other_interpreter(needed) if lacking else None
        if other is not None:
            run_there(other, [name, *rest])
        if lacking and name != "plot":
            print(line_on(name, lacking), file=sys.stderr)
            return 1
    return tool.main()(words)


def run(words: Sequence[str]) -> int:
    """Runs a command as `main` does, in a process of its own: where nobody reads any more what it prints, that ends without a word."""
    if words and words[0] in COMMANDS.tools and words[0] not in WRITING:
        _end_with_the_reader()
    status = main(words)
    if "hydroplan.farm" in sys.modules and "distributed" not in sys.modules:
        _leave(status)
    return status


def command() -> NoReturn:
    """Runs the command `hydroplan` of an installed package: the script beside the program, in the place of this process."""
    import os

    from .repository import TOP

    script = str(TOP / "hydroplan")
    os.environ["HYDROPLAN_PYTHON"] = sys.executable
    os.execv(script, [script, *sys.argv[1:]])


def _end_with_the_reader() -> None:
    """Has the system end this process without a word where nobody reads what it prints any more, as before `| head`."""
    import signal

    signal.signal(signal.SIGPIPE, signal.SIG_DFL)


def _leave(status: int) -> None:
    """Ends this process with a status at once, where all that it printed can be written: Python takes a while to take itself down."""
    import os

    try:
        sys.stdout.flush()
        sys.stderr.flush()
    except (OSError, ValueError, AttributeError):
        return
    os._exit(status)


def _forget_folder() -> None:
    """Takes the folder that `python3 -m` was called from off the path, where this package is not in it: a file there is no module."""
    import os

    package = os.path.dirname(os.path.dirname(os.path.realpath(__file__)))
    if sys.path[:1] and os.path.realpath(sys.path[0] or ".") == os.getcwd() != package:
        del sys.path[0]


if __name__ == "__main__":
    _forget_folder()
    sys.exit(run(sys.argv[1:]))
