"""The words that the script `hydroplan` hands on and that are no tool's: work that is shared, `join`, `prove`, `--unproved`, wrong words.

Outside the proved core.
"""
from __future__ import annotations

import os
import sys
from typing import NoReturn, Optional, Sequence

from ..commands import COMMANDS
from ..repository import TOP
from .shown_names import shown_name

OPTION = "--problem"
# the status that a look at a journal has where a copy was needed and could not be made
NO_COPY = 4
Given = list[tuple[str, Optional[str]]]


def run_words(words: Sequence[str]) -> int:
    """Does what these words ask for; the status, 2 where they are of no form."""
    if words[:1] == ["prove"]:
        return _instead("prove", words[1:])
    if words[:1] == ["--unproved"]:
        return _unproved(words[1:])
    rest, given = without_options(words)
    name, options = rest[0] if rest else "", dict(given)
    tool = COMMANDS.shared.get(name) or (COMMANDS.tools[name] if name == "join" else None)
    line = [*rest, *(word for option, value in given if option != OPTION for word in (option, value or ""))]
    if tool is None or not _are_good(name, given, line):
        from .wrong_words import main as refuse

        return refuse(*words)
    if OPTION in options and not _open(options[OPTION] or ""):
        return 1
    if os.isatty(0) and not any(it in ("-h", "--help") for it in line):
        _say("waiting for a problem on standard input: --problem FILE reads it from a file")
    from ..__main__ import run_tool

    return run_tool(name, tool, line[1:], line)


def without_options(words: Sequence[str]) -> tuple[list[str], Given]:
    """The words without the options of the script, and these with the words behind them, none where such a word is missing."""
    rest: list[str] = []
    found: Given = []
    coming = iter(words)
    for word in coming:
        name, equals, value = word.partition("=")
        if name not in COMMANDS.options:
            rest.append(word)
        elif equals:
            found.append((name, value))
        else:
            found.append((name, next(coming, None)))
    return rest, found


def _are_good(name: str, given: Given, line: Sequence[str]) -> bool:
    """Whether `join`, or a command whose work is shared, has good words. Its own words of `join` it reads by itself.

    What the farm takes for plain words is good: the table takes a while to read, and its processes begin before that.
    """
    names = [option for option, _ in given]
    if None in (value for _, value in given) or len(set(names)) < len(names):
        return False
    if name == "join":
        return names in ([], [OPTION])
    from ..farm.early import is_plain

    if is_plain(line):
        return True
    from .word_table import read_table
    from .wrong_words import fault_of

    return set(names) not in (set(), {OPTION}) and fault_of(line, read_table()) is None


def _unproved(words: Sequence[str]) -> int:
    """Runs a command by the program without proofs, which is compiled where it is not kept."""
    from .before_training import main as look

    rest, given = without_options(words)
    names = [name for name, _ in given]
    is_wrong = None in (value for _, value in given) or len(set(names)) < len(names) or OPTION in names and rest[:1] in ([], ["gen"])
    if is_wrong:
        _say(f"{OPTION} FILE stands there once, and behind a command that reads a problem")
        return 1
    sharing = next((it for it in names if it != OPTION), None)
    if sharing is not None:
        _say(f"--unproved runs one program: {sharing} is of no use to it")
        return 1
    if given and not _open(given[0][1] or ""):
        return 1
    if len(rest) > 1 and rest[0] == "train" and look(rest[1]) == NO_COPY:
        return 1
    return _instead("run-unproved", rest)


def _instead(name: str, words: Sequence[str]) -> int:
    """Runs a script of bin in the place of this process; 1 with a line where this is no clone, which has none."""
    script = TOP / "bin" / name
    if not script.is_file():
        _say("this is an installed package: the program is proved and built in a clone of its repository")
        return 1
    _replace(str(script), words)


def _replace(script: str, words: Sequence[str]) -> NoReturn:
    sys.stdout.flush()
    sys.stderr.flush()
    os.execv(script, [script, *words])


def _open(name: str) -> bool:
    """Opens a file as standard input; whether it could be."""
    try:
        opened = os.open(name, os.O_RDONLY)
    except OSError as fault:
        _say(f"cannot open {name}: {fault.strerror}")
        return False
    os.dup2(opened, 0)
    os.close(opened)
    return True


def _say(text: str) -> None:
    """Writes a line on standard error; a name in it cannot forge another line."""
    print(f"hydroplan: {shown_name(text)}", file=sys.stderr, flush=True)
