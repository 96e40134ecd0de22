"""What is wrong with a command line: the word, what it may be, and the nearest command; by the table of words.

Outside the proved core. `script_words` finds that words are of no form.
"""
from __future__ import annotations

import os
import sys
from typing import Optional, Sequence

from ..commands import COMMANDS
from .likeness import nearest
from .script_words import OPTION, Given, without_options
from .shown_names import shown_name
from .word_table import Command, Table, read_table

USAGE = 2


def main(*words: str) -> int:
    """Says on standard error what is wrong with these words; the status of a wrong command line."""
    for line in lines_on(words, read_table()):
        print(shown_name(line), file=sys.stderr)
    return USAGE


def lines_on(words: Sequence[str], table: Table) -> list[str]:
    """The lines on a wrong command line: what is wrong first, and then what the command takes, or the one that is nearest."""
    rest, given = without_options(words)
    if rest and rest[0] in ("help", "-h", "--help") and len(rest) > 1:
        return [f"hydroplan: {_wrong_help(rest, table)}", HINT]
    command = table.command(rest[0]) if rest else None
    if command is None or command.is_of_the_script():
        fault = _wrong_options(given)
        like = None if command is not None or not rest else nearest(rest[0], tuple(it.name for it in table.commands))
        return [f"hydroplan: {fault or _no_command(rest, table, like)}", *_told(table.command(like) if like else None), HINT]
    fault = _fault_of_command(command, rest[1:], given, table) or "nothing is wrong with these words"
    return [f"hydroplan: {command.name}: {fault}", *_told(command), f"./hydroplan help {command.name} says what it takes and prints"]


def fault_of(words: Sequence[str], table: Table) -> Optional[str]:
    """What is wrong with the words of a command of the program or of a tool; none where nothing is."""
    rest, given = without_options(words)
    command = table.command(rest[0]) if rest else None
    return "no command" if command is None else _fault_of_command(command, rest[1:], given, table)


def _fault_of_command(command: Command, behind: Sequence[str], given: Given, table: Table) -> Optional[str]:
    fault = _wrong_options(given) or _wrong_source(given, command)
    if command.is_of_the_program():
        is_shared = any(name in COMMANDS.sharing for name, _ in given)
        fault = fault or _unknown_option(behind) or wrong_word(command, behind, table, is_shared)
    return fault or _wrong_sharing(given, command, table)


def _told(command: Optional[Command]) -> list[str]:
    """The form of a command of the program or of a tool, and where its problem comes from."""
    if command is None or command.is_of_the_script():
        return []
    usage = f"usage: ./hydroplan {command.form()}"
    return [usage, f"{command.source} comes on standard input (< FILE), or as a file by {OPTION} FILE"] if command.source else [usage]


HINT = "./hydroplan help lists the commands, and ./hydroplan help COMMAND says what one takes and prints"


def _wrong_options(given: Given) -> Optional[str]:
    names = [name for name, _ in given]
    for name, value in given:
        if value is None:
            return f"{name} lacks its {COMMANDS.options[name]}"
        if names.count(name) > 1:
            return f"{name} stands there {names.count(name)} times"
    return None


def _wrong_source(given: Given, command: Command) -> Optional[str]:
    if command.source or OPTION not in dict(given):
        return None
    return f"it reads nothing, so {OPTION} has no use" if command.is_of_the_program() else f"it takes no {OPTION}"


def _unknown_option(rest: Sequence[str]) -> Optional[str]:
    unknown = next((it for it in rest if it.startswith("--")), None)
    if unknown is None:
        return None
    name = unknown.partition("=")[0]
    like = nearest(name, tuple(COMMANDS.options))
    return f"there is no option `{name}`" + ("" if like is None else f"; `{like}` is the nearest")


def _wrong_sharing(given: Given, command: Command, table: Table) -> Optional[str]:
    """What is wrong with `--workers` and `--scheduler` behind a command."""
    sharing = {name: value for name, value in given if name in COMMANDS.sharing and value is not None}
    if sharing and command.name not in COMMANDS.shared:
        return f"{next(iter(sharing))} stands behind {' and '.join(f'`{it}`' for it in COMMANDS.shared)} alone"
    if set(sharing) == {"--timeout"}:
        return "--timeout stands behind --workers or --scheduler"
    if sharing.get("--scheduler") == "":
        return "--scheduler has an empty word in place of its ADDRESS"
    numbers = (_fault_of_word(COMMANDS.options[name], value, command.name, table) for name, value in sharing.items() if name != "--scheduler")
    return next((it for it in numbers if it is not None), None)


def _no_command(rest: Sequence[str], table: Table, like: Optional[str]) -> str:
    if not rest:
        return "a command is missing"
    if table.command(rest[0]) is not None or rest[0] in ("-h", "--help", "-V", "--version"):
        return f"`{rest[0]}` is not followed by other words" if len(rest) > 1 else f"`{rest[0]}` is no command by itself"
    kind = "option" if rest[0].startswith("-") else "command"
    return f"there is no {kind} `{rest[0]}`" + ("" if like is None else f"; `{like}` is the nearest")


def _wrong_help(rest: Sequence[str], table: Table) -> str:
    if len(rest) > 2:
        return f"`{rest[0]}` is followed by one command at most, and `{rest[2]}` is one too many"
    like = nearest(rest[1], tuple(it.name for it in table.commands))
    return f"there is no command `{rest[1]}`" + ("" if like is None else f"; `{like}` is the nearest")


def wrong_word(command: Command, given: Sequence[str], table: Table, is_shared: bool = False) -> Optional[str]:
    """What is wrong with the words behind a command, whose work may be shared; none where nothing is."""
    behind = f"{command.name} --workers" if is_shared else command.name
    for at, name in enumerate(command.words):
        if at >= len(given):
            return f"{name} is missing" if not name.startswith("[") else None
        fault = _fault_of_word(name.strip("[]"), given[at], behind, table)
        if fault is not None:
            return fault
    if len(given) > len(command.words):
        return _too_many(given[len(command.words)], command)
    return None


def _too_many(word: str, command: Command) -> str:
    fault = f"the word `{word}` is one too many"
    if command.source and (word.endswith(".json") or os.path.isfile(word)):
        return f"{fault}; a file is given as `< {word}` or `{OPTION} {word}`"
    return fault


def _fault_of_word(name: str, word: str, command: str, table: Table) -> Optional[str]:
    allowed = table.word(name, command)
    limits = None if allowed is None else allowed.range()
    if limits is None:
        return None if word else f"{name} is an empty word, and has to be the name of a file"
    reason = number_fault(word, *limits)
    if reason is None:
        return None
    return f"{name} is `{word}`, {reason}: it is a whole number from {limits[0]:,} to {limits[1]:,}, in digits alone"


def number_fault(word: str, least: int, most: int) -> Optional[str]:
    """Why a word is no number of this range as the program reads one; none where it is."""
    if not word:
        return "an empty word"
    if not (word.isascii() and word.isdigit()):
        signed = word[0] in "+-" and word[1:].isascii() and word[1:].isdigit()
        return "which has a sign" if signed else "which is no whole number"
    if len(word) > 1 and word[0] == "0":
        return "which has a leading zero"
    number = int(word) if len(word) <= 30 else most + 1
    return "which is too small" if number < least else "which is too large" if number > most else None
