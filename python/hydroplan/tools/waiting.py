"""Files that cannot be opened, and standard input that is waited for, in words. Outside the proved core."""
from __future__ import annotations

import sys
from typing import Iterable


def in_words(fault: Exception) -> str:
    """A fault in words: `cannot open plan.txt: No such file or directory`, or what it says by itself."""
    if isinstance(fault, OSError) and fault.filename is not None and fault.strerror is not None:
        return f"cannot open {fault.filename}: {fault.strerror}"
    return str(fault)


def standard_input(command: str, what: str, instead: str) -> Iterable[str]:
    """The lines of standard input. Where that is a terminal, a line says that the command waits, and for what."""
    if sys.stdin.isatty():
        print(f"{command}: waiting for {what} on standard input: {instead}", file=sys.stderr)
    return sys.stdin
