"""The parser of a command line, whose refusals show control characters of words escaped. Outside the proved core."""
from __future__ import annotations

import argparse
from typing import NoReturn

from .shown_names import shown_name


class WordParser(argparse.ArgumentParser):
    """A parser of `argparse`; its parsers of subcommands are of this kind too."""

    def error(self, message: str) -> NoReturn:
        """Ends with status 2 and the message, in which what a terminal would obey is escaped."""
        super().error(shown_name(message))
