"""Values written as TOML in the ways that it has: inline, with dotted keys, as tables of their own; tables in any order; and CSV files."""
from __future__ import annotations

import csv
import io
import json
import re


class Text(str):
    """A text that stands in a file as it is."""


def key_text(key):
    """A key, between quotes where it has to be."""
    return key if re.fullmatch(r"[A-Za-z0-9_-]+", key) else json.dumps(key, ensure_ascii=False)


def inline(value):
    """A value on one line."""
    if isinstance(value, Text):
        return str(value)
    if isinstance(value, bool):
        return str(value).lower()
    if isinstance(value, dict):
        return "{ " + ", ".join(f"{key_text(key)} = {inline(it)}" for key, it in value.items()) + " }"
    if isinstance(value, list):
        return "[" + ", ".join(map(inline, value)) + "]"
    return json.dumps(value, ensure_ascii=False) if isinstance(value, str) else str(value)


def csv_text(names, rows):
    """A CSV file."""
    found = io.StringIO()
    writer = csv.writer(found, lineterminator="\n")
    writer.writerow(names)
    writer.writerows(rows)
    return found.getvalue()


class Tables:
    """The tables of a file, each a text."""

    def __init__(self, random):
        self.random, self.parts = random, []

    def add(self, path, members):
        """A table; a member that is a table, or a list of tables, may become a part of its own."""
        if not members:
            return
        lines = [f"[{self.name(path)}]"]
        for key, value in members.items():
            lines += self.member(path, key, value)
        self.parts.append("\n".join(lines))

    def name(self, path):
        """The name of a table."""
        return ".".join(map(key_text, path))

    def member(self, path, key, value):
        """The lines of a member within its table; none where it is a part of its own."""
        chosen = self.random.choice(["inline", "inline", "dotted", "own"]) if isinstance(value, (dict, list)) else "inline"
        if isinstance(value, dict) and chosen == "dotted":
            return [f"{key_text(key)}.{key_text(inner)} = {inline(it)}" for inner, it in value.items()]
        if isinstance(value, dict) and chosen == "own":
            self.add((*path, key), value)
            return []
        if isinstance(value, list) and chosen == "own" and all(isinstance(it, dict) for it in value):
            header = f"[[{self.name((*path, key))}]]"
            self.parts.append(
                "\n\n".join("\n".join([header, *(f"{key_text(inner)} = {inline(it)}" for inner, it in table.items())]) for table in value)
            )
            return []
        if isinstance(value, list) and chosen == "dotted":
            return [f"{key_text(key)} = [", *(f"    {inline(it)},  # a comment = [" for it in value), "]"]
        return [f"{key_text(key)} = {inline(value)}"]

    def text(self):
        """The file."""
        parts = list(self.parts)
        self.random.shuffle(parts)
        return "\n\n".join(["# drawn", *parts]) + "\n"
