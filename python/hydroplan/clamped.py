"""Rows whose multipliers in a journal stand at an end of 64 bits (docs/use/FORMAT.md, The journal): what they are worth is more, and is cut off there."""
from __future__ import annotations

import json
from pathlib import Path
from struct import Struct
from typing import BinaryIO, Dict, Iterator, List, Tuple

from .core import Place
from .limits import sizes
from .programs import Compiled

ENDS = ((1 << 63) - 1, -(1 << 63))
END_BYTES = tuple(it.to_bytes(8, "big", signed=True) for it in ENDS)
HEAD_BYTES = {1: 51, 2: 53}
ENTRY, NODE, COUNT = Struct(">IIH"), Struct(">H"), Struct(">I")
MULTIPLIER_BYTES, PAIR_BYTES = 8, 12

NodeSize = Tuple[int, int, int]
"""How many rows, realizations and successors a node has."""


def clamped_rows(compiled: Compiled, journal: Place) -> List[Tuple[str, str]]:
    """The node and the name of each row that has such a multiplier in a record of a journal of this problem; none where there is no journal."""
    if not Path(journal).is_file():
        return []
    names, shape = compiled.node_names, _shape(compiled)
    found: Dict[Tuple[int, int], None] = {}
    with Path(journal).open("rb") as file:
        for payload in _payloads(file):
            if any(it in payload for it in END_BYTES):
                found.update(dict.fromkeys(_clamped_in(payload, shape)))
    return [(names[node], compiled.row_names(names[node])[row]) for node, row in sorted(found)]


def _shape(compiled: Compiled) -> List[NodeSize]:
    """The sizes of all nodes, in the order of their numbers."""
    nodes = json.loads(compiled.problem)["nodes"]
    named = zip(compiled.node_names, sizes(compiled).nodes)
    return [(own.rows, own.realizations, len(nodes[name].get("successors", {}))) for name, own in named]


def _payloads(file: BinaryIO) -> Iterator[bytes]:
    """The payloads of an open journal, up to its first commit byte other than 1."""
    front = file.read(11)
    file.seek(HEAD_BYTES.get(int.from_bytes(front[9:11], "big"), len(front)))
    while file.read(1) == b"\x01":
        yield file.read(int.from_bytes(file.read(4), "big"))


def _clamped_in(payload: bytes, shape: List[NodeSize]) -> Iterator[Tuple[int, int]]:
    """The node and the row of each such multiplier of a payload."""
    at = 0
    while at < len(payload):
        steps = ENTRY.unpack_from(payload, at)[2]
        at += ENTRY.size
        for _ in range(steps):
            node = NODE.unpack_from(payload, at)[0]
            rows, realizations, successors = shape[node]
            at += NODE.size
            for _ in range(realizations):
                multipliers = Struct(f">{rows}q").unpack_from(payload, at)
                yield from ((node, row) for row, it in enumerate(multipliers) if it in ENDS)
                at = _behind_pairs(payload, at + rows * MULTIPLIER_BYTES, successors)


def _behind_pairs(payload: bytes, at: int, successors: int) -> int:
    """The place behind the pairs of so many successors."""
    for _ in range(successors):
        at += COUNT.size + COUNT.unpack_from(payload, at)[0] * PAIR_BYTES
    return at
