"""The bytes of records (docs/use/FORMAT.md, The journal): entries, the cuts that they add, and the places of cuts in their pairs.

Most lists of pairs have one pair. So the numbers of several realizations are read at once, and realizations whose lists have other lengths
are gone through one by one. Places in a list rise, so where the last one is a cut that the journals share, all of them are.
"""
from __future__ import annotations

from struct import Struct
from typing import Dict, List, NoReturn, Sequence

from .errors import RecordFault
from .lists import ONE_PAIR, PAIR_BYTES, TWO_PAIRS, Lists
from .shape import NodeShape, Shape

HEAD = Struct(">IIH")
NODE = Struct(">H")
NUMBER = Struct(">I")


class Pools:
    """How many cuts each node has: `counts`, by the number of the node."""

    def __init__(self, counts: Sequence[int]) -> None:
        self.counts = list(counts)

    def copy(self) -> Pools:
        """The same counts, to be counted on."""
        return Pools(self.counts)


def base_pools(shape: Shape) -> Pools:
    """The pools before the first record: the base cut of each node."""
    return Pools([1] * len(shape.nodes))


class Mover:
    """Goes through the records of one journal in turn and changes them to what they are where they are joined to others.

    `shared` counts the cuts that the journal has in common with the joined one, at the same places. Each further cut goes behind those
    of `joined`, which is counted on, and which the movers of the other journals count on too. Where both are the same pools, the journal
    is the joined one, and nothing moves.
    """

    def __init__(self, shape: Shape, shared: Pools, joined: Pools) -> None:
        self._shape = shape
        self._joined = joined.counts
        self._same = list(shared.counts)
        """How many cuts of each node stand in the same place in both, from the first on."""
        self._moved: Dict[int, List[int]] = {}
        """Where the cuts behind these stand in the joined journal, by node."""

    def record(self, payload: bytes, paths: int, was: int, becomes: int) -> bytes:
        """What a payload of so many entries of iteration `was` is as that of iteration `becomes`.

        RecordFault where it is no such payload of the problem, or has a pair of a cut that is not there.
        """
        made, at = bytearray(payload), 0
        for _ in range(paths):
            begin, at = at, self.entry(made, at, was)
            NUMBER.pack_into(made, begin, becomes)
        if at != len(made):
            raise RecordFault("bytes behind the last entry", at)
        return bytes(made)

    def entry(self, made: bytearray, begin: int, was: int) -> int:
        """Moves the pairs of one entry; the byte behind the entry. RecordFault as above."""
        if begin + HEAD.size > len(made):
            raise RecordFault("the record ends before an entry", begin)
        iteration, _, steps = HEAD.unpack_from(made, begin)
        if iteration != was:
            raise RecordFault(f"iteration {iteration} in place of {was}", begin)
        if not 0 < steps <= self._shape.extent.longest:
            raise RecordFault(f"a path of {steps} steps", begin + 8)
        at, before = begin + HEAD.size, -1
        nodes, same, joined, moved = self._shape.nodes, self._same, self._joined, self._moved
        for left in range(steps - 1, -1, -1):
            node = self._node(made, at, before, left == 0)
            at = self._step(made, at + NODE.size, nodes[node])
            place = joined[node]
            if place == same[node] and node not in moved:
                same[node] = place + 1
            else:
                moved.setdefault(node, []).append(place)
            joined[node] = place + 1
            before = node
        return at

    def _node(self, made: bytearray, at: int, before: int, last: bool) -> int:
        """The node of a step, which leads to the one before and, where it is the last, is a successor of the root."""
        if at + NODE.size > len(made):
            raise RecordFault("the record ends before a step", at)
        node: int = NODE.unpack_from(made, at)[0]
        nodes = self._shape.nodes
        if node >= len(nodes) or (before >= 0 and before not in nodes[node].successors) or (last and node not in self._shape.first):
            raise RecordFault(f"a step at node {node}, which may not stand there", at)
        return node

    def _step(self, made: bytearray, at: int, node: NodeShape) -> int:
        """Moves the pairs of a step; the byte behind it."""
        successors, same, begin = node.successors, self._same, at
        for lists in node.lists:
            if at + lists.bytes > len(made):
                raise RecordFault("the record ends within a certificate", begin)
            if lists.lengths(made, at) != lists.of_one:
                at = self._by_heads(made, at, successors, lists)
            else:
                for successor, places, offsets in zip(successors, lists.places, lists.offsets):
                    own = places(made, at)
                    if max(own) >= same[successor]:
                        self._move(made, at, successor, own, offsets)
            at += lists.bytes
        return at

    def _move(self, made: bytearray, at: int, successor: int, places: Sequence[int], offsets: range) -> None:
        """Moves these places of cuts of a successor, which stand at these offsets."""
        same, moved, write = self._same[successor], self._moved.get(successor, ()), NUMBER.pack_into
        for place, offset in zip(places, offsets):
            if place >= same:
                if place - same >= len(moved):
                    self._refuse(at + offset, successor, place - same)
                write(made, at + offset, moved[place - same])

    def _by_heads(self, made: bytearray, at: int, successors: Sequence[int], lists: Lists) -> int:
        """Moves the pairs of lists of which some have several; where they would begin if each had one and they ended where they do.

        Behind a list of several the heads are read again, from where they stand if all that follow have one pair.
        """
        heads, count = lists.heads(made, at), len(successors)
        limits = [min(ONE_PAIR + self._same[it], TWO_PAIRS) for it in successors] * lists.realizations
        for index in range(len(limits)):
            head = heads[index]
            if ONE_PAIR <= head < limits[index]:
                continue
            pairs, begin = head >> 32, at + lists.offsets[index % count][index // count]
            further = (pairs - 1) * PAIR_BYTES
            if at + further + lists.bytes > len(made):
                raise RecordFault("the record ends within a certificate", at)
            if further < 0:
                raise RecordFault("a list without pairs", begin)
            self._pairs(made, begin, begin + pairs * PAIR_BYTES, successors[index % count])
            if further:
                at += further
                heads = lists.heads(made, at)
        return at

    def _refuse(self, at: int, successor: int, further: int) -> NoReturn:
        same = self._same[successor]
        there = same + len(self._moved.get(successor, ()))
        raise RecordFault(f"a pair of cut {same + further} of node {successor}, which has {there} there", at)

    def _pairs(self, made: bytearray, begin: int, end: int, successor: int) -> None:
        """Moves the places of a list, from its last pair back to the first that stays where it is."""
        same, moved = self._same[successor], self._moved.get(successor, ())
        for at in range(end - PAIR_BYTES, begin - 1, -PAIR_BYTES):
            further = NUMBER.unpack_from(made, at)[0] - same
            if further < 0:
                return
            if further >= len(moved):
                self._refuse(at, successor, further)
            NUMBER.pack_into(made, at, moved[further])


def entries(shape: Shape, payload: bytes, paths: int, number: int) -> List[bytes]:
    """The entries of a payload, by a walk that knows of no place and so passes over all pairs. RecordFault where it has not so many."""
    everywhere = Pools([1 << 32] * len(shape.nodes))
    mover, made, at = Mover(shape, everywhere, everywhere), bytearray(payload), 0
    found: List[bytes] = []
    for _ in range(paths):
        begin, at = at, mover.entry(made, at, number)
        found.append(payload[begin:at])
    return found
