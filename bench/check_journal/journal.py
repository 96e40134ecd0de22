"""Prints a journal of version 1 with so many records for a problem whose rows all have both sides."""
import hashlib
import json
import random
import struct
import sys

SCALE = 1 << 24


def rows_of(subproblem):
    """The number of rows: all constraints but bounds of single variables."""
    return sum(1 for it in subproblem["subproblem"]["constraints"] if it["function"]["type"] != "Variable")


def path(problem, draw):
    """The names of the nodes of a path from the root."""
    name = draw.choice(sorted(problem["root"]["successors"]))
    found = [name]
    while problem["nodes"][name].get("successors"):
        name = draw.choice(sorted(problem["nodes"][name]["successors"]))
        found.append(name)
    return found


def step(problem, numbers, name, draw):
    """A node's certificates: small multipliers of its rows, and all weight on each successor's first cut."""
    node = problem["nodes"][name]
    rows = rows_of(problem["subproblems"][node["subproblem"]])
    text = struct.pack(">H", numbers[name])
    for _ in range(max(1, len(node.get("realizations", [])))):
        text += b"".join(struct.pack(">q", draw.randrange(-SCALE, SCALE)) for _ in range(rows))
        for weight in (node["successors"][it] for it in sorted(node["successors"])):
            text += struct.pack(">IIQ", 1, 0, SCALE * weight)
    return text


def record(problem, numbers, iteration, draw):
    steps = [step(problem, numbers, name, draw) for name in reversed(path(problem, draw))]
    payload = struct.pack(">IIH", iteration, 0, len(steps)) + b"".join(steps)
    return b"\x01" + struct.pack(">I", len(payload)) + payload


def main():
    data = open(sys.argv[1], "rb").read()
    problem = json.loads(data)
    numbers = {name: place for place, name in enumerate(sorted(problem["nodes"]))}
    draw = random.Random(1)
    out = sys.stdout.buffer
    out.write(b"\x01HYDPLAN1" + struct.pack(">H", 1) + hashlib.sha256(data).digest() + struct.pack(">Q", 1))
    for iteration in range(1, int(sys.argv[2]) + 1):
        out.write(record(problem, numbers, iteration, draw))
    out.write(b"\x00")


main()
