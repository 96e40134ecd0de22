"""A stage of a study by itself, as the second reading has it: by how much its rows are missed at least, with what comes in and what is drawn."""
from __future__ import annotations

from dataclasses import replace
from types import SimpleNamespace

from extensive_plants import Extensive
from scenario_trees import TreeNode, as_way
from hydroplan.plants import As, Way


def missed_alone(case, stage, values, state) -> float:
    """What HiGHS cannot meet in a stage from 1; `values` are those of stations, `state` has what comes in by the names of docs/use/PLANTS.md."""
    alone = replace(case, elements=[_coming(it, stage, state) for it in case.elements])
    return Extensive(alone, [TreeNode(stage, 1.0, values, None)]).missed()


def _coming(it, stage, state):
    """An element to which the stage is the first: what it holds, and what arrives of water that left it before."""
    held = {"reservoir": f"volume:{it.name}", "battery": f"stored:{it.name}"}.get(it.KIND)
    found = SimpleNamespace(**vars(it)) if held is None else SimpleNamespace(**{**vars(it), "initial": state[held]})
    if it.KIND == "reservoir":
        turbined, spilled = as_way(it.downstream), as_way(it.downstream if it.spilled is As.TURBINED else it.spilled)
        words = ("", "") if turbined == spilled else (":turbined", ":spilled")
        found.downstream, found.spilled = (_arriving(way, f"way:{it.name}{word}:1", stage, state) for way, word in zip((turbined, spilled), words))
    return found


def _arriving(way, name, stage, state):
    """A way of which so much arrives in the stage as its state says."""
    return way if way is None or way.travel == 0 else Way(way.to, way.travel, (*[0] * (stage - 1), state[name]))
