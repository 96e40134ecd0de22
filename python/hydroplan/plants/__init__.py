"""Systems of hydro and thermal plants in the user's units, compiled to a `hydroplan.Model`; docs/use/PLANTS.md has their equations.

    system = System(stages=3)
    system.add(Bus("city", demand=150, deficit=500), Thermal("gas", bus="city", maximum=150, cost=[50, 100, 150]))
    system.add(Reservoir("lake", bus="city", maximum=200, initial=200, turbine=150, productivity=1, spill=300, inflow=Random("lake")))
    system.outcomes([[(1, {"lake": 0}), (1, {"lake": 50}), (1, {"lake": 100})]] * 3)
    compiled = system.compile()
"""
from .amounts import Column, CostFalls, Flow, NotDescribed, PlantError, Random, Tiers, UnknownName, column, flow
from .elements import As, Battery, Bus, Export, Import, Line, Pump, Renewable, Reservoir, Thermal, Way
from .system import System

__all__ = [
    "As", "Battery", "Bus", "Column", "CostFalls", "Export", "Flow", "Import", "Line", "NotDescribed", "PlantError", "Pump", "Random",
    "Renewable", "Reservoir", "System", "Thermal", "Tiers", "UnknownName", "Way", "column", "flow",
]
