"""From records of inflow to realizations for a multistage model: years, groups of years, Markov classes, autoregression.

`read_record` reads a record. `independent_years`, `grouped_years`, `markov_classes` and `periodic_autoregression` make
realizations of it, `compare` says what they keep, and `model_with_inflows` hands them to `hydroplan.model`. docs/use/INFLOWS.md says
which to take. All of it stands outside the proved core.
"""
from .adapter import model_with_inflows, policy_graph
from .autoregressive import periodic_autoregression
from .resampling import grouped_years, independent_years, markov_classes
from .comparison import (
    Comparison, ComparisonRow, Statistics, class_probabilities, compare, draw_comparison, drawn_paths, statistics_by_stage, statistics_of,
)
from .records import Fault, InflowError, Record, RecordError, read_record
from .realizations import (
    About, Autoregression, Horizon, Independent, Inflows, Lattice, Realization, ShockStage, StageRealizations, write_csv, write_json,
)

__all__ = [
    "About", "Autoregression", "Comparison", "ComparisonRow", "Fault", "Horizon", "Independent", "InflowError", "Inflows", "Lattice",
    "Realization", "Record", "RecordError", "ShockStage", "StageRealizations", "Statistics", "class_probabilities", "compare",
    "draw_comparison", "drawn_paths", "grouped_years", "independent_years", "markov_classes", "model_with_inflows",
    "periodic_autoregression", "policy_graph", "read_record", "statistics_by_stage", "statistics_of", "write_csv", "write_json",
]
