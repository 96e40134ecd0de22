"""Studies: a folder with study.toml and CSV files becomes a trained policy and a folder of results; docs/use/STUDIES.md has all keys.

`read_study` reads a folder, `train_study` trains on its journal, `write_results` simulates and writes the results, and `main` is the command
`hydroplan study`. All of it stands outside the proved core.
"""
from .command import main
from .document import StudyError
from .results_folder import write_results
from .study import Study, read_study
from .training import train_study

__all__ = ["Study", "StudyError", "main", "read_study", "train_study", "write_results"]
