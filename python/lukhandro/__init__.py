"""Lukhandro, the planner's desk: a timetable engine whose every call is proved, for Python.

`Model` and its friends are the calls; `lukhandro.text` has models as text, with names and clock times; `python -m
lukhandro` is the command. Only Python's standard library is needed.
"""
from .library import Unloadable
from .model import (BLANK, FULL, FeedWindow, Figures, Given, Model, Row, Salvaged, Trial, departures, read_frequencies, salvage,
                    to_version_1, to_version_2, write_frequencies)
from .refused import REASONS, BoardRefused, FrequenciesRefused, Refused, WrittenRefused

__version__ = "1.0.0"

__all__ = ["BLANK", "FULL", "BoardRefused", "FeedWindow", "Figures", "FrequenciesRefused", "Given", "Model", "REASONS", "Refused", "Row",
           "Salvaged", "Trial", "Unloadable", "WrittenRefused", "departures", "read_frequencies", "salvage", "to_version_1",
           "to_version_2", "write_frequencies"]
