"""Columns from outside, tested by proved code. See README.md beside this package."""

from .arrow import Arrow
from .batches import Batches
from .column import Column
from .faults import Refused, Stopped, fault_name, version
from .steps import Step, run

__all__ = ["Arrow", "Batches", "Column", "Refused", "Step", "Stopped", "fault_name", "run", "version"]
