"""Companions of `qyas`: they model, explain, draw and convert. Nothing here is proved; what `qyas` prints is."""

from .expression import total
from .faults import Fault
from .model import Kind, Program, binary, continuous, whole
from .solution import Solution, given, solve

__all__ = ["Fault", "Kind", "Program", "Solution", "binary", "continuous", "given", "solve", "total", "whole"]
