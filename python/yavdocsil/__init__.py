"""Yavdocsil: turns a truth table with don't-cares into the smallest network of two-way selectors, and sifts its order.

    from yavdocsil import Network

    network = Network.from_path("examples/bounce-guard.txt")
    network.sift_all()
    print(network.build(), "cells in the order", network.order)

It stands on the shared library, which ./build makes.
"""

from .comparison import Difference
from .diagram import Cell, Diagram
from .errors import Error, Malformed, NotBuilt, Refused
from .formats import UnknownFormat
from .network import Network
from .reading.encoding import NotText
from .reading.rows import BadRow
from .table import Table

__version__ = "1.9.0"

__all__ = [
    "BadRow", "Cell", "Diagram", "Difference", "Error", "Malformed", "Network", "NotBuilt", "NotText", "Refused", "Table", "UnknownFormat",
]
