"""Best values, routes, trees and tables in road graphs, by a C library whose answers are proved;
what `Network` adds is tested.

`Graph` takes numbered vertices and whole weights; `Network` takes maps of OpenStreetMap and tables
with names, decimals and several costs, and writes CSV, GeoJSON, frames and pictures.
docs/PLANNING.md is a walk through `Network`, docs/EMBEDDING.md says what is proved.
"""
from ._handles import Stop
from ._library import version
from .answers import ALGEBRAS, UNREACHED, Algebra, Near, Route, Tree
from .errors import (
    AlreadyOpen, BadProblemLine, BadShape, Closed, DiffuseError, InputError, MapWarning, NoAlgebra,
    NoFactors, NoLink, NoNumbers, NoOrder, NoProblemLine, NoRoom, NoRoute, NotANumber, NotFactored,
    NoVertex, OtherArcs, OutOfMemory, OutOfRange, Reason, SecondProblemLine, Stopped, TextFault,
    TooDense, TooFewArcs, TooHeavy, TooManyArcs, UnknownLine, WrongFields, WrongTree,
)
from .graph import Graph
from .network import Network
from .osm import CYCLING, DRIVING, WALKING, Profile, Report
from .roads import Coordinates
from .routes import NamedRoute, Routes, Step
from .snaps import BetweenPoints, Snap, Snaps
from .trees import Isochrone, NamedTable, NamedTree

__version__ = "1.2.0"

__all__ = [
    "ALGEBRAS", "Algebra", "AlreadyOpen", "BadProblemLine", "BadShape", "BetweenPoints", "CYCLING",
    "Closed", "Coordinates", "DRIVING", "DiffuseError", "Graph", "InputError", "Isochrone",
    "MapWarning", "NamedRoute", "NamedTable", "NamedTree", "Near", "Network", "NoAlgebra",
    "NoFactors", "NoLink", "NoNumbers", "NoOrder", "NoProblemLine", "NoRoom", "NoRoute",
    "NoVertex", "NotANumber", "NotFactored", "OtherArcs", "OutOfMemory", "OutOfRange", "Profile",
    "Reason", "Report", "Route", "Routes", "SecondProblemLine", "Snap", "Snaps", "Step", "Stop",
    "Stopped", "TextFault", "TooDense", "TooFewArcs", "TooHeavy", "TooManyArcs", "Tree",
    "UNREACHED", "UnknownLine", "WALKING", "WrongFields", "WrongTree", "version",
]
