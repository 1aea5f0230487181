"""What several tests ask about, worked out by hand."""
import importlib

import diffuse

NONE = diffuse.UNREACHED

ARCS = [(1, 2, 4), (1, 3, 1), (3, 2, 2), (2, 4, 5), (3, 4, 8), (4, 4, 0), (5, 1, 3)]
"""The five vertices of the README: no arc leads to vertex 5."""

FIVE_GR = "c five\np sp 5 7\n" + "".join("a {} {} {}\n".format(*arc) for arc in ARCS)

try:
    import numpy
except ImportError:
    numpy = None
try:
    import pandas
except ImportError:
    pandas = None
try:
    import networkx
except ImportError:
    networkx = None


def listed(tree):
    """The lists of a tree as plain lists."""
    return [list(map(int, column)) for column in (tree.values, tree.hops, tree.parents)]


def module(name):
    """An installed module, or None."""
    try:
        return importlib.import_module(name)
    except ImportError:
        return None


geopandas, shapely, matplotlib, scipy = map(module, ("geopandas", "shapely.geometry", "matplotlib", "scipy"))
