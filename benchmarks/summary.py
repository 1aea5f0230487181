#!/usr/bin/env python3
"""Fills the small tables of a page from the tables of figures that `run` wrote.

    python3 benchmarks/summary.py [FIGURES PAGE]      docs/FIGURES.md and docs/PERFORMANCE.md unless given

Each small table has a name, and is between its two marks. It has some rows and columns of the figures, of ratios the medians alone."""
import os
import re
import sys

sys.dont_write_bytecode = True

from pages import around, put_into
from report import Table

HERE = os.path.dirname(os.path.abspath(__file__))
FIGURES, PAGE = (os.path.join(HERE, os.pardir, "docs", name) for name in ("FIGURES.md", "PERFORMANCE.md"))

NEW_YORK, FLORIDA = "New York's size", "Florida's size"
FOUR = [NEW_YORK, FLORIDA, NEW_YORK + " with rivers", FLORIDA + " with rivers"]
# A real graph; it has rows if it was measured.
REAL = "Liechtenstein (real)"
TIME, BARE, MEMORY = ("Processor time with --plain: ", "Processor time with --plain without", "Peak memory with --plain")
PAIRS, FACTORS, SERVED, LIBRARIES, WORKERS = ("Pairs with --plain", "Factors by solve, without", "Services", "Libraries", "Workers")
PLAIN_ONE, FACTORS_ONE, PROCESSES = "--plain, one pair a request", "--factors, one pair a request", "--plain, a process for each pair"
SERVICES = [(NEW_YORK, "random", PLAIN_ONE), (NEW_YORK, "random", FACTORS_ONE), (NEW_YORK, "random", PROCESSES),
            (NEW_YORK, "near", PLAIN_ONE), (FLORIDA, "random", PLAIN_ONE), (FLORIDA, "random", FACTORS_ONE)]
SHARED = ["libdiffuse", "libdiffuse with factors", "baseline", "Boost", "LEMON"]
SETTINGS = [("1", "1", "1"), ("1", "16", "1"), ("4", "4", "1"), ("4", "16", "5")]
NUMBERED = [(graph, three) for graph in (REAL, NEW_YORK + ", numbered by ways", NEW_YORK + ", shuffled") for three in SETTINGS[:3]]

# Each small table: its name, its columns (whose figures, under which head, and its head here), and its rows (the first cells there,
# and the first cells here).
SMALL = [
    ("one source", ["Graph"], [(TIME, "diffuse", "`--plain`"), (TIME, "ratio to the baseline", "to the baseline"),
                               (TIME, "ratio to dimacs-solver", "to `dimacs-solver`"),
                               (BARE, "ratio to the baseline", "without reading, to the baseline"), (MEMORY, "diffuse", "Peak memory"),
                               (MEMORY, "ratio to the baseline", "to the baseline")],
     [((graph + ", one source",), (graph,)) for graph in FOUR + [NEW_YORK + ", shuffled", REAL]]),
    ("pairs", ["Graph and pairs"], [(PAIRS, "A pair", "A pair"), (PAIRS, "of the baseline", "of the baseline"),
                                    (PAIRS, "Time to the baseline", "Time to the baseline"),
                                    (PAIRS, "Peak memory to the baseline", "Peak memory to the baseline")],
     [((f"{graph}, {pairs}",), (f"{graph}, {pairs}",)) for pairs in ("twenty pairs", "5,000 near pairs") for graph in FOUR + [REAL]]),
    ("factors", ["Graph"], [(FACTORS, head, head) for head in ("Order and build", "A pair", "by --plain", "to the baseline's",
                                                               "by an order found with care", "Pays after pairs", "Peak memory")],
     [((graph,), (graph,)) for graph in FOUR + [REAL]]),
    ("services", ["Graph and pairs", "How"], [(SERVED, head, head) for head in ("Pairs a second", "Wall time a pair", "First answer after",
                                                                                "Peak memory")],
     [((f"{graph}, {pairs} pairs by services", way), (f"{graph}, {pairs} pairs", way)) for graph, pairs, way in SERVICES]),
    ("libraries", ["Graph", "Library"], [(LIBRARIES, head, head) for head in ("Open", "Tree", "Route", "100 near routes", "Graph, MB")],
     [((graph, name), (graph, name)) for graph in (NEW_YORK, FLORIDA) for name in SHARED]),
    ("workers", ["Workers", "Shards", "Width", "Order"], [(WORKERS, head, head) for head in (
        "Messages an arc", "Processor time", "Wall time", "Time to plain C++")],
     [((NEW_YORK + " with motorways, five sources", *three, "1,024", order), (*three, order))
      for order in ("as they come", "best first") for three in SETTINGS]),
    ("numberings", ["Graph", "Workers", "Shards", "Width"], [("Numberings", head, head) for head in (
        "Messages an arc", "Processor time", "Wall time", "Time to the baseline")],
     [((graph + ", five sources", *three, "1,024", "best first"), (graph, *three)) for graph, three in NUMBERED]),
]


def tables_of(text):
    """The tables of figures by their titles, each as its rows, the heads first."""
    for title, lines in re.findall(r"^\*\*(.*)\*\*\n\n((?:\|.*\n)+)", text, re.M):
        yield title, [[cell.strip() for cell in line.strip("|").split("|")] for line in lines.splitlines()]


def cell_of(tables, of, head, first):
    """A cell of the table whose title begins so: in the row that begins so, and the column of this head; without quartiles."""
    for title, (heads, _, *rows) in tables:
        for row in rows if title.startswith(of) else []:
            if tuple(row[: len(first)]) == first:
                return re.sub(r" \(.* to .*\)$", "", row[heads.index(head)])
    sys.exit("the figures have no row %s in a table %s" % (", ".join(first), of))


def summaries(text):
    """The small tables by name, as Markdown."""
    tables, has_real = list(tables_of(text)), REAL in text
    for name, heads, columns, rows in SMALL:
        small = Table(name, heads + [head for *_, head in columns])
        small.rows = [[*here] + [cell_of(tables, of, head, there) for of, head, _ in columns]
                      for there, here in rows if has_real or not there[0].startswith(REAL)]
        yield name, small.markdown().partition("\n\n")[2]


def fill(figures, page):
    """Puts each small table between its marks."""
    with open(figures, encoding="utf-8") as file:
        found = dict(summaries(file.read()))
    for name in found:
        around(page, name)
    for name, table in found.items():
        put_into(page, name, table)


if __name__ == "__main__":
    fill(*(sys.argv[1:] or (FIGURES, PAGE)))
