"""Writes the roads of a map of OpenStreetMap as files for the program and the server.

INTO.gr has the times in hundredths of a second, INTO.m.gr the lengths in metres of the same arcs,
INTO.co where the vertices are, and INTO.names the street of each arc that has one. Then it says in
counts what was taken, and what was not heeded.
"""
from __future__ import annotations

import argparse
import sys
from typing import Iterable, Iterator, Sequence

from .errors import DiffuseError
from .network import Network
from .osm import PROFILES
from .roads import MICRODEGREES, Coordinates, Roads


def main(words: Sequence[str]) -> int:
    """Runs a command, and returns its exit status."""
    parser = argparse.ArgumentParser(prog="python3 -m diffuse", description=__doc__)
    commands = parser.add_subparsers(dest="command", required=True)
    roads = commands.add_parser("roads", help="write the roads of a map", description=__doc__)
    roads.add_argument("map", metavar="MAP", help="a file .osm, .osm.gz, .osm.bz2 or .osm.pbf")
    roads.add_argument("into", metavar="INTO", help="what the names of the files begin with")
    roads.add_argument("--profile", choices=list(PROFILES), default="driving")
    roads.add_argument("--crossings", action="store_true",
                       help="only crossings and ends of roads are vertices, not each node")
    roads.add_argument("--all-parts", action="store_true",
                       help="take roads too that are cut off from the largest part of the map")
    asked = parser.parse_args(words)
    try:
        network = Network.read_osm(asked.map, PROFILES[asked.profile], simplify=asked.crossings,
                                   connected=not asked.all_parts)
        write_roads(network, asked.into)
    except (DiffuseError, OSError, ImportError) as fault:
        print(f"diffuse roads: {fault}", file=sys.stderr)
        return 2
    print(network.report)
    print(f"{asked.into}.gr: {len(network.places)} vertices, {len(network._roads.tails)} arcs")
    return 0


def write_roads(network: Network, into: str) -> None:
    """Writes the four files of a map's network. Raises OSError."""
    roads, places = network._roads, network.coordinates
    assert places is not None and roads.table is not None
    seconds, metres = roads.costs["seconds"].weights, roads.table.column("metres")
    lengths = (int(metres[row] + 0.5) for row in roads.rows)
    for name, lines in (("gr", arc_lines(roads, "hundredths of a second", seconds)),
                        ("m.gr", arc_lines(roads, "metres", lengths)),
                        ("co", place_lines(roads, places)), ("names", name_lines(roads))):
        with open(f"{into}.{name}", "w", encoding="utf-8") as file:
            file.writelines(lines)


def arc_lines(roads: Roads, unit: str, weights: Iterable[int]) -> Iterator[str]:
    """The lines of a .gr file."""
    yield f"c {unit}, of a map of OpenStreetMap's contributors (ODbL)\n"
    yield f"p sp {len(roads.names)} {len(roads.tails)}\n"
    for tail, head, weight in zip(roads.tails, roads.heads, weights):
        yield f"a {tail} {head} {weight}\n"


def place_lines(roads: Roads, places: Coordinates) -> Iterator[str]:
    """The lines of a .co file."""
    yield "c of a map of OpenStreetMap's contributors (ODbL)\n"
    yield f"p aux sp co {len(roads.names)}\n"
    for vertex, name in enumerate(roads.names, 1):
        lon, lat = (round(value * MICRODEGREES) for value in places.points[name])
        yield f"v {vertex} {lon} {lat}\n"


def name_lines(roads: Roads) -> Iterator[str]:
    """The lines of a .names file: the number of an arc line, from 1 on, and its street."""
    assert roads.table is not None
    names, refs = roads.table.column("name"), roads.table.column("ref")
    for arc, row in enumerate(roads.rows, 1):
        street = " ".join((names[row] or refs[row] or "").split())
        if street:
            yield f"{arc} {street}\n"


if __name__ == "__main__":
    sys.exit(main(sys.argv[1:]))
