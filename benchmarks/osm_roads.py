#!/usr/bin/env python3
"""Writes the roads of an OpenStreetMap file as a .gr to standard output: osm_roads.py MAP. Needs python3-pyosmium.

Every node of a road is a vertex, numbered in the order in which the file's ways meet them. A weight is the time that its piece
of road takes, in hundredths of a second, at a speed by the kind of road."""
import math
import sys

import osmium

KILOMETRES_AN_HOUR = {
    "motorway": 110, "motorway_link": 50, "trunk": 90, "trunk_link": 45, "primary": 70, "primary_link": 40, "secondary": 60,
    "secondary_link": 40, "tertiary": 50, "tertiary_link": 35, "unclassified": 40, "residential": 30, "living_street": 10,
    "service": 15, "road": 30, "track": 10,
}
EARTH = 6371000


def metres(one, other):
    """The way along the earth between two locations."""
    north, east = (math.radians(b - a) / 2 for a, b in ((one.lat, other.lat), (one.lon, other.lon)))
    across = math.cos(math.radians(one.lat)) * math.cos(math.radians(other.lat))
    return 2 * EARTH * math.asin(math.sqrt(math.sin(north) ** 2 + across * math.sin(east) ** 2))


def directions(tags):
    """Whether a road may be driven as it is drawn, and against that."""
    kind = tags.get("oneway", "yes" if tags["highway"].startswith("motorway") else "no")
    if tags.get("junction") == "roundabout" or kind in ("yes", "1", "true"):
        return True, False
    return kind not in ("-1", "reverse"), True


class Roads(osmium.SimpleHandler):
    def __init__(self):
        super().__init__()
        self.numbers, self.arcs = {}, []

    def way(self, way):
        speed = KILOMETRES_AN_HOUR.get(way.tags.get("highway"))
        if speed is None:
            return
        there, back = directions(way.tags)
        nodes = [(node.ref, node.location) for node in way.nodes if node.location.valid()]
        for (one, begin), (other, end) in zip(nodes, nodes[1:]):
            u, v = (self.numbers.setdefault(it, len(self.numbers) + 1) for it in (one, other))
            weight = max(1, round(metres(begin, end) / (speed / 3.6) * 100))
            self.arcs += [(u, v, weight)] * there + [(v, u, weight)] * back


def main():
    roads = Roads()
    roads.apply_file(sys.argv[1], locations=True)
    print("c made by benchmarks/osm_roads.py from a map of OpenStreetMap's contributors (ODbL)")
    print("p sp %d %d" % (len(roads.numbers), len(roads.arcs)))
    for arc in roads.arcs:
        print("a %d %d %d" % arc)


if __name__ == "__main__":
    main()
