"""Two real towns, beside a reading of their maps by pyosmium alone.

They are looked for in benchmarks/out/real, and fetched from Debian's sources if they are not there: Liechtenstein of osm2pgsql's tests
and Neubrandenburg of JOSM's (OpenStreetMap's contributors, ODbL).
"""
import io
import os
import random
import shutil
import tarfile
import tempfile
import time
import unittest
import urllib.error
import urllib.request
import warnings
from collections import Counter
from functools import lru_cache
from http.client import HTTPException
from math import asin, cos, inf, radians, sin, sqrt
from pathlib import Path

import diffuse
from diffuse import Network

from .examples import networkx
from .test_map import osmium

FOLDER = Path(__file__).resolve().parents[3] / "benchmarks" / "out" / "real"
POOL = "http://deb.debian.org/debian/pool/main"
TOWNS = {
    "liechtenstein.gr.osm.pbf": (f"{POOL}/o/osm2pgsql/osm2pgsql_1.8.0+ds.orig.tar.xz", "liechtenstein-2013-08-03.osm.pbf"),
    "neubrandenburg.osm.bz2": (f"{POOL}/j/josm/josm_0.0.svn18646+dfsg.orig.tar.gz", "neubrandenburg.osm.bz2"),
}
LEAST = {"liechtenstein.gr.osm.pbf": 37_000, "neubrandenburg.osm.bz2": 40_000}
CLOSED = {"no", "private", "agricultural", "forestry", "agricultural;forestry", "delivery", "military", "emergency", "psv", "bus", "restricted"}
OPEN_BARRIERS = {"gate", "lift_gate", "cattle_grid", "toll_booth", "entrance", "border_control", "swing_gate", "height_restrictor", "kerb", "yes", "wall", "fence",
                 "hedge", "sally_port", "no", "spikes", "rope", "city_wall", "retaining_wall", "ditch", "handrail", "guard_rail", "hampshire_gate"}


def fetched(name):
    """The path of a map. Raises SkipTest if it can't be fetched."""
    path = FOLDER / name
    if path.exists():
        return path
    url, within = TOWNS[name]
    path.parent.mkdir(parents=True, exist_ok=True)
    try:
        with tempfile.NamedTemporaryFile(dir=FOLDER) as packed, tempfile.NamedTemporaryFile(dir=FOLDER, delete=False) as out:
            with urllib.request.urlopen(url, timeout=60) as reply:
                shutil.copyfileobj(reply, packed, 1 << 20)
            packed.flush()
            with tarfile.open(packed.name) as archive:
                member = next(member for member in archive if member.name.endswith("/" + within))
                shutil.copyfileobj(archive.extractfile(member), out)
    except (urllib.error.URLError, HTTPException, tarfile.TarError, EOFError, OSError) as error:
        raise unittest.SkipTest(f"{url} can't be fetched: {error}")
    os.replace(out.name, path)
    return path


@lru_cache(maxsize=None)
def town(name, simplify=False, connected=True):
    """The network of a town, which is read once."""
    return Network.read_osm(fetched(name), simplify=simplify, connected=connected)


def metres(a, b):
    """The way along a sphere of the earth's mean radius."""
    north, east = (radians(v - u) / 2 for u, v in ((a[1], b[1]), (a[0], b[0])))
    return 2 * 6371008.8 * asin(sqrt(sin(north) ** 2 + cos(radians(a[1])) * cos(radians(b[1])) * sin(east) ** 2))


def last_said(tags, keys):
    return [tags[key] for key in keys if key in tags][-1:]


def reading(path):
    """Each arc between neighbouring nodes that a car may take, with its metres and hundredths; the closed nodes; and how many turn
    restrictions there are."""
    arcs, closed, seen = Counter(), set(), Counter()
    keys = ("access", "vehicle", "motor_vehicle", "motorcar")

    class Handler(osmium.SimpleHandler):
        def node(self, node):
            tags = {tag.k: tag.v for tag in node.tags}
            if "barrier" in tags:
                said = last_said(tags, keys)
                if said[0] in CLOSED if said else tags["barrier"] not in OPEN_BARRIERS:
                    closed.add(node.id)

        def way(self, way):
            tags = {tag.k: tag.v for tag in way.tags}
            speed = diffuse.DRIVING.speeds.get(tags.get("highway"))
            if speed is None or any(said in CLOSED for said in last_said(tags, keys)):
                return
            limit = tags.get("maxspeed", "")
            speeds = [speed, *([float(limit)] if limit.isdigit() else [7] if limit.endswith("walk") else [50] if limit.endswith("urban") else
                               [100] if limit == "DE:rural" else []), diffuse.DRIVING.surfaces.get(tags.get("surface"), 999)]
            one = tags.get("oneway", "no" if tags.get("junction") != "roundabout" and tags["highway"] not in ("motorway", "motorway_link") else "yes")
            nodes = [(node.ref, (node.location.lon, node.location.lat)) for node in way.nodes]
            for (tail, at), (head, to) in zip(nodes, nodes[1:]):
                if tail != head:
                    length = metres(at, to)
                    cells = max(1, int(length * 10 + .5)), max(1, int(length * 3.6 / min(speeds) * 100 + .5))
                    arcs[(tail, head, *cells)] += one not in ("-1", "reverse")
                    arcs[(head, tail, *cells)] += one not in ("yes", "1", "true")

        def relation(self, relation):
            seen["turns"] += relation.tags.get("type", "").startswith("restriction")

    Handler().apply_file(str(path), locations=True)
    return +arcs, closed, seen["turns"]


@unittest.skipUnless(osmium, "pyosmium is not installed")
class Towns(unittest.TestCase):
    def test_each_arc(self):
        for name in TOWNS:
            wanted, closed, turns = reading(fetched(name))
            network = town(name, connected=False)
            roads, names = network._roads, [int(str(name).split("/")[0]) for name in network.places]
            found = Counter((names[tail - 1], names[head - 1], metres, seconds) for tail, head, metres, seconds in zip(
                roads.tails, roads.heads, roads.costs["metres"].weights, roads.costs["seconds"].weights))
            self.assertGreater(sum(found.values()), LEAST[name])
            self.assertEqual(found, wanted, name)
            self.assertLessEqual(network.report.turns, turns)
            at = {node for tail, head, *_ in wanted for node in (tail, head)}
            self.assertEqual(network.report.barriers, len(closed & at))
            touching = Counter(end for pair in {(min(pair), max(pair)) for pair in zip(roads.tails, roads.heads)} for end in pair)
            self.assertTrue(all(touching[vertex] == 1 for vertex, name in enumerate(names, 1) if name in closed))

    @unittest.skipUnless(networkx, "networkx is not installed")
    def test_routes(self):
        """Between crossings a route has the seconds of the same map with all nodes, but for rounding at each road."""
        for name in TOWNS:
            lot, fine, coarse = random.Random(1), town(name), town(name, simplify=True)
            both = [place for place in coarse.places if place in fine._roads.numbers]
            graph = fine.to_networkx()
            for source in lot.sample(both, 4):
                wanted = networkx.single_source_dijkstra_path_length(graph, source, weight="metres")
                for target in lot.sample(both, 25):
                    exact, route = (network.route(source, target, by="metres") for network in (fine, coarse))
                    self.assertAlmostEqual(exact.cost, wanted[target], places=6)
                    self.assertAlmostEqual(route.cost, wanted[target], delta=0.05 * (len(route.arcs) + len(exact.arcs)) + 0.1)

    def test_isochrones(self):
        """No stretch of road reaches further than the limit by its metres, and some reach just as far."""
        network = town("liechtenstein.gr.osm.pbf", simplify=True)
        places = list(network.places)
        for place in random.Random(2).sample(places, 5):
            near = network.isochrone(place, by="metres", limits=[2000])
            begins = {}
            for name in near.reached():
                begins.setdefault(network.coordinates.points[name], near.cost(name))
            ends = [begins[line[0]] + sum(map(metres, line, line[1:])) for _, line in near.roads()]
            self.assertLess(max(ends), 2000.2)
            self.assertGreater(max(ends), 1999.8)

    def test_an_extract_without_complete_ways(self):
        """The northern half of Liechtenstein has no road that the whole does not have."""
        path = fetched("liechtenstein.gr.osm.pbf")
        whole = town(path.name, connected=False)
        lats = sorted(lat for _, lat in whole.coordinates.points.values())
        middle = lats[len(lats) // 2]
        with tempfile.TemporaryDirectory() as room:
            half = f"{room}/half.osm.pbf"
            writer = osmium.SimpleWriter(half)

            class Copy(osmium.SimpleHandler):
                def node(self, node):
                    if node.location.lat >= middle:
                        writer.add_node(node)

                def way(self, way):
                    if "highway" in way.tags:
                        writer.add_way(way)

            Copy().apply_file(str(path))
            writer.close()
            with warnings.catch_warnings(record=True) as told:
                warnings.simplefilter("always")
                part = Network.read_osm(half, simplify=False, connected=False)
        self.assertEqual([warning.category for warning in told], [diffuse.MapWarning])
        self.assertGreater(part.report.missing, 1000)
        known = {frozenset(int(str(whole.places[end - 1]).split("/")[0]) for end in pair) for pair in zip(whole._roads.tails, whole._roads.heads)}
        found = {frozenset(int(str(part.places[end - 1]).split("/")[0]) for end in pair) for pair in zip(part._roads.tails, part._roads.heads)}
        self.assertEqual(found - known, set())

    def test_a_saved_map_is_read_in_a_fraction_of_the_time(self):
        """The same roads, in at most a third of the processor time; it is some tenth."""
        begun = time.process_time()
        first = Network.read_osm(fetched("liechtenstein.gr.osm.pbf"), simplify=False)
        took, room, least = time.process_time() - begun, io.BytesIO(), inf
        first.save(room)
        for _ in range(3):
            begun = time.process_time()
            again = Network.load(io.BytesIO(room.getvalue()))
            least = min(least, time.process_time() - begun)
        self.assertEqual((again._roads, again.coordinates, again.report), (first._roads, first.coordinates, first.report))
        self.assertLess(least, took / 3)


if __name__ == "__main__":
    unittest.main()
