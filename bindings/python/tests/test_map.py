"""A map of OpenStreetMap: an island at 0 degrees, where 0.001 degrees are 111.195 metres both ways. Expected values by hand.

At the speeds of DRIVING that is 6.672 seconds on a secondary road, 8.006 on a tertiary, 5.719 on a primary, 13.343 on a
residential one, 10.008 on one without class, and 40.030 in a living street; a side of the roundabout is 157.254 metres long.
"""
import bz2
import contextlib
import gzip
import random
import sys
import unittest
from pathlib import Path
from unittest import mock

import diffuse
from diffuse import Network
from diffuse.osm import largest_part, read_ways

from .examples import networkx
from .test_network import WithFiles

ISLAND = Path(__file__).resolve().parents[3] / "examples" / "planning" / "island.osm"
HARBOUR, HOSPITAL = (0.0001, -0.0001), (0.0079, 0.0041)

try:
    import osmium
except ImportError:
    osmium = None


def without_osmium():
    return mock.patch.dict(sys.modules, {"osmium": None})


class Maps(WithFiles):
    def test_places_and_roads(self):
        """Places are crossings, ends, and the middle of the ring; not 3, where Harbour Road goes on over the end of a way, nor 14,
        whose other road is private."""
        island = Network.read_osm(ISLAND)
        self.assertEqual(sorted(island.places), [1, 2, 4, 6, 7, 9, 10, 12, 13, 18, 20])
        self.assertEqual((len(island._roads.table), len(island._roads.tails), list(island.costs)), (14, 23, ["seconds", "metres"]))
        self.assertEqual(island.coordinates.points[13], (0.008, 0.004))

    def test_ways(self):
        with without_osmium():
            plain, _ = read_ways(ISLAND, diffuse.DRIVING)
        self.assertEqual([way.number for way in plain], [101, 102, 103, 104, 105, 106, 107, 110, 111, 112])
        self.assertEqual((plain[4].nodes, plain[4].points, plain[4].kind[3]), ([10, 11, 2], [(0.001, 0.003), (0.001, 0.0015), (0.001, 0.0)], True))

    @unittest.skipUnless(osmium, "pyosmium is not installed")
    def test_both_readers_see_the_same(self):
        with without_osmium():
            plain = read_ways(ISLAND, diffuse.WALKING)
        self.assertEqual(read_ways(ISLAND, diffuse.WALKING), plain)

    def test_a_route_by_streets(self):
        """3 units of Harbour Road, 2 sides of the roundabout, 7 units of Coast Road, each piece in hundredths and tenths."""
        route = Network.read_osm(ISLAND).route(1, 13, by="seconds")
        self.assertEqual((route.places, route.cost, route.total("metres")), ([1, 2, 4, 6, 12, 13], 82.68, 1426.5))
        self.assertEqual(str(route), "1 to 13: 82.68 seconds\n  Harbour Road: 20.01 seconds, 333.6 metres\n"
                         "  (tertiary): 22.64 seconds, 314.5 metres\n  Coast Road: 40.03 seconds, 778.4 metres")
        self.assertEqual(route.cells("name"), ["Harbour Road", "Harbour Road", None, "Coast Road", "Coast Road"])
        self.assertEqual(route.cells("way"), [101, 101, 103, 106, 106])
        step = route.steps()[0]
        self.assertEqual((step.street, step.begin, step.end, step.totals), ("Harbour Road", 1, 4, {"seconds": 20.01, "metres": 333.6}))
        self.assertEqual(route.line(), [(0, 0), (.001, 0), (.002, 0), (.003, 0), (.004, -.001), (.005, 0), (.008, 0), (.008, .004)])
        self.assertEqual(Network.read_osm(ISLAND).route(12, 20, by="metres").steps()[0].street, "U 7")

    def test_one_ways(self):
        """Church Lane leads down from 10 to 2 only, Market Street up, and the roundabout round; on foot all lead both ways."""
        island = Network.read_osm(ISLAND)
        self.assertEqual(island.route(10, 1, by="seconds").cells("street"), ["Church Lane", "Harbour Road"])
        self.assertEqual(island.route(1, 10, by="seconds").places, [1, 2, 4, 6, 7, 9, 10])
        self.assertEqual(island.route(9, 7, by="seconds").places[1], 13)
        walk = Network.read_osm(ISLAND, diffuse.WALKING)
        self.assertEqual((walk.route(2, 10, by="metres").cells("street"), walk.route(2, 10, by="metres").cost), (["Church Lane"], 333.6))
        self.assertEqual((walk.route(1, 10, by="seconds").cells("street"), walk.route(1, 10, by="seconds").cost), (["Beach Walk"], 320.24))

    def test_directions(self):
        for tags, wanted in (({}, 0), ({"oneway": "yes"}, 1), ({"oneway": "-1"}, -1), ({"oneway": "no"}, 0), ({"highway": "motorway"}, 1),
                             ({"highway": "motorway", "oneway": "no"}, 0), ({"junction": "roundabout"}, 1), ({"junction": "roundabout", "oneway": "-1"}, -1),
                             ({"oneway": "reversible"}, 0), ({"highway": "primary", "oneway": "1"}, 1), ({"highway": "motorway_link"}, 1),
                             ({"highway": "motorway_link", "oneway": "no"}, 0), ({"highway": "trunk_link"}, 0), ({"junction": "circular"}, 1)):
            self.assertEqual(diffuse.DRIVING.direction(tags), wanted, tags)

    def test_speeds(self):
        """At 10 m a second 333.6 and 778.4 metres take 33.36 and 77.84 seconds, at 5 m a second two sides 62.90."""
        island = Network.read_osm(ISLAND, diffuse.DRIVING.but(speeds={"secondary": "36", "tertiary": 18, "primary": 36}), connected=False)
        self.assertEqual((island.route(1, 13, by="seconds").cost, sorted(island.places)), (174.1, [1, 4, 6, 13]))
        for speeds, kind, message in ((5, diffuse.InputError, "speeds: words with km/h are needed, as in {'primary': 70}, not 5"),
                                      ({"primary": 0}, diffuse.OutOfRange, "the speed of primary: 0 is not above 0"),
                                      ({"secondary": "1e-6"}, diffuse.OutOfRange, "island.osm, road 1, column seconds: 1200906866.52 times the scale 100 is not from 0 to 4294967295"),
                                      ({"primary": "fast"}, diffuse.NotANumber, "the speed of primary: 'fast' is no number")):
            self.refused(kind, message, lambda: Network.read_osm(ISLAND, diffuse.DRIVING.but(speeds=speeds), connected=False))

    def test_the_largest_part(self):
        """Without Hospital Road and High Street nothing leads out of 9 and its ring, since Market Street leads in only, and nothing
        to 10."""
        text = ISLAND.read_text().replace('v="residential"/><tag k="name" v="Hospital Road"', 'v="none"/><tag k="name" v="Hospital Road"')
        path = self.file("parts.osm", text.replace("living_street", "none"))
        self.assertEqual(sorted(Network.read_osm(path).places), [1, 2, 4, 6, 7, 12, 13, 20])
        self.assertEqual(Network.read_osm(path).report.cut_off, 4)
        self.assertEqual(len(Network.read_osm(path, connected=False).places), 11)
        self.assertEqual(sorted(Network.read_osm(ISLAND).places), sorted(Network.read_osm(ISLAND, connected=False).places))

    def test_all_nodes(self):
        island = Network.read_osm(ISLAND, simplify=False)
        self.assertEqual(sorted(island.places), [*range(1, 15), 17, 18, 19, 20])
        route = island.route(1, 13, by="metres")
        self.assertEqual((route.places, route.total("metres")), ([1, 2, 3, 4, 5, 6, 12, 13], 1426.6))  # 3 * 111.2, 2 * 157.3, 333.6, 444.8

    def test_coordinates(self):
        island = Network.read_osm(ISLAND)
        self.assertEqual((island.nearest(*HARBOUR), island.nearest(*HOSPITAL)), (1, 13))
        self.assertEqual(island.route(HARBOUR, HOSPITAL, by="seconds"), island.route(1, 13, by="seconds"))
        self.assertEqual(island.tree(HOSPITAL, by="seconds").sources, [13])
        self.assertEqual(island.tree([HOSPITAL, 1, HARBOUR], by="seconds").sources, [13, 1, 1])
        self.assertEqual(island.table([HARBOUR], [HOSPITAL, 4], by="seconds"), [[82.68, 20.01]])
        self.refused(diffuse.NoVertex, "no place is within 1000 m of (1.0, 0.0); the nearest is 110306 m away; radius= takes others", lambda: island.route(HARBOUR, (1.0, 0.0), by="seconds"))
        self.assertEqual(island.nearest(1, 0, radius=200000), 12)

    def test_who_reaches_the_hospital(self):
        near = Network.read_osm(ISLAND).isochrone(HOSPITAL, by="seconds", limits=[20, 40, 60, 80], towards=True)
        self.assertEqual([near.cost(node) for node in (13, 12, 6, 4, 9, 20, 7, 2, 1)], [0, 22.87, 40.03, 62.67, 56.52, 42.89, 73.99, 76.01, None])
        self.assertEqual(near.within(45), [13, 12, 6, 20])

    def test_kinds_of_files(self):
        text = ISLAND.read_bytes()
        with open(self.file("island.osm.gz", ""), "wb") as file:
            file.write(gzip.compress(text))
        with open(self.file("island.osm.bz2", ""), "wb") as file:
            file.write(bz2.compress(text))
        for context in (contextlib.nullcontext, without_osmium):
            for name in ("island.osm.gz", "island.osm.bz2"):
                with context():
                    self.assertEqual(len(Network.read_osm(f"{self._room.name}/{name}").places), 11)

    def test_files_that_are_no_maps(self):
        self.assertRaises(OSError, Network.read_osm, "/nowhere/island.osm")
        for context in (contextlib.nullcontext, without_osmium):
            for name, text in (("a.osm", "no map"), ("b.osm", "<osm><node id='x' lat='1' lon='2'/></osm>"), ("c.osm.gz", "no map"), ("d.osm", "<osm><way id='1'>"),
                               ("e.osm", "<?xml version='1.0' encoding='UTF-B'?><osm/>"), ("f.osm", "<osm><node id='1' lat='1,5' lon='2'/></osm>")):
                path = self.file(name, text)
                with context(), self.assertRaisesRegex(diffuse.InputError, name):
                    Network.read_osm(path)
        with without_osmium(), self.assertRaisesRegex(ImportError, "a.osm.pbf is read by pyosmium, which is not installed"):
            Network.read_osm(self.file("a.osm.pbf", ""))

    def test_a_map_without_roads(self):
        path = self.file("empty.osm", "<osm version='0.6'></osm>")
        for context in (contextlib.nullcontext, without_osmium):
            with context():
                self.refused(diffuse.InputError, f"{path}: no road for driving: of 0 ways of its classes, 0 are closed to it, 0 are left out by its filter, "
                             "0 lack nodes in the file", lambda: Network.read_osm(path))

    def test_nodes_that_are_cut_off(self):
        """A way of an extract may name nodes that the extract does not have, or not on the earth, and a node twice."""
        text = "<osm version='0.6'><node id='8' version='1' lat='95' lon='0'/>" + "".join(f"<node id='{n}' version='1' lat='0' lon='{n / 1000}'/>" for n in (1, 2)) + \
            "<way id='5' version='1'><nd ref='9'/><nd ref='1'/><nd ref='1'/><nd ref='2'/><tag k='highway' v='residential'/></way>" + \
            "<way id='6' version='1'><nd ref='2'/><nd ref='8'/><tag k='highway' v='residential'/></way></osm>"
        for context in (contextlib.nullcontext, without_osmium):
            with context():
                with self.assertWarnsRegex(diffuse.MapWarning, "2 nodes of 2 ways are not in the file"):
                    self.assertEqual(Network.read_osm(self.file("cut.osm", text)).route(1, 2, by="metres").cost, 111.2)


class Parts(unittest.TestCase):
    def test_by_hand(self):
        self.assertEqual(largest_part([(1, 2), (2, 3), (3, 1), (3, 4), (4, 5), (5, 4)]), {1, 2, 3})
        self.assertEqual(largest_part([]), set())
        self.assertEqual(largest_part([(n, n % 5000 + 1) for n in range(1, 5001)]), set(range(1, 5001)))

    @unittest.skipUnless(networkx, "networkx is not installed")
    def test_random_graphs(self):
        for seed in range(200):
            lot = random.Random(seed)
            arcs = [(lot.randint(1, 12), lot.randint(1, 12)) for _ in range(lot.randint(1, 24))]
            parts = list(map(set, networkx.strongly_connected_components(networkx.DiGraph(arcs))))
            found = largest_part(arcs)
            self.assertIn(found, parts)
            self.assertEqual(len(found), max(map(len, parts)))


class Joining(WithFiles):
    def network(self, *ways):
        """The map of ways, each with its nodes, a name, and perhaps more tags."""
        nodes = {node for nodes, _, _ in ways for node in nodes}
        text = "<osm version='0.6'>" + "".join(f"<node id='{n}' version='1' lat='{n * n / 10000}' lon='{n / 1000}'/>" for n in sorted(nodes))
        for number, (nodes, name, tags) in enumerate(ways, 1):
            tags = {"highway": "residential", "name": name, **tags}
            text += f"<way id='{number}' version='1'>" + "".join(f"<nd ref='{n}'/>" for n in nodes)
            text += "".join(f"<tag k='{k}' v='{v}'/>" for k, v in tags.items()) + "</way>"
        return Network.read_osm(self.file("ways.osm", text + "</osm>"), connected=False)

    def roads(self, *ways):
        """The ends of its roads, with what lies between."""
        network = self.network(*ways)
        rows = {row: arc for arc, row in reversed(list(enumerate(network._roads.rows)))}
        return sorted((network.places[network._roads.tails[arc] - 1], network.places[network._roads.heads[arc] - 1],
                       [round(1000 * x) for x, _ in network._roads.shapes[row]]) for row, arc in rows.items())

    def test_a_chain_of_ways_is_one_road(self):
        self.assertEqual(self.roads(([3, 2], "A", {}), ([4, 3], "A", {}), ([1, 2], "A", {})), [(4, 1, [3, 2])])

    def test_a_road_ends_where_its_name_class_or_direction_does(self):
        for name, tags in (("B", {}), ("A", {"highway": "primary"}), ("A", {"oneway": "yes"}), ("A", {"ref": "7"})):
            self.assertEqual(self.roads(([1, 2], "A", {}), ([2, 3], name, tags)), [(1, 2, []), (2, 3, [])])

    def test_one_ways_are_joined_in_their_direction(self):
        one = {"oneway": "yes"}
        self.assertEqual(self.roads(([2, 3], "A", one), ([1, 2], "A", one), ([3, 4], "A", one)), [(1, 4, [2, 3])])
        self.assertEqual(self.roads(([2, 1], "A", one), ([2, 3], "A", one)), [(2, 1, []), (2, 3, [])])
        self.assertEqual(self.roads(([2, 1], "A", {"oneway": "-1"}), ([2, 3], "A", one)), [(1, 3, [2])])

    def test_crossings_in_the_middle_of_a_way(self):
        self.assertEqual(self.roads(([1, 2, 3, 4, 5], "A", {}), ([6, 3], "B", {})), [(1, 3, [2]), (3, 5, [4]), (6, 3, [])])

    def test_rings_have_a_place_in_their_middle(self):
        self.assertEqual(self.roads(([1, 2, 3, 4, 1], "A", {})), [(1, 3, [2]), (3, 1, [4])])
        self.assertEqual(self.roads(([1, 2, 3], "A", {}), ([3, 4, 1], "A", {})), [(1, 3, [2]), (3, 1, [4])])
        self.assertEqual(self.roads(([9, 1], "B", {}), ([1, 2, 3], "A", {}), ([1, 4, 3], "A", {})), [(1, 3, [2]), (3, 1, [4]), (9, 1, [])])

    def test_a_way_over_itself(self):
        self.assertEqual(self.roads(([1, 2, 3, 4, 2, 5], "A", {})), [(1, 2, []), (2, 3, []), (2, 5, []), (3, 2, [4])])


if __name__ == "__main__":
    unittest.main()
