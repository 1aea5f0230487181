"""Points on roads: the nearest one, and routes from and to such points. Expected values by hand."""
import json
import math
import random
import unittest
from pathlib import Path
from tempfile import TemporaryDirectory

import diffuse
from diffuse import Network

from .test_network import WithFiles

# A square of roads on a plane, one-way round it but for the first, which is both ways:  D <- C
#                                                                                      v    ^
#                                                                                      A == B
SQUARE = {"from": [*"ABCD"], "to": [*"BCDA"], "m": [10, 7, 10, 10], "km": [1, 2, 3, 4], "back": [True, False, False, False]}
CORNERS = {"place": [*"ABCD"], "lon": [0, 10, 10, 0], "lat": [0, 0, 10, 10]}


def square():
    return Network.from_table(SQUARE, tail="from", head="to", both_ways="back", costs={"m": 1, "km": 1}, places=CORNERS, degrees=False)


class Snaps(WithFiles):
    def test_the_nearest_point_on_a_road(self):
        found = square().snap(4, -3)
        self.assertEqual((found.tail, found.head, found.row, found.arc), ("A", "B", 0, 0))
        self.assertEqual((found.fraction, found.distance, found.point), (0.4, 3, (4, 0)))
        found = square().snap(8, 6)
        self.assertEqual((found.tail, found.head, found.fraction, found.distance), ("B", "C", 0.6, 2))
        self.assertEqual((square().snap(-3, -4).distance, square().snap(-3, -4).point), (5, (0, 0)))
        self.assertRaisesRegex(diffuse.NoVertex, "no road is within 4", square().snap, -3, -4, 4)

    def test_in_degrees(self):
        network = self.network()
        found = network.snap(10.005, 50.0001)
        self.assertEqual((found.tail, found.head, found.row), ("A", "B", 0))
        self.assertAlmostEqual(found.fraction, 0.5, 6)
        self.assertAlmostEqual(found.distance, 11.12, 2)
        self.assertRaisesRegex(diffuse.NoVertex, "no road is within 1000 m of .*; the nearest is [0-9]+ m away", network.snap, 11, 50)
        self.assertRaisesRegex(diffuse.InputError, "does not have", self.network(places=None).snap, 10, 50)
        across = Network.from_table({"a": ["W"], "b": ["E"], "m": [1]}, tail="a", head="b", costs={"m": 1},
                                    places={"place": ["W", "E"], "lon": [179.0, 179.999], "lat": [0, 0]})
        self.assertAlmostEqual(across.snap(-179.999, 0).distance, 222.39, 2)

    def test_the_shapes_of_roads(self):
        island = Network.read_osm(Path(__file__).resolve().parents[3] / "examples/planning/island.osm")
        for row in range(len(island._roads.table)):
            arc = list(island._roads.rows).index(row)
            line = island._roads.line(arc, island.coordinates)
            middle = tuple((a + b) / 2 for a, b in zip(line[0], line[1]))
            found = island.snap(*middle)
            self.assertLess(found.distance, 1e-6)
            self.assertEqual((found.row, found.piece), (row, 0))

    def test_beside_all_pieces(self):
        """On random roads, beside the least distance to any of them; on a plane, and in degrees, where these are nearly metres."""
        lot = random.Random(5)
        for _ in range(20):
            count, top = lot.randint(2, 40), lot.uniform(60, 62)
            at = {"place": range(count), "lon": [lot.uniform(5, 5.2) for _ in range(count)], "lat": [lot.uniform(60, top) for _ in range(count)]}
            ends = [[lot.randrange(count) for _ in range(count)] for _ in range(2)]
            network = Network.from_table({"a": ends[0], "b": ends[1], "m": [1] * count}, tail="a", head="b", costs={"m": 1}, places=at)
            for _ in range(10):
                point = lot.uniform(4.9, 5.3), lot.uniform(60, top)
                narrow, unit = math.cos(math.radians(point[1])), math.radians(1) * 6371008.8
                flat = [((at["lon"][v] - point[0]) * narrow * unit, (at["lat"][v] - point[1]) * unit) for v in range(count)]
                best = min(to_segment((0, 0), flat[tail], flat[head]) for tail, head in zip(*ends))
                self.assertAlmostEqual(network.snap(*point, radius=1e6).distance / best, 1, 2)
        for _ in range(30):
            count = lot.randint(2, 40)
            at = {"place": range(count), "lon": [lot.uniform(0, 9) for _ in range(count)], "lat": [lot.uniform(0, 3) for _ in range(count)]}
            ends = [[lot.randrange(count) for _ in range(count)] for _ in range(2)]
            network = Network.from_table({"a": ends[0], "b": ends[1], "m": [1] * count}, tail="a", head="b", costs={"m": 1}, places=at, degrees=False)
            for _ in range(20):
                point = lot.uniform(-2, 11), lot.uniform(-2, 5)
                best = min(to_segment(point, *((at["lon"][v], at["lat"][v]) for v in pair)) for pair in zip(*ends))
                self.assertAlmostEqual(network.snap(*point).distance, best, 9)


class Routes(unittest.TestCase):
    def test_parts_at_both_ends(self):
        """From A-B at 0.4 to B-C at 0.6: 6 to B, and 4.2 on, which is rounded to 4."""
        network = square()
        route = network.route_between((4.0, -1.0), (11.0, 6.0), by="m")
        self.assertEqual((route.cost, route.line()), (10, [(4, 0), (10, 0), (10, 6)]))
        self.assertEqual((route.total("km"), route.route.places), (2, ["B"]))
        self.assertEqual(repr(route), "<diffuse.BetweenPoints: 10 m>")

    def test_back_along_a_road_both_ways(self):
        network = square()
        route = network.route_between(network.snap(4, 0), "A", by="m")
        self.assertEqual((route.cost, route.line(), route.last), (4, [(4, 0), (0, 0)], None))
        route = network.route_between(network.snap(0, 5), (2.0, 0.0), by="m")
        self.assertEqual((route.cost, route.line()), (7, [(0, 5), (0, 0), (2, 0)]))

    def test_round_a_road_of_one_way(self):
        """From B-C at 0.6 on to 0.8 is 1.4, rounded to 1; back to 0.5 goes round: 2.8, 10, 10, 10 and 3.5."""
        network = square()
        begin = network.snap(10, 6)
        self.assertEqual(network.route_between(begin, network.snap(10, 8), by="m").cost, 1)
        self.assertEqual(network.route_between(begin, begin, by="m").cost, 0)
        back = network.route_between(begin, network.snap(10, 5), by="m")
        self.assertEqual((back.cost, back.line()), (37, [(10, 6), (10, 10), (0, 10), (0, 0), (10, 0), (10, 5)]))
        there = network.route_between(network.snap(2, 0), network.snap(7, 0), by="m")
        again = network.route_between(network.snap(7, 0), network.snap(2, 0), by="m")
        self.assertEqual((there.cost, there.line(), again.cost, again.line()), (5, [(2, 0), (7, 0)], 5, [(7, 0), (2, 0)]))

    def test_ways_back_that_are_rows_of_their_own(self):
        """A to B 10 and 6 by two rows along one line, and back 8; 0.25 of 6 is 1.5, rounded to 2, and 0.75 of 8 is 6."""
        table = {"a": [*"ABA"], "b": [*"BAB"], "m": [10, 8, 6]}
        network = Network.from_table(table, tail="a", head="b", costs={"m": 1}, places={"place": [*"AB"], "lon": [0, 8], "lat": [0, 6]}, degrees=False)
        points = [network.snap(8 * share, 6 * share) for share in (0.25, 0.5, 0.75)]
        self.assertEqual({point.arc for point in points}, {0})
        self.assertEqual([network.route_between(*ends, by="m").cost for ends in (("A", points[0]), (points[0], "A"), ("B", points[0]), (points[2], points[0]),
                                                                             (points[0], points[2]))], [2, 2, 6, 4, 3])

    def test_beside_graphs_with_the_points_as_vertices(self):
        lot, found = random.Random(6), 0
        for _ in range(150):
            count, size = lot.randint(2, 6), lot.randint(1, 9)
            at = {"place": range(1, count + 1), "lon": [8 * lot.randint(0, 4) for _ in range(count)], "lat": [8 * lot.randint(0, 4) for _ in range(count)]}
            ends = [lot.sample(range(1, count + 1), 2) for _ in range(size)]
            table = {"a": [a for a, _ in ends], "b": [b for _, b in ends], "m": [4 * lot.randint(0, 9) for _ in ends], "back": [lot.random() < 0.4 for _ in ends]}
            network = Network.from_table(table, tail="a", head="b", costs={"m": 1}, both_ways="back", places=at, degrees=False)
            points = []
            for tail, head in lot.choices(ends, k=2):
                share = lot.choice([0.25, 0.5, 0.75])
                points.append(network.snap(*(cells[tail - 1] + (cells[head - 1] - cells[tail - 1]) * share for cells in (at["lon"], at["lat"]))))
            if all(4 * point.fraction == round(4 * point.fraction) for point in points):
                found += 1
                try:
                    value = network.route_between(*points, by="m").value
                except diffuse.NoRoute:
                    value = None
                self.assertEqual(value, split(table, *points))
        self.assertGreater(found, 100)

    def test_refusals(self):
        network = square()
        dead = Network.from_table({"a": ["A"], "b": ["B"], "m": [1]}, tail="a", head="b", costs={"m": 1},
                                  places={"place": [*"AB"], "lon": [0, 1], "lat": [0, 0]}, degrees=False)
        self.assertRaises(diffuse.NoRoute, dead.route_between, dead.snap(0.5, 0), "A", "m")
        self.assertRaisesRegex(diffuse.InputError, "of another network", dead.route_between, network.snap(10, 5), "A", "m")
        self.assertRaises(diffuse.NoVertex, network.route_between, "Z", "A", "m")

    def test_written(self):
        network = Network.from_table(SQUARE, tail="from", head="to", costs={"m": 1}, places={**CORNERS, "lon": [0, .01, .01, 0], "lat": [0, 0, .01, .01]})
        with TemporaryDirectory() as room:
            network.route_between((0.0, 0.005), "B", by="m").to_geojson(f"{room}/route.geojson")
            with open(f"{room}/route.geojson") as file:
                (feature,) = json.load(file)["features"]
        self.assertEqual(feature["geometry"]["coordinates"], [[0.0, 0.005], [0, 0], [0.01, 0]])
        self.assertEqual(feature["properties"], {"by": "m", "cost": 15, "totals": {"m": 15}})


class Many(WithFiles):
    def test_the_nearest_places_of_a_list(self):
        network = self.network()
        self.assertEqual(network.nearest([(10.0099, 50.0001), ("10.03", 50.02)]), ["B", "Island"])
        self.assertEqual(network.nearest([]), [])
        self.assertRaisesRegex(diffuse.NoVertex, r"points\[1\]: no place is within 1000 m", network.nearest, [(10.0, 50.0), (50.0, 10.0)])
        self.assertRaisesRegex(diffuse.OutOfRange, r"points\[0\]: longitude: 200.0 is not", network.nearest, [(200, 0)])
        self.assertRaisesRegex(diffuse.BadShape, r"points\[0\]: 10.0 is not a pair", network.nearest, [10.0, 50.0, 10.0])
        self.assertRaises(diffuse.BadShape, network.nearest, 10.0)


def split(table, *points):
    """The least sum between two points, in a graph in which they are the last two vertices; None if no route leads there."""
    arcs = [arc for a, b, m, back in zip(table["a"], table["b"], table["m"], table["back"]) for arc in [(a, b, m), (b, a, m)][:1 + back]]
    most, more = max(table["a"] + table["b"]), []
    for tail, head, weight in arcs:
        stops = [(0, tail), (1, head)]
        for vertex, point in enumerate(points, most + 1):
            if {point.tail, point.head} == {tail, head}:
                stops.append((point.fraction if point.tail == tail else 1 - point.fraction, vertex))
        more += [(a, b, int(weight * (there - here))) for here, a in stops for there, b in stops if here <= there]
    try:
        return diffuse.Graph(most + 2, more).route(most + 1, most + 2).value
    except diffuse.NoRoute:
        return None


def to_segment(point, begin, end):
    """How far a point is from a straight line between two others."""
    wide, high = end[0] - begin[0], end[1] - begin[1]
    square = wide * wide + high * high
    share = ((point[0] - begin[0]) * wide + (point[1] - begin[1]) * high) / square if square else 0
    share = min(max(share, 0), 1)
    return math.hypot(begin[0] + wide * share - point[0], begin[1] + high * share - point[1])


if __name__ == "__main__":
    unittest.main()
