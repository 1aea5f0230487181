"""The nearest place: by hand, and for random points the nearest of all."""
import random
import unittest
from unittest import mock

import diffuse
from diffuse import Network
from diffuse.geometry import Points, at_distances, grouped, metres, on_a_plane, part_of

from .test_network import WithFiles


def grid(points, degrees=True):
    return Points(points, degrees)


class Nearest(unittest.TestCase):
    def compare(self, points, questions, degrees):
        distance, found = metres if degrees else on_a_plane, grid(points, degrees)
        for question in questions:
            wanted = min(range(len(points)), key=lambda place: (distance(question, points[place]), place))
            way, place = found.nearest(question)
            self.assertEqual(place, wanted, question)
            self.assertAlmostEqual(way, distance(question, points[wanted]), places=5)

    def test_random_points(self):
        for seed in range(30):
            lot = random.Random(seed)
            degrees, count = seed % 2 == 0, lot.choice([1, 2, 3, 50, 400])
            wide, high = lot.choice([0, .01, 3, 60]), lot.choice([0, .01, 3, 60])
            at = (lot.uniform(-100, 100), lot.uniform(-25, 25))
            points = [(at[0] + lot.random() * wide, at[1] + lot.random() * high) for _ in range(count)]
            near = [(x + lot.gauss(0, .3), y + lot.gauss(0, .3)) for x, y in lot.choices(points, k=20)]
            far = [(lot.uniform(-180, 180), lot.uniform(-89, 89)) for _ in range(10)]
            self.compare(points, near + far + points[:5], degrees)

    def test_over_the_meridian_of_180_degrees(self):
        self.compare([(179.99, -17), (-179.99, -17.5), (170, -17), (-170, -17)], [(-179.995, -17), (179.999, -17.4), (-180, 0)], True)

    def test_without_numpy(self):
        with mock.patch("diffuse.geometry.np", None):
            self.assertEqual(grouped([2, 0, 2, 1, 0], 4), ([0, 2, 3, 5, 5], [1, 4, 3, 0, 2]))
            self.compare([(1, 1), (2, 2), (2, 1)], [(1.4, 1), (1.6, 1), (1.6, 1.6)], True)
        self.assertEqual(grouped([2, 0, 2, 1, 0], 4), ([0, 2, 3, 5, 5], [1, 4, 3, 0, 2]))

    def test_equal_distances(self):
        self.assertEqual(grid([(0, 1), (0, -1), (0, -1)], False).nearest((0, 0)), (1, 0))
        self.assertEqual(grid([]).nearest((0, 0)), (float("inf"), -1))


class Lines(unittest.TestCase):
    def test_lengths(self):
        self.assertAlmostEqual(metres((7, 50), (7, 51)), 111195.08, places=1)
        self.assertAlmostEqual(metres((0, 0), (180, 0)), 20015114, delta=1)
        self.assertAlmostEqual(metres((0, 60), (1, 60)), 55597, delta=2)

    def test_parts(self):
        line = [(0, 0), (4, 0), (4, 0), (4, 4)]
        self.assertEqual(part_of(line, 0.25, 0.75, False), [(2, 0), (4, 0), (4, 0), (4, 2)])
        self.assertEqual(part_of(line, 0, 0.5, False), [(0, 0), (4, 0)])
        self.assertEqual(part_of(line, 0.5, 1, False), [(4, 0), (4, 4)])
        self.assertEqual(part_of([(1, 1), (1, 1)], 0, 1, True), [(1, 1), (1, 1)])

    def test_points_along_a_line(self):
        self.assertEqual(at_distances([(0, 0), (1, 0), (1, .2)], 0.5), [(0, 0), (1 / 3, 0), (2 / 3, 0), (1, 0), (1, .2)])


class InNetworks(WithFiles):
    def test_names_and_refusals(self):
        network = self.network()
        self.assertEqual((network.nearest(10.0099, 50.0001), network.nearest("10.03", 50.02)), ("B", "Island"))
        self.assertEqual(network.route((10.0001, 50.0), (10.02, 50.0101), by="minutes").places, ["A", "B", "C", "D"])
        for at, kind, message in (((50.0, 10.0), diffuse.NoVertex, "no place is within 1000 m of (50.0, 10.0)"), ((200, 0), diffuse.OutOfRange, "longitude: 200.0 is not from -180 to 180"),
                                  ((0, "north"), diffuse.NotANumber, "latitude: 'north' is no number"), ((float("nan"), 0), diffuse.NotANumber, "longitude: nan is no number")):
            with self.assertRaisesRegex(kind, message.replace("(", "[(]").replace(")", "[)]")):
                network.nearest(*at)
        self.assertRaisesRegex(diffuse.OutOfRange, "radius: 0 is not above 0", network.nearest, 10, 50, 0)
        self.assertRaisesRegex(diffuse.InputError, "which this network does not have", self.network(places=None).nearest, 10, 50)

    def test_a_name_comes_before_a_point(self):
        table = {"a": [(0.0, 0.0)], "b": [(5.0, 5.0)], "m": [1]}
        places = {"place": [(0.0, 0.0), (5.0, 5.0)], "lon": [7, 0], "lat": [7, 0]}
        network = Network.from_table(table, tail="a", head="b", costs={"m": 1}, places=places)
        self.assertEqual(network.tree((0.0, 0.0), by="m").sources, [(0.0, 0.0)])
        self.assertEqual(network.tree((7.0, 7.001), by="m").sources, [(0.0, 0.0)])

    def test_floats_as_names(self):
        """Two names are a list of places, and not a point."""
        table = {"a": [1.5, 2.5], "b": [2.5, 3.5], "m": [1, 1]}
        places = {"place": [1.5, 2.5, 3.5], "lon": [1.5, 2.5, 3.5], "lat": [2.5, 0, 0]}
        for more in ({}, {"places": places}):
            network = Network.from_table(table, tail="a", head="b", costs={"m": 1}, **more)
            self.assertEqual(network.tree((1.5, 2.5), by="m").sources, [1.5, 2.5])
        self.assertEqual(network.tree((1.5, 2.500001), by="m").sources, [1.5])

    def test_on_a_plane(self):
        network = self.network(places=PLANE, degrees=False)
        self.assertEqual((network.nearest(900, 900), network.nearest(-9000, 0)), ("B", "A"))
        self.assertRaisesRegex(diffuse.NoVertex, r"no place is within 5 of \(9.0, 900.0\); the nearest is 895 away", network.nearest, 9, 900, 5)


PLANE = "place,lon,lat\nA,0,5\nB,1000,1000\n"

if __name__ == "__main__":
    unittest.main()
