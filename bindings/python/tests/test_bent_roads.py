"""Lengths along roads by metres: isochrones of bent roads, points on roads over 180 degrees. Expected values by hand."""
import unittest
from math import cos, radians

import diffuse
from diffuse import Network
from diffuse.geometry import RADIUS, length, metres, part_of

from .test_network import WithFiles

KILOMETRE = 1000 / RADIUS / radians(1)
"""A kilometre in degrees of latitude."""
NORTH = 53.5


def corner(**words):
    """A road that leads a kilometre to the east and one to the north, and is known to have 2000 metres."""
    east = KILOMETRE / cos(radians(NORTH))
    line = [(10, NORTH), (10 + east, NORTH), (10 + east, NORTH + KILOMETRE)]
    table = {"a": ["A"], "b": ["B"], "m": [2000], "way": [line]}
    return Network.from_table(table, tail="a", head="b", costs={"m": 1}, geometry="way", **words)


class Isochrones(WithFiles):
    def test_a_road_is_cut_by_metres(self):
        for limit in (250, 500, 1000, 1250, 1500, 2000):
            (found, line), = corner().isochrone("A", by="m", limits=[limit]).roads()
            self.assertEqual(found, limit)
            self.assertAlmostEqual(length(line), limit, delta=1)

    def test_from_both_ends(self):
        near = corner(both_ways=True).isochrone("B", by="m", limits=[500, 1500])
        self.assertEqual([(limit, round(length(line), -1)) for limit, line in near.roads()], [(500, 500), (1500, 1000)])

    def test_polygons_are_of_the_same_part(self):
        """Within 1000 metres of the eastern road none of the northern one is in a cell."""
        near = corner().isochrone("A", by="m", limits=[1000])
        lats = [lat for feature in near._features("polygons", 100) for rings in feature["geometry"]["coordinates"] for ring in rings for _, lat in ring]
        self.assertLess(max(lats) - NORTH, 2.1 * KILOMETRE / 10)

    def test_parts(self):
        line = [(0, 60), (2, 60), (2, 61)]
        half = part_of(line, 0, 0.5, True)
        self.assertAlmostEqual(length(half) / length(line), 0.5, places=6)
        self.assertEqual(part_of([(0, 0), (4, 0), (4, 4)], 0, 0.5, False), [(0, 0), (4, 0)])
        self.assertEqual(part_of([(179, 0), (-179, 0)], 0.75, 1, True), [(-179.5, 0), (-179, 0)])

    def test_cells_are_bounded(self):
        """In degrees of latitude the road has 1 / cos 53.5 and 1 kilometres, 2.681: half a cell is at least a millionth of it."""
        near = corner().isochrone("A", by="m", limits=[2000])
        for cell in (.001, 1e-9):
            with self.assertRaises(diffuse.OutOfRange) as caught:
                near.to_geojson(shape="polygons", cell=cell)
            self.assertIn(f"cell: {cell} metres are too few for these roads; from 0.0054 on", str(caught.exception))
        self.assertIn("MultiPolygon", near.to_geojson(shape="polygons", cell=5))


class Snaps(WithFiles):
    def test_a_road_over_180_degrees(self):
        """0.02 degrees on the equator: a quarter along, and a hundredth of a degree to the north of it, on both sides."""
        places = {"place": ["W", "E"], "lon": [179.99, -179.99], "lat": [0, 0]}
        network = Network.from_table({"a": ["W"], "b": ["E"], "m": [100]}, tail="a", head="b", costs={"m": 1}, both_ways=True, places=places)
        for at, fraction in ((179.995, 0.25), (-179.995, 0.75), (180, 0.5), (-180, 0.5)):
            snap = network.snap(at, 0.001)
            self.assertAlmostEqual(snap.fraction, fraction, places=6)
            self.assertAlmostEqual(snap.distance, metres((0, 0), (0, 0.001)), delta=0.01)
        self.assertEqual(network.route_between((179.995, 0.0), (-179.995, 0.0), by="m").cost, 50)

    def test_a_snap_is_of_its_network(self):
        """Two networks over roads of the same numbers: arc and row fit, the roads do not."""
        table, places = {"a": ["A", "B"], "b": ["B", "C"], "m": [10, 10]}, {"place": ["A", "B", "C"], "lon": [0, .001, .002], "lat": [0, 0, 0]}
        one, other = (Network.from_table(table, tail="a", head="b", costs={"m": 1}, places=places) for _ in range(2))
        snap = one.snap(.0015, 0)
        self.assertRaisesRegex(diffuse.InputError, "is on a road of another network", other.route_between, "A", snap, "m")
        for same in (one, one.with_cost("m", [20, 20]), one.with_sum("n", {"m": 2}, scale=1)):
            self.assertEqual(same.route_between("A", snap, "m").total("m") // 15, same.route("A", "B", "m").cost // 10)


if __name__ == "__main__":
    unittest.main()
