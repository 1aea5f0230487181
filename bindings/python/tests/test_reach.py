"""How far along roads an isochrone reaches, and polygons of cells. Expected values by hand."""
import json
import unittest
from array import array
from dataclasses import replace

import diffuse
from diffuse import Network
from diffuse.roads import Cost
from diffuse.trees import parts_of, rings_of

from .test_network import WithFiles

TABLE = {"from": ["A", "B", "D"], "to": ["B", "C", "C"], "minutes": [4, 2, 2], "both": ["no", "yes", "no"]}
PLACES = {"place": ["A", "B", "C", "D"], "lon": [0, .004, .006, .008], "lat": [0, 0, 0, 0]}


def line_of_four(**words):
    """A - B - C - D from west to east, a minute for each 0.001 degrees; A leads to B only, and D to C."""
    return Network.from_table(TABLE, tail="from", head="to", costs={"minutes": 1}, both_ways="both", places=PLACES, **words)


def rounded(roads):
    return sorted((limit, [(round(x, 6), round(y, 6)) for x, y in line]) for limit, line in roads)


class Roads(WithFiles):
    def test_a_road_is_cut_at_limits(self):
        near = line_of_four().isochrone("A", by="minutes", limits=[1, 3, 5])
        self.assertEqual(rounded(near.roads()), [(1, [(0, 0), (.001, 0)]), (3, [(.001, 0), (.003, 0)]), (5, [(.003, 0), (.004, 0)]), (5, [(.004, 0), (.005, 0)])])

    def test_towards(self):
        """From within 5 minutes of C: 2 of B to C, the last 3 of A to B, all of D to C."""
        near = line_of_four().isochrone("C", by="minutes", limits=[2, 5], towards=True)
        self.assertEqual(rounded(near.roads()), [(2, [(.006, 0), (.004, 0)]), (2, [(.006, 0), (.008, 0)]), (5, [(.004, 0), (.001, 0)])])

    def test_both_ends_meet(self):
        """From A and D: D to C 2, A to B 4; C to B is met 2 minutes after C, at B."""
        near = line_of_four().isochrone(["B", "D"], by="minutes", limits=[1, 9])
        self.assertEqual(rounded(near.roads()), [(1, [(.004, 0), (.005, 0)]), (1, [(.008, 0), (.007, 0)]), (9, [(.005, 0), (.006, 0)]), (9, [(.007, 0), (.006, 0)])])

    def test_unlike_directions(self):
        """A to B takes 4 minutes and back 2: from both ends they meet where 4f = 2(1 - f), at a third of the road."""
        line = Network.from_table({"a": ["A"], "b": ["B"], "m": [1]}, tail="a", head="b", costs={"m": 1}, both_ways=True, places=PLACES)
        network = Network(replace(line._roads, costs={"m": Cost(array("I", [4, 2]), 1)}), line.coordinates)
        self.assertEqual(rounded(network.isochrone(["A", "B"], by="m", limits=[9]).roads()), [(9, [(0, 0), (.001333, 0)]), (9, [(.004, 0), (.001333, 0)])])
        self.assertEqual(rounded(network.isochrone("A", by="m", limits=[1, 3]).roads()), [(1, [(0, 0), (.001, 0)]), (3, [(.001, 0), (.003, 0)])])
        self.assertEqual(rounded(network.isochrone("B", by="m", limits=[1]).roads()), [(1, [(.004, 0), (.002, 0)])])

    def test_roads_of_no_minutes(self):
        network = Network.from_table({"a": ["A"], "b": ["B"], "m": [0]}, tail="a", head="b", costs={"m": 1}, both_ways=True, places=PLACES)
        self.assertEqual(rounded(network.isochrone("A", by="m", limits=[0]).roads()), [(0, [(0, 0), (.002, 0)]), (0, [(.004, 0), (.002, 0)])])

    def test_geojson(self):
        path = self.file("out.geojson", "")
        near = line_of_four().isochrone("A", by="minutes", limits=[4, 5])
        near.to_geojson(path, shape="roads")
        found = json.loads(path.read_text())["features"]
        self.assertEqual([(it["properties"], it["geometry"]["type"]) for it in found], [({"by": "minutes", "limit": 4}, "MultiLineString"), ({"by": "minutes", "limit": 5}, "MultiLineString")])
        self.assertEqual(found[0]["geometry"]["coordinates"], [[[0, 0], [.004, 0]]])
        self.refused(diffuse.InputError, "shape: places, roads or polygons is needed, not 'cells'", lambda: near.to_geojson(path, shape="cells"))
        self.refused(diffuse.OutOfRange, "cell: -5 is not above 0", lambda: near.to_geojson(path, shape="polygons", cell=-5))
        self.refused(diffuse.InputError, "GeoJSON needs places with longitudes and latitudes in degrees",
                     lambda: line_of_four(degrees=False).isochrone("A", by="minutes", limits=[4]).to_geojson(path, shape="roads"))
        self.assertRaises(diffuse.InputError, line_of_four().isochrone("C", by="minutes", limits=[0]).to_geojson, path, shape="polygons")

    def test_polygons(self):
        """Cells of 111.195 metres are 0.001 degrees wide: four are within 4 minutes, and one within 1."""
        path = self.file("out.geojson", "")
        line_of_four().isochrone("A", by="minutes", limits=[1, 4]).to_geojson(path, shape="polygons", cell=111.1951)
        found = json.loads(path.read_text())["features"]
        self.assertEqual([it["properties"]["limit"] for it in found], [4, 1])
        self.assertEqual(found[0]["geometry"], {"type": "MultiPolygon", "coordinates": [[[[0, 0], [.004, 0], [.004, .001], [0, .001], [0, 0]]]]})
        self.assertEqual(found[1]["geometry"]["coordinates"], [[[[0, 0], [.001, 0], [.001, .001], [0, .001], [0, 0]]]])


class Polygons(unittest.TestCase):
    def test_a_square_with_a_hole(self):
        ring = {(x, y) for x in range(3) for y in range(3)} - {(1, 1)}
        self.assertEqual(rings_of(ring), [[(0, 0), (3, 0), (3, 3), (0, 3), (0, 0)], [(1, 1), (1, 2), (2, 2), (2, 1), (1, 1)]])

    def test_a_hole_that_touches_the_outside_at_a_corner(self):
        """Without the corner (0, 0) too: the outer ring does not go into the hole."""
        notched = {(x, y) for x in range(3) for y in range(3)} - {(1, 1), (0, 0)}
        self.assertEqual(rings_of(notched), [[(0, 1), (1, 1), (1, 0), (3, 0), (3, 3), (0, 3), (0, 1)], [(1, 1), (1, 2), (2, 2), (2, 1), (1, 1)]])

    def test_cells_that_touch_at_a_corner_are_two(self):
        self.assertEqual(list(parts_of({(0, 0), (1, 1), (1, 0), (3, 3), (4, 4)})), [{(0, 0), (1, 0), (1, 1)}, {(3, 3)}, {(4, 4)}])

    def test_a_single_cell(self):
        self.assertEqual(rings_of({(5, 7)}), [[(5, 7), (6, 7), (6, 8), (5, 8), (5, 7)]])


if __name__ == "__main__":
    unittest.main()
