"""What is written: CSV, GeoJSON and pictures."""
import csv
import json
import pickle
import random
import re
import unittest
import xml.etree.ElementTree as ElementTree

import diffuse
from diffuse import Network
from diffuse.drawing import Boxes, Frame

from .examples import numpy, pandas
from .test_map import ISLAND
from .test_network import ROADS, WithFiles

SVG = "{http://www.w3.org/2000/svg}"


def straight(begin, steps):
    """The straight lines of a path: where each begins, and its step."""
    (x, y), numbers = map(int, begin.split()), list(map(int, steps.split()))
    for u, v in zip(numbers[::2], numbers[1::2]):
        yield x, y, u, v
        x, y = x + u, y + v


def parsed(path):
    """The straight lines of each colour, the circles' middles, and the words of a picture."""
    root = ElementTree.parse(path).getroot()
    paths = {path.get("stroke"): path.get("d") for path in root.iter(f"{SVG}path") if path.get("transform")}
    lines = {colour: [line for found in re.findall(r"M([^l]*)l([^M]*)", d) for line in straight(*found)] for colour, d in paths.items()}
    circles = [(float(it.get("cx")), float(it.get("cy"))) for it in root.iter(f"{SVG}circle")]
    return lines, circles, [it.text for it in root.iter(f"{SVG}text")]


class Tables(WithFiles):
    def written(self, answer):
        answer.to_csv(self.file("out.csv", ""))
        return self.file_text("out.csv")

    def file_text(self, name):
        with open(f"{self._room.name}/{name}", encoding="utf-8", newline="") as file:
            return file.read()

    def test_csv_of_a_route(self):
        route = self.network().route("A", "D", by="minutes")
        self.assertEqual(self.written(route), "from,to,minutes,euro,lanes\nA,B,1.5,3.2,1.0\nB,C,0.7,0.0,1.0\nC,D,10.25,0.0,2.0\n")

    def test_steps(self):
        """Lane and Tunnel have a street of one name; the street of a road that has none is printed as it is in the table."""
        network = self.network(ROADS.replace("Lane", "Tunnel"), street="road")
        route, path = network.route("A", "D", by="minutes"), self.file("out.csv", "")
        self.assertEqual(str(route), "A to D: 12.45 minutes\n  Tunnel: 2.2 minutes, 3.2 euro, 2 lanes\n  Spur: 10.25 minutes, 0 euro, 2 lanes")
        route.to_csv(path, steps=True)
        self.assertEqual(self.file_text("out.csv"), "street,from,to,minutes,euro,lanes\nTunnel,A,C,2.2,3.2,2.0\nSpur,C,D,10.25,0.0,2.0\n")
        route.to_geojson(path, steps=True)
        found = json.loads(self.file_text("out.csv"))["features"]
        self.assertEqual(found[1], {"type": "Feature", "geometry": {"type": "LineString", "coordinates": [[10.01, 50.01], [10.02, 50.01]]},
                                    "properties": {"street": "Spur", "from": "C", "to": "D", "totals": {"minutes": 10.25, "euro": 0.0, "lanes": 2.0}}})
        self.assertEqual(network.route("A", "A", by="minutes").steps(), [])
        self.refused(diffuse.InputError, "the network does not know its streets: street= names their column", self.network().route("A", "D", by="minutes").steps)
        self.refused(diffuse.InputError, "roads.csv has no column 'name'; it has road, from, to, minutes, euro, lanes, both_ways", lambda: self.network(street="name"))

    def test_tables(self):
        table, path = self.network().table(["A", "C"], ["B", "Island"], by="minutes"), self.file("out.csv", "")
        table.to_csv(path)
        self.assertEqual(self.file_text("out.csv"), "from,B,Island\nA,1.5,\nC,5.5,\n")
        self.assertEqual((table.sources, table.targets), (["A", "C"], ["B", "Island"]))

    @unittest.skipUnless(numpy, "numpy is not installed")
    def test_tables_of_numpy(self):
        numbers = self.network().table(["A", "C"], ["B", "Island"], by="minutes").to_numpy()
        self.assertEqual((numbers.dtype, numbers[:, 0].tolist(), numpy.isnan(numbers[:, 1]).all()), (numpy.float64, [1.5, 5.5], True))
        self.assertEqual(self.network().table([], ["A"], by="minutes").to_numpy().shape, (0, 1))

    @unittest.skipUnless(pandas, "pandas is not installed")
    def test_tables_of_pandas(self):
        frame = self.network().table(["A", "C"], ["B", "Island"], by="minutes").to_frame()
        self.assertEqual((frame.loc["C", "B"], frame.isna()["Island"].all(), frame.index.name, frame.columns.name), (5.5, True, "from", "to"))

    def test_csv_of_trees_and_isochrones(self):
        network = self.network()
        self.assertEqual(self.written(network.tree(["A", "D"], by="minutes")), "place,minutes,hops,previous,source\n"
                         "A,0.0,0,,A\nB,1.5,1,A,A\nC,2.2,2,B,A\nD,0.0,0,,D\nIsland,,0,,\n")
        self.assertEqual(self.written(network.isochrone("C", by="minutes", limits=[1, 2], towards=True)),
                         "place,minutes,hops,next,source,band\nA,,0,,,\nB,0.7,1,C,C,1.0\nC,0.0,0,,C,1.0\nD,,0,,,\nIsland,,0,,,\n")

    def test_names_with_commas(self):
        network = Network.from_table({"a": ['x, "y"'], "b": ["z\nw"], "m": [1]}, tail="a", head="b", costs={"m": 1})
        network.tree('x, "y"', by="m").to_csv(self.file("out.csv", ""))
        self.assertEqual([row[0] for row in csv.reader(self.file_text("out.csv").splitlines(True))], ["place", 'x, "y"', "z\nw"])

    def test_geojson(self):
        network, path = self.network(), self.file("out.geojson", "")
        network.route("A", "C", by="minutes").to_geojson(path)
        self.assertEqual(json.loads(self.file_text("out.geojson")), {"type": "FeatureCollection", "features": [{
            "type": "Feature", "geometry": {"type": "LineString", "coordinates": [[10, 50], [10.01, 50], [10.01, 50.01]]},
            "properties": {"from": "A", "to": "C", "by": "minutes", "cost": 2.2, "totals": {"minutes": 2.2, "euro": 3.2, "lanes": 2.0}}}]})
        network.isochrone("C", by="lanes", limits=[2]).to_geojson(path)
        found = json.loads(self.file_text("out.geojson"))["features"]
        self.assertEqual(found[1], {"type": "Feature", "geometry": {"type": "Point", "coordinates": [10.02, 50.01]},
                                    "properties": {"place": "D", "lanes": 2.0, "hops": 1, "previous": "C", "source": "C", "band": 2.0}})
        self.assertEqual([feature["properties"]["place"] for feature in found], ["C", "D"])  # the others are not reached
        network.tree("A", by="lanes", algebra="widest").to_geojson(path)
        self.assertIsNone(json.loads(self.file_text("out.geojson"))["features"][0]["properties"]["lanes"])

    def test_a_cost_may_have_the_name_of_another_column(self):
        network = Network.from_table({"a": ["A"], "b": ["B"], "hops": [7], "from": [8]}, tail="a", head="b", costs={"hops": 1, "from": 1})
        self.assertEqual(self.written(network.tree("A", by="hops")), "place,hops,hops_,previous,source\nA,0.0,0,,A\nB,7.0,1,A,A\n")
        self.assertEqual(self.written(network.route("A", "B", by="from")), "from,to,hops,from_\nA,B,7.0,8.0\n")

    def test_geojson_needs_degrees(self):
        for network in (self.network(places=None), self.network(degrees=False)):
            with self.assertRaisesRegex(diffuse.InputError, "GeoJSON needs places with longitudes"):
                network.tree("A", by="minutes").to_geojson(self.file("out.geojson", ""))


class Pictures(WithFiles):
    def drawn(self, network, *answers, **words):
        path = self.file("out.svg", "")
        network.draw(path, *answers, **words)
        return (path, *parsed(path))

    def test_roads_places_and_routes(self):
        network = self.network()
        _, lines, circles, words = self.drawn(network, network.route("A", "D", by="minutes"), title="Town & river")
        self.assertEqual({colour: len(found) for colour, found in lines.items()}, {"#c4c4c4": 4, "white": 3, "#d7301f": 3})
        self.assertEqual(words, ["Town & river", "A", "D", "B", "C", "Island", "A to D: 12.45 minutes"])
        self.assertEqual(len(circles), 3 + 2 * 2)

    def test_north_is_up_and_east_is_right(self):
        network = self.network(places="place,lon,lat\nA,10,60\nB,10.02,60\nC,10.02,60.01\nD,10,60.01\n")
        _, lines, _, _ = self.drawn(network, network.route("A", "C", by="minutes"), width=1000)
        east, north = sorted(lines["#d7301f"])
        self.assertEqual((east[2], east[3]), (9200, 0))  # 0.02 degrees fill the width without margins, in tenths of pixels
        self.assertEqual(north[2], 0)
        self.assertAlmostEqual(-north[3] / east[2], 1, places=2)  # at 60 degrees one of longitude is half as wide as of latitude

    def test_isochrones_and_trees_have_bands(self):
        """Up to 2: High Street from both ends (they meet after 2.0 of 2.5), the other two as one line, 0.5 of Lane's 0.7, 2 of Ring's
        4. Up to 4: the rest of Lane, Ring from both ends up to where they meet, and 1.8 of Spur's 10.25."""
        network = self.network()
        _, lines, _, words = self.drawn(network, network.isochrone("A", by="minutes", limits=[2, 4]), labels=["D"])
        self.assertEqual({colour: len(found) for colour, found in lines.items()}, {"#c4c4c4": 4, "#440154": 5, "#d9b400": 4})
        self.assertEqual(words, ["A", "D", "up to 2 minutes", "up to 4 minutes"])
        _, lines, _, words = self.drawn(network, network.tree("A", by="minutes"))
        self.assertEqual(sum(map(len, lines.values())), 4 + 3)
        self.assertEqual(words[-1], "up to 12.45 minutes")
        for algebra, by in (("widest", "lanes"), ("reach", "minutes"), ("hops", "minutes")):
            self.assertEqual(sum(map(len, self.drawn(network, network.tree("A", by=by, algebra=algebra))[1].values())), 4 + 3)

    def test_labels_do_not_cover_each_other(self):
        places = diffuse.Coordinates({"A": (0.0, 0.0), "B": (1.0, 1.0)})
        labels = Boxes(Frame(places, "AB", 1000))
        sides = [labels.place("name", (500, 500), False) for _ in range(5)]
        self.assertEqual(sides, [(508, 500, "start"), (492, 500, "end"), (500, 485, "middle"), (500, 515, "middle"), None])
        self.assertEqual(labels.place("name", (500, 500), True), (508, 500, "start"))
        self.assertEqual(labels.place("at the edge", (990, 300), False), (982, 300, "end"))

    def test_labels_stay_off_roads(self):
        labels = Boxes(Frame(diffuse.Coordinates({"A": (0.0, 0.0), "B": (1.0, 1.0)}), "AB", 1000), [((500, 500), (600, 500)), ((470, 480), (470, 520))])
        self.assertEqual(labels.place("name", (500, 500), False), (500, 485, "middle"))  # one road leads to the right, one is to the left

    def test_streets_have_their_names(self):
        roads = {"a": ["A", "B", "B", "C"], "b": ["B", "C", "D", "D"], "m": [1, 1, 1, 1], "road": ["Quay", "(track)", "A name that is longer than its alley", "Quay"]}
        network = Network.from_table(roads, tail="a", head="b", costs={"m": 1}, street="road", both_ways=True,
                                     places={"place": ["A", "B", "C", "D"], "lon": [0, 2, 2, 2.1], "lat": [0, 0, 1, 0.5]})
        path, _, _, words = self.drawn(network)
        self.assertEqual(words, ["A", "B", "C", "D", "Quay"])
        x, y, turn = map(float, re.search(r"translate[(]([\d.]+) ([\d.]+)[)] rotate[(]([-\d.]+)[)]", path.read_text()).groups())
        self.assertEqual((round(x, 1), turn), (round(40 + 920 / 2.1, 1), 0))  # in the middle of 2 of 2.1 degrees, and level

    def test_names_are_escaped(self):
        network = Network.from_table({"a": ["<A>"], "b": ["B&C"], "m": [1]}, tail="a", head="b", costs={"m": 1},
                                     places={"place": ["<A>", "B&C"], "lon": [0, 1], "lat": [0, 0]})
        self.assertEqual(self.drawn(network)[3], ["<A>", "B&C"])

    def test_own_labels(self):
        network = self.network()
        words = self.drawn(network, network.route("A", "C", by="minutes"), labels={"A": "Station", (10.02, 50.01): "Dock"})[3]
        self.assertEqual(words, ["Station", "C", "Dock", "Station to C: 2.2 minutes"])
        self.refused(diffuse.BadShape, "labels: a list of places, or places with words, is needed, not 'AB'", lambda: network.draw(self.file("out.svg", ""), labels="AB"))

    def test_roads_have_their_shapes(self):
        """The island is 8 units wide, of 100 pixels each, and the harbour is 5 units below its northern end."""
        network = Network.read_osm(ISLAND)
        _, lines, _, words = self.drawn(network, network.route(1, 6, by="seconds"), width=880)
        self.assertEqual(lines["#d7301f"], [(400, 5400, 1000, 0), (1400, 5400, 1000, 0), (2400, 5400, 1000, 0), (3400, 5400, 1000, 1000), (4400, 6400, 1000, -1000)])

    def test_what_is_not_drawn(self):
        network, other = self.network(), self.network()
        path = self.file("out.svg", "")
        self.refused(diffuse.InputError, "draw: 'text' is neither a route nor a tree", lambda: network.draw(path, "text"))
        self.refused(diffuse.InputError, "draw: <diffuse.NamedRoute A to B: 1.5 minutes> is of another network",
                     lambda: network.draw(path, other.route("A", "B", by="minutes")))
        self.refused(diffuse.OutOfRange, "width: 10 is not from 160 to 100000", lambda: network.draw(path, width=10))
        self.refused(diffuse.NotANumber, "width: 'wide' is no whole number", lambda: network.draw(path, width="wide"))
        more = network.with_sum("n", {"minutes": 1}, scale=100)
        self.drawn(network, more.route("A", "B", by="n"))
        self.drawn(network, pickle.loads(pickle.dumps(network.route("A", "B", by="minutes"))))

    def test_signs_that_xml_has_not(self):
        table = {"a": ["A\x00\x1b"], "b": ["B\ufffe"], "m": [1]}
        places = {"place": ["A\x00\x1b", "B\ufffe"], "lon": [0, 1], "lat": [0, 0]}
        network = Network.from_table(table, tail="a", head="b", costs={"m": 1}, places=places)
        self.assertEqual(self.drawn(network, title="a\x08b\ud800")[3], ["a\ufffdb\ufffd", "A\ufffd\ufffd", "B\ufffd"])

    def test_places_are_needed(self):
        for places in (None, "place,lon,lat\n"):
            with self.assertRaisesRegex(diffuse.InputError, "a picture needs places"):
                self.network(places=places).draw(self.file("out.svg", ""))
        with self.assertRaisesRegex(diffuse.NoVertex, "there is no place 'Z'"):
            self.network().draw(self.file("out.svg", ""), labels=["Z"])

    def test_a_hundred_thousand_places(self):
        """A city of blocks: one line for each street, and few words, in less than 40 bytes a street."""
        lot, side = random.Random(1), 320
        streets = [(v, v + step) for v in range(side * side) for step in (1, side) if v + step < side * side and (step > 1 or (v + 1) % side)]
        tails, heads = zip(*streets)
        places = {"place": range(side * side), "lon": [v % side / 1000 + lot.random() / 2000 for v in range(side * side)],
                  "lat": [v // side / 1000 + lot.random() / 2000 for v in range(side * side)]}
        roads = {"a": tails, "b": heads, "m": [lot.randint(1, 9) for _ in streets]}
        network = Network.from_table(roads, tail="a", head="b", costs={"m": 1}, both_ways=True, places=places)
        middle = side * (side + 1) // 2
        path, lines, circles, words = self.drawn(network, network.isochrone(middle, by="m", limits=[100, 200]), network.route(middle, 0, by="m"))
        self.assertEqual(len(lines["#c4c4c4"]), len(streets))
        self.assertEqual((len(circles), words[:2]), (4, [str(middle), "0"]))
        self.assertLess(path.stat().st_size, 40 * len(streets))
