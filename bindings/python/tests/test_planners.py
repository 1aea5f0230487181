"""What planners ask for: frames, many routes, coordinates of any kind, networkx, open files, pictures. Expected values by hand."""
import copy
import io
import json
import unittest
import xml.etree.ElementTree as ElementTree
from unittest import mock

import diffuse
from diffuse import Graph, Network

from .examples import ARCS, geopandas, matplotlib, networkx, numpy, pandas, scipy, shapely
from .test_map import ISLAND
from .test_network import COSTS, PLACES, ROADS, WithFiles


class Routes(WithFiles):
    def test_many_in_one_call(self):
        network = self.network(street="road")
        routes = network.routes([("A", "D"), ("A", "Island"), ((10.0, 50.0), "C"), ("A", "A")], by="minutes")
        self.assertEqual([route and route.cost for route in routes], [12.45, None, 2.2, 0])
        self.assertEqual(routes[2], network.route("A", "C", by="minutes"))
        self.assertEqual(routes.pairs, [("A", "D"), ("A", "Island"), ("A", "C"), ("A", "A")])
        self.assertEqual(routes.to_csv(), "from,to,minutes,euro,lanes\nA,D,12.45,3.2,4.0\nA,Island,,,\nA,C,2.2,3.2,2.0\nA,A,0.0,0.0,0.0\n")
        found = json.loads(routes.to_geojson())["features"]
        self.assertEqual([(feature["properties"]["to"], (feature["geometry"] or {}).get("type")) for feature in found],
                         [("D", "LineString"), ("Island", None), ("C", "LineString"), ("A", "Point")])

    def test_pairs_that_are_refused(self):
        network = self.network()
        self.refused(diffuse.BadShape, "pairs[1]: 'A' is not a pair of places", lambda: network.routes([("A", "B"), "A"], "minutes"))
        self.refused(diffuse.NoVertex, "pairs[0]: there is no place 'Z'", lambda: network.routes([("A", "Z")], "minutes"))
        self.assertRaises(diffuse.BadShape, network.routes, 5, "minutes")

    def test_why_there_is_none(self):
        network = self.network()
        self.refused(diffuse.NoRoute, "no route leads from D to A: from there 1 of 5 places are reached", lambda: network.route("D", "A", "minutes"))
        self.refused(diffuse.NoRoute, "no route leads from A to D", lambda: network.route("A", "D", "minutes", "within", 1))

    def test_steps_between_points(self):
        """On Harbour Road from 0.0005 to its end at 0.003, and on along the roundabout to a half of its first side."""
        island = Network.read_osm(ISLAND)
        route = island.route_between((0.0005, 0.0), (0.0035, -0.0005), by="metres")
        self.assertEqual([(step.street, step.begin, step.end) for step in route.steps()], [("Harbour Road", None, 4), ("(tertiary)", 4, None)])
        self.assertEqual([step.totals["metres"] for step in route.steps()], [278.0, 78.6])
        self.assertEqual(route.to_csv().split("\n")[:2], ["street,from,to,seconds,metres", "Harbour Road,,4,16.68,278.0"])


class Coordinates(WithFiles):
    def test_tuples_lists_and_rows(self):
        table = {"a": ["A", "B"], "b": ["B", "C"], "m": [1, 2]}
        places = {"place": ["A", "B", "C"], "lon": [9, 9.001, 9.002], "lat": [47, 47, 47]}
        network = Network.from_table(table, tail="a", head="b", costs={"m": 1}, places=places)
        kinds = [(9, 47), (9.0001, 47.0), [9.0001, 47.0]] + ([numpy.array([9.0001, 47.0]), numpy.array([[9.0001, 47.0]])[0]] if numpy else [])
        for begin in kinds:
            self.assertEqual(network.route(begin, "C", by="m").cost, 3)
            self.assertEqual(network.tree(begin, by="m").sources, ["A"])
            self.assertEqual(network.table([begin], "C", by="m"), [[3]])
            self.assertEqual(network.nearest(begin), "A")
            self.assertEqual(network.snap(begin).tail, "A")
            self.assertEqual(network.route_between(begin, "C", by="m").cost, 3)
        self.assertEqual(network.table([(9, 47), [9.001, 47]], ["C", (9.002, 47)], by="m"), [[3, 3], [2, 2]])
        self.assertEqual([snap.tail for snap in network.snap([(9.0001, 47), (9.0015, 47)])], ["A", "B"])
        bare = Network.from_table(table, tail="a", head="b", costs={"m": 1})
        self.refused(diffuse.NoVertex, "there is no place (9, 47); coordinates need a network that has some", lambda: bare.route((9, 47), "A", by="m"))

    def test_numbers_that_are_places(self):
        """Two names are a list of places; whole numbers in a list are names."""
        table, places = {"a": [1, 2], "b": [2, 3], "m": [1, 1]}, {"place": [1, 2, 3], "lon": [1, 2, 3], "lat": [2, 0, 0]}
        network = Network.from_table(table, tail="a", head="b", costs={"m": 1}, places=places)
        for sources in ([1, 2], (1, 2)):
            self.assertEqual(network.tree(sources, by="m").sources, [1, 2])
        self.assertRaises(diffuse.NoVertex, network.tree, [1, 7], "m")

    @unittest.skipUnless(numpy, "numpy is not installed")
    def test_arrays_of_points(self):
        network = self.network()
        points = numpy.array([[10.0001, 50.0], [10.0301, 50.02]])
        self.assertEqual(network.nearest(points), ["A", "Island"])
        self.assertEqual(network.tree(points, by="minutes").sources, ["A", "Island"])


class Frames(WithFiles):
    @unittest.skipUnless(pandas, "pandas is not installed")
    def test_pandas(self):
        network = self.network(street="road")
        tree = network.tree("A", by="minutes").to_frame()
        self.assertEqual((list(tree.columns), tree["minutes"][2], tree["previous"][2], tree["source"][4]), (["place", "minutes", "hops", "previous", "source"], 2.2, "B", None))
        near = network.isochrone("A", by="minutes", limits=[2, 3]).to_frame()
        self.assertEqual(list(near["band"])[:3], [2, 2, 3])
        route = network.route("A", "D", by="minutes")
        self.assertEqual((list(route.to_frame()["minutes"]), list(route.to_frame(steps=True)["street"])), ([1.5, .7, 10.25], ["Tunnel", "Lane", "Spur"]))
        routes = network.routes([("A", "D"), ("A", "Island")], by="minutes").to_frame()
        self.assertEqual((routes["euro"][0], routes["minutes"].isna()[1]), (3.2, True))
        between = network.route_between((10.005, 50.0), (10.01, 50.005), by="minutes").to_frame()
        self.assertEqual((list(between["street"]), list(between["minutes"])), (["Tunnel", "Lane"], [.75, .35]))
        snaps = network.snap([(10.005, 50.0), (10.01, 50.005)]).to_frame()
        self.assertEqual((list(snaps["from"]), [round(share, 3) for share in snaps["fraction"]]), (["A", "B"], [.5, .5]))

    @unittest.skipUnless(geopandas, "geopandas is not installed")
    def test_geopandas(self):
        network = self.network(street="road")
        route = network.route("A", "D", by="minutes")
        whole, steps = route.to_geoframe(), route.to_geoframe(steps=True)
        self.assertEqual((whole.crs.to_epsg(), list(whole.geometry[0].coords)[0], whole["euro"][0]), (4326, (10, 50), 3.2))
        self.assertEqual(list(steps["street"]), ["Tunnel", "Lane", "Spur"])
        tree = network.tree("A", by="minutes").to_geoframe()
        self.assertEqual((list(tree["place"]), tree.geometry[1].x), (["A", "B", "C", "D"], 10.01))
        near = network.isochrone("A", by="minutes", limits=[2, 3])
        self.assertEqual(list(near.to_geoframe("roads").geom_type), ["MultiLineString"] * 2)
        polygons = near.to_geoframe("polygons", cell=100)
        self.assertEqual((list(polygons["limit"]), polygons.geometry.is_valid.all()), ([3, 2], True))
        routes = network.routes([("A", "D"), ("A", "Island")], by="minutes").to_geoframe()
        self.assertEqual((routes.geometry[1], list(routes["to"])), (None, ["D", "Island"]))
        self.assertEqual(network.snap([(10.005, 50.0)]).to_geoframe().geometry[0].y, 50)
        self.assertEqual(network.route_between((10.005, 50.0), "B", by="minutes").to_geoframe().geom_type[0], "LineString")

    @unittest.skipUnless(geopandas, "geopandas is not installed")
    def test_from_geopandas(self):
        roads = geopandas.GeoDataFrame({"a": ["A", "B"], "b": ["B", "A"], "m": [1.5, 2]}, crs="EPSG:4326", geometry=[
            shapely.LineString([(9, 47), (9, 47.01), (9.01, 47.01)]), shapely.LineString([(9, 47), (9.01, 47.01)])])
        network = Network.from_table(roads, tail="a", head="b", costs={"m": 10}, geometry="geometry")
        self.assertEqual(network.coordinates.points, {"A": (9, 47), "B": (9.01, 47.01)})
        self.assertEqual(network.route("A", "B", by="m").line(), [(9, 47), (9, 47.01), (9.01, 47.01)])
        self.assertEqual(network.route("B", "A", by="m").line(), [(9.01, 47.01), (9, 47)])


class Networkx(WithFiles):
    @unittest.skipUnless(networkx, "networkx is not installed")
    def test_to_networkx(self):
        network = self.network()
        graph = network.to_networkx()
        self.assertEqual((len(graph), graph.number_of_edges(), graph.nodes["B"]), (5, 8, {"x": 10.01, "y": 50}))
        self.assertEqual((graph.edges["A", "B", 2]["minutes"], graph.edges["A", "B", 2]["road"]), (1.5, "Tunnel"))
        self.assertEqual(networkx.dijkstra_path_length(graph, "A", "D", weight="minutes"), 12.45)
        again = Network.from_networkx(graph, costs=COSTS)
        self.assertEqual(again.route("A", "D", by="minutes").cells("road"), ["Tunnel", "Lane", "Spur"])

    @unittest.skipUnless(networkx and shapely, "networkx or shapely is not installed")
    def test_lines_of_osmnx(self):
        """A graph of osmnx has a line for each edge that is not straight."""
        graph = networkx.MultiDiGraph()
        for node, x, y in ((1, 9, 47), (2, 9.01, 47)):
            graph.add_node(node, x=x, y=y)
        graph.add_edge(1, 2, length=1500, geometry=shapely.LineString([(9, 47), (9.005, 47.005), (9.01, 47)]))
        graph.add_edge(2, 1, length=760)
        network = Network.from_networkx(graph, costs={"length": 1})
        self.assertEqual(network.route(1, 2, by="length").line(), [(9, 47), (9.005, 47.005), (9.01, 47)])
        self.assertEqual(network.route(2, 1, by="length").line(), [(9.01, 47), (9, 47)])
        snap = network.snap(9.0025, 47.0025)
        self.assertEqual((snap.arc, round(snap.fraction, 2)), (0, 0.25))


class Files(WithFiles):
    def test_progress(self):
        """Of a table is told each so many rows."""
        told = []
        with mock.patch("diffuse.tables.EVERY", 2):
            Network.read_csv(self.file("roads.csv", ROADS), tail="from", head="to", costs=COSTS, progress=lambda what, count: told.append((what, count)))
        self.assertEqual(told, [("rows", 2), ("rows", 4), ("rows", 6)])

    def test_open_files(self):
        wanted = self.network().route("A", "D", by="minutes")
        for kind in (io.StringIO, lambda text: io.BytesIO(text.encode())):
            network = Network.read_csv(kind(ROADS), tail="from", head="to", both_ways="both_ways", costs=COSTS, places=kind(PLACES))
            self.assertEqual(network.route("A", "D", by="minutes").cost, wanted.cost)
        self.refused(diffuse.NotANumber, "text, line 2, column minutes: 'x' is no number",
                     lambda: Network.read_csv(io.StringIO("from,to,minutes\nA,B,x\n"), tail="from", head="to", costs={"minutes": 1}))
        self.refused(diffuse.BadShape, "path: a path or an open file is needed, not 5", lambda: Network.read_csv(5, tail="a", head="b", costs={}))
        self.assertEqual(Network.read_dimacs(io.BytesIO(b"p sp 2 1\na 1 2 7\n")).route(1, 2, by="weight").cost, 7)
        out = io.StringIO()
        self.assertIsNone(wanted.to_csv(out))
        self.assertEqual(out.getvalue(), wanted.to_csv())
        self.assertEqual(wanted.to_csv().split("\n")[0], "from,to,minutes,euro,lanes")

    @unittest.skipUnless(numpy, "numpy is not installed")
    def test_names_of_numpy_are_numbers_in_geojson(self):
        table = {"a": numpy.array([1, 2]), "b": numpy.array([2, 3]), "m": numpy.array([1.5, 2.5])}
        places = {"place": numpy.array([1, 2, 3]), "lon": numpy.array([1, 2, 3.5]), "lat": [0, 0, 0]}
        network = Network.from_table(table, tail="a", head="b", costs={"m": 10}, places=places)
        found = json.loads(network.route(1, 3, by="m").to_geojson())["features"][0]["properties"]
        self.assertEqual((found["from"], found["to"], found["cost"]), (1, 3, 4.0))
        row = list({"a": [numpy.int64(7)]}["a"])
        network = Network.from_table({"a": row, "b": [8], "m": [1]}, tail="a", head="b", costs={"m": 1})
        self.assertIs(type(network.places[0]), int)


class Pictures(WithFiles):
    def test_notebooks(self):
        network = self.network()
        for shown in (network, network.route("A", "D", by="minutes"), network.isochrone("A", by="minutes", limits=[2]), network.tree("A", by="minutes")):
            self.assertEqual(ElementTree.fromstring(shown._repr_svg_()).tag, "{http://www.w3.org/2000/svg}svg")
        self.assertIsNone(self.network(places=None)._repr_svg_())
        self.assertEqual(network.draw(None), network._repr_svg_())

    @unittest.skipUnless(matplotlib, "matplotlib is not installed")
    def test_matplotlib(self):
        matplotlib.use("agg")
        network = self.network()
        ax = network.plot(network.isochrone("A", by="minutes", limits=[2, 4]), network.route("A", "D", by="minutes"))
        lines = [len(collection.get_segments()) for collection in ax.collections]
        self.assertEqual((lines, [text.get_text() for text in ax.get_legend().get_texts()]), ([4, 5, 4, 1], ["up to 2 minutes", "up to 4 minutes", "A to D: 12.45 minutes"]))
        self.assertRaises(diffuse.InputError, self.network(places=None).plot)


class Speed(WithFiles):
    def test_the_nearest_of_many_by_a_tree(self):
        """What a tree of scipy finds, the grid finds too, with equal points and on both sides of 180 degrees."""
        lot = __import__("random").Random(3)
        for degrees in (True, False):
            at = [(lot.choice([-180, 179.9, 0, 10]) + lot.random() / 10, lot.choice([-80, 0, 50]) + lot.random() / 9) for _ in range(300)]
            at = [(min(max(x, -180), 180), y) for x, y in at] + [(10, 50), (10, 50)]
            table = {"a": [0], "b": [1], "m": [1]}
            places = {"place": range(len(at)), "lon": [x for x, _ in at], "lat": [y for _, y in at]}
            network = Network.from_table(table, tail="a", head="b", costs={"m": 1}, places=places, degrees=degrees)
            points = [(min(max(x + lot.gauss(0, .01), -180), 180), y) for x, y in at]
            self.assertEqual(network.nearest(points + [(10, 50)], radius=1e9), [network.nearest(*point, radius=1e9) for point in points] + [300])
        self.assertEqual(network._known[1]._tree is not None, bool(scipy and numpy))

    @unittest.skipUnless(numpy, "numpy is not installed")
    def test_numbers_at_once_are_those_one_by_one(self):
        lot = __import__("random").Random(4)
        for _ in range(300):
            scale = lot.choice([1, 10, 1000, 10**6])
            cells = [lot.choice([round(lot.uniform(0, 4000), lot.randint(0, 7)), lot.randint(0, 5000) / scale]) for _ in range(5)]
            table = {"a": range(5), "b": range(1, 6), "m": cells}
            asked = [table, {**table, "m": [*map(repr, cells)]}]
            found = []
            for one in asked:
                try:
                    found.append(list(Network.from_table(one, tail="a", head="b", costs={"m": scale})._roads.costs["m"].weights))
                except diffuse.InputError as fault:
                    found.append(str(fault).replace("'", ""))
            self.assertEqual(found[0], found[1])

    def test_tables_are_made_row_by_row(self):
        table = self.network().table(["A", "C"], ["B", "D", "Island"], by="minutes")
        self.assertEqual((len(table), table[0], table[-1], table[:1]), (2, [1.5, 12.45, None], [5.5, 10.25, None], [[1.5, 12.45, None]]))
        self.assertEqual((list(table), repr(table)), ([[1.5, 12.45, None], [5.5, 10.25, None]], "<diffuse.NamedTable of 2 by 3 places>"))
        self.assertRaises(IndexError, lambda: table[2])


class Subclasses(unittest.TestCase):
    def test_each_constructor_calls_init(self):
        class Counted(Graph):
            def __init__(self, vertices, arcs):
                super().__init__(vertices, arcs)
                self.asked = 0

        first = Counted(5, ARCS)
        first.asked = 7
        columns = Counted.from_columns(*zip(*ARCS))
        self.assertEqual((columns.asked, columns.vertices, first.with_weights([1] * 7).asked, copy.copy(first).asked), (0, 5, 7, 7))
        self.assertEqual(Counted.from_gr(b"p sp 2 1\na 1 2 7\n").asked, 0)

    def test_what_is_no_tree(self):
        with self.assertRaises(diffuse.BadShape) as caught:
            Graph(5, ARCS).check(None)
        self.assertEqual(str(caught.exception), "tree: a diffuse.Tree is needed, not None")

    def test_too_large_a_table(self):
        graph = Graph.from_columns([1], [2], [1], 2**22)
        many = range(1, 2**22 + 1)
        self.assertRaises(diffuse.OutOfMemory, graph.table, many, many)


if __name__ == "__main__":
    unittest.main()
