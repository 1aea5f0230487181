"""Networks in files: the same again, or refused. Expected values by hand."""
import dataclasses
import io
import json
import math
import pickle
import unittest
import zipfile
from decimal import Decimal
from unittest import mock

import diffuse
from diffuse import Network, saved

from .examples import geopandas, networkx, numpy, shapely
from .test_map import ISLAND
from .test_network import COSTS, WithFiles

TIES = {"a": ["A", "B", "C", "A"], "b": ["B", "C", "D", "D"], "m": [1.5, 2, 2.5, 9], "open": [True, None, False, True],
        "line": [[(9, 47), (9.001, 47.001), (9.002, 47)], None, None, []]}


def kept(network):
    """The bytes of its file."""
    room = io.BytesIO()
    network.save(room)
    return room.getvalue()


def again(network):
    return Network.load(io.BytesIO(kept(network)))


def whole(network):
    """All that a network has; columns are sequences of any kind."""
    roads = network._roads
    columns = {name: list(cells) for name, cells in roads.table.columns.items()} if roads.table else None
    table = roads.table and dataclasses.replace(roads.table, columns=columns, row_numbers=list(roads.table.row_numbers))
    return dataclasses.replace(roads, table=table), roads.origin, network.coordinates, network.report


def rezipped(data, change):
    """The file with its parts changed, and with the checksum of these."""
    with zipfile.ZipFile(io.BytesIO(data)) as file:
        parts = {name: file.read(name) for name in file.namelist() if name != saved.SUM}
    change(parts)
    room = io.BytesIO()
    with zipfile.ZipFile(room, "w") as file:
        for name, part in [*parts.items(), (saved.SUM, saved.sum_of(parts))]:
            file.writestr(name, part)
    return room.getvalue()


def with_head(**members):
    """A change of what the JSON text says."""
    def change(parts):
        parts[saved.HEAD] = json.dumps({**json.loads(parts[saved.HEAD]), **members}).encode()
    return change


class Saved(WithFiles):
    def same(self, network):
        """The network of its file, which has the same of all that a network has, and is written with the same bytes."""
        other = again(network)
        self.assertEqual(whole(other), whole(network))
        self.assertEqual([*map(type, other.places)], [*map(type, network.places)])
        self.assertEqual(kept(other), kept(network))
        return other

    def test_a_town(self):
        """The town of a CSV file: its routes, trees, tables, places and snaps."""
        first = self.network(street="road")
        path = self.file("town.diffuse", "")
        first.save(path)
        town = Network.load(path)
        self.assertEqual((list(town.places), dict(town.costs)), (["A", "B", "C", "D", "Island"], COSTS))
        self.assertEqual(str(town.route("A", "D", by="minutes")), "A to D: 12.45 minutes\n  Tunnel: 1.5 minutes, 3.2 euro, 1 lanes\n"
                         "  Lane: 0.7 minutes, 0 euro, 1 lanes\n  Spur: 10.25 minutes, 0 euro, 2 lanes")
        self.assertEqual(town.route("A", "C", by="lanes", algebra="widest").cost, 4.0)
        self.assertEqual(town.table(["A", "C"], ["B", "D", "Island"], by="minutes"), [[1.5, 12.45, None], [5.5, 10.25, None]])
        self.assertEqual((town.nearest(10.0001, 50), town.route((10.0001, 50), "D", by="minutes").places), ("A", ["A", "B", "C", "D"]))
        self.assertEqual(town.tree("C", by="minutes", towards=True), first.tree("C", by="minutes", towards=True))
        self.assertEqual(town.isochrone("A", by="minutes", limits=[2, 3]).to_geojson(), first.isochrone("A", by="minutes", limits=[2, 3]).to_geojson())
        self.assertEqual(town.draw(None), first.draw(None))
        self.same(first)

    def test_snaps_are_of_both(self):
        """A point on a road of the one is one on the same road of the other."""
        first = self.network()
        other = again(first)
        snap, end = other.snap(10.005, 50.0), other.snap(10.01, 50.005)
        self.assertEqual((snap.tail, snap.head, snap.row, round(snap.fraction, 3)), ("A", "B", 0, 0.5))
        self.assertEqual((snap, end), (first.snap(10.005, 50.0), first.snap(10.01, 50.005)))
        for network in (first, other):
            self.assertEqual(network.route_between(snap, end, by="minutes").cost, 1.1)

    def test_costs(self):
        """A cost in place of another, a new one, and a sum."""
        town = again(self.network())
        minutes = [9, 9, 9, 1, 1, 1]
        town.factor("minutes")
        self.assertEqual(town.with_cost("minutes", minutes).route("A", "D", by="minutes").cells("road"), ["Ring", "Spur"])
        self.assertEqual(town.with_cost("slow", minutes, 1).route("A", "D", by="slow").cost, 2)
        self.assertEqual(town.with_sum("general", {"minutes": 1, "euro": "0.5"}, scale=100).route("A", "B", by="general").cost, 2.05)
        more = self.network().with_cost("slow", minutes, 1)
        self.assertEqual((self.same(more).route("A", "D", by="slow").cost, list(more.costs)), (2, ["minutes", "euro", "lanes", "slow"]))

    def test_maps(self):
        """With its streets, the lines of its roads, and what was counted."""
        island = self.same(Network.read_osm(ISLAND))
        route = island.route(1, 13, by="seconds")
        self.assertEqual((route.cost, [step.street for step in route.steps()], route.cells("highway")[0]), (82.68, ["Harbour Road", "(tertiary)", "Coast Road"], "secondary"))
        self.assertEqual(str(island.report), "driving: ways taken: 10\n  ways closed to it: 1")
        self.assertEqual((island._roads.is_back(1), len(island._roads.tails)), (Network.read_osm(ISLAND)._roads.is_back(1), 23))

    def test_names_and_cells_of_each_kind(self):
        names = [1, "1", 2.5, (0, 1), ("a", (2.0, None)), True if 1 < 0 else "\ud800", -7, 10**30, math.inf, Decimal("0.10"), "", "é\n"][:10]
        cells = [None, True, 3, -0.0, math.nan, "x", Decimal("1e-9"), [1, [2]], (3, (4,)), 10**20]
        network = Network.from_table({"a": names, "b": names[1:] + names[:1], "m": range(10), "cell": cells, "text": list("abcdefghij"), "float": [n / 7 for n in range(10)]},
                                     tail="a", head="b", costs={"m": 1})
        other = again(network)
        self.assertEqual([(type(name), name) for name in other.places], [(type(name), name) for name in names])
        columns = other._roads.table.columns
        self.assertEqual([repr(cell) for cell in columns["cell"]], [repr(cell) for cell in cells])
        self.assertEqual((columns["text"], columns["float"], columns["m"]), (list("abcdefghij"), [n / 7 for n in range(10)], list(range(10))))
        self.assertEqual(other.route(1, (0, 1), by="m").places, [1, "1", 2.5, (0, 1)])
        self.assertEqual(kept(other), kept(network))

    def test_other_sources(self):
        self.same(Network.from_table(TIES, tail="a", head="b", costs={"m": 10}, geometry="line", both_ways=True))
        self.same(Network.from_table({**TIES, "x": [0, 1, 0, 1]}, tail="a", head="b", costs={"m": 10}, places={"place": ["B", "A", "Z"], "lon": [500, 1, 2], "lat": [0, 3, 9]}, degrees=False))
        self.same(Network.from_table({"a": [], "b": [], "m": []}, tail="a", head="b", costs={"m": 1}))
        gr, co = "p sp 3 2\na 1 2 7\na 2 3 4294967295\n", "p aux sp co 2\nv 2 9000000 47000000\nv 1 9000001 47000000\n"
        dimacs = self.same(Network.read_dimacs(self.file("a.gr", gr), self.file("a.co", co)))
        self.assertEqual((dimacs.route(1, 3, by="weight").cost, dimacs.nearest(9, 47)), (4294967302, 2))

    @unittest.skipUnless(networkx, "networkx is not installed")
    def test_networkx(self):
        """Nodes that are tuples, and attributes that not each edge has."""
        graph = networkx.grid_2d_graph(3, 3)
        networkx.set_edge_attributes(graph, 2, "m")
        graph.edges[(0, 0), (0, 1)]["osmid"] = [7, 8]
        network = self.same(Network.from_networkx(graph, costs={"m": 1}))
        self.assertEqual((network.route((0, 0), (2, 2), by="m").cost, network.route((0, 0), (0, 1), by="m").cells("osmid")), (8, [[7, 8]]))

    @unittest.skipUnless(geopandas, "geopandas is not installed")
    def test_lines_of_shapely(self):
        line = shapely.LineString([(9, 47), (9, 47.01), (9.01, 47.01)])
        roads = geopandas.GeoDataFrame({"a": ["A"], "b": ["B"], "m": [1.5]}, crs="EPSG:4326", geometry=[line])
        data = kept(Network.from_table(roads, tail="a", head="b", costs={"m": 10}, geometry="geometry"))
        network = Network.load(io.BytesIO(data))
        self.assertEqual((network.route("A", "B", by="m").line(), network.route("A", "B", by="m").cells("geometry")), (list(line.coords), [line]))
        with mock.patch.dict("sys.modules", {"shapely": None}):
            self.assertRaises(ImportError, Network.load, io.BytesIO(data))

    @unittest.skipUnless(numpy, "numpy is not installed")
    def test_numpy_reads_the_arrays(self):
        with numpy.load(io.BytesIO(kept(self.network()))) as file:
            self.assertEqual((file["tails"].tolist(), file["cost0"].tolist()), ([1, 2, 1, 1, 2, 1, 3, 3], [250, 250, 150, 150, 70, 400, 400, 1025]))
            self.assertEqual(file["points"].tolist(), [[10, 50], [10.01, 50], [10.01, 50.01], [10.02, 50.01], [10.03, 50.02]])


class Refused(WithFiles):
    def load(self, data):
        return Network.load(io.BytesIO(data))

    def test_each_byte_counts(self):
        """A file with any one byte changed is refused, or has the same network: no byte of it makes another."""
        network = self.network()
        data = kept(network)
        refused = 0
        for place in range(len(data)):
            damaged = bytearray(data)
            damaged[place] ^= 1 << place % 8
            try:
                other = self.load(bytes(damaged))
            except diffuse.InputError as fault:
                self.assertIn("text: ", str(fault))
                refused += 1
            else:
                self.assertEqual(whole(other), whole(network))
        self.assertGreater(refused, len(data) / 2)

    def test_a_file_that_ends_early(self):
        data = kept(self.network())
        for end in range(len(data)):
            self.assertRaises(diffuse.InputError, self.load, data[:end])

    def test_other_files(self):
        room, other = io.BytesIO(), io.BytesIO()
        with zipfile.ZipFile(room, "w") as file:
            file.writestr("a.txt", "x")
        with zipfile.ZipFile(other, "w") as file:
            file.writestr(saved.HEAD, '{"format": "another", "version": 1}')
        for data in (b"", b"PK", b"p sp 2 1\na 1 2 7\n", pickle.dumps(self.network()), room.getvalue(), ISLAND.read_bytes()):
            with self.assertRaisesRegex(diffuse.InputError, "^map: no file of Network.save, or a damaged one: "):
                with mock.patch("diffuse.saved.name_of", return_value="map"):
                    self.load(data)
        with self.assertRaisesRegex(diffuse.InputError, "its format is 'another'"):
            self.load(other.getvalue())
        self.assertRaises(FileNotFoundError, Network.load, "/nowhere/town.diffuse")
        self.assertRaises(diffuse.BadShape, Network.load, 5)

    def test_a_later_version(self):
        path = self.file("town.diffuse", "")
        path.write_bytes(rezipped(kept(self.network()), with_head(version=2, names="as version 2 has them")))
        self.refused(diffuse.InputError, "town.diffuse: a network of version 2, and this package reads version 1", lambda: Network.load(path))

    def test_parts_that_do_not_fit(self):
        """With a checksum that is right: what another program may have written."""
        data = kept(self.network())
        self.assertEqual(self.load(rezipped(data, lambda parts: None))._roads, self.load(data)._roads)

        def without(name):
            return lambda parts: parts.pop(name)

        def put(name, code, numbers):
            return lambda parts: parts.update({f"{name}.npy": saved.npy_of(name, saved.array(code, numbers))})

        names = ["A", "B", "C", "D", "Island"]
        for change in (without("tails.npy"), put("tails", "I", [1] * 7), put("tails", "I", [1] * 7 + [6]), put("heads", "I", [0] * 8), put("heads", "q", [1] * 8),
                       put("rows", "I", [0] * 7 + [6]), put("cost1", "I", [1] * 9), put("places", "I", [1, 2]), put("places", "I", [1, 2, 3, 4, 9]), put("points", "d", [1.0] * 8),
                       lambda parts: parts.update({"rows.npy": parts["rows.npy"][:-4]}), lambda parts: parts.update({"rows.npy": b"x"}), with_head(names=names[:4] + ["A"]),
                       with_head(names=[[], *names[1:]]), with_head(names=names[:4]), with_head(costs=[["minutes", 0]]), with_head(costs=[["minutes", "1"]]), with_head(street="no"),
                       with_head(table=5), with_head(table={"name": "t", "word": "row", "numbers": [0, 6, 1], "columns": [["c", [1]]]}), with_head(report={"ways": 5}),
                       lambda parts: parts.update({saved.HEAD: b"[]"}), lambda parts: parts.update({saved.HEAD: b"{"}), with_head(names=[{"object": 1}, *names[1:]])):
            self.assertRaises(diffuse.InputError, self.load, rezipped(data, change))

    def test_what_is_not_saved(self):
        """It is named, and nothing is written."""
        network = Network.from_table({"a": ["A"], "b": ["B"], "m": [1], "thing": [object]}, tail="a", head="b", costs={"m": 1})
        path = self.file("town.diffuse", "as it was")
        self.refused(diffuse.InputError, "column thing: <class 'object'> can't be saved", lambda: network.save(path))
        self.assertEqual(path.read_text(), "as it was")
        named = Network.from_table({"a": [frozenset()], "b": ["B"], "m": [1]}, tail="a", head="b", costs={"m": 1})
        self.refused(diffuse.InputError, "the name of a place: frozenset() can't be saved", lambda: named.save(path))
        odd = self.network()
        odd.coordinates = diffuse.Coordinates({"A": (1, 2), "Atlantis": (3, 4)})
        self.refused(diffuse.InputError, "coordinates: there is no place 'Atlantis'", lambda: odd.save(path))
        self.refused(diffuse.BadShape, "path: a path or an open file of bytes is needed, not 5", lambda: network.save(5))
        self.assertRaises(diffuse.BadShape, network.save, io.StringIO())
        self.assertRaises(OSError, self.network().save, "/nowhere/town.diffuse")


if __name__ == "__main__":
    unittest.main()
