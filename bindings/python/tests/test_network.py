"""Networks with names, decimals and several costs. Expected values by hand."""
import tempfile
import unittest
from decimal import Decimal
from math import inf
from pathlib import Path

import diffuse
from diffuse import Network

from .examples import FIVE_GR, networkx, numpy, pandas

ROADS = """road,from,to,minutes,euro,lanes,both_ways
High Street,A,B,2.5,0,2,yes
Tunnel,A,B,1.5,3.20,1,no
Bypass,A,B,1.5,1.10,4,no
Lane,B,C,0.7,0,1,no
Ring,A,C,4,0.5,4,yes
Spur,C,D,10.25,0,2,no
"""
PLACES = "place,lon,lat\nA,10,50\nB,10.01,50\nC,10.01,50.01\nD,10.02,50.01\nIsland,10.03,50.02\n"
COSTS = {"minutes": 100, "euro": 100, "lanes": 1}


class WithFiles(unittest.TestCase):
    def setUp(self):
        self._room = tempfile.TemporaryDirectory()
        self.addCleanup(self._room.cleanup)

    def file(self, name, text, encoding="utf-8"):
        path = Path(self._room.name, name)
        path.write_text(text, encoding=encoding)
        return path

    def network(self, roads=ROADS, places=PLACES, costs=COSTS, **words):
        words = {"tail": "from", "head": "to", "both_ways": "both_ways", **words}
        return Network.read_csv(self.file("roads.csv", roads), costs=costs, places=places and self.file("places.csv", places), **words)

    def refused_softly(self, message, call):
        """Refused by any kind of InputError."""
        with self.assertRaises(diffuse.InputError) as caught:
            call()
        self.assertEqual(str(caught.exception), message)

    def refused(self, kind, message, call):
        with self.assertRaises(kind) as caught:
            call()
        self.assertEqual(str(caught.exception), message)


class Questions(WithFiles):
    def test_places_and_arcs(self):
        network = self.network()
        self.assertEqual(list(network.places), ["A", "B", "C", "D", "Island"])
        self.assertEqual(len(network._roads.tails), 8)
        self.assertEqual([network.vertex(name) for name in network.places], [1, 2, 3, 4, 5])
        self.assertEqual(repr(network), "<diffuse.Network of 5 places and 8 arcs, by minutes, euro, lanes>")

    def test_a_route_and_its_other_costs(self):
        route = self.network().route("A", "D", by="minutes")
        self.assertEqual(route.places, ["A", "B", "C", "D"])
        self.assertEqual(route.cells("road"), ["Tunnel", "Lane", "Spur"])
        self.assertEqual((route.cost, route.total("euro"), route.total("lanes")), (12.45, 3.2, 4.0))
        self.assertEqual(str(route), "A - B - C - D: 12.45 minutes")

    def test_great_costs_are_printed_with_all_digits(self):
        network = Network.from_table({"a": ["A"], "b": ["B"], "m": ["12345678.5"]}, tail="a", head="b", costs={"m": 10})
        self.assertEqual(str(network.route("A", "B", by="m")), "A - B: 12345678.5 m")

    def test_parallel_roads(self):
        network = self.network()
        self.assertEqual(network.route("A", "B", by="minutes").cells("road"), ["Tunnel"])  # the first of two equal ones
        self.assertEqual(network.route("A", "B", by="euro").cells("road"), ["High Street"])
        self.assertEqual(network.route("A", "B", by="lanes", algebra="widest").cells("road"), ["Bypass"])
        self.assertEqual(network.route("A", "B", by="minutes", algebra="hops").cells("road"), ["High Street"])
        self.assertEqual(network.route("B", "A", by="minutes").cells("road"), ["High Street"])

    def test_algebras(self):
        network = self.network()
        self.assertEqual(network.route("A", "C", by="lanes", algebra="widest").cost, 4.0)
        widest = network.tree("A", by="lanes", algebra="widest")
        self.assertEqual((widest.cost("A"), widest.cost("D"), widest.reached()), (inf, 2, ["A", "B", "C", "D"]))
        self.assertEqual(network.route("A", "D", by="minutes", algebra="hops").cost, 2)
        self.assertEqual(network.route("A", "C", by="minutes", algebra="within", limit=2.2).cost, 2.2)
        self.assertRaises(diffuse.NoRoute, network.route, "A", "C", "minutes", "within", "2.199")
        self.refused(diffuse.NoAlgebra, "reliable takes chances by the scale 1000000, and minutes has 100",
                     lambda: network.tree("A", by="minutes", algebra="reliable"))

    def test_chances(self):
        network = Network.from_table({"a": ["A", "B", "A"], "b": ["B", "C", "C"], "holds": ["0.9", 0.9, Decimal("0.8")]},
                                     tail="a", head="b", costs={"holds": 10**6})
        route = network.route("A", "C", by="holds", algebra="reliable")
        self.assertEqual((route.places, route.cost), (["A", "B", "C"], 0.81))

    def test_trees(self):
        tree = self.network().tree(["A", "D"], by="minutes")
        self.assertEqual([tree.cost(place) for place in "ABCD"] + [tree.cost("Island")], [0, 1.5, 2.2, 0, None])
        self.assertEqual([tree.source(place) for place in ("C", "D", "Island")], ["A", "D", None])
        self.assertEqual((tree.neighbour("C"), tree.hops("C"), tree.neighbour("A")), ("B", 2, None))
        self.assertEqual(tree.route("C").cells("road"), ["Tunnel", "Lane"])
        self.assertEqual(tree.reached(), ["A", "D", "B", "C"])
        self.assertEqual(sorted(tree.arcs), [2, 4])
        self.refused(diffuse.NoRoute, "no route leads to Island", lambda: tree.route("Island"))

    def test_tables_by_searches_and_by_factors(self):
        network = self.network()
        for _ in range(2):
            self.assertEqual(network.table(["A", "C"], ["B", "D", "Island"], by="minutes"), [[1.5, 12.45, None], [5.5, 10.25, None]])
            self.assertEqual(network.table("A", "D", by="minutes", algebra="within", limit=12), [[None]])
            self.assertEqual(network.table("A", ["A", "D"], by="lanes", algebra="widest"), [[inf, 2]])
            self.assertEqual(network.route("A", "D", by="minutes").cells("road"), ["Tunnel", "Lane", "Spur"])
            network.factor("minutes")
        self.assertRaises(diffuse.NoFactors, network.factor, "lanes", "widest")
        self.refused(diffuse.NoVertex, "there is no place 'Z'", lambda: network.table("A", ["Z"], by="minutes"))

    def test_who_reaches_me(self):
        tree = self.network().tree("C", by="minutes", towards=True)
        self.assertEqual([tree.cost(place) for place in "ABCD"], [2.2, 0.7, 0, None])
        route = tree.route("A")
        self.assertEqual((route.places, route.cells("road"), route.cost), (["A", "B", "C"], ["Tunnel", "Lane"], 2.2))
        self.assertEqual((tree.neighbour("A"), tree.source("A")), ("B", "C"))
        self.assertEqual(sorted(tree.arcs), [2, 4])
        self.refused(diffuse.NoRoute, "no route leads from D", lambda: tree.route("D"))

    def test_isochrones(self):
        isochrone = self.network().isochrone("A", by="minutes", limits=[3, 1.5, "2.2"])
        self.assertEqual([isochrone.band(place) for place in "ABCD"], [1.5, 1.5, 2.2, None])
        self.assertEqual((isochrone.within(1.5), isochrone.within(3)), (["A", "B"], ["A", "B", "C"]))
        back = self.network().isochrone("A", by="minutes", limits=[3, 5], towards=True)
        self.assertEqual([back.band(place) for place in "ABCD"], [3, 3, 5, None])
        self.refused(diffuse.InputError, "limits: at least one is needed", lambda: self.network().isochrone("A", by="minutes", limits=[]))

    def test_limits_that_are_refused(self):
        """a to b 1, b to c 2: beyond the greatest limit an isochrone knows nothing."""
        network = Network.from_table({"from": ["a", "b"], "to": ["b", "c"], "m": [1, 2]}, tail="from", head="to", costs={"m": 10})
        self.assertEqual(network.isochrone("a", "m", [1]).within("1.0"), ["a", "b"])
        self.assertEqual(network.isochrone("a", "m", [1]).within(0.99), ["a"])
        self.refused(diffuse.InputError, "within: 100 is above the greatest limit of this isochrone, 1", lambda: network.isochrone("a", "m", [1]).within(100))
        self.refused(diffuse.NotANumber, "within: None is no number", lambda: network.isochrone("a", "m", [1]).within(None))
        for limits, kind, message in ((b"12", diffuse.BadShape, "limits: a list of numbers is needed, not b'12'"), ("12", diffuse.BadShape, "limits: a list of numbers is needed, not '12'"), (5, diffuse.BadShape, "limits: a list of numbers is needed, not 5"),
                                      ([-1, 3], diffuse.NoAlgebra, "limits[0]: -1 is not from 0 to 2^63 divided by the scale"), ([3, "3.0"], diffuse.InputError, "limits[1]: 3.0 comes twice"),
                                      ([1, True], diffuse.NotANumber, "limits[1]: True is no number"), (["1e9999999999"], diffuse.NoAlgebra, "limits[0]: 1E+9999999999 is not from 0 to 2^63 divided by the scale")):
            self.refused(kind, message, lambda: network.isochrone("a", "m", limits))
        self.refused(diffuse.NoAlgebra, "limit: 1e9999999999 is not from 0 to 2^63 divided by the scale", lambda: network.route("a", "b", "m", "within", "1e9999999999"))

    def test_factors_of_questions_towards(self):
        network = self.network()
        before = network.tree("C", by="minutes", towards=True)
        network.factor("minutes", towards=True)
        self.assertEqual(network.graph("minutes", True)._handles.pool.factored, {diffuse.Algebra.SHORTEST})
        self.assertEqual(network.graph("minutes")._handles.pool.factored, set())
        self.assertEqual(network.tree("C", by="minutes", towards=True), before)

    def test_a_sum_of_costs_is_one_more_cost(self):
        network = self.network().with_sum("general", {"minutes": 1, "euro": "0.5"}, scale=100)
        route = network.route("A", "B", by="general")
        self.assertEqual((route.cells("road"), route.cost, route.total("minutes")), (["Bypass"], 2.05, 1.5))
        self.assertNotIn("general", self.network().costs)

    def test_a_sum_that_is_not_whole(self):
        network = self.network()
        self.refused(diffuse.InputError, "roads.csv, line 2, general: 83.25 is not whole by the scale 100; "
                     "take a larger scale, or rounding=True", lambda: network.with_sum("general", {"minutes": "0.333"}, scale=100))
        rounded = network.with_sum("general", {"minutes": "0.333"}, scale=100, rounding=True)
        self.assertEqual(rounded.route("C", "D", by="general").cost, 3.41)  # 3.41325
        self.assertEqual(rounded.route("A", "C", by="general").cost, 0.73)  # 0.4995 and 0.2331
        self.refused(diffuse.OutOfRange, "roads.csv, line 3, general: -3200 is not from 0 to 4294967295",
                     lambda: network.with_sum("general", {"euro": -10}, scale=100))

    def test_a_half_is_rounded_upwards_everywhere(self):
        """Costs .5, 1.5, 2.5 and 3.5 are the weights 1, 2, 3 and 4, from a table as from a sum; 0.49 is 0."""
        table = {"a": "ABCDE", "b": "BCDEF", "m": [0.5, "1.5", Decimal("2.5"), 3.5, "0.4" + 120 * "9"]}
        table = {name: list(column) for name, column in table.items()}
        network = Network.from_table(table, tail="a", head="b", costs={"m": 1}, rounding=True)
        self.assertEqual(list(network._roads.costs["m"].weights), [1, 2, 3, 4, 0])
        finer = Network.from_table({**table, "m": [0.5, 1.5, 2.5, 3.5, 0.4]}, tail="a", head="b", costs={"m": 10})
        self.assertEqual(list(finer.with_sum("n", {"m": 1}, scale=1, rounding=True)._roads.costs["n"].weights), [1, 2, 3, 4, 0])

    def test_sums_that_are_refused(self):
        network = self.network()
        for scale, shown in ((-1, "-1"), (0, "0"), (1.5, "1.5"), (None, "None"), ("1", "'1'"), (True, "True")):
            self.refused(diffuse.InputError, f"the scale of n is a whole number from 1 on, not {shown}", lambda: network.with_sum("n", {"minutes": -1}, scale=scale))
        self.refused(diffuse.InputError, "there is a cost 'euro' already", lambda: network.with_sum("euro", {"minutes": 1}, scale=100))
        self.refused(diffuse.NotANumber, "the factor of minutes: 'x' is no number", lambda: network.with_sum("n", {"minutes": "x"}, scale=1))
        self.refused(diffuse.OutOfRange, "the factor of minutes: '1e999999' has digits more than 50 places from the point",
                     lambda: network.with_sum("n", {"minutes": "1e999999"}, scale=1))
        self.refused(diffuse.InputError, "name: a text is needed, not ['n']", lambda: network.with_sum(["n"], {"minutes": 1}, scale=1))
        self.refused(diffuse.InputError, "parts: costs with their factors are needed, as in {'minutes': 1}, not ['minutes']", lambda: network.with_sum("n", ["minutes"], scale=1))

    def test_unknown_names(self):
        network = self.network()
        self.refused(diffuse.NoVertex, "there is no place 'Z'", lambda: network.route("A", "Z", by="minutes"))
        self.refused(diffuse.NoVertex, "there is no place 'Z'", lambda: network.tree(["A", "Z"], by="minutes"))
        self.refused(diffuse.InputError, "there is no cost 'hours'; there are minutes, euro, lanes", lambda: network.route("A", "B", by="hours"))
        self.refused(diffuse.NoRoute, "no route leads from A to Island: from there 4 of 5 places are reached", lambda: network.route("A", "Island", by="minutes"))

    def test_numbers_and_texts_as_names(self):
        texts = Network.from_table({"a": ["426"], "b": ["7"], "m": [1]}, tail="a", head="b", costs={"m": 1})
        self.refused(diffuse.NoVertex, "there is no place 426; but there is '426'", lambda: texts.route(426, "7", by="m"))
        numbers = Network.from_table({"a": [426], "b": [7], "m": [1]}, tail="a", head="b", costs={"m": 1})
        self.refused(diffuse.NoVertex, "there is no place '426'; but there is 426", lambda: numbers.route("426", 7, by="m"))


class Tables(WithFiles):
    def faulty(self, old, new, kind, message, **words):
        self.refused(kind, message, lambda: self.network(ROADS.replace(old, new, 1), **words))

    def test_faults_have_file_line_and_column(self):
        self.faulty("0.7", "-0.7", diffuse.OutOfRange, "roads.csv, line 5, column minutes: -0.7 times the scale 100 is not from 0 to 4294967295")
        self.faulty("0.7", "0.705", diffuse.InputError,
                    "roads.csv, line 5, column minutes: 0.705 times the scale 100 is not whole; take a larger scale, or rounding=True")
        self.faulty("0.7", "fast", diffuse.NotANumber, "roads.csv, line 5, column minutes: 'fast' is no number")
        self.faulty("0.7", "", diffuse.NotANumber, "roads.csv, line 5, column minutes: '' is no number")
        self.faulty("0.7", "inf", diffuse.NotANumber, "roads.csv, line 5, column minutes: 'inf' is no number")
        self.faulty("0.7", "42949672.96", diffuse.OutOfRange,
                    "roads.csv, line 5, column minutes: 42949672.96 times the scale 100 is not from 0 to 4294967295")
        self.faulty("Lane,B", "Lane,", diffuse.InputError, "roads.csv, line 5, column from: a name is missing")
        self.faulty(",yes", ",perhaps", diffuse.InputError, "roads.csv, line 2, column both_ways: 'perhaps' is neither yes nor no")
        self.faulty(",yes", "", diffuse.BadShape, "roads.csv, line 2: 6 cells, and the first line has 7")
        self.faulty("euro", "minutes", diffuse.BadShape,
                    "roads.csv, line 1: each column needs a name of its own, not road, from, to, minutes, minutes, lanes, both_ways")
        self.faulty("minutes", "hours", diffuse.InputError,
                    "roads.csv has no column 'minutes'; it has road, from, to, hours, euro, lanes, both_ways")
        self.faulty("", "", diffuse.InputError, "the scale of minutes is a whole number from 1 on, not 0.5", costs={"minutes": 0.5})

    def test_faults_of_places(self):
        def faulty(old, new, kind, message, **words):
            self.refused(kind, message, lambda: self.network(places=PLACES.replace(old, new, 1), **words))

        faulty("50.01", "91", diffuse.OutOfRange, "places.csv, line 4, column lat: 91.0 is not from -90 to 90; degrees=False takes others")
        faulty("B,10.01", "B,east", diffuse.NotANumber, "places.csv, line 3, column lon: 'east' is no number")
        faulty("Island", "A", diffuse.InputError, "places.csv, line 6, column place: 'A' comes twice")
        self.assertEqual(self.network(places=PLACES.replace("50.01", "5001"), degrees=False).coordinates.points["C"], (10.01, 5001.0))

    def test_decimals_are_exact(self):
        """0.1 + 0.2 of floats is not 0.3, and 2.3 times 100 is 229.99999999999997."""
        network = Network.from_table({"a": ["A", "B"], "b": ["B", "C"], "m": [0.1, 0.2], "n": [2.3, "1e-2"]}, tail="a", head="b", costs={"m": 10, "n": 100})
        self.assertEqual((network.route("A", "C", by="m").cost, network.route("A", "C", by="n").cost), (0.3, 2.31))

    def test_rounding_is_asked_for(self):
        network = self.network(ROADS.replace("0.7", "0.706"), rounding=True)
        self.assertEqual(network.route("B", "C", by="minutes").cost, 0.71)
        self.faulty("0.7", "-0.001", diffuse.OutOfRange,
                    "roads.csv, line 5, column minutes: -0.001 times the scale 100 is not from 0 to 4294967295", rounding=True)

    def test_other_separators(self):
        text = ROADS.replace(",", ";").replace(".", ",").replace("C", "Ça")
        path = self.file("roads.csv", text.replace("\n", "\r\n"), "utf-8-sig")
        network = Network.read_csv(path, tail="from", head="to", costs=COSTS, both_ways="both_ways", delimiter=";", decimal=",")
        route = network.route("A", "Ça", by="minutes")
        self.assertEqual((route.cost, route.cells("road")), (2.2, ["Tunnel", "Lane"]))

    def test_only_the_decimal_sign_is_in_a_number(self):
        text = "f;t;m\nA;B;{}\n"
        def read(cell, **words):
            return Network.read_csv(self.file("r.csv", text.format(cell)), tail="f", head="t", costs={"m": 1000}, delimiter=";", **words)

        self.assertEqual(read("1,5", decimal=",").route("A", "B", by="m").cost, 1.5)
        self.refused(diffuse.NotANumber, "r.csv, line 2, column m: '1.500' is no number with the decimal sign ','", lambda: read("1.500", decimal=","))
        for cell in ("1_0", "\u0661\u0660", "1,5", "--1", "0x1", ""):
            self.refused(diffuse.NotANumber, f"r.csv, line 2, column m: {cell!r} is no number", lambda: read(cell))
        for sign in ("", ",,", "1", "-", None):
            self.refused(diffuse.InputError, f"decimal: one sign such as ',' is needed, not {sign!r}", lambda: read("1", decimal=sign))

    def test_encodings(self):
        text = "f,t,m\nA,B,1\nB,Stra\u00dfe,2\n"
        for encoding in ("cp1252", "utf-16", "latin-1", "utf-8"):
            path = self.file("r.csv", text, encoding)
            self.assertEqual(Network.read_csv(path, tail="f", head="t", costs={"m": 1}, encoding=encoding).route("A", "Stra\u00dfe", by="m").cost, 3)
        def read(written, **words):
            return lambda: Network.read_csv(self.file("r.csv", text, written), tail="f", head="t", costs={"m": 1}, **words)

        self.refused(diffuse.InputError, "r.csv, line 3: not utf-8; encoding= names another, such as cp1252 or utf-16", read("cp1252"))
        self.refused(diffuse.InputError, "r.csv, line 1: not utf-8; encoding= names another, such as cp1252 or utf-16", read("utf-16"))
        for name in ("runes", "hex", None):
            self.refused(diffuse.InputError, f"encoding: there is none of the name {name!r}", read("utf-8", encoding=name))

    def test_texts_that_are_no_tables(self):
        def read(text, **words):
            return lambda: Network.read_csv(self.file("r.csv", text), tail="f", head="t", costs={"m": 1}, **words)

        self.refused(diffuse.InputError, "r.csv, line 2: field larger than field limit (131072)", read("f,t,m\nA," + "B" * 140000 + ",1\n"))
        self.assertRaisesRegex(diffuse.InputError, "delimiter: ',,' can't be used", read("f,t,m\n", delimiter=",,"))
        self.assertRaisesRegex(diffuse.InputError, "delimiter: None can't be used", read("f,t,m\n", delimiter=None))

    def test_all_or_no_roads_lead_back(self):
        self.assertEqual(len(self.network(both_ways=True)._roads.tails), 12)
        self.assertEqual(len(self.network(both_ways=False)._roads.tails), 6)

    def test_columns(self):
        words = {"tail": "a", "head": "b"}
        table = {"a": ["A"], "b": ["B"], "m": [1]}
        for data, more, message in (
                ([{"a": 1}], {}, "roads: a DataFrame or a mapping from names to columns is needed, not [{'a': 1}]"),
                (table, {"costs": ["m"]}, "costs: columns with their scales are needed, as in {'minutes': 10}, not ['m']"),
                (table, {"costs": "m"}, "costs: columns with their scales are needed, as in {'minutes': 10}, not 'm'"),
                (table, {"both_ways": None}, "both_ways: True, False or the name of a column is needed, not None"),
                (table, {"both_ways": 2}, "both_ways: True, False or the name of a column is needed, not 2"),
                (table, {"both_ways": -1}, "both_ways: True, False or the name of a column is needed, not -1"),
                ({**table, "m": 5}, {}, "roads, column m: a list is needed, not 5"), ({**table, "m": "5"}, {}, "roads, column m: a list is needed, not '5'"),
                ({**table, 1: [1], "1": [2]}, {}, "roads: two columns have the name 1"),
                ({**table, "a": [["A"]]}, {}, "roads, row 0, column a: ['A'] can't be a name, since it can be changed")):
            self.refused_softly(message, lambda: Network.from_table(data, **{**words, "costs": {"m": 1}, **more}))
        network = Network.from_table(table, **words, costs={"m": 1})
        self.refused(diffuse.InputError, "there is no cost ['m']; there are m", lambda: network.route("A", "B", by=["m"]))
        self.refused(diffuse.NoAlgebra, "there is no algebra []; there are shortest, widest, reach, hops, reliable, within", lambda: network.route("A", "B", "m", []))
        self.refused(diffuse.NoVertex, "there is no place ['A']", lambda: network.vertex(["A"]))
        self.refused(diffuse.BadShape, "roads: its columns have 1, 2 rows", lambda: Network.from_table({"a": [1], "b": [1, 2]}, tail="a", head="b", costs={}))
        network = Network.from_table({"a": [1, (2, 3)], "b": [(2, 3), "x"], "m": [1, 2]}, tail="a", head="b", costs={"m": 1})
        self.assertEqual(network.tree((2, 3), by="m").cost("x"), 2)
        self.assertEqual(network.tree([(2, 3), 1], by="m").cost("x"), 2)


class OtherSources(WithFiles):
    def test_dimacs(self):
        gr = self.file("five.gr", FIVE_GR)
        co = self.file("five.co", "c x\np aux sp co 5\n" + "".join(f"v {v} {-73000000 + 1000 * v} {40000000 + v}\n" for v in range(1, 6)))
        network = Network.read_dimacs(gr, co)
        route = network.route(1, 4, by="weight")
        self.assertEqual((route.places, route.cost), ([1, 3, 2, 4], 8.0))
        self.assertEqual(network.coordinates.points[2], (-72.998, 40.000002))
        self.assertEqual(network._roads.table.where(route.arcs[0], "weight"), f"{gr}, line 4, column weight")
        self.assertRaises(diffuse.TooFewArcs, Network.read_dimacs, self.file("bad.gr", "p sp 2 1\n"))

    def test_faults_of_co_texts(self):
        gr = self.file("five.gr", FIVE_GR)
        rows = [("p aux sp co 1\nv 1 x 2\n", diffuse.NotANumber, "line 2"), ("p aux sp co 1\nv 2 1 2\n", diffuse.InputError, "line 2"),
                ("p aux sp co 1\n", diffuse.BadShape, "0 lines of vertices, and 1"), ("v 1 1 2\n", diffuse.BadShape, "line 1"),
                ("p aux sp co 2\nv 1 1 2\nv 1 1 2\n", diffuse.InputError, "line 3"),
                ("c nothing\n", diffuse.BadShape, "bad.co: there is no line `p aux sp co VERTICES`"),
                ("p aux sp co 1\nv 1 999999999 20\n", diffuse.OutOfRange, "line 2: LONGITUDE: 999999999 is not from -180000000 to 180000000"),
                ("p aux sp co 1\nv 1 0 90000001\n", diffuse.OutOfRange, "line 2: LATITUDE: 90000001 is not from -90000000 to 90000000"),
                ("p aux sp co 1\nv 1 1_0 2\n", diffuse.NotANumber, "line 2: LONGITUDE: '1_0' is no whole number"),
                ("p aux sp co 1\nv 1 1 \u0662\n", diffuse.NotANumber, "line 2: LATITUDE: '\u0662' is no whole number"),
                ("p aux sp co 6\n" + "".join(f"v {v} 1 2\n" for v in range(1, 7)), diffuse.InputError, "6 vertices, and the graph 5"), ("p sp 2 1\n", diffuse.BadShape, "line 1")]
        for text, kind, message in rows:
            with self.subTest(text), self.assertRaisesRegex(kind, message):
                Network.read_dimacs(gr, self.file("bad.co", text))

    @unittest.skipUnless(networkx, "networkx is not installed")
    def test_networkx(self):
        graph = networkx.MultiDiGraph()
        graph.add_edge("A", "B", minutes=2.5)
        graph.add_edge("A", "B", minutes=1.5)
        graph.add_node("C", x=10.0, y=50.0)
        network = Network.from_networkx(graph, costs={"minutes": 10})
        self.assertEqual((network.route("A", "B", by="minutes").cost, list(network.places)), (1.5, ["A", "B", "C"]))
        self.assertEqual(network.coordinates.points, {"C": (10.0, 50.0)})
        self.assertRaises(diffuse.NoRoute, network.route, "B", "A", "minutes")
        streets = networkx.Graph([("A", "B", {"minutes": 3})])
        self.assertEqual(Network.from_networkx(streets, costs={"minutes": 1}).route("B", "A", by="minutes").cost, 3)
        streets.add_edge("B", "C")
        self.refused(diffuse.InputError, "graph, edge B to C: there is no minutes", lambda: Network.from_networkx(streets, costs={"minutes": 1}))

    @unittest.skipUnless(networkx, "networkx is not installed")
    def test_attributes_of_networkx_may_have_any_name(self):
        """A cost head is no end of an edge, and a coordinate node is no name of one; other attributes are columns."""
        graph = networkx.DiGraph()
        graph.add_edge(1, 2, head=3, tail=5, name="Pipe Lane")
        graph.add_edge(2, 4, head=4, tail=6)
        network = Network.from_networkx(graph, costs={"head": 1, "tail": 1})
        self.assertEqual(list(network.places), [1, 2, 4])
        route = network.route(1, 4, by="head")
        self.assertEqual((route.places, route.cost, route.total("tail"), route.cells("name")), ([1, 2, 4], 7, 11, ["Pipe Lane", None]))
        self.assertRaises(diffuse.NoVertex, network.route, 1, 3, "head")
        graph.nodes[1].update(node=10.5, y=50)
        self.assertEqual(Network.from_networkx(graph, costs={"head": 1}, x="node").coordinates.points, {1: (10.5, 50.0)})
        self.refused(diffuse.InputError, "graph: a graph of networkx is needed, not [(1, 2)]", lambda: Network.from_networkx([(1, 2)], costs={}))

    @unittest.skipUnless(numpy, "numpy is not installed")
    def test_scales_and_flags_of_numpy(self):
        table = {"a": ["A"], "b": ["B"], "m": [1.5]}
        network = Network.from_table(table, tail="a", head="b", costs={"m": numpy.int64(10)}, both_ways=numpy.bool_(True))
        self.assertEqual(network.route("B", "A", by="m").cost, 1.5)

    @unittest.skipUnless(pandas, "pandas is not installed")
    def test_pandas(self):
        roads, places = pandas.read_csv(self.file("roads.csv", ROADS)), pandas.read_csv(self.file("places.csv", PLACES))
        network = Network.from_table(roads, tail="from", head="to", costs=COSTS, both_ways="both_ways", places=places)
        self.assertEqual(network.route("A", "D", by="minutes").cost, 12.45)
        missing = roads.astype({"from": "string"})
        missing.loc[2, "from"] = pandas.NA
        self.refused(diffuse.InputError, "roads, row 2, column from: a name is missing", lambda: Network.from_table(missing, tail="from", head="to", costs=COSTS))
        roads.loc[3, "minutes"] = numpy.nan
        self.refused(diffuse.NotANumber, "roads, row 3, column minutes: nan is no number",
                     lambda: Network.from_table(roads, tail="from", head="to", costs=COSTS))


if __name__ == "__main__":
    unittest.main()
