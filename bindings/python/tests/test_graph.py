"""Routes, trees and checks of the five vertices, and what is refused. Values by hand, from the table of README.md."""
import tempfile
import unittest
from array import array
from copy import copy
from pathlib import Path
from unittest import mock

import diffuse
from diffuse import Graph, Route, Tree

from .examples import ARCS, FIVE_GR, NONE, listed

BEST = {  # values, hops and parents of vertices 1 to 5 from vertex 1
    ("shortest", None): ([0, 3, 1, 8, NONE], [0, 2, 1, 3, 0], [0, 3, 1, 2, 0]),
    ("widest", None): ([2**32, 4, 1, 4, NONE], [0, 1, 1, 2, 0], [0, 1, 1, 2, 0]),
    ("reach", None): ([0, 0, 0, 0, NONE], [0, 1, 1, 2, 0], [0, 1, 1, 2, 0]),
    ("hops", None): ([0, 1, 1, 2, NONE], [0, 1, 1, 2, 0], [0, 1, 1, 2, 0]),
    ("reliable", None): ([10**12, 4000000, 1000000, 20, NONE], [0, 1, 1, 2, 0], [0, 1, 1, 2, 0]),
    ("within", 5): ([0, 3, 1, NONE, NONE], [0, 2, 1, 0, 0], [0, 3, 1, 0, 0]),
}


class Answers(unittest.TestCase):
    def test_trees_of_all_algebras(self):
        graph = Graph(5, ARCS)
        for (algebra, limit), wanted in BEST.items():
            with self.subTest(algebra):
                tree = graph.tree(1, algebra, limit)
                self.assertEqual(listed(tree), list(wanted))
                self.assertIsNone(graph.check(tree))

    def test_routes(self):
        graph = Graph(5, ARCS)
        self.assertEqual(graph.route(1, 4), Route(8, 3, [1, 3, 2, 4]))
        self.assertEqual(graph.route(1, 4, "widest"), Route(4, 2, [1, 2, 4]))
        self.assertEqual(graph.route(5, 5), Route(0, 0, [5]))
        self.assertEqual(graph.route(1, 4, "within", 8), Route(8, 3, [1, 3, 2, 4]))
        self.assertEqual(graph.route(1, 4, diffuse.Algebra.HOPS).vertices, [1, 2, 4])

    def test_routes_of_each_algebra_by_its_name(self):
        wanted = {"shortest": 8, "widest": 4, "reach": 0, "hops": 2, "reliable": 20, "within": 8}
        self.assertEqual(set(wanted), set(diffuse.ALGEBRAS))
        for name, value in wanted.items():
            self.assertEqual(Graph(5, ARCS).route(1, 4, name, 8 if name == "within" else None).value, value, name)

    def test_several_sources_and_routes_of_a_tree(self):
        tree = Graph(5, ARCS).tree([4, 5])
        self.assertEqual(listed(tree), [[3, 6, 4, 0, 0], [1, 3, 2, 0, 0], [5, 3, 1, 0, 0]])
        self.assertEqual(tree.route(2), Route(6, 3, [5, 1, 3, 2]))
        self.assertEqual(tree.route(4), Route(0, 0, [4]))
        self.assertEqual(listed(Graph(5, ARCS).tree([1, 1])), list(BEST["shortest", None]))

    def test_tables_and_factors(self):
        graph = Graph(5, ARCS)
        for _ in range(2):  # by searches, and then by factors
            self.assertEqual([list(map(int, row)) for row in graph.table([1, 5], [4, 1, 5])], [[8, 0, NONE], [11, 3, 0]])
            self.assertEqual([list(map(int, row)) for row in graph.table(1, 4, "within", 7)], [[NONE]])
            self.assertEqual(len(graph.table([], [1, 2])), 0)
            self.assertEqual([len(row) for row in graph.table([1, 2], [])], [0, 0])
            for (algebra, limit), wanted in BEST.items():
                self.assertEqual(listed(graph.tree(1, algebra, limit)), list(wanted))
                self.assertEqual([int(code) for code in graph.table([1], range(1, 6), algebra, limit)[0]], wanted[0])
            self.assertEqual(graph.route(1, 4), Route(8, 3, [1, 3, 2, 4]))
            self.assertEqual(graph.route(1, 4, "hops"), Route(2, 2, [1, 2, 4]))
            for algebra in ("shortest", "hops", diffuse.Algebra.WITHIN):
                graph.factor(algebra)

    def test_factors_by_an_order(self):
        graph = Graph(5, ARCS)
        for places in ([0, 1, 2, 3, 4], (4, 0, 3, 1, 2), range(5)):
            graph.factor("shortest", places)
            self.assertEqual([list(map(int, row)) for row in graph.table([1, 5], [4, 1, 5])], [[8, 0, NONE], [11, 3, 0]])
        self.assertRaises(diffuse.NoRoom, graph.factor, "hops", [0, 1, 2, 3])
        for places in ([0, 1, 2, 3, 3], [1, 2, 3, 4, 5]):
            self.assertRaises(diffuse.NoOrder, graph.factor, "hops", places)

    def test_what_is_not_factored(self):
        complete = Graph(200, [(v, w, 1) for v in range(1, 201) for w in range(1, 201)])
        self.assertRaises(diffuse.TooDense, complete.factor)
        self.assertEqual(complete.route(1, 200).value, 1)
        star = Graph(1000, [(1, v, 1) for v in range(2, 1001)])
        star.factor()
        self.assertEqual(star.route(1, 1000).value, 1)
        chain = Graph(65536, [(v, v + 1, 2**32 - 1) for v in range(1, 65536)])
        self.assertRaises(diffuse.TooHeavy, chain.factor)
        chain.factor("hops")
        self.assertEqual(chain.route(1, 3, "hops").value, 2)
        for algebra in ("widest", "reach", "reliable"):
            self.assertRaises(diffuse.NoFactors, star.factor, algebra)
        self.assertRaises(diffuse.NoAlgebra, star.factor, "longest")

    def test_a_long_route_is_solved_once(self):
        many = 5000
        graph = Graph.from_columns(range(1, many), range(2, many + 1), [3] * (many - 1))
        found, calls = diffuse.graph.library(), []
        counting = mock.Mock(wraps=found)
        counting.diffuse_graph_route.side_effect = lambda *words: calls.append(1) or found.diffuse_graph_route(*words)
        with mock.patch("diffuse.graph.library", return_value=counting):
            route = graph.route(1, many)
        self.assertEqual(route, Route(3 * (many - 1), many - 1, list(range(1, many + 1))))
        self.assertEqual(len(calls), 1)

    def test_graphs_of_texts_and_files(self):
        with tempfile.TemporaryDirectory() as room:
            path = Path(room, "five.gr")
            path.write_text(FIVE_GR)
            for graph in (Graph.from_gr(FIVE_GR.encode()), Graph.from_gr(bytearray(FIVE_GR.encode())), Graph.read(path)):
                self.assertEqual((graph.vertices, graph.arcs), (5, 7))
                self.assertEqual(graph.route(1, 4).value, 8)

    def test_graphs_of_columns(self):
        tails, heads, weights = zip(*ARCS)
        for columns in ((tails, heads, weights), (array("q", tails), array("B", heads), array("I", weights)), (bytes(tails), bytearray(heads), bytes(weights)), (iter(tails), iter(heads), iter(weights))):
            graph = Graph.from_columns(*columns)
            self.assertEqual((graph.vertices, graph.arcs, graph.route(1, 4).value), (5, 7, 8))

    def test_small_graphs(self):
        self.assertEqual(listed(Graph(0, []).tree([])), [[], [], []])
        self.assertEqual(listed(Graph(2, []).tree([])), [[NONE, NONE], [0, 0], [0, 0]])
        self.assertEqual(Graph.from_columns([], [], []).vertices, 0)
        self.assertEqual(Graph(2, [(1, 2, 2**32 - 1)]).route(1, 2).value, 2**32 - 1)

    def test_a_closed_graph(self):
        with Graph(5, ARCS) as graph:
            tree = graph.tree(1)
        for call in (lambda: graph.tree(1), lambda: graph.route(1, 2), lambda: graph.check(tree), lambda: graph.table(1, 2), graph.factor):
            self.assertRaises(diffuse.Closed, call)
        graph.close()
        self.assertEqual(listed(tree), list(BEST["shortest", None]))


PARALLEL = [(1, 2, 5), (1, 2, 3), (2, 3, 4), (1, 2, 3), (2, 3, 4), (3, 3, 0), (2, 3, 2), (1, 3, 9), (4, 1, 3)]
"""Parallel arcs of different and of equal weight, a loop, and a vertex that only its own arc joins."""


class Numbers(unittest.TestCase):
    def test_the_arcs_of_routes(self):
        graph = Graph(4, PARALLEL)
        self.assertIsNone(graph.route(1, 3).arcs)
        graph.number()
        for graph in (graph, copy(graph)):
            for _ in range(2):  # by searches, and then by factors
                for algebra, limit, ends, value, vertices, arcs in (
                        ("shortest", None, (1, 3), 5, [1, 2, 3], [1, 6]), ("widest", None, (1, 3), 9, [1, 3], [7]),
                        ("widest", None, (4, 2), 3, [4, 1, 2], [8, 0]), ("reach", None, (1, 2), 0, [1, 2], [0]),
                        ("hops", None, (2, 3), 1, [2, 3], [2]), ("reliable", None, (1, 2), 5000000, [1, 2], [0]),
                        ("within", 3, (1, 2), 3, [1, 2], [1]), ("shortest", None, (3, 3), 0, [3], [])):
                    self.assertEqual(graph.route(*ends, algebra, limit), Route(value, len(arcs), vertices, arcs))
                self.assertRaises(diffuse.NoRoute, graph.route, 1, 4)
                graph.factor()

    def test_another_order_of_arcs(self):
        text = "p sp 4 9\n" + "".join("a {} {} {}\n".format(*arc) for arc in PARALLEL)
        graph = Graph.from_gr(text.encode())
        self.assertRaisesRegex(diffuse.InputError, "does not keep its arcs", graph.number)
        graph.number(sorted(PARALLEL, key=lambda arc: -arc[0]))
        self.assertEqual(graph.route(1, 3).arcs, [6, 4])
        for other in (PARALLEL[1::-1] + PARALLEL[2:], PARALLEL[1:], PARALLEL[:-1] + [(4, 1, 4)], []):
            self.assertRaises(diffuse.OtherArcs, graph.number, other)
        self.assertRaises(diffuse.NoVertex, graph.number, [(1, 5, 1)])
        self.assertEqual(graph.route(1, 3).arcs, [6, 4])

    def test_other_weights_are_not_numbered(self):
        graph = Graph(4, PARALLEL)
        graph.number()
        second = graph.with_weights([1] * 9)
        self.assertIsNone(second.route(1, 2).arcs)
        second.number()
        self.assertEqual((second.route(1, 2).arcs, graph.route(1, 2).arcs), ([0], [1]))
        graph.close()
        self.assertRaises(diffuse.Closed, graph.number)


class Checks(unittest.TestCase):
    def wrong(self, change, **question):
        """What is found of the tree from 1 after a change of its lists."""
        lists = [list(column) for column in BEST["shortest", None]]
        change(*lists)
        with self.assertRaises(diffuse.WrongTree) as caught:
            Graph(5, ARCS).check(Tree(*lists, sources=[1], **question))
        return caught.exception.vertex, caught.exception.reason.name

    def test_wrong_lines(self):
        def put(which, vertex, value):
            return lambda *lists: lists[which].__setitem__(vertex - 1, value)

        self.assertEqual(self.wrong(put(0, 4, 9)), (4, "NOT_BEST"))
        self.assertEqual(self.wrong(put(0, 1, 1)), (1, "NOT_A_SOURCE_LINE"))
        self.assertEqual(self.wrong(put(2, 4, 5)), (4, "NO_PARENT"))
        self.assertEqual(self.wrong(put(1, 4, 4)), (4, "OTHER_HOPS"))
        self.assertEqual(self.wrong(lambda values, hops, parents: (put(0, 4, NONE)(values), hops.__setitem__(3, 0), parents.__setitem__(3, 0))), (4, "HAS_WALK"))

    def test_the_least_parent(self):
        graph = Graph(4, [(1, 2, 1), (1, 3, 1), (2, 4, 1), (3, 4, 1)])
        with self.assertRaises(diffuse.WrongTree) as caught:
            graph.check(Tree([0, 1, 1, 2], [0, 1, 1, 2], [0, 1, 1, 3], [1]))
        self.assertEqual((caught.exception.vertex, caught.exception.reason), (4, diffuse.Reason.LESSER_PARENT))
        self.assertEqual(str(caught.exception), "the tree is wrong at vertex 4: a lesser vertex could be the parent")

    def test_lists_of_another_length(self):
        with self.assertRaisesRegex(diffuse.NoRoom, "hops has 4 places, and the graph 5 vertices"):
            Graph(5, ARCS).check(Tree([0, 3, 1, 8, NONE], [0, 2, 1, 3], [0, 3, 1, 2, 0], [1]))


class ForeignTrees(unittest.TestCase):
    """A tree of another origin may lead anywhere; its routes are refused if its own lists do not lead to a source."""

    def wrong(self, vertex, reason, tree, asked):
        with self.assertRaises(diffuse.WrongTree) as caught:
            tree.route(asked)
        self.assertEqual((caught.exception.vertex, caught.exception.reason.name), (vertex, reason))

    def test_steps_off_the_lists_and_rounds(self):
        self.wrong(3, "OTHER_HOPS", Tree([0, 5, 12], [0, 1, 9], [0, 1, 2], [1]), 3)
        self.wrong(2, "NO_PARENT", Tree([0, 5, 12], [0, 1, 2], [0, 9, 2], [1]), 3)
        self.wrong(2, "NO_PARENT", Tree([0, 5, 12], [0, 1, 2], [0, -1, 2], [1]), 3)
        self.wrong(2, "OTHER_HOPS", Tree([0, 5, 12], [0, 2**31, 2**31 + 1], [0, 3, 2], [1]), 3)
        self.wrong(1, "NO_PARENT", Tree([0, 5, 12], [3, 4, 5], [0, 1, 2], [1]), 3)
        self.wrong(2, "OTHER_HOPS", Tree([0, 5], [-1, 0], [0, 1], [1]), 2)
        self.assertEqual(Tree([0, 5, 12], [0, 1, 2], [0, 1, 2], [1]).route(3), Route(12, 2, [1, 2, 3]))


    def test_lists_of_another_kind(self):
        for tree, kind, message in ((Tree(5, [0, 1], [0, 1], [1]), diffuse.BadShape, "values: a list of whole numbers is needed, not 5"),
                                    (Tree([0, 5], [0, 1], [0], [1]), diffuse.BadShape, "parents: a list with a number for vertex 2 is needed"),
                                    (Tree([0, 5], None, [0, 1], [1]), diffuse.BadShape, "hops: a list with a number for vertex 2 is needed"),
                                    (Tree([0, 5.0], [0, 1], [0, 1], [1]), diffuse.NotANumber, "values[1]: 5.0 is no whole number"),
                                    (Tree([0, 5], [0, 1], "01", [1]), diffuse.NotANumber, "parents[1]: '1' is no whole number")):
            with self.assertRaises(kind) as caught:
                tree.route(2)
            self.assertEqual(str(caught.exception), message)


class Refusals(unittest.TestCase):
    def refused(self, kind, message, call):
        with self.assertRaises(kind) as caught:
            call()
        self.assertEqual(str(caught.exception), message)

    def test_numbers_out_of_range(self):
        graph, big = Graph(5, ARCS), "4294967297 is not from 1 to 5"
        self.refused(diffuse.NoVertex, f"source: {big}", lambda: graph.route(2**32 + 1, 4))
        self.refused(diffuse.NoVertex, f"target: {big}", lambda: graph.route(1, 2**32 + 1))
        self.refused(diffuse.NoVertex, "sources[1]: 0 is not from 1 to 5", lambda: graph.tree([1, 0]))
        self.refused(diffuse.NoVertex, "sources[0]: 6 is not from 1 to 5", lambda: graph.tree(6))
        self.refused(diffuse.NoVertex, "targets[1]: 6 is not from 1 to 5", lambda: graph.table(1, [1, 6]))
        self.refused(diffuse.OutOfRange, "arcs[1], weight: -1 is not from 0 to 4294967295", lambda: Graph(2, [(1, 2, 3), (1, 2, -1)]))
        self.refused(diffuse.OutOfRange, "arcs[0], weight: 4294967296 is not from 0 to 4294967295", lambda: Graph(2, [(1, 2, 2**32)]))
        self.refused(diffuse.NoVertex, "arcs[0], head: 3 is not from 1 to 2", lambda: Graph(2, [(1, 3, 3)]))
        self.refused(diffuse.NoVertex, "tails[0]: -1 is not from 1 to 33554432", lambda: Graph.from_columns([-1], [1], [1]))
        self.refused(diffuse.OutOfRange, "weights[0]: 4294967296 is not from 0 to 4294967295", lambda: Graph.from_columns([1], [1], [2**32]))
        self.refused(diffuse.OutOfRange, "vertices: -1 is not from 0 to 33554432", lambda: Graph(-1, []))
        self.refused(diffuse.OutOfRange, "vertices: 33554433 is not from 0 to 33554432", lambda: Graph(2**25 + 1, []))
        self.refused(diffuse.OutOfRange, "values[0]: -1 is not from 0 to 18446744073709551615",
                     lambda: graph.check(Tree([-1, 0, 0, 0, 0], [0] * 5, [0] * 5, [1])))

    def test_what_is_no_number(self):
        graph = Graph(5, ARCS)
        self.refused(diffuse.NotANumber, "source: 1.0 is no whole number", lambda: graph.route(1.0, 4))
        self.refused(diffuse.NotANumber, "target: '4' is no whole number", lambda: graph.route(1, "4"))
        self.refused(diffuse.NotANumber, "sources[0]: True is no whole number", lambda: graph.tree([True, 2]))
        self.refused(diffuse.NotANumber, "arcs[0], weight: 2.5 is no whole number", lambda: Graph(2, [(1, 2, 2.5)]))
        self.refused(diffuse.NotANumber, "arcs[1], tail: None is no whole number", lambda: Graph(2, [(1, 2, 2), (None, 2, 2)]))

    def test_shapes(self):
        self.refused(diffuse.BadShape, "arcs[1]: (1, 2) is not a tail, a head and a weight", lambda: Graph(2, [(1, 2, 3), (1, 2)]))
        self.refused(diffuse.BadShape, "arcs[0]: 1 is not a tail, a head and a weight", lambda: Graph(2, [1, 2, 3]))
        self.refused(diffuse.BadShape, "the columns of tails, heads and weights have 2, 1 and 1 rows", lambda: Graph.from_columns([1, 2], [1], [1]))
        grid = memoryview(bytes(8)).cast("B", (2, 4))
        self.refused(diffuse.BadShape, "sources[0]: one dimension is needed, not the shape (2, 4)", lambda: Graph(5, ARCS).tree(grid))

    def test_algebras_and_limits(self):
        graph = Graph(5, ARCS)
        self.refused(diffuse.NoAlgebra, "there is no algebra 'fast'; there are shortest, widest, reach, hops, reliable, within", lambda: graph.tree(1, "fast"))
        self.refused(diffuse.NoAlgebra, "only within has a limit, and hops was given 5", lambda: graph.tree(1, "hops", 5))
        for limit in (None, -1, 2**63 + 1, 2.5, True, [1], "5", 10**5000):
            self.assertRaises(diffuse.NoAlgebra, graph.route, 1, 4, "within", limit)
        self.assertEqual(graph.route(1, 4, "within", 2**63).value, 8)

    def test_no_route(self):
        self.refused(diffuse.NoRoute, "no route leads from 1 to 5", lambda: Graph(5, ARCS).route(1, 5))
        self.refused(diffuse.NoRoute, "no route leads to vertex 5", lambda: Graph(5, ARCS).tree(1).route(5))
        self.refused(diffuse.NoVertex, "vertex: 6 is not from 1 to 5", lambda: Graph(5, ARCS).tree(1).route(6))

    def test_faults_of_texts(self):
        """The rows of docs/FORMATS.md."""
        rows = [("a 1 2 3\n", "NoProblemLine", 1), ("", "NoProblemLine", 1), ("p sp 2 0\np sp 2 0\n", "SecondProblemLine", 2),
                ("p max 2 1\n", "BadProblemLine", 1), ("p sp 2 1\nx 1 2 3\n", "UnknownLine", 2), ("p sp 2 1\na 1 2\n", "WrongFields", 2),
                ("p sp 2 1\na 1 2 -3\n", "NotANumber", 2), ("p sp 2 1\na 1 2 4294967296\n", "OutOfRange", 2),
                ("p sp 2 1\nc\na 1 3 2\n", "NoVertex", 3), ("p sp 2 0\na 1 2 3\n", "TooManyArcs", 2), ("p sp 2 1\n", "TooFewArcs", 2)]
        for text, name, line in rows:
            with self.subTest(name):
                with self.assertRaises(diffuse.TextFault) as caught:
                    Graph.from_gr(text.encode())
                self.assertEqual((type(caught.exception).__name__, caught.exception.line), (name, line))

    def test_faults_of_texts_name_file_line_and_field(self):
        rows = [
            ("a 1 2 3\n", "line 1: there is no problem line `p sp VERTICES ARCS` before it"),
            ("p sp 2 0\np sp 2 0\n", "line 2: a second problem line"), ("p max 2 1\r\n", "line 1: 'p max 2 1' is not `p sp VERTICES ARCS`"),
            ("p sp 2 1\nx 1 2 3\n", "line 2: 'x 1 2 3' begins with none of c, p and a"),
            ("p sp 2 1\na 1 2\n", "line 2: `a TAIL HEAD WEIGHT` has 4 fields, and 'a 1 2' has 3"),
            ("p sp 2 1\na 1  2 -3\n", "line 2, WEIGHT: '-3' is no whole number"), ("p sp x 1\n", "line 1, VERTICES: 'x' is no whole number"),
            ("p sp 2 1\na 1 2 4294967296\n", "line 2, WEIGHT: 4294967296 is not from 0 to 4294967295"),
            ("p sp 33554433 1\n", "line 1, VERTICES: 33554433 is not from 0 to 33554432"),
            ("p sp 2 1\nc\na\t1 0003 2\n", "line 3, HEAD: 0003 is not from 1 to 2"), ("p sp 2 1\na 0 2 2\n", "line 2, TAIL: 0 is not from 1 to 2"),
            ("p sp 2 0\na 1 2 3\n", "line 2: more arc lines than the 0 that are announced"),
            ("p sp 2 1\n", "line 2: the text ends, with fewer arc lines than the 1 that are announced")]
        with tempfile.TemporaryDirectory() as room:
            path = Path(room, "bad.gr")
            for text, message in rows:
                path.write_bytes(text.encode())
                with self.subTest(text):
                    self.refused_softly(f"text, {message}", lambda: Graph.from_gr(text.encode()))
                    self.refused_softly(f"{path}, {message}", lambda: Graph.read(path))

    def refused_softly(self, message, call):
        """Refused by any kind of InputError."""
        with self.assertRaises(diffuse.InputError) as caught:
            call()
        self.assertEqual(str(caught.exception), message)

    def test_arguments_of_a_wrong_kind(self):
        graph = Graph(5, ARCS)
        for call, message in (
                (lambda: graph.tree(None), "sources: a vertex or a list of vertices is needed, not None"),
                (lambda: graph.tree(1.0), "sources: a vertex or a list of vertices is needed, not 1.0"),
                (lambda: graph.table(1, 2.5), "targets: a vertex or a list of vertices is needed, not 2.5"),
                (lambda: graph.tree(True), "sources[0]: True is no whole number"), (lambda: graph.tree("12"), "sources: a vertex or a list of vertices is needed, not '12'"),
                (lambda: Graph(3, None), "arcs: a list of arcs (tail, head, weight) is needed, not None"),
                (lambda: Graph(3, memoryview(bytes(6)).cast("B", (2, 3))), "arcs[0], tail: 0 is not from 1 to 3"),
                (lambda: Graph.from_columns([1], [1], 5), "weights: a list of whole numbers is needed, not 5"),
                (lambda: Graph.from_columns(None, [1], [5]), "tails: a list of whole numbers is needed, not None"),
                (lambda: Graph.from_gr("p sp 1 0\n"), "text: bytes are needed, not 'p sp 1 0\\n'"), (lambda: Graph.from_gr(5), "text: bytes are needed, not 5"),
                (lambda: graph.route(10**5000, 1), "source: a whole number of 16610 bits is not from 1 to 5"),
                (lambda: graph.tree([10**5000]), "sources[0]: a whole number of 16610 bits is not from 1 to 5"),
                (lambda: graph.route("x" * 1000, 1), f"source: '{'x' * 76}... is no whole number")):
            with self.subTest(message):
                self.refused_softly(message, call)

    def test_a_stop_ends_calls(self):
        import threading

        n, stop = 100_000, diffuse.Stop()
        graph = Graph.from_columns(range(1, n), range(2, n + 1), [1] * (n - 1))
        self.assertEqual(graph.route(1, n, stop=stop).value, n - 1)
        thread = threading.Thread(target=stop.set)
        thread.start()
        thread.join()
        for call in (lambda: graph.route(2, n, stop=stop), lambda: graph.tree(1, stop=stop), lambda: graph.near(1, stop=stop),
                     lambda: graph.table(1, n, stop=stop), lambda: graph.tree(1, "widest", stop=stop)):
            with self.assertRaisesRegex(diffuse.Stopped, "The stop was set before there was an answer."):
                call()
        graph.number()  # by the handle of a call that was stopped
        self.assertEqual(graph.route(1, n).value, n - 1)
        stop.clear()
        self.assertEqual(len(graph.near(1, stop=stop).vertices), n)

    def test_classes_by_status(self):
        from diffuse.errors import BY_STATUS

        self.assertEqual(sorted(BY_STATUS), [*range(1, 20), *range(43, 49)])
        for status, kind in BY_STATUS.items():
            self.assertTrue(issubclass(kind, diffuse.DiffuseError) and 400 <= kind.http < 600, status)
        error = diffuse.NoRoute("no route leads from 1 to 5")
        self.assertEqual(error.as_dict(), {"error": "NoRoute", "status": 1, "http": 404, "detail": "no route leads from 1 to 5"})

    def test_every_status_of_a_call_is_an_exception(self):
        from diffuse.errors import BY_STATUS

        graph, tree = Graph(5, ARCS), Graph(5, ARCS).tree(1)
        for status, kind in BY_STATUS.items():
            stub = mock.Mock(**{f"diffuse_graph_{call}.return_value": status for call in ("route", "tree", "check")})
            with mock.patch("diffuse.graph.library", return_value=stub):
                if status != 6:
                    self.assertRaises(kind, graph.route, 1, 2)
                    self.assertRaises(kind, graph.tree, 1)
                    self.assertRaises(kind, graph.check, tree)
        with mock.patch("diffuse.graph.library", return_value=mock.Mock(**{"diffuse_graph_tree.return_value": 99})):
            self.assertRaisesRegex(diffuse.DiffuseError, "status 99", graph.tree, 1)


if __name__ == "__main__":
    unittest.main()
