"""The vertices within a limit, and graphs of the same arcs with other weights. Expected values by hand."""
import pickle
import random
import unittest
from unittest import mock

import diffuse
from diffuse import Graph, Near, Network, Route

from .examples import ARCS, FIVE_GR, NONE, listed
from .test_network import WithFiles

WEIGHTS = [weight for _, _, weight in ARCS]


def columns(near):
    """The lists as plain ones."""
    return [list(map(int, column)) for column in (near.values, near.vertices, near.hops, near.parents)]


class Nearest(unittest.TestCase):
    def test_the_best_first(self):
        near = Graph(5, ARCS).near(1)
        self.assertEqual(columns(near), [[0, 1, 3, 8], [1, 3, 2, 4], [0, 1, 2, 3], [0, 1, 3, 2]])
        self.assertEqual((len(near), near.entry(2), near.entry(5), near.reaches(5)), (4, (3, 2, 3), (NONE, 0, 0), False))
        self.assertEqual(near.route(4), Route(8, 3, [1, 3, 2, 4]))
        self.assertRaises(diffuse.NoRoute, near.route, 5)
        self.assertRaises(diffuse.NoVertex, near.entry, 6)

    def test_a_limit_and_other_algebras(self):
        graph = Graph(5, ARCS)
        for _ in range(2):
            self.assertEqual(columns(graph.near(1, limit=5)), [[0, 1, 3], [1, 3, 2], [0, 1, 2], [0, 1, 3]])
            self.assertEqual(columns(graph.near([4, 5], limit=4)), [[0, 0, 3, 4], [4, 5, 1, 3], [0, 0, 1, 2], [0, 0, 5, 1]])
            self.assertEqual(list(map(int, graph.near(1, algebra="widest").values)), [2**32, 4, 4, 1])
            self.assertEqual(columns(graph.near(1, algebra="hops")), [[0, 1, 1, 2], [1, 2, 3, 4], [0, 1, 1, 2], [0, 1, 1, 2]])
            self.assertEqual(len(graph.near([])), 0)
            graph.factor()
        self.assertRaises(diffuse.NoAlgebra, graph.near, 1, "hops", 5)
        self.assertRaises(diffuse.NoAlgebra, graph.near, 1, diffuse.Algebra.SHORTEST, 5)
        self.assertRaises(diffuse.NoVertex, graph.near, 6)

    def test_beside_trees(self):
        lot = random.Random(2)
        for _ in range(60):
            count = lot.randint(1, 30)
            graph = Graph(count, [(lot.randint(1, count), lot.randint(1, count), lot.randint(0, 9)) for _ in range(lot.randint(0, 90))])
            sources = [lot.randint(1, count) for _ in range(lot.randint(0, 3))]
            for algebra in diffuse.ALGEBRAS:
                limit = 12 if algebra == "within" else None
                near, tree = graph.near(sources, algebra, limit), graph.tree(sources, algebra, limit)
                self.assertEqual(near.tree(), tree)
                self.assertEqual(dict(near.entries()), dict(tree.entries()))
                self.assertEqual(near, pickle.loads(pickle.dumps(near)))
                sign = -1 if algebra in ("widest", "reliable") else 1
                order = [(sign * value, hops, vertex) for value, vertex, hops, _ in zip(*columns(near))]
                self.assertEqual(order, sorted(order))

    def test_it_costs_what_it_returns(self):
        """Without a full tree, by one call for a few vertices and two for many."""
        many = 5000
        graph, found, calls = Graph.from_columns(range(1, many), range(2, many + 1), [3] * (many - 1)), diffuse.graph.library(), []
        only = mock.Mock(spec=["diffuse_graph_near"])
        only.diffuse_graph_near.side_effect = lambda *words: calls.append(1) or found.diffuse_graph_near(*words)
        with mock.patch("diffuse.graph.library", return_value=only):
            self.assertEqual((list(map(int, graph.near(2, limit=9).vertices)), len(calls)), ([2, 3, 4, 5], 1))
            self.assertEqual((len(graph.near(1)), len(calls)), (many, 3))

    def test_isochrones_have_no_whole_tree(self):
        network = Network.from_table({"a": [*"ABCD"], "b": [*"BCDE"], "m": [1, 2, 3, 4]}, tail="a", head="b", costs={"m": 1}, both_ways=True)
        with mock.patch.object(Graph, "tree", side_effect=AssertionError):
            isochrone = network.isochrone(["B", "E"], "m", [2, 4])
            self.assertEqual(isochrone.within(4), ["B", "E", "A", "C", "D"])
        self.assertIsInstance(isochrone.answer, Near)
        self.assertEqual([isochrone.source(place) for place in "ABCDE"], ["B", "B", "B", "E", "E"])
        self.assertEqual(isochrone.route("D").places, ["E", "D"])
        self.assertEqual(isochrone.tree, network.tree(["B", "E"], "m", "within", 4).tree)
        self.assertEqual(listed(network.isochrone("B", "m", [1]).tree), [[1, 0, NONE, NONE, NONE], [1, 0, 0, 0, 0], [2, 0, 0, 0, 0]])
        self.assertEqual(isochrone, pickle.loads(pickle.dumps(isochrone)))


class OtherWeights(unittest.TestCase):
    def test_the_same_arcs(self):
        for factored in (False, True):
            graph = Graph(5, ARCS)
            if factored:
                graph.factor()
            second = graph.with_weights([4, 1, 2, 1, 8, 0, 3])
            third = second.with_weights(iter(WEIGHTS))
            self.assertEqual([it.route(1, 4).value for it in (graph, second, third)], [8, 4, 8])
            self.assertEqual(list(map(int, second.table(1, [2, 3, 4])[0])), [3, 1, 4])
            self.assertEqual((second.vertices, second.arcs), (5, 7))
            graph.close()
            self.assertEqual(third.route(1, 4), Route(8, 3, [1, 3, 2, 4]))
            self.assertRaises(diffuse.Closed, graph.with_weights, WEIGHTS)

    def test_the_order_is_that_of_the_arcs(self):
        lot = random.Random(3)
        for _ in range(40):
            count, size = lot.randint(1, 12), lot.randint(0, 40)
            ends = [[lot.randint(1, count) for _ in range(size)] for _ in range(2)]
            weights = [[lot.randint(0, 20) for _ in range(size)] for _ in range(2)]
            first, fresh = (Graph.from_columns(*ends, column, vertices=count) for column in weights)
            first.factor()
            self.assertEqual(first.with_weights(weights[1]).tree(1), fresh.tree(1))

    def test_it_is_factored_as_the_first_is(self):
        """No graph is factored anew: that call is not made."""
        graph = Graph(5, ARCS)
        graph.factor()
        found = diffuse._handles.library()
        stub = mock.Mock(wraps=found)
        with mock.patch("diffuse._handles.library", return_value=stub):
            graph.with_weights(WEIGHTS).factor()
            stub.diffuse_graph_factor.assert_not_called()
            Graph(5, ARCS).with_weights(WEIGHTS).factor()
            stub.diffuse_graph_factor.assert_called_once()

    def test_refusals(self):
        graph = Graph(5, ARCS)
        self.assertRaisesRegex(diffuse.BadShape, "weights has 6 numbers, and the graph 7 arcs", graph.with_weights, WEIGHTS[1:])
        self.assertRaisesRegex(diffuse.OutOfRange, r"weights\[6\]: -1 is not from 0", graph.with_weights, [*WEIGHTS[1:], -1])
        self.assertRaisesRegex(diffuse.InputError, "does not keep its arcs", Graph.from_gr(FIVE_GR.encode()).with_weights, WEIGHTS)
        chain = Graph(65536, [(v, v + 1, 1) for v in range(1, 65536)])
        chain.factor()
        self.assertRaises(diffuse.TooHeavy, chain.with_weights, [2**32 - 1] * 65535)
        self.assertEqual(chain.route(1, 65536).value, 65535)


class OtherCosts(WithFiles):
    def test_traffic(self):
        """minutes of the roads of test_network: High Street 2.5, Tunnel and Bypass 1.5, Lane 0.7, Ring 4, Spur 10.25."""
        network = self.network()
        network.factor("minutes")
        network.factor("minutes", towards=True)
        jam = network.with_cost("minutes", [2.5, 9, 9, 0.7, 4, "10.25"])
        self.assertEqual([it.route("A", "C", by="minutes").cost for it in (network, jam)], [2.2, 3.2])
        self.assertEqual(jam.route("A", "C", by="minutes").cells("road"), ["High Street", "Lane"])
        self.assertEqual(jam.tree("C", by="minutes", towards=True).cost("A"), 3.2)
        self.assertEqual(jam.route("A", "B", by="euro").cost, 0)
        later = network.with_cost("later", [1, 1, 1, 1, 1, 1], like="minutes")
        self.assertEqual((later.route("A", "D", by="later").cost, later.route("A", "D", by="minutes").cost), (2, 12.45))
        self.assertEqual(network.with_cost("thirds", [1 / 3] * 6, 100, rounding=True).route("A", "D", by="thirds").cost, 0.66)

    def test_refusals(self):
        network = self.network()
        self.refused(diffuse.BadShape, "values has 1 numbers, and the network 6 roads", lambda: network.with_cost("minutes", [1]))
        self.refused_softly("values, row 5, column minutes: 1.001 times the scale 100 is not whole; take a larger scale, or rounding=True",
                            lambda: network.with_cost("minutes", [1, 1, 1, 1, 1, 1.001]))
        self.refused_softly("scale: 'new' is a new cost, which needs one, or the name of a cost that it is like", lambda: network.with_cost("new", [1] * 6))
        self.refused_softly("there is no cost 'hours'; there are minutes, euro, lanes", lambda: network.with_cost("new", [1] * 6, like="hours"))


if __name__ == "__main__":
    unittest.main()
