"""Answers and refusals in other processes: pickling, forks; and copies and equality."""
import copy
import gc
import multiprocessing
import os
import pickle
import signal
import threading
import time
import unittest
from unittest import mock

import diffuse
from diffuse import Graph, Network, Tree
from diffuse._library import Handle
from diffuse.errors import BY_STATUS

from .examples import ARCS, listed
from .test_network import WithFiles

PATIENCE = 600


def check_a_wrong_tree(_):
    """What a worker is asked to do."""
    Graph(5, ARCS).check(Tree([0] * 5, [0] * 5, [0] * 5, [1]))


def again(thing):
    return pickle.loads(pickle.dumps(thing))


class Pickles(WithFiles):
    def test_exceptions(self):
        for kind in {*BY_STATUS.values(), diffuse.DiffuseError, diffuse.InputError, diffuse.BadShape, diffuse.NotFactored}:
            error = kind(3, 2) if kind is diffuse.WrongTree else kind("line 5: wrong", 5) if issubclass(kind, diffuse.TextFault) else kind("wrong")
            found = again(error)
            self.assertEqual((type(found), str(found), vars(found), found.as_dict()), (kind, str(error), vars(error), error.as_dict()))

    def test_a_refusal_of_a_worker_is_raised(self):
        with multiprocessing.get_context("fork").Pool(1) as pool:
            with self.assertRaises(diffuse.WrongTree) as caught:
                pool.apply_async(check_a_wrong_tree, [None]).get(PATIENCE)
        self.assertEqual((caught.exception.vertex, caught.exception.reason), (2, diffuse.Reason.NO_PARENT))

    def test_answers(self):
        network = self.network()
        tree, near = network.tree(["A", "D"], by="minutes"), network.isochrone("A", by="minutes", limits=[2, 3])
        for answer in (Graph(5, ARCS).tree(1), Graph(5, ARCS).route(1, 4), tree, near, network.route("A", "D", by="minutes"), tree.route("C"),
                       network.table("A", ["B", "Island"], by="minutes")):
            self.assertEqual(again(answer), answer)
        self.assertEqual((again(tree).cost("C"), again(near).band("C")), (2.2, 3))
        self.assertEqual(again(network).route("A", "D", by="minutes"), network.route("A", "D", by="minutes"))

    def test_a_route_brings_its_own_roads(self):
        route = again(self.network().route("B", "D", by="minutes"))
        self.assertEqual(list(route.network.places), ["B", "C", "D"])
        self.assertEqual((route.cells("road"), route.cost, route.total("euro"), str(route)), (["Lane", "Spur"], 10.95, 0, "B - C - D: 10.95 minutes"))
        self.assertEqual(route.network.coordinates.points, {"B": (10.01, 50), "C": (10.01, 50.01), "D": (10.02, 50.01)})
        back = again(self.network().tree("C", by="minutes", towards=True).route("A"))
        self.assertEqual((back.places, back.cells("road")), (["A", "B", "C"], ["Tunnel", "Lane"]))

    def test_a_graph_says_what_to_do(self):
        self.assertRaisesRegex(TypeError, "a Graph can't be pickled, since it is memory of the C library: read it in each process, or fork", pickle.dumps, Graph(5, ARCS))


class Copies(WithFiles):
    def test_a_copy_is_closed_by_itself(self):
        for made in (copy.copy, copy.deepcopy):
            graph = Graph(5, ARCS)
            graph.factor()
            second = made(graph)
            graph.close()
            del graph
            gc.collect()
            self.assertEqual((second.route(1, 4).value, second.vertices, second.arcs), (8, 5, 7))
            second.close()
            self.assertRaises(diffuse.Closed, second.route, 1, 4)
            self.assertRaises(diffuse.Closed, made, second)

    def test_copies_of_networks_and_answers(self):
        network = self.network()
        route, tree = network.route("A", "C", by="minutes"), network.tree("A", by="minutes")
        for made in (copy.copy, copy.deepcopy):
            self.assertEqual(made(network).route("A", "C", by="minutes"), route)
            self.assertEqual((made(route), made(tree)), (route, tree))
            self.assertIs(made(route).network, network)

    def test_equality(self):
        graph, network = Graph(5, ARCS), self.network()
        self.assertEqual(graph.tree([1, 4]), graph.tree([4, 1, 4]))
        self.assertEqual(graph.tree(1), Tree([0, 3, 1, 8, diffuse.UNREACHED], [0, 2, 1, 3, 0], [0, 3, 1, 2, 0], [1]))
        self.assertNotEqual(graph.tree(1), graph.tree(3))
        self.assertNotEqual(graph.tree(1, "reach"), graph.tree(1))
        self.assertNotEqual(graph.tree(1), Tree([0], [0], [0], [1]))
        self.assertNotEqual(graph.tree(1), 1)
        self.assertEqual(network.tree("A", by="minutes"), self.network().tree("A", by="minutes"))
        self.assertNotEqual(network.tree("A", by="minutes"), network.tree("A", by="euro"))
        self.assertEqual(network.isochrone("A", "minutes", [2, 3]), network.isochrone("A", "minutes", [3, 2]))
        self.assertNotEqual(network.isochrone("A", "minutes", [2, 3]), network.isochrone("A", "minutes", [1, 3]))
        self.assertEqual(network.route("A", "B", by="minutes"), self.network().route("A", "B", by="minutes"))
        self.assertNotEqual(network.route("A", "B", by="minutes"), network.route("A", "B", by="euro"))


class Forks(unittest.TestCase):
    def child(self, work):
        """The status of a forked child that works, or -SIGALRM if it hangs."""
        pid = os.fork()
        if not pid:
            signal.alarm(PATIENCE)
            try:
                os._exit(0 if work() else 1)
            finally:
                os._exit(2)
        return os.waitstatus_to_exitcode(os.waitpid(pid, 0)[1])

    def test_a_fork_while_another_thread_holds_a_lock(self):
        graph = Graph(5, ARCS)
        for lock in (graph._handles._lock, graph._handles._factoring):
            taken = threading.Event()

            def hold():
                with lock:
                    taken.set()
                    time.sleep(0.3)

            thread = threading.Thread(target=hold)
            thread.start()
            taken.wait(PATIENCE)
            self.assertEqual(self.child(lambda: graph.factor() is None and graph.route(1, 4).value == 8), 0)
            thread.join(PATIENCE)
            self.assertEqual(graph.route(1, 4).value, 8)

    def test_a_fork_while_a_network_makes_its_graph(self):
        network = Network.from_table({"a": ["A"], "b": ["B"], "m": [1]}, tail="a", head="b", costs={"m": 1})
        begun = threading.Event()

        def slowly(*words, **more):
            begun.set()
            time.sleep(0.5)
            return Graph(2, [(1, 2, 1)])

        with mock.patch("diffuse.network.Graph.from_columns", side_effect=slowly):
            thread = threading.Thread(target=lambda: network.graph("m"))
            thread.start()
            begun.wait(PATIENCE)
        self.assertEqual(self.child(lambda: network.route("A", "B", by="m").cost == 1), 0)
        thread.join(PATIENCE)

    def test_threads_that_fork_at_once(self):
        graphs, found = [Graph(5, ARCS) for _ in range(50)], []

        def fork():
            for _ in range(5):
                found.append(self.child(lambda: all(graph.route(1, 4).value == 8 for graph in graphs)))

        threads = [threading.Thread(target=fork) for _ in range(4)]
        for thread in threads:
            thread.start()
        for thread in threads:
            thread.join(PATIENCE)
        self.assertEqual(found, [0] * 20)
        self.assertEqual([graph.route(1, 4).value for graph in graphs], [8] * 50)

    def test_forks_while_threads_make_their_first_calls(self):
        wanted = listed(Graph(5, ARCS).tree(1))
        for _ in range(20):
            graph = Graph(5, ARCS)
            threads = [threading.Thread(target=lambda: [graph.tree(1) for _ in range(50)]) for _ in range(6)]
            for thread in threads:
                thread.start()
            self.assertEqual(self.child(lambda: listed(graph.tree(1)) == wanted), 0)
            for thread in threads:
                thread.join(PATIENCE)


class Factoring(unittest.TestCase):
    def test_again_is_nothing(self):
        graph, found = Graph(5, ARCS), diffuse._handles.library()
        stub = mock.Mock(wraps=found)
        with mock.patch("diffuse._handles.library", return_value=stub):
            for algebra in ("shortest", "within", "hops", "shortest"):
                graph.factor(algebra)
        self.assertEqual(stub.diffuse_graph_factor.call_count, 2)

    def test_no_handles_are_left(self):
        graph, refused = Graph(5, ARCS), Graph(200, [(v, w, 1) for v in range(1, 201) for w in range(1, 201)])

        def ask():
            for _ in range(30):
                graph.factor()
                graph.factor("hops")
                self.assertRaises(diffuse.TooDense, refused.factor)
            gc.collect()
            return sum(isinstance(thing, Handle) for thing in gc.get_objects())

        self.assertEqual(ask(), ask())


if __name__ == "__main__":
    unittest.main()
