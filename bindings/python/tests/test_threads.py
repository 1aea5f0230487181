"""Threads that ask one graph at once."""
import sys
import threading
import time
import unittest
from concurrent.futures import ThreadPoolExecutor

import diffuse
from diffuse import Graph

from .examples import ARCS, listed

PATIENCE = 600


def grid(side):
    """A square of streets both ways, with weights from 1 to 9."""
    pairs = [(v, v + step) for v in range(1, side * side + 1) for step in (1, side) if v + step <= side * side and (step > 1 or v % side)]
    tails, heads = zip(*(ends for a, b in pairs for ends in ((a, b), (b, a))))
    return Graph.from_columns(tails, heads, [1 + (7 * a + 3 * b) % 9 for a, b in zip(tails, heads)], side * side)


class Threads(unittest.TestCase):
    def test_another_thread_runs_during_a_call(self):
        """With a switch interval of an hour a thread is only left when it lets go of the interpreter's lock by itself. The
        asking thread never does so outside the call, and asks again until this one has seen it inside."""
        graph, inside, seen = grid(120), [False], threading.Event()
        deadline = time.monotonic() + PATIENCE

        def ask():
            while not seen.is_set() and time.monotonic() < deadline:
                inside[0] = True
                graph.tree(1)
                inside[0] = False

        usual = sys.getswitchinterval()
        sys.setswitchinterval(3600)
        try:
            asking = threading.Thread(target=ask)
            asking.start()
            while not inside[0] and asking.is_alive():
                time.sleep(0)
            found = inside[0]
            seen.set()
            asking.join()
        finally:
            sys.setswitchinterval(usual)
        self.assertTrue(found)

    def test_answers_are_the_same_from_many_threads(self):
        graph = grid(20)
        wanted = {source: listed(graph.tree(source)) for source in range(1, 41)}
        with ThreadPoolExecutor(8) as pool:
            found = list(pool.map(lambda place: (1 + place % 40, listed(graph.tree(1 + place % 40))), range(400)))
            routes = list(pool.map(lambda target: graph.route(1, target), range(1, 401)))
        self.assertTrue(all(wanted[source] == tree for source, tree in found))
        self.assertEqual([route.value for route in routes], wanted[1][0])

    def test_factoring_while_others_ask(self):
        graph = grid(20)
        wanted = {source: listed(graph.tree(source)) for source in range(1, 41)}
        with ThreadPoolExecutor(8) as pool:
            factoring = [pool.submit(graph.factor, algebra) for algebra in ("shortest", "hops")]
            found = list(pool.map(lambda place: (1 + place % 40, listed(graph.tree(1 + place % 40))), range(200)))
        for future in factoring:
            future.result()
        found += [(source, listed(graph.tree(source))) for source in wanted]
        self.assertTrue(all(wanted[source] == tree for source, tree in found))
        self.assertEqual(graph._handles.pool.factored, {diffuse.Algebra.SHORTEST, diffuse.Algebra.HOPS})

    def test_closing_while_others_ask(self):
        for _ in range(20):
            graph, ends = grid(10), []

            def ask():
                try:
                    while True:
                        graph.tree(1)
                except diffuse.Closed:
                    ends.append("closed")

            threads = [threading.Thread(target=ask) for _ in range(4)]
            for thread in threads:
                thread.start()
            graph.close()
            for thread in threads:
                thread.join(PATIENCE)
            self.assertEqual(ends, ["closed"] * 4)

    def test_a_handle_is_used_by_one_call_at_a_time(self):
        graph = Graph(5, ARCS)
        used = []

        def nested(one):
            graph._handles.ask(lambda another: used.extend((one, another)) or 0, None, False)
            return 0

        graph._handles.ask(nested, None, False)
        self.assertIsNot(*used)
        self.assertNotEqual(*(handle._as_parameter_.contents.at for handle in used))
        graph._handles.ask(lambda again: used.append(again) or 0, None, False)
        self.assertIn(used[2], used[:2])


if __name__ == "__main__":
    unittest.main()
