"""Random graphs in all algebras, beside networkx and the definitions of docs/WORDS.md."""
import random
import unittest

import diffuse
from diffuse import Graph

from .examples import NONE, listed, networkx

GRAPHS = 150
LIMIT = 15


def random_arcs(lot):
    n = lot.randint(1, 14)
    arcs = [(lot.randint(1, n), lot.randint(1, n), lot.choice([0, lot.randint(0, 12), lot.randint(0, 3)])) for _ in range(lot.randint(0, 3 * n))]
    return n, arcs


def multigraph(n, arcs):
    graph = networkx.MultiDiGraph()
    graph.add_nodes_from(range(1, n + 1))
    graph.add_weighted_edges_from(arcs)
    return graph


def sums(graph, sources):
    return networkx.multi_source_dijkstra_path_length(graph, set(sources))


def hops(graph, sources):
    flat = networkx.DiGraph(graph)
    return networkx.multi_source_dijkstra_path_length(flat, set(sources), weight=lambda *_arc: 1)


def reached(graph, sources):
    return {v: 0 for s in sources for v in networkx.descendants(graph, s) | {s}}


def widths(graph, sources):
    """The greatest weight w such that arcs of at least w lead there."""
    found = {}
    for w in sorted({w for _, _, w in graph.edges(data="weight")}):
        wide = multigraph(0, [arc for arc in graph.edges(data="weight") if arc[2] >= w])
        found.update({v: w for s in sources if s in wide for v in networkx.descendants(wide, s)})
    return {**found, **{s: 2**32 for s in sources}}


def chances(graph, sources):
    """By rounds over all arcs until nothing is better: in parts of 10^12, rounded down at each arc."""
    found = {s: 10**12 for s in sources}
    for _ in graph:
        for u, v, w in graph.edges(data="weight"):
            if u in found:
                found[v] = max(found.get(v, 0), found[u] * min(w, 10**6) // 10**6)
    return found


def within(graph, sources):
    return {v: value for v, value in sums(graph, sources).items() if value <= LIMIT}


EXTEND = {
    "shortest": lambda v, w: v + w, "widest": min, "reach": lambda v, w: 0, "hops": lambda v, w: v + 1,
    "reliable": lambda v, w: v * min(w, 10**6) // 10**6, "within": lambda v, w: v + w,
}
BEST = {"shortest": sums, "widest": widths, "reach": reached, "hops": hops, "reliable": chances, "within": within}


def tree_by_definition(graph, sources, algebra):
    """Best values from networkx; least hops over tight arcs; of the tails of tight arcs with one hop less the least."""
    best = BEST[algebra](graph, sources)
    tight = networkx.DiGraph()
    tight.add_nodes_from(best)
    tight.add_edges_from((u, v) for u, v, w in graph.edges(data="weight") if u in best and v in best and EXTEND[algebra](best[u], w) == best[v])
    least = networkx.multi_source_dijkstra_path_length(tight, set(sources), weight=lambda *_arc: 1)
    parents = {v: min((u for u in tight.predecessors(v) if least[u] + 1 == least[v]), default=0) for v in best}
    places = range(1, len(graph) + 1)
    return [[best.get(v, NONE) for v in places], [least.get(v, 0) for v in places], [parents.get(v, 0) for v in places]]


@unittest.skipUnless(networkx, "networkx is not installed")
class RandomGraphs(unittest.TestCase):
    def compare(self, algebra):
        limit = LIMIT if algebra == "within" else None
        for seed in range(GRAPHS):
            lot = random.Random(seed)
            n, arcs = random_arcs(lot)
            if algebra == "reliable":
                arcs = [(u, v, w * 90001) for u, v, w in arcs]
            graph, sources = Graph(n, arcs), [lot.randint(1, n) for _ in range(lot.randint(1, 3))]
            with self.subTest(algebra=algebra, seed=seed):
                wanted = tree_by_definition(multigraph(n, arcs), sources, algebra)
                tree = graph.tree(sources, algebra, limit)
                self.assertEqual(listed(tree), wanted)
                graph.check(tree)
                alone = graph.tree(sources[0], algebra, limit)
                for v in range(1, n + 1):
                    if alone.reaches(v):
                        self.assertEqual(graph.route(sources[0], v, algebra, limit), alone.route(v))
                    else:
                        self.assertRaises(diffuse.NoRoute, graph.route, sources[0], v, algebra, limit)

    def test_shortest(self):
        self.compare("shortest")

    def test_widest(self):
        self.compare("widest")

    def test_reach(self):
        self.compare("reach")

    def test_hops(self):
        self.compare("hops")

    def test_reliable(self):
        self.compare("reliable")

    def test_within(self):
        self.compare("within")


if __name__ == "__main__":
    unittest.main()
