"""Trees, routes and tables from a graph that is kept in memory: libdiffuse beside the plain program, Boost and LEMON as libraries.

    python3 benchmarks/library.py --prefix PREFIX [--rounds N] [--small]      PREFIX is where examples/c/install put the library
    python3 benchmarks/library.py --prefix PREFIX --map MAP.osm.pbf           what the Python package's Network adds to its Graph

All of them answer in one run of library.cpp. A ratio is what one took for one that the plain program took. Boost and LEMON
(Debian: libboost-graph-dev, liblemon-dev) are measured if they are installed; they find no least hops or parents.
"""
import argparse
import os
import random
import statistics
import subprocess
import sys
import time

sys.dont_write_bytecode = True

import inputs
from inputs import NEAR_PAIRS, THOUSAND_PAIRS, Rivers, Roads, compiler, note, stop
from report import Table, ratio, seconds, spread

SIZES = [("New York's size", (264346, 733846)), ("Florida's size", (1070376, 2712798))]
LIBRARY, FACTORED, BASELINE = "libdiffuse", "libdiffuse with factors", "baseline"
TREE, ROUTE, NEAR_ROUTES, TABLE = range(4)
ENDS = 100

# What is aimed at for the C library, to the baseline: a tree, a route, and a graph that is kept.
TREE_AIM, ROUTE_AIM, GRAPH_AIM = 1.05, 1.05, 1.2

# With factors, by graph: a route, a tree, and order and build in routes of the baseline. And for all: bytes of factors a vertex,
# and a table of a hundred by a hundred to as many routes of the baseline.
FACTOR_AIMS = {"New York's size": (1 / 25, 1 / 2.5, 60), "New York's size with rivers": (1 / 70, 1 / 2.5, 60),
               "Florida's size": (1 / 70, 1 / 3, 35), "Florida's size with rivers": (1 / 150, 1 / 3, 35)}
BYTES_AIM, TABLE_AIM = 160, 1 / 1000


# And for the Python package: what Network takes for what Graph takes, and microseconds a point.
NETWORK_AIMS = {"a far route": 1.5, "a table of 300 by 300": 1.3, "a cost in place of another, to factors anew": 1, "nearest": 10}


class Measured:
    """What library.cpp reports of one library: bytes of its graph and factors, and seconds; for each kind of answer a check number."""

    def __init__(self, line):
        self.name, graph, factors, opening, factoring, *kinds = line.split(",")
        self.bytes, self.factor_bytes, self.checks = int(graph), int(factors), kinds[::2]
        self.opening, self.factoring = float(opening) / 1e6, float(factoring) / 1e6
        self.rounds = [[float(it) / 1e6 for it in times.split()] for times in kinds[1::2]]
        self.times = [statistics.median(rounds) if rounds else 0 for rounds in self.rounds]


class Library:
    """All libraries on one graph."""

    def __init__(self, graph, peers):
        self.name, self.vertices, self.peers = graph.name, graph.vertices, {peer.name: peer for peer in peers}

    @staticmethod
    def measured(folder, programs, rounds, small):
        """Each graph with what all libraries took there."""
        found = []
        for name, (vertices, arcs) in SIZES:
            for maker in (Roads, Rivers):
                graph = maker(name, (vertices // 100, arcs // 200 * 2) if small else (vertices, arcs))
                for kind in (THOUSAND_PAIRS, NEAR_PAIRS):
                    graph.make(folder, programs, kind)
                note("libraries: " + graph.name)
                found.append(Library(graph, peers_of(programs["library"], graph, rounds)))
        return found

    def ratios(self, name, kind):
        """What a library took for one that the baseline took for the same answer, in each round."""
        return [one / other for one, other in zip(self.peers[name].rounds[kind], self.peers[BASELINE].rounds[kind])]

    def in_routes(self, seconds):
        """How many routes of the baseline take so long, by the route of each round."""
        return [seconds / route for route in self.peers[BASELINE].rounds[ROUTE]]

    def aims(self):
        ours, theirs, factored = (self.peers[name] for name in (LIBRARY, BASELINE, FACTORED))
        title = "%s, C library" % self.name
        route, tree, routes = FACTOR_AIMS[self.name]
        each = [table / ENDS ** 2 for table in factored.rounds[TABLE]]
        return [(title, "a tree, to the baseline", TREE_AIM, self.ratios(LIBRARY, TREE)),
                (title, "a route, to the baseline", ROUTE_AIM, self.ratios(LIBRARY, ROUTE)),
                (title, "memory of a graph, to the baseline", GRAPH_AIM, [ours.bytes / theirs.bytes]),
                (title, "a route with factors, to the baseline", route, self.ratios(FACTORED, ROUTE)),
                (title, "a tree with factors, to the baseline", tree, self.ratios(FACTORED, TREE)),
                (title, "order and build, in routes of the baseline", routes, self.in_routes(factored.factoring)),
                (title, "factors, bytes a vertex", BYTES_AIM, [factored.factor_bytes / self.vertices]),
                (title, "a table with factors, to its routes by the baseline", TABLE_AIM, [time / theirs.times[ROUTE] for time in each])]


def build(folder, prefix):
    """Compiles library.cpp against the installed library."""
    path = os.path.join(folder, "library")
    source, archive = os.path.join(inputs.HERE, "library.cpp"), os.path.join(prefix, "lib", "libdiffuse.a")
    words = [compiler(), "-O2", "-std=c++17", "-I", os.path.join(prefix, "include"), "-o", path, source, archive]
    subprocess.run(words + (["-llemon"] if os.path.exists("/usr/include/lemon") else []), check=True)
    return path


def peers_of(program, graph, rounds):
    """What each library took. Their answers of each kind must be equal, if they have some."""
    words = [program, graph.graph, graph.questions[THOUSAND_PAIRS], graph.questions[NEAR_PAIRS], str(rounds)]
    peers = [Measured(line) for line in subprocess.run(words, stdout=subprocess.PIPE, text=True, check=True).stdout.splitlines()]
    for kind in range(4):
        if len({peer.checks[kind] for peer in peers if peer.times[kind]}) > 1:
            stop("libraries find different distances over %s: %s" % (graph.name, "; ".join(peer.name for peer in peers)))
    return peers


def library_of(found):
    """Processor time, medians over the rounds, and bytes."""
    table = Table("Libraries, a graph that is kept: ratios as median (quartiles)", ["Graph", "Library", "Open", "Tree", "Ratio", "Route", "Ratio", "100 near routes", "Ratio", "Graph, MB", "Ratio"])
    for one in found:
        baseline = one.peers[BASELINE]
        for peer in one.peers.values():
            row = [one.name, peer.name, seconds(peer.opening)]
            for kind in (TREE, ROUTE, NEAR_ROUTES):
                row += [seconds(peer.times[kind]), spread(one.ratios(peer.name, kind))] if peer.times[kind] else ["", ""]
            table.rows.append(row + ["%.1f" % (peer.bytes / 1e6), ratio(peer.bytes / baseline.bytes)])
    return table


def factors_of(found):
    """What factors take in the C library, and after how many routes they have paid for themselves; and tables."""
    table = Table("Factors in the C library", ["Graph", "Order and build", "in routes of the baseline", "Bytes a vertex", "Pays after routes",
                                               "Table of 100 by 100", "without factors", "of the baseline, by trees"])
    for one in found:
        plain, factored = one.peers[LIBRARY], one.peers[FACTORED]
        saved = plain.times[ROUTE] - factored.times[ROUTE]
        table.rows.append([one.name, seconds(factored.factoring), spread(one.in_routes(factored.factoring)), "%.0f" % (factored.factor_bytes / one.vertices),
                           "%.0f" % (factored.factoring / saved) if saved > 0 else "never"]
                          + [seconds(peer.times[TABLE]) for peer in (factored, plain, one.peers[BASELINE])])
    return table


def least(calls, rounds):
    """The least wall-clock time of each of some calls, which take turns."""
    found = [float("inf")] * len(calls)
    for _ in range(rounds):
        for place, call in enumerate(calls):
            begin = time.perf_counter()
            call()
            found[place] = min(found[place], time.perf_counter() - begin)
    return found


def network_of(path, prefix, rounds):
    """What the Python package's Network takes for what its Graph takes, over a map with all its nodes, factored; and its nearest places."""
    os.environ["DIFFUSE_LIBRARY"] = os.path.join(prefix, "lib", "libdiffuse.so")
    sys.path.insert(0, os.path.join(inputs.HERE, "..", "bindings", "python", "src"))
    from diffuse import Graph, Network

    network, lot = Network.read_osm(path, simplify=False), random.Random(1)
    roads, weights = network._roads, network._roads.costs["seconds"].weights
    columns = roads.tails, roads.heads, weights, len(network.places)
    graph = Graph.from_columns(*columns)
    graph.factor()
    network.factor("seconds")
    pairs = [lot.choices(network.places, k=2) for _ in range(20)]
    ends = [[network.vertex(place) for place in pair] for pair in pairs]
    many, values = lot.choices(network.places, k=300), [round(cell, 2) for cell in roads.table.column("seconds")]
    rows, points = [network.vertex(place) for place in many], lot.choices(list(network.coordinates.points.values()), k=5000)
    network.nearest(points[:1])
    route, named = least([lambda: [graph.route(*pair) for pair in ends], lambda: [network.route(*pair, by="seconds") for pair in pairs]], 20 * rounds)
    table, numbers = least([lambda: graph.table(rows, rows), lambda: network.table(many, many, by="seconds").to_numpy()], rounds)
    anew, other = least([lambda: Graph.from_columns(*columns).factor(), lambda: network.with_cost("seconds", values, rounding=True)], rounds)
    (near,) = least([lambda: network.nearest(points)], rounds)
    found = [named / route, numbers / table, other / anew, near / len(points) * 1e6]
    table = Table("The Python package over %s" % os.path.basename(path), ["Question", "Network to Graph, or microseconds", "Aim"])
    table.rows = [[question, "%.2f" % value, str(aim)] for (question, aim), value in zip(NETWORK_AIMS.items(), found)]
    return table


def main():
    parser = argparse.ArgumentParser(description=__doc__, formatter_class=argparse.RawDescriptionHelpFormatter)
    parser.add_argument("--prefix", required=True)
    parser.add_argument("--rounds", type=int, default=21)
    parser.add_argument("--small", action="store_true", help="all sizes divided by 100: a trial of this script")
    parser.add_argument("--out", default=os.path.join(inputs.HERE, "out"))
    parser.add_argument("--map", help="a map of OpenStreetMap: measure the Python package over it instead")
    words = parser.parse_args()
    if words.map:
        print(network_of(words.map, words.prefix, words.rounds).markdown())
        return
    folder = os.path.join(words.out, "bin")
    found = Library.measured(words.out, {**inputs.build(folder), "library": build(folder, words.prefix)}, words.rounds, words.small)
    print(library_of(found).markdown() + "\n\n" + factors_of(found).markdown())


if __name__ == "__main__":
    main()
