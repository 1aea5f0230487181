"""`python3 -m diffuse roads`: the files that it writes, by hand and beside the network."""
import contextlib
import io
import unittest

from diffuse import Network
from diffuse.__main__ import main

from .test_map import ISLAND
from .test_network import WithFiles
from .test_profiles import node, turn, way


class Command(WithFiles):
    def run_on(self, *words):
        """The exit status, and what is written to both outputs."""
        out, err = io.StringIO(), io.StringIO()
        with contextlib.redirect_stdout(out), contextlib.redirect_stderr(err):
            status = main(["roads", *map(str, words)])
        return status, out.getvalue(), err.getvalue()

    def text(self, name):
        with open(f"{self._room.name}/{name}", encoding="utf-8") as file:
            return [line.rstrip("\n") for line in file if not line.startswith("c ")]

    def test_by_hand(self):
        """Two units of a residential road both ways, each 13.343 seconds and 111.195 metres, one of a one-way road without a name."""
        items = [node(1, 0), node(2, .001), node(3, .002), way(9, [1, 2, 3], name="Coast  Road"), way(10, [3, 1], oneway="yes"),
                 way(11, [2, 3], access="no"), turn(1, [9, 10], restriction="no_left_turn")]
        path, into = self.file("map.osm", "<osm version='0.6'>" + "".join(items) + "</osm>"), f"{self._room.name}/town"
        status, out, err = self.run_on(path, into)
        self.assertEqual((status, err), (0, ""))
        self.assertEqual(out.split("\n"), ["driving: ways taken: 2", "  ways closed to it: 1", "  turn restrictions not heeded: 1",
                                           f"{into}.gr: 3 vertices, 5 arcs", ""])
        self.assertEqual(self.text("town.gr"), ["p sp 3 5", "a 1 2 1334", "a 2 1 1334", "a 2 3 1334", "a 3 2 1334", "a 3 1 2669"])
        self.assertEqual(self.text("town.m.gr"), ["p sp 3 5", "a 1 2 111", "a 2 1 111", "a 2 3 111", "a 3 2 111", "a 3 1 222"])
        self.assertEqual(self.text("town.co"), ["p aux sp co 3", "v 1 0 0", "v 2 1000 0", "v 3 2000 0"])
        self.assertEqual(self.text("town.names"), ["1 Coast Road", "2 Coast Road", "3 Coast Road", "4 Coast Road"])

    def test_the_same_graph_as_that_of_the_network(self):
        into = f"{self._room.name}/island"
        for more, words in ((["--crossings"], {}), ([], {"simplify": False})):
            self.assertEqual(self.run_on(ISLAND, into, *more)[0], 0)
            network, again = Network.read_osm(ISLAND, **words), Network.read_dimacs(f"{into}.gr", f"{into}.co")
            ends = [network.vertex(place) for place in (1, 13)]
            self.assertEqual(again.route(*ends, by="weight").route.value, network.route(1, 13, by="seconds").route.value)
            self.assertEqual(again.coordinates.points[ends[1]], (0.008, 0.004))

    def test_what_is_refused(self):
        status, out, err = self.run_on(self.file("map.osm", "<osm version='0.6'></osm>"), f"{self._room.name}/town")
        self.assertEqual((status, out), (2, ""))
        self.assertIn("no road for driving", err)
        self.assertEqual(self.run_on("/nowhere/map.osm", "/nowhere/town")[0], 2)


if __name__ == "__main__":
    unittest.main()
