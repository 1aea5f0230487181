"""Maps that do not say what they seem to: gaps, barriers, access, limits; both readers alike. By hand.

At 0 degrees 0.001 degrees are 111.195 metres.
"""
import contextlib
import unittest
import warnings

import diffuse
from diffuse import Network
from diffuse.osm import limit_in, limit_of, said

from .test_map import osmium, without_osmium
from .test_network import WithFiles

READERS = (contextlib.nullcontext, without_osmium) if osmium else (without_osmium,)


def tags_of(tags):
    return "".join(f"<tag k='{key}' v='{value}'/>" for key, value in tags.items())


def node(number, lon, lat=0.0, **tags):
    return f"<node id='{number}' version='1' lat='{lat}' lon='{lon}'>{tags_of(tags)}</node>"


def way(number, nodes, tags=(), **more):
    refs = "".join(f"<nd ref='{node}'/>" for node in nodes)
    return f"<way id='{number}' version='1'>{refs}{tags_of({'highway': 'residential', **dict(tags), **more})}</way>"


def turn(number, ways, **tags):
    roles = "".join(f"<member type='way' ref='{way}' role='{role}'/>" for way, role in zip(ways, ("from", "to")))
    return f"<relation id='{number}' version='1'>{roles}{tags_of({'type': 'restriction', **tags})}</relation>"


class Maps(WithFiles):
    def each(self, *items, profile=diffuse.DRIVING, **words):
        """The network of a map by each reader; both are the same."""
        path = self.file("map.osm", "<osm version='0.6'>" + "".join(items) + "</osm>")
        found = []
        for reader in READERS:
            with reader():
                found.append(Network.read_osm(path, profile, **words))
        for network in found[1:]:
            self.assertEqual((network._roads.tails, network._roads.heads, network._roads.rows, network._roads.costs, network.coordinates, network.report),
                             (found[0]._roads.tails, found[0]._roads.heads, found[0]._roads.rows, found[0]._roads.costs, found[0].coordinates, found[0].report))
        return found[0]

    def refusals(self, *items, profile=diffuse.DRIVING):
        """What each reader says of a map."""
        path = self.file("map.osm", "".join(items))
        for reader in READERS:
            with reader(), self.assertRaises(diffuse.InputError) as caught:
                Network.read_osm(path, profile)
            yield str(caught.exception).replace(str(path), "map.osm")


class Reading(Maps):
    def test_ways_before_nodes(self):
        network = self.each(way(9, [1, 2]), node(1, 0), node(2, .001))
        self.assertEqual((network.route(1, 2, by="metres").cost, len(network.places)), (111.2, 2))

    def test_negative_numbers(self):
        network = self.each(node(-1, 0), node(-2, .001), way(-9, [-1, -2]))
        self.assertEqual(network.route(-1, -2, by="metres").cost, 111.2)

    def test_files_without_roads(self):
        for words in self.refusals("<osm version='0.6'>", node(1, 0), node(2, .001), way(9, [1, 2], highway="footway"), "</osm>"):
            self.assertIn("map.osm: no road for driving: of 0 ways of its classes", words)
        for words in self.refusals("<osm version='0.6'>", way(9, [1, 2]), "</osm>"):
            self.assertIn("of 1 ways of its classes, 0 are closed to it, 0 are left out by its filter, 1 lack nodes", words)
        for words in self.refusals("<html><body>no map</body></html>"):
            self.assertIn("map.osm: no map of OpenStreetMap", words)
        self.assertRaisesRegex(diffuse.InputError, "speeds: no class of road has one", diffuse.DRIVING.but, speeds={})
        self.assertRaisesRegex(diffuse.BadShape, "profile: a diffuse.Profile such as diffuse.DRIVING is needed", Network.read_osm, "/dev/null", {"primary": 5})

    def test_a_gap_ends_a_road(self):
        """Of 1, 2, 3, 4, 5 the file does not have 3: no road leads from 2 to 4."""
        items = [node(n, n / 1000) for n in (1, 2, 4, 5)]
        with self.assertWarnsRegex(diffuse.MapWarning, "1 nodes of 1 ways are not in the file"):
            network = self.each(*items, way(9, [1, 2, 3, 4, 5]), connected=False)
        self.assertEqual((network.places, network.report.gaps, network.report.missing), ([1, 2, 4, 5], 1, 1))
        self.assertRaisesRegex(diffuse.NoRoute, "no route leads from 1 to 5: from there 2 of 4 places are reached", network.route, 1, 5, "metres")
        with warnings.catch_warnings():
            warnings.simplefilter("error")
            self.each(*items, way(9, [1, 2]), way(10, [4, 5]))

    def test_progress(self):
        told = []
        items = [node(n, n / 1e6) for n in range(1, 100_001)]
        self.each(*items, way(9, [1, 2]), progress=lambda what, count: told.append((what, count)))
        self.assertIn(("nodes", 100_000), told)


class Access(Maps):
    def taken(self, tags, profile):
        """Whether a way with these tags is taken, beside one that is."""
        network = self.each(node(1, 0), node(2, .001), node(3, .002), way(9, [1, 2], highway="service"), way(10, [2, 3], tags), profile=profile)
        return 3 in network.places

    def test_tags(self):
        """The most special tag decides."""
        for tags, car, bicycle, walker in (
                ({}, 1, 1, 1), ({"access": "no"}, 0, 0, 0), ({"access": "private"}, 0, 0, 0), ({"access": "destination"}, 1, 1, 1),
                ({"motorcar": "no"}, 0, 1, 1), ({"motor_vehicle": "private"}, 0, 1, 1), ({"vehicle": "no"}, 0, 0, 1),
                ({"motor_vehicle": "agricultural"}, 0, 1, 1), ({"motor_vehicle": "agricultural;forestry"}, 0, 1, 1), ({"vehicle": "forestry"}, 0, 0, 1),
                ({"motor_vehicle": "agricultural;destination"}, 1, 1, 1),
                ({"access": "no", "motorcar": "yes"}, 1, 0, 0), ({"access": "no", "foot": "yes"}, 0, 0, 1), ({"vehicle": "no", "bicycle": "yes"}, 0, 1, 1),
                ({"vehicle": "yes", "motor_vehicle": "no"}, 0, 1, 1), ({"foot": "no"}, 1, 1, 0), ({"bicycle": "no"}, 1, 0, 1), ({"bicycle": "dismount"}, 1, 0, 1),
                ({"highway": "footway"}, 0, 0, 1), ({"highway": "footway", "bicycle": "yes"}, 0, 1, 1), ({"highway": "steps"}, 0, 0, 1)):
            found = [self.taken(tags, profile) for profile in (diffuse.DRIVING, diffuse.CYCLING, diffuse.WALKING)]
            self.assertEqual(found, [car, bicycle, walker], tags)

    def test_counts(self):
        network = self.each(node(1, 0), node(2, .001), node(3, .002), way(9, [1, 2]), way(10, [2, 3], motor_vehicle="agricultural"), way(11, [2, 3], access="no"))
        self.assertEqual((network.report.ways, network.report.closed), (1, 2))
        self.assertEqual(str(network.report), "driving: ways taken: 1\n  ways closed to it: 2")

    def test_a_filter_of_ones_own(self):
        lit = diffuse.WALKING.but(takes=lambda tags: tags.get("lit") != "no")
        network = self.each(node(1, 0), node(2, .001), node(3, .002), way(9, [1, 2], lit="yes"), way(10, [2, 3], lit="no"), profile=lit)
        self.assertEqual((network.places, network.report.left_out), ([1, 2], 1))
        self.assertRaisesRegex(diffuse.InputError, "a profile has no speed; it has name, speeds", diffuse.WALKING.but, speed=1)

    def test_barriers(self):
        """A bollard at 2, in the middle of one way: cars get to it from both sides, and not over it."""
        middle = way(9, [1, 2, 3])
        for tags, car, bicycle in (({"barrier": "bollard"}, 0, 1), ({"barrier": "gate"}, 1, 1), ({"barrier": "gate", "access": "private"}, 0, 0),
                                   ({"barrier": "bollard", "motor_vehicle": "yes"}, 1, 1), ({"barrier": "stile"}, 0, 0), ({"barrier": "lift_gate", "motorcar": "no"}, 0, 1)):
            for profile, passes in ((diffuse.DRIVING, car), (diffuse.CYCLING, bicycle), (diffuse.WALKING, tags.get("access") != "private")):
                network = self.each(node(1, 0), node(2, .001, **tags), node(3, .002), middle, profile=profile, connected=False)
                if passes:
                    self.assertEqual((network.route(1, 3, by="metres").cost, network.report.barriers), (222.4, 0), tags)
                else:
                    self.assertRaises(diffuse.NoRoute, network.route, 1, 3, "metres")
                    self.assertEqual((network.places, network.route(1, 2, by="metres").cost, network.route("2/2", 3, by="metres").cost), ([1, 2, "2/2", 3], 111.2, 111.2))
                    self.assertEqual(network.report.barriers, 1)

    def test_a_barrier_between_ways(self):
        network = self.each(node(1, 0), node(2, .001, barrier="bollard"), node(3, .002), way(9, [1, 2]), way(10, [2, 3]), connected=False)
        self.assertRaises(diffuse.NoRoute, network.route, 1, 3, "metres")


class Speeds(Maps):
    def test_limits(self):
        for word, wanted in (("50", 50), ("30 mph", 48.28032), ("30mph", 48.28032), ("walk", 7), ("none", None), ("DE:urban", 50), ("AT:rural", 100), ("DE:rural", 100),
                             ("CH:rural", 80), ("AT:zone30", 30), ("DE:zone:20", 20), ("FR:30", 30), ("10 knots", 18.52), ("fast", None), ("0", None), ("12.5", 12.5)):
            self.assertEqual(limit_in(word), wanted, word)
        self.assertEqual(limit_of({"maxspeed": "80;50"}), 50)
        self.assertEqual(limit_of({"source:maxspeed": "DE:urban"}), 50)
        self.assertEqual(limit_of({"source:maxspeed": "DE:urban", "maxspeed": "30"}), 30)
        self.assertIsNone(limit_of({}))
        self.assertIsNone(said({}, ("a",)))

    def test_a_limit_and_a_surface(self):
        """111.195 metres at 20, 48.28 and 30 km/h: the class says 50, the gravel 30."""
        for tags, seconds in (({}, 8.01), ({"maxspeed": "20"}, 20.02), ({"maxspeed": "30 mph"}, 8.29), ({"surface": "gravel"}, 13.34),
                              ({"surface": "gravel", "maxspeed": "20"}, 20.02), ({"maxspeed": "130"}, 8.01)):
            network = self.each(node(1, 0), node(2, .001), way(9, [1, 2], highway="tertiary", **tags))
            self.assertEqual(network.route(1, 2, by="seconds").cost, seconds, tags)
            self.assertEqual(self.each(node(1, 0), node(2, .001), way(9, [1, 2], tags), profile=diffuse.WALKING).route(1, 2, by="seconds").cost, 80.06)

    def test_a_road_ends_where_its_limit_changes(self):
        network = self.each(node(1, 0), node(2, .001), node(3, .002), way(9, [1, 2], maxspeed="20"), way(10, [2, 3]))
        self.assertEqual((network.places, network.route(1, 3, by="seconds").cells("speed")), ([1, 2, 3], [20, 30]))

    def test_limits_that_are_not_read_are_counted(self):
        network = self.each(node(1, 0), node(2, .001), way(9, [1, 2], maxspeed="RO:weird"), way(10, [2, 1], maxspeed="none"))
        self.assertEqual(network.report.limits, 1)

    def test_one_ways_of_cyclists(self):
        for tags, wanted in (({"oneway": "yes"}, 1), ({"oneway": "yes", "oneway:bicycle": "no"}, 0), ({"junction": "roundabout"}, 1)):
            self.assertEqual((diffuse.CYCLING.direction(tags), diffuse.WALKING.direction(tags)), (wanted, 0))


class Turns(Maps):
    def test_they_are_counted(self):
        """Of six one is for buses alone, one is about a way that is not taken, and one is no restriction of turns."""
        items = [node(1, 0), node(2, .001), node(3, .002), way(9, [1, 2]), way(10, [2, 3]), way(11, [2, 3], access="no"),
                 turn(1, [9, 10], restriction="no_left_turn"), turn(2, [9, 10], **{"restriction:motorcar": "no_u_turn"}),
                 turn(3, [9, 10], **{"restriction:bus": "no_u_turn"}), turn(4, [9, 11], restriction="only_straight_on"),
                 turn(5, [9, 10], restriction="no_left_turn", **{"except": "bicycle;psv"}), turn(6, [9, 10], type="route")]
        self.assertEqual(self.each(*items).report.turns, 3)
        self.assertEqual(self.each(*items, profile=diffuse.CYCLING).report.turns, 1)
        self.assertEqual(self.each(*items, profile=diffuse.WALKING).report.turns, 0)
        self.assertIn("\n  turn restrictions not heeded: 3", str(self.each(*items).report))


if __name__ == "__main__":
    unittest.main()
