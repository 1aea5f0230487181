"""Roads of a map of OpenStreetMap: which ways a profile takes, and its roads between crossings."""
from __future__ import annotations

import bz2
import gzip
import os
import re
import warnings
import zlib
from array import array
from collections import defaultdict, deque
from dataclasses import dataclass, field, fields, replace
from typing import Any, Callable, Hashable, Iterable, Iterator, Mapping, Optional, Sequence
from xml.etree import ElementTree

from .columns import MOST_32
from .errors import BadShape, InputError, MapWarning, OutOfRange, shown
from .geometry import Point, length
from .roads import MOST_DEGREES, Coordinates, Cost, Roads, numbered
from .tables import EVERY, Progress, Table, positive

Tags = Mapping[str, str]
Kind = tuple[Optional[str], Optional[str], str, bool, float]
"""The name, ref and class of a road, whether it is one-way, and its speed."""
SCALES = {"seconds": 100, "metres": 10}

_OPENERS: Mapping[str, Callable[[Any, str], Any]] = {
    ".osm": open, ".gz": gzip.open, ".bz2": bz2.open}
_YES, _BACK, _NO = {"yes", "true", "1"}, {"-1", "reverse"}, {"no", "false", "0"}
_OPEN = {"yes", "designated", "permissive", "official"}

CLOSED = frozenset({
    "no", "private", "agricultural", "forestry", "delivery", "military", "emergency", "restricted",
    "psv", "bus", "dismount", "use_sidepath",
})
"""Values of access tags that close a way."""

LIMITS: Mapping[str, float] = {
    "walk": 7, "urban": 50, "living_street": 20, "bicycle_road": 30, "nsl_restricted": 48,
    "nsl_single": 97, "nsl_dual": 113, "AT:rural": 100, "CH:rural": 80, "DE:rural": 100,
    "FR:rural": 80, "IT:rural": 90, "LI:rural": 80,
}
"""Kilometres an hour by the words of `maxspeed`, with or without their country."""
_NO_LIMIT = {"none", "rural", "motorway", "trunk", "signals", "variable"}
_UNITS = {"": 1.0, "km/h": 1.0, "kmh": 1.0, "kph": 1.0, "mph": 1.609344, "knots": 1.852}


@dataclass(frozen=True)
class Profile:
    """Who travels: which ways of OpenStreetMap are taken, how fast, and what closes them.

    A profile is data: `diffuse.DRIVING`, `diffuse.CYCLING` and `diffuse.WALKING` are three, and
    `diffuse.DRIVING.but(speeds={**diffuse.DRIVING.speeds, "track": 5})` is another one.

    Parameters
    ----------
    name : str
    speeds : mapping from str to number
        Kilometres an hour by class of road (`highway`); other classes are not taken.
    access : tuple of str
        The tags that say who may go, the most special one last, which decides.
    closed : set of str
        The values of these tags that close a way, or a node with a `barrier`.
    permission : set of str
        Classes that are taken only if one of these tags opens them.
    barriers : set of str
        Kinds of `barrier` that close a node of a way, unless one of these tags opens it.
    one_ways : tuple of str
        The tags that say which way a road leads, the most special one last; none: both ways.
    surfaces : mapping from str to number
        The greatest speed by `surface`.
    turns : tuple of str
        The tags of turn restrictions that are counted.
    takes : callable from a way's tags to bool, optional
        A filter of your own: False leaves a way out.
    """

    name: str
    speeds: Mapping[str, float]
    access: tuple[str, ...] = ("access",)
    closed: frozenset[str] = CLOSED
    permission: frozenset[str] = frozenset()
    barriers: frozenset[str] = frozenset()
    one_ways: tuple[str, ...] = ()
    surfaces: Mapping[str, float] = field(default_factory=dict)
    turns: tuple[str, ...] = ()
    takes: Optional[Callable[[Tags], object]] = None

    def __post_init__(self) -> None:
        for name, words in (("speeds", self.speeds), ("surfaces", self.surfaces)):
            if not hasattr(words, "items"):
                raise InputError(f"{name}: words with km/h are needed, as in {{'primary': 70}}, "
                                 f"not {shown(words)}")
            speeds = {key: positive(speed, f"the speed of {key}") for key, speed in words.items()}
            object.__setattr__(self, name, speeds)
        if not self.speeds:
            raise InputError("speeds: no class of road has one")

    def but(self, **changes: Any) -> Profile:
        """The same profile with other values of some of its parameters.

        Raises InputError and its kinds for a speed that is none.
        """
        names = [parameter.name for parameter in fields(self)]
        for name in changes:
            if name not in names:
                raise InputError(f"a profile has no {name}; it has {', '.join(names)}")
        return replace(self, **changes)

    def speed(self, tags: Tags) -> Optional[float]:
        """Kilometres an hour on a way of one of its classes; None if it is closed: the least of
        the speeds by its class, its surface and its limit."""
        access, highway = said(tags, self.access), tags["highway"]
        if self.shuts(access) or (highway in self.permission and access not in _OPEN):
            return None
        limits = [limit for limit in (limit_of(tags), self.surfaces.get(tags.get("surface", "")))
                  if limit is not None]
        return min([self.speeds[highway], *limits])

    def shuts(self, access: Optional[str]) -> bool:
        """Whether the value of an access tag, or each of several in one, closes a way."""
        return access is not None and all(
            word.strip() in self.closed for word in access.split(";"))

    def stops_at(self, tags: Tags) -> bool:
        """Whether a node with these tags closes the ways through it."""
        access = said(tags, self.access)
        if access is None:
            return tags.get("barrier") in self.barriers
        return "barrier" in tags and self.shuts(access)

    def direction(self, tags: Tags) -> int:
        """1 for a way that leads forwards only, -1 backwards, 0 both; motorways and roundabouts
        lead forwards if nothing is said."""
        word = said(tags, self.one_ways)
        if word in _YES:
            return 1
        if word in _BACK:
            return -1
        implied = (tags.get("junction") in ("roundabout", "circular")
                   or tags.get("highway") in ("motorway", "motorway_link"))
        return int(implied and bool(self.one_ways) and word not in _NO)


def said(tags: Tags, keys: Sequence[str]) -> Optional[str]:
    """What the last of some tags says that is there."""
    return next((tags[key] for key in reversed(keys) if key in tags), None)


def limit_of(tags: Tags) -> Optional[float]:
    """The speed limit of a way in kilometres an hour; None if there is none that is read."""
    word = said(tags, ("zone:maxspeed", "source:maxspeed", "maxspeed:type", "maxspeed"))
    found = [] if word is None else [limit for part in word.split(";")
                                     if (limit := limit_in(part.strip())) is not None]
    return min(found, default=None)


def limit_in(word: str) -> Optional[float]:
    """The limit that one value of `maxspeed` says: 50, "30 mph", "walk", "DE:urban",
    "AT:zone30"."""
    plain = word.split(":", 1)[-1]
    if word in LIMITS or plain in LIMITS:
        return LIMITS.get(word, LIMITS.get(plain))
    match = re.fullmatch(r"(?:zone:?)?(\d+(?:\.\d+)?) ?([a-z/]*)", plain)
    number = float(match[1]) if match and match[2] in _UNITS else 0.0
    return number * _UNITS[match[2]] if match and number else None


def is_unread(tags: Tags) -> bool:
    """Whether a way has a limit that is not read."""
    word = tags.get("maxspeed")
    return word is not None and any(limit_in(part.strip()) is None and part.strip().split(
        ":", 1)[-1] not in _NO_LIMIT for part in word.split(";"))


DRIVING = Profile(
    "driving",
    {"motorway": 110, "motorway_link": 50, "trunk": 90, "trunk_link": 45, "primary": 70,
     "primary_link": 40, "secondary": 60, "secondary_link": 40, "tertiary": 50,
     "tertiary_link": 35, "unclassified": 40, "residential": 30, "living_street": 10,
     "service": 15, "road": 30, "track": 10},
    access=("access", "vehicle", "motor_vehicle", "motorcar"),
    barriers=frozenset({
        "bollard", "block", "chain", "cycle_barrier", "debris", "full-height_turnstile",
        "horse_stile", "jersey_barrier", "kissing_gate", "log", "motorcycle_barrier", "planter",
        "stile", "turnstile"}),
    one_ways=("oneway",),
    surfaces={"compacted": 50, "sett": 40, "unpaved": 40, "fine_gravel": 40, "cobblestone": 30,
              "gravel": 30, "grass_paver": 30, "pebblestone": 30, "unhewn_cobblestone": 20,
              "dirt": 20, "earth": 20, "ground": 20, "wood": 20, "grass": 15, "sand": 15,
              "mud": 10, "rock": 10},
    turns=("restriction", "restriction:motor_vehicle", "restriction:motorcar"))
"""By car."""

CYCLING = Profile(
    "cycling",
    {**dict.fromkeys(("primary", "primary_link", "secondary", "secondary_link", "tertiary",
                      "tertiary_link", "unclassified", "residential", "road", "cycleway"), 17),
     **dict.fromkeys(("service", "path", "track"), 14),
     **dict.fromkeys(("living_street", "footway", "pedestrian", "bridleway"), 10)},
    access=("access", "vehicle", "bicycle"),
    permission=frozenset({"footway", "pedestrian", "bridleway"}),
    barriers=frozenset({"debris", "full-height_turnstile", "horse_stile", "kissing_gate", "log",
                        "stile", "turnstile"}),
    one_ways=("oneway", "oneway:bicycle"),
    surfaces={"fine_gravel": 15, "unpaved": 13, "cobblestone": 12, "gravel": 12, "ground": 12,
              "pebblestone": 12, "dirt": 11, "earth": 11, "unhewn_cobblestone": 8, "grass": 8,
              "mud": 6, "rock": 6, "sand": 6},
    turns=("restriction", "restriction:bicycle"))
"""By bicycle."""

WALKING = Profile(
    "walking",
    {**dict.fromkeys(("primary", "primary_link", "secondary", "secondary_link", "tertiary",
                      "tertiary_link", "unclassified", "residential", "living_street", "service",
                      "road", "track", "pedestrian", "footway", "path", "cycleway",
                      "bridleway"), 5),
     "steps": 2},
    access=("access", "foot"))
"""On foot."""

PROFILES = {profile.name: profile for profile in (DRIVING, CYCLING, WALKING)}


@dataclass(frozen=True)
class Report:
    """What was read of a map and what was not, in counts.

    Attributes
    ----------
    profile : str
    ways : int
        Ways that are taken.
    closed : int
        Ways of the profile's classes that access tags close to it.
    left_out : int
        Ways that its filter leaves out.
    barriers : int
        Nodes of these ways that are closed to it: each road ends there.
    gaps, missing : int
        Ways with nodes that the file does not have, at which their roads end; and these nodes.
    limits : int
        Ways whose speed limit is not understood, and not heeded.
    turns : int
        Turn restrictions, none of which is heeded.
    cut_off : int
        Roads that are left out, since they lead out of, or into, the largest part of the map.
    """

    profile: str
    ways: int = 0
    closed: int = 0
    left_out: int = 0
    barriers: int = 0
    gaps: int = 0
    missing: int = 0
    limits: int = 0
    turns: int = 0
    cut_off: int = 0

    def __str__(self) -> str:
        gaps = f"ways with gaps, of {self.missing} nodes"
        lines = [
            (self.closed, "ways closed to it"), (self.left_out, "ways left out by its filter"),
            (self.barriers, "barriers at which roads end"), (self.gaps, gaps),
            (self.limits, "speed limits not understood"),
            (self.turns, "turn restrictions not heeded"),
            (self.cut_off, "roads left out, as cut off from the largest part"),
        ]
        return "\n".join([f"{self.profile}: ways taken: {self.ways}", *(
            f"  {words}: {count}" for count, words in lines if count)])


@dataclass(frozen=True)
class RawWay:
    """A way of a class that is looked for, as the file has it."""

    number: int
    tags: Tags
    nodes: list[int]


@dataclass(frozen=True)
class Turn:
    """A turn restriction: its tags, and the ways that it is about."""

    tags: Tags
    ways: list[int]


class Reader:
    """What a file has: first its ways and turn restrictions, then the nodes of these ways, so that
    their order in the file is all the same."""

    def __init__(self, path: Any, progress: Optional[Progress]) -> None:
        self.path, self._progress = os.fspath(path), progress
        self.ways: list[RawWay] = []
        self.turns: list[Turn] = []
        self.points: dict[int, Point] = {}
        self.barriers: dict[int, Tags] = {}
        self._counts: dict[str, int] = defaultdict(int)

    def count(self, what: str) -> None:
        """One more of what is read."""
        self._counts[what] += 1
        if self._progress is not None and self._counts[what] % EVERY == 0:
            self._progress(what, self._counts[what])

    def read_ways(self, classes: Mapping[str, Any]) -> None:
        """Reads the ways of some classes, and the turn restrictions."""
        raise NotImplementedError

    def read_nodes(self, needed: set[int]) -> None:
        """Reads the nodes that are needed."""
        raise NotImplementedError


class XmlReader(Reader):
    """Reads .osm, .osm.gz and .osm.bz2 by Python alone."""

    def _elements(self, kinds: tuple[str, ...]) -> Iterator[Any]:
        opener = _OPENERS.get(os.path.splitext(self.path)[1])
        if opener is None:
            raise ImportError(
                f"{self.path} is read by pyosmium, which is not installed (python3-pyosmium of "
                "Debian, osmium of pip); without it .osm, .osm.gz and .osm.bz2 are read")
        with opener(self.path, "rb") as file:
            events = iter(ElementTree.iterparse(file, ("start", "end")))
            _, root = next(events)
            if root.tag != "osm":
                raise ValueError(f"it begins with <{root.tag}>, not with <osm>")
            for event, item in events:
                if event == "end" and item.tag in ("node", "way", "relation"):
                    self.count(f"{item.tag}s")
                    if item.tag in kinds:
                        yield item
                    root.clear()

    def read_ways(self, classes: Mapping[str, Any]) -> None:
        for item in self._elements(("way", "relation")):
            tags = {tag.attrib["k"]: tag.attrib["v"] for tag in item.iter("tag")}
            if item.tag == "way" and tags.get("highway") in classes:
                nodes = [int(node.attrib["ref"]) for node in item.iter("nd")]
                self.ways.append(RawWay(int(item.attrib["id"]), tags, nodes))
            elif item.tag == "relation" and tags.get("type", "").startswith("restriction"):
                ways = [int(member.attrib["ref"]) for member in item.iter("member")
                        if member.attrib["type"] == "way"]
                self.turns.append(Turn(tags, ways))

    def read_nodes(self, needed: set[int]) -> None:
        for item in self._elements(("node",)):
            number = int(item.attrib["id"])
            if number in needed and "lon" in item.attrib and "lat" in item.attrib:
                lon, lat = (round(float(item.attrib[name]) * 1e7) / 1e7 for name in ("lon", "lat"))
                if abs(lon) <= MOST_DEGREES[0] and abs(lat) <= MOST_DEGREES[1]:
                    self.points[number] = lon, lat
                tags = {tag.attrib["k"]: tag.attrib["v"] for tag in item.iter("tag")}
                if "barrier" in tags:
                    self.barriers[number] = tags


class OsmiumReader(Reader):
    """Reads all that pyosmium reads."""

    def read_ways(self, classes: Mapping[str, Any]) -> None:
        import osmium

        reader = self

        class Ways(osmium.SimpleHandler):
            def way(self, way: Any) -> None:
                reader.count("ways")
                if way.tags.get("highway") in classes:
                    tags = {tag.k: tag.v for tag in way.tags}
                    reader.ways.append(RawWay(way.id, tags, [node.ref for node in way.nodes]))

            def relation(self, relation: Any) -> None:
                reader.count("relations")
                if relation.tags.get("type", "").startswith("restriction"):
                    ways = [member.ref for member in relation.members if member.type == "w"]
                    reader.turns.append(Turn({tag.k: tag.v for tag in relation.tags}, ways))

        self._apply(Ways())

    def read_nodes(self, needed: set[int]) -> None:
        import osmium

        reader = self

        class Nodes(osmium.SimpleHandler):
            def node(self, node: Any) -> None:
                reader.count("nodes")
                if node.id in needed:
                    if node.location.valid():
                        reader.points[node.id] = node.location.lon, node.location.lat
                    if "barrier" in node.tags:
                        reader.barriers[node.id] = {tag.k: tag.v for tag in node.tags}

        self._apply(Nodes())

    def _apply(self, handler: Any) -> None:
        import osmium

        try:
            handler.apply_file(self.path)
        except osmium.InvalidLocationError as error:
            raise ValueError(str(error)) from None


def reader_of(path: Any, progress: Optional[Progress]) -> Reader:
    """The reader of a file: by pyosmium if it is installed. Raises BadShape, OSError."""
    if not isinstance(path, (str, os.PathLike)):
        raise BadShape(f"path: the path of a map is needed, not {shown(path)}")
    with open(path, "rb"):
        pass
    try:
        import osmium  # noqa: F401
    except ImportError:
        return XmlReader(path, progress)
    return OsmiumReader(path, progress)


@dataclass(frozen=True)
class Way:
    """A way, or a part of one between gaps and barriers, that the profile takes: its nodes with
    their points, in the direction of travel if it is one-way."""

    number: int
    kind: Kind
    nodes: list[Hashable]
    points: list[Point]


def read_ways(path: Any, profile: Profile,
              progress: Optional[Progress] = None) -> tuple[list[Way], Report]:
    """The ways of a file that a profile takes.

    Raises InputError for a file that is none of OpenStreetMap, or that has no road for the
    profile; ImportError if it needs pyosmium and that is not there; OSError. Warns of gaps.
    """
    if not isinstance(profile, Profile):
        raise BadShape("profile: a diffuse.Profile such as diffuse.DRIVING is needed, "
                       f"not {shown(profile)}")
    reader = reader_of(path, progress)
    try:
        reader.read_ways(profile.speeds)
        report, taken = chosen(reader.ways, profile)
        reader.read_nodes({node for way, _ in taken for node in way.nodes})
    except (RuntimeError, ElementTree.ParseError, gzip.BadGzipFile, zlib.error, EOFError,
            LookupError, ValueError, StopIteration) as error:
        if isinstance(error, InputError):
            raise
        raise InputError(f"{path}: no map of OpenStreetMap: {error}") from None
    parts = Parts(reader, profile)
    ways = [part for way, speed in taken for part in parts.of(way, speed)]
    report = replace(report, barriers=len(parts.shut), gaps=parts.gaps, missing=len(parts.missing),
                     turns=turns_of(reader.turns, profile, {way.number for way in ways}))
    if not ways:
        raise InputError(f"{path}: no road for {profile.name}: of {len(reader.ways)} ways of its "
                         f"classes, {report.closed} are closed to it, {report.left_out} are left "
                         f"out by its filter, {report.gaps} lack nodes in the file")
    if report.gaps:
        warnings.warn(f"{path}: {report.missing} nodes of {report.gaps} ways are not in the file, "
                      "so their roads end there; an extract with complete ways has them",
                      MapWarning, stacklevel=3)
    return ways, report


def chosen(ways: list[RawWay],
           profile: Profile) -> tuple[Report, list[tuple[RawWay, float]]]:
    """The ways that a profile takes with their speeds, and how many it does not."""
    taken: list[tuple[RawWay, float]] = []
    closed = left_out = limits = 0
    for way in ways:
        if profile.takes is not None and not profile.takes(way.tags):
            left_out += 1
            continue
        speed = profile.speed(way.tags)
        if speed is None:
            closed += 1
            continue
        limits += is_unread(way.tags)
        taken.append((way, speed))
    return Report(profile.name, len(taken), closed, left_out, limits=limits), taken


class Parts:
    """The parts of ways between gaps and barriers. A node that is closed is another place for each
    road that ends there: 7 for the first, "7/2" for the second."""

    def __init__(self, reader: Reader, profile: Profile) -> None:
        self._reader, self._profile = reader, profile
        self._closed = {node for node, tags in reader.barriers.items() if profile.stops_at(tags)}
        self._uses: dict[int, int] = defaultdict(int)
        self.shut: set[int] = set()
        self.missing: set[int] = set()
        self.gaps = 0

    def of(self, way: RawWay, speed: float) -> Iterator[Way]:
        """The parts of a way."""
        direction, tags, points = self._profile.direction(way.tags), way.tags, self._reader.points
        kind = tags.get("name"), tags.get("ref"), tags["highway"], direction != 0, speed
        lacking = [node for node in way.nodes if node not in points]
        self.gaps += bool(lacking)
        self.missing.update(lacking)
        for run in self._runs(way.nodes):
            names: list[Hashable] = [self._name(node) if place in (0, len(run) - 1) else node
                                     for place, node in enumerate(run)]
            at = [points[node] for node in run]
            if direction == -1:
                names.reverse()
                at.reverse()
            yield Way(way.number, kind, names, at)

    def _runs(self, nodes: list[int]) -> Iterator[list[int]]:
        """The longest lists of nodes that the file has, of which only the ends are closed."""
        run: list[int] = []
        for node in nodes:
            if node in self._reader.points:
                run += [node] if run[-1:] != [node] else []
                if node in self._closed and len(run) > 1:
                    yield run
                    run = [node]
            else:
                yield from [run] if len(run) > 1 else []
                run = []
        yield from [run] if len(run) > 1 else []

    def _name(self, node: int) -> Hashable:
        """The place of a node at the end of a part."""
        if node not in self._closed:
            return node
        self.shut.add(node)
        self._uses[node] += 1
        return node if self._uses[node] == 1 else f"{node}/{self._uses[node]}"


def turns_of(turns: list[Turn], profile: Profile, ways: set[int]) -> int:
    """How many turn restrictions are for the profile, and about ways that it takes."""
    return sum(1 for turn in turns
               if said(turn.tags, profile.turns) is not None and turn.ways
               and not set(turn.tags.get("except", "").split(";")) & set(profile.access)
               and ways.issuperset(turn.ways))


@dataclass(frozen=True)
class Chain:
    """A piece of road: its nodes with their points, in the direction of travel if it is one-way,
    and the way that it begins in."""

    kind: Kind
    way: int
    nodes: list[Hashable]
    points: list[Point]

    def turned(self) -> Chain:
        """The same from its other end."""
        return Chain(self.kind, self.way, self.nodes[::-1], self.points[::-1])

    def cut(self, places: Iterable[int]) -> Iterator[Chain]:
        """The pieces between some of its nodes, by their places in order from the first to the
        last."""
        cuts = list(places)
        for begin, end in zip(cuts, cuts[1:]):
            yield Chain(self.kind, self.way, self.nodes[begin:end + 1], self.points[begin:end + 1])


def map_of(path: Any, profile: Profile, simplify: bool, connected: bool,
           progress: Optional[Progress]) -> tuple[Roads, Coordinates, Report]:
    """The roads of a file and the places of their ends, each named by the number of its node; and
    what was read. Raises and warns as `read_ways` does."""
    ways, report = read_ways(path, profile, progress)
    chains = list(chains_of(ways, simplify))
    if connected:
        whole, chains = len(chains), largest(chains)
        report = replace(report, cut_off=whole - len(chains))
    if not chains:
        raise InputError(f"{path}: no two places of the map reach each other; connected=False "
                         "takes all roads")
    ends = [(chain.nodes[0], chain.nodes[-1]) for chain in chains]
    numbers = numbered(node for pair in ends for node in pair)
    one_ways = [chain.kind[3] for chain in chains]
    rows = array("I", [row for row, one in enumerate(one_ways) for _ in range(1 if one else 2)])
    tails, heads = array("I"), array("I")
    for (begin, end), one in zip(ends, one_ways):
        tails.extend([numbers[begin]] if one else [numbers[begin], numbers[end]])
        heads.extend([numbers[end]] if one else [numbers[end], numbers[begin]])
    table = Table(os.path.basename(os.fspath(path)), columns_of(chains), "road",
                  range(1, len(chains) + 1))
    costs = {}
    for cost, scale in SCALES.items():
        weights = whole_weights(table, cost, scale)
        costs[cost] = Cost(array("I", [weights[row] for row in rows]), scale)
    points: dict[Hashable, Point] = {chain.nodes[end]: chain.points[end]
                                     for chain in chains for end in (0, -1)}
    shapes = [chain.points[1:-1] for chain in chains]
    roads = Roads(list(numbers), tails, heads, rows, costs, table, numbers, "street", shapes)
    return roads, Coordinates(points), report


def whole_weights(table: Table, cost: str, scale: int) -> list[int]:
    """A cost as weights, rounded to the nearest, and at least 1. Raises OutOfRange."""
    weights = [max(1, int(value * scale + 0.5)) for value in table.column(cost)]
    for row, weight in enumerate(weights):
        if weight > MOST_32:
            raise OutOfRange(f"{table.where(row, cost)}: {weight / scale:.12g} times the scale "
                             f"{scale} is not from 0 to {MOST_32}")
    return weights


def columns_of(chains: list[Chain]) -> dict[str, list[Any]]:
    """What the table says of each road. A street without a name is called by its number, or else
    by its class in brackets."""
    metres = [length(chain.points) for chain in chains]
    kinds = [chain.kind for chain in chains]
    return {
        "street": [name or number or f"({highway})" for name, number, highway, *_ in kinds],
        "name": [kind[0] for kind in kinds], "ref": [kind[1] for kind in kinds],
        "highway": [kind[2] for kind in kinds], "one_way": [kind[3] for kind in kinds],
        "way": [chain.way for chain in chains], "speed": [kind[4] for kind in kinds],
        "metres": metres, "seconds": [3.6 * way / kind[4] for way, kind in zip(metres, kinds)],
    }


def chains_of(ways: list[Way], simplify: bool) -> Iterator[Chain]:
    """The roads between crossings, or without `simplify` those between all nodes.

    A road goes on over the end of a way if exactly one other begins there, of the same kind.
    """
    chains = [Chain(way.kind, way.number, way.nodes, way.points) for way in ways]
    if not simplify:
        for chain in chains:
            yield from chain.cut(range(len(chain.nodes)))
        return
    meeting: dict[Hashable, int] = defaultdict(int)
    for chain in chains:
        for place, node in enumerate(chain.nodes):
            meeting[node] += 2 if 0 < place < len(chain.nodes) - 1 else 1
    pieces = [piece for chain in chains for piece in chain.cut(crossings(chain, meeting))]
    for chain in joined(pieces, meeting):
        last, half = len(chain.nodes) - 1, (len(chain.nodes) - 1) // 2
        ring = chain.nodes[0] == chain.nodes[-1]
        yield from chain.cut([0, half, last] if ring and half else [0, last])


def crossings(chain: Chain, meeting: Mapping[Hashable, int]) -> list[int]:
    """The places of the ends of a way, and of its nodes at which more than two pieces of road
    meet."""
    last = len(chain.nodes) - 1
    return [place for place, node in enumerate(chain.nodes)
            if place in (0, last) or meeting[node] != 2]


def joined(pieces: list[Chain], meeting: Mapping[Hashable, int]) -> Iterator[Chain]:
    """The pieces, with those that go on in each other as one, each in the order of its first."""
    joints = Joints(pieces, meeting)
    for number, piece in enumerate(pieces):
        if not joints.done[number]:
            joints.done[number] = True
            parts = deque([piece])
            while after := joints.neighbour(parts[-1].nodes[-1], piece.kind, begins=True):
                parts.append(after)
            while before := joints.neighbour(parts[0].nodes[0], piece.kind, begins=False):
                parts.appendleft(before)
            nodes, points = parts[0].nodes[:1], parts[0].points[:1]
            for part in parts:
                nodes += part.nodes[1:]
                points += part.points[1:]
            yield Chain(piece.kind, parts[0].way, nodes, points)


class Joints:
    """The pieces at each node at which just two ends meet, and which of them are part of a chain
    already."""

    def __init__(self, pieces: list[Chain], meeting: Mapping[Hashable, int]) -> None:
        self._pieces, self.done = pieces, [False] * len(pieces)
        self._at: dict[Hashable, list[int]] = defaultdict(list)
        for number, piece in enumerate(pieces):
            for node in (piece.nodes[0], piece.nodes[-1]):
                if meeting[node] == 2:
                    self._at[node].append(number)

    def neighbour(self, node: Hashable, kind: Kind, begins: bool) -> Optional[Chain]:
        """The other piece at a node, so turned that it begins or ends there, if it is of the same
        kind and not done."""
        for number in self._at.get(node, ()):
            found = self._pieces[number]
            fits = (found.nodes[0] == node) == begins
            if not self.done[number] and found.kind == kind and (fits or not kind[3]):
                self.done[number] = True
                return found if fits else found.turned()
        return None


def largest(chains: list[Chain]) -> list[Chain]:
    """The roads of the largest part in which every place can be reached from every other."""
    ends = [(chain.nodes[0], chain.nodes[-1]) for chain in chains]
    back = [(end, begin) for (begin, end), chain in zip(ends, chains) if not chain.kind[3]]
    part = largest_part([*ends, *back])
    return [chain for (begin, end), chain in zip(ends, chains) if begin in part and end in part]


Arcs = Mapping[Any, Sequence[Any]]


def largest_part(ways: Iterable[tuple[Any, Any]]) -> set[Any]:
    """The nodes of the largest strongly connected part of a graph, by its arcs; of equal parts any
    one. (Kosaraju's two searches.)"""
    after: dict[Any, list[Any]] = defaultdict(list)
    before: dict[Any, list[Any]] = defaultdict(list)
    for tail, head in ways:
        after[tail].append(head)
        before[head].append(tail)
    seen: set[Any] = set()
    order = [node for root in [*after] if root not in seen for node in finished(root, after, seen)]
    seen.clear()
    parts = (set(finished(root, before, seen)) for root in reversed(order) if root not in seen)
    return max(parts, key=len, default=set())


def finished(root: Any, arcs: Arcs, seen: set[Any]) -> Iterator[Any]:
    """The nodes that are found from a root and not seen before, each once all from it are found;
    all are seen then."""
    seen.add(root)
    path = [(root, iter(arcs.get(root, ())))]
    while path:
        node, rest = path[-1]
        found = next((head for head in rest if head not in seen), None)
        if found is None:
            path.pop()
            yield node
        else:
            seen.add(found)
            path.append((found, iter(arcs.get(found, ()))))
