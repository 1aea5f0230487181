"""Points on roads: the nearest one, by a grid of the straight pieces of all roads, and routes from
one to another."""
from __future__ import annotations

from array import array
from dataclasses import dataclass, field
from itertools import product
from math import cos, radians
from typing import TYPE_CHECKING, Any, Hashable, Iterable, Iterator, Optional, Union

from .answers import UNREACHED, Algebra, Route
from .errors import InputError, NoRoute, shown
from .export import (
    Members, Target, feature_of, frame_of, geoframe_of, line_feature, named_apart, write_csv,
    write_geojson,
)
from .geometry import Point, Raster, beside, distance_of, length, wrapped
from .roads import Coordinates, Roads, best_arc
from .routes import NamedRoute, Step

if TYPE_CHECKING:
    from ._handles import Stop
    from .network import Network

End = Union["Snap", Hashable]


@dataclass(frozen=True)
class Snap:
    """A point on a road: on an arc, of a road both ways on the way there; of roads along the same
    line on the first.

    Attributes
    ----------
    arc : int
        The number of the arc, from 0 in the order of the network.
    row : int
        The row of the road in its table, from 0.
    tail, head : hashable
        The places between which the arc leads.
    fraction : float
        How far along the arc the point is, by length: 0 at the tail, 1 at the head.
    distance : float
        How far from the road the point was that was asked for, in metres; on a plane in its unit.
    point : (float, float)
    piece : int
        Which straight piece of the arc's line it lies on, from 0.
    """

    arc: int
    row: int
    tail: Hashable
    head: Hashable
    fraction: float
    distance: float
    point: Point
    piece: int
    origin: str = field(repr=False)

    def _members(self) -> Members:
        """What is written of it."""
        return {"from": self.tail, "to": self.head, "fraction": self.fraction,
                "distance": self.distance, "row": self.row}


class Snaps(list[Snap]):
    """A list of points on roads, one for each point that was asked for."""

    def __init__(self, network: Network, snaps: Iterable[Snap]) -> None:
        super().__init__(snaps)
        self._network = network

    def _rows(self) -> Iterator[Members]:
        return ({**snap._members(), "x": snap.point[0], "y": snap.point[1]} for snap in self)

    def _features(self) -> Iterator[Members]:
        return (feature_of({"type": "Point", "coordinates": snap.point}, snap._members())
                for snap in self)

    def to_csv(self, path: Target = None) -> Optional[str]:
        """Writes a line for each point: its road, how far along it is, and how far off the point
        was. Returns the text without a path. Raises OSError."""
        return write_csv(path, self._rows(), _HEADER)

    def to_frame(self) -> Any:
        """The same as a DataFrame of pandas. Raises ImportError without pandas."""
        return frame_of(self._rows(), _HEADER)

    def to_geojson(self, path: Target = None) -> Optional[str]:
        """Writes the points with the same. Raises InputError without coordinates in degrees."""
        return write_geojson(path, self._network.coordinates, self._features())

    def to_geoframe(self) -> Any:
        """The same as a GeoDataFrame of geopandas. Raises ImportError without geopandas."""
        return geoframe_of(self._network.coordinates, self._features())


_HEADER = ["from", "to", "fraction", "distance", "row", "x", "y"]


class RoadGrid:
    """The straight pieces of all roads whose ends have coordinates; of roads along the same line,
    of the first alone."""

    def __init__(self, roads: Roads, places: Coordinates) -> None:
        self._roads, self._places = roads, places
        self._distance = distance_of(places.degrees)
        self._arcs, self._pieces = array("I"), array("I")
        self._sides = [array("d") for _ in range(4)]
        known: dict[tuple[int, int], tuple[int, ...]] = {}
        for arc, ends in enumerate(zip(roads.tails, roads.heads)):
            if not roads.is_back(arc) and all(
                    roads.names[end - 1] in places.points for end in ends):
                self._add(arc, known)
        xs, ys, us, vs = self._sides
        self._raster = Raster(xs + us, ys + vs, places.degrees)
        cells: list[int] = []
        things = array("I")
        for thing, (x, y, u, v) in enumerate(zip(xs, ys, us, vs)):
            found = self._raster.cells_along((x, y), (u, v))
            cells += found
            things.extend([thing] * len(found))
        self._raster.fill(cells, things)

    def _add(self, arc: int, known: dict[tuple[int, int], tuple[int, ...]]) -> None:
        """Adds the line of an arc, unless another one between the same ends has it. A piece over
        the meridian of 180 degrees goes on beyond it."""
        line = self._roads.line(arc, self._places)
        tail, head = self._roads.tails[arc], self._roads.heads[arc]
        ends = min(tail, head), max(tail, head)
        others = known.get(ends, ())
        if any(self._roads.line(other, self._places) in (line, line[::-1]) for other in others):
            return
        known[ends] = *others, arc
        for piece, ((x, y), (u, v)) in enumerate(zip(line, line[1:])):
            self._arcs.append(arc)
            self._pieces.append(piece)
            u = beside(u, x) if self._places.degrees else u
            for side, value in zip(self._sides, (x, y, u, v)):
                side.append(value)

    def _foot(self, point: Point, thing: int) -> Point:
        """The point of a piece that is nearest, on the plane that touches the earth at the
        point."""
        x, y, u, v = (side[thing] for side in self._sides)
        narrow = cos(radians(point[1])) if self._places.degrees else 1.0
        wide, high = (u - x) * narrow, v - y
        square = wide * wide + high * high
        along = (point[0] - x) * narrow * wide + (point[1] - y) * high
        share = min(max(along / square, 0.0), 1.0) if square else 0.0
        return x + (u - x) * share, y + (v - y) * share

    def nearest(self, point: Point) -> Optional[Snap]:
        """The nearest point on a road, of equal ones that of the first; None if there is none."""
        way, thing = self._raster.nearest(
            point, lambda at, thing: self._distance(at, self._foot(at, thing)))
        if thing < 0:
            return None
        x, y = point
        turns = (point, (x - 360, y), (x + 360, y)) if self._places.degrees else (point,)
        foot = min((self._foot(turn, thing) for turn in turns),
                   key=lambda found: self._distance(point, found))
        arc, piece, roads = self._arcs[thing], self._pieces[thing], self._roads
        line = roads.line(arc, self._places)
        foot = (wrapped(foot[0]) if self._places.degrees else foot[0]), foot[1]
        whole = length(line, self._distance)
        part = length([*line[:piece + 1], foot], self._distance)
        tail, head = (roads.names[end - 1] for end in (roads.tails[arc], roads.heads[arc]))
        fraction = min(part / whole, 1.0) if whole else 0.0
        return Snap(arc, roads.rows[arc], tail, head, fraction, way, foot, piece, roads.origin)


@dataclass(frozen=True)
class Part:
    """A part of a road that is gone along: the arc in the direction of the route, which fraction
    of it, and the line of the part."""

    arc: int
    fraction: float
    line: list[Point]

    def weight(self, weights: "array[int]") -> int:
        """The same part of the arc's weight, rounded to the nearest whole weight, a half
        upwards."""
        return int(weights[self.arc] * self.fraction + 0.5)


@dataclass(frozen=True, repr=False)
class BetweenPoints:
    """The shortest route between points on roads: a part of a road, a route between places, and a
    part of a road, of which each may be missing.

    Attributes
    ----------
    network : Network
    by : str
        The cost.
    value : int
        In units of its scale.
    first : Part or None
    route : NamedRoute or None
    last : Part or None
    """

    network: Network
    by: str
    value: int
    first: Optional[Part]
    route: Optional[NamedRoute]
    last: Optional[Part]

    @property
    def cost(self) -> float:
        """The value, in the unit of the cost."""
        return self.value / self.network._cost(self.by).scale

    def total(self, cost: str) -> float:
        """The sum of another cost along the route, in its unit, with the parts of roads rounded
        alike. Raises InputError."""
        column = self.network._cost(cost)
        parts = sum(part.weight(column.weights) for part in (self.first, self.last) if part)
        arcs = self.route.arcs if self.route else []
        return (parts + sum(column.weights[arc] for arc in arcs)) / column.scale

    def totals(self) -> dict[str, float]:
        """The sum of each cost along the route, in its unit."""
        return {cost: self.total(cost) for cost in self.network.costs}

    def line(self) -> list[Point]:
        """The route on the map, from the first point to the last. Raises InputError without
        coordinates."""
        lines = [self.first.line if self.first else [], self.route.line() if self.route else [],
                 self.last.line if self.last else []]
        found: list[Point] = []
        for point in (point for line in lines for point in line):
            found += [point] if found[-1:] != [point] else []
        return found

    def steps(self) -> list[Step]:
        """The streets on the way with their costs; one that begins or ends at a point has None for
        its place there. Raises InputError if no street is known."""
        found = self.route.steps() if self.route else []
        for part, place in ((self.first, 0), (self.last, len(found) + 1)):
            if part is not None:
                found.insert(place, self._step(part, part is self.first))
        merged: list[Step] = []
        for step in found:
            if merged and merged[-1].street == step.street:
                step = self._joined(merged.pop(), step)
            merged.append(step)
        return merged

    def _step(self, part: Part, is_first: bool) -> Step:
        roads = self.network._roads
        if roads.street is None or roads.table is None:
            raise InputError("the network does not know its streets: street= names their column")
        street = str(roads.table.column(roads.street)[roads.rows[part.arc]])
        costs = {name: self.network._cost(name) for name in self.network.costs}
        totals = {name: part.weight(cost.weights) / cost.scale for name, cost in costs.items()}
        places = self.route.places if self.route else [None]
        ends = (None, places[0]) if is_first else (places[-1], None)
        return Step(street, *ends, [part.arc], totals)

    def _joined(self, one: Step, other: Step) -> Step:
        scales = self.network.costs
        totals = {name: round((total + other.totals[name]) * scales[name]) / scales[name]
                  for name, total in one.totals.items()}
        return Step(one.street, one.begin, other.end, one.arcs + other.arcs, totals)

    def _header(self) -> list[str]:
        names = ["street", "from", "to", *self.network.costs]
        return list(named_apart((name, None) for name in names))

    def _rows(self) -> list[Members]:
        header = self._header()
        return [dict(zip(header, [step.street, step.begin, step.end, *step.totals.values()]))
                for step in self.steps()]

    def to_csv(self, path: Target = None) -> Optional[str]:
        """Writes a line for each of the steps. Returns the text without a path. Raises InputError
        if no street is known; OSError."""
        return write_csv(path, self._rows(), self._header())

    def to_frame(self) -> Any:
        """The same as a DataFrame of pandas. Raises ImportError without pandas; InputError."""
        return frame_of(self._rows(), self._header())

    def _feature(self) -> Members:
        return line_feature(
            self.line(), {"by": self.by, "cost": self.cost, "totals": self.totals()})

    def to_geojson(self, path: Target = None) -> Optional[str]:
        """Writes the route as a line with its totals. Returns the text without a path. Raises
        InputError without coordinates in degrees; OSError."""
        return write_geojson(path, self.network.coordinates, [self._feature()])

    def to_geoframe(self) -> Any:
        """The same as a GeoDataFrame of geopandas. Raises ImportError without geopandas."""
        return geoframe_of(self.network.coordinates, [self._feature()])

    def __repr__(self) -> str:
        return f"<diffuse.BetweenPoints: {self.cost:.12g} {self.by}>"


Way = tuple[int, Optional[Part], Optional[int], Optional[int], Optional[Part]]
"""The value of a route, the part of a road that it begins with, the vertices between, and the part
that it ends with."""


def best_between(network: Network, begin: End, end: End, by: str,
                 stop: Optional[Stop]) -> BetweenPoints:
    """The best route; along one road alone, if that is not worse. Raises NoRoute, NoVertex,
    InputError, OutOfMemory or Stopped."""
    weights, graph = network._cost(by).weights, network.graph(by)
    firsts, lasts = parts_from(network, begin, by), parts_to(network, end, by)
    codes = graph.table([vertex for vertex, _ in firsts], [vertex for vertex, _ in lasts],
                        stop=stop)
    ways: list[Way] = [(part.weight(weights), part, None, None, None)
                       for part in parts_between(network, begin, end, by)]
    for (row, (tail, first)), (column, (head, last)) in product(
            enumerate(firsts), enumerate(lasts)):
        if codes[row][column] != UNREACHED:
            parts = sum(part.weight(weights) for part in (first, last) if part)
            ways.append((parts + int(codes[row][column]), first, tail, head, last))
    if not ways:
        raise NoRoute(f"no route leads from {shown(begin)} to {shown(end)}")
    value, first, source, target, last = min(ways, key=lambda way: way[0])
    if source is None or target is None:
        return BetweenPoints(network, by, value, first, None, None)
    found: Route = graph.route(source, target, stop=stop)
    route = network._named(found, by, Algebra.SHORTEST)
    return BetweenPoints(network, by, value, first, route, last)


def parts_from(network: Network, begin: End, by: str) -> list[tuple[int, Optional[Part]]]:
    """The vertices at which a route from a point may go on, and the parts of roads to them."""
    if not isinstance(begin, Snap):
        return [(network.vertex(begin), None)]
    line, (there, back) = line_at(network, begin), both_ways(network, begin, by)
    tail, head = network._roads.tails[begin.arc], network._roads.heads[begin.arc]
    onwards = Part(there, 1 - begin.fraction, [begin.point, *line[begin.piece + 1:]])
    found: list[tuple[int, Optional[Part]]] = [(head, onwards)]
    if back is not None:
        found.append((tail, Part(back, begin.fraction, [begin.point, *line[begin.piece::-1]])))
    return found


def parts_to(network: Network, end: End, by: str) -> list[tuple[int, Optional[Part]]]:
    """The vertices from which a route may go to a point, and the parts of roads from them."""
    if not isinstance(end, Snap):
        return [(network.vertex(end), None)]
    line, (there, back) = line_at(network, end), both_ways(network, end, by)
    tail, head = network._roads.tails[end.arc], network._roads.heads[end.arc]
    onwards = Part(there, end.fraction, [*line[:end.piece + 1], end.point])
    found: list[tuple[int, Optional[Part]]] = [(tail, onwards)]
    if back is not None:
        found.append((head, Part(back, 1 - end.fraction, [*line[:end.piece:-1], end.point])))
    return found


def parts_between(network: Network, begin: End, end: End, by: str) -> Iterator[Part]:
    """The part of a road from one of its points to another, if it leads there."""
    if isinstance(begin, Snap) and isinstance(end, Snap) and begin.arc == end.arc:
        line, (there, back) = line_at(network, begin), both_ways(network, begin, by)
        step = end.fraction - begin.fraction
        if step >= 0:
            inner = line[begin.piece + 1:end.piece + 1]
            yield Part(there, step, [begin.point, *inner, end.point])
        elif back is not None:
            inner = line[end.piece + 1:begin.piece + 1][::-1]
            yield Part(back, -step, [begin.point, *inner, end.point])


def line_at(network: Network, snap: Snap) -> list[Point]:
    """The line of the arc that a point is on. Raises InputError for a point that is not of this
    network, or of one over the same roads."""
    roads, places = network._roads, network.coordinates
    if places is None or snap.origin != roads.origin or snap.arc >= len(roads.tails) or (
            roads.names[roads.tails[snap.arc] - 1] != snap.tail):
        raise InputError(f"{shown(snap)} is on a road of another network")
    return roads.line(snap.arc, places)


def both_ways(network: Network, snap: Snap, by: str) -> tuple[int, Optional[int]]:
    """The best arc along the line that a point is on, and the best one back, if there is one: a
    table may have it in a row of its own."""
    line, roads, weights = line_at(network, snap), network._roads, network._cost(by).weights
    tail, head, places = roads.tails[snap.arc], roads.heads[snap.arc], network.coordinates
    there = [arc for arc in network._arcs_between(tail, head)
             if places and roads.line(arc, places) == line]
    back = [arc for arc in network._arcs_between(head, tail)
            if places and roads.line(arc, places) == line[::-1]]
    best = best_arc(there, weights, Algebra.SHORTEST)
    return best, best_arc(back, weights, Algebra.SHORTEST) if back else None
