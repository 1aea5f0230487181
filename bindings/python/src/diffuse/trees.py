"""Trees, isochrones and tables of a network, with the names of its places and in the units of its
costs."""
from __future__ import annotations

from bisect import bisect_left
from collections import defaultdict
from dataclasses import dataclass
from functools import cached_property
from math import cos, floor, nan, radians
from typing import (
    TYPE_CHECKING, Any, Hashable, Iterable, Iterator, Mapping, Optional, Sequence, Union, overload,
)

from .answers import UNREACHED, Algebra, Near, Tree
from .errors import InputError, NoRoute, OutOfRange, shown
from .export import (
    Members, Target, feature_of, frame_of, geoframe_of, named_apart, point_feature, write_csv,
    write_geojson,
)
from .geometry import RADIUS, Line, Point, at_distances, on_a_plane, part_of
from .roads import best_arc
from .routes import NO_BOUND, TRILLION, NamedRoute, worth
from .tables import argument_of, positive

if TYPE_CHECKING:
    from numpy import float64
    from numpy.typing import NDArray

    from .network import Network
    from .tables import Number

Cell = tuple[int, int]
Ring = list[Cell]
ACROSS = 100
"""How many cells are side by side along the longer side of a map, if nothing else is said."""
MOST_STEPS = 1_000_000
"""In how many steps of half a cell all roads within the limits are gone along at most."""


@dataclass(frozen=True, repr=False, eq=False)
class NamedTree:
    """The best routes of all places from the nearest source; or to it, if the question was asked
    `towards` it.

    Two trees are equal if they answer the same question about the same places alike. A pickled
    tree has the roads of its network with it, but not the graphs, which are made anew.

    Attributes
    ----------
    network : Network
    answer : Tree or Near
        By the numbers of vertices, in units of the cost's scale.
    by : str
        The cost.
    algebra : Algebra
    sources : list of hashable
        Places.
    towards : bool
    """

    network: Network
    answer: Union[Tree, Near]
    by: str
    algebra: Algebra
    sources: list[Hashable]
    towards: bool

    @property
    def tree(self) -> Tree:
        """The lists of all vertices; an isochrone, which knows those within its limits alone,
        makes them now."""
        return self.answer if isinstance(self.answer, Tree) else self._whole

    @cached_property
    def _whole(self) -> Tree:
        assert isinstance(self.answer, Near)
        return self.answer.tree()

    def cost(self, place: Hashable) -> Optional[float]:
        """What is best, in the unit of the cost; None if the place is not reached. Raises
        NoVertex."""
        return self._worth(self._entry(place)[0])

    def hops(self, place: Hashable) -> int:
        """The number of roads on the route; 0 if the place is not reached. Raises NoVertex."""
        return self._entry(place)[1]

    def neighbour(self, place: Hashable) -> Optional[Hashable]:
        """The place before on the route, or with `towards` the one after; None at a source. Raises
        NoVertex."""
        return self._name(self._entry(place)[2])

    def source(self, place: Hashable) -> Optional[Hashable]:
        """The nearest source, at the other end of the route; None if the place is not reached.
        Raises NoVertex."""
        vertex = self.network.vertex(place)
        return self._name(self._origins[vertex]) if self.answer.reaches(vertex) else None

    def _worth(self, value: int) -> Optional[float]:
        if value == UNREACHED:
            return None
        return worth(value, self.algebra, self.network._cost(self.by).scale)

    def _name(self, vertex: int) -> Optional[Hashable]:
        return self.network.places[vertex - 1] if vertex else None

    def _entry(self, place: Hashable) -> tuple[int, int, int]:
        """The value, hops and parent at a place. Raises NoVertex."""
        return self.answer.entry(self.network.vertex(place))

    @cached_property
    def _origins(self) -> Union[Mapping[int, int], Sequence[int]]:
        """The nearest source of each vertex that is reached."""
        return self.answer.origins()

    def route(self, place: Hashable) -> NamedRoute:
        """The route of a place. Raises NoRoute, NoVertex."""
        if self.cost(place) is None:
            raise NoRoute(f"no route {'leads from' if self.towards else 'leads to'} {place}")
        found = self.answer.route(self.network.vertex(place))
        if self.towards:
            found.vertices.reverse()
        return self.network._named(found, self.by, self.algebra)

    def reached(self) -> list[Hashable]:
        """The places that are reached, the best first."""
        return self._up_to(UNREACHED - 1)

    def _up_to(self, most: int) -> list[Hashable]:
        """The places with a value of at most so much, the best first."""
        worst_first = self.algebra in (Algebra.WIDEST, Algebra.RELIABLE)
        found = [(vertex, entry[0]) for vertex, entry in self.answer.entries() if entry[0] <= most]
        found.sort(key=lambda pair: pair[1], reverse=worst_first)
        return [self.network.places[vertex - 1] for vertex, _ in found]

    @cached_property
    def arcs(self) -> list[int]:
        """The numbers of the arcs on the routes."""
        weights, between = self.network._cost(self.by).weights, self.network._arcs_between
        pairs = [(vertex, parent) if self.towards else (parent, vertex)
                 for vertex, (_, _, parent) in self.answer.entries() if parent]
        return sorted(best_arc(between(tail, head), weights, self.algebra) for tail, head in pairs)

    @cached_property
    def _header(self) -> list[str]:
        names = ["place", self.by, "hops", "next" if self.towards else "previous", "source"]
        return list(named_apart((name, None) for name in names))

    def _members(self, place: Hashable) -> Members:
        """What is written of a place."""
        vertex = self.network.vertex(place)
        value, hops, parent = self.answer.entry(vertex)
        source = None if value == UNREACHED else self._name(self._origins[vertex])
        cells = [place, self._worth(value), hops, self._name(parent), source]
        return dict(zip(self._header, cells))

    def _rows(self) -> Iterator[Members]:
        return map(self._members, self.network.places)

    def to_csv(self, path: Target = None) -> Optional[str]:
        """Writes a line for each place: its cost, hops, neighbour on the route, and nearest
        source.

        Parameters
        ----------
        path : str, path, open file of text, or None
            Without it the text is returned.

        Raises
        ------
        OSError
        """
        return write_csv(path, self._rows(), self._header)

    def to_frame(self) -> Any:
        """The same as a DataFrame of pandas. Raises ImportError without pandas."""
        return frame_of(self._rows(), self._header)

    def _features(self, shape: str, cell: Optional[Number]) -> list[Members]:
        """Points of the places that are reached. Raises InputError for another shape."""
        if shape != "places":
            raise InputError(
                f"shape: places is needed, not {shown(shape)}; isochrones have others")
        places = self.network.coordinates
        return [point_feature(places, place, self._members(place)) for place in self.reached()]

    def to_geojson(self, path: Target = None, shape: str = "places",
                   cell: Optional[Number] = None) -> Optional[str]:
        """Writes a point for each place that is reached, with the same; or of an isochrone roads
        or polygons.

        Parameters
        ----------
        path : str, path, open file of text, or None
            Without it the text is returned.
        shape : {"places", "roads", "polygons"}
            Of an isochrone, "roads" are for each limit the stretches of roads up to it from the
            one before, and "polygons", the greatest limit first, the cells within it that such a
            stretch comes through.
        cell : number, optional
            The side of a cell in metres. Without it a hundred lie along the longer side of what
            is reached.

        Raises
        ------
        InputError
            The network has no coordinates in degrees, there is no such shape, or no road is within
            the limits.
        OutOfRange
            The cells are too many.
        OSError
        """
        return write_geojson(path, self.network.coordinates, self._features(shape, cell))

    def to_geoframe(self, shape: str = "places", cell: Optional[Number] = None) -> Any:
        """The same as a GeoDataFrame of geopandas.

        Parameters
        ----------
        shape, cell
            As of `to_geojson`.

        Raises
        ------
        ImportError
            There is no geopandas.
        InputError, OutOfRange
        """
        return geoframe_of(self.network.coordinates, self._features(shape, cell))

    def _repr_svg_(self) -> Optional[str]:
        return self.network._picture(self)

    def _said(self) -> tuple[Any, ...]:
        """What makes two trees equal."""
        scale = self.network._cost(self.by).scale
        return list(self.network.places), self.by, self.towards, scale, self.answer

    def __eq__(self, other: object) -> bool:
        if not isinstance(other, NamedTree):
            return NotImplemented
        return type(self) is type(other) and self._said() == other._said()

    __hash__ = None  # type: ignore[assignment]

    def __repr__(self) -> str:
        way = "to" if self.towards else "from"
        sources = ", ".join(map(str, self.sources))
        return f"<diffuse.{type(self).__name__} by {self.by} {way} {sources}>"


@dataclass(frozen=True, repr=False, eq=False)
class Isochrone(NamedTree):
    """The places within each of some limits.

    Attributes
    ----------
    limits : list of float
        In the unit of the cost, the least limit first.
    """

    limits: list[float]

    @cached_property
    def _bounds(self) -> list[int]:
        """The limits as whole numbers of the cost's scale."""
        found = (self.network._limit(self.by, limit) for limit in self.limits)
        return [bound for bound in found if bound is not None]

    def band(self, place: Hashable) -> Optional[float]:
        """The least limit that the place is within, or None. Raises NoVertex."""
        value = self._entry(place)[0]
        return None if value == UNREACHED else self.limits[bisect_left(self._bounds, value)]

    def within(self, limit: Number) -> list[Hashable]:
        """The places within a limit, the nearest first. Raises InputError for one above the
        greatest limit; NotANumber."""
        bound, most = argument_of(limit, "within"), self.limits[-1]
        if bound > argument_of(most, "limits"):
            raise InputError(
                f"within: {limit} is above the greatest limit of this isochrone, {most:.12g}")
        return self._up_to(self.network._limit(self.by, limit) or 0)

    def roads(self) -> list[tuple[float, Line]]:
        """The stretches of roads within the limits, each with its limit and its line; a road is
        cut where a limit is met, by its metres. Raises InputError without coordinates."""
        return [(self.limits[band], line) for band, line in stretches(self, self._bounds)]

    def _features(self, shape: str, cell: Optional[Number]) -> list[Members]:
        bands = range(len(self.limits))
        if shape == "places":
            return super()._features(shape, cell)
        if shape == "roads":
            lines = list(stretches(self, self._bounds))
            return [self._feature(band, "MultiLineString", [
                line for found, line in lines if found == band]) for band in bands]
        if shape == "polygons":
            cells = Cells(stretches(self, self._bounds),
                          None if cell is None else positive(cell, "cell"))
            return [self._feature(band, "MultiPolygon", cells.polygons(band))
                    for band in reversed(bands)]
        raise InputError(f"shape: places, roads or polygons is needed, not {shown(shape)}")

    def _feature(self, band: int, kind: str, coordinates: list[Any]) -> Members:
        members = {"by": self.by, "limit": self.limits[band]}
        return feature_of({"type": kind, "coordinates": coordinates}, members)

    @cached_property
    def _header(self) -> list[str]:
        return list(named_apart((name, None) for name in [*super()._header, "band"]))

    def _members(self, place: Hashable) -> Members:
        cells = [*super()._members(place).values(), self.band(place)]
        return dict(zip(self._header, cells))

    def _said(self) -> tuple[Any, ...]:
        return (*super()._said(), self.limits)


class NamedTable(Sequence[Sequence[Optional[float]]]):
    """A row for each source, and in it the cost to each target in its unit; None where no route
    leads.

    Attributes
    ----------
    sources, targets : list of hashable
        Places.
    codes : array of uint64, shape (sources, targets), or list of arrays without numpy
        The values in units of the cost's scale; UNREACHED where no route leads.
    """

    def __init__(self, codes: Any, algebra: Algebra, scale: int, sources: list[Hashable],
                 targets: list[Hashable]) -> None:
        self.codes, self.sources, self.targets = codes, sources, targets
        self._algebra, self._scale = algebra, scale

    def __len__(self) -> int:
        return len(self.sources)

    @overload
    def __getitem__(self, row: int) -> list[Optional[float]]: ...

    @overload
    def __getitem__(self, row: slice) -> list[Sequence[Optional[float]]]: ...

    def __getitem__(self, row: Union[int, slice]) -> Any:
        if isinstance(row, slice):
            return [self[place] for place in range(*row.indices(len(self)))]
        if not -len(self) <= row < len(self):
            raise IndexError("the table has no such row")
        return [None if value == UNREACHED else worth(value, self._algebra, self._scale)
                for value in self.codes[row].tolist()]

    def __eq__(self, other: object) -> bool:
        if not isinstance(other, (NamedTable, list)):
            return NotImplemented
        return list(self) == list(other)

    __hash__ = None  # type: ignore[assignment]

    def __repr__(self) -> str:
        return f"<diffuse.NamedTable of {len(self.sources)} by {len(self.targets)} places>"

    def to_csv(self, path: Target = None) -> Optional[str]:
        """Writes a line for each source: its name, and the cost to each target. Returns the text
        without a path. Raises OSError."""
        header = ["from", *map(str, self.targets)]
        rows = (dict(enumerate([source, *row])) for source, row in zip(self.sources, self))
        return write_csv(path, rows, header)  # type: ignore[arg-type]

    def to_numpy(self) -> NDArray[float64]:
        """The table as an array of numpy, with NaN where no route leads. Raises ImportError
        without numpy.

        Returns
        -------
        array of float64, shape (sources, targets)
        """
        import numpy

        codes = numpy.asarray(self.codes, dtype=numpy.uint64).reshape(
            len(self.sources), len(self.targets))
        scale = {Algebra.HOPS: 1, Algebra.REACH: 1, Algebra.RELIABLE: TRILLION}.get(
            self._algebra, self._scale)
        found: NDArray[float64] = codes / scale
        if self._algebra is Algebra.WIDEST:
            found[codes == NO_BOUND] = numpy.inf
        unreached = codes == numpy.uint64(UNREACHED)
        if unreached.any():
            found[unreached] = nan
        return found

    def to_frame(self) -> Any:
        """The table as a DataFrame of pandas by sources and targets. Raises ImportError without
        pandas."""
        import pandas

        rows = pandas.Index(self.sources, name="from", tupleize_cols=False)
        columns = pandas.Index(self.targets, name="to", tupleize_cols=False)
        return pandas.DataFrame(self.to_numpy(), index=rows, columns=columns)


@dataclass(frozen=True)
class Reached:
    """How an arc is reached: by the value at its near end and its weight, and up to which fraction
    of it, beyond which the other direction of the same road is not worse."""

    value: int
    weight: int
    end: float

    def fraction(self, bound: int) -> float:
        """Which fraction of the arc is within a bound."""
        if bound < self.value:
            return 0.0
        return min(self.end, (bound - self.value) / self.weight) if self.weight else self.end


def stretches(isochrone: Isochrone, bounds: list[int]) -> Iterator[tuple[int, Line]]:
    """The stretches of roads within the limits: for each the number of its band, the nearest
    first, and its line."""
    roads, places = isochrone.network._roads, isochrone.network.coordinates
    if places is None:
        raise InputError("roads on a map need places with coordinates")
    around = isochrone.network._arcs_by_end(isochrone.towards)
    reached = isochrone.answer.entries()
    for arc in sorted(arc for vertex, _ in reached for arc in around.at(vertex)):
        how, line = reached_of(isochrone, arc), roads.line(arc, places)
        if len(line) > 1:
            line = line[::-1] if isochrone.towards else line
            begin = 0.0
            for band, bound in enumerate(bounds):
                end = how.fraction(bound)
                if end > begin:
                    whole = end - begin == 1
                    yield band, line if whole else part_of(line, begin, end, places.degrees)
                    begin = end


def reached_of(isochrone: Isochrone, arc: int) -> Reached:
    """How an arc is reached whose near end is. Where both directions of a road meet, each ends."""
    roads, weights = isochrone.network._roads, isochrone.network._cost(isochrone.by).weights
    near, far = (roads.heads, roads.tails) if isochrone.towards else (roads.tails, roads.heads)
    value, other = (isochrone.answer.entry(ends[arc])[0] for ends in (near, far))
    back = roads.back(arc)
    if back is None or other == UNREACHED:
        return Reached(value, weights[arc], 1.0)
    both = weights[arc] + weights[back]
    meeting = (other + weights[back] - value) / both if both else 0.5
    return Reached(value, weights[arc], min(max(meeting, 0.0), 1.0))


class Cells:
    """Square cells of a map, each with the nearest band that a road in it has."""

    def __init__(self, lines: Iterable[tuple[int, Line]], size: Optional[float]) -> None:
        """The cells that lines come through; their size is in metres, or by the longer side of the
        map. Raises InputError without a line, OutOfRange for too many cells."""
        known = [(band, line) for band, line in lines]
        points = [point for _, line in known for point in line]
        if not points:
            raise InputError("no road is within the limits")
        lows, highs = [[pick(point[axis] for point in points) for axis in (0, 1)]
                       for pick in (min, max)]
        narrow = max(cos(radians((lows[1] + highs[1]) / 2)), 0.01)
        longer = max((highs[0] - lows[0]) * narrow, highs[1] - lows[1], 1e-9)
        high = longer / ACROSS if size is None else size / radians(1) / RADIUS
        whole = sum(on_a_plane(*pair) for _, line in known for pair in zip(line, line[1:]))
        if whole / high * 2 > MOST_STEPS:
            least = whole * 2 / MOST_STEPS * radians(1) * RADIUS
            raise OutOfRange(f"cell: {shown(size)} metres are too few for these roads; "
                             f"from {least:.2g} on they are gone along in a million steps")
        self._low, self._size = (lows[0], lows[1]), (high / narrow, high)
        self.bands: dict[Cell, int] = {}
        for band, line in known:
            for point in at_distances(line, high / 2):
                cell = self._cell(point)
                self.bands[cell] = min(band, self.bands.get(cell, band))

    def _cell(self, point: Point) -> Cell:
        x, y = (floor((value - low) / size)
                for value, low, size in zip(point, self._low, self._size))
        return x, y

    def polygons(self, band: int) -> list[list[list[Point]]]:
        """The polygons around the cells of a band and those before it: an outer ring, and the
        rings of its holes."""
        cells = {cell for cell, found in self.bands.items() if found <= band}
        return [[[self._corner(corner) for corner in ring] for ring in rings_of(part)]
                for part in parts_of(cells)]

    def _corner(self, corner: Cell) -> Point:
        x, y = (round(low + place * size, 7)
                for low, place, size in zip(self._low, corner, self._size))
        return x, y


def parts_of(cells: set[Cell]) -> Iterator[set[Cell]]:
    """The parts of cells that hang together by their sides, in order."""
    rest = set(cells)
    for first in sorted(cells):
        if first in rest:
            part, todo = {first}, [first]
            rest.discard(first)
            while todo:
                x, y = todo.pop()
                beside = {(x + 1, y), (x - 1, y), (x, y + 1), (x, y - 1)} & rest
                rest -= beside
                part |= beside
                todo += beside
            yield part


def rings_of(part: set[Cell]) -> list[Ring]:
    """The rings around a part, closed: the outer one first, counterclockwise, and then its holes,
    clockwise."""
    after: dict[Cell, list[Cell]] = defaultdict(list)
    for x, y in sorted(part):
        sides = (((x, y - 1), (x, y), (x + 1, y)), ((x + 1, y), (x + 1, y), (x + 1, y + 1)),
                 ((x, y + 1), (x + 1, y + 1), (x, y + 1)), ((x - 1, y), (x, y + 1), (x, y)))
        for beside, begin, end in sides:
            if beside not in part:
                after[begin].append(end)
    rings = []
    while after:
        rings.append(ring_from(min(after), after))
    return rings


def ring_from(begin: Cell, after: dict[Cell, list[Cell]]) -> Ring:
    """The ring from a corner on, of which the sides are taken; where four sides meet it turns
    right, so no ring meets itself."""
    ring = [begin, take(after, begin, after[begin][0])]
    while ring[-1] != begin:
        came, at = ring[-2:]
        end = take(after, at, min(after[at], key=lambda end: turn(came, at, end)))
        if turn(came, at, end) == 0:
            ring[-1] = end
        else:
            ring.append(end)
    return ring


def take(after: dict[Cell, list[Cell]], begin: Cell, end: Cell) -> Cell:
    """The end of a side, which is then no more among those after its begin."""
    after[begin].remove(end)
    if not after[begin]:
        del after[begin]
    return end


def turn(came: Cell, at: Cell, end: Cell) -> int:
    """Below 0 for a turn to the right, 0 for straight on, above 0 for one to the left."""
    return (at[0] - came[0]) * (end[1] - at[1]) - (at[1] - came[1]) * (end[0] - at[0])
