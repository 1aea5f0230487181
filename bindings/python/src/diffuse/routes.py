"""Routes in a network, with the names of its places and streets and in the units of its costs."""
from __future__ import annotations

from dataclasses import dataclass
from functools import cached_property
from itertools import groupby
from math import inf
from typing import TYPE_CHECKING, Any, Hashable, Iterable, Iterator, Optional, Sequence

from .answers import Algebra, Route
from .errors import InputError
from .export import (
    Members, Target, feature_of, frame_of, geoframe_of, line_feature, named_apart, write_csv,
    write_geojson,
)
from .geometry import Point

if TYPE_CHECKING:
    from .network import Network

TRILLION, NO_BOUND = 10**12, 2**32


def worth(value: int, algebra: Algebra, scale: int) -> float:
    """A value in the unit of its cost; for `hops` arcs, for `reliable` a chance, and for no arcs
    of `widest` infinity."""
    if algebra in (Algebra.HOPS, Algebra.REACH):
        return value
    if algebra is Algebra.RELIABLE:
        return value / TRILLION
    return inf if algebra is Algebra.WIDEST and value == NO_BOUND else value / scale


def unit_of(algebra: Algebra, by: str) -> str:
    """What a value counts."""
    return {Algebra.HOPS: "roads", Algebra.REACH: "reach"}.get(algebra, by)


@dataclass(frozen=True)
class Step:
    """A part of a route along one street.

    Attributes
    ----------
    street : str
    begin, end : hashable
        The places where it begins and ends.
    arcs : list of int
    totals : dict from str to float
        The sum of each cost, in its unit.
    """

    street: str
    begin: Hashable
    end: Hashable
    arcs: list[int]
    totals: dict[str, float]

    def __str__(self) -> str:
        sums = (f"{total:.12g} {cost}" for cost, total in self.totals.items())
        return f"{self.street}: {', '.join(sums)}"


@dataclass(frozen=True, repr=False, eq=False)
class NamedRoute:
    """A route between two places.

    Two routes are equal if they take the same roads of their tables by the same question. A
    pickled route has its own roads alone as its network.

    Attributes
    ----------
    network : Network
    route : Route
        By the numbers of vertices and arcs, in units of the cost's scale.
    by : str
        The cost.
    algebra : Algebra
    """

    network: Network
    route: Route
    by: str
    algebra: Algebra

    @property
    def arcs(self) -> list[int]:
        """The numbers of the arcs that it takes, from 0 in the order of the network."""
        return self.route.arcs or []

    @cached_property
    def places(self) -> list[Hashable]:
        """The places on the way, from the source on."""
        names = self.network.places
        return [names[vertex - 1] for vertex in self.route.vertices]

    @property
    def cost(self) -> float:
        """The value, in the unit of the cost."""
        return worth(self.route.value, self.algebra, self.network._cost(self.by).scale)

    def total(self, cost: str) -> float:
        """The sum of another cost along the route, in its unit. Raises InputError."""
        return self.network._total(cost, self.arcs)

    def totals(self) -> dict[str, float]:
        """The sum of each cost along the route, in its unit."""
        return {cost: self.total(cost) for cost in self.network.costs}

    def cells(self, column: str) -> list[Any]:
        """What the table has in a column for each road on the way. Raises InputError."""
        roads = self.network._roads
        if roads.table is None:
            return []
        cells = roads.table.column(column)
        return [cells[roads.rows[arc]] for arc in self.arcs]

    def line(self) -> list[Point]:
        """The route on the map, by the shapes of its roads if they are known. Raises InputError
        without coordinates."""
        return self.network._line(self.arcs, self.places[:1])

    def steps(self) -> list[Step]:
        """The streets on the way, each with where it begins and ends, and its costs. Raises
        InputError if no street is known."""
        column = self.network._roads.street
        if column is None:
            raise InputError("the network does not know its streets: street= names their column")
        found, place = [], 0
        pairs = zip(map(str, self.cells(column)), self.arcs)
        for street, group in groupby(pairs, key=lambda pair: pair[0]):
            arcs = [arc for _, arc in group]
            totals = {cost: self.network._total(cost, arcs) for cost in self.network.costs}
            ends = self.places[place], self.places[place + len(arcs)]
            found.append(Step(street, *ends, arcs, totals))
            place += len(arcs)
        return found

    def _header(self, steps: bool) -> list[str]:
        names = ["street"] * steps + ["from", "to", *self.network.costs]
        return list(named_apart((name, None) for name in names))

    def _rows(self, steps: bool) -> Iterator[Members]:
        header = self._header(steps)
        if steps:
            for step in self.steps():
                yield dict(zip(header, [step.street, step.begin, step.end, *step.totals.values()]))
            return
        for begin, end, arc in zip(self.places, self.places[1:], self.arcs):
            sums = (self.network._total(cost, [arc]) for cost in self.network.costs)
            yield dict(zip(header, [begin, end, *sums]))

    def _members(self) -> Members:
        """What is written of the route."""
        return {"from": self.places[0], "to": self.places[-1], "by": self.by, "cost": self.cost,
                "totals": self.totals()}

    def _features(self, steps: bool) -> list[Members]:
        if steps:
            return [line_feature(self.network._line(step.arcs, [step.begin]), {
                "street": step.street, "from": step.begin, "to": step.end,
                "totals": step.totals}) for step in self.steps()]
        known = self.network.coordinates is not None
        members = self._members()
        return [line_feature(self.line(), members) if known else feature_of(None, members)]

    def to_csv(self, path: Target = None, steps: bool = False) -> Optional[str]:
        """Writes a line for each road on the way: from, to, and all costs.

        Parameters
        ----------
        path : str, path, open file of text, or None
            Without it the text is returned.
        steps : bool
            A line for each street instead.

        Raises
        ------
        InputError
            No street is known.
        OSError
        """
        return write_csv(path, self._rows(steps), self._header(steps))

    def to_frame(self, steps: bool = False) -> Any:
        """The same as a DataFrame of pandas. Raises ImportError without pandas; InputError."""
        return frame_of(self._rows(steps), self._header(steps))

    def to_geojson(self, path: Target = None, steps: bool = False) -> Optional[str]:
        """Writes the route as a line with its totals, or a line for each of its steps.

        Parameters
        ----------
        path, steps
            As of `to_csv`.

        Raises
        ------
        InputError
            The network has no coordinates in degrees, or no street is known.
        OSError
        """
        return write_geojson(path, self.network.coordinates, self._features(steps))

    def to_geoframe(self, steps: bool = False) -> Any:
        """The same as a GeoDataFrame of geopandas. Raises ImportError without geopandas;
        InputError."""
        return geoframe_of(self.network.coordinates, self._features(steps))

    def _repr_svg_(self) -> Optional[str]:
        return self.network._picture(self)

    def _whole(self) -> str:
        return f"{self.cost:.12g} {unit_of(self.algebra, self.by)}"

    def __str__(self) -> str:
        if self.network._roads.street is None:
            return f"{' - '.join(map(str, self.places))}: {self._whole()}"
        return "\n".join([f"{self.places[0]} to {self.places[-1]}: {self._whole()}",
                          *(f"  {step}" for step in self.steps())])

    def __repr__(self) -> str:
        return f"<diffuse.NamedRoute {self.places[0]} to {self.places[-1]}: {self._whole()}>"

    def _said(self) -> tuple[Any, ...]:
        """What makes two routes equal."""
        roads = self.network._roads
        rows = [roads.table.row(roads.rows[arc]) if roads.table else roads.rows[arc]
                for arc in self.arcs]
        return self.places, self.route.value, self.by, self.algebra, rows

    def __eq__(self, other: object) -> bool:
        if not isinstance(other, NamedRoute):
            return NotImplemented
        return self._said() == other._said()

    __hash__ = None  # type: ignore[assignment]

    def __copy__(self) -> NamedRoute:
        return self

    def __deepcopy__(self, memo: object) -> NamedRoute:
        return self

    def __reduce__(self) -> tuple[Any, ...]:
        count, alone = len(self.arcs), self.network._along(self.route.vertices, self.arcs)
        route = Route(self.route.value, count, list(range(1, count + 2)), list(range(count)))
        return type(self), (alone, route, self.by, self.algebra)


class Routes(list[Optional[NamedRoute]]):
    """A list with the route of each pair of places, in order; None where no route leads.

    Attributes
    ----------
    pairs : list of (hashable, hashable)
        The places of each.
    """

    def __init__(self, network: Network, by: str, pairs: Sequence[tuple[Hashable, Hashable]],
                 routes: Iterable[Optional[NamedRoute]]) -> None:
        super().__init__(routes)
        self._network, self._by, self.pairs = network, by, list(pairs)

    def _header(self) -> list[str]:
        return list(named_apart((name, None) for name in ["from", "to", *self._network.costs]))

    def _rows(self) -> Iterator[Members]:
        header = self._header()
        none: list[Any] = [None] * len(self._network.costs)
        for pair, route in zip(self.pairs, self):
            sums = none if route is None else list(route.totals().values())
            yield dict(zip(header, [*pair, *sums]))

    def _features(self) -> Iterator[Members]:
        for (begin, end), route in zip(self.pairs, self):
            if route is None:
                yield feature_of(None, {"from": begin, "to": end, "by": self._by, "cost": None})
            else:
                yield from route._features(False)

    def to_csv(self, path: Target = None) -> Optional[str]:
        """Writes a line for each route: from, to, and all costs. Returns the text without a path.
        Raises OSError."""
        return write_csv(path, self._rows(), self._header())

    def to_frame(self) -> Any:
        """The same as a DataFrame of pandas. Raises ImportError without pandas."""
        return frame_of(self._rows(), self._header())

    def to_geojson(self, path: Target = None) -> Optional[str]:
        """Writes a line for each route with its totals; its geometry is null where no route leads.
        Raises InputError without coordinates in degrees; OSError."""
        return write_geojson(path, self._network.coordinates, self._features())

    def to_geoframe(self) -> Any:
        """The same as a GeoDataFrame of geopandas. Raises ImportError without geopandas;
        InputError."""
        return geoframe_of(self._network.coordinates, self._features())
