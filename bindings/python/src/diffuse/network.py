"""Places with names, roads between them, and what may be asked about them."""
from __future__ import annotations

from decimal import ROUND_FLOOR, Decimal
from math import inf
from typing import (
    TYPE_CHECKING, Any, Hashable, Iterable, Mapping, Optional, Sequence, Union, overload,
)

from ._handles import Stop, fork_lock
from .answers import MOST_LIMIT, Algebra, AnyAlgebra, Route, algebra_of
from .columns import Argument, is_truth, listed, np
from .drawing import Labels, draw, plot
from .errors import BadShape, InputError, NoAlgebra, NoRoute, NoVertex, placed, shown
from .export import Target
from .geometry import Point, Points
from .graph import Graph
from .osm import DRIVING, Profile, Report, map_of
from .roads import (
    MOST_DEGREES, ArcsByEnd, Columns, Coordinates, Cost, Costs, Roads, best_arc, coordinates_of,
    dimacs_places, dimacs_roads, networkx_edges, networkx_places, point_of, roads_of, with_sum,
    with_values,
)
from .routes import NamedRoute, Routes
from .saved import File, load, save
from .snaps import BetweenPoints, End, RoadGrid, Snap, Snaps, best_between
from .tables import (
    Number, Path, Progress, Source, argument_of, plain, positive, read_table, scaled, table_of,
)
from .trees import Isochrone, NamedTable, NamedTree

if TYPE_CHECKING:
    from numpy import floating
    from numpy.typing import NDArray

    Pair = Union[Sequence[Number], "NDArray[floating[Any]]"]
    """A longitude and a latitude, or x and y."""
    Sources = Union[Hashable, Iterable[Hashable], Pair, Iterable[Pair]]

NEAR = 1000.0
"""How many metres the nearest place or road may be away, if nothing else is said."""
FEW_ROADS = 50_000
"""A notebook shows a picture of a network of so many roads at most."""
LIMITS = Argument("limits", needed="a list of numbers")
PLACES = Argument("places", needed="a place or a list of places")
POINTS = Argument("points", needed="a list of pairs")
PAIRS = Argument("pairs", needed="a list of pairs of places")
MILLION = 10**6


class Network:
    """Places with names, roads between them, and a weight of each road for each cost.

    A network is made by `read_osm`, `read_csv`, `from_table`, `from_networkx`, `read_dimacs`, or
    by `load` of what `save` wrote.
    For each cost it has an exact graph, made at the first question. Of parallel roads an answer
    takes the one with the best weight, and of equal ones the first of the table. Any number of
    threads may ask one network at once, and so may a forked child. A pickled network has its
    roads, and makes its graphs anew.

    Where a place is asked for, a pair of coordinates stands for the nearest place, if one lies
    within 1,000 metres: a tuple, a list or a row of numpy with a longitude and a latitude, or with
    x and y.

    What can't be used is refused by an `InputError` or a kind of it, such as `NotANumber`,
    `OutOfRange`, `BadShape`, `NoAlgebra`, and `NoVertex` for a place that is not there. Any call
    may end with `OutOfMemory`, and a question with `Stopped` once its `stop` is set. What is said
    of a call is what it raises besides, or what a message names.

    Attributes
    ----------
    coordinates : Coordinates or None
        Where the places are.
    report : Report or None
        What was read of a map.
    """

    def __init__(self, roads: Roads, coordinates: Optional[Coordinates] = None,
                 report: Optional[Report] = None) -> None:
        self._roads, self.coordinates, self.report = roads, coordinates, report
        self._lock = fork_lock()
        self._graphs: dict[tuple[str, bool], Graph] = {}
        self._ends: dict[bool, ArcsByEnd] = {}
        self._known: Optional[tuple[list[Hashable], Points]] = None
        self._road_grid: Optional[RoadGrid] = None

    @classmethod
    def read_osm(cls, path: Path, profile: Profile = DRIVING, *, simplify: bool = True,
                 connected: bool = True, progress: Optional[Progress] = None) -> Network:
        """The network of a file of OpenStreetMap, by `seconds` and `metres`.

        Seconds are kept in hundredths, metres in tenths, at least one of them for each road.
        `cells` has of each road `name`, `ref`, `highway`, `way` (a number of OpenStreetMap),
        `speed` in kilometres an hour, and `street`: the name, or else the ref, or else the class
        in brackets. `report` says in counts what was not taken or not heeded.

        Parameters
        ----------
        path : str or path
            A file .osm, .osm.gz or .osm.bz2; with pyosmium also .osm.pbf.
        profile : Profile
            Who travels: `diffuse.DRIVING`, `diffuse.CYCLING`, `diffuse.WALKING` or your own.
        simplify : bool
            Whether only crossings and ends of roads are places, or each node is. The name of a
            place is the number of its node; "7/2" is the second one at a barrier.
        connected : bool
            Whether only the largest part is taken in which every place can be reached from every
            other.
        progress : callable from str and int, optional
            Is told now and then what is read, and how many: `print`, for instance.

        Raises
        ------
        InputError
            The file is no map, or has no road for the profile.
        ImportError
            The file needs pyosmium.
        OSError

        Warns
        -----
        MapWarning
            Nodes of its ways are not in the file.
        """
        return cls(*map_of(path, profile, simplify, connected, progress))

    @classmethod
    def read_csv(cls, path: Source, *, tail: str, head: str, costs: Costs,
                 both_ways: Union[bool, str] = False, places: Optional[Source] = None,
                 place: str = "place", x: str = "lon", y: str = "lat", degrees: bool = True,
                 street: Optional[str] = None, rounding: bool = False, delimiter: str = ",",
                 decimal: str = ".", encoding: str = "utf-8",
                 progress: Optional[Progress] = None) -> Network:
        """The network of a CSV file with a line for each road, and perhaps of a second one with a
        line for each place.

        Parameters
        ----------
        path, places : str, path, or open file
        tail, head : str
            The columns of where a road begins and ends.
        costs : mapping from str to int
            The columns of costs, and for each the scale that makes its decimals whole:
            {"minutes": 10} keeps tenths of minutes.
        both_ways : bool or str
            Whether roads lead back too, or a column of yes and no.
        place, x, y : str
            The columns of names and coordinates of the places.
        degrees : bool
            Whether these are degrees.
        street : str, optional
            The column of the names of streets, by which routes are printed.
        rounding : bool
            Takes finer decimals to the nearest whole weight, a half upwards.
        delimiter, decimal, encoding : str
            With `decimal=","` a point is in no number.
        progress : callable from str and int, optional
            Is told now and then what is read, and how many.

        Raises
        ------
        InputError
            With file, line and column of the first fault.
        OSError
        """
        columns = Columns(tail, head, costs, both_ways, rounding, decimal, street)
        table = read_table(path, delimiter, encoding, progress)
        points = None
        if places is not None:
            lines = read_table(places, delimiter, encoding, progress)
            points = coordinates_of(lines, place, x, y, degrees, decimal)
        return cls(*roads_of(table, columns, points))

    @classmethod
    def from_table(cls, data: Any, *, tail: str, head: str, costs: Costs,
                   both_ways: Union[bool, str] = False, places: Any = None, place: str = "place",
                   x: str = "lon", y: str = "lat", degrees: bool = True,
                   street: Optional[str] = None, geometry: Optional[str] = None,
                   rounding: bool = False) -> Network:
        """The same of frames of pandas and geopandas, or of mappings from names to columns.

        Parameters
        ----------
        data, places : DataFrame, GeoDataFrame, or mapping from str to list
        geometry : str, optional
            The column of the lines of roads: of shapely, or lists of points. Without `places`
            their ends are the places.
        tail, head, costs, both_ways, place, x, y, degrees, street, rounding
            As of `read_csv`.

        Raises
        ------
        InputError
            With the row, from 0 on, and the column of the first fault.
        """
        columns = Columns(
            tail, head, costs, both_ways, rounding, street=street, geometry=geometry)
        points = None
        if places is not None:
            points = coordinates_of(table_of(places, "places"), place, x, y, degrees)
        return cls(*roads_of(table_of(data, "roads"), columns, points))

    @classmethod
    def from_networkx(cls, graph: Any, *, costs: Costs, x: str = "x", y: str = "y",
                      degrees: bool = True, street: Optional[str] = None,
                      rounding: bool = False) -> Network:
        """The network of a graph of networkx.

        An edge of an undirected graph is a road both ways; its attributes are columns. One named
        `geometry`, as osmnx makes it, is the line of the road.

        Parameters
        ----------
        graph : networkx.Graph or one of its kinds
        costs : mapping from str to int
            The attributes of edges that are costs, and for each the scale.
        x, y : str
            The attributes of nodes that are coordinates, if they have some.
        degrees, street, rounding
            As of `read_csv`.

        Raises
        ------
        InputError
            An edge has no such cost; and as `from_table` does.
        """
        edges = networkx_edges(graph, costs)
        columns = Columns(edges.tail, edges.head, costs, not graph.is_directed(), rounding,
                          street=street, geometry=edges.geometry)
        places = networkx_places(graph, x, y, degrees)
        return cls(*roads_of(edges.table, columns, places, graph))

    @classmethod
    def read_dimacs(cls, gr: Source, co: Optional[Source] = None,
                    cost: str = "weight") -> Network:
        """The network of a .gr file, and of a .co file with coordinates; the names are the numbers
        of the vertices.

        Parameters
        ----------
        gr, co : str, path, or open file
        cost : str
            The name that its weights have, by the scale 1.

        Raises
        ------
        TextFault
            The first fault of the .gr text.
        InputError
            The first fault of the .co text.
        OSError
        """
        roads = dimacs_roads(gr, cost)
        return cls(roads, None if co is None else dimacs_places(co, len(roads.names)))

    def save(self, path: File) -> None:
        """Writes the network as one file, from which `load` makes the same one in a fraction of
        the time that its map or table takes.

        It has places, coordinates, roads with their lines and cells, costs and the report, but not
        the graphs and factors, which are made anew. It is a zip, in which numpy.load finds arrays.

        Parameters
        ----------
        path : str, path, or open file of bytes

        Raises
        ------
        InputError
            A name or a cell is neither a number, a text, a line of shapely, nor a list or tuple of
            such. Nothing is written then.
        OSError
        """
        save(path, self._roads, self.coordinates, self.report)

    @classmethod
    def load(cls, path: Source) -> Network:
        """The network of a file that `save` wrote.

        Parameters
        ----------
        path : as `save` takes it

        Raises
        ------
        InputError
            The file is damaged, of a later version, or no such file.
        ImportError
            It has lines of shapely, which is not installed.
        OSError
        """
        return cls(*load(path))

    def __getstate__(self) -> tuple[Roads, Optional[Coordinates], Optional[Report]]:
        return self._roads, self.coordinates, self.report

    def __setstate__(self, state: tuple[Roads, Optional[Coordinates], Optional[Report]]) -> None:
        Network.__init__(self, *state)

    def __repr__(self) -> str:
        size = f"{len(self.places)} places and {len(self._roads.tails)} arcs"
        return f"<diffuse.Network of {size}, by {', '.join(self.costs)}>"

    @property
    def places(self) -> Sequence[Hashable]:
        """The names of the places, in the order in which they first come; the vertex of a place is
        its position, from 1 on."""
        return self._roads.names

    @property
    def costs(self) -> Mapping[str, int]:
        """The scale of each cost, by its name."""
        return {name: cost.scale for name, cost in self._roads.costs.items()}

    def vertex(self, place: Any) -> int:
        """The number of a place in the graphs; of coordinates, that of the nearest place. Raises
        NoVertex."""
        try:
            return self._roads.numbers[place]
        except (KeyError, TypeError):
            if _is_pair(place) and self.coordinates is not None:
                return self._roads.numbers[self.nearest(place[0], place[1])]
            raise NoVertex(f"there is no place {shown(place)}{self._hint(place)}") from None

    def _hint(self, place: object) -> str:
        """The name that may have been meant: a text for a number, or a number for a text."""
        if _is_pair(place):
            return "; coordinates need a network that has some"
        number = isinstance(place, str) and place.isdecimal() and len(place) < 20
        other = int(str(place)) if number else str(place)[:80]
        return f"; but there is {other!r}" if other in self._roads.numbers else ""

    @overload
    def nearest(self, x: Iterable[Pair], y: None = None,
                radius: Optional[Number] = None) -> list[Hashable]: ...

    @overload
    def nearest(self, x: Number, y: Number, radius: Optional[Number] = None) -> Hashable: ...

    def nearest(self, x: Any, y: Any = None, radius: Optional[Number] = None) -> Any:
        """The place that is nearest to a point, of equal ones the first; or of a list of points
        that of each.

        Parameters
        ----------
        x, y : number
            A longitude and a latitude, or any x and y in the unit of the network.
        x : iterable of pairs, or array of float, shape (points, 2)
            Many points, without y.
        radius : number, optional
            How many metres it may be away, 1,000 if nothing is said; or in the unit of x and y, as
            far as it likes.

        Raises
        ------
        NoVertex
            None is so near.
        InputError
            The network has no coordinates.
        """
        places, most = self._near(radius)
        with self._lock:
            if self._known is None:
                names = [name for name in self.places if name in places.points]
                points = [places.points[name] for name in names]
                self._known = names, Points(points, places.degrees)
            names, known = self._known
        asked, one = self._asked(x, y)
        found = known.nearest_of_each(asked)
        for number, (way, _) in enumerate(found):
            if way > most:
                fault = self._far("place", asked[number], way, most)
                raise fault if one else placed(fault, f"points[{number}]")
        answer = [names[place] for _, place in found]
        return answer[0] if one else answer

    @overload
    def snap(self, x: Iterable[Pair], y: None = None,
             radius: Optional[Number] = None) -> Snaps: ...

    @overload
    def snap(self, x: Number, y: Number, radius: Optional[Number] = None) -> Snap: ...

    def snap(self, x: Any, y: Any = None, radius: Optional[Number] = None) -> Any:
        """The point on a road that is nearest to a point; or of a list of points that of each.

        Which road is nearest is found on a plane, which for some kilometres is as good as the
        earth. Roads between places without coordinates are left out.

        Parameters
        ----------
        x, y, radius
            As of `nearest`.

        Raises
        ------
        As `nearest` does.
        """
        places, most = self._near(radius)
        with self._lock:
            if self._road_grid is None:
                self._road_grid = RoadGrid(self._roads, places)
        asked, one = self._asked(x, y)
        found = []
        for number, point in enumerate(asked):
            snap = self._road_grid.nearest(point)
            if snap is None or snap.distance > most:
                fault = self._far("road", point, snap.distance if snap else inf, most)
                raise fault if one else placed(fault, f"points[{number}]")
            found.append(snap)
        return found[0] if one else Snaps(self, found)

    def _near(self, radius: Optional[Number]) -> tuple[Coordinates, float]:
        """The coordinates, and how far what is found may be."""
        if self.coordinates is None:
            raise InputError(
                "the nearest place is found by coordinates, which this network does not have")
        if radius is not None:
            return self.coordinates, positive(radius, "radius")
        return self.coordinates, NEAR if self.coordinates.degrees else inf

    def _asked(self, x: Any, y: Any) -> tuple[list[Point], bool]:
        """The points that are asked for, and whether it is one alone."""
        degrees = self.coordinates is not None and self.coordinates.degrees
        if y is not None:
            return [point_of(x, y, degrees)], True
        if _is_pair(x):
            return [point_of(x[0], x[1], degrees)], True
        found = []
        wide, high = MOST_DEGREES if degrees else (1e100, 1e100)
        pairs = x.tolist() if getattr(x, "ndim", 0) == 2 else listed(x, POINTS)
        for number, pair in enumerate(pairs):
            try:
                if not hasattr(pair, "__len__") or len(pair) != 2:
                    raise BadShape(f"{shown(pair)} is not a pair of coordinates")
                u, v = pair
                sure = type(u) is type(v) is float and abs(u) <= wide and abs(v) <= high
                found.append((u, v) if sure else point_of(u, v, degrees))
            except InputError as fault:
                raise placed(fault, f"points[{number}]") from None
        return found, False

    def _far(self, what: str, point: Point, way: float, most: float) -> NoVertex:
        unit = "m " if self.coordinates and self.coordinates.degrees else ""
        return NoVertex(f"no {what} is within {most:.12g} {unit}of {point}; the nearest is "
                        f"{way:.0f} {unit}away; radius= takes others")

    def graph(self, by: str, towards: bool = False) -> Graph:
        """The graph by a cost, made at the first question.

        Parameters
        ----------
        by : str
            The cost.
        towards : bool
            Whether each arc is turned round.
        """
        weights = self._cost(by).weights
        with self._lock:
            if (by, towards) not in self._graphs:
                roads = self._roads
                ends = (roads.heads, roads.tails) if towards else (roads.tails, roads.heads)
                graph = Graph.from_columns(*ends, weights, vertices=len(self.places))
                self._graphs[by, towards] = graph if towards else _numbered(graph)
            return self._graphs[by, towards]

    def factor(self, by: str, algebra: AnyAlgebra = Algebra.SHORTEST,
               towards: bool = False) -> None:
        """Factors the graph by a cost, once: routes, trees and tables by it are then the same, in
        a fraction of the time. It takes as long as ten to twenty routes.

        Parameters
        ----------
        by : str
            The cost.
        algebra : Algebra or str
        towards : bool
            The graph of questions `towards`, which is another one.

        Raises
        ------
        NotFactored
            That does not pay, or the algebra has no factors; the graph is searched as before.
        """
        self.graph(by, towards).factor(self._algebra(algebra, by))

    def route(self, source: Any, target: Any, by: str, algebra: AnyAlgebra = Algebra.SHORTEST,
              limit: Optional[Number] = None, stop: Optional[Stop] = None) -> NamedRoute:
        """The best route by a cost.

        Parameters
        ----------
        source, target : place, or pair of coordinates
        by : str
            The cost.
        algebra : Algebra or str
            What is best.
        limit : number, optional
            Of `within` alone, in the unit of the cost.
        stop : Stop, optional
            By which another thread may end the call.

        Raises
        ------
        NoRoute
        """
        kind, ends = self._algebra(algebra, by), (self.vertex(source), self.vertex(target))
        try:
            found = self.graph(by).route(*ends, kind, self._limit(by, limit), stop)
        except NoRoute:
            reached = "" if limit is not None else self._reached(ends[0], by, stop)
            raise NoRoute(f"no route leads from {source} to {target}{reached}") from None
        return self._named(found, by, kind)

    def _reached(self, vertex: int, by: str, stop: Optional[Stop]) -> str:
        """How many places are reached from one."""
        near = self.graph(by).near(vertex, Algebra.REACH, stop=stop)
        return f": from there {len(near)} of {len(self.places)} places are reached"

    def routes(self, pairs: Iterable[Sequence[Any]], by: str,
               algebra: AnyAlgebra = Algebra.SHORTEST, limit: Optional[Number] = None,
               stop: Optional[Stop] = None) -> Routes:
        """The best route of each of many pairs of places; None where no route leads.

        Parameters
        ----------
        pairs : iterable of pairs
            Of places or coordinates: from where and to where.
        by, algebra, limit, stop
            As of `route`.

        Raises
        ------
        InputError
            With the number of the first pair that can't be used.
        """
        kind, bound, graph = self._algebra(algebra, by), self._limit(by, limit), self.graph(by)
        ends: list[tuple[int, int]] = []
        for number, pair in enumerate(listed(pairs, PAIRS)):
            try:
                if not hasattr(pair, "__len__") or len(pair) != 2:
                    raise BadShape(f"{shown(pair)} is not a pair of places")
                ends.append((self.vertex(pair[0]), self.vertex(pair[1])))
            except InputError as fault:
                raise placed(fault, f"pairs[{number}]") from None
        found: list[Optional[NamedRoute]] = []
        for source, target in ends:
            try:
                route = graph.route(source, target, kind, bound, stop)
            except NoRoute:
                found.append(None)
            else:
                found.append(self._named(route, by, kind))
        names = self.places
        known = [(names[source - 1], names[target - 1]) for source, target in ends]
        return Routes(self, by, known, found)

    def route_between(self, begin: Any, end: Any, by: str,
                      stop: Optional[Stop] = None) -> BetweenPoints:
        """The shortest route by a cost between points on roads.

        Of a road that is gone along in part, the same part of its cost is counted, rounded to the
        nearest weight, a half upwards: at each end the cost is up to half a unit of its scale more
        or less. A road is left against its direction only if it is both ways, or another one leads
        back along its line.

        Parameters
        ----------
        begin, end : Snap, pair of coordinates, or place
            Points of `snap`, coordinates, which are snapped, or places.
        by : str
            The cost.
        stop : Stop, optional

        Raises
        ------
        NoRoute
        """
        return best_between(self, self._on_road(begin), self._on_road(end), by, stop)

    def _on_road(self, point: Any) -> End:
        """A point on a road, or the name of a place."""
        if isinstance(point, Snap):
            return point
        if _is_pair(point) and self.coordinates is not None and not self._is_place(point):
            snap: Snap = self.snap(point[0], point[1])
            return snap
        return self._name(point)

    def tree(self, sources: Sources, by: str, algebra: AnyAlgebra = Algebra.SHORTEST,
             limit: Optional[Number] = None, towards: bool = False,
             stop: Optional[Stop] = None) -> NamedTree:
        """The best routes of all places from the nearest of one or more sources.

        Parameters
        ----------
        sources : place, pair of coordinates, or a list of them
        by, algebra, limit, stop
            As of `route`.
        towards : bool
            *To* the nearest source instead: who reaches me, and how. `reliable` then rounds from
            the source on too.
        """
        kind, begins = self._algebra(algebra, by), self._sources(sources)
        vertices = [self.vertex(name) for name in begins]
        tree = self.graph(by, towards).tree(vertices, kind, self._limit(by, limit), stop)
        return NamedTree(self, tree, by, kind, begins, towards)

    def table(self, sources: Sources, targets: Sources, by: str,
              algebra: AnyAlgebra = Algebra.SHORTEST, limit: Optional[Number] = None,
              stop: Optional[Stop] = None) -> NamedTable:
        """What is best from each source to each target. Each source takes a search, unless
        `factor` was called before.

        Parameters
        ----------
        sources, targets : place, pair of coordinates, or a list of them
        by, algebra, limit, stop
            As of `route`.
        """
        kind, scale = self._algebra(algebra, by), self._cost(by).scale
        begins, ends = self._sources(sources), self._sources(targets)
        rows, columns = ([self.vertex(name) for name in names] for names in (begins, ends))
        codes = self.graph(by).table(rows, columns, kind, self._limit(by, limit), stop)
        return NamedTable(codes, kind, scale, begins, ends)

    def isochrone(self, sources: Sources, by: str, limits: Iterable[Number],
                  towards: bool = False, stop: Optional[Stop] = None) -> Isochrone:
        """The places within each of some limits of the nearest source; or from which it is.

        Parameters
        ----------
        sources, by, towards, stop
            As of `tree`.
        limits : iterable of number
            In the unit of the cost.

        Raises
        ------
        InputError
            There is no limit, one comes twice, or one is no number from 0 on.
        """
        bounds, begins = self._limits(by, limits), self._sources(sources)
        most, vertices = self._limit(by, bounds[-1]), [self.vertex(name) for name in begins]
        near = self.graph(by, towards).near(vertices, Algebra.WITHIN, most, stop)
        found = [float(bound) for bound in bounds]
        return Isochrone(self, near, by, Algebra.WITHIN, begins, towards, found)

    def with_sum(self, name: str, parts: Mapping[str, Number], scale: int,
                 rounding: bool = False) -> Network:
        """The network with one more cost: of each arc the sum of its costs, each times a factor.

        Parameters
        ----------
        name : str
        parts : mapping from str to number
            {"minutes": 1, "km": "0.35"} adds 0.35 minutes a kilometre.
        scale : int
            How many units of weight are 1 of the new cost.
        rounding : bool
            Takes sums to the nearest whole weight, a half upwards.
        """
        if not hasattr(parts, "items"):
            raise InputError("parts: costs with their factors are needed, as in "
                             f"{{'minutes': 1}}, not {shown(parts)}")
        for part in parts:
            self._cost(part)
        return self._over(with_sum(self._roads, name, parts, scale, rounding), name)

    def with_cost(self, name: str, values: Iterable[Number], scale: Optional[int] = None, *,
                  like: Optional[str] = None, rounding: bool = False) -> Network:
        """The network with one more cost, or with other values of one, as of the roads' traffic
        now.

        The graphs by it are made of those by the cost `like`, and are factored as those are, over
        the same links, in a fraction of the time.

        Parameters
        ----------
        name : str
        values : iterable of number, or array, shape (roads,)
            A number for each road of the table.
        scale : int, optional
            That of `like`, if nothing is said.
        like : str, optional
            The same cost, if nothing is said and there is one of this name.
        rounding : bool
            Takes finer decimals to the nearest whole weight, a half upwards.

        Raises
        ------
        InputError
            With the row of the first number that can't be used.
        TooHeavy
            The weights are too great for factors.
        """
        like = like if like is not None or name not in self.costs else name
        if like is None and scale is None:
            raise InputError(f"scale: {shown(name)} is a new cost, which needs one, or the name "
                             "of a cost that it is like")
        scale = scale if like is None or scale is not None else self._cost(like).scale
        network = self._over(with_values(self._roads, name, values, scale, rounding), name)
        with self._lock:
            graphs = {towards: graph for (by, towards), graph in self._graphs.items()
                      if by == like}
        for towards, graph in graphs.items():
            other = graph.with_weights(network._cost(name).weights)
            network._graphs[name, towards] = other if towards else _numbered(other)
        return network

    def draw(self, path: Target, *answers: Union[NamedRoute, NamedTree],
             labels: Optional[Labels] = None, title: str = "", width: int = 1000) -> Optional[str]:
        """Writes an SVG of the network, and over it trees, isochrones and routes of its own.

        If places are few, streets have their names where there is room.

        Parameters
        ----------
        path : str, path, open file of text, or None
            With None the text is returned.
        *answers : NamedRoute, NamedTree or Isochrone
        labels : iterable of places, or mapping from places to str, optional
            Which places are labelled beside the ends of routes and the sources, perhaps with other
            words: {426: "Town hall"}. Without it so are all places if they are few.
        title : str
        width : int
            In pixels, from 160 to 100,000.

        Raises
        ------
        InputError
            There are no coordinates, or an answer can't be drawn.
        OSError
        """
        return draw(self, path, answers, labels, title, width)

    def plot(self, *answers: Union[NamedRoute, NamedTree], ax: Any = None) -> Any:
        """Draws the same with matplotlib.

        Parameters
        ----------
        *answers : NamedRoute, NamedTree or Isochrone
        ax : matplotlib.axes.Axes, optional
            A new one, if nothing is said.

        Returns
        -------
        matplotlib.axes.Axes

        Raises
        ------
        ImportError
            There is no matplotlib.
        """
        return plot(self, answers, ax)

    def _repr_svg_(self) -> Optional[str]:
        return self._picture()

    def _picture(self, *answers: Union[NamedRoute, NamedTree]) -> Optional[str]:
        """What a notebook shows; nothing without coordinates, or of very many roads."""
        if self.coordinates is None or len(self._roads.tails) > FEW_ROADS:
            return None
        return self.draw(None, *answers)

    def to_networkx(self) -> Any:
        """The network as a networkx.MultiDiGraph: an edge for each arc, with its number as key,
        its costs, and what the table says of its road; nodes with their coordinates as x and y.

        Raises ImportError without networkx.
        """
        import networkx

        graph, roads = networkx.MultiDiGraph(), self._roads
        points = self.coordinates.points if self.coordinates else {}
        for name in self.places:
            at = points.get(name)
            graph.add_node(name, **({} if at is None else {"x": at[0], "y": at[1]}))
        columns = roads.table.columns if roads.table else {}
        for arc, (tail, head, row) in enumerate(zip(roads.tails, roads.heads, roads.rows)):
            members = {str(name): cells[row] for name, cells in columns.items()}
            sums = {name: cost.weights[arc] / cost.scale for name, cost in roads.costs.items()}
            ends = self.places[tail - 1], self.places[head - 1]
            graph.add_edge(*ends, arc, **{**members, **sums})
        return graph

    def _over(self, roads: Roads, name: str) -> Network:
        """The network of the same roads with another cost of this name, and with what is known of
        them."""
        network = type(self)(roads, self.coordinates, self.report)
        with self._lock:
            network._graphs = {key: graph for key, graph in self._graphs.items() if key[0] != name}
            network._ends, network._known = dict(self._ends), self._known
            network._road_grid = self._road_grid
        return network

    def _cost(self, name: str) -> Cost:
        """The cost of a name. Raises InputError."""
        try:
            return self._roads.costs[name]
        except (KeyError, TypeError):
            raise InputError(
                f"there is no cost {shown(name)}; there are {', '.join(self.costs)}") from None

    def _total(self, cost: str, arcs: Iterable[int]) -> float:
        """The sum of a cost over some arcs, in its unit. Raises InputError."""
        column = self._cost(cost)
        return sum(column.weights[arc] for arc in arcs) / column.scale

    def _line(self, arcs: Iterable[int], begins: Iterable[Hashable]) -> list[Point]:
        """Where some places are, and the arcs from there on. Raises InputError without
        coordinates."""
        if self.coordinates is None:
            raise InputError("a line on a map needs places with coordinates")
        points = self.coordinates.points
        line = [points[place] for place in begins if place in points]
        for arc in arcs:
            line += [point for point in self._roads.line(arc, self.coordinates)
                     if line[-1:] != [point]]
        return line

    def _along(self, vertices: Sequence[int], arcs: Sequence[int]) -> Network:
        """A network of the roads of a route alone."""
        roads = self._roads.along(vertices, arcs)
        if self.coordinates is None:
            return type(self)(roads)
        known = self.coordinates.points
        points = {name: known[name] for name in roads.names if name in known}
        return type(self)(roads, Coordinates(points, self.coordinates.degrees))

    def _is_place(self, name: Any) -> bool:
        try:
            return name in self._roads.numbers
        except TypeError:
            return False

    def _sources(self, sources: Any) -> list[Hashable]:
        """The places that are meant: one, a list of them, coordinates, or a list of those. Two
        numbers are coordinates unless both are places, or both are whole numbers in a list."""
        if self._is_place(sources):
            return [sources]
        if isinstance(sources, (str, bytes)) or not hasattr(sources, "__iter__"):
            return [self._name(sources)]
        members = listed(sources, PLACES)
        if (_is_pair(sources) and self.coordinates is not None
                and not all(map(self._is_place, members))
                and (isinstance(sources, tuple) or not all(_is_whole(it) for it in members))):
            return [self._name(sources)]
        return list(map(self._name, members))

    def _name(self, place: Any) -> Hashable:
        """A place by its name, or the nearest one to a point. Raises NoVertex."""
        return self.places[self.vertex(place) - 1]

    def _algebra(self, algebra: AnyAlgebra, by: str) -> Algebra:
        kind, scale = algebra_of(algebra), self._cost(by).scale
        if kind is Algebra.RELIABLE and scale != MILLION:
            raise NoAlgebra(f"reliable takes chances by the scale {MILLION}, and {by} has {scale}")
        return kind

    def _limit(self, by: str, limit: Optional[Number], name: str = "limit") -> Optional[int]:
        if limit is None:
            return None
        units = scaled(argument_of(limit, name), self._cost(by).scale, MOST_LIMIT)
        if units is None:
            raise NoAlgebra(f"{name}: {limit} is not from 0 to 2^63 divided by the scale")
        return int(units.to_integral_value(ROUND_FLOOR))

    def _limits(self, by: str, limits: Any) -> list[Decimal]:
        if isinstance(limits, bytes):
            raise LIMITS.refused(limits)
        bounds = [argument_of(plain(limit), f"limits[{place}]")
                  for place, limit in enumerate(listed(limits, LIMITS))]
        if not bounds:
            raise InputError("limits: at least one is needed")
        for place, bound in enumerate(bounds):
            if bound in bounds[:place]:
                raise InputError(f"limits[{place}]: {bound} comes twice")
            self._limit(by, bound, f"limits[{place}]")
        return sorted(bounds)

    def _arcs_by_end(self, towards: bool = False) -> ArcsByEnd:
        """The arcs out of each vertex, or with `towards` into it; made at the first question."""
        with self._lock:
            if towards not in self._ends:
                ends = self._roads.heads if towards else self._roads.tails
                self._ends[towards] = ArcsByEnd(len(self.places), ends)
            return self._ends[towards]

    def _arcs_between(self, tail: int, head: int) -> list[int]:
        """The arcs from a vertex to another, in order."""
        heads = self._roads.heads
        return [arc for arc in self._arcs_by_end().at(tail) if heads[arc] == head]

    def _named(self, route: Route, by: str, algebra: Algebra) -> NamedRoute:
        """A route with the arcs that it takes: of parallel ones that of the best weight, which for
        sums the graph knows."""
        if route.arcs is None or not algebra.is_sum:
            weights, pairs = self._cost(by).weights, zip(route.vertices, route.vertices[1:])
            arcs = [best_arc(self._arcs_between(tail, head), weights, algebra)
                    for tail, head in pairs]
            route = Route(route.value, len(arcs), route.vertices, arcs)
        return NamedRoute(self, route, by, algebra)


def _numbered(graph: Graph) -> Graph:
    """A graph whose routes say which of parallel arcs they take."""
    graph.number()
    return graph


def _is_whole(value: object) -> bool:
    return isinstance(plain(value), int)


def _is_pair(place: Any) -> bool:
    """Whether this is a pair of numbers, as a longitude and a latitude."""
    if isinstance(place, (tuple, list)):
        return len(place) == 2 and all(
            isinstance(plain(value), (int, float)) and not is_truth(value) for value in place)
    return np is not None and isinstance(place, np.ndarray) and (
        place.shape == (2,) and place.dtype.kind == "f")
