"""Roads: the arcs of a network by numbers, with the names of its places and several costs for each
arc; made of tables, of graphs of networkx, and of files of the 9th DIMACS challenge."""
from __future__ import annotations

import re
from array import array
from dataclasses import dataclass, field, replace
from decimal import Decimal
from fractions import Fraction
from itertools import chain
from math import lcm
from typing import Any, Hashable, Iterable, Mapping, Optional, Sequence, Union
from uuid import uuid4

from .answers import Algebra
from .columns import MOST_32, Argument, is_truth, listed, np
from .errors import BadShape, InputError, NotANumber, OutOfRange, placed, shown
from .geometry import Point
from .graph import Graph
from .tables import (
    Source, Table, argument_of, bytes_of, check_sign, decimal_of, flags_of, names_of, path_of,
    plain, scale_of, weights_of,
)

Costs = Mapping[str, int]
"""The scale of each cost, by the name of its column: weights are the decimals times the scale, and
whole."""
MICRODEGREES = 1_000_000
MOST_DEGREES = (180, 90)
VALUES = Argument("values", needed="a number for each road")
MOST_DIGITS = 50
"""A factor has no digit further than so many places before or after the point."""


@dataclass(frozen=True)
class Coordinates:
    """Where places are, by name.

    Parameters
    ----------
    points : mapping from names to (float, float)
        Longitude and latitude, or x to the right and y upwards in any unit.
    degrees : bool
        Whether they are degrees.
    """

    points: Mapping[Hashable, Point]
    degrees: bool = True


def coordinates_of(table: Table, name: Any, x: Any, y: Any, degrees: bool,
                   decimal: str = ".") -> Coordinates:
    """The places of a table. Raises InputError for a place that comes twice, NotANumber, or
    OutOfRange for degrees."""
    points: dict[Hashable, Point] = {}
    columns = [table.column(column) for column in (x, y)]
    for row, place in enumerate(names_of(table, name)):
        if place in points:
            raise InputError(f"{table.where(row, name)}: {shown(place)} comes twice")
        at = []
        for cells, column, most in zip(columns, (x, y), MOST_DEGREES):
            try:
                at.append(coordinate_of(cells[row], most if degrees else None, decimal))
            except InputError as fault:
                raise placed(fault, table.where(row, column)) from None
        points[place] = (at[0], at[1])
    return Coordinates(points, degrees)


def coordinate_of(cell: Any, most: Optional[int], decimal: str = ".") -> float:
    """A coordinate, in degrees if there is a greatest. Raises NotANumber or OutOfRange."""
    value = cell if type(cell) is float else float(decimal_of(cell, decimal))
    if value != value or value in (float("inf"), -float("inf")):
        raise NotANumber(f"{shown(cell)} is no number")
    if most is not None and abs(value) > most:
        raise OutOfRange(f"{value} is not from -{most} to {most}; degrees=False takes others")
    if abs(value) > 1e100:
        raise OutOfRange(f"{value} is not from -1e100 to 1e100")
    return value


def point_of(x: object, y: object, degrees: bool) -> Point:
    """The point of two coordinates. Raises NotANumber or OutOfRange with their name."""
    found = []
    names = ("longitude", "latitude") if degrees else ("x", "y")
    for value, name, most in zip((x, y), names, MOST_DEGREES):
        try:
            found.append(coordinate_of(plain(value), most if degrees else None))
        except InputError as fault:
            raise placed(fault, name) from None
    return found[0], found[1]


@dataclass(frozen=True)
class Cost:
    """A weight for each arc, and the scale: how many units of weight are 1 in the column."""

    weights: "array[int]"
    scale: int


@dataclass(frozen=True)
class Roads:
    """Arcs from tails to heads (vertices from 1), the row of the table that each comes from, and
    its costs.

    `street` is the column of the names of streets, and `shapes` has for each row the points
    between its ends, if they are known. Roads of one origin differ only in their costs.
    """

    names: Sequence[Hashable]
    tails: "array[int]"
    heads: "array[int]"
    rows: "array[int]"
    costs: Mapping[str, Cost]
    table: Optional[Table] = None
    numbers: Mapping[Hashable, int] = field(default_factory=dict)
    street: Optional[str] = None
    shapes: Optional[Sequence[Sequence[Point]]] = None
    origin: str = field(default_factory=lambda: uuid4().hex, compare=False)

    def is_back(self, arc: int) -> bool:
        """Whether an arc is the way back of a road, which comes right after the way there."""
        return arc > 0 and self.rows[arc] == self.rows[arc - 1]

    def back(self, arc: int) -> Optional[int]:
        """The arc of the same road in the other direction, if there is one."""
        if self.is_back(arc):
            return arc - 1
        return arc + 1 if arc + 1 < len(self.rows) and self.is_back(arc + 1) else None

    def line(self, arc: int, places: Coordinates) -> list[Point]:
        """An arc on the map: its tail, the points of its shape, its head; without those whose
        coordinates are not known."""
        ends = [places.points.get(self.names[end - 1])
                for end in (self.tails[arc], self.heads[arc])]
        whole = [ends[0], *self._shape(arc), ends[1]]
        return [point for point in whole if point is not None]

    def along(self, vertices: Sequence[int], arcs: Sequence[int]) -> Roads:
        """The roads of a route alone: its places in their order, and an arc from each to the
        next."""
        names, count = [self.names[vertex - 1] for vertex in vertices], len(arcs)
        costs = {name: Cost(array("I", [cost.weights[arc] for arc in arcs]), cost.scale)
                 for name, cost in self.costs.items()}
        return Roads(
            names, array("I", range(1, count + 1)), array("I", range(2, count + 2)),
            array("I", range(count)), costs,
            self.table and self.table.only([self.rows[arc] for arc in arcs]), numbered(names),
            self.street, None if self.shapes is None else [self._shape(arc) for arc in arcs],
            self.origin)

    def _shape(self, arc: int) -> Sequence[Point]:
        points: Sequence[Point] = () if self.shapes is None else self.shapes[self.rows[arc]]
        return points[::-1] if self.is_back(arc) else points


def numbered(names: Iterable[Any]) -> dict[Hashable, int]:
    """The vertex of each name, from 1 on, in the order in which the names first come."""
    return {name: number for number, name in enumerate(dict.fromkeys(names), 1)}


@dataclass(frozen=True)
class Columns:
    """Which columns of a table say where roads begin and end, what they cost, whether they lead
    back, their streets and their lines."""

    tail: Any
    head: Any
    costs: Costs
    both_ways: Union[bool, str] = False
    rounding: bool = False
    decimal: str = "."
    street: Optional[str] = None
    geometry: Optional[str] = None

    def __post_init__(self) -> None:
        if not hasattr(self.costs, "items"):
            raise InputError("costs: columns with their scales are needed, as in "
                             f"{{'minutes': 10}}, not {shown(self.costs)}")
        if not is_truth(self.both_ways) and not isinstance(self.both_ways, str):
            raise InputError("both_ways: True, False or the name of a column is needed, "
                             f"not {shown(self.both_ways)}")
        check_sign(self.decimal)


def roads_of(table: Table, columns: Columns, places: Optional[Coordinates],
             more: Iterable[Hashable] = ()) -> tuple[Roads, Optional[Coordinates]]:
    """The roads of a table: an arc for each row, and for a road both ways the arc back after it;
    and where its places are, by their lines if nothing else is known.

    `more` are places that may have no road. Raises InputError and its kinds with the place of the
    first fault.
    """
    begins, ends = names_of(table, columns.tail), names_of(table, columns.head)
    both_ways = columns.both_ways
    back = (flags_of(table, both_ways) if isinstance(both_ways, str)
            else [bool(both_ways)] * len(table))
    shapes = None
    if columns.geometry is not None:
        shapes, places = shapes_of(table, columns.geometry, list(zip(begins, ends)), places)
    known = places.points if places else ()
    numbers = numbered(chain(chain.from_iterable(zip(begins, ends)), known, more))
    rows = array("I", [row for row, both in enumerate(back) for _ in range(1 + both)])
    tails, heads = array("I"), array("I")
    pairs = zip(map(numbers.__getitem__, begins), map(numbers.__getitem__, ends))
    for (begin, end), both in zip(pairs, back):
        tails.extend((begin, end) if both else (begin,))
        heads.extend((end, begin) if both else (end,))
    kept = {}
    for name, scale in columns.costs.items():
        scale = scale_of(scale, name)
        weights = weights_of(table, name, scale, columns.rounding, columns.decimal)
        kept[name] = Cost(weights_at(weights, rows), scale)
    if columns.street is not None:
        table.column(columns.street)
    roads = Roads(list(numbers), tails, heads, rows, kept, table, numbers, columns.street, shapes)
    return roads, places


def weights_at(weights: Sequence[int], rows: "array[int]") -> "array[int]":
    """The weight of each arc, by those of the rows."""
    if np is None or not len(rows):
        return array("I", [weights[row] for row in rows])
    found = np.array(weights, dtype=np.uint32)[np.frombuffer(rows, dtype=np.uint32)]
    return array("I", found.tobytes())


def shapes_of(table: Table, column: str, ends: Sequence[tuple[Any, Any]],
              places: Optional[Coordinates]) -> tuple[list[list[Point]], Optional[Coordinates]]:
    """The points between the ends of each road, by its line: one of shapely, or a list of points;
    and the places, by the ends of the lines if they are not known.

    A line that begins nearer to the head is turned. Raises InputError or its kinds with the place
    of the first fault.
    """
    degrees = places.degrees if places else True
    known: dict[Hashable, Point] = dict(places.points) if places else {}
    shapes: list[list[Point]] = []
    for row, (cell, (tail, head)) in enumerate(zip(table.column(column), ends)):
        try:
            line = line_of_cell(cell, degrees)
        except InputError as fault:
            raise placed(fault, table.where(row, column)) from None
        if line:
            begin, end = known.setdefault(tail, line[0]), known.setdefault(head, line[-1])
            if _square(line[0], begin) > _square(line[-1], begin) and begin != end:
                line.reverse()
        shapes.append([point for point in line if point not in (known.get(tail), known.get(head))])
    return shapes, Coordinates(known, degrees) if known else places


def _square(a: Point, b: Point) -> float:
    return (a[0] - b[0]) ** 2 + (a[1] - b[1]) ** 2


def line_of_cell(cell: Any, degrees: bool) -> list[Point]:
    """The points of a line; none of an empty cell. Raises BadShape, NotANumber or OutOfRange."""
    if cell is None or cell != cell:
        return []
    points = getattr(cell, "coords", cell)
    if isinstance(points, str) or not hasattr(points, "__iter__"):
        raise BadShape(f"{shown(cell)} is neither a line of shapely nor a list of points")
    line = []
    for point in points:
        if not hasattr(point, "__len__") or len(point) < 2:
            raise BadShape(f"{shown(point)} is not a pair of coordinates")
        line.append(point_of(point[0], point[1], degrees))
    return line


def best_arc(arcs: Iterable[int], weights: "array[int]", algebra: Algebra) -> int:
    """The arc of the best weight, and of equal ones the first."""
    sign = 1 if algebra.is_sum else -1 if algebra in (Algebra.WIDEST, Algebra.RELIABLE) else 0
    return min(arcs, key=lambda arc: sign * weights[arc])


class ArcsByEnd:
    """The numbers of the arcs at each vertex, in order: by their tails, those out of it; by their
    heads, those into it."""

    def __init__(self, vertices: int, ends: "array[int]") -> None:
        if np is not None and len(ends):
            column = np.frombuffer(ends, dtype=np.uint32)
            order = np.argsort(column, kind="stable").astype(np.uint32)
            begins = np.searchsorted(column[order], np.arange(vertices + 2)).astype(np.uint32)
            self._begins = array("I", begins.tobytes())
            self._arcs = array("I", order.tobytes())
            return
        self._begins = array("I", bytes(4 * (vertices + 2)))
        for end in ends:
            self._begins[end + 1] += 1
        for vertex in range(1, vertices + 2):
            self._begins[vertex] += self._begins[vertex - 1]
        places, self._arcs = array("I", self._begins), array("I", bytes(4 * len(ends)))
        for arc, end in enumerate(ends):
            self._arcs[places[end]] = arc
            places[end] += 1

    def at(self, vertex: int) -> "array[int]":
        """The arcs at a vertex, in the order of the table."""
        return self._arcs[self._begins[vertex]:self._begins[vertex + 1]]


def with_sum(roads: Roads, name: str, parts: Mapping[str, Any], scale: int,
             rounding: bool) -> Roads:
    """The roads with one more cost: of each arc the sum of its costs, each times a factor.

    Raises InputError for a name that there is, a factor or scale that is none, or a sum that is
    not whole by the scale and not to be rounded; OutOfRange.
    """
    scale = scale_of(scale, name)
    if not isinstance(name, str):
        raise InputError(f"name: a text is needed, not {shown(name)}")
    if name in roads.costs:
        raise InputError(f"there is a cost {name!r} already")
    ratios = []
    for part, factor in parts.items():
        cost = roads.costs[part]
        share = Fraction(_factor(factor, f"the factor of {part}")) * scale / cost.scale
        ratios.append((share, cost.weights))
    below = lcm(*(ratio.denominator for ratio, _ in ratios))
    columns = [(int(ratio * below), weights) for ratio, weights in ratios]
    found = array("I")
    for arc, row in enumerate(roads.rows):
        units = sum(factor * weights[arc] for factor, weights in columns)
        whole = (2 * units + below) // (2 * below)
        if (whole * below != units and not rounding) or units < 0 or whole > MOST_32:
            where = roads.table.row(row) if roads.table else f"row {row}"
            raise _refused_sum(Fraction(units, below), scale, f"{where}, {name}")
        found.append(whole)
    return replace(roads, costs={**roads.costs, name: Cost(found, scale)})


def with_values(roads: Roads, name: str, values: Any, scale: Any, rounding: bool) -> Roads:
    """The roads with one more cost, or another one in its place: a number for each road of their
    table.

    Raises InputError or its kinds with the place of the first number that can't be used.
    """
    cells = values.tolist() if getattr(values, "ndim", 0) == 1 else listed(values, VALUES)
    count = len(roads.table) if roads.table else max(roads.rows, default=-1) + 1
    if not isinstance(name, str):
        raise InputError(f"name: a text is needed, not {shown(name)}")
    if len(cells) != count:
        raise BadShape(f"values has {len(cells)} numbers, and the network {count} roads")
    scale = scale_of(scale, name)
    table = Table("values", {name: cells}, "row", range(count))
    weights = weights_of(table, name, scale, rounding, ".")
    cost = Cost(weights_at(weights, roads.rows), scale)
    return replace(roads, costs={**roads.costs, name: cost})


def _factor(value: Any, name: str) -> Decimal:
    factor = argument_of(value, name)
    exponent = factor.as_tuple().exponent
    if (factor.adjusted() > MOST_DIGITS or not isinstance(exponent, int)
            or exponent < -MOST_DIGITS):
        raise OutOfRange(
            f"{name}: {shown(value)} has digits more than {MOST_DIGITS} places from the point")
    return factor


def _refused_sum(units: Fraction, scale: int, where: str) -> InputError:
    number = f"{where}: {Decimal(units.numerator) / units.denominator:.12g}"
    if not 0 <= units <= MOST_32:
        return OutOfRange(f"{number} is not from 0 to {MOST_32}")
    return InputError(
        f"{number} is not whole by the scale {scale}; take a larger scale, or rounding=True")


def free_name(name: str, taken: Iterable[Any]) -> str:
    """The name, with as many lines after it as make it another than those that are taken."""
    return free_name(f"{name}_", taken) if name in taken else name


@dataclass(frozen=True)
class Edges:
    """The edges of a graph of networkx as a table of all their attributes; and the columns of
    their ends, and of their lines if they have some."""

    table: Table
    tail: str
    head: str
    geometry: Optional[str]


def networkx_edges(graph: Any, costs: Iterable[Any]) -> Edges:
    """The edges; an attribute that one does not have is None. Raises InputError for an edge
    without a cost."""
    if not hasattr(graph, "edges") or not hasattr(graph, "is_directed"):
        raise InputError(f"graph: a graph of networkx is needed, not {shown(graph)}")
    edges = list(graph.edges(data=True))
    names = dict.fromkeys(name for _, _, data in edges for name in data)
    for tail, head, data in edges:
        for cost in costs:
            if data.get(cost) is None:
                raise InputError(f"graph, edge {tail} to {head}: there is no {cost}")
    columns = {name: [plain(data.get(name)) for _, _, data in edges] for name in names}
    lines = columns.get("geometry", [])
    has_lines = any(hasattr(line, "coords") for line in lines)
    ends = [free_name(name, names) for name in ("tail", "head")]
    columns.update({name: [edge[end] for edge in edges] for end, name in enumerate(ends)})
    table = Table("graph", columns, "edge", range(len(edges)))
    return Edges(table, ends[0], ends[1], "geometry" if has_lines else None)


def networkx_places(graph: Any, x: str, y: str, degrees: bool) -> Optional[Coordinates]:
    """The nodes that have coordinates, if any has. Raises NotANumber or OutOfRange."""
    nodes = [(node, data[x], data[y]) for node, data in graph.nodes(data=True)
             if x in data and y in data]
    name = free_name("node", (x, y))
    columns = {key: [node[place] for node in nodes] for place, key in enumerate((name, x, y))}
    table = Table("graph", columns, "node", range(len(nodes)))
    places = coordinates_of(table, name, x, y, degrees)
    return places if places.points else None


def dimacs_roads(path: Source, cost: str) -> Roads:
    """The arcs of a .gr file, once the C library has read it without a fault."""
    text, name = bytes_of(path), path_of(path)
    with Graph._of_text(text, name) as graph:
        vertices = graph.vertices
    columns, lines = [array("I") for _ in range(3)], []
    for number, line in enumerate(text.split(b"\n"), 1):
        fields = line.split()
        if fields[:1] == [b"a"]:
            lines.append(number)
            for column, word in zip(columns, fields[1:]):
                column.append(int(word))
    tails, heads, weights = columns
    names = list(range(1, vertices + 1))
    ends = {free_name("tail", (cost,)): tails, free_name("head", (cost,)): heads}
    table = Table(name, {**ends, cost: weights}, "line", lines)
    return Roads(names, tails, heads, array("I", range(len(lines))), {cost: Cost(weights, 1)},
                 table, {name: name for name in names})


def dimacs_places(path: Source, vertices: int) -> Coordinates:
    """The places of a .co file: `p aux sp co N`, and N lines `v VERTEX LONGITUDE LATITUDE` in
    millionths of a degree.

    Raises NotANumber, OutOfRange, BadShape or InputError with the first faulty line, or for a
    vertex that the graph does not have; OSError.
    """
    points: dict[Hashable, Point] = {}
    announced: Optional[int] = None
    name = path_of(path)
    for line, text in enumerate(bytes_of(path).decode("utf-8", "replace").split("\n"), 1):
        fields = text.split()
        if not fields or fields[0].startswith("c"):
            continue
        try:
            if announced is None:
                announced = _announced(fields)
            else:
                _add_place(points, fields, announced)
        except InputError as fault:
            raise placed(fault, f"{name}, line {line}", line) from None
    if announced is None:
        raise BadShape(f"{name}: there is no line `p aux sp co VERTICES`")
    if len(points) != announced:
        raise BadShape(
            f"{name}: {len(points)} lines of vertices, and {announced} are announced")
    if len(points) > vertices:
        raise InputError(f"{name} has {len(points)} vertices, and the graph {vertices}")
    return Coordinates(points)


def _announced(fields: list[str]) -> int:
    if fields[:4] != ["p", "aux", "sp", "co"] or len(fields) != 5:
        raise BadShape("not `p aux sp co VERTICES`")
    return _number(fields[4], "VERTICES")


def _add_place(points: dict[Hashable, Point], fields: list[str], announced: int) -> None:
    if fields[0] != "v" or len(fields) != 4:
        raise BadShape("not `v VERTEX LONGITUDE LATITUDE`")
    names = ("VERTEX", "LONGITUDE", "LATITUDE")
    vertex, *at = (_number(word, name) for word, name in zip(fields[1:], names))
    if vertex in points or not 1 <= vertex <= announced:
        raise InputError(f"vertex {vertex} comes twice, or is not from 1 to {announced}")
    for value, name, most in zip(at, names[1:], MOST_DEGREES):
        if abs(value) > most * MICRODEGREES:
            most *= MICRODEGREES
            raise OutOfRange(f"{name}: {value} is not from -{most} to {most}")
    points[vertex] = (at[0] / MICRODEGREES, at[1] / MICRODEGREES)


def _number(word: str, name: str) -> int:
    if not re.fullmatch(r"-?[0-9]{1,18}", word):
        raise NotANumber(f"{name}: {shown(word)} is no whole number")
    return int(word)
