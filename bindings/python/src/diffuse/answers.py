"""What a graph is asked and answers: algebras; a route, a tree, or the vertices that are
reached."""
from __future__ import annotations

from array import array
from dataclasses import dataclass
from enum import IntEnum
from functools import cached_property
from typing import TYPE_CHECKING, Any, Iterator, Mapping, Optional, Sequence, Union

from .columns import Argument, are_equal, index_of, room, vertex_number
from .errors import BadShape, NoAlgebra, NoRoute, NotANumber, Reason, WrongTree, shown

if TYPE_CHECKING:
    from .columns import Numbers32, Numbers64

MOST_LIMIT = 2**63
UNREACHED = 2**64 - 1
"""The value of a vertex to which no walk has a value; its hops and its parent are 0."""
Entry = tuple[int, int, int]
"""The value, hops and parent of a vertex."""


class Algebra(IntEnum):
    """What is best, and what a value is. docs/WORDS.md has them in full."""

    SHORTEST = 0
    """The least sum of weights; the value is the sum, in the unit of the weights."""
    WIDEST = 1
    """The greatest least weight; the value is that weight, and 2^32 at a source."""
    REACH = 2
    """Any walk; the value is 0."""
    HOPS = 3
    """The fewest arcs; the value is their number."""
    RELIABLE = 4
    """The greatest product of chances; a weight is in parts of 10^6, the value in parts of
    10^12."""
    WITHIN = 5
    """The least sum of weights that is at most the limit; the value is the sum."""

    @property
    def is_sum(self) -> bool:
        """Whether the value is a sum of weights."""
        return self in (Algebra.SHORTEST, Algebra.WITHIN)

    @property
    def factored_as(self) -> Algebra:
        """The algebra that has the same factors: shortest for within, and else itself."""
        return Algebra.SHORTEST if self is Algebra.WITHIN else self


ALGEBRAS = {algebra.name.lower(): algebra for algebra in Algebra}
"""The algebras by the names that the program and its answers have."""

AnyAlgebra = Union[Algebra, str]


def algebra_of(algebra: AnyAlgebra) -> Algebra:
    """The algebra of a name, as the program writes it. Raises NoAlgebra."""
    if isinstance(algebra, Algebra):
        return algebra
    if not isinstance(algebra, str) or algebra not in ALGEBRAS:
        raise NoAlgebra(f"there is no algebra {shown(algebra)}; there are {', '.join(ALGEBRAS)}")
    return ALGEBRAS[algebra]


def question_of(algebra: AnyAlgebra, limit: Optional[int]) -> tuple[Algebra, int]:
    """The algebra and its limit, which only `within` has. Raises NoAlgebra."""
    found = algebra_of(algebra)
    if found is not Algebra.WITHIN:
        if limit is not None:
            raise NoAlgebra(
                f"only within has a limit, and {found.name.lower()} was given {shown(limit)}")
        return found, 0
    bound = index_of(limit)
    if bound is None or not 0 <= bound <= MOST_LIMIT:
        raise NoAlgebra(
            f"within needs a limit, a whole number from 0 to 2^63, not {shown(limit)}")
    return found, bound


@dataclass(frozen=True)
class Route:
    """A best route: its value, its number of arcs, and its vertices from the source on.

    Of the routes of best value it has least hops, and each vertex is the least possible parent of
    the next. Of parallel arcs it takes the one that extends its value best, and of those that do
    the first; so its value is that of these arcs.

    Attributes
    ----------
    value : int
        What the algebra says of the route.
    hops : int
        How many arcs it has.
    vertices : list of int, shape (hops + 1,)
    arcs : list of int, shape (hops,), or None
        The places of its arcs in the list of arcs, from 0, if the graph was numbered.
    """

    value: int
    hops: int
    vertices: list[int]
    arcs: Optional[list[int]] = None


@dataclass(frozen=True, eq=False)
class Tree:
    """For each vertex v, in place v - 1, its best value from the nearest source, its least hops
    and its least parent. An unreached vertex has UNREACHED, 0 and 0; a source has parent 0.

    Two trees are equal if they answer the same question and their lists have the same numbers. To
    have a tree of another origin checked, its lists may be any sequences of whole numbers.

    Attributes
    ----------
    values : array of uint64, shape (vertices,)
        Of numpy, or of the module array without numpy; so are the other two.
    hops, parents : array of uint32, shape (vertices,)
    sources : array of uint32
    algebra : Algebra
    limit : int or None
    """

    values: Numbers64
    hops: Numbers32
    parents: Numbers32
    sources: Numbers32
    algebra: AnyAlgebra = Algebra.SHORTEST
    limit: Optional[int] = None

    def reaches(self, vertex: int) -> bool:
        """Whether a walk to the vertex has a value. Raises NoVertex."""
        return self._number("values", self._vertex(vertex)) != UNREACHED

    def entry(self, vertex: int) -> Entry:
        """The value, hops and parent of a vertex. Raises NoVertex."""
        place = self._vertex(vertex) - 1
        return int(self.values[place]), int(self.hops[place]), int(self.parents[place])

    def entries(self) -> Iterator[tuple[int, Entry]]:
        """Each vertex that is reached, with its entry."""
        lists: list[Any] = [self.values, self.hops, self.parents]
        columns = (column.tolist() if hasattr(column, "tolist") else column for column in lists)
        return ((vertex, entry) for vertex, entry in enumerate(zip(*columns), 1)
                if entry[0] != UNREACHED)

    def origins(self) -> Union[Mapping[int, int], Sequence[int]]:
        """The nearest source of each vertex that is reached."""
        found = array("I", bytes(4 * (len(self.values) + 1)))
        _put_origins(self.entries(), found)
        return found

    def route(self, vertex: int) -> Route:
        """The route to a vertex from the nearest source.

        Raises NoRoute, NoVertex; of a tree of another origin WrongTree if its parents lead to no
        source, NotANumber or BadShape.
        """
        if not self.reaches(vertex):
            raise NoRoute(f"no route leads to vertex {vertex}")
        vertices = [self._vertex(vertex)]
        while self._number("parents", vertices[-1]):
            vertices.append(self._parent(vertices[-1]))
        if self._number("hops", vertices[-1]):
            raise WrongTree(vertices[-1], Reason.NO_PARENT)
        return Route(self._number("values", vertices[0]), len(vertices) - 1, vertices[::-1])

    def _parent(self, vertex: int) -> int:
        """The parent of a vertex, which has one hop less. Raises WrongTree."""
        parent = self._number("parents", vertex)
        if not 1 <= parent <= len(self.values):
            raise WrongTree(vertex, Reason.NO_PARENT)
        if not self._number("hops", vertex) == self._number("hops", parent) + 1 > 0:
            raise WrongTree(vertex, Reason.OTHER_HOPS)
        return parent

    def _vertex(self, vertex: int) -> int:
        if not hasattr(self.values, "__len__") or getattr(self.values, "ndim", 1) != 1:
            raise Argument("values").refused(self.values)
        return vertex_number(vertex, "vertex", len(self.values))

    def _number(self, column: str, vertex: int) -> int:
        """What a list has for a vertex. Raises NotANumber, or BadShape if it has nothing."""
        try:
            value = getattr(self, column)[vertex - 1]
        except (TypeError, LookupError):
            raise BadShape(
                f"{column}: a list with a number for vertex {vertex} is needed") from None
        number = index_of(value)
        if number is None:
            raise NotANumber(f"{column}[{vertex - 1}]: {shown(value)} is no whole number")
        return number

    def __eq__(self, other: object) -> bool:
        if not isinstance(other, Tree):
            return NotImplemented
        lists = [(self.values, other.values), (self.hops, other.hops),
                 (self.parents, other.parents)]
        return _question(self) == _question(other) and all(
            are_equal(one, another) for one, another in lists)

    __hash__ = None  # type: ignore[assignment]


@dataclass(frozen=True, eq=False)
class Near:
    """The vertices that are reached, the best first, and in the same place of each list the value,
    hops and parent of one. A source has parent 0. Of equal values the one of fewer hops comes
    first, and then the vertex with the lesser number.

    Two are equal if they answer the same question about graphs of equally many vertices, and reach
    the same vertices by the same entries.

    Attributes
    ----------
    vertices : array of uint32, shape (reached,)
        Of numpy, or of the module array without numpy; so are the other lists.
    values : array of uint64, shape (reached,)
    hops, parents : array of uint32, shape (reached,)
    sources : array of uint32
    count : int
        How many vertices the graph has.
    algebra : Algebra
    limit : int or None
    """

    vertices: Numbers32
    values: Numbers64
    hops: Numbers32
    parents: Numbers32
    sources: Numbers32
    count: int
    algebra: AnyAlgebra = Algebra.SHORTEST
    limit: Optional[int] = None

    def __len__(self) -> int:
        return len(self.vertices)

    @cached_property
    def _entries(self) -> dict[int, Entry]:
        lists: list[Any] = [self.vertices, self.values, self.hops, self.parents]
        vertices, *columns = (column.tolist() for column in lists)
        return dict(zip(vertices, zip(*columns)))

    def entry(self, vertex: int) -> Entry:
        """The value, hops and parent of a vertex: UNREACHED, 0 and 0 if it is not reached.
        Raises NoVertex."""
        return self._entries.get(vertex_number(vertex, "vertex", self.count), (UNREACHED, 0, 0))

    def entries(self) -> Iterator[tuple[int, Entry]]:
        """Each vertex that is reached, with its entry, by their numbers."""
        return iter(sorted(self._entries.items()))

    def origins(self) -> Union[Mapping[int, int], Sequence[int]]:
        """The nearest source of each vertex that is reached."""
        found: dict[int, int] = {}
        _put_origins(self.entries(), found)
        return found

    def reaches(self, vertex: int) -> bool:
        """Whether a walk to the vertex has a value. Raises NoVertex."""
        return self.entry(vertex)[0] != UNREACHED

    def route(self, vertex: int) -> Route:
        """The route to a vertex from the nearest source. Raises NoRoute, NoVertex."""
        value, hops, parent = self.entry(vertex)
        if value == UNREACHED:
            raise NoRoute(f"no route leads to vertex {vertex}")
        vertices = [vertex]
        while parent:
            vertices.append(parent)
            parent = self.entry(parent)[2]
        return Route(value, hops, vertices[::-1])

    def tree(self) -> Tree:
        """The same as a tree of all vertices."""
        columns = room("Q", self.count), room("I", self.count), room("I", self.count)
        for vertex in range(self.count):
            columns[0][vertex] = UNREACHED
        for vertex, entry in self._entries.items():
            for column, number in zip(columns, entry):
                column[vertex - 1] = number
        return Tree(*columns, self.sources, self.algebra, self.limit)

    def __eq__(self, other: object) -> bool:
        if not isinstance(other, Near):
            return NotImplemented
        return (_question(self), self.count, self._entries) == (
            _question(other), other.count, other._entries)

    __hash__ = None  # type: ignore[assignment]


def _question(answer: Union[Tree, Near]) -> tuple[Any, ...]:
    """What was asked."""
    return algebra_of(answer.algebra), answer.limit, sorted(set(map(int, answer.sources)))


def _put_origins(entries: Iterator[tuple[int, Entry]], found: Any) -> None:
    """Puts in place the nearest source of each vertex: that of its parent, which has fewer
    hops."""
    for vertex, (_, _, parent) in sorted(entries, key=lambda pair: pair[1][1]):
        found[vertex] = found[parent] if parent else vertex
