"""A road graph in memory, asked by the proved C library."""
from __future__ import annotations

import os
from ctypes import byref, c_size_t, c_uint32, c_uint64
from typing import TYPE_CHECKING, Any, Iterable, NoReturn, Optional, TypeVar, Union

from ._handles import SOON, Handles, Stop, patiently
from ._library import DONE, NO_ROOM, NO_ROUTE, WRONG, Handle, library
from .answers import Algebra, AnyAlgebra, Near, Route, Tree, algebra_of, question_of
from .columns import (
    MOST_32, MOST_64, MOST_ARCS, MOST_VERTICES, WEIGHTS, Argument, Span, address, arc_count,
    arcs_of, arcs_of_columns, first_of, greatest, index_of, is_truth, numbers, room, rows_of,
    vertex_number, whole_number,
)
from .errors import (
    BadProblemLine, BadShape, DiffuseError, NoProblemLine, NoRoom, NoRoute, NotANumber, NoVertex,
    OutOfRange, SecondProblemLine, TextFault, TooFewArcs, TooManyArcs, UnknownLine, WrongFields,
    WrongTree, refusal, shown,
)

if TYPE_CHECKING:
    from numpy import uint64
    from numpy.typing import NDArray

    from .columns import Column

    Vertices = Union[int, Iterable[int]]

_COLUMNS = [Argument("tails"), Argument("heads"), Argument("weights")]
_VERTICES = "a vertex or a list of vertices"
_PROBLEM = "`p sp VERTICES ARCS`"
FEW = 1024
"""Room for so many vertices is given first; if more are reached, it is asked again with room."""
LONG_TABLE = 2**16
"""A table that looks at fewer arcs, each for each source, is there before anybody waits for it."""
Own = TypeVar("Own", bound="Graph")


class Graph:
    """A graph of vertices 1 to `vertices` and of arcs, which never changes.

    Any number of threads may ask one graph at once: a call lets go of the interpreter's lock while
    it solves, so the calls run side by side. In the main thread a signal whose handler raises,
    such as Ctrl-C, ends a call at once. What is given to a call is copied first. A forked child
    may go on asking. A copy is a second graph over the same memory, to be closed by itself. Beside
    the library's memory a graph keeps its arcs for `with_weights`, 12 bytes each; one that was
    read from a text does not.

    Parameters
    ----------
    vertices : int
        How many vertices there are, at most 2^25.
    arcs : iterable of (int, int, int), or array of any integer type, shape (arcs, 3)
        Tail, head and weight of each arc, at most 2^27. A weight is from 0 to 2^32 - 1, in a unit
        of your own. Loops and parallel arcs are allowed.

    Raises
    ------
    NotANumber, OutOfRange, NoVertex, BadShape
        With the place of the first number that can't be used.
    OutOfMemory
    """

    def __init__(self, vertices: int, arcs: Any) -> None:
        handles = arcs if isinstance(arcs, Handles) else _opened(
            count := _vertex_count(vertices), arcs_of(arcs, count))
        self._handles, self._vertices, self._arcs = handles, handles.vertices, handles.arcs

    @classmethod
    def _of(cls: type[Own], handles: Handles) -> Own:
        """The graph of handles that are open: made by its class, whatever that does besides."""
        return cls(handles.vertices, handles)

    @classmethod
    def from_columns(cls: type[Own], tails: Column, heads: Column, weights: Column,
                     vertices: Optional[int] = None) -> Own:
        """The graph of three columns.

        Parameters
        ----------
        tails, heads, weights : iterable of int, or array of any integer type, shape (arcs,)
        vertices : int, optional
            As many as the greatest end of an arc, if nothing is said.

        Raises
        ------
        NotANumber, OutOfRange, NoVertex, BadShape, OutOfMemory
        """
        if vertices is None:
            span = Span(1, MOST_VERTICES, "I", NoVertex)
            tails, heads = (numbers(column, argument, span)
                            for column, argument in zip((tails, heads), _COLUMNS))
            vertices = max(greatest(tails), greatest(heads))
        count = _vertex_count(vertices)
        arcs = arcs_of_columns((tails, heads, weights), _COLUMNS, count)
        return cls._of(_opened(count, arcs))

    @classmethod
    def from_gr(cls: type[Own], text: Union[bytes, bytearray, memoryview]) -> Own:
        """The graph of the bytes of a .gr text of the 9th DIMACS challenge.

        Raises the class of the text's first fault (a TextFault) with its line, NoRoom or
        OutOfMemory.
        """
        if not isinstance(text, (bytes, bytearray, memoryview)):
            raise BadShape(f"text: bytes are needed, not {shown(text)}")
        return cls._of_text(bytes(text), "text")

    @classmethod
    def read(cls: type[Own], path: Union[str, "os.PathLike[str]"]) -> Own:
        """The graph of a .gr file. Raises as `from_gr` does, or OSError."""
        with open(path, "rb") as file:
            return cls._of_text(file.read(), os.fspath(path))

    @classmethod
    def _of_text(cls: type[Own], data: bytes, name: str) -> Own:
        return cls._of(_read(data, name))

    def with_weights(self: Own, weights: Column) -> Own:
        """A second graph, of the same arcs with other weights.

        It is factored as this one is, over the same links, in about half the time.

        Parameters
        ----------
        weights : iterable of int, or array of any integer type, shape (arcs,)
            In the order in which the arcs were given.

        Raises
        ------
        TooHeavy
            The weights are too great for the factors that this graph has.
        InputError
            The graph was read from a text, whose arcs are not kept.
        NotANumber, OutOfRange, BadShape, OutOfMemory, Closed
        """
        column = numbers(weights, _COLUMNS[2], WEIGHTS)
        if len(column) != self._arcs:
            raise BadShape(
                f"weights has {len(column)} numbers, and the graph {self._arcs} arcs")
        return self._again(self._handles.reweighed(column))

    def _again(self: Own, handles: Handles) -> Own:
        """A graph like this one, with all that a class of one's own keeps beside the handles."""
        graph = self._of(handles)
        mine = vars(graph).copy()
        vars(graph).update(vars(self))
        vars(graph).update({name: mine[name] for name in ("_handles", "_vertices", "_arcs")})
        return graph

    @property
    def vertices(self) -> int:
        """How many vertices there are."""
        return self._vertices

    @property
    def arcs(self) -> int:
        """How many arcs there are."""
        return self._arcs

    def route(self, source: int, target: int, algebra: AnyAlgebra = Algebra.SHORTEST,
              limit: Optional[int] = None, stop: Optional[Stop] = None) -> Route:
        """The best route from a source to a target.

        Parameters
        ----------
        source, target : int
            Vertices.
        algebra : Algebra or str
            What is best.
        limit : int, optional
            Of `within` alone: the greatest value, in the unit of the weights.
        stop : Stop, optional
            By which another thread may end the call.

        Returns
        -------
        Route
            With its arcs, if the graph was numbered (see `number`).

        Raises
        ------
        NoRoute
            No walk has a value.
        NoVertex, NoAlgebra, OutOfMemory, Closed, Stopped
        """
        number, bound = question_of(algebra, limit)
        ends = (vertex_number(source, "source", self._vertices),
                vertex_number(target, "target", self._vertices))
        code, hops = c_uint64(), c_uint32()
        vertices: list[int] = []
        arcs: Optional[list[int]] = None

        def call(handle: Handle) -> int:
            nonlocal vertices, arcs
            (at, places), *numbers = handle.rooms(self._vertices)
            lists, ask = [at, self._vertices], library().diffuse_graph_route
            if numbers:
                lists += [numbers[0][0], self._vertices]
                ask = library().diffuse_graph_route_arcs
            status: int = ask(handle, number, bound, *ends, byref(code), byref(hops), *lists)
            if status == DONE:
                vertices = places[:hops.value + 1].tolist()
                arcs = numbers[0][1][:hops.value].tolist() if numbers else None
            return status

        status = self._handles.ask(call, stop, self._handles.is_long)
        if status == NO_ROUTE:
            raise NoRoute(f"no route leads from {ends[0]} to {ends[1]}")
        _check(status)
        return Route(code.value, hops.value, vertices, arcs)

    def tree(self, sources: Vertices, algebra: AnyAlgebra = Algebra.SHORTEST,
             limit: Optional[int] = None, stop: Optional[Stop] = None) -> Tree:
        """For all vertices at once the best value, the hops and the parent from the nearest
        source.

        Parameters
        ----------
        sources : int, iterable of int, or array of any integer type, shape (sources,)
        algebra, limit, stop
            As of `route`.

        Raises
        ------
        NoVertex, NotANumber, NoAlgebra, OutOfMemory, Closed, Stopped
        """
        number, bound = question_of(algebra, limit)
        count, begins = self._vertices, self._sources(sources)
        lists = values, hops, parents = room("Q", count), room("I", count), room("I", count)
        words = [*_lent(begins), *(word for column in lists for word in _lent(column))]
        _check(self._handles.ask(
            lambda handle: int(library().diffuse_graph_tree(handle, number, bound, *words)),
            stop, self._handles.is_long))
        return Tree(values, hops, parents, begins, number, limit)

    def near(self, sources: Vertices, algebra: Optional[AnyAlgebra] = None,
             limit: Optional[int] = None, stop: Optional[Stop] = None) -> Near:
        """The vertices that are reached from the nearest source, the best first.

        It costs what it returns: less than a tree does, if the limit reaches only a part of the
        graph.

        Parameters
        ----------
        sources : int, iterable of int, or array of any integer type, shape (sources,)
        algebra : Algebra or str, optional
            If nothing is said, `within` with a limit and `shortest` without.
        limit, stop
            As of `route`.

        Raises
        ------
        NoVertex, NotANumber, NoAlgebra, OutOfMemory, Closed, Stopped
        """
        usual = Algebra.SHORTEST if limit is None else Algebra.WITHIN
        number, bound = question_of(usual if algebra is None else algebra, limit)
        begins, count = self._sources(sources), c_size_t(min(self._vertices, FEW))
        lists: list[Any] = []

        def call(handle: Handle) -> int:
            for _ in range(2):
                lists[:] = [room(code, count.value) for code in "IQII"]
                words = [*_lent(begins), *(word for column in lists for word in _lent(column))]
                status = int(library().diffuse_graph_near(
                    handle, number, bound, *words, byref(count)))
                if status != NO_ROOM:
                    break
            return status

        _check(self._handles.ask(call, stop, self._handles.is_long))
        vertices, values, hops, parents = (first_of(column, count.value) for column in lists)
        return Near(vertices, values, hops, parents, begins, self._vertices, number, limit)

    def check(self, tree: Tree) -> None:
        """Returns if the lists are what `tree` answers to the same question. Nothing is solved.

        Raises
        ------
        WrongTree
            With the first vertex that the other entries refute, and the reason.
        NoRoom, NotANumber, OutOfRange, NoVertex, NoAlgebra, BadShape, OutOfMemory, Closed
        """
        if not isinstance(tree, Tree):
            raise BadShape(f"tree: a diffuse.Tree is needed, not {shown(tree)}")
        number, bound = question_of(tree.algebra, tree.limit)
        lists = [self._sources(tree.sources), self._list(tree.values, "values", MOST_64, "Q"),
                 self._list(tree.hops, "hops"), self._list(tree.parents, "parents")]
        words = [word for column in lists for word in _lent(column)]
        vertex, reason = c_uint32(), c_uint32()
        status = self._handles.ask_patiently(lambda handle: int(library().diffuse_graph_check(
            handle, number, bound, *words, byref(vertex), byref(reason))))
        if status == WRONG:
            raise WrongTree(vertex.value, reason.value)
        _check(status)

    def table(self, sources: Vertices, targets: Vertices,
              algebra: AnyAlgebra = Algebra.SHORTEST, limit: Optional[int] = None,
              stop: Optional[Stop] = None) -> Union[NDArray[uint64], list[Any]]:
        """The best value from each source to each target.

        Each source takes a search, unless the graph was factored.

        Parameters
        ----------
        sources, targets : int, iterable of int, or array of any integer type, shape (count,)
        algebra, limit, stop
            As of `route`.

        Returns
        -------
        array of uint64, shape (sources, targets), or list of arrays without numpy
            UNREACHED where no walk has a value.

        Raises
        ------
        NoVertex, NotANumber, NoAlgebra, OutOfMemory, Closed, Stopped
        """
        number, bound = question_of(algebra, limit)
        begins, ends = self._sources(sources), self._sources(targets, "targets")
        codes = room("Q", len(begins) * len(ends))
        words = [*_lent(begins), *_lent(ends), *_lent(codes)]
        _check(self._handles.ask(
            lambda handle: int(library().diffuse_graph_table(handle, number, bound, *words)),
            stop, self._arcs * len(begins) > LONG_TABLE))
        table: Union[NDArray[uint64], list[Any]] = rows_of(codes, len(begins), len(ends))
        return table

    def factor(self, algebra: AnyAlgebra = Algebra.SHORTEST,
               places: Optional[Column] = None) -> None:
        """Factors the graph for an algebra, after which its routes, trees and tables are the same:
        a far route or a table takes a fraction of the time, and a far tree about half.

        What is near is still found by a search. `shortest` and
        `within` have one factoring, `hops` has its own. Calls of other threads go on meanwhile.

        Parameters
        ----------
        algebra : Algebra or str
        places : iterable of int, or array of any integer type, shape (vertices,)
            The place of each vertex in an order of elimination, from 0, as `diffuse order` writes
            them. What was factored before is factored anew. Without it an order is found, once.

        Raises
        ------
        NoFactors, TooDense, TooHeavy
            The graph is searched as before.
        NoRoom, NoOrder, NotANumber, OutOfRange, BadShape
            The places are not one for each vertex.
        NoAlgebra, OutOfMemory, Closed
        """
        column = None if places is None else self._list(places, "places")
        _check(self._handles.factor(algebra_of(algebra).factored_as, column))

    def number(self, arcs: Any = None) -> None:
        """Numbers the arcs by their places in the list from which the graph was made, so that
        `route(..).arcs` tells parallel ones apart.

        The numbers take 4 bytes an arc and 4 a vertex. Copies of the graph have them, and a graph
        that `with_weights` makes does not. Calls of other threads go on meanwhile.

        Parameters
        ----------
        arcs : as of the class, optional
            Another list of the same arcs, with those of one tail in the same order. It is needed
            for a graph that was read from a text, which does not keep its arcs.

        Raises
        ------
        OtherArcs
            They are not the arcs of the graph.
        InputError, NotANumber, OutOfRange, NoVertex, BadShape, OutOfMemory, Closed
        """
        _check(self._handles.number(None if arcs is None else arcs_of(arcs, self._vertices)))

    def close(self) -> None:
        """Frees the graph, once the calls of other threads have ended. A closed graph answers with
        Closed, and stays closed."""
        self._handles.close()

    def _sources(self, sources: Any, name: str = "sources") -> Any:
        one = index_of(sources) is not None or is_truth(sources)
        span = Span(1, self._vertices, "I", NoVertex)
        return numbers([sources] if one else sources, Argument(name, needed=_VERTICES), span)

    def _list(self, values: Any, name: str, most: int = MOST_32, code: str = "I") -> Any:
        column = numbers(values, Argument(name), Span(0, most, code))
        if len(column) != self._vertices:
            raise NoRoom(
                f"{name} has {len(column)} places, and the graph {self._vertices} vertices")
        return column

    def __copy__(self: Own) -> Own:
        return self._again(self._handles.copied())

    def __deepcopy__(self: Own, memo: object) -> Own:
        return self.__copy__()

    def __reduce__(self) -> NoReturn:
        raise TypeError("a Graph can't be pickled, since it is memory of the C library: "
                        "read it in each process, or fork")

    def __enter__(self: Own) -> Own:
        return self

    def __exit__(self, *_reason: object) -> None:
        self.close()

    def __repr__(self) -> str:
        return f"<diffuse.Graph of {self._vertices} vertices and {self._arcs} arcs>"


def _check(status: int) -> None:
    """Raises the exception of a status that is not DONE."""
    if status != DONE:
        raise refusal(status)


def _lent(column: Any) -> tuple[int, int]:
    return address(column), len(column)


def _vertex_count(vertices: object) -> int:
    return whole_number(vertices, "vertices", 0, MOST_VERTICES)


def _opened(vertices: int, arcs: Any) -> Handles:
    """The handles of a graph of these arcs. Raises OutOfRange, NoVertex or OutOfMemory."""
    handle, count = Handle(), arc_count(arcs)
    if count > MOST_ARCS:
        raise OutOfRange(f"{count} arcs are more than 2^27")
    _check(patiently(lambda: int(library().diffuse_graph_open(
        vertices, address(arcs), count, handle)), count > SOON))
    return Handles(handle, given=arcs)


def _read(data: bytes, name: str) -> Handles:
    """The handles of the graph of a .gr text. Raises a TextFault, NoRoom or OutOfMemory."""
    handle, line = Handle(), c_uint64()
    status = patiently(lambda: int(library().diffuse_graph_read(
        data or b"\0", len(data), handle, byref(line))), len(data) > 16 * SOON)
    if status != DONE:
        raise _text_refusal(status, line.value, data, name)
    return Handles(handle)


def _text_refusal(status: int, line: int, text: bytes, name: str) -> DiffuseError:
    """The exception of the first fault of a .gr text, with the file's name, the line and the
    field: the library says the status and the line."""
    fault = refusal(status)
    if not isinstance(fault, TextFault):
        return fault
    return type(fault)(f"{name}, line {line}{_explained(type(fault), line, text)}", line)


def _explained(kind: type[TextFault], line: int, text: bytes) -> str:
    lines = text.split(b"\n", line)
    words = ""
    if line <= len(lines):
        words = lines[line - 1].removesuffix(b"\r").decode("ascii", "backslashreplace")
    fields = [field for field in words.replace("\t", " ").split(" ") if field]
    vertices, arcs = _announced(lines[:line - 1])
    number = _faulty_number(kind, fields, vertices)
    if number is not None:
        return number
    few = f"`a TAIL HEAD WEIGHT` has 4 fields, and {shown(words)} has {len(fields)}"
    return ": " + {
        NoProblemLine: f"there is no problem line {_PROBLEM} before it",
        SecondProblemLine: "a second problem line",
        BadProblemLine: f"{shown(words)} is not {_PROBLEM}",
        UnknownLine: f"{shown(words)} begins with none of c, p and a",
        WrongFields: few,
        TooManyArcs: f"more arc lines than the {arcs} that are announced",
        TooFewArcs: f"the text ends, with fewer arc lines than the {arcs} that are announced",
    }.get(kind, (kind.__doc__ or "").split("\n")[0])


def _announced(lines: list[bytes]) -> tuple[int, int]:
    """The vertices and arcs of the problem line, or 0."""
    for line in lines:
        fields = line.split()
        if fields[:2] == [b"p", b"sp"]:
            return int(fields[2].lstrip(b"0") or b"0"), int(fields[3].lstrip(b"0") or b"0")
    return 0, 0


def _faulty_number(kind: type[TextFault], fields: list[str], vertices: int) -> Optional[str]:
    """Which field of a line is at fault, if its number is."""
    if kind not in (NotANumber, OutOfRange, NoVertex):
        return None
    names, most = ("TAIL", "HEAD", "WEIGHT"), (MOST_32,) * 3
    if fields[:1] == ["p"]:
        names, most = ("VERTICES", "ARCS", ""), (MOST_VERTICES, MOST_ARCS, 0)
    for name, field, high in zip(names, fields[2 if fields[:1] == ["p"] else 1:], most):
        if not (field.isascii() and field.isdigit()):
            return f", {name}: {shown(field)} is no whole number"
        if kind is OutOfRange and not _is_from(0, field, high):
            return f", {name}: {shown(field)[1:-1]} is not from 0 to {high}"
        if kind is NoVertex and name != "WEIGHT" and not _is_from(1, field, vertices):
            return f", {name}: {shown(field)[1:-1]} is not from 1 to {vertices}"
    return None


def _is_from(low: int, digits: str, high: int) -> bool:
    digits = digits.lstrip("0") or "0"
    return len(digits) <= len(str(MOST_32)) and low <= int(digits) <= high
