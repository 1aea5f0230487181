"""Numbers that callers give, copied and checked one by one for range and shape, as the memory that
the C library reads.

What the library reads is always a copy that nobody else has: a caller's array may be written to by
another thread after it was checked, and may be given twice in one call."""
from __future__ import annotations

import operator
from array import array
from ctypes import addressof, c_uint64
from dataclasses import dataclass
from typing import TYPE_CHECKING, Any, Iterable, NoReturn, Optional, Sequence, Union

from .errors import BadShape, NotANumber, NoVertex, OutOfMemory, OutOfRange, TextFault, shown

if TYPE_CHECKING:
    from numpy import integer, uint32, uint64
    from numpy.typing import NDArray

    Column = Union[Iterable[int], "NDArray[integer[Any]]"]
    """Whole numbers: any iterable, or an array of numpy, pandas or the module array."""
    Numbers32 = Union["NDArray[uint32]", "array[int]", Sequence[int]]
    """Numbers of 32 bits: an array of numpy, or of the module array without it."""
    Numbers64 = Union["NDArray[uint64]", "array[int]", Sequence[int]]
    """The same of 64 bits."""

np: Any
try:
    import numpy as np
except ImportError:
    np = None

MOST_VERTICES, MOST_ARCS = 2**25, 2**27
MOST_32, MOST_64 = 2**32 - 1, 2**64 - 1
_BOOLS: tuple[type, ...] = (bool,) if np is None else (bool, np.bool_)
_DTYPES = {"I": "u4", "Q": "u8"}
_NOTHING = c_uint64()


@dataclass(frozen=True)
class Argument:
    """How messages name an argument, or a part of each of its rows; and what it must be."""

    name: str
    part: str = ""
    needed: str = "a list of whole numbers"

    def at(self, row: int) -> str:
        """The name of a row, from 0 on."""
        return f"{self.name}[{row}]" + (f", {self.part}" if self.part else "")

    def refused(self, value: object) -> BadShape:
        """The refusal of a value that is no list at all."""
        return BadShape(f"{self.name}: {self.needed} is needed, not {shown(value)}")


ARCS = Argument("arcs", needed="a list of arcs (tail, head, weight)")


@dataclass(frozen=True)
class Span:
    """The numbers from `low` to `high`, in 32 bits by the code I or in 64 by Q, and the fault of
    any other number."""

    low: int
    high: int
    code: str = "I"
    fault: type[TextFault] = OutOfRange


WEIGHTS = Span(0, MOST_32)


def is_truth(value: object) -> bool:
    """Whether a value is True or False, which are no numbers here."""
    return isinstance(value, _BOOLS)


def index_of(value: object) -> Optional[int]:
    """The whole number that a value is, or None: True, 1.0 and arrays are none."""
    if is_truth(value) or getattr(value, "ndim", 0) != 0:
        return None
    try:
        return operator.index(value)  # type: ignore[arg-type]
    except TypeError:
        return None


def whole_number(value: object, place: str, low: int, high: int,
                 fault: type[TextFault] = OutOfRange) -> int:
    """One whole number from `low` to `high`. Raises NotANumber or the fault, with its place."""
    number = index_of(value)
    if number is None:
        raise NotANumber(f"{place}: {shown(value)} is no whole number")
    if not low <= number <= high:
        raise fault(f"{place}: {shown(number)} is not from {low} to {high}")
    return number


def vertex_number(value: object, place: str, vertices: int) -> int:
    """One vertex of a graph of so many."""
    return whole_number(value, place, 1, vertices, NoVertex)


def numbers(values: Column, argument: Argument, span: Span) -> Any:
    """A copy of the numbers: an array of numpy, or of the module array without numpy.

    Raises NotANumber or the fault for the first number that is none or out of range, with its row,
    and BadShape for more than one dimension, or for what is no list."""
    if np is not None and (isinstance(values, np.ndarray) or hasattr(values, "__array__")):
        return _from_numpy(_copied(values, argument), argument, span)
    shape = getattr(values, "shape", None)
    if isinstance(values, memoryview) and shape is not None and len(shape) != 1:
        raise _not_one_dimension(argument, shape)
    return _from_list(listed(values, argument), argument, span)


def listed(values: Any, argument: Argument) -> list[Any]:
    """The members of an iterable that is no text. Raises BadShape for anything else."""
    try:
        members = None if isinstance(values, str) else iter(values)
    except (TypeError, NotImplementedError):
        members = None
    if members is None:
        raise argument.refused(values)
    return list(members)


def _copied(values: Any, argument: Argument) -> Any:
    """An array that nobody else has. Raises NotANumber for a masked number, and BadShape for no
    array."""
    if isinstance(values, np.ma.MaskedArray) and values.ndim == 1 and np.ma.is_masked(values):
        row = int(np.ma.getmaskarray(values).argmax())
        raise NotANumber(f"{argument.at(row)}: a masked number is none")
    own = np.array(values, order="C")
    if own.ndim == 0:
        raise argument.refused(values)
    return own


def _from_list(values: list[Any], argument: Argument, span: Span) -> Any:
    if not set(_BOOLS).isdisjoint(map(type, values)):
        _first_fault(values, argument, span)
    try:
        column = array(span.code, values)
    except (TypeError, OverflowError):
        _first_fault(values, argument, span)
    if column and not (span.low <= min(column) and max(column) <= span.high):
        _first_fault(values, argument, span)
    return column if np is None else np.array(column, dtype=_DTYPES[span.code])


def _first_fault(values: Iterable[Any], argument: Argument, span: Span) -> NoReturn:
    for row, value in enumerate(values):
        whole_number(value, argument.at(row), span.low, span.high, span.fault)
    raise NotANumber(f"{argument.at(0)}: not a column of whole numbers")


def _from_numpy(own: Any, argument: Argument, span: Span) -> Any:
    if own.ndim != 1:
        raise _not_one_dimension(argument, own.shape)
    if own.dtype.kind not in "iu":
        return _from_list(own.tolist(), argument, span)
    if len(own) and not (span.low <= int(own.min()) and int(own.max()) <= span.high):
        _first_fault(own.tolist(), argument, span)
    return own.astype(_DTYPES[span.code], copy=False)


def _not_one_dimension(argument: Argument, shape: tuple[int, ...]) -> BadShape:
    return BadShape(f"{argument.at(0)}: one dimension is needed, not the shape {shape}")


def arcs_of_columns(columns: Iterable[Column], arguments: Iterable[Argument],
                    vertices: int) -> Any:
    """Three columns as the memory of arcs: tail, head and weight of each in turn."""
    ends = Span(1, vertices, "I", NoVertex)
    parts = [numbers(*given) for given in zip(columns, arguments, (ends, ends, WEIGHTS))]
    count = len(parts[0])
    if any(len(column) != count for column in parts):
        raise BadShape("the columns of tails, heads and weights have {}, {} and {} rows".format(
            *map(len, parts)))
    if np is not None:
        return np.stack(parts, axis=1)
    arcs = array("I", bytes(12 * count))
    for place, column in enumerate(parts):
        arcs[place::3] = column
    return arcs


def arcs_of(arcs: Any, vertices: int) -> Any:
    """Rows of three numbers, or an array with three columns, as the memory of arcs."""
    arguments = [Argument("arcs", part) for part in ("tail", "head", "weight")]
    if np is not None and (isinstance(arcs, np.ndarray) or hasattr(arcs, "__array__")):
        values = arcs if isinstance(arcs, np.ma.MaskedArray) else np.asarray(arcs)
        if values.ndim != 2 or values.shape[1] != 3:
            raise BadShape("arcs: an array of three columns (tail, head, weight) is needed, "
                           f"not the shape {values.shape}")
        return arcs_of_columns(values.T, arguments, vertices)
    rows = listed(arcs.tolist() if isinstance(arcs, memoryview) else arcs, ARCS)
    for number, row in enumerate(rows):
        if not hasattr(row, "__len__") or len(row) != 3:
            raise BadShape(f"arcs[{number}]: {shown(row)} is not a tail, a head and a weight")
    return arcs_of_columns(zip(*rows) if rows else ((), (), ()), arguments, vertices)


def arc_count(arcs: Any) -> int:
    """How many arcs the memory of arcs has."""
    return len(arcs) if getattr(arcs, "ndim", 1) == 2 else len(arcs) // 3


def reweighed(arcs: Any, weights: Any) -> Any:
    """The memory of the same arcs with other weights."""
    if np is not None:
        return np.column_stack((arcs[:, :2], weights))
    own = array("I", arcs)
    own[2::3] = weights
    return own


def first_of(column: Any, count: int) -> Any:
    """So many numbers from the first on, in memory of their own."""
    if len(column) == count:
        return column
    return column[:count].copy() if np is not None else column[:count]


def room(code: str, count: int) -> Any:
    """A new array of zeros that the library may write to: numpy's, or one of the module array
    without numpy. Raises OutOfMemory."""
    try:
        if np is not None:
            return np.zeros(count, dtype=_DTYPES[code])
        return array(code, bytes(array(code).itemsize * count))
    except (MemoryError, ValueError, OverflowError):
        raise OutOfMemory(f"there is no room for {count} numbers") from None


def view_of(memory: Any) -> Any:
    """Numbers of 32 bits in memory, of which a part is soon a list: as numpy sees them, or else a
    memoryview."""
    if np is not None:
        return np.frombuffer(memory, dtype=np.uint32)
    return memoryview(memory).cast("B").cast("I")


def rows_of(values: Any, count: int, width: int) -> Any:
    """A list of numbers as so many rows of so many: numpy's, or a list of arrays without numpy."""
    if np is not None:
        return values.reshape(count, width)
    return [values[row * width:(row + 1) * width] for row in range(count)]


def greatest(column: Any) -> int:
    """The greatest number of a column, or 0 if it is empty."""
    if not len(column):
        return 0
    return max(column) if isinstance(column, array) else int(column.max())


def are_equal(one: Any, another: Any) -> bool:
    """Whether two columns have the same numbers."""
    pairs = zip(map(int, one), map(int, another))
    return len(one) == len(another) and all(a == b for a, b in pairs)


def address(values: Union[Any, "array[int]"]) -> int:
    """Where the memory of an array begins: aligned, and not null even if it is empty."""
    at = values.buffer_info()[0] if isinstance(values, array) else values.ctypes.data
    return at or addressof(_NOTHING)
