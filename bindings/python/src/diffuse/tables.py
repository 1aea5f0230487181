"""Tables of roads and places, from a CSV file, from pandas or columns; and their cells as exact
decimals, names and flags, each fault with its place."""
from __future__ import annotations

import csv
import io
import os
import re
from dataclasses import dataclass
from decimal import (
    ROUND_DOWN, ROUND_HALF_UP, Context, Decimal, DecimalException, Inexact, InvalidOperation,
)
from functools import lru_cache
from typing import IO, Any, Callable, Iterator, Mapping, Optional, Sequence, Union

from .columns import MOST_32, index_of, np
from .errors import BadShape, InputError, NotANumber, OutOfRange, cut, placed, shown

Number = Union[int, float, str, Decimal]
Path = Union[str, "os.PathLike[str]"]
Source = Union[Path, IO[str], IO[bytes]]
"""A path, or an open file of text or of bytes."""
Progress = Callable[[str, int], object]
"""What is called now and then while much is read: with what is counted, and how many there are."""
EVERY = 100_000

_YES, _NO = {"yes", "true", "1", "y"}, {"no", "false", "0", "n", ""}
_EXACT = Context(prec=100, traps=[InvalidOperation, Inexact])
_CUT = Context(prec=100, rounding=ROUND_DOWN, traps=[InvalidOperation])
"""Cut after a hundred digits, a number is still on its side of each half."""


@dataclass(frozen=True)
class Table:
    """Columns of equal length by name; `name` and the numbers of the rows are for messages."""

    name: str
    columns: Mapping[Any, Sequence[Any]]
    row_word: str
    row_numbers: Sequence[int]

    def __len__(self) -> int:
        return len(self.row_numbers)

    def column(self, name: Any) -> Sequence[Any]:
        """The cells of a column. Raises InputError if there is none."""
        try:
            return self.columns[name]
        except (KeyError, TypeError):
            raise InputError(f"{self.name} has no column {shown(name)}; "
                             f"it has {', '.join(map(str, self.columns))}") from None

    def row(self, row: int) -> str:
        """How a message names a row."""
        return f"{self.name}, {self.row_word} {self.row_numbers[row]}"

    def where(self, row: int, column: Any) -> str:
        """How a message names a cell."""
        return f"{self.row(row)}, column {column}"

    def only(self, rows: Sequence[int]) -> Table:
        """The table of some rows, which keep their numbers."""
        columns = {name: [column[row] for row in rows] for name, column in self.columns.items()}
        return Table(self.name, columns, self.row_word, [self.row_numbers[row] for row in rows])


def path_of(source: Any) -> str:
    """The path of a file, as messages have it."""
    path = source if isinstance(source, (str, os.PathLike)) else getattr(source, "name", None)
    return os.fspath(path) if isinstance(path, (str, os.PathLike)) else "text"


def name_of(source: Any) -> str:
    """How messages name a file."""
    return os.path.basename(path_of(source))


def bytes_of(source: Source) -> bytes:
    """The bytes of a file. Raises BadShape for what is neither a path nor an open file;
    OSError."""
    if hasattr(source, "read"):
        found = source.read()
        return found.encode() if isinstance(found, str) else bytes(found)
    if not isinstance(source, (str, os.PathLike)):
        raise BadShape(f"path: a path or an open file is needed, not {shown(source)}")
    with open(source, "rb") as file:
        return file.read()


def read_table(path: Source, delimiter: str = ",", encoding: str = "utf-8",
               progress: Optional[Progress] = None) -> Table:
    """The table of a CSV file, whose first line names the columns. Blanks around a cell and a mark
    of byte order are dropped.

    Raises BadShape for a row with another number of cells than the first, or for a name that comes
    twice; InputError for what is not in the encoding or is no CSV; OSError.
    """
    name, rows, lines = name_of(path), [], []
    records = _records(decoded(path, name, encoding), name, delimiter)
    _, header = next(records, (1, list[str]()))
    if len(set(header)) < len(header) or not header:
        raise BadShape(
            f"{name}, line 1: each column needs a name of its own, not {', '.join(header)}")
    for line, cells in records:
        if len(cells) != len(header):
            raise BadShape(
                f"{name}, line {line}: {len(cells)} cells, and the first line has {len(header)}")
        rows.append(cells)
        lines.append(line)
        if progress is not None and len(rows) % EVERY == 0:
            progress("rows", len(rows))
    columns = zip(*rows) if rows else [()] * len(header)
    return Table(name, dict(zip(header, columns)), "line", lines)


def decoded(path: Source, name: str, encoding: str) -> str:
    """The text of a file. Raises InputError with the first line that is not in the encoding."""
    data = bytes_of(path)
    try:
        return data.decode("utf-8" if isinstance(path, io.TextIOBase) else encoding).removeprefix(
            "\ufeff")
    except UnicodeDecodeError as error:
        line = data.count(b"\n", 0, error.start) + 1
        raise InputError(f"{name}, line {line}: not {encoding}; encoding= names another, "
                         "such as cp1252 or utf-16") from None
    except (LookupError, TypeError, ValueError):
        raise InputError(f"encoding: there is none of the name {shown(encoding)}") from None


def _records(text: str, name: str, delimiter: str) -> Iterator[tuple[int, list[str]]]:
    """The records of a CSV text that are not empty, each with its last line."""
    try:
        reader = csv.reader(io.StringIO(text, newline=""), delimiter=delimiter)
    except (TypeError, ValueError) as error:
        raise InputError(f"delimiter: {shown(delimiter)} can't be used: {error}") from None
    while True:
        try:
            cells = next(reader)
        except StopIteration:
            return
        except csv.Error as error:
            raise InputError(f"{name}, line {reader.line_num}: {error}") from None
        if cells:
            yield reader.line_num, [cell.strip() for cell in cells]


def table_of(data: Any, name: str = "table") -> Table:
    """The table of a pandas DataFrame, or of a mapping from names to columns. Rows are counted
    from 0. Cells of numpy become numbers of Python.

    Raises BadShape for columns of different lengths, and InputError for what is no such thing.
    """
    if isinstance(data, Table):
        return data
    if not hasattr(data, "keys") or not hasattr(data, "__getitem__"):
        raise InputError(f"{name}: a DataFrame or a mapping from names to columns is needed, "
                         f"not {shown(data)}")
    columns: dict[str, Sequence[Any]] = {}
    for key in data.keys():
        cells = data[key]
        if str(key) in columns:
            raise BadShape(f"{name}: two columns have the name {key}")
        if isinstance(cells, str) or not hasattr(cells, "__iter__"):
            raise InputError(f"{name}, column {key}: a list is needed, not {shown(cells)}")
        columns[str(key)] = cells.tolist() if hasattr(cells, "tolist") else [
            plain(cell) for cell in cells]
    lengths = {len(column) for column in columns.values()}
    if len(lengths) > 1:
        raise BadShape(f"{name}: its columns have {', '.join(map(str, sorted(lengths)))} rows")
    return Table(name, columns, "row", range(max(lengths, default=0)))


def plain(value: Any) -> Any:
    """A number of numpy as one of Python; anything else as it is."""
    return value.item() if np is not None and isinstance(value, np.generic) else value


def names_of(table: Table, column: Any) -> list[Any]:
    """The names in a column. Raises InputError for an empty one, or for what can't be a name."""
    found = list(table.column(column))
    for row, name in enumerate(found):
        if _is_missing(name):
            raise InputError(f"{table.where(row, column)}: a name is missing")
        try:
            hash(name)
        except TypeError:
            raise InputError(f"{table.where(row, column)}: {shown(name)} can't be a name, "
                             "since it can be changed") from None
    return found


def _is_missing(name: Any) -> bool:
    """None, an empty text, and what is not equal to itself, as NaN."""
    try:
        return name is None or bool(name == "") or bool(name != name)
    except (TypeError, ValueError):
        return True


def flags_of(table: Table, column: Any) -> list[bool]:
    """A column of yes and no (true and false, 1 and 0). Raises InputError for another word."""
    found = []
    for row, cell in enumerate(table.column(column)):
        word = str(cell).strip().lower()
        if word not in _YES and word not in _NO:
            raise InputError(f"{table.where(row, column)}: {shown(cell)} is neither yes nor no")
        found.append(word in _YES)
    return found


def check_sign(decimal: object) -> None:
    """Raises InputError for what is no decimal sign."""
    if not isinstance(decimal, str) or not re.fullmatch(r"[^\s\w+-]", decimal):
        raise InputError(f"decimal: one sign such as ',' is needed, not {shown(decimal)}")


@lru_cache(maxsize=None)
def _numeral(decimal: str) -> "re.Pattern[str]":
    """Numbers by a decimal sign."""
    sign = re.escape(decimal)
    return re.compile(rf"[+-]?(\d+({sign}\d*)?|{sign}\d+)([eE][+-]?\d+)?", re.ASCII)


def decimal_of(cell: Any, decimal: str = ".") -> Decimal:
    """The number in a cell, exactly; of a float the shortest decimal that is read back as it.
    Raises NotANumber."""
    text = isinstance(cell, str)
    if text and not _numeral(decimal).fullmatch(cell):
        more = "" if decimal == "." else f" with the decimal sign {decimal!r}"
        raise NotANumber(f"{shown(cell)} is no number{more}")
    try:
        number = Decimal(cell.replace(decimal, ".") if text else str(cell))
    except (DecimalException, ValueError):
        number = Decimal("NaN")
    if not number.is_finite():
        raise NotANumber(f"{shown(cell)} is no number")
    return number


def argument_of(value: Any, name: str) -> Decimal:
    """The number that an argument is. Raises NotANumber with its name."""
    try:
        return decimal_of(value)
    except NotANumber as fault:
        raise placed(fault, name) from None


def positive(value: Any, name: str) -> float:
    """A number above 0, as a float. Raises NotANumber, or OutOfRange with the argument's name."""
    number = float(argument_of(value, name))
    if not 0 < number < 1e100:
        raise OutOfRange(f"{name}: {shown(value)} is not above 0")
    return number


def scale_of(scale: Any, name: str) -> int:
    """A scale: how many units of weight are 1 of a cost. Raises InputError."""
    number = index_of(scale)
    if number is None or number < 1:
        raise InputError(
            f"the scale of {name} is a whole number from 1 on, not {shown(scale)}")
    return number


def scaled(number: Decimal, scale: int, most: int) -> Optional[Decimal]:
    """A number times a scale, cut after a hundred digits; None if that is not from 0 to `most`."""
    units = _CUT.multiply(number, Decimal(scale))
    return units if 0 <= units <= most and not (number < 0) else None


def weight_of(number: Decimal, scale: int, rounding: bool) -> int:
    """A number times the scale, as a whole weight; rounded to the nearest whole if asked to, and a
    half upwards.

    Raises OutOfRange; InputError if it is not whole and not to be rounded.
    """
    units = scaled(number, scale, MOST_32)
    if units is None:
        raise OutOfRange(
            f"{cut(str(number))} times the scale {scale} is not from 0 to {MOST_32}")
    whole = units.to_integral_value(ROUND_HALF_UP)
    if not rounding and not (whole == units and _is_exact(number, scale)):
        raise InputError(f"{cut(str(number))} times the scale {scale} is not whole; "
                         "take a larger scale, or rounding=True")
    return int(whole)


def _is_exact(number: Decimal, scale: int) -> bool:
    try:
        _EXACT.multiply(number, Decimal(scale))
    except Inexact:
        return False
    return True


def weights_of(table: Table, column: str, scale: int, rounding: bool, decimal: str) -> list[int]:
    """A column of decimals as whole weights. Raises NotANumber, OutOfRange or InputError with the
    place of the first fault."""
    cells = table.column(column)
    at_once = _weights_at_once(cells, scale)
    if at_once is not None:
        return at_once
    found: list[int] = []
    known: dict[str, int] = {}
    for row, cell in enumerate(cells):
        weight = known.get(cell) if isinstance(cell, str) else None
        if weight is None:
            try:
                weight = weight_of(decimal_of(cell, decimal), scale, rounding)
            except InputError as fault:
                raise placed(fault, table.where(row, column)) from None
            if isinstance(cell, str):
                known[cell] = weight
        found.append(weight)
    return found


def _weights_at_once(cells: Sequence[Any], scale: int) -> Optional[list[int]]:
    """The weights of a column of numbers of one type, if numpy finds each exact: a float of few
    digits is the decimal w / scale if that is rounded to it."""
    kinds = {type(cell) for cell in cells}
    if np is None or kinds not in ({int}, {float}):
        return None
    if scale > MOST_32 or str(scale).strip("0") != "1":
        return None
    try:
        column = np.array(cells, dtype=np.float64)
    except OverflowError:
        return None
    with np.errstate(all="ignore"):
        weights = np.rint(column * scale)
        exact = (weights >= 0) & (weights <= MOST_32) & (weights / scale == column)
    found: Optional[list[int]] = weights.astype(np.int64).tolist() if exact.all() else None
    return found
