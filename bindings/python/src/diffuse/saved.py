"""A network as one file: a zip of a JSON text and of arrays, which numpy reads as an .npz. Nothing
in it is a pickle, and it is written and read without numpy."""
from __future__ import annotations

import json
import os
import struct
import zlib
from array import array
from ast import literal_eval
from dataclasses import asdict
from decimal import Decimal
from hashlib import sha256
from io import BytesIO, TextIOBase
from itertools import accumulate, chain
from math import isfinite, prod
from typing import IO, Any, Callable, Hashable, Iterable, Mapping, Optional, Sequence, Union
from zipfile import ZIP_DEFLATED, BadZipFile, ZipFile, ZipInfo

from .errors import BadShape, InputError, placed, shown
from .geometry import Point
from .osm import Report
from .roads import Coordinates, Cost, Roads
from .tables import Path, Source, Table, bytes_of, name_of, plain, scale_of

File = Union[Path, IO[bytes]]
Parts = dict[str, bytes]
FORMAT, VERSION = "diffuse.Network", 1
HEAD, SUM = "network.json", "sha256"
MOST_BITS = 10_000
"""A longer whole number is not written in decimals."""

_TYPES = {"I": "<u4", "q": "<i8", "d": "<f8"}
_PLAIN = {type(None), bool, int, str}
_FAULTS = (BadZipFile, zlib.error, struct.error, EOFError, OSError, NotImplementedError,
           RuntimeError, LookupError, TypeError, ValueError, AttributeError, ArithmeticError,
           SyntaxError)
"""What reading a file that is none, or is damaged, may raise."""


def save(path: File, roads: Roads, places: Optional[Coordinates],
         report: Optional[Report]) -> None:
    """Writes the roads of a network, and where its places are. Raises InputError for a name or a
    cell that can't be written, before anything is; BadShape, OSError."""
    if isinstance(path, TextIOBase) or not (
            isinstance(path, (str, os.PathLike)) or hasattr(path, "write")):
        raise BadShape(f"path: a path or an open file of bytes is needed, not {shown(path)}")
    parts = parts_of(roads, places, report)
    with ZipFile(path, "w") as file:
        for name, data in [*parts.items(), (SUM, sum_of(parts).encode())]:
            file.writestr(ZipInfo(name), data, ZIP_DEFLATED, 1)


def load(path: Source) -> tuple[Roads, Optional[Coordinates], Optional[Report]]:
    """What was saved. Raises InputError for a file that is damaged, of a later version, or none
    that `save` wrote; BadShape, ImportError for lines of shapely without it, OSError."""
    name, data = name_of(path), bytes_of(path)
    try:
        with ZipFile(BytesIO(data)) as file:
            head = json.loads(file.read(HEAD))
            check_version(head)
            parts = {member: file.read(member) for member in file.namelist()}
        if parts.pop(SUM) != sum_of(parts).encode():
            raise ValueError("the sum of its parts is another")
        return network_of(head, parts)
    except InputError as fault:
        raise placed(fault, name) from None
    except _FAULTS as fault:
        raise InputError(
            f"{name}: no file of Network.save, or a damaged one: {fault}") from None


def check_version(head: Mapping[str, Any]) -> None:
    """Raises InputError for a file of a later version, and ValueError for none of a network."""
    if head["format"] != FORMAT:
        raise ValueError(f"its format is {shown(head['format'])}")
    if head["version"] != VERSION:
        raise InputError(f"a network of version {shown(head['version'])}, and this package reads "
                         f"version {VERSION}")


def sum_of(parts: Parts) -> str:
    """A checksum of the names and bytes of all parts."""
    found = sha256()
    for name, data in parts.items():
        found.update(f"{name} {len(data)}\n".encode())
        found.update(data)
    return found.hexdigest()


def parts_of(roads: Roads, places: Optional[Coordinates], report: Optional[Report]) -> Parts:
    """The parts of a file. Raises InputError for what can't be written."""
    arrays: dict[str, "array[Any]"] = {
        "tails": roads.tails, "heads": roads.heads, "rows": roads.rows,
        **{f"cost{place}": cost.weights for place, cost in enumerate(roads.costs.values())}}
    if places is not None:
        for name in places.points:
            if name not in roads.numbers:
                raise InputError(f"coordinates: there is no place {shown(name)}")
        arrays["places"] = array("I", [roads.numbers[name] for name in places.points])
        arrays["points"] = array("d", chain.from_iterable(places.points.values()))
    if roads.shapes is not None:
        arrays["lengths"] = array("I", map(len, roads.shapes))
        arrays["shapes"] = array("d", chain.from_iterable(chain.from_iterable(roads.shapes)))
    head = {
        "format": FORMAT, "version": VERSION, "origin": roads.origin,
        "street": coded(roads.street),
        "degrees": None if places is None else places.degrees,
        "report": None if report is None else asdict(report),
        "costs": [[coded(name), cost.scale] for name, cost in roads.costs.items()],
        "names": cells_of(roads.names, "names", arrays, "the name of a place"),
        "table": None if roads.table is None else table_parts(roads.table, arrays)}
    text = json.dumps(head).encode()
    return {HEAD: text, **{f"{name}.npy": npy_of(name, own) for name, own in arrays.items()}}


def table_parts(table: Table, arrays: dict[str, "array[Any]"]) -> dict[str, Any]:
    """A table as JSON, but for the columns of numbers, which are arrays."""
    numbers = table.row_numbers
    columns = [[coded(name), cells_of(cells, f"column{place}", arrays, f"column {name}")]
               for place, (name, cells) in enumerate(table.columns.items())]
    if isinstance(numbers, range):
        rows: Any = [numbers.start, numbers.stop, numbers.step]
    else:
        rows, arrays["numbers"] = None, array("q", numbers)
    return {"name": table.name, "word": table.row_word, "numbers": rows, "columns": columns}


def cells_of(cells: Sequence[Any], name: str, arrays: dict[str, "array[Any]"],
             where: str) -> Optional[list[Any]]:
    """Cells as JSON; or None, and they are an array of this name. Raises InputError for one that
    can't be written."""
    kinds = set(map(type, cells))
    if isinstance(cells, array) and cells.typecode in _TYPES:
        arrays[name] = cells
        return None
    if kinds in ({int}, {float}):
        try:
            arrays[name] = array("d" if kinds == {float} else "q", cells)
            return None
        except OverflowError:
            pass
    try:
        return list(cells) if kinds <= _PLAIN - {int} else list(map(coded, cells))
    except InputError as fault:
        raise placed(fault, where) from None


def coded(value: Any) -> Any:
    """A name or a cell as JSON has it; what JSON has not as an object with the name of its kind.
    Raises InputError for what is neither a number, a text, a line of shapely, nor a list or tuple
    of such."""
    value = plain(value)
    kind = type(value)
    if kind in _PLAIN and not (kind is int and value.bit_length() > MOST_BITS):
        return value
    if kind is float:
        return value if isfinite(value) else {"float": repr(value)}
    if kind is Decimal:
        return {"decimal": str(value)}
    if kind in (list, tuple):
        members = list(map(coded, value))
        return members if kind is list else {"tuple": members}
    if hasattr(value, "wkb_hex"):
        return {"wkb": value.wkb_hex}
    raise InputError(f"{shown(value)} can't be saved")


def decoded(value: Any) -> Any:
    """What was coded. Raises ImportError for a line without shapely."""
    if isinstance(value, list):
        return list(map(decoded, value))
    if not isinstance(value, dict):
        return value
    ((kind, given),) = value.items()
    if kind == "wkb":
        from shapely import wkb

        return wkb.loads(given, hex=True)
    made: dict[str, Callable[[Any], Any]] = {
        "float": float, "decimal": Decimal, "tuple": lambda members: tuple(map(decoded, members))}
    return made[kind](given)


def npy_of(name: str, own: "array[Any]") -> bytes:
    """An array as a file of numpy, of points with two columns."""
    shape = (len(own) // 2, 2) if name in ("points", "shapes") else (len(own),)
    kind = {"descr": _TYPES[own.typecode], "fortran_order": False, "shape": shape}
    text = f"{kind}".encode()
    text += b" " * (-(11 + len(text)) % 64) + b"\n"
    return b"\x93NUMPY\x01\x00" + struct.pack("<H", len(text)) + text + own.tobytes()


def array_of(data: bytes) -> "array[Any]":
    """The array of a file of numpy that `npy_of` made. Raises ValueError and others for another
    file."""
    begin = 10 + struct.unpack("<H", data[8:10])[0]
    kind = literal_eval(data[10:begin].decode())
    own = array({descr: code for code, descr in _TYPES.items()}[kind["descr"]], data[begin:])
    if len(own) != prod(kind["shape"]):
        raise ValueError("an array is not as long as it says")
    return own


class Loaded:
    """The parts of a file, each looked for by its name. Raises LookupError for one that is not
    there."""

    def __init__(self, parts: Parts) -> None:
        self._parts = parts

    def array(self, name: str, code: str = "I", count: Optional[int] = None,
              low: int = 0, high: Optional[int] = None) -> "array[Any]":
        """An array of a type, of so many numbers from `low` to `high`. Raises ValueError for
        another."""
        own = array_of(self._parts[f"{name}.npy"])
        if own.typecode != code or (count is not None and len(own) != count):
            raise ValueError(f"{name} is not as it must be")
        if high is not None and len(own) and not (low <= min(own) and max(own) <= high):
            raise ValueError(f"{name} has a number that is not from {low} to {high}")
        return own

    def cells(self, cells: Optional[list[Any]], name: str) -> Sequence[Any]:
        """The cells that are JSON, or an array of this name."""
        if cells is None:
            own = array_of(self._parts[f"{name}.npy"])
            return own if own.typecode == "I" else own.tolist()
        return cells if set(map(type, cells)) <= _PLAIN else list(map(decoded, cells))

    def points(self, name: str) -> list[Point]:
        """An array of points."""
        flat = self.array(name, "d").tolist()
        return list(zip(flat[::2], flat[1::2]))

    def table(self, head: Optional[Mapping[str, Any]]) -> Optional[Table]:
        """The table of the roads. Raises ValueError for columns of other lengths."""
        if head is None:
            return None
        numbers: Sequence[int] = (self.array("numbers", "q").tolist() if head["numbers"] is None
                                  else range(*head["numbers"]))
        columns = {decoded(name): self.cells(cells, f"column{place}")
                   for place, (name, cells) in enumerate(head["columns"])}
        if any(len(cells) != len(numbers) for cells in columns.values()):
            raise ValueError("its columns differ in length")
        return Table(head["name"], columns, head["word"], numbers)

    def shapes(self, count: int) -> list[list[Point]]:
        """The points between the ends of each of so many roads."""
        lengths, points = self.array("lengths", count=count), self.points("shapes")
        ends = [0, *accumulate(lengths)]
        if ends[-1] != len(points):
            raise ValueError("its shapes have other lengths")
        return [points[begin:end] for begin, end in zip(ends, ends[1:])]


def network_of(head: Mapping[str, Any],
               parts: Parts) -> tuple[Roads, Optional[Coordinates], Optional[Report]]:
    """The network of a file's parts. Raises one of the faults for parts that do not fit."""
    loaded = Loaded(parts)
    names: list[Hashable] = list(loaded.cells(head["names"], "names"))
    numbers, table = numbers_of(names), loaded.table(head["table"])
    tails = loaded.array("tails", low=1, high=len(names))
    count = len(tails)
    heads = loaded.array("heads", count=count, low=1, high=len(names))
    rows = loaded.array("rows", count=count)
    most = len(table) if table else max(rows, default=-1) + 1
    if max(rows, default=-1) >= most:
        raise ValueError("an arc is of a road that its table does not have")
    costs = {decoded(name): Cost(loaded.array(f"cost{place}", count=count), scale_of(scale, name))
             for place, (name, scale) in enumerate(head["costs"])}
    shapes = loaded.shapes(most) if "lengths.npy" in parts else None
    street = decoded(head["street"])
    if street is not None and table is not None:
        table.column(street)
    roads = Roads(names, tails, heads, rows, costs, table, numbers, street, shapes, head["origin"])
    report = None if head["report"] is None else Report(**head["report"])
    if head["degrees"] is None:
        return roads, None, report
    places, points = loaded.array("places", low=1, high=len(names)), loaded.points("points")
    if len(places) != len(points):
        raise ValueError("its places and points differ in number")
    known = {names[place - 1]: point for place, point in zip(places, points)}
    return roads, Coordinates(known, head["degrees"]), report


def numbers_of(names: Iterable[Hashable]) -> dict[Hashable, int]:
    """The vertex of each name. Raises ValueError for one that comes twice."""
    numbers: dict[Hashable, int] = {}
    for number, name in enumerate(names, 1):
        if numbers.setdefault(name, number) != number:
            raise ValueError(f"the place {shown(name)} comes twice")
    return numbers
