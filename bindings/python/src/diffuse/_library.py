"""The C library: where it is found, and the types of its calls, as in include/diffuse.h."""
from __future__ import annotations

import ctypes
import os
import weakref
from ctypes import POINTER, c_bool, c_int32, c_size_t, c_uint32, c_uint64, c_void_p
from functools import lru_cache, partial
from pathlib import Path
from typing import Any, ClassVar, Optional

from .columns import view_of

NAME = "libdiffuse.so"
SYSTEM = "libdiffuse.so.1"
PLACE = "DIFFUSE_LIBRARY"
DONE, NO_ROUTE, NO_ROOM, WRONG, STOPPED = 0, 1, 2, 6, 45


class Raw(ctypes.Structure):
    """What the library opens, a handle or a stop: closed at first, all zero."""

    _fields_ = [("at", c_void_p), ("is_open", c_bool)]


class Registry:
    """Weak references, each forgotten some time after what it refers to is gone. When that goes,
    no code of Python runs in which a signal could strike and be lost."""

    def __init__(self) -> None:
        self._references: dict[int, weakref.ref[Any]] = {}
        self._most = 64

    def add(self, reference: weakref.ref[Any]) -> None:
        """Keeps a reference."""
        self._references[id(reference)] = reference
        if len(self._references) > self._most:
            for key, other in list(self._references.items()):
                if other() is None:
                    self._references.pop(key, None)
            self._most = 2 * len(self._references) + 64

    def living(self) -> list[Any]:
        """What there is still, in the order in which it came."""
        found = [reference() for reference in list(self._references.values())]
        return [thing for thing in found if thing is not None]


class End(weakref.ref[Any]):
    """A reference that calls a function of the library when what it refers to is gone; to it the
    reference is a null that it does not read."""

    _as_parameter_ = None


_ENDS = Registry()


class Owned:
    """What the library opens, and closes when nothing refers to it any more: wherever an exception
    strikes, it is freed."""

    free: ClassVar[Any]

    def __init__(self) -> None:
        library()
        self._as_parameter_ = ctypes.pointer(Raw())
        _ENDS.add(End(self, partial(self.free, self._as_parameter_)))


class StopHandle(Owned):
    """A stop of the library."""


class Handle(Owned):
    """A handle of a graph, which one call at a time may use."""

    is_numbered: bool = False
    """Whether the arcs of its graph were numbered before the handle was made."""
    stop: Optional[StopHandle] = None
    """What ends its calls, if it was given one."""
    is_stopped: bool = False
    """Whether its stop may be set."""
    _rooms: Optional[list[tuple[int, Any]]] = None

    def rooms(self, vertices: int) -> list[tuple[int, Any]]:
        """Room for the vertices and for the arcs of the longest route of its graph, and where it
        is: made once, and used by one call after the other, as the handle is."""
        if self._rooms is None:
            made = [(c_uint32 * max(vertices, 1))() for _ in range(2 if self.is_numbered else 1)]
            self._rooms = [(ctypes.addressof(room), view_of(room)) for room in made]
        return self._rooms


_HANDLE = _STOP = POINTER(Raw)
_NUMBER, _CODE = POINTER(c_uint32), POINTER(c_uint64)
_LIST = [c_void_p, c_size_t]
_QUESTION = [_HANDLE, c_uint32, c_uint64]
_PAIR = [c_uint32, c_uint32, _CODE, _NUMBER]
_CALLS: dict[str, tuple[Any, list[Any]]] = {
    "diffuse_graph_open": (c_int32, [c_uint32, *_LIST, _HANDLE]),
    "diffuse_graph_read": (c_int32, [*_LIST, _HANDLE, _CODE]),
    "diffuse_graph_share": (c_int32, [_HANDLE, _HANDLE]),
    "diffuse_graph_close": (None, [_HANDLE]),
    "diffuse_graph_vertices": (c_uint32, [_HANDLE]),
    "diffuse_graph_arcs": (c_size_t, [_HANDLE]),
    "diffuse_graph_route": (c_int32, [*_QUESTION, *_PAIR, *_LIST]),
    "diffuse_graph_number": (c_int32, [_HANDLE, *_LIST]),
    "diffuse_graph_route_arcs": (c_int32, [*_QUESTION, *_PAIR, *_LIST, *_LIST]),
    "diffuse_graph_tree": (c_int32, [*_QUESTION, *_LIST, *_LIST, *_LIST, *_LIST]),
    "diffuse_graph_check": (
        c_int32, [*_QUESTION, *_LIST, *_LIST, *_LIST, *_LIST, _NUMBER, _NUMBER]),
    "diffuse_graph_table": (c_int32, [*_QUESTION, *_LIST, *_LIST, *_LIST]),
    "diffuse_graph_near": (
        c_int32, [*_QUESTION, *_LIST, *_LIST, *_LIST, *_LIST, *_LIST, POINTER(c_size_t)]),
    "diffuse_graph_reweigh": (c_int32, [_HANDLE, *_LIST, _HANDLE]),
    "diffuse_graph_factor": (c_int32, [_HANDLE, c_uint32]),
    "diffuse_graph_factor_by": (c_int32, [_HANDLE, c_uint32, *_LIST]),
    "diffuse_stop_new": (c_int32, [_STOP]),
    "diffuse_graph_stop_by": (c_int32, [_HANDLE, _STOP]),
    "diffuse_stop_set": (c_int32, [_STOP]),
    "diffuse_stop_clear": (c_int32, [_STOP]),
    "diffuse_stop_free": (None, [_STOP]),
    "diffuse_version": (c_uint32, []),
}


def place() -> str:
    """The path of the library: what DIFFUSE_LIBRARY names, or the one in this package, or the
    system's."""
    named = os.environ.get(PLACE)
    if named:
        return named
    beside = Path(__file__).with_name(NAME)
    return str(beside) if beside.exists() else SYSTEM


@lru_cache(maxsize=None)
def library() -> ctypes.CDLL:
    """The library, loaded once. A call lets go of the interpreter's lock while it runs.

    Raises ImportError if there is no library, or one of another major version.
    """
    path = place()
    try:
        found = ctypes.CDLL(path)
    except OSError as error:
        raise ImportError(
            f"{path} could not be loaded ({error}); {PLACE} may name another {NAME}") from error
    for name, (result, arguments) in _CALLS.items():
        call = getattr(found, name)
        call.restype, call.argtypes = result, arguments
    number = found.diffuse_version()
    if number // 10000 != 1:
        raise ImportError(
            f"{path} has version {number // 10000}, and this package calls version 1")
    Handle.free, StopHandle.free = found.diffuse_graph_close, found.diffuse_stop_free
    return found


def version() -> str:
    """The version of the C library, as "1.2.0"."""
    number = library().diffuse_version()
    return f"{number // 10000}.{number // 100 % 100}.{number % 100}"
