"""Refusals as exceptions: one class for each status of the C library, and all of them a
`DiffuseError`.

The numbers are those of include/diffuse.h. A class also says which status of HTTP suits the reply
of a service."""
from __future__ import annotations

from enum import IntEnum
from typing import ClassVar, Optional


MOST_WORDS = 80


def shown(value: object) -> str:
    """A value as messages show it: not longer than a line."""
    if isinstance(value, int) and value.bit_length() > 1000:
        return f"a whole number of {value.bit_length()} bits"
    return cut(repr(value))


def cut(words: str) -> str:
    """Words that are not longer than a line."""
    return words if len(words) <= MOST_WORDS else f"{words[:MOST_WORDS - 3]}..."


class DiffuseError(Exception):
    """Any refusal. `status` is the C library's number, or None if the package itself refused."""

    status: ClassVar[Optional[int]] = None
    http: ClassVar[int] = 500

    def as_dict(self) -> dict[str, object]:
        """What a service may send as JSON: the class's name, both numbers, and the message."""
        return {"error": type(self).__name__, "status": self.status, "http": self.http,
                "detail": str(self)}


class InputError(DiffuseError, ValueError):
    """An argument or a cell of a table that can't be used; the message names its place."""

    http = 400


class MapWarning(UserWarning):
    """What a map does not say, so that the network differs from the roads."""


class BadShape(InputError):
    """An array or a row that does not have the dimensions or columns that are needed."""


class NoRoute(DiffuseError):
    """No walk from the source to the target has a value."""

    status, http = 1, 404


class NoRoom(InputError):
    """A list that does not have just one place for each vertex, or for each answer; or a text
    longer than 2^32 bytes."""

    status = 2


class OutOfMemory(DiffuseError, MemoryError):
    """The C library got no memory. The graph is as it was."""

    status, http = 3, 503


class Closed(DiffuseError):
    """The graph was closed."""

    status, http = 4, 503


class AlreadyOpen(DiffuseError):
    """A handle that was to be opened has a graph. The package never asks for this."""

    status = 5


class Reason(IntEnum):
    """Why the line of a vertex (its value, hops and parent) is wrong: the numbers of `diffuse
    check`."""

    NOT_A_SOURCE_LINE = 1
    NOT_BEST = 2
    NO_PARENT = 3
    OTHER_HOPS = 4
    LESSER_PARENT = 5
    HAS_WALK = 6

    @property
    def text(self) -> str:
        """The reason as a clause."""
        return _REASONS[self]


_REASONS = {
    Reason.NOT_A_SOURCE_LINE: "a source has the value of no arcs, 0 hops and parent 0",
    Reason.NOT_BEST: "an arc gives a better value",
    Reason.NO_PARENT: "the value is none, or the parent does not give it",
    Reason.OTHER_HOPS: "the hops are not one more than the parent's, or fewer are possible",
    Reason.LESSER_PARENT: "a lesser vertex could be the parent",
    Reason.HAS_WALK: "it is reported unreached, and an arc gives it a value",
}


class WrongTree(DiffuseError):
    """The lists are not the tree: `vertex` is the first whose line the others refute, `reason` the
    first `Reason`."""

    status, http = 6, 422

    def __init__(self, vertex: int, reason: int) -> None:
        self.vertex, self.reason = vertex, Reason(reason)
        super().__init__(f"the tree is wrong at vertex {vertex}: {self.reason.text}")

    def __reduce__(self) -> tuple[type[WrongTree], tuple[int, int]]:
        return type(self), (self.vertex, int(self.reason))


class NotFactored(DiffuseError):
    """The graph was not factored, and is searched as before."""

    http = 422


class TooDense(NotFactored):
    """Factors would need too many links: there are no small separators."""

    status = 7


class TooHeavy(NotFactored):
    """The weights are so great that a sum with its arcs may not fit into 63 bits."""

    status = 8


class NoFactors(NotFactored):
    """The algebra has no factors: only shortest, hops and within have."""

    status = 9


class TextFault(InputError):
    """A fault that a text or a number may have. `line` is the line of a .gr or .co text, from 1
    on; or 0."""

    def __init__(self, message: str, line: int = 0) -> None:
        super().__init__(message)
        self.line = line


def placed(fault: InputError, place: str, line: int = 0) -> InputError:
    """The same fault with its place before the message."""
    message = f"{place}: {fault}"
    return type(fault)(message, line) if isinstance(fault, TextFault) else type(fault)(message)


class NoProblemLine(TextFault):
    """A line before the problem line, or no problem line."""

    status = 10


class SecondProblemLine(TextFault):
    """A second problem line."""

    status = 11


class BadProblemLine(TextFault):
    """A problem line that is not `p sp VERTICES ARCS`."""

    status = 12


class UnknownLine(TextFault):
    """A line that begins with none of c, p and a."""

    status = 13


class WrongFields(TextFault):
    """An arc line with another number of fields than four."""

    status = 14


class NotANumber(TextFault):
    """What should be a whole number is none."""

    status = 15


class OutOfRange(TextFault):
    """A number below or above its limits; or more than 2^25 vertices or 2^27 arcs."""

    status = 16


class NoVertex(TextFault):
    """A source, a target or an end of an arc that is no vertex of the graph."""

    status, http = 17, 404


class TooManyArcs(TextFault):
    """More arc lines than announced."""

    status = 18


class TooFewArcs(TextFault):
    """Fewer arc lines than announced."""

    status = 19


class NoAlgebra(InputError):
    """There is no such algebra; or `within` has no limit from 0 to 2^63; or another algebra has a
    limit."""

    status = 43


class NoLink(NotFactored):
    """An arc joins vertices between which the factors have no link."""

    status = 44


class Stopped(DiffuseError):
    """The stop was set before there was an answer."""

    status = 45


class OtherArcs(InputError):
    """The arcs that were to be numbered are not those of the graph."""

    status = 46


class NoNumbers(DiffuseError):
    """The arcs of the graph were not numbered. The package never asks for this."""

    status = 47


class NoOrder(InputError):
    """The list of places in an order does not have each place once."""

    status = 48


_KINDS: tuple[type[DiffuseError], ...] = (
    NoRoute, NoRoom, OutOfMemory, Closed, AlreadyOpen, WrongTree, TooDense, TooHeavy, NoFactors,
    NoProblemLine, SecondProblemLine, BadProblemLine, UnknownLine, WrongFields, NotANumber,
    OutOfRange, NoVertex, TooManyArcs, TooFewArcs, NoAlgebra, NoLink, Stopped, OtherArcs,
    NoNumbers, NoOrder,
)
BY_STATUS = {kind.status: kind for kind in _KINDS}


def refusal(status: int, message: str = "") -> DiffuseError:
    """The exception of a status, with the meaning of its class if there is no message."""
    kind = BY_STATUS.get(status)
    if kind is None:
        return DiffuseError(
            f"the library returned status {status}, which this package does not know")
    return kind(message or " ".join((kind.__doc__ or "").split()))

