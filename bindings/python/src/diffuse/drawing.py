"""A network and answers about it as a picture: as one SVG, which stays readable with a hundred
thousand places, or by matplotlib."""
from __future__ import annotations

import re
from bisect import bisect_left
from math import atan2, cos, degrees, hypot, isfinite, radians, sin, sqrt
from typing import (
    TYPE_CHECKING, Any, Container, Hashable, Iterable, Iterator, Mapping, Optional, Sequence,
    Union,
)
from xml.sax.saxutils import escape as escaped

from .columns import Argument, listed, whole_number
from .errors import InputError, shown
from .export import Target, write
from .geometry import Line, Point
from .roads import Coordinates
from .routes import NamedRoute, unit_of
from .trees import Isochrone, NamedTree

if TYPE_CHECKING:
    from .network import Network

MARGIN, SIZE, SMALL = 40, 14, 12
"""The margin of a picture and the height of its words and of names of streets, in pixels."""
WIDTHS = (160, 100_000)
"""The least and the greatest width of a picture."""
ROAD, ROUTE, INK = "#c4c4c4", "#d7301f", "#222222"
BANDS = ["#440154", "#3b528b", "#21918c", "#5ec962", "#d9b400"]
"""From near to far, told apart also by those who do not see red and green apart."""
FEW, LEGEND = 60, 28
# Words stand out from roads, and in the dark all inks are inverted.
STYLE = (".diffuse text { paint-order: stroke; stroke: white; stroke-width: 4px }\n"
         "@media (prefers-color-scheme: dark) "
         "{ svg.diffuse { filter: invert(.88) hue-rotate(180deg) } }")
LABELS = Argument("labels", needed="a list of places, or places with words,")
Labels = Union[Iterable[Hashable], Mapping[Hashable, str]]
Answers = Sequence[Union[NamedRoute, NamedTree]]
if TYPE_CHECKING:
    Box = tuple[float, float, float, float]
    """Left, top, right and bottom of a part of a picture."""
    Stretch = tuple[Point, Point]
    """The ends of a straight piece of a road in a picture."""


class Frame:
    """A map of places onto a picture of some width, north upwards; a degree of longitude is as
    wide as in the middle."""

    def __init__(self, places: Optional[Coordinates], names: Iterable[Hashable], width: int,
                 more: Iterable[Point] = ()) -> None:
        """The frame of places by their names, and of more points between them. Raises InputError
        without coordinates."""
        width = whole_number(width, "width", *WIDTHS)
        known = places.points if places else {}
        chosen = [(name, known[name]) for name in names if name in known]
        if places is None or not chosen:
            raise InputError("a picture needs places with coordinates")
        points = [*(at for _, at in chosen), *more]
        lows, highs = [[pick(at[axis] for at in points) for axis in (0, 1)] for pick in (min, max)]
        narrowing = cos(radians((lows[1] + highs[1]) / 2)) if places.degrees else 1.0
        wide, high = (highs[0] - lows[0]) * narrowing, highs[1] - lows[1]
        inner = width - 2 * MARGIN
        scale = min(inner / wide if wide else inner / max(high, 1e-9),
                    2 * inner / high if high else inner / max(wide, 1e-9))
        self.width, self.height = width, round(high * scale) + 2 * MARGIN
        self._scales = (narrowing * scale, -scale)
        self._zero = ((width - wide * scale) / 2 - lows[0] * self._scales[0],
                      MARGIN + highs[1] * scale)
        self.at = {name: self.point(at) for name, at in chosen}

    def point(self, at: Point) -> Point:
        """Where coordinates are in the picture."""
        return (self._zero[0] + at[0] * self._scales[0], self._zero[1] + at[1] * self._scales[1])


class Boxes:
    """The boxes of words in a picture, none of which covers another."""

    def __init__(self, frame: Frame, stretches: Sequence[Stretch] = ()) -> None:
        """No words yet, and the roads that labels had better not cover."""
        self._frame, self._stretches = frame, stretches
        self._boxes: list[Box] = []

    def place(self, name: str, at: Point, needed: bool) -> Optional[tuple[float, float, str]]:
        """Where the label of a point begins, or ends or has its middle (its text-anchor): on the
        first of the sides where it covers the fewest roads; None if there is no room and it is
        not needed."""
        x, y = at
        wide, high = 0.6 * SIZE * len(name), SIZE + 1
        sides = [(x + 8, y, "start"), (x - 8, y, "end"), (x, y - high, "middle"),
                 (x, y + high, "middle"), (x + 6, y - 12, "start"), (x + 6, y + 12, "start"),
                 (x - 6, y - 12, "end"), (x - 6, y + 12, "end")]
        free = []
        for side in sides:
            begin = side[0] - wide * {"start": 0, "middle": 0.5, "end": 1}[side[2]]
            box = (begin, side[1] - SIZE / 2, begin + wide, side[1] + SIZE / 2)
            if self.is_free(box):
                free.append((sum(crosses(line, box) for line in self._stretches), side, box))
        if not free:
            return sides[0] if needed else None
        _, side, box = min(free, key=lambda found: found[0])
        self._boxes.append(box)
        return side

    def take(self, box: Box) -> bool:
        """Takes a box, if it is free."""
        if not self.is_free(box):
            return False
        self._boxes.append(box)
        return True

    def is_free(self, box: Box) -> bool:
        """Whether a box is inside the picture, and covers no other."""
        left, top, right, bottom = box
        frame = self._frame
        inside = left >= 0 and right <= frame.width and top >= 0 and bottom <= frame.height
        return inside and all(right < a or c < left or bottom < b or d < top
                              for a, b, c, d in self._boxes)


def crosses(stretch: Stretch, box: Box) -> bool:
    """Whether some point of a straight line is in a box."""
    (x, y), (u, v) = stretch
    left, top, right, bottom = box
    begin, end = 0.0, 1.0
    for step, low, high in ((u - x, left - x, right - x), (v - y, top - y, bottom - y)):
        if step == 0:
            begin = begin if low <= 0 <= high else 2.0
        else:
            begin, end = max(begin, min(low / step, high / step)), min(
                end, max(low / step, high / step))
    return begin <= end


def draw(network: Network, path: Target, answers: Answers, labels: Optional[Labels], title: str,
         width: int) -> Optional[str]:
    """Writes the picture, or returns it. Raises InputError without coordinates or for what can't
    be drawn, NoVertex for a label that is no place; OSError."""
    check(network, answers)
    shapes = network._roads.shapes or ()
    frame = Frame(network.coordinates, network.places, width,
                  (point for shape in shapes for point in shape))
    words = words_of(network, labels)
    routes = [answer for answer in answers if isinstance(answer, NamedRoute)]
    trees = [answer for answer in answers if isinstance(answer, NamedTree)]
    thin = min(3.0, max(0.5, 40 / sqrt(len(network.places))))
    body = [paths(frame, lines_of(network, range(len(network._roads.tails))), ROAD, thin)]
    legend: list[tuple[str, str]] = []
    for found in map(bands, trees):
        body += [paths(frame, lines, colour, 1.6 * thin) for colour, _, lines in reversed(found)]
        legend += [(colour, meaning) for colour, meaning, _ in found]
    for route in routes:
        body += [paths(frame, [route.line()], "white", thin + 5),
                 paths(frame, [route.line()], ROUTE, thin + 2)]
        legend.append((ROUTE, meaning_of(route, words)))
    ends = [place for tree in trees for place in tree.sources]
    ends += [route.places[end] for route in routes for end in (0, -1)]
    few = list(network.places) if len(network.places) <= FEW else []
    body += dots(frame, list(dict.fromkeys(ends)), few)
    said = {**{place: words.get(place, str(place)) for place in ends}, **words}
    named = stretches(frame, network) if few else []
    taken = Boxes(frame, [stretch for stretch, _ in named])
    body += names(frame, taken, said, ends if labels is None else words)
    body += streets(taken, named)
    return write(path, svg(frame, body, legend, str(title)))


def meaning_of(route: NamedRoute, words: Mapping[Hashable, str]) -> str:
    """What the legend says of a route."""
    both = (words.get(place, str(place)) for place in (route.places[0], route.places[-1]))
    return f"{' to '.join(both)}: {route.cost:.12g} {unit_of(route.algebra, route.by)}"


def plot(network: Network, answers: Answers, ax: Any) -> Any:
    """Draws the picture by matplotlib. Raises ImportError without it; InputError."""
    from matplotlib import pyplot
    from matplotlib.collections import LineCollection

    check(network, answers)
    if network.coordinates is None:
        raise InputError("a picture needs places with coordinates")
    ax = pyplot.gca() if ax is None else ax
    roads = lines_of(network, range(len(network._roads.tails)))
    layers: list[tuple[str, Optional[str], list[Line], float]] = [(ROAD, None, roads, 0.5)]
    for answer in answers:
        if isinstance(answer, NamedTree):
            layers += [(colour, meaning, lines, 1.0) for colour, meaning, lines in bands(answer)]
        else:
            layers.append((ROUTE, meaning_of(answer, {}), [answer.line()], 2.0))
    for colour, meaning, lines, wide in layers:
        ax.add_collection(LineCollection(lines, colors=colour, linewidths=wide, label=meaning))
    ax.autoscale_view()
    middle = sum(y for _, y in network.coordinates.points.values()) / len(
        network.coordinates.points)
    ax.set_aspect(1 / max(cos(radians(middle)), 0.01) if network.coordinates.degrees else 1)
    if len(layers) > 1:
        ax.legend()
    return ax


def check(network: Network, answers: Iterable[object]) -> None:
    """Raises InputError for what is no answer of this network, or of one over the same roads."""
    for answer in answers:
        if not isinstance(answer, (NamedRoute, NamedTree)):
            raise InputError(f"draw: {shown(answer)} is neither a route nor a tree")
        if answer.network._roads.origin != network._roads.origin:
            raise InputError(f"draw: {shown(answer)} is of another network")


def words_of(network: Network, labels: Optional[Labels]) -> dict[Hashable, str]:
    """The words at places: what is asked for, or all names if they are few. Raises NoVertex;
    InputError for no list."""
    if labels is None:
        few = len(network.places) <= FEW
        return {place: str(place) for place in network.places} if few else {}
    words = (labels.items() if isinstance(labels, Mapping)
             else [(place, str(place)) for place in listed(labels, LABELS)])
    return {network.places[network.vertex(place) - 1]: str(word) for place, word in words}


def lines_of(network: Network, arcs: Iterable[int]) -> list[Line]:
    """The lines of arcs, each road and each line between the same points once."""
    roads, places = network._roads, network.coordinates
    found = {tuple(roads.line(arc, places)) for arc in arcs if places} if places else set()
    return [line for line in found
            if len(line) > 1 and (line[::-1] not in found or line <= line[::-1])]


def bands(tree: NamedTree) -> list[tuple[str, str, list[Line]]]:
    """Of an isochrone the stretches of roads within its limits, of a tree its own arcs, by the
    cost of the end that has more of it.

    For each band its colour, what it says in the legend, and its lines, the nearest band first.
    """
    limits, lines = (isochrone_bands(tree) if isinstance(tree, Isochrone) else tree_bands(tree))
    unit = unit_of(tree.algebra, tree.by)
    return [(colour_of(number, len(limits)), f"up to {limit:.12g} {unit}", lines[number])
            for number, limit in enumerate(limits)]


def isochrone_bands(isochrone: Isochrone) -> tuple[list[float], list[list[Line]]]:
    """The limits, and the stretches of roads up to each."""
    found = {(limit, tuple(line)) for limit, line in isochrone.roads()}
    return isochrone.limits, [[line for limit, line in found if limit == most]
                              for most in isochrone.limits]


def tree_bands(tree: NamedTree) -> tuple[list[float], list[list[Line]]]:
    """Equal parts of the greatest cost, and the lines of the arcs up to each."""
    roads, places = tree.network._roads, tree.network.places
    costs = {arc: max(tree.cost(places[end - 1]) or 0.0
                      for end in (roads.tails[arc], roads.heads[arc])) for arc in tree.arcs}
    limits = equal_parts(max(filter(isfinite, costs.values()), default=0))
    arcs: list[list[int]] = [[] for _ in limits]
    for arc, cost in costs.items():
        arcs[min(bisect_left(limits, cost), len(limits) - 1)].append(arc)
    return limits, [lines_of(tree.network, part) for part in arcs]


def equal_parts(most: float) -> list[float]:
    """The bounds of as many equal parts as there are colours."""
    if not most:
        return [0.0]
    return [most * part / len(BANDS) for part in range(1, len(BANDS) + 1)]


def colour_of(number: int, count: int) -> str:
    """The colour of a band, between those of BANDS if there are more or fewer."""
    place = number * (len(BANDS) - 1) / max(count - 1, 1)
    low = min(int(place), len(BANDS) - 2)
    ends = [[int(BANDS[low + side][digit:digit + 2], 16) for digit in (1, 3, 5)]
            for side in (0, 1)]
    return "#" + "".join(f"{round(a + (b - a) * (place - low)):02x}" for a, b in zip(*ends))


def paths(frame: Frame, lines: Iterable[Line], colour: str, width: float) -> str:
    """One path of all these lines, in tenths of pixels, without what is no longer than one."""
    parts = []
    for line in filter(None, lines):
        points = [tuple(round(10 * c) for c in frame.point(at)) for at in line]
        steps = [(u - x, v - y) for (x, y), (u, v) in zip(points, points[1:])]
        parts.append("M{} {}l".format(*points[0])
                     + " ".join(f"{x} {y}" for x, y in steps if x or y))
    data = "".join(sorted(part for part in parts if part[-1] != "l"))
    return (f'<path transform="scale(.1)" d="{data}" fill="none" stroke="{colour}" '
            f'stroke-width="{10 * width:.0f}" stroke-linecap="round" stroke-linejoin="round"/>')


def dots(frame: Frame, ends: list[Hashable], places: list[Hashable]) -> Iterator[str]:
    """A ring at each end, and a dot at each other of some places."""
    for place in places:
        if place in frame.at and place not in ends:
            yield circle(frame, place, 3, INK)
    for place in (place for place in ends if place in frame.at):
        yield circle(frame, place, 6, "white") + circle(frame, place, 3.5, INK)


def names(frame: Frame, taken: Boxes, words: Mapping[Hashable, str],
          needed: Container[Hashable]) -> Iterator[str]:
    """The words beside places, of those that are not needed only where there is room."""
    for place, name in words.items():
        if place in frame.at:
            found = taken.place(name, frame.at[place], place in needed)
            if found:
                yield words_at(*found, name)


def stretches(frame: Frame, network: Network) -> list[tuple[Stretch, str]]:
    """The straight pieces of all roads in the picture, each from left to right or upwards, and
    the names of their streets; of a street without one it is empty."""
    roads, places = network._roads, network.coordinates
    if places is None:
        return []
    cells = None if roads.street is None else roads.table.column(roads.street)
    found: set[tuple[Stretch, str]] = set()
    for arc in range(len(roads.tails)):
        name = "" if cells is None else str(cells[roads.rows[arc]] or "")
        points = [frame.point(at) for at in roads.line(arc, places)]
        found |= {(rightwards(*ends), "" if name.startswith("(") else name)
                  for ends in zip(points, points[1:])}
    return sorted(found)


def rightwards(one: Point, other: Point) -> Stretch:
    """Two points, from left to right, or upwards."""
    return (one, other) if (one[0], other[1]) <= (other[0], one[1]) else (other, one)


def streets(taken: Boxes, named: Iterable[tuple[Stretch, str]]) -> Iterator[str]:
    """The names of streets, each beside its longest straight piece, where there is room."""
    longest: dict[str, tuple[float, Stretch]] = {}
    for stretch, name in named:
        (x, y), (u, v) = stretch
        longest[name] = max(longest.get(name, (0.0, stretch)), (hypot(u - x, v - y), stretch))
    for name, (length, ((x, y), (u, v))) in longest.items():
        wide, turn = 0.6 * SMALL * len(name), atan2(v - y, u - x)
        for side in (-SMALL, SMALL):
            middle = (x + u) / 2 - side * sin(turn), (y + v) / 2 + side * cos(turn)
            half = [(abs(cos(turn)) * one + abs(sin(turn)) * other) / 2
                    for one, other in ((wide, SMALL), (SMALL, wide))]
            box = (middle[0] - half[0], middle[1] - half[1],
                   middle[0] + half[0], middle[1] + half[1])
            if name and wide <= length and taken.take(box):
                yield (f'<text transform="translate({middle[0]:.1f} {middle[1]:.1f}) '
                       f'rotate({degrees(turn):.1f})" dy=".35em" text-anchor="middle" '
                       f'font-size="{SMALL}">{escape(name)}</text>')
                break


def escape(words: str) -> str:
    """Words as XML has them, with a sign in the place of each that XML can't have."""
    return escaped(re.sub("[^\t\n\r\x20-\ud7ff\ue000-\ufffd\U00010000-\U0010ffff]", "\ufffd",
                          words))


def circle(frame: Frame, place: Hashable, radius: float, fill: str) -> str:
    x, y = frame.at[place]
    return f'<circle cx="{x:.1f}" cy="{y:.1f}" r="{radius}" fill="{fill}" stroke="{INK}"/>'


def words_at(x: float, y: float, anchor: str, words: str) -> str:
    return (f'<text x="{x:.1f}" y="{y:.1f}" dy=".35em" text-anchor="{anchor}">'
            f"{escape(words)}</text>")


def svg(frame: Frame, body: Iterable[str], legend: list[tuple[str, str]],
        title: str) -> Iterator[str]:
    """The file: title, map, and below it the legend, a line for each entry."""
    top, height = (LEGEND if title else 0), frame.height
    whole = top + height + LEGEND * len(legend)
    yield (f'<svg xmlns="http://www.w3.org/2000/svg" viewBox="0 0 {frame.width} {whole}" '
           f'width="{frame.width}" height="{whole}" font-family="sans-serif" '
           f'font-size="{SIZE}" fill="{INK}" class="diffuse">\n'
           '<rect width="100%" height="100%" fill="white"/>\n')
    if title:
        yield (f'<text x="{MARGIN}" y="{LEGEND}" font-size="{SIZE + 4}">{escape(title)}</text>\n')
    yield (f'<g transform="translate(0 {top})" paint-order="stroke" stroke-linejoin="round">\n')
    yield f"<style>{STYLE}</style>\n"
    yield "\n".join(body) + "\n</g>\n"
    for number, (colour, words) in enumerate(legend):
        y = top + height + LEGEND * number
        yield f'<path d="M{MARGIN} {y}h30" stroke="{colour}" stroke-width="5"/>\n'
        yield words_at(MARGIN + 40, y, "start", words) + "\n"
    yield "</svg>\n"
