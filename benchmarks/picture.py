"""The figures as pictures: how wall time falls with workers, and how processor time grows with the vertices and with pairs."""
import math

from cases import BASELINE, DIFFUSING, TIME, WALL
from factored import FACTORS
from inputs import FIVE_SOURCES

# The batch of the plain solver that is drawn beside the workers.
FIVE_IN_TURN = FIVE_SOURCES, 1

# The pictures by the names of their files.
SPEED, FACTORED = "speed.svg", "factors.svg"
# In the dark all inks are inverted.
DARK = "@media (prefers-color-scheme: dark) { svg.diffuse { filter: invert(.88) hue-rotate(180deg) } }"
MEANING = {SPEED: "wall time of workers, and processor time by vertices", FACTORED: "processor time by pairs, with factors and without"}

# Where the entries of the list of inks are.
LEGEND = (75, 345), (310, 345), (575, 345), (75, 367), (310, 367)

INK, PALE = "#222222", "#dddddd"
WORKERS, SAME_RULE, PLAIN, HEAP = ("#c02a1b", "diffuse, workers"), ("#e09a2b", "the same rule in plain C++"), (
    "#1b5fc0", "diffuse --plain"), ("#3a8f3a", "baseline")
BEST, BY_FACTORS = ("#8a3fb0", "diffuse, workers, best first"), ("#c02a1b", FACTORS)


def text(x, y, words, ink=INK, size=13, anchor="middle"):
    return ('<text x="%.0f" y="%.0f" dy="0.35em" fill="%s" font-size="%d" text-anchor="%s">%s</text>'
            % (x, y, ink, size, anchor, words))


def line(x, y, u, v, ink=INK, width=1):
    return '<line x1="%.1f" y1="%.1f" x2="%.1f" y2="%.1f" stroke="%s" stroke-width="%s"/>' % (x, y, u, v, ink, width)


def seconds(value):
    return "%g s" % value if value >= 1 else "%g ms" % (value * 1000)


class Panel:
    """A field with logarithmic scales, and lines of points in it."""

    def __init__(self, left, title, below, ticks, name_of):
        self.left, self.top, self.width, self.height = left, 50, 300, 220
        self.title, self.below, self.ticks, self.name_of = title, below, ticks, name_of
        self.lines = []

    def add(self, style, points):
        self.lines.append((style, points))

    def x(self, value):
        first, last = math.log(self.ticks[0]), math.log(self.ticks[-1])
        return self.left + self.width * (math.log(value) - first) / (last - first)

    def decades(self):
        values = [y for _, points in self.lines for _, y in points]
        return math.floor(math.log10(min(values))), math.ceil(math.log10(max(values)))

    def y(self, value):
        low, high = self.decades()
        return self.top + self.height * (high - math.log10(value)) / (high - low)

    def drawn(self):
        low, high = self.decades()
        right, bottom = self.left + self.width, self.top + self.height
        body = [text(self.left + self.width / 2, 22, self.title, size=15),
                text(self.left + self.width / 2, bottom + 42, self.below)]
        for power in range(low, high + 1):
            y = self.y(10.0 ** power)
            body += [line(self.left, y, right, y, PALE), text(self.left - 8, y, seconds(10.0 ** power), anchor="end")]
        for tick in self.ticks:
            body += [line(self.x(tick), self.top, self.x(tick), bottom, PALE),
                     text(self.x(tick), bottom + 18, self.name_of(tick))]
        for (ink, _), points in self.lines:
            places = [(self.x(x), self.y(y)) for x, y in points]
            body += [line(*a, *b, ink, 2) for a, b in zip(places, places[1:])]
            body += ['<circle cx="%.1f" cy="%.1f" r="3.5" fill="%s"/>' % (x, y, ink) for x, y in places]
        return body


def by_workers(plan):
    cases = {order: [case for case in plan.engine.values() if case.best_first == order and list(case.settings.values())[1:] == [16, 5, 1024]]
             for order in (False, True)}
    workers = [case.settings["workers"] for case in cases[False]]
    panel = Panel(75, "Five questions: time on the clock", "worker threads ({:,} vertices, 16 shards, width 5)".format(cases[False][0].files.vertices), workers, str)
    one_thread = [plan.batches[FIVE_IN_TURN].median("diffuse", WALL)] * len(workers)
    for style, times in ((WORKERS, medians(cases[False], "diffuse", WALL)), (SAME_RULE, medians(cases[False], DIFFUSING, WALL)),
                         (BEST, medians(cases[True], "diffuse", WALL)), (PLAIN, one_thread), (HEAP, medians(cases[False], BASELINE, WALL))):
        panel.add(style, list(zip(workers, times)))
    return panel


def medians(cases, name, what):
    return [case.median(name, what) for case in cases]


def by_vertices(plan):
    def short(count):
        return "%g M" % (count / 1e6) if count >= 1e6 else "%g k" % (count / 1e3)

    def motorways(order):
        return [case for case in plan.engine_growth if case.files.kind and case.best_first == order]

    panel = Panel(480, "One question: processor time by size of graph", "vertices (2.5 arcs a vertex; workers: 1, with motorways)",
                  [case.files.vertices for case in plan.growth], short)
    for style, cases, name in ((WORKERS, motorways(False), "diffuse"), (SAME_RULE, motorways(False), DIFFUSING), (BEST, motorways(True), "diffuse"),
                               (PLAIN, plan.growth, "diffuse"), (HEAP, plan.growth, BASELINE)):
        panel.add(style, list(zip([case.files.vertices for case in cases], medians(cases, name, TIME))))
    return panel


def by_pairs(cases, left):
    """The time of `solve` by pairs over one graph, in all."""
    panel = Panel(left, "Routes between pairs: processor time in all", "number of pairs (%s)" % cases[0].files.name, [case.count() for case in cases], "{:,}".format)
    for style, name in ((BY_FACTORS, FACTORS), (PLAIN, "diffuse"), (HEAP, BASELINE)):
        panel.add(style, [(case.count(), case.median(name, TIME)) for case in cases])
    return panel


def drawing(panels, styles):
    """Two panels, with one list of what their inks mean."""
    body = [element for panel in panels for element in panel.drawn()]
    for (ink, words), (x, y) in zip(styles, LEGEND):
        body += [line(x, y, x + 22, y, ink, 3), text(x + 28, y, words, anchor="start")]
    return ('<svg xmlns="http://www.w3.org/2000/svg" viewBox="0 0 830 390" width="830" height="390" font-family="sans-serif" class="diffuse">\n'
            f'<style>{DARK}</style>\n'
            '<rect width="830" height="390" fill="white"/>\n' + "\n".join(body) + "\n</svg>\n")


def pictures(plan):
    """The pictures by the names of their files."""
    roads, rivers = plan.series()
    return {SPEED: drawing([by_workers(plan), by_vertices(plan)], (WORKERS, SAME_RULE, BEST, PLAIN, HEAP)),
            FACTORED: drawing([by_pairs(roads, 75), by_pairs(rivers, 480)], (BY_FACTORS, PLAIN, HEAP))}
