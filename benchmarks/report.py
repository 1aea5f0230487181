"""The figures as tables, in plain text or Markdown."""
import math
import statistics

from cases import BASELINE, DIFFUSING, PARTS, PEAK, SOLVE, TIME, WALL
from factored import FACTORS
from inputs import PEER
from services import FIRST


class Table:
    def __init__(self, title, heads):
        self.title, self.heads, self.rows = title, heads, []

    def plain(self):
        widths = [max(len(cell) for cell in column) for column in zip(self.heads, *self.rows)]
        lines = ["  ".join(cell.ljust(width) for cell, width in zip(row, widths)).rstrip()
                 for row in [self.heads] + self.rows]
        return "\n".join([self.title, ""] + lines)

    def markdown(self):
        lines = ["| %s |" % " | ".join(row) for row in [self.heads, ["---"] * len(self.heads)] + self.rows]
        return "\n".join(["**%s**" % self.title, ""] + lines)


def seconds(value):
    for below, by, form in ((1e-4, 1e6, "%.1f µs"), (0.01, 1e3, "%.2f ms"), (0.1, 1e3, "%.1f ms"), (1, 1e3, "%.0f ms")):
        if value < below:
            return form % (value * by)
    return "%.2f s" % value


def size(value):
    for unit, name in ((1e9, "GB"), (1e6, "MB")):
        if value >= unit:
            return "%.3g %s" % (value / unit, name)
    return "%d bytes" % value


def spread(ratios):
    """The median, and the first and third quartile; a dash if nothing was measured."""
    if not ratios:
        return "-"
    first, median, third = statistics.quantiles(ratios, n=4, method="inclusive") if len(ratios) > 1 else ratios * 3
    return "%s (%s to %s)" % tuple(map(ratio, (median, first, third)))


def ratio(number):
    """With two decimals, or if it is small with two digits that count."""
    return "%.2f" % number if number >= 0.1 else "%.2g" % number


def ran(cases):
    """The cases that were run."""
    return [case for case in cases if case.taken]


def others_of(cases):
    """The other programs that were run on some of these cases, with the heads of their columns."""
    found = list(dict.fromkeys(name for case in cases for name in case.taken if name != "diffuse"))
    return found, ["ratio to the baseline" if name == BASELINE else "ratio to " + name for name in found]


def table_of(title, what, unit, cases):
    """What diffuse took, and its ratios to all others."""
    names, heads = others_of(ran(cases))
    table = Table(title + ": ratios as median (quartiles)", ["Graph and questions", "diffuse"] + heads)
    for case in ran(cases):
        table.rows.append([case.title(), unit(case.median("diffuse", what))] + [spread(case.ratios(name, what)) for name in names])
    return table


def beyond_of(title, pairs):
    """What is left of processor time if what the same program took to read the graph is taken off, round by round."""
    pairs = [(case, reading) for case, reading in pairs if case.taken and reading and reading.taken]
    names, heads = others_of([case for case, _ in pairs])
    names, heads = zip(*[(name, head) for name, head in zip(names, heads) if name != PEER]) if names else ((), ())
    table = Table(title + ": ratios as median (quartiles)", ["Graph and questions", "diffuse", *heads])
    for case, reading in pairs:
        ours = max(0, statistics.median(case.beyond(reading, "diffuse", TIME)))
        table.rows.append([case.title(), seconds(ours)] + [spread(case.beyond_ratios(reading, name)) for name in names])
    return table


def parts_of(cases):
    """Which part of the wall time programs read, solve and write, as medians; and the longest round to the shortest."""
    heads = ["Graph and questions", "Program", "Reading", "Solving", "Writing", "Longest round to shortest"]
    table = Table("Where the time of one source goes, with --plain", heads)
    for case, name in ((case, name) for case in ran(cases) for name in ("diffuse", BASELINE)):
        whole = [sum(taken[part] for part in PARTS) for taken in case.taken[name]]
        shares = [statistics.median(taken[part] / all for taken, all in zip(case.taken[name], whole) if all) if any(whole) else 0 for part in PARTS]
        times = [taken[TIME] for taken in case.taken[name]]
        table.rows.append([case.title(), name] + ["%.0f %%" % (100 * share) for share in shares] + ["%.2f" % (max(times) / min(times))])
    return table


def pairs_of(cases):
    """What it takes to solve a pair, by diffuse and by the baseline; and the peak memory of both."""
    table = Table("Pairs with --plain, without reading and writing: ratios as median (quartiles)",
                  ["Graph and questions", "A pair", "of the baseline", "Time to the baseline", "Peak memory", "Peak memory to the baseline"])
    for case in ran(cases):
        each = [seconds(statistics.median(case.each(name, SOLVE))) for name in ("diffuse", BASELINE)]
        table.rows.append([case.title(), *each, spread(case.ratios(BASELINE, SOLVE)), size(case.median("diffuse", PEAK)),
                           spread(case.ratios(BASELINE, PEAK))])
    return table


def answers_of(cases):
    """How the answers of the caller's own programs are beside those of diffuse."""
    table = Table("Answers beside those of diffuse", ["Graph and questions", "Program", "Answers"])
    table.rows = [[case.title(), name, found] for case in ran(cases) for name, found in case.found.items()]
    return table


def growth_of(cases):
    """Time over n log n (n vertices, logarithm of base 2) and peak memory over arcs, of diffuse and of the baseline."""
    table = Table("Growth with --plain: one source, four sizes",
                  ["Vertices", "Arcs", "diffuse", "ns per n log n", "of the baseline", "bytes per arc", "of the baseline"])
    for case in ran(cases):
        vertices, arcs = case.files.vertices, case.files.arcs
        work = vertices * math.log2(vertices)
        times = ["%.1f" % (case.median(name, TIME) * 1e9 / work) for name in ("diffuse", BASELINE)]
        peaks = ["%.0f" % (case.median(name, PEAK) / arcs) for name in ("diffuse", BASELINE)]
        table.rows.append(["{:,}".format(vertices), "{:,}".format(arcs), seconds(case.median("diffuse", TIME))]
                          + times + peaks)
    return table


def engine_growth_of(cases):
    """How the work of one worker grows: messages an arc, time a message, time over n log n."""
    table = Table("Growth of the engine: one source, one worker, one shard",
                  ["Graph", "Arcs", "Order", "Messages an arc", "diffuse", "ns a message", "of plain C++", "ns per n log n", "Time to the baseline",
                   "bytes per arc", "of plain C++"])
    for case in ran(cases):
        vertices, arcs, messages = case.files.vertices, case.files.arcs, case.handled()
        time, theirs = case.median("diffuse", TIME), case.median(DIFFUSING, TIME)
        table.rows.append([case.files.name, "{:,}".format(arcs), case.order(), arc_of(case), seconds(time), "%.0f" % (time * 1e9 / messages),
                           "%.0f" % (theirs * 1e9 / messages), "%.0f" % (time * 1e9 / (vertices * math.log2(vertices))),
                           ratio(statistics.median(case.ratios(BASELINE, TIME)))]
                          + ["%.0f" % (case.median(name, PEAK) / arcs) for name in ("diffuse", DIFFUSING)])
    return table


def arc_of(case):
    return "%.2f" % statistics.median(case.each_arc())


def settings_of(pairs, title="Workers"):
    """What workers, shards, width and budget do; each setting best first, with the same as messages come."""
    table = Table(title, ["Graph and questions", "Workers", "Shards", "Width", "Budget", "Order", "Messages an arc", "Processor time", "Wall time", "Peak memory",
                         "Time to plain C++", "Wall to plain C++", "Memory to plain C++", "Time to the baseline", "Wall to the baseline",
                         "Time to the other order"])
    for case, other in ((case, other) for case, other in pairs if case.taken):
        ratios = [case.ratios(DIFFUSING, what) for what in (TIME, WALL, PEAK)] + [case.ratios(BASELINE, what) for what in (TIME, WALL)]
        table.rows.append(["%s, %s" % (case.files.name, case.kind)] + ["{:,}".format(number) for number in case.settings.values()]
                          + [case.order(), arc_of(case), seconds(case.median("diffuse", TIME)), seconds(case.median("diffuse", WALL)),
                             size(case.median("diffuse", PEAK))]
                          + [ratio(statistics.median(it)) if it else "-" for it in ratios]
                          + [ratio(case.median("diffuse", TIME) / other.median("diffuse", TIME)) if other and other.taken else ""])
    return table


def batches_of(cases, single):
    """Several questions with --plain, beside one source of the same graph."""
    table = Table("Batches with --plain", ["Graph and questions", "Processor time", "Wall time", "Peak memory",
                                           "Processor time to one source", "Wall time to one source"])
    for case in ran(cases):
        ratios = ["%.2f" % (case.median("diffuse", what) / single.median("diffuse", what)) if single.taken else "-" for what in (TIME, WALL)]
        table.rows.append([case.title(), seconds(case.median("diffuse", TIME)), seconds(case.median("diffuse", WALL)),
                           size(case.median("diffuse", PEAK))] + ratios)
    return table


def shapes_of(pairs):
    """Each shape at a size and at one whose number of arcs is about four times as great."""
    table = Table("Shapes: one source, at two sizes", ["Shape", "Settings", "Arcs", "diffuse", "Arcs", "diffuse",
                                                       "Growth of arcs", "Growth of time", "Ratio to plain C++"])
    for less, more in (pair for pair in pairs if len(ran(pair)) == 2):
        settings = "workers %(workers)d, shards %(shards)d" % less.settings + (", best first" if less.best_first else "")
        sides = [cell for case in (less, more)
                 for cell in ("{:,}".format(case.files.arcs), seconds(case.median("diffuse", TIME)))]
        growth = [more.files.arcs / less.files.arcs, more.median("diffuse", TIME) / less.median("diffuse", TIME)]
        table.rows.append([less.files.name.split(" of ")[0], settings] + sides + ["%.1f" % it for it in growth]
                          + [spread(more.ratios(DIFFUSING, TIME))])
    return table


def locks_of(cases):
    """The family on which labels improve exponentially often; how many messages there are is known beforehand, in both orders."""
    table = Table("Locks: messages of one worker and one shard", ["Locks", "Vertices", "Arcs", "Messages: 2^(k+2) - 3", "Handled by diffuse",
                                                                  "Best first: arcs + 1", "Handled by diffuse", "diffuse", "Best first", "diffuse --plain"])
    for case, best, plain in (three for three in cases if len(ran(three)) == 3):
        files, numbers = case.files, [handled(2 ** (case.files.size + 2) - 3, case), handled(case.files.arcs + 1, best)]
        table.rows.append([str(files.size), str(files.vertices), str(files.arcs)] + [cell for number in numbers for cell in number]
                          + [seconds(it.median("diffuse", TIME)) for it in (case, best, plain)])
    return table


def handled(known, case):
    """How many messages there must be, and whether diffuse handled so many."""
    return "{:,}".format(known), "exactly these" if case.handled() == known else "ANOTHER NUMBER: {:,}".format(case.handled())


def several_of(cases):
    """Several questions beside the plain C++ program, which has as many threads as the width."""
    table = Table("Several questions with --plain: ratios as median (quartiles)",
                  ["Graph and questions", "Processor time", "Wall time", "Peak memory",
                   "Processor time to the baseline", "Wall time to the baseline", "Peak memory to the baseline"])
    for case in ran(cases):
        table.rows.append([case.title(), seconds(case.median("diffuse", TIME)), seconds(case.median("diffuse", WALL)),
                           size(case.median("diffuse", PEAK))] + [spread(case.ratios(BASELINE, what)) for what in (TIME, WALL, PEAK)])
    return table


def served_of(cases):
    """What a pair takes that a service answers, and one that a process of its own does; and for how many pairs factors pay."""
    table = Table("Services", ["Graph and pairs", "How", "Pairs", "Pairs a second", "Wall time a pair", "Processor time a pair",
                               "First answer after", "Pays after pairs", "Peak memory"])
    for case, way in ((case, way) for case in ran(cases) for way in case.ways):
        wall, time = (statistics.median(case.each_by(way, what)) for what in (WALL, TIME))
        pays = case.pays_after(way) if way.words != case.ways[0].words else None
        table.rows.append([case.title(), way.name, str(way.count), "%.1f" % (1 / wall), seconds(wall), seconds(time),
                           seconds(case.median(way.name, FIRST)), "%.0f" % pays if pays else "", size(case.median(way.name, PEAK))])
    return table


def factored_of(cases):
    """Questions by factors, which are made once a run: reading, order, build, all questions and writing."""
    table = Table("Factors by solve: ratios as median (quartiles)", ["Graph and questions", "--factors", "--plain", "Baseline", "Time to --plain",
                                                                    "Time to the baseline", "Peak memory", "Peak memory to --plain"])
    for case in ran(cases):
        table.rows.append([case.title()] + [seconds(case.median(name, TIME)) for name in (FACTORS, "diffuse", BASELINE)]
                          + [spread(case.ratios(name, TIME, FACTORS)) for name in ("diffuse", BASELINE)]
                          + [size(case.median(FACTORS, PEAK)), spread(case.ratios("diffuse", PEAK, FACTORS))])
    return table


def aims_of(aims):
    """Whether the median of each aim's ratios is at most what is aimed at, and how far it is from it."""
    table = Table("Aims: ratios as median (quartiles)", ["Graph, questions and settings", "Of", "Aim: at most", "Measured", "Aim"])
    for title, what, most, ratios in aims:
        median = statistics.median(ratios)
        word = "met" if median <= most else "missed by %.0f %%" % (100 * (median / most - 1))
        table.rows.append([title, what, ratio(most), spread(ratios), word])
    return table
