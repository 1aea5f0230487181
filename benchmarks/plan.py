"""All that is measured: the standard plan, or a graph and questions of the caller's own."""
import shapes
from cases import BASELINE, DIFFUSING, PEAK, TIME, WALL, Batch, Engine, Plain, Threaded, ratios
from chosen import Chosen
from factored import Bundled, Factored
from inputs import (EIGHT_SOURCES, FIVE_PAIRS, FIVE_SOURCES, FOUR_SOURCES, HUNDRED_PAIRS, ONE_LIST, ONE_PAIR, ONE_SOURCE, READING,
                    TEN_PAIRS, THOUSAND_PAIRS, Family, Given, Rivers, Roads, real_graphs)
from picture import FIVE_IN_TURN
from reach import ALONE, AS_THEY_COME, CUT, ORDERS, SIXTEEN, TOGETHER, Reach, in_both_orders
from report import (batches_of, engine_growth_of, factored_of, growth_of, locks_of, parts_of, seconds, served_of, settings_of,
                    several_of, shapes_of, table_of)
from services import Served, ways_of
from shapes import Shape

# Vertices and arcs of three graphs of the challenge, and of the series for growth.
NEW_YORK, FLORIDA, USA = (264346, 733846), (1070376, 2712798), (23947347, 58333344)
GROWTH = [(vertices, vertices * 5 // 2) for vertices in (50000, 200000, 800000, 3200000)]
ENGINE_GROWTH = [("motorways", GROWTH[:3]), ("", [(12500, 31250)] + GROWTH[:1])]

# How vertices are numbered, beside the curve.
NUMBERINGS = [("ways", "numbered by ways"), ("shuffled", "shuffled")]

# Families of the challenge: the logarithm of the vertices, and for Random4-C that of the lengths to base 4.
FAMILIES = [("Random4-n", 18), ("Random4-C", 18, 0), ("Random4-C", 18, 15), ("Long-n", 18), ("Square-n", 18)]
SMALL_FAMILIES = [(family, 10, *k) for family, _, *k in FAMILIES]

# Several questions of the plain solver: kind and width.
BATCHES = [FIVE_IN_TURN, (FOUR_SOURCES, 1), (FOUR_SOURCES, 4), (FIVE_PAIRS, 1), (FIVE_PAIRS, 4), (ONE_LIST, 1)]

# Pairs in growing numbers, by factors.
SERIES = (ONE_PAIR, TEN_PAIRS, HUNDRED_PAIRS, THOUSAND_PAIRS)

# Workers, shards, width and budget of the engine.
SETTINGS = [ALONE, SIXTEEN, CUT, (1, 16, 5, 1024), (2, 16, 5, 1024), TOGETHER, (4, 16, 1, 1024), (4, 4, 1, 1024), (4, 64, 5, 1024),
            (4, 16, 5, 64), (4, 16, 5, 65536)]

# Shapes at two sizes, with workers and shards, and in both orders or only as messages come.
SHAPES = [(shapes.star, 500000, 2000000, 1, 1, ORDERS), (shapes.star, 500000, 2000000, 4, 4, ORDERS[:1]),
          (shapes.chain, 250000, 1000000, 1, 1, ORDERS), (shapes.chain, 250000, 1000000, 1, 64, ORDERS),
          (shapes.zero_grid, 250, 500, 1, 1, ORDERS), (shapes.zero_grid, 250, 500, 4, 4, ORDERS[:1]),
          (shapes.parallel, 250000, 1000000, 1, 1, ORDERS)]
LOCKS = (6, 10, 14, 18)


class OwnPlan(Chosen):
    """Question files of the caller's own over a graph of the caller's own."""

    def __init__(self, graph, questions, only):
        super().__init__(only)
        files = Given(graph, questions)
        self.plain = [Plain(files, kind) for kind in list(files.questions) + [READING]]

    def cases(self):
        return self.plain

    def workers(self):
        return []

    def aims(self):
        return []

    def tables(self):
        return self.plain_tables(self.plain, {case.files: case for case in self.plain if case.kind == READING})


def sized(size, small):
    """A size; a hundredth of it for a trial."""
    return (size[0] // 100, size[1] // 200 * 2) if small else size


def reach_of(small, usa, only, folder, same_rule=False):
    """What is to be reached, over its graphs; `folder` is where real ones are."""
    sizes = [maker(name, sized(size, small)) for maker in (Roads, Rivers) for name, size in (("New York's size", NEW_YORK), ("Florida's size", FLORIDA))]
    motorways = Roads("New York's size with motorways", sized(NEW_YORK, small), "motorways")
    numbered = [maker("New York's size, %s" % words, sized(NEW_YORK, small), kind)
                for maker, kinds in ((Roads, NUMBERINGS), (Rivers, NUMBERINGS[:1])) for kind, words in kinds]
    largest = Rivers("USA's size", sized(USA, small)) if usa else None
    return Reach(only, sizes + real_graphs(folder), motorways, numbered, largest, same_rule)


class Plan(Chosen):
    """What is to be reached; several sources, growth, families, batches and services; and workers, their growth, shapes and locks."""

    def __init__(self, small, usa, only, folder):
        super().__init__(only)
        self.reach = reach_of(small, usa, only, folder, True)
        new_york, florida, *rivers = sizes = [case.files for case in self.reach.whole]
        shuffled = Roads("New York's size, shuffled", sized(NEW_YORK, small), "shuffled")
        motorways = self.reach.engine[ALONE, AS_THEY_COME].files
        largest = [Roads("USA's size", sized(USA, small))] if usa else []
        self.plain = (self.reach.whole + [Plain(graph, ONE_SOURCE, graph in largest) for graph in [shuffled] + largest]
                      + [Plain(graph, READING, graph in largest) for graph in sizes + [shuffled] + largest])
        self.several = [Threaded(graph, EIGHT_SOURCES, 4) for graph in (new_york, shuffled, florida)]
        self.growth = [Plain(graph_of(sized(size, small)), ONE_SOURCE) for size in GROWTH]
        self.families = [Plain(Family(*family), ONE_SOURCE) for family in (SMALL_FAMILIES if small else FAMILIES)]
        self.batches = {batch: Batch(new_york, *batch) for batch in BATCHES}
        self.served = [Served(graph, THOUSAND_PAIRS, ways_of(few, 400)) for graph, few in ((rivers[0], 40), (florida, 20), (rivers[1], 20))]
        self.factored = [Factored(graph, kind, kind == THOUSAND_PAIRS) for graph in (new_york, rivers[0]) for kind in SERIES]
        self.bundled = Bundled(rivers[0], HUNDRED_PAIRS)
        self.engine = {(settings, order): self.reach.engine.get((settings, order)) or Engine(motorways, FIVE_SOURCES, settings, order)
                       for order in ORDERS for settings in SETTINGS}
        growing = [graph_of(sized(size, small), kind) for kind, sizes in ENGINE_GROWTH for size in sizes]
        self.engine_growth = [case for order, last in zip(ORDERS, self.reach.by_order)
                              for case in [Engine(graph, ONE_SOURCE, ALONE, order) for graph in growing] + [last]]
        by = 10 if small else 1
        self.shapes = [[Engine(Shape(shape.__name__.replace("_", " "), count // by, shape), ONE_SOURCE, (workers, shards, 1, 1024), order)
                        for count in (less, more)] for shape, less, more, workers, shards, orders in SHAPES for order in orders]
        self.locks = [[Engine(locks, ONE_SOURCE, ALONE, order) for order in ORDERS] + [Plain(locks, ONE_SOURCE)]
                      for locks in (Shape("locks", count, shapes.locks) for count in LOCKS)]

    def series(self):
        """The cases of growing numbers of pairs over two graphs."""
        return self.factored[:len(SERIES)], self.factored[len(SERIES):]

    def workers(self):
        """All cases of workers."""
        return (list(self.engine.values()) + self.engine_growth + [case for pair in self.shapes for case in pair]
                + [case for *both, _ in self.locks for case in both])

    def cases(self):
        found = (self.plain + self.reach.cases() + self.several + self.growth + self.families + list(self.batches.values()) + self.served
                 + self.factored + [self.bundled] + self.workers() + [plain for *_, plain in self.locks])
        return list(dict.fromkeys(found))

    def tables(self):
        reading = {case.files: case for case in self.plain if case.kind == READING}
        pairs, factors, *_ = self.reach.tables()
        with_own = [case for case in self.reach.pairs + self.growth if case.found]
        return self.plain_tables(self.plain + with_own, reading) + [
            parts_of([case for case in self.plain if case.kind == ONE_SOURCE]), pairs, several_of(self.several), growth_of(self.growth),
            table_of("Families of the challenge with --plain: one source", TIME, seconds, self.families),
            batches_of(list(self.batches.values()), self.plain[0]), served_of(self.reach.served + self.served), factors,
            factored_of(self.factored + [self.bundled] + self.reach.largest[:1]), settings_of(in_both_orders(self.engine)),
            engine_growth_of(self.engine_growth), self.reach.numberings(), shapes_of(self.shapes), locks_of(self.locks)]

    def aims(self):
        """What is aimed at: of what, the most, and the ratios that were measured."""
        return [aim for aim in self.plain_aims() + self.batch_aims() + self.engine_aims() if aim[3]] + self.reach.aims()

    def plain_aims(self):
        """The one-thread solver to the baseline: time and memory of one source, and reading; and four threads to four."""
        wanted = [(ONE_SOURCE, TIME, 0.7), (ONE_SOURCE, PEAK, 1.05), (READING, TIME, 0.75), (EIGHT_SOURCES, WALL, 0.9)]
        return [(case.title(), what, 0.75 if case.is_long and what == TIME else most, case.ratios(BASELINE, what))
                for kind, what, most in wanted for case in self.plain + self.several if case.kind == kind]

    def batch_aims(self):
        """Four questions side by side to four in turn, reading taken off; and a list of sources to one source."""
        one_source, reading = (next(case for case in self.plain if case.kind == kind) for kind in (ONE_SOURCE, READING))
        in_turn, beside, many = (self.batches[batch] for batch in ((FOUR_SOURCES, 1), (FOUR_SOURCES, 4), (ONE_LIST, 1)))
        faster = ratios(*(case.beyond(reading, "diffuse", WALL) for case in (beside, in_turn)))
        return [(beside.title(), "wall time without reading, to width 1", 1 / 2.8, faster),
                (many.title(), "processor time, to one source", 2, many.ratios_to(one_source, TIME))]

    def engine_aims(self):
        """Workers to the same rule in plain C++."""
        alone, cut, together = (self.engine[settings, AS_THEY_COME] for settings in (ALONE, CUT, TOGETHER))
        aims = [(case.title(), "%s, to plain C++" % what, most, case.ratios(DIFFUSING, what)) for case, what, most in (
            (alone, TIME, 1.3), (alone, PEAK, 1.5), (together, WALL, 1.5), (cut, TIME, 1.4))]
        slower = ratios(together.ratios(DIFFUSING, WALL), alone.ratios(DIFFUSING, WALL))
        aims.append((together.title(), "speed-up of plain C++ to that of diffuse", 1 / 0.9, slower))
        wider = [cut.median("diffuse", PEAK) / alone.median("diffuse", PEAK)] if cut.taken and alone.taken else []
        return aims + [(cut.title(), "peak memory, to that of one shard", 2, wider)]


def graph_of(size, kind=""):
    return Roads("{:,} vertices{}".format(size[0], " with " + kind if kind else ""), size, kind)
