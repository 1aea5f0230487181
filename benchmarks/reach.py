"""What pairs, factors and the best message first are to reach: these cases, and the aims of each."""
import statistics

from cases import BASELINE, PEAK, SOLVE, THREADS, TIME, WALL, Dealt, Engine, Plain, ratios
from chosen import Chosen
from factored import FACTORS, ByOrder, Factored, FactoredAlone
from inputs import EIGHT_SOURCES, FIVE_SOURCES, NEAR_PAIRS, ONE_SOURCE, READING, TEN_PAIRS, THOUSAND_PAIRS, TWENTY_PAIRS, Real
from report import Table, factored_of, pairs_of, ran, seconds, served_of, settings_of, size, spread
from services import BY_FACTORS, BY_SEARCH, Served, Way, ways_of

# Workers, shards, width and budget of the engine, over five sources. The best message first is tried with each.
ALONE, SIXTEEN, CUT, TOGETHER = (1, 1, 1, 1024), (1, 16, 1, 1024), (1, 64, 1, 1024), (4, 16, 5, 1024)
ORDERS = AS_THEY_COME, BEST_FIRST = False, True

# The head of the column of pairs by an order that was found with care.
CARE = "by an order found with care"

# Settings over graphs whose vertices are numbered in several ways, and at most how many messages an arc; the last is four workers'.
NUMBERED = {(1, 1, 1, 1024): 1, (1, 4, 1, 1024): 1.02, (1, 16, 1, 1024): 1.02, (1, 64, 1, 1024): 1.02, (4, 4, 1, 1024): 1.1}

# Best first, by settings: messages an arc, and to messages as they come the processor time; to the baseline, of what, and at most how much.
ORDER_AIMS = {ALONE: (1, 0.2, TIME, 3.5), SIXTEEN: (1.05, 0.12, TIME, None), CUT: (1.05, 0.12, TIME, None), TOGETHER: (1.3, None, WALL, 2)}

# A pair by factors, and order and build in pairs: both to the baseline's pair, by graph.
FACTOR_AIMS = {"New York's size": (1 / 25, 60), "New York's size with rivers": (1 / 70, 60),
               "Florida's size": (1 / 70, 35), "Florida's size with rivers": (1 / 150, 35)}

# A pair by factors of an order that was found with care, to the baseline's pair, by graph.
CARE_AIMS = {"New York's size": 0.013, "New York's size with rivers": 0.004, "Florida's size": 0.0045, "Florida's size with rivers": 0.006,
             "Liechtenstein (real)": 0.012}


class Reach(Chosen):
    """Pairs and factors over graphs of two sizes; services; workers in both orders of messages."""

    def __init__(self, only, sizes, motorways, numbered, largest=None, same_rule=False):
        """`numbered` are graphs whose vertices are numbered in several ways, `largest` is one that takes long, and `same_rule` says
        whether plain C++ runs the engine's rule with messages as they come too."""
        super().__init__(only)
        new_york, far = sizes[0], [graph for graph in sizes if graph.name.startswith("Florida")]
        self.whole = [Plain(graph, ONE_SOURCE) for graph in sizes]
        self.pairs = [Plain(graph, kind) for kind in (TWENTY_PAIRS, NEAR_PAIRS) for graph in sizes]
        self.built, self.many = ([FactoredAlone(graph, kind, graph in far) for graph in sizes] for kind in (READING, THOUSAND_PAIRS))
        self.ready, self.careful = ([ByOrder(graph, kind, graph in far) for graph in sizes] for kind in (READING, THOUSAND_PAIRS))
        self.served = [Served(new_york, THOUSAND_PAIRS, ways_of(40, 400) + [Way(BY_SEARCH, 0, 40)]),
                       Served(new_york, NEAR_PAIRS, ways_of(1000, 1000)[::2])]
        self.engine = {(settings, order): Engine(motorways, FIVE_SOURCES, settings, order, same_rule or order)
                       for order in ORDERS for settings in ORDER_AIMS}
        self.by_order = [Engine(new_york, ONE_SOURCE, ALONE, order, same_rule or order) for order in ORDERS]
        self.by_order[0].is_once = True
        graphs = [new_york, *numbered, *(graph for graph in sizes if isinstance(graph, Real))]
        self.numbered = {(graph, settings): Engine(graph, FIVE_SOURCES, settings, True) for graph in graphs for settings in NUMBERED}
        self.dealt = Dealt(new_york, EIGHT_SOURCES, (4, 1, 8, 1024))
        self.largest = [Factored(largest, TEN_PAIRS, True), FactoredAlone(largest, THOUSAND_PAIRS, True)] if largest else []

    def workers(self):
        return [*self.engine.values(), *self.by_order, *self.numbered.values(), self.dealt]

    def cases(self):
        factored = self.built + self.many + self.ready + self.careful
        return self.whole + self.pairs + factored + self.served + self.workers() + self.largest

    def tables(self):
        workers = in_both_orders(self.engine) + [(self.by_order[0], None), self.by_order[::-1]]
        with_own = [case for case in self.pairs if case.found]
        return [pairs_of(self.pairs), self.factors_of(), factored_of(self.largest[:1]), served_of(self.served), settings_of(workers), self.numberings(),
                *self.plain_tables(with_own, {})]

    def numberings(self):
        """Workers best first over graphs whose vertices are numbered in several ways, and with questions of their own."""
        return settings_of([(case, None) for case in [*self.numbered.values(), self.dealt]], "Numberings")

    def of(self, cases, graph, kind=None):
        """The case of a graph, of a kind if there are several."""
        return next(case for case in cases if case.files is graph and kind in (None, case.kind))

    def ratios_of(self, graph):
        """By factors, in pairs of the baseline, in each round: order and build, a pair, and one by an order that was found with care."""
        built, many, ready, careful = (self.of(cases, graph) for cases in (self.built, self.many, self.ready, self.careful))
        pair = self.of(self.pairs, graph, TWENTY_PAIRS).each(BASELINE, SOLVE)
        return (ratios([taken[SOLVE] for taken in built.taken.get(FACTORS, [])], pair), ratios(many.each(FACTORS, SOLVE, built), pair),
                ratios(careful.each(FACTORS, SOLVE, ready), pair))

    def factors_of(self):
        """What factors take, what a pair takes by them, and after how many pairs they have paid for themselves."""
        heads = ["Graph", "Order and build", "in pairs of the baseline", "A pair", "by --plain", "to the baseline's", CARE, "Pays after pairs", "Peak memory"]
        table = Table("Factors by solve, without reading and writing: ratios as median (quartiles)", heads)
        for built in ran(self.built):
            many, twenty = self.of(self.many, built.files), self.of(self.pairs, built.files, TWENTY_PAIRS)
            if many.taken and twenty.taken:
                table.rows.append(self.factor_row(built, many, twenty))
        return table

    def factor_row(self, built, many, twenty):
        """A graph's order and build, pairs by factors, and pairs by the search."""
        once, peak, (order, each, careful) = built.median(FACTORS, SOLVE), many.median(FACTORS, PEAK), self.ratios_of(built.files)
        pair, plain = (statistics.median(each) for each in (many.each(FACTORS, SOLVE, built), twenty.each("diffuse", SOLVE)))
        pays = "%.0f" % (once / (plain - pair)) if plain > pair else "never"
        return [built.files.name, seconds(once), spread(order), seconds(max(0, pair)), seconds(plain), spread(each), spread(careful), pays, size(peak)]

    def aims(self):
        """What is aimed at: of what, the most, and the ratios that were measured."""
        return [aim for aim in self.pair_aims() + self.factor_aims() + self.service_aims() + self.order_aims() + self.number_aims() + self.largest_aims() if aim[3]]

    def pair_aims(self):
        """Pairs to the baseline, and to a search for all vertices, which is what a pair takes that does not stop at its target."""
        aims = []
        for case in self.pairs:
            near = case.kind == NEAR_PAIRS
            whole = self.of(self.whole, case.files)
            stopping = ratios(*(it.each("diffuse", SOLVE) for it in (case, whole)))
            aims += [(case.title(), "solving, to a search of all vertices", 0.15 if near else 0.55, stopping),
                     (case.title(), "solving, to the baseline", 0.8, case.ratios(BASELINE, SOLVE))]
            aims += [] if near else [(case.title(), "peak memory, to the baseline", 1.2, case.ratios(BASELINE, PEAK))]
        return aims

    def factor_aims(self):
        aims = []
        for case in (case for case in self.built if case.files.name in FACTOR_AIMS):
            pair, once = FACTOR_AIMS[case.files.name]
            order, each, _ = self.ratios_of(case.files)
            aims += [(case.files.name, "a pair by factors, to the baseline", pair, each),
                     (case.files.name, "order and build, in pairs of the baseline", once, order)]
        return aims + [(graph.name, "a pair by an order found with care, to the baseline", CARE_AIMS[graph.name], self.ratios_of(graph)[2])
                       for graph in (case.files for case in self.ready) if graph.name in CARE_AIMS]

    def service_aims(self):
        """Services, in milliseconds a pair."""
        random, near = self.served
        wanted = [(random, BY_SEARCH, (1000 / 45,)), (random, BY_FACTORS, (2, 1)), (near, BY_SEARCH, (1000 / 300,))]
        return [(case.title(), way.name + ": ms a pair", most, [1e3 * it for it in case.each_by(way, WALL)])
                for case, words, aims in wanted for way, most in zip([way for way in case.ways if way.words == words and way.each], aims)]

    def order_aims(self):
        """The best message first: messages, time and memory to those as messages come, and time to the baseline."""
        aims = []
        for settings, (arc, time, what, slower) in ORDER_AIMS.items():
            best, other = self.engine[settings, BEST_FIRST], self.engine[settings, AS_THEY_COME]
            wanted = [("messages an arc", arc, best.each_arc()), ("processor time, to messages as they come", time, best.ratios_to(other, TIME)),
                      ("%s, to the baseline" % what, slower, best.ratios(BASELINE, what)),
                      ("peak memory, to messages as they come", 1.05, best.ratios_to(other, PEAK))]
            aims += [(best.title(), of, most, numbers) for of, most, numbers in wanted if most]
        other, best = self.by_order
        return aims + [(best.title(), "messages an arc", 1, best.each_arc()),
                       (best.title(), "processor time, to messages as they come", 0.02, best.ratios_to(other, TIME))]

    def number_aims(self):
        """Messages an arc however vertices are numbered, four workers to one, and questions dealt to workers."""
        aims = [(case.title(), "messages an arc", NUMBERED[settings], case.each_arc()) for (_, settings), case in self.numbered.items()]
        alone, *_, four = NUMBERED
        aims += [(self.numbered[graph, four].title(), "processor time, to one worker and shard", 2,
                  self.numbered[graph, four].ratios_to(self.numbered[graph, alone], TIME)) for graph, settings in self.numbered if settings == alone]
        return aims + [(self.dealt.title(), "wall time, to the baseline", 0.9, self.dealt.ratios(BASELINE, WALL)),
                       (self.dealt.title(), "wall time, to the baseline on four threads", 2.5, self.dealt.ratios(THREADS, WALL))]

    def largest_aims(self):
        """The largest graph, factored in 8 GB; and a pair to one of the baseline."""
        if not self.largest:
            return []
        ten, many = self.largest
        pair = [beyond / (many.count() - ten.count()) for beyond in many.beyond(ten, FACTORS, SOLVE)]
        return [(ten.title(), "peak memory in GB", 8, [taken[PEAK] / 1e9 for taken in many.taken.get(FACTORS, [])]),
                (ten.title(), "a pair by factors, to the baseline", 1 / 300, ratios(pair, ten.each(BASELINE, SOLVE)))]


def in_both_orders(engine):
    """The cases of workers, those with the best message first with the same as messages come."""
    return [(case, engine[settings, AS_THEY_COME] if order else None) for (settings, order), case in engine.items()]
