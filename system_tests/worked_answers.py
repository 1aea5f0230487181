"""Small graphs with questions and their answers, worked out by hand; lines are joined by `|`, and headers left out.

A case is an algebra with its options, a graph, questions, and what they are answered.
"""

MOST = 4_294_967_295


def graph_of(n, *arcs):
    """The text of a graph of n vertices."""
    return "".join([f"p sp {n} {len(arcs)}\n", *(f"a {tail} {head} {weight}\n" for tail, head, weight in arcs)])


# Five vertices, with a self-loop at 4; no arc leads to 5.
FIVE_ARCS = ((1, 2, 4), (1, 3, 1), (3, 2, 2), (2, 4, 5), (3, 4, 8), (4, 4, 0), (5, 1, 3))
FIVE = graph_of(5, *FIVE_ARCS)

# 3, 2 and 5 are on a ring of weight zero, two arcs lead to 2, and none to 1.
RING = graph_of(6, (1, 3, 5), (1, 4, 3), (4, 2, 2), (3, 2, 0), (2, 5, 0), (5, 3, 0), (5, 6, 1))

# One-way streets, cycles that cost nothing, parallel arcs, loops, and the greatest weight.
ONE_WAY = graph_of(8, (1, 2, 0), (2, 3, 0), (3, 1, 0), (3, 4, 7), (3, 4, 5), (4, 4, 0), (4, 5, MOST), (5, 6, MOST), (6, 4, 1), (7, 6, 0), (2, 7, 9))

CYCLE = graph_of(3, (1, 2, 0), (2, 3, 0), (3, 2, 0), (1, 3, 0))
FREE = graph_of(4, (1, 3, 0), (3, 2, 0), (2, 1, 0), (2, 2, 0), (3, 2, 0), (2, 4, 1), (3, 4, 1), (1, 4, 1))

# A walk that is as wide as one with fewer arcs.
WALK = graph_of(5, (1, 2, 5), (2, 3, 5), (3, 4, 5), (1, 4, 4), (4, 5, 3))
CHANCES = graph_of(5, (1, 2, 900001), (2, 3, 500001), (1, 3, 400000), (3, 4, 700001), (4, 5, 2000000))
NEAR = graph_of(9, (7, 8, 2), (8, 9, 3), (7, 1, 4), (9, 1, 0))
EQUAL = graph_of(7, (1, 2, 0), (2, 3, 0), (3, 4, 0), (4, 5, 0), (1, 6, 0), (6, 7, 0), (7, 5, 0))
TWO_WAYS = graph_of(6, (1, 2, 1), (1, 5, 1), (2, 4, 1), (5, 3, 1), (4, 6, 1), (3, 6, 1))

# The target 3 is settled before 8 and 7, whose values are as good; the shorter route goes through them.
SETTLED = graph_of(9, (9, 1, 0), (1, 2, 0), (2, 4, 0), (4, 3, 0), (9, 8, 0), (8, 7, 0), (7, 3, 0), (3, 5, 1), (5, 6, 1))

LENIENT = "c\r\np sp 5 7\r\nc graph contains 5 nodes\r\n\r\na\t1\t2\t4\r\na 1 03 1\r\na 3 2 2\r\na 2 4 5\r\na 3 4 8\r\na 4 4 0\r\na 5 1 3\r\n"

FROM_ONE = "s 1|d 1 0 0 0|d 2 3 2 3|d 3 1 1 1|d 4 8 3 2|u 5"
FROM_FOUR = "s 4|u 1|u 2|u 3|d 4 0 0 0|u 5"
FROM_FIVE = "s 5|d 1 3 1 5|d 2 6 3 3|d 3 4 2 1|d 4 11 4 2|d 5 0 0 0"
NEAREST = "d 1 3 1 5|d 2 6 3 3|d 3 4 2 1|d 4 0 0 0|d 5 0 0 0"
ONE_ALONE = FROM_ONE.removeprefix("s 1|")


def pairs(algebra, graph, *known):
    """A case of pairs, each with the code of its value and its route, in this order and then turned round."""
    lines = [(f"q {s} {t}", f"|d {code} {len(route) - 1}|r {' '.join(map(str, route))}" if route else "|u") for s, t, code, route in known]
    lines += lines[::-1]
    return algebra, graph, "|".join(asked for asked, _ in lines), "|".join(asked + told for asked, told in lines)


def ring(n):
    """A ring with arcs of weight 1 both ways: each vertex is reached by the shorter way round, and of two equal ones from the lesser vertex."""
    arcs = [arc for v in range(1, n + 1) for arc in ((v, v % n + 1, 1), (v % n + 1, v, 1))]
    told = ["s 1", "d 1 0 0 0"]
    for v in range(2, n + 1):
        steps = min(v - 1, n - v + 1)
        told.append(f"d {v} {steps} {steps} {v - 1 if v - 1 == steps else v % n + 1}")
    return "shortest", graph_of(n, *arcs), "s 1", "|".join(told)


def chain(n, weight):
    """Arcs of one weight from each vertex to the next."""
    return graph_of(n, *((v, v + 1, weight) for v in range(1, n)))


def two_chains(walk):
    """Two chains over eight vertices: a dear one in the order of their numbers, and a cheap one along a walk."""
    return graph_of(8, *(arc for k in range(7) for arc in ((k + 1, k + 2, 10), (walk[k], walk[k + 1], 1))))


# Walks that change the block of two or four with each arc; the last goes against the order in which the shards have their turns.
ZIPS = [((1, 5, 2, 6, 3, 7, 4, 8), 2), ((1, 3, 5, 7, 2, 4, 6, 8), 4), ((1, 7, 5, 3, 2, 8, 6, 4), 4)]


def along(walk):
    """Each vertex of a walk of arcs of weight 1 is as far and as many arcs from the first as its place, and its parent comes before it."""
    known = {v: f"d {v} {k} {k} {walk[k - 1] if k else 0}" for k, v in enumerate(walk)}
    return "|".join(["s 1", *(known[v] for v in sorted(known))])


CASES = [
    ("shortest", FIVE, "s 1", FROM_ONE),
    ("widest", FIVE, "s 1", "s 1|d 1 4294967296 0 0|d 2 4 1 1|d 3 1 1 1|d 4 4 2 2|u 5"),
    ("reach", FIVE, "s 1", "s 1|d 1 0 0 0|d 2 0 1 1|d 3 0 1 1|d 4 0 2 2|u 5"),
    ("hops", FIVE, "s 1", "s 1|d 1 0 0 0|d 2 1 1 1|d 3 1 1 1|d 4 2 2 2|u 5"),
    ("within --limit 5", FIVE, "s 1", "s 1|d 1 0 0 0|d 2 3 2 3|d 3 1 1 1|u 4|u 5"),
    ("within --limit 0", FIVE, "s 1", "s 1|d 1 0 0 0|u 2|u 3|u 4|u 5"),
    ("within --limit 8", FIVE, "s 1", FROM_ONE),
    ("reliable", FIVE, "s 1", "s 1|d 1 1000000000000 0 0|d 2 4000000 1 1|d 3 1000000 1 1|d 4 20 2 2|u 5"),
    ("shortest", LENIENT, "s 1", FROM_ONE),
    ("shortest", graph_of(1), "", ""),
    ("shortest", CYCLE, "s 1", "s 1|d 1 0 0 0|d 2 0 1 1|d 3 0 1 1"),
    ("shortest", FREE, "s 3", "s 3|d 1 0 2 2|d 2 0 1 3|d 3 0 0 0|d 4 1 1 3"),
    ("widest", WALK, "s 1", "s 1|d 1 4294967296 0 0|d 2 5 1 1|d 3 5 2 2|d 4 5 3 3|d 5 3 4 4"),
    ("shortest", graph_of(2, (1, 2, MOST)), "s 1", "s 1|d 1 0 0 0|d 2 4294967295 1 1"),
    ("shortest", graph_of(3, (1, 2, MOST), (2, 3, MOST)), "s 1", "s 1|d 1 0 0 0|d 2 4294967295 1 1|d 3 8589934590 2 2"),
    ("reliable", CHANCES, "s 1", "s 1|d 1 1000000000000 0 0|d 2 900001000000 1 1|d 3 450001400001 2 2|d 4 315001430002 3 3|d 5 315001430002 4 4"),
    ring(5000), ("shortest", chain(320, 3), "s 1", "s 1|d 1 0 0 0|" + "|".join(f"d {v} {3 * v - 3} {v - 1} {v - 1}" for v in range(2, 321))),
    *(("shortest", two_chains(walk), "s 1", along(walk)) for walk, _ in ZIPS),

    # Several sources, the same ones again, and one that is given twice.
    ("shortest", FIVE, "m 4 5|m 5 2", f"m 4 5|{NEAREST}|m 5 2|d 1 3 1 5|d 2 0 0 0|d 3 4 2 1|d 4 5 1 2|d 5 0 0 0"),
    ("shortest", FIVE, "m 4 5 4|m 5 5 2", f"m 4 5 4|{NEAREST}|m 5 5 2|d 1 3 1 5|d 2 0 0 0|d 3 4 2 1|d 4 5 1 2|d 5 0 0 0"),
    ("shortest", FIVE, "m 1 1", f"m 1 1|{ONE_ALONE}"),
    ("shortest", FIVE, "m 1 1|m 1 1|m 1|m 4 5|m 5 4|m 4 5",
     f"m 1 1|{ONE_ALONE}|m 1 1|{ONE_ALONE}|m 1|{ONE_ALONE}|m 4 5|{NEAREST}|m 5 4|{NEAREST}|m 4 5|{NEAREST}"),
    ("shortest", FIVE, "s 1|s 1|s 1", f"{FROM_ONE}|{FROM_ONE}|{FROM_ONE}"),
    ("shortest", FIVE, "s 1|s 1|s 5|s 1|s 4|s 4|s 5", "|".join([FROM_ONE, FROM_ONE, FROM_FIVE, FROM_ONE, FROM_FOUR, FROM_FOUR, FROM_FIVE])),

    # Pairs: from one source, again after others, near targets and far ones, routes through equal values.
    ("shortest", FIVE, "q 1 4|q 4 1|q 5 5", "q 1 4|d 8 3|r 1 3 2 4|q 4 1|u|q 5 5|d 0 0|r 5"),
    ("hops", FIVE, "q 1 4|q 4 1|q 5 5", "q 1 4|d 2 2|r 1 2 4|q 4 1|u|q 5 5|d 0 0|r 5"),
    ("within --limit 7", FIVE, "q 1 4|q 4 1|q 5 5", "q 1 4|u|q 4 1|u|q 5 5|d 0 0|r 5"),
    ("within --limit 8", FIVE, "q 1 4|q 4 1|q 5 5", "q 1 4|d 8 3|r 1 3 2 4|q 4 1|u|q 5 5|d 0 0|r 5"),
    ("within --limit 5", FIVE, "q 1 2|q 1 4", "q 1 2|d 3 2|r 1 3 2|q 1 4|u"),
    ("reach", FIVE, "q 1 4|q 5 4", "q 1 4|d 0 2|r 1 2 4|q 5 4|d 0 3|r 5 1 2 4"),
    ("shortest", FIVE, "q 1 4|q 1 2|q 5 2", "q 1 4|d 8 3|r 1 3 2 4|q 1 2|d 3 2|r 1 3 2|q 5 2|d 6 3|r 5 1 3 2"),
    ("shortest", FIVE, "q 1 4|q 1 2|q 5 2|q 5 5|q 1 3|q 4 1|q 1 5",
     "q 1 4|d 8 3|r 1 3 2 4|q 1 2|d 3 2|r 1 3 2|q 5 2|d 6 3|r 5 1 3 2|q 5 5|d 0 0|r 5|q 1 3|d 1 1|r 1 3|q 4 1|u|q 1 5|u"),
    ("shortest", FIVE, "q 1 4|q 1 2|q 3 4|q 4 1|q 1 4|q 3 2|q 3 4|q 5 4",
     "q 1 4|d 8 3|r 1 3 2 4|q 1 2|d 3 2|r 1 3 2|q 3 4|d 7 2|r 3 2 4|q 4 1|u|"
     "q 1 4|d 8 3|r 1 3 2 4|q 3 2|d 2 1|r 3 2|q 3 4|d 7 2|r 3 2 4|q 5 4|d 11 4|r 5 1 3 2 4"),
    ("shortest", NEAR, "q 7 1|q 7 9", "q 7 1|d 4 1|r 7 1|q 7 9|d 5 2|r 7 8 9"),
    ("shortest", EQUAL, "q 1 5|q 1 7|q 1 5", "q 1 5|d 0 3|r 1 6 7 5|q 1 7|d 0 2|r 1 6 7|q 1 5|d 0 3|r 1 6 7 5"),
    ("reach", FIVE, "q 1 3|q 1 4|q 1 1", "q 1 3|d 0 1|r 1 3|q 1 4|d 0 2|r 1 2 4|q 1 1|d 0 0|r 1"),
    ("widest", FIVE, "q 1 3|q 1 4|q 1 1", "q 1 3|d 1 1|r 1 3|q 1 4|d 4 2|r 1 2 4|q 1 1|d 4294967296 0|r 1"),
    pairs("shortest", FIVE, (1, 1, 0, [1]), (1, 3, 1, [1, 3]), (1, 2, 3, [1, 3, 2]), (1, 4, 8, [1, 3, 2, 4]), (1, 5, 0, [])),
    pairs("shortest", FIVE, (1, 3, 1, [1, 3]), (1, 2, 3, [1, 3, 2]), (1, 4, 8, [1, 3, 2, 4]), (1, 5, 0, []), (1, 1, 0, [1]), (5, 4, 11, [5, 1, 3, 2, 4]),
          (5, 5, 0, [5]), (4, 1, 0, []), (4, 4, 0, [4]), (2, 3, 0, []), (3, 4, 7, [3, 2, 4])),
    pairs("shortest", RING, (1, 4, 3, [1, 4]), (1, 2, 5, [1, 3, 2]), (1, 3, 5, [1, 3]), (1, 5, 5, [1, 3, 2, 5]), (5, 2, 0, [5, 3, 2]),
          (1, 6, 6, [1, 3, 2, 5, 6]), (6, 1, 0, []), (1, 1, 0, [1]), (3, 5, 0, [3, 2, 5])),
    pairs("hops", RING, (1, 2, 2, [1, 3, 2]), (1, 4, 1, [1, 4]), (5, 2, 2, [5, 3, 2]), (1, 6, 4, [1, 3, 2, 5, 6]), (6, 1, 0, []), (2, 2, 0, [2])),
    pairs("reach", RING, (1, 2, 0, [1, 3, 2]), (1, 4, 0, [1, 4]), (5, 2, 0, [5, 3, 2]), (1, 6, 0, [1, 3, 2, 5, 6]), (6, 1, 0, []), (5, 4, 0, []),
          (1, 1, 0, [1])),
    pairs("widest", RING, (1, 3, 5, [1, 3]), (1, 2, 2, [1, 4, 2]), (1, 5, 0, [1, 4, 2, 5]), (1, 4, 3, [1, 4]), (5, 2, 0, [5, 3, 2]),
          (1, 6, 0, [1, 4, 2, 5, 6]), (6, 1, 0, []), (1, 1, 4294967296, [1])),
    pairs("reliable", RING, (1, 3, 5000000, [1, 3]), (1, 2, 6, [1, 4, 2]), (1, 5, 0, [1, 4, 2, 5]), (5, 2, 0, [5, 3, 2]), (1, 6, 0, [1, 4, 2, 5, 6]),
          (6, 1, 0, [])),
    pairs("within --limit 5", RING, (1, 4, 3, [1, 4]), (1, 6, 0, []), (1, 5, 5, [1, 3, 2, 5]), (5, 6, 1, [5, 6]), (1, 2, 5, [1, 3, 2])),
    pairs("shortest", TWO_WAYS, (1, 6, 3, [1, 5, 3, 6])),
    pairs("shortest", CYCLE, (1, 3, 0, [1, 3]), (2, 1, 0, [])),
    pairs("shortest", FREE, (3, 1, 0, [3, 2, 1]), (3, 4, 1, [3, 4])),
    pairs("shortest", SETTLED, (9, 3, 0, [9, 8, 7, 3])),
    pairs("widest", WALK, (1, 5, 3, [1, 2, 3, 4, 5])),
]

# What is to be found of each vertex from some sources: the code of its value, its hops, and the vertices from which its last arc may come.
# Each of these holds of the five vertices by all names.
SOURCE = (0, 0, ())
NAMED = [
    ("shortest", (1,), [SOURCE, (3, 2, (3,)), (1, 1, (1,)), (8, 3, (2,)), None]),
    ("shortest", (5,), [(3, 1, (5,)), (6, 3, (3,)), (4, 2, (1,)), (11, 4, (2,)), SOURCE]),
    ("shortest", (5, 4, 5), [(3, 1, (5,)), (6, 3, (3,)), (4, 2, (1,)), SOURCE, SOURCE]),
    ("within --limit 8", (1,), [SOURCE, (3, 2, (3,)), (1, 1, (1,)), (8, 3, (2,)), None]),
    ("within --limit 7", (1,), [SOURCE, (3, 2, (3,)), (1, 1, (1,)), None, None]),
    ("hops", (1,), [SOURCE, (1, 1, (1,)), (1, 1, (1,)), (2, 2, (2, 3)), None]),
]

# The same of the one-way streets, by their own names.
STREETS = [SOURCE, (0, 1, (1,)), (0, 2, (2,)), (5, 3, (3,)), (MOST + 5, 4, (4,)), (9, 3, (7,)), (9, 2, (2,)), None]
ON_STREETS = [
    ("shortest", (1,), STREETS),
    ("shortest", (5,), [None, None, None, (MOST + 1, 2, (6,)), SOURCE, (MOST, 1, (5,)), None, None]),
    ("shortest", (5, 1, 5), [*STREETS[:4], SOURCE, *STREETS[5:]]),
    ("shortest", (8,), [None] * 7 + [SOURCE]),
    (f"within --limit {MOST + 5}", (1,), STREETS),
    (f"within --limit {MOST + 4}", (1,), [*STREETS[:4], None, *STREETS[5:]]),
    ("within --limit 0", (1,), [*STREETS[:3], *[None] * 5]),
    ("hops", (1,), [SOURCE, (1, 1, (1,)), (2, 2, (2,)), (3, 3, (3,)), (4, 4, (4,)), (3, 3, (7,)), (2, 2, (2,)), None]),
]

# Graphs whose routes between all pairs are those of the trees, under each algebra.
ALGEBRAS = ["shortest", "widest", "reliable", "hops", "reach", "within --limit 5"]


def many_equal():
    """Ninety arcs between 24 vertices, of weights 0 to 2."""
    arcs, number = [], 7
    for _ in range(90):
        number = (number * 1103515245 + 12345) % (1 << 32)
        arcs.append((number // 65536 % 24 + 1, number // 1048576 % 24 + 1, number // 256 % 3))
    return graph_of(24, *arcs)


WHOLE = [(FIVE, 5), (TWO_WAYS, 6), (CYCLE, 3), (FREE, 4), (SETTLED, 9), (WALK, 5), (many_equal(), 24)]

# What `--progress` says of a graph, and pairs with their values and hops. There may be 64 links for each vertex, and 4,096 more; a vertex needs
# 16 bits for its hops from 2^15 vertices to 2^16 - 1, which leaves 2^47 for the sums.
COUNTS = r"\({} links, {} triangles\)"
DENSE, HEAVY = f"the graph is too dense to factor {COUNTS}; searches answer".format(r"\d+", r"\d+"), "the graph's sums are too large to factor; searches answer"


def factored(links=r"\d+", triangles=r"\d+"):
    """What is said of an order that makes so many links and triangles, and of the factors."""
    return f"an order was found {COUNTS}\ndiffuse: the graph is factored".format(links, triangles)


def star(rays):
    """A hub, vertex 1, with so many rays, both ways."""
    return graph_of(rays + 1, *(arc for v in range(2, rays + 2) for arc in ((1, v, 2), (v, 1, 3))))


def complete(n):
    """Arcs both ways between each two vertices."""
    return graph_of(n, *(arc for v in range(2, n + 1) for u in range(1, v) for arc in ((u, v, 5), (v, u, 7))))


def at_random(n, times):
    """A road to a random vertex from each, several times over."""
    arcs, number = [], 7
    for v in [*range(1, n + 1)] * times:
        number = (number * 1103515245 + 12345) % (1 << 32)
        arcs += [(number // 65536 % n + 1, v, 1), (v, number // 65536 % n + 1, 1)]
    return graph_of(n, *arcs)


GUARDED = [
    ("shortest", star(5000), factored(5000, 0), [(2, 5001, 5, 2), (5001, 1, 3, 1)]),
    ("shortest", complete(175), factored(15225, 877975), [(1, 175, 5, 1), (175, 1, 7, 1)]),
    ("hops", complete(175), factored(15225, 877975), []), ("hops", complete(176), DENSE, []),
    ("hops", at_random(3000, 1), factored(), []), ("hops", at_random(3000, 10), DENSE, []),
    ("shortest", chain(32769, MOST), factored(32768, 0), [(1, 32769, 140737488322560, 32768), (32769, 1)]),
    ("shortest", chain(32770, MOST), HEAVY, []), ("within --limit 5", chain(32770, MOST), HEAVY, []), ("hops", chain(32770, MOST), factored(32769, 0), []),
]


def locks(count):
    """Locks, one after the other: each is a diamond with a dear way, and a free one that is an arc longer; the dear way of a lock costs more than those
    of all later ones together."""
    return graph_of(3 * count + 1, *(arc for k in range(count) for door in [3 * k + 1] for arc in (
        (door, door + 1, 0), (door + 1, door + 3, 1 << (count - 1 - k)), (door + 1, door + 2, 0), (door + 2, door + 3, 0))))


def detour(dear):
    """A way to 3 by one dear arc, and a nearer one by two cheap arcs, and on to 5."""
    return graph_of(5, (1, 2, 1), (1, 3, dear), (2, 3, 2), (3, 4, 1), (4, 5, 1))


def through_five(other):
    """A dear arc to 3, and a nearer way through 5, which is in the other of two blocks; the loop of vertex 6 has another weight."""
    return graph_of(6, (1, 3, 10), (1, 5, 1), (5, 3, 1), (3, 4, 1), (6, 6, other))


# How many messages a question takes with one worker, and as many signals. First come, first served, vertex 2 of the five has 4 and then 3, and vertex 4
# has 9 and then 8, so two arcs are told twice; locks take 2^(k + 2) - 3 messages. Best first one message goes along each arc out of a reached vertex, and
# so it does over several shards if none may run ahead, or if all values are the same. The dear message waits while 1 waits elsewhere, unless 1 and the
# weight by which a shard may run ahead, a fifth of the mean one if it is not given, come to it; then two arcs, or one, carry two messages. Of 21 locks each
# message and signal has a turn: 16,777,210.
ONE_SHARD = "--shards 1"
MESSAGES = [
    ("shortest", ONE_SHARD, FIVE, 1, 9), ("within --limit 0", "--shards 3", FIVE, 1, 1), ("within --limit 0", "--shards 3 --best-first", FIVE, 1, 1),
    *((algebra, f"{ONE_SHARD} --best-first --budget {budget}", FIVE, source, count) for budget in (1, 2, 1000) for algebra, source, count in (
        ("shortest", 1, 7), ("widest", 1, 7), ("reach", 1, 7), ("hops", 1, 7), ("reliable", 1, 7), ("within --limit 5", 1, 4), ("shortest", 4, 2),
        ("shortest", 5, 8))),
    *(("reach", f"--shards 3 {order} --budget {budget}", FIVE, 1, 7) for order in ("", "--best-first") for budget in (1, 2, 1000)),
    *(("shortest", f"--shards {shards} --best-first --ahead 0 --budget {budget}", two_chains(walk), 1, 15) for walk, shards in ZIPS for budget in (1, 3, 1000)),
    *(("shortest", f"--shards 3 --best-first --ahead {ahead} --budget 1", detour(dear), 1, count) for dear, ahead, count in (
        (10, 0, 6), (10, 8, 6), (10, 9, 8), (10, MOST, 8), (100, 98, 6), (100, 99, 8), (MOST, MOST - 2, 6), (MOST, MOST - 1, 8))),
    *(("shortest", f"--shards 2 --best-first --budget 5 {ahead}", through_five(other), 1, count) for ahead, other, count in (
        ("--ahead 8", 1, 5), ("--ahead 9", 1, 6), ("", 1, 5), ("", 211, 5), ("", 212, 6))),
    ("shortest", f"{ONE_SHARD} --budget 1", locks(21), 1, 8388605),
    *((algebra, shards, locks(k), 1, count) for k, arrival, best in ((1, 5, 5), (2, 13, 9), (6, 253, 25), (10, 4093, 41))
      for algebra, shards, count in (("shortest", ONE_SHARD, arrival), ("shortest", f"{ONE_SHARD} --best-first", best))),
]
