"""What `diffuse check` finds in answers, one place of which was changed, and the faults of files; both worked out by hand.

A verdict is that of answers to questions over a graph: the question, the vertex and the reason, or none if the answers are right.
"""
from worked_answers import CYCLE, FIVE, graph_of

MISMATCH, NOT_BEST, NO_PARENT, OTHER_HOPS, LESSER_PARENT, HAS_WALK, OTHER_ROUTE = range(1, 8)
FROM_ONE = "p aux sp ss 1\ns 1\n"
LINES = "d 1 0 0 0\nd 2 3 2 3\nd 3 1 1 1\nd 4 8 3 2\nu 5\n"
APART = graph_of(3, (2, 3, 0), (3, 2, 0))
TWICE = graph_of(4, (1, 2, 1), (1, 3, 1), (2, 4, 1), (3, 4, 1))
UNREACHED = LINES.replace("u 5", "d 5 0 0 0")


def lines(told, *verdict, graph=FIVE):
    """The verdict on what is told of each vertex from the first one."""
    return graph, FROM_ONE, "p ans ss 1 shortest\ns 1\n" + told, verdict


def changed(line, other, *verdict):
    """The verdict on the right lines of the five vertices, but for one."""
    return lines(LINES.replace(line, other), *verdict)


def pair(told, *verdict):
    """The verdict on an answer to the pair 1 and 4 of the five vertices."""
    return FIVE, "p aux sp p2p 1\nq 1 4\n", "p ans p2p 1 shortest\n" + told, verdict


def route(told, *verdict):
    """The verdict on the answers to three pairs, the first with this route."""
    told = f"p ans p2p 3 shortest\nq 1 4\nd 8 3\n{told}\nq 4 1\nu\nq 5 5\nd 0 0\nr 5\n"
    return FIVE, "p aux sp p2p 3\nq 1 4\nq 4 1\nq 5 5\n", told, verdict


def reached(told, *verdict):
    """The verdict on this line of vertex 4 of the five vertices, under `reach`."""
    return FIVE, FROM_ONE, f"p ans ss 1 reach\ns 1\nd 1 0 0 0\nd 2 0 1 1\nd 3 0 1 1\n{told}\nu 5\n", verdict


def several(told, *verdict):
    """The verdict on what is told of vertices 4 and 5, both sources."""
    return FIVE, "p aux sp ms 1\nm 4 5\n", "p ans ms 1 shortest\nm 4 5\nd 1 3 1 5\nd 2 6 3 3\nd 3 4 2 1\n" + told, verdict


def from_two(first, second, *verdict):
    """The verdict on answers to two questions, the second with another source."""
    return FIVE, "p aux sp ss 2\ns 1\ns 2\n", f"p ans ss 2 shortest\ns 1\n{first}s 4\n{second}", verdict


def many(wrong, *verdict):
    """The verdict on 130 answers to one pair, of which this one has another value."""
    told = "".join(f"q 1 4\nd {9 if k == wrong else 8} 3\nr 1 3 2 4\n" for k in range(1, 131))
    return FIVE, "p aux sp p2p 130\n" + "q 1 4\n" * 130, "p ans p2p 130 shortest\n" + told, verdict


def chain():
    """A chain of 5,000 vertices, of which 3,000 and 4,000 are told another value."""
    told = "".join(f"d {v + 1} {v + (v + 1 in (3000, 4000))} {v} {v}\n" for v in range(1, 5000))
    return lines("d 1 0 0 0\n" + told, 1, 3000, NOT_BEST, graph=graph_of(5000, *((v, v + 1, 1) for v in range(1, 5000))))


VERDICTS = [
    lines(LINES),
    changed("d 4 8 3 2", "d 4 9 2 3", 1, 4, NOT_BEST), changed("d 4 8 3 2", "u 4", 1, 4, HAS_WALK), changed("d 2 3 2 3", "d 2 4 1 1", 1, 2, NOT_BEST),
    changed("d 1 0 0 0", "d 1 0 0 1", 1, 1, MISMATCH), changed("d 2 3 2 3", "d 2 3 3 3", 1, 2, OTHER_HOPS), changed("d 3 1 1 1", "d 3 1 1 9", 1, 3, NO_PARENT),
    changed("d 2 3 2 3", "d 2 18446744073709551615 2 3", 1, 2, NO_PARENT),
    lines("d 1 0 0 0\nd 2 2 2 3\nd 3 1 1 1\nd 4 7 3 2\nu 5\n", 1, 2, NO_PARENT),
    lines("d 1 0 0 0\nd 2 0 2 3\nd 3 0 1 1\n", 1, 2, OTHER_HOPS, graph=CYCLE),
    lines("d 1 0 0 0\nd 2 7 1 3\nd 3 7 0 2\n", 1, 3, OTHER_HOPS, graph=APART),
    lines("d 1 0 0 0\nd 2 1 1 1\nd 3 1 1 1\nd 4 2 2 3\n", 1, 4, LESSER_PARENT, graph=TWICE),
    reached("d 4 0 2 2"), reached("d 4 0 2 3", 1, 4, LESSER_PARENT),
    several("d 4 0 0 0\nd 5 0 0 0\n"), several("d 4 0 0 0\nd 5 1 0 0\n", 1, 1, NO_PARENT), several("d 4 0 0 1\nd 5 0 0 0\n", 1, 4, MISMATCH),

    # A mismatch of the whole, of a question, and of a later one; the first place is named.
    (FIVE, FROM_ONE, "p ans ss 0 shortest\n", (0, 0, MISMATCH)), (FIVE, FROM_ONE, "p ans p2p 1 shortest\nq 1 4\nu\n", (0, 0, MISMATCH)),
    (FIVE, FROM_ONE, "p ans ss 1 shortest\ns 2\n" + LINES, (1, 0, MISMATCH)),
    from_two(UNREACHED, LINES, 1, 5, NO_PARENT), from_two(LINES, UNREACHED, 2, 0, MISMATCH),

    route("r 1 3 2 4"), route("r 1 2 4", 1, 4, OTHER_ROUTE),
    pair("q 1 4\nd 8 3\nr 1 3 2 4\n"), pair("q 1 4\nu\n", 1, 4, HAS_WALK), pair("q 1 4\nd 9 2\nr 1 3 4\n", 1, 4, NOT_BEST),
    pair("q 1 4\nd 8 2\nr 1 2 4\n", 1, 4, OTHER_HOPS), pair("q 1 4\nd 8 3\nr 1 2 3 4\n", 1, 4, OTHER_ROUTE), pair("q 1 4\nd 8 3\nr 1 3 2\n", 1, 4, OTHER_ROUTE),
    pair("q 4 1\nu\n", 1, 0, MISMATCH), (FIVE, "p aux sp p2p 1\nq 4 1\n", "p ans p2p 1 shortest\nq 4 1\nd 0 1\nr 4 1\n", (1, 1, NOT_BEST)),
    many(0), *(many(wrong, wrong, 4, NOT_BEST) for wrong in (1, 64, 65, 130)),
]

# Texts, each with the number and the line of its fault.
LONG = 1_000_000
GRAPHS = [
    ("p sp 2 1\na 1 2 4294967296\n", 16, 2), ("p sp 33554433 0\n", 16, 1), ("p sp 33554433 x\n", 16, 1), ("p sp x 134217729\n", 15, 1),
    ("p sp 1 134217729\n", 16, 1), ("p sp 33554432 134217728\n", 19, 2), ("p sp 2 2\na 1 2 3\n", 19, 3), ("p sp 2 2\n" + "a 1 2 3\n" * 3, 18, 4),
    ("", 10, 1), ("p sp 2 1\na 1 2 -3\n", 15, 2), ("p sp 2 1\na 0 2 3\n", 17, 2), ("p sp 2 1\na 1 2\n", 14, 2), ("p sp 2 1\na 9 x 3\n", 17, 2),
    ("p sp 2 1\nx 1 2 3\n", 13, 2), ("p sp 2 1\n" * 2, 11, 2), ("a 1 2 3\np sp 2 1\n", 10, 1), ("p max 2 1\n", 12, 1), ("s 1\n", 13, 1),
    ("p sp 2 1\na 1\r 2 3\n", 15, 2), ("p sp 2 1\na 1 2 3\r\r\n", 15, 2), ("p sp 2 1\n\xff\n", 13, 2), ("p sp 2 1\na 1 2 " + "9" * LONG + "\n", 16, 2),
    ("c" + "x" * LONG + "\np sp 2 1\na 1 2 " + "9" * LONG + "\n", 16, 3), ("c" + "x" * LONG + "\np sp 2 1\na 1 2 -\n", 15, 3),
]
# Over five vertices.
QUESTIONS = [
    ("p aux sp ss 1048577\n", 16, 1), ("p aux sp ss 1048576\n", 19, 2), ("m x\n", 10, 1), ("a 1 2 3\n", 13, 1), ("p aux sp xy 1\n", 12, 1),
    ("p aux sp ss 1\nq 1 2\n", 13, 2), ("p aux sp p2p 1\nq 1\n", 14, 2), ("p aux sp p2p 1\nq 1 6\n", 17, 2), ("p aux sp p2p 1\nq 1 2\nq x\n", 18, 3),
    ("p aux sp ms 1\nm\n", 14, 2), ("p aux sp ms 1\nm 1 1 x 1 1 1 9 1 1 6\n", 15, 2), ("p aux sp ms 1\nm 1 1 1 1 1 1 1 1 1 6\n", 17, 2),
    ("p aux sp ss 1\ns 6\n", 17, 2),
]
BUNDLES = [
    ("p sp 1 0\n", 10, 2), ("p sp 2 1\np aux sp ss 0\n", 19, 2), ("p aux sp ss 0\n", 10, 1), ("p sp 2 1\np aux\n", 19, 2), ("p sp 1 0\np aux\n", 12, 2),
    ("p sp 1 0\np auxx sp ss 0\n", 11, 2), ("p sp 1 0\ns 1\n", 13, 2), ("p sp 0 0\np aux sp ss 1\ns 1\n", 17, 3),
    ("p sp 1 0\np aux sp ss 0\np sp 1 0\n", 11, 3), ("p sp 33554432 134217728\n", 19, 2),
]
# Answers, over so many vertices. Those that have no fault are read; then an algebra of a caller's own is refused.
READ = (0, 0)
ANSWERS = [
    ("p ans ss 1 shortest\ns 1\n" + LINES.replace("u 5\n", ""), 5, 36, 7), ("p ans ss 1 shortest\ns 1\n" + LINES.replace("u 5", "u 4"), 5, 32, 7),
    ("p ans ss 1 fast\n", 5, 31, 1), ("", 5, 30, 1),
    ("c\n\ns 1\n", 1, 30, 3), ("pp ans ss 1 own\n", 1, 30, 1), ("p ans ss 1\n", 1, 31, 1), ("p aux ss 1 own\n", 1, 31, 1), ("p ans sp 1 own\n", 1, 31, 1),
    ("p ans ss x owner\n", 1, 31, 1), ("p ans ss x within\n", 1, 34, 1), ("p ans ss 1048577 within\n", 1, 35, 1), ("p ans ss 1048576 within\n", 1, 36, 2),
    ("p ans ss 1 own\nq 1 2\n", 1, 32, 2), ("p ans ss 1 own\n" * 2, 1, 32, 2), ("p ans ss 1 own\ns 1 2\n", 1, 33, 2), ("p ans ss 1 own\ns -1\n", 1, 34, 2),
    ("p ans ss 1 own\ns 4294967296\n", 1, 35, 2), ("p ans ss 1 own\ns 1\ndd 1\n", 1, 32, 3), ("p ans ss 1 own\ns 1\nd 2 x 0 0\n", 1, 34, 3),
    ("p ans ss 1 own\ns 1\nd 2 18446744073709551616 x 0\n", 1, 35, 3), ("p ans ss 1 own\ns 1\nd 1 18446744073709551615 4294967295 007\n", 1, *READ),
    ("p ans ss 1 own\ns 1\nu 1\nc\n\nu 1\n", 1, 32, 6), ("p ans ss 1 own\ns 1\n", 0, *READ), ("p ans ss 1 own\ns 1\nu 1\n", 0, 32, 3),
    ("p ans ms 1 own\nm\n", 0, 33, 2), ("p ans ms 1 own\nm 1 2 3 4 5 6 7 8\n", 0, *READ), ("p ans ms 1 own\nm 1 2 3 4 5 6 7 x 4294967296\n", 0, 34, 2),
    ("p ans p2p 1 own\nq 1 4\nd 8 3\nr\n", 0, 33, 4), ("p ans p2p 1 own\nq 1 4\nd 8 3\nr 1 2 3 4 5 6 7 8 4294967296 x\n", 0, 35, 4),
    ("p ans p2p 1 own\nq 1 4\nu 1\n", 0, 33, 3), ("p ans p2p 1 own\nq 1 4\nr 1 4\n", 0, 32, 3), ("p ans p2p 1 own\nq 1 4\nd 8 3\n", 0, 36, 4),
]
