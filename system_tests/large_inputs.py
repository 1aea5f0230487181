"""Inputs that are larger than most: more than a thousand questions, and the most; many diffusions side by side; a million vertices."""
import itertools
import re

from common import TOP

GRAPH = str(TOP / "examples/five_vertices.gr")
MOST = 1 << 20
FAR = 1_000_001
# The sum of the weights before each vertex of a street, in which an arc leads from each to the next and weighs one more than its tail's rest by 7.
SUMS = [0, *itertools.accumulate(v % 7 + 1 for v in range(1, FAR))]

# The answers to pairs of the five vertices, by hand.
ANSWERS = {(1, 4): "d 8 3\nr 1 3 2 4\n", (1, 2): "d 3 2\nr 1 3 2\n", (4, 1): "u\n", (3, 3): "d 0 0\nr 3\n", (5, 2): "d 6 3\nr 5 1 3 2\n"}
FROM_ONE = "s 1\nd 1 0 0 0\nd 2 3 2 3\nd 3 1 1 1\nd 4 8 3 2\nu 5\n"


def pairs_of(count):
    """So many pairs, as a question file and as answered."""
    pairs = list(itertools.islice(itertools.cycle(ANSWERS), count))
    asked = f"p aux sp p2p {count}\n" + "".join(f"q {s} {t}\n" for s, t in pairs)
    return asked, f"p ans p2p {count} shortest\n" + "".join(f"q {s} {t}\n{ANSWERS[s, t]}" for s, t in pairs)


def ended(room, words, wanted, given=""):
    """What is wrong with a run that must end well, write this, and report nothing."""
    run = room.run(*words, stdin=given.encode())
    if (run.returncode, run.stdout.decode(), run.stderr) != (0, wanted, b""):
        yield f"{words[0]} {' '.join(words[3:])}: status {run.returncode}, {len(run.stdout)} bytes and not {len(wanted)}, {run.stderr[:200]!r}"


def many_questions(room):
    """More than a thousand questions in a file, and the most that it may have."""
    for count, *settings in ((1001, "--plain"), (1001, "--factors", "--width", "3"), (1001, "--workers", "2", "--width", "64"), (20_001, "--workers", "2", "--width", "64"),
                             (100_001, "--factors"), (MOST, "--plain")):
        asked, wanted = pairs_of(count)
        yield from (f"{count} pairs: {wrong}" for wrong in ended(room, ["solve", GRAPH, room.file(asked), *settings], wanted))


def many_judged(room):
    """A check of more than a thousand answers, right and with the last one wrong, and of the most."""
    for count in (1003, MOST):
        asked, right = pairs_of(count)
        words = ["check", GRAPH, room.file(asked)]
        if count < MOST:
            yield from (f"{count} right answers: {wrong}" for wrong in ended(room, [*words, room.file(right)], "valid\n"))
        before, _, last = right.rpartition("q ")
        source, target = last.split("\n")[0].split()
        run = room.run(*words, room.file(f"{before}q {source} {target}\nd 0 0\nr {source}\n"))
        if (run.returncode, run.stderr) != (1, b"") or not run.stdout.startswith(f"invalid {count} ".encode()):
            yield f"{count} answers, the last one wrong: status {run.returncode}, {run.stdout!r}, {run.stderr!r}"


def many_served(room):
    """A service that is asked for more than a thousand pairs at once, and then for one."""
    for count, settings in ((1001, "--plain"), (1001, "--factors"), (100_001, "--plain")):
        (asked, wanted), (again, then) = pairs_of(count), pairs_of(1)
        yield from (f"{count} pairs: {wrong}" for wrong in ended(room, ["serve", GRAPH, settings], wanted + then, asked + again))


def wide_groups(room):
    """More diffusions side by side than most tests have: 33 sources at width 64."""
    asked = room.file("p aux sp ss 33\n" + "s 1\n" * 33)
    for order in ([], ["--best-first"]):
        yield from ended(room, ["solve", GRAPH, asked, "--width", "64", *order], "p ans ss 33 shortest\n" + FROM_ONE * 33)


def street(room):
    """The file of the street, which is written once."""
    path = room.folder / "street"
    if not path.exists():
        path.write_text(f"p sp {FAR} {FAR - 1}\n" + "".join(f"a {v} {v + 1} {v % 7 + 1}\n" for v in range(1, FAR)), encoding="ascii")
    return str(path)


def pair(source, target):
    """A pair of the street, as answered."""
    if target < source:
        return f"q {source} {target}\nu\n"
    return f"q {source} {target}\nd {SUMS[target - 1] - SUMS[source - 1]} {target - source}\nr {' '.join(map(str, range(source, target + 1)))}\n"


# Pairs of the street: a far one, near ones, and one that no walk joins.
PAIRS = [(1, FAR), (FAR - 9, FAR), (FAR, 1), (100_000, 100_001), (FAR, FAR)]
ASKED = f"p aux sp p2p {len(PAIRS)}\n" + "".join(f"q {s} {t}\n" for s, t in PAIRS)
FACTORED = f"diffuse: an order was found ({FAR - 1} links, 0 triangles)\ndiffuse: the graph is factored\n"


def a_million_vertices(room):
    """Pairs of more than a million vertices, by searches, factors and workers, also of a service. A street is factored in any order of least degrees:
    it has a link for each arc, and no triangle."""
    graph, asked = street(room), room.file(ASKED)
    wanted = f"p ans p2p {len(PAIRS)} shortest\n" + "".join(pair(*it) for it in PAIRS)
    for settings in (["--plain"], ["--workers", "2", "--shards", "3"]):
        yield from ended(room, ["solve", graph, asked, *settings], wanted)
    run = room.run("solve", graph, asked, "--factors", "--progress")
    shown = FACTORED + "".join(f"diffuse: {k} of {len(PAIRS)} questions answered\n" for k in range(1, len(PAIRS) + 1))
    if (run.returncode, run.stdout.decode(), run.stderr.decode()) != (0, wanted, shown):
        yield f"factors: status {run.returncode}, {len(run.stdout)} bytes and not {len(wanted)}, {run.stderr!r}"
    none = "p aux sp ss 0\n"
    for settings in ("--plain", "--factors"):
        yield from ended(room, ["serve", graph, settings], wanted + "p ans ss 0 shortest\n" + wanted, ASKED + none + ASKED)


def a_long_run(room):
    """A run that shows progress says once, after ten million messages, that another solver writes the same bytes sooner; neither before, nor with `--plain`. A pair takes as many
    messages as the street has vertices."""
    hint = "diffuse: ten million messages sent; --plain or --factors writes the same bytes sooner\n"
    for count, settings, after in ((11, (), 10), (9, (), None), (11, ("--plain",), None)):
        asked = room.file(f"p aux sp p2p {count}\n" + "q 1 2\n" * count)
        run = room.run("solve", street(room), asked, "--progress", *settings)
        shown = "".join((hint if k == after else "") + f"diffuse: {k} of {count} questions answered\n" for k in range(1, count + 1))
        if (run.returncode, run.stdout.decode(), run.stderr.decode()) != (0, f"p ans p2p {count} shortest\n" + count * pair(1, 2), shown):
            yield f"{count} pairs {settings}: status {run.returncode}, {run.stdout[:200]!r}, {run.stderr!r}"


def a_million_lines(room):
    """The answer for all vertices of the street, and the verdicts on it; and an order, in which each place is taken once."""
    graph, asked = street(room), room.file("p aux sp ss 1\ns 1\n")
    lines = [f"d {v} {SUMS[v - 1]} {v - 1} {v - 1}\n" for v in range(1, FAR + 1)]
    wanted = "p ans ss 1 shortest\ns 1\n" + "".join(lines)
    for settings in ("--plain", "--factors"):
        yield from ended(room, ["solve", graph, asked, settings], wanted)
    yield from ended(room, ["check", graph, asked, room.file(wanted)], "valid\n")
    run = room.run("check", graph, asked, room.file(wanted.removesuffix(lines[-1]) + f"d {FAR} {SUMS[-1] + 1} {FAR - 1} {FAR - 1}\n"))
    if (run.returncode, run.stdout) != (1, f"invalid 1 {FAR} 2\n".encode()):
        yield f"the last line is wrong: status {run.returncode}, {run.stdout!r}, {run.stderr!r}"
    run = room.run("order", graph)
    if (run.returncode, run.stderr) != (0, b"") or sorted(map(int, re.findall(rb"(?m)^\d+$", run.stdout))) != list(range(FAR)):
        yield f"an order: status {run.returncode}, {len(run.stdout)} bytes, {run.stderr!r}"


def a_hub(room):
    """Messages from a hub to three million vertices, and their signals: if each event looked at all arcs of its vertex, that would take hours. Under
    `reach` there is one message along each arc, and the one that opens."""
    last = 3_000_001
    graph = room.file(f"p sp {last} {last - 1}\n" + "".join(f"a 1 {v} 0\n" for v in range(2, last + 1)))
    words = ["solve", graph, room.file(f"p aux sp p2p 1\nq 1 {last}\n"), "--algebra", "reach", "--shards", "1", "--accounts", "hub.accounts"]
    for order in ([], ["--best-first"]):
        yield from ended(room, [*words, *order], f"p ans p2p 1 reach\nq 1 {last}\nd 0 1\nr 1 {last}\n")
        counted = (room.folder / "hub.accounts").read_text()
        if counted != f"p tally 1 reach\nt 1 1{f' {last}' * 4}\n":
            yield f"a hub, {order}: {counted!r}"


CASES = (many_questions, many_judged, many_served, wide_groups, a_million_vertices, a_long_run, a_million_lines, a_hub)
