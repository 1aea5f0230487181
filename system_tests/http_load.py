"""The server under load: beside the program, over its limits, with graphs that change, and at its end."""
import http.client
import json
import random
import re
import signal
import subprocess
import time
from pathlib import Path

from http_faults import Trickle
from http_requests import FIVE, TOWN
from http_server import ROUTE, Server, again_and_again, beside, received, replace, reply_on, soon, statuses, together


def table_to(last):
    """A table from the first hundred vertices to the hundred up to this one."""
    return "/table?sources=" + ",".join(map(str, range(1, 101))) + "&targets=" + ",".join(map(str, range(last - 99, last + 1)))


TABLE = table_to(4000)


def beside_the_program(program, asks, *words):
    """Routes of the town from several clients at once, beside what `solve` writes."""
    lot = random.Random(1)
    pairs = [(lot.randint(1, 4000), lot.randint(1, 4000)) for _ in range(asks)]
    questions = f"p aux sp p2p {asks}\n" + "".join("q {} {}\n".format(*pair) for pair in pairs)
    solved = subprocess.run([program, "solve", TOWN, "-", "--plain"], input=questions, stdout=subprocess.PIPE, text=True, check=True).stdout
    wanted = [(int(value), [int(v) for v in route.split()]) for value, route in re.findall(r"^d (\d+) \d+\nr ([\d ]+)$", solved, re.M)]
    server, got = Server(TOWN, *words), [None] * asks

    def client(first):
        own = server.client()
        for place in range(first, asks, 8):
            reply = server.ask("/route?source={}&target={}".format(*pairs[place]), client=own)[1]
            got[place] = reply["value"], reply["route"]
        own.close()

    together([lambda first=first: client(first) for first in range(8)])
    apart = [place for place in range(asks) if got[place] != wanted[place]]
    if apart:
        yield f"{len(apart)} routes are not the program's: {[pairs[place] for place in apart[:3]]}"
    yield from server.ends()


def over_its_limits():
    """One search at a time, and a queue of two: sixteen clients ask until some were answered and others refused, and it goes on."""
    server, seen = Server(TOWN, "--handles", "1", "--queue", "2"), set()
    wanted = {(200, None), (503, "the queue is full")}
    with again_and_again([server.asker(TABLE, lambda status, reply: seen.add((status, reply.get("detail")))) for _ in range(16)]):
        soon(lambda: seen >= wanted)
    if seen != wanted or not soon(server.answers):
        yield f"replies {seen}"
    yield from server.ends()


def street(room, count):
    """A file with a graph of so many vertices on a street both ways, and their number."""
    path = Path(room) / "street.gr"
    path.write_text(f"p sp {count} {2 * count - 2}\n" + "".join(f"a {k} {k + 1} 1\na {k + 1} {k} 1\n" for k in range(1, count)))
    return path, count


def late(room):
    """A table that takes longer than the timeout is refused, its search stops for less than half of what the table takes, and routes go on."""
    path, n = street(room, 100_000)
    whole = Server(path, "--handles", "1")
    status, cost = whole.cost(lambda: whole.ask(table_to(n))[0])
    server = Server(path, "--handles", "1", "--timeout", "0.02")

    def refused():
        answer, reply = server.ask(table_to(n))
        return answer, reply["detail"], soon(server.is_quiet)

    got, spent = server.costs([refused] * 5)
    if status != 200 or set(got) != {(503, "timed out", True)} or spent > cost / 2:
        yield f"{got} after {spent} s of the processor at least, and the whole table takes {cost}"
    yield from whole.ends()
    yield from server.goes_on()


def latencies(room):
    """What a long table and a route take is in the sums and buckets of their paths, as it is in the log: as much as the processor was used at least, and
    as long as the client waited at most."""
    path, n = street(room, 100_000)
    server, began = Server(path), time.monotonic()
    (status, _), cost = server.cost(lambda: server.ask(table_to(n)))
    waited = time.monotonic() - began
    server.ask("/route?source=1&target=2")
    soon(lambda: all(seconds_logged(server, name) for name in ("/table", "/route")))
    text = server.ask("/metrics")[1]
    for name, least, most in (("/table", cost / 2, waited), ("/route", 0, time.monotonic() - began - waited)):
        (total,), (count,) = (re.findall(rf'^diffuse_request_seconds_{kind}{{path="{name}"}} (\S+)$', text, re.M) for kind in ("sum", "count"))
        buckets = re.findall(rf'^diffuse_request_seconds_bucket{{path="{name}",le="(\S+)"}} (\d+)$', text, re.M)
        right = all(int(below) == (float(total) <= float(bound)) for bound, below in buckets) and count == "1" and len(buckets) > 5
        logged = seconds_logged(server, name)
        if status != 200 or not right or not least <= float(total) <= most or len(logged) != 1 or abs(logged[0] - float(total)) > 0.001:
            yield f"{name}: {total} s for {count}, logged {logged}, with {buckets}, of {waited:.3f} s that took {cost:.3f} s of the processor"
    yield from server.ends()


def seconds_logged(server, name):
    """How long requests for a path took, as the log has them."""
    return [line["seconds"] for line in map(json.loads, list(server.log)) if line.get("request", "").startswith(f"GET {name}?")]


def age(room):
    """The age of a graph goes on by seconds, and begins anew with a reload."""
    path, began = Path(room) / "aged.gr", time.monotonic()
    path.write_text(FIVE.read_text())
    server = Server(path)
    if not soon(lambda: server.counted("diffuse_graph_age_seconds") >= 2, 60) or server.counted("diffuse_graph_age_seconds") > time.monotonic() - began:
        yield f"the age of a graph is {server.counted('diffuse_graph_age_seconds')} s after {time.monotonic() - began:.1f} s"
    again = time.monotonic()
    server.send(signal.SIGHUP)
    server.wait_for("reloaded")
    if server.counted("diffuse_graph_age_seconds") > time.monotonic() - again:
        yield f"the age of a new graph is {server.counted('diffuse_graph_age_seconds')} s after {time.monotonic() - again:.1f} s"
    yield from server.ends()


def routes_beside_tables(room):
    """Tables and trees leave a thread to routes: while ten tables are answered, up to when the last one is begun, twice as many routes are, and more."""
    path, n = street(room, 50_000)
    server, routes = Server(path, "--handles", "2"), []
    tables, client = server.send_all(*[table_to(n)] * 10), server.client()
    soon(lambda: server.counted("diffuse_requests_waiting") > 5, 60)
    while server.counted("diffuse_requests_waiting") > 0:
        routes.append(server.ask("/route?source=1&target=2", client=client)[0])
    got = [statuses(reply_on(one)) for one in tables]
    if got != [[200]] * 10 or routes.count(200) < 20:
        yield f"{routes.count(200)} routes beside {got.count([200])} tables"
    yield from server.ends()


def one_at_a_time(room):
    """Routes that are asked one at a time leave the lists of a few searches, however many threads wait: 26 bytes a vertex each."""
    path, n = street(room, 200_000)
    server = Server(path, "--handles", "16")
    client = server.client()
    before = server.counted("diffuse_resident_bytes")
    for target in range(1, 41):
        server.ask(f"/route?source=1&target={target}", client=client)
    held = server.counted("diffuse_resident_bytes") - before
    if held > 8 * 26 * n:
        yield f"{held / 26 / n:.1f} searches have lists"
    yield from server.ends()


def given_back(room):
    """The lists of routes that are searched for at once are given back once none has needed them for the time of --idle; then a route is found as before."""
    path, n, sources = Path(room) / "detour.gr", 200_000, range(1, 15)
    path.write_text(f"p sp {n} {n + 13}\n" + "".join(f"a {k} {k + 1} 1\n" for k in range(1, n)) + "".join(f"a {k} {n} {n - k - 1}\n" for k in sources))
    server = Server(path, "--handles", "8", "--idle", "5")
    before = server.counted("diffuse_resident_bytes")

    def value(source):
        return server.ask(f"/route?source={source}&target={n}")[1]["value"]

    def searches_held():
        return (server.counted("diffuse_resident_bytes") - before) / 26 / n

    def most_held():
        together([lambda source=source: value(source) for source in sources])
        return searches_held()

    # One thread may answer all, if the others are slow to wake: so they are asked again.
    if not soon(lambda: most_held() >= 2.5, 120) or not soon(lambda: searches_held() < 1.5, 120) or value(1) != n - 2:
        yield f"{searches_held():.1f} searches have lists"
    yield from server.ends()


def few_trees(room):
    """Trees that are asked one at a time, by whichever threads tables leave free, leave the lists of a few trees, and not of one for each thread."""
    path, n = street(room, 200_000)
    server, table = Server(path, "--handles", "8"), f"/table?sources=1&targets={n}"
    together([lambda: server.ask(table)] * 14)
    before = server.counted("diffuse_resident_bytes")
    with again_and_again([server.asker(table) for _ in range(5)]):
        got = [server.ask("/tree?sources=1&limit=1")[1]["vertices"] for _ in range(60)]

    def trees():
        return (server.counted("diffuse_resident_bytes") - before) / 25 / n

    # Lists of the last tables may not have gone yet.
    if not soon(lambda: trees() <= 6, 30) or got != [[[1, 0, 0, 0], [2, 1, 1, 1]]] * 60:
        yield f"{trees():.1f} trees have lists: {got[:2]}"
    yield from server.ends()


def new_graphs(room):
    """Graphs that change under load: each request is answered by one of them, and the last by the last."""
    path = Path(room) / "changing.gr"
    texts = [FIVE.read_text(), FIVE.read_text().replace("a 2 4 5", "a 2 4 1")]
    path.write_text(texts[0])
    server, heard = Server(path, "--factors"), []
    with again_and_again([server.asker(ROUTE, lambda status, reply: heard.append((status, reply.get("value")))) for _ in range(6)]):
        for turn in range(1, 21):
            replace(path, texts[turn % 2])
            server.send(signal.SIGHUP)
            server.wait_for("reloaded", turn)
    wrong = [it for it in heard if it not in ((200, 8), (200, 4))]
    if wrong or server.logged("reloaded") != 20 or server.ask(ROUTE)[1]["value"] != 8:
        yield f"{len(wrong)} of {len(heard)} requests are lost: {wrong[:3]}, {server.logged('reloaded')} changes"
    yield from server.ends()
    print(f"{len(heard)} requests during 20 changes of the graph", flush=True)


def reweighed(room):
    """Reloads of a factored graph: with other weights, or without an arc, its links are taken over; with a new arc, with weights that are
    too great, or without --factors, they are not. The answers are those of the file either way."""
    path, far = Path(room) / "reweighed.gr", FIVE.read_text().replace("p sp 5 7", "p sp 5 8") + "a 4 5 1\n"
    path.write_text(FIVE.read_text())
    server = Server(path, "--factors")
    texts = [(FIVE.read_text().replace("a 2 4 5", "a 2 4 1"), 1, 4), (FIVE.read_text().replace("p sp 5 7", "p sp 5 6").replace("a 2 4 5\n", ""), 1, 9), (far, 0, 8),
             (far.replace("a 2 4 5", "a 2 4 2"), 1, 5), *((chain_of(65536, weight), kept, 3 * weight) for weight, kept in ((1, 0), (2, 1), (2**32 - 1, 0), (1, 0)))]
    counted = 0
    for turn, (text, is_reweighed, value) in enumerate(texts, 1):
        replace(path, text)
        server.send(signal.SIGHUP)
        server.wait_for("reloaded", turn)
        counted += is_reweighed
        # Only the weights that are too great have no factors; the graph after it has.
        wanted = counted, value, 200, value < 2**32
        got = (server.counted("diffuse_reloads_reweighed_total"), server.ask(ROUTE)[1]["value"], server.ask("/tree?sources=1&limit=1")[0],
               server.ask("/health")[1]["graph"]["factors"])
        if got != wanted:
            yield f"reload {turn}: {got}, and not {wanted}"
    if server.counted('diffuse_reloads_total{result="done"}') != len(texts):
        yield f"reloads: {server.log[-2:]}"
    yield from server.ends()
    path.write_text(FIVE.read_text())
    plain = Server(path)
    plain.send(signal.SIGHUP)
    if not plain.wait_for("reloaded") or plain.counted("diffuse_reloads_reweighed_total") or plain.end() != 0:
        yield f"without factors: {plain.log}"


def chain_of(count, weight):
    """The text of a graph of so many vertices one after the other."""
    return f"p sp {count} {count - 1}\n" + "".join(f"a {v} {v + 1} {weight}\n" for v in range(1, count))


def trees(room):
    """Trees of the town up to some limit: in the order of vertices, by values as in tables, and no other vertex is within; and the longest."""
    server, lot = Server(TOWN), random.Random(4)
    for _ in range(20):
        sources, limit = [lot.randint(1, 4000) for _ in range(lot.randint(1, 3))], lot.choice([0, 4000, 40000])
        lines = server.ask(f"/tree?sources={','.join(map(str, sources))}&limit={limit}")[1]["vertices"]
        asked = [line[0] for line in lines[:50]] + [lot.randint(1, 4000) for _ in range(50)]
        rows = server.ask("/table", f'{{"sources": {sources}, "targets": {asked}}}')[1]["values"]
        best = [min((value for value in column if value is not None), default=None) for column in zip(*rows)]
        known = {vertex: value for vertex, value, _, _ in lines}
        wanted = {vertex: value for vertex, value in zip(asked, best) if value is not None and value <= limit}
        if [line[0] for line in lines] != sorted(known) or {vertex: known[vertex] for vertex in asked if vertex in known} != wanted:
            yield f"from {sources} within {limit}: {lines[:5]}"
    path = Path(room) / "chain.gr"
    path.write_text(chain_of(100001, 1))
    long = Server(path)
    most, more = long.ask("/tree?sources=1&limit=99999"), long.ask("/tree?sources=1&limit=100000")
    if len(most[1]["vertices"]) != 100000 or most[1]["vertices"][-1] != [100000, 99999, 99999, 99999]:
        yield f"the longest tree has {len(most[1]['vertices'])} vertices"
    if more[0] != 400 or more[1]["detail"] != "100001 vertices are within this limit, more than 100000":
        yield f"a longer tree: {more}"
    yield from server.ends()
    yield from long.ends()


def drained():
    """SIGTERM while tables are being answered: all that came are answered, and the server ends with status 0."""
    server = Server(TOWN, "--drain", "600")
    idle = server.client()
    server.ask("/health", client=idle)
    asked = server.send_all(*[TABLE] * 12)
    server.send(signal.SIGTERM)
    replies = [statuses(received(one)) for one in asked]
    status = server.wait()
    if status != 0 or replies != [[200]] * 12:
        yield f"status {status}, replies {replies}, {server.log[-2:]}"
    try:
        server.ask("/health")
        yield "it still listens"
    except OSError:
        pass


def ends_under_load(trials):
    """SIGTERM while forty clients connect anew for each request: the server ends before its time is over, and no request is lost whose connection was there before."""
    slowest = 0
    for trial in range(trials):
        server, told, lost = Server(TOWN, "--drain", "600"), [float("inf")], []

        def client():
            while True:
                connected, own = float("inf"), server.client()
                try:
                    own.connect()
                    connected = time.monotonic()
                    if server.ask(ROUTE, client=own)[0] not in (200, 503):
                        lost.append("status")
                    own.close()
                except (OSError, http.client.HTTPException) as error:
                    if connected < told[0]:
                        lost.append(repr(error))
                    return

        with beside([client] * 40):
            time.sleep(0.1)
            told[0] = time.monotonic() - 0.005
            status = server.end()
            slowest = max(slowest, time.monotonic() - told[0])
        if status != 0 or lost:
            yield f"trial {trial}: status {status}, lost {lost[:3]}"
    print(f"{trials} ends under load, the slowest after {slowest:.2f} s", flush=True)


def ends_with_slow_clients():
    """Clients that read or write byte by byte, and ones that never read, don't keep the server from its end."""
    server = Server(TOWN, "--drain", "1", "--read", "600", "--write", "600")
    trickle = Trickle(server, 20)
    lazy = [server.connect() for _ in range(5)]
    for one in lazy:
        one.sendall(b"GET /tree?sources=1&limit=1000000 HTTP/1.1\r\nHost: here\r\n\r\n" * 40)
    time.sleep(0.3)
    yield from server.ends()
    trickle.end()
    for one in lazy:
        one.close()
    twice = Server(TOWN, "--drain", "600")
    with twice.connect() as one:
        one.sendall(b"GET /health")
        twice.send(signal.SIGTERM)
        twice.wait_for("draining")
        yield from (f"a second SIGTERM: {wrong}" for wrong in twice.ends())
