"""What one client must not do to the others: bursts of connections, bodies and heads made to be slow; and short memory."""
import random
import resource
import signal
import time
from pathlib import Path

from http_load import TABLE, chain_of
from http_requests import FIVE, TOWN
from http_server import GET, ROUTE, Server, again_and_again, received, replace, reply_on, soon, statuses, together


def allow_descriptors(count):
    most = resource.getrlimit(resource.RLIMIT_NOFILE)[1]
    resource.setrlimit(resource.RLIMIT_NOFILE, (min(count, most), most))


def opened(server, count):
    """So many connections at once, of those that can be opened."""
    sockets = []
    for _ in range(count):
        try:
            sockets.append(server.connect(timeout=1))
        except OSError:
            pass
    return sockets


def bursts():
    """Thousands of connections at once, with and without a byte: afterwards it answers, for less of the processor than they took and a second, and ends before its time is over."""
    allow_descriptors(8192)
    for count, prefix, data in ((3000, (), b""), (1100, (), GET), (200, ("prlimit", "--nofile=120"), GET)):
        server = Server(FIVE, "--drain", "600", prefix=prefix)

        def attack():
            sockets = opened(server, count // 4)
            for one in sockets:
                try:
                    one.sendall(data)
                except OSError:
                    pass
            for one in sockets:
                one.close()

        _, taken = server.cost(lambda: together([attack] * 4))
        has_answered, spent = server.cost(lambda: soon(server.answers))
        if not has_answered or spent > 1 + taken:
            yield f"{count} connections, which take {taken:.2f} s of the processor: no answer for {spent:.2f} s"
        yield from server.ends()


def posts(body):
    return b"POST /table HTTP/1.1\r\nHost: here\r\nContent-Length: %d\r\n\r\n" % len(body) + body


# The least of so many tries counts, and a body may take so many times as much of the processor as a long text.
TRIES, SLOW = 5, 20
LONG_TEXT, LONG_LIST = b'{"sources":"' + b"x" * 16000 + b'"}', b'{"sources":[' + b"1," * 8000 + b"1]}"


def slow_bodies():
    """Bodies that are slow to parse are refused or answered for little more than one that is not, and /health beside 64 of them for what they take."""
    server = Server(FIVE)
    small = [b'{"sources":[' + b"{}," * 5400 + b"1]}", b"[" * 16384, b'{"a":' + b'{"b":' * 3000, b"{" + b",".join(b'"%d":1' % i for i in range(1700)) + b"}",
             LONG_TEXT, LONG_LIST, b'{"sources":[' + b"[1,2]," * 2600 + b"1]}"]
    large = [b'{"sources":[' + b"{}," * 20000 + b"1]}", b"{" + b",".join(b'"%d":1' % i for i in range(20000)) + b"}"]

    def ask(body):
        return server.costs([lambda: statuses(server.raw(posts(body), ends=True))] * TRIES)

    plain, each = ask(LONG_TEXT)[1], []
    for body in large + small:
        got, spent = ask(body)
        each.append(spent)
        if set(map(tuple, got)) != {(413 if len(body) > 16384 else 400,)} or spent > SLOW * plain:
            yield f"{body[:30]}, {len(body)} bytes: {got} after {1e3 * spent:.2f} ms of the processor, and a long text takes {1e3 * plain:.2f}"

    def ask_beside():
        others = [server.connect() for _ in range(64)]
        for place, one in enumerate(others):
            one.sendall(posts(small[place % len(small)]))
        status = server.ask("/health")[0]
        for one in others:
            one.close()
        return status

    got, spent = server.costs([ask_beside] * TRIES)
    if set(got) != {200} or spent > 64 * max(each):
        yield f"/health: {set(got)} after {1e3 * spent:.2f} ms of the processor, and each body takes {1e3 * max(each):.2f} at most"
    yield from server.ends()


def closed_ends():
    """A client that closes its end when it has asked hears its answers, whatever they take and whoever else is connected; then it is let go."""
    server = Server(FIVE, "--idle", "600", "--read", "600")
    others = [server.connect() for _ in range(5)]
    for one in others:
        one.sendall(GET)
        reply_on(one)
    route = GET.replace(b"/health", ROUTE.encode())
    for name, data, wanted in (("/health", GET, [200]), ("a route", route, [200]), ("two routes", route * 2, [200, 200]), ("a long text", posts(LONG_TEXT), [400]), ("a long list", posts(LONG_LIST), [400])):
        lost = [got for got in (statuses(server.raw(data, ends=True)) for _ in range(30)) if got != wanted]
        if lost:
            yield f"{name}: {len(lost)} of 30 hear {lost[0]}"
    if not soon(lambda: server.counted("diffuse_connections ") == len(others) + 1):
        yield f"{server.counted('diffuse_connections ')} connections stay"
    for one in others:
        one.close()
    yield from server.ends()


def short_memory(room, starts):
    """Little memory more than the server has, a load, and reloads of a larger graph: each start goes on, or says why it can't; none aborts."""
    path, large = Path(room) / "short.gr", chain_of(60000, 1)
    refused = 0
    for start in range(starts):
        replace(path, TOWN.read_text())
        server, lot = Server(path, "--factors", "--handles", "2", "--timeout", "5"), random.Random(start)
        server.allow_memory(lot.choice([0, 1 << 16, 1 << 19, 1 << 21]))

        def load():
            try:
                server.ask(lot.choice([ROUTE, "/route?source=1&target=4000", "/tree?sources=1&limit=1000000", "/metrics", TABLE, "/nowhere"]))
            except Exception:  # no reply, or one that is cut off
                pass

        with again_and_again([load] * 8):
            replace(path, large)
            for turn in range(1, 4):
                server.send(signal.SIGHUP)
                # A line of the log may be lost, for want of memory.
                soon(lambda: server.logged("reloaded") + server.logged("not reloaded") >= turn, 0.4)
        if server.run.poll() is not None:
            yield f"start {start}: it ended with status {server.run.returncode}: {server.log[-2:]}"
            continue
        server.allow_memory(None)
        soon(lambda: server.counted("diffuse_reloads_total") > 0)
        refused += server.counted('diffuse_reloads_total{result="failed"}') > 0
        yield from (f"start {start}: {wrong}" for wrong in server.goes_on())
    if not refused:
        yield "no reload was refused: the test has too much memory"
    print(f"{starts} starts with little memory; reloads were refused in {refused}", flush=True)


def hangup_while_draining():
    """SIGHUP while the server drains changes nothing: what was asked is answered."""
    server = Server(TOWN, "--drain", "600", "--handles", "2")
    asked = server.send_all(*[TABLE] * 30)
    server.send(signal.SIGTERM)
    server.wait_for("draining")
    server.send(signal.SIGHUP)
    got = [statuses(received(one)) for one in asked]
    status = server.wait()
    if got != [[200]] * 30 or status != 0:
        yield f"{got.count([200])} of {len(got)} tables are answered, status {status}"


def head_and_body():
    """On a kept connection a head and its body have `--read` together: if a part comes late, the end does not, at least in one of three tries."""
    server = Server(FIVE, "--read", "6")

    def seconds():
        with server.connect() as one:
            one.sendall(GET)
            reply_on(one)
            began = time.monotonic()
            one.sendall(b"POST /table HTTP/1.1\r\n")
            time.sleep(5)
            one.sendall(b"Host: here\r\nContent-Length: 50\r\n\r\n{")
            return time.monotonic() - began if statuses(received(one)) == [408] else float("inf")

    tries = (seconds() for _ in range(3))
    least = next((it for it in tries if it < 9.5), None)
    if least is None:
        yield "it is not closed in its time"
    yield from server.ends()


def long_heads():
    """A head of any length, and a query of any number of fields, hears at once why it is refused, by one reply."""
    server = Server(FIVE)
    for size in (14000, *range(15000, 17000, 100), 40000):
        got = statuses(server.raw(b"GET /health HTTP/1.1\r\nHost: here\r\nX: " + b"x" * (size - 41) + b"\r\n\r\n", ends=True))
        if not (16300 < size < 16400) and got != ([200] if size < 15000 else [431]) and not (size == 15000 and got == [200]):
            yield f"a head of {size} bytes: {got}"
    for count in (17, 230, 240, 400, 3000):
        got = statuses(server.raw(b"GET /health?" + b"&".join(b"%x=" % i for i in range(count)) + b" HTTP/1.1\r\nHost: here\r\n\r\n", ends=True))
        if got != [400]:
            yield f"{count} fields: {got}"
    for data in (b"GET /health HTTP/1.1\r\n\r\n", b"GET /he alth HTTP/1.1\r\nHost: here\r\n\r\n"):
        got = server.raw(data, ends=True)
        if got.count(b"HTTP/1.1 400") != 1 or b'"http": 400' not in got:
            yield f"{data}: {got}"
    yield from server.ends()
