"""What many connections of one client must not do to the others: tables without end, connections that idle, that are slow to read, or that have left."""
import socket
import time
from pathlib import Path

from http_attacks import allow_descriptors
from http_load import chain_of, street, table_to
from http_requests import FIVE
from http_server import GET, ROUTE, Server, reply_on, soon, statuses


def fairness(room):
    """While three hundred tables, and routes through a hundred others, of one client wait or are refused, no route of another is refused, and a hundred are
    answered before a fifth of what waits."""
    path, n = street(room, 20_000)
    server = Server(path, "--handles", "2", "--drain", "1")
    through = "/route?source=1&target=2000&stops=" + ",".join(["2000", "1"] * 49)
    others = server.send_all(*[table_to(n), through] * 150)
    if not soon(lambda: server.counted("diffuse_requests_waiting") > 250, 60):
        yield "no 250 requests wait"
    client = server.client()
    got = [server.ask("/route?source=1&target=2", client=client)[0] for _ in range(100)]
    waiting = server.counted("diffuse_requests_waiting")
    if set(got) != {200} or waiting < 200:
        yield f"{got.count(503)} of 100 routes are refused, and {waiting} requests wait when the last one is answered"
    for one in others:
        one.close()
    yield from server.ends()


def idle_make_room():
    """Idle connections make room at once: six hundred new ones, of which each then stays idle, are all answered."""
    allow_descriptors(8192)
    server, refused, kept = Server(FIVE, "--connections", "200"), 0, []
    for _ in range(600):
        one = server.connect()
        one.sendall(GET.replace(b"/health", ROUTE.encode()))
        refused += statuses(reply_on(one)) != [200]
        kept.append(one)
    if refused:
        yield f"{refused} of 600 are refused"
    for one in kept:
        one.close()
    yield from server.ends()


def opened_ahead():
    """Connections that were opened ahead are no slow ones: after two seconds each is answered."""
    server = Server(FIVE, "--slow", "8", "--read", "600")
    kept = [server.connect() for _ in range(50)]
    time.sleep(2)
    got = []
    for one in kept:
        one.sendall(GET)
        got += statuses(reply_on(one))
    if got != [200] * 50:
        yield f"{got.count(200)} of 50 are answered"
    yield from server.ends()


def client_leaves(room):
    """Tables whose clients have left are searched for no longer: ten take less than half of the processor's time that they would take."""
    path, n = street(room, 300_000)
    server = Server(path, "--handles", "1")
    table = f"/table?sources={','.join(map(str, range(1, 101)))}&targets={n}"
    status, whole = server.cost(lambda: server.ask(table)[0])
    others = server.send_all(*[table] * 10)
    soon(lambda: not server.is_quiet())
    for one in others:
        one.close()
    is_quiet, left = server.cost(lambda: soon(server.is_quiet))
    if not is_quiet or status != 200 or left > 5 * whole:
        yield f"tables go on for which nobody waits: {left} s of the processor, and a whole one takes {whole}"
    yield from server.ends()


def slow_readers(room):
    """Sixty readers that do not read their trees of 2.7 MB leave the server in bounded memory."""
    path = Path(room) / "chain.gr"
    path.write_text(chain_of(100000, 1))
    server, kept = Server(path, "--handles", "4", "--write", "600", "--slow", "100"), []
    for _ in range(60):
        kept.append(socket.socket())
        # Otherwise the system's buffers hold most of a reply.
        kept[-1].setsockopt(socket.SOL_SOCKET, socket.SO_RCVBUF, 4096)
        kept[-1].connect(("127.0.0.1", server.port))
        kept[-1].sendall(b"GET /tree?sources=1&limit=100000 HTTP/1.1\r\nHost: here\r\n\r\n")
    if not soon(lambda: sum('"request": "GET /tree' in line for line in list(server.log)) == 60):
        yield "not each tree is logged"
    held = server.counted("diffuse_resident_bytes")
    for one in kept:
        one.close()
    if held > 160e6:
        yield f"{held / 1e6:.0f} MB are held"
    if not soon(lambda: server.ask("/tree?sources=1&limit=99999")[0] == 200):
        yield f"there is no room for a further tree: {server.log[-2:]}"
    yield from server.ends()


def many_idle():
    """Three thousand idle connections take less of the processor in four seconds than two requests of each."""
    allow_descriptors(8192)
    server = Server(FIVE, "--connections", "4000", "--slow", "4000", "--idle", "600", "--read", "600")
    kept = [server.connect() for _ in range(3000)]

    def ask_all():
        for one in kept:
            one.sendall(GET)
            reply_on(one)

    _, asked = server.cost(ask_all)
    _, spent = server.costs([lambda: time.sleep(4)] * 2)
    if spent > 2 * asked:
        yield f"{spent:.3f} s of the processor, and a request of each takes {asked:.3f}"
    for one in kept:
        one.close()
    yield from server.ends()
