"""Single requests to the server: what is answered, what is refused, and heads that a proxy could read otherwise."""
import hashlib
import json
import random
import re

from common import TOP
from http_server import Server, statuses

FIVE, TOWN = TOP / "examples/five_vertices.gr", TOP / "examples/small_town.gr"

# By hand: a request, and its status and a part of its reply.
BY_HAND = [
    ("/route?source=1&target=4", 200, {"source": 1, "target": 4, "value": 8, "hops": 3, "route": [1, 3, 2, 4]}),
    ("/route?source=1&target=5", 200, {"source": 1, "target": 5, "value": None, "hops": None, "route": None}),
    ("/route?source=1&target=4&algebra=widest", 200, {"value": 4, "route": [1, 2, 4]}),
    ("/route?source=1&target=4&algebra=within&limit=7", 200, {"value": None}),
    ("/tree?sources=1&limit=5", 200, {"sources": [1], "limit": 5, "vertices": [[1, 0, 0, 0], [2, 3, 2, 3], [3, 1, 1, 1]]}),
    ("/tree?sources=4,5&limit=1", 200, {"vertices": [[4, 0, 0, 0], [5, 0, 0, 0]]}),
    ("/table?sources=1,4&targets=2,4,5", 200, {"values": [[3, 8, None], [None, 0, None]]}),
    ("/health", 200, {"status": "ok", "vertices": 5, "arcs": 7}),
    ("/route?source=1&target=6", 404, {"error": "NoVertex"}),
    ("/table?sources=1&targets=6", 404, {"error": "NoVertex"}),
    ("/route?source=1&target=4&algebra=fastest", 400, {"error": "NoAlgebra"}),
    ("/route?source=1&target=4&limit=7", 400, {"error": "NoAlgebra"}),
    ("/route?source=1", 400, {"error": "Refused"}),
    ("/route?source=-1&target=4", 404, {"error": "NoVertex"}),
    ("/route?source=18446744073709551616&target=4", 404, {"error": "NoVertex"}),
    ("/route?source=1,2&target=4", 400, {"error": "NotANumber"}),
    ("/route?source=one&target=4", 400, {"error": "NotANumber"}),
    ("/route?source=1&target=4%00", 400, {"error": "NotANumber"}),
    ("/route?source=1&target=", 400, {"error": "NotANumber"}),
    ("/tree?sources=1&limit=high", 400, {"error": "NoAlgebra"}),
    ("/tree?sources=1&limit=9223372036854775809", 400, {"error": "NoAlgebra"}),
    ("/tree?sources=1" + ",1" * 100 + "&limit=5", 400, {"error": "Refused"}),
    ("/nowhere", 404, {"error": "Refused"}),
    ("/nearest?at=9,47", 400, {"error": "Refused"}),
    ("/route?source=1&target=4&geometry=geojson", 400, {"error": "Refused"}),
    # A field that nothing reads, or that is given twice, asks something other than what would be answered.
    ("/tree?sources=1&limit=5&algebra=hops", 400, {"error": "Refused"}),
    ("/route?source=1&target=4&algoritm=widest", 400, {"error": "Refused"}),
    ("/tree?sources=1&sources=2&limit=5", 400, {"error": "Refused"}),
    ("/health?deep=1", 400, {"error": "Refused"}),
]
BODIES = [
    (b'{"sources": [1], "targets": [4, 2]}', 200, {"values": [[8, 3]]}),
    (b'{"sources": 1, "targets": 4, "limit": null}', 200, {"values": [[8]]}),
    (b'{"sources": 1, "targets": 4, "algebra": ["hops"]}', 400, {"error": "NoAlgebra"}),
    (b'{"sources": [true], "targets": [4]}', 400, {"error": "NotANumber", "detail": "sources[0]: true is not a whole number"}),
    (b'{"sources": [null], "targets": [4]}', 400, {"error": "NotANumber", "detail": "sources[0]: null is not a whole number"}),
    (b'{"sources": [1], "targets": [4.0]}', 400, {"error": "NotANumber"}),
    (b'{"sources": [], "targets": [4]}', 400, {"error": "Refused"}),
    (b'{"sources": 1, "sources": 2, "targets": 4}', 400, {"error": "Refused"}),
    (b'{"sources": 1, "targets": 4, "\\u0000": 1}', 400, {"error": "Refused"}),
    (b'{"sources": ' + b"[" * 8000 + b"]" * 8000 + b', "targets": 4}', 400, {"error": "Refused"}),
    (b'{"sources": ' + b"[" * 9000 + b"]" * 9000 + b', "targets": 4}', 413, {"error": "Refused"}),
    (b"[1]", 400, {"error": "Refused"}),
    (b"{", 400, {"error": "Refused"}),
    (b"\xff", 400, {"error": "Refused"}),
]
HOST = b"Host: here\r\n"
# The first is a request, the second the statuses of all replies that it may have. After a refused head nothing more is read.
HEADS = [
    (b"GET /health HTTP/1.1\r\n" + HOST + b"\r\n", [200]),
    (b"GET http://here/health HTTP/1.1\r\n" + HOST + b"\r\n", [200]),
    (b"GET /health HTTP/1.1\r\n" + HOST + b"\r\n" + b"GET /health HTTP/1.1\r\n" + HOST + b"\r\n", [200, 200]),
    (b"GET /health HTTP/1.1\r\n" + HOST + b"Connection: Upgrade, close\r\n\r\n" + b"GET /health HTTP/1.1\r\n" + HOST + b"\r\n", [200]),
    (b"POST /table HTTP/1.1\r\n" + HOST + b"Content-Length : 35\r\n\r\nGET /health HTTP/1.1\r\nHost: here\r\n\r\n", [400]),
    (b"POST /table HTTP/1.1\r\n" + HOST + b"Transfer-Encoding : chunked\r\n\r\n0\r\n\r\nGET /health HTTP/1.1\r\nHost: a\r\n\r\n", [400]),
    (b"POST /table HTTP/1.1\r\n" + HOST + b"no colon\r\nContent-Length: 2\r\n\r\n{}GET /health HTTP/1.1\r\nHost: a\r\n\r\n", [400]),
    (b"POST /table HTTP/1.1\r\n" + HOST + b"Content-Length: 2\r\nContent-Length: 37\r\n\r\n{}GET /health HTTP/1.1\r\nHost: here\r\n\r\n", [400]),
    (b"POST /table HTTP/1.1\r\n" + HOST + b"Content-Length: 5\r\nTransfer-Encoding: chunked\r\n\r\n0\r\n\r\n", [400]),
    (b"POST /table HTTP/1.1\r\n" + HOST + b"Transfer-Encoding: chunked\r\n\r\n0\r\n\r\nGET /health HTTP/1.1\r\nHost: a\r\n\r\n", [411]),
    (b"POST /table HTTP/1.1\r\n" + HOST + b"Transfer-Encoding: gzip, chunked\r\n\r\n0\r\n\r\n", [411]),
    (b"POST /table HTTP/1.1\r\n" + HOST + b"Content-Length: -5\r\n\r\n", [400]),
    (b"POST /table HTTP/1.1\r\n" + HOST + b"Content-Length: 5x\r\n\r\n", [400]),
    (b"POST /table HTTP/1.1\r\n" + HOST + b"Content-Length: 1000000\r\n\r\n", [413]),
    (b"POST /table HTTP/1.1\r\n" + HOST + b"Content-Length: 99999999999999999999999\r\n\r\n", [413]),
    (b"GET /health HTTP/1.1\r\n" + HOST + HOST + b"\r\n", [400]),
    (b"GET /health HTTP/1.1\r\n" + HOST + b"X: a\rContent-Length: 5\r\n\r\n", [400]),
    (b"GET /health HTTP/1.1\r\n\r\n", [400]),
    (b"PUT /health HTTP/1.1\r\n" + HOST + b"\r\n", [405]),
    (b"DELETE /route HTTP/1.1\r\n" + HOST + b"Content-Length: 2\r\n\r\n{}", [405]),
    (b"BREW / HTTP/1.1\r\n" + HOST + b"\r\n", [501]),
    (b"GET /" + b"x" * 70000 + b" HTTP/1.1\r\n" + HOST + b"\r\n", [414]),
    (b"GET /health HTTP/1.1\r\n" + HOST + b"X: " + b"x" * 70000 + b"\r\n\r\n", [431]),
    (b"GET /health HTTP/1.0\r\n\r\n", [200]),
]
# What is no HTTP/1 has no reply but a refusal, and never one without a status line.
NO_HTTP = [b"GET /health X\r\n\r\n", b"GET /health\r\n\r\n", b"GET\n\n", b"\0\xff\n\n", b"\r\n" * 50, b"GET //[ HTTP/1.1\r\n\r\n", b"GET /health HTTP/2.0\r\n\r\n",
           b"\x16\x03\x01\x02\x00\x01\x00\x01\xfc\x03\x03", b"PRI * HTTP/2.0\r\n\r\nSM\r\n\r\n"]


def has(wanted, got):
    return all(got.get(name, "none") == value for name, value in wanted.items())


def by_hand():
    """Each path by hand, and what is refused; then each request is counted and logged once."""
    server = Server(FIVE)
    client = server.client()
    for path, status, part in BY_HAND:
        got = server.ask(path, client=client)
        if got[0] != status or not has(part, got[1]):
            yield f"{path}: {got}"
    for body, status, part in BODIES:
        got = server.ask("/table", body, client)
        if got[0] != status or not has(part, got[1]):
            yield f"/table with {body[:80]}: {got}"
    asked = len(BY_HAND) + len(BODIES)
    counted = server.counted("diffuse_requests_total")
    if counted != asked:
        yield f"{counted} requests are counted, of {asked}"
    long = server.ask("/table", b'{"sources": "' + b"x" * 16000 + b'", "targets": 4}', client)
    if long[0] != 400 or len(json.dumps(long[1])) > 300:
        yield f"a long text is sent back: {len(json.dumps(long[1]))} bytes"
    client.close()
    yield from server.ends()
    if sum('"request"' in line for line in server.log) != asked + 2:
        yield f"not a line a request: {server.log}"


def heads():
    """Heads that are right, that a proxy could read otherwise, and that are no HTTP."""
    server = Server(FIVE)
    for data, wanted in HEADS:
        got = server.raw(data, ends=True)
        # libmicrohttpd 0.9.75 writes the head of its refusals of a Content-Length twice before it closes.
        if statuses(got) != wanted and set(statuses(got)) != set(wanted) - {200}:
            yield f"{data[:90]}: {statuses(got)} and not {wanted}: {got[:200]}"
    for data in NO_HTTP:
        got = server.raw(data, ends=True)
        if got and (not got.startswith(b"HTTP/1.1 ") or not all(400 <= it < 600 for it in statuses(got))):
            yield f"{data[:40]}: {got[:200]}"
    cut = b'POST /route?source=1&target=2 HTTP/1.1\r\nHost: here\r\nContent-Length: 50\r\n\r\n{"'
    for data in (cut, cut[:-2], b"GET /health HTTP/1.1\r\nHost: here\r\n"):
        got = server.raw(data, ends=True)
        if 200 in statuses(got):
            yield f"{data[:60]} is cut off, and answered as if whole: {got[:200]}"
    yield from server.goes_on()


def methods():
    """HEAD as GET without a body, OPTIONS, and the headers by which pages of another origin may ask."""
    server = Server(FIVE, "--cors", "https://maps.example")
    client = server.client()
    client.request("HEAD", "/route?source=1&target=4")
    head = client.getresponse()
    if head.status != 200 or head.read() or int(head.getheader("Content-Length")) < 60:
        yield f"HEAD: {head.status} {head.headers}"
    client.request("OPTIONS", "/route", headers={"Origin": "https://maps.example", "Access-Control-Request-Method": "POST"})
    options = client.getresponse()
    options.read()
    if options.status != 204 or "POST" not in options.getheader("Allow") or options.getheader("Access-Control-Allow-Origin") != "https://maps.example":
        yield f"OPTIONS: {options.status} {options.headers}"
    client.request("PUT", "/route", b"{}")
    other = client.getresponse()
    if other.status != 405 or sorted(other.getheader("Allow").split(", ")) != ["GET", "HEAD", "OPTIONS", "POST"]:
        yield f"PUT: {other.status} {other.headers}"
    plain = Server(FIVE)
    if b"Access-Control" in plain.raw(HEADS[0][0], ends=True):
        yield "CORS without being asked for"
    yield from server.ends()
    yield from plain.ends()


def mutated(count):
    """Requests with bytes changed, left out, doubled or cut: each has replies or none, and the server goes on."""
    server, lot, server_errors = Server(FIVE), random.Random(1), 0
    seeds = [data for data, _ in HEADS if len(data) < 1000]
    for _ in range(count):
        data = bytearray(lot.choice(seeds))
        for _ in range(lot.randint(1, 4)):
            at, kind = lot.randrange(len(data)), lot.randrange(4)
            if kind == 0:
                data[at] = lot.randrange(256)
            elif kind == 1:
                del data[at : at + lot.randint(1, 8)]
            elif kind == 2:
                data[at:at] = data[at : at + lot.randint(1, 20)]
            else:
                del data[at:]
            data = data or bytearray(b"G")
        got = server.raw(bytes(data), ends=True, wait=0.2)
        if got and not got.startswith(b"HTTP/1.1 "):
            yield f"{bytes(data)}: {got[:100]}"
        server_errors += sum(it in (500, 502, 503) for it in statuses(got))
    if server_errors:
        yield f"{server_errors} errors of the server, {server.log[-3:]}"
    yield from server.goes_on()
    if not all(json.loads(line) for line in server.log):
        yield "a line that is no JSON"


def which_graph():
    """/health says which file is served, by its checksum."""
    server = Server(FIVE)
    graph = server.ask("/health")[1].get("graph", {})
    if graph.get("sha256") != hashlib.sha256(FIVE.read_bytes()).hexdigest() or graph.get("file") != str(FIVE) or not re.match(r"20\d\d-\d\d-\d\dT", graph.get("read", "")):
        yield f"{graph}"
    server.end()
    large = Server(TOWN)
    if large.ask("/health")[1]["graph"]["sha256"] != hashlib.sha256(TOWN.read_bytes()).hexdigest():
        yield "another checksum of the town"
    large.end()
