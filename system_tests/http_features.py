"""Places, parts, streets and what operators use, by hand and beside their definitions."""
import json
import math
import os
import pwd
import random
import re
import signal
import socket
import subprocess
import time
from pathlib import Path

from http_places import written
from http_requests import FIVE, has
from http_server import PATIENCE, Server, free_port

# Four vertices in a ring and one that leads out of it, a thousandth of a degree apart.
RING = "p sp 5 6\na 1 2 10\na 2 3 20\na 3 4 30\na 4 1 40\na 4 5 5\na 1 3 100\n"
RING_METRES = "p sp 5 6\na 1 2 1\na 2 3 2\na 3 4 3\na 4 1 4\na 4 5 5\na 1 3 6\n"
RING_PLACES = "v 1 0 0\nv 2 1000 0\nv 3 1000 1000\nv 4 0 1000\nv 5 -1000 1000\n"
RING_NAMES = "1 High Street\n2 High Street\n4 Low Street\n6 Grosse Gaß\n"
METRE = 6371008.8 * math.pi / 180


def ring(room, *words):
    return Server(written(room, "ring.gr", RING), "--places", written(room, "ring.co", RING_PLACES), "--names", written(room, "ring.names", RING_NAMES),
                  "--also", f"metres={written(room, 'ring.m.gr', RING_METRES)}", *words)


def features(room):
    """Routes through others, places everywhere, snaps, streets, sums of tables, and trees as points and hulls: worked out by hand."""
    server = ring(room, "--unit", "m")
    far = round(0.0001 * METRE, 1)
    legs = [{"value": 30, "hops": 2}, {"value": 30, "hops": 1}]
    steps = [{"street": "High Street", "value": 30, "hops": 2, "metres": 3}, {"street": "", "value": 30, "hops": 1, "metres": 3}]
    for path, status, wanted in (
            ("/route?source=1&target=4&stops=3", 200, {"value": 60, "hops": 3, "route": [1, 2, 3, 4], "legs": legs, "metres": 6}),
            ("/route?source=1&target=1&stops=2,4", 200, {"value": 100, "hops": 4, "route": [1, 2, 3, 4, 1]}),
            ("/route?source=1&target=4&stops=3&algebra=hops", 200, {"value": 2, "route": [1, 3, 4], "legs": [{"value": 1, "hops": 1}] * 2}),
            ("/route?source=1&target=4&stops=3&algebra=within&limit=59", 200, {"value": None, "route": None}),
            ("/route?source=1&target=4&stops=3&algebra=within&limit=60", 200, {"value": 60}),
            ("/route?source=1&target=4&stops=5", 200, {"value": None}),
            ("/route?source=1&target=4&stops=3&algebra=widest", 400, {}),
            ("/route?from=0.0001,0&to=0.001,0.0011&via=0.001,0", 200, {"source": 1, "target": 3, "value": 30, "snap": [far, 0.0, far], "route": [1, 2, 3]}),
            ("/route?from=0,0&to=0,0&via=0.001,0;0.001,0.001", 200, {"value": 100, "snap": [0.0] * 4}),
            ("/route?source=1&to=0.001,0", 200, {"snap": [None, 0.0]}), ("/route?source=1&target=2", 200, {"snap": "none"}),
            ("/route?source=1&target=4&steps=true", 200, {"steps": steps}), ("/route?source=1&target=4&steps=false", 200, {"steps": "none"}),
            ("/route?source=1&target=4&steps=yes", 400, {}), ("/route?source=1&target=4&steps=true&algebra=widest", 400, {}),
            ("/table?sources=1,2&targets=3,5&sums=true", 200, {"values": [[30, 65], [20, 55]], "metres": [[3, 11], [2, 10]]}),
            ("/table?from=0,0;0.001,0&to=0.001,0.001", 200, {"sources": [1, 2], "targets": [3], "values": [[30], [20]], "snap": [0.0] * 3}),
            ("/table?sources=1&from=0,0&targets=2", 400, {}), ("/table?sources=1&targets=2&sums=true&algebra=hops", 400, {}),
            ("/tree?from=0,0&limit=30", 200, {"sources": [1], "vertices": [[1, 0, 0, 0], [2, 10, 1, 1], [3, 30, 2, 2]], "snap": [0.0]}),
            ("/tree?from=0,0&limit=10&format=geojson", 200, {"features": [point(1, 0, 0, 0, [0.0, 0.0]), point(2, 10, 1, 1, [0.001, 0.0])]}),
            ("/tree?sources=1&limit=1000&format=hull", 200, {"properties": {"limit": 1000, "vertices": 5},
             "geometry": {"type": "Polygon", "coordinates": [[[-0.001, 0.001], [0.0, 0.0], [0.001, 0.0], [0.001, 0.001], [-0.001, 0.001]]]}}),
            ("/tree?sources=1&limit=10&format=kml", 400, {}), ("/v1/route?source=1&target=2", 200, {"value": 10}), ("/v1/nowhere", 404, {}), ("/v1", 404, {}),
            ("/health", 200, {"unit": "m", "largest_part": 4, "also": "metres"})):
        got = server.ask(path)
        if got[0] != status or not has(wanted, got[1]):
            yield f"{path}: {got}"
    for body, wanted in (({"from": [[0, 0], [0.001, 0]], "targets": [3, [0, 0.001]]}, [[30, 60], [20, 50]]), ({"sources": [[0, 0], 2], "to": [0.001, 0.001]}, [[30], [20]])):
        got = server.ask("/table", json.dumps(body))
        if got[0] != 200 or got[1]["values"] != wanted:
            yield f"{body}: {got}"
    yield from server.ends()


def point(vertex, value, hops, parent, place):
    return {"type": "Feature", "geometry": {"type": "Point", "coordinates": place}, "properties": {"vertex": vertex, "value": value, "hops": hops, "parent": parent}}


def parallel_arcs(room):
    """Of parallel arcs a route takes those of the least weight, and of these the one with the least second weight, wherever it is listed."""
    arcs = [(5, 9), (5, 4), (5, 7), (9, 1)]
    steps = [{"street": "Street 4", "value": 5, "hops": 1, "metres": 4}, {"street": "Street 6", "value": 4, "hops": 1, "metres": 6}]
    for first in range(4):
        listed = [*arcs[first:], *arcs[:first], (4, 6)]
        texts = ["p sp 3 5\n" + "".join(f"a {1 if k < 4 else 2} {2 if k < 4 else 3} {arc[kind]}\n" for k, arc in enumerate(listed)) for kind in (0, 1)]
        names = "".join(f"{k} Street {second}\n" for k, (_, second) in enumerate(listed, 1))
        server = Server(written(room, "parallel.gr", texts[0]), "--also", f"metres={written(room, 'parallel.m.gr', texts[1])}", "--names", written(room, "parallel.names", names))
        got = server.ask("/route?source=1&target=3&steps=true")[1], server.ask("/table?sources=1&targets=2,3&sums=true")[1]
        if not has({"value": 9, "metres": 10, "steps": steps}, got[0]) or not has({"values": [[5, 9]], "metres": [[4, 10]]}, got[1]):
            yield f"{listed}: {got}"
        yield from server.ends()


def far_places(room):
    """A place that is too far is refused by name, a number of hundreds of digits is no longitude, and metres are those of great circles."""
    server = ring(room, "--snap-limit", "300")
    for path in ("/route?from=0,0.005&target=1", "/table?sources=1&to=0,0;0.5,0.5", "/tree?from=150,-60&limit=1"):
        status, reply = server.ask(path)
        if status != 404 or reply["error"] != "TooFar" or "metres away" not in reply["detail"]:
            yield f"{path}: {status} {reply}"
    if server.ask("/nearest?at=1" + "0" * 400 + ",0")[0] != 400:
        yield "a longitude of 401 digits is taken"
    for longitude, latitude in ((170.5, 0.25), (-90, 80), (0.002, -0.003), (30, 60)):
        got = server.ask(f"/nearest?at={longitude},{latitude}")[1]
        x, y = got["geometry"]["coordinates"]
        up, across = (math.sin(math.radians(b - a) / 2) ** 2 for a, b in ((latitude, y), (longitude, x)))
        metres = 2 * 6371008.8 * math.asin(math.sqrt(up + math.cos(math.radians(y)) * math.cos(math.radians(latitude)) * across))
        if abs(got["metres"] - metres) > 0.1:
            yield f"{longitude},{latitude}: {got['metres']} and not {metres}"
    server.end()


def parts(room):
    """Parts of random graphs, beside reaching by definition: how many, and how large the largest is; and no place is snapped out of a large one."""
    lot = random.Random(5)
    for turn in range(30):
        n = lot.randint(1, 12)
        arcs = [(lot.randint(1, n), lot.randint(1, n)) for _ in range(lot.randint(0, 2 * n))]
        graph = written(room, "parts.gr", f"p sp {n} {len(arcs)}\n" + "".join(f"a {a} {b} 1\n" for a, b in arcs))
        places = written(room, "parts.co", "".join(f"v {v} {1000 * v} 0\n" for v in range(1, n + 1)))
        reach = {v: {v} for v in range(1, n + 1)}
        for _ in range(n):
            for a, b in arcs:
                for known in reach.values():
                    if a in known:
                        known.add(b)
        found = {frozenset(u for u in reach[v] if v in reach[u]) for v in reach}
        wanted = f"{n} vertices, {len(found)} parts in which each reaches each; the largest has {max(map(len, found))}\n"
        ran = subprocess.run([Server.program, graph, "--parts"], stdout=subprocess.PIPE, text=True)
        if ran.returncode != 0 or ran.stdout != wanted:
            yield f"{arcs} of {n}: {ran.stdout} and not {wanted}"
        if turn >= 5 or 2 * max(map(len, found)) < n:
            continue
        server = Server(graph, "--places", places)
        got = {server.ask(f"/nearest?at={v / 1000},0")[1]["vertex"] for v in reach}
        if frozenset(got) not in found or len(got) != max(map(len, found)):
            yield f"{arcs} of {n}: places are snapped to {got}"
        server.end()


def roads_of_a_box(room):
    """The roads of a box: each is on one line, a smaller box has those that meet it, and thinned lines keep their ends."""
    n = 400
    arcs = sorted({(v, u) for v in range(1, n + 1) for u in (v + 1, v + 20) if u <= n and not (u == v + 1 and v % 20 == 0)})
    lot = random.Random(3)
    arcs = [arc for arc in arcs if lot.random() < 0.7]
    at = {v: (10 * ((v - 1) % 20) * 100, 10 * ((v - 1) // 20) * 100) for v in range(1, n + 1)}
    server = Server(written(room, "box.gr", f"p sp {n} {len(arcs)}\n" + "".join(f"a {a} {b} 1\n" for a, b in arcs)),
                    "--places", written(room, "box.co", "".join(f"v {v} {x} {y}\n" for v, (x, y) in at.items())))
    vertex = {place: v for v, place in at.items()}

    def lines(box, pixels=100000):
        reply = server.ask(f"/roads?box={box}&pixels={pixels}")[1]
        return [[vertex[place] for place in decoded(line)] for line in reply["lines"]], reply["complete"]

    drawn, complete = lines("-1,-1,1,1")
    steps = [tuple(sorted(step)) for line in drawn for step in zip(line, line[1:])]
    if not complete or sorted(steps) != sorted(arcs):
        yield f"{len(steps)} roads are drawn, of {len(arcs)}"
    box = (4500, 4500, 9500, 9500)
    some = lines(",".join(str(it / 1e6) for it in box))[0]
    wanted = [line for line in drawn if all(min(p[i] for p in map(at.get, line)) <= box[i + 2] and max(p[i] for p in map(at.get, line)) >= box[i] for i in (0, 1))]
    if some != wanted:
        yield f"{len(some)} lines meet the box, and not {len(wanted)}"
    thin = lines("-0.02,-0.02,0.02,0.02", 10)[0]
    if not all([line[0], line[-1]] in [[it[0], it[-1]] for it in drawn] for line in thin) or sum(map(len, thin)) >= sum(map(len, drawn)):
        yield "lines are not thinned"
    for query in ("box=1,2,3", "box=1,2,3,x", "box=1,2,3,400", "box=0,0,1,1&pixels=0", ""):
        if server.ask(f"/roads?{query}")[0] != 400:
            yield query
    server.end()


def many_roads(room):
    """Of more roads than a page is to draw the answer has those of twenty thousand points, and says that they are not all."""
    n = 22_000
    graph = written(room, "many.gr", f"p sp {n} {n // 2}\n" + "".join(f"a {v} {v + 1} 1\n" for v in range(1, n, 2)))
    server = Server(graph, "--places", written(room, "many.co", "".join(f"v {v} {100 * (v % 200)} {100 * (v // 200)}\n" for v in range(1, n + 1))))
    reply = server.ask("/roads?box=-1,-1,1,1&pixels=100000")[1]
    if reply["complete"] or len(reply["lines"]) != 10_000:
        yield f"{len(reply['lines'])} roads are drawn, complete: {reply['complete']}"
    server.end()


def decoded(text):
    """The places of an encoded polyline of five digits, in millionths of a degree."""
    bits = shift = 0
    numbers, sums, places = [], [0, 0], []
    for char in text:
        bits |= ((ord(char) - 63) & 31) << shift
        shift += 5
        if ord(char) - 63 < 32:
            numbers.append(~(bits >> 1) if bits & 1 else bits >> 1)
            bits = shift = 0
    for latitude, longitude in zip(numbers[::2], numbers[1::2]):
        sums = [sums[0] + longitude, sums[1] + latitude]
        places.append((10 * sums[0], 10 * sums[1]))
    return places


def bad_names(room):
    """Files of names that do not belong to the graph are refused, with their line."""
    graph = written(room, "ring.gr", RING)
    for text, said in (("7 A\n", "line 1"), ("1 A\n0 B\n", "line 2"), ("A\n", "line 1"), ("1\n", "line 1")):
        names = written(room, "bad.names", text)
        ran = subprocess.run([Server.program, graph, "--port", "0", "--names", names], stderr=subprocess.PIPE, text=True, timeout=PATIENCE)
        if ran.returncode != 1 or not ran.stderr.startswith(f"diffuse-server: {names}: {said}"):
            yield f"{text!r}: status {ran.returncode}, {ran.stderr}"


def operators(room):
    """--version, a config file, --user, systemd's notices, a grace, metrics with HELP, and a log with the proxy's client and bytes."""
    ran = subprocess.run([Server.program, "--version"], stdout=subprocess.PIPE, text=True)
    if ran.returncode != 0 or not re.fullmatch(r"diffuse-server \d+\.\d+\.\d+\n", ran.stdout):
        yield f"--version: {ran.stdout}"
    yield from config_file(room)
    name = f"diffuse-test-{os.getpid()}"
    with socket.socket(socket.AF_UNIX, socket.SOCK_DGRAM) as notices:
        notices.bind("\0" + name)
        notices.settimeout(PATIENCE)
        os.environ["NOTIFY_SOCKET"] = "@" + name
        server = Server(FIVE, "--grace", "5", "--user", "nobody")
        del os.environ["NOTIFY_SOCKET"]
        if notices.recv(200) != b"READY=1":
            yield "no notice that it is ready"
        if f"Uid:\t{pwd.getpwnam('nobody').pw_uid}\t" not in Path(f"/proc/{server.run.pid}/status").read_text():
            yield "it stays the user that it was"
        server.send(signal.SIGHUP)
        if not re.fullmatch(rb"RELOADING=1\nMONOTONIC_USEC=\d+", notices.recv(200)) or notices.recv(200) != b"READY=1":
            yield "no notices of a reload"
        server.raw(b"GET /health HTTP/1.1\r\nHost: here\r\nX-Forwarded-For: 192.0.2.7, 10.0.0.1\r\n\r\n", ends=True)
        text = server.ask("/metrics")[1]
        yield from well_formed(text)
        began = time.monotonic()
        server.send(signal.SIGTERM)
        if notices.recv(200) != b"STOPPING=1":
            yield "no notice that it ends"
        if [server.ask(path)[0] for path in ("/health", "/route?source=1&target=4")] != [503, 200]:
            yield "in its grace it does not answer, or says that it is well"
        if server.wait() != 0 or time.monotonic() - began < 4.9:
            yield f"it ends after {time.monotonic() - began:.1f} s with {server.run.returncode}"
    lines = [json.loads(line) for line in server.log]
    if not any(line.get("forwarded") == "192.0.2.7, 10.0.0.1" and line["bytes"] > 100 for line in lines):
        yield f"the log has no client of a proxy: {lines}"


def config_file(room):
    port, config = free_port(), Path(room) / "server.conf"
    config.write_text(f"# by hand\ngraph = {FIVE}\nport = {port}\nhandles = 2 # two\nfactors\n\nqueue=7\n")
    run = subprocess.Popen([Server.program, "--config", config, "--queue", "8"], stderr=subprocess.PIPE, text=True)
    if f'"port": {port}' not in run.stderr.readline():
        yield "the file's port is not the server's"
    run.terminate()
    run.communicate()
    for text, named in (("porter = 1\n", "--porter"), ("port = x\n", "--port"), ("config = a\n", "--config"), ("factors = maybe\n", "--factors")):
        config.write_text(text)
        ran = subprocess.run([Server.program, FIVE, "--config", config], stderr=subprocess.PIPE, text=True)
        if ran.returncode != 2 or named not in ran.stderr:
            yield f"{text!r}: status {ran.returncode}, {ran.stderr}"
    ran = subprocess.run([Server.program, FIVE, "--user", "no such user"], stderr=subprocess.PIPE, text=True)
    if ran.returncode != 1 or "--user" not in ran.stderr:
        yield f"--user: status {ran.returncode}, {ran.stderr}"


def well_formed(text):
    """Each family has its HELP and TYPE once, before its lines; and those of the process are there."""
    helped, typed = re.findall(r"^# HELP (\S+) \S", text, re.M), re.findall(r"^# TYPE (\S+) (?:counter|gauge|histogram)$", text, re.M)
    named = {re.sub(r"_(bucket|sum|count)$", "", name) if "_seconds_" in name else name for name in re.findall(r"^(\w+)[ {]", text, re.M)}
    if helped != typed or len(set(helped)) != len(helped) or named - {"diffuse_request_seconds"} != set(helped) - {"diffuse_request_seconds"}:
        yield f"families: {sorted(named ^ set(helped))}"
    for name in ("diffuse_build_info{version=", "process_cpu_seconds_total ", "process_open_fds ", "process_resident_memory_bytes ", "process_start_time_seconds "):
        if "\n" + name not in "\n" + text:
            yield f"no {name}"
