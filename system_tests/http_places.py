"""Coordinates, geometry and a second graph, against the definition and by hand."""
import math
import os
import random
import subprocess
import sys
from pathlib import Path

from common import TOP
from http_requests import TOWN
from http_server import PATIENCE, Server

# The example of the format's documentation: (38.5, -120.2), (40.7, -120.95), (43.252, -126.453).
POLYLINE = "_p~iF~ps|U_ulLnnqC_mqNvxq`@"
CHAIN = "p sp 3 4\na 1 2 7\na 1 2 7\na 2 3 1\na 1 3 100\n"
CHAIN_METRES = "p sp 3 4\na 1 2 900\na 1 2 800\na 2 3 50\na 1 3 10\n"
CHAIN_PLACES = "c by hand\np aux sp co 3\nv 1 -120200000 38500000\nv 2 -120950000 40700000\nv 3 -126453000 43252000\n"


def written(room, name, text):
    path = Path(room) / name
    path.write_text(text)
    return path


def by_hand(room):
    """A route of three places, worked out by hand: its geometry in both forms, and the second graph's sum along it."""
    graph, metres, places = written(room, "chain.gr", CHAIN), written(room, "metres.gr", CHAIN_METRES), written(room, "chain.co", CHAIN_PLACES)
    server = Server(graph, "--places", places, "--also", f"metres={metres}")
    line = {"type": "LineString", "coordinates": [[-120.2, 38.5], [-120.95, 40.7], [-126.453, 43.252]]}
    for path, wanted in (("/route?source=1&target=3&geometry=geojson", {"value": 8, "hops": 2, "metres": 850, "geometry": line}),
                         ("/route?source=1&target=3&geometry=polyline", {"geometry": POLYLINE}),
                         ("/route?from=-120.3,38.4&to=-126,43", {"source": 1, "target": 3, "route": [1, 2, 3]}),
                         ("/route?source=3&target=1&geometry=geojson", {"value": None, "route": None}),
                         ("/route?source=2&target=2", {"value": 0, "metres": 0}),
                         ("/nearest?at=-121,41", {"vertex": 2, "geometry": {"type": "Point", "coordinates": [-120.95, 40.7]}})):
        reply = server.ask(path)[1]
        if any(reply.get(name, "none") != value for name, value in wanted.items()):
            yield f"{path}: {reply}"
    for path in ("/nearest?at=1", "/nearest?at=1,91", "/nearest?at=x,1", "/route?source=1&from=1,1&target=2", "/route?source=1&target=2&geometry=wkt"):
        if server.ask(path)[0] != 400:
            yield f"{path}: {server.ask(path)}"
    if "metres" in server.ask("/route?source=1&target=3&algebra=widest")[1]:
        yield "a sum along a route that is not chosen by a sum"
    health = server.ask("/health")[1]
    if health["places"]["box"] != [-126.453, 38.5, -120.2, 43.252] or health["metres"]["file"] != str(metres):
        yield f"{health}"
    server.end()


def bad_files(room):
    """Places and second graphs that do not belong to the graph are refused, with their line."""
    graph = written(room, "chain.gr", CHAIN)
    cases = [("--places", CHAIN_PLACES.replace("v 3", "v 2"), "line 5"), ("--places", CHAIN_PLACES.replace("v 3", "v 4"), "line 5"), ("--places", "v 1 0 0\n", "1 of 3"),
             ("--places", "v 1 0 90000001\n", "line 1"), ("--places", "v 1 0\n", "line 1"), ("--places", "v 1 0 zero\n", "line 1"),
             ("--also", CHAIN_METRES.replace("a 2 3", "a 3 2"), "other arcs"), ("--also", CHAIN_METRES.replace("p sp 3", "p sp 4"), "number of vertices"),
             ("--also", CHAIN_METRES + "a 1 1 1\n", "line 6")]
    for option, text, said in cases:
        other = written(room, "other", text)
        ran = subprocess.run([Server.program, graph, "--port", "0", option, f"metres={other}" if option == "--also" else other], stderr=subprocess.PIPE, text=True, timeout=PATIENCE)
        if ran.returncode != 1 or not ran.stderr.startswith(f"diffuse-server: {other}: ") or said not in ran.stderr:
            yield f"{option} with {text!r}: status {ran.returncode}, {ran.stderr}"


def nearest(room):
    """The nearest of 4,000 places, beside looking at all: also far from them, and where many are at one place."""
    lot = random.Random(1)
    for spread in (0, 500, 300000):
        points = [(9500000 + lot.randint(-spread, spread), 47100000 + lot.randint(-spread, spread)) for _ in range(4000)]
        places = written(room, "many.co", "".join(f"v {v} {x} {y}\n" for v, (x, y) in enumerate(points, 1)))
        server = Server(TOWN, "--places", places)
        client = server.client()
        for turn in range(100):
            far = (1, 2, 1000)[turn % 3]
            lon, lat = 9.5 + lot.uniform(-0.3, 0.3) * far / 6, max(-90, min(90, 47.1 + lot.uniform(-0.3, 0.3) * far / 6))
            east = math.cos(math.radians(lat))
            squares = [((x - lon * 1e6) * east) ** 2 + (y - lat * 1e6) ** 2 for x, y in points]
            if not -180 <= lon <= 180:
                continue
            vertex = server.ask(f"/nearest?at={lon!r},{lat!r}", client=client)[1]["vertex"]
            if squares[vertex - 1] > min(squares) * (1 + 1e-9):
                yield f"{lon},{lat} with {spread}: {vertex} and not {squares.index(min(squares)) + 1}"
        client.close()
        server.end()


def from_a_map(room):
    """A map of OpenStreetMap is served after one command: values are hundredths of a second, metres are those of the earth, and steps are its streets."""
    package = TOP / "bindings/python/src"
    if not (package / "diffuse/__main__.py").exists():
        print("the Python package writes no roads: not run", flush=True)
        return
    nodes = "".join(f'<node id="{i}" lat="0.0" lon="0.00{i}"/>' for i in range(1, 5))
    ways = "".join(f'<way id="{i}">{"".join(f"<nd ref={chr(34)}{node}{chr(34)}/>" for node in of)}<tag k="highway" v="residential"/><tag k="name" v="{name}"/></way>'
                   for i, of, name in ((1, (1, 2, 3), "High Street"), (2, (3, 4), "Low Street")))
    path, into = written(room, "small.osm", f'<osm version="0.6">{nodes}{ways}</osm>'), Path(room) / "roads"
    command = [sys.executable, "-m", "diffuse", "roads", path, into]
    ran = subprocess.run(command, env={**os.environ, "PYTHONPATH": str(package)}, stdout=subprocess.PIPE, stderr=subprocess.STDOUT, text=True, timeout=PATIENCE)
    if ran.returncode:
        yield f"status {ran.returncode}: {ran.stdout[-300:]}"
        return
    server = Server(f"{into}.gr", "--places", f"{into}.co", "--names", f"{into}.names", "--also", f"metres={into}.m.gr", "--unit", "cs")
    reply = server.ask("/route?from=0.001,0&to=0.004,0&steps=true")[1]
    streets = [(step["street"], step["hops"], step["metres"]) for step in reply["steps"]]
    # A thousandth of a degree of the equator is 111.2 metres.
    if streets != [("High Street", 2, 222), ("Low Street", 1, 111)] or reply["metres"] != 333 or not 2000 < reply["value"] < 12000:
        yield f"{reply}"
    yield from server.ends()
