"""server/openapi.json beside what the server really answers, and the example of a proxy."""
import gzip
import http.client
import json
import shutil
import subprocess
from pathlib import Path

from common import TOP
from http_features import ring
from http_requests import TOWN
from http_server import PATIENCE, Server, free_port, soon

FILE, PROXY = TOP / "server/openapi.json", TOP / "server/nginx.conf"
# For each path queries that together have each field; each has its answer.
QUERIES = {
    "/route": ["source=1&target=3", "source=1&target=3&stops=2&algebra=shortest&steps=true&geometry=geojson", "from=0,0&to=0.001,0.001&via=0.001,0&geometry=polyline",
               "source=1&target=3&algebra=within&limit=5", "source=5&target=1"],
    "/table": ["sources=1,2&targets=3&sums=true&algebra=within&limit=100", "from=0,0;0.001,0&to=0.001,0.001", "sources=5&targets=1&sums=true"],
    "/tree": ["sources=1&limit=30", "from=0,0&limit=30", "sources=1&limit=30&format=geojson", "sources=1&limit=30&format=hull"],
    "/nearest": ["at=0,0"], "/roads": ["box=-1,-1,1,1&pixels=100"], "/health": [""], "/metrics": [""], "/": [""], "/openapi.json": [""]}


class Schemas:
    """The schemas of the file, and what is wrong with a value by one of them."""

    def __init__(self, file):
        self.all = file["components"]["schemas"]

    def wrong(self, schema, value, where="$"):
        if "$ref" in schema:
            return self.wrong(self.all[schema["$ref"].rpartition("/")[2]], value, where)
        if "oneOf" in schema:
            matching = [it for it in schema["oneOf"] if not self.wrong(it, value, where)]
            return [] if len(matching) == 1 else [f"{where}: {len(matching)} of {len(schema['oneOf'])} schemas"]
        if value is None:
            return [] if schema.get("nullable") else [f"{where}: null"]
        kinds = {"object": dict, "array": list, "string": str, "integer": int, "number": (int, float), "boolean": bool}
        if not isinstance(value, kinds[schema["type"]]) or isinstance(value, bool) != (schema["type"] == "boolean"):
            return [f"{where}: {value!r} is no {schema['type']}"]
        return self.wrong_in(schema, value, where)

    def wrong_in(self, schema, value, where):
        if schema["type"] == "array":
            short = not schema.get("minItems", 0) <= len(value) <= schema.get("maxItems", len(value))
            return [f"{where}: {len(value)} items"] * short + [it for i, item in enumerate(value) for it in self.wrong(schema["items"], item, f"{where}[{i}]")]
        if schema["type"] == "object":
            known, found = schema.get("properties", {}), []
            found += [f"{where}: no {name}" for name in schema.get("required", []) if name not in value]
            for name, item in value.items():
                # The second graph's name in these tests.
                within = known.get("NAME" if name == "metres" and "metres" not in known else name)
                if within is None and not schema.get("additionalProperties", True):
                    found.append(f"{where}: {name} is not in the file")
                found += self.wrong(within, item, f"{where}.{name}") if within else []
            return found
        if "enum" in schema and value not in schema["enum"] or value != "" and schema.get("minimum", value) > value:
            return [f"{where}: {value!r}"]
        return []


def as_described(room):
    """Each path and field of the file is served, no other is, and each answer is as its schema says."""
    file, server = json.loads(FILE.read_text()), ring(room, "--unit", "m")
    schemas = Schemas(file)
    if server.ask("/openapi.json") != (200, file):
        yield "the server gives another file"
    if set(file["paths"]) != set(QUERIES):
        yield f"paths: {set(file['paths']) ^ set(QUERIES)}"
    for path, item in file["paths"].items():
        fields = {it["name"] for it in item["get"].get("parameters", [])}
        tried = {field.partition("=")[0] for query in QUERIES[path] for field in query.split("&") if field}
        if tried != fields:
            yield f"{path}: fields {fields ^ tried} are not tried, or not in the file"
        content = item["get"]["responses"]["200"]["content"]
        for query in QUERIES[path]:
            status, reply = server.ask(f"{path}?{query}")
            if status != 200:
                yield f"{path}?{query}: {status} {reply}"
            elif "application/json" in content:
                yield from (f"{path}?{query}: {it}" for it in schemas.wrong(content["application/json"]["schema"], reply))
            elif not isinstance(reply, str):
                yield f"{path}: {reply}"
        status, reply = server.ask(f"{path}?no_such_field=1")
        if status != 400 or schemas.wrong(schemas.all["Error"], reply):
            yield f"{path}: a field that is not in the file: {status} {reply}"
        if "post" in item and server.ask(path, json.dumps({"no_such_field": 1}))[0] != 400:
            yield f"{path}: a body is not read"
    for path in ("/route?source=1&target=9", "/nowhere", "/route?from=90,0&target=1"):
        status, reply = server.ask(path)
        if status != 404 or schemas.wrong(schemas.all["Error"], reply):
            yield f"{path}: {status} {reply}"
    version = subprocess.run([Server.program, "--version"], stdout=subprocess.PIPE, text=True).stdout.split()[1]
    if file["info"]["version"] != version:
        yield f"the file is of {file['info']['version']}, and the server of {version}"
    yield from server.ends()


def behind_a_proxy(room):
    """The example of a proxy, run: replies are compressed, the client's address is in the log, and the server's errors come through."""
    if not shutil.which("nginx"):
        print("nginx is not installed: not run", flush=True)
        return
    server, port, folder = Server(TOWN, "--slow", "1024"), free_port(), Path(room) / "proxy"
    folder.mkdir()
    text = PROXY.read_text().replace("127.0.0.1:8080", f"127.0.0.1:{server.port}").replace("listen 80;", f"listen 127.0.0.1:{port};")
    (folder / "site.conf").write_text(text)
    rooms = " ".join(f"{name}_temp_path {folder}/{name};" for name in ("client_body", "proxy", "fastcgi", "uwsgi", "scgi"))
    (folder / "nginx.conf").write_text(
        f"pid {folder}/pid;\nerror_log {folder}/errors;\ndaemon off;\nevents {{}}\nhttp {{ access_log off; {rooms} include {folder}/site.conf; }}\n")
    folder.chmod(0o755)
    run = subprocess.Popen(["nginx", "-p", folder, "-c", folder / "nginx.conf"], stderr=subprocess.PIPE, text=True)
    try:
        yield from through(server, port, run)
    finally:
        run.terminate()
        run.wait(PATIENCE)
    yield from server.ends()


def through(server, port, run):
    def ask(path, body=None, **heads):
        one = http.client.HTTPConnection("127.0.0.1", port, timeout=PATIENCE)
        one.request("GET" if body is None else "POST", path, body, heads)
        reply = one.getresponse()
        return reply, reply.read()

    def is_up():
        try:
            return ask("/health")[0].status == 200
        except OSError:
            return False

    if not soon(is_up):
        yield f"nginx does not answer: {run.poll()} {run.stderr.read() if run.poll() is not None else ''}"
        return
    reply, text = ask("/tree?sources=1&limit=100000", **{"Accept-Encoding": "gzip"})
    plain = server.ask("/tree?sources=1&limit=100000")[1]
    if reply.getheader("Content-Encoding") != "gzip" or json.loads(gzip.decompress(text)) != plain:
        yield f"not compressed: {reply.status} {reply.headers}"
    if ask("/table", b'{"sources": [1], "targets": [4]}')[0].status != 200 or ask("/route?source=0&target=1")[0].status != 404:
        yield "a body, or an error, does not come through"
    if not any(json.loads(line).get("forwarded") == "127.0.0.1" for line in server.log if "forwarded" in line):
        yield f"no client's address: {server.log[-1]}"
    if ask("/metrics")[0].status != 403:
        yield "the world can read /metrics"
