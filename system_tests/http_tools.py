"""The server as other programs see it: ab, wrk, and the commands of its page; and the pictures of a browser."""
import os
import re
import shutil
import struct
import subprocess
import zlib
from importlib.machinery import SourceFileLoader
from pathlib import Path

from common import TOP
from http_places import written
from http_requests import TOWN
from http_server import PATIENCE, Server, free_port

PAGE = "server/README.md"
# For a load of one address on a busy machine.
PATIENT = ("--slow", "1024", "--read", "600")


def by_ab(*connections):
    """ab with kept connections and without: no request fails."""
    if not shutil.which("ab"):
        print("ab is not installed: not run", flush=True)
        return
    server = Server(TOWN, "--factors", "--queue", "1000", *PATIENT)
    for count in connections:
        for kept in (["-k"], []):
            command = ["ab", "-q", *kept, "-c", str(count), "-n", "2000", f"http://127.0.0.1:{server.port}/route?source=1&target=4000"]
            ran = subprocess.run(command, stdout=subprocess.PIPE, stderr=subprocess.STDOUT, text=True, timeout=PATIENCE)
            failed = re.search(r"Failed requests: +(\d+)", ran.stdout)
            if ran.returncode or "Non-2xx" in ran.stdout or not failed or failed[1] != "0":
                yield f"{count} connections {kept}: {ran.stdout}"
    yield from server.ends()


def by_wrk(room):
    """wrk with random pairs on 64 kept connections: no request fails."""
    if not shutil.which("wrk"):
        print("wrk is not installed: not run", flush=True)
        return
    server = Server(TOWN, "--factors", *PATIENT)
    script = "request = function() return wrk.format('GET', '/route?source=' .. math.random(4000) .. '&target=' .. math.random(4000)) end"
    command = ["wrk", "-c", "64", "-t", "2", "-d", "2s", "--timeout", "60s", "-s", written(room, "pairs.lua", script), f"http://127.0.0.1:{server.port}"]
    ran = subprocess.run(command, stdout=subprocess.PIPE, stderr=subprocess.STDOUT, text=True, timeout=PATIENCE)
    if ran.returncode or "Non-2xx" in ran.stdout or "Socket errors" in ran.stdout or not re.search(r"[1-9]\d* requests in", ran.stdout):
        yield ran.stdout
    yield from server.ends()


def pixels(path):
    """The colours of the points of a PNG of 8 bits a channel without interlacing."""
    data, at, parts = Path(path).read_bytes(), 8, b""
    while at < len(data):
        size, kind = struct.unpack(">I4s", data[at : at + 8])
        if kind == b"IHDR":
            width, height, depth, colour = struct.unpack(">IIBB", data[at + 8 : at + 18])
        parts += data[at + 8 : at + 8 + size] if kind == b"IDAT" else b""
        at += size + 12
    step, lines, rows = {2: 3, 6: 4}[colour], zlib.decompress(parts), []
    above, stride = bytearray(width * step), width * step + 1
    assert depth == 8
    for row in range(height):
        kind, line = lines[row * stride], bytearray(lines[row * stride + 1 : (row + 1) * stride])
        for i in range(len(line)):
            left, up, corner = (line[i - step] if i >= step else 0), above[i], (above[i - step] if i >= step else 0)
            near = min((abs(up - corner), 0, left), (abs(left - corner), 1, up), (abs(left + up - 2 * corner), 2, corner))[2]
            line[i] = (line[i] + (0, left, up, (left + up) // 2, near)[kind]) & 255
        above = line
        rows.append([tuple(line[i : i + 3]) for i in range(0, len(line), step)])
    return rows


def as_shown(room):
    """The commands of the page, as written, but at a port that is free, and with longer pauses."""
    if shutil.which("curl") is None:
        print("curl is not installed: the page's commands are not run", flush=True)
        return
    pages = SourceFileLoader("pages", str(TOP / "system_tests/pages")).load_module()
    os.symlink(TOP / "examples", f"{room}/examples")
    os.makedirs(f"{room}/INTO", exist_ok=True)
    os.symlink(Server.program, f"{room}/INTO/diffuse-server")
    port = str(free_port())
    for number, command, lines in pages.commands(PAGE):
        tried = command.replace("8180", port).replace("sleep 1", "sleep 5")
        ran = subprocess.run(["timeout", str(PATIENCE), "bash", "-c", tried], cwd=room, stdout=subprocess.PIPE, stderr=subprocess.STDOUT, text=True)
        if ran.returncode or ran.stdout.splitlines() != lines:
            yield f"{PAGE}:{number}: {command}: status {ran.returncode} and\n{ran.stdout}"
