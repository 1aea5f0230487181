"""What must not harm the server: slow clients, a log that nobody reads, bad files, limits of the system, and wrong options."""
import atexit
import os
import re
import signal
import socket
import subprocess
import threading
import time
from pathlib import Path

from http_requests import FIVE, TOWN
from http_server import GET, PATIENCE, ROUTE, Server, free_port, received, reply_on, soon, statuses


class Trickle:
    """Clients of one address that send a request byte by byte, or nothing, and ever begin anew."""

    def __init__(self, server, count, source="127.0.0.1", data=GET[:-2] + b"X: " + b"x" * 1000):
        self.stop, self.replies = threading.Event(), b""
        self.sockets = [server.connect(source) for _ in range(count)]
        self.data, self.thread = data, threading.Thread(target=self.run)
        self.thread.start()

    def run(self):
        at = 0
        while not self.stop.wait(0.2):
            for one in self.sockets:
                try:
                    one.send(self.data[at : at + 1])
                except OSError:
                    pass
            at += 1

    def end(self):
        self.stop.set()
        self.thread.join()
        for one in self.sockets:
            one.settimeout(0.2)
            self.replies += received(one)
            one.close()


def slow_clients():
    """A head and a body have a time in all; of one address few may be slow; the others are answered meanwhile."""
    server = Server(FIVE, "--read", "2")
    for data in (b"", GET[:10], b"POST /table HTTP/1.1\r\nHost: here\r\nContent-Length: 50\r\n\r\n{"):
        began, got = time.monotonic(), statuses(server.raw(data))
        if got != [408] or time.monotonic() - began < 1.5:
            yield f"{data}: {got} after {time.monotonic() - began:.1f} s"
    kept = server.connect()
    kept.sendall(GET)
    if statuses(reply_on(kept)) != [200]:
        yield "a kept connection is not answered"
    kept.sendall(GET[:12])
    if statuses(received(kept)) != [408]:
        yield "a second request on a kept connection has no time in all"
    trickle = Trickle(server, 20)
    ended = soon(lambda: server.counted("diffuse_connections_slow_total") >= 24)
    trickle.end()
    if not ended or statuses(trickle.replies) != [408] * 20:
        yield f"one byte after the other is for ever: {statuses(trickle.replies)}"
    yield from server.ends()
    few = Server(FIVE, "--slow", "8", "--read", "600")
    slow, other = Trickle(few, 40), Trickle(few, 4, "127.0.0.2")
    if not soon(lambda: few.counted("diffuse_connections_slow_total") >= 32 and few.counted("diffuse_connections ") <= 13):
        yield f"{few.counted('diffuse_connections ')} slow connections stay, of eight that are allowed and four of another address"
    slow.end()
    other.end()
    yield from few.ends()


def all_connections_taken():
    """With all connections taken by slow or idle clients, /health and /metrics are answered, and idle ones make room."""
    server = Server(FIVE, "--connections", "40", "--slow", "100", "--read", "600")
    body = b'{"source": 1, "target": 4}'
    slow = [server.connect() for _ in range(40)]
    for one in slow:
        one.sendall(b"POST /route HTTP/1.1\r\nHost: here\r\nExpect: 100-continue\r\nContent-Length: %d\r\n\r\n" % len(body))
        reply_on(one)
    if [server.ask(path)[0] for path in ("/health", "/metrics", ROUTE)] != [200, 200, 503]:
        yield "too many connections are not refused as they should be"
    if server.counted("diffuse_connections_refused_total") != 1:
        yield "what is answered is counted as refused, or what is refused is not"
    for one in slow:
        one.sendall(body)
        reply_on(one)
    if not soon(server.answers):
        yield "forty idle clients close the server to all"
    for one in slow:
        one.close()
    yield from server.ends()


def log_of_nobody():
    """A log whose reader stalls, or is gone, stops and ends nothing; not even with SIGHUP."""
    for is_gone in (False, True):
        port, (reading, writing) = free_port(), os.pipe()
        run = subprocess.Popen([Server.program, FIVE, "--port", str(port)], stderr=writing)
        atexit.register(run.kill)
        os.close(writing)
        server = Server.__new__(Server)
        server.run, server.port, server.log = run, port, []
        soon(lambda: is_open(port))
        if is_gone:
            os.close(reading)
        client = server.client()
        # A line has 256 bytes of the request: a pipe and what may wait hold some 3,500 of them.
        for turn in range(200 if is_gone else 6000):
            if turn % 100 == 0:
                server.send(signal.SIGHUP)
            server.ask("/health?" + "x" * 300 if turn % 2 or not is_gone else ROUTE, client=client)
        if not is_gone and server.counted("diffuse_log_lines_dropped_total") == 0:
            yield "no line is dropped of a log that nobody reads"
        if not soon(lambda: server.counted('diffuse_reloads_total{result="done"}') >= 1):
            yield "no reload without a reader"
        client.close()
        yield from (f"a reader that {'is gone' if is_gone else 'stalls'}: {wrong}" for wrong in server.ends())
        if not is_gone:
            os.close(reading)


def is_open(port):
    with socket.socket() as one:
        return one.connect_ex(("127.0.0.1", port)) == 0


def bad_reloads(room):
    """SIGHUP with files that can't be served: they change nothing, and SIGTERM is heard."""
    path = Path(room) / "reloaded.gr"
    path.write_bytes(FIVE.read_bytes())
    server, failed = Server(path), 0
    before = server.ask("/health")[1]["graph"]

    def make(kind):
        if path.is_dir():
            path.rmdir()
        path.unlink(missing_ok=True)
        if kind == "huge":
            with open(path, "wb") as file:
                file.truncate(200 << 30)
        elif kind == "directory":
            path.mkdir()
        elif kind == "fifo":
            os.mkfifo(path)
        elif kind != "missing":
            path.write_bytes(kind)

    for kind in ("huge", "missing", "directory", "fifo", b"", b"p sp 5\n", b"p sp 0 0\n", b"p sp 2 1\na 1 9 1\n", b"p sp 5 2\na 1 2 3\n"):
        make(kind)
        server.send(signal.SIGHUP)
        failed += 1
        if not server.wait_for("not reloaded", failed) or server.ask(ROUTE)[1].get("value") != 8 or server.ask("/health")[1]["graph"] != before:
            yield f"{kind}: {server.log[-1]}"
    make("fifo")
    server.send(signal.SIGHUP)
    if server.end() != 0:
        yield f"SIGTERM after a FIFO: status {server.run.returncode}"


def few_descriptors():
    """Sixty connections with forty descriptors: no busy loop, a word in the log, and the server goes on."""
    server = Server(FIVE, prefix=("prlimit", "--nofile=40"))
    clients = [server.connect() for _ in range(60)]
    if not server.wait_for("no connection can be taken"):
        yield f"it does not say so: {server.log[-2:]}"
    _, spent = server.cost(lambda: time.sleep(1.5))
    if spent > 0.5:
        yield f"{spent} s of processor time in 1.5 s"
    for one in clients:
        one.close()
    yield from server.goes_on()


def little_memory(room):
    """Memory that is refused, at the start, in a reload or for connections: said and survived."""
    for megabytes in (8, 12, 16, 24, 48):
        ran = subprocess.run(["prlimit", f"--as={megabytes << 20}", "timeout", "1", Server.program, TOWN, "--port", "0"], stderr=subprocess.PIPE)
        if ran.returncode not in (1, 124, 127) or (ran.returncode == 1 and not ran.stderr):
            yield f"{megabytes} MB: status {ran.returncode}, {ran.stderr[-200:]}"
    path = Path(room) / "growing.gr"
    path.write_bytes(FIVE.read_bytes())
    server = Server(path, "--handles", "2", "--connections", "2000")
    server.allow_memory(4 << 20)
    with open(path, "wb") as file:
        file.truncate(1 << 30)
    server.send(signal.SIGHUP)
    if not server.wait_for("not reloaded") or server.ask(ROUTE)[1].get("value") != 8:
        yield f"a reload without memory: {server.log[-1]}"
    clients = [server.connect() for _ in range(900)]
    for one in clients:
        one.close()
    yield from server.goes_on()


def options():
    """Wrong options end the program with status 2 and a line that names them; a port in use and a bad file with 1."""
    wrong = ["--port 99999", "--port x", "--port", "--handles 0", "--handles -1", "--queue -4", "--queue -5", "--connections 0", "--timeout -1", "--timeout nan",
             "--timeout 0", "--read 1e999", "--slow 1.5", "--also metres", "--also value=x.gr", "--also =x.gr", "--nothing", "second.gr"]
    for words in wrong:
        ran = subprocess.run([Server.program, FIVE, *words.split()], stderr=subprocess.PIPE, text=True, timeout=PATIENCE)
        if ran.returncode != 2 or not re.fullmatch(r"diffuse-server: [^\n]+\n", ran.stderr) or words.split()[0] not in ran.stderr:
            yield f"{words}: status {ran.returncode}, {ran.stderr}"
    if subprocess.run([Server.program], stderr=subprocess.DEVNULL).returncode != 2 or subprocess.run([Server.program, "--help"], stdout=subprocess.DEVNULL).returncode != 0:
        yield "no graph, or --help"
    server = Server(FIVE, "--queue=0", "--timeout=99.5")
    if server.ask(ROUTE)[0] != 200:
        yield "with a queue of none, an idle server does not answer"
    for words, named in ((["--port", str(server.port)], f"127.0.0.1:{server.port}: Address already in use"), (["--host", "192.0.2.1"], "192.0.2.1:8080: ")):
        ran = subprocess.run([Server.program, FIVE, *words], stderr=subprocess.PIPE, text=True, timeout=PATIENCE)
        if ran.returncode != 1 or named not in ran.stderr:
            yield f"{words}: status {ran.returncode}, {ran.stderr}"
    server.end()


def no_graph(room):
    """Files that are not there or no graph, or a graph without a vertex: said on standard error, and no server."""
    bad, empty = Path(room) / "bad.gr", Path(room) / "empty.gr"
    bad.write_text("p sp 5 1\na 1 9 1\n")
    empty.write_text("p sp 0 0\n")
    for path in (Path(room) / "none.gr", bad, empty, Path(room)):
        ran = subprocess.run([Server.program, path, "--port", "0"], stderr=subprocess.PIPE, text=True, timeout=PATIENCE)
        if ran.returncode != 1 or not ran.stderr.startswith(f"diffuse-server: {path}: "):
            yield f"{path}: status {ran.returncode}, {ran.stderr}"


def waits_for_100():
    """A client that waits for 100 Continue gets it at once."""
    server = Server(FIVE)
    body = b'{"source": 1, "target": 4}'
    with server.connect() as one:
        one.sendall(b"POST /route HTTP/1.1\r\nHost: here\r\nExpect: 100-continue\r\nContent-Length: %d\r\n\r\n" % len(body))
        if statuses(reply_on(one)) != [100]:
            yield "no 100 Continue"
        one.sendall(body)
        if statuses(reply_on(one)) != [200]:
            yield "no reply after 100 Continue"
    with server.connect() as one:
        one.sendall(b"POST /route HTTP/1.1\r\nHost: here\r\nExpect: 100-continue\r\nContent-Length: 2000000\r\n\r\n")
        if statuses(reply_on(one)) != [413]:
            yield "a body that is too long is asked for"
    data = b"POST /route HTTP/1.1\r\nHost: here\r\nContent-Length: 2000000\r\n\r\n" + b" " * 2000000
    if statuses(server.raw(data)) != [413]:
        yield "a long body that is sent at once hears no 413"
    yield from server.ends()


def kept_connections(count):
    """Many kept connections, each asked in turn several times: every reply is right."""
    server, wrong = Server(TOWN, "--queue", str(count), "--connections", str(count + 10), "--slow", str(count), "--read", "600", "--idle", "600"), []
    sockets = [server.connect() for _ in range(count)]
    for turn in range(3):
        for place, one in enumerate(sockets):
            one.sendall(b"GET /route?source=%d&target=%d HTTP/1.1\r\nHost: here\r\n\r\n" % (place % 4000 + 1, (place + turn) % 4000 + 1))
        for place, one in enumerate(sockets):
            got = reply_on(one)
            if statuses(got) != [200] or b'{"source": %d, "target": %d, ' % (place % 4000 + 1, (place + turn) % 4000 + 1) not in got:
                wrong.append(got[:100])
    if wrong or server.counted("diffuse_requests_total") != 3 * count:
        yield f"{len(wrong)} of {3 * count} replies are wrong: {wrong[:2]}"
    for one in sockets:
        one.close()
    yield from server.ends()
