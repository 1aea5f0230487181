"""The server of server/ that is tried: its process, its log, and clients."""
import atexit
import contextlib
import functools
import http.client
import json
import os
import random
import re
import resource
import signal
import socket
import subprocess
import threading
import time
from pathlib import Path

PATIENCE = 600
GET = b"GET /health HTTP/1.1\r\nHost: here\r\n\r\n"
ROUTE = "/route?source=1&target=4"


class Server:
    """A server over a graph, on a port that the system chooses, with much time for its answers; with `prefix`, run by another program, as prlimit."""

    program, reader = "diffuse-server", None

    def __init__(self, graph, *words, prefix=()):
        self.log, self.ready = [], threading.Event()
        self.run = subprocess.Popen([*prefix, self.program, graph, "--port", "0", "--timeout", "600", *words], stdout=subprocess.DEVNULL, stderr=subprocess.PIPE, text=True)
        atexit.register(self.run.kill)
        self.reader = threading.Thread(target=self.read_log, daemon=True)
        self.reader.start()
        if not self.ready.wait(PATIENCE) or not hasattr(self, "port"):
            raise RuntimeError(f"the server does not listen: {self.log}")

    def read_log(self):
        for line in self.run.stderr:
            self.log.append(line)
            if '"listening"' in line:
                self.port = json.loads(line)["port"]
                self.ready.set()
        self.ready.set()

    def client(self, timeout=PATIENCE):
        return http.client.HTTPConnection("127.0.0.1", self.port, timeout=timeout)

    def connect(self, source="127.0.0.1", timeout=PATIENCE):
        return socket.create_connection(("127.0.0.1", self.port), timeout=timeout, source_address=(source, 0))

    def ask(self, path, body=None, client=None):
        """The status and the answer of one request, on a connection of its own if none is given."""
        own = client or self.client()
        own.request("GET" if body is None else "POST", path, body)
        reply = own.getresponse()
        text = reply.read().decode()
        if client is None:
            own.close()
        return reply.status, json.loads(text) if reply.getheader("Content-Type") == "application/json" else text

    def asker(self, path, take=lambda status, reply: None):
        """A call that asks for a path on a connection of its own, and hands on what it hears."""
        own = self.client()

        def call():
            try:
                take(*self.ask(path, client=own))
            except (OSError, http.client.HTTPException):
                own.close()

        return call

    def send_all(self, *paths):
        """Connections, on each of which a path has been asked for, and no reply is read."""
        sockets = [self.connect() for _ in paths]
        for one, path in zip(sockets, paths):
            one.sendall(f"GET {path} HTTP/1.1\r\nHost: here\r\n\r\n".encode())
        return sockets

    def answers(self):
        """Whether a route is answered."""
        try:
            return self.ask(ROUTE, client=self.client(timeout=10))[0] == 200
        except (OSError, http.client.HTTPException):
            return False

    def counted(self, name):
        """The sum of counters or gauges whose names begin so, or in one of several ways, as the server reports them."""
        return sum(float(line.split()[-1]) for line in self.ask("/metrics")[1].splitlines() if line.startswith(name))

    def logged(self, event):
        return sum(json.loads(line).get("event") == event for line in list(self.log))

    def wait_for(self, event, count=1):
        return soon(lambda: self.logged(event) >= count)

    def send(self, name):
        self.run.send_signal(name)

    def processor_time(self):
        """By the system's clock of this process, as clock_getcpuclockid numbers it."""
        return time.clock_gettime(~self.run.pid << 3 | 2)

    def cost(self, call):
        """What a call gives, and the processor time that the server takes meanwhile: a slow machine makes it longer, a busy one does not."""
        before = self.processor_time()
        return call(), self.processor_time() - before

    def costs(self, calls):
        """What calls give, and the least processor time that one of them takes."""
        given, spent = zip(*map(self.cost, calls))
        return given, min(spent)

    def allow_memory(self, more):
        """From now on the server may have so many bytes more than now; None: as many as it wants."""
        size = int(Path(f"/proc/{self.run.pid}/statm").read_text().split()[0]) * resource.getpagesize()
        subprocess.run(["prlimit", f"--pid={self.run.pid}", f"--as={'unlimited' if more is None else size + more}:"], check=True)

    def is_quiet(self):
        """Whether no request waits or is searched for."""
        return self.counted(("diffuse_searches_running", "diffuse_requests_waiting")) == 0

    def wait(self):
        """The status with which it ends, when all of its log is read; None if it goes on."""
        try:
            status = self.run.wait(PATIENCE)
        except subprocess.TimeoutExpired:
            return None
        if self.reader:
            self.reader.join(PATIENCE)
        return status

    def end(self):
        """The status, when SIGTERM has ended it."""
        self.send(signal.SIGTERM)
        return self.wait()

    def ends(self):
        """What is wrong, if SIGTERM does not end it with status 0."""
        if self.end() != 0:
            yield f"status {self.run.returncode}: {self.log[-2:]}"

    def goes_on(self):
        """What is wrong, if it answers no more, or does not end."""
        if not soon(self.answers):
            yield f"it does not go on: {self.log[-2:]}"
        yield from self.ends()

    def raw(self, data, ends=False, wait=PATIENCE):
        """What comes back for some bytes, until the server closes or is silent for a while; `ends`: the client closes its end."""
        with self.connect() as one:
            one.settimeout(wait)
            try:
                one.sendall(data)
                if ends:
                    one.shutdown(socket.SHUT_WR)
            except OSError:
                pass  # it was refused before all of it was sent
            return received(one)


def received(one):
    """All bytes that come on a socket, until it is closed or silent."""
    parts = []
    try:
        while part := one.recv(65536):
            parts.append(part)
    except OSError:
        pass
    return b"".join(parts)


def reply_on(one):
    """One reply, whole, as it comes on a socket; or what comes before that is closed."""
    text = b""
    while part := one.recv(65536):
        text += part
        head, end, body = text.partition(b"\r\n\r\n")
        size = re.search(rb"\r\nContent-Length: (\d+)", head)
        if end and len(body) >= int(size[1] if size else 0):
            break
    return text


def statuses(text):
    """The statuses of the replies in some bytes."""
    return [int(it) for it in re.findall(rb"HTTP/1\.1 (\d\d\d) ", text)]


def soon(holds, patience=PATIENCE):
    """Whether something holds before long."""
    end = time.monotonic() + patience
    while not holds():
        if time.monotonic() > end:
            return False
        time.sleep(0.02)
    return True


@contextlib.contextmanager
def beside(calls):
    """Runs calls beside what follows, and then waits for them."""
    threads = [threading.Thread(target=call) for call in calls]
    for thread in threads:
        thread.start()
    try:
        yield
    finally:
        for thread in threads:
            thread.join()


def together(calls):
    """Runs calls at once, and waits for all."""
    with beside(calls):
        pass


@contextlib.contextmanager
def again_and_again(calls):
    """Runs calls beside what follows, each over and over until that has ended."""
    stop = threading.Event()

    def repeat(call):
        while not stop.is_set():
            call()

    with beside([functools.partial(repeat, call) for call in calls]):
        try:
            yield
        finally:
            stop.set()


def replace(path, text):
    """Puts a file in place whole."""
    part = path.with_suffix(".part")
    part.write_text(text)
    os.replace(part, path)


def free_port():
    """A port that nobody has, below those that the system gives to connections."""
    while True:
        port = random.randint(20000, 32000)
        with socket.socket() as one, contextlib.suppress(OSError):
            one.bind(("127.0.0.1", port))
            return port
