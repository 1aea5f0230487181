"""Asks a service for routes, one pair at a time."""
import contextlib
import subprocess


class Died(Exception):
    """The service has ended without being asked to."""


class Service:
    """A service over a graph: by --plain, or for hundreds of pairs by --factors. Without either a route takes far longer."""

    def __init__(self, graph, way="--plain"):
        words = ["diffuse", "serve", graph, way]
        self.run = subprocess.Popen(words, stdin=subprocess.PIPE, stdout=subprocess.PIPE, text=True)

    def route(self, source, target):
        """The value and the vertices of a best route, or None if there is none."""
        with contextlib.suppress(BrokenPipeError):
            print(f"p aux sp p2p 1\nq {source} {target}", file=self.run.stdin, flush=True)
        for line in self.run.stdout:
            word, *rest = line.split()
            if word == "f":
                raise ValueError(f"fault {rest[0]} in line {rest[1]}")
            if word == "u":
                return None
            if word == "d":
                value = int(rest[0])
            if word == "r":
                return value, [int(vertex) for vertex in rest]
        raise Died(f"the service has ended with status {self.run.wait()}")

    def stop(self):
        """Ends the service: at the end of its input it has answered all, and its status is 0."""
        with contextlib.suppress(BrokenPipeError):
            self.run.stdin.close()
        return self.run.wait()

    def switched(self, graph, way="--plain"):
        """A service over another graph, once it answers. This one ends when it has answered all."""
        other = Service(graph, way)
        other.route(1, 1)
        self.stop()
        return other


five = Service("examples/five_vertices.gr")
print(five.route(1, 4), five.route(1, 5), five.route(4, 4))
town = five.switched("examples/small_town.gr", "--factors")
print(town.route(1, 5), five.run.returncode)
town.run.kill()
try:
    town.route(1, 5)
except Died as died:
    print(died)
