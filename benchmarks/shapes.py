"""Graphs of plain shapes."""
import os

from inputs import ONE_SOURCE, Files, is_newer, note, write_lines


class Shape(Files):
    """A graph of some plain shape, and one question from vertex 1."""

    def __init__(self, name, size, shape):
        self.name = "%s of %s" % (name, "{:,}".format(size))
        self.size, self.shape = size, shape
        self.vertices, self.arcs = shape(size)[:2]

    def make(self, folder, _programs, _kind):
        self.at(os.path.join(folder, "%s_%d" % (self.shape.__name__, self.size)))
        if not is_newer(self.graph, __file__):
            note("making " + os.path.basename(self.graph))
            arcs = self.shape(self.size)[2]
            write_lines(self.lines(arcs), self.graph)
            write_lines(["p aux sp ss 1\n", "s 1\n"], self.questions[ONE_SOURCE])

    def lines(self, arcs):
        yield "p sp %d %d\n" % (self.vertices, self.arcs)
        for arc in arcs:
            yield "a %d %d %d\n" % arc


def star(leaves):
    """A hub, and an arc each way between it and each leaf."""
    return leaves + 1, 2 * leaves, (arc for v in range(2, leaves + 2) for arc in ((1, v, v % 1009), (v, 1, v % 1013)))


def chain(length):
    """Arcs one after the other."""
    return length + 1, length, ((v, v + 1, v % 1009) for v in range(1, length + 1))


def zero_grid(side):
    """A square of places with arcs of weight 0 to the right and down, each way."""
    def arcs():
        for v in range(1, side * side + 1):
            for there in ((v + 1 if v % side else 0), v + side):
                if 0 < there <= side * side:
                    yield v, there, 0
                    yield there, v, 0

    return side * side, 4 * side * (side - 1), arcs()


def parallel(count):
    """Two vertices, and arcs of falling weights from the one to the other."""
    return 2, count, ((1, 2, count - k) for k in range(count))


def locks(count):
    """Diamonds in a chain on which labels improve exponentially often: each has a dear way, which a first wave takes
    through all that follows, and a free one that is an arc longer; the arc before them waits until the wave has died."""
    def arcs():
        for k in range(count):
            x = 1 + 3 * k
            yield x, x + 1, 0
            yield x + 1, x + 3, 1 << (count - 1 - k)
            yield x + 1, x + 2, 0
            yield x + 2, x + 3, 0

    return 3 * count + 1, 4 * count, arcs()
