"""Columns of numpy and pandas."""
import functools
import subprocess
import sys
import unittest
from unittest import mock

import diffuse
from diffuse import Graph, Tree

from .examples import ARCS, NONE, listed, numpy, pandas

WRITER = """
import threading, time, diffuse, numpy
graph = diffuse.Graph(20000, [(v, v + 1, 1) for v in range(1, 20000)])
vertices = numpy.ones(300, numpy.uint32)
ends = time.monotonic() + 3
def write():
    while time.monotonic() < ends:
        vertices[:] = 2**32 - 1
        vertices[:] = 1
threading.Thread(target=write).start()
while time.monotonic() < ends:
    for call in (lambda: graph.tree(vertices), lambda: graph.table(vertices, vertices[:2])):
        try:
            call()
        except diffuse.DiffuseError:
            pass
print("unharmed")
"""


@unittest.skipUnless(numpy, "numpy is not installed")
class Numpy(unittest.TestCase):
    def test_arcs_of_any_integer_type(self):
        for kind in ("i8", "u8", "i4", "u4", "u1", ">i4"):
            graph = Graph(5, numpy.array(ARCS, dtype=kind))
            self.assertEqual(graph.route(1, 4).value, 8, kind)
        graph = Graph(numpy.int64(5), numpy.asfortranarray(numpy.array(ARCS)))
        self.assertEqual(graph.route(numpy.int64(1), numpy.uint8(4)).value, 8)

    def test_arrays_that_are_not_aligned(self):
        """The C library may take only aligned numbers: what it is lent is."""
        bytes_of = b"x" + numpy.array([1, 5], dtype="u4").tobytes()
        sources = numpy.frombuffer(bytes_of, dtype="u4", offset=1)
        self.assertFalse(sources.flags.aligned)
        tree = Graph(5, ARCS).tree(sources)
        self.assertTrue(tree.sources.flags.aligned)
        self.assertEqual(listed(tree)[0], [0, 3, 1, 8, 0])

    def test_trees_are_arrays(self):
        tree = Graph(5, ARCS).tree(numpy.array([1]))
        self.assertEqual([column.dtype for column in (tree.values, tree.hops, tree.parents)], [numpy.uint64, numpy.uint32, numpy.uint32])
        self.assertIsNone(Graph(5, ARCS).check(tree))
        self.assertIsNone(Graph(5, ARCS).check(Tree(tree.values, tree.hops.astype("i8"), tree.parents[:], [1])))
        tree.values.flags.writeable = False
        self.assertIsNone(Graph(5, ARCS).check(tree))

    def test_shapes_and_types(self):
        arcs = numpy.array(ARCS)
        for wrong in (arcs[:, :2], arcs[0], arcs.reshape(3, 7), arcs.reshape(1, 7, 3)):
            with self.assertRaisesRegex(diffuse.BadShape, "three columns"):
                Graph(5, wrong)
        with self.assertRaisesRegex(diffuse.BadShape, r"sources\[0\]: one dimension is needed, not the shape \(7, 3\)"):
            Graph(5, ARCS).tree(arcs)
        with self.assertRaisesRegex(diffuse.NotANumber, r"arcs\[0\], tail: 1.0 is no whole number"):
            Graph(5, arcs.astype(float))
        with self.assertRaisesRegex(diffuse.NotANumber, r"sources\[0\]: True is no whole number"):
            Graph(5, ARCS).tree(numpy.array([True, False]))

    def test_what_the_library_reads_is_a_copy(self):
        """No array of the caller's goes to the library, and no memory twice."""
        graph, found, lent = Graph(5, ARCS), diffuse.graph.library(), []
        areas = {"tree": [3, 5, 7, 9], "table": [3, 5, 7], "check": [3, 5, 7, 9]}  # where the addresses are, each before its length

        def kept(call, *words):
            lent[:] = [(words[place], words[place + 1]) for place in areas[call]]
            return getattr(found, f"diffuse_graph_{call}")(*words)

        sources, lists = numpy.array([1, 2], dtype="u4"), [numpy.array(column, dtype=kind) for column, kind in (([0, 3, 1, 8, NONE], "u8"), ([0, 2, 1, 3, 0], "u4"))]
        stub = mock.Mock(**{f"diffuse_graph_{call}.side_effect": functools.partial(kept, call) for call in areas})
        with mock.patch("diffuse.graph.library", return_value=stub):
            for call in (lambda: graph.tree(sources), lambda: graph.table(sources, sources), lambda: graph.check(Tree(lists[0], lists[1], lists[1], sources))):
                try:
                    call()
                except diffuse.WrongTree:
                    pass
                starts = [at for at, _ in lent]
                self.assertEqual(len(set(starts)), len(starts))
                self.assertTrue(set(starts).isdisjoint(column.ctypes.data for column in (sources, *lists)))

    def test_an_answer_keeps_its_sources(self):
        sources, graph = numpy.array([1], dtype="u4"), Graph(5, ARCS)
        tree = graph.tree(sources)
        sources[0] = 3
        self.assertIsNone(graph.check(tree))
        self.assertEqual(list(tree.sources), [1])

        def targets():
            sources[0] = 2**32 - 1
            yield 1

        sources[0] = 5
        self.assertEqual(graph.table(sources, targets()).tolist(), [[3]])

    def test_a_thread_that_writes_to_an_array_harms_nobody(self):
        ran = subprocess.run([sys.executable, "-c", WRITER], capture_output=True, text=True, timeout=600)
        self.assertEqual((ran.returncode, ran.stdout), (0, "unharmed\n"), ran.stderr)

    def test_masked_numbers_are_no_numbers(self):
        masked = numpy.ma.array([7, 999], mask=[False, True])
        with self.assertRaisesRegex(diffuse.NotANumber, r"weights\[1\]: a masked number is none"):
            Graph.from_columns([1, 1], [2, 2], masked)
        with self.assertRaisesRegex(diffuse.NotANumber, r"arcs\[0\], weight: a masked number is none"):
            Graph(2, numpy.ma.array([[1, 2, 999]], mask=[[False, False, True]]))
        self.assertEqual(Graph.from_columns([1], [2], numpy.ma.array([9], mask=[False])).route(1, 2).value, 9)

    def test_truths_and_lists_are_no_numbers(self):
        graph = Graph(5, ARCS)
        for call in (lambda: graph.route(numpy.bool_(True), 4), lambda: graph.tree(numpy.bool_(True)), lambda: graph.tree([numpy.bool_(True)])):
            self.assertRaisesRegex(diffuse.NotANumber, "True_? is no whole number|True_?\\)? is no whole number", call)
        for limit in (numpy.bool_(True), numpy.array([1]), numpy.array([1, 2])):
            self.assertRaises(diffuse.NoAlgebra, graph.route, 1, 4, "within", limit)
        self.assertEqual(graph.route(1, 3, "within", numpy.int64(1)).value, 1)
        self.assertRaisesRegex(diffuse.BadShape, "sources: a vertex or a list of vertices is needed", graph.tree, numpy.array(1.5))

    def test_ranges(self):
        tails, heads, weights = numpy.array(ARCS).T
        for column, value, message in ((2, -1, r"weights\[3\]: -1"), (2, 2**32, r"weights\[3\]: 4294967296"), (0, 2**32 + 1, r"tails\[3\]: 4294967297"), (1, 0, r"heads\[3\]: 0")):
            columns = [tails.copy(), heads.copy(), weights.copy()]
            columns[column][3] = value
            with self.assertRaisesRegex(diffuse.TextFault, message):
                Graph.from_columns(*columns, vertices=5)
        with self.assertRaisesRegex(diffuse.NoVertex, r"sources\[1\]: 18446744073709551615"):
            Graph(5, ARCS).tree(numpy.array([1, 2**64 - 1], dtype="u8"))


@unittest.skipUnless(pandas, "pandas is not installed")
class Pandas(unittest.TestCase):
    def test_columns_and_frames(self):
        frame = pandas.DataFrame(ARCS, columns=["tail", "head", "weight"], index=list("gfedcba"))
        self.assertEqual(Graph(5, frame).route(1, 4).value, 8)
        self.assertEqual(Graph.from_columns(frame["tail"], frame["head"], frame["weight"]).route(1, 4).value, 8)
        self.assertEqual(Graph.from_columns(frame["tail"], frame["head"], frame["weight"].astype("Int64")).route(1, 4).value, 8)

    def test_missing_cells(self):
        frame = pandas.DataFrame(ARCS, columns=["tail", "head", "weight"]).astype({"weight": "Int64"})
        frame.loc[2, "weight"] = pandas.NA
        with self.assertRaisesRegex(diffuse.NotANumber, r"weights\[2\]: <NA> is no whole number"):
            Graph.from_columns(frame["tail"], frame["head"], frame["weight"])


if __name__ == "__main__":
    unittest.main()
