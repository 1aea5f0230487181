"""The package as it is installed: its library, its types, its version."""
import inspect
import os
import re
import subprocess
import sys
import unittest
from pathlib import Path
from tempfile import TemporaryDirectory
from zipfile import ZipFile

import diffuse
from diffuse import Graph, Network

HERE = Path(diffuse.__file__).parent
BACKEND = Path(__file__).resolve().parents[1] / "backend" / "wheel_of_library.py"
README = Path(__file__).resolve().parents[1] / "README.md"

WRITTEN = "to_csv to_frame to_geoframe to_geojson"
TREE = f"arcs cost hops neighbour reached route source {WRITTEN} tree"
PUBLIC = {
    "Algebra": "HOPS REACH RELIABLE SHORTEST WIDEST WITHIN", "BetweenPoints": f"cost line steps {WRITTEN} total totals", "Coordinates": "degrees",
    "Graph": "arcs check close factor from_columns from_gr near number read route table tree vertices with_weights",
    "Isochrone": f"arcs band {TREE[5:].replace('reached', 'reached roads')} within",
    "NamedRoute": f"arcs cells cost line places steps {WRITTEN} total totals", "NamedTable": "to_csv to_frame to_numpy", "NamedTree": TREE,
    "Near": "algebra entries entry limit origins reaches route tree",
    "Network": "costs draw factor from_networkx from_table graph isochrone load nearest places plot read_csv read_dimacs read_osm route route_between routes save "
               "snap table to_networkx tree vertex with_cost with_sum",
    "Profile": "access barriers but closed direction one_ways permission shuts speed stops_at takes turns",
    "Reason": "HAS_WALK LESSER_PARENT NOT_A_SOURCE_LINE NOT_BEST NO_PARENT OTHER_HOPS",
    "Report": "barriers closed cut_off gaps left_out limits missing turns ways", "Route": "arcs", "Routes": WRITTEN, "Snap": "", "Snaps": WRITTEN, "Step": "",
    "Stop": "clear is_set set", "Tree": "algebra entries entry limit origins reaches route",
}


# Of each status its class, the status of HTTP, and words of what it means; of each reason its name and such words.
STATUSES = {
    1: ("NoRoute", 404, "No walk"), 2: ("NoRoom", 400, "one place for each vertex"), 3: ("OutOfMemory", 503, "no memory"), 4: ("Closed", 503, "closed"),
    5: ("AlreadyOpen", 500, "to be opened"), 6: ("WrongTree", 422, "at vertex 4"), 7: ("TooDense", 422, "too many links"), 8: ("TooHeavy", 422, "weights are so great"),
    9: ("NoFactors", 422, "no factors"), 10: ("NoProblemLine", 400, "no problem line"), 11: ("SecondProblemLine", 400, "second problem line"),
    12: ("BadProblemLine", 400, "not `p sp VERTICES ARCS`"), 13: ("UnknownLine", 400, "none of c, p and a"), 14: ("WrongFields", 400, "number of fields"),
    15: ("NotANumber", 400, "whole number"), 16: ("OutOfRange", 400, "limits"), 17: ("NoVertex", 404, "no vertex"), 18: ("TooManyArcs", 400, "More arc lines"),
    19: ("TooFewArcs", 400, "Fewer arc lines"), 43: ("NoAlgebra", 400, "no such algebra"), 44: ("NoLink", 422, "no link"), 45: ("Stopped", 500, "stop was set"),
    46: ("OtherArcs", 400, "not those of the graph"), 47: ("NoNumbers", 500, "not numbered"), 48: ("NoOrder", 400, "each place once"),
}
REASONS = {
    1: ("NOT_A_SOURCE_LINE", "a source has the value of no arcs"), 2: ("NOT_BEST", "an arc gives a better value"), 3: ("NO_PARENT", "the parent does not give it"),
    4: ("OTHER_HOPS", "the hops are not one more"), 5: ("LESSER_PARENT", "a lesser vertex could be the parent"), 6: ("HAS_WALK", "reported unreached"),
}


def kinds():
    """The public classes that are no exceptions, by their names."""
    named = ((name, getattr(diffuse, name)) for name in diffuse.__all__)
    return [(name, kind) for name, kind in named if isinstance(kind, type) and not issubclass(kind, BaseException)]


class Package(unittest.TestCase):
    def said(self, code, **settings):
        """What a program writes in a new interpreter, with its errors."""
        path = os.pathsep.join([str(HERE.parent), os.environ.get("PYTHONPATH", "")])
        environment = {**os.environ, "PYTHONPATH": path, **settings}
        return subprocess.run([sys.executable, "-c", code], env=environment, stdout=subprocess.PIPE, stderr=subprocess.STDOUT, text=True).stdout

    def test_version(self):
        self.assertRegex(diffuse.version(), r"^1\.\d+\.\d+$")
        self.assertIn(f'NAME, VERSION = "diffuse", "{diffuse.__version__}"', BACKEND.read_text())

    def test_the_wheel(self):
        """It is for the systems that have what the library needs, with both licences and the extras."""
        with TemporaryDirectory() as room:
            library = Path(room, "libdiffuse.so")
            code = f"import sys; sys.path.insert(0, {str(BACKEND.parent)!r}); import wheel_of_library; print(wheel_of_library.build_wheel({room!r}))"
            for symbols, tag in ((b"GLIBC_2.2.5 GLIBC_2.14", "manylinux_2_17_x86_64.manylinux2014_x86_64"), (b"GLIBC_2.14 GLIBC_2.34", "manylinux_2_34_x86_64")):
                library.write_bytes(symbols)
                name = self.said(code, DIFFUSE_LIBRARY=str(library)).strip()
                self.assertEqual(name, f"diffuse-{diffuse.__version__}-py3-none-{tag}.whl")
                with ZipFile(f"{room}/{name}") as wheel:
                    info = f"diffuse-{diffuse.__version__}.dist-info"
                    self.assertIn("Apache License", wheel.read(f"{info}/LICENSE-APACHE").decode())
                    self.assertIn("Permission is hereby granted", wheel.read(f"{info}/LICENSE-MIT").decode())
                    for line in ("Provides-Extra: pandas", "Requires-Dist: osmium; extra == 'osm'", "Provides-Extra: plot"):
                        self.assertIn(line, wheel.read(f"{info}/METADATA").decode().split("\n"))

    def test_lines_are_short(self):
        for path in (*HERE.glob("*.py"), BACKEND):
            for number, line in enumerate(path.read_text().split("\n"), 1):
                self.assertLess(len(line), 100, f"{path.name}, line {number}")

    def test_a_library_that_is_not_there(self):
        said = self.said("import diffuse; print('imported'); diffuse.Graph(1, [])", DIFFUSE_LIBRARY="/nowhere/libdiffuse.so")
        self.assertIn("imported", said)
        self.assertRegex(said, "ImportError: /nowhere/libdiffuse.so could not be loaded .*; DIFFUSE_LIBRARY may name another libdiffuse.so")

    def test_numbers_of_the_header(self):
        """Each status, algebra and reason of include/diffuse.h has a name here, and no other number has."""
        header = (Path(__file__).resolve().parents[3] / "include" / "diffuse.h").read_text()
        numbers = {kind: set(map(int, re.findall(r" = (\d+)", re.search(rf"^enum diffuse_{kind}\b[^{{;(]*{{(.*?)}};", header, re.M | re.S)[1])))
                   for kind in ("status", "algebra", "reason")}
        self.assertEqual(numbers["status"], {0, *diffuse.errors.BY_STATUS})
        self.assertEqual(numbers["algebra"], {int(algebra) for algebra in diffuse.Algebra})
        self.assertEqual(numbers["reason"], {int(reason) for reason in diffuse.Reason})

    def test_each_status_and_reason(self):
        """By its number: the class or the name, the status of HTTP, and what it means; the message of a wrong tree has its reason."""
        for status, (name, http, words) in STATUSES.items():
            error = diffuse.WrongTree(4, 2) if name == "WrongTree" else diffuse.errors.refusal(status)
            self.assertEqual((type(error).__name__, error.status, error.http, error.as_dict()["status"]), (name, status, http, status))
            self.assertIn(words, str(error))
            self.assertTrue(name == "WrongTree" or str(error).endswith("."), str(error))
            self.assertIs(diffuse.errors.BY_STATUS[status], getattr(diffuse, name))
        for number, (name, words) in REASONS.items():
            self.assertEqual(diffuse.Reason[name], number)
            self.assertRegex(str(diffuse.WrongTree(4, number)), f"^the tree is wrong at vertex 4: .*{words}")

    def test_names_that_are_exported(self):
        for name in diffuse.__all__:
            self.assertTrue(hasattr(diffuse, name), name)
        kinds = {name for name, kind in vars(diffuse.errors).items() if isinstance(kind, type) and issubclass(kind, diffuse.DiffuseError)}
        self.assertLessEqual(kinds, set(diffuse.__all__))

    def test_it_is_typed(self):
        self.assertTrue((HERE / "py.typed").exists())

    def test_the_page_lists_each_module(self):
        page = README.read_text()
        for path in HERE.glob("*.py"):
            self.assertIn(f"`{path.stem}`", page + "`__init__`")

    def test_nothing_is_public_by_accident(self):
        """The classes have these methods, properties and no other; and there is no other class."""
        found = {}
        for name, kind in kinds():
            inherited = {part for base in kind.__mro__ if not base.__module__.startswith("diffuse") for part in dir(base)}
            found[name] = " ".join(part for part in dir(kind) if not part.startswith("_") and part not in inherited)
        self.assertEqual(found, PUBLIC)
        texts = {name for name in diffuse.__all__ if not isinstance(getattr(diffuse, name), type)}
        self.assertEqual(texts, {"ALGEBRAS", "CYCLING", "DRIVING", "UNREACHED", "WALKING", "version"})

    def test_arguments_come_in_one_order(self):
        def order(call):
            return " ".join(inspect.signature(call).parameters)

        self.assertEqual(order(Graph.tree), "self sources algebra limit stop")
        self.assertEqual(order(Graph.near), order(Graph.tree))
        self.assertEqual(order(Graph.table), "self sources targets algebra limit stop")
        self.assertEqual(order(Graph.route), "self source target algebra limit stop")
        self.assertEqual(order(Network.tree), "self sources by algebra limit towards stop")
        self.assertEqual(order(Network.table), "self sources targets by algebra limit stop")
        self.assertEqual(order(Network.route), "self source target by algebra limit stop")
        self.assertEqual(order(Network.routes), "self pairs by algebra limit stop")
        self.assertEqual(order(Network.isochrone), "self sources by limits towards stop")

    def test_each_call_says_what_its_parameters_are(self):
        """As numpydoc has it; a call of one parameter may say so in its sentence."""
        for name, kind in kinds():
            for part in PUBLIC[name].split():
                call = inspect.getattr_static(kind, part)
                call = getattr(call, "__func__", call)
                if not inspect.isfunction(call):
                    continue
                words = [word for word in inspect.signature(call).parameters if word not in ("self", "cls", "changes")]
                before, _, after = inspect.getdoc(call).partition("\nParameters\n----------\n")
                self.assertIn(".", before, f"{name}.{part}")
                listed = re.findall(r"\w+", " ".join(line.split(" : ")[0] for line in after.split("\n\n")[0].split("\n") if not line.startswith(" ")))
                if after or len(words) > 1:
                    self.assertEqual(sorted(set(listed)), sorted(words), f"{name}.{part}")

    def test_messages_name_the_class_that_was_asked(self):
        self.assertRaisesRegex(TypeError, r"^Network\.route\(\) got an unexpected keyword argument 'way'|^route\(\) got an unexpected", lambda: Network.route(None, way=1))
        self.assertEqual([kind.__name__ for kind in Network.__mro__], ["Network", "object"])

    def test_graphs_are_freed(self):
        """Three thousand graphs that nobody closes take 4 MB more than a hundred at most."""
        code = """if True:
            import diffuse
            def pages_after(times):
                for _ in range(times):
                    diffuse.Graph(100, [(1, 2, 3)] * 1000).tree(1)
                return int(open("/proc/self/statm").read().split()[1])
            first = pages_after(100)
            print(pages_after(3000) - first < 1024)
        """
        self.assertEqual(self.said(code, MALLOC_ARENA_MAX="1"), "True\n")

    def test_stops_are_freed(self):
        """The stops of twenty thousand graphs that were asked with one take 4 MB more than those of a thousand at most."""
        code = """if True:
            import diffuse
            def pages_after(times):
                for _ in range(times):
                    diffuse.Graph(2, [(1, 2, 3)]).tree(1, stop=diffuse.Stop())
                return int(open("/proc/self/statm").read().split()[1])
            first = pages_after(1000)
            print(pages_after(20_000) - first < 1024)
        """
        self.assertEqual(self.said(code, MALLOC_ARENA_MAX="1"), "True\n")


if __name__ == "__main__":
    unittest.main()
