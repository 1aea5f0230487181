"""The programs of this folder, built, and the graphs and questions that they are run on."""
import glob
import os
import shutil
import subprocess
import sys

HERE = os.path.dirname(os.path.abspath(__file__))
SOURCES = ["roads", "roads_rivers", "families", "near_pairs", "heap_dijkstra", "pairs_dijkstra", "threads_dijkstra", "diffusing", "measure"]
SEED = 1
LIECHTENSTEIN = "liechtenstein"
PEER = "dimacs-solver"

# The kinds of question files: the kind that roads.cpp knows and how many questions there are; pairs of neighbours, which
# near_pairs.cpp makes; and one line of many sources.
ONE_SOURCE, READING, ONE_LIST = "one source", "reading alone", "one list of 1,024 sources"
FOUR_SOURCES, FIVE_SOURCES, EIGHT_SOURCES = "four sources", "five sources", "eight sources"
FIVE_PAIRS, TWENTY_PAIRS = "five pairs", "twenty pairs"
ONE_PAIR, TEN_PAIRS, HUNDRED_PAIRS, THOUSAND_PAIRS = "one pair", "ten pairs", "100 pairs", "1,000 pairs"
NEAR_PAIRS, NEAR = "5,000 near pairs", "near.p2p"
KINDS = {ONE_SOURCE: ("ss", 1), READING: ("ss", 0), FOUR_SOURCES: ("ss", 4), FIVE_SOURCES: ("ss", 5), EIGHT_SOURCES: ("ss", 8),
         FIVE_PAIRS: ("p2p", 5), TWENTY_PAIRS: ("p2p", 20), ONE_PAIR: ("p2p", 1), TEN_PAIRS: ("p2p", 10), HUNDRED_PAIRS: ("p2p", 100),
         THOUSAND_PAIRS: ("p2p", 1000), NEAR_PAIRS: (NEAR, 5000)}
MANY = 1024


def stop(message):
    sys.exit("benchmarks/run: " + message)


def note(message):
    print(message, file=sys.stderr, flush=True)


def is_newer(path, than):
    return os.path.exists(path) and os.path.getmtime(path) > os.path.getmtime(than)


def compiler():
    return os.environ.get("CXX", "g++")


def build(folder):
    """Compiles each C++ program that is not there yet or older than its source or a header; gives their paths by name."""
    if shutil.which(compiler()) is None:
        stop("there is no %s on the path, which builds the programs of benchmarks/" % compiler())
    os.makedirs(folder, exist_ok=True)
    paths, headers = {}, glob.glob(os.path.join(HERE, "*.hpp"))
    for name in SOURCES:
        source, paths[name] = os.path.join(HERE, name + ".cpp"), os.path.join(folder, name)
        if not all(is_newer(paths[name], it) for it in [source, *headers]):
            note("building " + name)
            subprocess.run([compiler(), "-O2", "-std=c++17", "-pthread", "-o", paths[name], source], check=True)
    return paths


def write_by(command, path):
    """The standard output of a command as a file, which is there only when it is whole."""
    with open(path + ".part", "wb") as out:
        subprocess.run(command, stdout=out, check=True)
    os.replace(path + ".part", path)


def write_lines(lines, path):
    """Lines as a file, which is there only when it is whole."""
    with open(path + ".part", "w") as out:
        out.writelines(lines)
    os.replace(path + ".part", path)


class Files:
    """A graph in a file, and files of questions over it by their kinds."""

    marked = None

    def at(self, stem):
        self.graph, self.questions = stem + ".gr", {kind: "%s.%d.%s" % (stem, count, word) for kind, (word, count) in KINDS.items()}
        self.questions[ONE_LIST] = stem + ".ms"

    def word_of(self, kind):
        """The kind of a question file, as its problem line has it."""
        return KINDS[kind][0].rpartition(".")[2] if kind in KINDS else "ms"

    def count_of(self, kind):
        """How many questions it has."""
        return KINDS[kind][1]

    def warm(self):
        """Reads the graphs once, so that no round waits for the disk."""
        for path in filter(None, [self.graph, self.marked]):
            with open(path, "rb") as file:
                while file.read(1 << 20):
                    pass


class Made(Files):
    """A graph that a program of this folder makes from some words."""

    def __init__(self, name, size, maker, words, stem):
        self.name, self.maker, self.words, self.stem = name, maker, [str(word) for word in words], stem
        self.vertices, self.arcs = size

    def make(self, folder, programs, kind):
        """Writes the graph and the questions of a kind, if they are not there; if LEMON's program is, the graph as it reads it, too."""
        self.at(os.path.join(folder, self.stem))
        self.write(self.graph, programs[self.maker], self.words)
        if kind == ONE_LIST:
            self.list_sources(programs["roads"])
        else:
            word, count = KINDS[kind]
            maker, words = ("near_pairs", [self.graph]) if word == NEAR else ("roads", [word, str(self.vertices)])
            self.write(self.questions[kind], programs[maker], words + [str(count), str(SEED)])
        if kind == ONE_SOURCE and PEER in programs:
            self.marked = os.path.join(folder, self.stem + ".marked.gr")
            if not is_newer(self.marked, self.graph):
                self.mark()

    def list_sources(self, roads):
        """One line of many sources."""
        if not is_newer(self.questions[ONE_LIST], roads):
            many = subprocess.run([roads, "ss", str(self.vertices), str(MANY), str(SEED)], stdout=subprocess.PIPE, check=True)
            sources = [line.split()[1] for line in many.stdout.decode().splitlines() if line.startswith("s ")]
            write_lines(["p aux sp ms 1\n", "m %s\n" % " ".join(sources)], self.questions[ONE_LIST])

    def write(self, path, maker, words):
        if not is_newer(path, maker):
            note("making " + os.path.basename(path))
            write_by([maker] + words, path)

    def mark(self):
        """The same graph with the line `n SOURCE`, by which LEMON knows where to begin."""
        with open(self.questions[ONE_SOURCE]) as questions:
            source = [line.split()[1] for line in questions if line.startswith("s ")][0]
        with open(self.graph, "rb") as graph, open(self.marked + ".part", "wb") as marked:
            for line in graph:
                marked.write(line)
                if line.startswith(b"p "):
                    break
            marked.write(("n %s\n" % source).encode())
            shutil.copyfileobj(graph, marked, 1 << 20)
        os.replace(self.marked + ".part", self.marked)


class Roads(Made):
    """A road-like graph; its kind is `shuffled`, `ways` or `motorways`, as roads.cpp has it, or none."""

    def __init__(self, name, size, kind=""):
        words = ["graph", *size, SEED] + ([kind] if kind else [])
        super().__init__(name, size, "roads", words, "%d_%d%s" % (*size, "_" + kind if kind else ""))
        self.kind = kind


class Rivers(Made):
    """A road-like graph that rivers cut; its kind is `shuffled` or `ways`, as roads_rivers.cpp has it, or none."""

    def __init__(self, name, size, kind=""):
        words, end = [*size, SEED] + ([kind] if kind else []), "_" + kind if kind else ""
        super().__init__(name + " with rivers", size, "roads_rivers", words, "%d_%d_rivers%s" % (*size, end))


class Real(Made):
    """A real graph, as `fetch` has left it in the folder of graphs."""

    def __init__(self, name, path):
        _, _, *size = problem_of(path)
        super().__init__(name + " (real)", map(int, size), "cat", [path], "real_" + name.lower())

    def make(self, folder, programs, kind):
        super().make(folder, {**programs, "cat": shutil.which("cat")}, kind)


def real_graphs(folder):
    """The real graphs that the standard plan measures, if `fetch` has been there."""
    path = os.path.join(folder, "real", LIECHTENSTEIN + ".gr")
    return [Real(LIECHTENSTEIN.capitalize(), path)] if os.path.exists(path) else []


class Family(Made):
    """A graph of a family of the challenge, as families.cpp has it, of 2^log vertices; of Random4-C, with lengths up to 4^k."""

    def __init__(self, family, log, k=None):
        words, n = [family, log, SEED] if k is None else [family, k, SEED, log], 2 ** log
        wide = {"Long-n": 16, "Square-n": 2 ** (log // 2)}.get(family)
        arcs = 2 * (wide * (n // wide - 1) + n // wide * (wide - 1)) if wide else 4 * n
        name = "%s, 2^%d vertices%s" % (family, log, "" if k is None else ", lengths up to 4^%d" % k)
        super().__init__(name, (n, arcs), "families", words, "%s_%d%s" % (family, log, "" if k is None else "_%d" % k))


class Given(Files):
    """A graph and question files of the caller's own. Each question file is a kind by its name."""

    def __init__(self, graph, questions):
        self.name, self.graph = os.path.basename(graph), os.path.abspath(graph)
        problem = problem_of(self.graph)
        if problem[:2] != ["p", "sp"] or len(problem) != 4:
            stop("%s has no line p sp VERTICES ARCS" % graph)
        self.questions = {os.path.basename(path): os.path.abspath(path) for path in questions}
        self.words = {kind: (problem_of(path) + [""] * 5)[3] for kind, path in self.questions.items()}

    def word_of(self, kind):
        return self.words[kind]

    def make(self, folder, programs, kind):
        """Writes a question file without questions, which is for reading alone."""
        if kind == READING:
            self.questions[READING], self.words[READING] = os.path.join(folder, "none.ss"), "ss"
            write_lines(["p aux sp ss 0\n"], self.questions[READING])


def problem_of(path):
    """The fields of a file's problem line."""
    with open(path) as file:
        return next((line.split() for line in file if line.split()[:1] == ["p"]), [])
