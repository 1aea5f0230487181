"""What is measured: programs on one graph and one question file, in turn, with their answers compared."""
import os
import re
import shlex
import shutil
import statistics
import subprocess

from answers import OTHER, compare_bytes, compared
from inputs import ONE_SOURCE, PEER, READING, stop

BASELINE, DIFFUSING, THREADS = "baseline", "diffusing", "baseline on threads"
TIME, WALL, PEAK, MESSAGES = "processor time", "wall time", "peak memory", "messages"

# The parts of the wall time, if a program was run with --times.
PARTS = READ, SOLVE, WRITE = "reading time", "solving time", "writing time"
BASELINES = {"ss": "heap_dijkstra", "p2p": "pairs_dijkstra"}


class Case:
    """One graph with one question file, the commands that answer it, and what each took in each round."""

    # Whether it is run in the first rounds alone, or only in the first.
    is_long = is_once = False

    def __init__(self, files, kind):
        self.files, self.kind = files, kind
        self.taken, self.found = {}, {}

    def title(self):
        return "%s, %s" % (self.files.name, self.kind)

    def commands(self, programs, folder):
        """The command of each program by its name, `diffuse` first."""
        raise NotImplementedError

    def input(self):
        """What the programs have on standard input."""
        return ""

    def messages(self, name, noted, folder):
        """How many messages a program handled that wrote this on standard error, if it says so."""
        return None

    def run(self, programs, folder, turn, own=()):
        """One round: each program once, another one first each time; then the answers are compared. The caller's own
        programs need only give the same distances."""
        commands = list(self.commands(programs, folder).items())
        commands += [(it.name, it.command(self.files.graph, self.files.questions[self.kind])) for it in own]
        turn %= len(commands)
        answers = {name: os.path.join(folder, name + ".answer") for name, _ in commands}
        for name, command in commands[turn:] + commands[:turn]:
            taken, noted = measured(programs["measure"], command, answers[name], self.input())
            taken[MESSAGES] = self.messages(name, noted, folder)
            self.taken.setdefault(name, []).append(taken)
        for name in answers:
            if name in [it.name for it in own]:
                if self.kind != READING and not self.found.get(name, "").startswith(OTHER):
                    self.found[name] = compared(answers["diffuse"], answers[name])
            elif name not in ("diffuse", PEER) and "diffuse" in answers:
                compare_bytes(self.title(), answers["diffuse"], answers[name])
        for path in answers.values():
            os.remove(path)

    def median(self, name, what):
        return statistics.median(taken[what] for taken in self.taken[name])

    def count(self):
        """How many questions there are."""
        return self.files.count_of(self.kind)

    def each(self, name, what, less=None):
        """What a program took for a question, in each round; without what it took for a case with no questions, if there is one."""
        rounds = [taken[what] for taken in self.taken.get(name, [])] if less is None else self.beyond(less, name, what)
        return [taken / self.count() for taken in rounds]

    def ratios(self, other, what, name="diffuse"):
        """What a program took for one that the other took in the same round; none if either did not run."""
        return ratios([taken[what] for taken in self.taken.get(name, [])], [taken[what] for taken in self.taken.get(other, [])])

    def ratios_to(self, other, what):
        """What diffuse took for one that it took in another case, in the same round; none if either did not run."""
        return ratios([taken[what] for taken in self.taken.get("diffuse", [])], [taken[what] for taken in other.taken.get("diffuse", [])])

    def beyond(self, less, name, what):
        """What a program took beyond a case with less to do, as reading the graph alone, in each round; none if either did not run."""
        return [more[what] - less[what] for more, less in zip(self.taken.get(name, []), less.taken.get(name, []))]

    def beyond_ratios(self, reading, other):
        """The processor time of diffuse beyond reading for one that the other took in the same round, where that is above 0."""
        return ratios(*(self.beyond(reading, name, TIME) for name in ("diffuse", other)))


def ratios(ours, theirs):
    """Ratios round by round. One to nothing says nothing, which happens at a hundredth of the sizes."""
    return [one / two for one, two in zip(ours, theirs) if two > 0]


class Plain(Case):
    """The one-thread solver beside the baseline and, for one source, LEMON's program."""

    def __init__(self, files, kind, is_long=False):
        super().__init__(files, kind)
        self.is_long = is_long

    def commands(self, programs, folder):
        questions, kind = self.files.questions[self.kind], self.files.word_of(self.kind)
        commands = {"diffuse": [programs["diffuse"], "solve", self.files.graph, questions, "--plain", "--times"]}
        if kind in BASELINES:
            commands[BASELINE] = [programs[BASELINES[kind]], self.files.graph, questions, "--times"]
        if PEER in programs and self.kind == ONE_SOURCE and self.files.marked:
            commands[PEER] = [programs[PEER], "-q", self.files.marked]
        return commands


class Own:
    """A program of the caller's own: NAME=COMMAND, with {graph} and {questions} where the files go, or else at the end."""

    def __init__(self, text):
        self.name, found, words = text.partition("=")
        self.words = shlex.split(words)
        if not found or not self.words or not re.fullmatch(r"[\w.-]+", self.name) or self.name in ("diffuse", BASELINE, DIFFUSING, THREADS, PEER):
            stop("--program takes NAME=COMMAND, with a name of your own: %r" % text)
        program = shutil.which(self.words[0])
        if program is None:
            stop("there is no program %s" % self.words[0])
        self.words[0] = os.path.abspath(program)

    def command(self, graph, questions):
        if not any("{graph}" in word or "{questions}" in word for word in self.words):
            return self.words + [graph, questions]
        return [word.replace("{graph}", graph).replace("{questions}", questions) for word in self.words]


class Wide(Case):
    """The one-thread solver with so many questions side by side."""

    def __init__(self, files, kind, width):
        super().__init__(files, kind)
        self.width = width

    def title(self):
        return "%s, %s, width %d" % (self.files.name, self.kind, self.width)


class Threaded(Wide):
    """Questions side by side by the one-thread solver, beside the plain C++ program with as many threads."""

    def commands(self, programs, folder):
        graph, questions, width = self.files.graph, self.files.questions[self.kind], str(self.width)
        return {
            "diffuse": [programs["diffuse"], "solve", graph, questions, "--plain", "--width", width],
            BASELINE: [programs["threads_dijkstra"], graph, questions, width],
        }


class Batch(Wide):
    """Several questions of one file by the one-thread solver, beside one source of the same graph."""

    def commands(self, programs, folder):
        words = ["solve", self.files.graph, self.files.questions[self.kind], "--plain", "--width", str(self.width)]
        return {"diffuse": [programs["diffuse"]] + words}


class Engine(Case):
    """Workers beside the baseline, and beside the same rule in plain C++ with the same settings and order of messages."""

    def __init__(self, files, kind, settings=(1, 1, 1, 1024), best_first=False, same_rule=True):
        super().__init__(files, kind)
        self.settings, self.best_first = dict(zip(("workers", "shards", "width", "budget"), settings)), best_first
        self.same_rule, self.is_long = same_rule, not best_first

    def title(self):
        settings = ["%s %d" % it for it in self.settings.items()] + (["best first"] if self.best_first else [])
        return ", ".join([self.files.name, self.kind] + settings)

    def order(self):
        return "best first" if self.best_first else "as they come"

    def commands(self, programs, folder):
        graph, questions = self.files.graph, self.files.questions[self.kind]
        settings = [word for name, number in self.settings.items() for word in ("--" + name, str(number))]
        words, order = (["--best-first"], ["best-first"]) if self.best_first else ([], [])
        commands = {
            "diffuse": [programs["diffuse"], "solve", graph, questions] + settings + words + ["--accounts", accounts_in(folder)],
            BASELINE: [programs["heap_dijkstra"], graph, questions],
        }
        if self.same_rule:
            commands[DIFFUSING] = [programs["diffusing"], graph, questions] + settings[1::2] + order
        return commands

    def messages(self, name, noted, folder):
        if name == DIFFUSING:
            return int(noted)
        return delivered(accounts_in(folder)) if name == "diffuse" else None

    def handled(self, name="diffuse"):
        """How many messages a program handled in the last round."""
        return self.taken[name][-1][MESSAGES]

    def each_arc(self):
        """How many messages diffuse handled for an arc and question, in each round; one more for each question is counted off."""
        asked = self.count()
        return [(taken[MESSAGES] - asked) / (asked * self.files.arcs) for taken in self.taken.get("diffuse", [])]

    def counts_agree(self):
        """Whether both programs handled the same number of messages, as they do with one worker."""
        return self.settings["workers"] > 1 or not self.same_rule or self.handled() == self.handled(DIFFUSING)


class Dealt(Engine):
    """Workers that each have questions of their own, beside the baseline and the plain C++ program with as many threads."""

    def __init__(self, files, kind, settings):
        super().__init__(files, kind, settings, best_first=True, same_rule=False)

    def title(self):
        return super().title() + ", dealt by questions"

    def commands(self, programs, folder):
        commands, workers = super().commands(programs, folder), str(self.settings["workers"])
        commands["diffuse"] += ["--deal", "questions"]
        commands[THREADS] = [programs["threads_dijkstra"], self.files.graph, self.files.questions[self.kind], workers]
        return commands


def accounts_in(folder):
    return os.path.join(folder, "diffuse.accounts")


def delivered(accounts):
    """How many messages were delivered in all diffusions of a run, by its accounts."""
    with open(accounts) as file:
        return sum(int(line.split()[4]) for line in file if line.startswith("t "))


def measured(measure, command, answer, text=""):
    """What one run took on this standard input, with its output left in the file `answer`, and what it wrote on standard error."""
    if os.path.isfile(answer):
        os.remove(answer)
    run = subprocess.run([measure, answer] + command, input=text, stdout=subprocess.PIPE, stderr=subprocess.PIPE, text=True, check=True)
    time, wall, peak, status = run.stdout.split()
    if status != "0":
        stop("status %s of: %s: %s" % (status, " ".join(command), run.stderr.strip()))
    shown = re.search(r"^times: read ([\d.]+) solve ([\d.]+) write ([\d.]+)$", run.stderr, re.M)
    parts = dict(zip(PARTS, map(float, shown.groups()))) if shown else {}
    return {TIME: float(time), WALL: float(wall), PEAK: int(peak) * 1024, **parts}, run.stderr.strip()


def check_launcher(measure):
    """Stops if the peak of a small program counts what this script holds."""
    ballast = b"\1" * (200 << 20)
    peak = measured(measure, ["/bin/true"], os.devnull)[0][PEAK]
    if peak * 10 > len(ballast):
        stop("the launcher reports a peak of %d bytes for /bin/true, so its figures of memory are wrong" % peak)
