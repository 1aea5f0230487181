"""Pairs that a service answers while its client waits, beside a process for each pair."""
import os
import statistics
import subprocess
import time

from cases import MESSAGES, PEAK, TIME, WALL, Case, measured
from inputs import NEAR_PAIRS, stop

# How long a service takes from its start to its first answer.
FIRST = "first answer"

BY_SEARCH, BY_FACTORS = ["--plain"], ["--factors"]


class Way:
    """How so many pairs are asked for: by a service with these words, some pairs a request, or, with none, by a process for each."""

    def __init__(self, words, each, count):
        self.words, self.each, self.count = words, each, count
        self.wide = ["--width", str(each)] if each > 1 else []
        how = "%s a request" % ("one pair" if each == 1 else "%d pairs" % each) if each else "a process for each pair"
        self.name = "%s, %s%s" % (words[0], how, ", width %d" % each if self.wide else "")


def ways_of(few, many):
    """A service by the search with few pairs, and by factors with many: one and four pairs a request."""
    return [Way(words, each, count) for words, count in ((BY_SEARCH, few), (BY_FACTORS, many)) for each in (1, 4)]


def request(pairs):
    return "p aux sp p2p %d\n%s" % (len(pairs), "".join(pairs))


def without_headers(text):
    return "".join(line for line in text.splitlines(True) if not line.startswith("p "))


class Service:
    """A service over a graph, and its client's end of two pipes."""

    def __init__(self, program, graph, words):
        self.run = subprocess.Popen([program, "serve", graph] + words, stdin=subprocess.PIPE, stdout=subprocess.PIPE, text=True)

    def ask(self, pairs):
        """The reply to one request: it is whole with the last line of the answer to its last pair."""
        self.run.stdin.write(request(pairs))
        self.run.stdin.flush()
        lines, answered = [], 0
        while answered < len(pairs):
            lines.append(self.run.stdout.readline())
            if lines[-1][:1] not in ("p", "q", "d", "r", "u"):
                stop("a service replies %r" % lines[-1])
            answered += lines[-1][:1] in ("r", "u")
        return "".join(lines)

    def time(self):
        """Processor time so far, in seconds, by the system's clock of this process."""
        return time.clock_gettime(~self.run.pid << 3 | 2)

    def peak(self):
        with open("/proc/%d/status" % self.run.pid) as file:
            return next(int(line.split()[1]) * 1024 for line in file if line.startswith("VmHWM"))

    def end(self):
        self.run.stdin.close()
        if self.run.wait():
            stop("a service ends with status %d" % self.run.returncode)


class Served(Case):
    """The same pairs in several ways, each of which answers as many of them as it is said to."""

    def __init__(self, files, kind, ways, is_long=False):
        super().__init__(files, kind)
        self.ways, self.is_long = ways, is_long

    def title(self):
        return "%s, %s pairs by services" % (self.files.name, "near" if self.kind == NEAR_PAIRS else "random")

    def pairs(self):
        with open(self.files.questions[self.kind]) as file:
            return [line for line in file if line.startswith("q ")]

    def run(self, programs, folder, turn):
        turn, answers = turn % len(self.ways), []
        for way in self.ways[turn:] + self.ways[:turn]:
            pairs = self.pairs()[:way.count]
            answers.append(self.by_service(programs["diffuse"], way, pairs) if way.each else self.by_processes(programs, folder, way, pairs))
        whole = max(answers, key=len)
        if not all(whole.startswith(answer) for answer in answers):
            stop("the answers to the pairs of %s differ: by services with %s" % (self.files.graph, "; ".join(way.name for way in self.ways)))

    def keep(self, way, time, wall, peak, first):
        self.taken.setdefault(way.name, []).append({TIME: time, WALL: wall, PEAK: peak, MESSAGES: None, FIRST: first})

    def by_service(self, program, way, pairs):
        """What a service answers. Its clock begins when it has read the graph and answered a first pair."""
        started, service = time.monotonic(), Service(program, self.files.graph, way.words + way.wide)
        service.ask(pairs[-1:])
        began, before, replies = time.monotonic(), service.time(), []
        for first in range(0, len(pairs), way.each):
            replies.append(service.ask(pairs[first:first + way.each]))
        self.keep(way, service.time() - before, time.monotonic() - began, service.peak(), began - started)
        service.end()
        return without_headers("".join(replies))

    def by_processes(self, programs, folder, way, pairs):
        """What processes answer that read the graph and one pair each, one after the other."""
        replies, taken, answer = [], [], os.path.join(folder, "diffuse.answer")
        for pair in pairs:
            command = [programs["diffuse"], "solve", self.files.graph, "-"] + way.words
            taken.append(measured(programs["measure"], command, answer, request([pair]))[0])
            with open(answer) as file:
                replies.append(file.read())
        os.remove(answer)
        self.keep(way, sum(it[TIME] for it in taken), sum(it[WALL] for it in taken), max(it[PEAK] for it in taken), taken[0][WALL])
        return without_headers("".join(replies))

    def each_by(self, way, what):
        """What a pair takes in this way, in each round."""
        return [taken[what] / way.count for taken in self.taken.get(way.name, [])]

    def pays_after(self, way):
        """After how many pairs a service with this way has caught up with the first way, one that answers by the search."""
        search = self.ways[0]
        once = self.median(way.name, FIRST) - self.median(search.name, FIRST)
        saved = statistics.median(self.each_by(search, WALL)) - statistics.median(self.each_by(way, WALL))
        return max(1, 1 + once / saved) if saved > 0 else None
