"""Cases of which some may be chosen, with their tables."""
from cases import PEAK, TIME, Plain
from inputs import READING, stop
from report import answers_of, beyond_of, seconds, size, table_of


class Chosen:
    """The cases of a plan whose titles contain one of some words, or all cases."""

    def __init__(self, only):
        self.only = [word.lower() for word in only]

    def all(self):
        """The cases that are run."""
        kept = [case for case in self.cases() if not self.only or any(word in case.title().lower() for word in self.only)]
        return kept or stop("--only takes a part of a title: " + "; ".join(case.title() for case in self.cases()))

    def make(self, folder, programs):
        for case in self.all():
            case.files.make(folder, programs, case.kind)

    def own_run(self, case):
        """Whether the caller's own programs run on a case: one that a program answers alone, from files."""
        return isinstance(case, Plain)

    def plain_tables(self, cases, reading):
        """Time, time without reading, memory, and how the answers of the caller's own programs are."""
        asked = [(case, reading.get(case.files)) for case in cases if case.kind != READING]
        return [table_of("Processor time with --plain", TIME, seconds, cases),
                beyond_of("Processor time with --plain without reading the graph (what reading alone took is taken off, round by round)", asked),
                table_of("Peak memory with --plain", PEAK, size, [case for case, _ in asked]), answers_of(cases)]
