"""Questions by factors, beside the search and the baseline."""
from cases import BASELINE, BASELINES, Case
from inputs import is_newer, write_by

# The name of the program with factors in the figures.
FACTORS = "diffuse --factors"


class Factored(Case):
    """Questions of a file by `solve --factors`, beside `solve --plain` and the baseline."""

    def __init__(self, files, kind, is_long=False):
        super().__init__(files, kind)
        self.is_long = is_long

    def title(self):
        return "%s by factors, %s" % (self.files.name, self.kind)

    def commands(self, programs, folder):
        baseline = programs[BASELINES[self.files.word_of(self.kind)]]
        return {"diffuse": self.ours(programs) + ["--plain", "--times"], FACTORS: self.ours(programs) + ["--factors", "--times"],
                BASELINE: [baseline, self.files.graph, self.files.questions[self.kind], "--times"]}

    def ours(self, programs):
        return [programs["diffuse"], "solve", self.files.graph, self.files.questions[self.kind]]


class FactoredAlone(Factored):
    """The same without the others, which would take long."""

    def title(self):
        return super().title() + " alone"

    def commands(self, programs, folder):
        return {FACTORS: super().commands(programs, folder)[FACTORS]}


class ByOrder(FactoredAlone):
    """The same by an order that `diffuse order` finds with care and writes before the first round."""

    def title(self):
        return super().title() + " with care"

    def commands(self, programs, folder):
        order = self.files.graph + ".order"
        if not all(is_newer(order, it) for it in (programs["diffuse"], self.files.graph)):
            write_by([programs["diffuse"], "order", self.files.graph], order)
        return {name: command + ["--order", order] for name, command in super().commands(programs, folder).items()}


class Bundled(Factored):
    """The same, with the graph and the questions on standard input."""

    def title(self):
        return "%s by factors, %s as a bundle" % (self.files.name, self.kind)

    def ours(self, programs):
        return [programs["diffuse"], "bundle"]

    def input(self):
        return "".join(open(path, encoding="ascii").read() for path in (self.files.graph, self.files.questions[self.kind]))
