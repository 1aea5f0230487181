"""Tries must-fail edits: whether the prover refuses the function that an edit changes.

The edits of a crate are tried in turn, each over what was proved for those before it, and over what the tree has kept of the
crate's last check (`rt ci` keeps nothing). Of a crate only the functions that its edits change are proved, and those that they
call."""
import os
import re
import shutil
import subprocess
import tempfile
import time
from concurrent.futures import ThreadPoolExecutor
from pathlib import Path
from threading import Lock

from common import TOP

# An edit that takes longer, in seconds by the clock, is named: a dear one is worth another form.
LONG = 25
FUNCTION = re.compile(r"^ *(?:pub(?:\([a-z]+\))? )?(?:const )?(?:unsafe )?(?:extern \"C\" )?fn (\w+)", re.M)
IMPL = re.compile(r"^impl\b(?:<.*?>)? ?(.*?)(?:\{|$)", re.M)
TOLD = re.compile(r"^(?:note: )?(?:\./)?(src|specs|proofs)/\S*?:\d+:\d+:")
NOT_PROVED = re.compile(r"^fn \w+::(\S+): (?:not proved|no proof)")
# A goal that is left open: one whose answer is wrong, by the file of its function; a measure that a loop lacks, by the same; or one
# that has no answer, which is printed just before its function.
WRONG_ANSWER = re.compile(r"^(?:\./)?proofs/(\S+)/\w+\.antt:\d+:\d+: error: `([^` ]+)`")
NO_MEASURE = re.compile(r"^note: `([^` ]+)` of proofs/(\S+)/Invariants\.antt is yours to choose")
NO_ANSWER = re.compile(r"^note: src/\S+: .*\(`([^` ]+)`\)")
REFUSED_BY = re.compile(r"# refused by: (\S+): (\S+)$")
UNREAD = re.compile(r"is not in scope|has no field|is no name|operand is missing|expected the end|cannot continue")


def libraries():
    """The libraries that each crate of crates.txt names, and the crates that are static libraries."""
    named, static = {}, set()
    for line in (TOP / "crates.txt").read_text().splitlines():
        head, colon, names = line.partition("#")[0].partition(":")
        if colon:
            crate, *words = head.split()
            named[crate] = names.split()
            static |= {crate} if "staticlib" in words else set()
    return named, static


class Prover:
    """Checks copies of crates over the libraries that `rt ci` built in a tree."""

    def __init__(self, tree):
        self.kit = Path(subprocess.run(["rt", "doc"], stdout=subprocess.PIPE, text=True, check=True).stdout.strip()).parent
        self.tree, (self.named, self.static) = tree, libraries()

    def words(self, crate):
        """The words that check a crate from within its folder."""
        own = {it: self.tree / "crates" / it / "out/rlib" for it in self.named}
        words = ["--crate-name", crate, "src/lib.rt", "--extern", f"std={self.kit}/rlibs/std.rlib", "-L", f"dependency={self.kit}/rlibs"]
        for name in self.named[crate]:
            words += ["--extern", f"{name}={own.get(name, self.kit / 'rlibs')}/{name}.rlib"]
        for folder in own.values():
            words += ["-L", f"dependency={folder}"]
        words += ["--crate-type", "staticlib"] if crate in self.static else []
        return [*words, "--antt-project", self.kit / "rattle/logic/antt-project.json", "--logic-built", self.kit / "logic_built"]

    def check(self, crate, folder, kept, functions):
        """Checks these functions of a copy of a crate, or if there are none, all; gives the status and the lines."""
        only = [word for it in functions for word in ("--only", it)]
        ran = subprocess.run([self.kit / "bin/rattle", "check", *self.words(crate), "--incremental", kept, *only], cwd=folder,
                             stdin=subprocess.DEVNULL, stdout=subprocess.PIPE, stderr=subprocess.STDOUT, errors="replace")
        return ran.returncode, ran.stdout.splitlines()


def function_at(text, at, file):
    """The function in which a place of a source file is: its path below the crate, or its type and name; or the module."""
    module = "::".join(Path(file).with_suffix("").parts[1:]).removesuffix("lib")
    name = [it[1] for it in FUNCTION.finditer(text, 0, at)][-1:]
    impl = [it for it in IMPL.finditer(text, 0, at) if "\n}" not in text[it.start():at]]
    of_type = re.findall(r"\w+", impl[-1][1])[:1] if impl else []
    if not name or impl and (not of_type or " for " in impl[-1][1]):
        return module
    return "::".join([*(of_type or filter(None, [module])), *name])


def applied(edit, pairs, folder):
    """Applies the edit to a copy of its crate, and gives the functions that it changes."""
    functions = []
    for file, old, new in pairs:
        path = folder / file.strip()
        text = path.read_text()
        functions.append(function_at(text, text.index(old), file.strip()))
        path.write_text(text.replace(old, new))
    return list(dict.fromkeys(functions))


def named_goal(edit):
    """The goal that the edit's first line names, after its function; none if there is no such line."""
    named = REFUSED_BY.match(edit.read_text().partition("\n")[0])
    return named and f"{named[1]}: {named[2]}"


def open_goals(lines):
    """The goals that were not proved, each after its function, but those whose answers name what is not there."""
    found, goals = [], []
    for line in lines:
        answer, function = WRONG_ANSWER.match(line), NOT_PROVED.match(line)
        if answer and not UNREAD.search(line):
            found.append(f"{answer[1].replace('/', '::')}: {answer[2]}")
        found += [f"{path.replace('/', '::')}: {measure}" for measure, path in NO_MEASURE.findall(line)]
        goals += NO_ANSWER.findall(line)
        if function:
            found, goals = found + [f"{function[1]}: {it}" for it in goals], []
    return found


def why_not_refused(status, lines, whole, goal):
    """Nothing if the prover has refused a function, by this goal if one is named; otherwise what is wrong. The crate without the edit
    is proved."""
    last = lines[-1] if lines else ""
    if status == 0:
        return "it is still proved"
    if status != 1 or not last.startswith("logic=not-proved" if whole else "only="):
        return "it did not reach the prover: " + " | ".join(lines[:6])
    told = [it for it in lines if TOLD.match(it)]
    unread = [it for it in told if ": error" in it and TOLD.match(it)[1] in ("src", "specs") and UNREAD.search(it)]
    if unread:
        return f"the prover cannot read it: {unread[0]}"
    if not whole and not any(NOT_PROVED.match(it) for it in lines):
        return f"no function is refused: {last}"
    found = open_goals(lines)
    return None if goal in (None, *found) else f"it is refused, and not by {goal}, but by {found}"


class Trial:
    """The edits of one crate, tried in turn."""

    def __init__(self, prover, crate, room):
        self.prover, self.crate, self.kept = prover, crate, Path(room) / "kept"
        before = prover.tree / "crates" / crate / "out/incremental"
        if before.exists():
            shutil.copytree(before, self.kept)

    def copy(self, folder):
        for part in ("src", "specs", "proofs"):
            if (TOP / "crates" / self.crate / part).exists():
                shutil.copytree(TOP / "crates" / self.crate / part, folder / part)

    def wrong(self, edit, pairs):
        """Nothing if the edit is refused; otherwise why not. If the functions that it changes are proved, all are tried."""
        with tempfile.TemporaryDirectory(prefix="rt-edit-") as room:
            folder = Path(room)
            self.copy(folder)
            functions = applied(edit, pairs, folder)
            status, lines = self.prover.check(self.crate, folder, self.kept, functions)
            if status == 2:
                functions = list(dict.fromkeys(it.rpartition("::")[0] for it in functions))
                status, lines = self.prover.check(self.crate, folder, self.kept, functions)
            whole = status in (0, 2)
            if whole:
                status, lines = self.prover.check(self.crate, folder, self.kept, [])
            return why_not_refused(status, lines, whole, named_goal(edit))


def weight(crate):
    """The size of a crate's proofs."""
    return sum(it.stat().st_size for it in (TOP / "crates" / crate / "proofs").rglob("*.antt"))


def try_crate(prover, crate, edits, pairs_of, say):
    """Tries the edits of a crate, and says what is wrong of each, and how long it took. The first one also takes what its functions call."""
    with tempfile.TemporaryDirectory(prefix="rt-edits-") as room:
        trial = Trial(prover, crate, room)
        for edit in edits:
            began = time.monotonic()
            wrong = trial.wrong(edit, list(pairs_of(edit)))
            say(f"{crate}/{edit.stem}", wrong, time.monotonic() - began)


def try_edits(tree, edits, pairs_of, lanes, tally):
    """Tries edits, crates side by side, the largest first, over the libraries built in a tree, and counts those that are refused."""
    prover, crates, lock = Prover(tree), {}, Lock()
    for edit in edits:
        crates.setdefault(edit.parts[-3], []).append(edit)

    def say(name, why, seconds):
        with lock:
            if seconds > LONG:
                print(f"{name} took {seconds:.0f} s")
            tally.count(f"{name} is refused", not why, why)

    with ThreadPoolExecutor(lanes) as pool:
        for tried in [pool.submit(try_crate, prover, it, crates[it], pairs_of, say) for it in sorted(crates, key=weight, reverse=True)]:
            tried.result()
