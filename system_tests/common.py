"""What the system tests share: the built program, the installed C library, and cases that are counted."""
import argparse
import os
import subprocess
import sys
from pathlib import Path

TOP = Path(__file__).resolve().parent.parent


def plain_parser_of(page):
    """A command line that is explained by a text."""
    return argparse.ArgumentParser(description=page, formatter_class=argparse.RawDescriptionHelpFormatter)


def parser_of(page):
    """A command line that ends with the program, and is explained by a text."""
    parser = plain_parser_of(page)
    parser.add_argument("program", nargs="?", type=whole_path, default=str(TOP / "crates/diffuse/out/diffuse"))
    return parser


def whole_path(program, maker="./demo builds it"):
    """The whole path of a program; without it there is nothing to try."""
    path = os.path.abspath(program)
    return path if os.access(path, os.X_OK) else sys.exit(f"there is no program {path}; {maker}")


def install_library(prefix, archive):
    """Installs the C library, from an archive or else by proving it."""
    subprocess.run([TOP / "examples/c/install", prefix, *filter(None, [archive])], check=True, stdout=subprocess.DEVNULL)


def output_of(*command, **settings):
    ran = subprocess.run(command, stdout=subprocess.PIPE, stderr=subprocess.STDOUT, text=True, **settings)
    return ran.stdout if ran.returncode == 0 else f"status {ran.returncode}\n{ran.stdout}"


def links_with(*flags):
    """Whether the C compiler links with these flags."""
    command = ["cc", *flags, "-x", "c", "-", "-o", os.devnull]
    return subprocess.run(command, input="int main(void) { return 0; }", text=True, stderr=subprocess.DEVNULL).returncode == 0


class Tally:
    """Reports each case and counts."""

    def __init__(self):
        self.passed = self.failed = 0

    def case(self, name, found, wanted):
        """A case that found one thing and wanted another, or the same."""
        self.count(name, found == wanted, f"wrong: {found}\nand not {wanted}")

    def count(self, name, right, wrong):
        self.passed, self.failed = self.passed + bool(right), self.failed + (not right)
        print(f"{name}: " + ("as it must be" if right else wrong), flush=True)

    def end(self):
        """The last line, and the status."""
        print(f"{self.passed} passed, {self.failed} failed")
        return 1 if self.failed or not self.passed else 0


def run_cases(cases):
    """Cases by name, each of which yields what is wrong; gives the status."""
    tally = Tally()
    for name, case in cases.items():
        wrong = list(case)
        tally.count(name, not wrong, "\n".join(["wrong", *wrong]))
    return tally.end()
