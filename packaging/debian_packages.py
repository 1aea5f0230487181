"""The Debian packages of a release: which files each has, and what its control file says."""
import re
import subprocess
from collections import namedtuple
from pathlib import Path

from debian_build import LIBRARIES, Built, write_package
from release import TOP, sum_of, unpack

# What a package is: the stanza of its control file without the fields that all have, and what stages its files.
Package = namedtuple("Package", "name section depends summary text stage")
OWN_LIBRARY = "libdiffuse1 (= {version})"


def stage_program(release, root):
    release.install(root)
    examples = root / "usr/share/doc/diffuse"
    examples.mkdir(parents=True)
    unpack("examples", examples)
    override(root, "diffuse", "unstripped-binary-or-object [usr/bin/diffuse]  # the bytes are those whose checksum PROOFS has")


def override(root, name, text):
    """Says why lintian's word does not hold here."""
    file = root / "usr/share/lintian/overrides" / name
    file.parent.mkdir(parents=True)
    why = text.partition("  # ")
    file.write_text(f"# {why[2]}\n{name}: {why[0]}\n")


def install_library(release, root):
    release.run("examples/c/install", "/usr", release.archive, DESTDIR=root, LIBDIR=LIBRARIES, stdout=subprocess.DEVNULL)


def keep_only(root, patterns):
    """Removes each file that no pattern matches."""
    kept = {file for pattern in patterns for file in root.glob(pattern)}
    for file in sorted(root.rglob("*"), reverse=True):
        if file.is_dir() and not file.is_symlink():
            if not any(file.iterdir()):
                file.rmdir()
        elif file not in kept:
            file.unlink()


def stage_library(release, root):
    install_library(release, root)
    keep_only(root, [f"usr/{LIBRARIES}/libdiffuse.so.*"])
    release.run("strip", "--strip-unneeded", root / f"usr/{LIBRARIES}/libdiffuse.so.{release.version}")


def stage_headers(release, root):
    install_library(release, root)
    keep_only(root, ["usr/include/*", f"usr/{LIBRARIES}/libdiffuse.a", f"usr/{LIBRARIES}/libdiffuse.so", f"usr/{LIBRARIES}/pkgconfig/*", f"usr/{LIBRARIES}/cmake/**/*"])


def stage_server(release, root):
    files = {"usr/bin/diffuse-server": release.server, "usr/share/man/man8/diffuse-server.8": TOP / "server/diffuse-server.8",
             "lib/systemd/system/diffuse-server.service": TOP / "packaging/debian/diffuse-server.service",
             "etc/default/diffuse-server": TOP / "packaging/debian/diffuse-server.default",
             "usr/share/doc/diffuse-server/README.md": TOP / "server/README.md"}
    for place, file in files.items():
        release.run("install", "-D", "-m", "755" if place.startswith("usr/bin") else "644", file, root / place)


def stage_python(release, root):
    packages = root / "usr/lib/python3/dist-packages"
    unpack("bindings/python/src/diffuse", release.room / "python")
    for file in sorted((release.room / "python/bindings/python/src/diffuse").iterdir()):
        release.run("install", "-D", "-m", "644", file, packages / "diffuse" / file.name)
    info = packages / f"diffuse-{release.version}.dist-info"
    info.mkdir()
    (info / "METADATA").write_text(f"Metadata-Version: 2.1\nName: diffuse\nVersion: {release.version}\n")


PACKAGES = (
    Package("diffuse", "science", "", "answers path questions over road graphs, proved right",
            """Reads road graphs and questions in the formats of the 9th DIMACS
 Implementation Challenge, and answers with shortest, widest, most reliable
 or other best routes. That its answers are right is proved.""", stage_program),
    Package("libdiffuse1", "libs", "", "proved library for routes in road graphs",
            """Keeps a road graph in memory and answers with routes, trees and tables.
 That its answers are right is proved. This is the shared library.""", stage_library),
    Package("libdiffuse-dev", "libdevel", OWN_LIBRARY, "proved library for routes in road graphs (headers)",
            """Keeps a road graph in memory and answers with routes, trees and tables.
 These are its headers for C and C++, the static library, and what
 pkg-config and CMake read.""", stage_headers),
    Package("diffuse-server", "net", "", "answers routes in a road graph over HTTP",
            """Answers routes, trees, tables and nearest vertices in JSON, from one road
 graph in memory, by a proved library. It starts once a graph is named in
 /etc/default/diffuse-server.""", stage_server),
    Package("python3-diffuse", "python", f"python3:any, {OWN_LIBRARY}", "routes in maps and road graphs (Python package)",
            """Takes maps of OpenStreetMap, tables of roads and numbered graphs, and
 answers with routes, isochrones and tables, by a proved library.""", stage_python),
)


def write_packages(release, made):
    for package in PACKAGES:
        root = release.room / "packages" / package.name
        root.mkdir(parents=True)
        package.stage(release, root)
        write_package(Built(release, package, root), made)
