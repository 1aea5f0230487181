"""A release: what it is made of, and the files that are no Debian packages."""
import hashlib
import os
import shutil
import subprocess
import tarfile
from pathlib import Path

TOP = Path(__file__).resolve().parent.parent
TOOLS = ("rt", "git", "cc", "g++", "make", "ld", "objcopy", "dpkg-deb", "dpkg-shlibdeps")
HEADERS = ("microhttpd.h", "nlohmann/json.hpp")
LICENCES = ("LICENSE-MIT", "LICENSE-APACHE")


def missing_tools():
    """What a release needs and this machine lacks."""
    missing = [tool for tool in TOOLS if not shutil.which(tool)]
    return missing + [header for header in HEADERS if "g++" not in missing and not has_header(header)]


def has_header(name):
    command = ["g++", "-std=c++17", "-M", "-x", "c++", "-"]
    return subprocess.run(command, input=f"#include <{name}>\n", text=True, capture_output=True).returncode == 0


def output_of(*command):
    return subprocess.run(command, cwd=TOP, stdout=subprocess.PIPE, text=True, check=True).stdout.strip()


def version_of_header():
    """The version, which include/diffuse.h says for all."""
    numbers = dict(line.split()[1:3] for line in (TOP / "include/diffuse.h").read_text().splitlines() if line.startswith("#define DIFFUSE_VERSION_"))
    return ".".join(numbers[f"DIFFUSE_VERSION_{part}"] for part in ("MAJOR", "MINOR", "PATCH"))


class Release:
    """The version, the time of the commit, and the program, library and server, as files in a room."""

    def __init__(self, room, program, archive):
        self.room, self.version = room, version_of_header()
        self.commit, self.seconds = output_of("git", "log", "-1", "--format=%H %ct").split()
        self.settings = {**os.environ, "SOURCE_DATE_EPOCH": self.seconds, "LC_ALL": "C", "TZ": "UTC"}
        self.origins = {}
        self.program = self.built("program", program, "crates/diffuse/out/diffuse", ["./demo"], TOP)
        self.archive = self.built("archive", archive, "crates/diffuse_c/out/libdiffuse_c.a", ["rt", "lib"], TOP / "crates/diffuse_c")
        self.prefix = room / "library"
        self.run("examples/c/install", self.prefix, self.archive, stdout=subprocess.DEVNULL)
        self.run("server/build", self.prefix, room, CXXFLAGS="-O2 -g0")
        self.server = room / "diffuse-server"
        self.run("strip", self.server)

    def built(self, kind, given, usual, command, folder):
        """A file that is given, or else the usual one, which a command proves and builds. Takes note of what is known of its proof."""
        if given:
            self.origins[kind] = f"as given by --{kind}; whether it was proved is not known to ./package"
            return given.resolve()
        self.origins[kind] = f"built by `{' '.join(command)}`, which builds only what it has proved"
        if not (TOP / usual).exists():
            subprocess.run(command, cwd=folder, check=True, stdin=subprocess.DEVNULL)
        return TOP / usual

    def run(self, *command, stdout=None, cwd=TOP, **settings):
        """Runs a command in the top folder, with the time of the commit as its time."""
        subprocess.run(command, cwd=cwd, check=True, stdout=stdout, env={**self.settings, **{it: str(to) for it, to in settings.items()}})

    def install(self, root):
        """Installs the program under a root, as ./install does."""
        self.run("./install", PROGRAM=self.program, DESTDIR=root, PREFIX="/usr", stdout=subprocess.DEVNULL)

    def pack(self, folder, into):
        """Packs a folder, in the order of its names and with the time of the commit."""
        ordered = ("--sort=name", "--format=gnu", "--owner=0", "--group=0", "--numeric-owner", "--mode=u+rw,go=rX", f"--mtime=@{self.seconds}")
        self.run("tar", *ordered, "--use-compress-program=gzip -9n", "-cf", into, "-C", folder.parent, folder.name)


def write_archive(release, made):
    """The program with its man page, completions, licences and examples, and ./install, which needs no toolchain."""
    name = f"diffuse-{release.version}-x86_64-linux"
    folder = release.room / name
    folder.mkdir()
    for part in ("install", "docs/diffuse.1", "completions", "examples", *LICENCES):
        unpack(part, folder)
    shutil.copy(release.program, folder / "diffuse")
    release.pack(folder, made / f"{name}.tar.gz")


def unpack(part, folder):
    """Writes files of the commit into a folder."""
    with subprocess.Popen(["git", "archive", "HEAD", part], cwd=TOP, stdout=subprocess.PIPE) as archive:
        with tarfile.open(fileobj=archive.stdout, mode="r|") as files:
            files.extractall(folder)


def write_wheel(release, made):
    """The wheel of the Python package, with the library in it."""
    code = "import sys, wheel_of_library as backend; backend.build_wheel(sys.argv[1])"
    release.run("python3", "-B", "-c", code, made, PYTHONPATH=TOP / "bindings/python/backend", DIFFUSE_LIBRARY=release.prefix / "lib/libdiffuse.so")


def write_source(release, made):
    name = f"diffuse-{release.version}"
    release.run("sh", "-c", f"git archive --prefix={name}/ HEAD | gzip -9n > {made}/{name}.tar.gz")


def write_proofs(release, made):
    """What is known of the proof of the program and the library: by which toolchain, from which commit, and what is trusted."""
    trusted = (TOP / "docs/THEOREM.md").read_text().partition("## What is trusted\n")[2].partition("\n## ")[0].strip()
    (made / "PROOFS").write_text(f"""diffuse {release.version}, of the commit {release.commit}
toolchain: {output_of("rt", "version")}

sha256, and what is known of the proof:
{sum_of(release.program)}  diffuse, {release.origins["program"]}
{sum_of(release.archive)}  libdiffuse_c.a, {release.origins["archive"]}

libdiffuse.a, libdiffuse.so and the server are made of libdiffuse_c.a. The server itself, and the packages for Python, are not proved.

What is trusted (docs/THEOREM.md):

{trusted}
""")


def write_sums(made):
    files = sorted(made.iterdir())
    (made / "SHA256SUMS").write_text("".join(f"{sum_of(file)}  {file.name}\n" for file in files))


def sum_of(file):
    return hashlib.sha256(file.read_bytes()).hexdigest()
