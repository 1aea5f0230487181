"""How one Debian package is built from its files."""
import gzip
import re
import shutil
import subprocess
import tempfile
from collections import namedtuple
from email.utils import formatdate
from pathlib import Path

from release import TOP

LIBRARIES = "lib/x86_64-linux-gnu"
DEBIAN = TOP / "packaging/debian"
MAINTAINER = "Zikkolen maintainers <maintainers@users.noreply.zikkolen.example>"
# The version from which each set of symbols is there, by the name of its node.
NODES = {"DIFFUSE_1": "1.1.0", "DIFFUSE_1_2": "1.2.0"}
Built = namedtuple("Built", "release package root")


def write_package(built, made):
    """Writes the package's .deb."""
    write_documents(built)
    set_modes(built.root)
    control = built.root / "DEBIAN"
    control.mkdir()
    if built.package.name == "libdiffuse1":
        write_symbols(built, control)
    write_scripts(built, control)
    (control / "control").write_text(control_of(built))
    (control / "md5sums").write_text(sums_of(built))
    file = made / f"{built.package.name}_{built.release.version}-1_amd64.deb"
    built.release.run("dpkg-deb", "--root-owner-group", "-Zxz", "--threads-max=1", "--build", built.root, file, stdout=subprocess.DEVNULL)


def set_modes(root):
    """Gives folders and programs, but no shared library, leave to be entered and run."""
    for file in [root, *root.rglob("*")]:
        if not file.is_symlink():
            runs = file.is_dir() or file.stat().st_mode & 0o100 and ".so." not in file.name
            file.chmod(0o755 if runs else 0o644)


def write_documents(built):
    """The licence, the changes, and what is compressed."""
    documents = built.root / "usr/share/doc" / built.package.name
    documents.mkdir(parents=True, exist_ok=True)
    (documents / "copyright").write_text(copyright_text())
    (documents / "changelog").write_bytes((TOP / "CHANGELOG.md").read_bytes())
    (documents / "changelog.Debian").write_text(changes_of(built.release))
    for file in [documents / "changelog", documents / "changelog.Debian", *built.root.glob("usr/share/man/*/*")]:
        compress(file)


def compress(file):
    with open(f"{file}.gz", "wb") as into, gzip.GzipFile("", "wb", 9, into, 0) as text:
        text.write(file.read_bytes())
    file.unlink()


def copyright_text():
    """The licences, in the form that Debian's tools read."""
    own, _, licence = (TOP / "LICENSE-MIT").read_text().partition("\n\n")[2].partition("\n\n")
    text = "\n".join(f" {line}" if line else " ." for line in licence.strip().splitlines())
    return f"""Format: https://www.debian.org/doc/packaging-manuals/copyright-format/1.0/
Upstream-Name: diffuse

Files: *
Copyright: {own.removeprefix("Copyright (c) ")}
License: Expat or Apache-2.0

License: Expat
{text}

License: Apache-2.0
 On Debian systems the full text is in /usr/share/common-licenses/Apache-2.0.
"""


def changes_of(release):
    return f"""diffuse ({release.version}-1) unstable; urgency=medium

  * Release {release.version}: see changelog.gz.

 -- {MAINTAINER}  {formatdate(int(release.seconds))}
"""


def control_of(built):
    package, release = built.package, built.release
    depends = [package.depends.format(version=f"{release.version}-1")] if package.depends else []
    size = sum(file.stat().st_size for file in built.root.rglob("*") if file.is_file() and not file.is_symlink()) // 1024 + 1
    return f"""Package: {package.name}
Source: diffuse
Version: {release.version}-1
Architecture: amd64
Maintainer: {MAINTAINER}
Installed-Size: {size}
Section: {package.section}
Priority: optional
Depends: {", ".join([*needed_by(built), *depends])}
Description: {package.summary}
 {package.text}
"""


def needed_by(built):
    """The packages of the libraries that the package's programs and libraries need."""
    programs = [file for file in [*built.root.glob("usr/bin/*"), *built.root.glob(f"usr/{LIBRARIES}/*.so.*.*")] if not file.is_symlink()]
    if not programs:
        return []
    with tempfile.TemporaryDirectory() as room:
        (Path(room) / "debian").mkdir()
        (Path(room) / "debian/control").write_text("Source: diffuse\n\nPackage: diffuse\nArchitecture: amd64\n")
        command = ["dpkg-shlibdeps", "-O", "--ignore-missing-info", *(f"-e{file}" for file in programs)]
        found = subprocess.run(command, cwd=room, stdout=subprocess.PIPE, stderr=subprocess.DEVNULL, text=True, check=True).stdout
    return re.search(r"shlibs:Depends=(.*)", found)[1].split(", ")


def write_symbols(built, control):
    """Which symbols the library has, and from which version on."""
    library = next((built.root / f"usr/{LIBRARIES}").glob("libdiffuse.so.*.*.*"))
    named = subprocess.run(["nm", "-D", "--defined-only", "--with-symbol-versions", library], stdout=subprocess.PIPE, text=True, check=True).stdout
    symbols = sorted(re.findall(r" [A-Z] (\w+)@@?(\w[\w.]*)$", named, re.M))
    lines = [f" {name}@{node} {NODES[node]}" for name, node in symbols]
    lines += [f" {node}@{node} {NODES[node]}" for node in sorted({node for _, node in symbols}) if (node, node) not in symbols]
    (control / "symbols").write_text("\n".join(["libdiffuse.so.1 libdiffuse1 #MINVER#", *sorted(set(lines))]) + "\n")
    (control / "shlibs").write_text(f"libdiffuse 1 libdiffuse1 (>= {built.release.version})\n")
    (control / "triggers").write_text("activate-noawait ldconfig\n")


def write_scripts(built, control):
    """What runs before and after installation and removal, and which files an administrator edits."""
    for script in ("postinst", "prerm", "postrm"):
        file = DEBIAN / f"{built.package.name}.{script}"
        if file.exists():
            shutil.copy(file, control / script)
            (control / script).chmod(0o755)
    edited = [file for file in sorted(built.root.glob("etc/**/*")) if file.is_file()]
    if edited:
        (control / "conffiles").write_text("".join(f"/{file.relative_to(built.root)}\n" for file in edited))


def sums_of(built):
    files = [file for file in sorted(built.root.rglob("*")) if file.is_file() and not file.is_symlink() and "DEBIAN" not in file.parts]
    command = ["md5sum", *(str(file.relative_to(built.root)) for file in files)]
    return subprocess.run(command, cwd=built.root, stdout=subprocess.PIPE, text=True, check=True).stdout
