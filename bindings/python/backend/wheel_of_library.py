"""Builds the wheel of the package with the C library in it: a build backend (PEP 517, PEP 660)
without requirements.

The library is DIFFUSE_LIBRARY, if that names one; or it is linked by examples/c/install from the
archive that `rt lib` makes in crates/diffuse_c, or that DIFFUSE_ARCHIVE names.
"""
import base64
import hashlib
import os
import re
import subprocess
import tarfile
import tempfile
import time
import zipfile
from pathlib import Path

HERE = Path(__file__).resolve().parent.parent
TOP = HERE.parent.parent
NAME, VERSION = "diffuse", "1.2.0"
LICENCES = ("LICENSE-APACHE", "LICENSE-MIT")
EXTRAS = {"pandas": ["numpy", "pandas"], "osm": ["osmium"], "plot": ["matplotlib"],
          "geo": ["geopandas"], "networkx": ["networkx"], "fast": ["numpy", "scipy"]}
METADATA = f"""Metadata-Version: 2.1
Name: {NAME}
Version: {VERSION}
Summary: Best values, routes and trees in road graphs, by a library that is proved right
License: MIT OR Apache-2.0
Requires-Python: >=3.9
""" + "".join(f"License-File: {name}\n" for name in LICENCES) + "".join(
    f"Provides-Extra: {extra}\n" + "".join(
        f"Requires-Dist: {package}; extra == '{extra}'\n" for package in packages)
    for extra, packages in EXTRAS.items())


def get_requires_for_build_wheel(config_settings=None):
    return []


def get_requires_for_build_sdist(config_settings=None):
    return []


def get_requires_for_build_editable(config_settings=None):
    return []


def build_wheel(wheel_directory, config_settings=None, metadata_directory=None):
    """Writes the wheel into a folder, and returns its name."""
    found = library()
    files = {f"{NAME}/{path.name}": path.read_bytes() for path in sources()}
    files[f"{NAME}/libdiffuse.so"] = found
    return write_wheel(wheel_directory, files, tag_of(found))


def build_editable(wheel_directory, config_settings=None, metadata_directory=None):
    """Writes a wheel that leads to the sources, and puts the library beside them."""
    found = library()
    (HERE / "src" / NAME / "libdiffuse.so").write_bytes(found)
    return write_wheel(wheel_directory, {f"{NAME}.pth": f"{HERE / 'src'}\n".encode()},
                       tag_of(found))


def write_wheel(folder, files, tag):
    """Writes a wheel of these files, with what describes them, and returns its name."""
    info = f"{NAME}-{VERSION}.dist-info"
    tags = "".join(f"Tag: py3-none-{part}\n" for part in tag.split("."))
    files = {
        **files, f"{info}/METADATA": METADATA.encode(),
        f"{info}/WHEEL": (f"Wheel-Version: 1.0\nGenerator: {__name__}\n"
                          f"Root-Is-Purelib: false\n{tags}").encode(),
        **{f"{info}/{name}": (TOP / name).read_bytes() for name in LICENCES}}
    record = "".join(f"{path},sha256={digest(data)},{len(data)}\n"
                     for path, data in files.items())
    files[f"{info}/RECORD"] = f"{record}{info}/RECORD,,\n".encode()
    name = f"{NAME}-{VERSION}-py3-none-{tag}.whl"
    with zipfile.ZipFile(Path(folder) / name, "w", zipfile.ZIP_DEFLATED) as wheel:
        for path, data in files.items():
            entry = zipfile.ZipInfo(path, time_of_files())
            entry.compress_type, entry.external_attr = zipfile.ZIP_DEFLATED, 0o644 << 16
            wheel.writestr(entry, data)
    return name


def time_of_files():
    """The time of the files in a wheel: SOURCE_DATE_EPOCH, if that is set, so that a wheel can be
    made again with the same bytes."""
    named = os.environ.get("SOURCE_DATE_EPOCH")
    return time.gmtime(max(int(named), 315532800) if named else None)[:6]


def tag_of(found):
    """The platforms of a library: those with the C library that it needs, by the versions of its
    symbols."""
    newest = max((int(minor) for minor in re.findall(rb"GLIBC_2\.(\d+)", found)), default=17)
    if newest <= 17:
        return "manylinux_2_17_x86_64.manylinux2014_x86_64"
    return f"manylinux_2_{newest}_x86_64"


def build_sdist(sdist_directory, config_settings=None):
    """Writes the sources, without the library, into a folder, and returns the archive's name."""
    name = f"{NAME}-{VERSION}"
    with tarfile.open(Path(sdist_directory) / f"{name}.tar.gz", "w:gz") as archive:
        for path in [HERE / "pyproject.toml", Path(__file__), *sources()]:
            archive.add(path, f"{name}/{path.relative_to(HERE)}")
        for path in LICENCES:
            archive.add(TOP / path, f"{name}/{path}")
    return f"{name}.tar.gz"


def sources():
    folder = HERE / "src" / NAME
    return [*sorted(folder.glob("*.py")), folder / "py.typed"]


def digest(data):
    return base64.urlsafe_b64encode(hashlib.sha256(data).digest()).rstrip(b"=").decode()


def library():
    """The bytes of libdiffuse.so."""
    named = os.environ.get("DIFFUSE_LIBRARY")
    if named:
        return Path(named).read_bytes()
    archive = Path(os.environ.get("DIFFUSE_ARCHIVE")
                   or TOP / "crates/diffuse_c/out/libdiffuse_c.a")
    if not archive.exists():
        raise SystemExit(f"there is no {archive}: run `rt lib` in crates/diffuse_c, or let "
                         "DIFFUSE_LIBRARY name a libdiffuse.so")
    settings = {name: value for name, value in os.environ.items()
                if name not in ("DESTDIR", "LIBDIR")}
    with tempfile.TemporaryDirectory() as prefix:
        command = [TOP / "examples/c/install", prefix, archive.resolve()]
        subprocess.run(command, check=True, stdout=subprocess.DEVNULL, env=settings)
        return Path(prefix, "lib/libdiffuse.so").read_bytes()
