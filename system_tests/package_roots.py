"""Roots of their own, in which packages are tried: Debian's smallest, with python3, and without a network."""
import os
import shutil
import subprocess
from pathlib import Path

from common import TOP

USED = ("python3", "python3-venv", "libmicrohttpd12", "zlib1g")
SUITE = "bookworm"


def why_no_root():
    """What keeps this machine from making a root, if anything."""
    missing = [tool for tool in ("mmdebstrap", "unshare", "chroot", "ip") if not shutil.which(tool)]
    return "root" if os.geteuid() else missing[0] if missing else None


def make_root(folder, further):
    """A root with these packages too, or None if Debian's packages are not to be had."""
    command = ["mmdebstrap", "--quiet", "--variant=minbase", f"--include={','.join([*USED, *further])}", SUITE, folder]
    made = subprocess.run(command, stdin=subprocess.DEVNULL, stdout=subprocess.DEVNULL, stderr=subprocess.DEVNULL)
    return folder if made.returncode == 0 else None


class Root:
    """A root with the files of a release in /files, and the examples."""

    def __init__(self, folder, files):
        self.folder = Path(folder)
        shutil.copytree(files, self.folder / "files")
        shutil.copytree(TOP / "examples", self.folder / "examples")

    def output(self, command):
        """What a shell's command writes in the root, which has this machine's loopback device and no other."""
        inside = ["chroot", self.folder, "/usr/bin/env", "-i", "PATH=/usr/sbin:/usr/bin:/sbin:/bin", "HOME=/root", "LC_ALL=C", "DEBIAN_FRONTEND=noninteractive"]
        prepare = 'ip link set lo up; mount -t proc proc "$0/proc"; exec "$@"'
        words = ["unshare", "--mount", "--net", "--pid", "--fork", "sh", "-c", prepare, self.folder, *inside, "sh", "-c", command]
        return subprocess.run(words, stdin=subprocess.DEVNULL, stdout=subprocess.PIPE, stderr=subprocess.STDOUT, text=True, errors="replace").stdout
