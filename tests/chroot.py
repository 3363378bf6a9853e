"""A machine without the kit: a Debian of its own below a folder, made by debootstrap, in which commands run by chroot."""

import os
import shutil
import subprocess
from pathlib import Path

from cases import Lacking

INCLUDED = "gcc,libc6-dev,pkgconf,python3,man-db,jq,sudo"
SUITE, MIRROR = "bookworm", "http://deb.debian.org/debian"
NOT_KEPT = ("proc", "sys", "dev", "run", "tmp", "var/log", "var/cache", "var/lib/dpkg", "var/lib/apt", "var/lib/systemd", "root", "home", "packages")


class Machine:
    def __init__(self, root):
        self.root = Path(root)

    def run(self, command, user="root", cwd="/", stdin=None):
        """The status of a shell's command as a user, what it prints, and its errors."""
        env = {"PATH": "/usr/local/sbin:/usr/local/bin:/usr/sbin:/usr/bin:/sbin:/bin", "HOME": "/tmp", "LC_ALL": "C.UTF-8", "DEBIAN_FRONTEND": "noninteractive"}
        words = ["chroot", f"--userspec={user}:", self.root, "bash", "-c", f"cd {cwd} && {command}"]
        ran = subprocess.run(words, input=stdin, env=env, capture_output=True, text=True, timeout=900)
        return ran.returncode, ran.stdout, ran.stderr

    def succeeds(self, command, **how):
        status, out, err = self.run(command, **how)
        if status:
            print(f"chroot: {command}: {status}\n{out[-2000:]}{err[-2000:]}", flush=True)
        return status == 0

    def files(self):
        """All files and folders that a package could leave."""
        found = set()
        for folder, folders, names in os.walk(self.root):
            below = os.path.relpath(folder, self.root)
            folders[:] = [name for name in folders if os.path.normpath(f"{below}/{name}") not in NOT_KEPT]
            found |= {os.path.normpath(f"{below}/{name}") for name in folders + names}
        return found


def lacking():
    """The tool that is missing for such a machine, if one is."""
    if os.geteuid():
        return Lacking("root")
    return next((Lacking(tool) for tool in ("debootstrap", "chroot") if not shutil.which(tool)), None)


def made(folder):
    """The machine below a folder, or the tool that is missing."""
    why = lacking()
    if why is not None:
        return why
    ran = subprocess.run(["debootstrap", "--variant=minbase", f"--include={INCLUDED}", SUITE, folder, MIRROR], capture_output=True, text=True)
    if ran.returncode:
        return Lacking("a mirror of Debian")
    (Path(folder) / "etc/hosts").write_text("127.0.0.1 localhost\n")  # as every machine has it; else a package that is installed makes one
    return Machine(folder)
