"""A proved program that is made again in another folder has the same bytes.

The sources and the libraries that `rt ci` has left are copied, and mvsjob-asm is checked, compiled and linked there. Where no `rt ci`
has left libraries here, this is not tried.
"""

import os
import shutil
import subprocess
import sys
import tempfile
from pathlib import Path

from cases import Lacking

TOP = Path(__file__).resolve().parent.parent
NAME = "mvsjob_asm"
sys.path.insert(0, str(TOP / "tools"))
import libraries  # noqa: E402


def copied(crates, folder):
    """The crates below a folder, without what checks keep."""
    for crate in crates:
        shutil.copytree(crate.folder, folder / "crates" / crate.name, ignore=shutil.ignore_patterns("incremental", "must-fail", "wrong", "controls"))
    names, lines = {crate.name for crate in crates}, (TOP / "crates.txt").read_text().splitlines()
    (folder / "crates.txt").write_text("".join(f"{line}\n" for line in lines if line.partition(":")[0].split()[0] in names))
    shutil.copy(TOP / "HANDLES", folder)


def made(rtlib, folder):
    """The program that is made below a folder; None where that fails."""
    crate = next(it for it in rtlib.crates_below(str(folder)) if it.name == NAME)
    toolchain, program = ["--toolchain", f"{rtlib.KIT}/toolchain"], folder / "program"
    before = os.getcwd()
    os.chdir(crate.folder)
    try:
        build = [*rtlib.guarded(), rtlib.RATTLE, "build", *crate.words(["--jobs", "2"], keeps=False), *toolchain, "--backend", "llvm", "-o", f"{program}.o"]
        link = [f"{rtlib.KIT}/bin/rattle-link", "--target", "x86_64-unknown-linux-gnu", *toolchain, "-o", program, f"{program}.o"]
        link += [f"{rtlib.KIT}/c/libos_c.a", f"{rtlib.KIT}/c/liblibc_c.a"]
        for words in (build, link):
            if subprocess.run(words, stdin=subprocess.DEVNULL, capture_output=True).returncode:
                return None
    finally:
        os.chdir(before)
    return program.read_bytes()


def same_bytes():
    rtlib = libraries.kit()
    if rtlib is None:
        return Lacking("the Rattle kit")
    crate = next(it for it in rtlib.crates_below(str(TOP)) if it.name == NAME)
    if not libraries.are_left_by_ci(crate):
        return Lacking("libraries that `rt ci` has left")
    with tempfile.TemporaryDirectory() as name:
        folder = Path(name) / "a_folder_of_another_name"
        copied([*crate.below(), crate], folder)
        return made(rtlib, folder) == (TOP / "crates" / NAME / "out" / NAME).read_bytes()


def results():
    yield "mvsjob-asm in two folders", same_bytes()
