"""The libraries of the repository, as `rt ci` or `rt check` has made them, and what the kit knows of a crate."""

import os
import shutil
import sys
from pathlib import Path

PARTS = ("src", "specs", "proofs")
LEFT_BY_CI = "left-by-ci"


def kit():
    """The kit's own library, which knows the words of a check; None where there is no `rt`, or another command of that name."""
    found = shutil.which("rt")
    folder = found and Path(found).resolve().parent
    if not folder or not (folder / "rtlib.py").is_file():
        return None
    sys.path.insert(0, str(folder))
    import rtlib

    if rtlib.Crate.stamp.__name__ != "stamp_once":
        rtlib.Crate.stamp = once(rtlib.Crate.stamp)
    return rtlib


def once(stamp):
    """The sum of a crate's sources and of those below it, added up once and not again for each crate above it."""
    known = {}

    def stamp_once(crate):
        if crate.folder not in known:
            known[crate.folder] = stamp(crate)
        return known[crate.folder]

    return stamp_once


def crates(top):
    """The crates of a repository; none where there is no `rt`."""
    rtlib = kit()
    return rtlib.crates_below(str(top)) if rtlib else ()


def mark_left_by_ci(top):
    """Marks the libraries that `rt ci` has just left with the sum of what they are made from. Such a library has no stamp of the kit's."""
    for crate in crates(top):
        if os.path.isdir(crate.rlib) and not os.path.exists(f"{os.path.dirname(crate.rlib)}/stamp"):
            Path(os.path.dirname(crate.rlib), LEFT_BY_CI).write_text(crate.stamp())


def is_left_by_ci(crate):
    """Whether the crate's library is one that `rt ci` has left, and its sources are still the same."""
    mark = Path(os.path.dirname(crate.rlib), LEFT_BY_CI)
    return os.path.isdir(crate.rlib) and mark.is_file() and mark.read_text() == crate.stamp()


def are_left_by_ci(crate):
    """Whether all libraries below a crate are such."""
    return all(is_left_by_ci(it) for it in crate.below())


def make_libraries(crates):
    """Sees that the libraries below the crates are there, and answers whether they are."""
    below = []
    for crate in crates:
        below += [it for it in crate.below() if it not in below]
    if all(it.is_built() or is_left_by_ci(it) for it in below):
        return True
    return all(it.is_built() or it.build_rlib(["--jobs", "2"], anew=False) == 0 for it in below)
