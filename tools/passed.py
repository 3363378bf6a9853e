"""What earlier runs of tools/wrong_bodies have passed on this machine, as `rt ci` keeps what it has proved."""

import hashlib
import os
import tempfile
from pathlib import Path

from libraries import PARTS

TOOLS = ("wrong_bodies", "edits.py", "libraries.py", "passed.py")


def sum_of_kit(rtlib):
    """A sum of the kit and of the tools that judge a change."""
    found = hashlib.sha256()
    kit = Path(rtlib.RATTLE).resolve().parent.parent
    for path in (kit / "KIT-ID", kit / "WHAT", *(Path(__file__).resolve().parent / name for name in TOOLS)):
        found.update(path.read_bytes() if path.is_file() else b"")
    prover = Path(rtlib.RATTLE).stat()
    found.update(repr((prover.st_size, prover.st_mtime_ns)).encode())
    return found.hexdigest()


def touched(made):
    """What tells whether a source of a crate or of one below it was changed meanwhile, also where it was changed back."""
    paths = sorted(path for it in (made, *made.below()) for part in PARTS for path in Path(it.folder, part).glob("**/*"))
    return [(path, it.st_ino, it.st_size, it.st_mtime_ns, it.st_ctime_ns) for path in paths for it in [path.stat()]]


class Passed:
    """The changes that passed, each by a sum of all that its verdict stands on: the kit, these tools, the sources of its crate and of those below,
    and the change itself. So an entry never goes stale. A run that takes nothing from earlier ones keeps what it passes all the same."""

    def __init__(self, rtlib, anew=False):
        self.at = Path(os.environ.get("XDG_CACHE_HOME") or Path.home() / ".cache", "mvsjob-wrong-bodies")
        self.kit, self.anew, self.first = sum_of_kit(rtlib), anew, {}

    def begin(self, made):
        """Notes the state of a crate's sources, before anything of it is tried."""
        self.first[made.name] = touched(made)

    def place(self, made, change):
        told = (self.kit, made.stamp(), change.path.parent.name, change.path.name, change.path.read_bytes())
        return self.at / hashlib.sha256(repr(told).encode()).hexdigest()

    def text(self, made, change):
        """What was printed of a change that has passed; None where none of the earlier runs has passed it."""
        place = self.place(made, change)
        try:
            if self.anew or self.at.stat().st_uid != os.geteuid():
                return None
            name, _, text = place.read_text(encoding="utf-8").partition("\n")
            os.utime(place)
        except (OSError, ValueError):
            return None
        return text if name == place.name else None

    def keep(self, made, change, text):
        """Keeps that a change has passed, unless a source was changed since its crate was begun."""
        place = self.place(made, change)
        try:
            if touched(made) != self.first[made.name]:
                return
            self.at.mkdir(mode=0o700, parents=True, exist_ok=True)
            with tempfile.NamedTemporaryFile("w", dir=self.at, prefix="new-", delete=False, encoding="utf-8") as file:
                file.write(f"{place.name}\n{text}")
            os.replace(file.name, place)
        except OSError:
            pass  # no room, say: the next run tries it again
