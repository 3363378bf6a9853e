"""The folder of this machine in which `tools/keep_seed` leaves what it has proved of a crate."""

import os
from pathlib import Path


def kept_seed(made):
    return Path(os.environ.get("XDG_CACHE_HOME") or Path.home() / ".cache", "mvsjob-seeds", made.name)
