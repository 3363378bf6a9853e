"""How the cost of a line grows with each dimension of a script, in each view: counts of instructions, which a busy machine does not change.

`bench/measure growth` prints the figures. What grows is in KNOWN. With `--long` there are more dimensions, and what is known to grow must still do so.
The scripts of bench/measure must have the bytes for which figures were published. A run in one of PRINTING does not keep its script in memory.
"""

import hashlib
import sys
from functools import partial
from pathlib import Path

from cases import IS_LONG, Lacking, each, whole

sys.path.insert(0, str(Path(__file__).resolve().parent.parent / "bench"))
from counting import has_valgrind  # noqa: E402
from dimensions import DIMENSIONS, EXTRA, costs  # noqa: E402
from memory import LONGEST, peak  # noqa: E402
from scripts import SCRIPTS  # noqa: E402
from views import PLAIN, PRINTING  # noqa: E402

# How many times as much a line may cost in a dimension that is four times as large: at most a sixth of its cost may be in proportion to it.
MOST = 1.5
# The views in which a line costs more than that, and why.
KNOWN = {
    # CPOOL GET and FREE look at the parts of the pool one by one, up to the one that has the cell.
    "parts": (PLAIN,),
    # A shortage looks at each area that still has storage: at most 512 in a page, however long the script is.
    "areas, at shortages": ("--explain", "--json --explain"),
}
# The most memory of a run of the longest script, in bytes: no view keeps the script.
MOST_MEMORY = 4_500_000
# The SHA-256 of the scripts of bench/measure, one after the other.
BYTES = "b779719ddbf4348497633221a43ab999ef0a9d5391de3489afd2a6be3288a2f9"


def grows(program, dimension, view):
    least, most = costs(program, dimension, view)
    return most > MOST * least


def holds(program, case):
    """Whether the cost of a line grows only where that is known. What is known is tried with `--long`."""
    dimension, view = case
    is_known = view in KNOWN.get(dimension, ())
    if is_known and not IS_LONG:
        return None
    return grows(program, dimension, view) == is_known if has_valgrind() else Lacking("valgrind")


def same_bytes():
    scripts = b"".join(script.cut(script.count) for script in SCRIPTS.values())
    yield "bytes", hashlib.sha256(scripts).hexdigest() == BYTES


def fits(program, view):
    """Whether a run of the longest script needs little memory in a view."""
    return peak(program, LONGEST, *(() if view == PLAIN else view.split())) <= MOST_MEMORY


def groups(program):
    dimensions = [name for name in DIMENSIONS if IS_LONG or name not in EXTRA]
    cases = [(dimension, view) for view in PRINTING for dimension in dimensions]
    yield "growth", each(partial(holds, program), cases, "; ".join, chunksize=len(dimensions))
    yield "scripts of bench/measure", whole(same_bytes)
    yield "memory", each(partial(fits, program), PRINTING, str)
