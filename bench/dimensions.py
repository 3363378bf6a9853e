"""Scripts in which one dimension grows, and all else stays the same. Each part of a script grows with it, so that the mix of lines is the same.

The cost of a line is the number of instructions for each line, without those of a script that has only its REGION statement.
"""

from dataclasses import dataclass
from functools import cache
from typing import Callable

from counting import instructions
from views import options

GROWS = 4  # how many times as large a dimension becomes
REGION = "J REGION BELOW=256"
END = ["J ATTACH TASK=Z", "Z GETMAIN RC,LV=64,A=Z,SP=1", "Z RETURN"]


def lines(count):
    """Lines of all kinds, which leave nothing."""
    yield REGION
    yield "J CPOOL BUILD,CPID=P,CSIZE=16,PCELLCT=8,SP=2"
    for _ in range(count // 10):
        yield "J GETMAIN RC,LV=64,A=X,SP=1"
        yield "J PUT X,X'C1'"
        yield "J GETMAIN RC,LV=2000000,A=Y"
        yield "J FREEMAIN RC,LV=64,A=X,SP=1"
        yield "J FREEMAIN RC,LV=64,A=X,SP=1"
        yield "J ATTACH TASK=Z"
        yield "Z GETMAIN RC,LV=64,A=Y,SP=1"
        yield "Z RETURN"
        yield "J CPOOL GET,CPID=P,CELL=C"
        yield "J CPOOL FREE,CPID=P,CELL=C"


def tasks(count):
    """Active tasks with a subpool each."""
    yield REGION
    for task in range(count):
        yield f"J ATTACH TASK=T{task}"
        yield f"T{task} GETMAIN RC,LV=64,A=A{task},SP=1"
    for task in [*range(count)] * 2:
        yield f"T{task} WHERE A{task}"
        yield f"T{task} PUT A{task},X'C1'"
        yield f"T{task} GETMAIN RC,LV=64,A=X,SP=1"
        yield f"T{task} FREEMAIN RC,LV=64,A=X,SP=1"


def areas(count):
    return (f"J GETMAIN RC,LV=64,A=A{number},SP={number}" for number in range(1, count + 1))


def subpools(count):
    """Subpools of one task, with an area each."""
    yield REGION
    yield from areas(count)
    for number in [*range(1, count + 1)] * 2:
        yield f"J GETMAIN RC,LV=64,A=X,SP={number}"
        yield f"J FREEMAIN RC,LV=64,A=X,SP={number}"


def pages(count):
    """Pages of a region, most of them free."""
    yield f"J REGION BELOW=1,ABOVE={count}"
    for _ in range(count // 128):
        yield "J GETMAIN RC,LV=8192,A=X,SP=1,LOC=ANY"
        yield "J PUT X,X'C1'"
        yield "J FREEMAIN RC,LV=8192,A=X,SP=1"


def lists(count):
    """Obtains that many names, by lists of 16."""
    for first in range(0, count, 16):
        members = ",".join(f"N{number}" for number in range(first, first + 16))
        yield f"J GETMAIN LC,LA=({','.join(['8'] * 16)}),A=({members}),SP=1"


def names(count):
    """Names of areas."""
    yield REGION
    yield from lists(count)
    for number in range(0, count, 16):
        yield f"J WHERE N{number}"
        yield f"J PUT N{number},X'C1'"
        yield "J GETMAIN RC,LV=64,A=X,SP=2"
        yield "J FREEMAIN RC,LV=64,A=X,SP=2"


def refusals(count):
    """Names of areas, and requests that are refused for an address."""
    yield REGION
    yield from lists(count)
    yield "J GETMAIN RC,LV=64,A=X,SP=2"
    yield from ["J FREEMAIN RC,LV=64,A=X,SP=2"] * (count // 2)


def refusals_after_ends(count):
    """Ends of subtasks while an area is held, and requests that are refused for its address, since another subpool holds it."""
    yield REGION
    yield from ["J GETMAIN RC,LV=64,A=X,SP=1", "J GETMAIN RC,LV=64,A=Y,SP=2"]
    yield from ["J ATTACH TASK=Z", "Z RETURN"] * count
    yield from ["J FREEMAIN RC,LV=64,A=X,SP=2"] * count


def shortages(count):
    """Areas that are held, and requests that fit nowhere."""
    yield REGION
    yield from lists(count)
    yield from ["J GETMAIN RC,LV=2000000,A=X"] * (count // 16)


def changes_between_shortages(count):
    """Areas that come and go while as many are held, and requests that fit nowhere."""
    yield REGION
    yield from areas(100)
    for _ in range(count):
        yield "J FREEMAIN RC,LV=64,A=A1,SP=1"
        yield "J GETMAIN RC,LV=64,A=A1,SP=1"
        yield "J GETMAIN RC,LV=2000000,A=X"


def ends(count):
    """Subpools of the job step task, and ends of subtasks that have one of their own."""
    yield REGION
    yield from areas(count)
    yield from END * count


def ends_among_pages(count):
    """Pages of a region, most of them free, and ends of subtasks."""
    yield f"J REGION BELOW=256,ABOVE={count - 256}"
    yield from END * (count // 64)


def pools(count):
    """Cell pools of one subpool."""
    yield REGION
    for number in range(count):
        yield f"J CPOOL BUILD,CPID=P{number},CSIZE=16,PCELLCT=4,SP=1"
    for number in range(count):
        yield f"J CPOOL GET,CPID=P{number},CELL=C"
        yield "J PUT C,X'C1'"
        yield f"J CPOOL FREE,CPID=P{number},CELL=C"
        yield "J GETMAIN RC,LV=64,A=X,SP=1"
        yield "J FREEMAIN RC,LV=64,A=X,SP=1"


def parts(count):
    """Parts of one cell pool, of one cell each. The last one has the cell that is allocated and freed."""
    yield REGION
    yield "J CPOOL BUILD,CPID=P,CSIZE=16,PCELLCT=1,SP=1"
    yield from (f"J CPOOL GET,CPID=P,CELL=A{number}" for number in range(count))
    for _ in range(count):
        yield "J CPOOL GET,CPID=P,CELL=C"
        yield "J CPOOL FREE,CPID=P,CELL=C"


@dataclass
class Dimension:
    lines: Callable
    least: int

    def script(self, factor):
        return "".join(f"{line}\n" for line in self.lines(factor * self.least)).encode()


DIMENSIONS = {
    "lines": Dimension(lines, 100),
    "tasks": Dimension(tasks, 7),
    "subpools": Dimension(subpools, 30),
    "pages": Dimension(pages, 2000),
    "names": Dimension(names, 256),
    "pools": Dimension(pools, 15),
    "parts": Dimension(parts, 50),
    "names, at refusals": Dimension(refusals, 256),
    "ends, at refusals": Dimension(refusals_after_ends, 500),
    "areas, at shortages": Dimension(shortages, 256),
    "changes, between shortages": Dimension(changes_between_shortages, 150),
    "subpools, at ends": Dimension(ends, 30),
    "pages, at ends": Dimension(ends_among_pages, 2000),
}

# Those whose scripts have mostly one kind of line.
EXTRA = (
    "names, at refusals",
    "ends, at refusals",
    "areas, at shortages",
    "changes, between shortages",
    "subpools, at ends",
    "pages, at ends",
)


@cache
def start(program, view):
    """Returns the instructions of a script that has only its REGION statement."""
    return instructions(program, f"{REGION}\n".encode(), *options(view))


def cost(program, view, script):
    """Returns the instructions of each line after the first."""
    return (instructions(program, script, *options(view)) - start(program, view)) / (script.count(b"\n") - 1)


def costs(program, name, view):
    """Returns the cost of a line at the least size of a dimension, and at `GROWS` times that."""
    return tuple(cost(program, view, DIMENSIONS[name].script(factor)) for factor in (1, GROWS))
