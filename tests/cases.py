"""What a group of cases is, how large one of random scripts is, and how a case that was not tried is marked."""

import sys
import time
from dataclasses import dataclass, field
from typing import Callable

IS_LONG = "--long" in sys.argv[1:]


def seeds(count):
    """The seeds of a group of random scripts: a tenth of them in the gate, all of them with `--long`."""
    return range(count if IS_LONG else count // 10)


class Lacking(str):
    """The result of a case that was not tried, since the machine lacks the tool of this name."""


@dataclass
class Each:
    """Cases that are tried one by one: whether `holds` of each, and how each is called."""

    holds: Callable
    cases: list
    name: Callable = str
    chunksize: int = 1

    def tasks(self):
        cases = list(self.cases)
        for at in range(0, len(cases), self.chunksize):
            chunk = cases[at : at + self.chunksize]
            yield try_each, (self.holds, chunk, [self.name(case) for case in chunk])


@dataclass
class Whole:
    """Cases that one function tries: it gives the name of each, and whether it passed."""

    results: Callable
    given: tuple = field(default=())

    def tasks(self):
        yield try_whole, (self.results, self.given)


def each(holds, cases, name=lambda case: case.name, chunksize=1):
    return Each(holds, cases, name, chunksize)


def whole(results, *given):
    return Whole(results, given)


def timed(call):
    """What a function gives one by one, and the seconds that it took. It may also give a list, which it has made before it returns."""
    begun = time.monotonic()
    return list(call()), time.monotonic() - begun


def try_each(holds, cases, names):
    return timed(lambda: ((name, holds(case)) for name, case in zip(names, cases)))


def try_whole(results, words):
    return timed(lambda: results(*words))
