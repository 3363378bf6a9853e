"""The lines of change of a page, replayed as docs/PAGE.md describes them, beside the plain machine: after each statement a reader of the
lines has to know of the step what that machine has, and of the statement what it read, wrote and ended."""

import re
from dataclasses import dataclass, field
from functools import partial

import pages
import random_scripts
from cases import each, seeds
from plain_emulator import DOES, Statement, address, begin, emulator
from plain_machine import part_length

RANDOM_SCRIPTS = 200
ANYTHING_SCRIPTS = 60
PROFILES = ("storage", "tasks", "pools", "tidy", "faults")


@dataclass(eq=False)
class Subpool:
    number: int
    owner: str

    def label(self):
        return self.number, self.owner


@dataclass
class Pool:
    subpool: Subpool
    size: int
    parts: list = field(default_factory=list)  # (address, length, cells)
    taken: set = field(default_factory=set)  # addresses of cells


class Picture:
    """What a reader of the lines knows of a step."""

    def __init__(self):
        self.regions, self.tasks, self.names, self.pools = None, {}, {}, {}
        self.has = {}  # task and number to subpool
        self.held = {}  # doubleword to subpool, and whether as a part of a pool
        self.bytes = {}  # address to byte

    def subpool(self, n, owner):
        """The subpool of that name; one that was not named before is new, and its owner has it."""
        found = self.has.setdefault((owner, n), Subpool(n, owner))
        if found.label() != (n, owner):
            raise KeyError(f"{owner} does not own SP {n}")
        return found

    def hold(self, addr, length, subpool, pooled):
        self.held.update(dict.fromkeys(doublewords(addr, length), (subpool, pooled)))

    def free(self, addr, length):
        for doubleword in doublewords(addr, length):
            del self.held[doubleword]

    def clear(self, gone):
        """Nothing is held by these subpools, and their pools are gone."""
        self.held = {doubleword: holder for doubleword, holder in self.held.items() if holder[0] not in gone}
        self.pools = {name: pool for name, pool in self.pools.items() if pool.subpool not in gone}

    # ---- what the lines say

    def step(self, below, above, fill):
        self.__init__()
        self.regions = below, above, fill

    def task(self, name, mother, residence):
        self.tasks[name] = mother, residence

    def given(self, task, n, mother):
        subpool = self.subpool(n, mother)
        del self.has[mother, n]
        self.has[task, n], subpool.owner = subpool, task

    def shared(self, task, n, m, owner):
        self.has[task, n] = self.subpool(m, owner)

    def take(self, addr, length, n, owner, name):
        self.hold(addr, length, self.subpool(n, owner), False)
        self.set(addr, [self.regions[2]] * length)
        self.names[name] = addr, length

    def empty(self, n, owner):
        self.clear({self.subpool(n, owner)})

    def pool(self, name, n, owner, size):
        self.pools[name] = Pool(self.subpool(n, owner), size)

    def part(self, name, addr, length, cells):
        pool = self.pools[name]
        if pool.parts[-1:] != [(addr, length, cells)]:
            pool.parts.append((addr, length, cells))
            self.hold(addr, length, pool.subpool, True)

    def cell(self, pool, addr, length, name):
        self.pools[pool].taken.add(addr)
        self.set(addr, [self.regions[2]] * length)
        self.names[name] = addr, length

    def set(self, addr, values):
        self.bytes.update(enumerate(values, addr))

    def write(self, addr, length, digits):
        if len(digits) != 2 * length:
            raise KeyError(f"{length} bytes are written, and the line has {digits}")
        self.set(addr, bytes.fromhex(digits))

    def back(self, pool, addr):
        self.pools[pool].taken.remove(addr)

    def drop(self, name):
        for addr, length, _ in self.pools.pop(name).parts:
            self.free(addr, length)

    def end(self, task, _other=None):
        del self.tasks[task]
        gone = {subpool for subpool in self.has.values() if subpool.owner == task}
        self.has = {key: subpool for key, subpool in self.has.items() if key[0] != task and subpool not in gone}
        self.clear(gone)

    def nothing(self, *_touched):
        """The step stays as it is."""

    def draw(self, line):
        for form, bases, does in FORMS:
            found = form.fullmatch(line)
            if found:
                return does(self, *(int(text, base) if base else text for text, base in zip(found.groups(), bases)))
        raise KeyError(f"no line of change: {line}")

    def known(self):
        mark = {(subpool, pooled): (subpool.label(), pooled) for subpool, pooled in set(self.held.values())}
        return {
            "regions": self.regions,
            "held": {doubleword: mark[holder] for doubleword, holder in self.held.items()},
            "tasks": self.tasks,
            "has": {key: subpool.label() for key, subpool in self.has.items()},
            "names": self.names,
            "pools": {name: (pool.subpool.label(), pool.size, pool.parts, pool.taken) for name, pool in self.pools.items()},
        }


def doublewords(addr, length):
    return range(addr // 8, (addr + length + 7) // 8)


LINES = {
    "STEP BELOW n ABOVE n FILL hh": Picture.step,
    "TASK name MOTHER mother RES residence": Picture.task,
    "HAS task n GIVEN mother": Picture.given,
    "HAS task n SHARED m owner": Picture.shared,
    "TAKE addr len n owner name": Picture.take,
    "FREE addr len": Picture.free,
    "EMPTY n owner": Picture.empty,
    "POOL name n owner size": Picture.pool,
    "PART pool addr len cells": Picture.part,
    "CELL pool addr len name": Picture.cell,
    "BACK pool addr": Picture.back,
    "DROP pool": Picture.drop,
    "READ addr len": Picture.nothing,
    "WRITE addr len digits": Picture.write,
    "LOOK addr len": Picture.nothing,
    "END task RETURN": Picture.end,
    "END task ABEND": Picture.end,
    "END task WITH other": Picture.end,
}
NAME, DECIMAL, HEXADECIMAL = "[A-Z@#$][A-Z0-9@#$]{0,7}", "0|[1-9][0-9]*", "[0-9A-F]{8}"
# How a word of a line is written that is no name, and the base of a number.
WRITTEN = dict.fromkeys(("n", "m", "size", "cells"), (DECIMAL, 10)) | dict.fromkeys(("addr", "len"), (HEXADECIMAL, 16))
WRITTEN |= {"hh": ("[0-9A-F]{2}", 16), "digits": ("(?:[0-9A-F]{2})+", None), "mother": (f"-|{NAME}", None), "residence": ("BELOW|ABOVE", None)}


def pattern(form):
    """A pattern for the lines of a form, where small letters are places to fill in, and the bases of its numbers."""
    filled = [WRITTEN.get(word, (NAME, None)) for word in re.findall(r"[a-z]+", form)]
    return re.compile(re.sub(r"[a-z]+", "(%s)", form) % tuple(text for text, _ in filled)), [base for _, base in filled]


FORMS = [(*pattern(form), does) for form, does in LINES.items()]


# ---- the plain machine


def wanted(machine):
    """What a reader has to know of the step of the plain machine."""
    tables = {(task, number): subpool for task, t in machine.tasks.items() for number, subpool in t.table.items()}
    label = {subpool: (number, task) for (task, number), subpool in tables.items() if machine.owner[subpool] == task}
    held = {}
    for region in machine.regions:
        mark = {holder: (label[holder[0]], holder[1]) for holder in set(region.holder) if holder}
        held |= {k: mark[holder] for k, holder in enumerate(region.holder, region.base // 8) if holder}
    pools = {}
    for name, pool in machine.pools.items():
        parts = [(address, part_length(cells, pool.size), cells) for address, cells in pool.parts]
        pools[name] = label[pool.subpool], pool.size, parts, pool.taken
    return {
        "regions": (machine.regions[0].pages, machine.regions[1].pages, machine.fill),
        "held": held,
        "tasks": {name: (task.mother or "-", "ABOVE" if task.above else "BELOW") for name, task in machine.tasks.items()},
        "has": {key: label[subpool] for key, subpool in tables.items()},
        "names": machine.names,
        "pools": pools,
    }


def is_shown(machine, picture):
    """Whether the picture has each byte that may be read."""
    for region in machine.regions:
        for k in (k for k, held in enumerate(region.holder) if held):
            for at, value in enumerate(region.byte[8 * k : 8 * k + 8], region.base + 8 * k):
                if value is not None and picture.bytes.get(at) != value:
                    return False
    return True


def touched(machine, s, said):
    """The lines of what a statement does beside the step: what it reads, writes and looks for, and which tasks it ends, and how."""
    answer, fallen = said[0].partition(" ")[2], said[1:]
    if answer == "ENDED":
        return [f"END {s.task} RETURN"]
    if answer.startswith("ABEND"):
        return [f"END {s.task} ABEND", *(f"END {line.replace(' ENDED', '')}" for line in fallen)]
    if answer in ("NOT RUN", "NO NAME"):
        return []
    if s.operation == "WHERE":
        places = [("LOOK", *machine.names[s.plain[0]])]
    elif s.operation == "SHOW":
        places = [("READ", machine.place(address(s.plain[0])), int(s.plain[1]))]
    elif s.operation == "PUT":
        places = [("WRITE", machine.place(address(s.plain[0])), len(s.plain[1][2:-1]) // 2)]
    elif s.operation == "MOVE":
        to, source = (machine.place(address(operand)) for operand in s.plain[:2])
        places = [("READ", source, int(s.plain[2])), ("WRITE", to, int(s.plain[2]))]
    else:
        places = []
    return [f"{word} {addr:08X} {length:08X}" + written(machine, word, addr, length) for word, addr, length in places]


def written(machine, word, addr, length):
    """The bytes that the line of a change carries."""
    return f" {bytes(machine.bytes_at(addr, length)).hex().upper()}" if word == "WRITE" else ""


def differences(page, script, placement):
    """What the lines of a page say otherwise than the plain machine: the number of the statement, and what it is."""
    machine, picture, items = None, Picture(), pages.Reader(page.decode()).items
    for number, text in enumerate(script.decode("latin-1").removesuffix("\n").split("\n"), 1):
        if number not in items:
            yield number, "no item"
            return
        answered, lines = items[number]["class"], items[number]["changes"].splitlines()
        if lines and answered in (None, "no", "js"):
            yield number, "lines of what does nothing"
        if answered == "js":
            return
        if answered is None:
            continue
        s = Statement(text)
        if s.operation == "REGION":
            machine, said = begin(emulator(placement), s), [""]
        else:
            said = machine.says(s.task, *DOES[s.operation](machine, s))
        try:
            for line in lines:
                picture.draw(line)
        except KeyError as error:
            yield number, str(error)
            return
        known, should = picture.known(), wanted(machine)
        yield from ((number, what) for what in should if known[what] != should[what])
        if lines and not is_shown(machine, picture):
            yield number, "bytes"
        if [line for line in lines if re.match("READ|WRITE|LOOK|END", line)] != touched(machine, s, said):
            yield number, "touched"


def holds(program, script):
    """Whether the lines of the pages of a script say what the plain machine has, under both placements."""
    return not any(
        any(differences(pages.called(program, script, "--page", "--place", placement)[0], script, placement))
        for placement in ("low", "high")
    )


def as_known(program, path):
    return holds(program, pages.statements(path))


def as_random(program, seed):
    """Of a script that the program makes, in which no task releases a whole subpool or asks where a name is."""
    words = ["--random", str(seed), "--lines", "60", "--profile", PROFILES[seed % len(PROFILES)]]
    return holds(program, pages.called(program, b"", *words)[0])


def as_anything(program, seed):
    """Of a script with requests of all kinds."""
    return holds(program, random_scripts.anything(seed, seed % 2 == 1).text().encode())


def groups(program):
    yield "replayed pages", each(partial(as_known, program), pages.scripts())
    yield "replayed pages of random scripts", each(partial(as_random, program), seeds(RANDOM_SCRIPTS), str)
    yield "replayed pages of random anything", each(partial(as_anything, program), seeds(ANYTHING_SCRIPTS), str)
