"""What requests did that were granted, and which names have the addresses of reasons in their places, as the plain machine has it:
the lines of facts after the answers of a script."""

import re
from itertools import groupby

from plain_emulator import DOES, Statement, begin, emulator, items
from plain_machine import part_length, round8

PAGE_DOUBLEWORDS = 512
FACTS = re.compile(
    r"\* (\S+ is \d+ bytes at .*|No greater length .*|SP \d+ of \S+ is new\. .*|No page was newly .*"
    r"|\d+ pages? (was|were) newly assigned.*|\d+ pages? became free.*|SP \d+ of \S+ is now empty.*|\S+ is a cell of pool .*"
    r"|Pool \S+ has a new part .*|\S+ now owns SP .*|\S+ shares SP \d+ of .*|SP \d+ of \S+ remains: .*"
    r"|[0-9A-F]{8} is [A-Z@#$][A-Z0-9@#$]*, \d+ bytes obtained .*|[0-9A-F]{8} is \d+ bytes? into .*)"
)
GRANTED = re.compile(r"RC 0( LENGTH \S+)?|CELL|ATTACHED")
ADDRESSES = re.compile(
    r"\* (?:([0-9A-F]{8}) (?:is free|is held|is in pool|is not on)|The members .* the doubleword at ([0-9A-F]{8})"
    r"|No allocated cell .* begins at ([0-9A-F]{8})).*"
)


def free_pages(machine):
    """How many pages of each region hold nothing."""
    return [
        sum(not any(region.holder[first : first + PAGE_DOUBLEWORDS]) for first in range(0, len(region.holder), PAGE_DOUBLEWORDS))
        for region in machine.regions
    ]


def pages(n, one, more):
    return f"{n} page {one}" if n == 1 else f"{n} pages {more}"


def label(machine, subpool):
    owner = machine.owner[subpool]
    return f"SP {next(n for n, s in machine.tasks[owner].table.items() if s == subpool)} of {owner}"


class Watcher:
    """A machine before a statement: what its facts need."""

    def __init__(self, machine, s):
        self.machine, self.s = machine, s
        self.free = free_pages(machine)
        self.had = s.task in machine.tasks and machine.entry(s.task, s.number()) is not None
        pool = machine.pools.get(s.keys.get("CPID"))
        self.parts = len(pool.parts) if pool else 0
        has = set(machine.tasks[s.task].table.values()) if s.task in machine.tasks else ()
        self.numbers = set(machine.tasks[s.task].table) if s.task in machine.tasks else set()
        self.has = {label(machine, subpool): machine.owner[subpool] for subpool in has}

    def area(self, name, least, most):
        address, length = self.machine.names[name]
        said = f"{name} is {length} bytes at {address:08X} in {label(self.machine, self.machine.entry(self.s.task, self.s.number()))}"
        if least != most:
            yield f"{said}, {least} to {most} requested. (rule 20)"
        elif length == most:
            yield f"{said}. (rule 24)"
        else:
            yield f"{said}, {length - most} of them added by rounding. (rule 3)"

    def obtained(self, names, lengths):
        for name, (least, most) in zip(names, lengths):
            yield from self.area(name, least, most)
            if self.machine.names[name][1] < round8(most):
                yield f"No greater length fits; free pages before: {self.free[0]} below, {self.free[1]} above. (rule 20)"
        yield from self.new_subpool()
        yield self.taken()

    def new_subpool(self):
        if not self.had:
            yield f"{label(self.machine, self.machine.entry(self.s.task, self.s.number()))} is new. (rule 42)"

    def taken(self):
        n = sum(self.free) - sum(free_pages(self.machine))
        if n == 0:
            return "No page was newly assigned. (rule 4)"
        return pages(n, "was newly assigned. (rule 5)", "were newly assigned. (rule 5)")

    def freed(self):
        n = sum(free_pages(self.machine)) - sum(self.free)
        if n:
            yield pages(n, "became free. (rule 5)", "became free. (rule 5)")

    def part(self, name):
        pool = self.machine.pools[name]
        if len(pool.parts) != self.parts:
            address, count = pool.parts[-1]
            cells = "1 cell" if count == 1 else f"{count} cells"
            length = part_length(count, pool.size)
            yield f"Pool {name} has a new part for {cells} of {pool.size} bytes: {length} bytes at {address:08X}. (rule 57)"

    def pool(self, form):
        name = self.s.keys["CPID"]
        if form == "GET":
            address, length = self.machine.names[self.s.keys["CELL"]]
            yield f"{self.s.keys['CELL']} is a cell of pool {name}: {length} bytes at {address:08X}. (rule 60)"
            grown = list(self.part(name))
            yield from grown + [self.taken()] * len(grown)
        elif form == "BUILD":
            yield from self.part(name)
            yield from self.new_subpool()
            yield self.taken()
        elif form == "DELETE":
            yield from self.freed()

    def released(self):
        if "LV" not in self.s.keys and "LENGTH" not in self.s.keys and "A" not in self.s.keys:
            subpool = self.machine.entry(self.s.task, self.s.number())
            if subpool is not None:
                yield f"{label(self.machine, subpool)} is now empty. (rule 34)"
        yield from self.freed()

    def attached(self):
        name = self.s.keys["TASK"]
        for number, subpool in sorted(self.machine.tasks[name].table.items()):
            if self.machine.owner[subpool] == name:
                yield f"{name} now owns SP {number}, given by {self.s.task}. (rule 43)"
            else:
                if number not in self.numbers:
                    yield f"{label(self.machine, subpool)} is new. (rule 42)"
                yield f"{name} shares {label(self.machine, subpool)}. (rule 44)"

    def stays(self):
        """The subpools that an ended task had and that stay."""
        return sorted(f"{name} remains: {self.s.task} shared it. (rule 53)" for name, owner in self.has.items() if owner in self.machine.tasks)

    def facts(self, answer):
        """The facts of a statement that is answered so."""
        s = self.s
        if re.fullmatch(r"ENDED|ABEND \S+", answer):
            return self.stays()
        if not GRANTED.fullmatch(answer):
            return []
        if s.operation == "CPOOL":
            return self.pool(s.plain[0])
        if s.operation == "ATTACH":
            return self.attached()
        if s.operation == "FREEMAIN" or s.plain[0] == "RELEASE":
            return self.released()
        if s.plain[0] in ("LC", "LU"):
            return self.obtained(items(s.keys["A"]), [(int(n), int(n)) for n in items(s.keys["LA"])])
        lengths = [int(n) for n in items(s.keys.get("LV") or s.keys["LENGTH"])]
        return self.obtained([s.keys.get("A") or s.keys["ADDR"]], [(lengths[-1], lengths[0])])


def addresses(printed):
    """The addresses in the reasons of printed lines, by the numbers of the lines that are refused."""
    found, number = {}, None
    for line in printed.splitlines():
        reason = ADDRESSES.fullmatch(line)
        if reason:
            found[number] = int(next(address for address in reason.groups() if address), 16)
        elif not line.startswith("*"):
            number = line.partition(" ")[0]
    return found


def names_set(s):
    """The names that a statement sets where it is granted."""
    if s.operation == "GETMAIN" or s.operation == "STORAGE" and s.plain[0] == "OBTAIN":
        return items(s.keys.get("A") or s.keys["ADDR"])
    return [s.keys["CELL"]] if s.operation == "CPOOL" and s.plain[0] == "GET" else []


def naming(machine, numbers, address):
    """Which of the names that lines of these numbers have set has an address in its place: the one that was set last."""
    having = [(numbers[name], name) for name, (first, length) in machine.names.items() if first <= address < first + length]
    if having:
        number, name = max(having)
        first, length = machine.names[name]
        if address == first:
            yield f"{address:08X} is {name}, {length} bytes obtained in line {number}. (rule 37)"
        else:
            into = "1 byte" if address == first + 1 else f"{address - first} bytes"
            yield f"{address:08X} is {into} into {name}, {length} bytes at {first:08X} obtained in line {number}. (rule 37)"


def expected(lines, placement, addresses_of_lines):
    """What a script without faults prints, with the lines of its facts, where its reasons have these addresses."""
    machine, numbers = None, {}
    for number, line in enumerate(lines, 1):
        if not line.strip(" ") or line.startswith("*"):
            continue
        s = Statement(line)
        if s.operation == "REGION":
            if machine is not None:
                yield f"STEP ENDED RC {8 if machine.some_abend else 0}"
            machine, numbers = begin(emulator(placement), s), {}
            yield f"{number} {s.task} REGION BELOW {machine.regions[0].pages} ABOVE {machine.regions[1].pages}"
            continue
        watcher = Watcher(machine, s)
        address = addresses_of_lines.get(str(number))
        named = [] if address is None else list(naming(machine, numbers, address))
        said = machine.says(s.task, *DOES[s.operation](machine, s))
        yield from (f"{number} {text}" for text in said)
        yield from (f"* {fact}" for fact in [*named, *watcher.facts(said[0].partition(" ")[2])])
        if GRANTED.fullmatch(said[0].partition(" ")[2]):
            numbers.update(dict.fromkeys(names_set(s), number))
    yield f"STEP ENDED RC {8 if machine.some_abend else 0}"


def without_reasons(printed):
    """The printed lines, but for those with an asterisk that are no fact; of what stays at an end the order does not count."""
    lines = [line for line in printed.splitlines() if not line.startswith("*") or FACTS.fullmatch(line)]
    runs = (list(run) for _, run in groupby(lines, lambda line: " remains: " in line))
    return [line for run in runs for line in (sorted(run) if " remains: " in run[0] else run)]
