"""What the history of the storage says of each line, as the plain machine has it: who freed an address, which length fits with LOC=ANY
where storage is short, who has that storage, and what stays after tasks. What is freed is found by comparing what is held before and
after each statement."""

import re

from plain_emulator import DOES, Placed, Statement, begin
from plain_facts import GRANTED, label
from plain_leaks import MOST_LINES, Left, count
from plain_machine import family
from plain_shortages import EVERYTHING

MOST_HELD = 3
ADDRESS = re.compile(r"\* ([0-9A-F]{8}) (?:is free;|is held by|is in pool|is in no region|is outside).*")
SHORT = re.compile(r"\* (?:\d+ bytes requested in SP |Pool \S+: no room for |Member \d+ of the list requests ).*")
FOUND = re.compile(r"\* (?:[0-9A-F]{8} (?:is|was) in \S+: |Held|\S+: \d+( of \d+)? bytes at [0-9A-F]{8} (stay )?in SP |In SP \d+ of |And \d+ more\.|With LOC=ANY ).*")
ENDED = re.compile(r"ENDED|ABEND \S+.*")


def holders(machine):
    return {region.base // 8 + index: held for region in machine.regions for index, held in enumerate(region.holder) if held is not None}


class Anywhere(Placed):
    """A machine that keeps the greatest length that fits with LOC=ANY for an area, or for the first part of a cell pool, that it has no
    place for, if that fits so."""

    fits, located = None, False

    def obtain(self, task, form, *how, **more):
        self.located = family(form) == "X"
        return super().obtain(task, form, *how, **more)

    def obtain_list(self, *how, **more):
        self.located = False
        return super().obtain_list(*how, **more)

    def build(self, *how, **more):
        self.located = True
        return super().build(*how, **more)

    def get(self, *how, **more):
        self.located = False
        return super().get(*how, **more)

    def choose(self, subpool, most, least, start, within, either):
        place = super().choose(subpool, most, least, start, within, either)
        if place is None and self.located:
            longest = super().choose(subpool, EVERYTHING, 8, start, within, True)
            self.fits = longest[1] if longest and longest[1] >= least else None
        return place


def kind(placement):
    return type("Anywhere", (Anywhere,), {"placement": placement})


class History(Left):
    """The areas of a step, what freed each doubleword of them, and how many areas there were when a task was attached."""

    def __init__(self):
        super().__init__()
        self.over, self.freed, self.attached = {}, {}, {}

    def obtained(self, machine, s, number):
        """Adds what a granted statement obtained, or whom it attached."""
        first = len(self.areas)
        if s.operation == "ATTACH":
            self.attached[s.keys["TASK"]] = first
        self.granted(machine, s, number)
        for place in range(first, len(self.areas)):
            _, address, length, *_ = self.areas[place]
            for doubleword in range(address // 8, (address + length) // 8):
                self.over.setdefault(doubleword, []).append(place)

    def how(self, s, owners, subpool, number, is_end):
        """What freed a doubleword that a subpool held: its number for it, and its owner before the statement."""
        name, owner = owners[subpool]
        if not is_end:
            is_whole = not {"LV", "LENGTH", "A", "ADDR", "LA"} & set(s.keys)
            return f", released with all of {name} in line {number}." if is_whole else f", released by {s.task} in line {number}."
        return f", freed by the end of {owner} in line {number}."

    def compare(self, s, before, owners, after, number, is_end):
        """Notes which doublewords of areas a statement freed."""
        for doubleword, (subpool, is_pool) in before.items():
            if not is_pool and doubleword not in after and doubleword in self.over:
                self.freed[self.over[doubleword][-1], doubleword] = self.how(s, owners, subpool, number, is_end)

    def fate(self, address, place):
        name, first, length, subpool, task, number = self.areas[place]
        freed = self.freed.get((place, address // 8), ".")
        verb = "is" if freed == "." else "was"
        return f"* {address:08X} {verb} in {name}: {length} bytes at {first:08X} in {subpool}, obtained by {task} in line {number}{freed}"

    def of_address(self, address):
        had = self.over.get(address // 8, [])
        if len(had) > 1 and (had[-1], address // 8) not in self.freed:
            yield self.fate(address, had[-2])
        if had:
            yield self.fate(address, had[-1])

    def line(self, place, left, word):
        name, address, length, subpool, task, number = self.areas[place]
        share = f"{length}" if left[place] == length else f"{left[place]} of {length}"
        return f"* {name}: {share} bytes at {address:08X} {word} {subpool}, obtained by {task} in line {number}."

    def held(self, machine, is_below):
        """Who has the storage."""
        left = self.bytes_left(machine)
        found = sorted((-n, place) for place, n in enumerate(left) if n and not (is_below and self.areas[place][1] >= 0x1000000))
        if found:
            side = " below 16 MB" if is_below else ""
            yield f"* Held{side}: {count(len(found), 'area')}, {sum(-n for n, _ in found)} bytes."
        yield from (self.line(place, left, "in") for _, place in found[:MOST_HELD])
        yield from (total for total in self.totals(found, left) if total.startswith("* In "))

    def stays(self, machine, tasks):
        """What stays of the areas that tasks obtained since they were attached."""
        left = self.bytes_left(machine)
        since = {task: self.attached.get(task, 0) for task in tasks}
        found = sorted((-n, place) for place, n in enumerate(left) if n and self.areas[place][4] in since and place >= since[self.areas[place][4]])
        yield from (self.line(place, left, "stay in") for _, place in found[:MOST_LINES])
        if len(found) > MOST_LINES:
            yield f"* And {len(found) - MOST_LINES} more."


def is_below(s):
    """Whether a statement asks for storage below 16 megabytes only."""
    return re.match(r"\(?(BELOW|24)\b", s.keys.get("LOC", "")) is not None or bool(s.plain) and s.plain[0] in ("LC", "LU")


def reasons(printed):
    """The addresses in the reasons of printed lines, and the lines that are short of storage, by their numbers."""
    addresses, short, number = {}, set(), None
    for line in printed.splitlines():
        address = ADDRESS.fullmatch(line)
        if address:
            addresses[number] = int(address[1], 16)
        elif SHORT.fullmatch(line):
            short.add(number)
        elif not line.startswith("*"):
            number = line.partition(" ")[0]
    return addresses, short


def found_lines(printed):
    """The lines of a printing that a history has, each after the number of its line."""
    number = None
    for line in printed.splitlines():
        if not line.startswith("*"):
            number = line.partition(" ")[0]
        elif FOUND.fullmatch(line):
            yield number, line


def expected(lines, placement, printed):
    """What a script without faults should print of its history, if its reasons have these addresses and shortages."""
    addresses, short = reasons(printed)
    machine, history = None, None
    for number, line in enumerate(lines, 1):
        if not line.strip(" ") or line.startswith("*"):
            continue
        s = Statement(line)
        if s.operation == "REGION":
            machine, history = begin(kind(placement), s), History()
            continue
        key = str(number)
        before = holders(machine)
        owners = {subpool: (label(machine, subpool), machine.owner[subpool]) for subpool in {held[0] for held in before.values()} if subpool in machine.owner}
        found = list(history.of_address(addresses[key])) if key in addresses else []
        held = list(history.held(machine, is_below(s))) if key in short else []
        tasks, machine.fits = list(machine.tasks), None
        said = machine.says(s.task, *DOES[s.operation](machine, s))
        answer = said[0].partition(" ")[2]
        is_end = ENDED.fullmatch(answer) is not None
        if key in short and machine.fits is not None:
            found.append(f"* With LOC=ANY it would fit: the largest area then has {machine.fits} bytes. (rule 14)")
        stays = list(history.stays(machine, [task for task in tasks if task not in machine.tasks])) if is_end else []
        yield from ((key, text) for text in found + held + stays)
        history.compare(s, before, owners, holders(machine), number, is_end)
        if GRANTED.fullmatch(answer):
            history.obtained(machine, s, number)


def is_as_plain(printed, lines, placement):
    return list(found_lines(printed)) == list(expected(lines, placement, printed))
