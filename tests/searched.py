"""The judge beside an exhaustive search over places, on regions so small that all of them can be tried.

What the plain machine prints for a short random script with any places is accepted where each grant is asked for its place; the same
with one byte, one line or one address that is another one is accepted where some choice of places prints it, and else refused; and an
output is left open only where some choice of places prints it up to a line that the script leaves open.
"""

import random
import re
from functools import partial

import plain_emulator
from cases import each, seeds
from conformance import ACCEPTED, REFUSED, UNDECIDED, asked, judged, judgement

SCRIPTS = 3000  # 2,000 of these ask for their places


class Branch(Exception):
    """One of several things is chosen next."""

    def __init__(self, found):
        super().__init__()
        self.found = found


class Searched(plain_emulator.Placed):
    """The plain machine that makes the choices that it is given, and stops at the first that is missing."""

    def copy(self, choices):
        """The same machine with other choices to make."""
        other = type(self).__new__(type(self))
        other.__dict__.update(self.__dict__)
        other.regions = [type(r)(r.base, r.pages) for r in self.regions]
        for region, old in zip(other.regions, self.regions):
            region.holder, region.byte = list(old.holder), list(old.byte)
        other.tasks = {n: type(t)(t.mother, t.above, dict(t.table)) for n, t in self.tasks.items()}
        other.pools = {
            n: type(p)(p.subpool, p.size, p.secondary, p.either, list(p.parts), set(p.taken)) for n, p in self.pools.items()
        }
        other.owner, other.names, other.choices = dict(self.owner), dict(self.names), list(choices)
        return other

    def choose(self, subpool, most, least, start, within, either):
        if self.choices:
            return self.choices.pop(0)
        best = super().choose(subpool, most, least, start, within, either)
        if best is None:
            return None
        region, unit, length = self.region(best[0]), 1 << start, best[1]
        raise Branch([
            (address, length)
            for low, high in region.runs(subpool)
            for address in range((low + unit - 1) // unit * unit, high - length + 1, unit)
            if within is None or address >> within == (address + length - 1) >> within
        ])

    def get(self, name, cell, conditional=False):
        pool = self.pools.get(name)
        free = [] if pool is None else [a for a in pool.cells() if a not in pool.taken]
        if not free and pool is not None and not conditional:
            self.grant_part(pool, pool.secondary)
            free = list(pool.cells())[-pool.secondary :]
        if not free:
            return super().get(name, cell, conditional)
        if not self.choices:
            raise Branch(free)
        pool.taken.add(taken := self.choices.pop(0))
        self.write((taken, pool.size), [self.fill] * pool.size)
        self.names[cell] = (taken, pool.size)
        return "CELL"


def served(machine, line, choices=()):
    """All machines after a line, each with what it prints."""
    other = machine.copy(choices)
    statement = plain_emulator.Statement(line)
    try:
        said = other.says(statement.task, *plain_emulator.DOES[statement.operation](other, statement))
    except Branch as branch:
        for choice in branch.found:
            yield from served(machine, line, (*choices, choice))
        return
    yield other, said


def printed_by(lines, printed):
    """The machines that have printed an output up to the end of some lines of one step without a fault, each with how much of it that is."""
    first = plain_emulator.Statement(lines[0])
    machine = plain_emulator.begin(Searched, first)
    start = f"1 {first.task} REGION BELOW {machine.regions[0].pages} ABOVE {machine.regions[1].pages}\n"
    found = [(machine, len(start))] if printed.startswith(start) else []
    for number, line in enumerate(lines[1:], 2):
        behind = []
        for machine, at in found:
            for other, said in served(machine, line):
                text = "".join(f"{number} {part}\n" for part in said)
                if printed.startswith(text, at):
                    behind.append((other, at + len(text)))
        found = behind
    return found


def is_printing(script, printed):
    """Whether some choice of places prints this, of a script of one step without a fault."""
    found = printed_by(script.splitlines(), printed)
    return any(printed[at:] == f"STEP ENDED RC {8 if m.some_abend else 0}\n" for m, at in found)


# ---- short scripts


def obtain(dice, task, name):
    form = dice.choice(("R", "RC", "RU", "VRC", "STORAGE"))
    length = dice.choice((512, 1000, 1024, 1500, 2048, 4096))
    bounds = dice.choice((",STARTBDY=9", ",STARTBDY=10", ",BNDRY=PAGE"))
    number = dice.choice(("", "", ",SP=1"))
    if form == "STORAGE":
        return f"{task} STORAGE OBTAIN,LENGTH={length},ADDR={name},COND=YES{number},STARTBDY=10"
    if form == "R":
        return f"{task} GETMAIN R,LV={max(length, 4000)},A={name}{number}"
    if form == "VRC":
        return f"{task} GETMAIN VRC,LV=({length},512),A={name}{number}{bounds}"
    return f"{task} GETMAIN {form},LV={length},A={name}{number}{bounds}"


def release(dice, task, names):
    name = dice.choice(names)
    return f"{task} FREEMAIN RC,LV={dice.choice((8, 512, 1024, 2048))},A={name}"


def touch(dice, task, names):
    name = dice.choice(names)
    return dice.choice((f"{task} SHOW {name},4", f"{task} PUT {name},X'C1'", f"{task} MOVE {name}+8,{name},4", f"{task} WHERE {name}"))


def several(dice, task, name):
    return f"{task} GETMAIN LC,LA=({dice.choice((1024, 2048))},{dice.choice((1024, 3072))}),A=({name},{name}2),BNDRY=PAGE"


def cells(dice, task, name):
    if dice.random() < 0.5:
        return f"{task} CPOOL BUILD,CPID=P{dice.choice('12')},CSIZE=1000,PCELLCT=4"
    return f"{task} CPOOL GET,COND,CPID=P{dice.choice('12')},CELL={name}"


def is_asked(seed):
    """Whether the script asks for all places; one that does not is shorter, for all choices are tried."""
    return seed % 3 > 0


def tiny(seed):
    """A script of a few requests in one or two pages."""
    dice = random.Random(seed)
    lines, names = [f"JOB REGION BELOW={dice.choice((1, 1, 2))}{dice.choice(('', ',ABOVE=1'))}"], ["U"]
    task = "JOB"
    for k in range(dice.randrange(4, 7) if is_asked(seed) else dice.randrange(1, 3)):
        name = f"N{k}"
        what = dice.random()
        if what < 0.5:
            lines.append(obtain(dice, task, name))
            names.append(name)
        elif what < 0.6 and seed % 4 == 3:
            lines.append(several(dice, task, name))
            names.append(name)
        elif what < 0.65 and seed % 8 == 2:
            lines.append(cells(dice, task, name))
            names.append(name)
        elif what < 0.75:
            lines.append(release(dice, task, names))
        elif what < 0.95:
            lines.append(touch(dice, task, names))
        else:
            lines.append(f"{task} ATTACH TASK=SUB{k}")
            task = f"SUB{k}"
    return "".join(f"{line}\n" for line in lines)


# ---- other printings


def other_byte(printed, dice):
    at = dice.randrange(len(printed))
    return printed[:at] + chr((ord(printed[at]) - 31) % 95 + 32) + printed[at + 1 :]


def other_line(printed, dice):
    lines = printed.splitlines(True)
    at = dice.randrange(len(lines))
    if dice.random() < 0.5:
        return "".join(lines[:at] + lines[at + 1 :])
    lines[at] = re.sub("RC 0|RC 4|OK|CELL|NO CELL", lambda found: dice.choice(("RC 0", "RC 4", "OK")), lines[at])
    return "".join(lines)


def other_address(printed, dice):
    located = list(re.finditer(r" AT ([0-9A-F]{8})$", printed, re.M))
    if not located:
        return printed
    match = dice.choice(located)
    address = dice.choice((0x6000, 0x7000, 0x1000000)) + dice.choice((8, 512, 1024)) * dice.randrange(4)
    return printed[: match.start(1)] + f"{address:08X}" + printed[match.end(1) :]


def is_asked_for(lines, k):
    """Whether each place of a line is decided: it is granted none, or the lines after it ask for each."""
    grant = re.match(r"(\w+) (?:GETMAIN|STORAGE OBTAIN).*,A(?:DDR)?=(\w+|\([\w,]+\))", lines[k])
    asks = [f"{grant[1]} WHERE {name}" for name in plain_emulator.items(grant[2])] if grant else []
    return "CPOOL" not in lines[k] and lines[k + 1 : k + 1 + len(asks)] == asks


def is_open(script, printed, number):
    """Whether some choice of places prints an output up to a line, and another choice may be answered there otherwise than it continues."""
    lines = script.splitlines()
    found = printed_by(lines[: number - 1], printed)
    if not is_asked_for(lines, number - 1):
        return len(found) > 0
    answers = [(at, said) for machine, at in found for _, said in served(machine, lines[number - 1])]
    return "GETMAIN L" in lines[number - 1] and any(
        not printed.startswith("".join(f"{number} {part}\n" for part in said), at) for at, said in answers
    )


def agrees(program, script, printed):
    """Whether the judge says what the search finds, or leaves open what may be."""
    said, status = judgement(program, script, printed)
    word = said.partition("\n")[0]
    if (word, status) == UNDECIDED:
        return is_open(script, printed, int(re.search(r"^line (\d+) of the script", said, re.M)[1]))
    return (word, status) == (ACCEPTED if is_printing(script, printed) else REFUSED)


def shows_all_places(script):
    """Whether all places are known: each is asked for, and none is a list's, which may be granted or refused."""
    lines = script.splitlines()
    return "GETMAIN L" not in script and all(is_asked_for(lines, k) for k in range(len(lines)))


def of_seed(program, seed):
    """Whether the judge agrees with the search on what the plain machine prints, and on what it does not."""
    dice = random.Random(seed)
    script = tiny(seed)
    if is_asked(seed):
        script = asked(program, script)
    printed = plain_emulator.run(script, "random", None, seed)
    if shows_all_places(script) and judged(program, script, printed) != ACCEPTED:
        return False
    change = (other_byte, other_line, other_address)[seed // 3 % 3]
    return agrees(program, script, printed) and agrees(program, script, change(printed, dice))


def groups(program):
    yield "judged by search", each(partial(of_seed, program), seeds(SCRIPTS), str, chunksize=20)
