#!/usr/bin/env python3
"""The plain machine as an emulator of its own: it reads a script from standard input and prints what it answers.

`tests/plain_emulator.py [low|high|page|random] [WRONG]`: where areas are, `page` for the highest doublewords in the lowest page,
`random` for any place that serves; and one of the wrong variants of `WRONG`, each of which answers what no machine of
docs/MODEL.md answers. Faults are those that conformance/readers/read_script.py finds.
"""

import random
import re
import sys
from pathlib import Path

HERE = Path(__file__).resolve().parent
sys.path[:0] = [str(HERE), str(HERE.parent / "conformance/readers")]
sys.dont_write_bytecode = True
from plain_machine import Abend, Machine  # noqa: E402


class Placed(Machine):
    """The plain machine with places of its own."""

    placement, order, dice = "low", "first", random.Random(0)

    def find(self, runs, length, start, within):
        unit, found = 1 << start, []
        for low, high in runs:
            for address in range((low + unit - 1) // unit * unit, high - length + 1, unit):
                if within is None or address >> within == (address + length - 1) >> within:
                    if self.placement == "low":
                        return address
                    if found and self.placement == "page" and address // 4096 > found[0] // 4096:
                        return found[-1]
                    found.append(address)
        if not found:
            return None
        return self.dice.choice(found) if self.placement == "random" else found[-1]


    def pick(self, free):
        return self.dice.choice(free) if self.order == "random" else free[-1 if self.order == "last" else 0]


class SharedPages(Placed):
    """A page serves for several subpools."""

    def choose(self, subpool, *wanted):
        held = [holder for region in self.regions for holder in region.holder if holder is not None]
        if held:
            subpool = held[0][0]
        return super().choose(subpool, *wanted)


class LowFill(Placed):
    """An area is filled with X'FF' instead of the fill byte."""

    def hold(self, place, subpool, is_pool):
        super().hold(place, subpool, is_pool)
        if not is_pool:
            self.write(place, [self.fill ^ 0xFF] * place[1])


class NoRounding(Placed):
    """An area is a doubleword longer than was requested."""

    def choose(self, subpool, most, least, *how):
        return super().choose(subpool, most + 8, least, *how)


class WrongCode(Placed):
    """A shortage of R is 804."""

    def obtain(self, task, form, *how, **more):
        return super().obtain(task, "EU" if form == "R" else form, *how, **more)


class KeepsReleased(Placed):
    """A release answers 0 and keeps what it was to free."""

    def free(self, place):
        pass


class FreesAll(Placed):
    """A release of what is not held answers 0."""

    def release(self, task, form, places, number=0, conditional=False):
        try:
            answer = super().release(task, form, places, number, conditional)
        except Abend:
            return "RC 0"
        return "RC 0" if answer == "RC 4" else answer


class KeepsSubpools(Placed):
    """What an ended task owned stays."""

    def drop_subpool(self, subpool):
        pass


class ForgetsNames(Placed):
    """A release forgets the names of its areas."""

    def release(self, task, form, places, *how, **more):
        answer = super().release(task, form, places, *how, **more)
        gone = {address for address, _ in places}
        if answer == "RC 0":
            self.names = {name: place for name, place in self.names.items() if place[0] not in gone}
        return answer


class MovesUpwards(Placed):
    """MOVE copies byte by byte, upwards."""

    def move(self, to, source, length):
        if self.bytes_at(source, length) is None or self.bytes_at(to, length) is None:
            raise Abend("S0C4")
        for k in range(length):
            self.write((to + k, 1), self.bytes_at(source + k, 1))
        return "OK"


class OffByDoubleword(Placed):
    """WHERE prints an address that is 4 too high."""

    printed_too_high = 4


class PartialLists(Placed):
    """A list that is refused keeps its first area."""

    def obtain_list(self, task, names, lengths, number=0, start=3, conditional=False):
        answer = super().obtain_list(task, names, lengths, number, start, conditional)
        if answer == "RC 4":
            self.obtain(task, "EC", names[0], lengths[0], None, number, start, None, "BELOW", True)
        return answer


WRONG = {
    wrong.__name__: wrong
    for wrong in (
        SharedPages, LowFill, NoRounding, WrongCode, KeepsReleased, FreesAll, KeepsSubpools, ForgetsNames, MovesUpwards,
        OffByDoubleword, PartialLists,
    )
}  # fmt: skip


# ---- the reading of a line


def operands(field):
    """The operands of a field: commas inside parentheses and quotes part nothing."""
    found, depth, quoted = [""], 0, False
    for char in field:
        if char == "," and not depth and not quoted:
            found.append("")
            continue
        quoted ^= char == "'"
        depth += (char == "(") - (char == ")")
        found[-1] += char
    return found


def items(text):
    return text.strip("()").split(",")


def address(text):
    if text.startswith("X'"):
        return int(text[2:-1], 16)
    name, _, offset = text.partition("+")
    return name, int(offset or 0)


class Statement:
    """A line without a fault: its operands as they are written."""

    def __init__(self, line):
        words = [word for word in line.split(" ") if word]
        self.task, self.operation, self.field = words[0], words[1], words[2] if len(words) > 2 else ""
        parts = operands(self.field) if self.field and self.operation != "RETURN" else []
        self.plain = [part for part in parts if not re.match(r"[A-Z]+=", part)]
        self.keys = dict(part.split("=", 1) for part in parts if re.match(r"[A-Z]+=", part))

    def number(self):
        return int(self.keys.get("SP", 0))

    def boundary(self):
        """The power of two on which an area begins, and the one that it does not cross."""
        if self.keys.get("BNDRY") == "PAGE":
            return 12, None
        within = self.keys.get("CONTBDY")
        return int(self.keys.get("STARTBDY", 3)), within and int(within)


# ---- the statements: what is looked up, and what is asked of the machine


def obtain(machine, s, form, length, name, loc, conditional):
    most, _, least = length.strip("()").partition(",")
    start, within = s.boundary()
    how = (s.number(), start, within, loc, conditional)
    return [], lambda: machine.obtain(s.task, form, name, int(most), int(least) if least else None, *how)


def getmain(machine, s):
    form = s.plain[0]
    if form in ("LC", "LU"):
        names, lengths = items(s.keys["A"]), [int(n) for n in items(s.keys["LA"])]
        start, conditional = s.boundary()[0], form == "LC"
        return [], lambda: machine.obtain_list(s.task, names, lengths, s.number(), start, conditional)
    loc = s.keys.get("LOC", "RES") if form in ("RC", "RU", "VRC", "VRU") else "BELOW"
    return obtain(machine, s, form, s.keys["LV"], s.keys["A"], loc, form.endswith("C"))


def release(machine, s, form, length, operand, conditional):
    if operand is None:
        return [], lambda: machine.release_whole(s.task, form, s.number())
    place, names = address(operand), []
    if not isinstance(place, int):
        names = [place[0]]
    act = lambda: machine.release(s.task, form, [(machine.place(place), int(length))], s.number(), conditional)
    return names, act


def freemain(machine, s):
    form = s.plain[0]
    conditional = form.endswith("C")
    if form in ("VC", "VU"):
        name = s.keys["A"]
        return [name], lambda: machine.release(s.task, form, [machine.names[name]], s.number(), conditional)
    if form in ("LC", "LU"):
        places, lengths = [address(text) for text in items(s.keys["A"])], [int(n) for n in items(s.keys["LA"])]
        names = [place[0] for place in places if not isinstance(place, int)]
        act = lambda: machine.release(
            s.task, form, [(machine.place(p), n) for p, n in zip(places, lengths)], s.number(), conditional
        )
        return names, act
    return release(machine, s, form, s.keys.get("LV"), s.keys.get("A"), conditional)


def storage(machine, s):
    conditional = s.keys.get("COND") == "YES"
    if s.plain[0] == "OBTAIN":
        return obtain(machine, s, "STORAGE", s.keys["LENGTH"], s.keys["ADDR"], s.keys.get("LOC", "RES"), conditional)
    return release(machine, s, "STORAGE", s.keys.get("LENGTH"), s.keys.get("ADDR"), conditional)


def cpool(machine, s):
    form, pool = s.plain[0], s.keys["CPID"]
    if form == "BUILD":
        size, primary, secondary = (int(s.keys[key]) if key in s.keys else None for key in ("CSIZE", "PCELLCT", "SCELLCT"))
        how = (s.number(), s.keys.get("LOC", "RES"))
        return [], lambda: machine.build(s.task, pool, size, primary, secondary, *how)
    if form == "GET":
        return [], lambda: machine.get(pool, s.keys["CELL"], s.plain[1:] in (["COND"], ["C"]))
    if form == "FREE":
        cell = address(s.keys["CELL"])
        return [] if isinstance(cell, int) else [cell[0]], lambda: machine.free_cell(pool, machine.place(cell))
    return [], lambda: machine.delete(pool)


def numbers(s, one, some):
    return [int(n) for n in items(s.keys[some])] if some in s.keys else [int(s.keys[one])] if one in s.keys else []


def attach(machine, s):
    how = (numbers(s, "GSPV", "GSPL"), numbers(s, "SHSPV", "SHSPL"), s.keys.get("SZERO") != "NO", s.keys.get("RES") == "ABOVE")
    return [], lambda: machine.attach(s.task, s.keys["TASK"], *how)


def abend(machine, s):
    def act():
        raise Abend(f"U{int(s.plain[0]):04d}")

    return [], act


def looked_up(*places):
    return [place[0] for place in places if not isinstance(place, int)]


def put(machine, s):
    to, values = address(s.plain[0]), list(bytes.fromhex(s.plain[1][2:-1]))
    return looked_up(to), lambda: machine.put(machine.place(to), values)


def show(machine, s):
    place = address(s.plain[0])
    return looked_up(place), lambda: machine.show(machine.place(place), int(s.plain[1]))


def move(machine, s):
    to, source = address(s.plain[0]), address(s.plain[1])
    return looked_up(to, source), lambda: machine.move(machine.place(to), machine.place(source), int(s.plain[2]))


def where(machine, s):
    name = s.plain[0]
    return [name], lambda: f"AT {machine.names[name][0] + getattr(machine, 'printed_too_high', 0):08X}"


def report(machine, s):
    return [], machine.report_map if s.plain[0] == "MAP" else lambda: machine.report_subpools(s.task)


DOES = {
    "GETMAIN": getmain, "FREEMAIN": freemain, "STORAGE": storage, "CPOOL": cpool, "ATTACH": attach, "ABEND": abend, "PUT": put,
    "SHOW": show, "MOVE": move, "WHERE": where, "REPORT": report, "REGION": None,
    "RETURN": lambda machine, s: ([], lambda: machine.finish(s.task)),
}  # fmt: skip


def begin(kind, s):
    pages = [int(s.keys.get(key, 0)) for key in ("BELOW", "ABOVE")]
    return kind(s.task, *pages, int(s.keys.get("FILL", "00"), 16), s.keys.get("RES") == "ABOVE")


def answers(kind, lines):
    """The printed lines of a script."""
    import read_script  # a copy of only the tests has no folder conformance

    machine = None
    try:
        for found in read_script.read(line.encode("latin-1") for line in lines):
            statement, number = Statement(lines[found.number - 1]), found.number
            if statement.operation == "REGION":
                if machine is not None:
                    yield f"STEP ENDED RC {8 if machine.some_abend else 0}"
                machine = begin(kind, statement)
                pages = [region.pages for region in machine.regions]
                yield f"{number} {statement.task} REGION BELOW {pages[0]} ABOVE {pages[1]}"
                continue
            yield from (f"{number} {said}" for said in machine.says(statement.task, *DOES[statement.operation](machine, statement)))
    except read_script.Fault as fault:
        yield from (str(fault), "JOB FAULT RC 12")
        return
    yield f"STEP ENDED RC {8 if machine.some_abend else 0}"


def emulator(placement="low", wrong=None, seed=0, order="first"):
    """A machine with such places, which takes free cells in such an order, and wrong in such a way."""
    kind = WRONG[wrong] if wrong else Placed
    return type(kind.__name__, (kind,), {"placement": placement, "order": order, "dice": random.Random(seed)})


def run(script, placement="low", wrong=None, seed=0, order="first"):
    """What the emulator prints for a script."""
    return "".join(f"{line}\n" for line in answers(emulator(placement, wrong, seed, order), script.splitlines()))


if __name__ == "__main__":
    sys.stdout.write(run(sys.stdin.read(), *sys.argv[1:]))
