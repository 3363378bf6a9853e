"""Why requests get no storage, as the plain machine has it: the lines of these reasons after the answers of a script."""

import re

from plain_emulator import DOES, Placed, Statement, begin

PAGE_DOUBLEWORDS = 512
EVERYTHING = 1 << 31
SHORTAGE = re.compile(r"\* .*; free runs: \d+; free pages: \d+ below, \d+ above\. \(rules? [0-9, ]+\)")


def pages(region):
    return [region.holder[first : first + PAGE_DOUBLEWORDS] for first in range(0, len(region.holder), PAGE_DOUBLEWORDS)]


def free_runs(page):
    return sum(holder is None and (k == 0 or page[k - 1] is not None) for k, holder in enumerate(page))


class Lacking(Placed):
    """A machine that keeps the last request for which it had no place, and the room that there was."""

    lack, part, held = None, None, 0

    def room(self, subpool, start, within, either):
        longest = self.choose(subpool, EVERYTHING, 8, start, within, either)
        own = [page for region in self.regions[: 1 + either] for page in pages(region) if any(h and h[0] == subpool for h in page)]
        free = [sum(not any(page) for page in pages(region)) for region in self.regions]
        runs = sum(map(free_runs, own))
        return longest[1] if longest else 0, f"; free runs: {runs}; free pages: {free[0]} below, {free[1]} above."

    def choose(self, subpool, most, least, start, within, either):
        place = super().choose(subpool, most, least, start, within, either)
        if place is None and most != EVERYTHING:
            self.lack = least, *self.room(subpool, start, within, either)
        return place

    def obtain_list(self, task, names, lengths, number=0, start=3, conditional=False):
        self.held = 0
        return super().obtain_list(task, names, lengths, number, start, conditional)

    def grant_part(self, pool, count):
        self.part = count, pool.size
        super().grant_part(pool, count)

    def hold(self, place, subpool, is_pool):
        super().hold(place, subpool, is_pool)
        self.held += 1


def texts(machine, s):
    """The reason of a statement that gets no storage."""
    least, longest, room = machine.lack
    if s.operation == "CPOOL":
        cells, size = machine.part
        yield f"* Pool {s.keys['CPID']}: no room for {cells} cells of {size} bytes; the largest area that fits has {longest} bytes{room} (rules 59, 61)"
    elif s.plain[0] not in ("LC", "LU"):
        yield f"* {least} bytes requested in SP {s.number()}, but the largest area that fits has {longest} bytes{room} (rule 12)"
    else:
        before = "after the members before it " if machine.held else ""
        said = f"* Member {machine.held + 1} of the list requests {least} bytes, but {before}the largest area that fits has {longest} bytes"
        yield f"{said}{room} (rule 22)"


def kind(placement):
    return type("Lacks", (Lacking,), {"placement": placement})


def expected(lines, placement):
    """What a script without faults prints of shortages."""
    machine = None
    for line in lines:
        if not line.strip(" ") or line.startswith("*"):
            continue
        s = Statement(line)
        if s.operation == "REGION":
            machine = begin(kind(placement), s)
            continue
        machine.lack = None
        answer = machine.says(s.task, *DOES[s.operation](machine, s))[0]
        if machine.lack and re.search(r" (RC 4|ABEND S8(04|0A|78))$", answer):
            yield from texts(machine, s)


def of(explained):
    """The lines of an output with reasons that report shortages."""
    return [line for line in explained.splitlines() if SHORTAGE.fullmatch(line)]
