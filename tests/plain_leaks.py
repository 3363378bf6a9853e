"""What a script prints with a report of leaks at the end of each step, as the plain machine has it."""

from plain_emulator import DOES, Statement, begin, emulator
from plain_facts import GRANTED, label, names_set
from plain_machine import part_length

MOST_LINES = 10


def count(n, thing):
    return f"{n} {thing}" if n == 1 else f"{n} {thing}s"


class Left:
    """The areas that lines of a step were granted, and the latest one over each doubleword; and the line that built each pool."""

    def __init__(self):
        self.areas, self.latest, self.pools = [], {}, {}

    def granted(self, machine, s, number):
        """Adds the areas that a granted statement obtained, or the pool that it built."""
        if s.operation == "CPOOL":
            if s.plain[0] == "BUILD":
                name = s.keys["CPID"]
                self.pools.pop(name, None)
                self.pools[name] = (label(machine, machine.pools[name].subpool), s.task, number)
            return
        subpool = label(machine, machine.entry(s.task, s.number())) if names_set(s) else None
        for name in names_set(s):
            address, length = machine.names[name]
            for doubleword in range(address // 8, (address + length) // 8):
                self.latest[doubleword] = len(self.areas)
            self.areas.append((name, address, length, subpool, s.task, number))

    def bytes_left(self, machine):
        """How many bytes of each area are held outside of cell pools, by its place in the list."""
        left = [0] * len(self.areas)
        for region in machine.regions:
            for index, holder in enumerate(region.holder):
                if holder is not None and not holder[1]:
                    left[self.latest[region.base // 8 + index]] += 8
        return left

    def totals(self, found, left):
        """The totals by subpool, and those by task, the group of the last area first; a single one is not printed."""
        for words, field in (("In", 3), ("Obtained by", 4)):
            groups = {}
            for place in sorted((place for _, place in found), reverse=True):
                groups.setdefault(self.areas[place][field], []).append(left[place])
            if len(groups) > 1:
                for name, parts in list(groups.items())[:MOST_LINES]:
                    yield f"* {words} {name}: {count(len(parts), 'area')}, {sum(parts)} bytes."

    def area_lines(self, machine):
        left = self.bytes_left(machine)
        found = sorted((-n, place) for place, n in enumerate(left) if n)
        if found:
            yield f"* Never released: {count(len(found), 'area')}, {sum(left)} bytes."
        for n, place in found[:MOST_LINES]:
            name, address, length, subpool, task, number = self.areas[place]
            share = f"{length}" if -n == length else f"{-n} of {length}"
            yield f"* {name}: {share} bytes at {address:08X} in {subpool}, obtained by {task} in line {number}."
        if len(found) > MOST_LINES:
            yield f"* And {len(found) - MOST_LINES} more."
        yield from self.totals(found, left)

    def pool_lines(self, machine):
        standing = [(name, *built) for name, built in self.pools.items() if name in machine.pools]
        if standing:
            yield f"* Never deleted: {count(len(standing), 'pool')}."
        for name, subpool, task, number in standing:
            pool = machine.pools[name]
            length = sum(part_length(cells, pool.size) for _, cells in pool.parts)
            yield f"* Pool {name}: {length} bytes in {count(len(pool.parts), 'part')} in {subpool}, built by {task} in line {number}."

    def lines(self, machine):
        """The lines of the report."""
        yield from self.area_lines(machine)
        yield from self.pool_lines(machine)


def ended(machine):
    return f"STEP ENDED RC {8 if machine.some_abend else 0}"


class Step:
    """A step that runs: its machine, its areas, and the report of what was left when its last task ended, if that has happened."""

    def __init__(self, machine):
        self.machine, self.left, self.last_report = machine, Left(), None

    def says(self, s, number):
        """The lines that a statement prints."""
        before = list(self.left.lines(self.machine)) if self.machine.tasks else None
        said = self.machine.says(s.task, *DOES[s.operation](self.machine, s))
        if before is not None and not self.machine.tasks:
            self.last_report = before
        if GRANTED.fullmatch(said[0].partition(" ")[2]):
            self.left.granted(self.machine, s, number)
        return [f"{number} {text}" for text in said]

    def end(self):
        """The lines at its end, and whether there is a leak."""
        report = list(self.left.lines(self.machine)) if self.last_report is None else self.last_report
        return [ended(self.machine), *report], bool(report)


def printed(lines, placement):
    """The lines that a script without faults prints, and whether a step ends with a leak."""
    step, found, any_leak = None, [], False

    def end():
        nonlocal any_leak
        text, leaked = step.end()
        found.extend(text)
        any_leak |= leaked

    for number, line in enumerate(lines, 1):
        if not line.strip(" ") or line.startswith("*"):
            continue
        s = Statement(line)
        if s.operation == "REGION":
            if step is not None:
                end()
            step = Step(begin(emulator(placement), s))
            below, above = step.machine.regions
            found.append(f"{number} {s.task} REGION BELOW {below.pages} ABOVE {above.pages}")
        else:
            found += step.says(s, number)
    end()
    return found, any_leak
