"""The storage machine of docs/MODEL.md once more, as plain as it can be: a list of doublewords, a list of bytes, dictionaries.

The tests run scripts on it and on the program and compare what both print. It looks at every place one by one, keeps no
free queues, no chains and no headers, and is written only from the documents.
"""

from dataclasses import dataclass, field

PAGE = 4096
BELOW, ABOVE = 0x6000, 0x1000000
MOST_TASKS, MOST_POOLS = 32, 64
STEP_NUMBERS = (131, 132)  # subpools of the job step task, whoever asks

# family: shortage, invalid number at an obtain and at a release, wrong address, not held
CODES = {
    "E": ("804", "B04", "B05", "905", "A05"),
    "R": ("80A", "B0A", "B0A", "90A", "A0A"),
    "X": ("878", "B78", "B78", "978", "A78"),
}


def round8(length):
    return (length + 7) // 8 * 8


def family(form):
    return {"R": "R"}.get(form, "X" if form in ("RC", "RU", "VRC", "VRU", "STORAGE", "CPOOL") else "E")


class Abend(Exception):
    pass


@dataclass
class Region:
    base: int
    pages: int
    holder: list = field(default_factory=list)  # of each doubleword: None, or (subpool, is_pool)
    byte: list = field(default_factory=list)  # of each address: None where it may not be read

    def __post_init__(self):
        self.holder = [None] * (512 * self.pages)
        self.byte = [None] * (PAGE * self.pages)

    def end(self):
        return self.base + PAGE * self.pages

    def runs(self, subpool):
        """The runs of addresses whose doublewords the subpool may take."""
        free = []
        for page in range(self.pages):
            held = self.holder[512 * page : 512 * page + 512]
            foreign = any(h is not None and h[0] != subpool for h in set(held))
            free += [False] * 512 if foreign else [h is None for h in held]
        start = None
        for at, is_free in enumerate(free + [False]):
            if is_free and start is None:
                start = at
            elif not is_free and start is not None:
                yield self.base + 8 * start, self.base + 8 * at
                start = None


@dataclass
class Pool:
    subpool: int
    size: int
    secondary: int
    either: bool
    parts: list = field(default_factory=list)  # (address, cells)
    taken: set = field(default_factory=set)  # addresses of cells

    def cells(self):
        for address, count in self.parts:
            first = address + 16 + 8 * ((count + 63) // 64)
            yield from (first + self.size * k for k in range(count))


def part_length(count, size):
    return 16 + 8 * ((count + 63) // 64) + round8(count * size)


@dataclass
class Task:
    mother: str | None
    above: bool
    table: dict = field(default_factory=dict)  # number to subpool


class Machine:
    def __init__(self, job, below, above=0, fill=0, resides_above=False, high=False):
        self.regions = [Region(BELOW, below), Region(ABOVE, above)]
        self.fill, self.high, self.job = fill, high, job
        self.tasks = {job: Task(None, resides_above)}
        self.owner = {}  # subpool to task
        self.pools = {}
        self.names = {}  # area names to (address, length)
        self.spare = 0
        self.some_abend = False

    # ---- storage

    def region(self, address):
        for region in self.regions:
            if region.base <= address < region.end():
                return region
        return None

    def cells_of(self, address, length):
        """The doublewords of a place, as pairs of region and index; None for one outside."""
        for d in range(address // 8, (address + length + 7) // 8):
            region = self.region(8 * d)
            yield None if region is None else (region, d - region.base // 8)

    def find(self, runs, length, start, within):
        unit, found = 1 << start, None
        for low, high in runs:
            for address in range((low + unit - 1) // unit * unit, high - length + 1, unit):
                if within is None or address >> within == (address + length - 1) >> within:
                    if not self.high:
                        return address
                    found = address
        return found

    def choose(self, subpool, most, least, start, within, either):
        """The longest place, above if one of that length is there."""
        best = None
        for region in [self.regions[1], self.regions[0]] if either else [self.regions[0]]:
            runs = list(region.runs(subpool))
            low, high = least // 8, min(most, PAGE * region.pages) // 8
            if best is not None:
                low = max(low, best[1] // 8 + 1)
            while low <= high:  # a place that serves is one for each shorter length too
                middle = (low + high) // 2
                address = self.find(runs, 8 * middle, start, within)
                if address is None:
                    high = middle - 1
                else:
                    best, low = (address, 8 * middle), middle + 1
        return best

    def hold(self, place, subpool, is_pool):
        for region, k in self.cells_of(*place):
            region.holder[k] = (subpool, is_pool)
        self.write(place, [None if is_pool else self.fill] * place[1])

    def write(self, place, values):
        region = self.region(place[0])
        at = place[0] - region.base
        region.byte[at : at + place[1]] = values

    def free(self, place):
        for region, k in self.cells_of(*place):
            region.holder[k] = None
        self.write(place, [None] * place[1])

    def bytes_at(self, address, length):
        """The bytes of a place; None where one of them may not be read."""
        if any(cell is None for cell in self.cells_of(address, length)):
            return None
        values = []
        for at in range(address, address + length):
            region = self.region(at)
            values.append(region.byte[at - region.base])
        return None if None in values else values

    def drop_subpool(self, subpool):
        self.pools = {name: pool for name, pool in self.pools.items() if pool.subpool != subpool}
        for region in self.regions:
            for k, held in enumerate(region.holder):
                if held is not None and held[0] == subpool:
                    region.holder[k] = None
                    region.byte[8 * k : 8 * k + 8] = [None] * 8

    def count(self, subpool, is_pool):
        return 8 * sum(region.holder.count((subpool, is_pool)) for region in self.regions)

    # ---- owners

    def keeper(self, task, number):
        return self.job if number in STEP_NUMBERS else task

    def entry(self, task, number):
        return self.tasks[self.keeper(task, number)].table.get(number)

    def subpool(self, task, number):
        """The subpool to obtain from, and whether it is a new one."""
        found = self.entry(task, number)
        return (self.spare, True) if found is None else (found, False)

    def bind(self, task, number, subpool):
        self.spare += 1
        self.tasks[self.keeper(task, number)].table[number] = subpool
        self.owner[subpool] = self.keeper(task, number)

    def descendants(self, task):
        found = [task]
        for name in found:
            found.extend(other for other, t in self.tasks.items() if t.mother == name)
        return sorted(found[1:])

    def end(self, task):
        gone = [task] + self.descendants(task)
        freed = [s for s, owner in self.owner.items() if owner in gone]
        for name in gone:
            del self.tasks[name]
        for other in self.tasks.values():
            other.table = {n: s for n, s in other.table.items() if s not in freed}
        for subpool in freed:
            del self.owner[subpool]
            self.drop_subpool(subpool)

    # ---- requests: each answers its text, or raises an abend

    def valid(self, number, code):
        if not (0 <= number <= 127 or number in STEP_NUMBERS):
            raise Abend("S" + code)

    def either(self, task, loc):
        return loc in ("ANY", "31") or loc == "RES" and self.tasks[task].above

    def obtain(self, task, form, name, most, least=None, number=0, start=3, within=None, loc="BELOW", conditional=False):
        code = CODES[family(form)]
        self.valid(number, code[1])
        variable = least is not None
        subpool, new = self.subpool(task, number)
        least = round8(most if least is None else least)
        place = self.choose(subpool, round8(most), least, start, within, self.either(task, loc))
        if place is None:
            if conditional:
                return "RC 4"
            raise Abend("S" + code[0])
        if new:
            self.bind(task, number, subpool)
        self.hold(place, subpool, False)
        self.names[name] = place
        return f"RC 0 LENGTH {place[1]:08X}" if variable else "RC 0"

    def obtain_list(self, task, names, lengths, number=0, start=3, conditional=False):
        code = CODES["E"]
        self.valid(number, code[1])
        subpool, new = self.subpool(task, number)
        places = []
        for length in lengths:
            place = self.choose(subpool, round8(length), round8(length), start, None, False)
            if place is None:
                for taken in places:
                    self.free(taken)
                if conditional:
                    return "RC 4"
                raise Abend("S" + code[0])
            self.hold(place, subpool, False)
            places.append(place)
        if new:
            self.bind(task, number, subpool)
        self.names.update(zip(names, places))
        return "RC 0"

    def release(self, task, form, places, number=0, conditional=False):
        code = CODES[family(form)]
        self.valid(number, code[2])
        if any(address % 8 for address, _ in places):
            raise Abend("S" + code[3])
        subpool = self.entry(task, number)
        cells = [cell for address, length in places for cell in self.cells_of(address, round8(length))]
        seen = {(id(c[0]), c[1]) for c in cells if c is not None}
        well = subpool is not None and len(seen) == len(cells)
        if not well or any(region.holder[k] != (subpool, False) for region, k in cells):
            if conditional:
                return "RC 4"
            raise Abend("S" + code[4])
        for address, length in places:
            self.free((address, round8(length)))
        return "RC 0"

    def release_whole(self, task, form, number=0):
        self.valid(number, CODES[family(form)][2])
        if number == 0:
            raise Abend("U4006")
        subpool = self.entry(task, number)
        if subpool is not None:
            self.drop_subpool(subpool)
        return "RC 0"

    def grant_part(self, pool, count):
        length = part_length(count, pool.size)
        place = self.choose(pool.subpool, length, length, 3, None, pool.either)
        if place is None:
            raise Abend("S878")
        self.hold(place, pool.subpool, True)
        pool.parts.append((place[0], count))

    def build(self, task, name, size, primary, secondary=None, number=0, loc="RES"):
        self.valid(number, "B78")
        if name in self.pools:
            raise Abend("U4008")
        if len(self.pools) == MOST_POOLS:
            raise Abend("U4007")
        subpool, new = self.subpool(task, number)
        pool = Pool(subpool, size, primary if secondary is None else secondary, self.either(task, loc))
        self.grant_part(pool, primary)
        if new:
            self.bind(task, number, subpool)
        self.pools[name] = pool
        return "RC 0"

    def pick(self, free):
        """The cell that is taken of those that are free."""
        return free[0]

    def get(self, name, cell, conditional=False):
        if name not in self.pools:
            raise Abend("U4002")
        pool = self.pools[name]
        free = [a for a in pool.cells() if a not in pool.taken]
        if not free and conditional:
            return "NO CELL"
        if not free:
            self.grant_part(pool, pool.secondary)
            free = [a for a in pool.cells() if a not in pool.taken]
        free = self.pick(free)
        pool.taken.add(free)
        self.write((free, pool.size), [self.fill] * pool.size)
        self.names[cell] = (free, pool.size)
        return "CELL"

    def free_cell(self, name, address):
        if name not in self.pools:
            raise Abend("U4002")
        pool = self.pools[name]
        if address not in pool.taken:
            raise Abend("U4001")
        pool.taken.remove(address)
        self.write((address, pool.size), [None] * pool.size)
        return "RC 0"

    def delete(self, name):
        if name not in self.pools:
            raise Abend("U4002")
        pool = self.pools.pop(name)
        for address, count in pool.parts:
            self.free((address, part_length(count, pool.size)))
        return "RC 0"

    def attach(self, task, name, given=(), shared=(), zero=True, above=False):
        if name in self.tasks:
            raise Abend("U4009")
        if len(self.tasks) == MOST_TASKS:
            raise Abend("U4005")
        mother = self.tasks[task]
        if any(n in mother.table and self.owner[mother.table[n]] != task for n in given):
            raise Abend("U4003")
        child = self.tasks[name] = Task(task, above)
        for number in given:
            if number in mother.table:
                child.table[number] = mother.table.pop(number)
                self.owner[child.table[number]] = name
        for number in ([0] if zero else []) + list(shared):
            if number not in mother.table:
                self.bind(task, number, self.spare)
            child.table[number] = mother.table[number]
        return "ATTACHED"

    def finish(self, task):
        if any(t.mother == task for t in self.tasks.values()):
            raise Abend("SA03")
        self.end(task)
        return "ENDED"

    def show(self, address, length):
        values = self.bytes_at(address, length)
        if values is None:
            raise Abend("S0C4")
        pieces = [(k, values[k : k + 32]) for k in range(0, length, 32)]
        return "\n".join(f"DATA +{k:04X} " + "".join(f"{v:02X}" for v in piece) for k, piece in pieces)

    def put(self, address, values):
        if self.bytes_at(address, len(values)) is None:
            raise Abend("S0C4")
        self.write((address, len(values)), values)
        return "OK"

    def move(self, to, source, length):
        values = self.bytes_at(source, length)
        if values is None or self.bytes_at(to, length) is None:
            raise Abend("S0C4")
        self.write((to, length), values)
        return "OK"

    def report_subpools(self, task):
        lines = []
        for number, subpool in sorted(self.tasks[task].table.items()):
            word = "OWNED" if self.owner[subpool] == task else "SHARED"
            lines.append(f"SP {number} {word} PLAIN {self.count(subpool, False)} POOL {self.count(subpool, True)}")
        return "\n".join(lines) or "SP NONE"

    def label(self, subpool):
        owner = self.owner[subpool]
        number = next(n for n, s in self.tasks[owner].table.items() if s == subpool)
        return f"SP {number} OWNER {owner}"

    def report_map(self):
        lines = []
        for region in self.regions:
            marks = []
            for page in range(region.pages):
                held = next((h for h in region.holder[512 * page : 512 * page + 512] if h), None)
                marks.append("FREE" if held is None else self.label(held[0]))
            start = 0
            for page in range(1, region.pages + 1):
                if page == region.pages or marks[page] != marks[start]:
                    lines.append(f"MAP {region.base + PAGE * start:08X} {PAGE * (page - start):08X} {marks[start]}")
                    start = page
        return "\n".join(lines)

    # ---- one statement of a task: what it prints, each line with its task

    def place(self, operand):
        """The address of an operand: a number, or a name with an offset. None where the name is not set."""
        if isinstance(operand, int):
            return operand
        name, offset = operand
        return self.names[name][0] + offset if name in self.names else None

    def says(self, task, looked_up, act, is_spared=False):
        """What a statement prints: `act` makes the request, and `looked_up` are the names that have to be set. None, and
        nothing is changed, where a task that is to be spared would abend."""
        if task not in self.tasks:
            return [f"{task} NOT RUN"]
        if any(name not in self.names for name in looked_up):
            return [f"{task} NO NAME"]
        try:
            return [f"{task} {line}" for line in act().split("\n")]
        except Abend as abend:
            if is_spared:
                return None
            fallen = self.descendants(task)
            self.end(task)
            self.some_abend = True
            return [f"{task} ABEND {abend}"] + [f"{name} ENDED WITH {task}" for name in fallen]
