"""Random scripts, and what the plain machine prints for them. The same seed makes the same script."""

import random

from plain_machine import Machine, round8

TASKS = ["JOB", "T1", "T2", "T3"]
AREAS = ["A", "B", "C", "D", "E", "F"]
POOLS = ["P", "Q", "R"]
NUMBERS = [0, 0, 1, 2, 5, 131, 132]
INVALID_NUMBERS = [128, 130, 133, 255]
LENGTHS = [1, 8, 12, 40, 100, 512, 2000, 4096, 5000, 9000]
LOCS = ["BELOW", "24", "ANY", "31", "RES"]


class Label:
    """An area as a tidy script knows it: which of its doublewords have not been given back."""

    def __init__(self, machine, place):
        self.place, self.there = place, [True] * (place[1] // 8)
        self.cells = list(machine.cells_of(*place))

    def look(self):
        self.there = [t and region.holder[k] is not None for t, (region, k) in zip(self.there, self.cells)]


class Script:
    """A script as it grows, beside what it prints."""

    def __init__(self, seed, high=False, below=6, above=5, tidy=False, lengths=LENGTHS):
        self.rng, self.lengths = random.Random(seed), lengths
        self.tidy, self.in_full = tidy, True
        self.high, self.lines, self.printed = high, [], []
        self.begin("JOB", below, above)

    def begin(self, task, below, above):
        """The REGION statement of a step: nothing is left of a step before it."""
        fill, above_resident = self.rng.randrange(256), self.rng.random() < 0.3
        self.machine = Machine(task, below, above, fill, above_resident, self.high)
        self.spares = True  # whether statements by which the job step task would end are left out
        self.labels = {}
        self.lines.append(f"{task} REGION BELOW={below},ABOVE={above},FILL={fill:02X},RES={'ABOVE' if above_resident else 'BELOW'}")
        self.printed.append(f"{len(self.lines)} {task} REGION BELOW {below} ABOVE {above}")

    def next_step(self, below, above):
        self.printed.append(self.end_line())
        self.begin(self.rng.choice(TASKS), below, above)
        return self

    def end_line(self):
        return f"STEP ENDED RC {8 if self.machine.some_abend else 0}"

    def is_spared(self, task):
        return self.spares and task == self.machine.job

    def say(self, task, words, looked_up, act):
        """Adds a statement and what it prints; nothing where a spared task would abend by it."""
        before = dict(self.machine.names)
        said = self.machine.says(task, looked_up, act, self.is_spared(task))
        if said is None:
            return None
        self.lines.append(f"{task} {words}")
        self.printed += [f"{len(self.lines)} {line}" for line in said]
        for name, place in self.machine.names.items():
            if before.get(name) is not place:
                self.labels[name] = Label(self.machine, place)
        if self.tidy:
            for label in self.labels.values():
                label.look()
        return said

    def say_in_full(self, task, words, wanted, act):
        """Adds an obtain, which prints this where it is granted in full."""
        said = self.say(task, words, [], act)
        self.in_full &= said is None or said[0] in (f"{task} {wanted}", f"{task} NOT RUN")

    def text(self):
        return "\n".join(self.lines) + "\n"

    def output(self):
        return "\n".join(self.printed + [self.end_line()]) + "\n"

    # ---- operands

    def active(self):
        names = [name for name in TASKS if name in self.machine.tasks]
        if not names or not self.tidy and self.rng.random() < 0.03:
            return self.rng.choice(TASKS)
        return self.rng.choice(names)

    def number(self):
        return self.rng.choice(NUMBERS if self.tidy or self.rng.random() < 0.97 else INVALID_NUMBERS)

    def length(self):
        return max(1, self.rng.choice(self.lengths) - self.rng.randrange(9))

    def is_conditional(self):
        return self.rng.random() < 0.6

    def area(self, length=None):
        """An operand that names a place: its text, its address or name with offset, and the bytes there are from it on."""
        rng, machine = self.rng, self.machine
        if self.tidy:
            places = [(n, k) for n, label in self.labels.items() for k, t in enumerate(label.there) if t]
            if not places:
                return None
            name, k = rng.choice(places)
            there = self.labels[name].there
            behind = next((j for j in range(k, len(there)) if not there[j]), len(there))
            return f"{name}+{8 * k}" if k else name, (name, 8 * k), 8 * (behind - k)
        set_names = [name for name in AREAS if name in machine.names]
        name = rng.choice(set_names if set_names and rng.random() < 0.8 else AREAS)
        length = machine.names[name][1] if name in machine.names else 64
        offset = rng.choice([0, 0, 0, 8, 16, rng.randrange(length + 9)])
        if rng.random() < 0.2 and name in machine.names:
            address = machine.names[name][0] + offset
            return f"X'{address:X}'", address, max(1, length - offset)
        return f"{name}+{offset}" if offset else name, (name, offset), max(1, length - offset)

    def looked_up(self, *operands):
        return [operand[0] for operand in operands if not isinstance(operand, int)]

    # ---- statements

    def boundaries(self):
        """The words and values of BNDRY, STARTBDY and CONTBDY."""
        rng = self.rng
        pick = rng.random()
        if pick < 0.7:
            return "", 3, None
        if pick < 0.8:
            return ",BNDRY=PAGE", 12, None
        start, within = rng.choice([None, 4, 9, 12, 14]), rng.choice([None, 3, 7, 12, 13])
        words = ("" if start is None else f",STARTBDY={start}") + ("" if within is None else f",CONTBDY={within}")
        return words, start or 3, within

    def obtain(self):
        rng, task = self.rng, self.active()
        conditional, number, name, most = self.is_conditional(), self.number(), rng.choice(AREAS), self.length()
        c = "C" if conditional else "U"
        located, least, shape = rng.random() < 0.6, None, rng.choice(["fixed", "fixed", "variable", "storage"])
        if shape == "variable" or shape == "storage" and rng.random() < 0.3:
            least = rng.randint(1, most)
        loc = rng.choice(LOCS) if located or shape == "storage" else "BELOW"
        words, start, within = self.boundaries() if located or shape == "storage" else ("", 3, None)
        if self.tidy:
            words, start, within = "", 3, None
        lv = f"{most}" if least is None else f"({most},{least})"
        sp = f",SP={number}"
        if shape == "storage":
            form = "STORAGE"
            text = f"STORAGE OBTAIN,LENGTH={lv},ADDR={name}{sp}{words},LOC={loc},COND={'YES' if conditional else 'NO'}"
        else:
            form = ("VR" if located else "V") + c if least is not None else ("R" if located else "E") + c
            text = f"GETMAIN {form},LV={lv},A={name}{sp}{words}" + (f",LOC={loc}" if located else "")
        machine = self.machine
        act = lambda: machine.obtain(task, form, name, most, least, number, start, within, loc, conditional)
        wanted = f" LENGTH {round8(most):08X}" if least is not None else ""
        self.say_in_full(task, text, f"RC 0{wanted}", act)

    def obtain_list(self):
        rng, task = self.rng, self.active()
        conditional, number = self.is_conditional(), self.number()
        names = rng.sample(AREAS, rng.randint(1, 4))
        lengths = [self.length() for _ in names]
        text = f"GETMAIN L{'C' if conditional else 'U'},LA=({','.join(map(str, lengths))}),A=({','.join(names)}),SP={number}"
        act = lambda: self.machine.obtain_list(task, names, lengths, number, 3, conditional)
        self.say_in_full(task, text, "RC 0", act)

    def release(self):
        rng, task = self.rng, self.active()
        conditional, number = self.is_conditional(), self.number()
        operand = self.area()
        if operand is None:
            return
        text, place, length = operand
        if rng.random() < 0.5:
            length = rng.randint(1, length)
        c = "C" if conditional else "U"
        form = rng.choice(["R", "E", "STORAGE"])
        if form == "STORAGE":
            words = f"STORAGE RELEASE,LENGTH={length},ADDR={text},SP={number},COND={'YES' if conditional else 'NO'}"
        else:
            form += c
            words = f"FREEMAIN {form},LV={length},A={text},SP={number}"
        machine = self.machine
        act = lambda: machine.release(task, form, [(machine.place(place), length)], number, conditional)
        self.say(task, words, self.looked_up(place), act)

    def release_area(self):
        """FREEMAIN V, and FREEMAIN L of several areas."""
        rng, task = self.rng, self.active()
        conditional, number, machine = self.is_conditional(), self.number(), self.machine
        c = "C" if conditional else "U"
        names = AREAS
        if self.tidy:
            names = [name for name, label in self.labels.items() if all(label.there)]
            if not names:
                return
        if rng.random() < 0.5:
            name = rng.choice(names)
            act = lambda: machine.release(task, "EC", [machine.names[name]], number, conditional)
            self.say(task, f"FREEMAIN V{c},A={name},SP={number}", [name], act)
            return
        chosen = [rng.choice(names) for _ in range(rng.randint(1, 3))]
        lengths = [machine.names[name][1] if name in machine.names else 8 for name in chosen]
        words = f"FREEMAIN L{c},LA=({','.join(map(str, lengths))}),A=({','.join(chosen)}),SP={number}"
        act = lambda: machine.release(
            task, "LC", [(machine.names[n][0], length) for n, length in zip(chosen, lengths)], number, conditional
        )
        self.say(task, words, chosen, act)

    def release_whole(self):
        task, form = self.active(), self.rng.choice(["R", "RC", "RU", "STORAGE"])
        number = self.number()
        words = f"STORAGE RELEASE,SP={number}" if form == "STORAGE" else f"FREEMAIN {form},SP={number}"
        self.say(task, words, [], lambda: self.machine.release_whole(task, form, number))

    def attach(self):
        rng, task = self.rng, self.active()
        others = [name for name in TASKS if name not in self.machine.tasks]
        name = rng.choice(others if others and rng.random() < 0.9 else TASKS)
        numbers = rng.sample([n for n in set(NUMBERS) if 0 < n < 128], 3)
        given, shared = numbers[: rng.randint(0, 1)], numbers[1 : 1 + rng.randint(0, 2)]
        zero, above = rng.random() < 0.7, rng.random() < 0.4
        words = f"ATTACH TASK={name}" + (f",GSPV={given[0]}" if given else "")
        words += f",SHSPL=({','.join(map(str, shared))})" if shared else ""
        words += ("" if zero else ",SZERO=NO") + (",RES=ABOVE" if above else "")
        self.say(task, words, [], lambda: self.machine.attach(task, name, given, shared, zero, above))

    def finish(self):
        task = self.active()
        if self.is_spared(task):
            return
        self.say(task, "RETURN", [], lambda: self.machine.finish(task))

    def put(self):
        rng, task = self.rng, self.active()
        operand = self.area()
        if operand is None:
            return
        text, place, there = operand
        values = [rng.randrange(256) for _ in range(min(there, rng.randint(1, 20)))]
        act = lambda: self.machine.put(self.machine.place(place), values)
        self.say(task, f"PUT {text},X'{bytes(values).hex().upper()}'", self.looked_up(place), act)

    def show(self):
        task, operand = self.active(), self.area()
        if operand is None:
            return
        text, place, there = operand
        length = self.rng.randint(1, min(there, 70))
        act = lambda: self.machine.show(self.machine.place(place), length)
        self.say(task, f"SHOW {text},{length}", self.looked_up(place), act)

    def move(self):
        task, one, other = self.active(), self.area(), self.area()
        if one is None or other is None:
            return
        if self.rng.random() < 0.4:
            other = one  # most overlap
        length = self.rng.randint(1, min(one[2], other[2], 3000))
        machine = self.machine
        act = lambda: machine.move(machine.place(one[1]), machine.place(other[1]), length)
        self.say(task, f"MOVE {one[0]},{other[0]},{length}", self.looked_up(one[1], other[1]), act)

    def where(self):
        task, name = self.active(), self.rng.choice(AREAS)
        self.say(task, f"WHERE {name}", [name], lambda: f"AT {self.machine.names[name][0]:08X}")

    def report_subpools(self):
        task = self.active()
        self.say(task, "REPORT SP", [], lambda: self.machine.report_subpools(task))

    def report_map(self):
        self.say(self.active(), "REPORT MAP", [], self.machine.report_map)

    def pool(self):
        rng, task, name, machine = self.rng, self.active(), self.rng.choice(POOLS), self.machine
        if name not in machine.pools and rng.random() < 0.9:
            size, number, loc = rng.choice([4, 5, 8, 12, 40, 100, 600]), self.number(), rng.choice(LOCS)
            primary, secondary = rng.choice([1, 2, 3, 63, 64, 65]), rng.choice([None, 1, 2, 70])
            if size * primary > 8000:
                primary = 2
            words = f"CPOOL BUILD,CPID={name},CSIZE={size},PCELLCT={primary},SP={number},LOC={loc}"
            words += "" if secondary is None else f",SCELLCT={secondary}"
            self.say(task, words, [], lambda: machine.build(task, name, size, primary, secondary, number, loc))
            return
        pick, area = rng.random(), rng.choice(AREAS)
        pool = machine.pools.get(name)
        if pick < 0.55:
            conditional = rng.random() < 0.5
            word = rng.choice([",COND", ",C"] if conditional else ["", ",UNCOND", ",U"])
            self.say(task, f"CPOOL GET{word},CPID={name},CELL={area}", [], lambda: machine.get(name, area, conditional))
        elif pick < 0.93:
            if pool is not None and pool.taken and rng.random() < 0.9:
                address = rng.choice(sorted(pool.taken))
                text, place = f"X'{address:08X}'", address
            else:
                text, place, _ = self.area()
            act = lambda: machine.free_cell(name, machine.place(place))
            self.say(task, f"CPOOL FREE,CPID={name},CELL={text}", self.looked_up(place), act)
        else:
            self.say(task, f"CPOOL DELETE,CPID={name}", [], lambda: machine.delete(name))

    def grow(self, weights, count):
        acts, weight = zip(*weights.items())
        while len(self.lines) < count:
            getattr(self, self.rng.choices(acts, weight)[0])()
        return self

    def go_on(self, weights, count):
        """This many further statements, at which the job step task may end."""
        self.spares = False
        return self.grow(weights, len(self.lines) + count)

    def show_all(self):
        """Every byte that may be read, and both reports."""
        task = next(iter(self.machine.tasks), "JOB")
        for region in self.machine.regions:
            start = None
            for k, value in enumerate(region.byte + [None]):
                if value is None or start is not None and k - start == 4096:
                    if start is not None:
                        place = (region.base + start, k - start)
                        self.say(task, f"SHOW X'{place[0]:08X}',{place[1]}", [], lambda: self.machine.show(*place))
                    start = None
                if value is not None and start is None:
                    start = k
        for name in list(self.machine.tasks):
            self.say(name, "REPORT SP", [], lambda: self.machine.report_subpools(name))
        self.say(task, "REPORT MAP", [], self.machine.report_map)
        return self


STORAGE = dict(obtain=8, obtain_list=2, release=5, release_area=2, release_whole=1, put=4, show=3, move=3, where=1)
OWNERS = dict(attach=3, finish=2, report_subpools=1)
POOLING = dict(pool=20, put=3, show=3, move=2, release=1, release_whole=0.3, obtain=1, report_subpools=0.5)
TIDY = dict(obtain=8, obtain_list=2, release=4, release_area=2, release_whole=0.5, put=4, show=5, move=3) | OWNERS


def storage(seed, high):
    weights = STORAGE | OWNERS | dict(report_map=0.5)
    return Script(seed, high).grow(weights, 120).show_all().go_on(weights, 8)


def pools(seed, high):
    weights = POOLING | dict(attach=0.6, finish=0.4)
    return Script(seed, high).grow(weights, 300).show_all().go_on(weights, 12)


def anything(seed, high):
    weights = STORAGE | OWNERS | dict(pool=8, report_map=0.5)
    return Script(seed, high, below=3, above=2).grow(weights, 60).show_all().go_on(weights, 6)


def steps(seed, high):
    weights = STORAGE | OWNERS | dict(pool=8)
    script = Script(seed, high, below=2, above=1)
    for count in (12, 27, 42):
        script.grow(weights, count).go_on(weights, 3).next_step(3, 1)
    return script.grow(weights, 60).show_all()


def tidy(seed, high):
    script = Script(seed, high, below=30, above=16, tidy=True, lengths=[1, 8, 12, 40, 100, 600, 3000])
    if seed % 4 == 0:
        script.grow(TIDY, 20).next_step(30, 16)
    return script.grow(TIDY, 40)
