"""Runs a program that `--assemble` prints, against the plain machine, and answers what it writes by WTO.

Storage of the program, registers, instructions and tasks are simulated here, without a system: letters are those of ASCII, and the macros
ask the machine. A task runs until it waits or ends, and the last one that was begun runs first, so only the program's ECBs keep the order.
"""

import re

import hlasm
from plain_machine import BELOW, Abend, Machine

PROGRAM, SAVES, SYSTEM, LITERALS, END = 0x900000, 0xC00000, 0xD00000, 0xE00000, 0x1000000  # between the regions of the machine
RETURNED, RECOVERED = SYSTEM + 0xF0, SYSTEM + 0xF8
JUMPS = {"J": 15, "JE": 8, "JZ": 8, "JNE": 7, "JNZ": 7, "JO": 1, "JNO": 14, "JNH": 13, "JNP": 13}
ALIGNED = {"F": 4, "A": 4, "H": 2, "D": 8}


class Image:
    """A program laid out: the values of symbols, the section of each, the bytes, and the statement at each address."""

    def __init__(self, statements):
        self.symbols, self.sections, self.lengths = {"SDWAPARM": 0, "SDWAABCC": 4}, {"SDWAPARM": "SDWA", "SDWAABCC": "SDWA"}, {}
        self.code, self.bytes, later, usings, self.numbers = {}, {}, [], {}, set()
        self.at, self.section = PROGRAM, None
        for _, label, operation, operands in statements:
            if operation in ("DSECT", "IHASDWA", "END"):
                self.at, self.section = 0, label
            elif operation in ("DC", "DS"):
                self.lay(label, operation, operands, later)
                continue
            elif operation == "USING":
                usings = {**usings, operands[1]: operands[0] if operands[0] != "*" else self.at}
            elif operation == "DROP":
                usings = {register: of for register, of in usings.items() if register not in operands}
            self.at += self.at % 2
            if operation == "EQU" and re.match(r"[A-Z]\w*$", operands[0]):
                later.append((label, operands[0]))
            elif operation == "EQU":
                self.symbols[label] = self.value(operands[0])
                self.numbers.add(label)
            elif label and operation not in ("AMODE", "RMODE"):
                self.symbols[label], self.sections[label] = self.at, self.section
            if operation in hlasm.INSTRUCTIONS or operation in hlasm.MACROS:
                self.code[self.at] = (operation, operands, usings)
                self.at += 6
        for place, text in later:
            if isinstance(place, str):
                self.symbols[place], self.sections[place] = self.value(text), None
        for place, text in later:
            if not isinstance(place, str):
                self.put(place, (self.value(text) & 0xFFFFFFFF).to_bytes(4, "big"))

    def put(self, at, data):
        self.bytes.update(zip(range(at, at + len(data)), data))

    def value(self, text):
        text = re.sub(r"X'([0-9A-F]+)'", lambda found: str(int(found[1], 16)), text)
        text = re.sub(r"C'(.)'", lambda found: str(ord(found[1])), text)
        text = re.sub(r"^\*", str(self.at), text)
        return eval(re.sub(r"[A-Z@#$][A-Z0-9@#$]*", lambda found: str(self.symbols[found[0]]), text) or "0")

    def lay(self, label, operation, operands, later):
        for place, operand in enumerate(operands):
            repeats, kind, length, text = re.match(r"(\d*)([A-Z])(?:L(\d+))?(.*)", operand).groups()
            size = int(length or (len(text) - 2 >> (kind == "X") if kind in "CX" and text else ALIGNED.get(kind, 1)))
            self.at += 0 if length else -self.at % ALIGNED.get(kind, 1)
            if label and place == 0:
                self.symbols[label], self.sections[label], self.lengths[label] = self.at, self.section, size
            for _ in range(int(repeats or 1)):
                if self.section is None or not self.section.isalpha() or self.section == "MVSJOB":
                    self.put(self.at, self.constant(kind, size, text, later) if operation == "DC" else bytes(size))
                self.at += size

    def constant(self, kind, size, text, later):
        if kind == "C":
            return text[1:-1].ljust(size).encode()
        if kind == "X":
            return bytes.fromhex(text[1:-1]).rjust(size, b"\0")
        if kind == "A" and size == 4:
            later.append((self.at, text[1:-1]))
            return bytes(4)
        return int(text[1:-1]).to_bytes(size, "big")


class Task:
    """A task: its next instruction, its registers, the ECBs that it waits for, and what is done at its end."""

    def __init__(self, name, at, save, mother=None, ecb=None):
        self.name, self.at, self.registers, self.cc = name, at, [0] * 16, 0
        self.registers[13], self.registers[14], self.registers[15] = save, RETURNED, at
        self.waits, self.mother, self.ecb, self.recovery = [], mother, ecb, None


class Run:
    def __init__(self, image, machine):
        self.image, self.machine, self.memory, self.printed = image, machine, dict(image.bytes), []
        self.tasks = [Task(None, image.symbols["MVSJOB"], SAVES)]
        self.made, self.pools, self.literals, self.steps, self.read_operands = 1, 0, {}, 0, {}

    # ---- storage

    def read(self, at, length):
        if PROGRAM <= at < END:
            return bytes(self.memory.get(at + k, 0) for k in range(length))
        found = self.machine.bytes_at(at, length)
        if found is None:
            raise Abend("S0C4")
        return bytes(found)

    def write(self, at, data):
        if PROGRAM <= at < END:
            self.memory.update(zip(range(at, at + len(data)), data))
        else:
            self.machine.put(at, list(data))

    def word(self, at, length=4):
        return int.from_bytes(self.read(at, length), "big")

    def store(self, at, number, length=4):
        self.write(at, (number % (1 << 8 * length)).to_bytes(length, "big"))

    # ---- addresses

    def address(self, operand, usings):
        """The address of an operand, and the length that is written with it."""
        if operand.startswith("="):
            at = self.literals.setdefault(operand, LITERALS + 4 * len(self.literals))
            self.store(at, int(operand[3:-1], 16))
            return at, 4
        if (operand, self.with_length) not in self.read_operands:
            self.read_operands[operand, self.with_length] = self.operand(operand)
        name, value, registers, length = self.read_operands[operand, self.with_length]
        at = value if name is None else self.covered(name, value, usings)
        return at + sum(self.task.registers[register] for register in registers), length

    def operand(self, operand):
        """The symbol of an operand that needs a base, its value, the registers that are written with it, and its length."""
        text, inside = re.match(r"([^()]*)(?:\(([^()]*)\))?$", operand).groups()
        names = [name for name in re.findall(r"[A-Z@#$][A-Z0-9@#$]*", text) if name not in self.image.numbers]
        name = names[0] if len(names) == 1 else None
        parts = (inside or "").split(",")
        has_length = self.with_length and parts[0] and (name or len(parts) == 2)
        length = int(parts[0]) if has_length else self.image.lengths.get(name, 1)
        registers = [int(part) for part in (parts[1:] if has_length else parts) if part not in ("", "0")]
        return name, self.image.value(text), registers, length

    def covered(self, name, value, usings):
        """The address of a symbol, which has to be within 4096 bytes of a base."""
        section = self.image.sections[name]
        for register, of in usings.items():
            base = self.task.registers[int(register)]
            if section in ("LINE", "SLOT", "SDWA"):
                if of == section:
                    return base + value
            elif of not in ("LINE", "SLOT", "SDWA") and 0 <= value - base < 4096:
                return value
        raise AssertionError(f"{name} has no base")

    # ---- instructions

    def step(self, task):
        self.task, self.steps = task, self.steps + 1
        operation, operands, usings = self.image.code[task.at]
        task.at += 6
        if operation in hlasm.MACROS:
            keys = dict(operand.split("=", 1) for operand in operands if re.match(r"[A-Z]+=", operand))
            plain = [operand for operand in operands if not re.match(r"[A-Z]+=", operand)]
            getattr(self, operation.lower())(plain, keys, usings)
        elif operation in JUMPS or operation == "BRCL":
            mask = JUMPS[operation] if operation in JUMPS else int(operands[0])
            if mask & 8 >> task.cc:
                task.at = self.image.symbols[operands[-1]]
        else:
            self.instruct(operation, operands, usings)

    def compared(self, left, right):
        self.task.cc = 0 if left == right else 1 if left < right else 2

    def instruct(self, operation, operands, usings):
        registers, kinds = self.task.registers, hlasm.INSTRUCTIONS[operation]
        self.with_length = "S" in kinds
        if kinds == "RR" or operation == "BR":
            return self.of_registers(operation, [int(operand) for operand in operands])
        first = int(operands[0]) if kinds[0] == "R" else None
        if kinds == "RL":
            return self.relative(operation, first, self.image.symbols[operands[1]], usings)
        if kinds == "RI":
            return self.immediate(operation, first, self.image.value(operands[1]))
        if operation in ("LM", "STM"):
            place, _ = self.address(operands[2], usings)
            for count in range((int(operands[1]) - first) % 16 + 1):
                register = (first + count) % 16
                if operation == "LM":
                    registers[register] = self.word(place + 4 * count)
                else:
                    self.store(place + 4 * count, registers[register])
            return None
        if kinds == "RX":
            place = self.image.symbols[operands[1]] if operation == "EX" else self.address(operands[1], usings)[0]
            return self.of_storage(operation, first, place)
        place, length = self.address(operands[0], usings)
        if kinds == "XI":
            return self.of_byte(operation, place, self.image.value(operands[1]))
        source, other = self.address(operands[1], usings)
        return self.of_bytes(operation, place, source, length, other)

    def of_registers(self, operation, numbers):
        registers, task = self.task.registers, self.task
        first, second = numbers[0], numbers[-1]
        if operation in ("BASR", "BR"):
            target, registers[first] = registers[second], task.at if operation == "BASR" else registers[first]
            task.at = target if second or operation == "BR" else task.at
        elif operation == "LR":
            registers[first] = registers[second]
        elif operation == "LTR":
            registers[first] = registers[second]
            self.compared(signed(registers[first]), 0)
        elif operation == "CR":
            self.compared(signed(registers[first]), signed(registers[second]))
        elif operation == "SR":
            registers[first] = (registers[first] - registers[second]) % 2**32
            self.compared(signed(registers[first]), 0)
        elif operation == "BCTR":
            registers[first] = (registers[first] - 1) % 2**32
        elif operation == "MVCL":
            assert registers[first + 1] == registers[second + 1]
            self.write(registers[first], self.read(registers[second], registers[second + 1]))

    def relative(self, operation, first, target, usings):
        registers, task = self.task.registers, self.task
        if operation == "LARL":
            assert target % 2 == 0
            registers[first] = target
        elif operation == "BRCT":
            registers[first] = (registers[first] - 1) % 2**32
            task.at = target if registers[first] else task.at
        else:
            registers[first], task.at = task.at, target

    def immediate(self, operation, first, number):
        registers = self.task.registers
        if operation in ("LGFI", "LHI"):
            registers[first] = number % 2**32
        elif operation == "AFI":
            registers[first] = (registers[first] + number) % 2**32
        elif operation == "CHI":
            self.compared(signed(registers[first]), number)
        else:
            registers[first] = registers[first] >> number if operation == "SRL" else registers[first] << number & 0xFFFFFFFF

    def of_storage(self, operation, first, place):
        registers = self.task.registers
        if operation == "L":
            registers[first] = self.word(place)
        elif operation == "LA":
            registers[first] = place
        elif operation == "LH":
            registers[first] = self.word(place, 2)
        elif operation == "IC":
            registers[first] = registers[first] & 0xFFFFFF00 | self.word(place, 1)
        elif operation == "ST":
            self.store(place, registers[first])
        elif operation == "STH":
            self.store(place, registers[first], 2)
        elif operation == "C":
            self.compared(signed(registers[first]), signed(self.word(place)))
        elif operation == "N":
            registers[first] &= self.word(place)
            self.task.cc = int(registers[first] != 0)
        elif operation == "CVD":
            self.write(place, bytes.fromhex(f"{registers[first]:015d}C"))
        else:
            _, operands, usings = self.image.code[place]  # EX of an MVC
            self.with_length = True
            to, source = self.address(operands[0], usings)[0], self.address(operands[1], usings)[0]
            self.write(to, self.read(source, registers[first] % 256 + 1))

    def of_byte(self, operation, place, mask):
        byte = self.word(place, 1)
        if operation == "TM":
            self.task.cc = 0 if not byte & mask else 3 if byte & mask == mask else 1
        elif operation == "CLI":
            self.compared(byte, mask)
        else:
            self.store(place, {"MVI": mask, "OI": byte | mask, "NI": byte & mask}[operation], 1)

    def of_bytes(self, operation, place, source, length, other):
        if operation == "MVC":
            self.write(place, self.read(source, length))
        elif operation == "XC":
            self.write(place, bytes(a ^ b for a, b in zip(self.read(place, length), self.read(source, length))))
        elif operation == "TR":
            self.write(place, bytes(self.word(source + byte, 1) for byte in self.read(place, length)))
        else:
            digits = [digit for byte in self.read(source, other) for digit in (byte >> 4, byte & 15)]
            unpacked = [digits[-1] << 4 | digits[-2]] + [0xF0 | digit for digit in reversed(digits[:-2])]
            self.write(place, bytes(reversed((unpacked + [0xF0] * length)[:length])))

    # ---- macros

    def pointed(self, operand):
        return self.task.registers[int(operand.strip("()"))]

    def number(self, keys, key, default=0):
        return int(keys.get(key, default))

    def bounds(self, keys):
        start = 12 if keys.get("BNDRY") == "PAGE" else self.number(keys, "STARTBDY", 3)
        return {"number": self.number(keys, "SP"), "start": start, "within": int(keys["CONTBDY"]) if "CONTBDY" in keys else None}

    def obtained(self, form, lengths, keys, conditional):
        """An area for one length or two; its place, and register 15."""
        numbers = [int(length) for length in lengths.strip("()").split(",")]
        least = numbers[1] if len(numbers) > 1 else None
        said = self.machine.obtain(self.task.name, form, "#", numbers[0], least, loc=keys.get("LOC", "BELOW"), conditional=conditional, **self.bounds(keys))
        registers = self.task.registers
        registers[0], registers[1], registers[15] = 0xDEAD, 0xDEAD, 4 if said == "RC 4" else 0
        return None if said == "RC 4" else self.machine.names["#"]

    def getmain(self, plain, keys, usings):
        form, task = plain[0], self.task
        conditional = form.endswith("C")
        if "LA" not in keys:
            place = self.obtained(form, keys["LV"], keys, conditional)
            if place and "A" in keys:
                self.store(self.pointed(keys["A"]), place[0])
            elif place:
                task.registers[1], task.registers[0] = place[0], place[1] if form.startswith("V") else 0xDEAD
            return
        listed, words = self.pointed(keys["LA"]), self.pointed(keys["A"])
        if form.startswith("V"):
            place = self.obtained(form, f"{self.word(listed + 4)},{self.word(listed)}", keys, conditional)
            if place:
                self.store(words, place[0])
                self.store(words + 4, place[1])
            return
        lengths, names = self.list_at(listed), []
        names = [f"#{k}" for k in range(len(lengths))]
        bounds = self.bounds(keys)
        del bounds["within"]
        said = self.machine.obtain_list(task.name, names, lengths, conditional=conditional, **bounds)
        task.registers[15] = 4 if said == "RC 4" else 0
        for k, name in enumerate(names):
            if said != "RC 4":
                self.store(words + 4 * k, self.machine.names[name][0])

    def list_at(self, at):
        lengths = []
        while not lengths or not last:
            word = self.word(at + 4 * len(lengths))
            last = word >> 31
            lengths.append(word & 0x7FFFFFFF)
        return lengths

    def freed(self, form, places, keys, conditional):
        if places is None:
            said = self.machine.release_whole(self.task.name, form, self.number(keys, "SP"))
        else:
            said = self.machine.release(self.task.name, form, places, self.number(keys, "SP"), conditional)
        self.task.registers[15] = 4 if said == "RC 4" else 0

    def freemain(self, plain, keys, usings):
        form = plain[0]
        if "A" not in keys:
            places = None
        elif "LA" in keys:
            at = self.pointed(keys["A"])
            places = [(self.word(at + 4 * k), length) for k, length in enumerate(self.list_at(self.pointed(keys["LA"])))]
        elif form.startswith("V"):
            places = [(self.word(self.pointed(keys["A"])), self.word(self.pointed(keys["A"]) + 4))]
        elif form.startswith("E"):
            places = [(self.word(self.pointed(keys["A"])), int(keys["LV"]))]
        else:
            places = [(self.pointed(keys["A"]), int(keys["LV"]))]
        self.freed(form, places, keys, form.endswith("C"))

    def storage(self, plain, keys, usings):
        conditional = keys.get("COND") == "YES"
        if plain[0] == "OBTAIN":
            place = self.obtained("STORAGE", keys["LENGTH"], keys, conditional)
            if place:
                self.task.registers[1], self.task.registers[0] = place[0], place[1] if "," in keys["LENGTH"] else 0xDEAD
        else:
            places = [(self.pointed(keys["ADDR"]), int(keys["LENGTH"]))] if "ADDR" in keys else None
            self.freed("STORAGE", places, keys, conditional)

    def cpool(self, plain, keys, usings):
        registers, form = self.task.registers, plain[0]
        if form == "BUILD":
            self.pools += 1
            counts = [int(keys[key]) for key in ("CSIZE", "PCELLCT", "SCELLCT")]
            self.machine.build(self.task.name, self.pools, *counts, number=self.number(keys, "SP"), loc=keys["LOC"])
            registers[3] = self.pools
        elif form == "GET":
            said = self.machine.get(self.pointed(keys["CPID"]), "#", plain[1] == "COND")
            registers[1] = 0 if said == "NO CELL" else self.machine.names["#"][0]
        elif form == "FREE":
            self.machine.free_cell(self.pointed(keys["CPID"]), self.pointed(keys["CELL"]))
        else:
            self.machine.delete(self.pointed(keys["CPID"]))

    def identify(self, plain, keys, usings):
        self.entry = self.pointed(keys["ENTRY"])

    def attachx(self, plain, keys, usings):
        slot = self.image.symbols[keys["PARAM"].strip("()")]
        length = self.word(slot + self.image.symbols["SLNAMEL"], 2)
        name = self.read(slot + self.image.symbols["SLNAME"], length).decode()
        if self.task.name is not None:
            numbers = [self.presents(keys, one) for one in ("GSP", "SHSP")]
            self.machine.attach(self.task.name, name, *numbers, keys["SZERO"] == "YES")
        self.made += 1
        task = Task(name, self.entry, SAVES + 256 * self.made, self.task, self.image.value(keys["ECB"]))
        self.store(SYSTEM, slot)
        task.registers[1] = SYSTEM + 16 + 8 * self.made
        self.store(task.registers[1], slot | 0x80000000)
        self.tasks.append(task)
        self.task.registers[1], self.task.registers[15] = 0x1000 + self.made, 0

    def presents(self, keys, key):
        if f"{key}V" in keys:
            return [int(keys[f"{key}V"])]
        if f"{key}L" in keys:
            at = self.image.symbols[keys[f"{key}L"]]
            return list(self.read(at + 1, self.word(at, 1)))
        return []

    def detach(self, plain, keys, usings):
        pass

    def estaex(self, plain, keys, usings):
        self.task.recovery = None if plain[0] == "0" else (self.pointed(plain[0]), self.pointed(keys["PARAM"]))

    def setrp(self, plain, keys, usings):
        pass

    def abend(self, plain, keys, usings):
        raise Abend(f"U{int(plain[0]):04d}")

    def post(self, plain, keys, usings):
        self.with_length = False
        at = self.pointed(plain[0]) if plain[0].startswith("(") else self.address(plain[0], usings)[0]
        self.store(at, 0x40000000)

    def wait(self, plain, keys, usings):
        if "ECB" in keys:
            self.task.waits = [self.pointed(keys["ECB"])]
        else:
            at = self.pointed(keys["ECBLIST"])
            self.task.waits = [self.word(at) & 0x7FFFFFFF, self.word(at + 4) & 0x7FFFFFFF]

    def wto(self, plain, keys, usings):
        if keys["MF"] != "L":
            at = self.pointed(keys["TEXT"])
            text = self.read(at + 2, self.word(at, 2))
            self.printed.append("".join(chr(byte if byte < 0x80 else byte - 0xC0) for byte in text))

    # ---- tasks

    def ends(self, task, abend):
        """A task ends, with an abend or without."""
        gone = [task]
        for other in gone:
            gone += [child for child in self.tasks if child.mother is other]
        self.tasks = [other for other in self.tasks if other not in gone]
        code = 0 if abend is None else int(str(abend)[1:], 16) << 12 if str(abend)[0] == "S" else int(str(abend)[1:])
        if task.ecb is not None:
            self.store(task.ecb, 0x40000000 | code)

    def abends(self, task, abend):
        if task.name in self.machine.tasks:
            self.machine.end(task.name)
        if task.recovery:
            recovery, parameter = task.recovery
            text, task.recovery = str(abend), None
            code = int(text[1:], 16) << 12 if text[0] == "S" else int(text[1:])
            self.store(SYSTEM + 0x40, parameter)
            self.store(SYSTEM + 0x60, SYSTEM + 0x40)
            self.store(SYSTEM + 0x64, code | 0x80000000)
            task.registers[0], task.registers[1], task.registers[14], task.registers[15] = 0, SYSTEM + 0x60, RECOVERED, recovery
            task.at = recovery
            while task.at != RECOVERED:
                self.step(task)
        self.ends(task, abend)

    def advance(self, task):
        """Runs a task until it waits or ends."""
        while not task.waits and task in self.tasks:
            try:
                if task.at == RETURNED:
                    if task.name is not None:
                        self.machine.finish(task.name)
                    self.ends(task, None)
                else:
                    self.step(task)
            except Abend as abend:
                self.abends(task, abend)

    def whole(self):
        """What the program writes."""
        while self.tasks and self.steps < 2_000_000:
            for task in reversed(self.tasks):
                if any(self.word(ecb) & 0x40000000 for ecb in task.waits):
                    task.waits = []
                if not task.waits:
                    break
            else:
                raise AssertionError("all tasks wait")
            self.advance(task)
            if task.name is None and task not in self.tasks:
                break
        return self.printed


def signed(number):
    return number - 2**32 if number >= 2**31 else number


def run(job, scripts_steps, high=False):
    """What the programs of a job write. Each step of its script has a card (job step task, pages below and above, fill, residence)."""
    printed = []
    for cards, (task, below, above, fill, resides_above) in zip(hlasm.programs(job), scripts_steps):
        image = Image(hlasm.Program(cards, []).statements)
        printed += Run(image, Machine(task, below, above, fill, resides_above, high)).whole()
    return [line.removeprefix("MVSJOB ") for line in printed]


assert BELOW < PROGRAM
