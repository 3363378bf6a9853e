"""Assembler source to script, and script to assembler program.

The sources of tests/assembler beside the scripts that were written for them by hand, and the same as listings; the programs of
tests/assembler/programs, each with the options and the leak that its first comment names; random sources, made of statements that are
known; damaged ones; and the programs that `--assemble` prints, read by hlasm.py.
"""

import json
import random
import re
import subprocess
import tempfile
from functools import partial
from pathlib import Path

import hlasm
import hlasm_run
import random_scripts
from cases import IS_LONG, each, seeds, whole

TOP = Path(__file__).resolve().parent.parent
CONVERTER = TOP / "crates/mvsjob_asm/out/mvsjob_asm"
SOURCES = sorted((TOP / "tests/assembler").glob("*.asm"))
PROGRAMS = sorted((TOP / "tests/assembler/programs").glob("*.asm")) + sorted((TOP / "tests/assembler/programs").glob("*.lst"))
DAMAGED = 100_000 if IS_LONG else 2_000
HEAD = "  Loc  Object Code    Addr1 Addr2  Stmt   Source Statement                              HLASM R6.0"


def convert(source, *options, folder=None):
    """The script of a source, what is summed up of it, and the exit status."""
    ran = subprocess.run([CONVERTER, *options], input=source, cwd=folder, capture_output=True, timeout=600)
    return ran.stdout.decode(), ran.stderr.decode(), ran.returncode


def lines_of(script):
    """The lines of a script without the comment on its region; of statements without their remarks."""
    return [line if line.startswith("*?") else line.split("    ")[0] for line in script.splitlines() if not line.startswith("* ")]


def without_remarks(script):
    """The lines of a script: statements without their remarks, comments without the numbers of the source's lines."""
    return [re.sub(r"^\*\? \d+|(?<=line )\d+", "N", line) if line.startswith("*?") else line for line in lines_of(script)]


def summed(script, err, status):
    """Whether what is summed up of a script is what it has."""
    lines = lines_of(script)
    opened = sum(line.startswith("*?") for line in lines)
    said = len(lines) - opened - 1
    return err == f"mvsjob-asm: -: {said} statements written, {opened} lines need attention\n" and status == (0 if said else 1)


def as_listing(source):
    """The listing of a source: a page after some lines, a macro expansion after each macro, no number before continued lines."""
    lines, number, continued = ["                       External Symbol Dictionary                     Page    1"], 0, False
    for place, line in enumerate(source.splitlines()):
        if place % 17 == 0:
            lines += [f"PAYROLL PROGRAM                                             Page  {place // 17 + 2:3}", "  Active Usings: None", HEAD]
        number += not continued
        front = f"{place * 4:06X} 4110 {place:04X}                  " if line[:1] == " " and not continued else ""
        lines.append(f"{front:34}{'' if continued else number:>5} {line}"[:121].rstrip() if not continued else f"{'':40}{line}".rstrip())
        continued = line[71:72].strip() != ""
        if not continued and re.match(r"\S* +(getmain|storage)", line, re.I):
            number += 1
            lines.append(f"{place * 4:06X} 0A0A                      {number:>5}+         SVC   10                                01-GETMA")
    return "\n".join(lines + ["                Ordinary Symbol and Literal Cross Reference             Page   99", f"{'RU':34}{number + 1:>5}          GETMAIN RU,LV=8"]) + "\n"


def is_said(program, path):
    """Whether the script of a source is the one beside it, and a script that runs."""
    script, err, status = convert(path.read_bytes())
    same = lines_of(script) == path.with_suffix(".job").read_text().splitlines()
    return same and summed(script, err, status) and is_script(program, script)


def is_said_of_listing(path):
    script, _, _ = convert(as_listing(path.read_text()).encode())
    # A name that was made of the number of a line is made of that of a statement.
    unnumbered = lambda lines: [re.sub(r"(AREA|CELL|POOL)\d+", r"\1", line) for line in lines]  # noqa: E731
    return unnumbered(without_remarks(script)) == unnumbered(without_remarks(path.with_suffix(".job").read_text()))


def head(path, word):
    """What the first comment of a program says after a word."""
    found = re.search(rf"\b{word} +(\S.*?) *\*?$", path.read_text(), re.M)
    return found[1].split()


class Leaks:
    """The areas, cells and pools that a script obtains and does not release, by their names, with their lengths; of a pool 0."""

    def __init__(self):
        self.held = {}

    def release(self, names):
        for name in names:
            self.held.pop(name, None)

    def names(self, keys, *words):
        return [name for word in words for name in keys.get(word, "").strip("()").split(",") if name]

    def take(self, statement):
        """Takes the statement of a task. Subpools but 0 are those of the whole step here, since each script gives or shares them."""
        words = statement.split(" ", 2)
        task, operation, operands = words[0], words[1], words[2] if len(words) > 2 else ""
        parts = re.split(r",(?![^(]*\))", operands)
        keys = dict(part.split("=", 1) for part in parts if "=" in part)
        form, subpool = parts[0], (task if keys.get("SP", "0") == "0" else "", keys.get("SP", "0"))
        if operation == "GETMAIN" or (operation, form) == ("STORAGE", "OBTAIN"):
            lengths = self.names(keys, "LV", "LENGTH", "LA")
            for name, length in zip(self.names(keys, "A", "ADDR"), lengths):
                self.held[name] = subpool, (int(length) + 7) // 8 * 8
        elif operation == "FREEMAIN" or operation == "STORAGE":
            named = self.names(keys, "A", "ADDR")
            self.release(named or [name for name, (where, _) in self.held.items() if where == subpool])
        elif (operation, form) == ("CPOOL", "BUILD"):
            self.held[keys["CPID"]] = ("pool", keys["CPID"]), 0
        elif (operation, form) == ("CPOOL", "GET"):
            self.held[keys["CELL"]] = ("cell", keys["CPID"]), 0
        elif (operation, form) == ("CPOOL", "FREE"):
            self.release([keys["CELL"]])
        elif (operation, form) == ("CPOOL", "DELETE"):
            self.release([name for name, (where, _) in self.held.items() if where[1] == keys["CPID"] and where[0] in ("pool", "cell")])


def held(statements):
    found = Leaks()
    for statement in statements[1:]:
        found.take(statement)
    return found.held


def leaks(statements):
    return {name: length for name, (_, length) in held(statements).items()}


def never_released(program, statements):
    """The areas and cell pools that `--leaks` reports."""
    printed = run_script(program, "\n".join(statements) + "\n", "--leaks")
    return sorted(re.findall(r"(?m)^\* (?:Pool )?(\w+): [0-9 of]+ bytes", printed))


def reported(program, statements):
    """The bytes of areas that the tasks of a script own where they return, as REPORT says, and whether the script runs well."""
    lines = [line for statement in statements for line in ([statement.split()[0] + " REPORT SP"] if statement.endswith(" RETURN") else []) + [statement]]
    ran = subprocess.run([program], input="\n".join(lines) + "\n", capture_output=True, text=True, timeout=600)
    held = re.findall(r"(?m)^\d+ \S+ SP \d+ OWNED PLAIN (\d+)", ran.stdout)
    bad = re.search(r"ABEND|NO NAME|NOT RUN|FAULT|RC 4", ran.stdout)
    return sum(map(int, held)), bad is None and ran.returncode == 0


def is_marked(line, source):
    """Whether a line that needs attention shows a source."""
    return re.fullmatch(r"\*\? (\w+:)?\d+: .*", line) is not None and line.endswith(f": {source}")


def is_program_said(program, path):
    """Whether the script of a program of 100 lines or more is the one beside it, runs, and leaks what the program says."""
    script, _, status = convert(path.read_bytes(), *head(path, "OPTIONS"), folder=path.parent)
    lines, expected = lines_of(script), path.with_suffix(".job").read_text().splitlines()
    same = len(lines) == len(expected) and all(
        is_marked(line, wanted.removeprefix("*? ")) if wanted.startswith("*?") else line == wanted for line, wanted in zip(lines, expected)
    )
    statements = [line for line in lines if not line.startswith("*?")]
    lost = leaks(statements)
    owned, well = reported(program, statements)
    found = never_released(program, statements) == sorted(lost) == sorted(head(path, "LEAK"))
    is_long = 100 <= len(path.read_text().splitlines()) <= 400
    return same and status == 0 and well and found and owned == sum(lost.values()) and is_long


def is_script(program, script):
    """Whether no line of a script has a fault."""
    return subprocess.run([program], input=script.encode(), capture_output=True, timeout=600).returncode in (0, 8)


class Source:
    """A random source, and the statements that say it."""

    def __init__(self, seed):
        self.dice = random.Random(seed)
        self.code, self.data, self.said, self.words = [], [], [], []
        self.labels, self.free = 0, list(range(2, 13))

    def pick(self, *items):
        return self.dice.choice(items)

    def label(self, kind):
        self.labels += 1
        return f"{kind}{self.labels}"

    def register(self):
        """A register that no operand of the next macro has."""
        self.free.remove(register := self.dice.choice(self.free))
        return register

    def number(self, value):
        """An operand that is a number."""
        kind = self.dice.randrange(6)
        if kind == 1:
            self.data.append(f"{(name := self.label('EQ')):8} EQU   {value}")
            return name
        if kind == 2:
            return f"X'{value:X}'"
        if kind == 3 and value > 4:
            return f"{value // 4}*4+{value % 4}"
        if kind == 4:
            register = self.register()
            self.code.append(self.pick(f"         L     {register},=F'{value}'", f"         L     {register},=A({value})"))
            return f"({register})"
        return str(value)

    def write(self, operation, operands):
        """A macro, some of whose operands continue in further lines with remarks."""
        label, self.free = self.label("LB") if self.dice.randrange(4) == 0 else "", list(range(2, 13))
        line = f"{label:8} {operation:5} "
        for place, operand in enumerate(operands):
            last = place == len(operands) - 1
            text = operand + ("" if last else ",")
            if not last and (len(line) + len(text) > 50 or self.dice.randrange(3) == 0):
                remark = self.pick("", " a remark", " LV=8")
                self.code.append(f"{line + text + remark:71}X")
                line = " " * 15
            else:
                line += text
        line = f"{line}{self.pick('', '   what it does', '  SP=9')}"[:71]
        self.code.append(line.lower() if self.dice.randrange(5) == 0 and "'" not in line else line)

    def subpool(self):
        number = self.pick(None, 0, 1, 77, 127, 131)
        return ([], "") if number is None else ([f"SP={self.number(number)}"], f",SP={number}")

    def word(self):
        name = self.label("W_" if self.dice.randrange(3) == 0 else "WORD")
        self.data.append(f"{name:8} DS    A")
        return name, name.replace("_", "")

    def obtain(self):
        length = self.dice.randrange(1, 60000)
        subpool, said = self.subpool()
        word, name = self.word()
        kind = self.dice.randrange(4)
        if kind == 0:
            form = self.pick("EC", "EU")
            self.write("GETMAIN", [form, f"LV={self.number(length)}", f"A={word}"] + subpool)
            self.said.append(f"GETMAIN {form},LV={length},A={name}{said}")
        elif kind == 1:
            form, loc = self.pick("RC", "RU"), self.pick(("LOC=(31,64)", ",LOC=31"), ("LOC=BELOW", ",LOC=BELOW"), (None, ""))
            self.write("GETMAIN", [form, f"LV={self.number(length)}"] + subpool + [loc[0]] * bool(loc[0]))
            self.code.append(f"         ST    1,{word}")
            self.said.append(f"GETMAIN {form},LV={length},A={name}{said}{loc[1]}")
        else:
            register = self.dice.randrange(2, 13)
            self.write("STORAGE", ["OBTAIN", f"LENGTH={self.number(length)}", f"ADDR=({register})"] + subpool)
            self.code.append(f"         ST    {register},{word}")
            self.said.append(f"STORAGE OBTAIN,LENGTH={length},ADDR={name}{said}")
        self.words.append((word, name, length, said))

    def release(self):
        if not self.words:
            return self.obtain()
        word, name, length, said = self.words.pop(self.dice.randrange(len(self.words)))
        subpool = [said[1:]] if said else []
        if self.dice.randrange(2):
            self.write("FREEMAIN", ["EU", f"LV={self.number(length)}", f"A={word}"] + subpool)
            self.said.append(f"FREEMAIN EU,LV={length},A={name}{said}")
        else:
            length_text, register = self.number(length), self.register()
            self.code.append(f"         L     {register},{word}")
            self.write("STORAGE", ["RELEASE", f"LENGTH={length_text}", f"ADDR=({register})"] + subpool)
            self.said.append(f"STORAGE RELEASE,LENGTH={length},ADDR={name}{said}")

    def listed(self):
        lengths = [self.dice.randrange(1, 9000) for _ in range(self.dice.randrange(1, 5))]
        sizes, areas = self.label("LIST"), self.label("AR")
        words = [f"F'{length}'" for length in lengths[:-1]] + [self.pick(f"X'80',AL3({lengths[-1]})", f"A(X'80000000'+{lengths[-1]})")]
        self.data += [f"{sizes:8} DC    {','.join(words)}", f"{areas:8} DS    {len(lengths)}A"]
        names = ",".join(f"{areas}{place}"[-8:] for place in range(1, len(lengths) + 1))
        said = f"LA=({','.join(map(str, lengths))}),A=({names})"
        if self.dice.randrange(2):
            self.write("GETMAIN", ["LC", f"LA={sizes}", f"A={areas}"])
        else:
            label = self.label("ML")
            self.data.append(f"{label:8} GETMAIN LC,LA={sizes},A={areas},MF=L")
            self.write("GETMAIN", [f"MF=(E,{label})"])
        self.said.append(f"GETMAIN LC,{said}")

    def text(self):
        head = ["PROG     CSECT", "         STM   14,12,12(13)", "         BASR  12,0", "         USING *,12"]
        tail = ["         LM    14,12,12(13)", "         BR    14"]
        return "\n".join(head + self.code + tail + self.data + ["         END"]) + "\n"

    def grow(self, count):
        for _ in range(count):
            self.pick(self.obtain, self.obtain, self.release, self.listed)()
        return self


def is_random_said(program, seed):
    source = Source(seed).grow(12)
    script, err, status = convert(source.text().encode())
    expected = ["PROG REGION BELOW=2048,ABOVE=8192"] + [f"PROG {said}" for said in source.said] + ["PROG RETURN"]
    return without_remarks(script) == expected and summed(script, err, status) and is_script(program, script)


def damaged(seed):
    """A source or a listing with bytes changed, lines left out, and others doubled."""
    dice = random.Random(seed)
    text = dice.choice(SOURCES + PROGRAMS).read_text() if seed % 2 else Source(seed).grow(8).text()
    data = bytearray((as_listing(text) if seed % 3 == 0 else text).encode())
    for _ in range(dice.randrange(1, 40)):
        at = dice.randrange(len(data))
        kind = dice.randrange(4)
        if kind == 0:
            data[at] = dice.randrange(256)
        elif kind == 1:
            data[at] = ord(dice.choice("'(),=*&X+ \n"))
        elif kind == 2:
            del data[at : at + dice.randrange(1, 30)]
        else:
            data[at:at] = data[at : at + dice.randrange(1, 60)]
        if not data:
            break
    return bytes(data)


def random_options(dice, source):
    """Some options, with labels of the source."""
    labels = re.findall(rb"(?m)^([A-Z][A-Z0-9]{0,7}) ", source) or [b"NONE"]
    pick = lambda: dice.choice(labels).decode()  # noqa: E731
    options = []
    if dice.randrange(2):
        options += ["--path", ",".join(pick() for _ in range(dice.randrange(1, 6)))]
    if dice.randrange(3) == 0:
        loops = re.findall(rb" (?:BCT|B|J|JCT) +(?:\d+,)?([A-Z][A-Z0-9]{0,7})", source)
        options += [word for loop in loops[:2] for word in ("--repeat", f"{loop.decode()}={dice.randrange(1, 20)}")]
    if dice.randrange(2):
        options += ["--schedule", dice.choice(("attach", "end"))]
    return options


def is_damaged_read(program, seed):
    source = damaged(seed)
    dice = random.Random(-seed)
    options = random_options(dice, source) if dice.randrange(2) else []
    script, err, status = convert(source, *options)
    if status == 2 and options:
        return re.fullmatch(r"mvsjob-asm: -: --(path|repeat): no .*\n", err) is not None and script == ""
    return summed(script, err, status) and is_script(program, script)


REFUSED = [
    (["--region", "4"], "invalid value '4' for '--region'"),
    (["--region", "64M"], "a script has at most 8M,32M"),
    (["--region", "0K,4M"], "invalid value '0K,4M' for '--region'"),
    (["--region", "4M,64M"], "invalid value '4M,64M' for '--region'"),
    (["--repeat", "LOOP"], "expected LABEL=N"),
    (["--repeat", "LOOP=0"], "expected LABEL=N"),
    (["--repeat", "NOWHERE=2"], "--repeat: no loop with requests begins at NOWHERE"),
    (["--path", "LOOP,NOWHERE"], "--path: no statement has the label or number NOWHERE"),
    (["--schedule", "later"], "invalid value 'later' for '--schedule"),
]
REGIONS = [
    ("4M", 1024, 8192),
    ("640K,4M", 160, 1024),
    ("5K", 2, 8192),
    ("0M", 2048, 8192),
    ("20M", 2048, 8192),
    ("1m,0k", 256, 0),
]


def of_options():
    """The options on a source with a loop: what they refuse, and what they write."""
    source = (TOP / "tests/assembler/pools.asm").read_bytes()
    plain, _, _ = convert(source)
    for options, expected in REFUSED:
        script, err, status = convert(source, *options)
        yield " ".join(options), script == "" and expected in err and status == 2
    for size, below, above in REGIONS:
        script, _, _ = convert(source, "--region", size)
        comment, statement = script.splitlines()[:2]
        said = comment == f"* REGION={size}: {below} pages below 16 megabytes, {above} above."
        yield size, said and statement == f"POOLS REGION BELOW={below},ABOVE={above},RES=ABOVE" and script.splitlines()[2:] == plain.splitlines()[2:]
    yield "no --region", plain.startswith("* No --region: the largest is assumed, 2048 pages below 16 megabytes and 8192 above, ")
    many = lines_of(convert(source, "--repeat", "LOOP=50")[0])
    cells = [line.split("CELL=")[1] for line in many if "CPID=SMALL,CELL=" in line and "GET" in line]
    yield "50 names", len(set(cells)) == 50 and not any("LOOP" in line for line in many)
    objects = [json.loads(line) for line in convert(source, "--json")[0].splitlines()]
    statements = [f"{one['task']} {one['statement']}" for one in objects[:-1] if "statement" in one]
    yield "--json", statements == [line for line in lines_of(plain) if not line.startswith("*?")]
    yield "--json, what is open", [one["attention"] for one in objects[:-1] if "attention" in one] == [
        re.fullmatch(r"\*\? \d+: (.*): " + re.escape(one["source"]), line)[1]
        for line, one in zip((line for line in lines_of(plain) if line.startswith("*?")), (one for one in objects[:-1] if "attention" in one))
    ]
    yield "--json, the sum", objects[-1] == {"statements": len(statements) - 1, "attention": len(objects) - 1 - len(statements)}


SHOWN = """PROG     CSECT
         BAL   14,SUB
         LTR   15,15
         BNZ   BAD
         BAL   14,SUB
         BR    14
BAD      GETMAIN R,LV=16
         ABEND 12
SUB      LR    9,14
         GETMAIN R,LV=8
         BR    9
"""


def of_paths():
    """A routine that is called twice, on each of two paths and without one."""
    begin = "PROG REGION BELOW=2048,ABOVE=8192"
    source = SHOWN.encode()
    yield "the short path", lines_of(convert(source, "--path", "BAD")[0]) == [begin, "PROG GETMAIN R,LV=8,A=AREA10", "PROG GETMAIN R,LV=16,A=AREA7", "PROG ABEND 12"]
    twice = [begin, "PROG GETMAIN R,LV=8,A=AREA10", "PROG GETMAIN R,LV=8,A=AREA102"]
    yield "the long path", lines_of(convert(source, "--path", "SUB")[0]) == [*twice, "PROG RETURN"]
    script = lines_of(convert(source)[0])
    yield "no path", script == [
        *twice[:2],
        "*? 4: a branch, on to line 5 or to BAD in line 7: BNZ BAD",
        twice[2],
        "*? 6: a path of the task ends here: BR 14",
        "PROG GETMAIN R,LV=16,A=AREA7",
        "PROG ABEND 12",
    ]


CALLED_IN_LOOP = """PROG     CSECT
         LA    5,3
NEXT     BAS   14,SUB
         BCT   5,NEXT
         BR    14
SUB      GETMAIN R,LV=8
         BR    14
"""
MAY_RETURN = """PROG     CSECT
         BAS   10,SUB
AFTER    LTR   15,15
         GETMAIN R,LV=16
         BR    14
SUB      LTR   1,1
         BZR   10
         GETMAIN R,LV=8
         BR    10
"""
MAY_END = """PROG     CSECT
         GETMAIN R,LV=8
         LTR   15,15
         BER   14
         GETMAIN R,LV=16
         BR    14
"""
RELATIVE = """PROG     CSECT
         GETMAIN RC,LV=8
         LTR   15,15
         BZ    *+8
         B     NONE
         GETMAIN R,LV=16
         BR    14
NONE     ABEND 1
"""
TABLE = """PROG     CSECT
         SLL   1,2
         B     TABLE(1)
TABLE    B     ONE
         B     TWO
ONE      GETMAIN R,LV=8
         BR    14
TWO      GETMAIN R,LV=16
         BR    14
"""
ENTRY = """PROG     CSECT
         USING PROG,15
         B     START-PROG(,15)
         DC    CL8'PROG'
START    STM   14,12,12(13)
         GETMAIN R,LV=8
         BR    14
"""


def written_lengths(source, *options):
    """The lengths that the script of a source requests, in their order, and the marks of the script without their sources."""
    lines = lines_of(convert(source.encode(), *options)[0])
    return re.findall(r"LV=(\d+)", "\n".join(line for line in lines if not line.startswith("*?"))), [
        line.rpartition(": ")[0] for line in lines if line.startswith("*?")
    ]


def of_branches():
    """A routine that is called in a loop, a conditional return, a branch to *+8, and a table of branches."""
    script = convert(CALLED_IN_LOOP.encode())[0]
    yield "a routine in a loop", "    6 in loop NEXT: SUB GETMAIN R,LV=8" in script
    yield "a routine in a loop that is repeated", "in loop" not in convert(CALLED_IN_LOOP.encode(), "--repeat", "NEXT=2")[0]
    yield "a return that is taken", written_lengths(MAY_RETURN, "--path", "AFTER") == (["16"], [])
    yield "a return that is not taken", written_lengths(MAY_RETURN, "--path", "SUB") == (["8", "16"], [])
    yield "a return of the task that is taken", written_lengths(MAY_END, "--path", "END") == (["8"], [])
    yield "a return of the task that is not taken", written_lengths(MAY_END, "--path", "5") == (["8", "16"], [])
    without = MAY_END.replace("BER   14", "NOP   0")
    yield "no such return", written_lengths(without, "--path", "END")[1] == ["*? 6: the path does not come to a conditional return of the task"]
    labelled = MAY_END.replace("         GETMAIN R,LV=16", "END      GETMAIN R,LV=16")
    yield "a label END", written_lengths(labelled, "--path", "END") == (["8", "16"], [])
    yield "*+8 that is taken", written_lengths(RELATIVE, "--path", "6") == (["8", "16"], [])
    yield "*+8 that is not taken", written_lengths(RELATIVE, "--path", "NONE") == (["8"], [])
    marks = ["*? 4: a branch, on to line 5 or to *+8 in line 6", "*? 5: a branch to NONE in line 8"]
    yield "*+8 without a path", written_lengths(RELATIVE) == (["8", "16"], marks)
    longer = RELATIVE.replace("B     NONE\n", "BRASL 14,NONE\n").replace("*+8", "*+10")
    yield "*+10", written_lengths(longer)[1][0] == "*? 4: a branch, on to line 5 or to *+10 in line 6"
    inside = RELATIVE.replace("*+8", "*+6")
    yield "*+6, inside of an instruction", written_lengths(inside)[1][0] == "*? 4: a branch to an address that is not known"
    for target in ("START-PROG(,15)", "12(,15)", "START"):
        entry = ENTRY.replace("START-PROG(,15)", target)
        yield f"B {target}", written_lengths(entry) == written_lengths(entry, "--path", "6") == (["8"], [])
    yield "a table of branches", written_lengths(TABLE, "--path", "TWO") == (["16"], [])
    yield "a table of branches without a path", written_lengths(TABLE)[1][0] == "*? 3: a branch to an address that is not known"


def reasons():
    """The reasons for which a line needs attention, as the sources of the converter have them: each up to what depends on the line."""
    read = lambda name: (TOP / f"crates/assembler_{name}.rt").read_text()  # noqa: E731
    causes = re.search(r"fn text\(.*?\n    }", read("operands/src/reason"), re.S)[0]
    yield from (text.removeprefix(": ").strip() for text in re.findall(r'=> "([^"]+)"', causes))
    walk = "".join(read(f"source/src/{name}") for name in ("calls", "ends", "walk"))
    yield from re.findall(r'"((?:a|the) [a-z][^"]+)"', walk)
    yield re.search(r'"(a path[^"]*)"', read("script/src/script"))[1]
    yield "the script does not take"
    for text in re.findall(r'in alloc;\s*"((?:a|the) [^"]+)"', read("script/src/marks")):
        yield from (part.strip(" ()") for part in re.split(r"\{\w+\}|in line|or$|on$|=N", text) if len(part) > 12)


def of_help():
    """The help beside its copy, each option in the other places that name it, and each reason in docs/FROM-ASSEMBLER.md."""
    document = (TOP / "docs/FROM-ASSEMBLER.md").read_text()
    for reason in sorted(set(reasons())):
        yield f"{reason} in FROM-ASSEMBLER.md", reason in document
    shown = subprocess.run([CONVERTER, "--help"], capture_output=True, text=True, timeout=600).stdout
    kept = (TOP / "tools/help-asm.txt").read_text()
    yield "tools/help-asm.txt", shown.replace(f"Usage: {CONVERTER.name} ", "Usage: mvsjob-asm ") == kept
    with tempfile.TemporaryDirectory() as folder:
        subprocess.run([TOP / "tools/manual", folder, "mvsjob-asm.1"], check=True)
        page = (Path(folder) / "mvsjob-asm.1").read_text().replace("\\-", "-")
    places = {
        "mvsjob-asm.1": page,
        "bash": completion("bash"),
        "zsh": completion("zsh"),
        "fish": re.sub(r" -l ([a-z]+)", r" --\1", completion("fish")),
        "CHANGELOG.md": (TOP / "CHANGELOG.md").read_text() + "--help --version",
        "FROM-ASSEMBLER.md": (TOP / "docs/FROM-ASSEMBLER.md").read_text() + "--help --version",
    }
    for option in sorted(set(re.findall(r"--[a-z]+", kept.split("\n\n")[3]))):
        for place, text in places.items():
            yield f"{option} in {place}", option in text


def completion(shell):
    return subprocess.check_output([TOP / "tools/completion", shell, "mvsjob-asm"], text=True)


def completed(*words):
    """What bash completes of some words after the name of the converter."""
    lines = ['eval "$1"', "shift", 'COMP_WORDS=(mvsjob-asm "$@") COMP_CWORD=$#', "_mvsjob_asm 2> /dev/null", 'printf "%s\\n" "${COMPREPLY[@]}"']
    command = ["bash", "--norc", "--noprofile", "-c", "\n".join(lines), "bash", completion("bash"), *words]
    return sorted(subprocess.run(command, cwd=TOP / "examples", capture_output=True, text=True, timeout=600).stdout.split())


def of_completion():
    yield "an option", completed("--sch") == ["--schedule"]
    yield "its values", completed("--schedule", "") == ["attach", "end"]
    yield "its value after =", completed("--schedule", "=", "e") == ["end"]
    yield "a source", completed("orders") == ["orders.asm"]
    yield "a folder", completed("-I", "s") == ["s390"]


def run_script(program, script, *words):
    return subprocess.run([program, *words], input=script, capture_output=True, text=True, timeout=600).stdout


def of_document(program):
    """The walk of docs/FROM-ASSEMBLER.md: its commands on its source write what it shows, and find the leak and the fix."""
    blocks = re.findall(r"(?ms)^```(?:sh)?\n(.*?)^```$", (TOP / "docs/FROM-ASSEMBLER.md").read_text())
    source, _, summary, script, command, path, replaced, report, fix = blocks[:9]
    options = command.split()[1:-1]
    yield "the source", source == (TOP / "examples/orders.asm").read_text()
    with tempfile.TemporaryDirectory() as folder:
        file = Path(folder) / "orders.asm"
        file.write_text(source)
        ran = subprocess.run([CONVERTER, file.name], cwd=folder, capture_output=True, text=True, timeout=600)
        yield "the script", ran.stdout == script and ran.stderr == summary
        converted = lambda: subprocess.run([CONVERTER, *options, file.name], cwd=folder, capture_output=True, text=True, timeout=600).stdout  # noqa: E731
        yield "one path", converted() == path
        lines, begun = path.splitlines(), iter(replaced.splitlines())
        lines = [next(begun) if line.startswith("*?") else line for line in lines]
        yield "the leak", run_script(program, "\n".join(lines) + "\n", "--leaks").endswith(f"STEP ENDED RC 0\n{report}")
        numbered = source.splitlines()
        numbered[17] = fix.rstrip("\n")
        file.write_text("\n".join(numbered) + "\n")
        lines, begun = converted().splitlines(), iter(replaced.splitlines())
        lines = [next(begun) if line.startswith("*?") else line for line in lines]
        printed = run_script(program, "\n".join(lines) + "\n", "--leaks")
        yield "the fix", "ORDERS ENDED" in printed and "Never released" not in printed and "ABEND" not in printed


def is_assembled(program, path):
    ran = subprocess.run([program, "--assemble", path], capture_output=True, text=True, timeout=600)
    return hlasm.mistakes(ran.stdout) == [] and ran.returncode in (0, 12)


def is_random_assembled(program, seed):
    profile = ("storage", "tasks", "pools", "tidy")[seed % 4]
    script = subprocess.run([program, "--random", str(seed), "--lines", "60", "--profile", profile], capture_output=True).stdout
    ran = subprocess.run([program, "--assemble"], input=script, capture_output=True, timeout=600)
    return hlasm.mistakes(ran.stdout.decode()) == [] and ran.returncode == 0


def written(program, script):
    """What the programs of a script write, but for the lines of its reports."""
    job = subprocess.run([program, "--assemble"], input=script.encode(), capture_output=True, timeout=600).stdout.decode()
    cards = []
    for line in script.splitlines():
        found = re.match(r"(\S+) +REGION +(\S*BELOW=\S*)", line)
        if found:
            keys = dict(operand.split("=") for operand in found[2].split(","))
            numbers = int(keys["BELOW"]), int(keys.get("ABOVE", 0)), int(keys.get("FILL", "0"), 16)
            cards.append((found[1], *numbers, keys.get("RES") == "ABOVE"))
    return hlasm_run.run(job, cards)


def without_reports(script, printed):
    reports = {str(number) for number, line in enumerate(script.splitlines(), 1) if " REPORT " in line}
    return [line for line in printed.splitlines() if line.split()[0] not in reports]


def writes(program, script, printed):
    """Whether the programs of a script write what it prints. They do not refuse the name of a pool that is in use."""
    if "U4008" in printed:
        return None
    return written(program, script) == without_reports(script, printed)


def is_example_written(program, path):
    printed = path.with_suffix(".out").read_text()
    return None if "JOB FAULT" in printed else writes(program, path.read_text(), printed)


def is_random_written(program, case):
    kind, seed = case
    script = getattr(random_scripts, kind)(seed, False)
    return writes(program, script.text(), script.output())


def commented(script):
    """The commands of docs/FROM-ASSEMBLER.md: reports become comments, and the lines of a job log an output."""
    return subprocess.run(["sed", "s/^[^ *]* *REPORT/*&/"], input=script, capture_output=True, text=True).stdout


def is_judged(program, folder, path):
    script, output = folder / path.name, folder / f"{path.stem}.out"
    script.write_text(commented(path.read_text()))
    log = "".join(f" 10.23.{k % 60:02} JOB00123  +MVSJOB {line}\n" for k, line in enumerate(written(program, script.read_text())))
    log = " 10.22.00 JOB00123  IEF403I MVSJOB - STARTED\n" + log + " 10.24.00 JOB00123  IEF404I MVSJOB - ENDED\n"
    output.write_text(subprocess.run(["sed", "-n", "s/.*MVSJOB \\([0-9S]\\)/\\1/p"], input=log, capture_output=True, text=True).stdout)
    ran = subprocess.run([program, "--judge", output, script], capture_output=True, text=True, timeout=600)
    return ran.stdout == "ACCEPTED\n"


def judged(program):
    with tempfile.TemporaryDirectory() as folder:
        names = ("63_payroll", "64_messages", "41_szero", "43_two_tens", "51_hundred")
        return [(name, is_judged(program, Path(folder), TOP / f"lessons/{name}.job")) for name in names]


def many_names():
    """Whether each of 100,000 areas has a name of its own."""
    source = "PROG CSECT\n" + "".join(f" GETMAIN RU,LV=8,A=({number})\n" for number in range(100_000))
    script, err, status = convert(source.encode())
    names = re.findall(r"(?m)^PROG GETMAIN RU,LV=8,A=(\S+)", script)
    yield "each is written", len(names) == 100_000 and summed(script, err, status)
    yield "no name twice", len(set(names)) == len(names) and all(re.fullmatch("[A-Z@#$][A-Z0-9@#$]{0,7}", name) for name in names)


def groups(program):
    scripts = sorted((TOP / "examples").glob("*.job")) + sorted((TOP / "lessons").glob("*.job"))
    yield "assembler sources", each(partial(is_said, program), SOURCES)
    yield "assembler listings", each(is_said_of_listing, SOURCES)
    yield "many assembler names", whole(many_names)
    yield "assembler programs", each(partial(is_program_said, program), PROGRAMS)
    yield "assembler options", whole(of_options)
    yield "assembler paths", whole(of_paths)
    yield "assembler branches", whole(of_branches)
    yield "assembler help", whole(of_help)
    yield "assembler completion", whole(of_completion)
    yield "assembler walk", whole(of_document, program)
    yield "random assembler sources", each(partial(is_random_said, program), seeds(300), str, chunksize=10)
    yield "damaged assembler sources", each(partial(is_damaged_read, program), range(DAMAGED), str, chunksize=20)
    yield "assembled", each(partial(is_assembled, program), scripts)
    yield "assembled random scripts", each(partial(is_random_assembled, program), range(80), str, chunksize=10)
    yield "assembled and run", each(partial(is_example_written, program), sorted((TOP / "examples").glob("*.job")))
    kinds = [(kind, seed) for kind in ("storage", "pools", "anything", "steps") for seed in range(20)]
    yield "assembled and run, random", each(partial(is_random_written, program), kinds, str)
    yield "from a job log to the judge", whole(judged, program)
