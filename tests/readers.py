"""The readers of the script language that conformance/readers has for authors of emulators, in Python and in C.

Each reads all scripts of the repository as the plain machine does, and finds in the lines of tests/faults.py, and in damaged scripts,
just the fault that the line has. What the C compiler lacks is not tried.
"""

import contextlib
import io
import random
import re
import shutil
import subprocess
import sys
import tempfile
from functools import partial
from pathlib import Path

import annotated
import faults
import plain_emulator
from cases import Lacking

TOP = Path(__file__).resolve().parent.parent
READERS = TOP / "conformance/readers"
FIRST = TOP / "examples/first.job"
FLAGS = ["-std=c99", "-Wall", "-Wextra", "-Werror", "-O1", "-g", "-fsanitize=address,undefined", "-fno-sanitize-recover=all"]
PYTHON = [sys.executable, READERS / "read_script.py"]
DAMAGED = 200
PIECES = ("=", ",", "(", ")", "'", " ", "X'", "0", "99999999999", "A", "LV=8", "SP=", "+", "GSPL=(1,2)", "\t", ",,", "LOC=24", "((", "BNDRY=PAGE")


def scripts():
    """Each script of the repository by its name, without the answers in it."""
    for folder in ("examples", "conformance/scripts", "lessons"):
        for path in sorted((TOP / folder).glob("*.job")):
            yield f"{folder}/{path.name}", re.sub(r" +=> .*", "", path.read_text())
    for case in annotated.all_scripts():
        yield f"tests/scripts/{case.name}", case.script()


def listed_by(command, script):
    """What a reader prints that is a command."""
    ran = subprocess.run(command, input=script.encode("latin-1"), capture_output=True, timeout=600)
    return ran.stdout.decode() if ran.stderr == b"" else f"stderr: {ran.stderr.decode()}"


def listed_here(script):
    """What the reader in Python prints."""
    import read_script  # a copy of only the tests has no folder conformance

    with contextlib.redirect_stdout(io.StringIO()) as printed:
        read_script.print_statements(io.BytesIO(script.encode("latin-1")))
    return printed.getvalue()


def items(text):
    """A value as the plain machine understands it: a name, an address, a number, bytes, or the members of a list."""
    for item in plain_emulator.items(text) if text.startswith("(") else [text]:
        if item.isdecimal():
            yield str(int(item))
        elif item.startswith("X'"):
            yield str(plain_emulator.address(item))
        else:
            name, offset = plain_emulator.address(item)
            yield f"{name}+{offset}" if offset else name


def value(operation, place, text):
    if operation == "PUT" and place == 1:
        return ",".join(str(byte) for byte in bytes.fromhex(text[2:-1]))
    return str(int(text, 16)) if place == "FILL" else ",".join(items(text))


def plainly_listed(script):
    """The statements of a script as the plain machine parts them, without operands that only the text of a statement has."""
    for number, line in enumerate(script.splitlines(), 1):
        if line.strip(" ") and not line.startswith("*"):
            s = plain_emulator.Statement(line)
            has_form = s.operation in ("GETMAIN", "FREEMAIN", "STORAGE", "CPOOL", "REPORT")
            operands = [(k, text) for k, text in enumerate(s.plain[has_form:])] + list(s.keys.items())
            said = [f"{key}={value(s.operation, key, text)}" for key, text in operands]
            yield " ".join([str(number), s.task, s.operation, *s.plain[:has_form], *said])


def is_read(reader, script):
    """Whether a reader lists the statements of a script, up to its fault."""
    *lines, last = reader(script).splitlines()
    number, fault = (int(last.split()[0]), last) if " JS0" in last else (None, None)
    front = script.splitlines()[: number - 1] if number else script.splitlines()
    return lines + [last] * (fault is None) == list(plainly_listed("\n".join(front)))


def printed_fault(program, script):
    """The fault that the program prints, or an empty text."""
    ran = subprocess.run([program], input=script.encode("latin-1"), capture_output=True, timeout=600)
    return next(iter(re.findall(r"(?m)^\d+ JS0\d$", ran.stdout.decode())), "")


def fault(reader, script):
    return next(iter(re.findall(r"(?m)^\d+ JS0\d$", reader(script))), "")


def damaged(script, seed):
    """A script with a few pieces put in, taken out or doubled."""
    dice, lines = random.Random(seed), script.splitlines()[:40]
    at = dice.randrange(len(lines))
    for _ in range(dice.randint(1, 3)):
        line = lines[at]
        k, j = sorted(dice.randrange(len(line) + 1) for _ in range(2))
        lines[at] = line[:k] + dice.choice((*PIECES, line[k:j] * 2, "")) + line[dice.choice((k, j)) :]
    return "".join(f"{line}\n" for line in lines)


def by_reader(name, reader, program):
    for path, script in scripts():
        yield f"{name}, {path}", is_read(reader, script) and fault(reader, script) == printed_fault(program, script)
    for line, before, wanted in faults.cases():
        found = fault(reader, f"{before}{line}\n")
        yield f"{name}, {line[:60]}", found == next(iter(re.findall(r"(?m)^\d+ JS0\d$", wanted)), "")
    texts = [script for _, script in scripts()]
    for seed in range(DAMAGED):
        script = damaged(texts[seed % len(texts)], seed)
        yield f"{name}, damaged {seed}", fault(reader, script) == printed_fault(program, script)


def results(program):
    yield from by_reader("Python", listed_here, program)
    yield "Python, as a program", listed_by(PYTHON, FIRST.read_text()) == listed_here(FIRST.read_text())
    if not shutil.which("gcc"):
        count = len(list(scripts())) + len(list(faults.cases())) + DAMAGED
        yield from ((f"C {k}", Lacking("gcc")) for k in range(count))
        return
    with tempfile.TemporaryDirectory() as folder:
        reader = Path(folder) / "list_script"
        subprocess.run(["gcc", *FLAGS, "-o", reader, READERS / "list_script.c"], check=True)
        yield from by_reader("C", partial(listed_by, [reader]), program)
