"""What standard error says of lines that beginners mistype: tests/mistakes.txt, written by hand from docs/SCRIPT.md."""

import re
import subprocess
from pathlib import Path

REGION = b"JOB REGION BELOW=1\n"
CASES = Path(__file__).with_name("mistakes.txt")


def tells(printed, said):
    """Whether standard error reports the fault that standard output ends with, by its line and its code, and nothing else."""
    lines = printed.splitlines()
    if lines[-1:] != ["JOB FAULT RC 12"]:
        return said == ""
    number, code = lines[-2].split()
    below = said.splitlines()[1:]
    return re.match(rf"-:{number}:[1-9]\d*: {code}: .", said) is not None and len(below) in (0, 2) and said.endswith("\n")


def written(text):
    """The bytes that a text with Python's escapes writes."""
    return text.encode("latin-1").decode("unicode_escape").encode("latin-1")


def shown(line):
    """A line as it is printed, with a point for each byte that is no plain one."""
    return "".join(chr(byte) if 32 <= byte <= 126 else "." for byte in line)


def said(line, first, below):
    """All that is reported of a line."""
    column = int(first.split(":")[1])
    return f"-:{first}\n    {shown(line)}\n{' ' * (column + 3)}{below}\n"


def cases():
    """Each line, with all that is reported of it and whether it is the second one of its script."""
    for case in CASES.read_text().split("\n\n")[1:]:
        text, first, below = case.rstrip("\n").split("\n")
        line = written(text)
        yield line, said(line, first, below), first.startswith("2:")


def of_line(program, line, expected, second):
    """Whether the line is reported as expected, and standard output has only its code and the end."""
    script = (REGION if second else b"") + line + b"\n"
    ran = subprocess.run([program], input=script, capture_output=True, timeout=600)
    code = expected.split(": ")[1]
    printed = f"{'1 JOB REGION BELOW 1 ABOVE 0' if second else ''}\n{2 if second else 1} {code}\nJOB FAULT RC 12\n".lstrip("\n")
    return (ran.returncode, ran.stdout.decode(), ran.stderr.decode()) == (12, printed, expected)


def results(program):
    return [(shown(line), of_line(program, line, expected, second)) for line, expected, second in cases()]
