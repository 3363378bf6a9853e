"""`--color`: which lines are coloured, and where; without the escape sequences the bytes are those without colour."""

import re
import subprocess
from pathlib import Path

from interactive import Terminal

TOP = Path(__file__).resolve().parent.parent
SCRIPT = "JOB REGION BELOW=1\nJOB GETMAIN RC,LV=4097,A=X\nJOB GETMAIN R,LV=8,A=ABEND\nRC RETURN\nJOB ABEND 1\n"
PLAIN = "1 JOB REGION BELOW 1 ABOVE 0\n2 JOB RC 4\n3 JOB RC 0\n4 RC NOT RUN\n5 JOB ABEND U0001\nSTEP ENDED RC 8\n"


def in_colour(printed):
    """The lines as they are coloured: RC 4 yellow, and an ABEND red."""
    yellow = re.sub(r"(?m)^(\d+ \S+ RC 4)$", "\x1b[33m\\1\x1b[0m", printed)
    return re.sub(r"(?m)^(\d+ \S+ ABEND .*)$", "\x1b[31m\\1\x1b[0m", yellow)


def printed(program, script, *words):
    return subprocess.run([program, *words], input=script.encode(), capture_output=True, timeout=600).stdout.decode()


def at_terminal(program, script, *words, **names):
    """What the program prints of a file at a terminal."""
    terminal = Terminal(program, *words, script, **names)
    try:
        return terminal.read("")
    finally:
        terminal.close()


def each_way(program, path):
    plain = printed(program, path.read_text())
    return [printed(program, path.read_text(), "--color", word) for word in ("auto", "always", "never")] == [plain, in_colour(plain), plain]


def results(program):
    yield "plain", printed(program, SCRIPT) == PLAIN
    yield "explained", in_colour(printed(program, SCRIPT, "--explain")) == printed(program, SCRIPT, "--explain", "--color=always")
    yield "a wrong word", printed(program, SCRIPT, "--color", "red") == ""
    for path in sorted([*(TOP / "tests/scripts").glob("*.job"), *(TOP / "examples").glob("*.job")]):
        yield path.name, each_way(program, path)
    abends = next(path for path in sorted((TOP / "examples").glob("*.job")) if " ABEND " in path.with_suffix(".out").read_text())
    plain = abends.with_suffix(".out").read_text()
    yield "at a terminal", at_terminal(program, abends, NO_COLOR="") == in_colour(plain)
    yield "at a terminal, with NO_COLOR", at_terminal(program, abends, NO_COLOR="1") == plain
    yield "at a terminal, never", at_terminal(program, abends, "--color", "never", NO_COLOR="") == plain
    yield "always, with NO_COLOR", at_terminal(program, abends, "--color", "always", NO_COLOR="1") == in_colour(plain)
