"""The views of a run: what the program prints besides the replies, or in their place. Each is counted on the script that it is for."""

import tempfile
from functools import cache
from pathlib import Path

from counting import instructions, printed

PLAIN = "plain"
# Those that print a run of any script.
PRINTING = (PLAIN, "--explain", "--json", "--json --explain", "--page")
VIEWS = (*PRINTING, "--leaks", "--check", "--interactive", "--judge")


def options(view):
    return () if view == PLAIN else view.split()


def replies(text):
    """Returns the replies of a run by the number of their line, each with its task."""
    found = {}
    for line in text.splitlines():
        number, _, reply = line.partition(" ")
        if number.isdigit():
            found.setdefault(int(number), []).append(reply)
    return found


def answered(program, script):
    """Returns a script of one step with an answer after each statement, as `--check` reads them."""
    text = printed(program, script).decode()
    found, lines = replies(text), script.decode().splitlines()
    for at, line in enumerate(lines):
        own = line.partition(" ")[0] + " "
        answers = " / ".join(reply.removeprefix(own) for reply in found.get(at + 1, []))
        lines[at] = f"{line} => {answers}" if answers else line
    return "".join(f"{line}\n" for line in [*lines, f"* {text.splitlines()[-1]}"]).encode()


def judged(program, script):
    """Returns the instructions of the judge, on what a run of the script prints."""
    with tempfile.NamedTemporaryFile() as output:
        Path(output.name).write_bytes(printed(program, script))
        return instructions(program, script, "--judge", output.name)


@cache
def prepared(program, view, script):
    """Returns the script for a view: that of `--ask` for the judge, for whose plain run it is too."""
    return printed(program, script, "--ask") if view == "--judge" else script


@cache
def count(program, view, script):
    """Returns the instructions of a view of a script that is prepared for it."""
    if view == "--judge":
        return judged(program, script)
    if view == "--check":
        return instructions(program, answered(program, script), view)
    return instructions(program, script, *options(view), is_piped=view == "--interactive")


def later(program, view, short, long):
    """Returns the instructions of each line that only the longer script has, and their ratio to those of a plain run."""
    short, long = (prepared(program, view, script) for script in (short, long))
    more, plain = (count(program, it, long) - count(program, it, short) for it in (view, PLAIN))
    return more / (long.count(b"\n") - short.count(b"\n")), more / plain
