"""The questions "what if" of the lessons: what a changed script prints, by the program and by the plain machine.

Each line of tests/what_if.txt has a lesson, the statements that are changed (`-`: left out), and after `->` what lines then print.
A line that begins with `high` after the lesson is of a run with `--place high`.
"""

import re
import subprocess
from dataclasses import dataclass
from pathlib import Path

import plain_emulator

TOP = Path(__file__).resolve().parent.parent
CASES = Path(__file__).with_name("what_if.txt")


@dataclass
class Case:
    lesson: str
    place: str
    changes: dict
    wanted: list

    def script(self):
        path = next((TOP / "lessons").glob(f"{self.lesson}_*.job"))
        statements = [line.partition(" => ")[0].rstrip() for line in path.read_text().splitlines()]
        return "".join(f"{self.changes.get(k, line)}\n" for k, line in enumerate(statements, 1))

    def is_printed(self, printed):
        """Whether the wanted lines, which have no task, are among those that are printed."""
        lines = [re.sub(r"^(\d+) \S+ ", r"\1 ", line) for line in printed.splitlines()] + printed.splitlines()
        return all(line in lines for line in self.wanted)

    def holds(self, program):
        script = self.script()
        ran = subprocess.run([program, "--place", self.place], input=script.encode(), capture_output=True)
        return self.is_printed(ran.stdout.decode()) and ran.stdout.decode() == plain_emulator.run(script, self.place)


def cases():
    for line in CASES.read_text().splitlines():
        lesson, high, changes, wanted = re.fullmatch(r"(\d\d): (high )?(.*) -> (.*)", line).groups()
        changed = dict(change.split("=", 1) for change in changes.split(" & "))
        statements = {int(number): "*" if text == "-" else text for number, text in changed.items()}
        yield line, Case(lesson, "high" if high else "low", statements, wanted.split(" & "))


def results(program):
    for name, case in cases():
        yield f"what if, {name}", case.holds(program)
