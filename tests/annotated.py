"""The scripts of tests/scripts: each statement is followed by what it prints.

` => ` is followed by the texts that a statement prints, separated by ` / `. Each is printed after the line's number and the
statement's task. A fault and a task that ended with another have only the number, and the end of a step has neither.
A first line `* --place high ..` has the options of the command line too. The last line is a comment, the
last line that is printed, and no part of the script.
"""

import re
from pathlib import Path

FOLDER = Path(__file__).with_name("scripts")


def printed(number, line):
    """What the statement of a line prints, as it says itself."""
    statement, _, texts = line.partition(" => ")
    return [printed_text(number, statement.split(" ")[0], text) for text in texts.split(" / ")] if texts else []


def printed_text(number, task, text):
    if text.startswith("STEP ENDED"):
        return text
    if text.startswith("JS0") or " ENDED WITH " in text:
        return f"{number} {text}"
    return f"{number} {task} {text}"


class Annotated:
    def __init__(self, path):
        self.text = path.read_text()
        *self.lines, last = self.text.splitlines()
        self.name, self.end = path.name, last.removeprefix("* ")
        self.statements = [line.partition(" => ")[0] for line in self.lines]
        placed = re.match(r"\* (--place) (low|high)\b", self.lines[0])
        self.words = placed.groups() if placed else ()

    def script(self):
        return "".join(f"{statement}\n" for statement in self.statements)

    def printed(self, others=()):
        """What is printed, where some lines, by their numbers, are answered otherwise than the script says."""
        lines = [f"{self.statements[k - 1]} => {others[k]}" if k in others else said for k, said in enumerate(self.lines, 1)]
        return [line for k, said in enumerate(lines, 1) for line in printed(k, said)] + [self.end]


def all_scripts():
    return [Annotated(path) for path in sorted(FOLDER.glob("*.job"))]
