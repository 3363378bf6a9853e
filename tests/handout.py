"""The examples of docs/SCRIPT.md: each line that has `=>` is run, and its text compared."""

import re
from pathlib import Path

import annotated

TOP = Path(__file__).resolve().parent.parent
PREFIX = "JOB REGION BELOW=1\nJOB GETMAIN RU,LV=8,A=X\n"


def blocks():
    """The scripts of the document with `=>`, each a list of lines, and the text before each."""
    text = (TOP / "docs/SCRIPT.md").read_text()
    for match in re.finditer(r"^```\n(.*?)^```\n", text, re.M | re.S):
        if re.search(r"(?m)^[A-Z]\w* .*=>", match[1]):
            before = text[: match.start()].rstrip().rsplit("\n", 1)[-1]
            yield before, match[1].splitlines()


def parted(line):
    statement, _, said = line.partition("=>")
    return statement.rstrip(), said.strip()


def wanted(number, statement, said):
    """The lines that a statement prints, by the text after its `=>`; None where the document shows them elsewhere."""
    if said.endswith("lines:"):
        return None
    task = statement.split(" ")[0]
    if " / " in said:
        return annotated.printed(number, f"{statement} => {said}")
    texts = re.split(r" , then ", said)
    return [t.removeprefix("the line ") if t.startswith("the line ") else f"{number} {task} {t}" for t in texts]


def as_written(run, lines):
    """Whether a whole script prints the texts after its lines."""
    printed = run("\n".join(lines) + "\n")
    for number, line in enumerate(lines, 1):
        statement, said = parted(line)
        if said and wanted(number, statement, said) not in (None, [p for p in printed if p.split(" ")[0] == str(number)]):
            return False
    return True


def alone(run, line):
    """Whether a line prints the text after it, as the third line of a script or as its first."""
    statement, said = parted(line)
    number, before = (1, "") if " REGION " in statement else (3, PREFIX)
    printed = run(before + line + "\n")
    return [p for p in printed if p.split(" ")[0] == str(number)] == wanted(number, statement, said)


def faults(run):
    """The table of faults as second lines."""
    text = (TOP / "docs/SCRIPT.md").read_text()
    for line, said in re.findall(r"^\| `(JOB [^`]*)` \| `(2 JS\d\d)` \|$", text, re.M):
        yield line, run(f"JOB REGION BELOW=1\n{line}\n")[-2] == said


def results(run):
    found = list(faults(run))
    for before, lines in blocks():
        several = re.search(r"\((two|three|four) scripts\)", before) or all(" REGION " in line for line in lines)
        if several:
            found += [(line, alone(run, line)) for line in lines]
        else:
            found.append((lines[0] + " ..", as_written(run, lines)))
    return found
