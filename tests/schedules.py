"""`--schedules` and `--schedule`: the orders of the tasks of a script, beside an enumeration over the plain machine.

The plain enumeration runs each beginning of an order from the start of the step. It knows nothing of the program's search.
"""

import json
import random
import subprocess
import tempfile
from collections import Counter
from dataclasses import dataclass
from functools import partial
from math import factorial, prod
from pathlib import Path
from typing import Callable

from cases import each, seeds, whole
from plain_machine import Machine

TOP = Path(__file__).resolve().parent.parent
SCRIPTS = 500
WIDE = 30  # the column in which answers begin, unless a statement is longer
TASKS, AREAS = ["JOB", "T1", "T2"], ["X", "Y"]


# ---- the plain enumeration


@dataclass
class Statement:
    """A statement of a step: the number of its line, its task, its words, the names that it needs, and what it requests of a machine."""

    line: int
    task: str
    words: str
    names: list
    act: Callable

    def text(self):
        return f"{self.task} {self.words}"


@dataclass
class Step:
    """A step of a script: the line of its REGION statement, its pages, its statements, and whether areas are placed high."""

    line: int
    pages: int
    statements: list
    high: bool = False

    def region(self):
        return f"JOB REGION BELOW={self.pages}"

    def replay(self, order):
        """The machine after statements in an order, and what each printed."""
        machine = Machine("JOB", self.pages, high=self.high)
        return machine, [machine.says(it.task, it.names, lambda: it.act(machine)) for it in order]

    def schedules(self, begun=()):
        """The schedules that begin so: the statements in their order, and what each printed, which is nothing if it is not reached."""
        machine, printed = self.replay(begun)
        left = [it for it in self.statements if it not in begun]
        ready = [it for k, it in enumerate(left) if it.task in machine.tasks and all(other.task != it.task for other in left[:k])]
        if not ready:
            yield [*begun, *left], printed + [[]] * len(left)
        for it in ready:
            yield from self.schedules((*begun, it))

    def orders(self):
        """The number of orders that keep the order of each task."""
        counts = Counter(it.task for it in self.statements)
        return factorial(len(self.statements)) // prod(factorial(count) for count in counts.values())


def shown(statement, printed):
    """An answer on one line, without the number and the task."""
    if not printed:
        return "not reached"
    first, *others = printed
    return " / ".join([first.removeprefix(f"{statement.task} "), *others])


def counted(count, what="schedule"):
    return f"{count} {what}{'' if count == 1 else 's'}"


def outcomes(step, found):
    """How many outcomes some schedules have: the answers of all statements of the step, in the order of the script."""
    return len({tuple(shown(it, printed[order.index(it)]) for it in step.statements) for order, printed in found})


def rows(step, found):
    """Of each statement the answers that occur: the text of each, the number of schedules, and the first of these."""
    for statement in step.statements:
        answers = {}
        for order, printed in found:
            text = shown(statement, printed[order.index(statement)])
            count, first = answers.get(text, (0, [step.line, *(it.line for it in order)]))
            answers[text] = count + 1, first
        yield statement, answers


def table(step, found):
    """What `--schedules` prints of a step."""
    for statement, answers in rows(step, found):
        (text, (count, _)), *others = answers.items()
        line = f"{statement.line} {statement.text():{WIDE}} {text} in {count} of {counted(len(found))}"
        yield line + "".join(f"; {text} in {count}, first: {' '.join(map(str, first))}" for text, (count, first) in others)
    yield f"{counted(len(found))}, {counted(outcomes(step, found), 'outcome')}"


def status(step, found):
    return 1 if any(len(answers) > 1 for _, answers in rows(step, found)) else 0


def json_table(step, found):
    for statement, answers in rows(step, found):
        listed = [{"text": text, "schedules": count, "first": first} for text, (count, first) in answers.items()]
        yield {"event": "answers", "line": statement.line, "task": statement.task, "answers": listed}
    yield {"event": "schedules", "line": step.line, "schedules": len(found), "outcomes": outcomes(step, found), "whole": True}


# ---- random scripts


def obtain(rng, task):
    name, length, number = rng.choice(AREAS), rng.choice([16, 4096, 4096]), rng.choice([0, 5])
    return f"GETMAIN RC,LV={length},A={name},SP={number}", [], lambda machine: machine.obtain(task, "RC", name, length, None, number, conditional=True)


def release(rng, task):
    name, number = rng.choice(AREAS), rng.choice([0, 5])
    return f"FREEMAIN RC,LV=16,A={name},SP={number}", [name], lambda machine: machine.release(task, "RC", [(machine.place((name, 0)), 16)], number, True)


def where(rng, task):
    name = rng.choice(AREAS)
    return f"WHERE {name}", [name], lambda machine: f"AT {machine.names[name][0]:08X}"


def show(rng, task):
    name = rng.choice(AREAS)
    return f"SHOW {name},2", [name], lambda machine: machine.show(machine.place((name, 0)), 2)


def put(rng, task):
    name = rng.choice(AREAS)
    return f"PUT {name},X'{ord(task[-1]):02X}'", [name], lambda machine: machine.put(machine.place((name, 0)), [ord(task[-1])])


def report(rng, task):
    return "REPORT SP", [], lambda machine: machine.report_subpools(task)


def finish(rng, task):
    return "RETURN", [], lambda machine: machine.finish(task)


KINDS = (obtain, obtain, obtain, release, release, where, show, put, report, finish)


def attach(rng, task, name):
    given = rng.random() < 0.3
    words = f"ATTACH TASK={name}" + (",GSPV=5" if given else ",SHSPL=(5)") + ("" if rng.random() < 0.5 else ",SZERO=NO")
    zero = not words.endswith("SZERO=NO")
    return words, [], lambda machine: machine.attach(task, name, [5] if given else [], [] if given else [5], zero)


def small(seed):
    """A step with at most eight statements of at most three tasks."""
    rng = random.Random(seed)
    made = [(task, *rng.choice(KINDS)(rng, task)) for task in rng.choices(TASKS, k=rng.randint(3, 5))]
    at = sorted(rng.choices(range(len(made) + 1), k=2))
    made.insert(at[0], ("JOB", *attach(rng, "JOB", "T1")))
    mother = rng.choice(["JOB", "T1"])
    made.insert(at[1] + 1, (mother, *attach(rng, mother, "T2")))
    return Step(1, rng.randint(1, 2), [Statement(k, *it) for k, it in enumerate(made, 2)], seed % 2 == 1)


def script(step):
    return "".join(f"{line}\n" for line in [step.region(), *(it.text() for it in step.statements)])


# ---- the program


def called(program, text, *words):
    ran = subprocess.run([program, *words], input=text.encode(), capture_output=True, timeout=600)
    return ran.returncode, ran.stdout.decode(), ran.stderr.decode()


def printed_in_order(step, order):
    """What a run of the statements in an order prints, and its exit status."""
    machine, printed = step.replay(order)
    lines = [f"{step.line} JOB REGION BELOW {step.pages} ABOVE 0"]
    lines += [f"{it.line} {line}" for it, texts in zip(order, printed) for line in texts]
    return (8 if machine.some_abend else 0), "".join(f"{line}\n" for line in [*lines, f"STEP ENDED RC {8 if machine.some_abend else 0}"]), ""


def agrees(program, seed):
    """Whether the table of a random script is that of the plain enumeration, and a schedule of it prints what the plain machine prints."""
    step = small(seed)
    found = list(step.schedules())
    place = ("--place", "high" if step.high else "low")
    wanted = status(step, found), "".join(f"{line}\n" for line in table(step, found)), ""
    if called(program, script(step), "--schedules", *place) != wanted:
        return False
    found_json = called(program, script(step), "--schedules", "--json", *place)[1]
    if [json.loads(line) for line in found_json.splitlines()] != list(json_table(step, found)):
        return False
    order, _ = random.Random(seed).choice(found)
    numbers = ",".join(str(it.line) for it in order)
    return called(program, script(step), "--schedule", f"{step.line},{numbers}", *place) == printed_in_order(step, order)


def stops(program, seed):
    """Whether the table of the first schedules is that of these only, and `--most` of all of them is the whole table."""
    step = small(seed)
    found = list(step.schedules())
    place = ("--place", "high" if step.high else "low")
    whole_table = called(program, script(step), "--schedules", *place)
    if called(program, script(step), "--schedules", "--most", str(len(found)), *place) != whole_table:
        return False
    most = random.Random(seed).randint(1, len(found))
    code, printed, err = called(program, script(step), "--schedules", "--most", str(most), *place)
    if most == len(found):
        return (code, printed, err) == whole_table
    *lines, _ = table(step, found[:most])
    foot = f"stopped after {counted(most)} of at most {step.orders()} orders; {counted(outcomes(step, found[:most]), 'outcome')} so far"
    return (code, printed, err) == (2, "".join(f"{line}\n" for line in [*lines, foot]), "")


# ---- examples

RACE = """\
JOB REGION BELOW=2
JOB GETMAIN RU,LV=16,A=X,SP=5
JOB ATTACH TASK=A,SHSPL=(5)
JOB FREEMAIN RC,LV=16,A=X,SP=5
A FREEMAIN RC,LV=16,A=X,SP=5
A RETURN
"""
RACE_TABLE = """\
2 JOB GETMAIN RU,LV=16,A=X,SP=5  RC 0 in 3 of 3 schedules
3 JOB ATTACH TASK=A,SHSPL=(5)    ATTACHED in 3 of 3 schedules
4 JOB FREEMAIN RC,LV=16,A=X,SP=5 RC 0 in 1 of 3 schedules; RC 4 in 2, first: 1 2 3 5 4 6
5 A FREEMAIN RC,LV=16,A=X,SP=5   RC 4 in 1 of 3 schedules; RC 0 in 2, first: 1 2 3 5 4 6
6 A RETURN                       ENDED in 3 of 3 schedules
3 schedules, 2 outcomes
"""
WAITING = """\
JOB REGION BELOW=1

* the subtask ends before it is needed
JOB ATTACH TASK=A
A RETURN
A WHERE X
"""
PLACES = """\
JOB REGION BELOW=2
JOB ATTACH TASK=A
JOB GETMAIN RU,LV=16,A=X
A GETMAIN RU,LV=16,A=Y
JOB WHERE X
JOB REPORT MAP
"""
REFUSED = {
    "2,3,4,5,6": "line 2 is not a REGION statement, with which a step begins",
    "9": "line 9 is not a REGION statement, with which a step begins",
    "1,2,3,4,5": "line 6 is missing",
    "1,2,3,4,5,6,6": "line 6 is there twice",
    "1,2,2,3,4,5,6": "line 2 is there twice",
    "1,2,3,7,4,5,6": "line 7 is not a statement of the step",
    "1,3,2,4,5,6": "line 3 comes before line 2 of the same task",
    "1,2,3,4,6,5": "line 6 comes before line 5 of the same task",
    "1,2,5,3,4,6": "the task of line 5 is not active then",
    "1 2 3 4 5 six": "expected the numbers of lines, with commas between them",
    "99999999999": "expected the numbers of lines, with commas between them",
    ",": "there is no line in the order",
}


def refused(program, text, order, why):
    return called(program, text, "--schedule", order) == (16, "", f"mvsjob: --schedule: {why}\n")


def in_order(text, order):
    """A script with its statements in an order, each on its own."""
    lines = text.splitlines()
    return "".join(f"{lines[number - 1]}\n" for number in order)


def renumbered(printed, order):
    """What a run of the statements in an order prints, with the numbers of the script."""
    words = [line.partition(" ") for line in printed.splitlines()]
    return "".join(f"{order[int(number) - 1]} {rest}\n" if number.isdigit() else f"{number} {rest}\n" for number, _, rest in words)


def race(program):
    yield "a table", called(program, RACE, "--schedules") == (1, RACE_TABLE, "")
    for order, why in REFUSED.items():
        yield f"order {order}", refused(program, RACE, order, why)
    order = [1, 2, 3, 5, 4, 6]
    given = ",".join(map(str, order))
    plain = called(program, in_order(RACE, order))
    yield "a schedule", called(program, RACE, "--schedule", given) == (plain[0], renumbered(plain[1], order), "")
    yield "a schedule with blanks", called(program, RACE, "--schedule", given.replace(",", " ")) == called(program, RACE, "--schedule", given)
    yield "its own order", called(program, RACE, "--schedule", "1,2,3,4,5,6") == called(program, RACE)
    for words in (["--explain"], ["--leaks"], ["--strict"], ["--explain", "--leaks", "--strict"], ["--json"], ["--json", "--explain"], ["--page"], ["--color", "always"]):
        own = called(program, RACE, *words, "--schedule", "1,2,3,4,5,6")
        yield f"its own order with {' '.join(words)}", own == called(program, RACE, *words)
    explained = called(program, RACE, "--explain", "--schedule", given)[1]
    yield "an explanation with the numbers of the script", "4 JOB RC 4\n" in explained and "in line 5" in explained
    numbers = [json.loads(line).get("line") for line in called(program, RACE, "--json", "--schedule", given)[1].splitlines()]
    yield "JSON with the numbers of the script", [number for number in numbers if number] == order


def others(program):
    yield "a statement that is not reached", called(program, WAITING, "--schedules") == (
        0,
        "4 JOB ATTACH TASK=A              ATTACHED in 1 of 1 schedule\n5 A RETURN                       ENDED in 1 of 1 schedule\n6 A WHERE X                      not reached in 1 of 1 schedule\n1 schedule, 1 outcome\n",
        "",
    )
    yield "comments keep their places", called(program, WAITING, "--schedule", "1,4,5,6") == called(program, WAITING)
    code, printed, _ = called(program, PLACES, "--schedules")
    yield "answers with addresses", code == 1 and "AT 00006000 in 3 of 4 schedules; AT 00006010 in 1, first: 1 2 4 3 5 6" in printed
    code, printed, _ = called(program, PLACES, "--schedules", "--ignore-addresses")
    yield "answers without addresses", code == 0 and "WHERE X                    AT in " in printed and "REPORT MAP                 MAP in " in printed
    two = RACE + RACE
    code, printed, _ = called(program, two, "--schedules")
    yield "two steps", code == 1 and printed.count("\n3 schedules, 2 outcomes\n") == 2 and "first: 7 8 9 11 10 12" in printed
    other = called(program, two, "--schedule", "7,8,9,11,10,12")[1]
    yield "a schedule of the second step", other.startswith(called(program, RACE)[1].rpartition("STEP")[0]) and "11 A RC 0\n10 JOB RC 4\n" in other
    yield "an order over two steps", refused(program, two, "1,2,3,4,5,6,7", "line 7 is not a statement of the step")
    for words in (["--schedules"], ["--schedule", "1,2"]):
        fault = called(program, "JOB REGION BELOW=1\nJOB FOO\n", *words)
        yield f"a fault with {words[0]}", fault[0] == 12 and fault[1] == "" and fault[2].startswith("-:2:")
    yield "an empty script", called(program, "", "--schedules")[:2] == (12, "")
    yield "most of one", called(program, RACE, "--schedules", "--most", "1")[:2] == (2, RACE_ONE)
    for words in (["--schedules", "--explain"], ["--schedules", "--schedule", "1"], ["--schedules", "--page"], ["--schedule", "1", "--check"], ["--most", "5"], ["--ignore-addresses"], ["--with-schedule", "1"], ["--page", "--with-schedule", "1"], ["--page", "--strict", "--with", "FILE", "--with-schedule", "1"]):
        code, printed, said = called(program, RACE, *words)
        yield f"{' '.join(words)} is refused", (code, printed) == (16, "") and said.startswith("error: the argument '")
    for most in ("0", "1000000001", "x"):
        yield f"--most {most} is refused", called(program, RACE, "--schedules", "--most", most)[0] == 16


RACE_ONE = """\
2 JOB GETMAIN RU,LV=16,A=X,SP=5  RC 0 in 1 of 1 schedule
3 JOB ATTACH TASK=A,SHSPL=(5)    ATTACHED in 1 of 1 schedule
4 JOB FREEMAIN RC,LV=16,A=X,SP=5 RC 0 in 1 of 1 schedule
5 A FREEMAIN RC,LV=16,A=X,SP=5   RC 4 in 1 of 1 schedule
6 A RETURN                       ENDED in 1 of 1 schedule
stopped after 1 schedule of at most 10 orders; 1 outcome so far
"""


def pages(program):
    """Two schedules side by side on one page: the given order or that of the script, and then the same of the other script."""
    with tempfile.TemporaryDirectory() as folder:
        path = Path(folder) / "race.job"
        path.write_text(RACE)
        code, page, err = called(program, "", "--page", "--schedule", "1,2,3,5,4,6", "--with", str(path), str(path))
        first, cut, second = page.partition('<hr id="with">\n')
        alone = called(program, "", "--page", "--schedule", "1,2,3,5,4,6", str(path))
        yield "a page of two schedules", (code, first, err) == alone and cut != ""
        yield "the second run in its own order", second != "" and called(program, "", "--page", str(path))[1].endswith(second)
        given = ["--with", str(path), "--with-schedule", "1,2,3,5,6,4", str(path)]
        wanted = called(program, "", "--page", "--schedule", "1,2,3,5,6,4", str(path))[1]
        for words in (["--schedule", "1,2,3,5,4,6"], []):
            name = "--schedule and --with-schedule" if words else "--with-schedule"
            code, page, err = called(program, "", "--page", *words, *given)
            first, cut, second = page.partition('<hr id="with">\n')
            yield f"{name}: the first run", cut != "" and (code, first, err) == called(program, "", "--page", *words, str(path))
            yield f"{name}: the second run", second != "" and wanted.endswith(second)
        low = called(program, "", "--page", *given)[1].partition('<hr id="with">\n')[2]
        high = called(program, "", "--page", "--place", "high", *given)[1].partition('<hr id="with">\n')[2]
        yield "--with-schedule: both runs with the same placement", low != high and called(program, "", "--page", "--place", "high", "--schedule", "1,2,3,5,6,4", str(path))[1].endswith(high)
        other = Path(folder) / "other.job"
        for text, order, why in ((RACE, "1,3,2", "line 3 comes before line 2 of the same task"), ("JOB FOO\n", "1", "line 1 has a fault"), (RACE, "x", "expected the numbers of lines, with commas between them")):
            other.write_text(text)
            yield f"--with-schedule: {why}", called(program, "", "--page", "--with", str(other), "--with-schedule", order, str(path)) == (16, "", f"mvsjob: --with-schedule: {why}\n")
        code, page, err = called(program, "", "--page", "--with", f"{folder}/none", "--with-schedule", "1", str(path))
        yield "--with-schedule: no such file", (code, page) == (16, "") and err.startswith("mvsjob: cannot read the second script\n")
        code, page, err = called(program, "", "--page", "--with", folder, "--with-schedule", "1", str(path))
        yield "--with-schedule: a directory", (code, page) == (16, "") and err.startswith("mvsjob: cannot read the second script\n")
        other.write_text("JOB FOO\n")
        code, page, err = called(program, "", "--page", "--with", str(path), "--with-schedule", "1,2,3,4,5,6", str(other))
        yield "--with-schedule: a fault in the first script", code == 12 and err.startswith(f"{other}:1:") and page.count('<hr id="with">') == 1


def results(program):
    return [case for group in (race, others, pages) for case in group(program)]


def groups(program):
    yield "schedules", whole(results, program)
    yield "schedules of random scripts", each(partial(agrees, program), range(SCRIPTS), str, chunksize=10)
    yield "first schedules of random scripts", each(partial(stops, program), seeds(100), str, chunksize=5)
