"""The lessons, and the rules that they show.

Each lesson is a sheet (`lessons/NN_name.md`) and a solution (`lessons/NN_name.job`), in which ` => ` and the answers
follow the statements that the sheet asks for, as in tests/scripts. The sheet has the same script, with `?` for each answer.
Its task is a script with right answers and wrong statements (`lessons/tasks/NN_name.job`); `lessons/answers/NN_name.md` has a solution.
Each rule of docs/RULES.md is shown by an example or a lesson that is there and says so.
The commands of each sheet are run as a student types them. All answers are compared with those of the plain machine too.
"""

import os
import re
import shutil
import subprocess
import tempfile
from pathlib import Path

import annotated
import assembler
import plain_emulator
import what_if

TOP = Path(__file__).resolve().parent.parent
FOLDER = TOP / "lessons"


def solutions():
    return sorted(FOLDER.glob("*.job"))


def differences(program, text, *words):
    """What `--check` prints of a script, and its exit status."""
    ran = subprocess.run([program, "--check", *words], input=text.encode(), capture_output=True)
    return ran.stdout.decode(), ran.returncode


def counts(right, wrong=0, missing=0):
    """The last line of a check."""
    return f"{right} of {right + wrong + missing} right, {wrong} wrong, {missing} not answered\n"


def is_answered(program, path):
    """Whether a solution's statements print what it says."""
    text = path.read_text()
    return " => " in text and differences(program, text) == (counts(len(answered(text))), 0)


def is_reported(program, path):
    """Whether a wrong answer of a solution is reported, with its line, and nothing else is; and with `--hide` the line only."""
    lines = path.read_text().splitlines()
    number = next(k for k, line in enumerate(lines, 1) if " => " in line)
    statement, _, texts = lines[number - 1].partition(" => ")
    lines[number - 1] = f"{statement} => NOTHING OF THAT"
    text, last = "\n".join(lines), counts(len(answered(path.read_text())) - 1, 1)
    reported = differences(program, text) == (f"-:{number}: expected NOTHING OF THAT, got {texts}\n{last}", 1)
    return reported and differences(program, text, "--hide") == (f"-:{number}: wrong\n{last}", 1)


def blank(program, text):
    return subprocess.run([program, "--blank"], input=text.encode(), capture_output=True).stdout.decode()


def is_asked(program, path):
    """Whether the sheet has the script of the solution, without its answers, as `--blank` prints it."""
    text = path.read_text()
    wanted = re.sub(r"(?m) => .*$", " => ?", text)
    return blank(program, text) == wanted and f"```\n{wanted}```\n" in path.with_suffix(".md").read_text()


def answered(text):
    """The answers of a script."""
    return re.findall(r"(?m) => (.*)$", text)


def is_plain(text):
    """Whether the plain machine gives the answers of a script, the ends of steps left out."""
    lines = [re.sub(r" +=> ", " => ", line) for line in text.splitlines()]
    printed = plain_emulator.run("".join(f"{line.partition(' => ')[0]}\n" for line in lines)).splitlines()
    asked = [str(k) for k, line in enumerate(lines, 1) if " => " in line]
    wanted = [reply for k, line in enumerate(lines, 1) for reply in annotated.printed(k, line) if not reply.startswith("STEP")]
    return bool(asked) and [reply for reply in printed if reply.split(" ")[0] in asked] == wanted


class Desk:
    """A student's folder, with the lessons and the program."""

    def __init__(self, folder, program):
        self.folder = folder
        (folder / "bin").mkdir()
        (folder / "bin/mvsjob").symlink_to(Path(program).resolve())
        (folder / "bin/mvsjob-asm").symlink_to(assembler.CONVERTER)
        shutil.copytree(FOLDER, folder / "lessons")

    def typed(self, command):
        """What a command prints, and its exit status."""
        env = os.environ | {"PATH": f"{self.folder}/bin:{os.environ['PATH']}"}
        ran = subprocess.run(["bash", "-c", command], cwd=self.folder, env=env, capture_output=True, text=True)
        return ran.stdout, ran.returncode


def command(path, begin):
    """The command of a sheet that begins so."""
    found = [block.strip() for block in re.findall(r"(?ms)^```sh\n(.*?)^```$", path.with_suffix(".md").read_text())]
    return next(block for block in found if block.startswith(begin))


def filled(text, replies):
    """A script with these answers in place of its `?`."""
    left = iter(replies)
    return re.sub(r"(?m) => \?$", lambda _: f" => {next(left)}", text)


def asked_lines(text):
    return [number for number, line in enumerate(text.splitlines(), 1) if line.endswith(" => ?")]


def is_predicted(desk, path):
    """Whether a student's right answers pass, and wrong, missing and deleted ones do not, by the commands of the sheet."""
    copy, check = (command(path, begin) for begin in ("mvsjob --blank ", "mvsjob --check my.job"))
    mine, right = desk.folder / "my.job", answered(path.read_text())
    begun = desk.typed(copy) == ("", 0) and answered(mine.read_text()) == ["?"] * len(right)
    asked, n = mine.read_text(), len(right)
    lines = asked_lines(asked)

    def checked(replies):
        mine.write_text(filled(asked, replies))
        return desk.typed(check)

    missing = "".join(f"my.job:{line}: not answered\n" for line in lines)
    tried = [
        (["?"] * n, (missing + counts(0, 0, n), 1)),
        (["NOTHING", *right[1:]], (f"my.job:{lines[0]}: expected NOTHING, got {right[0]}\n{counts(n - 1, 1)}", 1)),
        (["", *right[1:]], (f"my.job:{lines[0]}: nothing after =>\n{counts(n - 1, 0, 1)}", 1)),
        ([*right[:-1], "?"], (f"my.job:{lines[-1]}: not answered\n{counts(n - 1, 0, 1)}", 1)),
        (right, (counts(n), 0)),
    ]
    return begun and all(checked(replies) == wanted for replies, wanted in tried)


def is_task(desk, path):
    """Whether the task of a sheet is not solved, and the solution among the answers has its texts and passes, by the commands of the sheet."""
    copy, check = (command(path, begin) for begin in ("cp lessons/tasks/", "mvsjob --check task.job"))
    task = (FOLDER / "tasks" / path.name).read_text()
    solution = re.search(r"(?s)\*\*Task\.\*\*.*?```\n(.*?)```\n", answers_of(path))[1]
    begun = f"```\n{task}```\n" in path.with_suffix(".md").read_text() and desk.typed(copy) == ("", 0) and desk.typed(check)[1] == 1
    (desk.folder / "task.job").write_text(solution)
    graded = desk.typed(f"lessons/grade lessons/tasks/{path.name} task.job")[1] == 0
    return begun and graded and is_plain(solution) and desk.typed(check) == (counts(len(answered(solution))), 0)


def answers_of(path):
    return (FOLDER / "answers" / path.with_suffix(".md").name).read_text()


def numbered(text, head):
    """The numbers of the list after a heading."""
    return re.findall(r"(?m)^(\d)\. ", re.search(rf"(?s)\*\*{head}\*\*\n\n(.*?)\n\n", text)[1])


def is_apart(path):
    """Whether a sheet has no answers, and its answers are those to its questions."""
    sheet = path.with_suffix(".md").read_text()
    questions = numbered(sheet, "Questions")
    return "Answers" not in sheet and "What it shows" not in sheet and numbered(answers_of(path), "Answers") == questions and 3 <= len(questions) <= 5


REFUSED = re.compile(r"\d+ \S+ (RC 4|NO CELL|ABEND .*|NOT RUN|NO NAME|ENDED)")


def reasons(program, path):
    """The replies of a solution's questions that are refused or end a task, each with its reasons."""
    numbers = {str(number) for number, line in enumerate(path.read_text().splitlines(), 1) if " => " in line}
    printed = subprocess.run([program, "--explain", path], capture_output=True, text=True).stdout
    found = [block.splitlines() for block in re.split(r"(?m)^(?=\d)", printed)]
    return [block for block in found if len(block) > 1 and block[0].split()[0] in numbers and REFUSED.fullmatch(block[0])]


def is_explained(program, path):
    """Whether the answers of a lesson show the reasons of each refusal that it asks for, as `--explain` prints them."""
    shown = re.search(r"(?s)\*\*Reasons\*\* .*?```\n(.*?)```\n", answers_of(path))
    wanted = reasons(program, path)
    blocks = [block.splitlines() for block in re.split(r"(?m)^(?=\d)", shown[1]) if block] if shown else []
    return len(blocks) == len(wanted) and all(len(one) > 1 and one[0] == other[0] and set(one) <= set(other) for one, other in zip(blocks, wanted))


def judged(desk):
    """What the judge finds for the outputs of its lesson, after the script was solved: the answers show it."""
    path = FOLDER / "74_judge.job"
    shutil.copy(path, desk.folder / "my.job")
    shown = re.search(r"(?ms)^```console\n(.*?)^```$", answers_of(path))[1]
    asked = command(path, "mvsjob --judge").splitlines()
    yield "74_judge.md, its commands", re.findall(r"(?m)^\$ (.*)$", shown) == asked
    for block in re.split(r"(?m)^\$ ", shown)[1:]:
        typed, _, printed = block.partition("\n")
        yield typed, desk.typed(typed)[0] == printed
    right = (FOLDER / "outputs/74_one.out").read_text()
    for name, text, found in (
        ("B over A", right.replace("00006F60", "00006F68"), "REFUSED\nline 5 "),
        ("C before A", judged_elsewhere(right), "ACCEPTED\n"),
    ):
        (desk.folder / "other.out").write_text(text)
        yield f"74_judge, {name}", desk.typed("mvsjob --judge other.out my.job")[0].startswith(found)
    solution = re.search(r"(?s)\*\*Task\.\*\*.*?```\n(.*?)```\n", answers_of(path))[1]
    (desk.folder / "task.job").write_text(solution)
    yield "74_judge, placed high", desk.typed("mvsjob --check --place high task.job")[1] == 0


def judged_elsewhere(right):
    """An output of the lesson of the judge with B at the beginning of the page, so that C fits."""
    changed = {"5": "AT 00006000", "7": "RC 0", "8": "SP 0 OWNED PLAIN 4096 POOL 0", "10": "DATA +0000 0000000000000000"}
    lines = [f"{line.split()[0]} JOB {changed[line.split()[0]]}" if line.split()[0] in changed else line for line in right.splitlines()]
    return "".join(f"{line}\n" for line in lines).replace("STEP ENDED RC 8", "STEP ENDED RC 0")


def converted(desk):
    """Whether the lesson of a source shows the source, its script is what the command of the sheet makes, and its answers hold."""
    path, source = FOLDER / "75_source.job", (FOLDER / "75_source.asm").read_text()
    sheet, added = path.with_suffix(".md").read_text(), re.compile(r"(?m)^LISTING (WHERE|REPORT) .*\n")
    made = desk.typed(command(path, "mvsjob-asm"))
    script = added.sub("", re.sub(r"(?m) => .*$", "", path.read_text()))
    yield "75_source.md, its source", f"```\n{source}```\n" in sheet
    yield "75_source.md, its script", made == ("", 0) and (desk.folder / "source.job").read_text() == script
    desk.typed("sed s/LV=112/LV=120/ lessons/75_source.asm > right.asm")
    right = desk.typed("mvsjob-asm --region 12K --repeat NEXT=3 right.asm")[0]
    solution = re.search(r"(?s)\*\*Task\.\*\*.*?```\n(.*?)```\n", answers_of(path))[1]
    yield "75_source.md, its source corrected", right == added.sub("", re.sub(r"(?m) => .*$", "", solution))
    runs = desk.typed("mvsjob-asm --region 12K --repeat NEXT=100 lessons/75_source.asm | mvsjob | grep ABEND")[0]
    yield "75_source.md, 68 times", runs == f"{4 + 2 * 68} LISTING ABEND S878\n"
    yield "75_source.md, its line that needs attention", re.findall(r"(?m)^\*\? (\d+): ", desk.typed("mvsjob-asm lessons/75_source.asm")[0]) == ["12"]


def grades(desk):
    """What lessons/grade prints of a class: right answers, a `?` that is left, and another script. lessons/TEACHING.md shows it."""
    lesson, task = "lessons/42_leak.job", "lessons/tasks/42_leak.job"
    right, asked = (desk.folder / lesson).read_text(), (desk.folder / task).read_text()
    handed_in = {
        "anna/my.job": right,
        "ben/my.job": right.replace("=> ABEND S878", "=> ?").replace("=> RC 4", "=> RC 0"),
        "carl/my.job": right.replace("BELOW=1", "BELOW=2"),
        "anna/task.job": asked.replace("W RETURN", "W FREEMAIN RU,LV=3000,A=BUF\nW RETURN", 1),
        "ben/task.job": asked,
        "dora/task.job": asked.replace("W RETURN", "W FREEMAIN RU,LV=3000,A=BUF\nW RETURN", 1) + "GETMAIN\n",
        "carl/task.job": asked.replace("PLAIN 0", "PLAIN 3000"),
    }
    for name, text in handed_in.items():
        (desk.folder / name).parent.mkdir(exist_ok=True)
        (desk.folder / name).write_text(text)
    guide = (FOLDER / "TEACHING.md").read_text()
    of_lesson, of_task = re.search(r"(?m)^```\n(lessons/grade .*)\n(lessons/grade .*)\n```$", guide).groups()
    shown = re.search(r"(?ms)^```\n(anna/.*?)^```$", guide)[1]
    graded = f"anna/task.job: {counts(3)}ben/task.job: {counts(1, 2).strip()}; not lines 5 7\ncarl/task.job: not a copy: other answers\n"
    graded += "dora/task.job: a statement has a fault\n"
    yield "grade, a lesson", desk.typed(of_lesson) == (shown, 1)
    yield "grade, a task", desk.typed(of_task) == (graded, 1)
    yield "grade, all right", desk.typed(f"lessons/grade {lesson} anna/my.job") == (f"anna/my.job: {counts(5)}", 0)
    yield "grade, no such lesson", desk.typed("lessons/grade lessons/99.job anna/my.job") == ("", 16)


def rules():
    """Each rule: its number, and the example or lesson beside it."""
    for line in (TOP / "docs/RULES.md").read_text().splitlines():
        cells = [cell.strip() for cell in line.split("|")]
        if len(cells) == 7 and cells[1].isdigit():
            yield cells[1], cells[4]


def cited(path):
    """The numbers of the rules that a lesson says it shows."""
    return re.search(r"(?m)^\*\*Rules\*\* ([\d, ]+) of ", path.read_text())[1].split(", ")


def is_shown(number, shown):
    if not re.fullmatch(r"\d\.\d", shown):
        return (TOP / f"examples/{shown}.job").is_file()
    sheets = list(FOLDER.glob(f"{shown.replace('.', '')}_*.md"))
    return len(sheets) == 1 and number in cited(sheets[0])


def results(program):
    for path in solutions():
        yield path.name, is_answered(program, path)
        yield f"{path.name}, an answer changed", is_reported(program, path)
        yield f"{path.stem}.md", is_asked(program, path)
        yield f"{path.stem}.md, its answers apart", is_apart(path)
        yield f"{path.stem}.md, its reasons", is_explained(program, path)
        yield f"{path.name}, by the plain machine", is_plain(path.read_text())
    with tempfile.TemporaryDirectory() as name:
        desk = Desk(Path(name), program)
        for path in solutions():
            yield f"{path.stem}.md, as a student", is_predicted(desk, path)
            yield f"{path.stem}.md, its task", is_task(desk, path)
        yield from judged(desk)
        yield from converted(desk)
        yield from grades(desk)
    yield from what_if.results(program)
    yield "a task for each lesson", [path.name for path in solutions()] == sorted(path.name for path in FOLDER.glob("tasks/*.job"))
    for case in annotated.all_scripts():
        yield f"{case.name} checked", differences(program, case.text, *case.words) == (counts(len(answered(case.text)) + 1), 0)
    found = list(rules())
    numbers = [number for number, _ in found]
    yield "rules", numbers == [str(k) for k in range(1, len(numbers) + 1)]
    for number, shown in found:
        yield f"rule {number}", is_shown(number, shown)
    taught = {number for path in FOLDER.glob("[0-9]*.md") for number in cited(path)}
    yield "every rule has a lesson", taught == set(numbers)
