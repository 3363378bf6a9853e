"""What all modes have in common: how they read a script, how they end at a closed pipe, and which options go together."""

import os
import subprocess
import tempfile
from pathlib import Path
from xml.etree import ElementTree

import annotated
import explained

TOP = Path(__file__).resolve().parent.parent
REGION = b"JOB REGION BELOW=1\n"
SCRIPT = REGION + b"JOB GETMAIN R,LV=8,A=X\nJOB WHERE X => AT 00006000\n"
PRINTED = b"1 JOB REGION BELOW 1 ABOVE 0\n2 JOB RC 0\n3 JOB AT 00006000\nSTEP ENDED RC 0\n"
MOST_BYTES = 16_777_215
# At a terminal the program asks for each line, so that many short lines would be slow.
LONG_LINE = REGION + b"x" * (MOST_BYTES + 1)
LONG_LINES = REGION + 2 * (b"x" * (MOST_BYTES // 2) + b"\n")
OF_SCRIPT = ("", "--explain", "--leaks", "--json", "--page", "--strict", "--interactive", "--check", "--blank", "--ask", "--assemble", "--judge OUTPUT")
FOREIGN = {"X'0D'": b"* from Windows\r\n", "no UTF-8": b"* pr\xfcfung\n", "an escape": b"* \x1b[2J\n"}
# It shows the lowest place.
OF_LOWEST = "storage_areas_lie_low.job"
# With `--place high` these lines print something else, since an address is printed or named: WHERE prints one, REPORT MAP prints
# where pages are, and one SHOW is of a fixed address. These are the answers of the plain machine (`plain_emulator.py high`).
PLACED_HIGH = {
    "place_lengths_at_their_ends.job": {6: "AT 00006FF8", 8: "AT 00006FF0"},
    "pool_above_and_below.job": {6: "AT 01000060", 7: "AT 00006060"},
    "pool_cell_across_pages.job": {6: "AT 00007448", 8: "DATA +0000 00000000"},
    "pool_in_a_given_subpool.job": {8: "MAP 00006000 00001000 FREE / MAP 00007000 00001000 SP 3 OWNER SUB"},
    "pool_parts.job": {15: "AT 00007FE8", 16: "AT 00007FC8", 17: "AT 00007E68", 18: "AT 00006EA8"},
    "statements_with_all_their_operands.job": {4: "AT 00805000", 6: "AT 02FFF000", 8: "AT 00804000", 10: "AT 02FFFFF0"},
}
LINES_NOT_SERVED = 64_000
APART = (
    "--random 1 FILE",
    "--random 1 --place high",
    "--random 1 --check",
    "--lines 5",
    "--profile tasks",
    "--judge OUTPUT --place high",
    "--check --blank",
    "--check --color never",
    "--hide",
    "--format tap",
    "--blank --hide",
    "--explain --format text",
    "--random 1 --format junit",
    "--ask --explain",
    "--assemble --json",
    "--blank --strict",
    "--json --page",
    "--check --leaks",
    "--page --interactive",
    "--with FILE",
    "--with FILE --json",
    "--with FILE --check",
    "--page --with FILE --strict",
    "--page --with-schedule 1",
    "--schedule 1 --with-schedule 1",
    "--open",
    "--open --json",
)
TOGETHER = ("--json --explain", "--page --explain", "--page --strict", "--page --leaks", "--page --leaks --strict", "--strict --explain", "--leaks --explain", "--json --leaks", "--json --leaks --explain --strict", "--leaks --strict --place high", "--leaks --explain --strict --color never", "--json --strict", "--json --explain --strict", "--strict --place high", "--explain --color never", "--check --place low", "--check --hide --format tap --place low", "--interactive --color never", "--interactive --explain", "--interactive --strict", "--interactive --explain --strict --color always", "--interactive --leaks --explain", "--interactive --json --explain --strict")


class Modes:
    def __init__(self, program, folder):
        self.program, self.output = program, Path(folder) / "output"
        self.output.write_bytes(PRINTED)

    def words(self, mode):
        return [str(self.output) if word == "OUTPUT" else word for word in mode.split()]

    def run(self, mode, script, **how):
        ran = subprocess.run([self.program, *self.words(mode)], input=script, capture_output=True, timeout=600, **how)
        return ran.returncode, ran.stdout, ran.stderr.decode()

    def is_foreign(self, mode, line):
        """Whether a line that no script may have is the fault of each mode."""
        script = REGION + line + SCRIPT.removeprefix(REGION)
        status, out, err = self.run(mode, script)
        if mode.startswith("--judge"):
            self.output.write_bytes(b"1 JOB REGION BELOW 1 ABOVE 0\n2 JS02\nJOB FAULT RC 12\n")
            accepted = self.run(mode, script)
            self.output.write_bytes(PRINTED)
            return accepted == (0, b"ACCEPTED\n", "")
        wanted = {"--check": 1, "--interactive": 0}.get(mode, 12)
        return status == wanted and "-:2:" in err and ": JS02: " in err and b"\x1b" not in out

    def is_too_long(self, mode, script):
        status, out, err = self.run(mode, script)
        return (status, err.splitlines()[-1:]) == (16, ["mvsjob: script too long"])

    def has_no_input(self, mode):
        ran = subprocess.run(["sh", "-c", 'exec "$@" <&-', "sh", self.program, *self.words(mode)], capture_output=True, timeout=600)
        return ran.returncode == 16 and ran.stderr.decode().endswith("mvsjob: read failed\n")

    def ends_at_closed_pipe(self, words, script):
        """Whether the program ends in silence when nobody reads what it prints."""
        ours, theirs = os.pipe()
        os.close(ours)
        try:
            ran = subprocess.run([self.program, *words], input=script, stdout=theirs, stderr=subprocess.PIPE, timeout=600)
        finally:
            os.close(theirs)
        return (ran.returncode, ran.stderr) == (141, b"")


def reading(modes):
    for mode in OF_SCRIPT:
        for name, line in FOREIGN.items():
            yield f"{name}, {mode}", modes.is_foreign(mode, line)
        script = LONG_LINE if mode == "--interactive" else b"\n" * (MOST_BYTES + 1)
        yield f"too long, {mode}", modes.is_too_long(mode, script)
        yield f"no input, {mode}", modes.has_no_input(mode)
    yield "lines with a fault are too long together", modes.is_too_long("--interactive", LONG_LINES)


def pipes(modes):
    for mode in OF_SCRIPT:
        if mode != "--interactive":
            yield f"a closed pipe, {mode}", modes.ends_at_closed_pipe(modes.words(mode), SCRIPT.replace(b"00006000", b"00006008"))
    for words in ("--random 7 --lines 1000", "--help", "--version"):
        yield f"a closed pipe, {words}", modes.ends_at_closed_pipe(words.split(), b"")


def checks(modes):
    none = b"-: no answers to compare\n0 of 0 right, 0 wrong, 0 not answered\n"
    yield "a check of nothing", modes.run("--check", b"") == (1, none, "-:1:1: JS09: the script has no statement\n")
    yield "a check without answers", modes.run("--check", REGION) == (1, none, "")
    status, out, err = modes.run("--check", b"JOB REGION BELOW=1 => REGION BELOW 1 ABOVE 0\nJOB FOO\n")
    yield "a fault that no answer names", (status, out) == (12, counts(1, 0, 0)) and "-:2:5: JS03" in err
    named = b"JOB REGION BELOW=1 => REGION BELOW 1 ABOVE 0\nJOB FOO => JS03\n"
    status, out, err = modes.run("--check", named)
    yield "a fault that is named", (status, out) == (0, counts(2, 0, 0)) and "-:2:5: JS03" in err
    yield "a fault that is named, hidden", modes.run("--check --hide", named) == (0, counts(2, 0, 0), "")
    yield "a fault that is asked for", modes.run("--check", named.replace(b"=> JS03", b"=> ?")) == (1, b"-:2: not answered\n" + counts(1, 0, 1), "")
    yield "a fault that is asked for, hidden", modes.run("--check --hide", named.replace(b"=> JS03", b"=> ?"))[2] == ""
    status, out, err = modes.run("--check --hide", b"JOB REGION BELOW=1 => ?\nJOB FOO\n")
    yield "a fault after the last answer, hidden", (status, out) == (1, b"-:1: not answered\n" + counts(0, 0, 1)) and "-:2:5: JS03" in err
    status, out, err = modes.run("--check", b"JOB REGION BELOW=1 => \x1b]0;x\x07\n")
    yield "an answer with an escape", status == 1 and b"\x1b" not in out and "\x1b" not in err
    yield "a program without a statement", modes.run("--assemble", b"* nothing\n") == (12, b"", "-:2:1: JS09: the script has no statement\n")


def counts(right, wrong, missing):
    return f"{right} of {right + wrong + missing} right, {wrong} wrong, {missing} not answered\n".encode()


# Five answers, of which one is right, one wrong, one asked for and two are empty.
ANSWERED = b"""JOB REGION BELOW=1 => REGION BELOW 1 ABOVE 0
JOB GETMAIN RC,LV=9000,A=X   =>  RC <0>
JOB ATTACH TASK=S => ?
JOB REPORT SP =>
JOB RETURN =>   
* STEP ENDED RC 8
"""
TAP = """TAP version 13
1..6
ok 1 - line 1
not ok 2 - line 2
  ---
  message: |
    expected RC <0>, got RC 4
  ...
not ok 3 - line 3
  ---
  message: |
    not answered
  ...
not ok 4 - line 4
  ---
  message: |
    nothing after =>
  ...
not ok 5 - line 5
  ---
  message: |
    nothing after =>
  ...
ok 6 - line 6
# 2 of 6 right, 1 wrong, 3 not answered
"""
WRONG = ((2, "expected RC <0>, got RC 4"), (3, "not answered"), (4, "nothing after =>"), (5, "nothing after =>"))


def forms(modes):
    """The report of a check in each form, with what the run has hidden or not."""
    text = "".join(f"-:{line}: {message}\n" for line, message in WRONG).encode() + counts(2, 1, 3)
    hidden = text.replace(b"expected RC <0>, got RC 4", b"wrong")
    yield "a check, text", modes.run("--check", ANSWERED) == modes.run("--check --format text", ANSWERED) == (1, text, "")
    yield "a check, hidden", modes.run("--check --hide", ANSWERED) == (1, hidden, "")
    yield "a check, TAP", modes.run("--check --format tap", ANSWERED) == (1, TAP.encode(), "")
    yield "a check, TAP, hidden", modes.run("--check --hide --format tap", ANSWERED) == (1, TAP.replace("expected RC <0>, got RC 4", "wrong").encode(), "")
    status, out, _ = modes.run("--check --format junit", ANSWERED)
    suite = ElementTree.fromstring(out).find("testsuite")
    cases = [(int(case.get("name").removeprefix("line ")), case.find("failure")) for case in suite]
    yield "a check, JUnit", (status, suite.attrib, [line for line, _ in cases]) == (1, {"name": "-", "tests": "6", "failures": "4"}, [1, 2, 3, 4, 5, 6])
    yield "a check, JUnit, failures", tuple((line, failure.get("message")) for line, failure in cases if failure is not None) == WRONG
    yield "a check, JUnit, hidden", b"RC 4" not in modes.run("--check --hide --format junit", ANSWERED)[1]
    for form in ("tap", "junit"):
        status, out, _ = modes.run(f"--check --format {form}", REGION)
        yield f"no answers, {form}", status == 1 and out.count(b"no answers to compare") == 1 and (b"\n1..1\nnot ok 1 - answers\n" in out or b'tests="1" failures="1"' in out)
    high = ANSWERED.replace(b"JOB REPORT SP =>", b"JOB WHERE X => NO NAME")
    yield "a check, placed high", modes.run("--check --place high", high) == modes.run("--check", high)
    yield "a step that ends", modes.run("--check", REGION + b"JOB REGION BELOW=1 => STEP ENDED RC 0 / REGION BELOW 1 ABOVE 0\n") == (0, counts(1, 0, 0), "")
    yield "a line that prints nothing", modes.run("--check", b"* => nothing\n" + REGION + b"JOB FOO => JS03\nJOB RETURN => nothing\n* JOB FAULT RC 12\n")[:2] == (0, counts(4, 0, 0))


def named(modes):
    """The name of a script in a report: control characters are points, and in XML it is escaped."""
    with tempfile.TemporaryDirectory() as folder:
        path = Path(folder) / "a&<\x1b[2J\u009b\u00fc\">.job"
        path.write_bytes(REGION + b"JOB FOO => ?\n")
        shown = f"{folder}/a&<.[2J.\u00fc\">.job"
        status, out, _ = modes.run(f"--check --hide {path}", b"")
        yield "a name in a report", (status, out.decode().splitlines()[0]) == (1, f"{shown}:2: not answered")
        suite = ElementTree.fromstring(modes.run(f"--check --format junit {path}", b"")[1]).find("testsuite")
        yield "a name in JUnit's XML", suite.get("name") == suite[0].get("classname") == shown


def judgements(modes):
    of = lambda printed: (modes.output.write_bytes(printed), modes.run("--judge OUTPUT", SCRIPT))[1]
    yield "an output that is accepted", of(PRINTED) == (0, b"ACCEPTED\n", "")
    carriage = b"REFUSED\nline 1 of the output ends with X'0D0A', not with X'0A' as a run prints it\n"
    yield "an output from Windows", of(PRINTED.replace(b"\n", b"\r\n")) == (1, carriage, "")
    unended = b"REFUSED\nline 4 of the output, the last line, does not end with X'0A'\n"
    yield "an output without its last end", of(PRINTED[:-1]) == (1, unended, "")
    status, out, _ = of(PRINTED.replace(b"AT", b"\x1b[31mAT"))
    yield "an output with an escape", status == 1 and b".[31mAT" in out and b"\x1b" not in out
    modes.output.write_bytes(PRINTED)


def options(modes):
    for words in APART:
        status, out, err = modes.run(words.replace("FILE", "a.job"), SCRIPT)
        yield words, (status, out) == (16, b"") and err.startswith("error: the argument '") and "cannot be used with" in err + err.replace("can only be used with", "cannot be used with")
    for words in TOGETHER:
        yield words, modes.run(words, SCRIPT)[0] == (4 if "--leaks" in words else 0)


def unserved(modes):
    script, quarter = (REGION + b"JOB WHERE NOSUCH\n" * count for count in (LINES_NOT_SERVED, LINES_NOT_SERVED // 4))
    status, _, err = modes.run("--strict", script)
    yield f"{LINES_NOT_SERVED} lines that are not executed", status == 4 and err.count("NO NAME") == LINES_NOT_SERVED
    # It would be sixteen times if each of these lines led to another pass over the script.
    longer, shorter = explained.least_times(modes.program, (script, "--strict"), (quarter, "--strict"))
    yield "growth with lines that are not executed", longer <= 8 * shorter


def names(modes):
    status, _, err = modes.run("no\x1b[2Jsuch.job", b"")
    yield "a name with an escape", (status, err) == (16, "mvsjob: cannot open script\n    no.[2Jsuch.job: no such file\n")
    ran = subprocess.run([modes.program, b"pr\xfcfung.job"], capture_output=True, timeout=600)
    yield "a name that is not UTF-8", (ran.returncode, ran.stderr) == (16, b"mvsjob: cannot open script\n    FILE: the name is not UTF-8\n")
    yield "an output that is not there", modes.run("--judge nowhere", SCRIPT) == (16, b"", "mvsjob: cannot read output\n    nowhere: no such file\n")


def placed_high(program):
    """Each annotated script with the highest places, but for those that name a placement, and the one that shows the lowest place."""
    for case in annotated.all_scripts():
        if case.name != OF_LOWEST and not case.words:
            ran = subprocess.run([program, "--place", "high"], input=case.script(), capture_output=True, text=True, timeout=600)
            wanted = case.printed(PLACED_HIGH.get(case.name, ()))
            yield f"{case.name} placed high", ran.stdout.splitlines() == wanted


def results(program):
    with tempfile.TemporaryDirectory() as folder:
        modes = Modes(program, folder)
        groups = (reading, pipes, checks, forms, named, judgements, options, unserved, names)
        return [case for group in groups for case in group(modes)] + list(placed_high(program))
