"""`--interactive`, and a run from a terminal to a terminal: a line with a fault is reported and skipped, and the job continues.

Scripts with faulty lines among their statements print what the plain machine prints of the scripts without them. The faulty lines
are those that were worked out by hand (faults.py).
"""

import os
import pty
import random
import re
import select
import subprocess
import termios
import time

import faults
import random_scripts

BEGUN = "JOB REGION BELOW 1 ABOVE 0"
TYPED = [
    "JOB GETMAIN R,LV=8,A=X",
    "JOB REGION BELOW=1",
    "JOB GETMIAN R,LV=8,A=X",
    "",
    "JOB WHERE X",
    "JOB WHERE" + 300 * " ",
    "JOB RETURN",
]
ASKED = (
    "1> -:1:5: JS09: the first statement must be REGION\n",
    "1> 2> -:2:5: JS03: unknown operation GETMIAN\n    JOB GETMIAN R,LV=8,A=X\n        ^^^^^^^ did you mean GETMAIN?\n2> 3> 4> -:4:256: JS01: a line has at most 255 bytes\n",
    "4> 5> \n",
)
PRINTED = f"1 {BEGUN}\n3 JOB NO NAME\n4 JOB ENDED\nSTEP ENDED RC 0\n"


def called(program, script, *words):
    ran = subprocess.run([program, "--interactive", *words], input=script, capture_output=True, timeout=600)
    return ran.returncode, ran.stdout.decode(), ran.stderr.decode(errors="replace")


def with_faults(script, seed):
    """The script with faulty lines among its own, and how many they are."""
    draw = random.Random(seed)
    faulty = [[line for lines in group.values() for line in lines] for group in (faults.FIRST, faults.SECOND)]
    lines, count = [], 0
    for at, line in enumerate(script.splitlines()):
        added = draw.choices(faulty[at > 0], k=draw.choice([0, 0, 0, 1, 2]))
        lines += [line.encode("latin-1") for line in added] + [line.encode()]
        count += len(added)
    return b"".join(line + b"\n" for line in lines), count


def leaves_out(program, kind, seed):
    """Whether of a random script with faulty lines what is printed is what the plain machine prints of it without them."""
    high = seed % 2 == 1
    script = getattr(random_scripts, kind)(seed, high)
    text, count = with_faults(script.text(), seed)
    status, printed, said = called(program, text, "--place", "high" if high else "low")
    reported = len(re.findall(r"(?m)^(?:\d+> )*-:\d+:\d+: JS\d\d: ", said))
    return printed == script.output() and reported == count and status == (8 if "STEP ENDED RC 8\n" in printed else 0)


def is_asked(said):
    """Whether standard error asks for the lines, and reports those that have a fault."""
    at = 0
    for text in ASKED:
        at = said.find(text, at)
        if at < 0:
            return False
        at += len(text)
    return at == len(said)


class Terminal:
    """The program at a terminal that does not echo; what it says on standard error and prints comes together."""

    def __init__(self, program, *words, **names):
        self.master, self.slave = pty.openpty()
        modes = termios.tcgetattr(self.slave)
        modes[1] &= ~termios.OPOST
        modes[3] &= ~termios.ECHO
        termios.tcsetattr(self.slave, termios.TCSANOW, modes)
        self.run = subprocess.Popen([program, *words], stdin=self.slave, stdout=self.slave, stderr=self.slave, env=os.environ | {"NO_COLOR": "1"} | names)
        os.close(self.slave)

    def read(self, end, seconds=600):
        """What it says up to some text, or to its end."""
        heard, until = "", time.monotonic() + seconds
        while not heard.endswith(end) or not end:
            ready, _, _ = select.select([self.master], [], [], max(0, until - time.monotonic()))
            try:
                more = os.read(self.master, 4096) if ready else b""
            except OSError:
                more = b""
            if not more:
                break
            heard += more.decode()
        return heard

    def type(self, text):
        os.write(self.master, text.encode())

    def close(self):
        self.run.kill()
        self.run.wait()
        os.close(self.master)


def typed(program, *words):
    """A lesson at a terminal: each answer comes before the next line is asked for, and a mistake does not end it."""
    terminal = Terminal(program, *words)
    steps = [
        ("JOB REGION BELOW=1\n", f"1 {BEGUN}\n2> "),
        ("JOB GETMAIN RC,LV=4097,A=X\n", "2 JOB RC 4\n3> "),
        ("JOB GETMIAN R\n", "-:3:5: JS03: unknown operation GETMIAN\n    JOB GETMIAN R\n        ^^^^^^^ did you mean GETMAIN?\n3> "),
        ("\n", "4> "),
        ("JOB RETURN\n", "4 JOB ENDED\n5> "),
        ("\x04", "\nSTEP ENDED RC 0\n"),
    ]
    try:
        version = subprocess.check_output([program, "--version"], text=True).split()[1]
        yield "asks", terminal.read("1> ") == f"mvsjob {version}: type a statement, .help, or Ctrl-D to end\n1> "
        for text, wanted in steps:
            terminal.type(text)
            yield repr(text), terminal.read(wanted) == wanted
        yield "ends", terminal.run.wait(600) == 0
    finally:
        terminal.close()


def left(program):
    """A terminal at which nothing is typed, and one that is closed."""
    terminal = Terminal(program)
    try:
        terminal.read("1> ")
        terminal.type("\x04")
        reported = "\n1 JS09\nJOB FAULT RC 12\n-:1:1: JS09: the script has no statement\n"
        yield "nothing typed", (terminal.read(reported), terminal.run.wait(600)) == (reported, 12)
    finally:
        terminal.close()


def others(program):
    script = "".join(f"{line}\n" for line in TYPED).encode()
    status, printed, said = called(program, script)
    yield "mistakes", (status, printed) == (0, PRINTED) and is_asked(said)
    yield "without its last newline", called(program, script[:-1])[:2] == (0, PRINTED)
    yield "a faulty last line", called(program, script + b"JOB NOPE")[:2] == (0, PRINTED)
    yield "faulty lines alone", called(program, b"JOB NOPE\nJOB\n")[:2] == (12, "1 JS09\nJOB FAULT RC 12\n")
    yield "an abend", called(program, b"JOB REGION BELOW=1\nNOPE\nJOB ABEND 1\n")[0] == 8
    yield "a file", called(program, b"", "/dev/stdin")[:2] == (12, "1 JS09\nJOB FAULT RC 12\n")
    yield "a folder", called(program, b"", "/")[0] == 16
    yield "a pipe for input", subprocess.run([program], input=b"JOB NOPE\n", capture_output=True, timeout=600).stderr.startswith(b"-:1:")


def typed_with(program, *words):
    """With other options too each answer comes before the next line is asked for, and a mistake does not end the session."""
    terminal = Terminal(program, *words)
    strict = "--strict" in words
    steps = [
        ("JOB REGION BELOW=1\n", "2> ", f"1 {BEGUN}\n"),
        ("JOB GETMIAN R\n", "2> ", "-:2:5: JS03: unknown operation GETMIAN\n"),
        ("JOB WHERE X\n", "3> ", "-:2:11: NO NAME: X is not set\n" if strict else "2 JOB NO NAME\n"),
        ("JOB GETMAIN RC,LV=4097,A=X\n", "4> ", "3 JOB RC 4\n"),
    ]
    name, said = " ".join(words), ""
    try:
        terminal.read("1> ")
        for text, prompt, wanted in steps:
            terminal.type(text)
            more = terminal.read(prompt)
            said += more
            yield f"{name}, {text!r}", more.endswith(prompt) and wanted in more
        terminal.type("\x04")
        said += terminal.read("STEP ENDED RC 0\n")
        yield f"{name}, ends", terminal.run.wait(600) == (4 if strict else 0)
        yield f"{name}, reasons", ("\n* " in said) == ("--explain" in words)
    finally:
        terminal.close()


# Options that work together with `--interactive`.
TOGETHER = ("--explain", "--json", "--json --explain", "--strict", "--strict --explain", "--strict --json", "--leaks", "--leaks --explain", "--leaks --json --strict")


def is_same_with(program, words, seed):
    """Whether of a random script with faulty lines the same is printed as of the script without them, with the same options."""
    script = random_scripts.anything(seed, False)
    text, _ = with_faults(script.text(), seed)
    alone = subprocess.run([program, *words.split()], input=script.text().encode(), capture_output=True, timeout=600)
    status, printed = called(program, text, *words.split())[:2]
    return (status, printed) == (alone.returncode, alone.stdout.decode())


def results(program):
    yield from others(program)
    for words in TOGETHER:
        yield from ((f"random, {words}, {seed}", is_same_with(program, words, seed)) for seed in range(5))
    for words in ("--explain", "--strict", "--strict --explain"):
        yield from typed_with(program, *words.split())
    yield from typed(program)
    yield from ((f"{name}, --interactive", well) for name, well in typed(program, "--interactive"))
    yield from left(program)
    for kind in ("storage", "pools", "anything", "steps"):
        yield from ((f"random {kind} {seed}", leaves_out(program, kind, seed)) for seed in range(25))
