"""A session at a terminal, through a pseudo-terminal and, for mvsjob-shell, through tmux.

What a session prints of its lines is what the plain machine prints of them. What a dot command prints of a rule or a code is what the option
of that name prints, and what it prints of the storage is what the plain machine has. docs/TERMINAL.md is replayed to the byte.
"""

import fcntl
import os
import pty
import random
import re
import select
import shutil
import signal
import struct
import subprocess
import tempfile
import termios
import time
from pathlib import Path

import coloured
import faults
import random_scripts
from cases import Lacking

TOP = Path(__file__).resolve().parent.parent
SHELL = TOP / "tools/mvsjob-shell"
PROMPT = re.compile(r"(?:^|\n)\d+> $")
BEGUN = "1 JOB REGION BELOW 1 ABOVE 0\n"
COMMANDS = ".help .why .map .tasks .names .leaks .rule .code .undo .open .save .page .reset .quit".split()
SECONDS = 600


def at_terminal():
    """Makes standard input the terminal of a new process. A test in the background ignores signals, so they are set anew."""
    for number in (signal.SIGINT, signal.SIGHUP):
        signal.signal(number, signal.SIG_DFL)
    fcntl.ioctl(0, termios.TIOCSCTTY, 0)


class Screen:
    """A program at a terminal that echoes what is typed; all that the terminal shows."""

    def __init__(self, program, *words, folder=None, columns=80, echo=True, **names):
        self.master, slave = pty.openpty()
        modes = termios.tcgetattr(slave)
        modes[1] &= ~termios.OPOST
        if not echo:
            modes[3] &= ~termios.ECHO
        termios.tcsetattr(slave, termios.TCSANOW, modes)
        fcntl.ioctl(slave, termios.TIOCSWINSZ, struct.pack("HHHH", 24, columns, 0, 0))
        env = os.environ | {"NO_COLOR": "1", "TERM": "dumb"} | names
        self.run = subprocess.Popen(
            [program, *words], stdin=slave, stdout=slave, stderr=slave, cwd=folder, env=env, start_new_session=True, preexec_fn=at_terminal
        )
        os.close(slave)
        self.shown = ""
        self.prompt()

    def __enter__(self):
        return self

    def __exit__(self, *_):
        if self.run.poll() is None:
            self.run.kill()
        self.run.wait()
        os.close(self.master)

    def more(self, seconds):
        """Whether more came in that time; not if the terminal was closed."""
        ready, _, _ = select.select([self.master], [], [], max(0, seconds))
        try:
            got = os.read(self.master, 65536) if ready else b""
        except OSError:
            got = b""
        self.shown += got.decode(errors="replace")
        return bool(got)

    def prompt(self):
        """Waits for a prompt; what came since the last call."""
        at, until = len(self.shown), time.monotonic() + SECONDS
        while not PROMPT.search(self.shown[at:]) and time.monotonic() < until and self.more(until - time.monotonic()):
            pass
        return self.shown[at:]

    def write(self, text):
        os.write(self.master, text if isinstance(text, bytes) else text.encode())

    def type(self, text):
        """Types a line, and returns what is shown up to the next prompt, without the line itself and without the prompt."""
        self.write(text + "\n" if isinstance(text, str) else text + b"\n")
        reply = self.prompt()
        return re.sub(r"(^|\n)\d+> $", r"\1", reply.partition("\n")[2])

    def end(self):
        """Waits for the end; the status and what came since the last call."""
        at, until = len(self.shown), time.monotonic() + SECONDS
        while self.more(until - time.monotonic()):
            pass
        return self.run.wait(SECONDS), self.shown[at:]


# ---- the document


def listings():
    """The sessions in docs/TERMINAL.md: the program's words, and what the terminal shows."""
    text = (TOP / "docs/TERMINAL.md").read_text()
    for block in re.findall(r"(?ms)^```console\n\$ mvsjob( .*?)?\n(.*?)^```$", text):
        yield block[0].split(), block[1]


def is_replayed(program, words, listing, folder):
    """Whether the terminal shows the listing, if the lines after its prompts are typed. Ctrl-D is typed after a prompt without a line."""
    version = subprocess.run([program, "--version"], capture_output=True, text=True).stdout.split()[1]
    listing = re.sub(r"(?m)^mvsjob [0-9.]+:", f"mvsjob {version}:", listing)
    with Screen(program, *words, folder=folder) as screen:
        for line in re.findall(r"(?m)^\d+>(?: (.*))?$", listing):
            if screen.run.poll() is not None:
                return False
            screen.write(line + "\n" if line else "\x04")
            if line not in ("", ".quit"):
                screen.prompt()
        screen.end()
        return re.sub(r"(?m)> $", ">", screen.shown) == listing


def document(program):
    with tempfile.TemporaryDirectory() as folder:
        found = list(listings())
        yield "there are listings", len(found) > 0
        for k, (words, listing) in enumerate(found):
            yield f"docs/TERMINAL.md, listing {k + 1}", is_replayed(program, words, listing, folder)


# ---- commands


def typed_script(screen, lines):
    return [screen.type(line) for line in lines]


def option(program, *words, given=""):
    return subprocess.run([program, *words], input=given, capture_output=True, text=True).stdout


def helps(program):
    with Screen(program) as screen:
        text = screen.type(".help")
        yield ".help lists the commands", re.findall(r"(?m)^  (\.[a-z]+)", text) == COMMANDS
        operations = text.splitlines()[-2].split()
        yield ".help lists the operations", set(operations) >= {"REGION", "GETMAIN", "FREEMAIN", "STORAGE", "CPOOL", "ATTACH", "RETURN", "ABEND"}
        for operation in operations:
            syntax = screen.type(f".help {operation}")
            yield f".help {operation}", all(line.startswith((f"  task {operation}", "    ")) for line in syntax.splitlines()) and f"  task {operation}" in syntax
        yield ".help with a form", screen.type(".help GETMAIN RC").count("  task GETMAIN RC,LV=n,A=name") == 1
        yield ".help in small letters", screen.type(".help getmain rc") == screen.type(".help GETMAIN RC")
        yield ".help of a command", {screen.type(f".help {name}") for name in (".undo", "undo")} == {"  .undo [N]         run the job again without its last N lines\n"}
        yield ".help of a mistyped operation", screen.type(".help GETMIAN") == "no operation GETMIAN: did you mean GETMAIN?\n"
        yield ".help of no operation", screen.type(".help QUUX") == "no operation QUUX: .help lists them\n"


def hints(program):
    """A line that looks like a command without its dot."""
    meant = {"quit": ".quit", "exit": ".quit", "help": ".help [NAME]", "?": ".help [NAME]", "HELP": ".help [NAME]", "help GETMAIN": ".help [NAME]", " .map": ".map", "undo 2": ".undo [N]"}
    with Screen(program) as screen:
        for line, command in meant.items():
            shown = screen.type(line)
            yield f"{line!r}", shown.startswith("-:1:") and shown.endswith(f"\n(a command begins with a dot: {command})\n")
        for line in ("HELP GETMAIN", "MAP RETURN X", "NOPE", "JOB HELP", ""):
            yield f"no command, {line!r}", "begins with a dot" not in screen.type(line)


def texts(program):
    with Screen(program) as screen:
        for number in (1, 12, 74):
            yield f".rule {number}", screen.type(f".rule {number}") == option(program, "--rule", str(number))
        for code in ("S878", "JS03", "RC 4", "NO NAME"):
            yield f".code {code}", screen.type(f".code {code}") == option(program, "--code", code)
        yield "no such rule", screen.type(".rule 75").startswith("no rule 75")
        yield "no such code", screen.type(".code S123").startswith("no text about S123")
        for line, command in ((".hlp", ".help"), (".HELP", ".help"), (".q", ".quit"), (".exit", ".quit"), (".?", ".help"), (".ta", ".tasks")):
            yield f"a mistyped command, {line}", screen.type(line) == f"unknown command {line}: did you mean {command}?\n"
        yield "no command", screen.type(".") == "unknown command .: .help lists the commands\n"
        for line, wanted in ((".rule", ".rule N"), (".why maybe", ".why on|off"), (".undo x", ".undo [N]"), (".quit now", ".quit"), (".save", ".save FILE"), (".open a b", ".open FILE")):
            yield line, screen.type(line) == f"expected {wanted}\n"
        yield "before the first step", screen.type(".map") == screen.type(".tasks") == screen.type(".names") == screen.type(".leaks") != ""


def reasons(program):
    for words, first in (((), False), (("--explain",), True)):
        with Screen(program, *words) as screen:
            screen.type("JOB REGION BELOW=1")
            line = "JOB GETMAIN RC,LV=8000,A=X"
            yield f"{words}, at first", ("\n* " in screen.type(line)) == first
            yield f"{words}, .why", screen.type(f".why {'off' if first else 'on'}") == f"reasons are {'off' if first else 'on'}\n"
            yield f"{words}, then", ("\n* " in screen.type(line)) != first


# A step in which a task leaves an area, storage is short, and an area is used after it was released.
HISTORY = [
    "JOB REGION BELOW=2",
    "JOB GETMAIN R,LV=4096,A=X,SP=5",
    "JOB ATTACH TASK=T1,SHSPV=5",
    "T1 GETMAIN R,LV=4000,A=Y,SP=5",
    "T1 RETURN",
    "JOB GETMAIN RC,LV=8192,A=Z",
    "JOB FREEMAIN R,LV=4096,A=X,SP=5",
    "JOB SHOW X,1",
]
FOUND = {
    5: "* Y: 4000 bytes at 00007000 stay in SP 5 of JOB, obtained by T1 in line 4.\n",
    6: "* Held: 2 areas, 8096 bytes.\n* X: 4096 bytes at 00006000 in SP 5 of JOB, obtained by JOB in line 2.\n* Y: 4000 bytes at 00007000 in SP 5 of JOB, obtained by T1 in line 4.\n",
    8: "* 00006000 was in X: 4096 bytes at 00006000 in SP 5 of JOB, obtained by JOB in line 2, released by JOB in line 7.\n",
}


def by_line(printed):
    """The parts of an output that begin with the number of a line."""
    return re.split(r"(?m)^(?=\d+ )", printed)[1:]


def histories(program):
    """What the history of the storage says of a line is what `--explain` prints of it, also if the reasons were off before."""
    text = "".join(f"{line}\n" for line in HISTORY)
    for words in (("--explain",), ("--explain", "--strict"), ("--explain", "--leaks"), ("--explain", "--color=always"), ("--explain", "--leaks", "--strict", "--color=always")):
        ran = subprocess.run([program, *words], input=text, capture_output=True, text=True)
        with Screen(program, *words) as screen:
            replies = typed_script(screen, HISTORY)
            screen.write("\x04")
            status, end = screen.end()
            yield f"{words}, all of it", ("".join(replies) + end.lstrip("\n"), status) == (ran.stdout, ran.returncode)
            yield f"{words}, by hand", all(FOUND[number] in replies[number - 1] for number in FOUND)
    parts = by_line(option(program, "--explain", given=text).partition("STEP ENDED")[0])
    with Screen(program) as screen:
        plain = typed_script(screen, HISTORY[:4])
        screen.type(".why on")
        yield ".why on, a line that ran before", typed_script(screen, HISTORY[4:6]) == parts[4:6]
        screen.type(".why off")
        plain += typed_script(screen, HISTORY[6:7])
        screen.type(".why on")
        yield ".why off and on", typed_script(screen, HISTORY[7:]) == parts[7:] and "*" not in "".join(plain)
        yield ".why on, after .undo", screen.type(".undo 2") == "a new job, with 6 lines:\n" + "".join(parts[:6])


def in_colour(program):
    """At a terminal the replies have their colours, and nothing else has."""
    lines = ["JOB REGION BELOW=1", "JOB GETMAIN RC,LV=4097,A=X", "JOB ABEND 1", ".code S878", "JOB RC", ".undo", "JOB NOPE"]
    shown = {}
    for words, names in {(): {"NO_COLOR": ""}, ("--color=always",): {}, ("--color=never",): {"NO_COLOR": ""}, ("--color=auto",): {}}.items():
        with Screen(program, *words, **names) as screen:
            typed_script(screen, lines)
            screen.write("\x04")
            screen.end()
            shown[words] = screen.shown
    plain = shown[("--color=never",)]
    yield "without colours", "\x1b" not in plain and plain == shown[("--color=auto",)]
    yield "colours at a terminal", shown[()] == coloured.in_colour(plain) != plain
    yield "colours always", shown[("--color=always",)] == shown[()]


def looks(program):
    with Screen(program) as screen:
        typed_script(screen, ["JOB REGION BELOW=3", "JOB GETMAIN R,LV=64,A=X,SP=5", "JOB GETMAIN R,LV=128,A=Y,SP=6", "JOB ATTACH TASK=T1,SHSPV=5", "T1 ATTACH TASK=T2", "T2 GETMAIN R,LV=8,A=Z"])
        pictured = screen.type(".map").splitlines()
        pages = [line.split(" ", 1) for line in pictured if re.match(r"[0-9A-F]{8} ", line)]
        held = [signs for _, signs in pages if "free" not in signs]
        yield ".map, one line a page", len(held) == 3 and all(len(signs) == 64 for signs in held)
        yield ".map, what is held", sorted(len(signs.replace(".", "")) for signs in held) == [1, 1, 2]
        yield ".map, letters", {line.split()[2:] == ["SP", line.split()[3], "of", line.split()[5]] for line in pictured if " is SP " in line} == {True}
        yield ".tasks", [line.split(":")[0] for line in screen.type(".tasks").splitlines()] == ["JOB", "  T1", "    T2"]
        names = screen.type(".names").splitlines()
        wheres = [screen.type(f"JOB WHERE {name}").split()[-1] for name in "XYZ"]
        yield ".names", [(line.split()[0], line.split()[2], line.split()[5].strip(",")) for line in names] == list(zip("XYZ", ("64", "128", "8"), wheres))
        yield ".names, lines", [line.split()[-1] for line in names] == ["2", "3", "6"]
        screen.type("JOB ABEND 1")
        yield ".tasks, after the end", screen.type(".tasks") == "no task is active\n"


def leaked(program):
    """`.leaks` prints what `--leaks` prints of the lines so far, and with `--leaks` the report follows the end of the step."""
    lines = ["JOB REGION BELOW=3", "JOB GETMAIN R,LV=64,A=X", "JOB REGION BELOW=3", "JOB ATTACH TASK=T1,SHSPV=5", "T1 GETMAIN R,LV=64,A=X,SP=5", "JOB GETMAIN RC,LV=1000,A=Y,SP=6", "T1 RETURN"]
    with Screen(program) as screen:
        screen.type(lines[0])
        yield ".leaks, nothing left", screen.type(".leaks") == "each area was released\n"
        typed_script(screen, lines[1:])
        ran = subprocess.run([program, "--leaks"], input="".join(f"{line}\n" for line in lines), capture_output=True, text=True).stdout
        report = ran.rpartition("STEP ENDED RC 0\n")[2]
        yield ".leaks", report.startswith("* Never released: 2 areas") and screen.type(".leaks") == report
        screen.type("JOB FREEMAIN R,LV=1000,A=Y,SP=6")
        yield ".leaks, one less", screen.type(".leaks").startswith("* Never released: 1 area,")
    for words, reasons in ((("--leaks",), False), (("--leaks", "--explain"), True), (("--leaks", "--strict"), False)):
        with Screen(program, *words) as screen:
            shown = "".join(typed_script(screen, lines))
            yield f"{words}, between steps", ("STEP ENDED RC 0\n* Never released: 1 area, 64 bytes.\n" in shown, "\n* X is " in shown) == (True, reasons)
            screen.write("\x04")
            yield f"{words}, at the end", screen.end() == (4, f"\nSTEP ENDED RC 0\n{report}")
    with Screen(program, "--leaks") as screen:
        typed_script(screen, lines[:2])
        screen.type(".undo")
        screen.write("\x04")
        yield "--leaks, after .undo", screen.end() == (0, "\nSTEP ENDED RC 0\n")
    with Screen(program, "--interactive", "--leaks", "--json") as screen:
        typed_script(screen, lines[:2])
        screen.write("\x04")
        yield "--leaks --json", '{"event":"leaks","areas":1,"bytes":64,' in screen.end()[1]


def files(program):
    with tempfile.TemporaryDirectory() as name, Screen(program, folder=name) as screen:
        folder = Path(name)
        lines = ["* a comment", "JOB REGION BELOW=1", "JOB GETMAIN RC,LV=8,A=X", "JOB WHERE X"]
        replies = typed_script(screen, lines)
        yield ".save", screen.type(".save one.job") == "one.job: 4 lines\n" and (folder / "one.job").read_text() == "".join(f"{line}\n" for line in lines)
        yield "a saved script prints the same", option(program, folder / "one.job") == "".join(replies) + "STEP ENDED RC 0\n"
        yield ".page", screen.type(".page one.html") == "one.html: 4 lines\n" and (folder / "one.html").read_text() == option(program, "--page", folder / "one.job")
        (folder / "two.job").write_text("JOB REGION BELOW=2\nJOB GETMIAN R\nJOB WHERE X")
        shown = screen.type(".open two.job")
        yield ".open", "JS03: unknown operation GETMIAN" in shown and shown.endswith("a new job, with 2 lines:\n1 JOB REGION BELOW 2 ABOVE 0\n2 JOB NO NAME\n")
        yield ".open of no file", screen.type(".open none.job") == "cannot open none.job: no such file\n"
        yield ".open of a folder", screen.type(".open .") == "cannot open .: is a directory\n"
        (folder / "long.job").write_text("\n" * 17_000_000)
        yield ".open of a long file", screen.type(".open long.job") == "cannot open long.job: script too long\n"
        yield "the job is the same", screen.type("JOB WHERE X") == "3 JOB NO NAME\n"
        yield ".save where nothing can be written", screen.type(".save none/one.job").startswith("cannot write none/one.job: ")
        yield ".reset", screen.type(".reset") == "a new job\n" and screen.shown.endswith("1> ")


def refused(program):
    """A script that is not typed opens no file."""
    with tempfile.TemporaryDirectory() as folder:
        script = Path(folder) / "one.job"
        script.write_text("JOB REGION BELOW=1\n.save two.job\n.page two.html\n.open /etc/passwd\n")
        for name, words, stdin in (("a file", [script], None), ("a pipe", [], script.read_bytes())):
            ran = subprocess.run([program, "--interactive", *words], cwd=folder, input=stdin, capture_output=True, timeout=600)
            yield f"files are refused, {name}", ran.stderr.count(b"files are used only if the lines are typed") == 3 and ran.stdout.decode() == BEGUN + "STEP ENDED RC 0\n" and os.listdir(folder) == ["one.job"]


def ends(program):
    for words in ((), ("--strict",)):
        with Screen(program, *words) as screen:
            screen.type("JOB REGION BELOW=1")
            screen.write(".quit\n")
            yield f".quit, {words}", screen.end() == (0, ".quit\nSTEP ENDED RC 0\n")
        with Screen(program, *words) as screen:
            screen.type("JOB REGION BELOW=1")
            screen.write("\x04")
            yield f"Ctrl-D, {words}", screen.end() == (0, "\nSTEP ENDED RC 0\n")
    with Screen(program) as screen:
        screen.type("JOB REGION BELOW=1")
        screen.write("JOB RET\x04")
        time.sleep(0.3)
        screen.write("URN\n")
        yield "Ctrl-D in the middle of a line", screen.prompt().endswith("2 JOB ENDED\n3> ")
        screen.write("JOB WHERE X\x04\x04")
        yield "Ctrl-D twice after a line", screen.end() == (0, "JOB WHERE X3 JOB NOT RUN\n4> \nSTEP ENDED RC 0\n")
    with Screen(program) as screen:
        screen.write("JOB RET\x03")
        status, shown = screen.end()
        yield "Ctrl-C ends it by the signal", status == -signal.SIGINT and shown.endswith("^C")
    with Screen("sh", "-c", f'trap : INT; "{program}"; echo "status $?"') as screen:
        screen.write("\x03")
        yield "Ctrl-C, in a shell", screen.end()[1].endswith("status 130\n")
    screen = Screen(program)
    screen.write("JOB RET")
    os.close(screen.master)
    yield "a terminal that is closed", screen.run.wait(SECONDS) == -signal.SIGHUP


# ---- keys


def cleaned(program):
    with Screen(program, echo=False) as screen:
        screen.write("JOB REGION BELOW=1\n")
        screen.prompt()
        hint = "(keys such as the arrows do nothing here: mvsjob-shell has history and editing)\n"
        for k, key in enumerate(("\x1b[A", "\x1bOB", "\x1b[1;5C", "\x0c", "\x01", "\t")):
            screen.write(f"JOB {key}WHERE X\n")
            shown = screen.prompt()
            yield f"{key!r} in a line", shown == f"{hint if k == 0 else ''}{k + 2} JOB NO NAME\n{k + 3}> "


def pasted(program):
    """A paste of 2,000 lines: what is printed is what the plain machine prints."""
    script = random_scripts.anything(7, False)
    lines = script.lines + ["* a comment"] * (2000 - len(script.lines))
    with Screen(program, echo=False) as screen:
        text, at = "".join(f"{line}\n" for line in lines).encode(), 0
        while at < len(text):
            _, writable, _ = select.select([], [screen.master], [], 0)
            if writable:
                at += os.write(screen.master, text[at : at + 512])
            screen.more(0)
        until = time.monotonic() + SECONDS
        while f"{len(lines) + 1}> " not in screen.shown and screen.more(until - time.monotonic()):
            pass
        screen.write("\x04")
        screen.end()
        replies = re.sub(r"(?m)^(?:\d+> )+", "", screen.shown.partition("\n")[2])
        *printed, last = script.output().splitlines(keepends=True)
        yield "2,000 lines", replies == "".join(printed) + "\n" + last


def narrow(program):
    lines = ["JOB REGION BELOW=1", "JOB GETMAIN RC,LV=9000,A=X", ".help", ".map"]
    shown = []
    for columns in (40, 200):
        with Screen(program, "--explain", columns=columns) as screen:
            typed_script(screen, lines)
            shown.append(screen.shown)
    yield "40 columns", shown[0] == shown[1]


# ---- undo


def front(script, count):
    """What the plain machine prints of the first lines of a script, without the end of the step."""
    printed = []
    for line in script.printed:
        number = re.match(r"\d+", line)
        if number and int(number[0]) > count:
            break
        printed.append(line)
    while printed and not printed[-1][:1].isdigit():
        printed.pop()
    return "".join(f"{line}\n" for line in printed)


def ended(script, count):
    """How the step ends after these lines."""
    step = [text.split() for text in script.lines[:count]]
    begins = [k for k, words in enumerate(step) if words[1:2] == ["REGION"]]
    if not begins:
        return f"{count + 1} JS09\nJOB FAULT RC 12\n"
    abends = [line for line in front(script, count).splitlines() if int(re.match(r"\d+", line)[0]) > begins[-1] + 1 and re.match(r"\d+ \w+ ABEND", line)]
    return f"STEP ENDED RC {8 if abends else 0}\n"


def is_undone(program, seed):
    """Whether a session with random faults and `.undo` prints the run of the lines that remain, after what each former run printed."""
    script, draw = random_scripts.anything(seed, False), random.Random(seed)
    faulty = {first: [line for lines in group.values() for line in lines if not line.startswith(".")] for first, group in ((True, faults.FIRST), (False, faults.SECOND))}
    typed, wanted, count = [], "", 0
    while count < min(len(script.lines), 60):
        if draw.random() < 0.15:
            typed.append(draw.choice(faulty[count == 0]))
        if count and draw.random() < 0.06:
            less = draw.choice([1, 1, 2, 5, 999])
            wanted += front(script, count)
            typed.append(".reset" if less == 999 else ".undo" if less == 1 else f".undo {less}")
            count = max(0, count - less)
        typed.append(script.lines[count])
        count += 1
    wanted += front(script, count) + ended(script, count)
    ran = subprocess.run([program, "--interactive"], input="".join(f"{line}\n" for line in typed).encode("latin-1"), capture_output=True, timeout=600)
    return ran.stdout.decode() == wanted


# ---- mvsjob-shell


def soon(holds):
    """Whether something holds within some time."""
    until = time.monotonic() + SECONDS
    while not holds():
        if time.monotonic() > until:
            return False
        time.sleep(0.1)
    return True


class Window:
    """mvsjob-shell in a window of tmux. The program is called by its name in the folder."""

    def __init__(self, program, folder, columns):
        self.folder, self.socket = Path(folder), Path(folder) / "tmux"
        (self.folder / "mvsjob").symlink_to(program)
        (self.folder / "tmp").mkdir()
        names = f"MVSJOB={folder}/mvsjob XDG_STATE_HOME={folder}/state TMPDIR={folder}/tmp NO_COLOR=1"
        ended = 'echo "status $?"; stty -a | grep -o "intr = [^;]*"; sleep 600'
        self.tmux("-f", "/dev/null", "new-session", "-d", "-x", str(columns), "-y", "50", f"cd {folder} && env -u INPUTRC {names} {SHELL}; {ended}")

    def tmux(self, *words):
        return subprocess.run(["tmux", "-S", str(self.socket), *words], capture_output=True, text=True, timeout=600).stdout

    def shows(self, text):
        """Whether the window shows a line that ends so."""
        return soon(lambda: re.search(f"{re.escape(text)} *$", self.tmux("capture-pane", "-p", "-J"), re.M))

    def keys(self, *words):
        self.tmux("send-keys", *words)

    def paste(self, text):
        path = self.folder / "pasted"
        path.write_text(text)
        self.tmux("load-buffer", path)
        self.tmux("paste-buffer")

    def has_ended(self):
        """Whether no program of the window runs, and its temporary files are gone."""
        program = str(self.folder / "mvsjob").encode()
        called = [path.read_bytes().split(b"\0") for path in Path("/proc").glob("[0-9]*/cmdline") if path.exists()]
        return not any(program in words for words in called) and not any((self.folder / "tmp").iterdir())

    def close(self):
        self.tmux("kill-server")


# What is typed to mvsjob-shell, and what the window shows then.
EDITED = {
    "a line": (("JOB REGION BELOW=1", "Enter"), ("1 JOB REGION BELOW 1 ABOVE 0",)),
    "editing": (("JOB WHERE XY", "Left", "BSpace", "Enter"), ("JOB WHERE Y", "2 JOB NO NAME")),
    "history": (("Up", "Enter"), ("3 JOB NO NAME",)),
    "an operation": (("JOB GETM", "Tab", "RC,LV=8,A=BUFFER1", "Enter"), ("4 JOB RC 0",)),
    "a name that was set": (("JOB WHERE BUF", "Tab", "Enter"), ("5 JOB AT 00006000",)),
    "a command": ((".nam", "Tab", "Enter"), ("set in line 4",)),
    "Ctrl-C clears the line": (("JOB ABEND 1", "C-c", "JOB WHERE X", "Enter"), ("6 JOB NO NAME",)),
    "Ctrl-D in the middle of a line": (("JOB WHERE YX", "Left", "Left", "C-d", "Enter"), ("JOB WHERE X", "7 JOB NO NAME")),
    "Ctrl-D at the end of a line": (("JOB WHERE X", "C-d", "Enter"), ("8 JOB NO NAME",)),
    "the end": ((".quit", "Enter"), ("STEP ENDED RC 0", "status 0", "intr = ^C")),
}
PASTED = 2000


def edited(window, columns):
    """A session of mvsjob-shell, in a window of this width."""
    yield window.shows("or Ctrl-D to end")
    for keys, texts in EDITED.values():
        window.keys(*keys)
        yield all(map(window.shows, texts))
    history = window.folder / "state/mvsjob/history"
    yield soon(lambda: history.exists() and "JOB REGION BELOW=1\n" in history.read_text())
    yield soon(window.has_ended)


def pasted_in(window, _):
    """A paste of many lines."""
    window.shows("1>")
    window.paste("JOB REGION BELOW=1\n" + "* a comment\n" * (PASTED - 2) + "JOB WHERE X\n")
    yield window.shows(f"{PASTED} JOB NO NAME")
    window.keys("C-d")
    yield window.shows("STEP ENDED RC 0")


def killed(window, _):
    """A window that is closed while a line is typed."""
    window.shows("1>")
    window.keys("JOB REGION")
    window.shows("JOB REGION")
    window.close()
    yield soon(window.has_ended)


def edited_cases(columns):
    return [f"{columns} columns, {case}" for case in ("the banner", *EDITED, "the history file", "nothing is left")]


# The windows: their widths, what is tried in them, and the names of the cases.
WINDOWS = (
    (80, edited, edited_cases(80)),
    (40, edited, edited_cases(40)),
    (80, pasted_in, ["a paste in mvsjob-shell", "Ctrl-D in mvsjob-shell"]),
    (80, killed, ["a closed window of mvsjob-shell"]),
)


def windows(program):
    lacks = next((tool for tool in ("tmux", "rlwrap") if not shutil.which(tool)), None)
    for columns, tries, cases in WINDOWS:
        if lacks:
            yield from ((case, Lacking(lacks)) for case in cases)
            continue
        with tempfile.TemporaryDirectory() as folder:
            window = Window(program, folder, columns)
            try:
                yield from zip(cases, tries(window, columns), strict=True)
            finally:
                window.close()


def shells(program):
    with tempfile.TemporaryDirectory() as name:
        folder = Path(name)
        (folder / "bin").mkdir()
        for tool in ("sh", "bash", "sed", "grep", "sort", "cat", "mktemp", "mkdir", "rm", "env", "cut"):
            found = shutil.which(tool)
            if found:
                (folder / "bin" / tool).symlink_to(found)
        (folder / "bin/mvsjob").symlink_to(program)
        env = {"PATH": str(folder / "bin"), "HOME": name}
        ran = subprocess.run([SHELL], input=b"JOB REGION BELOW=1\n", env=env, capture_output=True)
        yield "without rlwrap", (ran.returncode, ran.stdout.decode()) == (0, BEGUN + "STEP ENDED RC 0\n") and ran.stderr.startswith(b"mvsjob-shell: no rlwrap: ") and ran.stderr.count(b"rlwrap") == 1
        ran = subprocess.run([SHELL, "--help"], env=env, capture_output=True, text=True)
        yield "--help", ran.returncode == 0 and "mvsjob-shell [OPTION..]: " in ran.stdout and re.findall(r"(?m)^ +(--\w+) ", ran.stdout) == ["--place", "--explain", "--leaks", "--json", "--strict", "--color"]
        ran = subprocess.run([SHELL], env=env | {"MVSJOB": "nowhere"}, capture_output=True)
        yield "without mvsjob", ran.returncode == 16 and ran.stderr == b"mvsjob-shell: no command nowhere\n"


def results(program):
    yield from document(program)
    for part in (helps, hints, texts, reasons, histories, in_colour, looks, leaked, files, refused, ends, cleaned, pasted, narrow, shells, windows):
        yield from part(program)
    yield from ((f"undo {seed}", is_undone(program, seed)) for seed in range(40))
