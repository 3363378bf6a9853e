"""mvsjob-conform: what it refuses, what it finds, its formats, its shards, and how the lines of docs/CONFORMANCE.md spread it over machines.

Two users act as two machines: a command instead of ssh becomes one of them, with the environment of a login. What needs root,
GNU parallel, or a folder that other users can enter and run python3 in, is not tried without.
"""

import contextlib
import os
import re
import shutil
import subprocess
import sys
import tempfile
import xml.etree.ElementTree as xml
from pathlib import Path

from cases import Lacking

TOP = Path(__file__).resolve().parent.parent
CONFORM = TOP / "conformance/mvsjob-conform"
RULES = (TOP / "docs/RULES.md").read_text()
PLAIN = f"{sys.executable} {TOP / 'tests/plain_emulator.py'}"
CORPUS = len(list((TOP / "conformance/scripts").glob("*.job")))
USERS = ("1001", "1002")
SSH = """#!/bin/sh
# LOGIN [--] COMMAND..: becomes the user of this number, in a folder of its own, with what a login sets: GNU parallel needs SHELL.
while [ "${1#-}" != "$1" ]; do shift; done
user=$1
shift
[ "$1" = -- ] && shift
cd "$MACHINES/$user" && exec setpriv --reuid="$user" --regid="$user" --clear-groups \\
    env -i MACHINES="$MACHINES" HOME="$MACHINES/$user" SHELL=/bin/sh PATH="$MACHINES:/usr/local/bin:/usr/bin:/bin:$PATH" sh -c "$*"
"""
# What each user has to be able to do: enter the folder, run a command there, write, and run a Python that is new enough.
PROBE = """#!/bin/sh
: > "$HOME/probe" && exec python3 -c 'import sys; sys.exit(sys.version_info < (3, 10))'
"""
WRAPPED = """#!/bin/sh
exec python3 "$MACHINES/conformance/mvsjob-conform" --program "$MACHINES/mvsjob" --timeout 3600 "$@"
"""
EMULATOR = """#!/bin/sh
id -u >> "$HOME/ran"
exec "$MACHINES/mvsjob"
"""


class Conform:
    def __init__(self, program, folder):
        self.program, self.folder = program, folder

    def run(self, *words, program=None):
        ran = subprocess.run([CONFORM, "--program", program or self.program, *words], cwd=self.folder, capture_output=True, text=True, timeout=600)
        return ran.returncode, ran.stdout, ran.stderr

    def command(self, name, text):
        path = self.folder / name
        path.write_text(f"#!/bin/sh\n{text}\n")
        path.chmod(0o755)
        return str(path)


def refused(conform):
    """Words that are refused, and what standard error says at its end."""
    (conform.folder / "no_command").write_text("")
    expected = {
        ("nosuch",): "cannot run nosuch: no such command",
        ("",): "cannot run an empty command: no such command",
        ("'a",): "cannot run 'a: no closing quotation",
        ("./no_command",): "cannot run ./no_command: permission denied",
        ("cat", "--rule", "99"): "no script shows rule 99",
        ("cat", "--rule", "x"): "argument --rule: expected rule numbers such as 9 or 12-15,20, found x",
        ("cat", "--shard", "3/2"): "argument --shard: expected K/N with K from 1 to N, found 3/2",
        ("cat", "--jobs", "0"): "argument --jobs: expected a number from 1, found 0",
        ("cat", "--nosuch"): "unrecognized arguments: --nosuch",
        (): "the following arguments are required: CMD",
    }
    for words, text in expected.items():
        status, out, err = conform.run(*words)
        yield f"refused {' '.join(words)}", (status, out) == (16, "") and err.splitlines()[-1] == f"mvsjob-conform: {text}"
    status, out, err = conform.run("cat", program="/nowhere/mvsjob")
    yield "no mvsjob", (status, out) == (16, "") and err.startswith("mvsjob-conform: cannot run /nowhere/mvsjob: no such command; ")
    broken = conform.folder / "broken"
    broken.write_text("#!/nowhere/sh\n")
    broken.chmod(0o755)
    yield "no interpreter", conform.run(str(broken), "--rule", "9") == (16, "", f"mvsjob-conform: cannot run {broken}: no such file or directory\n")


def sentence(rule):
    return re.search(rf"(?m)^\| {rule} \| ([^|]*) \|", RULES)[1].strip()


def found(conform):
    """What is found of programs that answer well, wrongly, nothing, or too late."""
    status, out, err = conform.run(str(conform.program))
    yield "mvsjob itself", (status, err) == (0, "") and out.splitlines()[-1] == f"{CORPUS} passed, 0 failed"
    status, out, _ = conform.run(f"{PLAIN} high", "--rule", "24-37")
    yield "another placement", status == 0 and out.splitlines()[-1].endswith(" passed, 0 failed")
    status, out, _ = conform.run(f"{PLAIN} low", "--rule", "24", "--random", "5")
    yield "another implementation", status == 0 and out.splitlines()[-2:-1] == ["random scripts: 5 passed, 0 failed"]
    status, out, _ = conform.run(f"{PLAIN} low FreesAll", "--rule", "28", "--shown", "1")
    line = next((line for line in out.splitlines() if line.startswith("rule 28: ")), "")
    yield "the sentence of a rule", status == 1 and line.endswith(f" failed: {sentence(28)}")
    yield "a script that is shown", out.count("REFUSED\n    JOB REGION ") == 1
    status, out, _ = conform.run(conform.command("late", "exec sleep 600"), "--rule", "72", "--timeout", "1", "--jobs", "9")
    yield "too late", status == 1 and "NO OUTPUT\n" in out and "    the command did not end within 1 seconds\n" in out
    status, out, _ = conform.run(conform.command("silent", ":"), "--rule", "72", "--shown", "0")
    yield "silent", status == 1 and re.fullmatch(r"rule 72: 0 passed, \d+ failed: .*\n\d+ REFUSED\n0 passed, \d+ failed\n", out) is not None
    status, out, _ = conform.run(conform.command("binary", r"printf '\377\376\n'"), "--rule", "72")
    yield "no text", status == 1 and "REFUSED" in out
    answers = "--rule", "72", "--shown", "0"
    yield "one job or nine", conform.run(f"{PLAIN} high", *answers, "--jobs", "1") == conform.run(f"{PLAIN} high", *answers, "--jobs", "9")


def formats(conform):
    words = (f"{PLAIN} low FreesAll", "--rule", "26-28,72", "--random", "2")
    text = conform.run(*words)[1]
    passed, failed = map(int, re.fullmatch(r"(\d+) passed, (\d+) failed", text.splitlines()[-1]).groups())
    status, tap, _ = conform.run(*words, "--format", "tap")
    numbers = [int(number) for number in re.findall(r"(?m)^(?:not )?ok (\d+) - ", tap)]
    yield "TAP", tap.startswith(f"TAP version 13\n1..{passed + failed}\n") and numbers == list(range(1, passed + failed + 1))
    yield "TAP, failures", status == 1 and len(re.findall(r"(?m)^not ok ", tap)) == failed == tap.count("\n  ---\n") == tap.count("\n  ...\n")
    yield "TAP, the rule", f"  rule: |\n    {sentence(28)}\n" in tap
    status, text, _ = conform.run(*words, "--format", "junit")
    suites = xml.fromstring(text)
    cases = suites.findall("testsuite/testcase")
    yield "JUnit", status == 1 and (len(cases), len(suites.findall("testsuite/testcase/failure"))) == (passed + failed, failed)
    yield "JUnit, sums", sum(int(suite.get("tests")) for suite in suites) == len(cases)
    yield "JUnit, the rule", f"rule 28: {sentence(28)}" in [suite.get("name") for suite in suites]


def shards(conform):
    words = (str(conform.program), "--random", "7", "--seed", "100", "--format", "tap")
    parts = [re.findall(r"(?m)^ok \d+ - (.*)$", conform.run(*words, "--shard", f"{part}/3")[1]) for part in (1, 2, 3)]
    names = [name for part in parts for name in part]
    yield "shards are apart", len(set(names)) == len(names) == CORPUS + 7
    yield "shards are alike", max(map(len, parts)) - min(map(len, parts)) <= 1
    yield "random scripts by their seed", {f"random {seed}" for seed in range(100, 107)} <= set(names)


class Machines:
    """A folder with what the two machines have: `ssh`, the program, mvsjob-conform, and an emulator that writes down who runs it."""

    def __init__(self, folder, program):
        self.folder = folder
        for user in USERS:
            (folder / user).mkdir()
            os.chown(folder / user, int(user), int(user))
        for name in ("conformance", "crates/version/src"):
            shutil.copytree(TOP / name, folder / name)
        shutil.copy(program, folder / "mvsjob")
        for name, text in {"ssh": SSH, "probe": PROBE, "mvsjob-conform": WRAPPED, "my_emulator": EMULATOR}.items():
            (folder / name).write_text(text)
            (folder / name).chmod(0o755)
        # The checkout may be one that other users cannot read.
        for path in (folder, folder / "mvsjob", *(path for name in ("conformance", "crates") for path in (folder / name, *(folder / name).rglob("*")))):
            path.chmod(path.stat().st_mode | (0o755 if path.is_dir() or path.stat().st_mode & 0o100 else 0o644))

    def run(self, *words):
        own = {"MACHINES": str(self.folder), "HOME": str(self.folder), "PARALLEL_SSH": str(self.folder / "ssh")}
        env = {name: text for name, text in os.environ.items() if name != "PARALLEL"} | own | {"PATH": f"{self.folder}:{os.environ['PATH']}"}
        return subprocess.run(words, cwd=self.folder, env=env, capture_output=True, text=True, timeout=3600)

    def serve(self):
        return all(self.run(self.folder / "ssh", user, "probe").returncode == 0 for user in USERS)


def two_machines(program, stack):
    """Two machines in the first folder for temporary files in which they serve; None where there is none."""
    for above in dict.fromkeys((tempfile.gettempdir(), "/tmp", "/var/tmp", "/dev/shm")):
        try:
            machines = Machines(Path(stack.enter_context(tempfile.TemporaryDirectory(dir=above))), program)
        except OSError:
            continue  # it is not there or not ours, or no other user can own a folder
        if machines.serve():
            return machines
    return None


def spread(conform):
    """What the lines of the document print, over two users."""
    if not shutil.which("parallel"):
        return Lacking("GNU parallel")
    if os.geteuid() or not shutil.which("setpriv"):
        return Lacking("root and setpriv")
    lines = re.search(r"(?s)```sh\n(machines=.*?)```", (TOP / "docs/CONFORMANCE.md").read_text())[1]
    with contextlib.ExitStack() as stack:
        machines = two_machines(conform.program, stack)
        if machines is None:
            return Lacking("a folder in which other users can run python3")
        ran = machines.run("bash", "-c", lines.replace("ann@one,bob@two", ",".join(USERS)))
        users = {user for path in machines.folder.glob("*/ran") for user in path.read_text().split()}
    version = subprocess.check_output([CONFORM, "--version"], text=True).strip()
    well = ran.stdout.splitlines() == [version] * 2 + [str(CORPUS)] and users == set(USERS)
    if not well:
        print(f"over two machines: as {sorted(users)}\n{ran.stdout}{ran.stderr}", file=sys.stderr, flush=True)
    return well


def results(program):
    with tempfile.TemporaryDirectory() as name:
        conform = Conform(program, Path(name))
        for part in (refused, found, formats, shards):
            yield from part(conform)
        yield "over two machines", spread(conform)
