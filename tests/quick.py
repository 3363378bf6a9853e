"""How ./run behaves where there is no proved program: what it answers at once, and what it makes of the quick build.

The kit is not asked: a small command `rt` has its role, which notes its options, and copies its input or complains.
"""

import os
import pty
import shutil
import subprocess
import tempfile
from pathlib import Path

TOP = Path(__file__).resolve().parent.parent
STAND_IN = """#!/bin/sh
echo "$*" >> "$NOTES"
echo "checked: 3 functions" >&2
case "$*" in
    *--slow*) sleep 6 ;;
    *--unknown*) printf 'error\\n\\nUsage: program [OPTIONS] [FILE]\\n' >&2; exit 16 ;;
    *--help*) echo "Usage: program [OPTIONS] [FILE]"; exit 0 ;;
    *) cat; exit 8 ;;
esac
"""


class Checkout:
    """A checkout without a program, and a command `rt` that the kit did not make."""

    def __init__(self, folder):
        self.folder = folder
        self.notes = folder / "notes"
        self.path = f"{folder}/bin:/usr/bin:/bin"
        for name in ("bin", "crates/mvsjob", "crates/version/src"):
            (folder / name).mkdir(parents=True)
        (folder / "bin/rt").write_text(STAND_IN)
        (folder / "bin/rt").chmod(0o755)
        for name in ("run", "x"):
            shutil.copy(TOP / name, folder)
        shutil.copytree(TOP / "tools", folder / "tools")
        shutil.copy(TOP / "crates/version/src/lib.rt", folder / "crates/version/src")

    def shell(self, command, path=None, **how):
        """The status, output and error of a command, and whether the quick build was begun."""
        self.notes.unlink(missing_ok=True)
        env = os.environ | {"PATH": path or self.path, "NOTES": str(self.notes)}
        how = {"stderr": subprocess.PIPE, "stdin": subprocess.DEVNULL} | how
        ran = subprocess.run(["bash", "-c", command], cwd=self.folder, env=env, stdout=subprocess.PIPE, timeout=600, **how)
        return ran.returncode, ran.stdout.decode(), (ran.stderr or b"").decode(), self.notes.exists()

    def at_a_terminal(self, command):
        """What standard error shows where it is a terminal."""
        ours, theirs = pty.openpty()
        self.shell(command, stderr=theirs)
        os.close(theirs)
        shown = os.read(ours, 10000).decode()
        os.close(ours)
        return shown


def cases(checkout):
    kept = {"-h": (TOP / "tools/help.txt").read_text(), "--help": (TOP / "tools/help-long.txt").read_text()}
    kept |= dict.fromkeys(("-V", "--version"), subprocess.check_output([TOP / "tools/version"], text=True))
    for word, text in kept.items():
        yield f"{word} at once", checkout.shell(f"./run {word}") == (0, text, "", False)
        yield f"{word} without the kit", checkout.shell(f"./run {word}", path="/usr/bin:/bin") == (0, text, "", False)
    yield "--help on a full device", checkout.shell("./run --help > /dev/full") == (16, "", "mvsjob: write failed\n", False)
    script = TOP / "examples/first.job"
    status, out, err, begun = checkout.shell(f'./run "{script}"')
    yield "a script", (status, out, begun) == (8, script.read_text(), True)
    yield "how long it takes", len(err.splitlines()) == 1 and "usually takes" in err
    for command, why in {"./run <&-": "read failed", "./run < .": "read failed\n    standard input: is a directory", f'./run "{script}" >&-': "write failed"}.items():
        status, out, err, begun = checkout.shell(command)
        yield command.replace(str(TOP), ""), (status, out, begun) == (16, "", False) and err.endswith(f"mvsjob: {why}\n")
    status, out, err, _ = checkout.shell("./run --unknown")
    yield "its name where it complains", status == 16 and "Usage: mvsjob [" in err and "program [" not in err + out
    status, out, err, _ = checkout.shell("./run - --help")
    yield "its name in the help", (status, out) == (0, "Usage: mvsjob [OPTIONS] [FILE]\n")
    yield "dots at a terminal", checkout.at_a_terminal("./run --slow").count("\n.") == 1
    yield "no dots elsewhere", len(checkout.shell("./run --slow")[2].splitlines()) == 1


def results():
    with tempfile.TemporaryDirectory() as folder:
        return list(cases(Checkout(Path(folder))))
