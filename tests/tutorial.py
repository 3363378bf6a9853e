"""docs/TUTORIAL.md as a reader follows it: each script is saved under its name, and each command prints what the document shows.

A script is a block without a language after a line that has its name; a block `console` has commands after `$`, each with what it prints.
"""

import os
import re
import subprocess
import tempfile
from pathlib import Path

TOP = Path(__file__).resolve().parent.parent
BLOCK = re.compile(r"(?ms)^```(\w*)\n(.*?)^```$")


def named(text):
    """The name of the script in the last paragraph before a block."""
    return re.findall(r"`(\w+\.job)`", text.rstrip().rsplit("\n\n", 1)[-1])[-1]


def commands(block):
    """The commands of a block, each with what it prints."""
    for part in re.split(r"(?m)^\$ ", block)[1:]:
        command, _, printed = part.partition("\n")
        yield command, printed


def reply(command, program, folder):
    """What a command prints in a folder, its messages last."""
    (folder / "bin").mkdir(exist_ok=True)
    if not (folder / "bin/mvsjob").exists():
        (folder / "bin/mvsjob").symlink_to(program)
    env = os.environ | {"PATH": f"{folder}/bin:{os.environ['PATH']}"}
    ran = subprocess.run(["bash", "-c", command], cwd=folder, env=env, capture_output=True)
    return (ran.stdout + ran.stderr).decode()


def results(program):
    text = (TOP / "docs/TUTORIAL.md").read_text()
    with tempfile.TemporaryDirectory() as name:
        folder = Path(name)
        for block in BLOCK.finditer(text):
            if block[1] == "":
                (folder / named(text[: block.start()])).write_text(block[2])
            else:
                for command, printed in commands(block[2]):
                    yield command, block[1] == "console" and reply(command, program, folder) == printed
        yield "the page", (folder / "leak.html").read_text().lower().startswith("<!doctype html>")
