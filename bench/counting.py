"""Counts the instructions of a program with valgrind's callgrind. The counts do not depend on the load of the machine."""

import re
import shutil
import subprocess
import tempfile
from pathlib import Path

ENDS = (0, 4, 8)  # the exit statuses of a script that is run to its end


class CountError(Exception):
    """A run that has no count."""


def has_valgrind():
    return shutil.which("valgrind") is not None


def instructions_of(words, **given):
    """Returns the number of instructions of a command, from its start to its end."""
    with tempfile.TemporaryDirectory() as name:
        log = Path(name) / "log"
        counter = ["valgrind", "--tool=callgrind", "--callgrind-out-file=/dev/null", f"--log-file={log}"]
        ran = subprocess.run([*counter, *words], stdout=subprocess.DEVNULL, stderr=subprocess.PIPE, **given)
        counted = re.search(r"Collected : (\d+)", log.read_text() if log.exists() else "")
    if ran.returncode not in ENDS or not counted:
        raise CountError(f"{' '.join(map(str, words))}: status {ran.returncode} {ran.stderr.decode(errors='replace')[-300:]}")
    return int(counted[1])


def instructions(program, script, *options, is_piped=False):
    """Returns the number of instructions of a run, from the start of the program to its end. The script is a file or, if `is_piped`, a pipe."""
    if is_piped:
        return instructions_of([program, *options], input=script)
    with tempfile.TemporaryDirectory() as name:
        file = Path(name) / "script"
        file.write_bytes(script)
        return instructions_of([program, *options, file], stdin=subprocess.DEVNULL)


def printed(program, script, *options):
    """Returns what a run prints."""
    ran = subprocess.run([program, *options], input=script, capture_output=True)
    if ran.returncode not in ENDS:
        raise CountError(f"{' '.join([program, *options])}: status {ran.returncode}")
    return ran.stdout
