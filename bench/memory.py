"""The most memory that a run has until it has executed its last line. It then waits for another line at a pipe."""

import array
import fcntl
import re
import subprocess
import termios
import time
from pathlib import Path

from scripts import MOST_BYTES

REGION = "J REGION BELOW=2048,ABOVE=8192\n"
LONGEST = f"{'*' * 254}\n" * (MOST_BYTES // 255)
RUNS = {
    "16 MB of comments": LONGEST,
    "10,000 steps that each use one page of 10,240": f"{REGION}J GETMAIN RU,LV=8,A=X\n" * 10_000,
    "a step that uses 10,240 pages": f"{REGION}J GETMAIN RU,LV=8388608,A=X\nJ GETMAIN RU,LV=33554432,A=Y,LOC=ANY\n",
}


def unread(pipe):
    """Returns the number of bytes in a pipe."""
    found = array.array("i", [0])
    fcntl.ioctl(pipe, termios.FIONREAD, found)
    return found[0]


def is_waiting(run):
    """Whether a program has read what it was sent, and waits for more."""
    return unread(run.stdin) == 0 and Path(f"/proc/{run.pid}/stat").read_text().rpartition(")")[2].split()[0] == "S"


def peak(program, script, *words):
    """Returns the most memory of a run with these options, in bytes."""
    with subprocess.Popen([program, *words], stdin=subprocess.PIPE, stdout=subprocess.DEVNULL) as run:
        run.stdin.write(script.encode())
        run.stdin.flush()
        while not is_waiting(run):
            time.sleep(0.01)
        status = Path(f"/proc/{run.pid}/status").read_text()
        run.stdin.close()
        return 1024 * int(re.search(r"VmHWM:\s+(\d+) kB", status)[1])
