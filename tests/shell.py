"""The program at the shell: its input, its output, its words, and what it says of them."""

import os
import signal
import subprocess
import tempfile
import time
from functools import partial
from pathlib import Path

from cases import Lacking

TOP = Path(__file__).resolve().parent.parent
FIRST = TOP / "examples/first.job"
BEGUN = "1 JOB REGION BELOW 1 ABOVE 0\n"


def shell(program, command, stdin=None, **names):
    env = os.environ | {"MVSJOB": str(program), "FIRST": str(FIRST)} | names
    ran = subprocess.run(["bash", "-c", command], input=stdin, env=env, capture_output=True, timeout=600)
    return ran.returncode, ran.stdout.decode(errors="replace"), ran.stderr.decode(errors="replace")


def interrupted(program, script):
    """Whether SIGINT ends the program, and it prints nothing more. A test in the background ignores that signal, so it is set anew."""
    heed = partial(signal.signal, signal.SIGINT, signal.SIG_DFL)
    with subprocess.Popen([program], stdin=subprocess.PIPE, stdout=subprocess.DEVNULL, stderr=subprocess.PIPE, preexec_fn=heed) as run:
        run.stdin.write(script)
        run.stdin.flush()
        time.sleep(0.2)
        run.send_signal(signal.SIGINT)
        return run.wait(600) == -signal.SIGINT and run.stderr.read() == b""


def inputs(program, folder):
    printed = FIRST.with_suffix(".out").read_text()
    yield "no such file", shell(program, '"$MVSJOB" nowhere.job') == (16, "", "mvsjob: cannot open script\n    nowhere.job: no such file\n")
    locked = Path(folder) / "locked.job"
    locked.write_text("")
    locked.chmod(0)
    denied = (16, "", f"mvsjob: cannot open script\n    {locked}: permission denied\n")
    yield "no permission", Lacking("a user other than root") if os.geteuid() == 0 else shell(program, f'"$MVSJOB" {locked}') == denied
    yield "a folder", shell(program, f'"$MVSJOB" {folder}') == (16, "", f"mvsjob: read failed\n    {folder}: is a directory\n")
    yield "closed input", shell(program, '"$MVSJOB" <&-') == (16, "", "mvsjob: read failed\n")
    yield "an empty script", shell(program, '"$MVSJOB" /dev/null') == (12, "1 JS09\nJOB FAULT RC 12\n", "/dev/null:1:1: JS09: the script has no statement\n")
    status, out, err = shell(program, '"$MVSJOB" "$MVSJOB"')
    yield "the program as a script", (status, out) == (12, "1 JS01\nJOB FAULT RC 12\n") and err.endswith(":1:256: JS01: a line has at most 255 bytes; is the file a script?\n")
    said = "-:1:1: JS02: invalid byte X'00': only X'20' to X'7E' are allowed\n    ....\n    ^ not a byte of a text: is the file a script?\n"
    yield "bytes that are no text", shell(program, '"$MVSJOB"', stdin=bytes([0, 1, 2, 255])) == (12, "1 JS02\nJOB FAULT RC 12\n", said)
    checked = b"JOB REGION BELOW=1\nJOB GETMIAN R => RC 0\n"
    said = "-:2:5: JS03: unknown operation GETMIAN\n    JOB GETMIAN R\n        ^^^^^^^ did you mean GETMAIN?\n"
    yield "a fault that is checked", shell(program, '"$MVSJOB" --check', stdin=checked) == (1, "-:2: expected RC 0, got JS03\n0 of 1 right, 1 wrong, 0 not answered\n", said)
    status, out, err = shell(program, '"$MVSJOB"', stdin=b"JOB" + bytes(300))
    yield "a long line of no text", (status, out, err) == (12, "1 JS01\nJOB FAULT RC 12\n", "-:1:256: JS01: a line has at most 255 bytes; is the file a script?\n")
    status, out, err = shell(program, 'head -c 17000000 /dev/zero | tr "\\0" "\\n" | "$MVSJOB"')
    yield "17,000,000 bytes", (status, out, err) == (16, "", "mvsjob: script too long\n")
    link = Path(folder) / "link.job"
    link.symlink_to(FIRST)
    yield "a link", shell(program, f'"$MVSJOB" {link}') == (0, printed, "")
    yield "another folder", shell(program, f'cd "{FIRST.parent}" && "$MVSJOB" -- first.job') == (0, printed, "")


def outputs(program):
    yield "closed output", shell(program, '"$MVSJOB" "$FIRST" >&-') == (16, "", "mvsjob: write failed\n")
    yield "a full device", shell(program, '"$MVSJOB" "$FIRST" > /dev/full') == (16, "", "mvsjob: write failed\n")
    yield "closed standard error", shell(program, '"$MVSJOB" nowhere.job 2>&-') == (16, "", "")
    closed = 'yes "JOB REGION BELOW=1" | head -99999 | "$MVSJOB" | head -1; echo ${PIPESTATUS[2]}'
    yield "a closed pipe", shell(program, closed) == (0, f"{BEGUN}141\n", "")
    runs = [subprocess.Popen([program, FIRST], stdout=subprocess.PIPE, stderr=subprocess.STDOUT) for _ in range(20)]
    yield "20 at once", all(run.communicate(timeout=600)[0] == FIRST.with_suffix(".out").read_bytes() for run in runs)
    yield "interrupted while it waits", interrupted(program, b"JOB REGION BELOW=1\n")


def words(program):
    for said in ("--place middle", "--place low --place high", "--unknown", "--place"):
        status, out, err = shell(program, f'"$MVSJOB" {said}')
        yield said, status == 16 and out == "" and err.startswith("error: ")
    status, out, err = shell(program, '"$MVSJOB" --place low a.job b.job')
    yield "two files", status == 16 and out == "" and err.startswith("mvsjob: expected one FILE, found several")
    status, out, err = shell(program, '"$MVSJOB" --place low a.job --plase')
    yield "one file and a wrong word", status == 16 and err.startswith("error: ")
    yield "--place=high", shell(program, '"$MVSJOB" --place=high "$FIRST"')[0] == 0
    for word, kept in {"-h": "help.txt", "--help": "help-long.txt"}.items():
        yield word, shell(program, f'"$MVSJOB" {word}') == (0, (TOP / "tools" / kept).read_text(), "")


def results(program):
    with tempfile.TemporaryDirectory() as folder:
        return [*inputs(program, folder), *outputs(program), *words(program)]
