"""How ./run begins and ends: its words, its input, its output, and what may be wrong with them.

Three cases are named after bodies that no contract refuses: a job that always answers "out of memory" (`always_memory`), a
reader or writer that is always taken as failed (`watched_always_fails`), words that are always refused
(`settings_always_refuses`).
"""

import os
import shutil
import subprocess
import tempfile
from pathlib import Path

TOP = Path(__file__).resolve().parent.parent
FIRST = TOP / "examples/first.job"
ONE_AREA = "JOB REGION BELOW=1\nJOB GETMAIN RU,LV=8,A=X\nJOB WHERE X\n"
PLACED = {
    "--place low -": "00006000",
    "- --place=low": "00006000",
    "--place high": "00006FF8",
    "--place=high -": "00006FF8",
}
BEGUN = "1 JOB REGION BELOW 1 ABOVE 0\n"
NO_SCRIPT = "1 JS09\nJOB FAULT RC 12\n"
BIG = "JOB REGION BELOW=1\nJOB GETMAIN R,LV=4096,A=X\n" + "JOB SHOW X,4096\n" * 300


def shell(command, cwd=None, stdin=None, **names):
    env = os.environ | {"RUN": str(TOP / "run"), "FIRST": str(FIRST)} | names
    ran = subprocess.run(["bash", "-c", command], cwd=cwd, input=stdin, env=env, capture_output=True, timeout=600)
    return ran.returncode, ran.stdout.decode(), ran.stderr.decode()


def ends_at_a_fault():
    """Whether the program ends after a line that is too long, though more could be read."""
    with subprocess.Popen([TOP / "run"], stdin=subprocess.PIPE, stdout=subprocess.PIPE, stderr=subprocess.DEVNULL) as run:
        run.stdin.write(ONE_AREA.encode() + 256 * b"*")
        run.stdin.flush()
        return run.wait(600) == 12 and run.stdout.read().endswith(b"\n4 JS01\nJOB FAULT RC 12\n")


def cases(folder):
    """Each case: its name, and whether it went as the documents say."""
    printed = FIRST.with_suffix(".out").read_text()
    link = Path(folder) / "link"
    link.symlink_to(TOP / "run")
    patient = subprocess.Popen(["bash", "-c", f'(sleep 61; cat "{FIRST}") | "{TOP}/run"'], stdout=subprocess.PIPE, stderr=subprocess.PIPE)
    yield "always_memory", shell('"$RUN" "$FIRST"') == (0, printed, "")
    yield "watched_always_fails", shell('"$RUN"', stdin=FIRST.read_bytes()) == (0, printed, "")
    for words, address in PLACED.items():
        status, out, err = shell(f'"$RUN" {words}', cwd=folder, stdin=ONE_AREA.encode())
        yield f"settings_always_refuses, {words}", (status, err) == (0, "") and f"3 JOB AT {address}\n" in out
    yield "a file that is named as an option", shell('"$RUN" -- --help', cwd=folder) == (16, "", "mvsjob: cannot open script\n    --help: no such file\n")
    yield "a dash", shell('"$RUN" -', stdin=FIRST.read_bytes()) == (0, printed, "")
    yield "another folder", shell('"$RUN" first.job', cwd=FIRST.parent) == (0, printed, "")
    yield "a link", shell(f'"{link}" "$FIRST"', cwd=folder) == (0, printed, "")
    yield "no such file", shell('"$RUN" nowhere.job') == (16, "", "mvsjob: cannot open script\n    nowhere.job: no such file\n")
    yield "a folder", shell(f'"$RUN" "{folder}"') == (16, "", f"mvsjob: read failed\n    {folder}: is a directory\n")
    yield "a folder that is checked", shell(f'"$RUN" --check "{folder}"') == (16, "", f"mvsjob: read failed\n    {folder}: is a directory\n")
    yield "no script", shell('"$RUN" /dev/null') == (12, NO_SCRIPT, "/dev/null:1:1: JS09: the script has no statement\n")
    yield "a closed pipe", shell('yes "JOB REGION BELOW=1" | head -99999 | "$RUN" | head -1; echo ${PIPESTATUS[2]}') == (0, f"{BEGUN}141\n", "")
    yield "closed input", shell('"$RUN" <&-') == (16, "", "mvsjob: read failed\n")
    yield "closed output", shell('"$RUN" "$FIRST" >&-') == (16, "", "mvsjob: write failed\n")
    yield "a full device", shell('"$RUN" "$FIRST" > /dev/full') == (16, "", "mvsjob: write failed\n")
    yield "no read behind a fault", ends_at_a_fault()
    for words in ("a.job b.job", "--place middle", "--place HIGH", "--unknown", "--place"):
        status, out, err = shell(f'"$RUN" {words}')
        yield words, status == 16 and out == "" and err != ""
    status, out, err = shell('"$RUN" --help')
    yield "--help", status == 0 and err == "" and all(f"{code} " in out for code in (0, 8, 12, 16))
    status, out, err = shell('"$RUN"', stdin=BIG.encode())
    yield "much output", status == 0 and err == "" and len(out.splitlines()) == 300 * 128 + 3
    bare = Path(folder) / "bare"
    (bare / "tools").mkdir(parents=True)
    for name in ("run", "x", "tools/run"):
        shutil.copy(TOP / name, bare / name)
    status, out, err = shell("./run x.job", cwd=bare, PATH="/usr/bin:/bin")
    yield "no kit", status == 16 and out == "" and "rt" in err and len(err.splitlines()) == 1
    out, err = patient.communicate(timeout=600)
    yield "a long run", (patient.returncode, out.decode(), err) == (0, printed, b"")


def results():
    with tempfile.TemporaryDirectory() as folder:
        return list(cases(folder))
