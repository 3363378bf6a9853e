"""`--strict`: what standard error says of lines that were not served (tests/strict.txt), and the exit status.

Standard output is the same as without the word.
"""

import subprocess
from pathlib import Path

TOP = Path(__file__).resolve().parent.parent
CASES = Path(__file__).with_name("strict.txt")
OVERLOOKED = (" NOT RUN", " NO NAME")


def cases():
    """Each script, and what is reported of it."""
    for case in CASES.read_text().split("\n\n")[1:]:
        script, _, said = f"{case.rstrip()}\n".partition("--\n")
        yield script, said


def called(program, script, *words):
    ran = subprocess.run([program, *words], input=script, capture_output=True, text=True, timeout=600)
    return ran.returncode, ran.stdout, ran.stderr


def wanted(status, printed):
    """The exit status, where the run without the word has this one."""
    overlooked = any(line.endswith(OVERLOOKED) for line in printed.splitlines())
    return 4 if status == 0 and overlooked else status


def is_reported(program, script, said):
    status, printed, _ = called(program, script)
    return called(program, script, "--strict") == (wanted(status, printed), printed, said)


def reports_each(program, path):
    """Whether just the lines of a script that were not executed are reported, and standard output is the same."""
    script = path.read_text()
    status, printed, fault = called(program, script)
    strict, same, said = called(program, script, "--strict")
    numbers = [line.split()[0] for line in printed.splitlines() if line.endswith(OVERLOOKED)]
    reported = [line.split(":")[1] for line in said.removesuffix(fault).splitlines() if line.startswith("-:")]
    return (strict, same, reported) == (wanted(status, printed), printed, numbers)


def results(program):
    scripts = sorted([*(TOP / "tests/scripts").glob("*.job"), *(TOP / "examples").glob("*.job")])
    reported = [(script.splitlines()[1], is_reported(program, script, said)) for script, said in cases()]
    return reported + [(path.name, reports_each(program, path)) for path in scripts]
