"""Too little memory, failing reads and writes, few bytes a call, cut and damaged scripts.

A program that stops with an error has printed all that the lines before print.
"""

import functools
import os
import random
import shutil
import subprocess
import tempfile
from functools import partial
from pathlib import Path

import mistakes
import random_scripts
import session
from cases import each, seeds, whole

CASES = 20_000
MOST_BYTES = 16_777_215
CUT = [f"example {name}.job" for name in ("first", "contents", "pools", "steps")]
MODES = ("--explain", "--leaks", "--json", "--json --explain", "--page", "--strict", "--interactive", "--check", "--blank", "--ask", "--assemble")
MODES += ("--judge OUTPUT", "--place high", "--random 7 --lines 40", "--random 7 --lines 40 --profile tasks", "--help", "--version")
OF_MODES = ("example pools.job", "script storage_a_run_is_joined_across_pages.job")
CUT += ["script storage_a_run_is_joined_across_pages.job"]
FED = ("lists.job", "pool_parts.job", "report_given_and_shared.job", "job_two_steps.job")
NO_STATEMENT = "-:16777216:1: JS09: the script has no statement\n"
END = {0: "STEP ENDED RC 0", 8: "STEP ENDED RC 8", 12: "JOB FAULT RC 12"}
SAYS = {
    "alloc": "mvsjob: out of memory\n",
    "read": "mvsjob: read failed\n",
    "write": "mvsjob: write failed\n",
    "none": "mvsjob: write failed\n",
}


@functools.cache
def folder():
    return tempfile.TemporaryDirectory()


@functools.cache
def library():
    """Lets a call fail, once it is preloaded; None where it cannot be made."""
    made = f"{folder().name}/failing.so"
    source = Path(__file__).with_name("failing.c")
    words = ["cc", "-shared", "-fPIC", "-O1", "-o", made, source, "-ldl"]
    return made if shutil.which("cc") and subprocess.run(words).returncode == 0 else None


class Failing:
    """Runs the program with one call of the operating system failing, or all moving few bytes."""

    def __init__(self, program):
        self.program, self.library, self.folder = program, library(), folder().name

    def run(self, script, *words, **names):
        if self.library is None:
            raise RuntimeError("tests/failing.c is not compiled")
        env = os.environ | {"LD_PRELOAD": self.library} | names
        with tempfile.TemporaryFile() as stdin:  # of which a read gets all that it asks for
            stdin.write(script)
            stdin.seek(0)
            ran = subprocess.run([self.program, *words], stdin=stdin, env=env, capture_output=True, timeout=600)
        return ran.returncode, ran.stdout, ran.stderr.decode()

    def counted(self, run):
        """How many calls of each kind a run makes."""
        calls = f"{self.folder}/calls{os.getpid()}"
        run(CALLS=calls)
        return dict(zip(("alloc", "read", "write"), map(int, Path(calls).read_text().split())))


def front(whole, lines):
    """What the first lines of a script print, of all that it prints. The end of a step belongs to the line after it."""
    printed, ends = [], []
    for line in whole.decode().splitlines(True):
        if line.startswith(("STEP ENDED", "JOB FAULT")):
            ends.append(line)
        elif int(line.split()[0]) > lines:
            break
        else:
            printed, ends = printed + ends + [line], []
    return "".join(printed).encode()


def each_failing(failing, script):
    """Each allocation, read and write refused in turn: the program stops and reports it, and has printed a front. For lack
    of memory it is all that comes before a reply; at a read that fails it is what the lines printed."""
    well, lines = failing.run(script), script.count(b"\n")
    counts = failing.counted(partial(failing.run, script))
    ends = (b"", b"STEP ENDED RC 0\n", b"STEP ENDED RC 8\n")
    befores = {front(well[1], line) + end for line in range(lines + 1) for end in ends}
    for kind, count in (counts | {"none": counts["write"]}).items():
        for k in range(1, count + 1):
            status, out, err = failing.run(script, FAIL=f"{kind}:{k}")
            gave_up = status == 16 and err == SAYS[kind] and well[1].startswith(out)
            if kind == "alloc":
                gave_up &= out in befores
            elif kind == "read":
                gave_up &= out == (b"" if k == 1 else front(well[1], lines))
            if not gave_up and (kind != "alloc" or (status, out, err) != well):
                return False
    return counts["alloc"] > 0 and counts["read"] > 0 and counts["write"] > 0


def mode_failing(failing, scripts, mode):
    """Each allocation, read and write refused in turn in a mode: the program stops and reports it, and what it has printed is a
    front of what it prints, or it ends as it does without the refusal: a hint may be missing on standard error then."""
    output = f"{failing.folder}/output{os.getpid()}"
    for script in scripts:
        Path(output).write_bytes(failing.run(script)[1].replace(b"RC 0", b"RC 4", 1))
        words = mode.replace("OUTPUT", output).split()
        well = failing.run(script, *words)
        counts = failing.counted(partial(failing.run, script, *words))
        for kind, count in (counts | {"none": counts["write"]}).items():
            for k in range(1, count + 1):
                status, out, err = failing.run(script, *words, FAIL=f"{kind}:{k}")
                gave_up = status == 16 and err.endswith(SAYS[kind]) and well[1].startswith(out)
                if not gave_up and (kind != "alloc" or (status, out) != well[:2]):
                    return False
        if counts["alloc"] == 0 or counts["write"] == 0:
            return False
    return True


def reads_failing(failing, script):
    """It reads byte by byte, and one read fails: it has printed what the lines print that had ended before."""
    whole = failing.run(script)[1]
    wells = (
        failing.run(script, PIECES="1", FAIL=f"read:{at + 1}") == (16, front(whole, script[:at].count(b"\n")), SAYS["read"])
        for at in range(len(script) + 1)
    )
    return all(wells)


def writes_failing(failing, case):
    """It gets a script line by line, and one write fails: what the lines before print had come."""
    names = {"LD_PRELOAD": failing.library}
    whole = "".join(f"{line}\n" for line in case.printed()).encode()
    count = failing.counted(lambda **more: session.line_by_line(failing.program, case, **names, **more))["write"]
    for k in range(1, count + 1):
        heard, (status, out, err) = session.line_by_line(failing.program, case, **names, FAIL=f"write:{k}")
        if heard < k - 1 or (status, err) != (16, SAYS["write"]) or not whole.startswith(out):
            return False
    return count > 1


def in_pieces(failing, script):
    """Few bytes a call print the same."""
    well = failing.run(script)
    return all(failing.run(script, PIECES=str(pieces)) == well for pieces in (1, 7))


def cut(failing, script):
    """Cut after a line it prints what the lines up to there print, and the end; cut inside a line the same, and what that
    line prints as it is."""
    whole = failing.run(script)[1]
    for at in range(len(script)):
        status, out, err = failing.run(script[:at])
        before = front(whole, script[:at].count(b"\n"))
        last = out.decode().splitlines()[-1]
        if not mistakes.tells(out.decode(), err) or last != END[status] and not (status == 8 and last == END[0]) or not out.startswith(before):
            return False
        if before and script[:at].endswith(b"\n") and out != before + f"{last}\n".encode():
            return False
    return True


def is_sound(failing, script, seed):
    """Whatever the bytes are: the last line agrees with the status, standard error reports only a fault, and few bytes a call
    print the same."""
    status, out, err = failing.run(script)
    last = out.decode().splitlines()[-1]
    return last == END.get(status) and mistakes.tells(out.decode(), err) and failing.run(script, PIECES=str(1 + seed % 9)) == (status, out, err)


def damaged(seed):
    """A random script with one byte changed, put in or left out."""
    rng = random.Random(seed)
    script = bytearray(random_scripts.Script(seed).grow(random_scripts.STORAGE | dict(pool=4), 15).text().encode())
    at = rng.randrange(len(script))
    script[at : at + rng.randrange(2)] = bytes([rng.choice([rng.randrange(256), *b"\n, ()=+'X0A9"])])[: rng.randrange(4)]
    return bytes(script)


def damaged_is_sound(failing, seed):
    return is_sound(failing, damaged(seed), seed)


def random_bytes(seed):
    rng = random.Random(seed)
    letters = bytes(range(256)) if seed % 2 else b"JOB REGION BELOW=1\nGETMAIN,()X'09 *"
    return bytes(rng.choice(letters) for _ in range(rng.randrange(400)))


def bytes_are_sound(failing, seed):
    return is_sound(failing, random_bytes(seed), seed)


def at_the_limit(program):
    """The longest script, one a byte longer, and the same at a pipe: what its last line prints comes before that byte is read."""
    begin, last = b"JOB REGION BELOW=1\nJOB GETMAIN R,LV=8,A=X\n", b"JOB WHERE X\n"
    lines = MOST_BYTES - len(begin) - len(last)
    script = begin + b"\n" * lines + last
    printed = f"1 JOB REGION BELOW 1 ABOVE 0\n2 JOB RC 0\n{lines + 3} JOB AT 00006000\n".encode()
    plain = lambda text: subprocess.run([program], input=text, capture_output=True, timeout=600)
    said = lambda ran: (ran.returncode, ran.stdout, ran.stderr.decode())
    yield "a script of newlines", said(plain(b"\n" * MOST_BYTES)) == (12, b"16777216 JS09\nJOB FAULT RC 12\n", NO_STATEMENT)
    yield "one newline more", said(plain(b"\n" * (MOST_BYTES + 1))) == (16, b"", "mvsjob: script too long\n")
    yield "the longest script", said(plain(script)) == (0, printed + b"STEP ENDED RC 0\n", "")
    yield "one byte more", said(plain(script + b"\n")) == (16, printed, "mvsjob: script too long\n")
    pipe = session.Session(program)
    pipe.tell(script)
    heard = pipe.hear(printed)
    pipe.tell(b"\n")
    yield "one byte more, at a pipe", heard and pipe.end() == (16, printed, "mvsjob: script too long\n")


def of_text(holds, failing, named):
    """Whether it holds of a text that has a name."""
    return holds(failing, named[1])


def groups(program, cases, examples):
    """The groups of cases."""
    failing = Failing(program)
    scripts = {f"example {path.name}": path.read_bytes() for path in examples}
    scripts |= {f"script {case.name}": case.script().encode() for case in cases}
    fed = [case for case in cases if case.name in FED]
    cuts = {name: scripts[name] for name in CUT if name in scripts}

    def over(holds, texts):
        return each(partial(of_text, holds, failing), texts.items(), lambda named: named[0])

    def seeded(holds):
        return each(partial(holds, failing), seeds(CASES), str, chunksize=50)

    yield "each call failing", over(each_failing, scripts)
    modes = [scripts[name] for name in OF_MODES if name in scripts]
    yield "each call failing, in each mode", each(partial(mode_failing, failing, modes), MODES, str)
    yield "each read failing, byte by byte", over(reads_failing, cuts)
    yield "each write failing, line by line", each(partial(writes_failing, failing), fed)
    yield "in pieces", over(in_pieces, scripts)
    yield "cut", over(cut, cuts)
    yield "at the limit", whole(at_the_limit, program)
    yield "damaged scripts", seeded(damaged_is_sound)
    yield "random bytes", seeded(bytes_are_sound)
