#!/usr/bin/env python3
"""gate.py: the gate itself. In a copy of some of the repository each plant makes it fail, and without a plant it passes.

`tools/ci`: over a copy of two small crates, as `rt ci` proves them and tries their edits; and over a command in the role of `rt`, which prints what
that would print. `tools/wrong_bodies`: over the same copy. `tests/run`: over a copy of the tests and the program. `./test`: over small commands in
the roles of its parts. Last line: 'N passed, M failed'.
"""

import os
import re
import shutil
import subprocess
import sys
import tempfile
from concurrent.futures import ThreadPoolExecutor
from functools import partial
from pathlib import Path

TOP = Path(__file__).resolve().parent.parent
CRATES = ("mvs_model", "page_map", "boundary_loc")
LIB = "crates/boundary_loc/src/lib.rt"
STALE = "file: src/lib.rt\nold: this text is nowhere\nnew: here\n"
NO_CODE = "file: src/lib.rt\nold:     number / unit * unit\nnew:     number / unit ((((\n"
# The same under another name, which the proof cites.
RENAMED = (
    "file: src/lib.rt\n"
    "old:     let last = round_down(from + (room - len), power(want.start()));\n"
    "new:     let far = round_down(from + (room - len), power(want.start()));\n"
    "old:     let at = last_start(last, want.start(), want.within(), len);\n"
    "new:     let at = last_start(far, want.start(), want.within(), len);\n"
)
# Wrong bodies and a control, each with what tools/wrong_bodies has to print of it.
PLANTED = {
    "wrong/proved.edit": (
        "file: src/lib.rt\nold:     Some(Place::new(addr, len))\nnew:     let place = Place::new(addr, len); Some(place)\n# refused: returns\n",
        "boundary_loc/proved: not refused: it is proved with this change",
    ),
    "wrong/no_line.edit": (
        "file: src/lib.rt\nold:     bound - addr % bound\nnew:     bound\n",
        "boundary_loc/no_line: it has no line `# refused:`, and is refused on returns",
    ),
    "wrong/another_goal.edit": (
        "file: src/lib.rt\nold:     number / unit * unit\nnew:     number / unit * unit / 2\n# refused: nothing\n",
        "boundary_loc/another_goal: refused on returns, and not on nothing",
    ),
    "wrong/no_code.edit": (NO_CODE + "# refused: returns\n", "boundary_loc/no_code: bad edit: "),
    "wrong/stale.edit": (STALE + "# refused: returns\n", "boundary_loc/stale: bad edit: "),
    "wrong/renamed.edit": (RENAMED + "# refused: returns\n", "boundary_loc/renamed: refused only because a proof file names what it takes away"),
    "wrong/deep/one.edit": (STALE, "crates/boundary_loc/wrong/deep/one.edit: it is not in the folder itself"),
    "controls/no_line.control": (
        "file: src/lib.rt\nold:     bound - addr % bound\nnew:     bound - addr % bound / 2\n",
        "boundary_loc/no_line: the control is refused, so its wrong body shows nothing",
    ),
    "controls/alone.control": (STALE, "boundary_loc/alone.control: it is beside no wrong body of the same place"),
}
# A group of two cases. The second one needs a tool that is missing.
LACKS = """from cases import Lacking


def results(program):
    yield "tried", True
    yield "not tried", Lacking("a tool of this name")
"""
# Groups that do not come to their end.
STOPPING = {
    "a group raises": 'def results(program):\n    raise ValueError("no results")\n',
    "a group exits": "import sys\n\n\ndef results(program):\n    sys.exit(0)\n",
    "a worker dies": "import os\n\n\ndef results(program):\n    os._exit(0)\n",
}
WRONG_CODE = ("number / unit * unit", "number / unit * unit / 2")
STAND_IN = '#!/bin/sh\ncat "$(dirname "$0")/said"\nexit $(cat "$(dirname "$0")/status")\n'
REFUSED = "rt: must-fail toy/one.edit: refused, as it must be: note: src/lib.rt:1:1: it is not proved\n"
AT_LIMIT = "rt: must-fail toy/one.edit: refused, as it must be (only by a limit of the prover, which gave no verdict): error\n"
BY_NAME = "rt: must-fail toy/one.edit: refused, as it must be (only because a proof file names what the edit took away): error\n"
BAD = "rt: must-fail toy/one.edit: BAD EDIT: an 'old:' text is in src/lib.rt 0 times, and not once\n"
MISPLACED = "rt: crates/toy/must-fail/deep: BAD EDIT: an edit stands right in must-fail/\n"
KEPT = "rt: toy: 1 of its 1 must-fail edits were tried by an earlier run on this machine\n"
WELL = "2 passed, 0 failed\n"
# The parts of ./test, and the commands that it asks for and that it uses.
GATE = ("tools/ci", "tools/wrong_bodies", "tests/gate.py", "tests/run")
NEEDED = ("rt", "python3", "cc", "dpkg-deb", "strip", "objdump", "objcopy", "man", "chromium")
USED = ("awk", "bash", "cat", "dirname", "env", "grep", "mkdir", "mktemp", "nproc", "rm", "sh", "sort", "tail", "tee")


def called(*words, **how):
    ran = subprocess.run(words, stdout=subprocess.PIPE, stderr=subprocess.STDOUT, text=True, errors="replace", **how)
    return ran.returncode, ran.stdout


def last(printed):
    return printed.splitlines()[-1] if printed else ""


# ---- ./test over commands in the roles of its parts


def of_parts(folder, missing=(), **changed):
    """The status and the output of ./test, if each part prints a text and ends with a status, and some commands are missing."""
    shutil.rmtree(folder, ignore_errors=True)
    for name in ("tools", "tests", "bin"):
        (folder / name).mkdir(parents=True)
    shutil.copy(TOP / "test", folder)
    for name in USED:
        (folder / "bin" / name).symlink_to(shutil.which(name))
    # There is no apt, so nothing is installed.
    commands = {f"bin/{name}": ("", 1) for name in NEEDED if name not in missing}
    commands |= {name: changed.get(name.partition("/")[2].partition(".")[0], (WELL, 0)) for name in GATE}
    for name, (said, status) in commands.items():
        (folder / name).write_text(f"#!/bin/sh\ncat << 'END'\n{said}END\nexit {status}\n")
        (folder / name).chmod(0o755)
    return called(folder / "test", env={"PATH": f"{folder}/bin", "TMPDIR": str(folder)})


def parts_fail(folder):
    """./test with a fault in one of its parts."""
    status, printed = of_parts(folder)
    yield "parts", (status, last(printed)) == (0, "8 passed, 0 failed")
    for name in ("ci", "wrong_bodies", "gate", "run"):
        fails = lambda said, status, name=name: of_parts(folder, **{name: (said, status)})  # noqa: E731
        found = {"a failure": fails("1 passed, 1 failed\n", 1), "no sum": fails("note: it stops\n", 0), "a status": fails(WELL, 2)}
        for what, (status, printed) in found.items():
            yield f"{what} of {name}", status == 1 and last(printed).endswith(" passed, 1 failed")
    _, printed = of_parts(folder, run=("FAILED: a case\n1 passed, 1 failed\n", 1))
    yield "a failure once more", printed.count("FAILED: a case\n") == 2
    for name in NEEDED:
        status, printed = of_parts(folder, (name,))
        yield f"no command {name}", (status, last(printed)) == (1, "8 passed, 1 failed")
    times = "time:    20.5 s  a crate\n", "time:     3.0 s  a group\n"
    _, printed = of_parts(folder, run=(times[1] + times[0] + WELL, 0), ci=("time:    12.0 s  a proof\n" + WELL, 0))
    yield "times", re.findall(r"(?m)^time: .* (\w+)$", printed) == ["crate", "proof", "group"]


# ---- tools/ci over a command in the role of rt


def of_stand_in(folder, said, status, edits=("one.edit",)):
    """What tools/ci makes of what `rt ci` prints, of a crate with these edits."""
    shutil.rmtree(folder, ignore_errors=True)
    for name in ("tools", "crates/toy/must-fail", "bin"):
        (folder / name).mkdir(parents=True)
    for name in ("ci", "edits.py", "libraries.py", "seeds.py"):
        shutil.copy(TOP / "tools" / name, folder / "tools")
    for name in edits:
        (folder / "crates/toy/must-fail" / name).write_text(STALE)
    (folder / "bin/rt").write_text(STAND_IN)
    (folder / "bin/rt").chmod(0o755)
    (folder / "bin/said").write_text(said)
    (folder / "bin/status").write_text(str(status))
    env = os.environ | {"PATH": f"{folder}/bin:{os.environ['PATH']}"}
    return called(folder / "tools/ci", env=env)


def stand_ins(folder):
    fails = lambda found: found[0] == 1 and not last(found[1]).endswith(" 0 failed")  # noqa: E731
    yield "a refusal", of_stand_in(folder, REFUSED + WELL, 0) == (0, REFUSED + WELL)
    yield "a refusal of an earlier run", of_stand_in(folder, KEPT + REFUSED + WELL, 0) == (0, KEPT + REFUSED + WELL)
    shows_nothing = {"a bad edit": BAD, "a misplaced edit": REFUSED + MISPLACED, "a limit": AT_LIMIT, "a name in a proof": BY_NAME}
    for name, said in shows_nothing.items():
        yield name, fails(of_stand_in(folder, said + WELL, 0))
    yield "an edit without a refusal", fails(of_stand_in(folder, REFUSED + WELL, 0, ("one.edit", "two.edit")))
    yield "a refusal without an edit", fails(of_stand_in(folder, REFUSED + WELL, 0, ()))
    yield "a status that is not 0", fails(of_stand_in(folder, REFUSED + WELL, 2))
    yield "no sum", fails(of_stand_in(folder, REFUSED, 0))
    yield "no output", fails(of_stand_in(folder, "", 0))
    yield "a failure of rt", fails(of_stand_in(folder, REFUSED + "1 passed, 1 failed\n", 1))


# ---- tools/ci and tools/wrong_bodies over two crates


def copied(folder):
    """A copy of the repository with only the small crates."""
    for name in ("tools", *(f"crates/{crate}" for crate in CRATES)):
        shutil.copytree(TOP / name, folder / name, ignore=shutil.ignore_patterns("out"))
    lines = (TOP / "crates.txt").read_text().splitlines()
    (folder / "crates.txt").write_text("".join(f"{line}\n" for line in lines if line.split(":")[0] in CRATES))
    shutil.copy(TOP / "HANDLES", folder)
    for change in (*(folder / "crates/mvs_model").glob("*/*.edit"), *(folder / "crates/mvs_model").glob("*/*.control")):
        change.unlink()
    return folder


def planted_fault(folder):
    """A crate whose code does not meet its contract."""
    copied(folder)
    text = (folder / LIB).read_text()
    (folder / LIB).write_text(text.replace(*WRONG_CODE))
    status, printed = called(folder / "tools/ci")
    yield "a wrong body in a crate", text.count(WRONG_CODE[0]) == 1 and status == 1 and "boundary_loc NOT PROVED" in printed


def planted_edits(folder):
    """Edits of must-fail/ that show nothing."""
    copied(folder)
    planted = {"stale": STALE, "no_code": NO_CODE, "renamed": RENAMED}
    for name, text in planted.items():
        (folder / f"crates/boundary_loc/must-fail/{name}.edit").write_text(text)
    status, printed = called(folder / "tools/ci")
    for name in planted:
        yield f"planted {name}", status == 1 and f"ci: must-fail boundary_loc/{name}.edit: " in printed
    yield "planted edits count", last(printed).endswith(" 3 failed")


def planted_wrong_bodies(folder):
    """A run without a plant, and one of tools/wrong_bodies over the libraries that it has left."""
    copied(folder)
    status, printed = called(folder / "tools/ci")
    yield "two crates", status == 0 and last(printed).endswith(" 0 failed")
    for name, (text, _) in PLANTED.items():
        path = folder / "crates/boundary_loc" / name
        path.parent.mkdir(parents=True, exist_ok=True)
        path.write_text(text)
    status, printed = called(folder / "tools/wrong_bodies")
    for name, (_, said) in PLANTED.items():
        yield f"planted {name}", status == 1 and said in printed
    for name in PLANTED:
        (folder / "crates/boundary_loc" / name).unlink()
    env = os.environ | {"XDG_CACHE_HOME": str(folder / "cache")}
    own = [path for path in (folder / "crates/boundary_loc").glob("*/*") if path.suffix in (".edit", ".control") and path.parent.name != "must-fail"]
    tries = lambda *words: called(folder / "tools/wrong_bodies", *words, "boundary_loc", env=env)[1].count("as an earlier run found")  # noqa: E731
    yield "nothing was tried earlier", tries() == 0
    yield "what was tried earlier", tries() == len(own) > 1
    yield "what was tried earlier is tried anew", tries("--anew") == 0
    own[0].write_text(own[0].read_text() + "# another text\n")
    yield "a change with another text is tried", tries() == len(own) - 1
    (folder / LIB).write_text((folder / LIB).read_text().replace(*WRONG_CODE))
    status, printed = called(folder / "tools/wrong_bodies", "boundary_loc", env=env)
    yield "wrong bodies of a crate that is not proved", status == 1 and ": not tried: what it is in is not proved as it is" in printed


# ---- tests/run


def tests_fail(folder):
    """tests/run over a copy, with scripts and programs missing."""
    for name in ("tests", "bench", "examples", "docs", "lessons", "tools"):
        shutil.copytree(TOP / name, folder / name)
    made = folder / "crates/mvsjob/out"
    made.mkdir(parents=True)
    for name in ("mvsjob", "mvsjob.by-rattle"):
        shutil.copy(TOP / "crates/mvsjob/out" / name, made)
    run = lambda *words: called(folder / "tests/run", *words)  # noqa: E731
    status, printed = run("scripts")
    yield "tests", status == 0 and last(printed).endswith(" 0 failed")
    (made / "mvsjob.by-rattle").unlink()
    yield "one program is missing", run("scripts")[0] == 1
    shutil.copy(made / "mvsjob", made / "mvsjob.by-rattle")
    yield "no such group", run("script")[0] == 1
    cases = sorted((folder / "tests/scripts").glob("*.job"))
    answered = next(path for path in cases if " => RC 0\n" in path.read_text())
    wanted = answered.read_text()
    answered.write_text(wanted.replace(" => RC 0\n", " => RC 4\n", 1))
    yield "a wrong answer", run("scripts")[0] == 1
    answered.write_text(wanted)
    for path in cases[24:]:
        path.unlink()
    status, printed = run("scripts")
    yield "case files are missing", status == 1 and f"24 cases, and tests/counts has {len(cases)}" in printed
    counts = folder / "tests/counts"
    counts.write_text(re.sub(r"(?m)^\d+ strict$", "2 strict", counts.read_text()))
    (folder / "tests/strict.py").write_text(LACKS)
    status, printed = run("strict")
    lines = "\nnot tried: strict not tried (a tool of this name)\nnot tried: 1 cases, for want of a tool of this name\n1 passed, 0 failed\n"
    yield "a tool is missing", status == 0 and printed.endswith(lines)
    for what, text in STOPPING.items():
        (folder / "tests/strict.py").write_text(text)
        status, printed = run("strict")
        yield what, status == 1 and not last(printed).endswith(" 0 failed")
    (made / "mvsjob").unlink()
    (made / "mvsjob.by-rattle").unlink()
    yield "no program", last(run("scripts")[1]) == "0 passed, 1 failed"


PARTS = (parts_fail, stand_ins, tests_fail, planted_fault, planted_edits, planted_wrong_bodies)


def tried(room, part):
    try:
        return list(part(room / part.__name__))
    except (OSError, IndexError) as error:
        return [(f"{part.__name__}: {error}", False)]


def main():
    found = []
    with tempfile.TemporaryDirectory(prefix="gate-") as name, ThreadPoolExecutor(len(PARTS)) as pool:
        for cases in pool.map(partial(tried, Path(name)), PARTS):
            for case, well in cases:
                print(f"{'' if well else 'FAILED: '}gate: {case}{': passed' if well else ''}", flush=True)
                found.append(well)
    print(f"{sum(found)} passed, {len(found) - sum(found)} failed")
    return 1 if not all(found) else 0


if __name__ == "__main__":
    sys.exit(main())
