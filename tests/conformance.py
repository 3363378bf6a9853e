"""The judge, on what the plain machine prints with places and cells of its own.

What it prints for a script of conformance/scripts or a random one, with a WHERE after each request for areas or a cell, is accepted with each of
its placements, and never refused; so is what it prints for a random script of cell pools, wherever its parts are and in whatever order it takes
their cells; of random scripts with all forms, at random places, most are accepted and none is refused, and where a byte is changed most are
refused; what a wrong variant prints is refused, on some script; and where a byte is changed outside of an address, it is refused, or not decided where that is possible: at a list, or after a line whose places no answer shows.
What no run prints wherever places are is refused after a CPOOL BUILD too: another end of the step, an answer that is missing or doubled, and one
that its line cannot have.
A random script has the same bytes for ever.
"""

import hashlib
import os.path
import random
import re
import subprocess
import tempfile
from functools import partial
from pathlib import Path

import plain_emulator
import pool_scripts
from cases import each, seeds, whole

HERE = Path(__file__).resolve().parent
SCRIPTS = sorted((HERE.parent / "conformance/scripts").glob("*.job"))
HELD = [line.split() for line in (HERE / "random_scripts.sha256").read_text().splitlines()]
PLACEMENTS = ("low", "high", "page", "random")
ORDERS = ("first", "last", "random")
PROFILES = ("storage", "tasks", "tidy", "faults")
ACCEPTED, REFUSED, UNDECIDED = ("ACCEPTED", 0), ("REFUSED", 1), ("UNDECIDED", 2)
RANDOM = 400
POOLS = 120
CHANGED = 200
ALL_FORMS = 800


def asked(program, script):
    return subprocess.run([program, "--ask"], input=script, capture_output=True, text=True).stdout


def judgement(program, script, printed):
    """What the judge says, and its exit status."""
    with tempfile.NamedTemporaryFile("w") as output:
        output.write(printed)
        output.flush()
        ran = subprocess.run([program, "--judge", output.name], input=script, capture_output=True, text=True)
    return ran.stdout, ran.returncode


def judged(program, script, printed):
    """The first line of that, and its exit status."""
    said, status = judgement(program, script, printed)
    return said.partition("\n")[0], status


def shows_all_places(script, placement):
    """Whether answers show all places that matter: there is no part of a pool without one, and no list that is refused by chance."""
    return placement == "low" or " CPOOL " not in script and (placement != "random" or " GETMAIN L" not in script)


def is_judged(program, script, placement, seed):
    """Whether the plain machine's printing is accepted, where its answers show all places."""
    verdict = judged(program, script, plain_emulator.run(script, placement, None, seed))
    return verdict == ACCEPTED or verdict == UNDECIDED and not shows_all_places(script, placement)


def of_corpus(program, case):
    """Whether the plain machine's printing of a script is accepted, and the stored one is the program's."""
    path, placement = case
    script, expected = path.read_text(), path.with_suffix(".out")
    if expected.exists():
        for place in ("low", "high"):
            ran = subprocess.run([program, "--place", place], input=script, capture_output=True, text=True)
            if ran.stdout != expected.read_text():
                return False
    return is_judged(program, asked(program, script), placement, 7)


def random_script(program, seed):
    words = ("--random", str(seed), "--lines", "60", "--profile", PROFILES[seed % len(PROFILES)])
    return asked(program, subprocess.run([program, *words], capture_output=True, text=True).stdout)


def of_seed(program, seed):
    """Whether the plain machine's printing of a random script is accepted."""
    return is_judged(program, random_script(program, seed), PLACEMENTS[seed // 4 % len(PLACEMENTS)], seed)


def nonsense(printed):
    """Printings that no run prints, wherever places are."""
    lines = printed.splitlines(True)
    yield "".join(lines[:-1])
    yield "".join(lines[:-1]) + ("STEP ENDED RC 8\n" if lines[-1] == "STEP ENDED RC 0\n" else "STEP ENDED RC 0\n")
    for k in [k for k, line in enumerate(lines) if line.endswith(" CELL\n")][:1]:
        yield "".join(lines[:k] + lines[k + 1 :])
        yield "".join(lines[: k + 1] + lines[k:])
        yield "".join(lines[:k] + [lines[k].replace(" CELL", " OK")] + lines[k + 1 :])


def of_cells(program, seed):
    """Whether the plain machine's printings of a random script of pools are accepted, with its placements and orders of cells.

    What is changed in one to what no run prints is refused.
    """
    script = asked(program, pool_scripts.pool_script(seed))
    for placement in PLACEMENTS:
        for order in ORDERS:
            if judged(program, script, plain_emulator.run(script, placement, None, seed, order)) != ACCEPTED:
                return False
    printed = plain_emulator.run(script, "high", None, seed, "first")
    return all(judged(program, script, other) == REFUSED for other in nonsense(printed))


def of_all_forms(program, seed):
    """What the judge says of the plain machine's printing of a random script with all forms, at random places, and of one with another byte."""
    words = ("--random", str(seed), "--lines", "60", "--profile", "all")
    script = asked(program, subprocess.run([program, *words], capture_output=True, text=True).stdout)
    printed = plain_emulator.run(script, "random", None, seed, "random")
    return judged(program, script, printed), judged(program, script, changed(printed, random.Random(seed)))


def most_are_decided(program, count):
    """Whether no such printing is refused, and how many are accepted: 19 of 20 or more. Of the changed ones three of four or more are refused."""
    verdicts, of_changed = zip(*(of_all_forms(program, seed) for seed in seeds(count)))
    yield "of all forms: none is refused", all(verdict in (ACCEPTED, UNDECIDED) for verdict in verdicts)
    yield "of all forms: most are accepted", verdicts.count(ACCEPTED) * 20 >= len(verdicts) * 19
    yield "of all forms: most that are changed are refused", of_changed.count(REFUSED) * 4 >= len(of_changed) * 3


def changed(printed, dice):
    """A printing with one byte that is another one, which is none of an address."""
    places = [k for k, char in enumerate(printed) if char != "\n"]
    for match in re.finditer(r" AT ([0-9A-F]{8})$", printed, re.M):
        places = [k for k in places if not match.start(1) <= k < match.end(1)]
    at = dice.choice(places)
    return printed[:at] + chr((ord(printed[at]) - 31) % 95 + 32) + printed[at + 1 :]


def answered(printed, number):
    """Where the answer to a line begins and ends."""
    starts = [(m.start(), int(m[1])) for m in re.finditer(r"^(\d+) ", printed, re.M)]
    begin = next((at for at, n in starts if n >= number), len(printed))
    return begin, next((at for at, n in starts if n > number), len(printed))


def may_find(script, printed, other):
    """What may be found of a printing that is changed."""
    at = len(os.path.commonprefix((printed, other)))
    for number, line in enumerate(script.splitlines(), 1):
        begin, end = answered(printed, number)
        if at < begin:
            return (REFUSED,)
        if re.match(r"\w+ +CPOOL +(BUILD|GET)", line):
            return (REFUSED, UNDECIDED)
        if re.match(r"\w+ +GETMAIN +L", line):
            if at < end:
                return (REFUSED, UNDECIDED)
            if " RC 0\n" not in printed[begin:end]:  # other places may serve
                return (REFUSED, UNDECIDED)
    return (REFUSED,)


def of_change(program, seed):
    """Whether a printing is refused if a byte, the last line or its last newline is changed, or is not decided where that is possible."""
    dice = random.Random(seed)
    script = random_script(program, seed)
    printed = plain_emulator.run(script, "page")
    others = [changed(printed, dice), printed + "\n", printed[:-1], "".join(printed.splitlines(True)[:-1])]
    return all(judged(program, script, other) in may_find(script, printed, other) for other in others)


def of_wrong(program, wrong):
    """Whether a wrong variant is refused on some script of the corpus."""
    for path in SCRIPTS:
        script = asked(program, path.read_text())
        if judged(program, script, plain_emulator.run(script, "low", wrong)) == REFUSED:
            return True
    return False


def is_held(program, held):
    """Whether a random script has the bytes that it has for ever."""
    checksum, profile, seed, lines = held
    words = ("--random", seed, "--lines", lines, "--profile", profile)
    return hashlib.sha256(subprocess.run([program, *words], capture_output=True).stdout).hexdigest() == checksum


def groups(program):
    cases = [(path, placement) for path in SCRIPTS for placement in PLACEMENTS]
    name = lambda case: f"{case[0].stem}, {case[1]}"  # noqa: E731
    yield "judged corpus", each(partial(of_corpus, program), cases, name, chunksize=20)
    yield "judged random scripts", each(partial(of_seed, program), seeds(RANDOM), str, chunksize=10)
    yield "judged scripts of all forms", whole(most_are_decided, program, ALL_FORMS)
    yield "judged cells", each(partial(of_cells, program), seeds(POOLS), str, chunksize=5)
    yield "judged changes", each(partial(of_change, program), seeds(CHANGED), str, chunksize=10)
    yield "judged wrong variants", each(partial(of_wrong, program), sorted(plain_emulator.WRONG), str)
    yield "bytes of random scripts", each(partial(is_held, program), HELD, lambda held: " ".join(held[1:]))
