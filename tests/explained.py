"""`--explain`: scripts whose whole output is known, random ones, facts beside those of the plain machine, the texts and rules of
docs/EXPLAIN.md and docs/LEAKS.md, and the cost."""

import re
import resource
import subprocess
from functools import partial
from pathlib import Path

import plain_facts
import plain_histories
import plain_shortages
import random_scripts
from cases import each, seeds, whole

TOP = Path(__file__).resolve().parent.parent
REASONS = TOP / "tests/reasons"
PROFILES = ["storage", "tasks", "pools", "tidy", "faults"]
RANDOM_SCRIPTS = 5000
FACT_SCRIPTS = 1000
HISTORY_SCRIPTS = 5000
WANTING_SCRIPTS = 600


def known():
    """The scripts beside which a file says what they print with reasons."""
    return sorted([*(TOP / "examples").glob("*.job"), *REASONS.glob("*.job")])


def unstarred(printed):
    """The printed bytes without the lines that begin with an asterisk."""
    return b"".join(line for line in printed.splitlines(keepends=True) if not line.startswith(b"*"))


def called(program, script, *words):
    ran = subprocess.run([program, *words], input=script, capture_output=True, timeout=600)
    return ran.stdout, ran.stderr, ran.returncode


def as_known(program, path):
    """Whether a script prints the stored text with reasons, and without them what it prints without the option."""
    script = path.read_bytes()
    plain, explained = called(program, script), called(program, script, "--explain")
    return explained[0] == path.with_suffix(".why").read_bytes() and (unstarred(explained[0]), *explained[1:]) == plain


def same_bytes(program, seed):
    """Whether a random script prints the same bytes with reasons, but for their lines."""
    words = ["--place", "high"] if seed % 2 else []
    profile = PROFILES[seed % len(PROFILES)]
    script = called(program, b"", "--random", str(seed), "--lines", "60", "--profile", profile)[0]
    plain, explained = called(program, script, *words), called(program, script, "--explain", *words)
    return (unstarred(explained[0]), *explained[1:]) == plain


def as_plain(program, seed):
    """Whether the facts after what is granted in a random script, and the names in what is refused, are those of the plain machine."""
    placement = "high" if seed % 2 else "low"
    profile = PROFILES[seed % 4]
    script = called(program, b"", "--random", str(seed), "--lines", "60", "--profile", profile)[0]
    explained = called(program, script, "--explain", "--place", placement)[0].decode()
    expected = plain_facts.expected(script.decode().splitlines(), placement, plain_facts.addresses(explained))
    return plain_facts.without_reasons(explained) == list(expected)


def as_wanting(program, seed):
    """Whether the reasons for shortages of storage in a random script are those of the plain machine."""
    placement = "high" if seed % 2 else "low"
    kind = ("storage", "pools", "anything")[seed % 3]
    script = getattr(random_scripts, kind)(seed, False).text()
    explained = called(program, script.encode(), "--explain", "--place", placement)[0].decode()
    return plain_shortages.of(explained) == list(plain_shortages.expected(script.splitlines(), placement))


def as_history(program, seed):
    """Whether what the history of the storage says in a random script is what the plain machine has."""
    placement = "high" if seed % 2 else "low"
    kind = ("storage", "pools", "anything")[seed % 3]
    script = getattr(random_scripts, kind)(seed, False).text()
    printed, _, status = called(program, script.encode(), "--explain", "--place", placement)
    return status == 12 or plain_histories.is_as_plain(printed.decode(), script.splitlines(), placement)


def starred():
    """The lines with a reason of all scripts that are known."""
    return [line for path in known() for line in path.with_suffix(".why").read_text().splitlines() if line.startswith("*")]


# What two of the words between underscores stand for.
LONG_WORDS = {
    "_room_": r"the largest area that fits has \d+ bytes; free runs: \d+; free pages: \d+ below, \d+ above",
    "_area_": r"\S+: (?:\d+ of )?\d+ bytes at [0-9A-F]{8} in SP \d+ of \S+, obtained by \S+ in line \d+",
}


def rows():
    """The texts of docs/EXPLAIN.md and docs/LEAKS.md, as patterns: a word between underscores is a place to fill in."""
    pages = "".join((TOP / f"docs/{name}.md").read_text() for name in ("EXPLAIN", "LEAKS"))
    texts = re.findall(r"^\|[^|]*\| `(\* [^`]*)` \|$", pages, re.M)
    escaped = {text: re.escape(text).replace(r"\_", "_") for text in texts}
    return {text: re.compile(re.sub(r"_[a-z]+_", lambda it: LONG_WORDS.get(it[0], ".+"), line)) for text, line in escaped.items()}


def texts():
    """Whether each text of the document comes in a script, each line of a script is one of them, and each rule is there."""
    patterns, lines = rows(), starred()
    rules = {int(number) for number in re.findall(r"^\| (\d+) \|", (TOP / "docs/RULES.md").read_text(), re.M)}
    for text, pattern in patterns.items():
        yield f"text {text}", any(pattern.fullmatch(line) for line in lines)
    for line in sorted(set(lines)):
        cited = {int(number) for number in re.findall(r"\d+", line.rpartition("(rule")[2])}
        of_history = plain_histories.FOUND.fullmatch(line) is not None
        yield f"line {line}", any(pattern.fullmatch(line) for pattern in patterns.values()) and (of_history or cited and cited <= rules)


def used():
    """The processor time, in seconds, of the programs that ended."""
    times = resource.getrusage(resource.RUSAGE_CHILDREN)
    return times.ru_utime + times.ru_stime


def least_times(program, *runs):
    """The least processor time of each run, a script and options. They are made in turn, so that a busy machine slows all."""

    def seconds(script, *words):
        before = used()
        called(program, script, *words)
        return used() - before

    return [min(times) for times in zip(*([seconds(*run) for run in runs] for _ in range(7)), strict=True)]


def shortages(rounds):
    """Areas that are held, and requests that are refused, since too little is free, between areas that come and go."""
    yield "JOB REGION BELOW=128"
    yield from (f"JOB GETMAIN RC,LV=4096,A=A{i}" for i in range(100))
    for i in range(rounds):
        yield f"JOB GETMAIN RC,LV={8 + i % 100 * 8},A=X"
        yield "JOB GETMAIN RC,LV=200000,A=Y"
        yield f"JOB FREEMAIN RC,LV={8 + i % 100 * 8},A=X"


def double_frees(rounds):
    """Areas that are all released before each is released again, at the same addresses in each round."""
    yield "JOB REGION BELOW=128"
    for _ in range(rounds):
        yield from (f"JOB GETMAIN RC,LV=8,A=A{i}" for i in range(10))
        yield from (f"JOB FREEMAIN RC,LV=8,A=A{i}" for i in range(10))
        yield from (f"JOB FREEMAIN RC,LV=8,A=A{i}" for i in range(10))


def double_frees_of_tasks(rounds):
    """Areas of tasks that end, which are then released again."""
    yield "JOB REGION BELOW=64"
    for _ in range(rounds):
        yield "JOB ATTACH TASK=T"
        yield "T GETMAIN RC,LV=8,A=A,SP=5"
        yield "T RETURN"
        yield "JOB FREEMAIN RC,LV=8,A=A"


# Scripts of many refusals about which the history is asked, and how many rounds each has.
REFUSALS = {shortages: 1000, double_frees: 1000, double_frees_of_tasks: 5000}


def grown(program, lines, rounds):
    """Whether four times the rounds take at most six times as long."""
    short, long = ("".join(f"{line}\n" for line in lines(count)).encode() for count in (rounds, 4 * rounds))
    one, four = least_times(program, (short, "--explain"), (long, "--explain"))
    return four <= 6 * one


def cost(program):
    """Whether explanations take at most seven times as long as a plain run (about four on a quiet machine), and grow with the lines."""
    script = called(program, b"", "--random", "1", "--lines", "100000")[0]
    quarter = b"".join(script.splitlines(keepends=True)[:25000])
    plain, explained, shorter = least_times(program, (script,), (script, "--explain"), (quarter, "--explain"))
    yield "long script", explained <= 7 * plain
    yield "growth", explained <= 6 * shorter
    for lines, rounds in REFUSALS.items():
        yield lines.__name__.replace("_", " "), grown(program, lines, rounds)


# The second line is refused, the third is not executed, and the last has a fault.
REFUSED = b"JOB REGION BELOW=1\n", b"JOB GETMAIN RC,LV=999992,A=X\n"
SKIPPED = b"JOB WHERE X\n"


def answered_at_once(program):
    """Whether the reply to a line and its reason are printed before the next line is there."""
    with subprocess.Popen([program, "--explain"], stdin=subprocess.PIPE, stdout=subprocess.PIPE) as run:
        printed = []
        for line in REFUSED:
            run.stdin.write(line)
            run.stdin.flush()
            printed.append(run.stdout.readline())
        printed.append(run.stdout.readline())
        run.stdin.close()
        return printed[:2] == [b"1 JOB REGION BELOW 1 ABOVE 0\n", b"2 JOB RC 4\n"] and printed[2].startswith(b"* ") and run.wait(600) == 0


def both(program, end):
    """Whether `--explain --strict` prints what `--explain` prints, and reports what `--strict` reports."""
    script = b"".join(REFUSED) + SKIPPED + end
    explained, strict = called(program, script, "--explain"), called(program, script, "--strict")
    return called(program, script, "--explain", "--strict") == (explained[0], strict[1], strict[2]) and explained[0].count(b"*") > 1


def combined(program):
    yield "as it comes", answered_at_once(program)
    yield "with --strict", both(program, b"")
    yield "with --strict and an abend", both(program, b"JOB ABEND 1\n")
    yield "with --strict and a fault", both(program, b"JOB NOTHING\n")


def groups(program):
    yield "explained scripts", each(partial(as_known, program), known())
    yield "explained random scripts", each(partial(same_bytes, program), seeds(RANDOM_SCRIPTS), str, chunksize=20)
    yield "facts of random scripts", each(partial(as_plain, program), seeds(FACT_SCRIPTS), str, chunksize=10)
    yield "histories of random scripts", each(partial(as_history, program), seeds(HISTORY_SCRIPTS), str, chunksize=20)
    yield "wants of random scripts", each(partial(as_wanting, program), seeds(WANTING_SCRIPTS), str, chunksize=5)
    yield "texts of reasons", whole(texts)
    yield "cost of reasons", whole(cost, program)
    yield "explained as it comes", whole(combined, program)
