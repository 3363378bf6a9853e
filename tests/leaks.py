"""`--leaks`: the report at the end of each step, compared with that of the plain machine, and the exit status."""

import json
import re
import subprocess
from functools import partial
from pathlib import Path

import plain_leaks
import random_scripts
from cases import each, seeds, whole
from plain_leaks import count

TOP = Path(__file__).resolve().parent.parent
KINDS = ("storage", "pools", "anything")
RANDOM_SCRIPTS = 5000
FAULT = 12


def ran(program, script, *words):
    return subprocess.run([program, *words], input=script, capture_output=True, text=True, timeout=600)


def called(program, script, *words):
    end = ran(program, script, *words)
    return end.stdout, end.returncode


def scripts():
    return sorted(path for folder in ("tests/scripts", "tests/leaks", "examples") for path in (TOP / folder).glob("*.job"))


def status(printed, left):
    """The exit status of a script without faults."""
    return 8 if "STEP ENDED RC 8" in printed else 4 if left else 0


def is_as_plain(program, text, placement):
    """Whether a script prints what the plain machine prints with a report of leaks. That machine knows no faults."""
    if called(program, text)[1] == FAULT:
        return True
    printed, left = plain_leaks.printed(text.splitlines(), placement)
    return called(program, text, "--leaks", "--place", placement) == ("".join(f"{line}\n" for line in printed), status(printed, left))


def members(event):
    """The subpool, the task and the line of an area or a pool."""
    return f"in SP {event['subpool']} of {event['owner']}", f"by {event['task']} in line {event['line']}."


def described(event):
    """The lines of a report that an event of JSON has, but for the headings; None for another event."""
    if event["event"] == "leaks":
        areas = [f"* Never released: {count(event['areas'], 'area')}, {event['bytes']} bytes."] if event["areas"] else []
        return areas + ([f"* Never deleted: {count(event['pools'], 'pool')}."] if event["pools"] else [])
    if event["event"] == "leak":
        share = f"{event['length']}" if event["bytes"] == event["length"] else f"{event['bytes']} of {event['length']}"
        subpool, origin = members(event)
        return [f"* {event['name']}: {share} bytes at {event['address']:08X} {subpool}, obtained {origin}"]
    if event["event"] == "pool_left":
        subpool, origin = members(event)
        return [f"* Pool {event['name']}: {event['bytes']} bytes in {count(event['parts'], 'part')} {subpool}, built {origin}"]
    if event["event"] == "leak_total":
        group = f"In SP {event['subpool']} of {event['owner']}" if "subpool" in event else f"Obtained by {event['task']}"
        return [f"* {group}: {count(event['areas'], 'area')}, {event['bytes']} bytes."]
    return None


def is_total(line):
    return line.startswith(("* In SP ", "* Obtained by "))


def is_as_json(program, text, placement):
    """Whether the lines of JSON have the same reports, and else are those without `--leaks`."""
    words = ("--json", "--place", placement)
    plain, (printed, status) = called(program, text, *words), called(program, text, *words, "--leaks")
    report, expected = called(program, text, "--leaks", "--place", placement)
    lines = printed.splitlines()
    reported = [described(json.loads(line)) for line in lines]
    others = [line for line, report_lines in zip(lines, reported) if report_lines is None]
    found = [line for report_lines in reported if report_lines for line in report_lines]
    wanted = [line for line in report.splitlines() if line.startswith("* ") and not line.startswith("* And ")]
    # JSON has a total also where there is only one; and the heading for pools comes with that for areas.
    same = [line for line in found if not is_total(line) or line in wanted]
    return others == plain[0].splitlines() and sorted(same) == sorted(wanted) and status == expected


def is_as_strict(program, text, placement):
    """Whether with `--strict` the lines that were not executed are reported as without `--leaks`, and the rest is as without `--strict`."""
    words = ("--place", placement)
    reports = [ran(program, text, "--strict", *words, *more).stderr for more in ((), ("--leaks",))]
    return reports[0] == reports[1] and called(program, text, "--strict", "--leaks", *words)[0] == called(program, text, "--leaks", *words)[0]


def known(program, path):
    return all(compare(program, path.read_text(), placement) for compare in (is_as_plain, is_as_json, is_as_strict) for placement in ("low", "high"))


def random(program, seed):
    placement = "high" if seed % 2 else "low"
    return is_as_plain(program, getattr(random_scripts, KINDS[seed % 3])(seed, False).text(), placement)


def documented(program):
    """The listings of docs/LEAKS.md: a script with its report, and the report of nightly.job."""
    script, report, nightly = re.findall(r"(?ms)^```\n(.*?)^```$", (TOP / "docs/LEAKS.md").read_text())
    yield "the script of LEAKS.md", ran(program, script, "--leaks").stdout.endswith(report)
    yield "nightly.job in LEAKS.md", ran(program, (TOP / "tests/leaks/nightly.job").read_text(), "--leaks").stdout.endswith(nightly)


def groups(program):
    yield "leaks", each(partial(known, program), scripts())
    yield "leaks in LEAKS.md", whole(documented, program)
    yield "leaks of random scripts", each(partial(random, program), seeds(RANDOM_SCRIPTS), str, chunksize=20)
