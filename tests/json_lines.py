"""`--json`: each line is read by Python's reader, and what the program prints without the word is made of them."""

import json
import re
import subprocess
from pathlib import Path

import plain_facts
import plain_histories
import random_scripts
from cases import Lacking

TOP = Path(__file__).resolve().parent.parent
SCHEMA = TOP / "docs/events.schema.json"
SCRIPTS = ("examples/*.job", "lessons/*.job", "conformance/scripts/*.job", "tests/reasons/*.job")

FREED = re.compile(r"\* SP \d+ of \S+ is freed: .*")
# What the history of the storage says, which the normal output does not have.
OF_HISTORY = ("address_history", "with_loc_any", "held", "holder", "held_total", "stays", "stay")

PLAIN = {"not_run": "NOT RUN", "no_name": "NO NAME", "cell": "CELL", "no_cell": "NO CELL", "attached": "ATTACHED", "ended": "ENDED", "done": "OK"}


def data_lines(bytes_):
    return [f"DATA +{at // 2:04X} {bytes_[at:at + 64]}" for at in range(0, len(bytes_), 64)]


def subpool_lines(subpools):
    kinds = {True: "OWNED", False: "SHARED"}
    lines = [f"SP {s['subpool']} {kinds[s['owned']]} PLAIN {s['plain']} POOL {s['pool']}" for s in subpools]
    return lines or ["SP NONE"]


def page_line(run):
    holder = f"SP {run['subpool']} OWNER {run['owner']}" if "owner" in run else "FREE"
    return f"MAP {run['address']:08X} {run['length']:08X} {holder}"


def code(event):
    return f"S{event['system_code']:03X}" if "system_code" in event else f"U{event['user_code']:04d}"


def texts(event):
    """The texts of a statement's answer."""
    answer = event["answer"]
    if answer == "region":
        return [f"REGION BELOW {event['below']} ABOVE {event['above']}"]
    if answer == "return_code":
        return [f"RC {event['return_code']}" + (f" LENGTH {event['length']:08X}" if "length" in event else "")]
    if answer == "at":
        return [f"AT {event['address']:08X}"]
    if answer == "data":
        return data_lines(event["bytes"])
    if answer == "abend":
        return [f"ABEND {code(event)}"]
    if answer == "subpools":
        return subpool_lines(event["subpools"])
    if answer == "map":
        return [page_line(run) for run in event["pages"]]
    return [PLAIN[answer]]


def printed(event):
    """The lines that an event is printed as."""
    if event["event"] == "step_ended":
        return [f"STEP ENDED RC {event['return_code']}"]
    if event["event"] == "fault":
        return [f"{event['line']} JS{event['fault']:02d}", "JOB FAULT RC 12"]
    if event["event"] in OF_HISTORY:
        return []
    lines = [f"{event['line']} {event['task']} {text}" for text in texts(event)]
    return lines + [f"{event['line']} {fallen['task']} ENDED WITH {event['task']}" for fallen in event.get("fallen", [])]


def areas_hold(event):
    """Whether the areas have the lengths and sides of a grant, and the statement's own subpool number."""
    if event["event"] != "statement":
        return True
    for area in event.get("areas", []) + [event[name] for name in ("cell",) if name in event]:
        if not isinstance(area, dict):
            continue
        number = re.search(r"[ ,]SP=(\d+)", event["statement"])
        named = "areas" not in event or area["subpool"] == (int(number[1]) if number else 0)
        if not named or (area["side"] == "above") != (area["address"] >= 1 << 24):
            return False
    return True


def holds(program, script):
    """Whether the lines of JSON say what is printed, with and without reasons."""
    plain = subprocess.run([program], input=script, capture_output=True, timeout=600)
    for words in (["--json"], ["--json", "--explain"]):
        ran = subprocess.run([program, *words], input=script, capture_output=True, timeout=600)
        events = [json.loads(line) for line in ran.stdout.decode().splitlines()]
        lines = [line for event in events for line in printed(event)]
        if (lines, ran.returncode, ran.stderr) != (plain.stdout.decode().splitlines(), plain.returncode, plain.stderr):
            return False
        if not all(map(areas_hold, events)):
            return False
    return True


def as_area(area, left=None):
    """The words of an area, and what is left of it."""
    share = f"{area['length']}" if left in (None, area["length"]) else f"{left} of {area['length']}"
    return f"{area['name']}: {share} bytes at {area['address']:08X}", f"SP {area['subpool']} of {area['owner']}, obtained by {area['task']} in line {area['line']}"


def freed_words(event):
    """What freed an address, in words."""
    freed = event.get("freed")
    if freed is None:
        return "."
    if freed["by"] == "release":
        return f", released by {freed['task']} in line {freed['line']}."
    if freed["by"] == "end":
        return f", freed by the end of {freed['task']} in line {freed['line']}."
    return f", released with all of SP {freed['subpool']} of {freed['owner']} in line {freed['line']}."


def counted(event):
    return f"{event['areas']} area{'' if event['areas'] == 1 else 's'}"


def history_line(event):
    """The line of text that an event of the history has; none for a heading that the text does not have."""
    kind = event["event"]
    if kind == "address_history":
        area, origin = as_area(event["area"])
        return f"* {event['address']:08X} {'was' if 'freed' in event else 'is'} in {area} in {origin}{freed_words(event)}"
    if kind == "with_loc_any":
        return f"* With LOC=ANY it would fit: the largest area then has {event['longest']} bytes. (rule {event['rules'][0]})"
    if kind == "held":
        return f"* Held{' below 16 MB' if event['side'] == 'below' else ''}: {counted(event)}, {event['bytes']} bytes."
    if kind == "held_total":
        return f"* In SP {event['subpool']} of {event['owner']}: {counted(event)}, {event['bytes']} bytes."
    if kind == "stays":
        return f"* And {event['areas'] - 10} more." if event["areas"] > 10 else None
    area, origin = as_area(event, event["bytes"])
    return f"* {area} {'in' if kind == 'holder' else 'stay in'} {origin}."


def history_lines(events):
    """The lines of text that the events of a run have of its history: a single total is not printed, and what is not shown comes last."""
    found, more = [], None
    for at, event in enumerate(events):
        if event["event"] not in OF_HISTORY:
            found, more = found + ([more] if more else []), None
            continue
        line = history_line(event)
        if event["event"] == "stays":
            more = line
        elif event["event"] != "held_total" or "held_total" in (events[at - 1]["event"], events[at + 1 : at + 2] and events[at + 1]["event"]):
            found.append(line)
    return found + ([more] if more else [])


def counted_pages(n):
    return f"{n} page{'' if n == 1 else 's'}"


def place(item):
    return f"{item['length']} bytes at {item['address']:08X}"


def subpool(item):
    return f"SP {item['subpool']} of {item['owner']}"


def obtained(effect):
    """The words of an area that was obtained."""
    said = f"{effect['name']} is {place(effect)} in {subpool(effect)}"
    if effect["least"] != effect["most"]:
        return f"{said}, {effect['least']} to {effect['most']} requested."
    added = effect["length"] - effect["most"]
    return f"{said}, {added} of them added by rounding." if added else f"{said}."


def pages_words(effect):
    """The words of pages that were assigned or freed."""
    n, words = effect["pages"], "became free." if effect["kind"] == "pages_freed" else ""
    if n == 0:
        return "No page was newly assigned."
    return f"{counted_pages(n)} {words or ('was' if n == 1 else 'were') + ' newly assigned.'}"


EFFECTS = {
    "obtained": obtained,
    "no_greater": lambda it: f"No greater length fits; free pages before: {it['free_pages_below']} below, {it['free_pages_above']} above.",
    "new_subpool": lambda it: f"{subpool(it)} is new.",
    "emptied": lambda it: f"{subpool(it)} is now empty.",
    "pages_assigned": pages_words,
    "pages_freed": pages_words,
    "cell": lambda it: f"{it['name']} is a cell of pool {it['pool']}: {place(it)}.",
    "part": lambda it: f"Pool {it['pool']} has a new part for {it['cells']} cell{'' if it['cells'] == 1 else 's'} of {it['cell_size']} bytes: {place(it)}.",
    "given": lambda it: f"{it['task']} now owns SP {it['subpool']}, given by {it['given_by']}.",
    "shared": lambda it: f"{it['task']} shares {subpool(it)}.",
}


def fate_words(task, item):
    """The words of a subpool at the end of a task."""
    if item["fate"] == "freed":
        return f"{subpool(item)} is freed: {item['bytes']} bytes in {counted_pages(item['pages'])}."
    return f"{subpool(item)} remains: {task} shared it."


def named_words(reason):
    """The words of the name that has the address of a reason."""
    named, address = reason["named"], reason["address"]
    at, offset = address - named["offset"], named["offset"]
    into = f"{offset} byte{'' if offset == 1 else 's'} into {named['name']}, {named['length']} bytes at {at:08X}" if offset else f"{named['name']}, {named['length']} bytes"
    return f"* {address:08X} is {into} obtained in line {named['line']}. (rule {named['rules'][0]})"


def effect_lines(events):
    """The lines of text that the explanations of the statements have, without reasons."""
    for event in events:
        if "named" in event.get("reason", {}):
            yield named_words(event["reason"])
        for item in event.get("subpools_at_end", []):
            yield f"* {fate_words(event['task'], item)} (rule {item['rules'][0]})"
        for item in event.get("effects", []):
            yield f"* {EFFECTS[item['kind']](item)} (rule {item['rules'][0]})"


def is_reason(line):
    """Whether a line of text is the reason of a refusal."""
    return line.startswith("* ") and not any(pattern.fullmatch(line) for pattern in (plain_facts.FACTS, plain_histories.FOUND, FREED))


def is_as_text(program, script, *words):
    """Whether the lines of JSON say of the history what the lines of text say, and the reasons cite the same rules."""
    text, lines = (subprocess.run([program, "--explain", *words, *more], input=script, capture_output=True, timeout=600).stdout.decode().splitlines() for more in ((), ("--json",)))
    events = [json.loads(line) for line in lines]
    cited = [re.findall(r"\d+", line.rpartition("(rule")[2]) for line in text if is_reason(line)]
    rules = [[str(rule) for rule in event["reason"]["rules"]] for event in events if "reason" in event]
    found = [line for line in text if plain_histories.FOUND.fullmatch(line)]
    effects = [line for line in text if line.startswith("* ") and not is_reason(line) and line not in found]
    return history_lines(events) == found and cited == rules and list(effect_lines(events)) == effects


def random_history(program, seed):
    placement = ("--place", "high" if seed % 2 else "low")
    script = getattr(random_scripts, ("storage", "pools", "anything")[seed % 3])(seed, False).text()
    return is_as_text(program, script.encode(), *placement)


def known_history(program, path):
    return is_as_text(program, path.read_bytes())


def random_holds(program, profile, seed):
    script = subprocess.run([program, "--random", str(seed), "--profile", profile], capture_output=True, timeout=600).stdout
    return holds(program, script)


KINDS = ("event", "answer", "kind", "by", "fate")


def kinds(schema):
    """The events, the answers, the kinds of reasons and of what freed an address that the schema has, as (member, value)."""
    for name, value in schema.items() if isinstance(schema, dict) else enumerate(schema) if isinstance(schema, list) else ():
        if name in KINDS:
            yield from ((name, word) for word in value.get("enum", [value.get("const")]))
        else:
            yield from kinds(value)


def lines(program):
    """The lines of JSON of many scripts, with reasons."""
    for pattern in SCRIPTS:
        for path in sorted(TOP.glob(pattern)):
            ran = subprocess.run([program, "--json", "--explain", "--leaks", path], capture_output=True, text=True, timeout=600)
            yield from map(json.loads, ran.stdout.splitlines())
    for words in ((), ("--most", "2")):
        ran = subprocess.run([program, "--schedules", "--json", *words, TOP / "examples/race.job"], capture_output=True, text=True, timeout=600)
        yield from map(json.loads, ran.stdout.splitlines())


def schema_results(program):
    """Whether docs/events.schema.json describes the lines: each fits, each kind occurs, and none fits without one of its members."""
    try:
        from jsonschema import Draft202012Validator
    except ImportError:
        yield "docs/events.schema.json", Lacking("python3-jsonschema")
        return
    schema = json.loads(SCHEMA.read_text())
    validator, events = Draft202012Validator(schema), list(lines(program))
    yield "is a schema", Draft202012Validator.check_schema(schema) is None
    yield "each line fits", len(events) > 3000 and all(map(validator.is_valid, events))
    parts = [(event, event.get("reason", {}), event.get("freed", {}), *event.get("effects", []), *event.get("subpools_at_end", [])) for event in events]
    found = {(name, each[name]) for each_part in parts for each in each_part for name in KINDS if name in each}
    yield "each kind occurs", found == set(kinds(schema))
    shorter = [{name: value for name, value in event.items() if name != left} for event in events[:300] for left in event if left not in ("reason", "areas", "length", "freed", "effects", "subpools_at_end")]
    yield "no line fits without a member", not any(map(validator.is_valid, shorter))
    yield "no line fits with a member more", not any(validator.is_valid(event | {"other": 0}) for event in events[:300])
