"""What the random scripts of `mvsjob --random` reach: with the profile `all` each form, operand and reply of docs/SCRIPT.md.

Each of them is to come up at least ten times in the scripts of 300 seeds. The rows are patterns of statements and of printed lines.
A script of the profile `faults` ends with a fault, and its only fault is the last line. Each script of `all` prints what the plain machine prints.
"""

import re
import subprocess
from functools import partial

import plain_emulator
from cases import each, seeds, whole

SEEDS = range(300)
LEAST = 10
FAULTY = 400
ALIKE = 200
PROFILES = ("lists", "boundaries", "whole", "all")

NAME = r"[A-Z@#$][A-Z0-9@#$]*"
OBTAINS = ("R", "EC", "EU", "RC", "RU", "VC", "VU", "VRC", "VRU", "LC", "LU")
LENGTH_AND_ADDRESS = ("R", "RC", "RU", "EC", "EU")
BELOW = ("R", "EC", "EU", "VC", "VU", "LC", "LU")
LOCATED = ("GETMAIN RC", "GETMAIN RU", "GETMAIN VRC", "GETMAIN VRU", "STORAGE OBTAIN")
CODES = "S804 S80A S878 SB04 SB05 SB0A SB78 S905 S90A S978 SA05 SA0A SA78 S0C4 SA03 U4001 U4002 U4003 U4005 U4006 U4007 U4008 U4009".split()
PLACES = ("BELOW", "24", "ANY", "31", "RES")
# What is granted, by the statement and the reply that it has; the other rows do not see whether a statement is refused.
GRANTED = {
    **{f"GETMAIN {form}": r"RC 0" for form in OBTAINS},
    **{f"FREEMAIN {form}": "RC 0" for form in ("R", "RC", "RU", "EC", "EU", "VC", "VU", "LC", "LU")},
    "STORAGE OBTAIN": "RC 0",
    "STORAGE RELEASE": "RC 0",
    "CPOOL BUILD": "RC 0",
    "CPOOL GET": "CELL",
    "CPOOL FREE": "RC 0",
    "CPOOL DELETE": "RC 0",
    "ATTACH": "ATTACHED",
    "RETURN": "ENDED",
    "PUT": "OK",
    "MOVE": "OK",
    "SHOW": r"DATA \+0000",
}


def operand(statement, text):
    """A pattern of a statement that has an operand."""
    return rf"{statement}\b ?\S*,{text}(,|$| )"


def statement_rows():
    """The patterns of statements, by their names."""
    for form in OBTAINS:
        yield f"GETMAIN {form}", rf"GETMAIN {form},"
    for form in LENGTH_AND_ADDRESS:
        yield f"FREEMAIN {form} of a length", operand(f"FREEMAIN {form}", r"LV=\d+")
    for form in ("R", "RC", "RU"):
        yield f"FREEMAIN {form} of a subpool", rf"FREEMAIN {form}(,SP=\d+)?( |$)"
    for form in ("VC", "VU"):
        yield f"FREEMAIN {form}", rf"FREEMAIN {form},A={NAME}"
    for form in ("LC", "LU"):
        yield f"FREEMAIN {form}", rf"FREEMAIN {form},LA=\("
    yield "STORAGE OBTAIN of one length", operand("STORAGE OBTAIN", r"LENGTH=\d+")
    yield "STORAGE OBTAIN of a variable length", operand("STORAGE OBTAIN", r"LENGTH=\(\d+,\d+\)")
    yield "STORAGE RELEASE of a length", operand("STORAGE RELEASE", r"LENGTH=\d+")
    yield "STORAGE RELEASE of a subpool", r"STORAGE RELEASE(,SP=\d+)?(,COND=\w+)?( |$)"
    for word in ("", "COND,", "C,", "UNCOND,", "U,"):
        yield f"CPOOL GET {word}", rf"CPOOL GET,{word}CPID="
    for words in ("CPOOL BUILD", "CPOOL FREE", "CPOOL DELETE", "ATTACH", "RETURN", r"ABEND \d+", "PUT", "SHOW", "MOVE", "WHERE", "REPORT SP", "REPORT MAP", "REGION"):
        yield words, rf"{words}\b"


def operand_rows():
    """The patterns of the operands of statements, by their names."""
    for statement in ("GETMAIN", "FREEMAIN", "STORAGE OBTAIN", "STORAGE RELEASE", "CPOOL BUILD"):
        yield f"SP of {statement}", operand(statement, r"SP=\d+")
    for number in (0, 1, 127, 131, 132, 128, 130, 133, 255):
        yield f"SP={number}", operand("", f"SP={number}")
    for form in OBTAINS:
        for value in ("DBLWD", "PAGE"):
            yield f"BNDRY={value} of GETMAIN {form}", operand(f"GETMAIN {form}", f"BNDRY={value}")
    for statement in LOCATED:
        for key in ("STARTBDY", "CONTBDY"):
            yield f"{key} of {statement}", operand(statement, rf"{key}=\d+")
        for value in PLACES:
            yield f"LOC={value} of {statement}", operand(statement, f"LOC={value}")
    for value in ("DBLWD", "PAGE"):
        yield f"BNDRY={value} of STORAGE OBTAIN", operand("STORAGE OBTAIN", f"BNDRY={value}")
    for value in PLACES:
        yield f"LOC={value} of CPOOL BUILD", operand("CPOOL BUILD", f"LOC={value}")
    for statement in ("STORAGE OBTAIN", "STORAGE RELEASE"):
        for value in ("YES", "NO"):
            yield f"COND={value} of {statement}", operand(statement, f"COND={value}")
    yield "SCELLCT", operand("CPOOL BUILD", r"SCELLCT=\d+")
    for key, value in (("GSPV", r"\d+"), ("GSPL", r"\([\d,]+\)"), ("SHSPV", r"\d+"), ("SHSPL", r"\([\d,]+\)"), ("SZERO", "YES"), ("SZERO", "NO"), ("RES", "BELOW"), ("RES", "ABOVE")):
        yield f"{key}={value} of ATTACH", operand("ATTACH", f"{key}={value}")
    for key in ("ABOVE=0", r"ABOVE=[1-9]\d*", "FILL=[0-9A-F]{2}", "RES=BELOW", "RES=ABOVE"):
        yield f"{key} of REGION", operand("REGION", key)


def address_rows():
    """The patterns of addresses, by their names: a name, a name with an offset, and a number."""
    for kind, text in (("a name", NAME), ("a name and an offset", rf"{NAME}\+\d+"), ("a number", r"X'[0-9A-F]+'")):
        for form in LENGTH_AND_ADDRESS:
            yield f"{kind} of FREEMAIN {form}", operand(f"FREEMAIN {form}", rf"A={text}")
        yield f"{kind} of FREEMAIN L", rf"FREEMAIN L[CU],\S*A=\(({text},|\S+,{text}[,)]|{text}\))"
        yield f"{kind} of STORAGE RELEASE", operand("STORAGE RELEASE", rf"ADDR={text}")
        yield f"{kind} of PUT", rf"PUT {text},X'"
        yield f"{kind} of SHOW", rf"SHOW {text},\d+"
        yield f"{kind} of MOVE, to", rf"MOVE {text},"
        yield f"{kind} of MOVE, from", rf"MOVE [^,]+,{text},\d+"
    yield "a name of CPOOL FREE", rf"CPOOL FREE,\S*CELL={NAME}( |$)"
    yield "a number of CPOOL FREE", r"CPOOL FREE,\S*CELL=X'"
    yield "a list of one", r"GETMAIN L[CU],LA=\(\d+\)"
    yield "a list of sixteen", r"GETMAIN L[CU],LA=\((\d+,){15}\d+\)"
    yield "a remark", r"[^ ]  A REMARK$"


def reply_rows():
    """The patterns of printed lines, by their names."""
    texts = [r"REGION BELOW \d+ ABOVE \d+", "RC 0", r"RC 0 LENGTH [0-9A-F]{8}", "RC 4", "CELL", "NO CELL", "ATTACHED", "ENDED", "OK", r"DATA \+0000 \w+", r"DATA \+0020 \w+"]
    texts += [r"AT [0-9A-F]{8}", rf"ENDED WITH {NAME}", "NOT RUN", "NO NAME", "SP NONE"]
    texts += [r"SP \d+ OWNED PLAIN [1-9]\d* POOL \d+", r"SP \d+ OWNED PLAIN \d+ POOL [1-9]\d*", r"SP \d+ SHARED PLAIN \d+ POOL \d+"]
    texts += [rf"MAP \w+ \w+ SP \d+ OWNER {NAME}", r"MAP \w+ \w+ FREE"]
    texts += [r"ABEND U(0\d|1|2|3|40[0-9][0-9](?!.))\d*"]
    for text in texts + [f"ABEND {code}" for code in CODES]:
        yield text, rf"^\d+ {NAME} {text}$"
    for text in ("STEP ENDED RC 0", "STEP ENDED RC 8", "JOB FAULT RC 12"):
        yield text, f"^{text}$"
    for number in range(1, 10):
        yield f"JS0{number}", rf"^\d+ JS0{number}$"


def random_script(program, seed, profile, lines=100):
    words = ("--random", str(seed), "--lines", str(lines), "--profile", profile)
    return subprocess.run([program, *words], capture_output=True, timeout=600).stdout.decode()


def run(program, script):
    ran = subprocess.run([program], input=script.encode(), capture_output=True, timeout=600)
    return ran.stdout.decode(), ran.returncode


def answered(script, printed):
    """The statements of a script, each with the first line that it prints."""
    statements, first = script.split("\n"), {}
    for line in printed.splitlines():
        number, _, text = line.partition(" ")
        if number.isdecimal():
            first.setdefault(int(number), text.partition(" ")[2])
    return [f"{statements[number - 1]} => {text}" for number, text in first.items()]


def reach(program):
    """Whether each row comes up often enough in the scripts of `all`."""
    scripts = [random_script(program, seed, "all") for seed in SEEDS]
    printed = [run(program, script)[0] for script in scripts]
    lines = "\n".join(script.rstrip("\n") for script in scripts)
    outputs = "".join(printed)
    pairs = "\n".join(pair for script, output in zip(scripts, printed) for pair in answered(script, output))
    for rows in (statement_rows(), operand_rows(), address_rows()):
        for name, pattern in rows:
            yield name, len(re.findall(rf"(?m)^{NAME} +(?=[^\n]*?{pattern})", lines)) >= LEAST
    for name, pattern in reply_rows():
        yield name, len(re.findall(f"(?m){pattern}", outputs)) >= LEAST
    for name, reply in GRANTED.items():
        yield f"{name} granted", len(re.findall(rf"(?m)^{NAME} +{name}\b[^\n]* => {reply}", pairs)) >= LEAST


def ends_with_fault(program, seed):
    """Whether a script of faults has one fault, in its last line, whatever its number of lines."""
    for lines in (1, 7, 100):
        script = random_script(program, seed, "faults", lines)
        printed, status = run(program, script)
        number = script.count("\n")
        if status != 12 or number > lines or not printed.splitlines()[-2].startswith(f"{number} JS0"):
            return False
    return True


def is_alike(program, seed):
    """Whether scripts of the profiles that reach most print what the plain machine prints."""
    script = random_script(program, seed, PROFILES[seed % len(PROFILES)])
    return run(program, script)[0] == plain_emulator.run(script, "low")


def groups(program):
    yield "reach of random scripts", whole(reach, program)
    yield "faults of random scripts", each(partial(ends_with_fault, program), seeds(FAULTY), str, chunksize=10)
    yield "random scripts of all kinds", each(partial(is_alike, program), seeds(ALIKE), str, chunksize=5)
