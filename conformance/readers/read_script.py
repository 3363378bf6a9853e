#!/usr/bin/env python3
"""A reader of mvsjob's script language, for emulators that are written in Python.

Copy this file into your emulator. `read(lines)` returns the statements of a script one by one and raises `Fault` for the first
line that has one. SCRIPT.md describes the language. As a program it prints the statements of the script on standard input.
"""

import re
import sys
from collections import namedtuple

NAME = r"[A-Z@#$][A-Z0-9@#$]{0,7}"
LENGTH = "1-2147483647"
LOC = "LOC:BELOW|24|ANY|31|RES"
PLACE = "SP:0-255 BNDRY:DBLWD|PAGE"
BOUNDARIES = f"{PLACE} STARTBDY:3-31 CONTBDY:3-31 {LOC}"
# Each operation and form with its operands: KEY!type is required, KEY:type optional, KEY&type comes with the other & or not at
# all. An operand without a key is positional.
STATEMENTS = f"""
REGION = BELOW!1-2048 ABOVE:0-8192 FILL:hex RES:BELOW|ABOVE
GETMAIN R,EC,EU = LV!{LENGTH} A!name {PLACE}
GETMAIN RC,RU = LV!{LENGTH} A!name {BOUNDARIES}
GETMAIN VC,VU = LV!pair A!name {PLACE}
GETMAIN VRC,VRU = LV!pair A!name {BOUNDARIES}
GETMAIN LC,LU = LA!lengths A!names {PLACE}
STORAGE OBTAIN = LENGTH!length ADDR!name {BOUNDARIES} COND:YES|NO
STORAGE RELEASE = LENGTH&{LENGTH} ADDR&address SP:0-255 COND:YES|NO
FREEMAIN R,RC,RU = LV&{LENGTH} A&address SP:0-255
FREEMAIN EC,EU = LV!{LENGTH} A!address SP:0-255
FREEMAIN VC,VU = A!name SP:0-255
FREEMAIN LC,LU = LA!lengths A!addresses SP:0-255
CPOOL BUILD = CPID!name CSIZE!4-65536 PCELLCT!1-65536 SCELLCT:1-65536 SP:0-255 {LOC}
CPOOL GET = :COND|C|UNCOND|U CPID!name CELL!name
CPOOL FREE = CPID!name CELL!address
CPOOL DELETE = CPID!name
ATTACH = TASK!name GSPV:1-127 GSPL:subpools SHSPV:1-127 SHSPL:subpools SZERO:YES|NO RES:BELOW|ABOVE
REPORT SP,MAP =
ABEND = !0-4095
PUT = !address !bytes
SHOW = !address !1-4096
MOVE = !address !address !1-65536
WHERE = !name
RETURN =
"""
# Each list: the type of its members, how many they may be, and whether they must differ.
LISTS = {
    "pair": (LENGTH, 2, False),
    "lengths": (LENGTH, 16, False),
    "addresses": ("address", 16, False),
    "names": ("name", 16, True),
    "subpools": ("1-127", 127, True),
}
PATTERNS = {"name": NAME, "address": rf"X'[0-9A-F]{{1,8}}'|{NAME}(\+[0-9]+)?", "hex": "[0-9A-F]{2}", "bytes": "X'([0-9A-F]{2})+'"}
EXCLUDING = [("BNDRY", "STARTBDY"), ("BNDRY", "CONTBDY"), ("GSPV", "GSPL"), ("SHSPV", "SHSPL")]
# A statement: its line's number, task, operation and form (or None), and its operands by key, or by place from 0.
Statement = namedtuple("Statement", "number task operation form operands")


class Fault(Exception):
    """A fault of a script: a code from JS01 to JS09, and the number of the line."""

    def __init__(self, code, number=0):
        super().__init__(f"{number} {code}")
        self.code, self.number = code, number


def table():
    """Returns the operands of each operation and form as (key, mark, type)."""
    found = {}
    for line in STATEMENTS.strip().splitlines():
        names, _, operands = line.partition("=")
        operation, _, forms = names.strip().partition(" ")
        found.setdefault(operation, {}).update({form or None: re.findall(r"(\w*)([!:&])(\S+)", operands) for form in forms.split(",")})
    return found


TABLE = table()


def needs(condition, code):
    if not condition:
        raise Fault(code)


def number(text, lowest, highest):
    """Returns a number, and whether it is in range."""
    needs(re.fullmatch("[0-9]+", text), "JS04")
    return int(text), len(text) <= 10 and lowest <= int(text) <= highest


def members(kind, text):
    """Returns the members of a list, and whether they are in range."""
    member, most, differ = LISTS[kind]
    needs(re.fullmatch(r"\([^()]*\)", text), "JS04")
    found = [value(member, item) for item in text[1:-1].split(",")]
    values = [one for one, _ in found]
    needs(kind != "pair" or len(values) == 2, "JS04")
    needs(not differ or len(set(values)) == len(values), "JS07")
    return values, len(values) <= most and all(well for _, well in found) and (kind != "pair" or values[1] <= values[0])


def value(kind, text):
    """Returns the value of an operand of a type, and whether it is in range. An address is a number, or a name and an offset."""
    if kind == "length":
        kind = "pair" if text.startswith("(") else LENGTH
    if kind in LISTS:
        return members(kind, text)
    if re.fullmatch(r"\d+-\d+", kind):
        return number(text, *map(int, kind.split("-")))
    needs(re.fullmatch(PATTERNS.get(kind, kind), text), "JS04")
    if kind == "bytes":
        return bytes.fromhex(text[2:-1]), len(text) <= 203
    if kind == "hex":
        return int(text, 16), True
    if kind == "address" and "'" in text:
        return int(text[2:-1], 16), int(text[2:-1], 16) < 1 << 31
    if kind == "address":
        name, _, offset = text.partition("+")
        offset, is_in_range = number(offset or "0", 0, 33554431)
        return (name, offset), is_in_range
    return text, True


def parted(field):
    """Splits an operand field at the commas outside parentheses."""
    found, depth = [""], 0
    for char in field:
        depth = depth + 1 if char == "(" else max(0, depth - (char == ")"))
        if char == "," and depth == 0:
            found.append("")
        else:
            found[-1] += char
    return found


def read_operands(parts, kinds):
    """Reads the operands from left to right, then looks for what is missing and what excludes each other."""
    known = {key or place: (mark, kind) for place, (key, mark, kind) in enumerate(kinds)}
    given, has_key = {}, False
    for place, part in enumerate(parts):
        key, equals, text = part.partition("=")
        has_key = has_key or bool(equals)
        key, text = (key, text) if has_key else (place, part)
        needs(key in known, "JS04")
        found, is_in_range = value(known[key][1], text)
        needs(key not in given, "JS07")
        needs(is_in_range, "JS06")
        given[key] = found
    together = {key in given for key, (mark, _) in known.items() if mark == "&"}
    needs(all(key in given for key, (mark, _) in known.items() if mark == "!") and len(together) < 2, "JS05")
    gives, shares = ({given.get(f"{key}V"), *given.get(f"{key}L", ())} - {None} for key in ("GSP", "SHSP"))
    needs(not any(one in given and other in given for one, other in EXCLUDING) and not gives & shares, "JS08")
    needs("LA" not in given or len(given["LA"]) == len(given["A"]), "JS08")
    return given


def read_statement(line, line_number, is_first):
    """Returns the statement of a line that is neither blank nor a comment."""
    task, operation, field = [*re.split(" +", line, maxsplit=2), "", ""][:3]
    field = field.partition(" ")[0]
    needs(re.fullmatch(NAME, task) and operation in TABLE, "JS03")
    needs(not is_first or operation == "REGION", "JS09")
    forms, form, parts = TABLE[operation], None, parted(field) if field and operation != "RETURN" else []
    if None not in forms:
        needs(parts and "=" not in parts[0], "JS05")
        form = parts.pop(0)
        needs(form in forms, "JS03")
    return Statement(line_number, task, operation, form, read_operands(parts, forms[form]))


def read(lines):
    """Returns the statements of the lines, which are bytes without their X'0A', and raises the first fault."""
    line_number, is_first = 0, True
    for line_number, line in enumerate(lines, 1):
        try:
            needs(len(line) <= 255, "JS01")
            needs(all(0x20 <= byte <= 0x7E for byte in line), "JS02")
            if line.strip(b" ") and not line.startswith(b"*"):
                yield read_statement(line.decode("ascii"), line_number, is_first)
                is_first = False
        except Fault as fault:
            raise Fault(fault.code, line_number) from None
    if is_first:
        raise Fault("JS09", line_number + 1)


def lines_of(file):
    """Returns the lines of a file of bytes. A script ends after its last X'0A', or where its last line does."""
    return (line.removesuffix(b"\n") for line in file)


def shown(found):
    """Returns a value as list_script.c prints it."""
    if isinstance(found, tuple):
        return f"{found[0]}+{found[1]}" if found[1] else found[0]
    return ",".join(map(shown, found)) if isinstance(found, (list, bytes)) else str(found)


def print_statements(file):
    try:
        for found in read(lines_of(file)):
            operands = [f"{key}={shown(given)}" for key, given in found.operands.items()]
            print(*filter(None, found[:4]), *operands)
    except Fault as fault:
        print(fault)


if __name__ == "__main__":
    print_statements(sys.stdin.buffer)
