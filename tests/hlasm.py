"""Reads assembler programs as an assembler would: columns, labels, instructions and the operands of macros.

It knows the instructions and macros that `mvsjob --assemble` prints, with their operands as the manuals write them.
"""

import re

SYMBOL = re.compile(r"[A-Z@#$][A-Z0-9@#$]{0,7}$")
# Of each instruction: R a register, X an address with a base or a label, S one with a length, I a number, M a mask, L a label.
INSTRUCTIONS = {
    "AFI": "RI", "BASR": "RR", "BCTR": "RR", "BR": "R", "BRAS": "RL", "BRASL": "RL", "BRCL": "ML", "BRCT": "RL", "C": "RX", "CHI": "RI",
    "CLI": "XI", "CR": "RR", "CVD": "RX", "EX": "RX", "IC": "RX", "J": "L", "JE": "L", "JNE": "L", "JNH": "L", "JNO": "L", "JNP": "L",
    "JNZ": "L", "JO": "L", "JZ": "L", "L": "RX", "LA": "RX", "LARL": "RL", "LGFI": "RI", "LH": "RX", "LHI": "RI", "LM": "RRX", "LR": "RR",
    "LTR": "RR", "MVC": "SX", "MVCL": "RR", "MVI": "XI", "N": "RX", "NI": "XI", "OI": "XI", "SLL": "RI", "SR": "RR", "SRL": "RI",
    "ST": "RX", "STH": "RX", "STM": "RRX", "TM": "XI", "TR": "SX", "UNPK": "SS", "XC": "SX",
}  # fmt: skip
DIRECTIVES = {"CSECT", "DSECT", "AMODE", "RMODE", "USING", "DROP", "EQU", "DC", "DS", "LTORG", "END", "SYSSTATE", "IHASDWA"}
OBTAIN = {"LV", "LA", "A", "SP", "BNDRY", "STARTBDY", "CONTBDY", "LOC"}
# Of each macro: its forms, each with the keys that it needs and those that it takes.
MACROS = {
    "GETMAIN": {
        "R": ({"LV"}, {"SP", "BNDRY"}),
        **{form: ({"LV", "A"}, {"SP", "BNDRY"}) for form in ("EC", "EU")},
        **{form: ({"LV"}, {"SP", "BNDRY", "STARTBDY", "CONTBDY", "LOC"}) for form in ("RC", "RU", "VRC", "VRU")},
        **{form: ({"LA", "A"}, {"SP", "BNDRY"}) for form in ("VC", "VU", "LC", "LU")},
    },
    "FREEMAIN": {
        **{form: (set(), {"LV", "A", "SP"}) for form in ("R", "RC", "RU")},
        **{form: ({"LV", "A"}, {"SP"}) for form in ("EC", "EU")},
        **{form: ({"A"}, {"SP"}) for form in ("VC", "VU")},
        **{form: ({"LA", "A"}, {"SP"}) for form in ("LC", "LU")},
    },
    "STORAGE": {
        "OBTAIN": ({"LENGTH"}, {"ADDR", "SP", "BNDRY", "STARTBDY", "CONTBDY", "LOC", "COND"}),
        "RELEASE": (set(), {"LENGTH", "ADDR", "SP", "COND"}),
    },
    "CPOOL": {
        "BUILD": ({"PCELLCT", "CSIZE", "CPID"}, {"SCELLCT", "SP", "LOC"}),
        **{form: ({"CPID"}, set()) for form in ("GET", "DELETE")},
        "FREE": ({"CPID", "CELL"}, set()),
    },
    "ATTACHX": {"": ({"EP"}, {"PARAM", "VL", "ECB", "GSPV", "GSPL", "SHSPV", "SHSPL", "SZERO"})},
    "ABEND": {"": (set(), set())}, "DETACH": {"": (set(), {"STAE"})}, "ESTAEX": {"": (set(), {"PARAM"})},
    "IDENTIFY": {"": ({"EP", "ENTRY"}, set())}, "POST": {"": (set(), set())}, "SETRP": {"": ({"RC"}, {"DUMP"})},
    "WAIT": {"": (set(), {"ECB", "ECBLIST"})}, "WTO": {"": ({"TEXT", "MF"}, {"ROUTCDE"})},
}  # fmt: skip
WORDS = {"BNDRY": ("PAGE",), "LOC": ("24", "31"), "COND": ("YES", "NO"), "SZERO": ("YES", "NO"), "STAE": ("NO",), "VL": ("1",)}
RANGES = {"SP": (0, 255), "STARTBDY": (3, 31), "CONTBDY": (3, 31), "GSPV": (1, 127), "SHSPV": (1, 127), "LV": (1, 2**31 - 1),
          "LENGTH": (1, 2**31 - 1), "CSIZE": (4, 65536), "PCELLCT": (1, 65536), "SCELLCT": (1, 65536)}  # fmt: skip


def parted(text):
    """The operands of a field: commas in parentheses or quotes separate nothing."""
    parts, depth, quoted = [""], 0, False
    for letter in text:
        quoted ^= letter == "'"
        depth += 0 if quoted else (letter == "(") - (letter == ")")
        if letter == "," and not depth and not quoted:
            parts.append("")
        else:
            parts[-1] += letter
    return [] if text == "" else parts


def field(text):
    """The operands of a card, which end at the first blank outside of quotes."""
    quoted = False
    for place, letter in enumerate(text):
        quoted ^= letter == "'"
        if letter == " " and not quoted:
            return text[:place]
    return text


class Program:
    """The statements of a program: (card, label, operation, operands)."""

    def __init__(self, cards, wrong):
        self.wrong, self.statements, open_card = wrong, [], None
        for number, card in cards:
            self.check_columns(number, card)
            continued = len(card) > 71
            if open_card:
                if card[:15].strip():
                    wrong.append(f"{number}: begins before column 16")
                open_card[3] += field(card[15:71])
            elif not card.startswith("*"):
                label, operation, operands = re.match(r"(\S*) *(\S*) *(.*)", card[:71]).groups()
                open_card = [number, label, operation, field(operands)]
            if open_card and not continued:
                self.statements.append((*open_card[:3], parted(open_card[3])))
                open_card = None
        if open_card:
            wrong.append("the last card is continued")

    def check_columns(self, number, card):
        if len(card) > 72 or len(card) == 72 and card[71] != "X" or not card.isascii() or not card.strip():
            self.wrong.append(f"{number}: columns: {card}")

    def labels(self):
        found = set()
        for number, label, operation, _ in self.statements:
            if label and label in found and operation not in ("AMODE", "RMODE"):
                self.wrong.append(f"{number}: {label} twice")
            if label and not SYMBOL.match(label):
                self.wrong.append(f"{number}: {label}: no label")
            found.add(label)
        return found

    def check(self):
        labels = self.labels() | {"SDWA", "SDWAPARM", "SDWAABCC"}
        for number, label, operation, operands in self.statements:
            reported = len(self.wrong)
            if operation in INSTRUCTIONS:
                self.check_instruction(operands, INSTRUCTIONS[operation])
            elif operation in MACROS:
                self.check_macro(operation, operands)
            elif operation not in DIRECTIVES:
                self.wrong.append(f"{operation}: no operation")
            if operation not in ("DC", "DS", "SYSSTATE", "IHASDWA") and operation not in MACROS:
                self.check_symbols(",".join(operands), labels)
            if operation == "DC":
                self.check_constants(operands, labels)
            self.wrong[reported:] = [f"{number}: {operation} {','.join(operands)}: {text}" for text in self.wrong[reported:]]

    def check_symbols(self, text, labels):
        text = re.sub(r"=?[XCF]L?\d*'[^']*'", "0", text)
        self.wrong += [f"{name} is not defined" for name in re.findall(r"[A-Z@#$][A-Z0-9@#$]*", text) if name not in labels]

    def check_instruction(self, operands, kinds):
        if len(operands) != len(kinds):
            self.wrong.append("number of operands")
        for operand, kind in zip(operands, kinds):
            fits = {
                "R": r"\d+$", "M": r"\d+$", "L": r"[A-Z@#$][A-Z0-9@#$]*$", "I": r"(-?\d+|X'[0-9A-F]+'|C'.'|255-\w+|\w+)$",
                "X": r"=?[^,]*(\(\d*,?\d*\))?$", "S": r"[^,]*(\(\d+(,\d+)?\))?$",
            }[kind]  # fmt: skip
            if not re.match(fits, operand) or kind == "R" and int(operand) > 15 or kind == "M" and int(operand) > 15:
                self.wrong.append(f"operand {operand}")

    def check_constants(self, operands, labels):
        for operand in operands:
            plain = re.match(r"\d*(F|H|D)'-?\d+'$|\d*X(L\d+)?'([0-9A-F]{2})+'$|CL?\d*'.+'$|AL1\(\d+\)$", operand)
            address = re.match(r"\d*A\((.*)\)$", operand)
            if address:
                self.check_symbols(address[1], labels)
            elif not plain:
                self.wrong.append(f"constant {operand}")

    def check_macro(self, operation, operands):
        keys = dict(operand.split("=", 1) for operand in operands if re.match(r"[A-Z]+=", operand))
        positional = [operand for operand in operands if not re.match(r"[A-Z]+=", operand)]
        forms = MACROS[operation]
        form = positional[0] if positional and "" not in forms else ""
        if form not in forms:
            return self.wrong.append(f"form {form}")
        needed, taken = forms[form]
        if not needed <= set(keys) <= needed | taken or len(keys) + len(positional) != len(operands):
            self.wrong.append(f"keys {sorted(keys)}")
        if {"STARTBDY", "BNDRY"} <= set(keys) or operation == "CPOOL" and form == "GET" and positional[1:] not in (["COND"], ["UNCOND"]):
            self.wrong.append("operands that exclude each other, or one that is missing")
        if operation in ("FREEMAIN", "STORAGE") and ("LV" in keys and "A" not in keys or "LENGTH" in keys and "ADDR" not in keys):
            self.wrong.append("one of a pair is missing")
        for key, value in keys.items():
            self.check_value(key, value)

    def check_value(self, key, value):
        numbers = value.strip("()").split(",")
        if key in WORDS and value not in WORDS[key]:
            self.wrong.append(f"{key}={value}")
        if key in RANGES and not all(text.isdigit() and RANGES[key][0] <= int(text) <= RANGES[key][1] for text in numbers):
            self.wrong.append(f"{key}={value}")


def programs(job):
    """The programs of a job: their numbered cards."""
    found = []
    for number, card in enumerate(job.splitlines(), 1):
        if card.startswith("//C.SYSIN DD *"):
            found.append([])
        elif card.startswith(("//", "/*")):
            if len(card) > 71:
                found.append([(number, card)])
        elif found:
            found[-1].append((number, card))
    return found


def mistakes(job):
    """What is wrong with the programs of a job."""
    wrong = []
    if not job.startswith("//MVSJOB   JOB "):
        wrong.append("no job")
    for cards in programs(job):
        program = Program(cards, wrong)
        program.check()
        if program.statements[-1][2] != "END":
            wrong.append("no END")
    return wrong
