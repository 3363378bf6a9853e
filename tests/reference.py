"""`--code` and `--rule`: there is a text for each code of docs/SCRIPT.md and each rule of docs/RULES.md, and what an example is said to
print is what the program and the plain machine print.
"""

import re
import subprocess
import sys
from pathlib import Path

TOP = Path(__file__).resolve().parent.parent
EXAMPLE = re.compile(r"\nExample:\n((?:    .*\n)+)\nIt prints:\n((?:    .*\n)+)")
REPLIES = ("RC 4", "NO CELL", "NOT RUN", "NO NAME")
LONG = ("JS01", "JS02", "U4005", "U4007")  # an example would be a long line, a byte that no text has, or very many statements
WIDTH = 78


def codes():
    """The codes that docs/SCRIPT.md lists, and the replies that have a text."""
    found = re.findall(r"\bS[0-9AB][0-9A-F]{2}\b|\bU4\d{3}\b|\bJS\d\d\b", (TOP / "docs/SCRIPT.md").read_text())
    return sorted(set(found)) + list(REPLIES)


def rules():
    """The rules of docs/RULES.md: number and sentence."""
    rows = re.findall(r"(?m)^\| (\d+) \| (.*?) \|", (TOP / "docs/RULES.md").read_text())
    return {int(number): sentence.replace("`", "") for number, sentence in rows}


def text_of(program, *words):
    ran = subprocess.run([program, *words], capture_output=True, text=True, timeout=600)
    return ran.stdout if (ran.returncode, ran.stderr) == (0, "") else ""


def plain(text):
    return re.sub(r"(?m)^    ", "", text)


def printed(command, script):
    return subprocess.run(command, input=script, capture_output=True, text=True, timeout=600).stdout


def shows(program, text):
    """Whether the example of a text prints what the text says."""
    found = EXAMPLE.search(text)
    if not found:
        return False
    script, wanted = map(plain, found.groups())
    return printed([program], script) == wanted == printed([sys.executable, TOP / "tests/plain_emulator.py"], script)


def is_narrow(text):
    return all(len(line) <= WIDTH for line in text.splitlines()) and text.endswith("\n")


def holds_code(program, code):
    text = text_of(program, "--code", code)
    parts = all(f"\n{part}:\n" in text for part in ("Usual causes", "What to try"))
    shown = re.search(rf"(?m)^    .*\b{code}\b", text) and shows(program, text) if code not in LONG else "Example" not in text
    return text.startswith(f"{code}: ") and parts and is_narrow(text) and bool(shown)


def holds_rule(program, number, sentence):
    text = text_of(program, "--rule", str(number))
    said = " ".join(text.partition("\n\nSource: ")[0].split())
    return said == f"Rule {number}: {sentence}" and is_narrow(text) and shows(program, text)


def refused(program, *words):
    ran = subprocess.run([program, *words], stdin=subprocess.DEVNULL, capture_output=True, text=True, timeout=600)
    return ran.returncode == 16 and ran.stdout == "" and ran.stderr.startswith("error: ")


def results(program):
    for code in codes():
        yield f"--code {code}", holds_code(program, code)
    offered = re.search(r"--code <CODE>.*\[possible values: (.*?)\]", (TOP / "tools/help.txt").read_text())[1]
    yield "the codes of --help", sorted(word.strip('"') for word in offered.split(", ")) == sorted(codes())
    for number, sentence in rules().items():
        yield f"--rule {number}", holds_rule(program, number, sentence)
    yield "rules are numbered from 1 on", list(rules()) == list(range(1, 75))
    yield "each rule that a text names is there", all(
        int(rule) in rules() for code in codes() for line in re.findall(r"(?m)^Rules? (.*) appl", text_of(program, "--code", code)) for rule in re.findall(r"\d+", line)
    )
    for words in (("--code", "S999"), ("--code", "s878"), ("--code", ""), ("--rule", "0"), ("--rule", "75"), ("--rule", "x")):
        yield f"{' '.join(words)} is refused", refused(program, *words)
    for words in (("--code", "S878", "a.job"), ("--rule", "1", "a.job"), ("--code", "S878", "--rule", "1"), ("--rule", "1", "--explain"), ("--code", "JS01", "--random", "1")):
        yield f"{' '.join(words)} is refused", refused(program, *words)
