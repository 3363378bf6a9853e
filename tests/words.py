"""Plain English: how often documents, printed text, and the comments of sources, tests and tools use a word in a sense that readers do not expect.

A word here can be right where it stands ("behind" for a place, "alone" for a person), so a few are allowed in 10,000 words.
"""

import re
import tokenize
from pathlib import Path

TOP = Path(__file__).resolve().parent.parent
ODD = re.compile(
    r"\b(told|tells?|said|stands?|lies?|behind|wanting|wants?|wanted|goes|alone|so many|of which|of whose|is to be|lent|lends?|hears?|"
    r"gives up|gave up|falls? with|fell with|in place of|in front of|as far as|takes no|the same of|spells|speaks of|meets|daughter)\b",
    re.I,
)
WORD = re.compile(r"[A-Za-z']+")
MOST = {"documents": 5, "printed text": 10, "comments": 20, "tests and tools": 20}  # in 10,000 words


def documents():
    for path in [*TOP.glob("*.md"), *TOP.glob("docs/*.md"), *TOP.glob("lessons/**/*.md"), *TOP.glob("examples/**/*.md"), *TOP.glob("tools/help*.txt")]:
        text = re.sub(r"(?ms)^```.*?^```$|^    .*?$", "", path.read_text())
        yield re.sub(r"`[^`]*`", "", text)


def sources():
    """The lines of all sources, without white space before them."""
    for path in TOP.glob("crates/*/src/**/*.rt"):
        yield from map(str.strip, path.read_text().splitlines())


def printed():
    for line in sources():
        if not line.startswith("//"):
            yield from (text for text in re.findall(r'"((?:[^"\\]|\\.)*)"', line) if " " in text)


def comments():
    for line in sources():
        if line.startswith("//"):
            yield re.sub(r"`[^`]*`", "", line.lstrip("/!"))
    for path in TOP.glob("crates/*/specs/**/*.antt"):
        yield from (line.strip("- ") for line in path.read_text().splitlines() if line.startswith("--"))


def of_tests():
    """The comments of what is written in Python."""
    for path in [*TOP.glob("tests/*"), *TOP.glob("tools/*"), *TOP.glob("bench/*"), *TOP.glob("conformance/**/*")]:
        if path.suffix == ".py" or path.is_file() and path.read_bytes().startswith(b"#!/usr/bin/env python3"):
            with tokenize.open(path) as file:
                for token in tokenize.generate_tokens(file.readline):
                    if token.type == tokenize.COMMENT or token.type == tokenize.STRING and token.string.startswith('"""'):
                        yield re.sub(r"`[^`]*`", "", token.string)


def rate(texts):
    """How many of 10,000 words of some texts are such a word."""
    words = odd = 0
    for text in texts:
        words += len(WORD.findall(text))
        odd += len(ODD.findall(text))
    return 10_000 * odd / max(words, 1)


def results():
    for kind, texts in zip(MOST, (documents(), printed(), comments(), of_tests())):
        found = rate(texts)
        yield f"{kind}: {found:.1f} odd words in 10,000, {MOST[kind]} at most", found <= MOST[kind]
