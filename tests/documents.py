"""What ties the documents, the help and the sources together.

THIRD_PARTY.md has each library of the kit that is linked into the programs, and so have the copyright file and the SPDX document; each
option of the help is in CHANGELOG.md, on the manual page and in the completions; all programs have one version, the newest of
CHANGELOG.md; each link of a document holds, in the checkout and in the tree that is installed, in Markdown and in HTML.
"""

import json
import os
import re
import shutil
import subprocess
import sys
import tempfile
from pathlib import Path

from cases import Lacking

TOP = Path(__file__).resolve().parent.parent
LINK = re.compile(r"\]\((?!https?:)([^)#\s]*)(#[^)\s]*)?\)")
HTML_LINK = re.compile(r'(?:href|src)="(?!\w+:)([^"#]*)(#[^"]*)?"')
PROGRAMS = ("mvsjob", "mvsjob_asm", "mvsjob_lsp", "mvs_c")
# Libraries of the kit that are no port, and that each crate has: one row of THIRD_PARTY.md names all of them.
OWN = {"core", "std", "std_alloc", "std_heap", "std_collections", "std_io", "io", "os", "libc"}


def kit():
    """The kit's folder."""
    return Path(shutil.which("rt")).resolve().parent.parent


def used():
    """The libraries of the kit below the programs: those that their crates name in crates.txt, and those that these use."""
    sys.path.insert(0, str(kit() / "bin"))
    import rtlib

    crates = {crate.name: crate for crate in rtlib.crates_below(str(TOP))}
    named = {name for program in PROGRAMS for crate in (crates[program], *crates[program].below()) for name in crate.of_kit}
    return {word.partition(":")[0] for word in rtlib.kit_sources(sorted(named)) if word != "--lib"}


def listed():
    """The libraries in the first column of the table of THIRD_PARTY.md."""
    rows = re.findall(r"(?m)^\| (`[^|]*) \|", (TOP / "THIRD_PARTY.md").read_text())
    return {name for row in rows for name in re.findall(r"`(\w+)`", row)}


def options(text):
    return set(re.findall(r"(?<![\w-])--[a-z][a-z-]*", text))


def completed(program):
    """What the completions of a program name, by the shell."""
    for shell in ("bash", "zsh", "fish"):
        text = subprocess.check_output([TOP / "tools/completion", shell, program], text=True)
        yield shell, options(re.sub(r" -l ([a-z-]+)", r" --\1", text))


def naming(folder):
    """The texts that name each option of mvsjob, and the options that they name."""
    subprocess.run([TOP / "tools/manual", folder, "mvsjob.1"], check=True)
    yield "CHANGELOG.md", options((TOP / "CHANGELOG.md").read_text())
    yield "mvsjob.1", options((folder / "mvsjob.1").read_text().replace("\\-", "-"))
    yield from completed("mvsjob")


def converter_naming():
    """The same for mvsjob-asm."""
    yield "CHANGELOG.md", options((TOP / "CHANGELOG.md").read_text())
    yield from completed("mvsjob-asm")


def server_naming():
    """The same for mvsjob-lsp."""
    yield "EDITORS.md", options((TOP / "docs/EDITORS.md").read_text()) | {"--help", "--version"}
    yield from completed("mvsjob-lsp")


def conform_naming():
    """The same for mvsjob-conform."""
    yield "CONFORMANCE.md", options((TOP / "docs/CONFORMANCE.md").read_text()) | {"--help", "--version"}
    yield from completed("mvsjob-conform")


def versions():
    """The version that each program has."""
    yield "tools/version", subprocess.check_output([TOP / "tools/version"], text=True).split()[1]
    yield "mvsjob", subprocess.check_output([TOP / "crates/mvsjob/out/mvsjob", "--version"], text=True).split()[1]
    yield "mvsjob-asm", subprocess.check_output([TOP / "crates/mvsjob_asm/out/mvsjob_asm", "--version"], text=True).split()[1]
    yield "mvsjob-lsp", subprocess.check_output([TOP / "crates/mvsjob_lsp/out/mvsjob_lsp", "--version"], text=True).split()[1]
    yield "mvsjob-conform", subprocess.check_output([TOP / "conformance/mvsjob-conform", "--version"], text=True).split()[1]


def linked():
    """The libraries that have functions in the linked programs."""
    row = re.search(r"(?m)^\| (.*), no function of which is linked \|", (TOP / "THIRD_PARTY.md").read_text())[1]
    return used() - set(re.findall(r"`(\w+)`", row))


def licences():
    """What the copyright file and the SPDX document of a package have."""
    text = subprocess.check_output([TOP / "tools/licences", "copyright"], text=True)
    stanzas = [dict(re.findall(r"(?m)^([A-Z][\w-]+): ?(.*)$", stanza)) for stanza in text.split("\n\n")]
    named = {path.split("/")[1] for stanza in stanzas for path in stanza.get("Files", "").split() if path.startswith("rattle/")}
    given = {stanza["License"] for stanza in stanzas if "Files" in stanza}
    yield "copyright, its form", stanzas[0]["Format"].endswith("/copyright-format/1.0/") and given <= {s["License"] for s in stanzas if list(s) == ["License"]}
    yield "copyright, each library", linked() <= named
    document = json.loads(subprocess.check_output([TOP / "tools/licences", "spdx", "mvsjob", "1.1.0", TOP / "README.md", "0"], text=True))
    packages = {package["SPDXID"]: package for package in document["packages"]}
    ends = [(it["spdxElementId"], it["relatedSpdxElement"]) for it in document["relationships"]]
    fields = {"SPDXID", "name", "downloadLocation", "licenseConcluded", "licenseDeclared", "copyrightText"}
    yield "SPDX, its form", document["spdxVersion"] == "SPDX-2.3" and all(fields <= set(package) for package in packages.values())
    yield "SPDX, its identifiers", len(packages) == len(document["packages"]) and all(other in packages for _, other in ends)
    yield "SPDX, each library", linked() <= {package["name"].split()[-1].split("/")[0] for package in packages.values()}


def anchors(path):
    """The anchors of a document, as its headings make them."""
    for heading in re.findall(r"(?m)^#+ (.*)$", path.read_text()):
        yield "#" + re.sub(r"[^\w\- ]", "", heading.lower()).replace(" ", "-")


def html_anchors(path):
    return {f"#{name}" for name in re.findall(r'\bid="([^"]*)"', path.read_text())}


ANCHORS = {".md": anchors, ".html": html_anchors}


def dead_links(path):
    """The links of a document, in Markdown or HTML, that lead nowhere."""
    text = path.read_text()
    links = HTML_LINK.findall(text) if path.suffix == ".html" else LINK.findall(re.sub(r"(?s)```.*?```", "", text))
    for file, anchor in links:
        target = path.parent / file if file else path
        if not target.exists() or anchor and target.suffix in ANCHORS and anchor not in ANCHORS[target.suffix](target):
            yield file + anchor


def documents(top):
    return [path for path in sorted(top.rglob("*.md")) if not {"out", ".git", "target"} & set(path.relative_to(top).parts)]


def install(folder):
    """What is installed below a folder, with stand-ins for the programs. HTML is made if pandoc is there."""
    folder.mkdir()
    env = os.environ | {"DESTDIR": str(folder), "MVSJOB": "/bin/true", "MVSJOB_ASM": "/bin/true"}
    if shutil.which("pandoc"):
        (folder / "html").mkdir()
        subprocess.run([TOP / "tools/html", folder / "html"], check=True)
        env["HTML"] = str(folder / "html")
    subprocess.run([TOP / "tools/install", "/usr", "program", "conformance"], check=True, env=env, stdout=subprocess.DEVNULL)
    return folder / "usr/share/doc/mvsjob"


def links(top, where):
    """Whether the links of each document below a folder hold, and if it is installed those of its HTML."""
    for path in documents(top):
        yield f"links of {path.relative_to(top)}{where}", not list(dead_links(path))
        if where:
            page = path.with_suffix(".html")
            yield f"links of {page.relative_to(top)}{where}", not list(dead_links(page)) if shutil.which("pandoc") else Lacking("pandoc")


def results():
    for name in sorted(used() - OWN | listed() - OWN):
        yield f"{name} in THIRD_PARTY.md", name in used() and name in listed()
    yield from licences()
    newest = re.search(r"(?m)^## \[(\d[\d.]*)\] - \d{4}-\d\d-\d\d$", (TOP / "CHANGELOG.md").read_text())[1]
    yield from ((f"version of {name}", version == newest) for name, version in versions())
    with tempfile.TemporaryDirectory() as name:
        wanted = options((TOP / "tools/help.txt").read_text())
        for place, found in naming(Path(name)):
            yield from ((f"{option} in {place}", option in found) for option in sorted(wanted))
        wanted = options((TOP / "tools/help-asm.txt").read_text())
        for place, found in converter_naming():
            yield from ((f"mvsjob-asm {option} in {place}", option in found) for option in sorted(wanted))
        wanted = options((TOP / "tools/help-lsp.txt").read_text())
        for place, found in server_naming():
            yield from ((f"mvsjob-lsp {option} in {place}", option in found) for option in sorted(wanted))
        wanted = options(subprocess.check_output([TOP / "conformance/mvsjob-conform", "--help"], text=True))
        for place, found in conform_naming():
            yield from ((f"{option} in {place}", option in found) for option in sorted(wanted))
        yield from links(TOP, "")
        yield from links(install(Path(name) / "installed"), ", installed")
