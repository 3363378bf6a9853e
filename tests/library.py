"""The library for C, C++, Rust and Python: what programs print and return that are linked with it, statically or as a shared library.

The archive is made by tools/library, which proves the crate again where `rt ci` has kept nothing of it. The cases of a compiler, of cargo
or of valgrind that is not on the machine are not tried.
"""

import functools
import os
import re
import shutil
import subprocess
import sys
import tempfile
from pathlib import Path

from cases import Lacking

TOP = Path(__file__).resolve().parent.parent
EXAMPLES = sorted((TOP / "examples").glob("*.job"))
FLAGS = ["-Wall", "-Wextra", "-Werror", "-O1", "-g", f"-I{TOP / 'include'}"]
SANITIZED = ["-fsanitize=address,undefined", "-fno-sanitize-recover=all"]
BUILDS = {
    "gcc": ["gcc", "-std=c99"],
    "clang": ["clang", "-std=c99"],
    "gcc, sanitizers": ["gcc", "-std=c99", *SANITIZED],
}
HANDLED = """\
SVC 4: R15=00000000 R1=00006000 completion 000000
SVC 5: R15=00000000 R1=00006000 completion 000000
SVC 4: R15=00000004 R1=00006000 completion 000000
SVC 5: R15=00000004 R1=00006000 completion 000000
"""
IN_CPLUSPLUS = """\
region: OK, STEP_BEGAN 00000000 0
obtain: OK, GRANTED 00006000 104
attach: OK, ATTACHED 00000000 0
write: OK, ? 00000000 0
refused: location
SUB has 0: 0 bytes
SUB has 7: 104 bytes
2 tasks, 0 pools
abend: OK, ABENDED 00000000 0
SUB ended too
0 tasks, in the copy 2
"""


def printed(words, path):
    """Whether a program prints the stored output of an example, and ends with the status of the job."""
    wanted = path.with_suffix(".out").read_text()
    lines = wanted.splitlines()
    status = 12 if lines[-1:] == ["JOB FAULT RC 12"] else 8 if "STEP ENDED RC 8" in lines else 0
    ran = subprocess.run(words, stdin=path.open(), capture_output=True, text=True, timeout=600)
    return (ran.returncode, ran.stdout, ran.stderr) == (status, wanted, "")


def compiled(words, source, archive, program):
    subprocess.run([*words, *FLAGS, "-o", program, source, *(["-x", "none"] if "-x" in words else []), archive], check=True)
    return program


def exported(archive):
    """Whether the archive exports the functions of mvs.h and no other name, and each of them is declared there."""
    listed = subprocess.run(["nm", "-g", "--defined-only", archive], capture_output=True, text=True, check=True).stdout
    names = {line.split()[-1] for line in listed.splitlines() if len(line.split()) == 3}
    declared = set(re.findall(r"^MVS_API \w+ (mvs_\w+)\(", (TOP / "include/mvs.h").read_text(), re.MULTILINE))
    return names == declared


def lacking(tool, names):
    """The cases that are not tried, since a tool is not there."""
    return [(name, Lacking(tool)) for name in names]


def cases_of(name):
    """The names of a compiler's cases."""
    replayed = [f"{name}, {path.name}, {how}" for path in EXAMPLES for how in ("lines", "whole")]
    return [*replayed, f"{name}, each answer", f"{name}, memory refused", f"{name}, handler"]


def by_compiler(name, words, archive, folder):
    """What the programs of one compiler do."""
    if not shutil.which(words[0]):
        yield from lacking(words[0], cases_of(name))
        return
    replay = compiled(words, TOP / "examples/c/replay.c", archive, folder / f"{name} replay")
    for path in EXAMPLES:
        for how in ("lines", "whole"):
            yield f"{name}, {path.name}, {how}", printed([replay, how], path)
    checks = compiled(words, TOP / "tests/library.c", archive, folder / f"{name} library")
    yield f"{name}, each answer", subprocess.run([checks], timeout=600).returncode == 0
    refused = compiled([*words, "-Wl,--wrap=malloc,--wrap=realloc"], TOP / "tests/refused.c", archive, folder / f"{name} refused")
    yield f"{name}, memory refused", subprocess.run([refused], timeout=600).returncode == 0
    handler = compiled(words, TOP / "examples/c/handler.c", archive, folder / f"{name} handler")
    ran = subprocess.run([handler], capture_output=True, text=True, timeout=600)
    yield f"{name}, handler", (ran.returncode, ran.stdout, ran.stderr) == (0, HANDLED, "")


# A line of an explanation that describes an effect.
EFFECT = re.compile(
    r"\* (?:(\S+) is (?:\d+ bytes at|a cell of pool)|No greater length fits|SP \d+ of \S+ (?:is new|is now empty|is freed|remains)|(?:No|\d+) pages? (?:was|were|became)"
    r"|Pool \S+ has a new part|\S+ (?:now owns|shares) SP \d+)")


def effects_explained(path):
    """The lines of an example's explanation that describe effects, without the names of areas and cells."""
    for line in path.with_suffix(".why").read_text().splitlines(keepends=True):
        found = EFFECT.match(line)
        if found and "obtained in line" not in line:
            yield line.replace(found[1], "?", 1) if found[1] else line


def has_effects(archive, folder):
    """Whether the effects of the lines of each example are those that its explanation describes."""
    if not shutil.which("gcc"):
        yield from lacking("gcc", [f"effects, {path.name}" for path in EXAMPLES])
        return
    program = compiled(["gcc", "-std=c99", *SANITIZED], TOP / "tests/effects.c", archive, folder / "effects")
    for path in EXAMPLES:
        ran = subprocess.run([program], stdin=path.open(), capture_output=True, text=True, timeout=600)
        yield f"effects, {path.name}", (ran.returncode, ran.stdout, ran.stderr) == (0, "".join(effects_explained(path)), "")


def by_valgrind(program):
    """Whether valgrind sees no error and no leak in each answer."""
    if not program.exists() or not shutil.which("valgrind"):
        return Lacking("valgrind" if program.exists() else "gcc")
    words = ["valgrind", "--quiet", "--leak-check=full", "--show-leak-kinds=all", "--error-exitcode=99", program]
    return subprocess.run(words, capture_output=True, timeout=600).returncode == 0


CARGO_CASES = ("tests", "documents", *(f"replay, {path.name}" for path in EXAMPLES))


def by_cargo(folder):
    """What the crates in Rust do: their tests, with the shared library too, their documents, and their example."""
    if not shutil.which("cargo"):
        yield from lacking("cargo", [f"cargo, {name}" for name in CARGO_CASES])
        return
    crates = folder / "rust"
    shutil.copytree(TOP / "bindings/rust", crates, ignore=shutil.ignore_patterns("target", "Cargo.lock"))
    env = os.environ | {"MVS_LIB": str(folder), "CARGO_TARGET_DIR": str(folder / "target"), "RUSTFLAGS": "-Dwarnings", "RUSTDOCFLAGS": "-Dwarnings"}
    cargo = lambda *words: subprocess.run(["cargo", *words, "--offline", "--quiet"], cwd=crates, env=env, capture_output=True)  # noqa: E731
    yield "cargo, tests", cargo("test").returncode == 0
    yield "cargo, documents", cargo("doc", "--no-deps").returncode == 0
    cargo("build", "--examples")
    for path in EXAMPLES:
        yield f"cargo, replay, {path.name}", printed([folder / "target/debug/examples/replay"], path)


def in_python(folder):
    """What the tests of the module in Python do, from its sources and from its wheel."""
    words = [sys.executable, "-m", "unittest", "discover", "-s", str(TOP / "bindings/python/tests")]
    env = os.environ | {"MVS_LIBRARY": str(folder / "libmvs.so.0"), "PYTHONPATH": str(TOP / "bindings/python/src"), "PYTHONDONTWRITEBYTECODE": "1"}
    yield "Python, tests", subprocess.run(words, env=env, capture_output=True, timeout=600).returncode == 0
    subprocess.run([TOP / "tools/wheel", folder / "libmvs.so.0", folder], check=True, capture_output=True)
    wheel, unpacked = next(folder.glob("*.whl")), folder / "wheel"
    pip = [sys.executable, "-m", "pip", "install", "--no-index", "--no-deps", "--no-compile", "--quiet", "--target", unpacked, wheel]
    if subprocess.run([sys.executable, "-m", "pip", "--version"], capture_output=True).returncode:
        yield "Python, wheel", Lacking("pip")
        return
    subprocess.run(pip, capture_output=True, timeout=600)
    del env["MVS_LIBRARY"]
    yield "Python, wheel", subprocess.run(words, env=env | {"PYTHONPATH": str(unpacked)}, capture_output=True, timeout=600).returncode == 0


def in_cplusplus(archive, folder):
    """What the library does in programs of C++: as in C, and through mvs.hpp."""
    if not shutil.which("g++"):
        yield from lacking("g++", ["C++, each answer", "C++, mvs.hpp"])
        return
    words = ["g++", "-x", "c++", "-std=c++11", "-Wno-missing-field-initializers"]
    program = compiled(words, TOP / "tests/library.c", archive, folder / "c++")
    yield "C++, each answer", subprocess.run([program], timeout=600).returncode == 0
    program = compiled(["g++", "-std=c++17", "-pedantic", *SANITIZED], TOP / "examples/cpp/session.cpp", archive, folder / "session")
    ran = subprocess.run([program], capture_output=True, text=True, timeout=600)
    yield "C++, mvs.hpp", (ran.returncode, ran.stdout, ran.stderr) == (0, IN_CPLUSPLUS, "")


def shared(folder):
    """What the shared library does in a program of C, and in Python."""
    library = folder / "libmvs.so.0"
    if shutil.which("gcc"):
        program = compiled(["gcc", "-std=c99"], TOP / "tests/library.c", library, folder / "shared")
        env = os.environ | {"LD_LIBRARY_PATH": str(folder)}
        yield "shared, each answer", subprocess.run([program], env=env, timeout=600).returncode == 0
    else:
        yield "shared, each answer", Lacking("gcc")
    listed = subprocess.run(["nm", "-D", "--defined-only", library], capture_output=True, text=True, check=True).stdout
    yield "shared, versions", {line.split("@@")[-1] for line in listed.splitlines() if " T " in line} == {"MVS_0"}


S390 = {"obtain": "2", "tree": "4"}


def on_s390(archive, folder):
    """Whether the S/390 programs print what the library prints of a script with the same requests."""
    assembler, loader = shutil.which("s390x-linux-gnu-as"), shutil.which("s390x-linux-gnu-ld")
    if not (assembler and loader and shutil.which("gcc") and Path("/usr/include/unicorn/unicorn.h").exists()):
        yield from lacking("binutils-s390x-linux-gnu and libunicorn-dev", [f"S/390, {name}" for name in S390])
        return
    sources, machine = TOP / "examples/s390", folder / "run"
    subprocess.run(["gcc", "-std=c99", *FLAGS, "-o", machine, sources / "run.c", archive, "-lunicorn"], check=True)
    for name, pages in S390.items():
        image = folder / f"{name}.bin"
        subprocess.run([assembler, "-mesa", "-m31", "-o", folder / f"{name}.o", sources / f"{name}.s"], check=True)
        subprocess.run([loader, "-m", "elf_s390", "-Ttext=0x900000", "--oformat=binary", "-o", image, folder / f"{name}.o"], check=True)
        ran = subprocess.run([machine, image, pages], capture_output=True, text=True, timeout=600)
        script = subprocess.run([folder / "gcc replay", "whole"], stdin=(sources / f"{name}.job").open(), capture_output=True, text=True)
        yield f"S/390, {name}", script.stdout != "" and (ran.returncode, ran.stdout, ran.stderr) == (script.returncode, script.stdout, "")


def agrees(archive, folder):
    """Whether random requests by values have the replies of the same requests as lines."""
    if not shutil.which("gcc"):
        return Lacking("gcc")
    program = compiled(["gcc", "-std=c99"], TOP / "tests/differential.c", archive, folder / "differential")
    return subprocess.run([program, "1", "1000"], capture_output=True, timeout=600).returncode == 0


def keeps_promises(archive, folder):
    """Whether random calls keep what the header promises, and the sanitizers see nothing."""
    if not shutil.which("gcc"):
        return Lacking("gcc")
    program = compiled(["gcc", "-std=c99", *SANITIZED], TOP / "tests/fuzz.c", archive, folder / "fuzz")
    return subprocess.run([program, "1", "2000"], capture_output=True, timeout=600).returncode == 0


@functools.cache
def functions():
    """The functions of mvs.h that a user calls: those that end in _into are called by others of it."""
    return re.findall(r"(?m)^(?:MVS_API|static inline) uint32_t (mvs_\w+)(?<!_into)\(", (TOP / "include/mvs.h").read_text())


def stack_limits():
    """The most bytes of stack that a function needs, as docs/EMBEDDING.md says for it or for all others."""
    rows = re.findall(r"(?m)^\| (.*mvs_.*|All others) \| (\d+) KiB \|$", (TOP / "docs/EMBEDDING.md").read_text())
    limits = {name: 1024 * int(most) for names, most in rows for name in re.findall(r"mvs_\w+|All others", names)}
    return {name: limits.get(name, limits["All others"]) for name in functions()}


def stack_uses(archive, folder):
    """The name of a function and the most bytes of stack that its calls needed, for each run of a program."""
    header = folder / "measured.h"
    macros = (f"#define {name}(...) MEASURED({name}, __VA_ARGS__)" for name in functions())
    header.write_text("\n".join(("#include <mvs.h>", f'#include "{TOP / "tests/stack.h"}"', *macros, "")))
    words = ["gcc", "-std=c99", "-include", header]
    program = lambda source: compiled(words, TOP / source, archive, folder / f"stack {Path(source).stem}")  # noqa: E731
    replay, effects = program("examples/c/replay.c"), program("tests/effects.c")
    scripts = [*EXAMPLES, *sorted((TOP / "tests/scripts").glob("*.job"))]
    runs = [(words, path) for path in scripts for words in ([replay, "lines"], [replay, "whole"], [effects])]
    runs += [([program("tests/library.c")], os.devnull)]
    runs += [([program(f"tests/{name}.c"), "1", "100"], os.devnull) for name in ("differential", "fuzz")]
    for words, path in runs:
        ran = subprocess.run(words, stdin=open(path), stdout=subprocess.DEVNULL, stderr=subprocess.PIPE, text=True, timeout=600)
        yield from ((name, int(used)) for name, used in re.findall(r"(?m)^(mvs_\w+) (\d+)$", ran.stderr))


def needs_stack(archive, folder):
    """Whether each function is called, and needs no more stack than docs/EMBEDDING.md says."""
    if not shutil.which("gcc"):
        yield from lacking("gcc", [f"stack, {name}" for name in functions()])
        return
    most = dict.fromkeys(functions(), 0)
    for name, used in stack_uses(archive, folder):
        most[name] = max(most[name], used)
    for name, limit in stack_limits().items():
        yield f"stack, {name}", 0 < most[name] <= limit


def has_no_data(archive):
    """Whether the archive has no data that calls could share: nothing that can be written but one byte, which nothing writes."""
    listed = subprocess.run(["nm", archive], capture_output=True, text=True, check=True).stdout
    return set(re.findall(r"(?m)^\w+ [bBdDcC] (.*)$", listed)) <= {"nothing"}


def is_hidden(archive, folder):
    """Whether a plugin that contains the archive exports nothing of it."""
    if not shutil.which("gcc"):
        return Lacking("gcc")
    plugin = folder / "plugin.so"
    words = ["gcc", "-std=c99", "-shared", "-fPIC", "-Dmain=replay", *FLAGS]
    subprocess.run([*words, "-o", plugin, TOP / "examples/c/replay.c", archive], check=True)
    listed = subprocess.run(["nm", "-D", "--defined-only", plugin], capture_output=True, text=True, check=True).stdout
    return "replay" in listed and "mvs_" not in listed


def results():
    """Each case's name, and whether it passed."""
    with tempfile.TemporaryDirectory() as name:
        folder = Path(name)
        subprocess.run([TOP / "tools/library", folder], check=True)
        archive = folder / "libmvs.a"
        found = [("exported names", exported(archive)), ("no shared data", has_no_data(archive))]
        for compiler, words in BUILDS.items():
            found += by_compiler(compiler, words, archive, folder)
        found += in_cplusplus(archive, folder)
        found.append(("valgrind", by_valgrind(folder / "gcc library")))
        found += has_effects(archive, folder)
        found.append(("values and lines", agrees(archive, folder)))
        found.append(("random calls", keeps_promises(archive, folder)))
        found.append(("hidden in a plugin", is_hidden(archive, folder)))
        found += needs_stack(archive, folder)
        return [*found, *shared(folder), *on_s390(archive, folder), *in_python(folder), *by_cargo(folder)]
