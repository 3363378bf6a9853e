"""What `./x package` and `./x install` make: the same bytes twice, with git and without, programs that run the examples without any
environment, manual pages without a warning, completions, and nothing that `./x uninstall` leaves behind.

It needs no root and no network. What needs a shell, lintian or another tool that is not on the machine is not tried.
"""

import os
import re
import shutil
import subprocess
import tempfile
from pathlib import Path

from cases import Lacking

TOP = Path(__file__).resolve().parent.parent
EXAMPLES = sorted((TOP / "examples").glob("*.job"))
VERIFY = (TOP / "docs/VERIFY.md").read_text()
HELP = (TOP / "tools/help.txt").read_text()
LONG_HELP = (TOP / "tools/help-long.txt").read_text()
PAGES = {
    "man1/mvsjob.1": ("OPTIONS", "EXAMPLES", "SEE ALSO"),
    "man1/mvsjob-shell.1": ("COMMANDS", "EDITING AND HISTORY", "SEE ALSO"),
    "man1/mvsjob-asm.1": ("OPTIONS", "EXIT STATUS", "CONVERSION", "SEE ALSO"),
    "man1/mvsjob-lsp.1": ("OPTIONS", "EXIT STATUS", "WHAT IT SHOWS", "SEE ALSO"),
    "man1/mvsjob-conform.1": ("OPTIONS", "EXIT STATUS", "SEE ALSO"),
    "man5/mvsjob-script.5": ("GETMAIN", "CPOOL", "FAULTS", "LIMITS"),
    "man7/mvsjob-sheet.7": ("STATEMENTS", "REPLIES", "CODES", "TEN MISTAKES"),
}
PROGRAMS = ("mvsjob", "mvsjob-shell", "mvsjob-asm", "mvsjob-lsp", "mvsjob-conform")
COMPLETIONS = {
    "bash": "share/bash-completion/completions/{}",
    "zsh": "share/zsh/site-functions/_{}",
    "fish": "share/fish/vendor_completions.d/{}.fish",
}
PACKAGES = {  # their files' modes
    "mvsjob": {"-rw-r--r--", "-rwxr-xr-x"},
    "libmvs0": {"-rw-r--r--"},
    "libmvs-dev": {"-rw-r--r--", "lrwxrwxrwx"},
    "mvsjob-conformance": {"-rw-r--r--", "-rwxr-xr-x"},
    "python3-mvs": {"-rw-r--r--"},
}
MADE = ("{0}_{1}_amd64.deb", "libmvs0_{1}_amd64.deb", "libmvs-dev_{1}_amd64.deb", "mvsjob-conformance_{1}_all.deb", "python3-mvs_{1}_all.deb", "{0}-{1}-linux-x86_64.tar.gz")
RPM = ("{0}-{1}-1.x86_64.rpm", "libmvs-{1}-1.x86_64.rpm", "libmvs-devel-{1}-1.x86_64.rpm", "mvsjob-conformance-{1}-1.noarch.rpm")
COMPLETED = {
    ("--pl",): "--place",
    ("--place", ""): "low high",
    ("--place", "h"): "high",
    ("--place", "=", "l"): "low",
    ("--place", "="): "low high",
    ("--v",): "--version",
    ("fir",): "first.job first.out first.why",
}
COMPLETE = 'source "$1"; COMP_WORDS=(mvsjob "${@:2}"); COMP_CWORD=$(($# - 1)); _mvsjob; echo "${COMPREPLY[*]}"'


def output(*words, **how):
    return subprocess.run(words, capture_output=True, text=True, check=True, **how).stdout


def example(program, path):
    """Whether an example prints its stored output, where the program has no environment."""
    ran = subprocess.run([program, path.name], cwd=path.parent, env={}, capture_output=True, text=True, timeout=600)
    wanted = (TOP / "examples" / path.name).with_suffix(".out").read_text()
    status = 8 if "STEP ENDED RC 8" in wanted.splitlines() else 0
    return (ran.returncode, ran.stdout, ran.stderr) == (status, wanted, "")


def shown(page):
    """The lines of a manual page, without their margins; none where it is rendered with a warning."""
    env = os.environ | {"LC_ALL": "C.UTF-8", "MANWIDTH": "80", "MANROFFSEQ": ""}
    ran = subprocess.run(["man", "--warnings", "-E", "UTF-8", "-P", "cat", "-l", page], env=env, capture_output=True, text=True)
    return {line.strip() for line in ran.stdout.splitlines()} if (ran.returncode, ran.stderr) == (0, "") else set()


def rendered(page):
    """Whether a manual page is rendered without a warning and has all of its sections."""
    return {"NAME", *PAGES[f"{page.parent.name}/{page.name.removesuffix('.gz')}"]} <= shown(page)


def scripts_are_shown(root):
    """Whether each line of a script or of its output in docs/SCRIPT.md is in one of the two manual pages made of it, as it is there."""
    blocks = (TOP / "docs/SCRIPT.md").read_text().split("```")[1::2]
    lines = {line.strip() for block in blocks for line in block.splitlines() if not line.startswith("mvsjob ")}
    return lines <= shown(root / "share/man/man5/mvsjob-script.5") | shown(root / "share/man/man1/mvsjob.1") | {""}


def options(text):
    """The options of a text, as the help writes them."""
    return set(re.findall(r"(?<![\w-])--?[a-zA-Z][a-z]*\b", text))


def fish_options(text):
    return {f"--{word}" for word in re.findall(r" -l (\w+)", text)} | {f"-{word}" for word in re.findall(r" -s (\w)", text)}


def read_by_shell(shell, path):
    """Whether a shell can read its completion."""
    return subprocess.run([shell, "-n", path]).returncode == 0 if shutil.which(shell) else Lacking(shell)


def help_of(root, name):
    if name == "mvsjob":
        return HELP.split("Exit status")[0]
    return output(root / "bin" / name, "--help", env=os.environ | {"MVSJOB": str(root / "bin/mvsjob")})


def in_session(root):
    """Whether mvsjob-shell runs lines that are not typed, and leaves only its history."""
    with tempfile.TemporaryDirectory() as state:
        env = os.environ | {"MVSJOB": str(root / "bin/mvsjob"), "XDG_STATE_HOME": state}
        ran = subprocess.run([root / "bin/mvsjob-shell"], input="JOB REGION BELOW=1\n.quit\n", env=env, capture_output=True, text=True)
        return (ran.returncode, ran.stdout) == (0, "1 JOB REGION BELOW 1 ABOVE 0\nSTEP ENDED RC 0\n") and os.listdir(state) in ([], ["mvsjob"])


def completions(root):
    for name in PROGRAMS:
        known = options(help_of(root, name).replace("--format junit", ""))
        for shell, place in COMPLETIONS.items():
            path = root / place.format(name)
            text = path.read_text()
            named = fish_options(text) if shell == "fish" else options(re.sub(r"\b(compgen|complete|compopt|_arguments|_command_names)( -\w+)*", "", text))
            yield f"{shell} knows the options of {name}", known <= named
            yield f"{shell} reads the completion of {name}", read_by_shell(shell, path)
    for words, wanted in COMPLETED.items():
        command = ["bash", "--norc", "--noprofile", "-c", COMPLETE, "bash", root / COMPLETIONS["bash"].format("mvsjob"), *words]
        yield f"bash completes {' '.join(words)}", sorted(output(*command, cwd=TOP / "examples").split()) == sorted(wanted.split())


def without_warnings(package):
    """Whether lintian finds no error and no warning in a package."""
    if not shutil.which("lintian"):
        return Lacking("lintian")
    ran = subprocess.run(["lintian", "--allow-root", "--fail-on", "error,warning", package], capture_output=True, text=True)
    return (ran.returncode, ran.stdout) == (0, "")


def linked(root, program):
    """Whether pkg-config leads a compiler to the library below a folder, wherever that is."""
    if not shutil.which("pkg-config"):
        yield "pkg-config", Lacking("pkg-config")
        return
    env = os.environ | {"PKG_CONFIG_LIBDIR": str(root / "lib/pkgconfig")}
    words = output("pkg-config", "--cflags", "--libs", "--static", "mvs", env=env).split()
    source = next(root.glob("share/doc/*/examples/c/handler.c"))
    output("cc", "-std=c99", "-o", program, source, *words)
    yield "pkg-config", output(program).startswith("SVC 4: R15=00000000")


def without_git(folder):
    """A copy of the sources and of the programs that were made of them, which no git knows."""
    shutil.copytree(TOP, folder, symlinks=True, ignore=shutil.ignore_patterns(".git", "out", "target"))
    for name in ("mvsjob/out/mvsjob", "mvsjob_asm/out/mvsjob_asm", "mvsjob_lsp/out/mvsjob_lsp", "mvs_c/out/libmvs_c.a"):
        (folder / "crates" / name).parent.mkdir(exist_ok=True)
        shutil.copy(TOP / "crates" / name, folder / "crates" / name)
    return folder


def exported(library):
    """The names that a shared library exports."""
    return {line.split()[-1] for line in output("objdump", "-T", library).splitlines() if " .text" in line}


def hardened(program):
    """Whether a program is position independent, its relocations are read-only at once, and its stack is not executable."""
    headers, dynamic = output("readelf", "-lW", program), output("readelf", "-dW", program)
    return "DYN (" in output("readelf", "-hW", program) and "GNU_RELRO" in headers and "NOW" in dynamic and "RWE" not in headers and "TEXTREL" not in dynamic


def verifying():
    """The five commands of docs/VERIFY.md. `./test` runs the second and the fifth, with more."""
    block = re.search(r"(?ms)^```sh\n(rt version.*?)^```$", VERIFY)[1]
    return [line.partition("#")[0].strip() for line in block.splitlines()]


def packages(folder):
    """The packages, made twice: the second time as docs/VERIFY.md says, in another folder, without git, with another umask, locale and zone."""
    version = output(TOP / "tools/version").split()[1]
    output(TOP / "tools/library", folder / "library")  # makes the archive that the copy needs, if there is none
    first, copy = folder / "once", without_git(folder / "copy")
    again, odd = copy / "out", os.environ | {"LC_ALL": "C.UTF-8", "TZ": "Asia/Tokyo"}
    output(TOP / "x", "package", first)
    kit, _, package, sums, _ = verifying()
    kit_sum, made, summed = (output("bash", "-c", f"umask 077; {command}", cwd=copy, env=odd) for command in (kit, package, sums))
    yield "VERIFY.md, the kit", f"`{kit_sum.strip()}`" in VERIFY
    yield "VERIFY.md, the packages", {Path(line) for line in made.splitlines()} == set(again.iterdir())
    yield "VERIFY.md, the sums", len(summed.splitlines()) == len(MADE) and set(summed.splitlines()) <= set((first / "SHA256SUMS").read_text().splitlines())
    for name in [name.format("mvsjob", version) for name in MADE + RPM]:
        if name.endswith(".rpm") and not shutil.which("rpmbuild"):
            yield from ((f"{name}{what}", Lacking("rpmbuild")) for what in ("", ".spdx.json"))
            continue
        for each in (name, f"{name}.spdx.json"):
            yield f"{each}, the same bytes twice", (first / each).read_bytes() == (again / each).read_bytes()
    yield "SHA256SUMS", output("sha256sum", "--check", "--strict", "SHA256SUMS", cwd=first).count(": OK\n") == len(list(first.iterdir())) - 1
    for name, modes in PACKAGES.items():
        package = next(first.glob(f"{name}_{version}_*.deb"))
        listed = [line.split() for line in output("dpkg-deb", "-c", package).splitlines()]
        yield f"lintian, {name}", without_warnings(package)
        yield f"all files are root's, {name}", {words[1] for words in listed} == {"root/root"}
        yield f"modes, {name}", {words[0] for words in listed} == {"drwxr-xr-x"} | modes
    archive = folder / f"mvsjob-{version}-linux-x86_64"
    output("tar", "-xzf", first / f"{archive.name}.tar.gz", "-C", folder)
    yield "the archive's program", example(archive / "bin/mvsjob", TOP / "examples/first.job")
    yield from ((f"the archive, {name}", well) for name, well in linked(archive, folder / "handler"))
    yield "the names that libmvs.so.0 exports", exported(archive / "lib/libmvs.so.0") == set(re.findall(r"(?m)^MVS_API \w+ (mvs_\w+)\(", (TOP / "include/mvs.h").read_text()))
    yield from ((f"{name} is hardened", hardened(archive / name)) for name in ("bin/mvsjob", "bin/mvsjob-asm", "bin/mvsjob-lsp", "lib/libmvs.so.0"))
    yield from installed(archive)


def installed(root):
    """What is below the folder that the archive was unpacked in."""
    program = root / "bin/mvsjob"
    version = output(TOP / "tools/version")
    for path in EXAMPLES:
        yield path.name, example(program, root / "share/doc/mvsjob/examples" / path.name)
    for word, text in {"-h": HELP, "--help": LONG_HELP, "--version": version, "-V": version}.items():
        ran = subprocess.run([program, word], env={}, capture_output=True, text=True)
        yield word, (ran.returncode, ran.stdout, ran.stderr) == (0, text, "")
    for page in PAGES:
        yield page, rendered(root / "share/man" / page)
    yield "all scripts of SCRIPT.md", scripts_are_shown(root)
    yield "mvsjob-shell", in_session(root)
    for name in ("LICENSE-MIT", "LICENSE-APACHE", "THIRD_PARTY.md", "docs/page.png", "examples/first.why"):
        yield name, (root / "share/doc/mvsjob" / name).stat().st_size > 0
    yield from completions(root)
    yield from serves(root)


def serves(root):
    """Whether the server answers, and the files for editors are those of the repository."""
    texts = ['{"jsonrpc":"2.0","id":1,"method":"initialize"}', '{"jsonrpc":"2.0","id":2,"method":"shutdown"}', '{"jsonrpc":"2.0","method":"exit"}']
    ran = subprocess.run([root / "bin/mvsjob-lsp"], input="".join(f"Content-Length: {len(text)}\r\n\r\n{text}" for text in texts), capture_output=True, text=True)
    yield "mvsjob-lsp answers", ran.returncode == 0 and ran.stdout.endswith('{"jsonrpc":"2.0","id":2,"result":null}') and not ran.stderr
    for path in sorted((TOP / "editors").rglob("*.*")):
        place = path.relative_to(TOP)
        yield str(place), (root / "share/mvsjob" / place).read_bytes() == path.read_bytes()


def by_install(folder):
    """What `./x install` puts below its folder, and whether `./x uninstall` removes all of it."""
    staged = folder / "staged"
    env = os.environ | {"DESTDIR": str(staged)}
    for words, prefix in ((["x", "install"], "usr/local"), (["build", "--install", "/opt/mvsjob"], "opt/mvsjob")):
        root = staged / prefix
        output(TOP / words[0], *words[1:], env=env)
        yield f"./{' '.join(words)}", example(root / "bin/mvsjob", TOP / "examples/first.job")
        yield f"{prefix}, pkg-config", f"prefix=/{prefix}\n" in (root / "lib/pkgconfig/mvs.pc").read_text()
        yield f"{prefix}, mvsjob-conform", output(root / "bin/mvsjob-conform", root / "bin/mvsjob", "--program", root / "bin/mvsjob", "--rule", "9").endswith("26 passed, 0 failed\n")
        for page in PAGES:
            yield f"{prefix}, {page}", rendered(root / "share/man" / page)
    (staged / "usr/local/bin/mine").write_text("")
    output(TOP / "x", "install", env=env)
    for words, left in ((["/opt/mvsjob"], set()), ([], {"mine"})):
        output(TOP / "x", "uninstall", *words, env=env)
        root = staged / (words[0].strip("/") if words else "usr/local")
        yield f"./x uninstall {' '.join(words)}".strip(), {path.name for path in root.rglob("*") if path.is_file()} == left
    ran = subprocess.run([TOP / "x", "uninstall"], env=env, capture_output=True, text=True)
    yield "./x uninstall, nothing installed", ran.returncode == 16 and ran.stderr.startswith(f"uninstall: nothing is installed in {staged}/usr/local: ")


def verbs():
    """What ./x does without a verb, or with one that it does not know."""
    without, unknown, asked = (subprocess.run([TOP / "x", *words], capture_output=True, text=True) for words in ([], ["frob"], ["--help"]))
    yield "./x", (without.returncode, without.stdout) == (16, "") and without.stderr == asked.stdout
    yield "./x --help", asked.returncode == 0 and all(f"\n  {verb} " in asked.stdout for verb in ("run", "build", "test", "package", "install", "uninstall"))
    yield "./x frob", (unknown.returncode, unknown.stdout) == (16, "") and unknown.stderr.startswith("x: no verb frob; ")
    yield "./x run", output(TOP / "x", "run", TOP / "examples/first.job") == output(TOP / "run", TOP / "examples/first.job")


def cannot_write(folder):
    """Whether ./build says that it cannot write in its folder. Root can, so it becomes nobody."""
    closed = folder / "closed"
    (closed / "crates/mvs_model").mkdir(parents=True)
    (closed / "tools").mkdir()
    for name in ("build", "x", "tools/build"):
        shutil.copy(TOP / name, closed / name)
    (closed / "crates.txt").write_text("mvs_model: thiserror\n")
    (closed / "rt").write_text("#!/bin/sh\nexit 1\n")
    for path in (closed / "rt", closed / "crates/mvs_model", folder):
        path.chmod(0o555 if path != folder else 0o755)
    nobody = ["setpriv", "--reuid=65534", "--regid=65534", "--clear-groups"] if os.geteuid() == 0 else []
    if nobody and not shutil.which(nobody[0]):
        return Lacking(nobody[0])
    env = os.environ | {"PATH": f"{closed}:/usr/bin:/bin"}
    ran = subprocess.run([*nobody, closed / "build"], env=env, capture_output=True, text=True)
    return ran.returncode == 16 and ran.stderr == f"build: cannot write in {closed}/crates/mvs_model, where the proofs are kept\n"


def results():
    with tempfile.TemporaryDirectory() as name:
        folder = Path(name)
        made = list(packages(folder)) + list(by_install(folder)) + list(verbs())
        return made + [("a folder that cannot be written", cannot_write(folder))]
