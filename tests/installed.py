"""The packages on a machine without the kit: each installs, upgrades from 1.0.0, does what its documents say, and leaves nothing behind.

The machine is a chroot (tests/chroot.py). Without root, debootstrap or a mirror of Debian nothing here is tried, and what needs rpm is
not tried without it.
"""

import os
import re
import shutil
import subprocess
import tempfile
from pathlib import Path

import chroot
import dockerfile
from cases import Lacking
from documents import dead_links, documents

TOP = Path(__file__).resolve().parent.parent
PACKAGES = ("mvsjob", "libmvs0", "libmvs-dev", "mvsjob-conformance", "python3-mvs")
WITHOUT_DOCUMENTS = ("libmvs0", "python3-mvs")
PYTHON = """import mvs
with mvs.Session() as session:
    session.line("JOB REGION BELOW=1")
    print(session.line("JOB GETMAIN R,LV=8,A=X").kind.name, session.text(), end="")
"""
PAGES = ("1/mvsjob.1", "1/mvsjob-shell.1", "1/mvsjob-asm.1", "1/mvsjob-lsp.1", "1/mvsjob-conform.1", "5/mvsjob-script.5", "7/mvsjob-sheet.7")
EXAMPLES = sorted((TOP / "examples").glob("*.job"))
FIRST = (TOP / "examples/first.job").read_text()
PRINTED = (TOP / "examples/first.out").read_text()
ANSWERED = FIRST.replace("JOB WHERE X", "JOB WHERE X => AT 00006000")
# What a command of a document may need that its reader has.
PREPARED = {
    "my.job": ANSWERED,
    "task.job": ANSWERED,
    "orders.asm": (TOP / "examples/orders.asm").read_text(),
    "orders.job": f"{FIRST}JOB REPORT SP\n",
    "orders.log": "".join(f" 10.23.00 JOB00123  +MVSJOB {line}\n" for line in PRINTED.splitlines()),
    "emulator.py": "import subprocess, sys\nsys.exit(subprocess.run(['mvsjob', '-']).returncode)\n",
    "bin/my_emulator": "#!/bin/sh\nexec mvsjob\n",
}
# The blocks that end with a status which says what was found: a race.
FINDING = {"lessons/76_race.md 3": 1}
# What EMBEDDING.md has installed beside them.
TYPED = "libunicorn-dev binutils-s390x-linux-gnu"
# Nothing is kept because another package recommends or suggests it.
WITHOUT_SUGGESTED = "-o APT::AutoRemove::RecommendsImportant=false -o APT::AutoRemove::SuggestsImportant=false"
# The files of the package of 1.0.0, beside its documents.
OLD = ("bin/mvsjob", "share/man/man1/mvsjob.1.gz", "share/man/man5/mvsjob-script.5.gz", "share/bash-completion/completions/mvsjob",
       "share/zsh/site-functions/_mvsjob", "share/fish/vendor_completions.d/mvsjob.fish", "share/doc/mvsjob/docs/SCRIPT.md",
       "share/doc/mvsjob/examples/first.job", "share/doc/mvsjob/examples/an_example_that_is_gone.job")  # fmt: skip
OLD_CONTROL = """Package: mvsjob
Version: 1.0.0
Architecture: amd64
Maintainer: the Vangcethu authors <authors@vangcethu.invalid>
Depends: libc6
Description: the layout of 1.0.0
"""


def version():
    return re.search(r"(?m)^## \[(\d[\d.]*)\]", (TOP / "CHANGELOG.md").read_text())[1]


def commands():
    """The blocks of commands in documents, by the document: those that a reader types as they are printed."""
    for path in documents(TOP):
        name = str(path.relative_to(TOP))
        if name.startswith(("README", "docs/", "examples/", "lessons/")):
            for number, block in enumerate(re.findall(r"(?ms)^```sh\n(.*?)^```$", path.read_text()), 1):
                if not block.startswith(("machines=", "rt version", "mvsjob --judge lessons/")):  # tests/conform.py, package.py and lessons.py run these
                    yield f"{name} {number}", block


class Installation:
    """The packages, and the machine that they are for."""

    def __init__(self, folder):
        self.folder, self.packages, self.version = folder, folder / "out", version()
        self.machine = chroot.made(folder / "root")
        if not isinstance(self.machine, Lacking):
            subprocess.run([TOP / "tools/package", self.packages], check=True, capture_output=True)
            shutil.copytree(self.packages, self.machine.root / "packages")

    def deb(self, name):
        return next(self.packages.glob(f"{name}_{self.version}_*.deb"))

    def old_package(self):
        """The package of 1.0.0, by its layout."""
        tree = self.folder / "old"
        for name in OLD:
            (tree / "usr" / name).parent.mkdir(parents=True, exist_ok=True)
            (tree / "usr" / name).write_text("#!/bin/sh\necho mvsjob 1.0.0\n")
        (tree / "usr/bin/mvsjob").chmod(0o755)
        (tree / "DEBIAN").mkdir()
        (tree / "DEBIAN/control").write_text(OLD_CONTROL)
        subprocess.run(["dpkg-deb", "--root-owner-group", "--build", tree, self.machine.root / "packages/old.deb"], check=True, capture_output=True)

    # ---- the cases, in their order

    def image(self):
        machine, text = self.machine, (TOP / "Dockerfile").read_text()
        context = self.folder / "context"
        (context / "out").mkdir(parents=True)
        shutil.copy(self.deb("mvsjob"), context / "out")
        image = dockerfile.build(machine, text, context)
        well = image is not None and dockerfile.container(machine, image, stdin=FIRST) == (0, PRINTED, "")
        well = well and dockerfile.container(machine, image, "--version")[1].startswith(f"mvsjob {self.version} ")
        return well and machine.succeeds("dpkg --purge mvsjob && userdel mvsjob && rmdir /work")

    def upgraded(self):
        self.before = self.machine.files()
        self.old_package()
        return (
            self.machine.succeeds("dpkg --install /packages/old.deb")
            and self.machine.run("mvsjob --version") == (0, "mvsjob 1.0.0\n", "")
            and self.machine.succeeds(f"apt-get install --yes -o Dpkg::Use-Pty=0 /packages/mvsjob_{self.version}_*.deb")
            and self.machine.run("mvsjob --version")[1].startswith(f"mvsjob {self.version} ")
            and not (self.machine.root / "usr/share/doc/mvsjob/examples/an_example_that_is_gone.job").exists()
        )

    def install(self):
        names = " ".join(f"/packages/{self.deb(name).name}" for name in PACKAGES)
        return self.machine.succeeds(f"apt-get install --yes -o Dpkg::Use-Pty=0 {names}")

    def whole(self, name):
        return self.machine.run(f"dpkg --verify {name}") == (0, "", "")

    def page(self, name):
        status, out, err = self.machine.run(f"man --warnings -E UTF-8 -P cat -l /usr/share/man/man{name}.gz")
        return (status, err) == (0, "") and "NAME" in out

    def example(self, path):
        wanted = path.with_suffix(".out").read_text()
        status = 8 if "STEP ENDED RC 8" in wanted else 0
        return self.machine.run(f"mvsjob {path.name}", user="nobody", cwd="/usr/share/doc/mvsjob/examples") == (status, wanted, "")

    def links(self, name):
        doc = self.machine.root / "usr/share/doc" / name
        texts = documents(doc) + sorted(doc.rglob("*.html"))
        dead = [f"{path.name}: {link}" for path in texts for link in dead_links(path)]
        return not dead and bool(texts or name in WITHOUT_DOCUMENTS)

    def typed(self, block, status):
        """Whether the commands of a document end with this status in a copy of the documents, beside the packages and the proved program.

        A block that installs the program begins without it, and afterwards all packages are installed again.
        """
        home, user = self.machine.root / "tmp/reader", "root" if block.startswith("sudo ") else "nobody"
        installs = user == "root" and "./mvsjob" in block
        shutil.rmtree(home, ignore_errors=True)
        shutil.copytree(self.machine.root / "usr/share/doc/mvsjob", home)
        shutil.copytree(self.packages, home, dirs_exist_ok=True)
        (home / "crates/mvsjob/out").mkdir(parents=True)
        shutil.copy(TOP / "crates/mvsjob/out/mvsjob", home / "crates/mvsjob/out")
        for name, text in PREPARED.items():
            (home / name).parent.mkdir(exist_ok=True)
            (home / name).write_text(text)
            (home / name).chmod(0o755)
        subprocess.run(["chown", "-R", "65534:65534", home], check=True)
        (home / "typed").write_text(block)
        if installs and not self.machine.succeeds("dpkg --purge mvsjob-conformance mvsjob"):
            return False
        well = self.machine.succeeds(f'PATH="$PWD/bin:$PATH" bash -e typed; [ $? = {status} ]', user=user, cwd="/tmp/reader")
        return well and self.machine.succeeds("dpkg --verify mvsjob && mvsjob --version") and (not installs or self.install())

    def linked(self, flags, prefix=""):
        """Whether a program can be built with the library, and does its work."""
        root = f"/tmp/mvsjob-{self.version}-linux-x86_64" if prefix else "/usr"
        words = f"PKG_CONFIG_PATH={root}/lib/pkgconfig pkg-config --cflags --libs mvs"
        source = f"{root}/share/doc/{'mvsjob' if prefix else 'libmvs-dev'}/examples/c/handler.c"
        status, out, _ = self.machine.run(f"cc {source} -o /tmp/handler {flags} $({words}) && /tmp/handler")
        return status == 0 and out.startswith("SVC 4: R15=00000000")

    def imported(self):
        """Whether the module is found, and loads the library of its package."""
        (self.machine.root / "tmp/imported.py").write_text(PYTHON)
        return self.machine.run("python3 /tmp/imported.py", user="nobody") == (0, "RC_0 2 JOB RC 0\n", "")

    def in_session(self):
        """Whether mvsjob-shell runs lines that are not typed, and its completion is where bash looks for it."""
        status, out, _ = self.machine.run("mvsjob-shell", user="nobody", stdin="JOB REGION BELOW=1\n")
        has_completion = (self.machine.root / "usr/share/bash-completion/completions/mvsjob-shell").exists()
        return (status, out, has_completion) == (0, "1 JOB REGION BELOW 1 ABOVE 0\nSTEP ENDED RC 0\n", True)

    def archive(self):
        """Whether the archive runs from a folder of its own, and its library is found there."""
        name = f"mvsjob-{self.version}-linux-x86_64"
        return (
            self.machine.succeeds(f"tar -xzf /packages/{name}.tar.gz -C /tmp")
            and self.machine.run(f"/tmp/{name}/bin/mvsjob", user="nobody", stdin=FIRST) == (0, PRINTED, "")
            and self.machine.run(f"/tmp/{name}/bin/mvsjob-conform mvsjob --rule 9", user="nobody")[1].endswith("26 passed, 0 failed\n")
            and self.linked("", "archive")
        )

    def removed(self):
        gone = self.machine.succeeds(f"dpkg --purge {' '.join(reversed(PACKAGES))} && apt-get autoremove --purge --yes {WITHOUT_SUGGESTED} {TYPED}")
        left = self.machine.files() - self.before
        if left:
            print(f"left behind: {sorted(left)[:20]}")
        return gone and not left

    def rpm(self):
        """Whether the packages for rpm have the programs and the library that those for Debian have."""
        if not shutil.which("rpm") or not shutil.which("rpmbuild"):
            return Lacking("rpm")
        root = self.folder / "fedora"
        root.mkdir()
        paths = sorted(self.packages.glob("*.rpm"))
        words = ["rpm", "--root", root, "--dbpath", "/var/lib/rpm", "--nodeps", "--noscripts", "--install", *paths]
        if len(paths) != 4 or subprocess.run(words, capture_output=True).returncode:
            return False
        debian = self.folder / "debian"
        for name in PACKAGES:
            subprocess.run(["dpkg-deb", "-x", self.deb(name), debian], check=True)
        pairs = {f"usr/bin/{name}": f"usr/bin/{name}" for name in ("mvsjob", "mvsjob-shell", "mvsjob-asm", "mvsjob-lsp", "mvsjob-conform")}
        pairs["usr/lib64/libmvs.so.0"] = f"usr/lib/{os.uname().machine}-linux-gnu/libmvs.so.0"
        return all((root / one).read_bytes() == (debian / other).read_bytes() for one, other in pairs.items())


def cases():
    """Each case's name, and what it does with the installation. Their order matters."""
    yield "the steps of the Dockerfile", Installation.image
    yield "upgrade from 1.0.0", Installation.upgraded
    yield "install", Installation.install
    for name in PACKAGES:
        yield f"all files of {name}", lambda it, name=name: it.whole(name)
        yield f"links of {name}", lambda it, name=name: it.links(name)
    for name in PAGES:
        yield f"man {name}", lambda it, name=name: it.page(name)
    for path in EXAMPLES:
        yield path.name, lambda it, path=path: it.example(path)
    for name, block in commands():
        yield name, lambda it, block=block, status=FINDING.get(name, 0): it.typed(block, status)
    yield "linked with the shared library", lambda it: it.linked("")
    yield "linked with the static library", lambda it: it.linked("-static")
    yield "the module in Python", Installation.imported
    yield "mvsjob-shell", Installation.in_session
    yield "the archive", Installation.archive
    yield "remove", Installation.removed
    yield "rpm", Installation.rpm


def results():
    text = (TOP / "Dockerfile").read_text()
    yield "the form of the Dockerfile", not list(dockerfile.faults(text))
    yield "Containerfile", os.readlink(TOP / "Containerfile") == "Dockerfile"
    with tempfile.TemporaryDirectory() as name:
        Path(name).chmod(0o755)
        installation = Installation(Path(name))
        is_there = not isinstance(installation.machine, Lacking)
        for case, holds in cases():
            yield case, holds(installation) if is_there else installation.machine
