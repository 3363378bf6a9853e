"""Changes of a crate's text that the prover has to refuse or to prove, and the checks that try them.

A wrong body (crates/NAME/wrong/X.edit or crates/NAME/must-fail/X.edit) and a control (crates/NAME/controls/X.control) have a line
`file: PATH` and pairs of lines `old: TEXT` and `new: TEXT`. A line `# refused: GOALS` of a wrong body names the goals on which the prover
has to refuse it, separated by commas: a goal of the function that it changes, or `FUNCTION: GOAL` for a goal of another function.
A clause that has a name is named by it; any other goal is named as the prover names it.

All changes of a crate that can be made together are checked together, in one copy of the crate; each function has a verdict of its own.
"""

import os
import re
import shutil
import subprocess
import tempfile
import time
from pathlib import Path

from libraries import PARTS

FUNCTION = r"^( *)(?:pub(?:\(.*?\))? )?(?:const )?(?:unsafe )?(?:extern \"C\" )?fn (\w+)"
IMPL = r"^(?:unsafe )?impl\b(?:<.*?>(?= ))? (?:(?:\w+::)*(\w+)(?:<.*>)? for )?(?:&\S* )?(\w+)(?:<(\w+)>)?"
HEADS = re.compile(f"{FUNCTION}|{IMPL}", re.M)
NAMED = re.compile(r"\bhas no field|\bis not in scope|\bhas no `|\bwas not admitted")
LIMIT = re.compile(r"could not tell|antt ran out of|outgrew the memory limit|stopped at the step limit")
WAITS = re.compile(r"it calls `[^`]*`, which is not proved|wait for a callee's proof")


class Change:
    """A wrong body or a control: the file that it changes, its pairs of old and new texts, and the goals on which it has to be refused."""

    def __init__(self, path):
        self.path, self.crate, self.name = path, path.parent.parent.name, path.stem
        self.file, self.pairs, self.goals, old = "", [], {}, None
        for line in path.read_text(encoding="utf-8").splitlines():
            word, _, rest = line.partition(":")
            rest = rest.removeprefix(" ")
            if word == "file":
                self.file = rest.strip()
            elif word == "old":
                old = rest
            elif word == "new":
                self.pairs.append((old, rest))
            elif word == "# refused":
                for goal in rest.split(","):
                    function, _, name = goal.strip().rpartition(": ")
                    self.goals.setdefault(function, set()).add(name)
        source = path.parent.parent / self.file
        self.original = source.read_text(encoding="utf-8") if self.file and source.is_file() else ""

    def is_control(self):
        return self.path.suffix == ".control"

    def place(self):
        return self.file, [old for old, _ in self.pairs]

    def applied(self, text):
        """The text with the change; None where one of its old texts is not in both texts once, after the pairs before it."""
        original = self.original
        for old, new in self.pairs:
            if not old or text.count(old) != 1 or original.count(old) != 1:
                return None
            text, original = text.replace(old, new), original.replace(old, new)
        return text if self.pairs and original != self.original else None

    def functions(self):
        """The ends of the paths of the functions that the change is in; None where a part of it is in no function of src/."""
        if not self.file.startswith("src/"):
            return None
        module = [self.crate, *Path(self.file).with_suffix("").parts[1:]]
        module = "::".join(module[:-1] if module[-1] in ("lib", "main") else module)
        paths = set()
        for old, _ in self.pairs:
            before = self.original[: self.original.index(old)]
            heads = list(HEADS.finditer(before))
            function = next((it for it in reversed(heads) if it[2]), None)
            owner = next((it for it in reversed(heads) if it[4]), None)
            if function is None or function[1] and owner is None or f"\n{function[1]}}}\n" in before[function.end() :]:
                return None
            paths.add(f"{owner_name(owner)}::{function[2]}" if function[1] else f"{module}::{function[2]}")
        return paths

    def asked(self):
        """The ends of the paths of the functions that a check of the change has to read; None where it has to read the whole crate."""
        named = {function for function in self.goals if function}
        functions = self.functions()
        return named or None if functions is None else functions | named


def owner_name(owner):
    """The name that the prover has for the functions of an `impl`: `Type`, `TypeTrait`, or `Type+bool` for an `impl Type<bool>`."""
    if owner[3] not in (None, "Drop"):
        return f"{owner[4]}{owner[3]}"
    return f"{owner[4]}+{owner[5]}" if owner[5] and "impl<" not in owner[0] else owner[4]


class Verdicts:
    """What a check printed: its status, its lines, and of each function its verdict and the goals that are open."""

    def __init__(self, status, printed):
        self.status, self.lines, self.verdicts, self.notes = status, printed.splitlines(), {}, {}
        notes = []
        for line in self.lines:
            found = re.match(r"fn (\S+): (.*)", line)
            if found:
                self.verdicts[found[1]], self.notes[found[1]] = found[2], notes
                notes = []
            else:
                notes.append(line)

    def paths(self, end):
        return [path for path in self.verdicts if path == end or path.endswith(f"::{end}")]

    def are_proved(self):
        """Whether all that was asked for is proved: the whole crate, or a part of it."""
        last = self.lines[-1] if self.lines else ""
        found = re.fullmatch(r"only=(\d+) proved=(\d+)", last)
        return self.status == 0 and (found[1] == found[2] if found else last.startswith("logic=proved"))

    def is_proved(self, change):
        """Whether the functions that a change is in are proved."""
        paths = [self.paths(end) for end in change.functions() or ()]
        return bool(paths) and all(found and all(self.verdicts[path] == "proved" for path in found) for found in paths)

    def reached_the_prover(self):
        return bool(self.verdicts)

    def first_error(self):
        return next((line for line in self.lines if ": error" in line or "error[" in line), self.lines[-1] if self.lines else "no output")

    def errors(self, path):
        """The errors in the proof files of a function."""
        *parents, name = path.split("::")[1:]
        folder = "/".join([*map(re.escape, parents), rf"\+?{re.escape(name)}"])  # a function of a cycle has a + before its name
        found = (re.match(rf"(?:\./)?proofs/{folder}/\w+\.antt:\d+:\d+: error: (.*)", line) for line in self.lines)
        return [it[1] for it in found if it]

    def goals(self, path):
        """The goals of a function that are not proved, as an edit names them."""
        found = [it[1] for line in self.notes[path] for it in [re.match(r"note: src/\S+ it is not proved .*\(`([^`]+)`\)", line)] if it]
        refused = [it[1] for line in self.errors(path) for it in [re.match(r"`([^`]+)`: ", line)] if it and not NAMED.search(line)]
        resting = [goal for lemma, goals in self.resting(path) if lemma in refused for goal in goals]
        return {name_of(goal) for goal in [*found, *refused, *resting]}

    def unchecked(self, path):
        """The goals of a function that were not checked, since a lemma that they cite is not proved."""
        return {name_of(goal) for _, goals in self.resting(path) for goal in goals}

    def resting(self, path):
        """The lemmas that are not proved, each with the goals of the function that rest on it."""
        for line in self.errors(path):
            found = re.search(r"depends? on `([^`]+)`, which was (?:rejected|not admitted), (?:was|were) not checked: (.*)", line)
            if found:
                yield found[1], [name.partition(" (")[0] for name in re.split(", | and ", found[2]) if not name.endswith(" more")]

    def waits(self, path):
        """Whether some of the function's goals were not tried, since a function that it calls is not proved."""
        return any(WAITS.search(line) for line in [self.verdicts[path], *self.notes[path]])

    def is_only_named(self, path):
        """Whether it is refused only because a proof file names what is no longer there."""
        errors = self.errors(path)
        return bool(errors) and all(NAMED.search(line) for line in errors) and not self.goals(path)


def name_of(goal):
    """The name of the clause that a goal is of, or else that of the goal."""
    return goal.partition("-clause-")[2] or goal


class Bench:
    """A crate, and copies of it in which changes are checked, as many at a time as there are lanes for all crates.

    Each check begins with the seed: what a check of the crate as it is has proved. The seed is what tools/ci has kept in $SEEDS, if that has
    proved the crate as it is. Else it is made, and begins with that or with what `rt check` has kept."""

    def __init__(self, rtlib, made, lanes):
        self.rtlib, self.made, self.folder, self.lanes, self.room, self.seconds = rtlib, made, Path(made.folder), lanes, None, []

    def __enter__(self):
        self.room = tempfile.TemporaryDirectory(prefix="edits-")
        kept = [self.left_by_ci()] if self.left_by_ci() else []
        kept = next((it for it in [*kept, self.folder / "out/incremental"] if it.is_dir()), None)
        if kept is not None:
            linked(kept, f"{self.room.name}/seed")
        return self

    def __exit__(self, *_):
        self.room.cleanup()

    def left_by_ci(self):
        """The seed of the crate that tools/ci has kept; None where it keeps none."""
        return Path(os.environ["SEEDS"], self.made.name) if "SEEDS" in os.environ else None

    def is_proved_by_ci(self):
        """Whether there is a seed in which tools/ci has proved the crate as it is."""
        kept = self.left_by_ci()
        mark = kept and kept.with_name(f"{kept.name}.proved")
        return bool(mark) and kept.is_dir() and mark.is_file() and mark.read_text() == self.made.stamp()

    def seed(self, changes):
        """Checks, with no change made, what the changes are in and what that calls."""
        with self.lanes, tempfile.TemporaryDirectory(dir=self.room.name) as place:
            return self.run(place, {}, asked_of(changes), f"{self.room.name}/seed")

    def check(self, changes):
        """Checks what the changes are in, and what that calls, with all of them made."""
        texts = {}
        for change in changes:
            texts[change.file] = change.applied(texts.get(change.file, change.original))
        with self.lanes, tempfile.TemporaryDirectory(dir=self.room.name) as place:
            linked(f"{self.room.name}/seed", f"{place}/kept")
            return self.run(place, texts, asked_of(changes), f"{place}/kept")

    def run(self, place, texts, asked, kept):
        room, begun = Path(place, "crate"), time.monotonic()
        for part in PARTS:
            if (self.folder / part).is_dir():
                shutil.copytree(self.folder / part, room / part)
        for file, text in texts.items():
            (room / file).write_text(text, encoding="utf-8")
        words = [*self.rtlib.guarded(), self.rtlib.RATTLE, "check", *self.made.words(["--jobs", "1"], keeps=False), "--incremental", kept]
        words += [word for path in sorted(asked or ()) for word in ("--only", path)]
        how = {"stdin": subprocess.DEVNULL, "stdout": subprocess.PIPE, "stderr": subprocess.STDOUT}
        ran = subprocess.run(words, cwd=room, text=True, errors="replace", **how)
        self.seconds.append(time.monotonic() - begun)
        return Verdicts(ran.returncode, ran.stdout)


def asked_of(changes):
    """The functions that a check of these changes has to read; None where it has to read the whole crate."""
    asked = [change.asked() for change in changes]
    return None if None in asked else set().union(*asked)


def linked(folder, to):
    """Copies what checks have kept, a proved module by a link: a check replaces such a file, and never writes into it."""

    def copy(one, other):
        try:
            if one.endswith(".oantt"):
                return os.link(one, other)
        except OSError:
            pass  # on another disk, say
        return shutil.copy2(one, other)

    shutil.copytree(folder, to, copy_function=copy)


def together(changes, are_apart=lambda one, other: True):
    """The first of the changes, those after it that can be made beside it, and the others."""
    texts, taken, left = {}, [], []
    for change in changes:
        text = change.applied(texts.get(change.file, change.original))
        if text is None or not all(are_apart(change, other) for other in taken):
            left.append(change)
        else:
            texts[change.file] = text
            taken.append(change)
    return taken, left
