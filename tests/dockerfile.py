"""Reads a Dockerfile, and runs its steps in a chroot, where no container engine is."""

import json
import re
import shutil
from dataclasses import dataclass, field

KNOWN = ("FROM", "LABEL", "COPY", "RUN", "USER", "WORKDIR", "ENTRYPOINT")


@dataclass
class Image:
    """What the steps have made of a machine: the user, the folder and the command that a container begins with."""

    user: str = "root"
    folder: str = "/"
    entry: list = field(default_factory=list)


def instructions(text):
    """The instructions of a Dockerfile: each word, and what follows it."""
    joined = re.sub(r"\\\n", " ", re.sub(r"(?m)^#.*\n", "", text))
    return [tuple(line.strip().split(None, 1)) for line in joined.splitlines() if line.strip()]


def faults(text):
    """What a reader of Dockerfiles complains of."""
    found = instructions(text)
    words = [word for word, _ in found]
    yield from (f"unknown instruction {word}" for word in words if word not in KNOWN)
    if words[:1] != ["FROM"] or not re.fullmatch(r"\S+:(?!latest$)\S+", found[0][1]):
        yield "it begins with no image of a tag"
    for word, rest in found:
        if word == "ENTRYPOINT" and not isinstance(json.loads(rest), list):
            yield "the entry point is not in exec form"
        if word == "COPY" and len(rest.split()) > 2 and not rest.endswith("/"):
            yield "several files are copied to no folder"
        if word == "RUN" and ("apt-get install" in rest and "rm -rf /var/lib/apt/lists" not in rest or "sudo" in rest):
            yield f"a step keeps lists of packages, or asks for sudo: {rest}"
        if word == "WORKDIR" and not rest.startswith("/"):
            yield "the folder is relative"
    users = [rest for word, rest in found if word == "USER"]
    if not users or users[-1] == "root":
        yield "it runs as root"


def build(machine, text, context):
    """Runs the steps in a machine, with the files of a context; the image, or None where a step fails."""
    image = Image()
    for word, rest in instructions(text):
        if word == "COPY":
            *sources, target = rest.split()
            for path in [path for source in sources for path in context.glob(source)]:
                shutil.copy(path, machine.root / target.lstrip("/"))
        elif word == "RUN" and not machine.succeeds(rest, user=image.user, cwd=image.folder):
            return None
        elif word == "USER":
            image.user = rest
        elif word == "WORKDIR":
            image.folder = rest
            (machine.root / rest.lstrip("/")).mkdir(parents=True, exist_ok=True)
        elif word == "ENTRYPOINT":
            image.entry = json.loads(rest)
    return image


def container(machine, image, words="", stdin=None):
    """What a container of the image prints."""
    return machine.run(f"{' '.join(image.entry)} {words}", user=image.user, cwd=image.folder, stdin=stdin)
