"""The seven scripts that bench/measure runs. Each is a series of lines, and has the same bytes on every machine."""

import random
from dataclasses import dataclass
from functools import partial
from itertools import islice
from typing import Callable

MOST_BYTES = 16_777_215  # of a script
FIRST_LETTERS = "ABCDEFGHIJKLMNOPQRSTUVWXYZ@#$"
LETTERS = FIRST_LETTERS + "0123456789"
WORDS = "the area of a cell that no task has named begins on a doubleword and ends with it".split()
OF_NO_TASK = ("RETURN", "GETMAIN RU,LV=4096,A=AREA,SP=5,LOC=ANY  remark", "REPORT SP", "FREEMAIN RU,LV=8,A=AREA+16")
SHORT = ("J WHERE X", "J WHERE Y", "J FREEMAIN RC,LV=8,A=Y", "J SHOW X,1", "J PUT X,X'00'", "J REPORT SP")


def name(number):
    """Returns the name of an area or a cell by its number: low numbers have short names."""
    text, number = FIRST_LETTERS[number % len(FIRST_LETTERS)], number // len(FIRST_LETTERS)
    while number:
        number -= 1
        text, number = text + LETTERS[number % len(LETTERS)], number // len(LETTERS)
    return text


def drawn(source, items):
    """Removes a random item, in whose place the last one is moved, and returns it."""
    at = source.randrange(len(items))
    items[at], items[-1] = items[-1], items[at]
    return items.pop()


def rounded(length):
    return -(-length // 8) * 8


def churn():
    """One task obtains and releases 8 to 2,048 bytes, in 8 subpools and 256 pages: about 2,000 areas are held."""
    source, live, free, held, most = random.Random(101), [], list(range(6000))[::-1], 0, 700_000
    yield "J REGION BELOW=256"
    while True:
        if held < most and (held < most * 0.97 or source.random() < 0.5):
            length, number, subpool = int(8 * 256 ** source.random()), free.pop(), source.randrange(8)
            yield f"J GETMAIN RU,LV={length},A={name(number)},SP={subpool}"
            held += rounded(length)
            live.append((number, length, subpool))
        else:
            number, length, subpool = drawn(source, live)
            yield f"J FREEMAIN RU,LV={length},A={name(number)},SP={subpool}"
            held -= rounded(length)
            free.append(number)


def full_regions(source):
    """Fills both regions with areas of 4 pages less 64 bytes, in 16 subpools, and frees parts of the last tenth."""
    yield "J REGION BELOW=2048,ABOVE=8192"
    full = []
    for side, pages in (("BELOW", 2048), ("ANY", 8192)):
        for _ in range(pages // 4):
            full.append(("F" + name(len(full)), source.randrange(1, 17)))
            yield f"J GETMAIN RU,LV=16320,A={full[-1][0]},SP={full[-1][1]},LOC={side}"
    for area, subpool in full[-(len(full) // 10) :]:
        if source.random() < 0.3:
            length = source.choice((64, 512, 4096, 8192))
            yield f"J FREEMAIN RU,LV={length},A={area}+{8 * source.randrange(900)},SP={subpool}"


def wide_obtain(source):
    """A conditional obtain of 16 to 32,768 bytes: the statement, and the length, name and subpool for its release."""
    length = int(16 * 2048 ** source.random())
    area, subpool = "T" + name(source.randrange(2000)), source.randrange(1, 17)
    more = ",LOC=ANY" if source.random() < 0.8 else ""
    if source.random() < 0.05:
        more += f",STARTBDY={source.randrange(6, 14)}"
    form = f"VRC,LV=({8 * length},{length})" if source.random() < 0.05 else f"RC,LV={length}"
    return f"J GETMAIN {form},A={area},SP={subpool}{more}", (length, area, subpool)


def bigregion():
    """Obtains and releases in 10,240 pages, nearly all of which are full: the searches pass many pages, and some are refused."""
    source, live = random.Random(102), []
    yield from full_regions(source)
    while True:
        if len(live) < 300 or source.random() < 0.5:
            statement, area = wide_obtain(source)
            yield statement
            live.append(area)
        else:
            length, area, subpool = drawn(source, live)
            yield f"J FREEMAIN RC,LV={length},A={area},SP={subpool}"


def fragment():
    """64 pages with 256 free runs of 8 bytes each. Three of four lines then search all of them for 16 or 24 bytes."""
    yield "J REGION BELOW=65"
    for _ in range(64):
        yield "J GETMAIN RU,LV=4096,A=X,SP=1"
        yield from (f"J FREEMAIN RU,LV=8,A=X+{16 * i + 8},SP=1" for i in range(256))
    yield "J GETMAIN RU,LV=4080,A=L,SP=1"
    while True:
        yield "J GETMAIN RU,LV=16,A=Y,SP=1"
        yield "J GETMAIN RC,LV=16,A=Z,SP=1"
        yield "J FREEMAIN RU,LV=16,A=Y,SP=1"
        yield "J GETMAIN RC,LV=24,A=Z,SP=1"


def cells(lines):
    """Cells of three pools: one of 65,536 cells of 16 bytes, one of 4,096 of 100, one with parts of 64 cells of 12."""
    source = random.Random(104)
    most = {pool: min(count, lines // 4) for pool, count in (("P", 65_530), ("Q", 3_000), ("R", 5_000))}
    live, free = {pool: [] for pool in most}, {pool: list(range(count + 5)) for pool, count in most.items()}
    yield "J REGION BELOW=1024,ABOVE=1024"
    yield "J CPOOL BUILD,CPID=P,CSIZE=16,PCELLCT=65536,SP=1,LOC=ANY"
    yield "J CPOOL BUILD,CPID=Q,CSIZE=100,PCELLCT=4096,SP=2"
    yield "J CPOOL BUILD,CPID=R,CSIZE=12,PCELLCT=64,SCELLCT=64,SP=3"
    while True:
        pool = source.choice(list(most))
        count = len(live[pool])
        if count < most[pool] * 0.98 or (count < most[pool] and source.random() < 0.5):
            live[pool].append(free[pool].pop())
            yield f"J CPOOL GET,{'C,' if pool == 'P' else ''}CPID={pool},CELL={pool}{name(live[pool][-1])}"
        else:
            free[pool].append(drawn(source, live[pool]))
            yield f"J CPOOL FREE,CPID={pool},CELL={pool}{name(free[pool][-1])}"


def attach(source, attaching, number):
    """Attaches a task to a random one, with storage in subpools that are given, shared and new."""
    by, task, gift = source.choice(list(attaching)), f"T{number}", 60 + number
    own, shared, _, new = source.sample(range(20, 60), 4)
    operands = [f"TASK={task}"]
    if source.random() < 0.5:
        yield f"{by} GETMAIN RU,LV={source.randrange(8, 3000)},A=G{number},SP={own}"
        operands += [f"SHSPL=({shared},{source.randrange(1, 9)})", f"GSPV={gift}"]
    else:
        operands += [f"SHSPV={shared}", f"GSPL=({gift},{90 + number})"]
    operands += [operand for operand in ("SZERO=NO", "RES=ABOVE") if source.random() < 0.3]
    if by != "J" or source.random() < 0.5:
        yield f"{by} GETMAIN RU,LV={source.randrange(8, 9000)},A=H{number},SP={gift}"
    yield f"{by} ATTACH {','.join(operands)}"
    yield f"{task} GETMAIN RU,LV={source.randrange(8, 5000)},A=K{number},SP={new}"
    attaching[task] = by


def below(attaching, task):
    """Returns a task and all that it attached, directly or not. A task comes after the one that attached it."""
    found = [task]
    for other, by in attaching.items():
        if by in found:
            found.append(other)
    return found


def end(source, attaching):
    """Ends a task that has attached no other, or sometimes a task with all below it, by an abend."""
    subtasks = [task for task in attaching if task != "J"]
    abends = source.random() < 0.1
    task = source.choice(subtasks if abends else [task for task in subtasks if task not in attaching.values()])
    yield f"{task} {'ABEND 1' if abends else 'RETURN'}"
    for ended in below(attaching, task):
        del attaching[ended]


def tasks():
    """Trees of up to 30 tasks with given and shared subpools. The tasks return one by one, or end with an abend."""
    source = random.Random(105)
    yield "J REGION BELOW=512,ABOVE=512"
    yield from (f"J GETMAIN RU,LV=512,A=J{name(subpool)},SP={subpool}" for subpool in range(1, 9))
    while True:
        attaching = {"J": None}
        for number in range(1, source.randrange(8, 30)):
            yield from attach(source, attaching, number)
        if source.random() < 0.2:
            yield f"{source.choice(list(attaching))} REPORT SP"
        while len(attaching) > 1:
            yield from end(source, attaching)
        yield from (f"J FREEMAIN RU,SP={subpool}" for subpool in range(20, 60) if source.random() < 0.2)


def data():
    """PUT of 100 bytes, SHOW of 4,096 and MOVE of 65,536, half of which overlap."""
    source, size = random.Random(106), 1_000_000
    yield "J REGION BELOW=256,FILL=40"
    yield f"J GETMAIN RU,LV={size},A=X"
    texts = [f"{source.getrandbits(800):0200X}" for _ in range(64)]
    while True:
        yield from (f"J PUT X+{source.randrange(size - 100)},X'{source.choice(texts)}'" for _ in range(4))
        yield from (f"J SHOW X+{source.randrange(size - 4096)},4096" for _ in range(2))
        to, last = source.randrange(size - 65_536), size - 65_536
        at = source.randrange(last) if source.random() < 0.5 else max(0, min(last, to + source.randrange(-60_000, 60_000)))
        yield f"J MOVE X+{to},X+{at},65536"


def text():
    """Comments, blank lines, lines of tasks that are not active, and short lines."""
    source = random.Random(107)
    yield "J REGION BELOW=1"
    yield "J GETMAIN RU,LV=8,A=X"
    while True:
        kind = source.random()
        if kind < 0.3:
            yield "* " + " ".join(source.choice(WORDS) for _ in range(source.randrange(2, 14)))
        elif kind < 0.45:
            yield " " * source.randrange(0, 4)
        elif kind < 0.7:
            yield f"NOTASK{source.randrange(9)} {source.choice(OF_NO_TASK)}"
        else:
            yield source.choice(SHORT)


@dataclass
class Script:
    """A script of `count` lines, the first `before` of which are counted apart."""

    purpose: str
    lines: Callable
    count: int
    before: int

    def cut(self, count):
        """Returns the first lines of the script."""
        return "".join(f"{line}\n" for line in islice(self.lines(), count)).encode()


SCRIPTS = {
    "churn": Script("obtain and release", churn, 30_000, 15_000),
    "tasks": Script("attach and end", tasks, 15_000, 7_500),
    "cells": Script("allocate and free cells", partial(cells, 30_000), 30_000, 15_000),
    "data": Script("move and show many bytes", data, 1_500, 750),
    "text": Script("comments, and lines that do little", text, 30_000, 15_000),
    "bigregion": Script("search many pages", bigregion, 12_000, 2_627),
    "fragment": Script("search many free runs", fragment, 18_000, 16_450),
}
