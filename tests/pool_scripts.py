"""Random scripts of cell pools: their cells are taken and given back, beside areas. Of each pool a cell is taken at once."""

import random

POOLS = ("P", "Q")


def build(dice, pool):
    size = dice.choice((4, 8, 12, 24, 40, 100, 500))
    counts = f"PCELLCT={dice.choice((1, 2, 4, 7, 12))},SCELLCT={dice.choice((1, 2, 3, 6))}"
    return f"CPOOL BUILD,CPID={pool},CSIZE={size},{counts},SP={dice.choice((0, 1, 2))}{dice.choice(('', ',LOC=ANY', ',LOC=BELOW'))}"


def touch(dice, cell):
    return dice.choice((f"PUT {cell},X'C1C2'", f"SHOW {cell},4", "REPORT SP"))


def get(dice, cells, pool, number):
    cells.append((pool, f"C{number}"))
    return f"CPOOL GET{dice.choice(('', '', ',COND'))},CPID={pool},CELL=C{number}"


def statement(dice, lines, cells, pools):
    """The next statement of the job step task; nothing where it needs what is not there."""
    what, number = dice.random(), len(lines)
    if "CPOOL BUILD" in lines[-1]:
        return get(dice, cells, pools[-1], number)
    if what < 0.6 and pools:
        return get(dice, cells, dice.choice(pools), number)
    if what < 0.74 and cells:
        pool, cell = cells.pop(dice.randrange(len(cells)))
        return f"CPOOL FREE,CPID={pool},CELL={cell}"
    if what < 0.77 and pools:
        pool = pools.pop(dice.randrange(len(pools)))
        cells[:] = [cell for cell in cells if cell[0] != pool]
        return f"CPOOL DELETE,CPID={pool}"
    if what < 0.84:
        return f"STORAGE OBTAIN,LENGTH={dice.choice((8, 100, 600, 2000))},ADDR=A{number},COND=YES,SP={dice.choice((0, 1, 2))}"
    if what < 0.92 and cells:
        return touch(dice, dice.choice(cells)[1])
    absent = [pool for pool in POOLS if pool not in pools]
    if not absent:
        return None
    pools.append(absent[0])
    return build(dice, absent[0])


def pool_script(seed, length=40):
    """A script of about this many statements."""
    dice = random.Random(seed)
    lines, cells, pools = [f"JOB REGION BELOW={dice.choice((6, 9, 16))},ABOVE={dice.choice((0, 5))},FILL=5A"], [], []
    while len(lines) < length:
        said = statement(dice, lines, cells, pools)
        if said is not None:
            lines.append(f"JOB {said}")
    return "".join(f"{line}\n" for line in lines)
