"""What a search for a place looks at: refused requests of one kind, in regions of two sizes."""

from counting import instructions

REFUSED = 200
SIZES = (1, 4)


def others(pages):
    """All pages are assigned to another subpool."""
    return [f"J REGION BELOW={pages}", f"J GETMAIN RU,LV={4096 * pages},A=X,SP=2"], "J GETMAIN RC,LV=8,A=Y,SP=1"


def full(pages):
    """All pages are assigned to the subpool itself, and full."""
    return [f"J REGION BELOW={pages}", f"J GETMAIN RU,LV={4096 * pages},A=X,SP=1"], "J GETMAIN RC,LV=8,A=Y,SP=1"


def free(pages):
    """All pages are free, and one too few."""
    return [f"J REGION BELOW={pages}"], f"J GETMAIN RC,LV={4096 * pages + 8},A=Y,SP=1"


def runs(pages):
    """All pages have 256 free runs, and each is too short."""
    lines = [f"J REGION BELOW={pages}"]
    for _ in range(pages):
        lines += ["J GETMAIN RU,LV=4096,A=X,SP=1"]
        lines += [f"J FREEMAIN RU,LV=8,A=X+{16 * run + 8},SP=1" for run in range(256)]
    return lines, "J GETMAIN RC,LV=16,A=Y,SP=1"


# How a row is called, its script, the pages of the smaller region, and what each page has of it.
LOOKED_AT = {
    "a page of another subpool": (others, 500, 1),
    "a full page of the subpool": (full, 500, 1),
    "a free page": (free, 500, 1),
    "a free run of the subpool that is too short": (runs, 4, 256),
}


def refusal(program, lines, refused):
    """Returns the instructions of one refused request after some lines."""
    short = "".join(f"{line}\n" for line in lines)
    long = short + f"{refused}\n" * REFUSED
    return (instructions(program, long.encode()) - instructions(program, short.encode())) / REFUSED


def each(program, name):
    """Returns the instructions for each page or free run that a refused request looks at."""
    script, pages, count = LOOKED_AT[name]
    small, large = (refusal(program, *script(pages * size)) for size in SIZES)
    return (large - small) / (count * pages * (SIZES[1] - SIZES[0]))
