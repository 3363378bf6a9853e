"""Requests by values as statements of a script. The library writes them; this module writes that of a list which is too long for it."""

from __future__ import annotations

import ctypes
from collections.abc import Sequence

from ._library import AskKind, EventKind, Form, RawArea, RawAsk, RawEvent, Status, library


def _area(address: int) -> str:
    """The name of an area or a cell at an address."""
    return f"A{address & 0xFFFFFFF:07X}"


def _long_list(ask: RawAsk, areas: Sequence[RawArea], event: RawEvent) -> str:
    task, form = ask.task.decode("ascii").rstrip(" "), Form(ask.form).name
    lengths = ",".join(str(area.length) for area in areas)
    if ask.kind == AskKind.RELEASE:
        addresses = ",".join(f"X'{area.address:X}'" for area in areas)
        return f"{task} FREEMAIN {form},SP={ask.subpool},LA=({lengths}),A=({addresses})"
    granted = event.kind == EventKind.RC_0
    names = ",".join(_area(area.address if granted else index) for index, area in enumerate(areas))
    return f"{task} GETMAIN {form},SP={ask.subpool},LA=({lengths}),A=({names}){',BNDRY=PAGE' if ask.boundary == 12 else ''}"


def statement(ask: RawAsk, event: RawEvent, areas: Sequence[RawArea] = ()) -> str:
    """Returns the statement of a request that was served; a comment if no statement has room for it."""
    out, wanted = ctypes.create_string_buffer(256), ctypes.c_size_t()
    if areas:
        raw = (RawArea * len(areas))(*areas)
        base = f"L{areas[0].address // 8 & 0xFFFFFF:06X}".encode("ascii").ljust(8)
        number = library.mvs_list_statement_into(ask, raw, len(areas), base, out, len(out), ctypes.byref(wanted))
        return out.raw[: wanted.value].decode("ascii") if Status(number) is Status.OK else _long_list(ask, areas, event)
    number = library.mvs_statement_into(ask, _area(event.address).encode("ascii"), out, len(out), ctypes.byref(wanted))
    if Status(number) is not Status.OK:
        return f"* {AskKind(ask.kind).name} is too long for a statement"
    return out.raw[: wanted.value].decode("ascii")
