"""The virtual storage services of an MVS program's own region: GETMAIN, FREEMAIN, STORAGE, CPOOL, and subpools of tasks.

A session executes the statements of a job one by one:

    >>> import mvs
    >>> with mvs.Session() as session:
    ...     session.line("JOB REGION BELOW=1").kind.name
    ...     area = session.obtain("JOB", 64)
    ...     session.write(area.address, b"\\xC1\\xC2")
    ...     session.read(area.address, 2)
    ...     session.release("JOB", area.address, 64).kind.name
    'STEP_BEGAN'
    b'\\xc1\\xc2'
    'RC_0'

`Session.line` takes the statements of the script language. The other methods make requests by values. A request that MVS refuses is
no error of Python: its event says so, as `EventKind.RC_4` or `EventKind.ABENDED`. An exception is a fault of the caller.

One call at a time uses a session. The methods do not lock.
"""

from __future__ import annotations

import ctypes
import html
import shutil
import subprocess
from collections.abc import Iterable, Iterator, Sequence
from dataclasses import dataclass
from typing import Union

from ._library import (
    NO_BYTES,
    AskKind,
    EffectKind,
    EventKind,
    Form,
    Holder,
    Location,
    Place,
    Position,
    RawArea,
    RawAsk,
    RawBytes,
    RawEffect,
    RawEvent,
    RawHeld,
    RawPages,
    RawPool,
    RawReason,
    RawRegion,
    RawRun,
    RawSession,
    RawSubpool,
    RawTask,
    ReasonKind,
    Status,
    StepEnd,
    field_name,
    library,
)
from ._statements import statement

__all__ = [
    "Area",
    "AskKind",
    "ChangedPages",
    "Effect",
    "EffectKind",
    "Error",
    "Event",
    "EventKind",
    "FieldError",
    "Form",
    "HeldRun",
    "Holder",
    "Location",
    "Page",
    "Place",
    "Pool",
    "Position",
    "Reason",
    "ReasonKind",
    "Run",
    "RunResult",
    "ScriptError",
    "Session",
    "Status",
    "StepEnd",
    "StorageError",
    "Subpool",
    "Task",
    "run",
    "version",
]


class Error(Exception):
    """A call that the library refused. `status` says why."""

    def __init__(self, status: Status, message: str = ""):
        super().__init__(message or f"libmvs: {status.name}")
        self.status = status


class ScriptError(Error):
    """A line with a fault, JS01 to JS09: `number` is 1 to 9."""

    def __init__(self, number: int, line: str):
        super().__init__(Status.SCRIPT_FAULT, f"JS{number:02}: {line}")
        self.number = number


class FieldError(Error, ValueError):
    """A request with a field that is out of range: `field` is its name."""

    def __init__(self, field: str):
        super().__init__(Status.NO_REQUEST, f"{field} is out of range")
        self.field = field


class StorageError(Error):
    """Bytes that cannot be accessed: MVS ends a task that does with 0C4."""

    def __init__(self, address: int, length: int):
        super().__init__(Status.NO_ACCESS, f"{length} bytes at {address:08X} cannot be accessed")
        self.address = address
        self.length = length


@dataclass(frozen=True)
class Event:
    """The reply to a statement or a request. The fields that `kind` does not name are 0, and `task` is empty."""

    kind: EventKind
    code: int = 0
    address: int = 0
    length: int = 0
    ended: StepEnd = StepEnd.NONE
    task: str = ""

    @property
    def completion(self) -> str:
        """The completion code of an abend as a run prints it: "S80A" or "U0007"; empty for other events."""
        if self.kind is not EventKind.ABENDED:
            return ""
        return f"S{self.code >> 12:03X}" if self.code >> 12 else f"U{self.code:04}"


@dataclass(frozen=True)
class Area:
    """An area of storage: its address, and its length in bytes."""

    address: int
    length: int


@dataclass(frozen=True)
class Subpool:
    """A subpool number that a task has. `plain` and `pool` are the bytes in it outside and inside of cell pools."""

    number: int
    owned: bool
    plain: int
    pool: int


@dataclass(frozen=True)
class Run:
    """Adjacent pages that are assigned alike: to no subpool (`owner` is None), or to the one that `owner` has under `number`."""

    address: int
    length: int
    number: int
    owner: Union[str, None]


@dataclass(frozen=True)
class ChangedPages:
    """The addresses of the first and of the last page of those that changed. Not each page between them did."""

    first: int
    last: int


@dataclass(frozen=True)
class HeldRun:
    """Adjacent doublewords that are held alike.

    They are areas of the subpool that `owner` has under `number` (`pool` is None), or are in parts of the cell pool `pool` (`owner` is
    None).
    """

    address: int
    length: int
    number: int
    owner: Union[str, None]
    pool: Union[str, None]


@dataclass(frozen=True)
class Task:
    """An active task. `mother` is the task that attached it; None for the job step task."""

    name: str
    mother: Union[str, None]


@dataclass(frozen=True)
class Pool:
    """A cell pool: the bytes of a cell, and how many parts it has.

    `address`, `length` and `cells` are those of the part that was added last. `owner` has the subpool of its first page under `number`.
    """

    name: str
    cell_size: int
    parts: int
    address: int
    length: int
    cells: int
    number: int
    owner: str


@dataclass(frozen=True)
class Reason:
    """Why a request was refused. include/mvs.h says which fields each kind has; the others are 0, None or empty.

    `rule` and `second_rule` are rules of docs/RULES.md.
    """

    kind: ReasonKind
    rule: int
    second_rule: int = 0
    address: int = 0
    number: int = 0
    length: int = 0
    member: int = 0
    cells: int = 0
    cell_size: int = 0
    longest: int = 0
    free_runs: int = 0
    pages_below: int = 0
    pages_above: int = 0
    first_address: int = 0
    second_address: int = 0
    position: Union[Position, None] = None
    holder: Union[Holder, None] = None
    holder_number: int = 0
    holder_name: str = ""
    task: str = ""
    name: str = ""


@dataclass(frozen=True)
class Effect:
    """What a request changed. include/mvs.h says which fields each kind has; the others are 0 or empty.

    `rule` is a rule of docs/RULES.md.
    """

    kind: EffectKind
    rule: int
    address: int = 0
    length: int = 0
    least: int = 0
    most: int = 0
    pages: int = 0
    pages_above: int = 0
    cells: int = 0
    cell_size: int = 0
    number: int = 0
    owner: str = ""
    task: str = ""
    pool: str = ""


@dataclass(frozen=True)
class RunResult:
    """What `run` printed, and the status of the job."""

    status: Status
    text: str


class Page(str):
    """A page of HTML, which a notebook shows."""

    def _repr_html_(self) -> str:
        return f'<iframe srcdoc="{html.escape(self)}" width="100%" height="600"></iframe>'


_Bytes = Union[bytes, bytearray, memoryview]


def version() -> int:
    """Returns the version of the library's calls: 2000 is 2.0."""
    return library.mvs_version()


def run(script: Union[str, bytes], place: Place = Place.LOW) -> RunResult:
    """Runs a whole script, and returns what it prints.

    The status is OK, SOME_ABEND or SCRIPT_FAULT. Raises Error if memory is exhausted, or the script is too long.
    """
    text = script.encode("latin-1") if isinstance(script, str) else bytes(script)
    wanted = ctypes.c_size_t(len(text) + 1024)
    while True:
        out = ctypes.create_string_buffer(max(wanted.value, 1))
        status = Status(library.mvs_run_into(place, text, len(text), out, len(out), ctypes.byref(wanted)))
        if status is Status.TOO_SMALL:
            continue
        if status not in (Status.OK, Status.SOME_ABEND, Status.SCRIPT_FAULT):
            raise Error(status)
        return RunResult(status, out.raw[: wanted.value].decode("ascii"))


def _name(text: str, field: str) -> bytes:
    """A name for a field of eight bytes; the library checks its letters."""
    try:
        name = text.encode("ascii")
    except UnicodeEncodeError:
        raise FieldError(field) from None
    if not 1 <= len(name) <= 8 or b" " in name or b"\0" in name:
        raise FieldError(field)
    return name.ljust(8)


def _numbers(numbers: Iterable[int], field: str) -> tuple[int, int]:
    """A set of subpool numbers as two words."""
    bits = 0
    for number in numbers:
        if not 0 <= number <= 127:
            raise FieldError(field)
        bits |= 1 << number
    return bits & (1 << 64) - 1, bits >> 64


_WIDTHS = {ctypes.c_uint32: 32, ctypes.c_uint64: 64}
_FIELDS = dict(RawAsk._fields_)


class Session:
    """A job that executes its statements one by one.

    It is a context manager: at the end of `with`, the session is freed. `place` says which of the places that fit is used.
    With `has_bytes=False` it has no bytes, for a program that has the bytes of storage itself: what would read or write them raises Error
    with the status NO_BYTES, and `changed_pages` returns which pages changed.
    """

    def __init__(self, place: Place = Place.LOW, has_bytes: bool = True):
        self._session = RawSession()
        self._lines: list[str] = []
        self._check(library.mvs_new(self._session, place if has_bytes else place | NO_BYTES))

    def clone(self) -> Session:
        """Returns a copy, which continues as this session would. What one of them does later does not change the other."""
        copy = Session.__new__(Session)
        copy._session = RawSession()
        copy._lines = list(self._lines)
        self._check(library.mvs_clone(self._session, copy._session))
        return copy

    def __enter__(self) -> Session:
        return self

    def __exit__(self, *_: object) -> None:
        self.close()

    def __del__(self) -> None:
        if hasattr(self, "_session"):
            self.close()

    def close(self) -> None:
        """Frees the session. A later call raises Error with the status NO_SESSION."""
        library.mvs_free_session(self._session)

    @staticmethod
    def _check(number: int) -> Status:
        status = Status(number)
        if status is not Status.OK:
            raise Error(status)
        return status

    @staticmethod
    def _event(raw: RawEvent) -> Event:
        task = bytes(raw.task).decode("ascii").rstrip()
        return Event(EventKind(raw.kind), raw.code, raw.address, raw.length, StepEnd(raw.ended), task)

    def line(self, text: str) -> Event:
        """Executes a statement, and returns the reply. A newline at its end is dropped.

        Raises ScriptError for a line with a fault: it changes nothing, and the job continues.
        """
        line = text[:-1] if text.endswith("\n") else text
        data = line.encode("latin-1", "replace")
        raw = RawEvent(size=ctypes.sizeof(RawEvent))
        return self._executed(library.mvs_try(self._session, data, len(data), raw), raw, line)

    def begin(self, task: str, below: int, above: int = 0, fill: int = 0, resides_above: bool = False) -> Event:
        """Begins a step with these numbers of pages below and above 16 megabytes, as REGION does, and ends the one before."""
        for field, value, most in (("below", below, 1 << 32), ("above", above, 1 << 32), ("fill", fill, 256)):
            if not 0 <= value < most:
                raise FieldError(field)
        region = RawRegion(ctypes.sizeof(RawRegion), below, above, fill, resides_above, _name(task, "task"))
        line = f"{task} REGION BELOW={below},ABOVE={above},FILL={fill:02X},RES={'ABOVE' if resides_above else 'BELOW'}"
        raw = RawEvent(size=ctypes.sizeof(RawEvent))
        return self._executed(library.mvs_begin(self._session, region, raw), raw, line)

    def _executed(self, number: int, raw: RawEvent, line: str) -> Event:
        """The event of a line."""
        if Status(number) is Status.SCRIPT_FAULT:
            raise ScriptError(raw.code, line)
        self._check(number)
        self._lines.append(line)
        return self._event(raw)

    def text(self) -> str:
        """Returns the reply to the last line as mvsjob prints it."""
        wanted = ctypes.c_size_t(256)
        while True:
            out = ctypes.create_string_buffer(max(wanted.value, 1))
            status = Status(library.mvs_text_into(self._session, out, len(out), ctypes.byref(wanted)))
            if status is not Status.TOO_SMALL:
                self._check(status)
                return out.raw[: wanted.value].decode("ascii")

    def why(self) -> str:
        """Returns why the last request was refused, as mvsjob --explain prints it; an empty text if it was granted."""
        wanted, out = ctypes.c_size_t(0), ctypes.create_string_buffer(256)
        self._check(Status(library.mvs_why_into(self._session, out, len(out), ctypes.byref(wanted))))
        return out.raw[: wanted.value].decode("ascii")

    def reason(self) -> Union[Reason, None]:
        """Returns why the last request was refused, as fields; None if it was granted."""
        raw = RawReason(size=ctypes.sizeof(RawReason))
        status = Status(library.mvs_why_fields(self._session, raw))
        if status is Status.NO_MORE:
            return None
        self._check(status)
        fields = {name: getattr(raw, name) for name, _ in RawReason._fields_ if name != "size"}
        fields.update((name, fields[name].decode("ascii").rstrip()) for name in ("holder_name", "task", "name"))
        fields["kind"] = ReasonKind(raw.kind)
        fields["position"] = Position(raw.position) if raw.position else None
        fields["holder"] = Holder(raw.holder) if raw.holder else None
        return Reason(**fields)

    def record(self) -> None:
        """Records each request from now on, so that `effects` returns what it changed. That costs time."""
        self._check(Status(library.mvs_record(self._session)))

    def effects(self) -> list[Effect]:
        """Returns what the last request changed, and what the end of its task freed, in the order of mvsjob --explain.

        The list is empty if the session does not record.
        """
        found = []
        while True:
            raw = RawEffect(size=ctypes.sizeof(RawEffect))
            status = Status(library.mvs_effect(self._session, len(found), raw))
            if status is Status.NO_MORE:
                return found
            self._check(status)
            fields = {name: getattr(raw, name) for name, _ in RawEffect._fields_ if name != "size"}
            fields.update((name, fields[name].decode("ascii").rstrip()) for name in ("owner", "task", "pool"))
            fields["kind"] = EffectKind(raw.kind)
            found.append(Effect(**fields))

    def end(self) -> tuple[Status, Event]:
        """Ends the job. Returns its status, OK, SOME_ABEND, or SCRIPT_FAULT if there was no step, and how its last step ended.

        The storage of the last step can be read until the session is closed.
        """
        raw = RawEvent(size=ctypes.sizeof(RawEvent))
        status = Status(library.mvs_end(self._session, raw))
        if status not in (Status.OK, Status.SOME_ABEND, Status.SCRIPT_FAULT):
            raise Error(status)
        return status, self._event(raw)

    # ---- requests by values

    def _ask(self, kind: AskKind, task: str, fields: dict[str, int], name: str | None = None) -> RawAsk:
        ask = RawAsk(size=ctypes.sizeof(RawAsk), kind=kind, task=_name(task, "task"))
        if name is not None:
            ask.name = _name(name, "name")
        for field, value in fields.items():
            width = _WIDTHS.get(_FIELDS[field])
            if width and not 0 <= value < 1 << width:
                raise FieldError(field)
            setattr(ask, field, value)
        return ask

    def _answered(self, number: int, raw: RawEvent, ask: RawAsk, areas: Sequence[RawArea] = ()) -> Event:
        status = Status(number)
        if status is Status.NO_REQUEST:
            raise FieldError(field_name(raw.code))
        self._check(status)
        self._lines.append(statement(ask, raw, areas))
        return self._event(raw)

    def _request(self, kind: AskKind, task: str, name: str | None = None, **fields: int) -> Event:
        raw = RawEvent(size=ctypes.sizeof(RawEvent))
        ask = self._ask(kind, task, fields, name)
        return self._answered(library.mvs_request(self._session, ask, raw), raw, ask)

    def obtain(
        self,
        task: str,
        length: int,
        form: Form = Form.RC,
        subpool: int = 0,
        least: int = 0,
        boundary: int = 0,
        within: int = 0,
        location: Location = Location.RES,
    ) -> Event:
        """Obtains an area, as GETMAIN and STORAGE OBTAIN do.

        `boundary` and `within` are powers of two: STARTBDY and CONTBDY. `least` is the least length of a variable request.
        The event is GRANTED with the address and the length, RC_4, or ABENDED.
        """
        values = {"form": form, "subpool": subpool, "length": length, "least": least}
        return self._request(AskKind.OBTAIN, task, **values, boundary=boundary, within=within, location=location)

    def release(self, task: str, address: int, length: int, form: Form = Form.RC, subpool: int = 0) -> Event:
        """Releases bytes of a subpool, as FREEMAIN and STORAGE RELEASE do."""
        return self._request(AskKind.RELEASE, task, form=form, subpool=subpool, address=address, length=length)

    def release_whole(self, task: str, subpool: int, form: Form = Form.RC) -> Event:
        """Releases a whole subpool."""
        return self._request(AskKind.RELEASE_WHOLE, task, form=form, subpool=subpool)

    def _list(self, kind: AskKind, task: str, areas: Sequence[Area], **fields: int) -> tuple[Event, list[Area]]:
        raws = (RawArea * max(len(areas), 1))(*(RawArea(area.address, area.length) for area in areas))
        raw = RawEvent(size=ctypes.sizeof(RawEvent))
        ask = self._ask(kind, task, fields)
        number = library.mvs_list(self._session, ask, raws, len(areas), raw)
        event = self._answered(number, raw, ask, raws[: len(areas)])
        return event, [Area(area.address, area.length) for area in raws[: len(areas)]]

    def obtain_list(self, task: str, lengths: Sequence[int], form: Form = Form.LC, subpool: int = 0, boundary: int = 0) -> tuple[Event, list[Area]]:
        """Obtains 1 to 16 areas, all or none, as GETMAIN LC and LU do. If all are granted (RC_0), the areas are returned."""
        for length in lengths:
            if not 0 <= length < 1 << 32:
                raise FieldError("areas")
        wanted = [Area(0, length) for length in lengths]
        event, areas = self._list(AskKind.OBTAIN, task, wanted, form=form, subpool=subpool, boundary=boundary)
        return event, areas if event.kind is EventKind.RC_0 else []

    def release_list(self, task: str, areas: Sequence[Area], form: Form = Form.LC, subpool: int = 0) -> Event:
        """Releases 1 to 16 areas, all or none, as FREEMAIN LC and LU do."""
        return self._list(AskKind.RELEASE, task, areas, form=form, subpool=subpool)[0]

    def build_pool(
        self, task: str, name: str, cell: int, primary: int, secondary: int = 0, subpool: int = 0, location: Location = Location.RES
    ) -> Event:
        """Builds a cell pool with cells of this size in bytes, as CPOOL BUILD does."""
        values = {"length": cell, "primary": primary, "secondary": secondary}
        return self._request(AskKind.POOL_BUILD, task, name, **values, subpool=subpool, location=location)

    def get_cell(self, task: str, name: str, conditional: bool = False) -> Event:
        """Allocates a cell: the event is CELL with its address, NO_CELL, or ABENDED."""
        return self._request(AskKind.POOL_GET, task, name, conditional=conditional)

    def free_cell(self, task: str, name: str, address: int) -> Event:
        """Frees a cell."""
        return self._request(AskKind.POOL_FREE, task, name, address=address)

    def delete_pool(self, task: str, name: str) -> Event:
        """Deletes a cell pool with all its cells."""
        return self._request(AskKind.POOL_DELETE, task, name)

    def attach(
        self, task: str, subtask: str, give: Iterable[int] = (), share: Iterable[int] = (), share_zero: bool = True, res_above: bool = False
    ) -> Event:
        """Attaches a subtask, which is given and shares these subpool numbers, 1 to 127."""
        (given_low, given_high), (shared_low, shared_high) = _numbers(give, "given_low"), _numbers(share, "shared_low")
        given = {"given_low": given_low, "given_high": given_high}
        shared = {"shared_low": shared_low, "shared_high": shared_high}
        return self._request(AskKind.ATTACH, task, subtask, **given, **shared, keeps_zero=not share_zero, above=res_above)

    def end_task(self, task: str) -> Event:
        """Ends a task normally, as RETURN does."""
        return self._request(AskKind.RETURN, task)

    def abend(self, task: str, code: int) -> Event:
        """Ends a task and its subtasks with a user completion code, 0 to 4095."""
        return self._request(AskKind.ABEND, task, code=code)

    def system_abend(self, task: str, code: int) -> Event:
        """Ends a task and its subtasks with a system completion code, as 0x0C1. `script` has an abend with the user code of this number."""
        return self._request(AskKind.SYSTEM_ABEND, task, code=code)

    def move(self, task: str, target: int, source: int, length: int) -> Event:
        """Copies 1 to 65,536 bytes. A task that cannot access them abends with 0C4."""
        return self._request(AskKind.MOVE, task, address=target, source=source, length=length)

    # ---- storage and reports

    def read(self, address: int, length: int) -> bytes:
        """Returns bytes from an address on. Raises StorageError if one of them cannot be accessed."""
        if not 0 <= address < 1 << 32 or length < 1:
            raise StorageError(address, length)
        out = ctypes.create_string_buffer(length)
        status = Status(library.mvs_read(self._session, address, out, length))
        if status is Status.NO_ACCESS:
            raise StorageError(address, length)
        self._check(status)
        return out.raw

    def readable(self, address: int) -> bytes:
        """Returns the bytes from an address on, as many as can be read without a break. Raises StorageError if the first one cannot."""
        none = ctypes.c_ubyte()
        raw = RawBytes(ctypes.addressof(none), 0)
        if not 0 <= address < 1 << 32:
            raise StorageError(address, 1)
        status = Status(library.mvs_lend_bytes(self._session, address, raw))
        if status is Status.NO_ACCESS:
            raise StorageError(address, 1)
        self._check(status)
        return ctypes.string_at(raw.bytes, raw.length)

    def write(self, address: int, data: _Bytes) -> None:
        """Writes bytes from an address on. Raises StorageError, and writes nothing, if one of them cannot be accessed."""
        text = bytes(data)
        if not 0 <= address < 1 << 32:
            raise StorageError(address, len(text))
        status = Status(library.mvs_write(self._session, address, text, len(text)))
        if status is Status.NO_ACCESS:
            raise StorageError(address, len(text))
        self._check(status)

    def fallen(self) -> list[str]:
        """Returns the tasks that ended with the one that abended, if the last request abended."""
        names: list[str] = []
        out = ctypes.create_string_buffer(8)
        while True:
            status = Status(library.mvs_fallen(self._session, len(names), out))
            if status is Status.NO_MORE:
                return names
            self._check(status)
            names.append(out.raw.decode("ascii").rstrip())

    def subpools(self, task: str) -> Iterator[Subpool]:
        """Iterates over the subpool numbers of a task. Raises Error with the status NO_TASK if it is not active."""
        raw, number, name = RawSubpool(size=ctypes.sizeof(RawSubpool)), 0, _name(task, "task")
        while number < 256:
            status = Status(library.mvs_subpool(self._session, name, number, raw))
            if status is Status.NO_MORE:
                return
            self._check(status)
            yield Subpool(raw.number, raw.owned, raw.plain, raw.pool)
            number = raw.number + 1

    def pages(self) -> Iterator[Run]:
        """Iterates over the runs of pages that are assigned alike, in the order of their addresses."""
        raw, address = RawRun(size=ctypes.sizeof(RawRun)), 0
        while True:
            status = Status(library.mvs_map(self._session, address, raw))
            if status is Status.NO_MORE:
                return
            self._check(status)
            owner = bytes(raw.owner).decode("ascii").rstrip()
            yield Run(raw.address, raw.length, raw.number, owner if raw.assigned else None)
            address = raw.address + raw.length

    def changed_pages(self) -> Union[ChangedPages, None]:
        """Returns the first and the last page that changed since the call before, of a session without bytes; None if there are none."""
        raw = RawPages(size=ctypes.sizeof(RawPages))
        status = Status(library.mvs_changed_pages(self._session, raw))
        if status is Status.NO_MORE:
            return None
        self._check(status)
        return ChangedPages(raw.first, raw.last)

    def held_runs(self) -> Iterator[HeldRun]:
        """Iterates over the runs of doublewords that are held alike, in the order of their addresses."""
        raw, address = RawHeld(size=ctypes.sizeof(RawHeld)), 0
        while True:
            status = Status(library.mvs_held(self._session, address, raw))
            if status is Status.NO_MORE:
                return
            self._check(status)
            owner, pool = (bytes(name).decode("ascii").rstrip() for name in (raw.owner, raw.pool))
            yield HeldRun(raw.address, raw.length, raw.number, None if raw.pooled else owner, pool if raw.pooled else None)
            address = raw.address + raw.length

    def pool(self, name: str) -> Union[Pool, None]:
        """Returns the cell pool of a name; None if there is none."""
        raw = RawPool(size=ctypes.sizeof(RawPool))
        status = Status(library.mvs_pool(self._session, _name(name, "name"), raw))
        if status is Status.NO_MORE:
            return None
        self._check(status)
        owner = raw.owner.decode("ascii").rstrip()
        return Pool(name, raw.cell_size, raw.parts, raw.address, raw.length, raw.cells, raw.number, owner)

    def pools(self) -> Iterator[Pool]:
        """Iterates over the cell pools, in the byte order of their names."""
        raw = ctypes.create_string_buffer(8)
        while True:
            status = Status(library.mvs_next_pool(self._session, raw.raw, raw))
            if status is Status.NO_MORE:
                return
            self._check(status)
            found = self.pool(raw.raw.decode("ascii").rstrip())
            if found is not None:
                yield found

    def tasks(self) -> Iterator[Task]:
        """Iterates over the active tasks, in the byte order of their names."""
        raw, after = RawTask(size=ctypes.sizeof(RawTask)), bytes(8)
        while True:
            status = Status(library.mvs_next_task(self._session, after, raw))
            if status is Status.NO_MORE:
                return
            self._check(status)
            after = raw.name
            yield Task(raw.name.decode("ascii").rstrip(), raw.mother.decode("ascii").rstrip() or None)

    @property
    def script(self) -> str:
        """The statements so far, and a statement for each request by values: the same run as a script.

        Bytes that were written are not in it.
        """
        return "".join(f"{line}\n" for line in self._lines)

    def page(self, program: str = "mvsjob") -> Page:
        """Returns a page of HTML that shows storage and tasks after each statement of `script`; a notebook shows it.

        The program mvsjob draws it. Raises FileNotFoundError if it is not on the path.
        """
        return Page(self._drawn(program, "--page"))

    def explain(self, program: str = "mvsjob") -> str:
        """Returns what the program mvsjob prints of `script` with --explain: why each request was refused, and what each one did."""
        return self._drawn(program, "--explain")

    def _drawn(self, program: str, option: str) -> str:
        path = shutil.which(program)
        if path is None:
            raise FileNotFoundError(f"{program}: this needs the program mvsjob")
        ran = subprocess.run([path, option], input=self.script, capture_output=True, text=True)
        if not ran.stdout:
            raise RuntimeError(ran.stderr.strip())
        return ran.stdout
