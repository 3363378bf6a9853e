"""The shared library libmvs.so.0 through ctypes: its structs, numbers and functions, as include/mvs.h declares them."""

from __future__ import annotations

import ctypes
import ctypes.util
import enum
import os

VERSION = 2007
"""The version of the calls that this module was written for."""


class Status(enum.IntEnum):
    """What a call returns: mvs_status."""

    OK = 0
    SOME_ABEND = 8
    SCRIPT_FAULT = 12
    NO_MEMORY = 16
    NO_SESSION = 20
    OVER = 24
    TOO_SMALL = 32
    NO_ACCESS = 36
    NO_MORE = 40
    TOO_LONG = 44
    NO_TASK = 48
    NO_REQUEST = 52
    NO_STEP = 56
    NO_PLACE = 60
    WRONG_SIZE = 64
    NO_BYTES = 68


class EventKind(enum.IntEnum):
    """What an event reports: mvs_event_kind."""

    NOTHING = 1
    STEP_BEGAN = 2
    NOT_RUN = 3
    NO_NAME = 4
    AT = 5
    RC_0 = 6
    GRANTED = 7
    RC_4 = 8
    CELL = 9
    NO_CELL = 10
    ATTACHED = 11
    ENDED = 12
    DONE = 13
    DATA = 14
    ABENDED = 15
    SUBPOOLS = 16
    MAP = 17
    FAULT = 18
    STOPPED = 19
    JOB_ENDED = 20
    REFUSED = 21


class StepEnd(enum.IntEnum):
    """How a step ended: mvs_step_end."""

    NONE = 0
    CLEAN = 1
    ABENDED = 2


class AskKind(enum.IntEnum):
    """The kinds of requests: mvs_ask_kind."""

    OBTAIN = 1
    RELEASE = 2
    RELEASE_WHOLE = 3
    POOL_BUILD = 4
    POOL_GET = 5
    POOL_FREE = 6
    POOL_DELETE = 7
    ATTACH = 8
    RETURN = 9
    ABEND = 10
    SHOW = 11
    MOVE = 12
    SYSTEM_ABEND = 13


class ReasonKind(enum.IntEnum):
    """Why a request was refused: mvs_reason_kind."""

    NOT_ACTIVE = 1
    INVALID_NUMBER = 2
    SHORTAGE = 3
    NO_MEMBER = 4
    NO_PART = 5
    OFF_DOUBLEWORD = 6
    NO_SUBPOOL = 7
    NOT_HELD = 8
    OVERLAP = 9
    WHOLE_OF_ZERO = 10
    POOL_IN_USE = 11
    TOO_MANY_POOLS = 12
    NO_POOL = 13
    NO_FREE_CELL = 14
    NO_TAKEN_CELL = 15
    TASK_IN_USE = 16
    TOO_MANY_TASKS = 17
    NOT_OWNED = 18
    ACTIVE_SUBTASK = 19
    ASKED = 20
    NO_ACCESS = 21


class EffectKind(enum.IntEnum):
    """What a request changed: mvs_effect_kind."""

    OBTAINED = 1
    NO_GREATER = 2
    NEW_SUBPOOL = 3
    PAGES_ASSIGNED = 4
    PAGES_FREED = 5
    EMPTIED = 6
    CELL = 7
    PART = 8
    GIVEN = 9
    SHARED = 10
    FREED = 11
    REMAINS = 12


class Holder(enum.IntEnum):
    """What holds the doubleword of an address: mvs_holder."""

    NOBODY = 1
    OUTSIDE = 2
    SUBPOOL = 3
    POOL = 4
    UNOWNED = 5


class Position(enum.IntEnum):
    """Where an address is, if no allocated cell of the pool begins there: mvs_position."""

    FREE_CELL = 1
    INSIDE = 2
    NO_CELL = 3


class Form(enum.IntEnum):
    """The forms of GETMAIN and FREEMAIN, and STORAGE with COND=NO and COND=YES: mvs_form."""

    R = 1
    RC = 2
    RU = 3
    VRC = 4
    VRU = 5
    EC = 6
    EU = 7
    VC = 8
    VU = 9
    STORAGE = 10
    STORAGE_CONDITIONAL = 11
    LC = 12
    LU = 13


class Location(enum.IntEnum):
    """LOC=: mvs_location."""

    RES = 0
    BELOW = 1
    ANY = 2


class Place(enum.IntEnum):
    """Which of the places that fit is used: mvs_place."""

    LOW = 1
    HIGH = 2


NO_BYTES = 0x100
"""A bit of the place of mvs_new: MVS_NO_BYTES."""


class RawEvent(ctypes.Structure):
    """mvs_event."""

    _fields_ = [
        *((name, ctypes.c_uint32) for name in ("size", "kind", "code", "address", "length", "ended")),
        ("task", ctypes.c_char * 8),
    ]


class RawAsk(ctypes.Structure):
    """mvs_ask."""

    _fields_ = [
        *((name, ctypes.c_uint32) for name in ("size", "kind", "form", "subpool", "length", "least", "boundary", "within", "location")),
        *((name, ctypes.c_uint32) for name in ("address", "source", "primary", "secondary", "code")),
        *((name, ctypes.c_bool) for name in ("conditional", "keeps_zero", "above")),
        *((name, ctypes.c_uint64) for name in ("given_low", "given_high", "shared_low", "shared_high")),
        ("task", ctypes.c_char * 8),
        ("name", ctypes.c_char * 8),
    ]


class RawRegion(ctypes.Structure):
    """mvs_region."""

    _fields_ = [
        ("size", ctypes.c_uint32),
        ("below", ctypes.c_uint32),
        ("above", ctypes.c_uint32),
        ("fill", ctypes.c_uint8),
        ("resides_above", ctypes.c_bool),
        ("task", ctypes.c_char * 8),
    ]


class RawArea(ctypes.Structure):
    """mvs_area."""

    _fields_ = [("address", ctypes.c_uint32), ("length", ctypes.c_uint32)]


class RawSubpool(ctypes.Structure):
    """mvs_subpool_line."""

    _fields_ = [
        ("size", ctypes.c_uint32),
        ("number", ctypes.c_uint32),
        ("owned", ctypes.c_bool),
        ("plain", ctypes.c_uint32),
        ("pool", ctypes.c_uint32),
    ]


class RawRun(ctypes.Structure):
    """mvs_map_run."""

    _fields_ = [
        ("size", ctypes.c_uint32),
        ("address", ctypes.c_uint32),
        ("length", ctypes.c_uint32),
        ("assigned", ctypes.c_bool),
        ("number", ctypes.c_uint32),
        ("owner", ctypes.c_char * 8),
    ]


class RawPages(ctypes.Structure):
    """mvs_pages."""

    _fields_ = [("size", ctypes.c_uint32), ("first", ctypes.c_uint32), ("last", ctypes.c_uint32)]


class RawHeld(ctypes.Structure):
    """mvs_held_run."""

    _fields_ = [
        ("size", ctypes.c_uint32),
        ("address", ctypes.c_uint32),
        ("length", ctypes.c_uint32),
        ("pooled", ctypes.c_bool),
        ("number", ctypes.c_uint32),
        ("owner", ctypes.c_char * 8),
        ("pool", ctypes.c_char * 8),
    ]


class RawPool(ctypes.Structure):
    """mvs_pool_line."""

    _fields_ = [
        *((name, ctypes.c_uint32) for name in ("size", "cell_size", "parts", "address", "length", "cells", "number")),
        ("owner", ctypes.c_char * 8),
    ]


class RawTask(ctypes.Structure):
    """mvs_task_line."""

    _fields_ = [("size", ctypes.c_uint32), ("name", ctypes.c_char * 8), ("mother", ctypes.c_char * 8)]


class RawReason(ctypes.Structure):
    """mvs_reason."""

    _fields_ = [
        *((name, ctypes.c_uint32) for name in ("size", "kind", "rule", "second_rule", "address", "number", "length", "member")),
        *((name, ctypes.c_uint32) for name in ("cells", "cell_size", "longest", "free_runs", "pages_below", "pages_above")),
        *((name, ctypes.c_uint32) for name in ("first_address", "second_address", "position", "holder", "holder_number")),
        *((name, ctypes.c_char * 8) for name in ("holder_name", "task", "name")),
    ]


class RawEffect(ctypes.Structure):
    """mvs_effect_line."""

    _fields_ = [
        *((name, ctypes.c_uint32) for name in ("size", "kind", "rule", "address", "length", "least", "most")),
        *((name, ctypes.c_uint32) for name in ("pages", "pages_above", "cells", "cell_size", "number")),
        *((name, ctypes.c_char * 8) for name in ("owner", "task", "pool")),
    ]


class RawBytes(ctypes.Structure):
    """mvs_bytes."""

    _fields_ = [("bytes", ctypes.c_void_p), ("length", ctypes.c_size_t)]


class RawSession(ctypes.Structure):
    """mvs_session."""

    _fields_ = [("held", ctypes.c_void_p)]


def field_name(offset: int) -> str:
    """Returns the name of the field of mvs_ask at an offset; "areas" for those of a list."""
    if offset == ctypes.sizeof(RawAsk):
        return "areas"
    for name, _ in RawAsk._fields_:
        if getattr(RawAsk, name).offset == offset:
            return name
    return "?"


_POINTER = ctypes.POINTER
_SESSION, _EVENT, _SIZE = _POINTER(RawSession), _POINTER(RawEvent), _POINTER(ctypes.c_size_t)
_FUNCTIONS = {
    "mvs_version": [],
    "mvs_new": [_SESSION, ctypes.c_uint32],
    "mvs_clone": [_SESSION, _SESSION],
    "mvs_line": [_SESSION, ctypes.c_char_p, ctypes.c_size_t, _EVENT],
    "mvs_try": [_SESSION, ctypes.c_char_p, ctypes.c_size_t, _EVENT],
    "mvs_begin": [_SESSION, _POINTER(RawRegion), _EVENT],
    "mvs_request": [_SESSION, _POINTER(RawAsk), _EVENT],
    "mvs_list": [_SESSION, _POINTER(RawAsk), _POINTER(RawArea), ctypes.c_size_t, _EVENT],
    "mvs_end": [_SESSION, _EVENT],
    "mvs_text_into": [_SESSION, ctypes.c_char_p, ctypes.c_size_t, _SIZE],
    "mvs_why_into": [_SESSION, ctypes.c_char_p, ctypes.c_size_t, _SIZE],
    "mvs_why_fields": [_SESSION, _POINTER(RawReason)],
    "mvs_read": [_SESSION, ctypes.c_uint32, ctypes.c_char_p, ctypes.c_size_t],
    "mvs_lend_bytes": [_SESSION, ctypes.c_uint32, _POINTER(RawBytes)],
    "mvs_write": [_SESSION, ctypes.c_uint32, ctypes.c_char_p, ctypes.c_size_t],
    "mvs_fallen": [_SESSION, ctypes.c_size_t, ctypes.c_char_p],
    "mvs_subpool": [_SESSION, ctypes.c_char_p, ctypes.c_uint8, _POINTER(RawSubpool)],
    "mvs_map": [_SESSION, ctypes.c_uint32, _POINTER(RawRun)],
    "mvs_changed_pages": [_SESSION, _POINTER(RawPages)],
    "mvs_held": [_SESSION, ctypes.c_uint32, _POINTER(RawHeld)],
    "mvs_pool": [_SESSION, ctypes.c_char_p, _POINTER(RawPool)],
    "mvs_next_task": [_SESSION, ctypes.c_char_p, _POINTER(RawTask)],
    "mvs_next_pool": [_SESSION, ctypes.c_char_p, ctypes.c_char_p],
    "mvs_statement_into": [_POINTER(RawAsk), ctypes.c_char_p, ctypes.c_char_p, ctypes.c_size_t, _SIZE],
    "mvs_list_statement_into": [_POINTER(RawAsk), _POINTER(RawArea), ctypes.c_size_t, ctypes.c_char_p, ctypes.c_char_p, ctypes.c_size_t, _SIZE],
    "mvs_record": [_SESSION],
    "mvs_effect": [_SESSION, ctypes.c_size_t, _POINTER(RawEffect)],
    "mvs_free_session": [_SESSION],
    "mvs_run_into": [ctypes.c_uint32, ctypes.c_char_p, ctypes.c_size_t, ctypes.c_char_p, ctypes.c_size_t, _SIZE],
}


def _load() -> ctypes.CDLL:
    """Loads the library: $MVS_LIBRARY, the copy in this package, or that of the system."""
    beside = os.path.join(os.path.dirname(__file__), "libmvs.so.0")
    path = os.environ.get("MVS_LIBRARY") or (beside if os.path.exists(beside) else ctypes.util.find_library("mvs") or "libmvs.so.0")
    library = ctypes.CDLL(path)
    for name, arguments in _FUNCTIONS.items():
        function = getattr(library, name)
        function.argtypes = arguments
        function.restype = None if name == "mvs_free_session" else ctypes.c_uint32
    found = library.mvs_version()
    if found // 1000 != VERSION // 1000 or found < VERSION:
        raise ImportError(f"{path}: its calls have version {found}, and this module needs {VERSION}")
    return library


library = _load()
