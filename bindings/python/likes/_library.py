"""The library by ctypes: its structures and its calls."""

import ctypes
import operator
import os
from ctypes import POINTER, Structure, c_bool, c_char_p, c_size_t, c_uint32, c_uint64, c_void_p
from functools import lru_cache
from typing import Any, NoReturn, Optional, Sequence, Union

from ._statuses import MAX_PERIOD_US, NO_HOT, NO_PAGE

VERSION = 6  # LIKES_VERSION of the likes.h that this package is written for
SHARED = "liblikes.so.0.6"
MOST = 2**32 - 1
MOST_64 = 2**64 - 1

Path = Union[str, "os.PathLike[str]"]


class Handle(Structure):
    """Of a seat or a phase."""

    _fields_ = [("at", c_void_p)]


class DriverHandle(Structure):
    _fields_ = [("at", c_void_p), ("seats", c_uint64)]


class Options(Structure):
    _fields_ = [
        ("counts", POINTER(c_uint64)),
        ("pages", c_size_t),
        ("marks", POINTER(c_uint32)),
        ("marks_len", c_size_t),
        ("lasts", POINTER(c_uint32)),
        ("lasts_len", c_size_t),
        *((name, c_uint32) for name in ("users", "seats", "room", "hot", "period_us", "reserved")),
        ("reserved_too", c_uint64 * 5),
    ]


class Request(Structure):
    _fields_ = [("tag", c_uint64), *((name, c_uint32) for name in ("user", "page", "op", "reserved"))]


class Answer(Structure):
    _fields_ = [("count", c_uint64), ("last", c_uint32), ("status", c_uint32)]


class FoundLook(Structure):
    _fields_ = [
        *((name, c_uint64) for name in ("tag", "count", "asked", "ran")),
        *((name, c_uint32) for name in ("user", "page", "last", "reserved")),
    ]


class Statistics(Structure):
    _fields_ = [
        *((name, c_uint64) for name in ("phases", "likes", "looks", "waits", "wait_time", "longest_wait", "late")),
        ("reserved", c_uint64 * 9),
    ]


HANDLE, COUNTS, PAGES = c_void_p, POINTER(c_uint64), POINTER(c_uint32)

# What each call takes and gives.
CALLS: Any = {
    "version": ([], c_uint32),
    "status_text": ([c_uint32], c_char_p),
    "seat_of": ([c_uint32, c_uint32], c_uint32),
    "open": ([POINTER(Options), HANDLE], c_uint32),
    "driver_seats": ([HANDLE], c_uint32),
    "driver_take_seat": ([HANDLE, HANDLE], c_uint32),
    "driver_take_phase": ([HANDLE, HANDLE], c_uint32),
    "driver_turn": ([HANDLE, c_uint32], c_uint32),
    "driver_phase": ([HANDLE], c_uint64),
    "driver_snapshot": ([HANDLE, c_uint32, COUNTS, c_size_t], c_uint32),
    "driver_last_counts": ([HANDLE, c_uint32, COUNTS, c_size_t], c_uint32),
    "driver_split_pages": ([HANDLE, PAGES, c_size_t], c_size_t),
    "driver_propose": ([HANDLE, PAGES, c_size_t], c_uint32),
    "driver_free": ([HANDLE], None),
    "seat_like": ([HANDLE, c_uint32, c_uint32], c_uint32),
    "seat_look": ([HANDLE, c_uint32, c_uint32, c_uint64, POINTER(Answer)], c_uint32),
    "seat_glance": ([HANDLE, c_uint32, c_uint32, POINTER(Answer)], c_uint32),
    "seat_run": ([HANDLE, c_void_p, c_size_t, c_void_p, c_size_t], c_size_t),
    "seat_take_found": ([HANDLE, POINTER(FoundLook)], c_bool),
    "seat_last": ([HANDLE, c_uint32, PAGES], c_uint32),
    "seat_lasts": ([HANDLE, c_uint32, PAGES, c_size_t], c_uint32),
    "seat_turn": ([HANDLE], c_uint32),
    "seat_retire": ([HANDLE], c_uint32),
    "seat_come_back": ([HANDLE], c_uint32),
    "seat_phase": ([HANDLE], c_uint64),
    "seat_free": ([HANDLE], None),
    "phase_now": ([HANDLE], c_uint64),
    "phase_free": ([HANDLE], None),
    "service_open": ([POINTER(Options), POINTER(HANDLE)], c_uint32),
    "service_load": ([c_char_p, POINTER(Options), POINTER(HANDLE)], c_uint32),
    "service_save": ([HANDLE, c_char_p], c_uint32),
    "service_seats": ([HANDLE], c_uint32),
    "service_pages": ([HANDLE], c_size_t),
    "service_users": ([HANDLE], c_uint32),
    "service_close": ([HANDLE], c_uint32),
    "service_fault": ([HANDLE], c_uint32),
    "service_seat_fault": ([HANDLE, c_uint32], c_uint32),
    "service_like": ([HANDLE, c_uint32, c_uint32], c_uint32),
    "service_look": ([HANDLE, c_uint32, c_uint32, POINTER(Answer)], c_uint32),
    "service_look_within": ([HANDLE, c_uint32, c_uint32, c_uint32, POINTER(Answer)], c_uint32),
    "service_glance": ([HANDLE, c_uint32, c_uint32, POINTER(Answer)], c_uint32),
    "service_last": ([HANDLE, c_uint32, PAGES], c_uint32),
    "service_lasts": ([HANDLE, PAGES, c_size_t], c_uint32),
    "service_counts": ([HANDLE, COUNTS, c_size_t], c_uint32),
    "service_snapshot": ([HANDLE, COUNTS, c_size_t, PAGES, c_size_t], c_uint32),
    "service_phase": ([HANDLE], c_uint64),
    "service_statistics": ([HANDLE, POINTER(Statistics)], c_uint32),
    "service_propose": ([HANDLE, PAGES, c_size_t], c_uint32),
    "service_split_pages": ([HANDLE, PAGES, c_size_t], c_size_t),
    "service_lock": ([HANDLE, c_uint32], c_void_p),
    "service_unlock": ([HANDLE, c_uint32], None),
    "service_run": ([HANDLE, c_uint32, c_void_p, c_size_t, c_void_p], c_size_t),
    "service_take_found": ([HANDLE, c_uint32, POINTER(FoundLook)], c_bool),
    "seat_take_all_found": ([HANDLE, POINTER(FoundLook), c_size_t], c_size_t),
    "service_drive": ([HANDLE], c_uint32),
    "service_tick": ([HANDLE], None),
    "service_seat_turns": ([HANDLE], None),
    "service_retire_seat": ([HANDLE, c_uint32], c_uint32),
    "service_bring_back_seat": ([HANDLE, c_uint32], c_uint32),
    "service_retire": ([HANDLE], c_uint32),
    "service_stop": ([HANDLE, COUNTS, c_size_t], c_uint32),
    "writer_open": ([HANDLE, POINTER(HANDLE)], c_uint32),
    "writer_like": ([HANDLE, c_uint32, c_uint32], c_uint32),
    "writer_look": ([HANDLE, c_uint32, c_uint32, POINTER(Answer)], c_uint32),
    "writer_flush": ([HANDLE], c_uint32),
    "writer_drop": ([HANDLE], c_size_t),
    "writer_close": ([HANDLE], c_uint32),
}

# Calls that never wait. They keep the lock of the interpreter, so that a thread with a seat gives it back at once.
QUICK = ("service_unlock", "service_take_found")

# Calls after which errno says why.
FILES = ("service_load", "service_save")


@lru_cache(maxsize=None)
def load() -> Any:
    """The library: the file that LIKES_LIBRARY names, or the one of this version."""
    path = os.environ.get("LIKES_LIBRARY", SHARED)
    library, quick, files = ctypes.CDLL(path), ctypes.PyDLL(path), ctypes.CDLL(path, use_errno=True)
    # First: another version may lack calls.
    if library.likes_version() != VERSION:
        raise ImportError(f"the library is version {library.likes_version()}, and this package is for {VERSION}")
    for name, (takes, gives) in CALLS.items():
        call = getattr(quick if name in QUICK else files if name in FILES else library, f"likes_{name}")
        call.argtypes, call.restype = takes, gives
        setattr(library, f"likes_{name}", call)
    return library


def whole(name: str, value: Any, most: int = MOST) -> int:
    """A whole number that C can hold, with its name for errors."""
    number = operator.index(value)
    if not 0 <= number <= most:
        raise ValueError(f"{name} {number} is not from 0 to {most}")
    return number


def row_of(name: str, values: Sequence[Any]) -> Any:
    """An array of page numbers, with a place more."""
    return (c_uint32 * (len(values) + 1))(*(whole(name, value) for value in values))


def path_of(path: Path) -> bytes:
    """A path for C, which would take what is before a byte 0 for the whole of it."""
    name = os.fsencode(path)
    if b"\0" in name:
        raise ValueError("embedded null byte")
    return name


def last_of(page: int) -> Optional[int]:
    """The page of a last like, or None."""
    return None if page == NO_PAGE else page


def number_of(last: Optional[int]) -> int:
    """The number for C of a last like's page, or of none."""
    return NO_PAGE if last is None else last


def microseconds(name: str, seconds: float, most: int) -> int:
    """A time for C."""
    if not seconds >= 0:
        raise ValueError(f"{name} {seconds} is below 0")
    return int(min(seconds * 1000000, most))


def given(name: str, number: Optional[int], wrong: int = MOST) -> int:
    """A number for C, where 0 is the default. Here that is None, and 0 is a wrong number."""
    return 0 if number is None else whole(name, number) or wrong


class Single:
    """What C has once. It can't be copied or pickled: the end of a copy would be its end, too."""

    def __reduce__(self) -> NoReturn:
        raise TypeError(f"cannot copy or pickle a {type(self).__name__}")


class Opening:
    """What a service is opened with, for C."""

    def __init__(
        self,
        counts: Sequence[int],
        users: int,
        seats: Optional[int],
        room: Optional[int],
        hot: Optional[int],
        marks: Sequence[int],
        lasts: Optional[Sequence[Optional[int]]],
        period: Optional[float],
    ) -> None:
        lasts = () if lasts is None else lasts
        row = (c_uint64 * (len(counts) + 1))(*(whole("count", it, MOST_64) for it in counts))
        marked, last = row_of("mark", marks), row_of("last like", [number_of(it) for it in lasts])
        if period is not None and not period > 0:
            raise ValueError(f"period {period} is not over 0")
        self.options = Options(
            counts=row,
            pages=len(counts),
            marks=marked if len(marks) > 0 else None,  # C refuses an array without a length
            marks_len=len(marks),
            lasts=last if len(lasts) > 0 else None,
            lasts_len=len(lasts),
            users=whole("users", users),
            seats=given("seats", seats),
            room=given("room", room),
            hot=given("hot", hot, NO_HOT - 1),
            period_us=0 if period is None else max(1, microseconds("period", period, MAX_PERIOD_US + 1)),
        )
