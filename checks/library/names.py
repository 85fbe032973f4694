"""Compares the names of the shared library with those of its headers, and calls a service from a language that can't
include a header.

usage: checks/library/names.py PREFIX
"""

import ctypes
import re
import subprocess
import sys

LIKED, SEEN, COUNTED, NO_PAGE = 1, 2, 14, 2**32 - 1


class Options(ctypes.Structure):
    _fields_ = [
        *[("counts", ctypes.c_void_p), ("pages", ctypes.c_size_t)],
        *[("marks", ctypes.c_void_p), ("marks_len", ctypes.c_size_t)],
        *[("lasts", ctypes.c_void_p), ("lasts_len", ctypes.c_size_t)],
        *[(name, ctypes.c_uint32) for name in ("users", "seats", "room", "hot", "period_us", "reserved")],
        ("reserved_too", ctypes.c_uint64 * 5),
    ]


class Answer(ctypes.Structure):
    _fields_ = [("count", ctypes.c_uint64), ("last", ctypes.c_uint32), ("status", ctypes.c_uint32)]


class Statistics(ctypes.Structure):
    _fields_ = [
        *[(name, ctypes.c_uint64) for name in ("phases", "likes", "looks", "waits")],
        *[(name, ctypes.c_uint64) for name in ("wait_time", "longest_wait", "late")],
        ("reserved", ctypes.c_uint64 * 9),
    ]


def hold(is_right, what):
    if not is_right:
        sys.exit(f"wrong: {what}")


def numbers(kind, *values):
    return (kind * len(values))(*values), len(values)


def declared(prefix):
    """The calls that the headers declare, and those that they define."""
    text = ""
    for header in ("likes.h", "likes_service.h"):
        with open(f"{prefix}/include/{header}", encoding="ascii") as file:
            text += file.read()
    calls = set(re.findall(r"^(?!static|typedef)\w[\w *]*?\b(likes_\w+)\(", text, re.M))
    return calls, re.findall(r"^static inline .*?(likes_\w+)\(", text, re.M)


def symbols(*words):
    """The names that nm tells of a file."""
    told = subprocess.run(["nm", *words], check=True, capture_output=True, text=True).stdout
    return {line.split()[-1] for line in told.splitlines() if line and not line.endswith(":")} - {"_init", "_fini"}


def names(prefix):
    """The library has the calls that its headers declare, and nothing else: in the shared one all is hidden but these,
    and in the archive local."""
    calls, inline = declared(prefix)
    hold(len(inline) == 1, f"the headers define {inline}")
    for kind, file in (("-D", "liblikes.so"), ("-g", "liblikes.a")):
        found = symbols(kind, "--defined-only", f"{prefix}/lib/{file}")
        hold(found == calls, f"{file} has {sorted(found ^ calls)}")


def calls(prefix):
    library = ctypes.CDLL(f"{prefix}/lib/liblikes.so")
    service, answer, told = ctypes.c_void_p(), Answer(), Statistics()
    counts, pages = numbers(ctypes.c_uint64, 10, 20)
    marks, marked = numbers(ctypes.c_uint32, 0)
    lasts, users = numbers(ctypes.c_uint32, *[NO_PAGE] * 4)
    options = Options(users=4, seats=2)
    options.counts, options.pages = ctypes.addressof(counts), pages
    options.marks, options.marks_len = ctypes.addressof(marks), marked
    status = library.likes_service_open(ctypes.byref(options), ctypes.byref(service))
    hold(status == 0 and service, "no service was opened")
    hold(library.likes_service_like(service, 3, 0) == LIKED, "a like was refused")
    hold(library.likes_service_look(service, 3, 0, ctypes.byref(answer)) == SEEN, "a look was not answered")
    hold((answer.count, answer.last) == (11, 0), "a look shows something else")
    status = library.likes_service_look_within(service, 3, 1, 1000000, ctypes.byref(answer))
    hold(status == SEEN and answer.count == 20, "a look was late")
    status = library.likes_service_snapshot(service, counts, ctypes.c_size_t(pages), lasts, ctypes.c_size_t(users))
    hold(status == COUNTED and [*counts] == [11, 20] and [*lasts] == [NO_PAGE] * 3 + [0], "a snapshot is wrong")
    hold(library.likes_service_statistics(service, ctypes.byref(told)) == 0, "there are no statistics")
    hold((told.likes, told.looks) == (1, 2) and told.phases >= 1, "the statistics are wrong")
    split = (ctypes.c_uint32 * 64)()
    library.likes_service_split_pages.restype = ctypes.c_size_t
    hold(library.likes_service_split_pages(service, split, ctypes.c_size_t(64)) == 1 and split[0] == 0, "other pages")
    library.likes_service_phase.restype = ctypes.c_uint64
    hold(library.likes_service_phase(service) >= told.phases, "the phase fell")
    writer = ctypes.c_void_p()
    hold(library.likes_writer_open(service, ctypes.byref(writer)) == 0 and writer, "no writer was opened")
    hold(library.likes_writer_like(writer, 1, 1) == 0, "a like was not kept")
    hold(library.likes_writer_close(writer) == 0, "a writer was not closed")
    status = library.likes_service_stop(service, counts, ctypes.c_size_t(pages))
    hold(status == 0 and [*counts] == [11, 21], "the totals are wrong")
    library.likes_service_close(service)


names(sys.argv[1])
calls(sys.argv[1])
print("all names and calls are right")
