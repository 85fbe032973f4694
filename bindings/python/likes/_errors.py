"""What is raised."""

import os
from ctypes import get_errno
from typing import Any, Tuple, Type

from ._library import Path
from ._statuses import FIRST_ERROR, STATUSES, Status


class Refused(Exception):
    """A call was answered by this status of likes.h."""

    def __init__(self, status: int) -> None:
        self.status = Status(status)
        super().__init__(self.status.text)

    # An exception is copied by a call with its arguments, the text here. So pickle, and pools of processes.
    def __reduce__(self) -> Tuple[Type["Refused"], Tuple[int]]:
        return Refused, (int(self.status),)


class Closed(Exception):
    """A call of something that is closed."""

    def __init__(self) -> None:
        super().__init__("closed")

    def __reduce__(self) -> Tuple[Type["Closed"], Tuple[()]]:
        return Closed, ()


def refuse_again(lock: Any, what: str) -> None:
    """Refuses a signal handler a call that would wait for the one in whose middle it is."""
    if lock._is_owned():
        raise RuntimeError(f"this thread {what}")


def outcome(number: int) -> Status:
    """An outcome as a Status. An error is raised."""
    if number >= FIRST_ERROR:
        raise Refused(number)
    return STATUSES[number]


def check(number: int, wanted: Status) -> None:
    """Raises a status that isn't the one that is wanted."""
    if number == wanted:
        return
    if number in (Status.NOT_STARTED, Status.STOPPED):
        raise Closed
    raise Refused(number)


def lock_fault(number: int) -> int:
    """Why a seat can't be locked, where nothing is wrong with it: C has no memory for the thread."""
    return Status.NO_MEMORY if number == Status.OK else number


def check_file(number: int, path: Path) -> None:
    """Raises a status of a call that reads or writes a file, but OK."""
    if number == Status.FILE_FAULT:
        raise OSError(get_errno(), os.strerror(get_errno()), os.fspath(path))
    check(number, Status.OK)
