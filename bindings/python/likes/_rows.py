"""Rows of requests."""

import struct
from ctypes import byref
from dataclasses import dataclass
from typing import Any, List, NamedTuple, Optional, Sequence, Tuple, Union

from ._library import Answer, Request, last_of, whole
from ._statuses import STATUSES, Status

# A Request from a tag, a user, a page and an op; a count, a last like and a status from an Answer.
REQUEST, ANSWER = struct.Struct("=QIII4x"), struct.Struct("=QII")

SEEN, GLIMPSED, WAITS = int(Status.SEEN), int(Status.GLIMPSED), int(Status.WAITS)

# An op, a user and a page.
Asked = Tuple[int, int, int]


class Seen(NamedTuple):
    """What a look shows: the page of the user's last like, or None, and the count."""

    last: Optional[int]
    count: int  # type: ignore[assignment]  # in place of the method of tuples


@dataclass(frozen=True)
class Glimpsed:
    """What a glance shows where the page is split: the same, but the count may lack other seats' likes of the present
    phase."""

    last: Optional[int]
    count: int


# What a glance shows: the exact count, or one that may lack likes.
Shown = Union[Seen, Glimpsed]

# What a request was answered. A Status may be an error here.
Told = Union[Seen, Glimpsed, Status]


def seen(look: Any) -> Seen:
    """What an answer or a found look shows."""
    return Seen(last_of(look.last), look.count)


def shown(glance: Any) -> Shown:
    """What the answer to a glance shows."""
    return Glimpsed(last_of(glance.last), glance.count) if glance.status == GLIMPSED else seen(glance)


def _told(last: int, count: int, status: int) -> Told:
    if status == SEEN:
        return Seen(last_of(last), count)
    return Glimpsed(last_of(last), count) if status == GLIMPSED else STATUSES[status]


class Row:
    """A row of requests, of which some are done, and of these some wait. Tags are numbered from `first` on."""

    def __init__(self, requests: Sequence[Asked], first: int = 0) -> None:
        self.first, self.length, self.done, self.waits = first, len(requests), 0, 0
        self.rows, self.answers = (Request * self.length)(), (Answer * self.length)()
        for place, (op, user, page) in enumerate(requests):
            self.put(place, op, user, page)

    def put(self, place: int, op: int, user: int, page: int) -> None:
        try:
            REQUEST.pack_into(self.rows, place * REQUEST.size, self.first + place, user, page, op)
        except struct.error:
            for name, value in (("op", op), ("user", user), ("page", page)):
                whole(name, value)
            raise

    def left(self) -> Tuple[Any, int, Any, int]:
        """What is left of it: the requests and places for their answers, as C takes them."""
        length = self.length - self.done
        rows, room = byref(self.rows, self.done * REQUEST.size), byref(self.answers, self.done * ANSWER.size)
        return rows, length, room, length

    def note(self, done: int) -> List[Told]:
        """Notes that so many were done, and gives their answers."""
        first, self.done = self.done, self.done + done
        answers = memoryview(self.answers).cast("B")[first * ANSWER.size : self.done * ANSWER.size]
        told: List[Told] = []
        for count, last, status in ANSWER.iter_unpack(answers):
            told.append(_told(last, count, status))
            self.waits += status == WAITS
        return told

    def stopped(self) -> Optional[Status]:
        """Why it stopped before its end: BETWEEN or NO_ROOM."""
        return STATUSES[self.answers[self.done].status] if self.done < self.length else None
