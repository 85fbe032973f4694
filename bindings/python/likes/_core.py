"""The driver, the seats and the phase of likes.h. A driver owns its seats and its phase.

Any thread may make a call. Calls on the same object wait for each other, and other threads run meanwhile.
"""

import threading
from ctypes import byref, c_uint32, c_uint64
from typing import Any, List, NamedTuple, Optional, Sequence, Union

from ._errors import Closed, check, outcome
from ._library import MOST_64, Answer, DriverHandle, FoundLook, Handle, Opening, Single, last_of, load, row_of, whole
from ._rows import Asked, Row, Seen, Told, seen, shown
from ._statuses import MAX_SPLIT, End, Status


class Found(NamedTuple):
    """A look that had to wait: the phases in which it was asked and in which it ran, and what it shows."""

    tag: int
    count: int  # type: ignore[assignment]  # in place of the method of tuples
    asked: int
    ran: int
    user: int
    page: int
    last: Optional[int]


class _Handled(Single):
    """A handle, for one call at a time. A signal handler may make another one in the middle of a call. It is freed once
    nobody has it any more."""

    def __init__(self, handle: Any = None) -> None:
        self._library, self._handle, self._lock = load(), handle or Handle(), threading.RLock()
        self._at = byref(self._handle)

    def _call(self, call: Any, *words: Any) -> Any:
        """Makes a call of the library on the handle, with its lock held."""
        with self._lock:
            if self._handle.at is None:
                raise Closed
            return call(self._at, *words)

    def _end(self, free: Any) -> None:
        with self._lock:
            free(self._at)

    def _free(self) -> None:
        """Gives back what C has of it."""

    def __del__(self) -> None:
        if hasattr(self, "_at"):  # not where there is no library
            self._free()


class Seat(_Handled):
    """A worker. While a phase is ending, each seat that isn't gone is called, by turn if there is nothing else to do: a
    seat that isn't called holds up all others."""

    def __init__(self, users: int) -> None:
        super().__init__()
        self._users = users  # of the driver

    def like(self, user: int, page: int) -> Status:
        """Adds one like: LIKED, BETWEEN, LIKE_LIMIT or GONE."""
        user, page = whole("user", user), whole("page", page)
        return outcome(self._call(self._library.likes_seat_like, user, page))

    def look(self, user: int, page: int, tag: int = 0) -> Union[Seen, Status]:
        """What a look shows, or WAITS, BETWEEN, NO_ROOM or GONE."""
        user, page, tag = whole("user", user), whole("page", page), whole("tag", tag, MOST_64)
        answer = Answer()
        status = outcome(self._call(self._library.likes_seat_look, user, page, tag, byref(answer)))
        return seen(answer) if status == Status.SEEN else status

    def glance(self, user: int, page: int) -> Told:
        """What a look shows, at once: Seen, or Glimpsed where the page is split, so that other seats' likes of the
        present phase may be missing. Or BETWEEN or GONE."""
        user, page = whole("user", user), whole("page", page)
        answer = Answer()
        status = outcome(self._call(self._library.likes_seat_glance, user, page, byref(answer)))
        return shown(answer) if status in (Status.SEEN, Status.GLIMPSED) else status

    def run(self, requests: Sequence[Asked]) -> List[Told]:
        """Runs rows of (op, user, page), and gives the answers: of a request that was refused its Status. A tag is a
        request's place in the row. Where it stops before the end, the last answer is BETWEEN or NO_ROOM."""
        row = Row(requests)
        answers = self._run_on(row)
        stopped = row.stopped()
        return answers if stopped is None else [*answers, stopped]

    def _run_on(self, row: Row) -> List[Told]:
        """Runs what is left of a row, and gives the answers of what was done."""
        return row.note(self._call(self._library.likes_seat_run, *row.left()))

    def take_found(self) -> Optional[Found]:
        """The next found look, in the order of asking, or None."""
        found = FoundLook()
        if not self._call(self._library.likes_seat_take_found, byref(found)):
            return None
        last = last_of(found.last)
        return Found(found.tag, found.count, found.asked, found.ran, found.user, found.page, last)

    def last(self, user: int) -> Optional[int]:
        """The page of a user's last like, or None."""
        user, page = whole("user", user), c_uint32()
        check(self._call(self._library.likes_seat_last, user, byref(page)), Status.OK)
        return last_of(page.value)

    def lasts(self, start: int, length: int) -> List[Optional[int]]:
        """The last likes of the seat's users number start, start + 1 and so on."""
        # More than all would only take memory: the range is wrong in any case.
        start, length = whole("start", start), min(whole("length", length), self._users + 1)
        pages = (c_uint32 * (length + 1))()
        check(self._call(self._library.likes_seat_lasts, start, pages, length), Status.OK)
        return [last_of(page) for page in pages[:length]]

    def turn(self) -> Status:
        """Does what the phase asks of the seat: RUNS, BETWEEN or GONE."""
        return outcome(self._call(self._library.likes_seat_turn))

    def retire(self) -> Status:
        """Leaves, where the seat runs a joined phase: GONE. Else it is turn."""
        return outcome(self._call(self._library.likes_seat_retire))

    def come_back(self) -> Status:
        """Brings a seat back that is gone: RUNS, or BETWEEN where the phase is ending. Of any other seat it is turn."""
        return outcome(self._call(self._library.likes_seat_come_back))

    def phase(self) -> int:
        """The phase that the seat runs or has answered last, and 0 once it is gone."""
        return int(self._call(self._library.likes_seat_phase))

    def _free(self) -> None:
        self._end(self._library.likes_seat_free)


class Phase(_Handled):
    """The phase that a driver has last released."""

    def now(self) -> int:
        """The phase. It may be over by then."""
        return int(self._call(self._library.likes_phase_now))

    def _free(self) -> None:
        self._end(self._library.likes_phase_free)


class Driver(_Handled):
    """The coordinator of a service, which it opens. What isn't given has the default of likes.h; with NO_HOT as hot, no
    page gets hot by itself. marks has the pages that are split in every split phase, and lasts the page of each user's
    last like, or None; if it is None or empty, nobody has one."""

    def __init__(
        self,
        counts: Sequence[int],
        users: int,
        seats: Optional[int] = None,
        room: Optional[int] = None,
        hot: Optional[int] = None,
        marks: Sequence[int] = (),
        lasts: Optional[Sequence[Optional[int]]] = None,
    ) -> None:
        super().__init__(DriverHandle())
        self._owned: List[Any] = []
        opening = Opening(counts, users, seats, room, hot, marks, lasts, None)
        self._pages, self._users = len(counts), int(opening.options.users)
        check(self._library.likes_open(opening.options, self._at), Status.OK)

    def __enter__(self) -> "Driver":
        return self

    def __exit__(self, *_: object) -> None:
        self.close()

    def take_seat(self) -> Optional[Seat]:
        """The next seat, or None if all are taken. A phase changes only when every seat has answered, so take them
        all."""
        seat = Seat(self._users)
        return seat if self._take(self._library.likes_driver_take_seat, seat) else None

    def take_phase(self) -> Optional[Phase]:
        """The phase, once."""
        phase = Phase()
        return phase if self._take(self._library.likes_driver_take_phase, phase) else None

    def _take(self, take: Any, into: _Handled) -> bool:
        is_taken = outcome(self._call(take, into._at)) == Status.OK
        if is_taken:
            self._owned.append(into)
        return is_taken

    def turn(self, end: End = End.NO) -> Status:
        """At most one thing for the phases: GOES_ON, ANNOUNCED, NOT_ALL_IN, RELEASED or ENDED."""
        number = whole("end", end)
        return outcome(self._call(self._library.likes_driver_turn, number))

    def phase(self) -> int:
        """The present phase. Phases with odd numbers are split."""
        return int(self._call(self._library.likes_driver_phase))

    def snapshot(self, start: int = 0, length: Optional[int] = None) -> Optional[List[int]]:
        """The counts of the pages from start on, at the end of a joined phase that every seat has answered; or None."""
        return self._counts(self._library.likes_driver_snapshot, start, length)

    def last_counts(self, start: int = 0, length: Optional[int] = None) -> Optional[List[int]]:
        """The final counts of the pages from start on, where all seats are gone; or None. Then make turns with
        IF_IT_SERVES until ENDED, and try again."""
        return self._counts(self._library.likes_driver_last_counts, start, length)

    def _counts(self, call: Any, start: int, length: Optional[int]) -> Optional[List[int]]:
        start = whole("start", start)
        length = max(0, self._pages - start) if length is None else min(whole("length", length), self._pages + 1)
        counts = (c_uint64 * (length + 1))()
        status = outcome(self._call(call, start, counts, length))
        return list(counts[:length]) if status == Status.COUNTED else None

    def split_pages(self, most: int = MAX_SPLIT) -> List[int]:
        """The pages that are split in the present split phase, or were in the last one."""
        most = min(whole("most", most), MAX_SPLIT)
        pages = (c_uint32 * (most + 1))()
        told = self._call(self._library.likes_driver_split_pages, pages, most)
        return list(pages[:told])

    def propose(self, pages: Sequence[int]) -> None:
        """Proposes pages to be split, the first 64, in place of those that the library finds by itself. If there are
        none, it finds them again."""
        row = row_of("page", pages)
        check(self._call(self._library.likes_driver_propose, row, len(pages)), Status.OK)

    def close(self) -> None:
        """Frees the seats, the phase and the driver."""
        for owned in self._owned:
            owned._free()
        self._free()

    def _free(self) -> None:
        self._end(self._library.likes_driver_free)
