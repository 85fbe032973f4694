"""A service that threads share, and its writers, over likes_service.h.

A call from Python takes about a microsecond by itself. Other threads run meanwhile.
"""

import itertools
import os
import sys
import threading
import time
import warnings
import weakref
from ctypes import byref, c_uint32, c_uint64, c_void_p
from types import TracebackType
from typing import Any, List, NamedTuple, Optional, Sequence, Set, Type

from ._errors import Closed, Refused, check, check_file, lock_fault, refuse_again
from ._library import MOST, Answer, FoundLook, Opening, Path, Single
from ._library import Statistics as StatisticsOfC
from ._library import last_of, load, microseconds, path_of, row_of, whole
from ._pool import LEAST, Pool
from ._rows import Asked, Row, Seen, Shown, Told, seen, shown
from ._statuses import MAX_SPLIT, Status

# How long `run` sleeps between two looks for answers, in seconds.
PAUSE = 0.0001

OK = int(Status.OK)


class Moment(NamedTuple):
    """The counts of all pages, and the page of each user's last like, or None, at one moment. Another service that is
    opened with them goes on from there."""

    counts: List[int]
    lasts: List[Optional[int]]


class Statistics(NamedTuple):
    """What a service has done so far: how many phases have ended, likes were counted, single looks were answered, of
    these had to wait, and looks had no answer in time. How long looks waited in all and one of them at most, in
    seconds."""

    phases: int
    likes: int
    looks: int
    waits: int
    late: int
    wait_time: float
    longest_wait: float


class Calls:
    """The calls that have begun, so that an end waits for them. Each thread has a lock, and holds it in a call. `with`
    gives a lock in C back whatever a signal handler raises. A lock in Python, as a Condition, may stay taken."""

    def __init__(self) -> None:
        self._own, self._is_shut = threading.local(), False
        self._locks: Set[Any] = set()  # weak, since threads end

    def own(self) -> Any:
        """The lock of this thread. A signal handler may take it again, in the middle of a call."""
        lock = getattr(self._own, "lock", None)
        if lock is None:
            lock = threading.RLock()
            # First here: an end has to know of each lock that is held.
            self._locks.add(weakref.ref(lock, self._locks.discard))
            self._own.lock = lock
        return lock

    def check(self) -> None:
        """With its lock held, a thread asks whether it may call."""
        if self._is_shut:
            raise Closed

    def shut(self) -> None:
        """Keeps new calls out."""
        self._is_shut = True

    def wait(self) -> None:
        """Waits for those that had begun when it was shut."""
        for lock in [it() for it in list(self._locks)]:
            if lock is not None:
                with lock:
                    pass


class Likes(Single):
    """A service. Any thread may call it.

    What isn't given has the default of likes.h; with NO_HOT as hot, no page gets hot by itself. marks has the numbers
    of the pages that are split in every split phase. period is the time from the end of one split phase to that of the
    next, in seconds. lasts has the page of each user's last like, or None; if it is None or empty, nobody has one. With
    the Moment of another service, a service goes on from there.

    A service that nobody has any more, nor a writer or a pool of it, is ended.
    """

    def __init__(
        self,
        counts: Sequence[int],
        users: int,
        seats: Optional[int] = None,
        room: Optional[int] = None,
        hot: Optional[int] = None,
        marks: Sequence[int] = (),
        period: Optional[float] = None,
        lasts: Optional[Sequence[Optional[int]]] = None,
    ) -> None:
        self._prepare()
        opening = Opening(counts, users, seats, room, hot, marks, lasts, period)
        check(self._library.likes_service_open(opening.options, byref(self._at)), Status.OK)
        self._begin(period)

    @classmethod
    def load(
        cls,
        path: Path,
        users: int = 0,
        pages: int = 0,
        seats: Optional[int] = None,
        room: Optional[int] = None,
        hot: Optional[int] = None,
        marks: Sequence[int] = (),
        period: Optional[float] = None,
    ) -> "Likes":
        """Opens a service that goes on from a file of `save`, with as many users and pages or more: 0 is as many. A file
        that can't be read is an OSError. Another or a changed one is refused: NOT_SAVED, OTHER_VERSION, WRONG_SIZE,
        WRONG_SUM, and WRONG_LENGTH where there would be fewer users or pages."""
        service = cls.__new__(cls)
        service._prepare()
        opening = Opening((), users, seats, room, hot, marks, None, period)
        opening.options.counts, opening.options.pages = None, whole("pages", pages)
        check_file(service._library.likes_service_load(path_of(path), opening.options, byref(service._at)), path)
        service._begin(period)
        return service

    def _prepare(self) -> None:
        """What it has before it is opened."""
        self._process, self._has_begun = os.getpid(), False
        self._library, self._at, self._end = load(), c_void_p(), None  # type: Any, Any, Optional[Moment]
        self._calls, self._ending, self._runs = Calls(), threading.RLock(), itertools.count()
        self._opening, self._writers = threading.RLock(), set()  # type: Any, Set[Kept]
        # The arrays of the last moment, the last statistics, and what the calls of the end have answered.
        self._arrays, self._ended, self._ends = None, StatisticsOfC(), []  # type: Any, StatisticsOfC, List[int]

    def _begin(self, period: Optional[float]) -> None:
        """Once it is opened."""
        self._period = LEAST if period is None else float(period)
        self._pages = int(self._library.likes_service_pages(self._at))
        self._users = int(self._library.likes_service_users(self._at))
        self._seats = int(self._library.likes_service_seats(self._at))
        self._rows = [threading.RLock() for _ in range(self._seats)]
        self._has_begun = True

    def __del__(self) -> None:
        if getattr(self, "_has_begun", False) and is_whole(self._process):
            for kept in list(self._writers):
                kept.is_dropped = True
            self.stop()

    def __enter__(self) -> "Likes":
        return self

    def __exit__(
        self, kind: Optional[Type[BaseException]], error: Optional[BaseException], trace: Optional[TracebackType]
    ) -> None:
        try:
            self.close()
        except Refused as why:
            # An error in the block is the one that comes out.
            if error is None:
                raise
            warnings.warn(f"a service stays open: {why}", RuntimeWarning, stacklevel=2)

    def _call(self, call: Any, *words: Any) -> Any:
        with self._calls.own():
            self._calls.check()
            return call(self._at, *words)

    @property
    def seats(self) -> int:
        """How many seats there are. User u belongs to seat u % seats."""
        return self._seats

    def like(self, user: int, page: int) -> None:
        """Adds one like."""
        user, page = whole("user", user), whole("page", page)
        check(self._call(self._library.likes_service_like, user, page), Status.LIKED)

    def look(self, user: int, page: int) -> Seen:
        """The page of the user's last like, or None, and the exact count. It may take about a phase."""
        answer = Answer()
        user, page = whole("user", user), whole("page", page)
        check(self._call(self._library.likes_service_look, user, page, byref(answer)), Status.SEEN)
        return seen(answer)

    def look_within(self, user: int, page: int, seconds: float) -> Optional[Seen]:
        """Looks as `look` does, within a time limit, after which it is None."""
        answer, limit = Answer(), microseconds("seconds", seconds, MOST)
        user, page = whole("user", user), whole("page", page)
        status = self._call(self._library.likes_service_look_within, user, page, limit, byref(answer))
        if status == Status.LATE:
            return None
        check(status, Status.SEEN)
        return seen(answer)

    def glance(self, user: int, page: int) -> Shown:
        """Looks at once: Seen, or Glimpsed where the page is split, so that other seats' likes of the present phase may
        be missing."""
        answer = Answer()
        user, page = whole("user", user), whole("page", page)
        status = self._call(self._library.likes_service_glance, user, page, byref(answer))
        if status != Status.GLIMPSED:
            check(status, Status.SEEN)
        return shown(answer)

    def writer(self) -> "Writer":
        """Opens a writer, for a thread's likes. It is closed before the service."""
        writer = Writer(self, Kept(self._writers))
        try:
            refuse_again(self._opening, "ends the service, or opens a writer")
            # Before an end has seen which writers are open, or after new calls are kept out.
            with self._opening:
                check(self._call(self._library.likes_writer_open, byref(writer._at)), Status.OK)
        except BaseException:
            writer.close()
            raise
        return writer

    def pool(self) -> Pool:
        """Opens a pool of writers, for likes of any threads. It is closed before the service."""
        return Pool(self, self._period)

    def run(self, number: int, requests: Sequence[Asked]) -> List[Told]:
        """Runs rows of (op, user, page) at a seat. Gives an answer for each: for a look what it shows, for a like
        LIKED, and the Status of a request that is refused."""
        # Tags are below 2^63, and no two rows have the same: found looks of a row that was given up stay at the seat.
        row, told = Row(requests, next(self._runs) % 2**31 << 32), []  # type: Row, List[Told]
        with self._calls.own():
            self._calls.check()
            number = whole("seat", number, self._seats - 1)
            # Else it would take what was found of the row that it is in.
            refuse_again(self._rows[number], "runs a row at the seat")
            with self._rows[number]:
                while not self._run_on(number, row, told):
                    self._library.likes_service_drive(self._at)
                    time.sleep(PAUSE)
        return told

    def _run_on(self, number: int, row: Row, told: List[Told]) -> bool:
        """Runs what is left of a row, and takes what was found. Whether all is answered."""
        library, at, found, looks = self._library, self._at, FoundLook(), []
        # To unlock a seat that isn't held does nothing. So the lock is taken in here, where no exception can keep it.
        try:
            if not library.likes_service_lock(at, number):
                raise Refused(lock_fault(library.likes_service_seat_fault(at, number)))
            done = library.likes_service_run(at, number, *row.left()[:3])
            while library.likes_service_take_found(at, number, byref(found)):
                looks.append((found.tag, seen(found)))
        finally:
            library.likes_service_unlock(at, number)
        told += row.note(done)
        for tag, shown in looks:
            place = tag - row.first
            if 0 <= place < row.length:
                told[place] = shown
                row.waits -= 1
        return row.done == row.length and row.waits == 0

    def last(self, user: int) -> Optional[int]:
        """The page of the user's last like, or None."""
        page = c_uint32()
        check(self._call(self._library.likes_service_last, whole("user", user), byref(page)), Status.OK)
        return last_of(page.value)

    def lasts(self) -> List[Optional[int]]:
        """The page of each user's last like, or None. Those of one seat are of one moment."""
        lasts = (c_uint32 * self._users)()
        check(self._call(self._library.likes_service_lasts, lasts, self._users), Status.OK)
        return [last_of(page) for page in lasts]

    def counts(self) -> List[int]:
        """The counts of all pages at one moment, the end of a joined phase."""
        counts = (c_uint64 * self._pages)()
        check(self._call(self._library.likes_service_counts, counts, self._pages), Status.COUNTED)
        return list(counts)

    def snapshot(self) -> Moment:
        """The counts of all pages and all last likes at one moment. Likes and looks wait meanwhile."""
        counts, lasts = (c_uint64 * self._pages)(), (c_uint32 * self._users)()
        words = (counts, self._pages, lasts, self._users)
        check(self._call(self._library.likes_service_snapshot, *words), Status.COUNTED)
        return Moment(list(counts), [last_of(page) for page in lasts])

    def save(self, path: Path) -> None:
        """Saves such a moment to a file. After a crash there is the old file or the new one. An OSError says why it
        can't be written."""
        check_file(self._call(self._library.likes_service_save, path_of(path)), path)

    def statistics(self) -> Statistics:
        """What the service has done so far, also once it has ended."""
        told = StatisticsOfC()
        try:
            check(self._call(self._library.likes_service_statistics, byref(told)), Status.OK)
        except Closed:
            self.stop()  # it has begun: this waits for it
            told = self._ended
        numbers = (told.phases, told.likes, told.looks, told.waits, told.late)
        return Statistics(*numbers, told.wait_time / 1e9, told.longest_wait / 1e9)

    def phase(self) -> int:
        """The phase that was last released."""
        return int(self._call(self._library.likes_service_phase))

    def propose(self, pages: Sequence[int]) -> None:
        """Proposes pages to be split, the first 64, in place of those that the library finds by itself. If there are
        none, it finds them again."""
        row = row_of("page", pages)
        check(self._call(self._library.likes_service_propose, row, len(pages)), Status.OK)

    def split_pages(self) -> List[int]:
        """The pages that are split in the present split phase, or were in the last one."""
        pages = (c_uint32 * MAX_SPLIT)()
        told = self._call(self._library.likes_service_split_pages, pages, MAX_SPLIT)
        return list(pages[:told])

    def tick(self) -> None:
        """Does what is due for the phases. A busy thread may call it now and then: then no phase waits until the
        service's thread gets a processor."""
        self._call(self._library.likes_service_tick)

    def retire_seat(self, number: int) -> None:
        """Has a seat leave, in a few phases. Then likes and looks of its users are refused: GONE."""
        check(self._call(self._library.likes_service_retire_seat, whole("seat", number)), Status.OK)

    def bring_back_seat(self, number: int) -> None:
        """Brings a seat back that has left."""
        check(self._call(self._library.likes_service_bring_back_seat, whole("seat", number)), Status.OK)

    def stop(self) -> Moment:
        """Ends the service, and gives its last moment, each time the same. It waits for calls that have begun, and
        later ones but `statistics` raise Closed. Where a writer is open it raises Refused, with OPEN_WRITER, and
        nothing is done. A signal handler in the middle of a call can't end the service: RuntimeError."""
        # Before it waits for anything, which could wait for that call.
        refuse_again(self._calls.own(), "is in a call of the service")
        refuse_again(self._ending, "ends the service")
        with self._ending:
            if self._end is None:
                self._shut()
                self._calls.wait()
                # Now no seat comes back any more.
                for kept in list(self._writers):
                    kept.end_dropped()
                self._end, self._arrays = self._last_moment(), None
            return self._end

    def _shut(self) -> None:
        """Keeps new calls out. Where a writer is open, it disturbs none."""
        with self._opening:
            if any(kept.is_open() and not kept.is_dropped for kept in list(self._writers)):
                raise Refused(Status.OPEN_WRITER)
            self._calls.shut()

    def _last_moment(self) -> Moment:
        """Makes the calls that end the service. None is refused, unless there is no memory. After an exception, also of
        a signal handler, the next end goes on with the next of them, so it frees nothing twice: a call is made and
        noted in one step of C."""
        if self._arrays is None:
            self._arrays = (c_uint64 * self._pages)(), (c_uint32 * self._users)()
        library, at, (counts, lasts) = self._library, self._at, self._arrays
        steps = [
            (library.likes_service_retire, (at,)),
            (library.likes_service_lasts, (at, lasts, self._users)),
            (library.likes_service_stop, (at, counts, self._pages)),
            (library.likes_service_statistics, (at, byref(self._ended))),
            (library.likes_service_close, (at,)),
        ]
        for call, words in steps[len(self._ends) :]:
            self._ends.extend(itertools.starmap(call, [words]))
            if self._ends[-1] != OK:
                raise Refused(self._ends.pop())
        return Moment(list(counts), [last_of(page) for page in lasts])

    def close(self) -> None:
        """Ends the service. It may be called again."""
        self.stop()


def is_whole(process: int) -> bool:
    """Whether what is dropped may wait. In the child of a fork, and at the end of the program, other threads may never
    give back what it waits for."""
    return process == os.getpid() and not sys.is_finalizing()


class Kept:
    """A writer as C has it. Its service knows it until it is closed, also if nobody has its Writer any more."""

    def __init__(self, writers: Set["Kept"]) -> None:
        self.library, self.at, self.lock = load(), c_void_p(), threading.RLock()
        self.ends: List[int] = []  # what the last close has answered
        self.is_dropped, self._process = False, os.getpid()
        self._writers = writers  # those of the service that may be open
        writers.add(self)

    def is_open(self) -> bool:
        return bool(self.at) and OK not in self.ends

    def close(self) -> None:
        """Flushes the writer and ends it, or raises why likes stay kept."""
        refuse_again(self.lock, "is in a call of the writer")
        self.end()

    def end(self) -> None:
        """The same, for a thread that may have its lock."""
        with self.lock:
            if OK not in self.ends:
                # Made and noted in one step of C: no exception gets in between, so nothing is freed twice.
                self.ends[:] = map(self.library.likes_writer_close, (self.at,))
            check(self.ends[0], Status.OK)
            self._writers.discard(self)

    def drop(self) -> None:
        """Nobody has its Writer any more: it is flushed, or the end of the service tries again."""
        self.is_dropped = True
        if self.is_open() and is_whole(self._process):
            try:
                self.close()
            except Refused:
                pass

    def end_dropped(self) -> None:
        """Ends it at the end of its service, if nobody has its Writer any more. Likes that nobody counts are told."""
        if not self.is_dropped:
            return
        try:
            self.close()
        except Refused as why:
            with self.lock:
                lost = self.library.likes_writer_drop(self.at)
            self.close()
            warnings.warn(f"{lost} likes of a writer that wasn't closed are lost: {why}", RuntimeWarning, stacklevel=3)


class Writer(Single):
    """Likes of a thread, which it keeps in rows and hands over as a whole. Calls by several threads wait for each
    other.

    Others see a like once its row of 64 is full, by a call about a period after the row was begun, or by flush, look
    and close. Without calls there is no bound in time, so a thread flushes before it rests. Likes of a user by one
    writer are counted in their order.

    A writer that nobody has any more is flushed and ended. What a seat doesn't take then is handed over at the end of
    the service, or lost with a RuntimeWarning.
    """

    def __init__(self, service: Likes, kept: Kept) -> None:
        self._service: Optional[Likes] = service  # it doesn't end before its writers
        self._kept, self._library, self._lock = kept, kept.library, kept.lock
        self._at, self._ends = kept.at, kept.ends

    def __del__(self) -> None:
        self._kept.drop()

    def __enter__(self) -> "Writer":
        return self

    def __exit__(
        self, kind: Optional[Type[BaseException]], error: Optional[BaseException], trace: Optional[TracebackType]
    ) -> None:
        try:
            self.close()
        except Refused as why:
            # An error in the block is the one that comes out.
            if error is None:
                raise
            warnings.warn(f"a writer stays open: {why}", RuntimeWarning, stacklevel=2)

    def _call(self, call: Any, *words: Any) -> Any:
        with self._lock:
            return call(None if OK in self._ends else self._at, *words)

    def like(self, user: int, page: int) -> None:
        """Keeps a like, which will be counted. Refused with GONE or LIKE_LIMIT, it isn't kept: 64 likes are, for a seat
        that doesn't take them."""
        user, page = whole("user", user), whole("page", page)
        with self._lock:  # as _call, which takes longer
            at = None if OK in self._ends else self._at
            check(self._library.likes_writer_like(at, user, page), Status.OK)

    def look(self, user: int, page: int) -> Seen:
        """Hands over the likes of the user's seat and all rows with likes of the page, and looks. So it shows all that
        this writer was told before. Refused with GONE or LIKE_LIMIT, likes that it would show stay kept."""
        answer = Answer()
        user, page = whole("user", user), whole("page", page)
        check(self._call(self._library.likes_writer_look, user, page, byref(answer)), Status.SEEN)
        return seen(answer)

    def flush(self) -> None:
        """Hands over all likes: each is counted. Refused with GONE or LIKE_LIMIT, those of seats that don't take them
        stay kept."""
        check(self._call(self._library.likes_writer_flush), Status.OK)

    def drop(self) -> int:
        """Forgets the likes that are kept, and gives their number. They are not counted."""
        return int(self._call(self._library.likes_writer_drop))

    def close(self) -> None:
        """Flushes the writer and ends it. Where likes stay kept it raises what flush does, and stays open. It may be
        called again. A signal handler in the middle of a call of the writer can't end it: RuntimeError."""
        self._kept.close()
