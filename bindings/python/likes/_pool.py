"""Writers that threads share."""

import os
import queue
import threading
import warnings
from contextlib import suppress
from ctypes import byref
from types import TracebackType
from typing import TYPE_CHECKING, List, Optional, Type

from ._errors import Closed, Refused, check, refuse_again
from ._library import Answer, Single, whole
from ._rows import Seen
from ._statuses import NO_PAGE, Status

if TYPE_CHECKING:
    from ._service import Likes, Writer

# How long a pool keeps likes at least, in seconds.
LEAST = 0.001


class Flushing:
    """What the pool's own thread does, which knows nothing of the pool: so that can be dropped."""

    def __init__(self, lanes: "List[Writer]", delay: float) -> None:
        self._lanes, self._delay, self._is_awake = lanes, delay, False
        # Also a signal handler may put something there, in the middle of a call.
        self._calls: "queue.SimpleQueue[bool]" = queue.SimpleQueue()
        threading.Thread(target=self._run, name="likes pool", daemon=True).start()

    def wake(self) -> None:
        """Has it flush in a while."""
        if not self._is_awake:
            self._is_awake = True
            self._calls.put(True)

    def end(self) -> None:
        self._calls.put(False)

    def _goes_on(self) -> bool:
        """Waits until likes are kept, and then a while. False: the pool has ended."""
        is_woken = self._calls.get()
        if is_woken:
            with suppress(queue.Empty):
                return self._calls.get(timeout=self._delay)
        return is_woken

    def _run(self) -> None:
        while self._goes_on():
            self._is_awake = False
            try:
                flush(self._lanes)
            except Refused:
                # A seat has left: its likes stay kept until it is back.
                self.wake()
            except Closed:
                pass


def flush(lanes: "List[Writer]") -> None:
    """Flushes all, and raises why the first one that is refused is."""
    # Not an exception kept until all are flushed: that would keep its frames, and so the pool.
    for told in [writer._call(writer._library.likes_writer_flush) for writer in lanes]:
        check(told, Status.OK)


class Pool(Single):
    """Writers that any thread may use, as in a server with a thread for each request. All likes of a user go through
    the same writer, and are counted in their order. The pool flushes its writers: a like is counted within about a
    period, or a millisecond if that is longer, as long as there is a processor.

    A pool that nobody has any more is ended as its writers are.
    """

    def __init__(self, service: "Likes", period: float) -> None:
        self._service = service
        length = min(4 * (os.cpu_count() or 1), service.seats)
        self._lanes = [service.writer() for _ in range(length)]
        for writer in self._lanes:
            writer._service = None  # the pool has it, and its thread keeps neither
        self._flushing = Flushing(self._lanes, max(period, LEAST))

    def __del__(self) -> None:
        if hasattr(self, "_flushing"):
            # Its thread ends them, or its service, where that ends first.
            for writer in self._lanes:
                writer._kept.is_dropped = True
            self._flushing.end()

    def __enter__(self) -> "Pool":
        return self

    def __exit__(
        self, kind: Optional[Type[BaseException]], error: Optional[BaseException], trace: Optional[TracebackType]
    ) -> None:
        try:
            self.close()
        except Refused as why:
            # An error in the block is the one that comes out.
            if error is None:
                raise
            warnings.warn(f"a pool stays open: {why}", RuntimeWarning, stacklevel=2)

    def _lane(self, user: int) -> "Writer":
        """The writer of a user. Each seat has one."""
        return self._lanes[whole("user", user) % self._service.seats % len(self._lanes)]

    def like(self, user: int, page: int) -> None:
        """Keeps a like, as Writer.like does."""
        self._lane(user).like(user, page)
        self._flushing.wake()

    def look(self, user: int, page: int) -> Seen:
        """What the user liked last, with all likes of the user that the pool was told before, and the exact count."""
        lane, user = self._lane(user), whole("user", user)
        # It hands over the row of the user's seat alone: where another seat has left, this look needn't show its likes.
        # No page has this number, so it shows nothing.
        check(lane._call(lane._library.likes_writer_look, user, NO_PAGE, byref(Answer())), Status.UNKNOWN_PAGE)
        return self._service.look(user, page)

    def flush(self) -> None:
        """Hands over all likes: each is counted. Else it raises the first that Writer.flush does."""
        flush(self._lanes)

    def drop(self) -> int:
        """Forgets the likes that are kept, and gives their number. They are not counted."""
        return sum(writer.drop() for writer in self._lanes)

    def close(self) -> None:
        """Flushes and ends the pool. Where likes stay kept it raises what flush does, and stays open. It may be called
        again. A signal handler in the middle of a call of the pool can't end it: RuntimeError."""
        for writer in self._lanes:
            refuse_again(writer._lock, "is in a call of the pool")
        self._close_with(self._lanes)
        self._flushing.end()

    def _close_with(self, lanes: "List[Writer]") -> None:
        """Closes all writers or none, with the locks of these, so that no like comes in between."""
        if lanes:
            with lanes[0]._lock:
                self._close_with(lanes[1:])
            return
        flush([writer for writer in self._lanes if writer._kept.is_open()])
        for writer in self._lanes:
            writer._kept.end()
