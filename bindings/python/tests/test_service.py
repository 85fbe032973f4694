"""The class Likes and its writers: right calls, wrong ones, calls after the end, services that go on, and threads."""

import copy
import gc
import os
import pickle
import random
import signal
import sys
import tempfile
import threading
import time
import unittest
import warnings
from contextlib import suppress
from fractions import Fraction
from pathlib import Path
from typing import Any, Callable, Dict, List, Tuple
from unittest import mock

from likes import GLANCE, LIKE, LIKED, LOOK, NO_HOT, Closed, Driver, Likes, Moment, Refused, Seen, Status, Told
from likes import _pool, _service

from .numbers import OUTSIDE, WRONG

RIGHT: Dict[str, Any] = {"counts": [0], "users": 9, "seats": 2, "room": 4, "hot": NO_HOT}


def opened(**words: Any) -> Likes:
    """A service of two seats and nine users, or with other words."""
    given: Dict[str, Any] = {**RIGHT, "counts": [5, 0], **words}
    return Likes(**given)


def in_threads(work: Callable[[int], None], number: int) -> None:
    """Does something in several threads, and waits for them."""
    threads = [threading.Thread(target=work, args=(i,)) for i in range(number)]
    for thread in threads:
        thread.start()
    for thread in threads:
        thread.join()


class Late(Exception):
    """What a signal handler raises."""


def late(*_: object) -> None:
    raise Late


def broken_off(call: Callable[[], object], times: int) -> None:
    """Makes a call again and again, and breaks it off somewhere so many times."""
    before = signal.signal(signal.SIGALRM, late)
    try:
        for _ in range(times):
            begun = time.monotonic()
            try:
                # A signal just before a wait doesn't end it. The next one does.
                signal.setitimer(signal.ITIMER_REAL, random.uniform(1e-6, 4e-5), 10)
                while True:
                    call()
            except Late:
                assert time.monotonic() - begun < 10, "a call hangs"
    finally:
        signal.setitimer(signal.ITIMER_REAL, 0)
        signal.signal(signal.SIGALRM, before)


def once(library: Any, name: str) -> Any:
    """Lets a call of the library be made once, and no more."""
    call, made = getattr(library, name), []  # type: Any, List[str]

    def first(*words: Any) -> Any:
        made.append(name)
        assert made == [name], made
        return call(*words)

    return mock.patch.object(library, name, first)


class Openings(unittest.TestCase):
    def test_cut_numbers(self) -> None:
        for value, kind in WRONG:
            for name in ("users", "seats", "room", "hot"):
                if value is not None or name == "users":
                    self.assertRaises(kind, Likes, **{**RIGHT, name: value})
            self.assertRaises(kind, Likes, **RIGHT, marks=[value])
            if value is not None:
                self.assertRaises(kind, Likes, **RIGHT, lasts=[value] * 9)
            if not isinstance(value, int) or not 0 <= value < 2**64:
                self.assertRaises(kind, Likes, **{**RIGHT, "counts": [0, value]})

    def test_refusals(self) -> None:
        for period in (0, -1, float("nan")):
            self.assertRaises(ValueError, Likes, **RIGHT, period=period)
        wrong: List[Tuple[Dict[str, Any], Status]] = [
            ({"seats": 65}, Status.WRONG_SEATS),
            ({"seats": 0}, Status.WRONG_SEATS),
            ({"seats": 2**32 - 1}, Status.WRONG_SEATS),
            ({"room": 0}, Status.WRONG_ROOM),
            ({"hot": 1000001}, Status.WRONG_HOT),
            ({"hot": 0}, Status.WRONG_HOT),
            ({"users": 0}, Status.WRONG_USERS),
            ({"period": 1001}, Status.WRONG_PERIOD),
            ({"counts": []}, Status.WRONG_PAGES),
            ({"marks": [1]}, Status.WRONG_MARKS),
            ({"marks": [0, 0]}, Status.WRONG_MARKS),
            ({"lasts": [None] * 8 + [1]}, Status.WRONG_LASTS),
            ({"lasts": [0] * 8}, Status.WRONG_LASTS),
        ]
        for words, status in wrong:
            with self.assertRaises(Refused) as caught:
                Likes(**{**RIGHT, **words})
            self.assertEqual(caught.exception.status, status)

    def test_no_lasts(self) -> None:
        for lasts in (None, ()):
            with opened(lasts=lasts) as service:
                self.assertEqual(service.lasts(), [None] * 9)

    def test_defaults(self) -> None:
        """A page that many like is found, and split."""
        with Likes([0] * 100, users=100) as service:
            self.assertGreaterEqual(service.seats, 16)
            while service.split_pages() != [7]:
                for user in range(100):
                    service.like(user, 7)


class Service(unittest.TestCase):
    def refused(self, status: Status, call: Callable[..., object], *words: Any) -> None:
        with self.assertRaises(Refused) as caught:
            call(*words)
        self.assertEqual(caught.exception.status, status)

    def test_wrong_requests(self) -> None:
        """Wrong numbers in requests, alone and behind a right one, which isn't run then."""
        with opened() as service, service.writer() as writer:
            calls: List[Callable[[Any, Any], object]]
            calls = [service.like, service.look, service.glance, writer.like, writer.look]
            for value, kind in WRONG:
                for call in calls:
                    self.assertRaises(kind, call, value, 0)
                    self.assertRaises(kind, call, 4, value)
                for row in ((value, 4, 0), (LIKE, value, 0), (LIKE, 4, value)):
                    self.assertRaises(kind, service.run, 0, [(LIKE, 4, 0), row])
                self.assertRaises(kind, service.propose, [0, value])
            for number in (-1, 2, 2**32):
                self.assertRaises(ValueError, service.run, number, [(LIKE, 4, 0)])
            for call in calls:
                self.refused(Status.UNKNOWN_USER, call, 9, 0)
                self.refused(Status.UNKNOWN_PAGE, call, 4, 2)
            self.refused(Status.UNKNOWN_SEAT, service.retire_seat, 2)
            self.refused(Status.UNKNOWN_USER, service.look_within, 9, 0, 1)
            self.assertRaises(ValueError, service.look_within, 4, 0, -1)
        self.assertEqual(service.stop().counts, [5, 0])

    def test_rows(self) -> None:
        with opened() as service:
            service.like(4, 1)
            rows = [(LIKE, 4, 0), (GLANCE, 4, 0), (LOOK, 6, 1), (LIKE, 4, 2), (LIKE, 9, 0), (3, 4, 0)]
            told = service.run(0, rows)
        self.assertEqual(told[:3], [LIKED, Seen(0, 6), Seen(None, 1)])
        self.assertEqual(told[3:], [Status.UNKNOWN_PAGE, Status.UNKNOWN_USER, Status.UNKNOWN_OP])

    def test_rows_that_wait(self) -> None:
        """Rows with many more looks than there is room for, at a page that is split in every split phase."""
        wrong: List[Tuple[int, List[Told]]] = []
        with opened(marks=[0], period=0.0002) as service:

            def work(number: int) -> None:
                for _ in range(20):
                    told = service.run(number % 2, [(LIKE, number % 2, 1), *[(LOOK, number % 2, 0)] * 20])
                    if told != [LIKED] + [Seen(1, 5)] * 20:
                        wrong.append((number, told))

            in_threads(work, 4)
        self.assertEqual((wrong, service.stop().counts), ([], [5, 80]))

    def test_calls_after_the_end(self) -> None:
        service = opened()
        writer = service.writer()
        writer.close()
        writer.close()
        self.assertEqual((service.stop(), service.stop()), (Moment([5, 0], [None] * 9),) * 2)
        service.close()
        pairs: List[Callable[[int, int], object]]
        pairs = [service.like, service.look, service.glance, writer.like, writer.look]
        for pair in pairs:
            self.assertRaises(Closed, pair, 4, 0)
        for row in ([(LIKE, 4, 0)], []):
            self.assertRaises(Closed, service.run, 0, row)
        calls: List[Callable[[], object]]
        calls = [service.lasts, service.split_pages, service.counts, service.snapshot]
        for call in [*calls, service.phase, service.writer, service.tick, writer.flush]:
            self.assertRaises(Closed, call)
        for single in (service.last, service.retire_seat, service.bring_back_seat):
            self.assertRaises(Closed, single, 0)
        for pages in ([0], []):
            self.assertRaises(Closed, service.propose, pages)
        self.assertRaises(Closed, service.look_within, 4, 0, 1)
        self.assertEqual(writer.drop(), 0)

    def test_statistics_after_the_end(self) -> None:
        """What was done until then, also while another thread ends the service."""
        service, told = opened(), []  # type: Likes, List[int]
        service.like(4, 1)
        service.look(4, 1)
        self.assertEqual(service.statistics()[1:3], (1, 1))
        thread = threading.Thread(target=lambda: told.append(service.statistics().likes))
        moment = service._last_moment

        def last_moment() -> Moment:
            thread.start()
            thread.join(0.1)
            return moment()

        with mock.patch.object(service, "_last_moment", last_moment):
            service.close()
        thread.join()
        self.assertEqual((told, service.statistics()[1:3]), ([1], (1, 1)))

    def test_files(self) -> None:
        """A service that goes on from a file, also with more users and pages."""
        with tempfile.TemporaryDirectory() as folder:
            path = os.path.join(folder, "likes.saved")
            with opened(users=3) as first:
                first.like(2, 1)
                first.save(Path(path))
                moment = first.snapshot()
            with Likes.load(Path(path)) as same, Likes.load(path, users=4, pages=3, seats=2) as grown:
                self.assertEqual(same.snapshot(), moment)
                self.assertEqual(grown.snapshot(), Moment([*moment.counts, 0], [*moment.lasts, None]))
            self.refused(Status.WRONG_LENGTH, Likes.load, path, 2)
            with open(path, "ab") as file:
                file.write(b"more")
            self.refused(Status.WRONG_SIZE, Likes.load, path)
            with self.assertRaises(FileNotFoundError) as caught:
                Likes.load(Path(path + "?"))
            self.assertEqual(caught.exception.filename, path + "?")
            self.assertRaises(Closed, first.save, path)
            calls: List[Callable[[str], object]] = [Likes.load, first.save]
            for call in calls:
                self.assertRaises(ValueError, call, path + "\0?")

    def test_going_on(self) -> None:
        """A service that goes on from the last moment of another."""
        lasts = [None, None, 1]
        with opened(users=3) as first:
            first.like(2, 1)
            self.assertEqual(([first.last(user) for user in range(3)], first.lasts()), (lasts, lasts))
            self.refused(Status.UNKNOWN_USER, first.last, 3)
            for value in OUTSIDE:
                self.assertRaises(ValueError, first.last, value)
        end = first.stop()
        self.assertEqual(end, Moment([5, 1], [None, None, 1]))
        with opened(counts=end.counts, users=3, lasts=end.lasts) as second:
            self.assertEqual([second.look(user, 1) for user in range(3)], [(last, 1) for last in lasts])
        self.assertEqual(second.stop(), end)

    def test_proposals(self) -> None:
        """A page that is proposed is split after a while, and no other."""
        with opened(counts=[5, 7, 0], users=3, period=0.0001) as service:
            self.assertEqual(service.split_pages(), [])
            for page in (1, 0):
                service.propose([3, page, page, 2**32 - 1])
                while service.split_pages() != [page]:
                    service.like(0, 2)
                service.like(2, page)
            service.propose(())
            self.assertEqual(service.counts()[:2], [6, 8])

    def test_deadlines(self) -> None:
        # With less room, looks that wait would end the phase early.
        with opened(room=64, marks=[0], period=100) as service:
            service.like(4, 1)
            while service.phase() % 2 == 0:
                service.like(4, 1)
            for seconds in (0, 0.001):
                self.assertIsNone(service.look_within(4, 0, seconds))
            seen = service.look_within(4, 1, 10)
            self.assertTrue(seen and seen.last == 1)
            self.assertGreaterEqual(service.statistics().late, 1)

    def test_snapshots(self) -> None:
        """Each user likes page 1 and then page 2. So in one moment, page 1 has as many more likes than page 2 as there
        are users who liked it last."""
        wrong: List[Moment] = []
        with opened(counts=[0, 0, 0], marks=[1], period=0.0002) as service:

            is_over = threading.Event()

            def work(number: int) -> None:
                if number == 4:
                    for _ in range(100):
                        moment = service.snapshot()
                        if moment.counts[1] != moment.counts[2] + moment.lasts.count(1):
                            wrong.append(moment)
                    is_over.set()
                while not is_over.is_set():
                    for page in (1, 2):
                        service.like(number, page)

            in_threads(work, 5)
            self.assertEqual(service.snapshot(), service.stop())
        self.assertEqual(wrong, [])

    def test_writers(self) -> None:
        """Threads that serve any user, by writers."""
        threads, each, wrong = 4, 2000, []
        with opened(users=40, counts=[0, 0, 0], marks=[0], period=0.0002) as service:

            def work(number: int) -> None:
                with service.writer() as writer:
                    for i in range(each):
                        user, page = number + threads * (i % 10), i % 3
                        writer.like(user, page)
                        if i % 100 == 0 and writer.look(user, 0).last != page:
                            wrong.append((number, i))

            in_threads(work, threads)
            self.assertEqual((wrong, sum(service.counts())), ([], threads * each))
            self.assertEqual(service.statistics().likes, threads * each)
            writer = service.writer()
            self.refused(Status.OPEN_WRITER, service.close)
            writer.like(0, 0)
            self.assertEqual((writer.drop(), writer.drop()), (1, 0))
            writer.close()
        self.assertEqual(sum(service.stop().counts), threads * each)

    def test_pool(self) -> None:
        """A pool counts likes by itself, shows each user its own at once, and ends with all of them."""
        threads, each, wrong = 8, 200, []
        with opened(users=80, seats=8, marks=[0], period=0.0002) as service:
            pool = service.pool()

            def work(number: int) -> None:
                for i in range(each):
                    user, page = number + threads * (i % 10), i % 2
                    pool.like(user, page)
                    if i % 50 == 0 and pool.look(user, 0).last != page:
                        wrong.append((number, i))

            in_threads(work, threads)
            while sum(service.counts()) != 5 + threads * each:
                time.sleep(0.001)
            self.refused(Status.OPEN_WRITER, service.stop)
            self.refused(Status.UNKNOWN_USER, pool.like, 80, 0)
            for value in OUTSIDE:
                self.assertRaises(ValueError, pool.like, value, 0)
            pool.like(0, 1)
            pool.close()
            pool.close()
            calls: List[Callable[[], object]]
            calls = [pool.flush, lambda: pool.like(0, 1), lambda: pool.look(0, 1)]
            for call in calls:
                self.assertRaises(Closed, call)
            self.assertEqual(pool.drop(), 0)
        self.assertEqual((wrong, sum(service.stop().counts)), ([], 6 + threads * each))

    def test_numbers_of_other_types(self) -> None:
        """A pool takes what a service takes, as numbers of arrays."""

        class Number:
            def __init__(self, value: int) -> None:
                self._value = value

            def __index__(self) -> int:
                return self._value

        page: Any = Number(1)
        with opened(period=Fraction(1, 500)) as service, service.pool() as pool:
            pool.like(page, page)
            until = time.monotonic() + 10
            while service.counts() != [5, 1] and time.monotonic() < until:
                time.sleep(0.001)
            self.assertEqual((service.counts(), pool.look(page, page)), ([5, 1], Seen(1, 1)))

    def test_pools_of_seats_that_leave(self) -> None:
        with opened(users=4) as service, service.pool() as pool:
            service.retire_seat(1)
            pool.like(1, 0)
            pool.like(2, 0)
            for call in (pool.flush, pool.close):
                self.refused(Status.GONE, call)
            self.assertEqual(pool.look(2, 0), Seen(0, 6))
            self.refused(Status.GONE, pool.look, 1, 0)
            service.bring_back_seat(1)
            self.assertEqual(pool.look(1, 0), Seen(0, 7))
            service.retire_seat(1)
            pool.like(1, 0)
            self.assertEqual(pool.drop(), 1)
        self.assertEqual(service.stop().counts, [7, 0])

    def test_a_seat_that_comes_back_meanwhile(self) -> None:
        """A pool's look shows all that its user was told, or is refused."""
        with opened(users=4) as service, service.pool() as pool:
            look = service.look

            def look_late(user: int, page: int) -> Seen:
                service.bring_back_seat(1)
                return look(user, page)

            service.retire_seat(1)
            pool.like(1, 0)
            with mock.patch.object(service, "look", look_late):
                self.refused(Status.GONE, pool.look, 1, 0)
            service.bring_back_seat(1)

    def test_likes_while_a_pool_closes(self) -> None:
        """A pool is closed as a whole, or stays open. A like of another thread comes before, or raises Closed."""
        told: List[str] = []
        with opened(users=4, period=100) as service:
            pool = service.pool()
            service.retire_seat(1)

            def like() -> None:
                try:
                    pool.like(1, 0)
                except Closed:
                    told.append("closed")

            thread, flush = threading.Thread(target=like), _pool.flush

            def flushed(lanes: List[Any]) -> None:
                flush(lanes)
                thread.start()
                thread.join(0.1)

            with mock.patch.object(_pool, "flush", flushed):
                pool.close()
            thread.join()
        self.assertEqual((told, service.stop().counts), (["closed"], [5, 0]))

    def test_dropped_pools(self) -> None:
        """A pool that nobody has any more keeps no service open, also where it was dropped just now."""
        for _ in range(20):
            with opened(period=100) as service:
                service.pool().like(4, 1)
            self.assertEqual(service.stop().counts, [5, 1])

    def test_dropped_pools_after_errors(self) -> None:
        """Nor does one that was refused a flush, before the garbage collector comes."""
        gc.disable()
        self.addCleanup(gc.enable)
        with opened() as service:
            service.retire_seat(1)
            pool = service.pool()
            pool.like(1, 0)
            with suppress(Refused):
                pool.flush()
            del pool
            service.bring_back_seat(1)
        self.assertEqual(service.stop().counts, [6, 0])

    def test_ends_of_dropped_pools(self) -> None:
        """A pool's thread closes its writers soon."""
        with opened(period=100) as service:
            service.pool().like(4, 1)
            while service._writers:
                time.sleep(0.001)
            self.assertEqual(service.counts(), [5, 1])

    def test_looks_of_a_writer(self) -> None:
        """A look through a writer shows each like of its page that the writer was told, by whichever user."""
        with opened(users=8, counts=[0, 0], seats=4, period=100) as service, service.writer() as writer:
            for user in range(8):
                writer.like(user, 1)
                self.assertEqual(writer.look((user + 3) % 8, 1).count, user + 1)
            service.retire_seat(2)
            writer.like(2, 1)
            self.refused(Status.GONE, writer.look, 0, 1)
            self.assertEqual(writer.look(0, 0), Seen(1, 0))
            self.assertEqual(writer.drop(), 1)

    def test_leaving(self) -> None:
        """Likes of a seat that has left stay kept until it is back."""
        with opened(users=4) as service:
            writer = service.writer()
            service.retire_seat(1)
            self.refused(Status.GONE, service.like, 1, 0)
            writer.like(1, 0)
            writer.like(2, 0)
            self.refused(Status.GONE, writer.flush)
            self.refused(Status.GONE, writer.close)
            self.assertEqual(service.counts(), [6, 0])
            service.bring_back_seat(1)
            writer.close()
            self.assertEqual(service.look(1, 0), Seen(0, 7))

    def test_dropped_writers(self) -> None:
        """A writer that nobody has any more, also since its thread ended, is flushed, and keeps no service open."""
        with opened() as service:

            def work(number: int) -> None:
                service.writer().like(number, 1)

            service.writer().like(4, 0)
            in_threads(work, 3)
            gc.collect()
            self.assertEqual(service.counts(), [6, 3])
            service.retire_seat(0)
            service.writer().like(4, 0)
            service.bring_back_seat(0)
        self.assertEqual(service.stop().counts, [7, 3])

    def test_dropped_services(self) -> None:
        """A service that nobody has any more is ended, with its thread, also one in a cycle with its writer or its pool. As
        long as somebody has one of these, it goes on."""
        threads = "/proc/self/task"
        before = len(os.listdir(threads))
        openings: List[Callable[[Likes], Any]] = [Likes.writer, Likes.pool]
        for opening in openings:
            kept = opening(opened(period=100))
            kept.like(4, 1)
            self.assertEqual(kept.look(4, 1), Seen(1, 1))
            del kept
            service: Any = opened()
            service.retire_seat(0)
            service.kept = opening(service)
            service.kept.like(4, 0)
            with self.assertWarnsRegex(RuntimeWarning, "^1 likes of a writer"):
                del service
                gc.collect()
        while len(os.listdir(threads)) > before:
            time.sleep(0.001)

    def test_lost_likes(self) -> None:
        """What a dropped writer or pool keeps for a seat that has left for good is told."""
        openings: List[Callable[[Likes], Any]] = [Likes.writer, Likes.pool]
        for opening in openings:
            service = opened()
            service.retire_seat(0)
            opening(service).like(4, 0)
            gc.collect()
            with self.assertWarnsRegex(RuntimeWarning, "^1 likes of a writer"):
                self.assertEqual(service.stop().counts, [5, 0])

    def test_kept_likes(self) -> None:
        """A refused end loses no likes of dropped writers."""
        with opened() as service:
            with service.writer():
                service.retire_seat(0)
                service.writer().like(4, 0)
                self.refused(Status.OPEN_WRITER, service.stop)
                service.bring_back_seat(0)
        self.assertEqual(service.stop().counts, [6, 0])

    def test_errors_in_blocks(self) -> None:
        """An error in a block is the one that comes out, also where the end of the block is refused."""
        with warnings.catch_warnings(record=True) as told:
            warnings.simplefilter("always")
            with self.assertRaises(KeyError), opened() as service:
                with service.writer() as writer:
                    service.retire_seat(0)
                    writer.like(4, 0)
                    raise KeyError
        self.assertEqual([it.category for it in told].count(RuntimeWarning), 2)
        self.assertEqual(writer.drop(), 1)
        writer.close()
        self.assertEqual(service.stop().counts, [5, 0])

    def test_threads(self) -> None:
        """Likes, looks and counts of several threads, page 0 split in every split phase."""
        threads, each, wrong = 4, 300, []
        with opened(counts=[0, 0], users=40, seats=4, room=8, marks=[0], period=0.0002) as service:
            totals: List[int] = []

            def work(number: int) -> None:
                for i in range(each if number < threads else 20):
                    if number == threads:
                        totals.append(sum(service.counts()))
                        continue
                    service.like(number + threads * (i % 10), i % 2)
                    if service.look(number + threads * (i % 10), 0).last != i % 2:
                        wrong.append((number, i))

            in_threads(work, threads + 1)
            self.assertEqual(totals, sorted(totals))
        self.assertEqual((wrong, service.stop().counts), ([], [threads * each // 2] * 2))

    def test_closing_under_a_look(self) -> None:
        """A look that waits has its time: the end waits for it, and doesn't end its phase."""
        told: List[object] = []
        with opened(room=64, marks=[0], period=100) as service:
            while service.phase() % 2 == 0:
                service.like(4, 1)

            def work(number: int) -> None:
                if number == 0:
                    told.append(service.look_within(4, 0, 0.1))
                else:
                    time.sleep(0.05)
                    service.close()

            in_threads(work, 2)
        self.assertEqual(told, [None])

    def test_closing_under_calls(self) -> None:
        """A call is done, or raises Closed."""
        for _ in range(10):
            service, done = opened(marks=[0], period=0.0002), [0] * 4

            def work(number: int) -> None:
                if number == 4:
                    service.look(0, 0)
                    service.close()
                    return
                try:
                    while True:
                        service.like(number, 0)
                        done[number] += 1
                        service.look(number, 0)
                except Closed:
                    pass

            in_threads(work, 5)
            self.assertEqual(service.stop().counts, [5 + sum(done), 0])


class Breaks(unittest.TestCase):
    """Exceptions of signal handlers, as that of Ctrl-C."""

    # In 3.9, one may be raised between the end of a `with` and its lock's release.
    @unittest.skipIf(sys.version_info < (3, 10), "with isn't sure in 3.9")
    def test_calls(self) -> None:
        """An end doesn't wait for calls that were broken off."""
        service = opened()
        broken_off(lambda: service.like(4, 0), 500)
        broken_off(lambda: service.run(0, [(LIKE, 4, 0)]), 500)
        # Daemons: where they hang, the test ends.
        calls: List[Callable[[], object]] = [lambda: service.run(0, [(LIKE, 4, 0)]), service.stop]
        for call in calls:
            thread = threading.Thread(target=call, daemon=True)
            thread.start()
            thread.join(20)
            self.assertFalse(thread.is_alive())

    def give_up(self, service: Likes) -> None:
        """Gives up a row of three looks at seat 0 that wait."""
        with mock.patch.object(time, "sleep", late):
            while True:
                try:
                    service.run(0, [(LOOK, 4, 0)] * 3)
                except Late:
                    return

    def test_given_up_rows(self) -> None:
        """What is found of them later is no answer to the next row."""
        for row in ([(LIKE, 4, 1)] * 4, [(LIKE, 4, 1)]):
            with opened(room=64, marks=[0], period=0.001) as service:
                self.give_up(service)
                service.counts()
                with mock.patch.object(time, "sleep", late):
                    self.assertEqual(service.run(0, row), [LIKED] * len(row))

    def test_locked_seats(self) -> None:
        """A seat is given back, also where an exception comes just after it is locked."""
        with opened() as service:
            lock = service._library.likes_service_lock
            broken = mock.patch.object(service._library, "likes_service_lock", lambda *words: late(lock(*words)))
            with broken:
                self.assertRaises(Late, service.run, 0, [(LIKE, 4, 0)])
            service.like(4, 0)

    def test_handlers(self) -> None:
        """A handler in the middle of a call makes others, but doesn't end the service."""
        with opened(room=64, marks=[0], period=0.001) as service:

            def handle(_: float) -> None:
                service.like(4, 1)
                self.assertRaises(RuntimeError, service.close)
                raise Late

            with mock.patch.object(time, "sleep", handle), self.assertRaises(Late):
                while True:
                    service.run(0, [(LOOK, 4, 0)])
            self.assertEqual(service.look(4, 1), Seen(1, 1))

    def test_handlers_with_seats(self) -> None:
        """One in the middle of a call touches no dropped writer: it could wait for a thread that waits for its seat."""
        with opened() as service:
            service.retire_seat(1)
            service.writer().like(1, 0)

            def handle(*_: object) -> bool:
                self.assertRaises(RuntimeError, service.close)
                return False

            with mock.patch.object(service._library, "likes_service_take_found", handle):
                service.run(0, [(LIKE, 4, 0)])
            service.bring_back_seat(1)
        self.assertEqual(service.stop().counts, [7, 0])

    def test_handlers_under_an_end(self) -> None:
        """One in the middle of a call, for which an end waits, doesn't wait for that end."""
        service, told = opened(marks=[0], period=0.001), []  # type: Likes, List[str]
        # Daemons: where they hang, the test ends.
        end = threading.Thread(target=service.stop, daemon=True)

        def handle(_: float) -> None:
            end.start()
            while not service._calls._is_shut:
                end.join(0.001)
            try:
                service.writer()
            except Closed:
                told.append("closed")
            raise Late

        def run() -> None:
            with suppress(Late):
                while True:
                    service.run(0, [(LOOK, 4, 0)])

        thread = threading.Thread(target=run, daemon=True)
        with mock.patch.object(time, "sleep", handle):
            thread.start()
            thread.join(5)
        self.assertEqual(told, ["closed"])
        end.join()

    def test_handlers_of_writers(self) -> None:
        """A handler in the middle of a call of a writer makes others, but doesn't end the writer."""
        with opened() as service, service.writer() as writer:

            def handle(*_: object) -> None:
                self.assertEqual(writer.drop(), 1)
                self.assertRaises(RuntimeError, writer.close)
                raise Late

            with mock.patch.object(_service, "check", handle):
                self.assertRaises(Late, writer.like, 4, 0)
            self.assertRaises(RuntimeError, self.end_in_end, service)

    def end_in_end(self, service: Likes) -> None:
        """Ends a service while this thread ends it."""
        with service._ending:
            service.stop()

    def test_rows_in_rows(self) -> None:
        """A handler in the middle of a row runs one at another seat, and none at this one."""
        with opened(room=64, marks=[0], period=0.001) as service:

            def handle(_: float) -> None:
                self.assertEqual(service.run(1, [(LIKE, 1, 1)]), [LIKED])
                self.assertRaises(RuntimeError, service.run, 0, [(LIKE, 4, 1)])
                raise Late

            with mock.patch.object(time, "sleep", handle), self.assertRaises(Late):
                while True:
                    service.run(0, [(LOOK, 4, 0)])

    def test_ends(self) -> None:
        """A writer and a service are freed once, also where an exception comes just after."""
        service = opened()
        library, writer = service._library, service.writer()
        writer.like(4, 0)
        with once(library, "likes_writer_close"):
            with mock.patch.object(_service, "check", late):
                self.assertRaises(Late, writer.close)
            self.assertRaises(Closed, writer.like, 4, 0)
            writer.close()
        with once(library, "likes_service_retire"), once(library, "likes_service_close"):
            with mock.patch.object(_service, "Moment", late):
                self.assertRaises(Late, service.stop)
            self.assertRaises(Closed, service.like, 4, 0)
            self.assertEqual(service.stop(), Moment([6, 0], [None] * 4 + [0] + [None] * 4))

    def test_writers_in_opening(self) -> None:
        """A writer that nobody got is closed."""
        with opened() as service:
            with mock.patch.object(_service, "check", late):
                self.assertRaises(Late, service.writer)


class Refusals(unittest.TestCase):
    def test_open_writers(self) -> None:
        """A refused end keeps no calls out, and waits for none."""
        with opened() as service, service.writer():
            with mock.patch.object(service._calls, "shut") as shut, self.assertRaises(Refused) as caught:
                service.stop()
            self.assertEqual((caught.exception.status, shut.called), (Status.OPEN_WRITER, False))
            service.like(4, 0)

    def test_copies(self) -> None:
        """Exceptions go from one process to another."""
        for error in (Refused(Status.UNKNOWN_USER), Closed()):
            for other in (pickle.loads(pickle.dumps(error)), copy.copy(error)):
                self.assertEqual((type(other), str(other)), (type(error), str(error)))
                self.assertEqual(vars(other), vars(error))

    def test_single(self) -> None:
        """What C has once isn't copied, and goes on."""
        driver = Driver([0], users=1)
        copies: List[Callable[[Any], object]] = [copy.copy, copy.deepcopy, pickle.dumps]
        with opened() as service, service.writer() as writer, service.pool() as pool:
            for it in (service, writer, pool, driver, driver.take_seat()):
                for make in copies:
                    self.assertRaises(TypeError, make, it)
            writer.like(4, 1)
            pool.like(4, 1)
        self.assertEqual((service.stop().counts, driver.turn()), ([5, 2], Status.GOES_ON))


if __name__ == "__main__":
    unittest.main()
