"""Each call of a driver, its seats and its phase, on one thread."""

import threading
import unittest
from typing import Any, Callable, List
from unittest import mock

from likes import GLANCE, LIKE, LOOK, NO_HOT, Closed, Driver, End, Glimpsed, Refused, Seen, Status

from .numbers import WRONG


class Core(unittest.TestCase):
    def setUp(self) -> None:
        """Two seats, page 0 marked and page 1 not."""
        self.driver = Driver([10, 0], users=4, seats=2, room=2, hot=NO_HOT, marks=[0])
        self.addCleanup(self.driver.close)
        taken = [self.driver.take_seat(), self.driver.take_seat()]
        self.seats = [seat for seat in taken if seat]

    def change_phase(self) -> None:
        self.assertEqual(self.driver.turn(End.IF_IT_SERVES), Status.ANNOUNCED)
        for seat in self.seats:
            self.assertEqual(seat.turn(), Status.BETWEEN)
        self.assertEqual(self.driver.turn(), Status.RELEASED)

    def refused(self, status: Status, call: Any, *words: int) -> None:
        with self.assertRaises(Refused) as caught:
            call(*words)
        self.assertEqual(caught.exception.status, status)
        self.assertEqual(str(caught.exception), status.text)

    def test_three_phases(self) -> None:
        first, second = self.seats
        self.assertEqual(first.like(0, 0), Status.LIKED)
        self.assertEqual(first.look(0, 0), Seen(0, 11))
        self.change_phase()
        for seat, user in ((first, 0), (first, 2), (second, 1)):
            self.assertEqual(seat.like(user, 0), Status.LIKED)
        self.assertEqual(first.look(0, 0, 7), Status.WAITS)
        self.assertEqual(first.glance(0, 0), Glimpsed(0, 13))
        self.assertEqual(second.glance(3, 0), Glimpsed(None, 12))
        self.assertEqual(first.glance(0, 1), Seen(0, 0))
        self.assertEqual(first.look(0, 1, 8), Seen(0, 0))
        self.assertEqual((first.phase(), first.take_found()), (1, None))
        self.change_phase()
        self.assertEqual((self.driver.phase(), first.like(0, 1)), (2, Status.LIKED))
        self.assertEqual(first.take_found(), (7, 14, 1, 2, 0, 0, 0))
        self.assertIsNone(first.take_found())

    def test_refusals(self) -> None:
        first = self.seats[0]
        calls: List[Callable[[int, int], object]] = [first.like, first.look, first.glance]
        for call in calls:
            self.refused(Status.UNKNOWN_USER, call, 4, 0)
            self.refused(Status.OTHER_SEAT, call, 1, 0)
            self.refused(Status.UNKNOWN_PAGE, call, 0, 2)
            for value, kind in WRONG:
                self.assertRaises(kind, call, value, 0)
                self.assertRaises(kind, call, 0, value)
        self.refused(Status.UNKNOWN_USER, first.last, 4)
        self.refused(Status.WRONG_RANGE, first.lasts, 1, 2)
        self.refused(Status.WRONG_RANGE, self.driver.snapshot, 1, 2)
        self.refused(Status.WRONG_RANGE, self.driver.last_counts, 3)
        # Nor does a wrong length take the memory for it.
        self.refused(Status.WRONG_RANGE, first.lasts, 0, 2**32 - 1)
        self.refused(Status.WRONG_RANGE, self.driver.snapshot, 0, 2**32 - 1)
        self.assertEqual(self.driver.split_pages(2**32 - 1), [0])
        self.refused(Status.UNKNOWN_END, self.driver.turn, 3)
        self.assertIsNone(self.driver.take_seat())

    def test_rows(self) -> None:
        first = self.seats[0]
        self.change_phase()
        looks = [(LOOK, 0, 0)] * 4
        told = first.run([(LIKE, 2, 1), (GLANCE, 2, 1), (GLANCE, 2, 0), (LIKE, 2, 9), (3, 0, 0), *looks])
        right = [Status.LIKED, Seen(1, 1), Glimpsed(1, 10), Status.UNKNOWN_PAGE, Status.UNKNOWN_OP]
        self.assertEqual(told, [*right, Status.WAITS, Status.WAITS, Status.NO_ROOM])
        self.assertEqual(first.run([]), [])

    def test_snapshot(self) -> None:
        first, second = self.seats
        second.like(3, 1)
        self.assertIsNone(self.driver.snapshot())
        self.assertEqual(self.driver.turn(End.YES), Status.ANNOUNCED)
        self.assertEqual((first.turn(), self.driver.turn()), (Status.BETWEEN, Status.NOT_ALL_IN))
        second.turn()
        self.assertEqual((self.driver.snapshot(0, 1), self.driver.snapshot(1)), ([10], [1]))
        self.assertEqual((second.lasts(0, 2), second.lasts(1, 1), second.lasts(2, 0)), ([None, 1], [1], []))

    def test_split_pages(self) -> None:
        self.driver.propose([1, 1, 2])
        for split in ([0], [0]):
            self.change_phase()
            self.assertEqual(self.driver.split_pages(), split)
        self.change_phase()
        self.assertEqual(sorted(self.driver.split_pages()), [0, 1])
        self.assertEqual((len(self.driver.split_pages(1)), self.driver.split_pages(0)), (1, []))
        self.driver.propose([])

    def test_phase(self) -> None:
        phase = self.driver.take_phase()
        assert phase
        self.assertIsNone(self.driver.take_phase())
        self.change_phase()
        self.assertEqual(phase.now(), 1)
        self.driver.close()
        self.assertRaises(Closed, phase.now)

    def test_last_counts(self) -> None:
        self.seats[0].like(2, 1)
        self.assertIsNone(self.driver.last_counts())
        self.assertEqual([seat.retire() for seat in self.seats], [Status.GONE] * 2)
        self.assertEqual((self.seats[0].like(2, 1), self.seats[0].phase()), (Status.GONE, 0))
        self.assertEqual(self.driver.last_counts(), [10, 1])
        self.assertEqual((self.driver.last_counts(1), self.driver.turn()), ([1], Status.ENDED))

    def test_come_back(self) -> None:
        first = self.seats[0]
        self.assertEqual((first.come_back(), first.retire(), first.come_back()),
                         (Status.RUNS, Status.GONE, Status.RUNS))
        first.like(2, 1)
        self.assertEqual([seat.retire() for seat in self.seats], [Status.GONE] * 2)
        self.assertEqual((self.driver.last_counts(), first.come_back()), ([10, 1], Status.BETWEEN))

    def test_close(self) -> None:
        first = self.seats[0]
        self.driver.close()
        self.driver.close()
        calls: List[Callable[[], object]] = [first.turn, first.retire, first.phase, first.take_found]
        for call in calls:
            self.assertRaises(Closed, call)
        self.assertRaises(Closed, self.driver.turn)
        self.assertRaises(Closed, first.like, 0, 0)

    def test_dropped(self) -> None:
        """What nobody has any more is freed, and a seat that somebody has stays."""
        driver = Driver([10, 0], users=4, seats=1)
        seat, library = driver.take_seat(), driver._library
        assert seat
        with mock.patch.object(library, "likes_driver_free", wraps=library.likes_driver_free) as free:
            del driver
            self.assertEqual((free.call_count, seat.like(3, 1)), (1, Status.LIKED))
        with mock.patch.object(library, "likes_seat_free", wraps=library.likes_seat_free) as free:
            del seat
            self.assertEqual(free.call_count, 1)
        self.assertRaises(Refused, Driver, [], users=4)

    def test_threads_at_one_seat(self) -> None:
        first = self.seats[0]

        def call() -> None:
            for _ in range(2000):
                first.like(0, 1)

        threads = [threading.Thread(target=call) for _ in range(4)]
        for thread in threads:
            thread.start()
        for thread in threads:
            thread.join()
        self.assertEqual(first.look(0, 1), Seen(1, 8000))


if __name__ == "__main__":
    unittest.main()
