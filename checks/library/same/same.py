#!/usr/bin/env python3
"""Makes the calls that README.md draws, by the package likes, and prints what each answers."""

from likes import LIKED, NO_HOT, Driver, End, Glimpsed, Likes, Op, Refused, Seen, Status

SERVICES, CALLS = 300, 400
SHARED, SHARED_CALLS = 100, 100


class Draws:
    """Numbers, always the same."""

    def __init__(self):
        self.state = 1

    def next(self):
        self.state = (self.state * 6364136223846793005 + 1442695040888963407) % 2**64
        return self.state

    def draw(self, below):
        drawn = self.next() >> 33
        return drawn % below if below else 0

    def rarely(self):
        return self.draw(32) == 0

    def page(self, pages):
        return pages + self.draw(3) if self.rarely() else self.draw(pages)


def text_of(answer):
    """What a call answers, in words."""
    if isinstance(answer, (Seen, Glimpsed)):
        name = "seen" if isinstance(answer, Seen) else "glimpsed"
        return f"{name} {last_of(answer.last)} {answer.count}"
    return answer.text if isinstance(answer, Status) else str(answer)


def last_of(last):
    return "-" if last is None else str(last)


def say(name, call, *words):
    """Prints what a call answers, or why it is refused."""
    try:
        print(name, text_of(call(*words)))
    except Refused as refused:
        print(name, refused)


def listed(status, numbers):
    return " ".join([status.text, *map(str, numbers)])


class Service:
    """A service with its seats."""

    def __init__(self, draws, driver, users, seats, pages):
        self.draws, self.driver, self.users, self.pages = draws, driver, users, pages
        self.seats = []
        for _ in range(seats + 1):
            seat = driver.take_seat()
            print("seat", "ok" if seat else "all taken")
            self.seats += [seat] if seat else []
        self.phase = driver.take_phase()
        print("phase", "ok" if self.phase else "all taken")
        print("phase", "ok" if driver.take_phase() else "all taken")

    def user(self, seat):
        draw, seats = self.draws.draw, len(self.seats)
        if self.draws.rarely():
            return self.users + draw(3) if draw(2) == 0 else 2**32 - 1
        user = draw(self.users)
        return user if draw(8) == 0 else user - user % seats + seat

    def page(self):
        return self.draws.page(self.pages)

    def like_or_look(self, number, kind):
        seat, user, page = self.seats[number], self.user(number), self.page()
        if kind < 6:
            say("like", seat.like, user, page)
        elif kind < 8:
            say("look", seat.look, user, page, self.draws.next())
        else:
            say("glance", seat.glance, user, page)

    def run(self, number):
        length = self.draws.draw(5)
        row = [(Op(self.draws.draw(3)), self.user(number), self.page()) for _ in range(length)]
        print(" ".join(["run", ", ".join(map(text_of, self.seats[number].run(row)))]).rstrip())

    @staticmethod
    def take_found(seat):
        found = seat.take_found()
        print("none" if found is None else " ".join(["found", *map(str, found[:-1]), last_of(found.last)]))

    def lasts(self, number, start, length):
        say("lasts", lambda: listed(Status.OK, map(last_of, self.seats[number].lasts(start, length))))

    def some_lasts(self, number, is_one):
        if is_one:
            user = self.user(number)
            say("lasts", lambda: listed(Status.OK, [last_of(self.seats[number].last(user))]))
        else:
            self.lasts(number, self.draws.draw(5), self.draws.draw(5))

    def counts(self, is_snapshot, start, length):
        call = self.driver.snapshot if is_snapshot else self.driver.last_counts
        none = Status.NO_MOMENT if is_snapshot else Status.NOT_ENDED

        def answer():
            counts = call(start, length)
            return none if counts is None else listed(Status.COUNTED, counts)

        say("snapshot" if is_snapshot else "counts", answer)

    def propose(self):
        pages = [self.page() for _ in range(self.draws.draw(3))]
        say("propose", lambda: self.driver.propose(pages) or Status.OK)

    def other(self, seat):
        """One of the calls that come less often."""
        kind = self.draws.draw(7)
        if kind == 0:
            self.propose()
        elif kind == 1:
            print(*["split", *self.driver.split_pages(self.draws.draw(4))])
        elif kind < 5:
            say("phase", [seat.phase, self.driver.phase, self.phase.now][kind - 2])
        elif kind == 6:
            say("come back", seat.come_back)
        elif self.draws.draw(4) == 0:
            say("retire", seat.retire)
        else:
            print()

    def call(self):
        number, kind = self.draws.draw(len(self.seats)), self.draws.draw(20)
        seat = self.seats[number]
        if kind < 9:
            self.like_or_look(number, kind)
        elif kind == 9:
            self.run(number)
        elif kind == 10:
            self.take_found(seat)
        elif kind < 13:
            self.some_lasts(number, kind == 11)
        elif kind < 15:
            say("turn", seat.turn)
        elif kind < 17:
            say("driver", self.driver.turn, End(self.draws.draw(3)))
        elif kind < 19:
            self.counts(kind == 17, self.draws.draw(self.pages + 1), self.draws.draw(self.pages + 1))
        else:
            self.other(seat)

    def end(self):
        status = None
        while status != Status.ENDED:
            for seat in self.seats:
                say("retire", seat.retire)
            status = self.driver.turn(End.IF_IT_SERVES)
            print("driver", status.text)
        self.counts(False, 0, self.pages)
        for number in range(len(self.seats)):
            self.lasts(number, 0, len(range(number, self.users, len(self.seats))))
        self.driver.close()


def opening(draws):
    """What a service is opened with."""
    draw, rarely = draws.draw, draws.rarely
    pages = 0 if rarely() else 1 + draw(6)
    counts = [draw(100) for _ in range(pages)]
    if rarely() and pages:
        counts[0] = 10**18 + 1
    seats = 65 + draw(2) if rarely() else 1 + draw(3)
    users = 0 if rarely() else 1 + draw(12)
    room = 4097 if rarely() else 1 + draw(3)
    hot = 1000001 if rarely() else (NO_HOT, 512)[draw(2)]
    marks = [draws.page(pages) for _ in range(draw(3))]
    length = 0 if draw(3) == 0 else users + rarely()
    lasts = [None if draw(2) == 0 else draws.page(pages) for _ in range(length)]
    return {"counts": counts, "users": users, "seats": seats, "room": room, "hot": hot, "marks": marks, "lasts": lasts}


class Shared:
    """A service that threads share."""

    def __init__(self, draws, service, users, pages):
        self.draws, self.service, self.users, self.pages = draws, service, users, pages

    def user(self):
        draw = self.draws.draw
        if self.draws.rarely():
            return self.users + draw(3) if draw(2) == 0 else 2**32 - 1
        return draw(self.users)

    def page(self):
        return self.draws.page(self.pages)

    @staticmethod
    def tell(name, answer, *shown):
        """Prints what a call answers, as words that are made of it, or why it is refused."""
        try:
            told = answer()
            print(name, *[word for words in shown for word in words(told)] if shown else ["ok"])
        except Refused as refused:
            print(name, refused)

    @staticmethod
    def last(seen):
        return [last_of(seen.last)]

    @staticmethod
    def count(seen):
        return [seen.count]

    @staticmethod
    def lasts(lasts):
        return map(last_of, lasts)

    @staticmethod
    def moment(moment):
        return [*moment.counts, *map(last_of, moment.lasts)]

    def like_or_look(self, kind):
        user, page, it = self.user(), self.page(), self.service
        if kind < 4:
            self.tell("like", lambda: it.like(user, page))
        elif kind == 4:
            self.tell("look", lambda: it.look(user, page), self.last, self.count)
        elif kind == 5:
            self.tell("within", lambda: it.look_within(user, page, 10), self.last, self.count)
        else:
            self.tell("glance", lambda: it.glance(user, page), self.last)

    def tell_all(self, kind):
        if kind == 7:
            user = self.user()
            self.tell("last", lambda: [self.service.last(user)], self.lasts)
        elif kind == 8:
            self.tell("lasts", self.service.lasts, self.lasts)
        elif kind == 9:
            self.tell("counts", self.service.counts, list)
        else:
            self.tell("snapshot", self.service.snapshot, self.moment)

    def write(self):
        writer = self.service.writer()
        for _ in range(self.draws.draw(100)):
            user, page = self.user(), self.page()
            try:
                writer.like(user, page)
            except Refused as refused:
                print("kept", refused)
        user, page = self.user(), self.page()
        self.tell("shown", lambda: writer.look(user, page), self.last)
        for name, call in (("flush", writer.flush), ("stop", self.service.stop), ("close", writer.close)):
            self.tell(name, call)

    def row(self):
        number, row = self.draws.draw(self.service.seats), []
        for _ in range(self.draws.draw(5)):
            op = Op.LIKE if self.draws.draw(2) == 0 else Op.GLANCE
            row.append((op, self.user(), self.page()))
        for told in self.service.run(number, row):
            shows = isinstance(told, (Seen, Glimpsed))
            print("row", last_of(told.last) if shows else "ok" if told == LIKED else told.text)

    def leave(self):
        number = self.draws.draw(self.service.seats + 1)
        self.tell("retire", lambda: self.service.retire_seat(number))
        self.tell("like", lambda: self.service.like(0, 0))
        self.tell("back", lambda: self.service.bring_back_seat(number))

    def tell_statistics(self):
        self.tell("statistics", self.service.statistics, lambda told: [told.likes, told.looks])

    def call(self):
        kind = self.draws.draw(16)
        if kind < 7:
            self.like_or_look(kind)
        elif kind < 11:
            self.tell_all(kind)
        elif kind == 11:
            self.write()
        elif kind == 12:
            pages = [self.page() for _ in range(self.draws.draw(3))]
            self.tell("propose", lambda: self.service.propose(pages))
        elif kind == 13:
            self.row()
        elif kind == 14:
            self.leave()
        else:
            self.tell_statistics()


def open_and_call_shared(draws):
    draw = draws.draw
    counts = [draw(100) for _ in range(1 + draw(6))]
    seats, users = 1 + draw(3), 1 + draw(12)
    service = Likes(counts, users, seats, hot=NO_HOT, marks=[0] * draw(2), period=0.0002)
    print("share ok")
    it = Shared(draws, service, users, len(counts))
    for _ in range(SHARED_CALLS):
        it.call()
    it.tell("stop", service.stop, it.moment)
    it.tell_statistics()


def main():
    draws = Draws()
    for _ in range(SERVICES):
        words = opening(draws)
        try:
            driver = Driver(**words)
        except Refused as refused:
            print("open", refused)
            continue
        print("open ok")
        service = Service(draws, driver, words["users"], words["seats"], len(words["counts"]))
        for _ in range(CALLS):
            service.call()
        service.end()
    for _ in range(SHARED):
        open_and_call_shared(draws)


main()
