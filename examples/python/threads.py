#!/usr/bin/env python3
"""Four threads like and look in rows, and the totals are printed."""

import threading

from likes import LIKE, LIKED, LOOK, Likes, Refused

SEATS, USERS = 4, 1000


def in_rows(service, number, wrong):
    """Runs 20 rows of a thousand likes and a look at the end."""
    users = range(number, USERS, SEATS)
    for i in range(20):
        row = [(LIKE, users[j % len(users)], (i + j) % 3) for j in range(1000)]
        user, page = row[-1][1:]
        answers = service.run(number, [*row, (LOOK, user, 0)])
        if answers[:-1] != [LIKED] * 1000 or answers[-1][0] != page:
            wrong.append(answers)


def main():
    wrong = []
    service = Likes(counts=[10, 0, 0], users=USERS, seats=SEATS)
    service.like(7, 1)
    print(service.look(7, 1), service.glance(8, 0))
    threads = [threading.Thread(target=in_rows, args=(service, number, wrong)) for number in range(SEATS)]
    for thread in threads:
        thread.start()
    for thread in threads:
        thread.join()
    try:
        service.like(USERS, 0)
    except Refused as refused:
        print("a like of an unknown user:", refused)
    print(service.stop().counts)
    return 1 if wrong else 0


if __name__ == "__main__":
    raise SystemExit(main())
