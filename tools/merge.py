"""The requests of several logs in the order of their times."""

import bisect
import itertools
import math
import operator


class Merge:
    """Requests of several logs, those of each log in its order: a request's time is the latest in its log so far. Of
    requests at one time, those of the log that began first come first."""

    def __init__(self):
        self.waiting = {}  # by log, as they begin: times of requests that others may come before, and what is merged
        self.latest = {}  # by log: the latest time so far
        self.are_mixed = False  # whether requests of one log come between those of another

    def add(self, batch, columns):
        """Adds a batch of a log, and gives what no later one can come before."""
        place = batch.place
        latest = self.latest.get(place, -math.inf)
        self.latest[place] = max(latest, batch.end)
        times = batch.times if not batch.times or latest <= batch.times[0] else [max(latest, at) for at in batch.times]
        waiting = self.waiting.setdefault(place, [[] for _ in range(1 + len(columns))])
        for column, more in zip(waiting, (times, *columns)):
            column += more
        return self.ready(batch.least)

    def ready(self, least=math.inf):
        """What is earlier than this time, in order, in columns."""
        fronts = []
        for columns in self.waiting.values():
            count = bisect.bisect_left(columns[0], least)
            if count:
                fronts.append([column[:count] for column in columns])
                for column in columns:
                    del column[:count]
        if len(fronts) > 1:
            rows = list(itertools.chain.from_iterable(zip(*front) for front in fronts))
            times = [row[0] for row in rows]
            self.are_mixed = self.are_mixed or any(map(operator.gt, times, times[1:]))
            rows.sort(key=operator.itemgetter(0))
            fronts = [list(map(list, zip(*rows)))]
        return fronts[0][1:] if fronts else [[]]
