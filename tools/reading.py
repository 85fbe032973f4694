"""How logs are read, of whatever kind."""

import codecs
import heapq
import itertools
import math
import operator
import os
import re

import rows
import stamps
from command import Fault, shown

# How many bytes of a log are read at a time, and the most bytes in a line.
BLOCK, LONGEST = 1 << 17, 1 << 20

# How many processes share a log at most.
MOST = 3

# How many pieces of a log are searched for its first time.
UNTIMED = 64

# By how many seconds times in a log fall back that is told.
FAR = 3600

# How many logs are listed in their order, before the last one.
LISTED = 7

# How bytes that aren't UTF-8 are decoded: as they are escaped in addresses, such as %FF.
ESCAPED = "percent"
codecs.register_error(ESCAPED, lambda error: (rows.escaped(error.object[error.start : error.end]), error.end))

# How a NUL in a name is written: Python before 3.11 reads no CSV that has one.
NUL = "%00"

# Why lines are left out.
LONG = f"a line of more than {LONGEST} bytes"
NO_TIME, EARLY, LATE = "no time that can be read", "before --since", "at --until or later"

# What is said of a log that isn't what it was when it was first read.
CHANGED = "it changed while it was read"

# What is told of lines without a time where only the order of logs needs it.
TIMELESS = f"{NO_TIME}, so at the time before"


def shown_of(line):
    """The beginning of a line, as text."""
    return line[:100].decode(errors=ESCAPED)


def places(values, value):
    """Where a value is in a list."""
    at = -1
    for _ in range(values.count(value)):
        at = values.index(value, at + 1)
        yield at


class Log:
    """A log, or several that are taken in the order of their times. It is read again each time."""

    has_times = False
    end = re.compile(b"\n")  # of a line

    def __init__(self, words):
        self.names, self.copies = words.log, words.copies
        self.name, self.file = self.names[0], None  # the one that is being read
        self.has_queries, self.by = not words.no_query, words.by
        self.since, self.until = words.since, words.until
        self.whats = [None]  # op and page of each request that differs, by a number from 1
        self.numbers = {}  # by op and page
        self.paths = {}  # pages with a query, and what they are without it
        self.stamps = stamps.Stamps(words.by)
        self.left_out = {}  # why: how many lines, and the name, line and text of the first
        self.order = []  # the logs in the order in which they begin
        self.latest, self.fallen = {}, {}  # by log: the latest time; the first line that is far before it, and how far
        self.has_requests = False
        self.idle = []  # what is said of patterns that match no request
        self.turn = self.sharers = 1  # which of the processes that share the log this is, and how many there are
        self.stats = {}  # of logs that may be shared: how each was at first, since it may grow, or be rotated

    def __str__(self):
        more = f" and {len(self.names) - 1} more" if len(self.names) > 1 else ""
        return rows.called(self.names[0]) + more

    def is_merged(self):
        """Whether several logs are taken by their times."""
        return self.has_times and len(self.names) > 1

    def fault(self, line, why):
        """A fault in a line of the log that is being read."""
        return rows.fault(self.name, line, why)

    def number_of(self, what):
        """The number of an op and page."""
        number = self.numbers.setdefault(what, len(self.whats))
        if number == len(self.whats):
            self.whats.append(what)
        return number

    def leave_out(self, why, line, text, count=1):
        """Counts a line that is left out."""
        self.left_out.setdefault(why, [0, self.name, line, text])[0] += count

    def drop(self, why, keeps, numbers, lines, texts):
        """Leaves out requests that aren't kept."""
        for at in [at for at, keep in enumerate(keeps) if not keep]:
            if numbers[at]:
                numbers[at] = 0
                self.leave_out(why, lines[at], texts[at])

    def told(self):
        """How several logs were taken, how many lines are left out, why, and the first of them; and what is idle."""
        if self.order != sorted(self.order):
            names = [rows.called(self.names[place]) for place in self.order]
            names[LISTED:-1] = [".."] * (len(names) > LISTED + 1)
            yield f"taken in the order of their first times: {', '.join(names)}"
        if len(self.names) > 1 and not self.has_times:
            yield "taken in the order in which the logs are named: --time COLUMN sorts them by time"
        for place, (line, seconds) in sorted(self.fallen.items()):
            hours = round(seconds / FAR)
            back = f"{rows.called(self.names[place])}: the times fall back by {hours} hour{'s' * (hours > 1)}"
            yield f"{back} before line {line}, so last likes may be old: name logs one by one to sort them"
        for name, plain in self.copies.items():
            yield f"left out {name}: {rows.called(plain)} has all of its lines"
        found = self.left_out.items()
        for why, (count, name, line, text) in sorted(found, key=lambda entry: self.place(entry[1][1:])):
            place = f"line {line}" + (f" of {rows.called(name)}" if len(self.names) > 1 else "")
            done = "kept" if why == TIMELESS else "left out"
            yield f"{done} {count}, {why}: the first is {place}, {shown(text)}"
        yield from self.idle

    def read(self):
        """How much of the log was read, as text."""
        name, share = rows.called(self.name), rows.share(self.file)
        return f"{name}{share}" if share else f"reading {name}"

    def begin(self):
        """Begins to read."""
        self.left_out, self.has_requests = {}, False
        self.latest, self.fallen = {}, {}

    def cut(self, block):
        """Cuts a block behind its last line."""
        return block.rpartition(b"\n")

    def blocks(self, file):
        """A log in pieces of whole lines, each with the number of its first. Of a line that is left out, the piece is why
        and its beginning, as text."""
        rest, line, is_long = b"", 1, False
        left = self.stats[self.name].st_size if self.name in self.stats and rows.is_plain(file, self.file) else math.inf
        while block := file.read(min(BLOCK, left)):
            left -= len(block)
            block = block.removeprefix(codecs.BOM_UTF8) if line == 1 and not rest else block
            if is_long:
                found = self.end.search(block)
                block, is_long = block[found.end() :] if found else b"", not found
            lines, end, block = self.cut(block)
            if end:
                lines += end
                first = self.end.search(lines)
                if len(rest) + first.start() > LONGEST:
                    yield line, (LONG, shown_of(rest))
                    line, rest, lines = line + 1, b"", lines[first.end() :]
                if rest or lines:
                    yield line, rest + lines
                    line += lines.count(b"\n")
                rest = b""
            rest += block
            if len(rest) > LONGEST:
                yield line, (LONG, shown_of(rest))
                line, rest, is_long = line + 1, b"", True
        if 0 < left < math.inf:
            raise Fault(f"{self.name}: {CHANGED}")
        if rest:
            yield line, self.last(rest)

    def last(self, line):
        """The piece of a last line, which has no end."""
        return line + b"\n"

    def first_of(self, times):
        """The first of these times that can be read."""
        return next((at for at in (self.stamps[time][0] for time in times) if at > -math.inf), -math.inf)

    def pieces_of(self, place, least=-math.inf):
        """The pieces of a log, each after its time, or that of a piece before if it has none or an earlier one."""
        self.name = self.names[place]
        with rows.opened(self.name) as (file, self.file):
            was = self.stats.get(self.name)
            if was and not os.path.samestat(was, os.fstat(self.file.fileno())):
                raise Fault(f"{self.name}: {CHANGED}")
            for line, piece in self.pieces_in(file):
                if self.is_merged() and not isinstance(piece, tuple):
                    least = max(least, self.time_of(piece))
                yield least, place, line, piece

    def begun(self, place):
        """The first time in a log, its place, and its pieces. A file is opened anew when they are due."""
        pieces, seen = self.pieces_of(place), []
        for piece in itertools.islice(pieces, UNTIMED):
            seen.append(piece)
            if piece[0] > -math.inf:
                break
        first = seen[-1][0] if seen else -math.inf
        if not os.path.isfile(self.name):
            return first, place, itertools.chain(seen, pieces)
        pieces.close()
        return first, place, self.pieces_of(place, first)

    def pieces(self):
        """The pieces of all logs. Of several with times, the next one is always the one that begins first."""
        if not self.is_merged():
            for place in range(len(self.names)):
                yield from self.pieces_of(place)
            return
        waiting, at_hand = sorted(map(self.begun, range(len(self.names)))), []
        self.order = [place for _, place, _ in waiting]
        while waiting or at_hand:
            if waiting and (not at_hand or waiting[0][:2] < at_hand[0][0][:2]):
                _, place, follow = waiting.pop(0)
            else:
                piece, follow = heapq.heappop(at_hand)
                yield piece
                place = piece[1]
            self.name = self.names[place]
            if piece := next(follow, None):
                heapq.heappush(at_hand, (piece, follow))

    def batches(self):
        """The requests in batches: the first line of the piece, and the places of those that aren't requests; the number
        of each one's op and page, and their users; if needed, the latest time so far in the piece of each, and its day
        or hour; then the latest time of the piece, its first one, and the log's place."""
        self.begin()
        turns = itertools.cycle(range(1, self.sharers + 1))
        for least, place, line, piece in self.pieces():
            self.name = self.names[place]
            if isinstance(piece, tuple):
                if self.turn == 1:
                    why, text = piece
                    self.leave_out(why, line, text)
            elif next(turns) == self.turn:
                columns = self.requests_in(line, piece)
                if self.has_times:
                    self.note_fall(place, columns[0], columns[3])
                batch = self.batch_of(*columns)
                self.has_requests = self.has_requests or bool(batch[1])
                yield line, *batch, least, place

    def note_fall(self, place, lines, times):
        """Notes where times in a log fall far back, as where the newest of several logs comes first in one."""
        self.stamps.make_room()
        latest = self.latest.get(place, -math.inf)
        known = {self.stamps[time][0] for time in set(times)} - {-math.inf}
        self.latest[place] = max([latest, *known])
        if place in self.fallen or min(known, default=math.inf) >= self.latest[place] - FAR:
            return
        for line, time in zip(lines, times):
            at = self.stamps[time][0]
            if -math.inf < at < latest - FAR:
                self.fallen[place] = line, latest - at
                return
            latest = max(latest, at)

    def batch_of(self, lines, numbers, users, times, texts):
        """A batch of what is kept of a piece."""
        latest, periods, end = None, None, -math.inf
        if self.is_merged() or self.by or self.since is not None or self.until is not None:
            self.stamps.make_room()
            found = list(map(self.stamps.__getitem__, times))
            self.drop_times(found, numbers, lines, texts)
            if self.is_merged():
                times = list(map(operator.itemgetter(0), found))
                for at in [at for at, time in enumerate(times) if time == -math.inf and numbers[at]]:
                    self.leave_out(TIMELESS, lines[at], texts[at])
                latest = list(itertools.accumulate(times, max))
                end = latest[-1]
                latest = list(itertools.compress(latest, numbers))
            periods = [period for (*_, period), number in zip(found, numbers) if number] if self.by else None
        kept = [list(itertools.compress(column, numbers)) for column in (numbers, users)]
        return list(places(numbers, 0)), *kept, latest, periods, end

    def drop_times(self, found, numbers, lines, texts):
        """Leaves out requests whose time can't be read, if it is needed, and those of other times than asked for."""
        if self.by or self.since is not None or self.until is not None:
            walls = [wall for _, wall, _ in found]
            self.drop(NO_TIME, [wall is not None for wall in walls], numbers, lines, texts)
            since = -math.inf if self.since is None else self.since
            until = math.inf if self.until is None else self.until
            self.drop(EARLY, [wall is None or wall >= since for wall in walls], numbers, lines, texts)
            self.drop(LATE, [wall is None or wall < until for wall in walls], numbers, lines, texts)

    def joined(self, users):
        """Users as one text, which moves to another process faster: NULs part them, and none has one."""
        return "\0".join(users)

    def readers(self):
        """How many processes may share the log, each with its turn at a piece."""
        return 1

    def found(self):
        """What was found when all is read, for a process that joins it."""
        return {name: getattr(self, name) for name in ("left_out", "has_requests", "paths", "order", "fallen")}

    def join(self, found):
        """Takes what processes found that shared the log."""
        self.begin()
        for part in found:
            self.has_requests = self.has_requests or part["has_requests"]
            self.paths.update(part["paths"])
            self.order = part["order"]
            for place, fall in part["fallen"].items():
                self.fallen[place] = min(fall, self.fallen.get(place, fall))
            for why, (count, *first) in part["left_out"].items():
                more, *other = self.left_out.get(why, (0, *first))
                self.left_out[why] = [count + more, *min(first, other, key=self.place)]

    def place(self, first):
        """Where the first line is that was left out for a reason: its log and its line."""
        return self.names.index(first[0]), first[1]

    def judge(self):
        """Stops if no request is left, once all is read."""
        if not self.has_requests and self.left_out:
            raise Fault(f"{self}: no request: {'; '.join(self.told())}")
