"""The requests of a log in batches, which other processes read ahead, in turns."""

import collections
import contextlib
import fcntl
import itertools
import marshal
import os
import signal

from command import SIGNALS, Fault
from reading import CHANGED

# How many bytes the length of a batch has, and how many the pipe holds.
LENGTH, ROOM = 8, 1 << 20

# The most characters of what an exception says.
MOST = 200

# The fields of a batch.
FIELDS = "first others numbers users times periods end least place new name read reader"


class Batch(collections.namedtuple("Batch", FIELDS)):
    """Requests as a log has them in a batch, with their users as one text; op and page of each number that is new; the
    name of the log that they are in, and how much of it was read, in words; and which process read them, whose numbers
    they have."""

    __slots__ = ()

    def names(self):
        """The users of the requests."""
        return self.users.split("\0") if self.numbers else []

    def line(self, at):
        """The line of the request at a place."""
        for other in self.others:
            at += other <= at
        return self.first + at

    def line_of(self, number):
        """The line of the first request with this number."""
        return self.line(self.numbers.index(number))


class Numbers(dict):
    """The numbers of ops and pages by their first appearance, by those that a log has; and those that are new."""

    def __missing__(self, number):
        self.new.append(number)
        self[number] = len(self)
        return self[number]


def batches(log):
    """The requests of a log."""
    numbers = Numbers()
    for first, others, found, users, *columns in log.batches():
        numbers.new = []
        found, users = list(map(numbers.__getitem__, found)), log.joined(users)
        yield first, others, found, users, *columns, list(map(log.whats.__getitem__, numbers.new)), log.name, log.read()


def send(log, out):
    """Sends the batches of a log, and at the end what was found, or what went wrong."""
    try:
        for batch in batches(log):
            put(out, batch)
        put(out, log.found())
    except Fault as fault:
        put(out, str(fault))
    except Exception as error:
        put(out, f"{log}: the process that reads it failed: {cause(error)}")


def cause(error):
    """What an exception says, in a line."""
    if isinstance(error, MemoryError):
        return "out of memory"
    said = " ".join(str(error).split())
    return f"{type(error).__name__}: {said[:MOST]}{'..' * (len(said) > MOST)}"


def put(out, value):
    data = marshal.dumps(value)
    out.write(len(data).to_bytes(LENGTH, "little") + data)


def take(file, log):
    """The next batch, or at the end what was found."""
    length = int.from_bytes(file.read(LENGTH), "little")
    data = file.read(length)
    if len(data) < max(length, 1):
        raise Fault(f"{log}: the process that reads it was stopped")
    value = marshal.loads(data)
    if isinstance(value, str):
        raise Fault(value)
    return value


def taken(files, log):
    """The batches of all processes, in their turns. At the end the log has what they found, and is judged."""
    for reader, file in itertools.cycle(enumerate(files)):
        value = take(file, log)
        if isinstance(value, dict):
            break
        batch = Batch(*value, reader)
        log.name = batch.name
        yield batch
    # There was no turn left for any of them.
    others = [take(file, log) for place, file in enumerate(files) if place != reader]
    if not all(isinstance(other, dict) for other in others):
        raise Fault(f"{log}: {CHANGED}")
    log.join([*others[:reader], value, *others[reader:]])
    log.judge()


@contextlib.contextmanager
def started(log, turn, sharers):
    """What a process sends that reads a log meanwhile, in its turns."""
    ours, theirs = os.pipe()
    with contextlib.suppress(AttributeError, OSError):  # an old Python, or a limit of the system
        fcntl.fcntl(theirs, fcntl.F_SETPIPE_SZ, ROOM)
    # A signal waits until both processes can end at it.
    signals = signal.pthread_sigmask(signal.SIG_BLOCK, SIGNALS)
    child = os.fork()
    if child == 0:
        # It ends when all is read, at a signal, or when the pipe is closed.
        with contextlib.suppress(BaseException), open(theirs, "wb") as out:
            signal.pthread_sigmask(signal.SIG_SETMASK, signals)
            os.close(ours)
            log.turn, log.sharers = turn, sharers
            send(log, out)
        os._exit(0)
    try:
        signal.pthread_sigmask(signal.SIG_SETMASK, signals)
        os.close(theirs)
        with open(ours, "rb") as file:
            yield file
    finally:
        os.kill(child, signal.SIGKILL)
        os.waitpid(child, 0)


@contextlib.contextmanager
def reading(log):
    """The batches of a log, which other processes read meanwhile."""
    readers = log.readers()
    with contextlib.ExitStack() as files:
        yield taken([files.enter_context(started(log, turn, readers)) for turn in range(1, readers + 1)], log)
