"""The numbers of likes.h."""

from enum import IntEnum

NO_PAGE = 2**32 - 1
NO_HOT = 2**32 - 1  # in place of hot: no page gets hot by itself
MAX_SPLIT = 64
MAX_PERIOD_US = 1000000000
FIRST_ERROR = 100


class Status(IntEnum):
    """What calls answer: outcomes, from 100 on errors, and from 1,000 on errors of services."""

    OK = 0
    LIKED = 1
    SEEN = 2
    WAITS = 3
    RUNS = 4
    BETWEEN = 5
    NO_ROOM = 6
    LIKE_LIMIT = 7
    GONE = 8
    GOES_ON = 9
    ANNOUNCED = 10
    NOT_ALL_IN = 11
    RELEASED = 12
    ENDED = 13
    COUNTED = 14
    NO_MOMENT = 15
    NOT_ENDED = 16
    ALL_TAKEN = 17
    GLIMPSED = 18
    BUSY = 19
    NONE = 20
    EMPTY = 100
    IN_USE = 101
    NO_MEMORY = 102
    UNKNOWN_USER = 103
    OTHER_SEAT = 104
    UNKNOWN_PAGE = 105
    UNKNOWN_OP = 106
    UNKNOWN_END = 107
    WRONG_RANGE = 108
    WRONG_RESERVED = 109
    WRONG_PAGES = 110
    WRONG_MARKS = 111
    WRONG_COUNT = 112
    WRONG_SEATS = 113
    WRONG_USERS = 114
    WRONG_ROOM = 115
    WRONG_HOT = 116
    WRONG_LASTS = 117
    NULL = 118
    OPEN_CLIENT = 119
    NO_THREAD = 1000
    WRONG_PERIOD = 1001
    NOT_STARTED = 1002
    UNKNOWN_SEAT = 1003
    LATE = 1004
    HOLDS_SEAT = 1005
    NOT_LOCKED = 1006
    OPEN_WRITER = 1007
    WRONG_TAG = 1008
    STOPPED = 1009
    WRONG_LENGTH = 1010
    FILE_FAULT = 1011
    NOT_SAVED = 1012
    OTHER_VERSION = 1013
    WRONG_SIZE = 1014
    WRONG_SUM = 1015

    @property
    def text(self) -> str:
        """The text, for messages."""
        from ._library import load

        return str(load().likes_status_text(self).decode())


class Op(IntEnum):
    """What is asked for in a request."""

    LIKE = 0
    LOOK = 1
    GLANCE = 2


class End(IntEnum):
    """Whether a turn may end the phase. IF_IT_SERVES: a joined phase goes on if no page would be split in the next
    one. YES: in any case, for a snapshot."""

    NO = 0
    IF_IT_SERVES = 1
    YES = 2


STATUSES = {status.value: status for status in Status}
LIKED = Status.LIKED
LIKE, LOOK, GLANCE = Op.LIKE, Op.LOOK, Op.GLANCE
