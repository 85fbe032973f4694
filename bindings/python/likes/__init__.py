"""The live core for Python, by ctypes. Nothing here is proved: it calls likes.h and likes_service.h.

Most programs need the class Likes, and a Writer for each thread with many likes, or a Pool of writers that threads
share. A program that changes phases by itself opens a Driver and takes its Seats and its Phase.

A number that C would cut, below 0 or over 2^32 - 1, is a ValueError, and what isn't a whole number is a TypeError; then
nothing was done. What the library refuses is a Refused with its Status, and any call after close is Closed, but for a
service's statistics and a drop, which gives 0.

The library is the file that LIKES_LIBRARY names, or else the shared library of this version, where the system finds it.
"""

from ._core import Driver, Found, Phase, Seat
from ._errors import Closed, Refused
from ._pool import Pool
from ._rows import Asked, Glimpsed, Seen, Shown, Told
from ._service import Likes, Moment, Statistics, Writer
from ._statuses import GLANCE, LIKE, LIKED, LOOK, MAX_SPLIT, NO_HOT, End, Op, Status

__version__ = "0.6.0"

__all__ = [
    "GLANCE",
    "LIKE",
    "LIKED",
    "LOOK",
    "MAX_SPLIT",
    "NO_HOT",
    "Asked",
    "Closed",
    "Driver",
    "End",
    "Found",
    "Glimpsed",
    "Likes",
    "Moment",
    "Op",
    "Phase",
    "Pool",
    "Refused",
    "Seat",
    "Seen",
    "Shown",
    "Statistics",
    "Status",
    "Told",
    "Writer",
]
