"""Numbers that C holds only if they are cut, and what is no whole number."""

from typing import Any, List, Tuple, Type

OUTSIDE = [-1, -(2**32) + 4, 2**32, 2**32 + 4, 2**64 + 4]
NO_NUMBERS: List[Any] = [4.0, "4", None]
WRONG: List[Tuple[Any, Type[Exception]]] = [(it, ValueError) for it in OUTSIDE] + [(it, TypeError) for it in NO_NUMBERS]
