"""The exceptions that tell faults."""

from __future__ import annotations

from typing import Literal, Optional

from ._calls import CAUSE, MEANING, fault_name, fault_part

Which = Optional[Literal["first", "second"]]
"""One of the two files of `same`; None for the other calls."""

MEMORY = 27
TOO_LONG = 24


class GedtoolError(Exception):
    """Why a call has no answer.

    `number` and `name` are those of the fault in docs/FORMAT.md. `line` is its line, counted from 1, or None where the fault
    has none. `which` is "first" or "second" where `same` tells it, else None. `explanation` says in words what the fault
    means, and what usually causes it.
    """

    __module__ = "gedtool"

    number: int
    line: int | None
    which: Which

    def __init__(self, number: int, line: int | None = None, which: Which = None) -> None:
        super().__init__(number, line, which)
        self.number = number
        self.line = line
        self.which = which

    @property
    def name(self) -> str:
        """The fault's name, which the library tells."""
        return fault_name(self.number)

    @property
    def explanation(self) -> str:
        """What the fault means, and what usually causes it, which the library tells."""
        return f"{fault_part(self.number, MEANING)} {fault_part(self.number, CAUSE)}"

    def __str__(self) -> str:
        """The line by which the program tells the fault."""
        file = f"{self.which} file: " if self.which else ""
        place = f" at line {self.line}" if self.line else ""
        return f"{file}fault {self.number}{place}: {self.name}"


class FileFault(GedtoolError, ValueError):
    """The file is not accepted: its first fault, 1 to 23, with `strict` also 28 and 29."""

    __module__ = "gedtool"


class TooLong(GedtoolError, ValueError):
    """The file has more than `LIMIT` bytes: fault 24."""

    __module__ = "gedtool"


class OutOfMemory(GedtoolError, MemoryError):
    """The library was refused memory: fault 27. The call may be made again."""

    __module__ = "gedtool"


def fault(number: int, line: int | None = None, which: Which = None) -> GedtoolError:
    """The exception that tells a fault."""
    kinds: dict[int, type[GedtoolError]] = {TOO_LONG: TooLong, MEMORY: OutOfMemory}
    return kinds.get(number, FileFault)(number, line, which)
