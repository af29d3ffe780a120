"""Judges, canonicalises and compares FamilySearch GEDCOM 7.0 files.

A file is given as its bytes (`bytes`, `bytearray`, `memoryview`, or what else holds them in one piece) or as its path (`str` or
`os.PathLike`):

>>> import gedtool
>>> gedtool.canon(b"0 HEAD\\r\\n1 GEDC\\r\\n2 VERS 7.0\\r\\n0 TRLR")
b'\\xef\\xbb\\xbf0 HEAD\\n1 GEDC\\n2 VERS 7.0\\n0 TRLR\\n'

A file that is not accepted raises `FileFault`, one of more than `LIMIT` bytes `TooLong`, and an allocation that fails `OutOfMemory`;
each is a `GedtoolError`. A path that cannot be read raises `OSError`, as `open` does. A file that is refused, for example:

>>> gedtool.canon(b"0 HEAD\\n1 GEDC\\n2 VERS 5.5.1\\n0 TRLR\\n")
Traceback (most recent call last):
    ...
gedtool.FileFault: fault 19 at line 3: WrongVersion

With `strict=True` each notice is a fault, so only a file without any is accepted. With `edition=2` the canonical form has no
leading zeros of dates, ages and counts.

Any number of threads may call at once. What a call takes of memory, but for its answer, it gives back before it returns.
"""

from __future__ import annotations

from typing import NamedTuple, Optional

from . import _calls, _library
from ._faults import FileFault, GedtoolError, OutOfMemory, TooLong
from ._library import LIMIT, Data

__all__ = [
    "LIMIT",
    "FileFault",
    "GedtoolError",
    "Notice",
    "OutOfMemory",
    "Structure",
    "TooLong",
    "canon",
    "check",
    "digest",
    "lines",
    "same",
    "show",
]

__version__ = _calls.version()


class Notice(NamedTuple):
    """What `check` tells of an accepted file. It refuses nothing."""

    line: int
    """The line of the file, counted from 1."""
    kind: str
    """"one-way link" or "unlisted tag"."""


class Structure(NamedTuple):
    """A structure of an accepted file, as `show` tells it."""

    level: int
    tag: str
    kind: Optional[str]
    """What the tables ask of its payload, as "Nothing", "DateValue" or "ToFam"; None where they do not list it."""


def lines(data: Data) -> bytes:
    """The lines of a file in their canonical spelling, after a byte order mark.

    Only the lines are judged, faults 1 to 8, and nothing but their spelling is changed.

    >>> lines(b"0 HEAD \\r1 NOTE")
    b'\\xef\\xbb\\xbf0 HEAD\\n1 NOTE\\n'
    """
    return _library.answer("lines", 0, data)


def check(data: Data, *, strict: bool = False) -> list[Notice]:
    """The notices of an accepted file, by line.

    >>> file = b"0 HEAD\\n1 GEDC\\n2 VERS 7.0\\n0 INDI\\n1 AFN 1234\\n0 TRLR\\n"
    >>> check(file)
    [Notice(line=5, kind='unlisted tag')]
    >>> check(file, strict=True)
    Traceback (most recent call last):
        ...
    gedtool.FileFault: fault 29 at line 5: UnlistedTag
    """
    # each row is `line N: KIND`, and the last one `accepted`
    rows = _library.answer("check", _settings(strict), data).decode("ascii").split("\n")[:-2]
    heads = (row.partition(": ") for row in rows)
    return [Notice(int(head[len("line ") :]), kind) for head, _, kind in heads]


def show(data: Data, *, strict: bool = False) -> list[Structure]:
    """The structures of an accepted file, in its order.

    >>> file = b"0 HEAD\\n1 GEDC\\n2 VERS 7.0\\n0 INDI\\n1 AFN 1234\\n0 TRLR\\n"
    >>> for level, tag, kind in show(file):
    ...     print(level, tag, kind)
    0 HEAD Nothing
    1 GEDC Nothing
    2 VERS Version
    0 INDI Nothing
    1 AFN None
    """
    rows = (row.split(" ") for row in _library.answer("show", _settings(strict), data).decode("ascii").split("\n")[:-1])
    return [Structure(int(level), tag, None if kind == "-" else kind) for level, tag, kind in rows]


def canon(data: Data, *, strict: bool = False, edition: int = 1) -> bytes:
    """The canonical form of an accepted file, in the first or the second edition.

    >>> file = b"0 HEAD\\n1 GEDC\\n2 VERS 7.0\\n0 @ANNA@ INDI\\n1 FAMS @VOID@\\n1 BIRT\\n2 DATE 03 MAY 1871\\n0 TRLR\\n"
    >>> print(canon(file, edition=2).decode("utf-8-sig"), end="")
    0 HEAD
    1 GEDC
    2 VERS 7.0
    0 INDI
    1 BIRT
    2 DATE 3 MAY 1871
    1 FAMS @VOID@
    0 TRLR
    """
    return _library.answer("canon", _settings(strict, edition), data)


def same(first: Data, second: Data, *, strict: bool = False, edition: int = 1) -> bool:
    """Whether two accepted files have the same canonical form.

    A fault says by `which` of which file it is: "first" or "second".

    >>> same(b"0 HEAD\\n1 GEDC\\n2 VERS 7.0\\n0 TRLR\\n", b"\\xef\\xbb\\xbf0 HEAD\\r1 GEDC\\r2 VERS 7.0\\r0 TRLR")
    True
    >>> try:
    ...     same(b"0 HEAD\\n1 GEDC\\n2 VERS 7.0\\n0 TRLR\\n", b"")
    ... except FileFault as error:
    ...     print(error.which, error.number, error.name, error.line)
    second 12 NoHeader 1
    """
    return _library.same(_settings(strict, edition), first, second)


def digest(data: Data, *, strict: bool = False, edition: int = 1) -> str:
    """The SHA-256 of the canonical form, as 64 hexadecimal digits.

    Two accepted files that are the `same` have the same digest.

    >>> digest(b"0 HEAD\\n1 GEDC\\n2 VERS 7.0\\n0 TRLR\\n")
    '5cacae0e09e7df567ff2141fa92e4ad7c507de890f049b090e8f1867904ad16d'
    """
    return _library.digest(_settings(strict, edition), data).hex()


def _settings(strict: bool, edition: int = 1) -> int:
    """The settings of a call, as the library has them."""
    if edition not in (1, 2):
        raise ValueError(f"edition must be 1 or 2, not {edition!r}")
    return (1 if strict else 0) | (2 if edition == 2 else 0)
