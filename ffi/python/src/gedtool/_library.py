"""Memory that is handed to the calls of the shared object, and how their statuses are read.

Nothing is copied: a file is read where its bytes stand, and an answer is written into the `bytes` that the caller gets.
"""

from __future__ import annotations

import ctypes
import os
from collections.abc import Iterator
from contextlib import contextmanager
from ctypes import POINTER, byref, c_char_p, c_int, c_size_t, c_ssize_t, c_uint32, c_uint64, c_void_p
from typing import Union

from ._calls import HOLDING, OK, RELEASING, ROOM_TOO_SMALL, Calls, bound
from ._faults import TOO_LONG, Which, fault

Data = Union[bytes, bytearray, memoryview, str, "os.PathLike[str]"]
"""A file: its bytes, in whatever holds them in one piece, or its path."""

LIMIT = 1_073_741_824
"""The most bytes that a file may have."""


class _Buffer(ctypes.Structure):
    """Python's Py_buffer, whose form is part of the stable ABI."""

    _fields_ = [
        ("address", c_void_p),
        ("holder", c_void_p),
        ("length", c_ssize_t),
        ("item_size", c_ssize_t),
        ("is_read_only", c_int),
        ("dimensions", c_int),
        ("format", c_char_p),
        ("shape", POINTER(c_ssize_t)),
        ("strides", POINTER(c_ssize_t)),
        ("suboffsets", POINTER(c_ssize_t)),
        ("internal", c_void_p),
    ]

    @property
    def first_byte(self) -> int:
        """Where the bytes stand; where there are none, any place, since the library wants no null."""
        return self.address or ctypes.addressof(self)


_python = ctypes.PyDLL(None)
_get_buffer = bound(_python, "PyObject_GetBuffer", c_int, ctypes.py_object, POINTER(_Buffer), c_int)
_release_buffer = bound(_python, "PyBuffer_Release", None, POINTER(_Buffer))
_new_bytes = bound(_python, "PyBytes_FromStringAndSize", c_void_p, c_char_p, c_ssize_t)
_address_of_bytes = bound(_python, "PyBytes_AsString", c_void_p, c_void_p)
_shorten_bytes = bound(_python, "_PyBytes_Resize", c_int, POINTER(c_void_p), c_ssize_t)
_forget = bound(_python, "Py_DecRef", None, c_void_p)


def _calls_for(*files: _Buffer) -> Calls:
    """The calls to be made over these files.

    The library relies on a file's bytes to stay what they are. Those that can be written are kept from the interpreter's other
    threads by its lock; over all others it is released.
    """
    return RELEASING if all(file.is_read_only for file in files) else HOLDING


class _Room:
    """A new `bytes` that nobody else has seen, to be written by the library. It is not filled before."""

    def __init__(self, length: int) -> None:
        self._bytes = c_void_p()
        self._bytes.value = _new_bytes(None, length)
        self.length = length
        self.address = _address_of_bytes(self._bytes)

    def shortened(self, length: int) -> bytes:
        """The first `length` bytes of the room, which must have been written. The room is used up."""
        _shorten_bytes(byref(self._bytes), length)
        return ctypes.py_object.from_buffer(self._bytes).value

    def __del__(self) -> None:
        _forget(self._bytes)


@contextmanager
def _held(data: Data, which: Which = None) -> Iterator[_Buffer]:
    """The bytes of a file, which stay where they are until the end."""
    if isinstance(data, (str, os.PathLike)):
        data = _read(data, which)
    buffer = _Buffer()
    _get_buffer(data, byref(buffer), 0)
    try:
        yield buffer
    finally:
        _release_buffer(byref(buffer))


# How many bytes of a file are read at a time whose length is not known.
_PART = 1 << 20


def _read(path: Union[str, os.PathLike[str]], which: Which) -> bytes:
    """The bytes of the file of this path. One that is known to be too long is not read, and one that turns out to be, such as a device
    that never ends, no further."""
    parts: list[bytes] = []
    length = 0
    with open(path, "rb", buffering=0) as file:
        expected = os.fstat(file.fileno()).st_size
        if expected > LIMIT:
            raise fault(TOO_LONG, which=which)
        # a file of a known length is read at once
        while part := file.read(max(expected - length, _PART)):
            parts.append(part)
            length += len(part)
            if length > LIMIT:
                raise fault(TOO_LONG, which=which)
    return parts[0] if len(parts) == 1 else b"".join(parts)


def _check(status: int, line: int, which: int = 0) -> None:
    """Raises what a status says."""
    if status != OK:
        raise fault(status, line or None, (None, "first", "second")[which])


def answer(name: str, settings: int, data: Data) -> bytes:
    """What the library's call of this name writes."""
    length, line = c_size_t(), c_uint64()
    with _held(data) as file:
        call = _calls_for(file).answers[name]
        # what a file of usual make needs; memory that is not written costs nothing
        wanted = min(file.length, LIMIT) * 9 // 8 + 4096
        while True:
            room = _Room(wanted)
            status = call(settings, file.first_byte, file.length, room.address, room.length, byref(length), byref(line))
            if status != ROOM_TOO_SMALL:
                break
            wanted = length.value
    _check(status, line.value)
    return room.shortened(length.value)


def digest(settings: int, data: Data) -> bytes:
    """What the library's `digest` answers: 32 bytes."""
    digest, line = ctypes.create_string_buffer(32), c_uint64()
    with _held(data) as file:
        status = _calls_for(file).digest(settings, file.first_byte, file.length, digest, len(digest), byref(line))
    _check(status, line.value)
    return digest.raw


def same(settings: int, first: Data, second: Data) -> bool:
    """What the library's `same` answers."""
    is_same, which, line = c_uint32(), c_uint32(), c_uint64()
    with _held(first, "first") as one, _held(second, "second") as other:
        status = _calls_for(one, other).same(
            settings,
            one.first_byte,
            one.length,
            other.first_byte,
            other.length,
            byref(is_same),
            byref(which),
            byref(line),
        )
    _check(status, line.value, which.value)
    return bool(is_same.value)
