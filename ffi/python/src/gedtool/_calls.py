"""The shared object by ctypes: its calls, its version, and what it tells of a fault by its number."""

from __future__ import annotations

import ctypes
import os
from ctypes import POINTER, byref, c_size_t, c_uint32, c_uint64, c_void_p
from pathlib import Path
from typing import Any

ABI = 1
OK = 0
ROOM_TOO_SMALL = 64

# parts of what a fault means
MEANING = 0
CAUSE = 1


def bound(library: ctypes.CDLL, name: str, result: Any, *arguments: Any) -> Any:
    """A call of a library, with its types. The library is not one that others bind too."""
    call = getattr(library, name)
    call.restype = result
    call.argtypes = arguments
    return call


class Calls:
    """The calls of the shared object, by one kind of library of ctypes."""

    def __init__(self, library: ctypes.CDLL) -> None:
        # a pointer and a length
        file = room = (c_void_p, c_size_t)
        self.answers = {
            name: bound(library, f"gedtool_{name}", c_uint32, c_uint32, *file, *room, POINTER(c_size_t), POINTER(c_uint64))
            for name in ("lines", "check", "show", "canon")
        }
        self.same = bound(
            library, "gedtool_same", c_uint32, c_uint32, *file, *file, POINTER(c_uint32), POINTER(c_uint32), POINTER(c_uint64)
        )
        self.digest = bound(library, "gedtool_digest", c_uint32, c_uint32, *file, *room, POINTER(c_uint64))
        self.fault_name = bound(library, "gedtool_fault_name", c_uint32, c_uint32, *room, POINTER(c_size_t))
        self.explain = bound(library, "gedtool_explain", c_uint32, c_uint32, c_uint32, *room, POINTER(c_size_t))
        self.abi = bound(library, "gedtool_abi", c_uint32)
        self.version = bound(library, "gedtool_version", c_uint32)


def _load() -> tuple[Calls, Calls]:
    """The calls that release the interpreter's lock, and those that hold it."""
    path = os.environ.get("GEDTOOL_LIBRARY") or str(Path(__file__).with_name("libgedtool.so"))
    try:
        calls = Calls(ctypes.CDLL(path))
        abi = calls.abi()
        if abi == ABI:
            return calls, Calls(ctypes.PyDLL(path))
    except (OSError, AttributeError) as error:
        raise ImportError(f"no library of gedtool: {error}", path=path) from error
    raise ImportError(f"{path} has the ABI {abi}, and this package wants {ABI}", path=path)


RELEASING, HOLDING = _load()


def version() -> str:
    """The version of the library, as the program's --version has it."""
    number = RELEASING.version()
    return f"{number // 10_000}.{number // 100 % 100}.{number % 100}"


def fault_name(fault: int) -> str:
    """The name of the fault with a number."""
    return _text(HOLDING.fault_name, fault)


def fault_part(fault: int, part: int) -> str:
    """A part of what the fault with a number means."""
    return _text(HOLDING.explain, fault, part)


def _text(call: Any, fault: int, *part: int) -> str:
    """What a call for a text about a fault answers."""
    room, length = ctypes.create_string_buffer(256), c_size_t()
    status = call(fault, *part, room, len(room), byref(length))
    if status == ROOM_TOO_SMALL:
        room = ctypes.create_string_buffer(length.value)
        status = call(fault, *part, room, len(room), byref(length))
    if status != OK:
        raise ValueError(f"no fault has the number {fault}")
    return room.raw[: length.value].decode()
