"""The shared object beside this file, as `unixvol.h` declares it."""

from __future__ import annotations

import ctypes
import operator
import os
import time
from ctypes import POINTER, Structure, c_bool, c_char_p, c_int32, c_size_t, c_uint8, c_uint16, c_uint32, c_void_p
from datetime import datetime
from enum import IntEnum
from typing import Any

# A moment: with its time zone, in seconds since the beginning of 1970, or None for that of the clock.
Moment = datetime | int | None


class Handle(Structure):
    """A handle, closed at first."""

    _fields_ = [("volume", c_void_p), ("is_open", c_bool)]


class Node(Structure):
    """What a node is."""

    _fields_ = [
        ("size", c_uint32),
        ("accessed", c_uint32),
        ("modified", c_uint32),
        ("changed", c_uint32),
        ("inode", c_uint16),
        ("permissions", c_uint16),
        ("links", c_uint16),
        ("uid", c_uint16),
        ("gid", c_uint16),
        ("kind", c_uint8),
        ("keeps_changed", c_bool),
    ]


class Entry(Structure):
    """A name in a directory."""

    _fields_ = [("inode", c_uint16), ("name", c_uint8 * 14)]


class Sizes(Structure):
    """The sizes of a volume."""

    _fields_ = [
        ("blocks", c_uint32),
        ("data_start", c_uint32),
        ("free_blocks", c_uint32),
        ("last_inode", c_uint16),
        ("edition", c_uint8),
    ]


class View(Structure):
    """The part of an image to show, and its form."""

    _fields_ = [("block", c_uint32), ("inode", c_uint16), ("kind", c_uint8), ("json", c_bool), ("lost", c_bool)]


class RescueView(Structure):
    """What is rescued of an image with lost blocks."""

    _fields_ = [("at", c_uint32), ("has_map", c_bool), ("lost", c_bool), ("damaged", c_bool)]


class Seen(Structure):
    """The sizes of what a command printed, and its status."""

    _fields_ = [("text", c_size_t), ("lines", c_size_t), ("status", c_uint8)]


class Repaired(Structure):
    """Something that a repair changed."""

    _fields_ = [
        ("before", c_uint32),
        ("after", c_uint32),
        ("slot", c_uint32),
        ("inode", c_uint16),
        ("kind", c_uint8),
        ("name_before", c_uint8 * 14),
        ("name_after", c_uint8 * 14),
    ]


class Look(IntEnum):
    """What is shown of an image."""

    INODE = 1
    SUPER = 2
    DF = 3
    FREE = 4
    BLOCK = 5
    FIND = 6
    SUMS = 7
    CHECK = 8
    MAP = 9
    SVG = 10
    SLOTS = 11
    LIST = 12
    DUMP = 13
    DUMP_NODE = 14


class By(IntEnum):
    """How two images are compared."""

    TREE = 1
    ALL_TIMES = 2
    FIELDS = 3
    ALL_FIELDS = 4
    TREE_JSON = 5
    ALL_TIMES_JSON = 6
    FIELDS_JSON = 7
    ALL_FIELDS_JSON = 8


_handle = POINTER(Handle)
_given = [c_char_p, c_size_t]
_into = [c_void_p, c_size_t]
_count = POINTER(c_size_t)
_query = [_handle, c_uint16, c_uint16, *_given]
_seen = [*_into, POINTER(Seen)]
_call = [_handle, c_uint16, c_uint16, c_uint32, *_given]

# What each function takes.
FUNCTIONS: dict[str, list[Any]] = {
    "open": [_handle, c_uint8, *_given],
    "mkfs": [_handle, c_uint8, c_uint32, c_uint16, c_uint16, c_uint16, c_uint32],
    "close": [_handle],
    "judge": [c_uint8, *_given],
    "size": [_handle, _count],
    "image": [_handle, *_into],
    "explain": [c_uint8, *_given, *_into, _count],
    "salvage": [c_uint8, *_into],
    "look": [c_uint8, *_given, POINTER(View), *_given, *_given, *_seen],
    "compare": [c_uint8, *_given, *_given, c_uint8, *_seen],
    "rescue": [c_uint8, *_given, POINTER(RescueView), *_given, *_given, *_seen],
    "repair": [c_uint8, *_into, c_uint32, POINTER(Repaired), c_size_t, _count],
    "stat": [*_query, POINTER(Node)],
    "read": [*_query, c_uint32, *_into, _count],
    "list": [*_query, POINTER(Entry), c_size_t, _count],
    "about": [_handle, POINTER(Sizes)],
    "create": [*_call, c_uint16, POINTER(c_uint16)],
    "mkdir": [*_call, c_uint16, POINTER(c_uint16)],
    "mknod": [*_call, c_uint16, c_uint8, c_uint8, c_uint8, POINTER(c_uint16)],
    "link": [*_call, *_given],
    "unlink": _call,
    "rmdir": _call,
    "write": [*_call, c_uint32, *_given],
    "truncate": [*_call, c_uint32],
    "chmod": [*_call, c_uint16],
    "chown": [*_call, c_uint16, c_uint16],
    "times": [*_call, c_uint32, c_uint32],
    "cut": [_handle],
    "report": [_handle, c_uint8],
    "export": [_handle, *_given, _count],
    "answer_size": [_handle, _count],
    "answer": [_handle, c_size_t, *_into, _count],
    "name": [c_uint16, *_into, _count],
}

_LIBRARY = ctypes.CDLL(os.path.join(os.path.dirname(os.path.abspath(__file__)), "libunixvol.so.0"))

for _name, _takes in FUNCTIONS.items():
    _made = getattr(_LIBRARY, f"unixvol_{_name}")
    _made.argtypes = _takes
    _made.restype = None if _name == "close" else c_int32


def function(name: str) -> Any:
    """The function `unixvol_NAME`."""
    return getattr(_LIBRARY, f"unixvol_{name}")


def text_of(number: int) -> str:
    """The text of a number that a function returned."""
    into, count = room(32), c_size_t()
    function("name")(number, into, len(into), count)
    return into.raw[: count.value].decode()


def word(value: int, bits: int, what: str) -> int:
    """Returns a whole number that fits into so many bits. (ctypes would cut a greater one off.)"""
    value = operator.index(value)
    if not 0 <= value < 1 << bits:
        raise OverflowError(f"{what} is {value}, and has to be 0 to {(1 << bits) - 1}")
    return value


def seconds(moment: Moment) -> int:
    """Returns a moment in seconds since the beginning of 1970."""
    if isinstance(moment, datetime):
        moment = int(moment.timestamp())
    return word(int(time.time()) if moment is None else moment, 32, "the moment in seconds")


def room(count: int) -> Any:
    """A buffer of so many bytes."""
    return (ctypes.c_char * count)()
