"""A volume inside a disk pack: the part of a file from a block on, which is read by itself, and saved in its place."""

from __future__ import annotations

import os
import struct
from collections.abc import Iterator
from typing import BinaryIO

# The bytes of a block.
BLOCK = 512

# The most bytes that are copied at once.
PIECE = 1 << 20

# The bytes of a page, which is left out as a hole if all of them are zero.
PAGE = 4096


def read_volume(file: BinaryIO, at: int, edition: int) -> bytes:
    """Reads the volume that begins at block `at` of an open file: all bytes that its super-block says, or those that
    there are."""
    _move(file, BLOCK * at, f"block {at}")
    front = b"".join(_pieces(file, 2 * BLOCK))
    return front + b"".join(_pieces(file, _size(front, edition) - len(front)))


def spliced(pack: BinaryIO, at: int, data: bytes) -> Iterator[bytes]:
    """The bytes of a pack, with `data` in the place of as many from block `at` on."""
    yield from _pieces(pack, BLOCK * at)
    yield data
    pack.seek(BLOCK * at + len(data))
    yield from iter(lambda: pack.read(PIECE), b"")


def write_all(file: BinaryIO, pieces: Iterator[bytes], *, has_holes: bool) -> None:
    """Writes these bytes to an empty file, and, if it is to have holes, leaves them for zeros."""
    for piece in pieces:
        if not has_holes:
            file.write(piece)
            continue
        for first in range(0, len(piece), PAGE):
            page = piece[first : first + PAGE]
            if page.count(0) == len(page):
                file.seek(len(page), os.SEEK_CUR)
            else:
                file.write(page)
    file.truncate()


def has_holes(number: int) -> bool:
    """True if an open file stores fewer bytes than its size."""
    found = os.fstat(number)
    return BLOCK * found.st_blocks < found.st_size


def _move(file: BinaryIO, first: int, what: str) -> None:
    """Moves an open file to a byte, or, if it is a pipe, reads up to it."""
    if file.seekable():
        is_short = file.seek(0, os.SEEK_END) < first
        file.seek(first)
    else:
        is_short = sum(map(len, _pieces(file, first))) < first
    if is_short:
        raise ValueError(f"the file ends before {what}")


def _pieces(file: BinaryIO, count: int) -> Iterator[bytes]:
    """Reads so many bytes of a file, or those that there are."""
    while count > 0 and (piece := file.read(min(count, PIECE))):
        yield piece
        count -= len(piece)


def _size(front: bytes, edition: int) -> int:
    """The bytes of a volume, by the blocks that its super-block says (`s_fsize` of filsys.h): in the sixth edition a
    word, in the seventh two, the high one first."""
    if len(front) < 2 * BLOCK:
        return 0
    if edition == 6:
        return BLOCK * struct.unpack_from("<H", front, BLOCK + 2)[0]
    high, low = struct.unpack_from("<HH", front, BLOCK + 2)
    return BLOCK * (high << 16 | low)
