"""The volumes of a disk pack, which are found by their super-blocks as the program's `identify` finds them."""

from __future__ import annotations

import os
import struct
import tarfile
from collections.abc import Iterator
from typing import BinaryIO, NamedTuple

from ._packs import BLOCK, PIECE

# The blocks that tell a volume: the boot block, the super-block and the first of the i-list.
FRONT = 3

# The first bytes of files that gzip, bzip2, xz, zstd and zip packed.
PACKED = b"\x1f\x8b", b"BZh", b"\xfd7zXZ\0", b"\x28\xb5\x2f\xfd", b"PK\x03\x04"

# The most blocks that a whole number of a block can name.
MOST = 2**32 - 1


class Edition(NamedTuple):
    """Where the super-block (filsys.h) of an edition has its free list and the i-list its root, and the limits of the
    sizes (rule 2)."""

    number: int
    least: int
    greatest: int
    most_blocks: int
    before: int  # what `s_isize` leaves out of the blocks before the data zone
    count: int
    slots: int
    root: int
    mode: int  # the bits of a directory's mode, of those in the next mask
    mask: int

    def next_free(self, front: bytes, count: int) -> int:
        """The number of the free list that would be taken next."""
        if self.number == 6:
            return struct.unpack_from("<H", front, BLOCK + self.count + 2 * count)[0]
        high, low = struct.unpack_from("<HH", front, BLOCK + self.count + 4 * count - 2)
        return high << 16 | low


SIXTH = Edition(6, 1, 4095, 0xFFFF, 2, 4, 100, 1024, 0o140000, 0o160000)
SEVENTH = Edition(7, 3, 8193, 0x1000000, 0, 6, 50, 1088, 0o040000, 0o170000)


class Found(NamedTuple):
    """A volume in a pack: the block that it begins at, its edition and its number of blocks."""

    at: int
    edition: int
    blocks: int


def find_volumes(file: BinaryIO) -> Iterator[Found]:
    """The volumes of a pack, in order. What is inside one of them isn't looked at. The last of them may be cut off."""
    blocks = min(file.seek(0, os.SEEK_END) // BLOCK, MOST)
    at = end = 0
    while at + FRONT <= blocks:
        file.seek(BLOCK * at)
        window = file.read(min(PIECE, BLOCK * (blocks - at)))
        ready = len(window) // BLOCK - FRONT + 1
        if ready < 1:
            raise ValueError("the file became shorter while it was read")
        found = next(_in_window(window, ready, at, blocks), None)
        if found is None:
            at += ready
        else:
            yield found
            at = end = found.at + found.blocks
    if end + FRONT <= blocks:
        file.seek(BLOCK * end)
        cut = _cut_at(file.read(BLOCK * FRONT), end)
        if cut is not None:
            yield cut


def _in_window(window: bytes, ready: int, at: int, blocks: int) -> Iterator[Found]:
    """The volumes that begin at the first `ready` blocks of a window, which begins at block `at`."""
    sizes = struct.Struct("<HHH").unpack_from
    for k in range(ready):
        list_size, *words = sizes(window, BLOCK * (k + 1))
        if 0 < list_size <= SEVENTH.greatest:
            front = window[BLOCK * k : BLOCK * (k + FRONT)]
            found = _volume_at(front, at + k, blocks - at - k, list_size, *words)
            if found is not None:
                yield found


def _volume_at(front: bytes, at: int, room: int, list_size: int, first: int, second: int) -> Found | None:
    """The volume of at most `room` blocks that begins with these three. Its sizes, the head of its free list and its root
    are those of one; at block 0 it is enough if the sizes are, and one of the others, unless it is an archive or packed."""
    weak = None
    for edition, size, signs in _editions(front, list_size, first, second):
        if size > room:
            continue
        if signs == 2:
            return Found(at, edition, size)
        if signs == 1 and weak is None:
            weak = Found(at, edition, size)
    return weak if at == 0 and not _is_archive(front) else None


def _cut_at(front: bytes, at: int) -> Found | None:
    """The volume that begins with these three blocks, where none is that has all of its own: it is cut off. Its sizes, the
    head of its free list and its root are those of one, and its first bytes aren't those of another file."""
    is_ext2 = front[1080:1082] == b"\x53\xef"
    if len(front) < BLOCK * FRONT or is_ext2 or _is_archive(front):
        return None
    for edition, size, signs in _editions(front, *struct.unpack_from("<HHH", front, BLOCK)):
        if signs == 2:
            return Found(at, edition, size)
    return None


def _editions(front: bytes, list_size: int, first: int, second: int) -> Iterator[tuple[int, int, int]]:
    """The editions as one of which the sizes of a volume are right (rule 2): the number of each, the number of blocks, and
    how many of the head of the free list and the root are those of a volume."""
    for edition, size in (SIXTH, first), (SEVENTH, first << 16 | second):
        if edition.least <= list_size <= edition.greatest and list_size + edition.before < size <= edition.most_blocks:
            yield edition.number, size, _has_free_head(edition, front, list_size, size) + _has_root(edition, front)


def _is_archive(front: bytes) -> bool:
    """True if a file with these first bytes is packed or an archive of tar."""
    if front.startswith(PACKED):
        return True
    try:
        tarfile.TarInfo.frombuf(front[:BLOCK], "ascii", "surrogateescape")
    except tarfile.HeaderError:
        return False
    return True


def _has_free_head(edition: Edition, front: bytes, list_size: int, size: int) -> bool:
    """True if the array of the free list in the super-block can be one: its count is at most its size, and the number that
    would be taken next is that of a data block, or 0 at the end of the list."""
    count = struct.unpack_from("<H", front, BLOCK + edition.count)[0]
    if count == 0:
        return True
    if count > edition.slots:
        return False
    number = edition.next_free(front, count)
    return (count == 1 and number == 0) or list_size + edition.before <= number < size


def _has_root(edition: Edition, front: bytes) -> bool:
    """True if the root's i-node is that of a directory."""
    return struct.unpack_from("<H", front, edition.root)[0] & edition.mask == edition.mode
