"""The file of an image: its lock, whether it has changed, and how it is replaced. What is promised of all this is in
`bindings/README.md`, under "Saving"."""

from __future__ import annotations

import builtins
import errno
import fcntl
import os
import stat
import time
from collections.abc import Callable
from contextlib import suppress
from typing import NamedTuple

from ._faults import Changed, Locked
from ._packs import has_holes, read_volume, spliced, write_all

# How long to wait while another program has a file locked, and the pause between two tries, in seconds.
PATIENCE = 30.0
PAUSE = 0.01

# The number of names that are tried for a new file.
TRIES = 1000

# The attribute that is a file's access control list.
ACL = "system.posix_acl_access"


class Stamp(NamedTuple):
    """The identity of a file and of its contents: two equal stamps belong to one file that hasn't changed."""

    device: int
    inode: int
    size: int
    modified: int

    @classmethod
    def of(cls, found: os.stat_result) -> Stamp:
        """The stamp of a file, from what the system reports; the time is in nanoseconds."""
        return cls(found.st_dev, found.st_ino, found.st_size, found.st_mtime_ns)


class Part(NamedTuple):
    """The place of a volume in a disk pack: the block of 512 bytes that it begins at, and its edition."""

    at: int
    edition: int


class ImageFile:
    """A file from which a volume was opened, or in which it is saved.

    `stamp` is the one it had when it was last read or saved, or None. `lock` is a descriptor that has it locked, if the
    lock is kept. `part` is the volume's place in the file, or None if it is the whole file.
    """

    def __init__(self, path: str, stamp: Stamp | None = None, lock: int | None = None, part: Part | None = None):
        self.lock = lock
        self.part = part
        self.stamp = stamp
        self.path = path
        self.place = os.path.realpath(path)

    def __del__(self) -> None:
        self.close()

    def is_at(self, path: str) -> bool:
        """True if a path leads to this file."""
        return path == self.path or os.path.realpath(path) == self.place

    def save(self, data: bytes) -> None:
        """Replaces the file by a new one with these bytes, in the volume's place. If it has a stamp here, it must still
        have that one."""
        place = os.path.realpath(self.path)
        old = _open_old(place, self.stamp, is_read=self.part is not None, is_locked=self.lock is not None)
        try:
            new, self.stamp = _replace(place, data, old, self.stamp, self.part)
        finally:
            if old is not None:
                os.close(old)
        self.place = place
        if self.lock is None:
            os.close(new)
        else:
            os.close(self.lock)
            self.lock = new
        # This comes last, since an interrupt may end it, and the file is saved already.
        _sync_folder(os.path.dirname(place))

    def close(self, close: Callable[[int], None] = os.close) -> None:
        """Ends the lock, if it was kept."""
        if self.lock is not None:
            close(self.lock)
            self.lock = None


def read_image(path: str, lock: bool = False, part: Part | None = None) -> tuple[bytes, ImageFile]:
    """Returns the bytes of a file, or of a volume in it, and the file, with the stamp that it had before the first byte
    was read; only a regular file has one, and can be locked."""
    number = _open_locked(path, os.O_RDONLY) if lock else None
    try:
        with builtins.open(path if number is None else number, "rb", closefd=number is None) as file:
            found = os.fstat(file.fileno())
            data = file.read() if part is None else read_volume(file, *part)
    except BaseException:
        if number is not None:
            os.close(number)
        raise
    return data, ImageFile(path, Stamp.of(found) if stat.S_ISREG(found.st_mode) else None, number, part)


def _open_old(place: str, known: Stamp | None, *, is_read: bool, is_locked: bool) -> int | None:
    """Opens and locks the file to replace, and returns its descriptor, or None if there is no file.

    It is opened for writing, since nobody may replace what he may not write, and for reading if it is a pack."""
    flags = os.O_RDWR if is_read else os.O_WRONLY
    try:
        return _open_locked(place, flags | os.O_NOFOLLOW, known, is_locked=is_locked)
    except FileNotFoundError:
        if known is None:
            return None
        raise Changed("it is gone", place) from None


def _open_locked(path: str, flags: int, known: Stamp | None = None, *, is_locked: bool = False) -> int:
    """Opens and locks the regular file at a path, and returns its descriptor. With `is_locked` this volume has it locked
    already.

    If a stamp is given, and the file has another one, raises `Changed`. If another program keeps it locked, raises
    `Locked` in the end."""
    until = time.monotonic() + PATIENCE
    while True:
        number = _open_regular(path, flags)
        is_ours = False
        try:
            found = Stamp.of(os.fstat(number))
            if known is not None and found != known:
                raise Changed("it has changed since it was read or saved", path)
            is_ours = is_locked or (_try_lock(number) and Stamp.of(os.stat(path)) == found)
        finally:
            if not is_ours:
                os.close(number)
        if is_ours:
            return number
        if time.monotonic() >= until:
            raise Locked("another program has had it locked for half a minute", path)
        time.sleep(PAUSE)


def _open_regular(path: str, flags: int) -> int:
    """Opens a regular file, and nothing else: opening a pipe could wait for its other end."""
    if stat.S_ISREG(os.stat(path).st_mode):
        number = os.open(path, flags | os.O_CLOEXEC | os.O_NONBLOCK)
        if stat.S_ISREG(os.fstat(number).st_mode):
            return number
        os.close(number)
    raise ValueError(f"{path} is no regular file")


def _try_lock(number: int) -> bool:
    """Locks an open file. False if another program has it locked; true also if its file system has no locks."""
    try:
        fcntl.flock(number, fcntl.LOCK_EX | fcntl.LOCK_NB)
    except BlockingIOError:
        return False
    except OSError:
        pass
    return True


def _replace(place: str, data: bytes, old: int | None, known: Stamp | None, part: Part | None) -> tuple[int, Stamp]:
    """Replaces the file that is open as `old` by a new one, with these bytes in a volume's place or alone, and returns
    the new one's descriptor, which has it locked, and its stamp. If a stamp is given, the old file must still have it."""
    new, beside = _new_file(place, 0o666 if old is None else 0o600)
    try:
        if old is not None:
            _keep_rights(new, old)
        _fill(new, data, old, part)
        os.fsync(new)
        if not _try_lock(new):
            raise Changed("another program has locked the new file that was to take its place", place)
        stamp = Stamp.of(os.fstat(new))
        _expect_there(place, None if old is None else Stamp.of(os.fstat(old)), known)
        if _stamp_of_name(beside) != stamp:
            raise Changed("another program moved the new file that was to take its place", place)
        os.rename(beside, place)
    except BaseException:
        os.close(new)
        with suppress(FileNotFoundError):
            os.unlink(beside)
        raise
    return new, stamp


def _fill(new: int, data: bytes, old: int | None, part: Part | None) -> None:
    """Writes a new file: these bytes, or the old file's with these in a volume's place. It has holes if the old one
    has."""
    with builtins.open(new, "wb", closefd=False) as file:
        if old is None:
            file.write(data)
        elif part is None:
            write_all(file, iter([data]), has_holes=has_holes(old))
        else:
            with builtins.open(old, "rb", closefd=False) as pack:
                write_all(file, spliced(pack, part.at, data), has_holes=has_holes(old))


def _expect_there(place: str, old: Stamp | None, known: Stamp | None) -> None:
    """Raises `Changed` if the file at a place isn't the old one, if there was one, or hasn't the stamp that is known."""
    found = _stamp_of_name(place)
    if known is not None and found != known:
        raise Changed("it has changed since it was read or saved", place)
    if (found and (found.device, found.inode)) != (old and (old.device, old.inode)):
        raise Changed("another program has put another file in its place", place)


def _stamp_of_name(path: str) -> Stamp | None:
    """The stamp of a name itself, which may be a symbolic link, or None if there is no such name."""
    with suppress(FileNotFoundError):
        return Stamp.of(os.lstat(path))
    return None


def _new_file(place: str, mode: int) -> tuple[int, str]:
    """Makes an empty file beside a place, and returns its descriptor and its path."""
    for number in range(TRIES):
        beside = os.path.join(os.path.dirname(place), f".unixvol-{number}")
        with suppress(FileExistsError):
            return os.open(beside, os.O_WRONLY | os.O_CREAT | os.O_EXCL | os.O_CLOEXEC, mode), beside
    raise FileExistsError(errno.EEXIST, "beside it .unixvol-0 to .unixvol-999 are all there", place)


def _keep_rights(new: int, old: int) -> None:
    """Gives an open file the owner, the group, the permissions and the access control list of an old one, as far as the
    system allows it. Nobody gains rights by what it doesn't allow."""
    was, found = os.fstat(old), os.fstat(new)
    # (not the bits that run a program with its owner's rights, since an image isn't run)
    mode, acl = was.st_mode & 0o777, _acl_of(old)
    if found.st_gid != was.st_gid and not _give(new, -1, was.st_gid):
        # The list's rights for the group would be those of another group.
        mode, acl = (_without_group(mode), None) if acl is None else (mode & 0o700, None)
    if found.st_uid != was.st_uid:
        _give(new, was.st_uid, -1)
    if not _give_acl(new, acl):
        mode &= 0o700
    os.fchmod(new, mode)


def _give(number: int, uid: int, gid: int) -> bool:
    """Gives an open file to a user or to a group; the other is -1. True if the system allowed it."""
    try:
        os.fchown(number, uid, gid)
    except OSError:
        return False
    return True


def _without_group(mode: int) -> int:
    """The permissions of a file that can't have its old group: the new group gets none, and other users only those that
    the old group had too."""
    return (mode & 0o700) | (mode & (mode >> 3) & 0o007)


def _acl_of(number: int) -> bytes | None:
    """The access control list of an open file, if it has one. Then its mode has the list's mask in the group's place."""
    try:
        return os.getxattr(number, ACL)
    except OSError as fault:
        if fault.errno in (errno.ENODATA, errno.ENOTSUP):
            return None
        raise


def _give_acl(number: int, acl: bytes | None) -> bool:
    """Gives an open file an access control list, or takes away the one that its folder gave it. True if it has that
    list now."""
    try:
        if acl is None:
            os.removexattr(number, ACL)
        else:
            os.setxattr(number, ACL, acl)
    except OSError as fault:
        return acl is None and fault.errno in (errno.ENODATA, errno.ENOTSUP)
    return True


def _sync_folder(folder: str) -> None:
    """Has a folder's entries written to the disk, if the system allows it. The image is complete in any case."""
    with suppress(OSError):
        number = os.open(folder, os.O_RDONLY | os.O_CLOEXEC)
        try:
            os.fsync(number)
        finally:
            os.close(number)
