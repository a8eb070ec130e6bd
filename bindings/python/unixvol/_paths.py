"""Paths in a volume, used as those of `pathlib`."""

from __future__ import annotations

import ctypes
import io
import os
import stat as modes
import tarfile
import warnings
from collections.abc import Iterator
from dataclasses import dataclass
from datetime import datetime, timezone
from pathlib import PurePosixPath
from typing import TYPE_CHECKING, Any, Literal

from ._faults import Exists, LongName, NoDevice, NoEntry, NotDirectory
from ._library import Entry, Moment, Node, room, seconds, word

if TYPE_CHECKING:
    from ._volume import Volume

Kind = Literal["regular", "directory", "special"]

# The bytes of a name (dir.h).
NAME = 14

_KINDS: dict[int, Kind] = {1: "regular", 2: "directory", 3: "special"}
_MODES = {"regular": modes.S_IFREG, "directory": modes.S_IFDIR, "special": 0}


@dataclass(frozen=True)
class Stat:
    """What a node is. `changed` is None in the sixth edition, which doesn't keep it."""

    inode: int
    kind: Kind
    permissions: int
    links: int
    uid: int
    gid: int
    size: int
    accessed: datetime
    modified: datetime
    changed: datetime | None

    @property
    def mode(self) -> str:
        """Kind and permissions as `ls -l` shows them; a special file begins with `?`."""
        return modes.filemode(_MODES[self.kind] | self.permissions)


class VolumePath:
    """A path in a volume. Queries and calls are made in the name of the volume's user, at the volume's moment.

    Names are bytes on the volume, and text here as `os.fsdecode` makes it, so that any name comes back as it was. Of a name
    of more than 14 bytes queries, and calls on what is there, take the first 14, as the systems do; what would make such a
    name raises `LongName`.
    """

    __slots__ = ("path", "volume")

    def __init__(self, volume: Volume, path: str | os.PathLike[str] = "/"):
        self.volume = volume
        self.path = PurePosixPath("/", path)

    def __truediv__(self, name: str | os.PathLike[str]) -> VolumePath:
        return VolumePath(self.volume, self.path / name)

    def __str__(self) -> str:
        return str(self.path)

    def __repr__(self) -> str:
        return f"VolumePath({str(self)!r})"

    def __eq__(self, other: object) -> bool:
        return isinstance(other, VolumePath) and self.volume is other.volume and self.path == other.path

    def __hash__(self) -> int:
        return hash((id(self.volume), self.path))

    @property
    def name(self) -> str:
        """The last name, or the empty text of the root."""
        return self.path.name

    @property
    def parent(self) -> VolumePath:
        """The path without its last name."""
        return VolumePath(self.volume, self.path.parent)

    # Queries

    def stat(self) -> Stat:
        """What the node is."""
        node = Node()
        self._query("stat", node)
        return Stat(
            inode=node.inode,
            kind=_KINDS[node.kind],
            permissions=node.permissions,
            links=node.links,
            uid=node.uid,
            gid=node.gid,
            size=node.size,
            accessed=_time(node.accessed),
            modified=_time(node.modified),
            changed=_time(node.changed) if node.keeps_changed else None,
        )

    def exists(self) -> bool:
        """True if the path leads to a node."""
        return self._kind() is not None

    def is_dir(self) -> bool:
        """True if the path leads to a directory."""
        return self._kind() == "directory"

    def is_file(self) -> bool:
        """True if the path leads to a regular file."""
        return self._kind() == "regular"

    def iterdir(self) -> Iterator[VolumePath]:
        """The paths of all names in a directory but `.` and `..`, in ascending order of their bytes."""
        for name in self._names():
            yield self / name

    def walk(self) -> Iterator[tuple[VolumePath, list[str], list[str]]]:
        """This directory and all below it, each with the names of its directories and those of its other nodes.

        As `pathlib.Path.walk`: names that are removed from the first list aren't walked.
        """
        pending = [self]
        while pending:
            folder = pending.pop()
            folders: list[str] = []
            others: list[str] = []
            for name in folder._names():
                (folders if (folder / name).is_dir() else others).append(name)
            yield folder, folders, others
            pending.extend(folder / name for name in reversed(folders))

    def read_bytes(self, offset: int = 0, count: int | None = None) -> bytes:
        """Reads a regular file from an offset on: `count` bytes, fewer at its end, or all up to its end."""
        with self.volume._lock:
            there = max(self.stat().size - word(offset, 32, "offset"), 0)
            count = there if count is None else min(count, there)
            into, read = room(count), ctypes.c_size_t()
            self._query("read", offset, into, count, read)
        return into.raw[: read.value]

    def read_text(self, encoding: str = "latin-1") -> str:
        """Reads a regular file as text."""
        return self.read_bytes().decode(encoding)

    def export(self) -> tarfile.TarFile:
        """A tar archive of all that is below a directory. Warns of entries whose paths have more than 4096 bytes, which are left out."""
        data, left_out = self.volume._export(str(self))
        if left_out:
            warnings.warn(f"{left_out} entries are left out, since their paths have more than 4096 bytes", stacklevel=2)
        return tarfile.open(fileobj=io.BytesIO(data))

    # Calls

    def create(self, permissions: int = 0o644) -> int:
        """Makes an empty regular file, and returns its i-number."""
        return self._make("create", permissions)

    def mknod(self, kind: str, major: int, minor: int, permissions: int = 0o644) -> int:
        """Makes the special file of a character device, "c", or of a block device, "b", with these numbers, and returns its
        i-number. Only user 0 may."""
        if kind not in ("c", "b"):
            raise NoDevice(kind)
        return self._make("mknod", permissions, ord(kind), word(major, 8, "major"), word(minor, 8, "minor"))

    def mkdir(self, permissions: int = 0o755, parents: bool = False, exist_ok: bool = False) -> None:
        """Makes a directory; with `parents` those on the way too. With `exist_ok` it may be there already."""
        try:
            self._make("mkdir", permissions)
        except NoEntry:
            if not parents or self.parent == self:
                raise
            self.parent.mkdir(parents=True, exist_ok=True)
            self.mkdir(permissions, exist_ok=exist_ok)
        except Exists:
            if not exist_ok or not self.is_dir():
                raise

    def hardlink_to(self, target: VolumePath | str) -> None:
        """Makes this path a further name of a node other than a directory. A text is a path from the root."""
        target = self._beside(target)
        if target.volume is not self.volume:
            raise ValueError("a node has all its names in one volume")
        self._expect_short()
        name = os.fsencode(str(self))
        target._call("link", name, len(name))

    def rename(self, target: VolumePath | str) -> VolumePath:
        """Gives a node other than a directory this other path, and returns that. A text is a path from the root. As the
        systems do, it makes the further name, and then removes the old one: if that is refused, the new one goes again, and
        times have changed. What is at the other path already isn't replaced: `Exists`."""
        target = self._beside(target)
        with self.volume._lock:
            target.hardlink_to(self)
            try:
                self.unlink()
            except OSError:
                target.unlink()
                raise
        return target

    def unlink(self) -> None:
        """Removes a name of a node other than a directory. The node is freed with its last name."""
        self._call("unlink")

    def rmdir(self) -> None:
        """Removes a directory that has `.` and `..` alone."""
        self._call("rmdir")

    def write_at(self, offset: int, data: bytes) -> None:
        """Writes bytes into a regular file, all or none. Bytes between its end and the offset become zeros."""
        data = bytes(memoryview(data))
        self._call("write", word(offset, 32, "offset"), data, len(data))

    def write_bytes(self, data: bytes) -> int:
        """Makes a regular file of just these bytes, and returns their number. A file that is there keeps its i-number,
        owner and permissions. If the bytes are refused, what was there stays. Other threads see all of it or nothing."""
        data = bytes(memoryview(data))
        self._expect_short()
        with self.volume._lock:
            is_new = not self.exists()
            if is_new:
                self.create()
            try:
                self.write_at(0, data)
            except OSError:
                if is_new:
                    self.unlink()
                raise
            if self.stat().size > len(data):
                self.truncate(len(data))
        return len(data)

    def write_text(self, text: str, encoding: str = "latin-1") -> int:
        """Makes a regular file of just this text."""
        return self.write_bytes(text.encode(encoding))

    def truncate(self, length: int) -> None:
        """Cuts a regular file to its first `length` bytes."""
        self._call("truncate", word(length, 32, "length"))

    def chmod(self, permissions: int) -> None:
        """Gives the node other permissions, bits under octal 7777."""
        self._call("chmod", word(permissions, 16, "permissions"))

    def chown(self, uid: int, gid: int) -> None:
        """Gives the node to another user and group."""
        self._call("chown", word(uid, 16, "uid"), word(gid, 16, "gid"))

    def utime(self, times: tuple[Moment, Moment] | None = None) -> None:
        """Gives the node other times, of its last reading and of its last change; without them the volume's moment."""
        accessed, modified = times or (self.volume.now, self.volume.now)
        self._call("times", seconds(accessed), seconds(modified))

    # What these have in common

    def _query(self, name: str, *more: Any) -> None:
        self.volume._query(name, str(self), *more)

    def _call(self, name: str, *more: Any) -> None:
        self.volume._change(name, str(self), *more)

    def _make(self, name: str, permissions: int, *more: Any) -> int:
        self._expect_short()
        inode = ctypes.c_uint16()
        self._call(name, word(permissions, 16, "permissions"), *more, inode)
        return inode.value

    def _beside(self, other: VolumePath | str) -> VolumePath:
        """Another path, which as a text is one of this volume, from the root."""
        return other if isinstance(other, VolumePath) else VolumePath(self.volume, other)

    def _expect_short(self) -> None:
        """Refuses to make a name that the volume would cut, since two such names may be one."""
        if len(os.fsencode(self.name)) > NAME:
            raise LongName("the name has more than 14 bytes", str(self))

    def _kind(self) -> Kind | None:
        try:
            return self.stat().kind
        except (NoEntry, NotDirectory):
            return None

    def _names(self) -> list[str]:
        has_room, count = 0, ctypes.c_size_t(64)
        entries: Any = ()
        with self.volume._lock:
            while has_room < count.value:
                has_room = count.value
                entries = (Entry * has_room)()
                self._query("list", entries, has_room, count)
        names = [bytes(entry.name).split(b"\0")[0] for entry in entries[: count.value]]
        return [os.fsdecode(name) for name in names if name not in (b".", b"..")]


def _time(seconds: int) -> datetime:
    return datetime.fromtimestamp(seconds, timezone.utc)
