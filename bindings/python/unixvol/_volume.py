"""Volumes, and bytes that may be one."""

from __future__ import annotations

import builtins
import ctypes
import io
import os
import threading
from dataclasses import dataclass
from typing import Any, BinaryIO, Literal

from ._faults import NoReport, Unsound, check
from ._files import ImageFile, Part, read_image
from ._packs import BLOCK, read_volume
from ._library import Handle, Moment, Sizes, function, room, seconds, word
from ._paths import VolumePath
from ._scan import find_volumes

# A file's name, or an image's bytes.
Source = str | os.PathLike[str] | bytes | bytearray | memoryview

Checker = Literal["icheck", "dcheck", "ncheck"]


@dataclass(frozen=True)
class About:
    """The edition and the sizes of a volume: its blocks of 512 bytes, the first after the i-list, how many are free;
    and its last i-number."""

    edition: int
    blocks: int
    data_start: int
    free_blocks: int
    last_inode: int


@dataclass(frozen=True)
class PackVolume:
    """A volume that was found in a file: the block of 512 bytes that it begins at, its edition, its number of blocks, and
    the least of the twelve rules that it breaks, or None if it is sound."""

    at: int
    edition: int
    blocks: int
    rule: int | None

    @property
    def is_sound(self) -> bool:
        """True if it keeps all twelve rules, so that `open` takes it."""
        return self.rule is None


class Volume:
    """A volume in memory. Use it in a `with`, or close it; what wasn't saved is lost then.

    `uid` and `gid` are the user and the group in whose name queries and calls are made; user 0 may do everything. `now`
    is the moment of calls, or None for that of the clock. All three may be changed. Threads may share a volume: its
    queries and calls are made one at a time, as are `read_bytes` and `write_bytes`.
    """

    def __init__(self, handle: Handle, file: ImageFile | None = None, now: Moment = None):
        """For `open` and `mkfs`, which make it."""
        self._handle = handle
        # Held for each query and call, and for what takes several.
        self._lock = threading.RLock()
        # Held for a whole save, which may wait for another program.
        self._saving = threading.Lock()
        # The file that the volume was opened from comes first.
        self._has_file = file is not None
        self._files = [] if file is None else [file]
        self.uid = 0
        self.gid = 0
        self.now = now

    def __truediv__(self, path: str | os.PathLike[str]) -> VolumePath:
        return self.root / path

    def __bytes__(self) -> bytes:
        """The image."""
        with self._lock:
            size = ctypes.c_size_t()
            check(function("size")(self._handle, size))
            into = room(size.value)
            check(function("image")(self._handle, into, size))
        return into.raw

    def __enter__(self) -> Volume:
        return self

    def __exit__(self, *fault: object) -> None:
        self.close()

    def __del__(self, close: Any = function("close")) -> None:
        close(self._handle)

    def __reduce__(self) -> Any:
        raise TypeError("a Volume can't be copied or pickled; bytes(volume) is its image")

    @property
    def closed(self) -> bool:
        """True once the volume is closed."""
        # (a call of another thread shows it as closed while it lasts)
        with self._lock:
            return not self._handle.is_open

    @property
    def root(self) -> VolumePath:
        """The path of the root."""
        return VolumePath(self)

    def close(self) -> None:
        """Closes the volume, frees its memory, and ends the lock of its file. It may be closed already."""
        with self._saving:
            for file in self._files:
                file.close()
        with self._lock:
            function("close")(self._handle)

    def about(self) -> About:
        """The edition and the sizes."""
        sizes = Sizes()
        with self._lock:
            check(function("about")(self._handle, sizes))
        return About(sizes.edition, sizes.blocks, sizes.data_start, sizes.free_blocks, sizes.last_inode)

    def cut(self) -> None:
        """Frees the memory of the calls that were made. It is freed by itself as soon as it counts more than an eighth of
        the image."""
        with self._lock:
            check(function("cut")(self._handle))

    def report(self, checker: Checker) -> str:
        """The report of `icheck`, `dcheck` or `ncheck`, as the program prints it."""
        if checker not in ("icheck", "dcheck", "ncheck"):
            raise NoReport(f"no checker is named {checker!r}")
        with self._lock:
            check(function("report")(self._handle, ord(checker[0])))
            return os.fsdecode(self._answer())

    def save(self, name: str | os.PathLike[str] | None = None) -> None:
        """Writes the image to a file, or to the one that it was opened from, as the program's commands do.

        A new file is written beside it, and then takes its name. So whatever happens, that name has the old bytes or
        the new ones. The permissions stay, and owner and group too, if the system allows it. The file is locked
        meanwhile; if another program has it locked for half a minute, `Locked` is raised. A volume that was opened in a
        pack is saved in its place there, and alone under another name. A file with holes keeps them.

        A file that the volume was read from, or saved in before, must be as it was then: if another program has changed
        it since, `Changed` is raised, and nothing is written. `save` under another name then keeps both."""
        if name is None and not self._has_file:
            raise ValueError("the volume was opened from no file, so save needs a name")
        with self._saving:
            data = bytes(self)
            self._file_at(None if name is None else os.path.abspath(name)).save(data)

    def _file_at(self, path: str | None) -> ImageFile:
        if path is None:
            return self._files[0]
        for file in self._files:
            if file.is_at(path):
                return file
        self._files.append(ImageFile(path))
        return self._files[-1]

    # What paths call

    def _query(self, name: str, path: str, *more: Any) -> None:
        raw = os.fsencode(path)
        uid, gid = word(self.uid, 16, "uid"), word(self.gid, 16, "gid")
        with self._lock:
            check(function(name)(self._handle, uid, gid, raw, len(raw), *more), path)

    def _change(self, name: str, path: str, *more: Any) -> None:
        raw, now = os.fsencode(path), seconds(self.now)
        uid, gid = word(self.uid, 16, "uid"), word(self.gid, 16, "gid")
        with self._lock:
            check(function(name)(self._handle, uid, gid, now, raw, len(raw), *more), path)

    def _export(self, path: str) -> tuple[bytes, int]:
        raw, left_out = os.fsencode(path), ctypes.c_size_t()
        with self._lock:
            check(function("export")(self._handle, raw, len(raw), left_out), path)
            return self._answer(), left_out.value

    def _answer(self) -> bytes:
        count = ctypes.c_size_t()
        check(function("answer_size")(self._handle, count))
        into = room(count.value)
        check(function("answer")(self._handle, 0, into, count, count))
        return into.raw


def open(source: Source, edition: int, *, at: int | None = None, lock: bool = False) -> Volume:
    """Opens the volume in a file, or in bytes. It must be sound, else `Unsound` is raised.

    With `at` the file is a disk pack, and the volume begins at that block of 512 bytes: only the volume is read, and
    `save` keeps every other byte of the pack. A file that ends before that block is a `ValueError`.

    With `lock` the file, a regular one, stays locked until the volume is closed, also while it is saved: commands of the
    program that change it, and other volumes here, wait until then, for half a minute. Without it `save` locks the file,
    and looks then if it has changed. One lock serves all volumes of a pack."""
    if not isinstance(source, (str, os.PathLike)):
        if lock:
            raise ValueError("bytes can't be locked, only a file")
        return Volume(_opened(data_of(source, edition, at), edition))
    data, file = read_image(os.path.abspath(source), lock, _part(at, edition))
    try:
        return Volume(_opened(data, edition), file)
    except BaseException:
        file.close()
        raise


def mkfs(edition: int, blocks: int, list_blocks: int, *, uid: int = 0, gid: int = 0, now: Moment = None) -> Volume:
    """Makes a new volume of so many blocks of 512 bytes.

    `list_blocks` of them are the i-list, with 16 i-nodes each in the sixth edition, and 8 in the seventh. The root
    belongs to `uid` and `gid`. `now` is its moment, and that of later calls."""
    handle = Handle()
    number = function("mkfs")(
        handle,
        word(edition, 8, "edition"),
        word(blocks, 32, "blocks"),
        word(list_blocks, 16, "list_blocks"),
        word(uid, 16, "uid"),
        word(gid, 16, "gid"),
        seconds(now),
    )
    check(number)
    return Volume(handle, now=now)


def judge(source: Source, edition: int, *, at: int | None = None) -> int | None:
    """Returns the least of the twelve rules that a file or bytes break, or None for a sound volume. `at` is its block in
    a pack, as for `open`."""
    data = data_of(source, edition, at)
    try:
        check(function("judge")(word(edition, 8, "edition"), data, len(data)))
    except Unsound as fault:
        return fault.rule
    return None


def volumes(source: Source) -> list[PackVolume]:
    """Finds the volumes of a disk pack, a file or bytes, and judges each, as the program's `identify` does: by the sizes in
    their super-blocks, the heads of their free lists and their roots. What is inside a volume isn't looked at. One that is
    cut off is found after the others; it breaks rule 1.

    The file is read to its end, and each volume again; one volume at a time is in memory, or all of a pipe. Bytes that are
    no volume may look like one by chance; only one that is sound is called so."""
    found = []
    with _stream(source) as file:
        for at, edition, blocks in find_volumes(file):
            there = file.seek(0, os.SEEK_END) - BLOCK * at
            file.seek(BLOCK * at)
            found.append(PackVolume(at, edition, blocks, judge(file.read(min(BLOCK * blocks, there)), edition)))
    return found


def explain(source: Source, edition: int, *, at: int | None = None) -> str:
    """Returns what is found of each of the twelve rules in a file or bytes, a line for each. `at` is the volume's block
    in a pack, as for `open`."""
    data, into, count = data_of(source, edition, at), room(4096), ctypes.c_size_t()
    check(function("explain")(word(edition, 8, "edition"), data, len(data), into, len(into), count))
    return os.fsdecode(into.raw[: count.value])


def salvage(source: Source, edition: int, *, at: int | None = None) -> bytes:
    """Returns the image in a file or bytes with its free list made anew. `at` is the volume's block in a pack, as for
    `open`; the image is that of the volume alone.

    It is sound then, and all files and directories are as they were. If anything else is wrong with it, `Unsound` is
    raised."""
    data = bytearray(data_of(source, edition, at))
    view = (ctypes.c_char * len(data)).from_buffer(data)
    check(function("salvage")(word(edition, 8, "edition"), view, len(data)))
    return bytes(data)


def _opened(data: bytes, edition: int) -> Handle:
    handle = Handle()
    check(function("open")(handle, word(edition, 8, "edition"), data, len(data)))
    return handle


def _stream(source: Source) -> BinaryIO:
    """A file or bytes, to be read from any place."""
    if not isinstance(source, (str, os.PathLike)):
        return io.BytesIO(_bytes(source))
    file = builtins.open(source, "rb")
    if file.seekable():
        return file
    with file:
        return io.BytesIO(file.read())


def _bytes(source: bytes | bytearray | memoryview) -> bytes:
    if isinstance(source, int):
        raise TypeError(f"an image is a file's name or bytes, and not the number {source}")
    return bytes(source)


def _part(at: int | None, edition: int) -> Part | None:
    return None if at is None else Part(word(at, 32, "at"), edition)


def data_of(source: Source, edition: int, at: int | None) -> bytes:
    part = _part(at, edition)
    if isinstance(source, (str, os.PathLike)):
        return read_image(os.path.abspath(source), part=part)[0]
    data = _bytes(source)
    return data if part is None else read_volume(io.BytesIO(data), *part)
