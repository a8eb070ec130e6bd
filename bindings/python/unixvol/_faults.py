"""The exceptions of the library."""

from __future__ import annotations

import errno
import re
from typing import ClassVar

from ._library import text_of


class UnixvolError(Exception):
    """The base of all exceptions here. `number` is the one that the library for C returns, which opens no files: so it
    is 0 for `Changed`, `Locked` and `LongName`."""

    number: int


class Refusal(UnixvolError, OSError):
    """A query or a call was refused. Nothing has changed."""

    code: ClassVar[int]

    def __init__(self, path: str | None = None):
        super().__init__(self.code, f"{self.number} {text_of(self.number)}", path)

    def __reduce__(self):
        return type(self), (self.filename,)


class NotOwner(Refusal, PermissionError):
    """The user is neither the owner nor user 0, or only user 0 may do it."""

    number, code = 1, errno.EPERM


class NoEntry(Refusal, FileNotFoundError):
    """A directory on the way has no such name."""

    number, code = 2, errno.ENOENT


class NoMemory(Refusal, MemoryError):
    """A block of memory was refused."""

    number, code = 12, errno.ENOMEM


class Access(Refusal, PermissionError):
    """The permissions don't allow it."""

    number, code = 13, errno.EACCES


class Exists(Refusal, FileExistsError):
    """The name exists already."""

    number, code = 17, errno.EEXIST


class NotDirectory(Refusal, NotADirectoryError):
    """Something on the way, or the path itself, is no directory."""

    number, code = 20, errno.ENOTDIR


class IsDirectory(Refusal, IsADirectoryError):
    """It is a directory."""

    number, code = 21, errno.EISDIR


class Invalid(Refusal):
    """The path has a zero byte, or the call can't be made for it."""

    number, code = 22, errno.EINVAL


class TooBig(Refusal):
    """The file would be greater than the greatest."""

    number, code = 27, errno.EFBIG


class NoSpace(Refusal):
    """More blocks are needed than are free."""

    number, code = 28, errno.ENOSPC


class TooManyLinks(Refusal):
    """The link count would be above its limit."""

    number, code = 31, errno.EMLINK


class NotEmpty(Refusal):
    """The directory has other entries than `.` and `..`."""

    number, code = 101, errno.ENOTEMPTY


class NotRegular(Refusal):
    """It is a special file."""

    number, code = 102, errno.EINVAL


class NoInode(Refusal):
    """No i-number above the root's is free."""

    number, code = 103, errno.ENOSPC


class BadId(Refusal):
    """A user or group number is above the edition's highest."""

    number, code = 104, errno.EINVAL


class NotRepaired(Refusal):
    """An image can't be repaired: the result would not be sound, or a file that was well by itself would be changed."""

    number, code = 112, errno.EIO


class Unsound(UnixvolError, ValueError):
    """The bytes aren't a sound volume. `rule` is the first of the twelve rules that they break. If two images are compared,
    `image` is the one that breaks it, "old" or "new"; else it is None."""

    def __init__(self, rule: int, image: str | None = None):
        super().__init__(*([rule] if image is None else [rule, image]))
        self.rule = rule
        self.image = image
        self.number = 200 + rule

    def __str__(self) -> str:
        text = text_of(self.number)
        return text if self.image is None else f"{text}: {self.image}"


class Closed(UnixvolError, ValueError):
    """The volume is closed."""

    number = 300


class NoEdition(UnixvolError, ValueError):
    """The edition is neither 6 nor 7."""

    number = 301


class Bounds(UnixvolError, ValueError):
    """No volume can have these sizes."""

    number = 303


class TooMany(UnixvolError):
    """The journal can't be cut, since its records' numbers would reach 2^64."""

    number = 304


class NoReport(UnixvolError, ValueError):
    """No checker has that name."""

    number = 305


class NoLook(UnixvolError, ValueError):
    """A path or a pattern isn't UTF-8, which the commands that show something want."""

    number = 306


class NoDevice(UnixvolError, ValueError):
    """No kind of device has that letter."""

    number = 307


class NotShown(UnixvolError, ValueError):
    """A command shows nothing, for another reason than those above. Its `lines` say why."""

    number = 0

    def __init__(self, lines: str):
        super().__init__(lines)
        self.lines = lines


class FileFault(UnixvolError, OSError):
    """A volume can't be saved in a file, a file can't be locked, or a name can't be made. All is as it was."""

    number = 0
    code: ClassVar[int]

    def __init__(self, reason: str, path: str):
        super().__init__(self.code, reason, path)

    def __reduce__(self):
        return type(self), (self.strerror, self.filename)


class Changed(FileFault):
    """The file isn't as it was when the volume was last read from it or saved in it. Nothing is written: what another
    program wrote stays."""

    code = errno.EBUSY


class Locked(FileFault, BlockingIOError):
    """Another program, such as a mounted volume's, has had the file locked for half a minute."""

    code = errno.EAGAIN


class LongName(FileFault):
    """A name that would be made has more than 14 bytes, and the volume would cut it. Nothing has changed."""

    code = errno.ENAMETOOLONG


_REFUSALS = {kind.number: kind for kind in Refusal.__subclasses__()}
_OTHERS: dict[int, type[UnixvolError]] = {kind.number: kind for kind in (Closed, NoEdition, Bounds, TooMany, NoReport, NoLook, NoDevice)}


def check(number: int, path: str | None = None) -> None:
    """Raises the exception for a number that isn't 0."""
    if number == 0:
        return
    if number in _REFUSALS:
        raise _REFUSALS[number](path)
    if 201 <= number <= 212:
        raise Unsound(number - 200)
    raise _OTHERS[number](text_of(number))


def check_lines(lines: str, path: str | None = None) -> None:
    """Raises the exception for the lines of a command that shows nothing."""
    found = re.match(r"unixvol: (?:(\d+) |unsound, rule (\d+)(?:: (old|new)$)?)", lines, re.MULTILINE)
    number, rule, image = found.groups() if found else (None, None, None)
    if number is not None and int(number) in _REFUSALS:
        raise _REFUSALS[int(number)](path)
    if rule is not None:
        raise Unsound(int(rule), image)
    raise NotShown(lines)
