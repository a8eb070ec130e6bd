"""What commands show of an image, as values. Their fields are the keys of `docs/JSON.md`, with the meanings that they have
there; a key that isn't known here is skipped. Paths and names are text as `os.fsdecode` makes it."""

from __future__ import annotations

import os
import re
from collections.abc import Callable, Iterator
from dataclasses import dataclass, field, fields
from typing import Any, Generic, TypeVar

T = TypeVar("T")


@dataclass(frozen=True)
class Extent:
    """A range of blocks of a file. `level` is 0 for data, 1 to 3 for indirect blocks; `logical` is the first logical block
    at or below them; `inside` is true if they are data blocks of the volume."""

    block: int
    count: int
    inside: bool
    level: int
    logical: int


@dataclass(frozen=True)
class Inode:
    """An i-node. Times are seconds since 1970; `ctime` is None in the sixth edition. `mode` and `permissions` are octal. `major`
    and `minor` are those of a special file."""

    ino: int
    kind: str
    mode: str
    permissions: str
    links: int
    uid: int
    gid: int
    size: int
    atime: int
    mtime: int
    ctime: int | None
    addr: tuple[int, ...]
    extents: tuple[Extent, ...]
    major: int | None = None
    minor: int | None = None


@dataclass(frozen=True)
class FreeFault:
    """The fault at which the free list ends, and the number that it is about."""

    fault: str
    number: int


@dataclass(frozen=True)
class SuperBlock:
    """The super-block: its fields as they are stored, under the names of `filsys.h`, and what is counted of the volume."""

    isize: int
    fsize: int
    nfree: int
    free: tuple[int, ...]
    ninode: int
    cache: tuple[int, ...]
    flock: int
    ilock: int
    fmod: int
    ronly: int
    time: int
    data_blocks: int
    free_blocks: int
    free_fault: FreeFault | None
    inodes: int
    free_inodes: int


@dataclass(frozen=True)
class Space:
    """How much of a volume is used."""

    blocks: int
    used_blocks: int
    free_blocks: int
    data_blocks: int
    used_data_blocks: int
    inodes: int
    used_inodes: int
    free_inodes: int
    free_fault: FreeFault | None


@dataclass(frozen=True)
class FreeLink:
    """A link of the free list: the block that holds it, 1 for the super-block, its count and its numbers."""

    block: int
    nfree: int
    free: tuple[int, ...]


@dataclass(frozen=True)
class FreeChain:
    """The chain of the free list, up to its end or its first fault."""

    chain: tuple[FreeLink, ...]
    free_blocks: int
    free_fault: FreeFault | None


@dataclass(frozen=True)
class Use:
    """A use of a block: `use` says which other fields aren't None."""

    use: str
    ino: int | None = None
    level: int | None = None
    logical: int | None = None
    index: int | None = None
    listed_in: int | None = None
    first_ino: int | None = None
    last_ino: int | None = None


@dataclass(frozen=True)
class Row:
    """A row of a dump: `count` fields of one name, from that with this `index` on, with their bytes as digits, the first one's
    value, and what that means. A mode is text in octal; bytes without a value have None."""

    count: int
    field: str
    hex: str
    index: int
    ino: int | None
    meaning: str | None
    offset: int
    value: int | str | None

    def __bytes__(self) -> bytes:
        """All bytes of the row."""
        return bytes.fromhex(self.hex)


@dataclass(frozen=True)
class Dump:
    """The bytes of a block or an i-node, field by field. As text it is the lines that `dump` prints."""

    block: int
    role: Use
    rows: tuple[Row, ...]
    _print: Callable[[], str] = field(repr=False, compare=False)

    def __iter__(self) -> Iterator[Row]:
        return iter(self.rows)

    def __len__(self) -> int:
        return len(self.rows)

    def __bytes__(self) -> bytes:
        """The bytes that are dumped."""
        return b"".join(map(bytes, self.rows))

    def __str__(self) -> str:
        return self._print()


@dataclass(frozen=True)
class FoundPath:
    """A path below a directory, and its i-number."""

    path: str
    ino: int


@dataclass(frozen=True)
class Slot:
    """A slot of a directory. An empty one has i-number 0, and the name that was removed."""

    slot: int
    ino: int
    name: str


@dataclass(frozen=True)
class Member:
    """An entry of a listing or a manifest. `major` and `minor` are those of a special file; `sha256` is that of a regular
    file in a manifest."""

    path: str
    ino: int
    kind: str
    permissions: str
    links: int
    uid: int
    gid: int
    size: int
    mtime: int
    sha256: str | None = None
    major: int | None = None
    minor: int | None = None


@dataclass(frozen=True)
class Place:
    """The place of what breaks a rule: the fields that aren't None name it."""

    block: int | None = None
    directory: int | None = None
    entry_count: int | None = None
    ino: int | None = None
    links: int | None = None
    number: int | None = None
    slot: int | None = None


@dataclass(frozen=True)
class Rule:
    """A rule of soundness: what it needs, whether it holds (None if it isn't checked), and what breaks it first, where."""

    rule: int
    needs: str
    holds: bool | None
    finding: str | None
    at: Place | None


@dataclass(frozen=True)
class Findings:
    """What is found of each of the twelve rules. `other_edition` is the one for which alone rules 1 and 2 hold."""

    edition: int
    other_edition: int | None
    sound: bool
    rules: tuple[Rule, ...]

    @property
    def broken(self) -> tuple[Rule, ...]:
        """The rules that don't hold."""
        return tuple(rule for rule in self.rules if rule.holds is False)


@dataclass(frozen=True)
class Run:
    """A run of blocks with one use."""

    block: int
    count: int
    use: str


@dataclass(frozen=True)
class BlockMap:
    """The use of each block, in runs from block 0 to the last. A notebook shows it as a picture."""

    runs: tuple[Run, ...]
    _draw: Callable[[str], str] = field(repr=False, compare=False)

    def __iter__(self) -> Iterator[Run]:
        return iter(self.runs)

    def __len__(self) -> int:
        return len(self.runs)

    def use_of(self, block: int) -> str:
        """The use of a block; an `IndexError` past the last."""
        for run in self.runs:
            if run.block <= block < run.block + run.count:
                return run.use
        raise IndexError(f"no block {block}")

    def svg(self, path: str = "") -> str:
        """The picture, as SVG; with a path only of the blocks of that file or directory."""
        return self._draw(path)

    def _repr_svg_(self) -> str:
        return self.svg()


@dataclass(frozen=True)
class Listing(Generic[T]):
    """What a command lists, in its order; the lines that it prints on standard error, about what it leaves out or can't
    follow; and its status, which is 0 exactly if all is well."""

    entries: tuple[T, ...]
    lines: tuple[str, ...]
    status: int

    def __iter__(self) -> Iterator[T]:
        return iter(self.entries)

    def __len__(self) -> int:
        return len(self.entries)

    def __getitem__(self, index: int) -> T:
        return self.entries[index]


@dataclass(frozen=True)
class Differences(Listing[T]):
    """What differs between two images. As text it is the lines that `diff` prints, one for each entry."""

    _print: Callable[[], str] = field(repr=False, compare=False)

    def __str__(self) -> str:
        return self._print()


@dataclass(frozen=True)
class Content:
    """What a path leads to in one of two trees: what is compared of a node, but its bytes, with the path of the file's first
    name if this is a further one; or the `reason` why it leads to nothing. Times that aren't compared are None."""

    reason: str | None = None
    kind: str | None = None
    permissions: str | None = None
    links: int | None = None
    uid: int | None = None
    gid: int | None = None
    size: int | None = None
    major: int | None = None
    minor: int | None = None
    atime: int | None = None
    mtime: int | None = None
    ctime: int | None = None
    link: str | None = None


@dataclass(frozen=True)
class PathDifference:
    """A path that leads to different things in two trees. `line` is "gone" or "added" if it is in one of them alone, "changed",
    "turned" into something else, or "unseen" if what it leads to isn't known. `first_byte` is the first that differs."""

    line: str
    path: str
    old: Content | None = None
    new: Content | None = None
    first_byte: int | None = None


@dataclass(frozen=True)
class FieldDifference:
    """What differs between the fields of two images: their "length", the "role" of blocks, a "field", several "fields" of an
    array, or "bytes" without a value. `line` says which, and which other fields aren't None."""

    line: str
    block: int | None = None
    count: int | None = None
    field: str | None = None
    index: int | None = None
    last_index: int | None = None
    ino: int | None = None
    offset: int | None = None
    first_byte: int | None = None
    last_byte: int | None = None
    role: Use | None = None
    old: int | str | Use | None = None
    new: int | str | Use | None = None
    was: str | None = None


def unescaped(text: str) -> str:
    """Returns a path or name without the escapes of JSON's text: a backslash and three octal digits, or two backslashes."""
    raw = re.sub(rb"\\(\\|[0-7]{3})", lambda it: b"\\" if it[1] == b"\\" else bytes([int(it[1], 8)]), text.encode())
    return os.fsdecode(raw)


def _plain(data: Any) -> Any:
    return unescaped(data) if isinstance(data, str) else data


def _side(data: Any) -> Any:
    """One side of a difference: a role, what a path leads to, or the value of a field."""
    return value(Use if "use" in data else Content, data) if isinstance(data, dict) else _plain(data)


# How the value of a key is made, if it isn't taken as it is.
_MAKERS: dict[str, Callable[[Any], Any]] = {
    "addr": tuple,
    "at": lambda data: value(Place, data),
    "cache": tuple,
    "chain": lambda data: values(FreeLink, data),
    "extents": lambda data: values(Extent, data),
    "free": tuple,
    "free_fault": lambda data: value(FreeFault, data),
    "link": unescaped,
    "meaning": unescaped,
    "name": unescaped,
    "new": _side,
    "old": _side,
    "path": unescaped,
    "reason": unescaped,
    "role": lambda data: value(Use, data),
    "rules": lambda data: values(Rule, data),
    "value": _plain,
}


def value(kind: type[T], data: dict[str, Any]) -> T:
    """Makes a value of an object of JSON."""
    names = [it.name for it in fields(kind) if it.name in data]  # type: ignore[arg-type]
    return kind(**{name: _member(name, data[name]) for name in names})


def values(kind: type[T], data: list[dict[str, Any]]) -> tuple[T, ...]:
    """Makes a value of each object of a list."""
    return tuple(value(kind, it) for it in data)


def _member(name: str, data: Any) -> Any:
    return _MAKERS[name](data) if data is not None and name in _MAKERS else data
