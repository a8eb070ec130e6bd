"""Looks at an image, which may be any bytes: what the program's commands show, as values."""

from __future__ import annotations

import ctypes
import io
import json
import os
import tarfile
from collections.abc import Callable
from dataclasses import dataclass
from typing import Any, Literal, NamedTuple, overload

from ._faults import NoLook, check, check_lines
from ._library import By, Look, Moment, Repaired, RescueView, Seen, View, function, room, seconds, word
from ._values import (
    BlockMap,
    Differences,
    Dump,
    FieldDifference,
    Findings,
    FoundPath,
    FreeChain,
    Inode,
    Listing,
    Member,
    PathDifference,
    Row,
    Run,
    Slot,
    Space,
    SuperBlock,
    Use,
    value,
    values,
)
from ._volume import Source, data_of

# What is returned if a buffer is too short.
NO_ROOM = 302

# The bytes of the first buffer for a text, and the lines of that for a repair.
TEXT_ROOM = 1 << 16
LINE_ROOM = 1 << 10

# An i-number, or a path.
Node = int | str | os.PathLike[str]

ByTree = Literal["tree", "times"]
ByFields = Literal["fields", "all fields"]

# How images are compared: the numbers for text and for JSON, and what an entry is.
_WAYS: dict[str, tuple[By, By, type[Any]]] = {
    "tree": (By.TREE, By.TREE_JSON, PathDifference),
    "times": (By.ALL_TIMES, By.ALL_TIMES_JSON, PathDifference),
    "fields": (By.FIELDS, By.FIELDS_JSON, FieldDifference),
    "all fields": (By.ALL_FIELDS, By.ALL_FIELDS_JSON, FieldDifference),
}


class Shown(NamedTuple):
    """What a command printed: its text, its lines on standard error, and its status."""

    text: bytes
    lines: str
    status: int

    def listing(self, entries: tuple[Any, ...]) -> Listing[Any]:
        """The entries of its text, with its lines and its status."""
        return Listing(entries, tuple(self.lines.splitlines()), self.status)


class Image:
    """The bytes of an image, sound or not, and what the program's commands show of them. Each look reads them anew.

    A command that shows nothing raises an exception: `Unsound` if the image breaks a rule without which it can't be read,
    `NoEntry` and its like for a path. What a command shows besides is in the `lines` and the `status` of a `Listing`. Paths
    are walked in the name of user 0."""

    def __init__(self, data: bytes, edition: int):
        """For `look`, which makes it."""
        self.data = data
        self.edition = edition

    def __repr__(self) -> str:
        return f"Image(<{len(self.data)} bytes>, edition={self.edition})"

    def __bytes__(self) -> bytes:
        """The bytes."""
        return self.data

    def inode(self, node: Node) -> Inode:
        """An i-node, by its number or a path."""
        return value(Inode, self._json(Look.INODE, **_node(node)))

    def super_block(self) -> SuperBlock:
        """The super-block."""
        return value(SuperBlock, self._json(Look.SUPER))

    def df(self) -> Space:
        """How much of the space is used."""
        return value(Space, self._json(Look.DF))

    def free(self) -> FreeChain:
        """The chain of the free list."""
        return value(FreeChain, self._json(Look.FREE))

    def block(self, block: int) -> tuple[Use, ...]:
        """All uses of a block."""
        return values(Use, self._json(Look.BLOCK, block=word(block, 32, "block"))["uses"])

    def map(self) -> BlockMap:
        """The use of each block."""
        return BlockMap(values(Run, self._json(Look.MAP)["map"]), self._svg)

    def find(self, path: str = "/", *, name: str = "", lost: bool = False) -> Listing[FoundPath]:
        """The path of everything below a directory; with `name` only those whose last name is like that pattern. With `lost`
        also the i-nodes that no entry names."""
        shown = self._shown(View(kind=Look.FIND, json=True, lost=lost), path, name)
        return shown.listing(values(FoundPath, json.loads(shown.text)["entries"]))

    def sums(self, path: str = "/", *, lost: bool = False) -> Listing[Member]:
        """The manifest of everything below a directory, with the SHA-256 of each regular file."""
        shown = self._shown(View(kind=Look.SUMS, json=True, lost=lost), path)
        return shown.listing(values(Member, json.loads(shown.text)["entries"]))

    def ls(self, path: str = "/") -> tuple[Member, ...]:
        """The names in a directory, or a file, with attributes. The image must be sound."""
        return values(Member, self._json(Look.LIST, path=path)["entries"])

    def slots(self, path: str = "/") -> tuple[Slot, ...]:
        """The slots of a directory that aren't blank; empty ones keep the names that were removed."""
        return values(Slot, self._json(Look.SLOTS, path=path)["slots"])

    def check(self) -> Findings:
        """What is found of each of the twelve rules."""
        return value(Findings, self._json(Look.CHECK))

    def dump(self, block: int) -> Dump:
        """The bytes of a block, field by field."""
        return self._dump(Look.DUMP, block=word(block, 32, "block"))

    def dump_inode(self, node: Node) -> Dump:
        """The bytes of an i-node, as those of a block; by its number or a path."""
        return self._dump(Look.DUMP_NODE, **_node(node))

    @overload
    def diff(self, other: Image | Source, by: ByTree = "tree") -> Differences[PathDifference]: ...

    @overload
    def diff(self, other: Image | Source, by: ByFields) -> Differences[FieldDifference]: ...

    def diff(self, other: Image | Source, by: ByTree | ByFields = "tree") -> Differences[Any]:
        """What differs in another image, or that in a file or bytes, from this one: by their trees, also all `times`, by their `fields`, or by `all fields`
        without folding those of an array into an entry. No entries and status 0 if they don't differ, else 1."""
        new = other.data if isinstance(other, Image) else data_of(other, self.edition, None)
        as_text, as_json, kind = _WAYS[by]
        shown = self._compared(new, as_json)
        entries = values(kind, json.loads(shown.text)["lines"])
        lines = tuple(shown.lines.splitlines())
        return Differences(entries, lines, shown.status, lambda: os.fsdecode(self._compared(new, as_text).text))

    def _compared(self, new: bytes, by: By) -> Shown:
        data = self.data

        def call(into: Any, count: int, seen: Seen) -> int:
            return function("compare")(_edition(self.edition), data, len(data), new, len(new), by, into, count, seen)

        return _told(call)

    def _dump(self, kind: Look, path: str = "", **named: Any) -> Dump:
        found = self._json(kind, path, **named)
        printed = lambda: os.fsdecode(self._shown(View(kind=kind, **named), path).text)
        return Dump(found["block"], value(Use, found["role"]), values(Row, found["rows"]), printed)

    def _svg(self, path: str) -> str:
        return self._shown(View(kind=Look.SVG), path).text.decode()

    def _json(self, kind: Look, path: str = "", **named: Any) -> dict[str, Any]:
        return json.loads(self._shown(View(kind=kind, json=True, **named), path).text)

    def _shown(self, view: View, path: str = "", pattern: str = "") -> Shown:
        data, at, name = self.data, _text(path), _text(pattern)

        def call(into: Any, count: int, seen: Seen) -> int:
            looked = (_edition(self.edition), data, len(data), view, at, len(at), name, len(name))
            return function("look")(*looked, into, count, seen)

        return _told(call, path or None)


def _text(word: str | os.PathLike[str]) -> bytes:
    raw = os.fsencode(word)
    try:
        raw.decode()
    except UnicodeDecodeError:
        raise NoLook(f"{word!r} isn't UTF-8 text, which the commands that show something want") from None
    return raw


@dataclass(frozen=True)
class Rescued:
    """What was rescued of an image with lost blocks: a tar archive of its whole files, and the lines about what is damaged or
    left out, and where. `status` is 0 if nothing is lost."""

    archive: bytes
    lines: tuple[str, ...]
    status: int

    def tar(self) -> tarfile.TarFile:
        """The archive, to be read."""
        return tarfile.open(fileobj=io.BytesIO(self.archive))

    def files(self) -> dict[str, bytes]:
        """The bytes of each regular file in the archive, by its path there; those of a file with several names by each."""
        with self.tar() as tar:
            return {f"/{it.name}": tar.extractfile(it).read() for it in tar if it.isreg() or it.islnk()}  # type: ignore[union-attr]


RepairKind = Literal["cleared", "made", "size", "changed", "links", "entry", "free list"]

_REPAIRS: dict[int, RepairKind] = {
    1: "cleared",
    2: "made",
    3: "size",
    4: "changed",
    5: "links",
    6: "entry",
    7: "free list",
}


@dataclass(frozen=True)
class RepairLine:
    """Something that a repair changed. An i-node was `cleared`, or `made` anew, or its blocks and other fields `changed`; its
    `size` or its `links` differ, `before` and `after`; in an `entry` of the directory `ino`, the slot had the i-number
    `before` and `name_before`, and has `after` and `name_after`, where 0 is an empty slot; or the `free list` was made anew."""

    kind: RepairKind
    ino: int
    before: int = 0
    after: int = 0
    slot: int = 0
    name_before: str = ""
    name_after: str = ""

    def __str__(self) -> str:
        if self.kind == "free list":
            return "the free list was made anew"
        if self.kind == "entry":
            change = f"{self.before} {self.name_before!r} -> {self.after} {self.name_after!r}"
            return f"directory {self.ino}, slot {self.slot}: {change}"
        numbers = f" {self.before} -> {self.after}" if self.kind in ("size", "links") else ""
        return f"i-node {self.ino}: {self.kind}{numbers}"


@dataclass(frozen=True)
class Repair:
    """A repaired copy of an image, which is sound, and the lines of what differs between them."""

    image: bytes
    lines: tuple[RepairLine, ...]


def look(source: Source, edition: int, *, at: int | None = None) -> Image:
    """Returns an image in a file or bytes, sound or not, to look at. `at` is the volume's block in a pack, as for `open`."""
    _edition(edition)
    return Image(data_of(source, edition, at), edition)


def rescue(
    source: Source,
    edition: int,
    path: str = "/",
    *,
    bad: str | os.PathLike[str] | bytes | None = None,
    lost: bool = False,
    damaged: bool = False,
    at: int | None = None,
) -> Rescued:
    """Takes everything below a directory out of an image of which blocks are lost, as `export --cut` and `export --bad` do.

    A block is lost if the image is too short for it, or, with `bad`, if the map of GNU ddrescue in that file, or in those
    bytes, says that a byte of it wasn't read. A file is in the archive only if it is right, whatever the lost blocks held;
    with `damaged` also the others, with zeros for what is lost. With `lost` also the i-nodes that no entry names. `at` is the
    volume's block in a pack, as for `open`."""
    data, where = data_of(source, edition, at), os.fsencode(path)
    view = RescueView(at=at or 0, has_map=bad is not None, lost=lost, damaged=damaged)
    text = _map_of(bad)

    def call(into: Any, count: int, seen: Seen) -> int:
        looked = (_edition(edition), data, len(data), view, where, len(where), text, len(text))
        return function("rescue")(*looked, into, count, seen)

    shown = _told(call, path, len(data) + TEXT_ROOM)
    return Rescued(shown.text, tuple(shown.lines.splitlines()), shown.status)


def repair(source: Source, edition: int, *, at: int | None = None, now: Moment = None) -> Repair:
    """Repairs an image to a copy, which is sound, and says what differs in it. A file that was well by itself is as it
    was. What is in a file stays as it is: write the copy where it is wanted. `at` is the volume's block in a pack, as for
    `open`; `now` is the moment of new i-nodes.

    `Unsound` is raised if the sizes of the volume aren't known (rules 1 and 2), `NoSpace` if there are no blocks or i-nodes
    for what is needed, `NotRepaired` if the result isn't sound."""
    data, moment, many = data_of(source, edition, at), seconds(now), LINE_ROOM
    while True:
        copy = bytearray(data)
        view = (ctypes.c_char * len(copy)).from_buffer(copy)
        lines, count = (Repaired * many)(), ctypes.c_size_t()
        number = function("repair")(_edition(edition), view, len(copy), moment, lines, many, count)
        if number != NO_ROOM:
            check(number)
            return Repair(bytes(copy), tuple(map(_line, lines[: count.value])))
        many = count.value


def _told(call: Callable[[Any, int, Seen], int], path: str | None = None, least: int = TEXT_ROOM) -> Shown:
    """Returns what a command shows, by a call with a buffer, which is made again with a larger one if that is too short. If
    nothing is shown, raises what its lines say."""
    seen, into = Seen(), room(least)
    number = call(into, len(into), seen)
    if number == NO_ROOM:
        into = room(seen.text + seen.lines)
        number = call(into, len(into), seen)
    check(number, path)
    found = bytes(memoryview(into)[: seen.text + seen.lines])
    lines = os.fsdecode(found[seen.text :])
    if seen.status != 0 and seen.text == 0 and lines:
        check_lines(lines, path)
    return Shown(found[: seen.text], lines, seen.status)


def _node(node: Node) -> dict[str, Any]:
    return {"inode": word(node, 16, "the i-number")} if isinstance(node, int) else {"path": os.fspath(node)}


def _edition(edition: int) -> int:
    return word(edition, 8, "edition")


def _map_of(bad: str | os.PathLike[str] | bytes | None) -> bytes:
    if isinstance(bad, (str, os.PathLike)):
        with open(bad, "rb") as file:
            return file.read()
    return bad or b""


def _line(line: Repaired) -> RepairLine:
    names = [os.fsdecode(bytes(it).split(b"\0")[0]) for it in (line.name_before, line.name_after)]
    return RepairLine(_REPAIRS[line.kind], line.inode, line.before, line.after, line.slot, *names)
