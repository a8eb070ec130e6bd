"""Volumes of Sixth and Seventh Edition Unix.

    import unixvol

    with unixvol.open("disk.img", edition=7) as volume:
        for path in (volume / "etc").iterdir():
            print(path, path.stat().size)
        (volume / "etc/motd").write_text("welcome\\n")
        volume.save()

A `Volume` is in memory, and is sound after each call; `save` writes its bytes to a file, whole or not at all, and
raises `Changed` if another program has changed the file meanwhile. Its paths work like those of `pathlib`. `volumes`
finds the volumes of a disk pack. `look` shows any image, sound or not, as the program's commands do, as values; `repair`
and `rescue` are for damaged ones. A refusal raises an exception that is named for it and has its `number`; it is also
Python's own, if Python has one with that meaning: `NoEntry` is a `FileNotFoundError`.

Any number of volumes may be used by any number of threads. Each takes up to two and a third times the memory of its
image.
"""

from ._faults import (
    Access,
    BadId,
    Bounds,
    Changed,
    Closed,
    Exists,
    Invalid,
    IsDirectory,
    Locked,
    LongName,
    NoDevice,
    NoEdition,
    NoEntry,
    NoInode,
    NoLook,
    NoMemory,
    NoReport,
    NoSpace,
    NotDirectory,
    NotEmpty,
    NotOwner,
    NotRegular,
    NotRepaired,
    NotShown,
    Refusal,
    TooBig,
    TooMany,
    TooManyLinks,
    UnixvolError,
    Unsound,
)
from ._looks import Image, Repair, RepairLine, Rescued, look, repair, rescue
from ._paths import Stat, VolumePath
from ._values import (
    BlockMap,
    Content,
    Differences,
    Dump,
    Extent,
    FieldDifference,
    Findings,
    FoundPath,
    FreeChain,
    FreeFault,
    FreeLink,
    Inode,
    Listing,
    Member,
    PathDifference,
    Place,
    Row,
    Rule,
    Run,
    Slot,
    Space,
    SuperBlock,
    Use,
)
from ._volume import About, PackVolume, Volume, explain, judge, mkfs, open, salvage, volumes

__version__ = "0.9.2"

__all__ = [
    "About",
    "Access",
    "BadId",
    "BlockMap",
    "Bounds",
    "Changed",
    "Closed",
    "Content",
    "Differences",
    "Dump",
    "Exists",
    "Extent",
    "FieldDifference",
    "Findings",
    "FoundPath",
    "FreeChain",
    "FreeFault",
    "FreeLink",
    "Image",
    "Inode",
    "Invalid",
    "IsDirectory",
    "Listing",
    "Locked",
    "LongName",
    "Member",
    "NoDevice",
    "NoEdition",
    "NoEntry",
    "NoInode",
    "NoLook",
    "NoMemory",
    "NoReport",
    "NoSpace",
    "NotDirectory",
    "NotEmpty",
    "NotOwner",
    "NotRegular",
    "NotRepaired",
    "NotShown",
    "PackVolume",
    "PathDifference",
    "Place",
    "Refusal",
    "Repair",
    "RepairLine",
    "Rescued",
    "Row",
    "Rule",
    "Run",
    "Slot",
    "Space",
    "Stat",
    "SuperBlock",
    "TooBig",
    "TooMany",
    "TooManyLinks",
    "UnixvolError",
    "Unsound",
    "Use",
    "Volume",
    "VolumePath",
    "explain",
    "judge",
    "look",
    "mkfs",
    "open",
    "repair",
    "rescue",
    "salvage",
    "volumes",
]
