"""Looks at images from Python and with the program, and compares text, lines and status byte for byte: samples and lessons, also cut
off. Usage: looks_beside_program.py PROGRAM FOLDER"""

import subprocess
import sys
from pathlib import Path

from unixvol import _library as library
from unixvol._library import By, Look, RescueView, Seen, View
from unixvol._looks import NO_ROOM, Shown

SAMPLES = Path(__file__).resolve().parents[3] / "samples"

# The words of each look, before and after the edition and the image; and its view, path and pattern.
LOOKS: list[tuple[str, str, View, str, str]] = [
    ("inode", "/", View(kind=Look.INODE), "/", ""),
    ("inode --json", "3", View(kind=Look.INODE, inode=3, json=True), "", ""),
    ("inode --json", "/none", View(kind=Look.INODE, json=True), "/none", ""),
    ("super", "", View(kind=Look.SUPER), "", ""),
    ("super --json", "", View(kind=Look.SUPER, json=True), "", ""),
    ("df --json", "", View(kind=Look.DF, json=True), "", ""),
    ("free --json", "", View(kind=Look.FREE, json=True), "", ""),
    ("block --json", "20", View(kind=Look.BLOCK, block=20, json=True), "", ""),
    ("block", "4000000000", View(kind=Look.BLOCK, block=4000000000), "", ""),
    ("find --json --lost", "/", View(kind=Look.FIND, json=True, lost=True), "/", ""),
    ("find --name *a*", "/", View(kind=Look.FIND), "/", "*a*"),
    ("sums --json", "/", View(kind=Look.SUMS, json=True), "/", ""),
    ("sums --lost", "/", View(kind=Look.SUMS, lost=True), "/", ""),
    ("check --status", "", View(kind=Look.CHECK), "", ""),
    ("check --status --json", "", View(kind=Look.CHECK, json=True), "", ""),
    ("map", "", View(kind=Look.MAP), "", ""),
    ("map --json", "", View(kind=Look.MAP, json=True), "", ""),
    ("map --svg", "", View(kind=Look.SVG), "", ""),
    ("map --file /", "", View(kind=Look.MAP), "/", ""),
    ("map --svg --file /none", "", View(kind=Look.SVG), "/none", ""),
    ("ls --slots --json", "/", View(kind=Look.SLOTS, json=True), "/", ""),
    ("ls -l", "/", View(kind=Look.LIST), "/", ""),
    ("ls --json", "/", View(kind=Look.LIST, json=True), "/", ""),
    ("dump", "1", View(kind=Look.DUMP, block=1), "", ""),
    ("dump -i", "/", View(kind=Look.DUMP_NODE), "/", ""),
    ("dump -i", "2", View(kind=Look.DUMP_NODE, inode=2), "", ""),
    ("dump --json", "1", View(kind=Look.DUMP, block=1, json=True), "", ""),
    ("dump --json -i", "/", View(kind=Look.DUMP_NODE, json=True), "/", ""),
]

COMPARISONS = {
    "diff": By.TREE,
    "diff --times": By.ALL_TIMES,
    "diff --fields": By.FIELDS,
    "diff --fields --all": By.ALL_FIELDS,
    "diff --json": By.TREE_JSON,
    "diff --times --json": By.ALL_TIMES_JSON,
    "diff --fields --json": By.FIELDS_JSON,
    "diff --fields --all --json": By.ALL_FIELDS_JSON,
}

RESCUES = {
    "export --status --cut": RescueView(),
    "export --status --cut --damaged": RescueView(damaged=True),
    "export --status --cut --lost": RescueView(lost=True),
    "export --status --bad map": RescueView(has_map=True),
}


def by_library(name: str, *given: object) -> Shown:
    """What a function of the library hands out."""
    into, seen = library.room(1 << 16), Seen()
    number = library.function(name)(*given, into, len(into), seen)
    if number == NO_ROOM:
        into = library.room(seen.text + seen.lines)
        number = library.function(name)(*given, into, len(into), seen)
    if number:
        sys.exit(f"{name}: {number}")
    found = into.raw[: seen.text + seen.lines]
    return Shown(found[: seen.text], found[seen.text :].decode(), seen.status)


def by_program(program: str, folder: Path, command: str, edition: int, *words: str) -> Shown:
    """What the program prints."""
    found = subprocess.run([program, *command.split(), str(edition), *words], cwd=folder, capture_output=True, stdin=subprocess.DEVNULL)
    return Shown(found.stdout, found.stderr.decode(), found.returncode)


def main() -> None:
    program, folder = str(Path(sys.argv[1]).resolve()), Path(sys.argv[2])
    compared = 0

    def expect(where: str, wanted: Shown, found: Shown) -> None:
        nonlocal compared
        compared += 1
        if wanted != found:
            sys.exit(f"{where}: {found}, and the program prints {wanted}")

    for path in sorted([*SAMPLES.glob("*.v[67]"), *SAMPLES.glob("lessons/*.v[67]")]):
        edition, whole = int(path.suffix[2]), path.read_bytes()
        sound = (SAMPLES / f"lessons/sound.v{edition}").read_bytes()
        for data in (whole, whole[: len(whole) * 2 // 3], *([whole[:1023]] if path.stem == "sound" else [])):
            (folder / "image").write_bytes(data)
            (folder / "old").write_bytes(sound)
            (folder / "new").write_bytes(data)
            bad = f"0x0 +\n0x0 {len(data) - 512:#x} +\n{len(data) - 512:#x} 0x200 -\n".encode()
            (folder / "map").write_bytes(bad)
            for command, last, view, name, pattern in LOOKS:
                at, like = name.encode(), pattern.encode()
                found = by_library("look", edition, data, len(data), view, at, len(at), like, len(like))
                words = ["image", last] if last else ["image"]
                expect(f"{path.name}: {command}", by_program(program, folder, command, edition, *words), found)
            for command, by in COMPARISONS.items():
                found = by_library("compare", edition, sound, len(sound), data, len(data), by)
                expect(f"{path.name}: {command}", by_program(program, folder, command, edition, "old", "new"), found)
            for command, rescue in RESCUES.items():
                found = by_library("rescue", edition, data, len(data), rescue, b"/", 1, bad, len(bad))
                expect(f"{path.name}: {command}", by_program(program, folder, command, edition, "image", "/"), found)
    print(f"{compared} compared")


main()
