"""Finds the volumes of packs in Python, and compares them with those that the program's `identify` names: packs of samples and
lessons, sound, changed or cut off, with other bytes between. Usage: packs_beside_program.py PROGRAM FOLDER [PACKS [SEED]]"""

import random
import re
import subprocess
import sys
from pathlib import Path

import unixvol

SAMPLES = Path(__file__).resolve().parents[3] / "samples"
IMAGES = [it.read_bytes() for it in sorted([*SAMPLES.glob("*.v[67]"), *SAMPLES.glob("lessons/*.v[67]")])]
VOLUME = re.compile(r"^  at (\d+): a volume of edition ([67]), with (\d+) blocks, (?:sound|which breaks rule (\d+)): ", re.M)


def changed(image: bytes, chance: random.Random) -> bytes:
    """An image, or one with a few other bytes, most of them in the super-block or the first i-nodes, or one that is cut off."""
    data = bytearray(image)
    for _ in range(chance.choice((0, 0, 1, 4))):
        first, count = chance.choice(((512, 460), (1024, 136), (0, len(data))))
        data[min(first + chance.randrange(count), len(data) - 1)] = chance.choice((0, 1, 2, 3, 16, chance.randrange(256)))
    return bytes(data if chance.randrange(5) else data[: chance.randrange(len(data))])


def pack_of(chance: random.Random) -> bytes:
    """The bytes of a pack."""
    parts = []
    for _ in range(chance.randrange(1, 5)):
        parts += [bytes([chance.choice((0, 0, chance.randrange(256)))]) * 512 * chance.randrange(9), changed(chance.choice(IMAGES), chance)]
    return b"".join([*parts, bytes(chance.randrange(3000))])


def named_by_program(program: str, name: Path) -> list[tuple[int, int, int, int | None]] | None:
    """The volumes that the program names, or None if the file is no pack."""
    said = subprocess.run([program, "identify", name], capture_output=True, check=True, text=True).stdout
    if "looks like a larger pack\n" not in said:
        return None
    found = [(int(at), int(edition), int(blocks), int(rule) if rule else None) for at, edition, blocks, rule in VOLUME.findall(said)]
    if len(found) != said.count(": a volume of edition "):
        sys.exit(f"a line that can't be read: {said}")
    return found


def main() -> None:
    program, name = sys.argv[1], Path(sys.argv[2], "found.pack")
    packs = int(sys.argv[3]) if len(sys.argv) > 3 else 120
    seed = int(sys.argv[4]) if len(sys.argv) > 4 else 1
    chance, compared = random.Random(seed), 0
    while compared < packs:
        name.write_bytes(pack_of(chance))
        wanted = named_by_program(program, name)
        found = [(it.at, it.edition, it.blocks, it.rule) for it in unixvol.volumes(name)]
        if wanted is None:
            if any(it[0] for it in found):
                sys.exit(f"{name} is no pack to the program: {found}")
            continue
        compared += 1
        if found != wanted:
            sys.exit(f"{name}: {found}, and the program names {wanted}")


main()
