"""Saves a volume from Python while the program changes the same image. Usage: beside_program.py PROGRAM FOLDER"""

import subprocess
import sys
from pathlib import Path

import unixvol

program, image = sys.argv[1], Path(sys.argv[2], "beside.img")
unixvol.mkfs(7, 400, 12, now=300000000).save(image)

# What a command did stays.
with unixvol.open(image, 7) as volume:
    subprocess.run([program, "mkdir", "7", image, "/x"], check=True)
    (volume / "y").mkdir()
    try:
        volume.save()
    except unixvol.Changed:
        pass
    else:
        sys.exit("what the program made is lost")

# With the lock a command waits, and finds what was saved.
with unixvol.open(image, 7, lock=True) as volume:
    waiting = subprocess.Popen([program, "mkdir", "7", image, "/z"])
    for name in "y", "y/y":
        (volume / name).mkdir()
        volume.save()
    if waiting.poll() is not None:
        sys.exit("the program did not wait")
if waiting.wait() != 0:
    sys.exit("the program could not save")
with unixvol.open(image, 7) as volume:
    found = [str(path) for path, _, _ in volume.root.walk()]
if found != ["/", "/x", "/y", "/y/y", "/z"]:
    sys.exit(f"directories: {found}")

# In a pack, each keeps what the other has made, and every byte outside the volumes.
pack = Path(sys.argv[2], "beside.pack")
front, between = b"front" * 1024, b"between!" * 640
pack.write_bytes(front + image.read_bytes() + between + image.read_bytes())
first = len(front) // 512
second = first + (image.stat().st_size + len(between)) // 512
with unixvol.open(pack, 7, at=first) as volume:
    (volume / "mine").mkdir()
    subprocess.run([program, "mkdir", "7", pack, "/theirs", "--at", str(second)], check=True)
    try:
        volume.save()
    except unixvol.Changed:
        pass
    else:
        sys.exit("what the program made in the pack is lost")
with unixvol.open(pack, 7, at=first) as volume:
    (volume / "mine").mkdir()
    volume.save()
for name, at in ("/mine", first), ("/theirs", second):
    subprocess.run([program, "ls", "-d", "7", pack, name, "--at", str(at)], check=True, stdout=subprocess.DEVNULL)
data = pack.read_bytes()
if data[: len(front)] != front or data[512 * second - len(between) : 512 * second] != between:
    sys.exit("bytes outside the volumes have changed")
