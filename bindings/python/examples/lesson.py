"""A lesson on the file system of Sixth Edition Unix.

It makes a volume and looks at its i-nodes, its directories and its free list; files grow, get further names, and are removed; then it changes a
bit and finds the rule that this breaks, cuts the image off, and repairs it. Its output is in lesson.txt. Change it, and run it again: as a whole, or
cell by cell in an editor that knows `# %%`, or in a notebook (`jupytext --to notebook lesson.py`), which shows `look(..).map()` as a picture.
"""

# %% A new volume: 400 blocks, ten of them the i-list
from datetime import datetime, timezone
from textwrap import indent

import unixvol

volume = unixvol.mkfs(6, blocks=400, list_blocks=10, now=datetime(1975, 5, 5, tzinfo=timezone.utc))


def look() -> unixvol.Image:
    """What is in the volume now."""
    return unixvol.look(bytes(volume), 6)


def show(title: str) -> None:
    print(f"\n{title}\n")


def print_inode(node: int | str) -> None:
    inode = look().inode(node)
    print(f"{node}: i-node {inode.ino}, {inode.kind}, mode {inode.mode}, links {inode.links}, size {inode.size}")
    print(f"    addresses {list(inode.addr)}")


show("A new volume: 400 blocks, ten of them the i-list")
print(look().df())
print("The map of its blocks, in runs. A notebook shows it as a picture:")
for run in look().map():
    print(f"    {run.block:3} {run.count:3} {run.use}")

# %% The root
show("A directory is a file of slots. This is the root, and its first block")
print_inode("/")
for slot in look().slots("/"):
    print(f"    slot {slot.slot}: i-node {slot.ino}, {slot.name!r}")

# %% A file grows
show("A file grows")
story = volume / "story"
for size in (0, 1, 512, 513, 4096, 4097):
    story.write_bytes(b"x" * size)
    print_inode("/story")
    print(f"    {look().df().free_blocks} blocks are free")
print("Eight addresses hold 4096 bytes. One more byte makes it a large file: now they name blocks of addresses.")
for extent in look().inode("/story").extents:
    kind = "addresses" if extent.level else "data"
    print(f"    blocks {extent.block} to {extent.block + extent.count - 1}: {kind}, from logical block {extent.logical} on")
print("Block 16 is used so:", *look().block(16))

# %% A file has two names, then one, then none
show("A file has two names, then one, then none")
tale = volume / "tale"
tale.hardlink_to(story)
for found in look().find("/"):
    print(f"    {found.path}: i-node {found.ino}")
print_inode("/tale")
story.unlink()
print_inode("/tale")
before = look()
tale.unlink()
print("What the last removal changes, field by field:")
print(indent(str(before.diff(look(), "fields")), "    "), end="")
print("The slots of the root keep the names:", [(slot.ino, slot.name) for slot in look().slots("/")])

# %% What is refused changes nothing
show("What is refused changes nothing")
(volume / "etc").mkdir(0o755)
before = look()
volume.uid = volume.gid = 7
for attempt in (
    lambda: (volume / "etc/passwd").create(),
    lambda: (volume / "etc/passwd").read_bytes(),
    lambda: (volume / "etc").mkdir(),
    lambda: (volume / "etc").read_bytes(),
):
    try:
        attempt()
    except unixvol.Refusal as fault:
        kind = type(fault)
        python = kind.__bases__[1].__name__
        print(f"{fault.number:3} {kind.__name__}, which Python knows as {python}: {fault.filename}")
volume.uid = volume.gid = 0
print("lines of differences:", len(before.diff(look(), "fields")))

# %% Twelve rules make a volume sound
show("Twelve rules make a volume sound. Each bit below breaks one or more")
(volume / "etc/motd").write_text("welcome\n")
image = bytes(volume)
print(look().dump_inode("/"))


def broken(title: str, at: int, flips: int) -> bytes:
    """Flips bits of one byte of the sound image, and shows the rules that this breaks."""
    found = bytearray(image)
    found[at] ^= flips
    print(title)
    for rule in unixvol.look(found, 6).check().broken:
        print(f"    {rule.rule:2} {rule.needs}: {rule.finding}")
    return bytes(found)


print("the image as it is:", unixvol.judge(image, 6))
broken("a link too few in the root's i-node", 1024 + 2, 1)
shapeless = broken("the root's mode without its directory bit", 1024 + 1, 0o100)
broken("another block as the root's first", 1024 + 8, 1)
lost = broken("a shorter free list", 512 + 4, 1)

# %% Repair
show("The free list says nothing that the files don't. So it can be made anew; other damage is repaired to a copy")
print("after salvage:", unixvol.judge(unixvol.salvage(lost, 6), 6))
repair = unixvol.repair(shapeless, 6, now=volume.now)
print("after repair:", unixvol.judge(repair.image, 6))
for line in repair.lines:
    print(f"    {line}")

# %% Rescue
show("The end of the image is lost. What is whole is right, whatever was there")
directory, file = look().inode("/etc").addr[0], look().inode("/etc/motd").addr[0]
print(f"/etc is in block {directory}, /etc/motd in block {file}")
for blocks in (max(directory, file) + 1, max(directory, file)):
    rescued = unixvol.rescue(image[: 512 * blocks], 6)
    print(f"{blocks} of 400 blocks:", rescued.files())
    for line in rescued.lines:
        print(f"    {line}")
volume.close()
