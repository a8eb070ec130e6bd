#!/usr/bin/env python3
"""Plays the Linux kernel for `unixvol serve` without --read-only: each operation, its error, what the tree has then, and what is saved.
Usage: changes.py session PROGRAM EDITION IMAGE      an empty volume of 6,000 blocks; it prints the lines that the server printed
       changes.py linux PROGRAM EDITION IMAGE        requests that a kernel sent
       changes.py mine PROGRAM EDITION IMAGE         the same volume, with --mine
       changes.py replaced PROGRAM EDITION IMAGE     another file takes the image's place meanwhile
       changes.py rescued PROGRAM EDITION IMAGE      the same, with --rescue
       changes.py gone PROGRAM EDITION IMAGE         the image's folder is removed meanwhile
       changes.py lost PROGRAM EDITION IMAGE         the same, and no other file can be written either
       changes.py full PROGRAM EDITION IMAGE         writes until the volume is full
       changes.py known PROGRAM EDITION IMAGE        what the server remembers of a node between two requests
       changes.py devices PROGRAM EDITION IMAGE      special files
It prints a line for each thing that is wrong. Structs and numbers are those of Linux's include/uapi/linux/fuse.h."""
import fcntl, os, re, struct, subprocess, sys, time
import kernel as k
from kernel import Attributes, Kernel, check, printed

EPERM, EIO, EEXIST, EXDEV, ENOTDIR, EISDIR, EINVAL, EFBIG, ENOSPC, ENOTEMPTY, ESTALE = 1, 5, 17, 18, 20, 21, 22, 27, 28, 39, 116
FSYNC, FSYNCDIR = 20, 30
SIZE, MODE, UID, GID, ATIME, MTIME, ATIME_NOW = 8, 1, 2, 4, 16, 32, 128
FILE, DIRECTORY, PIPE, CHARACTER, BLOCK, SOCKET = 0o100000, 0o040000, 0o010000, 0o020000, 0o060000, 0o140000


class Changing(Kernel):
    """A kernel that changes the volume. Each method returns the number of the error, or what the reply has."""

    def __init__(self, program, edition, image, *options):
        super().__init__(program, edition, image, options)
        self.program, self.edition, self.image = program, edition, image
        self.begin()

    def entry(self, opcode, directory, body):
        error, reply = self.ask(opcode, directory, body)
        return error if error else (struct.unpack_from("<Q", reply)[0], Attributes(reply[40:]))

    def mknod(self, directory, name, mode=FILE | 0o644, device=0):
        return self.entry(k.MKNOD, directory, struct.pack("<IIII", mode, device, 0, 0) + name + b"\0")

    def mkdir(self, directory, name, mode=0o755):
        return self.entry(k.MKDIR, directory, struct.pack("<II", mode, 0) + name + b"\0")

    def link(self, node, directory, name):
        return self.entry(k.LINK, directory, struct.pack("<Q", node) + name + b"\0")

    def remove(self, opcode, directory, name):
        return self.ask(opcode, directory, name + b"\0")[0]

    def rename(self, directory, name, to, new_name, flags=None):
        if flags is None:
            return self.ask(k.RENAME, directory, struct.pack("<Q", to) + name + b"\0" + new_name + b"\0")[0]
        return self.ask(k.RENAME2, directory, struct.pack("<QII", to, flags, 0) + name + b"\0" + new_name + b"\0")[0]

    def write(self, node, offset, content):
        error, reply = self.ask(k.WRITE, node, struct.pack("<QQIIQII", 0, offset, len(content), 0, 0, 0, 0) + content)
        return error if error else struct.unpack_from("<I", reply)[0]

    def set(self, node, valid, size=0, mode=0, uid=0, gid=0, times=(0, 0)):
        error, reply = self.ask(k.SETATTR, node, struct.pack("<IIQQQQQQIIIIIIII", valid, 0, 0, size, 0, *times, 0, 0, 0, 0, mode, 0, uid, gid, 0))
        return error if error else Attributes(reply[16:])

    def open(self, node):
        return self.ask(k.OPEN, node, struct.pack("<II", 2, 0))[0]

    def release(self, node):
        return self.ask(k.RELEASE, node, bytes(24))[0]

    def read(self, node, offset=0, size=65536):
        error, reply = self.ask(k.READ, node, k.read_body(offset, size))
        return error if error else reply

    def sync(self, opcode=FSYNC, node=k.ROOT):
        return self.ask(opcode, node, bytes(16))[0]

    def free(self):
        """The free blocks and i-nodes."""
        numbers = struct.unpack_from("<5Q", self.ask(k.STATFS, k.ROOT)[1])
        return numbers[1], numbers[4]

    def saved(self, *words):
        """What a command prints of the image, as it is saved."""
        return printed(self.program, words[0], self.edition, self.image, *words[1:])


def is_locked(image):
    with open(image, "rb") as file:
        try:
            fcntl.flock(file, fcntl.LOCK_EX | fcntl.LOCK_NB)
            return False
        except BlockingIOError:
            return True


def is_sound(label, volume):
    ran = subprocess.run([volume.program, "check", volume.edition, volume.image], stdout=subprocess.PIPE, stderr=subprocess.STDOUT)
    check(f"{label}: a sound image", 0, ran.returncode)


def error_of(result):
    return result if isinstance(result, int) else 0


def session(volume):
    """Each operation, its refusals, and what is saved."""
    was = open(volume.image, "rb").read()
    check("the image is locked", True, is_locked(volume.image))
    blocks, inodes = volume.free()
    d, made = volume.mkdir(k.ROOT, b"d")
    check("a directory", (DIRECTORY | 0o755, 2), (made.mode, made.nlink))
    f, made = volume.mknod(d, b"f", FILE | 0o640)
    check("a file", (FILE | 0o640, 1, 0, 0, 0), (made.mode, made.nlink, made.size, made.uid, made.gid))
    check("its name", f, volume.lookup(d, b"f")[0])
    check("blocks and i-nodes in use", (blocks - 1, inodes - 2), volume.free())
    for label, wanted, got in (
        ("a name that is there", EEXIST, volume.mknod(d, b"f")), ("a directory of that name", EEXIST, volume.mkdir(d, b"f")),
        ("a name of 15 bytes", k.ENAMETOOLONG, volume.mknod(d, b"fifteen bytes..")), ("a pipe", EPERM, volume.mknod(d, b"p", PIPE | 0o644)),
        ("a file below a file", ENOTDIR, volume.mknod(f, b"g")), ("a file below no node", ESTALE, volume.mknod(1 << 40, b"g")),
    ):
        check(label, wanted, error_of(got))
    content = bytes(range(256)) * 300
    check("bytes written", len(content), volume.write(f, 0, content))
    check("bytes far behind", 3, volume.write(f, 200000, b"end"))
    check("the size", 200003, volume.attributes(f).size)
    check("bytes read", content[1000:2000], volume.read(f, 1000, 1000))
    check("a hole, and the end", bytes(10) + b"end", volume.read(f, 199990))
    check("a byte past the greatest file", EFBIG, volume.write(f, 1 << 31, b"x"))
    check("bytes for a directory", EISDIR, volume.write(d, 0, b"x"))
    check("nothing is saved yet", True, open(volume.image, "rb").read() == was)
    check("fsync", 0, volume.sync(FSYNC, f))
    check("what fsync saves", content + bytes(200000 - len(content)) + b"end", volume.saved("get", "/d/f"))
    check("the image is locked after fsync", True, is_locked(volume.image))
    is_sound("fsync", volume)
    links(volume, d, f)
    attributes(volume, f)
    orphans(volume, d)
    check("what isn't saved", b"", volume.saved("get", "/d/e"))
    check("fsync of a directory", 0, volume.sync(FSYNCDIR))
    check("what fsync of a directory saves", b"0123456789" + bytes(10), volume.saved("get", "/d/e"))
    check("one more file", 0, error_of(volume.mknod(k.ROOT, b"last")))


def links(volume, d, f):
    check("a second name", (f, 2), (lambda node, found: (node, found.nlink))(*volume.link(f, d, b"g")))
    check("its links", 2, volume.attributes(f).nlink)
    e = volume.mkdir(d, b"sub")[0]
    for label, wanted, got in (
        ("a name that is there for a link", EEXIST, error_of(volume.link(f, d, b"g"))), ("a name that isn't there", k.ENOENT, volume.remove(k.UNLINK, d, b"none")),
        ("a link to a directory", EISDIR, error_of(volume.link(e, d, b"l"))),
        ("unlink of a directory", EISDIR, volume.remove(k.UNLINK, d, b"sub")), ("rmdir of a file", ENOTDIR, volume.remove(k.RMDIR, d, b"g")),
        ("rmdir of a full directory", ENOTEMPTY, volume.remove(k.RMDIR, k.ROOT, b"d")), ("rename of a directory", EXDEV, volume.rename(d, b"sub", k.ROOT, b"sub")),
        ("rename of no file", k.ENOENT, volume.rename(d, b"none", d, b"new")), ("rename to a directory", EISDIR, volume.rename(d, b"g", d, b"sub")),
        ("rename to a name, unless it is there", EEXIST, volume.rename(d, b"g", d, b"f", 1)), ("an exchange", EINVAL, volume.rename(d, b"g", d, b"f", 2)),
        ("rename to a second name", 0, volume.rename(d, b"g", d, b"f")), ("rename within", 0, volume.rename(d, b"g", e, b"h", 1)),
        ("unlink", 0, volume.remove(k.UNLINK, e, b"h")), ("rmdir", 0, volume.remove(k.RMDIR, d, b"sub")),
    ):
        check(label, wanted, got)
    check("names then", [b".", b"..", b"f"], [name for _, _, name in volume.entries(d)])
    check("links then", 1, volume.attributes(f).nlink)
    other = volume.mknod(d, b"other")[0]
    volume.write(other, 0, b"0123456789abcdef")
    check("rename over a file", 0, volume.rename(d, b"other", d, b"f"))
    check("the file that was replaced", ESTALE, error_of(volume.attributes(f)))
    check("the file in its place", (other, b"0123456789abcdef"), (volume.lookup(d, b"f")[0], volume.read(other)))
    check("rename back", 0, volume.rename(d, b"f", d, b"e"))


def attributes(volume, f):
    e = volume.lookup(volume.lookup(k.ROOT, b"d")[0], b"e")[0]
    check("permissions", FILE | 0o4711, volume.set(e, MODE, mode=FILE | 0o4711).mode)
    check("a smaller size", 10, volume.set(e, SIZE, size=10).size)
    check("a greater size", 20, volume.set(e, SIZE, size=20).size)
    check("zeros then", b"0123456789" + bytes(10), volume.read(e))
    check("an owner", (200, 7), (lambda found: (found.uid, found.gid))(volume.set(e, UID | GID, uid=200, gid=7)))
    check("an owner above the edition's", EINVAL, error_of(volume.set(e, UID, uid=256 if volume.edition == "6" else 65536)))
    check("a size above the greatest", EFBIG, error_of(volume.set(e, SIZE, size=1 << 40)))
    check("attributes of a file that is gone", ESTALE, error_of(volume.set(f, MODE, mode=0)))
    found = volume.set(e, ATIME | MTIME, times=(5, 1 << 33))
    check("times; the second is more than an i-node can hold", (5, 0xFFFFFFFF), (found.atime, found.mtime))
    found = volume.set(e, ATIME | ATIME_NOW)
    check("one of them is now", (True, 0xFFFFFFFF), (abs(found.atime - time.time()) < 60, found.mtime))


def orphans(volume, d):
    before = volume.free()
    node = volume.mknod(d, b"open")[0]
    check("open", 0, volume.open(node))
    volume.write(node, 0, b"kept")
    check("unlink of an open file", 0, volume.remove(k.UNLINK, d, b"open"))
    check("nothing of it in the volume", before, volume.free())
    check("its name", k.ENOENT, volume.lookup(d, b"open"))
    check("its links", 0, volume.attributes(node).nlink)
    check("more bytes of it", 5, volume.write(node, 4, b" more"))
    check("its bytes", b"kept more", volume.read(node))
    most = os.path.getsize(volume.image)
    check("a size above the greatest", EFBIG, error_of(volume.set(node, SIZE, size=1 << 31)))
    check("more bytes than the image has", ENOSPC, volume.write(node, most - 4, b"hello"))
    check("as many", 5, volume.write(node, most - 5, b"hello"))
    other = volume.mknod(d, b"other")[0]
    check("the i-number is used again, under another number", (node & 0xFFFF, True), (other & 0xFFFF, other != node))
    volume.write(other, 0, b"x")
    volume.open(other)
    check("no room for a second open file", ENOSPC, volume.remove(k.UNLINK, d, b"other"))
    check("release", 0, volume.release(node))
    check("then it is gone", ESTALE, error_of(volume.attributes(node)))
    check("its bytes then", ESTALE, error_of(volume.read(node)))
    check("now there is room", 0, volume.remove(k.UNLINK, d, b"other"))
    volume.release(other)


# Requests as Linux 6.18 sent them: a WRITE of `hello` at byte 0, `chown 3:4`, `touch`, and `mv` of `a` to `c` that replaces nothing.
# The first three name node 2.
WRITE_HELLO = """55000000 10000000 26000000 00000000 02000000 00x12 76650000 00000000 07000000 00x12 05000000 00x12 01840000 00000000 68656c6c 6f"""
CHOWN = """80000000 04000000 c2000000 00000000 02000000 00x12 80650000 00000000 06000000 00x72 03000000 04000000 00000000"""
TOUCH = """80000000 04000000 52000000 00000000 02000000 00x12 79650000 00000000 b0010000 00x28 7c1c096b 00000000 7c1c096b 00x44"""
MOVE = """3c000000 2d000000 78000000 00000000 01000000 00x12 7b650000 00000000 01000000 00000000 01000000 00000000 61006300"""


def linux(volume):
    """Requests that a kernel sent, but for the number of the node."""
    node = volume.mknod(k.ROOT, b"a")[0]

    def sent(text):
        message = bytearray(k.message("> " + text))
        if message[16] == 2:
            message[16:24] = struct.pack("<Q", node)
        volume.unique = struct.unpack_from("<Q", message, 8)[0]
        volume.ours.send(message)
        return volume.reply()

    check("WRITE", (0, struct.pack("<II", 5, 0)), sent(WRITE_HELLO))
    check("what it wrote", b"hello", volume.read(node))
    check("chown", 0, sent(CHOWN)[0])
    check("the owner", (3, 4), (lambda found: (found.uid, found.gid))(volume.attributes(node)))
    volume.set(node, ATIME | MTIME, times=(5, 6))
    check("touch", 0, sent(TOUCH)[0])
    found = volume.attributes(node)
    check("times", [True, True], [abs(at - time.time()) < 60 for at in (found.atime, found.mtime)])
    check("mv", (0, b""), sent(MOVE))
    check("names then", (k.ENOENT, node), (volume.lookup(k.ROOT, b"a"), volume.lookup(k.ROOT, b"c")[0]))


def mine(volume):
    """All nodes are shown as the caller's, and new ones belong to user 0."""
    us = os.getuid(), os.getgid()
    node, made = volume.mknod(k.ROOT, b"f")
    for label, found in ("a new file", made), ("the root", volume.attributes(k.ROOT)):
        check(f"the owner of {label}", us, (found.uid, found.gid))
    check("chown to another", EPERM, error_of(volume.set(node, UID, uid=us[0] + 1)))
    check("chown to oneself", us[0], volume.set(node, UID, uid=us[0]).uid)


def replaced(volume):
    """Nothing is saved over a file that another program put in the image's place."""
    volume.mknod(k.ROOT, b"f")
    with open(volume.image + ".new", "wb") as file:
        file.write(b"another file")
    os.rename(volume.image + ".new", volume.image)
    check("fsync over another file", EIO, volume.sync())
    check("serving goes on", 0, error_of(volume.mknod(k.ROOT, b"g")))
    status, said = volume.end()
    line = f"unixvol: cannot write {volume.image}\n"
    place = volume.image + (".kept" if "--rescue" in volume.options else ".unixvol-rescue-1")
    check("the status and the lines", (3, 2 * line + f"unixvol: {volume.image}: not saved; the volume is in {place}\n"), (status, said))
    check("the other file", b"another file", open(volume.image, "rb").read())
    is_rescued(volume, place)
    check("a file that was there", b"earlier", open(volume.image + ".unixvol-rescue-0", "rb").read())


def is_rescued(volume, place):
    """The volume with files f and g was written to another file, for its owner alone."""
    check("the files that were rescued", [b"f", b"g"], [line.split()[1] for line in printed(volume.program, "ls", volume.edition, place, "/").splitlines() if b"." not in line])
    check("the permissions of what was rescued", 0o600, os.stat(place).st_mode & 0o7777)


def gone(volume):
    """Without its folder the image is written to TMPDIR, and if that fails too, a line says that it is lost."""
    volume.mknod(k.ROOT, b"f")
    os.remove(volume.image)
    os.rmdir(os.path.dirname(volume.image))
    volume.mknod(k.ROOT, b"g")
    status, said = volume.end()
    place = os.environ["TMPDIR"] + "/image.unixvol-rescue-0"
    told = f"not saved; the volume is in {place}" if os.path.isdir(os.environ["TMPDIR"]) else "not saved, and nowhere else: changes are lost"
    check("the status and the lines", (3, f"unixvol: cannot write {volume.image}\nunixvol: {volume.image}: {told}\n"), (status, said))
    if os.path.isdir(os.environ["TMPDIR"]):
        is_rescued(volume, place)


def full(volume):
    """A write that doesn't fit changes nothing."""
    node, piece, offset = volume.mknod(k.ROOT, b"f")[0], bytes(range(256)) * 512, 0
    while (got := volume.write(node, offset, piece)) == len(piece):
        offset += got
    check("a write that doesn't fit", (ENOSPC, offset), (got, volume.attributes(node).size))
    while volume.write(node, offset, piece[:512]) == 512:
        offset += 512
    check("free blocks", True, volume.free()[0] < 3)
    check("rm of all", (0, True), (volume.remove(k.UNLINK, k.ROOT, b"f"), volume.free()[0] > 1000))


def known(volume):
    """What the server remembers of a node between two requests: no name is looked up again, as a kernel that has the node doesn't."""
    d, e = volume.mkdir(k.ROOT, b"d")[0], volume.mkdir(k.ROOT, b"e")[0]
    node = volume.mknod(d, b"a")[0]
    check("mv to another directory", 0, volume.rename(d, b"a", e, b"b"))
    check("a write after mv", 5, volume.write(node, 0, b"moved"))
    check("a second name", node, volume.link(node, d, b"c")[0])
    check("rm of the first name", 0, volume.remove(k.UNLINK, e, b"b"))
    check("a write by the second name", 3, volume.write(node, 5, b" on"))
    check("rm of a name that was found last", (node, 0), (volume.link(node, e, b"x")[0], volume.remove(k.UNLINK, e, b"x")))
    check("the size by the name that is left", 10, volume.set(node, SIZE, size=10).size)
    check("its bytes", b"moved on" + bytes(2), volume.read(volume.lookup(d, b"c")[0]))
    check("rm of it", 0, volume.remove(k.UNLINK, d, b"c"))
    check("then it is gone", (ESTALE, ESTALE), (error_of(volume.attributes(node)), volume.write(node, 0, b"x")))
    again = volume.mknod(d, b"n")[0]
    check("the i-number again, under another number", (node & 0xFFFF, True), (again & 0xFFFF, again != node))
    check("the old number", (ESTALE, ESTALE), (volume.write(node, 0, b"old"), volume.read(node)))
    check("nothing in the new file", b"", volume.read(again))
    closed(volume, d)
    middle(volume, d)


def number(major, minor):
    """Linux's number of a device (new_encode_dev)."""
    return minor & 0xFF | major << 8 | (minor & ~0xFF) << 12


def devices(volume):
    """Special files have the kind and the numbers that they are made with; greater numbers than an i-node has room for are refused."""
    for name, kind, major, minor in ((b"tty", CHARACTER, 3, 5), (b"rk", BLOCK, 0, 255), (b"last", CHARACTER, 255, 255)):
        node, made = volume.mknod(k.ROOT, name, kind | 0o620, number(major, minor))
        check(f"the device {name}", (kind | 0o620, 1, 0, number(major, minor)), (made.mode, made.nlink, made.size, made.rdev))
        check(f"the device {name} by its node", number(major, minor), volume.attributes(node).rdev)
    for label, kind, major, minor in (("major", CHARACTER, 256, 0), ("minor", BLOCK, 0, 256), ("greatest", BLOCK, 4095, 0xFFFFF)):
        check(f"a device whose {label} number is too great", EPERM, error_of(volume.mknod(k.ROOT, b"no", kind | 0o600, number(major, minor))))
    for label, kind in (("socket", SOCKET), ("FIFO", PIPE), ("directory", DIRECTORY), ("multiplexor", 0o030000)):
        check(f"a {label}", EPERM, error_of(volume.mknod(k.ROOT, b"no", kind | 0o600)))
    volume.caller = (5, 6)
    for kind in CHARACTER, BLOCK:
        check("a device, by a user other than 0", EPERM, error_of(volume.mknod(k.ROOT, b"no", kind | 0o600)))
    check("a file, by that user", (5, 6), (lambda made: (made.uid, made.gid))(volume.mknod(k.ROOT, b"own")[1]))
    volume.caller = (0, 0)
    check("a device of that name", EEXIST, error_of(volume.mknod(k.ROOT, b"tty", CHARACTER | 0o600, number(3, 5))))
    check("fsync", 0, volume.sync())
    rows = [re.sub(rb", *", b",", row).split() for row in volume.saved("ls", "-l", "/").splitlines()]
    check("what is saved", [(b"crw--w----", b"255,255", b"last"), (b"brw--w----", b"0,255", b"rk"), (b"crw--w----", b"3,5", b"tty")],
          sorted(((row[1], row[5], row[-1]) for row in rows if row[1][:1] in b"cb"), key=lambda row: row[-1]))


def closed(volume, d):
    """Files that are closed when they are removed take no room, however many there were: together twice the image's size."""
    most, piece, removed = 2 * os.path.getsize(volume.image), bytes(131072), 0
    while removed < most:
        node = volume.mknod(d, b"o")[0]
        for offset in range(0, 1 << 20, len(piece)):
            volume.write(node, offset, piece)
        volume.open(node)
        volume.open(node)
        volume.release(node)
        volume.release(node)
        check("rm of a file that was closed", 0, volume.remove(k.UNLINK, d, b"o"))
        check("and no byte of it", ESTALE, volume.read(node, 0, 1))
        removed += 1 << 20


def middle(volume, d):
    """A removed file that is open is cut, made longer and written in its middle like any other."""
    node = volume.mknod(d, b"m")[0]
    volume.write(node, 0, b"0123456789")
    volume.open(node)
    volume.open(node)
    check("rm of an open file", 0, volume.remove(k.UNLINK, d, b"m"))
    check("a write in its middle", 2, volume.write(node, 4, b"xy"))
    check("its bytes", b"0123xy6789", volume.read(node))
    check("a smaller size", 5, volume.set(node, SIZE, size=5).size)
    check("its bytes then", b"0123x", volume.read(node))
    check("a greater size", 8, volume.set(node, SIZE, size=8).size)
    check("zeros at its end", b"0123x" + bytes(3), volume.read(node))
    check("bytes past its end", 3, volume.write(node, 10, b"end"))
    check("zeros before them", b"0123x" + bytes(5) + b"end", volume.read(node))
    check("a part of them", b"x" + bytes(2), volume.read(node, 4, 3))
    volume.release(node)
    check("it is still open once", b"0123x" + bytes(5) + b"end", volume.read(node))
    volume.release(node)
    check("then it is gone", ESTALE, volume.read(node))


def main():
    kind, program, edition, image = sys.argv[1:5]
    if kind in ("gone", "lost"):
        os.mkdir(image + "-folder")
        os.rename(image, image + "-folder/image")
        image += "-folder/image"
        os.environ["TMPDIR"] = os.path.abspath("temporary" if kind == "gone" else "no-such-folder")
    if kind in ("replaced", "rescued"):
        with open(image + ".unixvol-rescue-0", "wb") as file:
            file.write(b"earlier")
    volume = Changing(program, edition, image, *{"mine": ["--mine"], "rescued": ["--rescue", image + ".kept"]}.get(kind, []))
    {"session": session, "linux": linux, "mine": mine, "replaced": replaced, "rescued": replaced, "gone": gone, "lost": gone, "full": full, "known": known, "devices": devices}[kind](volume)
    if kind in ("session", "linux", "mine", "full", "known", "devices"):
        check("the status and the lines", (0, ""), volume.end())
        is_sound("the end", volume)
    if kind == "session":
        check("what is saved at the end", b"", printed(program, "get", edition, image, "/last"))
        check("the owner that is saved", True, b" 200 7 " in b" ".join(printed(program, "ls", "-l", edition, image, "/d/e").split()))
    print("\n".join(k.wrong[:10]), end="\n" if k.wrong else "")
    sys.exit(1 if k.wrong else 0)


main()
