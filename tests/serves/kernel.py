#!/usr/bin/env python3
"""Plays the Linux kernel for `unixvol serve`, without /dev/fuse and without rights: a socket keeps each request and each reply whole.
Usage: kernel.py tree PROGRAM EDITION IMAGE          all that is served is compared with what the program prints of the image
       kernel.py random PROGRAM EDITION IMAGE SEED COUNT [OPTION..]    random requests, many of them cut off, are each answered once; the
                                                     server gets the options, else --read-only
       kernel.py messages PROGRAM EDITION IMAGE FILE  each request of a file gets exactly the reply beside it, or none
       kernel.py request                             writes the first request of a mount
It prints a line for each thing that is wrong. Numbers and structs are those of Linux's include/uapi/linux/fuse.h."""
import json, random, socket, struct, subprocess, sys

LOOKUP, FORGET, GETATTR, OPEN, READ, STATFS, RELEASE, INIT, OPENDIR, READDIR, RELEASEDIR = 1, 2, 3, 14, 15, 17, 18, 26, 27, 28, 29
INTERRUPT, NOTIFY_REPLY, BATCH_FORGET = 36, 41, 42
UNANSWERED = {FORGET, INTERRUPT, NOTIFY_REPLY, BATCH_FORGET}
SETATTR, SYMLINK, MKNOD, MKDIR, UNLINK, RMDIR, RENAME, LINK, WRITE, CREATE, RENAME2 = 4, 6, 8, 9, 10, 11, 12, 13, 16, 35, 45
# What changes a volume, each with a whole body.
CHANGES = {
    "SETATTR": (SETATTR, bytes(88)), "SYMLINK": (SYMLINK, b"new\0old\0"), "MKNOD": (MKNOD, bytes(16) + b"new\0"), "MKDIR": (MKDIR, bytes(8) + b"new\0"),
    "UNLINK": (UNLINK, b"new\0"), "RMDIR": (RMDIR, b"new\0"), "RENAME": (RENAME, bytes(8) + b"old\0new\0"), "LINK": (LINK, bytes(8) + b"new\0"),
    "WRITE": (WRITE, bytes(40)), "CREATE": (CREATE, bytes(16) + b"new\0"), "RENAME2": (RENAME2, bytes(16) + b"old\0new\0"),
}
# What some of them have before their names, in bytes.
HEADS = {MKNOD: 16, MKDIR: 8, UNLINK: 0, RMDIR: 0, RENAME: 8, LINK: 8, CREATE: 16, RENAME2: 16}
ROOT = 1
ENOENT, ENOSYS, ENAMETOOLONG, EROFS = 2, 38, 36, 30

wrong = []


def check(label, wanted, got):
    if wanted != got:
        wrong.append(f"{label}: {got!r}, wanted {wanted!r}")


def request(opcode, unique, node, body=b"", length=None, caller=(0, 0)):
    return struct.pack("<IIQQIIII", 40 + len(body) if length is None else length, opcode, unique, node, *caller, 1, 0) + body


def init_body():
    return struct.pack("<4I48x", 7, 42, 131072, 0x73FFFFFB)


def read_body(offset, size):
    return struct.pack("<QQIIQII", 0, offset, size, 0, 0, 0, 0)


class Attributes:
    def __init__(self, bytes):
        (self.ino, self.size, self.blocks, self.atime, self.mtime, self.ctime, _, _, _, self.mode, self.nlink, self.uid, self.gid,
         self.rdev, self.blksize, _) = struct.unpack("<6Q10I", bytes)


class Kernel:
    def __init__(self, program, edition, image, options=("--read-only",)):
        self.ours, theirs = socket.socketpair(socket.AF_UNIX, socket.SOCK_SEQPACKET)
        for end in self.ours, theirs:
            end.setsockopt(socket.SOL_SOCKET, socket.SO_SNDBUF, 1 << 20)
        self.ours.settimeout(20)
        self.server = subprocess.Popen([program, "serve", *options, edition, image], stdin=theirs, stdout=theirs, stderr=subprocess.PIPE)
        theirs.close()
        # The user and the group that ask.
        self.options, self.unique, self.caller = options, 0, (0, 0)

    def send(self, opcode, node, body=b"", length=None):
        self.unique += 2
        self.ours.send(request(opcode, self.unique, node, body, length, self.caller))

    def reply(self):
        got = self.ours.recv(1 << 20)
        if len(got) < 16:
            raise SystemExit(f"the server ended: {len(got)} bytes; {self.end()}")
        length, error, unique = struct.unpack_from("<IiQ", got)
        check("the length of a reply", len(got), length)
        check("the request that is answered", self.unique, unique)
        return -error, got[16:]

    def ask(self, opcode, node, body=b"", length=None):
        """The number of the error, and what the reply has behind its header."""
        self.send(opcode, node, body, length)
        return self.reply()

    def begin(self):
        error, body = self.ask(INIT, 0, init_body())
        check("the error of INIT", 0, error)
        check("the version", 7, struct.unpack_from("<I", body)[0])

    def attributes(self, node):
        error, body = self.ask(GETATTR, node, bytes(16))
        return Attributes(body[16:]) if not error else error

    def lookup(self, node, name):
        """The node of an entry and its attributes, or the number of the error: a node 0 is none, which may be kept."""
        error, body = self.ask(LOOKUP, node, name + b"\0")
        if error:
            return error
        found = struct.unpack_from("<Q", body)[0]
        return (found, Attributes(body[40:])) if found else ENOENT

    def handle(self, opcode, node):
        """The handle of an open file; 0 if the server needs none."""
        error, body = self.ask(opcode, node, bytes(8))
        if error == ENOSYS:
            return 0
        check("the error of an opening", 0, error)
        return struct.unpack_from("<Q", body)[0] if not error else 0

    def bytes_of(self, node, size, piece=65536):
        self.handle(OPEN, node)
        found = b""
        while True:
            error, body = self.ask(READ, node, read_body(len(found), piece))
            if error or not body:
                check("the error of a read", 0, error)
                break
            found += body
            if len(body) < piece:
                break
        self.ask(RELEASE, node, bytes(24))
        return found

    def entries(self, node, room=4096):
        """The entries of a directory: i-number, kind and name, as often as READDIR gives them, in pieces of so many bytes."""
        handle = self.handle(OPENDIR, node)
        offset, found = 0, []
        while True:
            error, body = self.ask(READDIR, node, struct.pack("<QQIIQII", handle, offset, room, 0, 0, 0, 0))
            check("the error of READDIR", 0, error)
            check("the room of READDIR is kept", True, len(body) <= room)
            if error or not body:
                break
            at = 0
            while at < len(body):
                ino, offset, length, kind = struct.unpack_from("<QQII", body, at)
                found.append((ino, kind, body[at + 24:at + 24 + length]))
                at += (24 + length + 7) // 8 * 8
        self.ask(RELEASEDIR, node, struct.pack("<QIIQ", handle, 0, 0, 0))
        return found

    def end(self):
        """The status of the server once its input has ended, and what it said on standard error."""
        self.ours.close()
        said = self.server.communicate(timeout=20)[1]
        return self.server.returncode, said.decode()


def printed(program, *words):
    return subprocess.run([program, *words], stdout=subprocess.PIPE, stderr=subprocess.PIPE, stdin=subprocess.DEVNULL).stdout


def format_of(edition, mode):
    """The kind of a file as Linux has it, by the mode of its i-node (the manuals, section 5): 0 of an odd one."""
    kind = mode & 0o170000
    if edition == "6":
        return {0: 0o100000}.get(mode & 0o060000, mode & 0o060000)
    return kind if kind in (0o020000, 0o040000, 0o060000, 0o100000) else 0


class Image:
    """What the program prints of the image, by i-numbers."""

    def __init__(self, program, edition, image):
        self.words, self.program, self.edition = (edition, image), program, edition
        self.nodes, self.bodies = {}, {}

    def node(self, ino):
        if ino not in self.nodes:
            self.nodes[ino] = json.loads(printed(self.program, "inode", "--json", *self.words, str(ino)))
        return self.nodes[ino]

    def body(self, ino):
        if ino not in self.bodies:
            self.bodies[ino] = printed(self.program, "cat", *self.words, str(ino))
        return self.bodies[ino]

    def slots(self, ino):
        """The slots of a directory with a number, by the bytes that it has."""
        body = self.body(ino)
        pairs = [struct.unpack_from("<H14s", body, at) for at in range(0, len(body) // 16 * 16, 16)]
        return [(number, name.split(b"\0")[0]) for number, name in pairs if number]


def compare_attributes(label, edition, node, found):
    """What stat(2) would tell is what `inode` prints."""
    check(f"{label}: permissions", int(node["permissions"], 8), found.mode & 0o7777)
    check(f"{label}: kind", format_of(edition, int(node["mode"], 8)), found.mode & 0o170000)
    check(f"{label}: links", node["links"], found.nlink)
    check(f"{label}: owner", (node["uid"], node["gid"]), (found.uid, found.gid))
    check(f"{label}: times", (node["atime"], node["mtime"]), (found.atime, found.mtime))
    if node["kind"] in ("directory", "file"):
        check(f"{label}: size", node["size"], found.size)


def compare_tree(program, edition, image):
    """Goes from the root to all that entries lead to. The root of the sixth edition is i-node 1, that of the seventh 2."""
    kernel, files = Kernel(program, edition, image), Image(program, edition, image)
    kernel.begin()
    names_by_ls = {}
    listing = printed(program, "ls", "-R", "--json", edition, image)
    for row in json.loads(listing)["entries"] if listing else []:
        directory, _, name = row["path"].rpartition("/")
        names_by_ls.setdefault(directory, []).append((row["ino"], name))
    seen, todo, count = set(), [(ROOT, "", kernel.attributes(ROOT))], 0
    check("the i-number of the root", 1 if edition == "6" else 2, todo[0][2].ino)
    while todo:
        node, path, found = todo.pop()
        if found.ino in seen:
            continue
        seen.add(found.ino)
        count += 1
        label = path or "/"
        compare_attributes(label, edition, files.node(found.ino), found)
        compare_attributes(f"{label}, asked again", edition, files.node(found.ino), kernel.attributes(node))
        kind = found.mode & 0o170000
        if kind == 0o100000:
            body = files.body(found.ino)
            for piece in 65536, 1000:
                check(f"{label}: bytes in pieces of {piece}", True, kernel.bytes_of(node, found.size, piece) == body)
            for offset in 1, 511, 512, 5119, found.size - 1, found.size, found.size + 1, 1 << 40:
                if offset >= 0:
                    error, some = kernel.ask(READ, node, read_body(offset, 700))
                    check(f"{label}: bytes from {offset} on", (0, body[offset:offset + 700]), (error, some))
        if kind != 0o040000:
            continue
        slots = files.slots(found.ino)
        for room in 4096, 120:
            entries = kernel.entries(node, room)
            check(f"{label}: names", [name for _, name in slots], [name for _, _, name in entries])
            check(f"{label}: i-numbers", [ino for ino, _ in slots], [ino for ino, _, _ in entries])
        if path in names_by_ls and all(name.isascii() for _, name in slots):
            check(f"{label}: names by ls", sorted(names_by_ls[path]), sorted((ino, name.decode()) for ino, name in slots))
        check(f"{label}: a name that isn't there", ENOENT, kernel.lookup(node, b"none such"))
        check(f"{label}: a name of 15 bytes", ENAMETOOLONG, kernel.lookup(node, b"fifteen bytes.."))
        first = {}
        for ino, name in slots:
            first.setdefault(name, ino)
        for name, ino in first.items():
            got = kernel.lookup(node, name)
            if isinstance(got, int):
                check(f"{label}: {name!r} isn't there, by error {got}", True, files.node(ino)["kind"] in ("free", "odd"))
                continue
            check(f"{label}: the i-number of {name!r}", ino, got[1].ino)
            if name not in (b".", b".."):
                todo.append((got[0], f"{path}/{name.decode('latin-1')}", got[1]))
    error, body = kernel.ask(STATFS, ROOT)
    blocks = int(dict(line.split()[:2] for line in printed(program, "super", edition, image).decode().splitlines())["fsize"])
    check("the size of the volume", (0, True), (error, struct.unpack_from("<Q", body)[0] <= blocks))
    check("the length of names", 14, struct.unpack_from("<I", body, 44)[0])
    for name, (opcode, body) in CHANGES.items():
        check(f"{name} is refused", EROFS, kernel.ask(opcode, ROOT, body)[0])
    status, said = kernel.end()
    check("the status", 0, status)
    print(f"{count} files; {said.strip()}")


def random_requests(program, edition, image, seed, count, options):
    """Each request that wants a reply gets one, whatever it is; one that can't be answered, or wants no reply, gets none."""
    chance = random.Random(seed)
    kernel = Kernel(program, edition, image, options or ["--read-only"])
    kernel.begin()
    nodes = [ROOT, ROOT, ROOT, 0, 2, 94, 1 << 16, 1 << 32, (1 << 64) - 1]
    names = [b"etc", b"usr", b"d", b"a", b".", b"..", b"", b"fourteen-bytes", b"fifteen-bytes..", b"a/b", b"\xff", 300 * b"n"]
    common = [LOOKUP, LOOKUP, LOOKUP, GETATTR, OPEN, READ, READ, STATFS, RELEASE, INIT, OPENDIR, READDIR, READDIR, RELEASEDIR, FORGET]

    def number():
        return chance.choice((0, 1, 2, 16, 511, 512, 4096, 70000, 0xFFFFFFFF, chance.randrange(1 << 32)))

    for _ in range(count):
        opcode = chance.choice(common) if chance.random() < 0.8 else chance.choice((chance.randrange(60), chance.randrange(1 << 32)))
        if "--read-only" not in kernel.options and chance.random() < 0.6:
            opcode = chance.choice(list(CHANGES.values()))[0]
        body = b"".join(struct.pack("<I", number()) for _ in range(chance.randrange(20)))
        if opcode == LOOKUP:
            body = chance.choice(names) + b"\0"
        elif opcode in (READ, READDIR):
            body = struct.pack("<QQIIQII", number(), number() << chance.choice((0, 0, 0, 31)), number(), 0, 0, 0, 0)
        elif opcode == WRITE:
            size = chance.choice((0, 1, 511, 512, 70000))
            body = struct.pack("<QQIIQII", 0, number() << chance.choice((0, 0, 31)), size, 0, 0, 0, 0) + bytes(size)
        elif opcode == SETATTR:
            body = struct.pack("<22I", *(number() for _ in range(22)))
        elif opcode in HEADS:
            to = struct.pack("<QQ", chance.choice(nodes), number() % 3)
            mode = struct.pack("<IIQ", chance.choice((0o100644, 0o040755, number())), number(), 0)
            head = to if opcode in (LINK, RENAME, RENAME2) else mode
            body = head[:HEADS[opcode]] + b"".join(chance.choice(names) + b"\0" for _ in range(2 if opcode in (RENAME, RENAME2) else 1))
        length = None
        odd = chance.random()
        if odd < 0.1:
            body = body[:chance.randrange(len(body) + 1)]
        elif odd < 0.15:
            length = chance.choice((0, 39, 40, 41, 40 + len(body) - 1, 40 + len(body) + 1, 0xFFFFFFFF))
        if odd > 0.98:
            # Fewer bytes than a header: there is nothing to reply to.
            kernel.ours.send(request(opcode, 0, ROOT, body)[:chance.randrange(1, 40)])
            continue
        node = chance.choice(nodes)
        if opcode in UNANSWERED:
            kernel.send(opcode, node, body, length)
            continue
        error, reply = kernel.ask(opcode, node, body, length)
        check(f"the error of {opcode} is a number of an error", True, 0 <= error < 512)
        if error:
            check(f"a reply of {opcode} with an error", b"", reply)
        elif opcode in (LOOKUP, MKNOD, MKDIR, LINK) and length in (None, 40 + len(body)):
            check("the bytes of an entry", 128, len(reply))
            nodes.append(int.from_bytes(reply[:8], "little"))
        elif opcode in (READ, READDIR):
            check(f"the room of {opcode} is kept", True, len(body) >= 20 and len(reply) <= struct.unpack_from("<I", body, 16)[0])
    # A reply too many would be taken for the next one's.
    check("the last request", 0, kernel.ask(STATFS, ROOT)[0])
    check("the status", 0, kernel.end()[0])


def message(line):
    """The bytes of a line: words of four bytes in hexadecimal, and 00x8 for eight bytes 0."""
    return b"".join(bytes(int(word[3:])) if word.startswith("00x") else bytes.fromhex(word) for word in line.split()[1:])


def send_messages(program, edition, image, file):
    kernel, label = Kernel(program, edition, image), ""
    for line in open(file):
        if line.startswith("#"):
            label = line[2:].strip()
        elif line.startswith(">"):
            kernel.ours.send(message(line))
        else:
            check(f"the reply to {label}", message(line).hex(), kernel.ours.recv(1 << 20).hex())
    check("the status", 0, kernel.end()[0])


def main():
    if sys.argv[1] == "request":
        sys.stdout.buffer.write(request(INIT, 2, 0, init_body()))
    elif sys.argv[1] == "tree":
        compare_tree(*sys.argv[2:5])
    elif sys.argv[1] == "messages":
        send_messages(*sys.argv[2:6])
    else:
        random_requests(*sys.argv[2:5], int(sys.argv[5]), int(sys.argv[6]), sys.argv[7:])
    print("\n".join(wrong[:10]), end="\n" if wrong else "")
    sys.exit(1 if wrong else 0)


if __name__ == "__main__":
    main()
