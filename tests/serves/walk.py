#!/usr/bin/env python3
"""Random calls on a mounted volume and on a folder of the host, which must answer alike: results, errors, and what each file is then.
Usage: walk.py walk VOLUME FOLDER SEED STEPS     makes the calls in both, and then compares all files
       walk.py same VOLUME FOLDER                compares all files
It prints a line for each difference, ten at most. A directory's number of links and size, and times that no call set, are the system's own."""
import errno, mmap, os, random, stat, sys

KINDS = ("create create excl write write write append truncate truncate read link link unlink unlink rename rename mkdir rmdir chmod chown times list "
         "open close fwrite fwrite ftruncate fread map").split()
DIRECTORIES = ["", "a", "b", "a/c", "b/dd", "a/c/e"]
NAMES = [b"f1", b"f2", b"f3", b"link", b"abcdefghijklmn", b"x y", b"\xe9"]
differences = 0


def differ(*words):
    global differences
    differences += 1
    if differences <= 10:
        print(*(str(word)[:160] for word in words))


def outcome(call, top):
    """What a call returned, or the name of its error."""
    try:
        return call(top)
    except OSError as error:
        return errno.errorcode[error.errno]


def look(path):
    """What there is at a path: of a file all that a call sets."""
    found = os.lstat(path)
    if stat.S_ISDIR(found.st_mode):
        return stat.S_IMODE(found.st_mode), found.st_uid, found.st_gid, sorted(os.listdir(path))
    with open(path, "rb") as file:
        return stat.S_IMODE(found.st_mode), found.st_uid, found.st_gid, found.st_nlink, found.st_size, file.read()


def tree(top):
    return {os.path.relpath(os.path.join(at, name), top): look(os.path.join(at, name)) for at, below, files in os.walk(top) for name in below + files}


def same(volume, folder):
    ours, theirs = tree(volume), tree(folder)
    for path in sorted(set(ours) | set(theirs)):
        if ours.get(path) != theirs.get(path):
            differ(repr(path), ours.get(path), "on the host", theirs.get(path))


class Walk:
    def __init__(self, volume, folder, seed):
        self.volume, self.folder, self.chance, self.opened = os.fsencode(volume), os.fsencode(folder), random.Random(seed), []

    def both(self, words, call):
        ours, theirs = (outcome(call, top) for top in (self.volume, self.folder))
        if ours != theirs:
            differ(*words, ours, "on the host", theirs)

    def path(self):
        return os.path.join(os.fsencode(self.chance.choice(DIRECTORIES)), self.chance.choice(NAMES))

    def step(self, number):
        chance, kind, path, to = self.chance, self.chance.choice(KINDS), self.path(), self.path()
        offset = chance.choice((0, 1, 511, 512, 5000, chance.randrange(3000), chance.randrange(80000)))
        count = chance.choice((0, 1, 77, 512, chance.randrange(9000), 140000 if chance.random() < 0.2 else 3))
        content = bytes([chance.randrange(1, 256)]) * count
        mode, owner, moment = chance.choice((0o644, 0o600, 0o755, 0o4755)), chance.randrange(200), chance.randrange(1 << 31)
        directory = os.fsencode(chance.choice(DIRECTORIES[1:])) if chance.random() < 0.7 else path
        words = number, kind, path, to, directory, offset, count
        if kind in ("open", "close", "fwrite", "ftruncate", "fread"):
            return self.opened_step(kind, words, path, offset, content)
        if kind == "rename" and os.path.isdir(os.path.join(self.folder, path)):
            kind = "list"

        def writing(flags, write):
            def call(top):
                file = os.open(os.path.join(top, path), flags, 0o644)
                try:
                    return write(file)
                finally:
                    os.close(file)
            return call

        def changed(file):
            if not os.fstat(file).st_size:
                return 0
            with mmap.mmap(file, 0) as bytes_of:
                bytes_of[0] = bytes_of[-1] = moment % 256
                bytes_of.flush()
                return bytes_of[:]

        def timed(top):
            os.utime(os.path.join(top, path), (moment, moment // 2))
            found = os.stat(os.path.join(top, path))
            return found.st_mtime

        calls = {
            "create": writing(os.O_WRONLY | os.O_CREAT | os.O_TRUNC, lambda file: os.write(file, content)),
            "excl": writing(os.O_WRONLY | os.O_CREAT | os.O_EXCL, lambda file: os.write(file, content)),
            "write": writing(os.O_WRONLY | os.O_CREAT, lambda file: os.pwrite(file, content, offset)),
            "append": writing(os.O_WRONLY | os.O_APPEND, lambda file: os.write(file, content)),
            "truncate": writing(os.O_WRONLY, lambda file: os.ftruncate(file, offset)),
            "map": writing(os.O_RDWR, changed),
            "read": lambda top: look(os.path.join(top, path)),
            "link": lambda top: os.link(os.path.join(top, path), os.path.join(top, to)),
            "unlink": lambda top: os.unlink(os.path.join(top, path)),
            "rename": lambda top: os.rename(os.path.join(top, path), os.path.join(top, to)),
            "mkdir": lambda top: os.mkdir(os.path.join(top, directory)),
            "rmdir": lambda top: os.rmdir(os.path.join(top, directory)),
            "chmod": lambda top: os.chmod(os.path.join(top, path), mode),
            "chown": lambda top: os.chown(os.path.join(top, path), owner, owner // 2),
            "times": timed,
            "list": lambda top: sorted(os.listdir(os.path.join(top, directory))),
        }
        self.both(words, calls[kind])
        for each in path, to:
            self.both(("after",) + words, lambda top: look(os.path.join(top, each)))

    def opened_step(self, kind, words, path, offset, content):
        """A call on a file that may have lost its name since it was opened."""
        if kind == "open" and len(self.opened) < 9:
            pair = [outcome(lambda top: os.open(os.path.join(top, path), os.O_RDWR), top) for top in (self.volume, self.folder)]
            if all(isinstance(file, int) for file in pair):
                self.opened.append(dict(zip((self.volume, self.folder), pair)))
            elif pair[0] != pair[1]:
                differ(*words, *pair)
        elif self.opened:
            files = self.chance.choice(self.opened)
            if kind == "close":
                self.opened.remove(files)
            self.both(words, {
                "open": lambda top: None,
                "close": lambda top: os.close(files[top]),
                "fwrite": lambda top: os.pwrite(files[top], content, offset),
                "ftruncate": lambda top: os.ftruncate(files[top], offset),
                "fread": lambda top: (os.pread(files[top], 300000, 0), os.fstat(files[top]).st_size, os.fstat(files[top]).st_nlink),
            }[kind])

    def end(self):
        for files in self.opened:
            for file in files.values():
                os.close(file)


def main():
    os.umask(0o022)
    if sys.argv[1] == "walk":
        walk = Walk(*sys.argv[2:5])
        for number in range(int(sys.argv[5])):
            walk.step(number)
        walk.end()
    same(*map(os.fsencode, sys.argv[2:4]))
    sys.exit(1 if differences else 0)


main()
