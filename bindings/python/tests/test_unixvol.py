"""Tests of the Python package. What the library itself does is proved; here it is that Python hands it on."""

import array
import builtins
import copy
import errno
import fcntl
import hashlib
import io
import os
import pickle
import re
import stat
import struct
import sys
import tempfile
import threading
import unittest
from contextlib import contextmanager
from datetime import datetime, timedelta, timezone
from pathlib import Path
from unittest import mock

import unixvol
from unixvol import _files, _scan

SAMPLES = Path(__file__).resolve().parents[3] / "samples"
MOMENT = 300000000


def made(edition: int = 7) -> unixvol.Volume:
    volume = unixvol.mkfs(edition, 400, 12, now=MOMENT)
    (volume / "etc").mkdir()
    (volume / "etc/motd").write_bytes(b"welcome\n")
    return volume


class Paths(unittest.TestCase):
    def test_what_linux_wrote(self):
        text = (SAMPLES / "linux_made.txt").read_text()
        sums = {f"/{name}": sum for sum, name in re.findall(r"^([0-9a-f]{32})  (.*)$", text, re.M)}
        with unixvol.open(SAMPLES / "linux_made.v7", 7) as volume:
            found = {
                str(folder / name): hashlib.md5((folder / name).read_bytes()).hexdigest()
                for folder, _, names in volume.root.walk()
                for name in names
            }
        self.assertGreater(len(sums), 5)
        self.assertEqual({path: found.get(path) for path in sums}, sums)

    def test_paths(self):
        with made() as volume:
            path = volume / "etc" / "motd"
            self.assertEqual(str(path), "/etc/motd")
            self.assertEqual(path, volume / "/etc/motd")
            self.assertEqual((path.name, path.parent), ("motd", volume / "etc"))
            self.assertEqual(repr(path), "VolumePath('/etc/motd')")
            self.assertEqual(len({path, volume / "etc/motd", volume.root}), 2)
            self.assertTrue(path.is_file() and path.parent.is_dir() and path.exists())
            self.assertFalse(path.is_dir() or (path / "x").exists() or (volume / "x").exists())

    def test_stat(self):
        with made() as volume:
            volume.now = datetime(1990, 1, 1, tzinfo=timezone.utc)
            (volume / "etc/motd").chmod(0o4755)
            found = (volume / "etc/motd").stat()
        began = datetime(1970, 1, 1, tzinfo=timezone.utc) + timedelta(seconds=MOMENT)
        self.assertEqual(
            found,
            unixvol.Stat(95, "regular", 0o4755, 1, 0, 0, 8, began, began, datetime(1990, 1, 1, tzinfo=timezone.utc)),
        )
        self.assertEqual(found.mode, "-rwsr-xr-x")
        with made(6) as volume:
            self.assertIsNone(volume.root.stat().changed)
            self.assertEqual(volume.root.stat().mode, "drwxrwxrwx")

    def test_directories(self):
        with made() as volume:
            (volume / "a/b/c").mkdir(parents=True)
            (volume / "a/b").mkdir(exist_ok=True)
            self.assertEqual(list(volume.root.iterdir()), [volume / "a", volume / "etc"])
            self.assertEqual(
                [(str(folder), folders, names) for folder, folders, names in volume.root.walk()],
                [
                    ("/", ["a", "etc"], []),
                    ("/a", ["b"], []),
                    ("/a/b", ["c"], []),
                    ("/a/b/c", [], []),
                    ("/etc", [], ["motd"]),
                ],
            )
            with self.assertRaises(unixvol.NotEmpty):
                (volume / "a/b").rmdir()
            (volume / "a/b/c").rmdir()
            self.assertFalse((volume / "a/b/c").exists())
            names = [f"{number:02}" for number in range(80)]
            for name in names:
                (volume / "a" / name).create()
            self.assertEqual([path.name for path in (volume / "a").iterdir()], [*names, "b"])

    def test_names_are_bytes(self):
        with made() as volume:
            name = os.fsdecode(b"\xff\xfe")
            (volume / name).create()
            self.assertIn(volume / name, list(volume.root.iterdir()))
            self.assertIn(b"/\xff\xfe\n", os.fsencode(volume.report("ncheck")))


class Files(unittest.TestCase):
    def test_bytes(self):
        with made() as volume:
            path = volume / "file"
            self.assertEqual(path.write_bytes(b"0123456789"), 10)
            self.assertEqual(path.read_bytes(2, 3), b"234")
            self.assertEqual(path.read_bytes(8), b"89")
            self.assertEqual(path.read_bytes(11), b"")
            path.write_at(12, b"x")
            self.assertEqual(path.read_bytes(), b"0123456789\0\0x")
            self.assertEqual(path.write_bytes(b"ab"), 2)
            self.assertEqual(path.read_bytes(), b"ab")
            path.truncate(1)
            self.assertEqual(path.read_text(), "a")
            path.write_text("caf\xe9")
            self.assertEqual(path.read_bytes(), b"caf\xe9")
            self.assertEqual(path.read_bytes(1, 1 << 40), b"af\xe9")

    def test_bytes_of_other_kinds(self):
        with made() as volume:
            path = volume / "file"
            words = array.array("H", range(300))
            self.assertEqual(path.write_bytes(words), 600)
            self.assertEqual(path.read_bytes(), words.tobytes())
            path.write_at(600, memoryview(words))
            self.assertEqual(path.read_bytes(600), words.tobytes())
            for other in 5, "text", None:
                self.assertRaises(TypeError, path.write_bytes, other)
                self.assertRaises(TypeError, path.write_at, 0, other)
                self.assertRaises(TypeError, (volume / "new").write_bytes, other)
            self.assertEqual(path.read_bytes(), words.tobytes() * 2)
            self.assertFalse((volume / "new").exists())
            self.assertRaises(TypeError, unixvol.judge, 4096, 7)
            self.assertRaises(TypeError, path.write_at, 1.0, b"x")

    def test_a_refused_write_leaves_what_was_there(self):
        with made() as volume:
            for name in "etc/motd", "new":
                with self.assertRaises(unixvol.NoSpace):
                    (volume / name).write_bytes(bytes(300000))
            self.assertEqual((volume / "etc/motd").read_bytes(), b"welcome\n")
            self.assertFalse((volume / "new").exists())
            self.assertEqual(volume.about().free_blocks, 383)

    def test_names(self):
        with made() as volume:
            (volume / "motd").hardlink_to(volume / "etc/motd")
            self.assertEqual((volume / "motd").stat().links, 2)
            (volume / "etc/motd").unlink()
            self.assertEqual((volume / "motd").read_bytes(), b"welcome\n")
            (volume / "motd").chown(7, 3)
            self.assertEqual(((volume / "motd").stat().uid, (volume / "motd").stat().gid), (7, 3))
            with made() as other, self.assertRaises(ValueError):
                (other / "motd").hardlink_to(volume / "motd")

    def test_rename(self):
        with made() as volume:
            inode = (volume / "etc/motd").stat().inode
            new = (volume / "etc/motd").rename(volume / "news")
            self.assertEqual((str(new), new.stat().inode, new.stat().links), ("/news", inode, 1))
            self.assertFalse((volume / "etc/motd").exists())
            (volume / "there").write_bytes(b"stays")
            for target, fault in ("there", unixvol.Exists), ("news", unixvol.Exists), ("fifteen-letters", unixvol.LongName):
                self.assertRaises(fault, new.rename, volume / target)
            self.assertRaises(unixvol.Refusal, (volume / "etc").rename, volume / "lib")
            new = new.rename("/etc/news")
            self.assertEqual(str(new), "/etc/news")
            self.assertEqual((new.read_bytes(), (volume / "there").read_bytes()), (b"welcome\n", b"stays"))
            (volume / "again").hardlink_to("etc/news")
            self.assertEqual(new.stat().links, 2)
            self.assertRaises(TypeError, new.rename, b"/news")

    def test_a_rename_that_is_refused_leaves_one_name(self):
        with made() as volume:
            (volume / "tmp").mkdir(0o777)
            volume.uid = 3
            self.assertRaises(unixvol.Access, (volume / "etc/motd").rename, volume / "tmp/motd")
            self.assertFalse((volume / "tmp/motd").exists())
            self.assertEqual((volume / "etc/motd").stat().links, 1)

    def test_names_that_would_be_cut(self):
        with made() as volume:
            (volume / "fourteen-bytes").write_bytes(b"first")
            longer = volume / "fourteen-bytes-and-more"
            for make in (
                lambda: longer.write_bytes(b"second"),
                lambda: longer.create(),
                lambda: longer.mkdir(exist_ok=True),
                lambda: longer.mknod("c", 1, 2),
                lambda: longer.hardlink_to(volume / "etc/motd"),
            ):
                with self.assertRaises(unixvol.LongName) as raised:
                    make()
                self.assertEqual((raised.exception.errno, raised.exception.filename), (errno.ENAMETOOLONG, str(longer)))
            self.assertEqual((volume / "fourteen-bytes").read_bytes(), b"first")
            self.assertEqual(longer.read_bytes(), b"first")
            longer.unlink()
            self.assertFalse((volume / "fourteen-bytes").exists())

    def test_special_files(self):
        with made() as volume:
            inode = (volume / "etc/tty").mknod("c", 3, 5, 0o620)
            found = (volume / "etc/tty").stat()
            self.assertEqual((found.inode, found.kind, found.permissions, found.links), (inode, "special", 0o620, 1))
            (volume / "etc/rk0").mknod("b", 0, 255)
            rows = [(row.path, row.kind, row.major, row.minor) for row in unixvol.look(bytes(volume), 7).ls("/etc")[-2:]]
            self.assertEqual(rows, [("/etc/rk0", "block", 0, 255), ("/etc/tty", "character", 3, 5)])
            self.assertRaises(unixvol.Exists, (volume / "etc/tty").mknod, "c", 3, 5)
            self.assertRaises(unixvol.NoDevice, (volume / "x").mknod, "p", 3, 5)
            self.assertRaises(OverflowError, (volume / "x").mknod, "c", 256, 5)
            volume.uid = 7
            self.assertRaises(unixvol.NotOwner, (volume / "x").mknod, "c", 3, 5)

    def test_times(self):
        with made() as volume:
            volume.now = moment = datetime(1990, 1, 1, tzinfo=timezone.utc)
            path = volume / "etc/motd"
            path.utime((datetime(1979, 1, 1, tzinfo=timezone.utc), 5))
            found = path.stat()
            self.assertEqual(found.accessed, datetime(1979, 1, 1, tzinfo=timezone.utc))
            self.assertEqual((found.modified.timestamp(), found.changed), (5, moment))
            path.utime()
            self.assertEqual((path.stat().accessed, path.stat().modified), (moment, moment))
            self.assertRaises(OverflowError, path.utime, (1 << 32, 5))


class Faults(unittest.TestCase):
    def test_kinds(self):
        with made() as volume:
            for kind, number, attempt in (
                (FileNotFoundError, 2, lambda: (volume / "x").read_bytes()),
                (FileExistsError, 17, lambda: (volume / "etc").mkdir()),
                (NotADirectoryError, 20, lambda: (volume / "etc/motd/x").stat()),
                (IsADirectoryError, 21, lambda: (volume / "etc").read_bytes()),
                (OSError, 22, lambda: (volume / "a\0b").stat()),
            ):
                with self.assertRaises(kind) as raised:
                    attempt()
                self.assertIsInstance(raised.exception, unixvol.Refusal)
                self.assertEqual(raised.exception.number, number)
            volume.uid = 7
            with self.assertRaises(PermissionError) as raised:
                (volume / "etc/x").create()
            self.assertEqual((raised.exception.number, raised.exception.filename), (13, "/etc/x"))
            self.assertEqual(str(raised.exception), "[Errno 13] 13 Access: '/etc/x'")
            volume.uid = 40000
            self.assertRaises(unixvol.BadId, volume.root.stat)

    def test_names_of_numbers(self):
        for kind in unixvol.Refusal.__subclasses__():
            self.assertEqual(str(kind()), f"[Errno {kind.code}] {kind.number} {kind.__name__}")

    def test_numbers_that_do_not_fit(self):
        with made() as volume:
            self.assertRaises(OverflowError, (volume / "etc/motd").chown, 65536, 0)
            self.assertRaises(OverflowError, (volume / "etc/motd").truncate, -1)
            self.assertRaises(OverflowError, (volume / "etc/motd").write_at, 1 << 32, b"x")
            volume.now = datetime(1969, 1, 1, tzinfo=timezone.utc)
            self.assertRaises(OverflowError, (volume / "x").create)
            volume.uid = 65536 + 7
            self.assertRaises(OverflowError, volume.root.stat)

    def test_closed(self):
        volume = made()
        volume.close()
        volume.close()
        self.assertTrue(volume.closed)
        for attempt in volume.root.stat, (volume / "x").create, volume.about, volume.cut, volume.__bytes__:
            self.assertRaises(unixvol.Closed, attempt)

    def test_others(self):
        self.assertRaises(unixvol.NoEdition, unixvol.open, b"", 5)
        self.assertRaises(unixvol.Bounds, unixvol.mkfs, 7, 10, 20)
        self.assertRaises(FileNotFoundError, unixvol.open, "/no/such/image", 7)
        with self.assertRaises(unixvol.Unsound) as raised:
            unixvol.open(bytes(2000), 7)
        self.assertEqual((raised.exception.rule, raised.exception.number), (2, 202))
        self.assertEqual(str(raised.exception), "unsound, rule 2")
        with made() as volume:
            self.assertRaises(unixvol.NoReport, volume.report, "fsck")

    def test_all_names(self):
        public = {name for name, it in vars(unixvol).items() if name[0] != "_" and not isinstance(it, type(os))}
        self.assertEqual(public, set(unixvol.__all__))

    def test_copies(self):
        for fault in unixvol.NoEntry("/x"), unixvol.Unsound(7), unixvol.Unsound(7, "old"), unixvol.Closed("closed"), unixvol.Changed("gone", "/x"):
            again = pickle.loads(pickle.dumps(fault))
            self.assertEqual((type(again), str(again), again.number), (type(fault), str(fault), fault.number))
        with made() as volume:
            self.assertRaises(TypeError, copy.copy, volume)
            self.assertRaises(TypeError, copy.deepcopy, volume)


class InFolder(unittest.TestCase):
    """Tests with a folder of their own, in which `disk.img` is made when it is asked for."""

    def setUp(self):
        folder = tempfile.TemporaryDirectory()
        self.addCleanup(folder.cleanup)
        self.folder = Path(folder.name)
        self.name = self.folder / "disk.img"

    def image(self, mode: int = 0o644) -> Path:
        with made() as volume:
            self.name.write_bytes(bytes(volume))
        self.name.chmod(mode)
        return self.name

    def names(self) -> list[str]:
        return sorted(it.name for it in self.folder.iterdir())

    def mode(self) -> int:
        return stat.S_IMODE(self.name.stat().st_mode)


class Saving(InFolder):
    def test_save(self):
        name = self.name
        with made() as volume:
            self.assertRaises(ValueError, volume.save)
            volume.save(name)
            self.assertEqual(name.read_bytes(), bytes(volume))
        name.chmod(0o640)
        (self.folder / "link").symlink_to(name)
        with unixvol.open(self.folder / "link", 7) as volume:
            (volume / "new").create()
            volume.save()
            self.assertEqual(name.read_bytes(), bytes(volume))
            self.assertRaises(ValueError, volume.save, "/dev/null")
            self.assertRaises(OSError, volume.save, self.folder / "no/such/folder")
        self.assertEqual(stat.S_IMODE(name.stat().st_mode), 0o640)
        self.assertTrue((self.folder / "link").is_symlink())
        self.assertEqual(sorted(it.name for it in self.folder.iterdir()), ["disk.img", "link"])

    def test_a_failed_save_leaves_the_old_file(self):
        name = self.folder / "disk.img"
        name.write_bytes(b"old")
        real, os.fsync = os.fsync, self.fails
        try:
            with made() as volume:
                self.assertRaises(InterruptedError, volume.save, name)
        finally:
            os.fsync = real
        self.assertEqual(name.read_bytes(), b"old")
        self.assertEqual(list(self.folder.iterdir()), [name])

    def fails(self, _number):
        raise InterruptedError

    def other_program(self):
        """Makes the directory /x in the image, as the program's commands do."""
        with unixvol.open(self.name, 7) as volume:
            (volume / "x").mkdir()
            (self.folder / "new").write_bytes(bytes(volume))
        os.replace(self.folder / "new", self.name)

    def refuses(self, kind: type[Exception], volume: unixvol.Volume, *words) -> str:
        """The save is refused, and leaves everything as it was; returns what the exception says."""
        before = {it.name: it.read_bytes() for it in self.folder.iterdir()}
        with self.assertRaises(kind) as raised:
            volume.save(*words)
        self.assertEqual({it.name: it.read_bytes() for it in self.folder.iterdir()}, before)
        return str(raised.exception)

    def test_what_another_program_wrote_stays(self):
        with unixvol.open(self.image(), 7) as volume:
            (volume / "y").mkdir()
            self.other_program()
            why = self.refuses(unixvol.Changed, volume)
            self.assertEqual(why, f"[Errno {errno.EBUSY}] it has changed since it was read or saved: '{self.name}'")
            self.refuses(unixvol.Changed, volume, self.name)
            volume.save(self.folder / "mine.img")
        with unixvol.open(self.name, 7) as volume:
            self.assertTrue((volume / "x").exists())
        with unixvol.open(self.folder / "mine.img", 7) as volume:
            self.assertTrue((volume / "y").exists())

    def test_each_change_is_seen(self):
        for change in (
            lambda: os.truncate(self.name, 400 * 512 + 1),
            lambda: os.utime(self.name, ns=(0, 1)),
            lambda: (self.name.write_bytes(bytes(400 * 512)), os.utime(self.name, ns=(was.st_atime_ns, was.st_mtime_ns + 1))),
            lambda: (self.other_program(), os.utime(self.name, ns=(was.st_atime_ns, was.st_mtime_ns))),
            self.name.unlink,
            lambda: (self.name.rename(self.folder / "old"), self.name.symlink_to("old")),
        ):
            with unixvol.open(self.image(), 7) as volume:
                was = self.name.stat()
                volume.save()
                was = self.name.stat()
                volume.save()
                was = self.name.stat()
                change()
                if self.name.is_symlink():
                    # It is the same file still.
                    volume.save()
                else:
                    self.refuses(unixvol.Changed, volume)
            for name in self.names():
                (self.folder / name).unlink()

    def test_a_change_while_it_is_saved(self):
        with unixvol.open(self.image(), 7) as volume:
            with mock.patch("os.fsync", lambda _number: os.utime(self.name, ns=(0, 1))):
                self.refuses(unixvol.Changed, volume)
        with unixvol.open(self.name, 7) as volume:
            beside = self.folder / ".unixvol-0"
            with mock.patch("os.fsync", lambda _number: (beside.unlink(), beside.write_bytes(b"another file"))):
                self.refuses(unixvol.Changed, volume)
            with mock.patch("os.fsync", lambda _number: self.name.unlink()):
                self.assertRaises(unixvol.Changed, volume.save)
            self.assertIn("it is gone", self.refuses(unixvol.Changed, volume))
        self.assertEqual(self.names(), [])

    def test_a_change_while_it_is_read(self):
        class Changing(io.FileIO):
            def read(self, size: int = -1) -> bytes:
                data = super().read(size)
                os.utime(self.fileno(), ns=(0, 1))
                return data

        self.image()
        for lock in False, True:
            with mock.patch("builtins.open", Changing):
                volume = unixvol.open(self.name, 7, lock=lock)
            with volume:
                self.refuses(unixvol.Changed, volume)
            self.image()

    def test_files_that_it_was_saved_in(self):
        with made() as volume:
            self.name.write_bytes(b"something else")
            volume.save(self.name)
            (volume / "y").mkdir()
            volume.save(os.path.relpath(self.name))
            self.other_program()
            self.refuses(unixvol.Changed, volume, self.name)
            with mock.patch("os.fsync", lambda _number: (self.folder / "new").touch()):
                self.assertRaises(unixvol.Changed, volume.save, self.folder / "new")
            self.assertEqual((self.folder / "new").read_bytes(), b"")

    def test_a_link_that_leads_elsewhere(self):
        (self.folder / "link").symlink_to(self.image())
        with unixvol.open(self.folder / "link", 7) as volume:
            (self.folder / "other.img").write_bytes(bytes(volume))
            (self.folder / "link").unlink()
            (self.folder / "link").symlink_to("other.img")
            self.refuses(unixvol.Changed, volume)

    @contextmanager
    def locked(self, kind: int = fcntl.LOCK_EX):
        with self.name.open("rb") as file:
            fcntl.flock(file, kind | fcntl.LOCK_NB)
            yield file

    def is_locked(self) -> bool:
        try:
            with self.locked():
                return False
        except BlockingIOError:
            return True

    def test_a_lock_of_another_program(self):
        with unixvol.open(self.image(), 7) as volume:
            with mock.patch.object(_files, "PATIENCE", 0.05):
                for kind in fcntl.LOCK_EX, fcntl.LOCK_SH:
                    with self.locked(kind):
                        self.assertIn("locked for half a minute", self.refuses(unixvol.Locked, volume))
                        self.assertRaises(BlockingIOError, unixvol.open, self.name, 7, lock=True)
                    os.utime(self.name, ns=(0, 1))
                    with mock.patch.object(_files, "PATIENCE", 3600), self.locked(kind):
                        self.refuses(unixvol.Changed, volume)
                    os.utime(self.name, ns=(0, volume._files[0].stamp.modified))
            with self.locked() as file:
                # It waits until the other one is done.
                timer = threading.Timer(0.1, lambda: fcntl.flock(file, fcntl.LOCK_UN))
                timer.start()
                volume.save()
                timer.join()
            with mock.patch("os.fsync", lambda _number: seen.append(self.is_locked())):
                seen: list[bool] = []
                volume.save()
            self.assertEqual((seen[0], self.is_locked()), (True, False))

    def test_a_lock_that_is_kept(self):
        with unixvol.open(self.image(), 7, lock=True) as volume:
            for _ in range(2):
                self.assertTrue(self.is_locked())
                volume.save()
            self.assertTrue(self.is_locked())
            volume.save(self.folder / "copy.img")
            self.other_program()
            self.refuses(unixvol.Changed, volume)
        self.image()
        with unixvol.open(self.name, 7, lock=True) as volume:
            volume.close()
            self.assertFalse(self.is_locked())
        self.name.write_bytes(bytes(2000))
        with self.assertRaises(unixvol.Unsound):
            unixvol.open(self.name, 7, lock=True)
        self.assertFalse(self.is_locked())
        self.assertRaises(ValueError, unixvol.open, b"", 7, lock=True)
        self.assertRaises(ValueError, unixvol.open, "/dev/null", 7, lock=True)

    def test_an_interrupt_after_the_save(self):
        with unixvol.open(self.image(), 7, lock=True) as volume:
            (volume / "first").create()
            with mock.patch.object(_files, "_sync_folder", side_effect=KeyboardInterrupt):
                self.assertRaises(KeyboardInterrupt, volume.save)
            self.assertEqual(self.names(), ["disk.img"])
            with builtins.open(self.name, "rb") as file:
                self.assertRaises(BlockingIOError, fcntl.flock, file, fcntl.LOCK_EX | fcntl.LOCK_NB)
            (volume / "second").create()
            volume.save()
        with unixvol.open(self.name, 7) as volume:
            self.assertTrue((volume / "first").exists() and (volume / "second").exists())

    def test_threads_that_save(self):
        with unixvol.open(self.image(), 7) as volume:
            threads = [threading.Thread(target=volume.save) for _ in range(8)]
            for thread in threads:
                thread.start()
            for thread in threads:
                thread.join()
            (volume / "y").mkdir()
            volume.save()
            self.assertEqual(self.name.read_bytes(), bytes(volume))

    def test_permissions(self):
        for mode, kept in (0o600, 0o600), (0o4755, 0o755), (0o666, 0o666), (0o2640, 0o640):
            with unixvol.open(self.image(mode), 7) as volume, mock.patch("os.fchmod", self.notes_mode):
                self.modes: list[int] = []
                mask = os.umask(0)
                try:
                    volume.save()
                finally:
                    os.umask(mask)
            self.assertEqual((self.modes, self.mode()), ([0o600], kept))

    def notes_mode(self, number: int, mode: int, fchmod=os.fchmod):
        """The mode that an empty new file has before it is given another one."""
        self.assertEqual(os.fstat(number).st_size, 0)
        self.modes.append(stat.S_IMODE(os.fstat(number).st_mode))
        fchmod(number, mode)

    def test_permissions_of_a_new_file(self):
        mask = os.umask(0o027)
        try:
            with made() as volume:
                volume.save(self.name)
        finally:
            os.umask(mask)
        self.assertEqual(self.mode(), 0o640)

    @contextmanager
    def user(self, uid: int, groups: list[int]):
        """In a `with`: another user's rights, if it is root who tests."""
        if os.geteuid() != 0:
            yield
            return
        self.folder.chmod(0o777)
        before = os.getgroups()
        os.setgroups(groups)
        os.setegid(uid)
        os.seteuid(uid)
        try:
            yield
        finally:
            os.seteuid(0)
            os.setegid(0)
            os.setgroups(before)

    def test_a_file_that_its_user_may_not_write(self):
        with self.user(65534, []):
            with unixvol.open(self.image(0o444), 7) as volume:
                self.refuses(PermissionError, volume)

    @unittest.skipUnless(os.geteuid() == 0, "only root can give files to others")
    def test_owner_and_group_apart(self):
        for mode, groups, kept in (
            (0o660, [12345], (65534, 12345, 0o660)),
            (0o666, [], (65534, 65534, 0o606)),
            (0o626, [], (65534, 65534, 0o602)),
        ):
            os.chown(self.image(mode), 54321, 12345)
            with self.user(65534, groups), unixvol.open(self.name, 7) as volume:
                volume.save()
            found = self.name.stat()
            self.assertEqual((found.st_uid, found.st_gid, self.mode()), kept)
            os.chown(self.name, 54321, 12345)
            with unixvol.open(self.name, 7) as volume:
                volume.save()
            self.assertEqual((self.name.stat().st_uid, self.name.stat().st_gid), (54321, 12345))

    def test_access_control_lists(self):
        # user::rw-, user:65534:rw-, group::---, mask::rw-, other::---
        entries = (1, 6, -1), (2, 6, 65534), (4, 0, -1), (16, 6, -1), (32, 0, -1)
        acl = struct.pack("<I", 2) + b"".join(struct.pack("<HHi", *entry) for entry in entries)
        try:
            os.setxattr(self.image(0o600), _files.ACL, acl)
        except OSError:
            self.skipTest("the file system has no access control lists")
        with unixvol.open(self.name, 7) as volume:
            volume.save()
            self.assertEqual((os.getxattr(self.name, _files.ACL), self.mode()), (acl, 0o660))
            with mock.patch("os.setxattr", side_effect=OSError(errno.EPERM, "not now")):
                volume.save()
            self.assertEqual((_files.ACL in os.listxattr(self.name), self.mode()), (False, 0o600))
        # A folder's list for new files gives nobody a right that the old file didn't.
        self.image(0o640)
        os.setxattr(self.folder, "system.posix_acl_default", acl)
        with unixvol.open(self.name, 7) as volume:
            volume.save()
        self.assertEqual((_files.ACL in os.listxattr(self.name), self.mode()), (False, 0o640))


class Packs(InFolder):
    """A volume inside a disk pack, between other bytes."""

    AT = 37

    def pack(self, volume: bytes, *, at: int = AT, rest: int = 3000) -> None:
        """Makes a pack of random bytes, with a volume from a block on."""
        self.front, self.rest = os.urandom(512 * at), os.urandom(rest)
        self.name.write_bytes(self.front + volume + self.rest)

    def test_only_the_volume_changes(self):
        for edition, at, rest in ((6, self.AT, 3000), (7, self.AT, 0), (7, 0, 3000), (6, 70000, 1)):
            with made(edition) as volume:
                self.pack(bytes(volume), at=at, rest=rest)
            with unixvol.open(self.name, edition, at=at) as volume:
                self.assertEqual(len(bytes(volume)), 400 * 512)
                (volume / "new").mkdir()
                volume.save()
                self.assertEqual(self.name.read_bytes(), self.front + bytes(volume) + self.rest)
                (volume / "more").mkdir()
                volume.save(self.name)
                self.assertEqual(self.name.read_bytes(), self.front + bytes(volume) + self.rest)
                volume.save(self.folder / "alone.img")
                self.assertEqual((self.folder / "alone.img").read_bytes(), bytes(volume))
            with unixvol.open(self.name, edition, at=at) as volume:
                self.assertTrue((volume / "new").is_dir() and (volume / "more").is_dir())

    def test_what_is_not_there(self):
        with made() as volume:
            image = bytes(volume)
        self.pack(image, rest=0)
        for source in self.name, self.name.read_bytes():
            with self.assertRaisesRegex(ValueError, "^the file ends before block 438$"):
                unixvol.open(source, 7, at=self.AT + 401)
            with self.assertRaises(unixvol.Unsound) as raised:
                unixvol.open(source, 7, at=self.AT + 400)
            self.assertEqual(raised.exception.rule, 1)
            self.assertRaises(OverflowError, unixvol.open, source, 7, at=-1)
            self.assertRaises(unixvol.NoEdition, unixvol.open, source, 8, at=self.AT)
        os.truncate(self.name, 512 * (self.AT + 399))
        self.assertEqual(unixvol.judge(self.name, 7, at=self.AT), 1)
        # The super-block says more than there is.
        self.name.write_bytes(self.front + bytes(512) + b"\xff" * 512)
        self.assertEqual(unixvol.judge(self.name, 7, at=self.AT), 1)

    def test_judge_explain_salvage(self):
        with made() as volume:
            image = bytearray(bytes(volume))
        whole = bytes(image)
        # The free list of the seventh edition begins at byte 6 of the super-block with its length.
        image[512 + 6 : 512 + 8] = bytes(2)
        self.pack(bytes(image))
        for source in self.name, self.name.read_bytes():
            self.assertEqual(unixvol.judge(source, 7, at=self.AT), unixvol.judge(bytes(image), 7))
            self.assertEqual(unixvol.explain(source, 7, at=self.AT), unixvol.explain(bytes(image), 7))
            mended = unixvol.salvage(source, 7, at=self.AT)
            self.assertEqual((len(mended), unixvol.judge(mended, 7)), (len(whole), None))

    def test_volumes(self):
        six, seven = (bytes(made(edition)) for edition in (6, 7))
        broken = bytearray(seven)
        # The link count of the root, i-node 2.
        broken[1024 + 64 + 2] += 1
        data = bytes(512 * 5) + six + b"between " * 64 + broken + seven + bytes(700)
        self.name.write_bytes(data)
        wanted = [(5, 6, 400, None), (406, 7, 400, 12), (806, 7, 400, None)]
        for source in self.name, data:
            found = unixvol.volumes(source)
            self.assertEqual([(it.at, it.edition, it.blocks, it.rule) for it in found], wanted)
            self.assertEqual([it.is_sound for it in found], [True, False, True])
            for it in found:
                self.assertEqual(unixvol.judge(source, it.edition, at=it.at), it.rule)
        # A volume that has all of its blocks is found, with bytes after it or none.
        self.assertEqual(unixvol.volumes(seven), [unixvol.PackVolume(0, 7, 400, None)])
        self.assertEqual(unixvol.volumes(seven + b"x"), [unixvol.PackVolume(0, 7, 400, None)])
        # One that is cut off is found where no other begins after it, and breaks rule 1.
        self.assertEqual(unixvol.volumes(seven[:-1]), [unixvol.PackVolume(0, 7, 400, 1)])
        self.assertEqual(unixvol.volumes(six + seven[:2000]), [unixvol.PackVolume(0, 6, 400, None), unixvol.PackVolume(400, 7, 400, 1)])
        self.assertEqual(unixvol.volumes(seven[:2000] + six[:2000]), [unixvol.PackVolume(0, 7, 400, 1)])
        for nothing in b"", bytes(5000), seven[:1535], seven[512:], (SAMPLES / "linux_made.txt").read_bytes():
            self.assertEqual(unixvol.volumes(nothing), [])
        self.assertRaises(FileNotFoundError, unixvol.volumes, self.folder / "none")

    def test_volumes_that_are_far_apart(self):
        image = bytes(made())
        with builtins.open(self.name, "wb") as file:
            for at in 2047, 2447, 6000:
                file.seek(512 * at)
                file.write(image)
        self.assertEqual([it.at for it in unixvol.volumes(self.name)], [2047, 2447, 6000])

    def test_volumes_in_a_volume(self):
        # A volume that is a file of another one isn't a volume of the pack.
        with unixvol.mkfs(7, 900, 12, now=MOMENT) as volume:
            (volume / "inner").write_bytes(bytes(made()))
            self.pack(bytes(volume))
        self.assertEqual(unixvol.volumes(self.name), [unixvol.PackVolume(self.AT, 7, 900, None)])

    def test_a_pack_that_becomes_shorter(self):
        self.name.write_bytes(bytes(1 << 22))
        with builtins.open(self.name, "rb") as file:
            seek = file.seek
            with mock.patch.object(_scan, "PIECE", 1 << 20):
                found = _scan.find_volumes(mock.Mock(seek=lambda *to: max(seek(*to), 1 << 23), read=file.read))
                self.assertRaisesRegex(ValueError, "became shorter", list, found)

    def test_a_pipe(self):
        with made() as volume:
            self.pack(bytes(volume))
        data = self.name.read_bytes()
        os.mkfifo(self.folder / "pipe")
        writer = threading.Thread(target=(self.folder / "pipe").write_bytes, args=(data,))
        writer.start()
        with unixvol.open(self.folder / "pipe", 7, at=self.AT) as volume:
            self.assertTrue((volume / "etc/motd").is_file())
        writer.join()
        writer = threading.Thread(target=(self.folder / "pipe").write_bytes, args=(data,))
        writer.start()
        self.assertEqual(unixvol.volumes(self.folder / "pipe"), [unixvol.PackVolume(self.AT, 7, 400, None)])
        writer.join()

    def test_holes(self):
        with made() as volume:
            image = bytes(volume)
        for is_sparse in True, False:
            with builtins.open(self.name, "wb") as file:
                file.truncate(1 << 25)
                file.seek(1 << 20)
                file.write(image)
                if not is_sparse:
                    file.seek(0)
                    file.write(bytes(1 << 20))
                    file.seek((1 << 20) + len(image))
                    file.write(bytes((1 << 25) - file.tell()))
            before = self.name.read_bytes()
            with unixvol.open(self.name, 7, at=2048) as volume:
                (volume / "new").mkdir()
                volume.save()
                image_now = bytes(volume)
            self.assertEqual(self.name.read_bytes(), before[: 1 << 20] + image_now + before[(1 << 20) + len(image) :])
            self.assertEqual(512 * self.name.stat().st_blocks < 1 << 24, is_sparse)

    def test_what_another_program_wrote_stays(self):
        with made() as volume:
            self.pack(bytes(volume))
        with unixvol.open(self.name, 7, at=self.AT) as volume:
            (volume / "y").mkdir()
            with builtins.open(self.name, "r+b") as file:
                file.write(b"another volume")
            before = self.name.read_bytes()
            self.assertRaises(unixvol.Changed, volume.save)
            self.assertEqual((self.name.read_bytes(), self.names()), (before, ["disk.img"]))

    def test_a_failed_save_leaves_the_old_pack(self):
        with made() as volume:
            self.pack(bytes(volume))
        before = self.name.read_bytes()
        with unixvol.open(self.name, 7, at=self.AT, lock=True) as volume:
            (volume / "y").mkdir()
            with mock.patch("os.fsync", side_effect=InterruptedError):
                self.assertRaises(InterruptedError, volume.save)
            self.assertEqual((self.name.read_bytes(), self.names()), (before, ["disk.img"]))
            volume.save()
            self.assertEqual(self.name.read_bytes(), self.front + bytes(volume) + self.rest)


class Images(InFolder):
    def test_rules(self):
        with made() as volume:
            sound = bytes(volume)
        self.assertIsNone(unixvol.judge(sound, 7))
        lost = bytearray(sound)
        lost[512 + 6 : 512 + 8] = bytes(2)
        self.assertEqual(unixvol.judge(lost, 7), 8)
        lines = unixvol.explain(memoryview(lost), 7).splitlines()
        self.assertEqual(len(lines), 12)
        self.assertEqual([line.split()[0] for line in lines if not line.endswith(": holds")], ["8"])
        self.assertIsNone(unixvol.judge(unixvol.salvage(lost, 7), 7))
        lost[1024 + 64 + 2] ^= 1
        self.assertRaises(unixvol.Unsound, unixvol.salvage, lost, 7)

    def test_reports_and_archives(self):
        with made() as volume:
            self.assertEqual(volume.report("dcheck"), "")
            self.assertEqual(volume.report("ncheck"), "95 /etc/motd\n96 /etc\n")
            self.assertIn("missing 0\n", volume.report("icheck"))
            archive = volume.root.export()
            self.assertEqual(archive.getnames(), ["etc", "etc/motd"])
            self.assertEqual(archive.extractfile("etc/motd").read(), b"welcome\n")
            self.assertRaises(NotADirectoryError, (volume / "etc/motd").export)
            volume.cut()
            self.assertEqual(volume.about(), unixvol.About(7, 400, 14, 383, 96))


class Threads(unittest.TestCase):
    def test_threads_share_a_volume(self):
        with made() as volume:
            threads = [threading.Thread(target=self.work, args=(volume, it)) for it in "pqrs"]
            for thread in threads:
                thread.start()
            for thread in threads:
                thread.join()
            self.assertEqual(len(list(volume.root.iterdir())), 1 + 4 * 15)
            self.assertIsNone(unixvol.judge(bytes(volume), 7))

    def test_a_file_is_written_as_one(self):
        with made() as volume:
            path, contents = volume / "file", {b"A" * 3000, b"B" * 300}
            path.write_bytes(b"B" * 300)

            def write():
                for _ in range(100):
                    for content in contents:
                        path.write_bytes(content)

            threads = [threading.Thread(target=write) for _ in range(2)]
            interval = sys.getswitchinterval()
            sys.setswitchinterval(1e-6)
            try:
                for thread in threads:
                    thread.start()
                found = {path.read_bytes() for _ in range(300)}
                for thread in threads:
                    thread.join()
            finally:
                sys.setswitchinterval(interval)
            self.assertLessEqual(found, contents)

    def work(self, volume: unixvol.Volume, letter: str):
        for number in range(15):
            path = volume / f"{letter}{number}"
            path.write_text(f"{letter}{number}" * 100)
            assert path.read_text() == f"{letter}{number}" * 100


if __name__ == "__main__":
    unittest.main()
