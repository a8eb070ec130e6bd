"""Tests of looks, rescue and repair in Python. What is shown is proved; here it is that Python hands it on as values."""

import io
import struct
import tarfile
import tempfile
import unittest
from pathlib import Path

import unixvol
from unixvol._values import unescaped

SAMPLES = Path(__file__).resolve().parents[3] / "samples"
MOMENT = 300000000


def made(edition: int = 7) -> unixvol.Volume:
    volume = unixvol.mkfs(edition, 400, 12, now=MOMENT)
    (volume / "etc").mkdir()
    (volume / "etc/motd").write_bytes(b"welcome\n")
    return volume


class Looks(unittest.TestCase):
    def setUp(self):
        with made() as volume:
            self.image = unixvol.look(bytes(volume), 7)

    def test_inode(self):
        wanted = unixvol.Inode(
            ino=95,
            kind="file",
            mode="0100644",
            permissions="0644",
            links=1,
            uid=0,
            gid=0,
            size=8,
            atime=MOMENT,
            mtime=MOMENT,
            ctime=MOMENT,
            addr=(16, *[0] * 12),
            extents=(unixvol.Extent(16, 1, True, 0, 0),),
        )
        self.assertEqual(self.image.inode("/etc/motd"), wanted)
        self.assertEqual(self.image.inode(95), wanted)
        self.assertEqual(self.image.inode(Path("/etc/motd")), wanted)
        self.assertEqual(self.image.inode(1).kind, "free")
        with made(6) as volume:
            self.assertIsNone(unixvol.look(bytes(volume), 6).inode("/").ctime)

    def test_super_block(self):
        found = self.image.super_block()
        self.assertEqual((found.isize, found.fsize, found.nfree, found.time), (14, 400, 34, MOMENT))
        self.assertEqual((len(found.free), len(found.cache), found.free_fault), (34, found.ninode, None))
        space = self.image.df()
        self.assertEqual((space.blocks, space.used_blocks, space.free_blocks, space.used_inodes), (400, 17, 383, 4))
        chain = self.image.free()
        self.assertEqual(sum(link.nfree for link in chain.chain), chain.free_blocks + 1)
        self.assertEqual(chain.chain[0].block, 1)

    def test_a_bad_free_list(self):
        broken = bytearray(bytes(self.image))
        struct.pack_into("<HH", broken, 512 + 8 + 4 * 33, 0, 9)
        image = unixvol.look(broken, 7)
        self.assertEqual(image.free().free_fault, unixvol.FreeFault("free outofzone", 9))
        self.assertEqual(image.df().free_fault, image.super_block().free_fault)

    def test_blocks(self):
        self.assertEqual(self.image.block(16), (unixvol.Use("i-node", ino=95, level=0, logical=0),))
        self.assertEqual(self.image.block(17)[0].listed_in, 1)
        blocks = self.image.map()
        self.assertEqual(sum(run.count for run in blocks), 400)
        self.assertEqual((blocks.use_of(0), blocks.use_of(16), blocks.use_of(399)), ("boot", "file", "free"))
        self.assertEqual(len(blocks), len(blocks.runs))
        with self.assertRaises(IndexError):
            blocks.use_of(400)
        self.assertRegex(blocks._repr_svg_(), "(?s)^<svg .*</svg>\n$")
        self.assertEqual(blocks.svg(), blocks._repr_svg_())
        self.assertNotEqual(blocks.svg("/etc/motd"), blocks.svg("/etc"))
        with self.assertRaises(unixvol.NoEntry):
            blocks.svg("/none")

    def test_listings(self):
        self.assertEqual([it.path for it in self.image.find()], ["/etc", "/etc/motd"])
        self.assertEqual([it.ino for it in self.image.find(name="m*")], [95])
        found = self.image.sums("/etc")
        self.assertEqual((found.status, found.lines, len(found)), (0, (), 1))
        self.assertEqual((found[0].path, found[0].size, found[0].sha256[:8]), ("/etc/motd", 8, "77f44b90"))
        self.assertEqual([it.path for it in self.image.ls("/etc")], ["/etc/.", "/etc/..", "/etc/motd"])
        self.assertEqual([it.sha256 for it in self.image.ls("/etc/motd")], [None])

    def test_slots(self):
        with made() as volume:
            (volume / "etc/motd").unlink()
            slots = unixvol.look(bytes(volume), 7).slots("/etc")
        self.assertEqual([(it.slot, it.ino, it.name) for it in slots], [(0, 96, "."), (1, 2, ".."), (2, 0, "motd")])

    def test_names_are_bytes(self):
        with made() as volume:
            (volume / "a\\b\n").create()
            (volume / "\udcffé").create()
            found = {it.path for it in unixvol.look(bytes(volume), 7).find()}
        self.assertEqual(found, {"/etc", "/etc/motd", "/a\\b\n", "/\udcffé"})
        self.assertEqual(unescaped("\\\\101\\101"), "\\101A")

    def test_check(self):
        found = self.image.check()
        self.assertEqual((found.sound, found.edition, found.other_edition, found.broken), (True, 7, None, ()))
        found = unixvol.look(SAMPLES / "lessons/rule_12.v7", 7).check()
        self.assertEqual((found.sound, [rule.rule for rule in found.broken]), (False, [12]))
        self.assertIsInstance(found.broken[0].at.ino, int)
        self.assertEqual(unixvol.look(bytes(self.image), 6).check().other_edition, 7)

    def test_dump(self):
        found = self.image.dump(1)
        self.assertEqual((found.block, found.role, bytes(found)), (1, unixvol.Use("system"), bytes(self.image)[512:1024]))
        self.assertEqual(found.rows[0], unixvol.Row(1, "isize", "0e00", 0, None, None, 0, 14))
        self.assertIn("isize             14\n", str(found))
        found = self.image.dump_inode(95)
        self.assertEqual(found, self.image.dump_inode(Path("/etc/motd")))
        self.assertEqual((found.rows[0].ino, found.rows[0].value, found.rows[0].meaning), (95, "0100644", "-rw-r--r--"))
        role = unixvol.Use("directory", ino=2, level=0, logical=0)
        found = self.image.dump(self.image.inode("/").addr[0])
        self.assertEqual((found.role, [row.value for row in found if row.field == "name"]), (role, [".", "..", "etc"]))
        with self.assertRaises(unixvol.NoEntry):
            self.image.dump_inode("/none")

    def test_diff(self):
        with made() as volume:
            (volume / "etc/motd").chmod(0o600)
            after = unixvol.look(bytes(volume), 7)
        found = self.image.diff(after)
        self.assertEqual((len(found), found.lines, found.status, str(found)), (1, (), 1, "M /etc/motd mode 0644 -> 0600\n"))
        self.assertEqual((found[0].line, found[0].path, found[0].first_byte), ("changed", "/etc/motd", None))
        self.assertEqual((found[0].old.permissions, found[0].new.permissions, found[0].new.ctime), ("0644", "0600", None))
        self.assertEqual(self.image.diff(after, "times")[0].new.ctime, after.inode(95).ctime)
        with tempfile.TemporaryDirectory() as folder:
            name = Path(folder, "after")
            name.write_bytes(bytes(after))
            self.assertEqual(self.image.diff(name), self.image.diff(after))
            self.assertEqual(self.image.diff(str(name)).lines, found.lines)
        found = self.image.diff(bytes(after), "fields")
        place = 1024 + 64 * 94
        wanted = unixvol.FieldDifference(
            "field",
            block=place // 512,
            field="mode",
            index=0,
            ino=95,
            offset=place % 512,
            role=unixvol.Use("system"),
            old="0100644",
            new="0100600",
        )
        self.assertEqual((found.entries, str(found)), ((wanted,), "i-node 95 mode 0100644 -> 0100600\n"))
        self.assertEqual(self.image.diff(self.image, "all fields").status, 0)

    def test_kinds_of_differences(self):
        with made() as volume:
            (volume / "etc/motd").unlink()
            (volume / "a\\b").write_bytes(b"x" * 512)
            after = unixvol.look(bytes(volume), 7)
        found = self.image.diff(after)
        self.assertEqual([(it.line, it.path) for it in found], [("added", "/a\\b"), ("gone", "/etc/motd")])
        self.assertEqual((found[0].old, found[0].new.size, found[1].new, found[1].old.size), (None, 512, None, 8))
        found = self.image.diff(after, "fields")
        self.assertEqual({it.line for it in found} - {"role", "field", "fields", "bytes", "length"}, set())
        self.assertIn(("name", "a\\b"), [(it.field, it.new) for it in found])
        self.assertEqual(len(found), len(str(found).splitlines()))
        longer = self.image.diff(bytes(self.image) + bytes(512), "fields")
        self.assertEqual([(it.line, it.old, it.new) for it in longer], [("length", 204800, 205312)])

    def test_what_is_not_shown(self):
        with self.assertRaises(unixvol.NoEntry) as caught:
            self.image.inode("/etc/x")
        self.assertEqual((caught.exception.number, caught.exception.filename), (2, "/etc/x"))
        with self.assertRaises(unixvol.NotDirectory):
            self.image.find("/etc/motd/x")
        short = unixvol.look(bytes(self.image)[:1023], 7)
        for shows in short.super_block, short.df, short.free, short.map, short.find, short.sums, lambda: short.inode(2):
            with self.assertRaises(unixvol.Unsound) as unsound:
                shows()
            self.assertEqual(unsound.exception.rule, 1)
        self.assertFalse(short.check().sound)
        for old, new, image in (self.image, short, "new"), (short, self.image, "old"):
            with self.assertRaises(unixvol.Unsound) as unsound:
                old.diff(new)
            self.assertEqual((unsound.exception.image, str(unsound.exception)), (image, f"unsound, rule 1: {image}"))
        with self.assertRaises(unixvol.NoLook):
            self.image.inode("/\udcff")
        with self.assertRaises(unixvol.NoEdition):
            unixvol.look(b"", 5).df()
        with self.assertRaises(OverflowError):
            self.image.inode(65536)

    def test_lines(self):
        image = unixvol.look(SAMPLES / "lessons/rule_12.v7", 7)
        found = image.sums()
        self.assertEqual((found.status, found.lines[-1]), (1, "unixvol: unsound, rule 12"))
        self.assertEqual(image.diff(image).lines, ("unixvol: unsound, rule 12: old", "unixvol: unsound, rule 12: new"))

    def test_long_texts(self):
        with unixvol.mkfs(7, 60000, 200, now=MOMENT) as volume:
            image = unixvol.look(bytes(volume), 7)
        self.assertGreater(len(image.map().svg()), 1 << 16)

    def test_packs(self):
        pack = bytes(512 * 10) + bytes(self.image) + bytes(512 * 3)
        self.assertEqual(unixvol.look(pack, 7, at=10).inode("/etc/motd"), self.image.inode("/etc/motd"))


class Damage(unittest.TestCase):
    def setUp(self):
        with made() as volume:
            (volume / "second").write_bytes(b"x" * 1024)
            self.image = bytes(volume)

    def test_cut_off(self):
        found = unixvol.rescue(self.image, 7)
        self.assertEqual((found.status, found.lines), (0, ()))
        self.assertEqual(found.files(), {"/etc/motd": b"welcome\n", "/second": b"x" * 1024})
        cut = self.image[: 512 * 18]
        found = unixvol.rescue(cut, 7)
        self.assertEqual((found.status, found.files()), (5, {"/etc/motd": b"welcome\n"}))
        self.assertTrue(any("second" in line for line in found.lines), found.lines)
        found = unixvol.rescue(cut, 7, damaged=True)
        self.assertEqual(found.files()["/second"], b"x" * 512 + bytes(512))
        self.assertEqual(list(unixvol.rescue(cut, 7, "/etc").files()), ["/motd"])
        with tarfile.open(fileobj=io.BytesIO(found.archive)) as tar:
            self.assertEqual(tar.getnames(), found.tar().getnames())

    def test_further_names(self):
        found = unixvol.rescue(SAMPLES / "lessons" / "sound.v7", 7).files()
        self.assertEqual(sorted(found), ["/etc/motd", "/usr/letter", "/welcome"])
        self.assertEqual(found["/welcome"], found["/etc/motd"])

    def test_blocks_that_were_not_read(self):
        lost = 512 * 17
        text = f"0x0 +\n0x0 {lost:#x} +\n{lost:#x} 0x200 -\n{lost + 512:#x} {len(self.image) - lost - 512:#x} +\n".encode()
        found = unixvol.rescue(self.image, 7, bad=text)
        self.assertEqual((found.status, found.files()), (5, {"/etc/motd": b"welcome\n"}))
        pack = bytes(512 * 3) + self.image
        moved = f"0x0 +\n0x0 {lost + 1536:#x} +\n{lost + 1536:#x} 0x200 -\n{lost + 2048:#x} {len(self.image) - lost - 512:#x} +\n"
        self.assertEqual(unixvol.rescue(pack, 7, at=3, bad=moved.encode()), found)
        with self.assertRaises(unixvol.NotShown) as caught:
            unixvol.rescue(self.image, 7, bad=b"nothing\n")
        self.assertIn("map: line 1: ", caught.exception.lines)

    def test_repair(self):
        self.assertEqual(unixvol.repair(self.image, 7), unixvol.Repair(self.image, ()))
        broken = bytearray(self.image)
        broken[1024 + 64 + 2] ^= 1
        found = unixvol.repair(broken, 7)
        self.assertEqual((found.image, found.lines), (self.image, (unixvol.RepairLine("links", 2, 2, 3),)))
        with self.assertRaises(unixvol.Unsound):
            unixvol.repair(self.image[:1023], 7)

    def test_lessons(self):
        for path in sorted((SAMPLES / "lessons").glob("rule_*.v[67]")):
            edition = int(path.suffix[2])
            if unixvol.judge(path, edition) <= 2:
                continue
            with self.subTest(path.name):
                found = unixvol.repair(path, edition, now=MOMENT)
                self.assertIsNone(unixvol.judge(found.image, edition))
                self.assertTrue(found.lines)
                self.assertEqual(unixvol.repair(found.image, edition), unixvol.Repair(found.image, ()))


if __name__ == "__main__":
    unittest.main()
