//! A volume's bytes, and the fields of its super-block and its i-nodes.

use crate::Outcome;

pub const BLOCK: usize = 512;

/// The count of free numbers and the numbers themselves, as in the super-block and the blocks of the chain.
pub const FREE_HEAD: usize = 202;

pub const SLOT: usize = 16;

/// The permission bits of a mode, with set-uid, set-gid and sticky.
const PERMISSIONS: usize = 0o7777;

/// The large flag of the sixth edition.
const LARGE: usize = 0o010000;

#[derive(Clone, Copy, PartialEq)]
pub enum Edition {
    V6,
    V7,
}

/// The numbers in which the editions differ.
pub struct Layout {
    pub inode_bytes: usize,
    pub addresses: usize,
    pub free_head: usize,
    pub free_slots: usize,
    /// The cache of free i-numbers: their count, then the numbers.
    pub cache: usize,
    pub time: usize,
    pub root: usize,
    pub address_count: usize,
    /// The number of bytes of a number in the free list and in an indirect block, and of numbers in an indirect
    /// block.
    pub number_bytes: usize,
    pub fan_out: usize,
    pub most_list_blocks: usize,
    pub most_blocks: usize,
    pub most_id: usize,
    pub most_links: usize,
    pub greatest: usize,
}

static SIXTH: Layout = Layout {
    inode_bytes: 32,
    addresses: 8,
    free_head: 4,
    free_slots: 100,
    cache: 206,
    time: 412,
    root: 1,
    address_count: 8,
    number_bytes: 2,
    fan_out: 256,
    most_list_blocks: 4095,
    most_blocks: 0xffff,
    most_id: 255,
    most_links: 127,
    greatest: 0xff_ffff,
};

static SEVENTH: Layout = Layout {
    inode_bytes: 64,
    addresses: 12,
    free_head: 6,
    free_slots: 50,
    cache: 208,
    time: 414,
    root: 2,
    address_count: 13,
    number_bytes: 4,
    fan_out: 128,
    most_list_blocks: 8191,
    most_blocks: 0x100_0000,
    most_id: 32767,
    most_links: 32767,
    greatest: 1_082_201_088,
};

/// The kind of an i-node, by its mode. Odd modes are those that the edition doesn't have.
#[derive(Clone, Copy, PartialEq)]
pub enum Kind {
    Free,
    Regular,
    Directory,
    Special,
    Odd,
}

/// A volume: its bytes, and the sizes in its super-block.
pub struct Volume {
    pub edition: Edition,
    pub layout: &'static Layout,
    pub bytes: Vec<u8>,
    pub zone_start: usize,
    pub zone_end: usize,
}

impl Edition {
    pub fn named(text: &str) -> Outcome<Edition> {
        match text {
            "6" => Ok(Edition::V6),
            "7" => Ok(Edition::V7),
            _ => Err("the editions are 6 and 7".into()),
        }
    }

    pub fn layout(self) -> &'static Layout {
        match self {
            Edition::V6 => &SIXTH,
            Edition::V7 => &SEVENTH,
        }
    }
}

impl Volume {
    /// Returns the volume in these bytes, if its sizes fit one another and the bytes.
    pub fn open(edition: Edition, bytes: Vec<u8>) -> Outcome<Volume> {
        if bytes.len() < 2 * BLOCK {
            return Err("unsound, rule 1".into());
        }
        let mut volume = Volume {
            edition,
            layout: edition.layout(),
            bytes,
            zone_start: 0,
            zone_end: 0,
        };
        let (before, blocks) = match edition {
            Edition::V6 => (2, volume.word(BLOCK + 2)),
            Edition::V7 => (0, volume.long(BLOCK + 2)),
        };
        volume.zone_start = volume.word(BLOCK) + before;
        volume.zone_end = blocks;
        if volume.bytes.len() / BLOCK < blocks {
            return Err("unsound, rule 1".into());
        }
        let most = volume.layout.most_list_blocks + 2;
        if volume.zone_start < 3
            || volume.zone_start > most
            || volume.zone_start >= blocks
            || blocks > volume.layout.most_blocks
        {
            return Err("unsound, rule 2".into());
        }
        Ok(volume)
    }

    /// Returns a volume with nothing but its sizes.
    pub fn sized(edition: Edition, blocks: usize, list_blocks: usize) -> Outcome<Volume> {
        let layout = edition.layout();
        if list_blocks < 1
            || list_blocks > layout.most_list_blocks
            || list_blocks + 2 >= blocks
            || blocks > layout.most_blocks
        {
            return Err("bounds".into());
        }
        let mut volume = Volume {
            edition,
            layout,
            bytes: vec![0; blocks * BLOCK],
            zone_start: list_blocks + 2,
            zone_end: blocks,
        };
        match edition {
            Edition::V6 => {
                volume.put_word(BLOCK, list_blocks);
                volume.put_word(BLOCK + 2, blocks);
            }
            Edition::V7 => {
                volume.put_word(BLOCK, list_blocks + 2);
                volume.put_long(BLOCK + 2, blocks);
            }
        }
        Ok(volume)
    }

    /// Returns a new volume with an empty root directory.
    pub fn make(
        edition: Edition,
        blocks: usize,
        list_blocks: usize,
        uid: usize,
        gid: usize,
        now: usize,
    ) -> Outcome<Volume> {
        let mut volume = Volume::sized(edition, blocks, list_blocks)?;
        if uid > volume.layout.most_id || gid > volume.layout.most_id {
            return Err("104 BadId".into());
        }
        volume.put_time(now);
        volume.put_root(uid, gid, now);
        for block in (volume.zone_start + 1..blocks).rev() {
            volume.give(block);
        }
        Ok(volume)
    }

    fn put_root(&mut self, uid: usize, gid: usize, now: usize) {
        let (root, start) = (self.layout.root, self.zone_start);
        let mode = match self.edition {
            Edition::V6 => 0o140777,
            Edition::V7 => 0o040777,
        };
        self.put_inode(root, mode, 2, now);
        self.put_owner(root, uid, gid);
        self.put_size(root, 2 * SLOT);
        self.put_address(root, 0, start);
        self.put_slot(start * BLOCK, root, b".");
        self.put_slot(start * BLOCK + SLOT, root, b"..");
    }

    pub fn word(&self, at: usize) -> usize {
        usize::from(u16::from_le_bytes([self.bytes[at], self.bytes[at + 1]]))
    }

    pub fn long(&self, at: usize) -> usize {
        self.word(at) << 16 | self.word(at + 2)
    }

    pub fn put_word(&mut self, at: usize, number: usize) {
        self.bytes[at..at + 2].copy_from_slice(&(number as u16).to_le_bytes());
    }

    pub fn put_long(&mut self, at: usize, number: usize) {
        self.put_word(at, number >> 16);
        self.put_word(at + 2, number);
    }

    /// Returns a number of the free list or of an indirect block.
    pub fn number(&self, at: usize) -> usize {
        match self.edition {
            Edition::V6 => self.word(at),
            Edition::V7 => self.long(at),
        }
    }

    pub fn put_number(&mut self, at: usize, number: usize) {
        match self.edition {
            Edition::V6 => self.put_word(at, number),
            Edition::V7 => self.put_long(at, number),
        }
    }

    /// Returns the offset of an i-node.
    pub fn inode(&self, ino: usize) -> usize {
        2 * BLOCK + (ino - 1) * self.layout.inode_bytes
    }

    pub fn last_inode(&self) -> usize {
        (self.zone_start - 2) * (BLOCK / self.layout.inode_bytes)
    }

    pub fn kind(&self, ino: usize) -> Kind {
        let mode = self.word(self.inode(ino));
        match self.edition {
            _ if mode == 0 => Kind::Free,
            Edition::V6 if mode & 0o100000 == 0 => Kind::Odd,
            Edition::V6 => match mode & 0o060000 {
                0 => Kind::Regular,
                0o040000 => Kind::Directory,
                _ => Kind::Special,
            },
            Edition::V7 => match mode & 0o170000 {
                0o100000 => Kind::Regular,
                0o040000 => Kind::Directory,
                0o020000 | 0o030000 | 0o060000 | 0o070000 => Kind::Special,
                _ => Kind::Odd,
            },
        }
    }

    pub fn has_body(&self, ino: usize) -> bool {
        matches!(self.kind(ino), Kind::Regular | Kind::Directory)
    }

    /// True if it has the large flag of the sixth edition.
    pub fn is_large(&self, ino: usize) -> bool {
        self.edition == Edition::V6 && self.word(self.inode(ino)) & LARGE != 0
    }

    pub fn put_large(&mut self, ino: usize, is_large: bool) {
        let place = self.inode(ino);
        let mode = self.word(place) & !LARGE;
        self.put_word(place, if is_large { mode | LARGE } else { mode });
    }

    /// Makes a new i-node of user 0 and group 0.
    pub fn put_inode(&mut self, ino: usize, mode: usize, links: usize, now: usize) {
        let place = self.inode(ino);
        self.bytes[place..place + self.layout.inode_bytes].fill(0);
        self.put_word(place, mode);
        self.put_links(ino, links);
        match self.edition {
            Edition::V6 => self.put_long(place + 24, now),
            Edition::V7 => self.put_long(place + 52, now),
        }
        self.touch(ino, now);
    }

    pub fn links(&self, ino: usize) -> usize {
        let place = self.inode(ino) + 2;
        match self.edition {
            Edition::V6 => usize::from(self.bytes[place]),
            Edition::V7 => self.word(place),
        }
    }

    pub fn put_links(&mut self, ino: usize, links: usize) {
        let place = self.inode(ino) + 2;
        match self.edition {
            Edition::V6 => self.bytes[place] = links as u8,
            Edition::V7 => self.put_word(place, links),
        }
    }

    pub fn permissions(&self, ino: usize) -> usize {
        self.word(self.inode(ino)) & PERMISSIONS
    }

    pub fn put_permissions(&mut self, ino: usize, permissions: usize) {
        let place = self.inode(ino);
        let mode = self.word(place) & !PERMISSIONS;
        self.put_word(place, mode | permissions & PERMISSIONS);
    }

    /// Returns the user and the group.
    pub fn owner(&self, ino: usize) -> (usize, usize) {
        let place = self.inode(ino);
        match self.edition {
            Edition::V6 => (
                usize::from(self.bytes[place + 3]),
                usize::from(self.bytes[place + 4]),
            ),
            Edition::V7 => (self.word(place + 4), self.word(place + 6)),
        }
    }

    pub fn put_owner(&mut self, ino: usize, uid: usize, gid: usize) {
        let place = self.inode(ino);
        match self.edition {
            Edition::V6 => {
                self.bytes[place + 3..place + 5].copy_from_slice(&[uid as u8, gid as u8]);
            }
            Edition::V7 => {
                self.put_word(place + 4, uid);
                self.put_word(place + 6, gid);
            }
        }
    }

    /// Returns the time of the last change of the body.
    pub fn modified(&self, ino: usize) -> usize {
        let place = self.inode(ino);
        match self.edition {
            Edition::V6 => self.long(place + 28),
            Edition::V7 => self.long(place + 56),
        }
    }

    /// Sets the time of the last change of the body.
    pub fn touch(&mut self, ino: usize, now: usize) {
        let place = self.inode(ino);
        match self.edition {
            Edition::V6 => self.put_long(place + 28, now),
            Edition::V7 => self.put_long(place + 56, now),
        }
        self.touch_inode(ino, now);
    }

    /// Sets the times of an i-node's last access and last modification.
    pub fn put_times(&mut self, ino: usize, moment: usize) {
        let place = self.inode(ino)
            + match self.edition {
                Edition::V6 => 24,
                Edition::V7 => 52,
            };
        self.put_long(place, moment);
        self.put_long(place + 4, moment);
    }

    /// Sets the time of the i-node's last change, which the sixth edition doesn't have.
    pub fn touch_inode(&mut self, ino: usize, now: usize) {
        if self.edition == Edition::V7 {
            self.put_long(self.inode(ino) + 60, now);
        }
    }

    /// Sets the volume's time.
    pub fn put_time(&mut self, now: usize) {
        self.put_long(BLOCK + self.layout.time, now);
    }

    pub fn size(&self, ino: usize) -> usize {
        let place = self.inode(ino);
        match self.edition {
            Edition::V6 => usize::from(self.bytes[place + 5]) << 16 | self.word(place + 6),
            Edition::V7 => self.long(place + 8),
        }
    }

    pub fn put_size(&mut self, ino: usize, size: usize) {
        let place = self.inode(ino);
        match self.edition {
            Edition::V6 => {
                self.bytes[place + 5] = (size >> 16) as u8;
                self.put_word(place + 6, size);
            }
            Edition::V7 => self.put_long(place + 8, size),
        }
    }

    pub fn address(&self, ino: usize, index: usize) -> usize {
        let place = self.inode(ino) + self.layout.addresses;
        match self.edition {
            Edition::V6 => self.word(place + 2 * index),
            Edition::V7 => {
                let at = place + 3 * index;
                usize::from(self.bytes[at]) << 16 | self.word(at + 1)
            }
        }
    }

    pub fn put_address(&mut self, ino: usize, index: usize, block: usize) {
        let place = self.inode(ino) + self.layout.addresses;
        match self.edition {
            Edition::V6 => self.put_word(place + 2 * index, block),
            Edition::V7 => {
                let at = place + 3 * index;
                self.bytes[at] = (block >> 16) as u8;
                self.put_word(at + 1, block);
            }
        }
    }

    pub fn put_slot(&mut self, at: usize, ino: usize, name: &[u8]) {
        self.bytes[at..at + SLOT].fill(0);
        self.put_word(at, ino);
        self.bytes[at + 2..at + 2 + name.len()].copy_from_slice(name);
    }

    pub fn is_in_zone(&self, block: usize) -> bool {
        self.zone_start <= block && block < self.zone_end
    }
}
