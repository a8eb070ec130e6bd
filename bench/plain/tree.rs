//! Directories, paths, and the calls that change them. Everything is done as user 0, who may do everything.

use crate::volume::{Edition, Kind, Volume, BLOCK, SLOT};
use crate::Outcome;
use std::io::Write;

const NAME: usize = SLOT - 2;

/// The number of slots in the cache of free i-numbers.
const CACHED: usize = 100;

static HOLE: [u8; BLOCK] = [0; BLOCK];

/// An entry of a directory, or an empty slot, whose i-number is 0.
pub struct Slot<'a> {
    pub ino: usize,
    pub name: &'a [u8],
}

impl<'a> Slot<'a> {
    fn read(bytes: &'a [u8]) -> Slot<'a> {
        Slot {
            ino: usize::from(u16::from_le_bytes([bytes[0], bytes[1]])),
            name: bytes[2..].split(|&byte| byte == 0).next().unwrap_or(&[]),
        }
    }
}

/// Returns the names of a path, each cut to the length of an entry's name.
fn components(path: &str) -> Vec<&[u8]> {
    path.as_bytes()
        .split(|&byte| byte == b'/')
        .filter(|name| !name.is_empty())
        .map(|name| &name[..name.len().min(NAME)])
        .collect()
}

impl Volume {
    /// Returns all slots of a directory, in order.
    pub fn slots(&self, dir: usize) -> impl Iterator<Item = Slot<'_>> {
        let is_large = self.is_large(dir);
        let size = self.size(dir).min(self.layout.greatest);
        (0..size.div_ceil(BLOCK)).flat_map(move |index| {
            let body = match self.block(dir, is_large, index) {
                Some(block) => &self.bytes[block * BLOCK..][..BLOCK],
                None => &HOLE,
            };
            let count = BLOCK.min(size - index * BLOCK);
            body[..count].chunks_exact(SLOT).map(Slot::read)
        })
    }

    /// Returns the slot of a name in a directory, and its i-number.
    fn find(&self, dir: usize, name: &[u8]) -> Option<(usize, usize)> {
        self.slots(dir)
            .enumerate()
            .find(|(_, slot)| slot.ino != 0 && slot.name == name)
            .map(|(index, slot)| (index, slot.ino))
    }

    /// Returns the i-node that these names lead to from the root.
    fn walk(&self, names: &[&[u8]]) -> Outcome<usize> {
        names.iter().try_fold(self.layout.root, |dir, name| {
            self.directory(dir)?;
            Ok(self.find(dir, name).ok_or("2 NoEntry")?.1)
        })
    }

    /// Returns the i-node that a path leads to from the root.
    pub fn find_path(&self, path: &str) -> Outcome<usize> {
        self.walk(&components(path))
    }

    fn directory(&self, ino: usize) -> Outcome<usize> {
        match self.kind(ino) {
            Kind::Directory => Ok(ino),
            _ => Err("20 NotDirectory".into()),
        }
    }

    /// Writes the names of a directory and their i-numbers, in ascending order of the names.
    pub fn list(&self, path: &str, output: &mut impl Write) -> Outcome<()> {
        let dir = self.directory(self.walk(&components(path))?)?;
        let mut entries: Vec<Slot> = self.slots(dir).filter(|slot| slot.ino != 0).collect();
        entries.sort_unstable_by_key(|slot| slot.name);
        for Slot { ino, name } in entries {
            write!(output, "{ino:>5} ")?;
            output.write_all(name)?;
            output.write_all(b"\n")?;
        }
        Ok(())
    }

    /// Makes the file, if it doesn't exist, and gives it this body.
    pub fn put(&mut self, path: &str, body: &[u8], now: usize) -> Outcome<()> {
        let names = components(path);
        let (name, above) = names.split_last().ok_or("21 IsDirectory")?;
        let dir = self.directory(self.walk(above)?)?;
        let ino = match self.find(dir, name) {
            Some((_, ino)) => {
                match self.kind(ino) {
                    Kind::Regular => self.empty(ino),
                    Kind::Directory => return Err("21 IsDirectory".into()),
                    _ => return Err("102 NotRegular".into()),
                }
                self.touch(ino, now);
                ino
            }
            None => self.make_file(dir, name, now)?,
        };
        self.write(ino, body, now)
    }

    /// Makes an empty file.
    pub fn make_file(&mut self, dir: usize, name: &[u8], now: usize) -> Outcome<usize> {
        let index = self.free_slot(dir);
        self.make_file_at(dir, index, name, now)
    }

    /// Makes an empty file, whose entry is put into an empty slot or the next one.
    pub fn make_file_at(
        &mut self,
        dir: usize,
        index: usize,
        name: &[u8],
        now: usize,
    ) -> Outcome<usize> {
        let ino = self.take_inode().ok_or("103 NoInode")?;
        self.put_inode(ino, 0o100644, 1, now);
        self.enter_at(dir, index, name, ino, now)?;
        self.put_time(now);
        Ok(ino)
    }

    /// Makes an empty file, if its directory doesn't have the name.
    pub fn create(&mut self, path: &str, now: usize) -> Outcome<usize> {
        let (dir, index, name) = self.new_place(path)?;
        self.make_file_at(dir, index, name, now)
    }

    /// Returns the directory of a path, the slot for a new entry, and its name, which the directory doesn't have.
    /// Looks for the name and for a free slot in one pass.
    fn new_place<'a>(&self, path: &'a str) -> Outcome<(usize, usize, &'a [u8])> {
        let names = components(path);
        let (name, above) = names.split_last().ok_or("17 Exists")?;
        let dir = self.directory(self.walk(above)?)?;
        let mut free = None;
        for (index, slot) in self.slots(dir).enumerate() {
            if slot.ino == 0 {
                free = free.or(Some(index));
            } else if slot.name == *name {
                return Err("17 Exists".into());
            }
        }
        Ok((dir, free.unwrap_or(self.size(dir) / SLOT), name))
    }

    /// Gives a file a further name.
    pub fn link(&mut self, source: &str, target: &str, now: usize) -> Outcome<()> {
        let ino = self.find_path(source)?;
        if self.kind(ino) == Kind::Directory {
            return Err("21 IsDirectory".into());
        }
        let (dir, index, name) = self.new_place(target)?;
        let links = self.links(ino);
        if links >= self.layout.most_links {
            return Err("31 TooManyLinks".into());
        }
        self.put_links(ino, links + 1);
        self.touch_inode(ino, now);
        self.enter_at(dir, index, name, ino, now)?;
        self.put_time(now);
        Ok(())
    }

    /// Changes the owner and group of a file or a directory.
    pub fn chown(&mut self, path: &str, uid: usize, gid: usize, now: usize) -> Outcome<()> {
        if uid > self.layout.most_id || gid > self.layout.most_id {
            return Err("104 BadId".into());
        }
        let ino = self.find_path(path)?;
        self.put_owner(ino, uid, gid);
        self.touch_inode(ino, now);
        self.put_time(now);
        Ok(())
    }

    /// Makes an empty directory at a path.
    pub fn mkdir(&mut self, path: &str, now: usize) -> Outcome<usize> {
        let names = components(path);
        let (name, above) = names.split_last().ok_or("17 Exists")?;
        let dir = self.directory(self.walk(above)?)?;
        if self.find(dir, name).is_some() {
            return Err("17 Exists".into());
        }
        if self.links(dir) >= self.layout.most_links {
            return Err("31 TooManyLinks".into());
        }
        self.make_directory(dir, name, now)
    }

    /// Gives an empty file this body.
    pub fn write_at(&mut self, path: &str, body: &[u8], now: usize) -> Outcome<()> {
        let ino = self.walk(&components(path))?;
        match self.kind(ino) {
            Kind::Regular => self.write(ino, body, now),
            Kind::Directory => Err("21 IsDirectory".into()),
            _ => Err("102 NotRegular".into()),
        }
    }

    /// Makes an empty directory.
    pub fn make_directory(&mut self, dir: usize, name: &[u8], now: usize) -> Outcome<usize> {
        let mode = match self.edition {
            Edition::V6 => 0o140755,
            Edition::V7 => 0o040755,
        };
        let ino = self.take_inode().ok_or("103 NoInode")?;
        self.put_inode(ino, mode, 2, now);
        self.enter(dir, name, ino, now)?;
        self.put_links(dir, self.links(dir) + 1);
        let start = self.block_taken(ino, false, 0)? * BLOCK;
        self.put_size(ino, 2 * SLOT);
        self.put_slot(start, ino, b".");
        self.put_slot(start + SLOT, dir, b"..");
        self.put_time(now);
        Ok(ino)
    }

    /// Removes a name that isn't a directory's, and with its last name the file.
    pub fn unlink(&mut self, path: &str, now: usize) -> Outcome<()> {
        let names = components(path);
        let (name, above) = names.split_last().ok_or("21 IsDirectory")?;
        let dir = self.directory(self.walk(above)?)?;
        let (index, ino) = self.find(dir, name).ok_or("2 NoEntry")?;
        if self.kind(ino) == Kind::Directory {
            return Err("21 IsDirectory".into());
        }
        let start = self.slot_taken(dir, index)?;
        self.put_word(start, 0);
        self.touch(dir, now);
        let links = self.links(ino);
        if links > 1 {
            self.put_links(ino, links - 1);
            self.touch_inode(ino, now);
        } else {
            self.free_inode(ino);
        }
        self.put_time(now);
        Ok(())
    }

    /// Returns the first empty slot of a directory, or the one after its last.
    fn free_slot(&self, dir: usize) -> usize {
        let index = self.slots(dir).position(|slot| slot.ino == 0);
        index.unwrap_or(self.size(dir) / SLOT)
    }

    /// Puts a new entry into the first empty slot of a directory, or at its end.
    fn enter(&mut self, dir: usize, name: &[u8], ino: usize, now: usize) -> Outcome<()> {
        self.enter_at(dir, self.free_slot(dir), name, ino, now)
    }

    /// Puts a new entry into a slot of a directory.
    pub fn enter_at(
        &mut self,
        dir: usize,
        index: usize,
        name: &[u8],
        ino: usize,
        now: usize,
    ) -> Outcome<()> {
        let size = self.size(dir);
        let end = (index + 1) * SLOT;
        if end > self.layout.greatest {
            return Err("27 TooBig".into());
        }
        let start = self.slot_taken(dir, index)?;
        self.put_slot(start, ino, name);
        self.put_size(dir, size.max(end));
        self.touch(dir, now);
        Ok(())
    }

    /// Returns the offset of a slot of a directory, once its block exists.
    fn slot_taken(&mut self, dir: usize, index: usize) -> Outcome<usize> {
        let (index, at) = (index * SLOT / BLOCK, index * SLOT % BLOCK);
        if self.is_past_small(dir, index + 1) {
            self.enlarge(dir)?;
        }
        let block = self.block_taken(dir, self.is_large(dir), index)?;
        Ok(block * BLOCK + at)
    }

    /// Takes a free i-number from the cache, which is filled from the i-list when it is empty.
    fn take_inode(&mut self) -> Option<usize> {
        let cache = BLOCK + self.layout.cache;
        for index in (0..self.cached()).rev() {
            let ino = self.word(cache + 2 + 2 * index);
            self.put_word(cache, index);
            if ino > self.layout.root && ino <= self.last_inode() && self.kind(ino) == Kind::Free {
                return Some(ino);
            }
        }
        let found: Vec<usize> = (self.layout.root + 1..=self.last_inode())
            .filter(|&ino| self.kind(ino) == Kind::Free)
            .take(CACHED)
            .collect();
        for (index, &ino) in found.iter().enumerate() {
            self.put_word(cache + 2 + 2 * index, ino);
        }
        self.put_word(cache, found.len().saturating_sub(1));
        found.last().copied()
    }

    /// Returns the number of cached i-numbers.
    fn cached(&self) -> usize {
        match self.word(BLOCK + self.layout.cache) {
            count if count > CACHED => 0,
            count => count,
        }
    }

    /// Frees an i-node and its blocks.
    fn free_inode(&mut self, ino: usize) {
        if self.has_body(ino) {
            self.empty(ino);
        }
        let place = self.inode(ino);
        self.bytes[place..place + self.layout.inode_bytes].fill(0);
        let cache = BLOCK + self.layout.cache;
        let count = self.cached();
        if count < CACHED {
            self.put_word(cache + 2 + 2 * count, ino);
            self.put_word(cache, count + 1);
        }
    }
}
