//! A volume of the seventh edition with the tree of one of the sixth.

use crate::volume::{Edition, Kind, Volume, BLOCK, SLOT};
use crate::Outcome;

impl Volume {
    /// Returns a volume of the seventh edition with this volume's tree, with each i-number one higher.
    pub fn migrated(&self, blocks: usize, list_blocks: usize, now: usize) -> Outcome<Volume> {
        let mut made = Volume::sized(Edition::V7, blocks, list_blocks)?;
        let nodes = || (1..=self.last_inode()).filter(|&ino| self.kind(ino) != Kind::Free);
        if nodes().any(|ino| self.kind(ino) == Kind::Special) {
            return Err("105 HasDevice".into());
        }
        if nodes()
            .last()
            .is_some_and(|ino| ino + 1 > made.last_inode())
        {
            return Err("103 NoInode".into());
        }
        made.put_time(now);
        let mut next = made.zone_start;
        for ino in nodes() {
            self.raise_inode(ino, &mut made, now);
            let is_large = self.is_large(ino);
            let size = self.size(ino);
            for index in 0..size.div_ceil(BLOCK) {
                if let Some(block) = self.block(ino, is_large, index) {
                    let start = made.block_placed(ino + 1, index, &mut next)? * BLOCK;
                    let count = BLOCK.min(size - index * BLOCK);
                    let body = &self.bytes[block * BLOCK..][..count];
                    match self.kind(ino) {
                        Kind::Directory => made.put_raised_slots(start, body),
                        _ => made.bytes[start..start + count].copy_from_slice(body),
                    }
                }
            }
        }
        for block in (next..blocks).rev() {
            made.give(block);
        }
        Ok(made)
    }

    /// Puts an i-node without its addresses at the next higher i-number of a volume of the seventh edition.
    fn raise_inode(&self, ino: usize, made: &mut Volume, now: usize) {
        let (from, to) = (self.inode(ino), made.inode(ino + 1));
        let kind = match self.kind(ino) {
            Kind::Directory => 0o040000,
            _ => 0o100000,
        };
        made.put_word(to, kind | self.word(from) & 0o7777);
        made.put_links(ino + 1, self.links(ino));
        made.put_word(to + 4, usize::from(self.bytes[from + 3]));
        made.put_word(to + 6, usize::from(self.bytes[from + 4]));
        made.put_size(ino + 1, self.size(ino));
        made.put_long(to + 52, self.long(from + 24));
        made.put_long(to + 56, self.long(from + 28));
        made.put_long(to + 60, now);
    }

    /// Returns the block of a logical block of a file; blocks that are missing on its way are allocated in order.
    fn block_placed(&mut self, ino: usize, index: usize, next: &mut usize) -> Outcome<usize> {
        let (address, entries, steps) = self.way(false, index);
        let mut block = self.address(ino, address);
        if block == 0 {
            block = self.placed(next)?;
            self.put_address(ino, address, block);
        }
        for entry in &entries[..steps] {
            let place = block * BLOCK + entry * self.layout.number_bytes;
            block = self.number(place);
            if block == 0 {
                block = self.placed(next)?;
                self.put_number(place, block);
            }
        }
        Ok(block)
    }

    fn placed(&self, next: &mut usize) -> Outcome<usize> {
        if *next == self.zone_end {
            return Err("28 NoSpace".into());
        }
        *next += 1;
        Ok(*next - 1)
    }

    /// Puts the slots of a directory's block, with each i-number one higher, and empty ones as zeros.
    fn put_raised_slots(&mut self, start: usize, body: &[u8]) {
        for (index, slot) in body.chunks_exact(SLOT).enumerate() {
            let ino = usize::from(u16::from_le_bytes([slot[0], slot[1]]));
            if ino != 0 {
                let at = start + index * SLOT;
                self.bytes[at..at + SLOT].copy_from_slice(slot);
                self.put_word(at, ino + 1);
            }
        }
    }
}
