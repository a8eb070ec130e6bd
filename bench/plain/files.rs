//! The blocks of files: the free list, the block maps, and the bodies.

use crate::volume::{Edition, Kind, Volume, BLOCK, FREE_HEAD};
use crate::Outcome;
use std::io::Write;

/// The way from an i-node to a block: the index of an address, and the entries of the indirect blocks that follow.
type Way = (usize, [usize; 3], usize);

impl Volume {
    /// Puts a block on the free list.
    pub fn give(&mut self, block: usize) {
        let head = BLOCK + self.layout.free_head;
        let mut count = self.word(head);
        if count == 0 {
            self.put_number(head + 2, 0);
            count = 1;
        } else if count == self.layout.free_slots {
            self.bytes
                .copy_within(head..head + FREE_HEAD, block * BLOCK);
            count = 0;
        }
        self.put_number(head + 2 + count * self.layout.number_bytes, block);
        self.put_word(head, count + 1);
    }

    /// Takes a block from the free list, and fills it with zeros.
    pub fn take(&mut self) -> Outcome<usize> {
        let head = BLOCK + self.layout.free_head;
        let count = self.word(head);
        if count == 0 {
            return Err("28 NoSpace".into());
        }
        let block = self.number(head + 2 + (count - 1) * self.layout.number_bytes);
        if block == 0 {
            return Err("28 NoSpace".into());
        }
        self.put_word(head, count - 1);
        let start = block * BLOCK;
        if count == 1 {
            self.bytes.copy_within(start..start + FREE_HEAD, head);
        }
        self.bytes[start..start + BLOCK].fill(0);
        Ok(block)
    }

    /// Returns the way to a logical block, in a file with or without the large flag.
    pub fn way(&self, is_large: bool, index: usize) -> Way {
        let fan = self.layout.fan_out;
        match self.edition {
            Edition::V6 if !is_large => (index, [0; 3], 0),
            Edition::V6 if index < 7 * fan => (index / fan, [index % fan, 0, 0], 1),
            Edition::V6 => (7, [index / fan - 7, index % fan, 0], 2),
            Edition::V7 if index < 10 => (index, [0; 3], 0),
            Edition::V7 if index < 10 + fan => (10, [index - 10, 0, 0], 1),
            Edition::V7 if index < 10 + fan + fan * fan => {
                let rest = index - 10 - fan;
                (11, [rest / fan, rest % fan, 0], 2)
            }
            Edition::V7 => {
                let rest = index - 10 - fan - fan * fan;
                (12, [rest / (fan * fan), rest / fan % fan, rest % fan], 3)
            }
        }
    }

    /// Returns the block of a logical block of a file; none for a hole, a number outside the zone, or past the last
    /// address of a small file.
    pub fn block(&self, ino: usize, is_large: bool, index: usize) -> Option<usize> {
        let (address, entries, steps) = self.way(is_large, index);
        if address >= self.layout.address_count {
            return None;
        }
        let mut block = self.address(ino, address);
        for entry in &entries[..steps] {
            if !self.is_in_zone(block) {
                return None;
            }
            block = self.number(block * BLOCK + entry * self.layout.number_bytes);
        }
        self.is_in_zone(block).then_some(block)
    }

    /// The same, but allocates the blocks that are missing on the way.
    pub fn block_taken(&mut self, ino: usize, is_large: bool, index: usize) -> Outcome<usize> {
        let (address, entries, steps) = self.way(is_large, index);
        let mut block = self.address(ino, address);
        if block == 0 {
            block = self.take()?;
            self.put_address(ino, address, block);
        }
        for entry in &entries[..steps] {
            let place = block * BLOCK + entry * self.layout.number_bytes;
            block = self.number(place);
            if block == 0 {
                block = self.take()?;
                self.put_number(place, block);
            }
        }
        Ok(block)
    }

    /// Returns the number of steps from an address of an i-node to its data blocks.
    pub fn depth(&self, is_large: bool, index: usize) -> usize {
        match self.edition {
            Edition::V6 if !is_large => 0,
            Edition::V6 => 1 + index / 7,
            Edition::V7 => index.saturating_sub(9),
        }
    }

    /// Writes the body of a regular file or directory.
    pub fn print(&self, ino: usize, output: &mut impl Write) -> Outcome<()> {
        if ino == 0 || ino > self.last_inode() {
            return Err("2 NoEntry".into());
        }
        match self.kind(ino) {
            Kind::Free => return Err("2 NoEntry".into()),
            Kind::Special | Kind::Odd => return Err("102 NotRegular".into()),
            Kind::Regular | Kind::Directory => {}
        }
        let is_large = self.is_large(ino);
        let size = self.size(ino).min(self.layout.greatest);
        let zeros = [0; BLOCK];
        for index in 0..size.div_ceil(BLOCK) {
            let count = BLOCK.min(size - index * BLOCK);
            match self.block(ino, is_large, index) {
                Some(block) => output.write_all(&self.bytes[block * BLOCK..][..count])?,
                None => output.write_all(&zeros[..count])?,
            }
        }
        Ok(())
    }

    /// Puts a body into an empty regular file.
    pub fn write(&mut self, ino: usize, body: &[u8], now: usize) -> Outcome<()> {
        if body.len() > self.layout.greatest {
            return Err("27 TooBig".into());
        }
        if self.is_past_small(ino, body.len().div_ceil(BLOCK)) {
            self.enlarge(ino)?;
        }
        let is_large = self.is_large(ino);
        for (index, piece) in body.chunks(BLOCK).enumerate() {
            let start = self.block_taken(ino, is_large, index)? * BLOCK;
            self.bytes[start..start + piece.len()].copy_from_slice(piece);
        }
        if !body.is_empty() {
            self.put_size(ino, body.len());
            self.touch(ino, now);
        }
        self.put_time(now);
        Ok(())
    }

    /// Frees all blocks of a file.
    pub fn empty(&mut self, ino: usize) {
        let is_large = self.is_large(ino);
        for index in (0..self.layout.address_count).rev() {
            let block = self.address(ino, index);
            if block != 0 {
                self.give_all(block, self.depth(is_large, index));
                self.put_address(ino, index, 0);
            }
        }
        self.put_large(ino, false);
        self.put_size(ino, 0);
    }

    /// Frees a block, after those that it leads to in this many steps; clears the pointers to them.
    fn give_all(&mut self, block: usize, depth: usize) {
        if depth > 0 {
            for entry in (0..self.layout.fan_out).rev() {
                let next = self.number(block * BLOCK + entry * self.layout.number_bytes);
                if next != 0 {
                    self.give_all(next, depth - 1);
                }
            }
            self.bytes[block * BLOCK..(block + 1) * BLOCK].fill(0);
        }
        self.give(block);
    }

    /// True if a file of the sixth edition becomes large with this many blocks.
    pub fn is_past_small(&self, ino: usize, blocks: usize) -> bool {
        self.edition == Edition::V6 && !self.is_large(ino) && blocks > self.layout.address_count
    }

    /// Makes a small file of the sixth edition large: a new block takes its addresses.
    pub fn enlarge(&mut self, ino: usize) -> Outcome<()> {
        let block = self.take()?;
        let addresses = self.inode(ino) + self.layout.addresses;
        self.bytes
            .copy_within(addresses..addresses + 16, block * BLOCK);
        self.bytes[addresses..addresses + 16].fill(0);
        self.put_address(ino, 0, block);
        self.put_large(ino, true);
        Ok(())
    }
}
