//! Images on which a command would work for a long time if it followed all pointers.

use crate::volume::{Edition, Volume, BLOCK, SLOT};
use crate::Outcome;

const MOMENT: usize = 173_750_400;

/// The modes of regular files and of directories.
const FILE: usize = 0o100644;
const DIRECTORY: usize = 0o040755;

impl Volume {
    /// Makes a volume in which all i-nodes except the root's are alike, and follow a pattern.
    pub fn hostile(
        pattern: &str,
        edition: Edition,
        blocks: usize,
        list_blocks: usize,
    ) -> Outcome<Volume> {
        let mut volume = Volume::make(edition, blocks, list_blocks, 0, 0, MOMENT)?;
        match pattern {
            "file_rings" => volume.name_by_all(FILE, Volume::ring),
            "file_fans" => volume.name_by_all(FILE, Volume::fan),
            "file_trees" => volume.name_by_all(FILE, Volume::tree),
            "directory_holes" => volume.name_by_all(DIRECTORY, |_| 0),
            "directory_rings" => volume.name_by_all(DIRECTORY, Volume::ring),
            "directory_zeros" => volume.name_by_all(DIRECTORY, Volume::tree),
            "directory_entries" => volume.name_by_all(DIRECTORY, Volume::tree_of_entries),
            "directory_names" => volume.name_by_root_too(Volume::tree_of_names),
            "directory_fans" => volume.name_by_root_too(Volume::fan_of_names),
            "free_ring" => volume.free_ring(),
            "free_chain" => volume.free_chain(),
            "circle" => volume.circle()?,
            _ => return Err("no such pattern".into()),
        }
        Ok(volume)
    }

    /// Gives all i-nodes except the root's this mode and the greatest size; their last address is a block made by
    /// `make`.
    fn name_by_all(&mut self, mode: usize, make: impl Fn(&mut Volume) -> usize) {
        let (mode, is_large) = match (self.edition, mode) {
            (Edition::V6, FILE) => (0o100644, true),
            (Edition::V6, _) => (0o140755, true),
            (Edition::V7, mode) => (mode, false),
        };
        let top = make(self);
        for ino in self.layout.root + 1..=self.last_inode() {
            self.put_inode(ino, mode, 1, MOMENT);
            if is_large {
                self.put_large(ino, true);
            }
            self.put_size(ino, self.layout.greatest);
            self.put_address(ino, self.layout.address_count - 1, top);
        }
    }

    /// The same for directories, including the root.
    fn name_by_root_too(&mut self, make: impl Fn(&mut Volume) -> usize) {
        self.name_by_all(DIRECTORY, make);
        let (from, to) = (self.layout.root + 1, self.layout.root);
        let (from, to) = (self.inode(from), self.inode(to));
        self.bytes.copy_within(from..from + self.layout.inode_bytes, to);
    }

    /// Makes a block whose entries are all one number.
    fn fill_block(&mut self, block: usize, number: usize) {
        for entry in 0..self.layout.fan_out {
            self.put_number(block * BLOCK + entry * self.layout.number_bytes, number);
        }
    }

    /// Makes a block whose entries all name it.
    fn ring(&mut self) -> usize {
        let block = self.zone_start + 1;
        self.fill_block(block, block);
        block
    }

    /// Makes four blocks, each of which names the next in all its entries, except the last.
    fn tree(&mut self) -> usize {
        let top = self.zone_start + 1;
        for step in 0..3 {
            self.fill_block(top + step, top + step + 1);
        }
        self.bytes[(top + 3) * BLOCK..(top + 4) * BLOCK].fill(0);
        top
    }

    /// The same, but the last block has an entry in each slot.
    fn tree_of_entries(&mut self) -> usize {
        let top = self.tree();
        let (root, last) = (self.layout.root, top + 3);
        for slot in 0..BLOCK / SLOT {
            self.put_slot(last * BLOCK + slot * SLOT, root, b"up");
        }
        top
    }

    /// The same, but the last block has 32 names, 31 of them for directories.
    fn tree_of_names(&mut self) -> usize {
        let top = self.tree();
        self.put_names(top + 3);
        top
    }

    /// Puts 32 names into a block, for the first directories one after another.
    fn put_names(&mut self, block: usize) {
        for slot in 0..BLOCK / SLOT {
            let name = format!("n{slot}");
            let ino = self.layout.root + slot;
            self.put_slot(block * BLOCK + slot * SLOT, ino, name.as_bytes());
        }
    }

    /// Makes blocks whose entries name as many different blocks of the next level as there are: a third of the zone
    /// for each level below the first; the last level has names.
    fn fan_of_names(&mut self) -> usize {
        let top = self.zone_start + 1;
        let many = (self.zone_end - top - 1) / 3;
        for level in 0..2 {
            for block in top + 1 + level * many..top + 1 + (level + 1) * many {
                for entry in 0..self.layout.fan_out {
                    let number = top + 1 + (level + 1) * many + (block + entry * 7) % many;
                    self.put_number(block * BLOCK + entry * self.layout.number_bytes, number);
                }
            }
        }
        for entry in 0..self.layout.fan_out {
            self.put_number(top * BLOCK + entry * self.layout.number_bytes, top + 1 + entry % many);
        }
        for block in top + 1 + 2 * many..top + 1 + 3 * many {
            self.put_names(block);
        }
        top
    }

    /// Makes blocks whose entries name as many different blocks as there are, each of which does the same.
    fn fan(&mut self) -> usize {
        let zone = self.zone_end - self.zone_start;
        for block in self.zone_start + 1..self.zone_end {
            for entry in 0..self.layout.fan_out {
                let number = self.zone_start + (block * self.layout.fan_out + entry * 7 + 1) % zone;
                self.put_number(block * BLOCK + entry * self.layout.number_bytes, number);
            }
        }
        self.zone_start + 1
    }

    /// Makes the last block of the free list's chain name the first again.
    fn free_ring(&mut self) {
        let head = BLOCK + self.layout.free_head;
        let first = self.number(head + 2);
        let mut block = first;
        while self.number(block * BLOCK + 2) != 0 {
            block = self.number(block * BLOCK + 2);
        }
        self.put_number(block * BLOCK + 2, first);
    }

    /// Makes a free list in which each block has only the number of the next.
    fn free_chain(&mut self) {
        let head = BLOCK + self.layout.free_head;
        self.put_word(head, 1);
        self.put_number(head + 2, self.zone_start + 1);
        for block in self.zone_start + 1..self.zone_end {
            self.bytes[block * BLOCK..(block + 1) * BLOCK].fill(0);
            let next = if block + 1 < self.zone_end {
                block + 1
            } else {
                0
            };
            self.put_word(block * BLOCK, 1);
            self.put_number(block * BLOCK + 2, next);
        }
    }

    /// Makes nested directories, the first of which is an entry of the last and not of the root.
    fn circle(&mut self) -> Outcome<()> {
        let root = self.layout.root;
        let count = (self.zone_end - self.zone_start).min(self.last_inode() - root) - 2;
        let first = self.make_directory(root, b"d", MOMENT)?;
        let mut dir = first;
        for _ in 1..count {
            dir = self.make_directory(dir, b"d", MOMENT)?;
        }
        let start = self.zone_start * BLOCK;
        self.put_slot(start + 2 * SLOT, 0, b"");
        let is_large = self.is_large(dir);
        let block = self
            .block(dir, is_large, 0)
            .ok_or("a directory without a block")?;
        self.put_slot(block * BLOCK + 2 * SLOT, first, b"d");
        self.put_size(dir, 3 * SLOT);
        Ok(())
    }
}
