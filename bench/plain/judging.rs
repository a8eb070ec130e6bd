//! The twelve rules of sound volumes. The first two, on the sizes, are tested when a volume is opened.

use crate::tree::Slot;
use crate::volume::{Edition, Kind, Volume, BLOCK, SLOT};
use crate::Outcome;

type Name = [u8; SLOT - 2];

/// The directories' entries for each i-number.
struct Entries {
    /// The number of entries that name it.
    count: Vec<usize>,
    /// For a directory, the numbers of its `.` and its `..`, 0 for none.
    own: Vec<usize>,
    parent: Vec<usize>,
    /// Each entry except `.` and `..` for a directory: that directory, and the one that has the entry.
    namings: Vec<(usize, usize)>,
}

impl Volume {
    /// Tests the rules from the third on; the fault names the first that is broken.
    pub fn judge(&self) -> Outcome<()> {
        self.judge_rules(true)
    }

    /// The same without those of the free list.
    pub fn judge_but_free(&self) -> Outcome<()> {
        self.judge_rules(false)
    }

    fn judge_rules(&self, with_free: bool) -> Outcome<()> {
        let broken = self
            .broken_inode_rule()
            .or_else(|| self.broken_block_rule(with_free))
            .or_else(|| self.broken_directory_rule());
        match broken {
            Some(rule) => Err(format!("unsound, rule {rule}").into()),
            None => Ok(()),
        }
    }

    fn broken_inode_rule(&self) -> Option<u8> {
        let is_bad_file_odd =
            self.edition == Edition::V7 && !matches!(self.kind(1), Kind::Free | Kind::Regular);
        if self.kind(self.layout.root) != Kind::Directory
            || is_bad_file_odd
            || (1..=self.last_inode()).any(|ino| self.kind(ino) == Kind::Odd)
        {
            return Some(3);
        }
        let is_size_wrong = |ino| {
            let is_small = self.edition == Edition::V6 && !self.is_large(ino);
            self.size(ino) > self.layout.greatest || is_small && self.size(ino) > 8 * BLOCK
        };
        let is_wrong = |ino| {
            self.has_body(ino) && is_size_wrong(ino)
                || self.kind(ino) != Kind::Free && self.links(ino) > self.layout.most_links
        };
        (1..=self.last_inode()).any(is_wrong).then_some(4)
    }

    fn broken_block_rule(&self, with_free: bool) -> Option<u8> {
        let mut named = vec![false; self.zone_end];
        let mut is_twice = false;
        for ino in 1..=self.last_inode() {
            if self.has_body(ino) {
                let is_large = self.is_large(ino);
                for index in 0..self.layout.address_count {
                    let block = self.address(ino, index);
                    let depth = self.depth(is_large, index);
                    if !self.mark(block, depth, &mut named, &mut is_twice) {
                        return Some(5);
                    }
                }
            }
        }
        if !with_free {
            return is_twice.then_some(7);
        }
        let Some(stacked) = self.free_blocks() else {
            return Some(6);
        };
        let zone = || (self.zone_start..self.zone_end).map(|block| (named[block], stacked[block]));
        if is_twice || zone().any(|(is_named, is_free)| is_named && is_free) {
            return Some(7);
        }
        zone()
            .any(|(is_named, is_free)| !is_named && !is_free)
            .then_some(8)
    }

    /// Marks a block and those that it leads to; returns true if their numbers are in the zone.
    fn mark(&self, block: usize, depth: usize, named: &mut [bool], is_twice: &mut bool) -> bool {
        if block == 0 {
            return true;
        }
        if !self.is_in_zone(block) {
            return false;
        }
        *is_twice |= named[block];
        named[block] = true;
        let numbers = if depth == 0 { 0 } else { self.layout.fan_out };
        (0..numbers).all(|entry| {
            let next = self.number(block * BLOCK + entry * self.layout.number_bytes);
            self.mark(next, depth - 1, named, is_twice)
        })
    }

    /// Returns the blocks on the free list, if it is valid.
    fn free_blocks(&self) -> Option<Vec<bool>> {
        let mut stacked = vec![false; self.zone_end];
        let mut head = BLOCK + self.layout.free_head;
        loop {
            let count = self.word(head);
            if count > self.layout.free_slots {
                return None;
            }
            for index in (0..count).rev() {
                let block = self.number(head + 2 + index * self.layout.number_bytes);
                if index == 0 && block == 0 {
                    return Some(stacked);
                }
                if !self.is_in_zone(block) || stacked[block] {
                    return None;
                }
                stacked[block] = true;
                head = if index == 0 { block * BLOCK } else { head };
            }
            if count == 0 {
                return Some(stacked);
            }
        }
    }

    fn broken_directory_rule(&self) -> Option<u8> {
        let Some(entries) = self.entries() else {
            return Some(9);
        };
        let root = self.layout.root;
        let directories =
            || (1..=self.last_inode()).filter(|&ino| self.kind(ino) == Kind::Directory);
        let mut is_parent_right = vec![false; self.last_inode() + 1];
        is_parent_right[root] = entries.parent[root] == root;
        for &(ino, dir) in &entries.namings {
            is_parent_right[ino] |= ino != root && entries.parent[ino] == dir;
        }
        if !directories().all(|dir| entries.own[dir] == dir && is_parent_right[dir]) {
            return Some(10);
        }
        if !self.is_tree(&entries.namings, directories().count()) {
            return Some(11);
        }
        let is_count_wrong = |ino| {
            let links = self.links(ino);
            let is_bad_file = self.edition == Edition::V7 && ino == 1;
            links != entries.count[ino] || links == 0 && !is_bad_file
        };
        (1..=self.last_inode())
            .any(|ino| self.kind(ino) != Kind::Free && is_count_wrong(ino))
            .then_some(12)
    }

    /// True if each directory except the root is named once and reached from the root, which is never named.
    fn is_tree(&self, namings: &[(usize, usize)], directories: usize) -> bool {
        let root = self.layout.root;
        let mut above = vec![0; self.last_inode() + 1];
        for &(ino, dir) in namings {
            if ino == root || above[ino] != 0 {
                return false;
            }
            above[ino] = dir;
        }
        let mut is_reached = vec![false; self.last_inode() + 1];
        is_reached[root] = true;
        for &(ino, _) in namings {
            let mut way = Vec::new();
            let mut at = ino;
            while !is_reached[at] {
                if above[at] == 0 || way.len() > namings.len() {
                    return false;
                }
                way.push(at);
                at = above[at];
            }
            for passed in way {
                is_reached[passed] = true;
            }
        }
        namings.len() + 1 == directories
    }

    /// Returns the directories' entries, if each is valid.
    fn entries(&self) -> Option<Entries> {
        let last = self.last_inode();
        let mut entries = Entries {
            count: vec![0; last + 1],
            own: vec![0; last + 1],
            parent: vec![0; last + 1],
            namings: Vec::new(),
        };
        let mut names = Vec::new();
        for dir in (1..=last).filter(|&ino| self.kind(ino) == Kind::Directory) {
            if self.size(dir) % SLOT != 0 {
                return None;
            }
            names.clear();
            for slot in self.slots(dir).filter(|slot| slot.ino != 0) {
                if !self.is_entry(&slot) {
                    return None;
                }
                entries.add(dir, &slot, self.kind(slot.ino));
                let mut name: Name = [0; SLOT - 2];
                name[..slot.name.len()].copy_from_slice(slot.name);
                names.push(name);
            }
            names.sort_unstable();
            if names.windows(2).any(|pair| pair[0] == pair[1]) {
                return None;
            }
        }
        Some(entries)
    }

    fn is_entry(&self, slot: &Slot) -> bool {
        !slot.name.is_empty()
            && !slot.name.contains(&b'/')
            && slot.ino >= self.layout.root
            && slot.ino <= self.last_inode()
            && self.kind(slot.ino) != Kind::Free
    }
}

impl Entries {
    fn add(&mut self, dir: usize, slot: &Slot, kind: Kind) {
        self.count[slot.ino] += 1;
        match slot.name {
            b"." => self.own[dir] = slot.ino,
            b".." => self.parent[dir] = slot.ino,
            _ if kind == Kind::Directory => self.namings.push((slot.ino, dir)),
            _ => {}
        }
    }
}
