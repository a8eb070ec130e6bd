//! The reports of the checkers, for any volume whose sizes are valid, and rebuilding a free list.

use crate::volume::{Edition, Kind, Volume, BLOCK};
use crate::Outcome;
use std::io::Write;

/// The result of the walk over the free list: the blocks, and the fault at which it stopped.
struct FreeWalk {
    is_met: Vec<bool>,
    count: usize,
    fault: Option<(&'static str, usize)>,
}

/// The pointers of an i-node that are outside the zone: their number, and the least of them.
#[derive(Clone, Copy)]
struct Bad {
    count: usize,
    least: usize,
}

/// An entry of a directory that is neither `.` nor `..`.
struct Entry<'a> {
    dir: usize,
    ino: usize,
    name: &'a [u8],
}

impl Volume {
    /// Writes the report on blocks; returns true if it has faults.
    pub fn check_blocks(&self, output: &mut impl Write) -> Outcome<bool> {
        let walk = self.walk_free();
        let mut places = vec![0_usize; self.zone_end];
        let mut kinds = [0_usize; 4];
        let mut has_faults = false;
        for ino in 1..=self.last_inode() {
            match self.kind(ino) {
                Kind::Free => continue,
                Kind::Regular => kinds[0] += 1,
                Kind::Directory => kinds[1] += 1,
                Kind::Special => kinds[2] += 1,
                Kind::Odd => kinds[3] += 1,
            }
            if self.has_body(ino) {
                let bad = self.count_places(ino, &mut places);
                if bad.count > 0 {
                    writeln!(output, "bad {ino} {} {}", bad.count, bad.least)?;
                    has_faults = true;
                }
            }
        }
        let zone = self.zone_start..self.zone_end;
        for block in zone.clone() {
            let free = usize::from(walk.is_met[block]);
            if places[block] + free > 1 {
                writeln!(output, "dup {block} {} {free}", places[block])?;
                has_faults = true;
            }
        }
        let mut missing = 0;
        for block in zone.clone() {
            if places[block] == 0 && !walk.is_met[block] {
                writeln!(output, "lost {block}")?;
                missing += 1;
            }
        }
        if let Some((fault, number)) = walk.fault {
            writeln!(output, "free {fault} {number}")?;
            has_faults = true;
        }
        let used = zone.filter(|&block| places[block] > 0).count();
        let [files, directories, special, odd] = kinds;
        writeln!(
            output,
            "files {files}\ndirectories {directories}\nspecial {special}\nodd {odd}"
        )?;
        writeln!(
            output,
            "used {used}\nfree {}\nmissing {missing}",
            walk.count
        )?;
        Ok(has_faults || missing > 0 || odd > 0)
    }

    /// Walks the free list, up to its first fault.
    fn walk_free(&self) -> FreeWalk {
        let mut walk = FreeWalk {
            is_met: vec![false; self.zone_end],
            count: 0,
            fault: None,
        };
        let mut head = BLOCK + self.layout.free_head;
        loop {
            let count = self.word(head);
            if count > self.layout.free_slots {
                walk.fault = Some(("toomany", count));
            }
            if count == 0 || walk.fault.is_some() {
                return walk;
            }
            for index in (0..count).rev() {
                let block = self.number(head + 2 + index * self.layout.number_bytes);
                if index == 0 && block == 0 {
                    return walk;
                }
                if !self.is_in_zone(block) {
                    walk.fault = Some(("outofzone", block));
                    return walk;
                }
                if walk.is_met[block] {
                    walk.fault = Some(("repeat", block));
                    return walk;
                }
                walk.is_met[block] = true;
                walk.count += 1;
                head = if index == 0 { block * BLOCK } else { head };
            }
        }
    }

    /// Counts the blocks that a file's pointers name.
    fn count_places(&self, ino: usize, places: &mut [usize]) -> Bad {
        let is_large = self.is_large(ino);
        let mut bad = Bad {
            count: 0,
            least: usize::MAX,
        };
        for index in 0..self.layout.address_count {
            let block = self.address(ino, index);
            self.count_below(block, self.depth(is_large, index), places, &mut bad);
        }
        bad
    }

    fn count_below(&self, block: usize, depth: usize, places: &mut [usize], bad: &mut Bad) {
        if block == 0 {
            return;
        }
        if !self.is_in_zone(block) {
            bad.count += 1;
            bad.least = bad.least.min(block);
            return;
        }
        places[block] += 1;
        if depth > 0 {
            for entry in 0..self.layout.fan_out {
                let next = self.number(block * BLOCK + entry * self.layout.number_bytes);
                self.count_below(next, depth - 1, places, bad);
            }
        }
    }

    fn directories(&self) -> impl Iterator<Item = usize> + '_ {
        (1..=self.last_inode()).filter(|&ino| self.kind(ino) == Kind::Directory)
    }

    /// Writes the report on link counts; returns true if it has a line.
    pub fn check_links(&self, output: &mut impl Write) -> Outcome<bool> {
        let last = self.last_inode();
        let mut entries = vec![0_usize; last + 1];
        for dir in self.directories() {
            for slot in self
                .slots(dir)
                .filter(|slot| slot.ino != 0 && slot.ino <= last)
            {
                entries[slot.ino] += 1;
            }
        }
        let mut has_faults = false;
        for ino in 1..=last {
            let is_free = self.kind(ino) == Kind::Free;
            let links = if is_free { 0 } else { self.links(ino) };
            let is_kept = self.edition == Edition::V7 && ino == 1;
            if entries[ino] != links || links == 0 && !is_free && !is_kept {
                writeln!(output, "{ino} {} {links}", entries[ino])?;
                has_faults = true;
            }
        }
        Ok(has_faults)
    }

    /// Writes the report on names; returns true if a path doesn't begin at the root.
    pub fn check_names(&self, output: &mut impl Write) -> Outcome<bool> {
        let mut entries = Vec::new();
        let mut naming = vec![None; self.last_inode() + 1];
        for dir in self.directories() {
            for slot in self.slots(dir).filter(|slot| slot.ino != 0) {
                if slot.name != b"." && slot.name != b".." {
                    if let Some(first @ None) = naming.get_mut(slot.ino) {
                        *first = Some(entries.len());
                    }
                    entries.push(Entry {
                        dir,
                        ino: slot.ino,
                        name: slot.name,
                    });
                }
            }
        }
        let mut met = vec![false; self.last_inode() + 1];
        let mut lines: Vec<(usize, Vec<u8>)> = entries
            .iter()
            .map(|entry| (entry.ino, self.path(entry, &entries, &naming, &mut met)))
            .collect();
        lines.sort_unstable();
        let mut has_faults = false;
        for (ino, path) in lines {
            write!(output, "{ino} ")?;
            output.write_all(&path)?;
            output.write_all(b"\n")?;
            has_faults |= path.starts_with(b"...");
        }
        Ok(has_faults)
    }

    /// Returns the path of an entry, by the first entries of the directories above it.
    fn path(
        &self,
        entry: &Entry,
        entries: &[Entry],
        naming: &[Option<usize>],
        met: &mut [bool],
    ) -> Vec<u8> {
        let mut names = vec![entry.name];
        let mut way = Vec::new();
        let mut dir = entry.dir;
        let mut path = Vec::new();
        while dir != self.layout.root {
            match naming[dir] {
                Some(above) if !met[dir] => {
                    met[dir] = true;
                    way.push(dir);
                    names.push(entries[above].name);
                    dir = entries[above].dir;
                }
                _ => {
                    path.extend_from_slice(b"...");
                    break;
                }
            }
        }
        for dir in way {
            met[dir] = false;
        }
        for name in names.iter().rev() {
            path.push(b'/');
            path.extend_from_slice(name);
        }
        path
    }

    /// Rebuilds the free list, if all other rules hold.
    pub fn salvage(&mut self) -> Outcome<()> {
        self.judge_but_free()?;
        let mut places = vec![0_usize; self.zone_end];
        for ino in 1..=self.last_inode() {
            if self.has_body(ino) {
                self.count_places(ino, &mut places);
            }
        }
        self.put_word(BLOCK + self.layout.free_head, 0);
        for block in (self.zone_start..self.zone_end).rev() {
            if places[block] == 0 {
                self.give(block);
            }
        }
        Ok(())
    }
}
