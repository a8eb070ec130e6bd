//! Sample volumes, and scripts and an archive for them.

use crate::archives::{padding, Header, DIRECTORY, FILE};
use crate::volume::{Edition, Volume, BLOCK, SLOT};
use crate::Outcome;
use std::io::Write;

/// The number of directories over which half of the files are spread.
const FOLDERS: usize = 50;

const MOMENT: usize = 173_750_400;

/// Bytes that look random, the same in each run.
struct Noise(u64);

impl Noise {
    fn new() -> Noise {
        Noise(0x2545_f491_4f6c_dd1d)
    }

    fn number(&mut self) -> u64 {
        self.0 ^= self.0 << 13;
        self.0 ^= self.0 >> 7;
        self.0 ^= self.0 << 17;
        self.0 >> 32
    }

    fn fill(&mut self, bytes: &mut [u8]) {
        for byte in bytes {
            *byte = self.number() as u8;
        }
    }

    /// Returns the bytes of a file. Most files are small; few have double indirect blocks.
    fn size(&mut self, index: usize) -> usize {
        let most = match index % 500 {
            0 => return 100_000,
            1..=350 => 4_000,
            351..=450 => 16_000,
            _ => 40_000,
        };
        self.number() as usize % (most + 1)
    }
}

impl Volume {
    /// Makes a file `data` of `bytes` bytes in the root directory, at the i-node after the root's.
    pub fn put_file(&mut self, size: usize) -> Outcome<()> {
        let root = self.layout.root;
        let ino = root + 1;
        self.put_inode(ino, 0o100644, 1, 0);
        if self.edition == Edition::V6 {
            self.put_large(ino, true);
        }
        self.put_size(ino, size);
        let is_large = self.is_large(ino);
        let mut noise = Noise::new();
        for index in 0..size.div_ceil(BLOCK) {
            let start = self.block_taken(ino, is_large, index)? * BLOCK;
            let count = BLOCK.min(size - index * BLOCK);
            noise.fill(&mut self.bytes[start..start + count]);
        }
        self.put_size(root, 3 * SLOT);
        self.put_slot(self.zone_start * BLOCK + 2 * SLOT, ino, b"data");
        Ok(())
    }

    /// Makes files of various sizes: half of them in `/many`, the others spread over further directories.
    pub fn fill(&mut self, files: usize) -> Outcome<()> {
        let root = self.layout.root;
        let many = self.make_directory(root, b"many", MOMENT)?;
        let mut folders = Vec::new();
        for number in 0..FOLDERS {
            let name = format!("folder{number}");
            folders.push(self.make_directory(root, name.as_bytes(), MOMENT)?);
        }
        let mut noise = Noise::new();
        let mut body = Vec::new();
        for index in 0..files {
            let dir = match index % 2 {
                0 => many,
                _ => folders[index / 2 % FOLDERS],
            };
            let name = format!("file{index}");
            let ino = self.make_file(dir, name.as_bytes(), MOMENT)?;
            body.resize(noise.size(index), 0);
            noise.fill(&mut body);
            self.write(ino, &body, MOMENT)?;
        }
        Ok(())
    }

    /// Makes directories in the root that have the greatest size and consist mostly of holes: each has only its last
    /// two slots, reached through the last pointer of each indirect block on the way.
    pub fn make_sparse(&mut self, directories: usize) -> Outcome<()> {
        let root = self.layout.root;
        let size = self.layout.greatest / SLOT * SLOT;
        for number in 0..directories {
            let dir = self.make_directory(root, format!("sparse{number}").as_bytes(), MOMENT)?;
            self.empty(dir);
            if self.edition == Edition::V6 {
                self.put_large(dir, true);
            }
            let is_large = self.is_large(dir);
            let end = size - (size - 1) / BLOCK * BLOCK;
            let start = self.block_taken(dir, is_large, (size - 1) / BLOCK)? * BLOCK;
            self.put_slot(start + end - 2 * SLOT, dir, b".");
            self.put_slot(start + end - SLOT, root, b"..");
            self.put_size(dir, size);
        }
        Ok(())
    }

    /// Makes nested directories.
    pub fn make_deep(&mut self, directories: usize) -> Outcome<()> {
        let mut dir = self.layout.root;
        for _ in 0..directories {
            dir = self.make_directory(dir, b"d", MOMENT)?;
        }
        Ok(())
    }

    /// Makes a directory with names that two files share.
    pub fn make_names(&mut self, names: usize) -> Outcome<()> {
        let many = self.make_directory(self.layout.root, b"many", MOMENT)?;
        let mut file = 0;
        for number in 0..names {
            let name = format!("name{number}");
            if number % names.div_ceil(2) == 0 {
                file = self.make_file_at(many, number + 2, name.as_bytes(), MOMENT)?;
            } else {
                self.enter_at(many, number + 2, name.as_bytes(), file, MOMENT)?;
                self.put_links(file, self.links(file) + 1);
            }
        }
        Ok(())
    }
}

/// Writes a script: directories of 100 files each below one of its own; each file is made, written with 100 bytes,
/// and every second one is unlinked again. `with_answers` adds a query, or a refused call, for each accepted call.
pub fn write_script(
    folder: &str,
    calls: usize,
    with_answers: bool,
    output: &mut impl Write,
) -> Outcome<()> {
    let mut lines = 0;
    let mut line = |output: &mut dyn Write, words: String| -> Outcome<bool> {
        writeln!(output, "5 0 0 {words}")?;
        lines += 1;
        Ok(lines < calls)
    };
    let body = "5a".repeat(100);
    let mut goes_on = line(output, format!("mkdir /{folder} 755"))?;
    for number in 0.. {
        if !goes_on {
            break;
        }
        let dir = format!("/{folder}/d{}", number / 100);
        if number % 100 == 0 {
            line(output, format!("mkdir {dir} 755"))?;
        }
        let path = format!("{dir}/f{number}");
        line(output, format!("create {path} 644"))?;
        goes_on = line(output, format!("write {path} 0 {body}"))?;
        if with_answers {
            line(output, format!("stat {path}"))?;
            goes_on = line(output, format!("create {path} 644"))?;
        }
        if number % 2 == 1 {
            goes_on = line(output, format!("unlink {path}"))?;
            if with_answers {
                goes_on = line(output, format!("stat {path}"))?;
            }
        }
    }
    Ok(())
}

/// Writes an archive of directories with files in each. All have the same user and group, and all have different
/// times.
pub fn write_archive(
    directories: usize,
    files: usize,
    size: usize,
    output: &mut impl Write,
) -> Outcome<()> {
    let mut noise = Noise::new();
    let mut body = vec![0; size];
    let mut moment = MOMENT;
    let mut header = |kind, permissions, size, path: String| {
        moment += 1;
        let header = Header {
            kind,
            permissions,
            uid: 3,
            gid: 1,
            size,
            modified: moment,
            device: 0,
        };
        let bytes = header.bytes(path.as_bytes(), &[]);
        bytes.ok_or("no room for the path")
    };
    for d in 0..directories {
        output.write_all(&header(DIRECTORY, 0o755, 0, format!("d{d}/"))?)?;
        for f in 0..files {
            output.write_all(&header(FILE, 0o644, size, format!("d{d}/f{f}"))?)?;
            noise.fill(&mut body);
            output.write_all(&body)?;
            output.write_all(&[0; BLOCK][..padding(size)])?;
        }
    }
    output.write_all(&[0; 2 * BLOCK])?;
    Ok(())
}
