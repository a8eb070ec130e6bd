//! Volumes of Sixth and Seventh Edition Unix, by the proved library that `unixvol.h` declares.
//!
//! A [`Volume`] is in memory, and is a sound one after each call. Opening copies its bytes in, [`Volume::image`] copies
//! them out. Nothing here opens a file or reads a clock.

mod declared;

use declared::*;
pub use declared::{About, Entry, Node, Repaired, RescueView, View};
use std::fmt;

/// The version of this crate, and of the library beside it.
pub const VERSION: &str = env!("CARGO_PKG_VERSION");

/// Why something was refused, by the number of `unixvol.h`: 1 to 112 a refusal, 200 and a rule no sound volume, 301 to
/// 307 a wrong argument. Nothing has changed.
#[derive(Clone, Copy, Debug, PartialEq, Eq)]
pub struct Error(pub i32);

impl Error {
    /// The least of the twelve rules that the bytes break, if they are no sound volume.
    pub fn rule(self) -> Option<i32> {
        (201..=212).contains(&self.0).then(|| self.0 - 200)
    }
}

impl fmt::Display for Error {
    fn fmt(&self, f: &mut fmt::Formatter) -> fmt::Result {
        let (mut text, mut count) = ([0; 32], 0);
        // (it has room for each)
        unsafe { unixvol_name(self.0 as u16, text.as_mut_ptr(), text.len(), &mut count) };
        f.write_str(&String::from_utf8_lossy(&text[..count]))
    }
}

impl std::error::Error for Error {}

/// The user and the group in whose name a query or a call is made, and the moment of a call.
#[derive(Clone, Copy, Debug, Default)]
pub struct Caller {
    pub uid: u16,
    pub gid: u16,
    pub now: u32,
}

/// The kind of a special file.
#[repr(u8)]
#[derive(Clone, Copy, Debug, PartialEq, Eq)]
pub enum DeviceKind {
    Character = b'c',
    Block = b'b',
}

/// The device that a special file represents.
#[derive(Clone, Copy, Debug, PartialEq, Eq)]
pub struct Device {
    pub kind: DeviceKind,
    pub major: u8,
    pub minor: u8,
}

/// A volume in memory.
pub struct Volume(Handle);

// That a handle may go to another thread is proved of the library's own type.
unsafe impl Send for Volume {}

impl Drop for Volume {
    fn drop(&mut self) {
        unsafe { unixvol_close(&mut self.0) }
    }
}

/// The value, if the number is 0.
fn done<T>(number: i32, value: T) -> Result<T, Error> {
    if number == 0 {
        Ok(value)
    } else {
        Err(Error(number))
    }
}

/// A closed handle.
fn closed() -> Handle {
    Handle { volume: std::ptr::null_mut(), is_open: false }
}

/// Returns if bytes are a sound volume; the error has the rule that they break. They may be any bytes.
pub fn judge(edition: u8, bytes: &[u8]) -> Result<(), Error> {
    done(unsafe { unixvol_judge(edition, bytes.as_ptr(), bytes.len()) }, ())
}

/// What is found of each of the twelve rules in any bytes, a line for each.
pub fn explain(edition: u8, bytes: &[u8]) -> Result<Vec<u8>, Error> {
    let (mut text, mut count) = (vec![0; 4096], 0);
    let into = text.as_mut_ptr();
    let number = unsafe { unixvol_explain(edition, bytes.as_ptr(), bytes.len(), into, 4096, &mut count) };
    text.truncate(count);
    done(number, text)
}

/// Makes the free list of an image anew, in place, if nothing else is wrong with it.
pub fn salvage(edition: u8, bytes: &mut [u8]) -> Result<(), Error> {
    done(unsafe { unixvol_salvage(edition, bytes.as_mut_ptr(), bytes.len()) }, ())
}

/// What [`look`] shows: what the command of that name prints.
#[repr(u8)]
#[derive(Clone, Copy, Debug, PartialEq, Eq)]
pub enum Look {
    Inode = 1,
    Super = 2,
    Df = 3,
    Free = 4,
    Block = 5,
    Find = 6,
    Sums = 7,
    Check = 8,
    Map = 9,
    Svg = 10,
    Slots = 11,
    List = 12,
    Dump = 13,
    DumpNode = 14,
}

/// How [`compare`] compares.
#[repr(u8)]
#[derive(Clone, Copy, Debug, PartialEq, Eq)]
pub enum By {
    Tree = 1,
    AllTimes = 2,
    Fields = 3,
    AllFields = 4,
    TreeJson = 5,
    AllTimesJson = 6,
    FieldsJson = 7,
    AllFieldsJson = 8,
}

/// What a command printed: its text, its lines on standard error, and its status.
#[derive(Clone, Debug, PartialEq, Eq)]
pub struct Shown {
    pub text: Vec<u8>,
    pub lines: Vec<u8>,
    pub status: u8,
}

/// What a command printed, by a call with a buffer, which is made again with a larger one if that is too short.
fn shown(call: impl Fn(&mut [u8], &mut Seen) -> i32) -> Result<Shown, Error> {
    const NO_ROOM: i32 = 302;
    let (mut text, mut seen) = (vec![0; 1 << 16], Seen::default());
    let mut number = call(&mut text, &mut seen);
    if number == NO_ROOM {
        text.resize(seen.text + seen.lines, 0);
        number = call(&mut text, &mut seen);
    }
    done(number, ())?;
    text.truncate(seen.text + seen.lines);
    let lines = text.split_off(seen.text);
    Ok(Shown { text, lines, status: seen.status })
}

/// What a command shows of an image, which may be any bytes. `path` and `pattern` are for those looks that want them.
pub fn look(edition: u8, bytes: &[u8], view: &View, path: &[u8], pattern: &[u8]) -> Result<Shown, Error> {
    shown(|into, seen| unsafe {
        let (at, count) = (path.as_ptr(), path.len());
        let (name, length) = (pattern.as_ptr(), pattern.len());
        let (to, room) = (into.as_mut_ptr(), into.len());
        unixvol_look(edition, bytes.as_ptr(), bytes.len(), view, at, count, name, length, to, room, seen)
    })
}

/// How two images differ. The status is 0 if they don't, 1 if they do.
pub fn compare(edition: u8, before: &[u8], after: &[u8], by: By) -> Result<Shown, Error> {
    shown(|into, seen| unsafe {
        let (old, new) = (before.as_ptr(), after.as_ptr());
        let (to, room) = (into.as_mut_ptr(), into.len());
        unixvol_compare(edition, old, before.len(), new, after.len(), by as u8, to, room, seen)
    })
}

/// A tar archive of the whole files below a directory, of an image with lost blocks: those that it is too short for, or those
/// that a map of GNU ddrescue says weren't read. The lines say what is damaged.
pub fn rescue(edition: u8, bytes: &[u8], view: &RescueView, path: &[u8], map: Option<&[u8]>) -> Result<Shown, Error> {
    let view = RescueView { has_map: map.is_some(), ..*view };
    let map = map.unwrap_or_default();
    shown(|into, seen| unsafe {
        let (at, count) = (path.as_ptr(), path.len());
        let (text, length) = (map.as_ptr(), map.len());
        let (to, room) = (into.as_mut_ptr(), into.len());
        unixvol_rescue(edition, bytes.as_ptr(), bytes.len(), &view, at, count, text, length, to, room, seen)
    })
}

/// Repairs an image in place, and returns all that was changed. New i-nodes get the time `now`.
pub fn repair(edition: u8, bytes: &mut [u8], now: u32) -> Result<Vec<Repaired>, Error> {
    let (mut lines, mut count) = (vec![Repaired::default(); 1024], 0);
    loop {
        let (into, room) = (lines.as_mut_ptr(), lines.len());
        let number = unsafe { unixvol_repair(edition, bytes.as_mut_ptr(), bytes.len(), now, into, room, &mut count) };
        lines.resize(count, Repaired::default());
        if count <= room {
            return done(number, lines);
        }
    }
}

impl Volume {
    /// Opens a volume on a copy of its bytes, which must be sound.
    pub fn open(edition: u8, bytes: &[u8]) -> Result<Volume, Error> {
        let mut volume = Volume(closed());
        let number = unsafe { unixvol_open(&mut volume.0, edition, bytes.as_ptr(), bytes.len()) };
        done(number, volume)
    }

    /// Makes a new volume, whose root belongs to the caller.
    pub fn mkfs(edition: u8, blocks: u32, list_blocks: u16, by: Caller) -> Result<Volume, Error> {
        let mut volume = Volume(closed());
        let number = unsafe { unixvol_mkfs(&mut volume.0, edition, blocks, list_blocks, by.uid, by.gid, by.now) };
        done(number, volume)
    }

    /// A copy of the image.
    pub fn image(&mut self) -> Result<Vec<u8>, Error> {
        let mut size = 0;
        done(unsafe { unixvol_size(&mut self.0, &mut size) }, ())?;
        let mut image = vec![0; size];
        done(unsafe { unixvol_image(&mut self.0, image.as_mut_ptr(), size) }, image)
    }

    /// The edition and the sizes.
    pub fn about(&mut self) -> Result<About, Error> {
        let mut about = About::default();
        done(unsafe { unixvol_about(&mut self.0, &mut about) }, about)
    }

    /// What a node is.
    pub fn stat(&mut self, by: Caller, path: &[u8]) -> Result<Node, Error> {
        let mut node = Node::default();
        let number = unsafe { unixvol_stat(&mut self.0, by.uid, by.gid, path.as_ptr(), path.len(), &mut node) };
        done(number, node)
    }

    /// Reads bytes of a regular file from an offset on: as many as the buffer has room for, fewer at the file's end.
    pub fn read(&mut self, by: Caller, path: &[u8], offset: u32, into: &mut [u8]) -> Result<usize, Error> {
        let (room, mut count) = (into.len(), 0);
        let (path, length, into) = (path.as_ptr(), path.len(), into.as_mut_ptr());
        let number = unsafe { unixvol_read(&mut self.0, by.uid, by.gid, path, length, offset, into, room, &mut count) };
        done(number, count)
    }

    /// The names in a directory with their i-numbers, in ascending order of their bytes.
    pub fn list(&mut self, by: Caller, path: &[u8]) -> Result<Vec<Entry>, Error> {
        let (mut entries, mut count) = (vec![Entry::default(); 64], 0);
        loop {
            let (into, room) = (entries.as_mut_ptr(), entries.len());
            let number =
                unsafe { unixvol_list(&mut self.0, by.uid, by.gid, path.as_ptr(), path.len(), into, room, &mut count) };
            done(number, ())?;
            entries.resize(count, Entry::default());
            if count <= room {
                return Ok(entries);
            }
        }
    }

    /// Makes an empty regular file, and returns its i-number.
    pub fn create(&mut self, by: Caller, path: &[u8], permissions: u16) -> Result<u16, Error> {
        let mut inode = 0;
        let (path, count) = (path.as_ptr(), path.len());
        let number =
            unsafe { unixvol_create(&mut self.0, by.uid, by.gid, by.now, path, count, permissions, &mut inode) };
        done(number, inode)
    }

    /// Makes a directory, and returns its i-number.
    pub fn mkdir(&mut self, by: Caller, path: &[u8], permissions: u16) -> Result<u16, Error> {
        let mut inode = 0;
        let (path, count) = (path.as_ptr(), path.len());
        let number =
            unsafe { unixvol_mkdir(&mut self.0, by.uid, by.gid, by.now, path, count, permissions, &mut inode) };
        done(number, inode)
    }

    /// Makes a special file, and returns its i-number. Only user 0 may.
    pub fn mknod(&mut self, by: Caller, path: &[u8], permissions: u16, device: Device) -> Result<u16, Error> {
        let Device { kind, major, minor } = device;
        let (kind, mut inode) = (kind as u8, 0);
        let (path, count) = (path.as_ptr(), path.len());
        let number = unsafe {
            unixvol_mknod(&mut self.0, by.uid, by.gid, by.now, path, count, permissions, kind, major, minor, &mut inode)
        };
        done(number, inode)
    }

    /// Gives a node other than a directory a further name.
    pub fn link(&mut self, by: Caller, source: &[u8], target: &[u8]) -> Result<(), Error> {
        let (from, count) = (source.as_ptr(), source.len());
        let (to, length) = (target.as_ptr(), target.len());
        done(unsafe { unixvol_link(&mut self.0, by.uid, by.gid, by.now, from, count, to, length) }, ())
    }

    /// Removes a name of a node other than a directory.
    pub fn unlink(&mut self, by: Caller, path: &[u8]) -> Result<(), Error> {
        done(unsafe { unixvol_unlink(&mut self.0, by.uid, by.gid, by.now, path.as_ptr(), path.len()) }, ())
    }

    /// Removes a directory that has `.` and `..` alone.
    pub fn rmdir(&mut self, by: Caller, path: &[u8]) -> Result<(), Error> {
        done(unsafe { unixvol_rmdir(&mut self.0, by.uid, by.gid, by.now, path.as_ptr(), path.len()) }, ())
    }

    /// Writes bytes into a regular file, all or none.
    pub fn write(&mut self, by: Caller, path: &[u8], offset: u32, bytes: &[u8]) -> Result<(), Error> {
        let (path, length) = (path.as_ptr(), path.len());
        let (bytes, count) = (bytes.as_ptr(), bytes.len());
        done(unsafe { unixvol_write(&mut self.0, by.uid, by.gid, by.now, path, length, offset, bytes, count) }, ())
    }

    /// Cuts a regular file to its first `length` bytes.
    pub fn truncate(&mut self, by: Caller, path: &[u8], length: u32) -> Result<(), Error> {
        let (path, count) = (path.as_ptr(), path.len());
        done(unsafe { unixvol_truncate(&mut self.0, by.uid, by.gid, by.now, path, count, length) }, ())
    }

    /// Gives a node other permissions.
    pub fn chmod(&mut self, by: Caller, path: &[u8], permissions: u16) -> Result<(), Error> {
        let (path, count) = (path.as_ptr(), path.len());
        done(unsafe { unixvol_chmod(&mut self.0, by.uid, by.gid, by.now, path, count, permissions) }, ())
    }

    /// Gives a node to another user and group.
    pub fn chown(&mut self, by: Caller, path: &[u8], owner: u16, group: u16) -> Result<(), Error> {
        let (path, count) = (path.as_ptr(), path.len());
        done(unsafe { unixvol_chown(&mut self.0, by.uid, by.gid, by.now, path, count, owner, group) }, ())
    }

    /// Gives a node other times, of its last reading and of the last change of what it holds.
    pub fn times(&mut self, by: Caller, path: &[u8], accessed: u32, modified: u32) -> Result<(), Error> {
        let (path, count) = (path.as_ptr(), path.len());
        done(unsafe { unixvol_times(&mut self.0, by.uid, by.gid, by.now, path, count, accessed, modified) }, ())
    }

    /// Frees the memory of the calls that were made. It is freed by itself as soon as it counts more than an eighth of the
    /// image.
    pub fn cut(&mut self) -> Result<(), Error> {
        done(unsafe { unixvol_cut(&mut self.0) }, ())
    }

    /// The report of a checker: `icheck` for `b'i'`, `dcheck` for `b'd'`, `ncheck` for `b'n'`.
    pub fn report(&mut self, letter: u8) -> Result<Vec<u8>, Error> {
        done(unsafe { unixvol_report(&mut self.0, letter) }, ())?;
        self.answer()
    }

    /// A tar archive of all that is below a directory, and how many entries are left out of it, since their paths have more than 4,096 bytes.
    pub fn export(&mut self, path: &[u8]) -> Result<(Vec<u8>, usize), Error> {
        let mut left_out = 0;
        done(unsafe { unixvol_export(&mut self.0, path.as_ptr(), path.len(), &mut left_out) }, ())?;
        Ok((self.answer()?, left_out))
    }

    /// A copy of the answer that the handle keeps.
    fn answer(&mut self) -> Result<Vec<u8>, Error> {
        let mut count = 0;
        done(unsafe { unixvol_answer_size(&mut self.0, &mut count) }, ())?;
        let mut answer = vec![0; count];
        let into = answer.as_mut_ptr();
        done(unsafe { unixvol_answer(&mut self.0, 0, into, answer.len(), &mut count) }, answer)
    }
}
