//! What `unixvol.h` declares.

use std::ffi::c_void;

/// A handle, closed at first.
#[repr(C)]
pub struct Handle {
    pub volume: *mut c_void,
    pub is_open: bool,
}

/// What a node is. Times are in seconds since the beginning of 1970.
#[repr(C)]
#[derive(Clone, Copy, Debug, Default, PartialEq, Eq)]
pub struct Node {
    pub size: u32,
    pub accessed: u32,
    pub modified: u32,
    pub changed: u32,
    pub inode: u16,
    pub permissions: u16,
    pub links: u16,
    pub uid: u16,
    pub gid: u16,
    pub kind: u8,
    pub keeps_changed: bool,
}

/// A name in a directory, with zeros after it if it has fewer than 14 bytes.
#[repr(C)]
#[derive(Clone, Copy, Debug, Default, PartialEq, Eq)]
pub struct Entry {
    pub inode: u16,
    pub name: [u8; 14],
}

/// The sizes of a volume.
#[repr(C)]
#[derive(Clone, Copy, Debug, Default, PartialEq, Eq)]
pub struct About {
    pub blocks: u32,
    pub data_start: u32,
    pub free_blocks: u32,
    pub last_inode: u16,
    pub edition: u8,
}

/// The part of an image to show, and its form.
#[repr(C)]
#[derive(Clone, Copy, Debug, Default, PartialEq, Eq)]
pub struct View {
    /// The number of a block, for a look at one.
    pub block: u32,
    /// An i-number, for a look at an i-node without a path.
    pub inode: u16,
    /// What is shown, a `Look`.
    pub kind: u8,
    /// True for what the command prints with `--json`, false for lines of text.
    pub json: bool,
    /// True for i-nodes without an entry too.
    pub lost: bool,
}

/// What is rescued of an image with lost blocks.
#[repr(C)]
#[derive(Clone, Copy, Debug, Default, PartialEq, Eq)]
pub struct RescueView {
    /// The block that the volume begins at in the file that the map is of.
    pub at: u32,
    /// True if there is a map; `rescue` sets it.
    pub has_map: bool,
    /// True for i-nodes without an entry too.
    pub lost: bool,
    /// True for damaged files too, with zeros for the bytes that are lost.
    pub damaged: bool,
}

/// The sizes of what a command printed, and its status.
#[repr(C)]
#[derive(Clone, Copy, Debug, Default, PartialEq, Eq)]
pub struct Seen {
    pub text: usize,
    pub lines: usize,
    pub status: u8,
}

/// Something that a repair changed, by its kind in `unixvol.h`. Names have zeros after them if they have fewer than 14 bytes.
#[repr(C)]
#[derive(Clone, Copy, Debug, Default, PartialEq, Eq)]
pub struct Repaired {
    pub before: u32,
    pub after: u32,
    pub slot: u32,
    pub inode: u16,
    pub kind: u8,
    pub name_before: [u8; 14],
    pub name_after: [u8; 14],
}

#[rustfmt::skip]
extern "C" {
    pub fn unixvol_open(volume: &mut Handle, edition: u8, bytes: *const u8, bytes_count: usize) -> i32;
    pub fn unixvol_mkfs(volume: &mut Handle, edition: u8, blocks: u32, list_blocks: u16, uid: u16, gid: u16, now: u32) -> i32;
    pub fn unixvol_close(volume: &mut Handle);
    pub fn unixvol_judge(edition: u8, bytes: *const u8, bytes_count: usize) -> i32;
    pub fn unixvol_size(volume: &mut Handle, count: &mut usize) -> i32;
    pub fn unixvol_image(volume: &mut Handle, into: *mut u8, room: usize) -> i32;
    pub fn unixvol_explain(edition: u8, bytes: *const u8, bytes_count: usize, into: *mut u8, room: usize, count: &mut usize) -> i32;
    pub fn unixvol_salvage(edition: u8, bytes: *mut u8, bytes_count: usize) -> i32;
    pub fn unixvol_look(edition: u8, bytes: *const u8, bytes_count: usize, view: &View, path: *const u8, path_count: usize, pattern: *const u8, pattern_count: usize, into: *mut u8, room: usize, seen: &mut Seen) -> i32;
    pub fn unixvol_compare(edition: u8, before: *const u8, before_count: usize, after: *const u8, after_count: usize, by: u8, into: *mut u8, room: usize, seen: &mut Seen) -> i32;
    pub fn unixvol_rescue(edition: u8, bytes: *const u8, bytes_count: usize, view: &RescueView, path: *const u8, path_count: usize, map: *const u8, map_count: usize, into: *mut u8, room: usize, seen: &mut Seen) -> i32;
    pub fn unixvol_repair(edition: u8, bytes: *mut u8, bytes_count: usize, now: u32, into: *mut Repaired, room: usize, count: &mut usize) -> i32;
    pub fn unixvol_stat(volume: &mut Handle, uid: u16, gid: u16, path: *const u8, path_count: usize, node: &mut Node) -> i32;
    pub fn unixvol_read(volume: &mut Handle, uid: u16, gid: u16, path: *const u8, path_count: usize, offset: u32, into: *mut u8, room: usize, count: &mut usize) -> i32;
    pub fn unixvol_list(volume: &mut Handle, uid: u16, gid: u16, path: *const u8, path_count: usize, into: *mut Entry, room: usize, count: &mut usize) -> i32;
    pub fn unixvol_about(volume: &mut Handle, about: &mut About) -> i32;
    pub fn unixvol_create(volume: &mut Handle, uid: u16, gid: u16, now: u32, path: *const u8, path_count: usize, permissions: u16, inode: &mut u16) -> i32;
    pub fn unixvol_mkdir(volume: &mut Handle, uid: u16, gid: u16, now: u32, path: *const u8, path_count: usize, permissions: u16, inode: &mut u16) -> i32;
    pub fn unixvol_mknod(volume: &mut Handle, uid: u16, gid: u16, now: u32, path: *const u8, path_count: usize, permissions: u16, kind: u8, major: u8, minor: u8, inode: &mut u16) -> i32;
    pub fn unixvol_link(volume: &mut Handle, uid: u16, gid: u16, now: u32, source: *const u8, source_count: usize, target: *const u8, target_count: usize) -> i32;
    pub fn unixvol_unlink(volume: &mut Handle, uid: u16, gid: u16, now: u32, path: *const u8, path_count: usize) -> i32;
    pub fn unixvol_rmdir(volume: &mut Handle, uid: u16, gid: u16, now: u32, path: *const u8, path_count: usize) -> i32;
    pub fn unixvol_write(volume: &mut Handle, uid: u16, gid: u16, now: u32, path: *const u8, path_count: usize, offset: u32, bytes: *const u8, bytes_count: usize) -> i32;
    pub fn unixvol_truncate(volume: &mut Handle, uid: u16, gid: u16, now: u32, path: *const u8, path_count: usize, length: u32) -> i32;
    pub fn unixvol_chmod(volume: &mut Handle, uid: u16, gid: u16, now: u32, path: *const u8, path_count: usize, permissions: u16) -> i32;
    pub fn unixvol_chown(volume: &mut Handle, uid: u16, gid: u16, now: u32, path: *const u8, path_count: usize, owner: u16, group: u16) -> i32;
    pub fn unixvol_times(volume: &mut Handle, uid: u16, gid: u16, now: u32, path: *const u8, path_count: usize, accessed: u32, modified: u32) -> i32;
    pub fn unixvol_cut(volume: &mut Handle) -> i32;
    pub fn unixvol_report(volume: &mut Handle, letter: u8) -> i32;
    pub fn unixvol_export(volume: &mut Handle, path: *const u8, path_count: usize, left_out: &mut usize) -> i32;
    pub fn unixvol_name(number: u16, into: *mut u8, room: usize, count: &mut usize) -> i32;
    pub fn unixvol_answer_size(volume: &mut Handle, count: &mut usize) -> i32;
    pub fn unixvol_answer(volume: &mut Handle, from: usize, into: *mut u8, room: usize, count: &mut usize) -> i32;
}
