//! The jobs of `unixvol` in plain Rust, for `bench/run.sh`: written as a programmer would who wants them done, fast
//! and without proofs. It also makes the sample volumes, scripts and archive.
//!
//! plain cat 6|7 IMAGE INO
//! plain ls 6|7 IMAGE PATH
//! plain mkfs 6|7 IMAGE FSIZE IBLOCKS UID GID NOW
//! plain put 6|7 IMAGE PATH FILE NOW
//! plain rm 6|7 IMAGE PATH NOW
//! plain import 6|7 IMAGE PATH NOW < ARCHIVE
//! plain export 6|7 IMAGE PATH > ARCHIVE
//! plain icheck|dcheck|ncheck 6|7 IMAGE WORKERS      always with one thread
//! plain salvage 6|7 IMAGE
//! plain migrate OLD NEW FSIZE IBLOCKS NOW
//! plain play 6|7 IMAGE SCRIPT..
//! plain deep 6|7 IMAGE FSIZE IBLOCKS COUNT       a new volume with COUNT nested directories
//! plain names 6|7 IMAGE FSIZE IBLOCKS COUNT      a new volume whose directory /many has COUNT names of two files
//! plain script FOLDER LINES half|whole           a script of LINES lines below /FOLDER; if half, every second one is a query or is refused
//! plain archive DIRECTORIES FILES BYTES          an archive of directories with FILES files of BYTES bytes each
//! plain sample 6|7 IMAGE FSIZE IBLOCKS BYTES     a new volume with a file of BYTES bytes, the i-node after the root's
//! plain fill 6|7 IMAGE FSIZE IBLOCKS FILES       a new volume with FILES files of various sizes, half of them in /many
//! plain calls DIRECTORIES NAMES create|write [image]     calls as `library_runs calls` makes them
//! plain sparse 6|7 IMAGE FSIZE IBLOCKS COUNT     a new volume with COUNT directories of the greatest size, mostly holes
//! plain hostile 6|7 IMAGE FSIZE IBLOCKS PATTERN  a volume, usually unsound, on which a checker may work for a long time (`hostile.rs`)

mod archives;
mod calls;
mod checking;
mod files;
mod hostile;
mod judging;
mod migrating;
mod playing;
mod samples;
mod saving;
mod tree;
mod volume;

use calls::Session;
use saving::save;
use std::env;
use std::error::Error;
use std::fs::{self, File};
use std::hint::black_box;
use std::io::{self, BufWriter, Read, Write};
use std::os::fd::AsFd;
use std::process::ExitCode;
use volume::{Edition, Volume};

type Outcome<T> = Result<T, Box<dyn Error>>;

/// Reads the volume in an image, sound or not, if its sizes are valid.
fn open(edition: &str, image: &str) -> Outcome<Volume> {
    Volume::open(Edition::named(edition)?, fs::read(image)?)
}

/// A sound volume to change, with a copy of the bytes that were mounted.
struct Mounted {
    volume: Volume,
    base: Vec<u8>,
}

impl Mounted {
    /// Mounts a volume, if it is sound.
    fn new(volume: Volume) -> Outcome<Mounted> {
        volume.judge()?;
        let base = volume.bytes.clone();
        Ok(Mounted { volume, base })
    }

    /// Saves the volume, and drops it; the copy is kept until then.
    fn save(self, image: &str) -> Outcome<()> {
        save(&self.volume, image)?;
        black_box(&self.base);
        Ok(())
    }
}

/// Reads a new volume from the numbers after the image on the command line of `mkfs`.
fn make(edition: &str, [blocks, list_blocks, uid, gid, now]: [&str; 5]) -> Outcome<Volume> {
    Volume::make(
        Edition::named(edition)?,
        blocks.parse()?,
        list_blocks.parse()?,
        uid.parse()?,
        gid.parse()?,
        now.parse()?,
    )
}

/// Writes to standard output, without the standard library's own buffer, which searches for line ends.
fn print(write: impl FnOnce(&mut BufWriter<File>) -> Outcome<()>) -> Outcome<()> {
    let output = File::from(io::stdout().as_fd().try_clone_to_owned()?);
    let mut output = BufWriter::with_capacity(64 * 1024, output);
    write(&mut output)?;
    output.flush()?;
    Ok(())
}

/// Reads all of standard input, without the standard library's own buffer, which doesn't query a file's length.
fn input() -> Outcome<Vec<u8>> {
    let mut bytes = Vec::new();
    File::from(io::stdin().as_fd().try_clone_to_owned()?).read_to_end(&mut bytes)?;
    Ok(bytes)
}

fn run(words: &[String]) -> Outcome<()> {
    let words: Vec<&str> = words.iter().map(String::as_str).collect();
    match words[..] {
        ["cat", edition, image, ino] => {
            let volume = open(edition, image)?;
            let ino = ino.parse()?;
            print(|output| volume.print(ino, output))
        }
        ["ls", edition, image, path] => {
            let volume = open(edition, image)?;
            volume.judge()?;
            print(|output| volume.list(path, output))
        }
        ["mkfs", edition, image, blocks, list_blocks, uid, gid, now] => {
            save(&make(edition, [blocks, list_blocks, uid, gid, now])?, image)
        }
        ["put", edition, image, path, file, now] => {
            let now = now.parse()?;
            let volume = open(edition, image)?;
            let body = fs::read(file)?;
            let mut mounted = Mounted::new(volume)?;
            mounted.volume.put(path, &body, now)?;
            mounted.save(image)
        }
        ["rm", edition, image, path, now] => {
            let now = now.parse()?;
            let mut mounted = Mounted::new(open(edition, image)?)?;
            mounted.volume.unlink(path, now)?;
            mounted.save(image)
        }
        ["import", edition, image, path, now] => {
            let now = now.parse()?;
            let volume = open(edition, image)?;
            let archive = input()?;
            let mut mounted = Mounted::new(volume)?;
            let journal = mounted.volume.import(&archive, path, now)?;
            mounted.save(image)?;
            black_box(&journal);
            Ok(())
        }
        ["export", edition, image, path] => {
            let volume = open(edition, image)?;
            let mut left_out = 0;
            print(|output| {
                left_out = volume.export(path, output)?;
                Ok(())
            })?;
            volume.judge()?;
            match left_out {
                0 => Ok(()),
                _ => Err(format!("{left_out} entries are left out").into()),
            }
        }
        ["icheck", edition, image, _workers] => {
            let volume = open(edition, image)?;
            print(|output| volume.check_blocks(output).map(drop))
        }
        ["dcheck", edition, image, _workers] => {
            let volume = open(edition, image)?;
            print(|output| volume.check_links(output).map(drop))
        }
        ["ncheck", edition, image, _workers] => {
            let volume = open(edition, image)?;
            print(|output| volume.check_names(output).map(drop))
        }
        ["salvage", edition, image] => {
            let mut volume = open(edition, image)?;
            volume.salvage()?;
            save(&volume, image)
        }
        ["migrate", old, new, blocks, list_blocks, now] => {
            let old = open("6", old)?;
            old.judge()?;
            save(
                &old.migrated(blocks.parse()?, list_blocks.parse()?, now.parse()?)?,
                new,
            )
        }
        ["play", edition, image, ref scripts @ ..] => {
            let volume = open(edition, image)?;
            let scripts = scripts.iter().map(fs::read_to_string);
            let scripts = scripts.collect::<Result<Vec<String>, _>>()?;
            let mut played = None;
            print(|output| {
                played = Some(playing::play(volume, &scripts, output)?);
                Ok(())
            })?;
            played.map_or(Ok(()), |volume| save(&volume, image))
        }
        ["deep", edition, image, blocks, list_blocks, count] => {
            let mut volume = make(edition, [blocks, list_blocks, "0", "0", "0"])?;
            volume.make_deep(count.parse()?)?;
            save(&volume, image)
        }
        ["names", edition, image, blocks, list_blocks, count] => {
            let mut volume = make(edition, [blocks, list_blocks, "0", "0", "0"])?;
            volume.make_names(count.parse()?)?;
            save(&volume, image)
        }
        ["script", folder, calls, answers] => {
            print(|output| samples::write_script(folder, calls.parse()?, answers == "half", output))
        }
        ["archive", directories, files, size] => print(|output| {
            samples::write_archive(directories.parse()?, files.parse()?, size.parse()?, output)
        }),
        ["sample", edition, image, blocks, list_blocks, size] => {
            let mut volume = make(edition, [blocks, list_blocks, "0", "0", "0"])?;
            volume.put_file(size.parse()?)?;
            save(&volume, image)
        }
        ["fill", edition, image, blocks, list_blocks, files] => {
            let mut volume = make(edition, [blocks, list_blocks, "0", "0", "0"])?;
            volume.fill(files.parse()?)?;
            save(&volume, image)
        }
        ["sparse", edition, image, blocks, list_blocks, count] => {
            let mut volume = make(edition, [blocks, list_blocks, "0", "0", "0"])?;
            volume.make_sparse(count.parse()?)?;
            save(&volume, image)
        }
        ["hostile", edition, image, blocks, list_blocks, pattern] => {
            let edition = Edition::named(edition)?;
            let volume = Volume::hostile(pattern, edition, blocks.parse()?, list_blocks.parse()?)?;
            save(&volume, image)
        }
        ["calls", directories, names, job, ref rest @ ..] => {
            let session =
                Session::with_calls(directories.parse()?, names.parse()?, job == "write")?;
            black_box((&session.base, &session.journal));
            print(|output| {
                if rest.is_empty() {
                    writeln!(output, "{} calls", session.journal.len())?;
                } else {
                    output.write_all(&session.volume.bytes)?;
                }
                Ok(())
            })
        }
        _ => Err("plain COMMAND WORD.., see bench/plain/main.rs".into()),
    }
}

fn main() -> ExitCode {
    let words: Vec<String> = env::args().skip(1).collect();
    match run(&words) {
        Ok(()) => ExitCode::SUCCESS,
        Err(error) => {
            eprintln!("plain: {error}");
            ExitCode::FAILURE
        }
    }
}
