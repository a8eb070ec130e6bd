//! look EDITION IMAGE [DIRECTORY]: lists the names in a directory of a volume with their attributes. Then a thread
//! changes the volume, only in memory, and what differs is listed.

use std::error::Error;
use unixvol::{By, Caller, Look, View, Volume};

fn main() -> Result<(), Box<dyn Error>> {
    let words: Vec<String> = std::env::args().collect();
    let [_, edition, image, rest @ ..] = &words[..] else {
        return Err("usage: look EDITION IMAGE [DIRECTORY]".into());
    };
    let root = Caller::default();
    let mut volume = Volume::open(edition.parse()?, &std::fs::read(image)?)?;
    let before = volume.image()?;
    let directory = rest.first().map_or("/", |it| it);
    for entry in volume.list(root, directory.as_bytes())? {
        let name = String::from_utf8_lossy(&entry.name);
        let name = name.trim_end_matches('\0');
        let node = volume.stat(root, format!("{directory}/{name}").as_bytes())?;
        println!("{:5} {:04o} {:8} {name}", node.inode, node.permissions, node.size);
    }
    let changed = std::thread::spawn(move || {
        volume.create(root, b"/note", 0o644)?;
        volume.write(root, b"/note", 0, b"made in memory\n")?;
        Ok::<_, unixvol::Error>((volume.report(b'i')?, volume.image()?))
    });
    let (report, image) = changed.join().map_err(|_| "the thread ended")??;
    unixvol::judge(edition.parse()?, &image)?;
    let differences = unixvol::compare(edition.parse()?, &before, &image, By::Tree)?;
    print!("{}", String::from_utf8_lossy(&differences.text));
    let view = View { kind: Look::Inode as u8, json: true, ..View::default() };
    let node = unixvol::look(edition.parse()?, &image, &view, b"/note", b"")?;
    print!("{}", String::from_utf8_lossy(&node.text));
    print!("{}", String::from_utf8_lossy(&report));
    Ok(())
}
