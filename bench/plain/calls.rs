//! Many calls on one new volume, as `library_runs calls` makes them, with a journal of them.

use crate::volume::{Edition, Volume};
use crate::Outcome;

/// A call that was made; nothing reads it again.
#[allow(dead_code)]
pub struct Call {
    pub path: String,
    pub now: usize,
    pub body: Vec<u8>,
}

/// A volume, a copy of it when it was made, and the calls since.
pub struct Session {
    pub volume: Volume,
    pub base: Vec<u8>,
    pub journal: Vec<Call>,
}

impl Session {
    fn new() -> Outcome<Session> {
        let volume = Volume::make(Edition::V7, 16_000, 1_300, 0, 0, 0)?;
        volume.judge()?;
        let base = volume.bytes.clone();
        Ok(Session {
            volume,
            base,
            journal: Vec::new(),
        })
    }

    /// Makes directories, and files in each, and writes a byte into each file, if that is asked for.
    pub fn with_calls(directories: usize, names: usize, writes: bool) -> Outcome<Session> {
        let mut session = Session::new()?;
        for d in 0..directories {
            let path = format!("/d{d}");
            session.volume.mkdir(&path, 1)?;
            session.note(path, 1, Vec::new());
            for n in 0..names {
                let path = format!("/d{d}/f{n}");
                session.volume.create(&path, 2)?;
                session.note(path, 2, Vec::new());
            }
        }
        if writes {
            for d in 0..directories {
                for n in 0..names {
                    let path = format!("/d{d}/f{n}");
                    let body = b"x".to_vec();
                    session.volume.write_at(&path, &body, 3)?;
                    session.note(path, 3, body);
                }
            }
        }
        Ok(session)
    }

    fn note(&mut self, path: String, now: usize, body: Vec<u8>) {
        self.journal.push(Call { path, now, body });
    }
}
