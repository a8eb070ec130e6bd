//! Scripts of calls, with one thread each, on one volume behind a lock, with a journal and receipts. It reads the
//! lines that the benchmark's scripts have: create, mkdir, write at offset 0 into an empty file, unlink and stat, all
//! as user 0.

use crate::volume::{Kind, Volume};
use crate::Outcome;
use std::io::Write;
use std::sync::Mutex;
use std::thread;

/// The command of a line.
#[derive(Clone, PartialEq)]
enum Asked {
    Create(String),
    Mkdir(String),
    Write(String, Vec<u8>),
    Unlink(String),
    Stat(String),
}

/// A line of a script.
#[derive(Clone, PartialEq)]
struct Step {
    now: usize,
    asked: Asked,
}

/// The result of a line: a number, the words of a stat, or a refusal.
#[derive(Clone, PartialEq)]
enum Answer {
    Done(usize),
    Told(String),
    Refused(String),
}

/// The result of a line, and the number of records in the journal.
struct Receipt {
    at: usize,
    answer: Answer,
}

/// A volume and the calls that it accepted.
struct Shared {
    volume: Volume,
    journal: Vec<Step>,
}

impl Step {
    fn read(line: &str) -> Outcome<Step> {
        let words: Vec<&str> = line.split(' ').collect();
        let [now, "0", "0", ref rest @ ..] = words[..] else {
            return Err("the line can't be read".into());
        };
        let asked = match *rest {
            ["create", path, "644"] => Asked::Create(path.into()),
            ["mkdir", path, "755"] => Asked::Mkdir(path.into()),
            ["write", path, "0", hex] => Asked::Write(path.into(), bytes(hex)?),
            ["unlink", path] => Asked::Unlink(path.into()),
            ["stat", path] => Asked::Stat(path.into()),
            _ => return Err("the line can't be read".into()),
        };
        Ok(Step {
            now: now.parse()?,
            asked,
        })
    }

    fn is_call(&self) -> bool {
        !matches!(self.asked, Asked::Stat(_))
    }
}

/// Returns the bytes of hexadecimal digits.
fn bytes(hex: &str) -> Outcome<Vec<u8>> {
    let digit = |byte: u8| char::from(byte).to_digit(16).ok_or("no digit");
    let pairs = hex.as_bytes().chunks_exact(2);
    Ok(pairs
        .map(|pair| Ok((digit(pair[0])? * 16 + digit(pair[1])?) as u8))
        .collect::<Result<Vec<u8>, &str>>()?)
}

impl Volume {
    /// Runs a step; a refused one changes nothing.
    fn step(&mut self, step: &Step) -> Outcome<Answer> {
        let now = step.now;
        Ok(match &step.asked {
            Asked::Create(path) => Answer::Done(self.create(path, now)?),
            Asked::Mkdir(path) => Answer::Done(self.mkdir(path, now)?),
            Asked::Write(path, body) => {
                self.write_at(path, body, now)?;
                Answer::Done(body.len())
            }
            Asked::Unlink(path) => {
                self.unlink(path, now)?;
                Answer::Done(0)
            }
            Asked::Stat(path) => Answer::Told(self.stat(path)?),
        })
    }

    fn answer(&mut self, step: &Step) -> Answer {
        match self.step(step) {
            Ok(answer) => answer,
            Err(refusal) => Answer::Refused(refusal.to_string()),
        }
    }

    fn stat(&self, path: &str) -> Outcome<String> {
        let ino = self.find_path(path)?;
        let kind = match self.kind(ino) {
            Kind::Regular => "file",
            Kind::Directory => "dir",
            _ => "special",
        };
        let mode = self.permissions(ino);
        let (links, size) = (self.links(ino), self.size(ino));
        Ok(format!("stat {ino} {kind} {mode:04o} {links} 0 0 {size}"))
    }
}

impl Shared {
    fn take(&mut self, step: &Step) -> Receipt {
        let at = self.journal.len();
        let answer = self.volume.answer(step);
        if step.is_call() && matches!(answer, Answer::Done(_)) {
            self.journal.push(step.clone());
        }
        Receipt { at, answer }
    }

    /// Counts the receipts that agree with the journal, replayed from the original volume.
    fn confirmed(&self, mut base: Volume, scripts: &[(Vec<Step>, Vec<Receipt>)]) -> usize {
        let mut receipts: Vec<(&Step, &Receipt)> = scripts
            .iter()
            .flat_map(|(steps, receipts)| steps.iter().zip(receipts))
            .collect();
        receipts.sort_by_key(|(_, receipt)| receipt.at);
        let mut made = 0;
        let mut confirmed = 0;
        for (step, receipt) in receipts {
            if step.is_call() && matches!(receipt.answer, Answer::Done(_)) {
                confirmed += usize::from(self.journal.get(receipt.at) == Some(step));
                continue;
            }
            while made < receipt.at {
                base.answer(&self.journal[made]);
                made += 1;
            }
            confirmed += usize::from(base.answer(step) == receipt.answer);
        }
        confirmed
    }
}

/// Plays scripts on a sound volume, writes the result of each line, and returns the volume.
pub fn play(volume: Volume, scripts: &[String], output: &mut impl Write) -> Outcome<Volume> {
    let mut played = Vec::new();
    for script in scripts {
        let steps = script
            .lines()
            .map(Step::read)
            .collect::<Outcome<Vec<Step>>>()?;
        played.push((steps, Vec::new()));
    }
    volume.judge()?;
    let base = Volume::open(volume.edition, volume.bytes.clone())?;
    let shared = Mutex::new(Shared {
        volume,
        journal: Vec::new(),
    });
    thread::scope(|threads| {
        for (steps, receipts) in &mut played {
            let shared = &shared;
            threads.spawn(move || {
                for step in steps.iter() {
                    let asked = step.clone();
                    let mut held = shared.lock().unwrap_or_else(|error| error.into_inner());
                    receipts.push(held.take(&asked));
                }
            });
        }
    });
    let shared = shared
        .into_inner()
        .unwrap_or_else(|error| error.into_inner());
    for (script, (_, receipts)) in played.iter().enumerate() {
        for (line, receipt) in receipts.iter().enumerate() {
            write!(output, "{}.{} ", script + 1, line + 1)?;
            match &receipt.answer {
                Answer::Done(number) => writeln!(output, "ok {number}")?,
                Answer::Told(words) | Answer::Refused(words) => writeln!(output, "{words}")?,
            }
        }
    }
    let confirmed = shared.confirmed(base, &played);
    writeln!(
        output,
        "records {}\nconfirmed {confirmed}",
        shared.journal.len()
    )?;
    Ok(shared.volume)
}
