//! Jobs whose verdict is known from how they were made: accepted ones, and ones with a fault placed on a known line.
//!
//! The driver's reader has to find the same verdict. Where it does not, one of the two is wrong, and no list is made.

pub mod faults;
pub mod frames;
mod limits;
pub mod random;
pub mod stored;
pub mod texts;
pub mod valid;

use crate::answer::{answer, Answer};
use crate::job::Refusal;
use crate::list::Record;
use crate::original::Scratch;
use faults::{by_chance, Fault, Place};
use frames::{ended, job as text_of, Frame};
use random::Random;
use texts::{text, NAME};

/// A job, with the refusal that it was made for, or none where it was made to be accepted.
pub struct Case {
    pub job: Vec<u8>,
    pub refusal: Option<Refusal>,
}

/// Makes cases one after the other.
pub struct Generator {
    random: Random,
    table: Vec<Fault>,
}

impl Generator {
    pub fn new(seed: u64) -> Self {
        Self { random: Random::new(seed), table: faults::table() }
    }

    /// About half of the cases are accepted.
    pub fn case(&mut self) -> Case {
        if self.random.once_in(2) {
            accepted(&valid::job(&mut self.random))
        } else {
            self.damaged()
        }
    }

    /// The numbers keep the mean short: a job over the limit of length comes once in some hundred.
    fn damaged(&mut self) -> Case {
        match self.random.below(1000) {
            0..=3 => self.too_long(),
            4..=5 => faulty_at_the_limit(&mut self.random),
            6..=159 => unknown_map(&mut self.random),
            _ => {
                let fault = self.fault();
                let frames = fault.place.job_with(&mut self.random);
                let places = fault.place.all_in(&frames);
                let at = self.random.pick(&places);
                let second = self.random.once_in(3).then(|| self.fault().line);
                placed(&fault, &frames, at, second.as_deref())
            }
        }
    }

    fn fault(&mut self) -> Fault {
        if self.random.once_in(2) {
            by_chance(&mut self.random)
        } else {
            // The tables hold more of some numbers than of others, so a number is chosen first.
            let number = self.random.between(2, 6) as u32;
            loop {
                let fault = &self.table[self.random.below(self.table.len())];
                if fault.number == number {
                    return fault.clone();
                }
            }
        }
    }

    /// Refusal 1, whatever else the job holds.
    fn too_long(&mut self) -> Case {
        let mut job = if self.random.once_in(2) {
            text_of(&valid::small(&mut self.random))
        } else {
            let fault = self.fault();
            ended(&[fault.line])
        };
        let filler = self.random.pick(&[&b"04\n"[..], b"\n", b"0", b"0400\n", b"zz\n"]);
        let length = limits::JOB + self.random.pick(&[1, 1, 1, 2, 3, 465, 20_000]);
        while job.len() < length {
            job.extend(filler.iter().take(length - job.len()));
        }
        Case { job, refusal: Some(Refusal { number: 1, line: 0 }) }
    }
}

pub fn accepted(frames: &[Frame]) -> Case {
    Case { job: text_of(frames), refusal: None }
}

/// Places a fault behind the first `at` frames of an accepted job. What follows it makes no difference: the rest of the
/// job, and perhaps another faulty line somewhere in it.
pub fn placed(fault: &Fault, frames: &[Frame], at: usize, second: Option<&[u8]>) -> Case {
    let mut lines: Vec<Vec<u8>> = frames[..at].iter().map(Frame::line).collect();
    let refusal = Some(Refusal { number: fault.number, line: at as u32 + 1 });
    if !fault.ended {
        let mut job = ended(&lines);
        job.extend(&fault.line);
        return Case { job, refusal };
    }
    lines.push(fault.line.clone());
    lines.extend(frames[at..].iter().map(Frame::line));
    if let Some(second) = second {
        let behind = at + 1 + (lines.len() - at - 1) / 2;
        lines.insert(behind, second.to_vec());
    }
    Case { job: ended(&lines), refusal }
}

/// A job of exactly the greatest length whose last line is faulty: not ended, or with a character that is no digit.
fn faulty_at_the_limit(random: &mut Random) -> Case {
    let start = valid::with_program(random);
    let frames = if random.once_in(2) {
        valid::filled_by_short_frames(start, limits::JOB)
    } else {
        valid::filled_by_long_frames(start, limits::JOB)
    };
    let mut job = text_of(&frames);
    let last = job.len() - 1;
    if random.once_in(2) {
        job[last] = b'0';
    } else {
        job[last - 1] = b'g';
    }
    Case { job, refusal: Some(Refusal { number: 2, line: frames.len() as u32 }) }
}

/// Refusal 7: a relocation to a map that no frame of the job declares.
fn unknown_map(random: &mut Random) -> Case {
    let frames = valid::with_program(random);
    let places = Place::Open.all_in(&frames);
    let at = random.pick(&places);
    let declared: Vec<Vec<u8>> = frames
        .iter()
        .filter_map(|frame| match frame {
            Frame::Map { name, .. } => Some(name.clone()),
            _ => None,
        })
        .collect();
    let relocation = Frame::relocation(random.number(), &undeclared(random, &declared));
    let fault = Fault { number: 7, place: Place::Open, line: relocation.line(), ended: true };
    placed(&fault, &frames, at, None)
}

/// A name that is not declared, often one that is nearly declared.
fn undeclared(random: &mut Random, declared: &[Vec<u8>]) -> Vec<u8> {
    loop {
        let name = if declared.is_empty() { Vec::new() } else { random.pick(declared) };
        let other = match random.below(8) {
            0 => Vec::new(),
            1 => written(&name),
            2 => name[..name.len().saturating_sub(1)].to_vec(),
            3 => [&name[..], b"x"].concat(),
            4 => [&name[..], b"\0"].concat(),
            5 => name.to_ascii_uppercase(),
            6 => b"LICENSE".to_vec(),
            _ => text(random, NAME),
        };
        if !declared.contains(&other) && other.len() <= limits::TEXT && std::str::from_utf8(&other).is_ok() {
            return other;
        }
    }
}

/// The name as a symbol table has it.
fn written(name: &[u8]) -> Vec<u8> {
    let plain = |character: char| character.is_ascii_alphanumeric() || character == '_';
    String::from_utf8_lossy(name)
        .chars()
        .map(|character| if plain(character) { character as u8 } else { b'_' })
        .collect()
}

/// The answer to a case, once the reader and the way in which the case was made agree on it.
pub fn record(case: Case, scratch: &Scratch) -> Result<Record, String> {
    let answer = answer(&case.job, scratch).map_err(|words| complaint(&words, &case.job))?;
    let found = match &answer {
        Answer::Object(_) => None,
        Answer::Refused(refusal) => Some(*refusal),
    };
    if found == case.refusal {
        Ok(Record { job: case.job, answer })
    } else {
        let words = format!("the job was made for {}, and the reader finds {}", verdict(case.refusal), verdict(found));
        Err(complaint(&words, &case.job))
    }
}

fn verdict(refusal: Option<Refusal>) -> String {
    match refusal {
        None => "acceptance".to_string(),
        Some(Refusal { number, line }) => format!("refusal {number} on line {line}"),
    }
}

fn complaint(words: &str, job: &[u8]) -> String {
    format!("{words}. The job:\n{}", job.escape_ascii())
}
