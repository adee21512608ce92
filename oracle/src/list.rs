//! The form in which jobs and their answers are kept.
//!
//! A list is a row of records and nothing else. A record is a header of four numbers, each of four bytes with the lowest
//! first: the length of the job, the number of the refusal (0 where the job is accepted), its line, and the length of the
//! object (0 where the job is refused). The job's bytes follow, then the object's.

use std::io::{self, Read, Write};

use crate::answer::Answer;
use crate::job::Refusal;

const HEADER: usize = 16;

pub struct Record {
    pub job: Vec<u8>,
    pub answer: Answer,
}

/// The next record, or none at the end of the list.
pub fn read(from: &mut impl Read) -> io::Result<Option<Record>> {
    let mut header = [0; HEADER];
    if !fill_or_end(from, &mut header)? {
        return Ok(None);
    }
    let number = |at: usize| u32::from_le_bytes([header[at], header[at + 1], header[at + 2], header[at + 3]]);
    let job = bytes(from, number(0))?;
    let object = bytes(from, number(12))?;
    let answer = match number(4) {
        0 => Answer::Object(object),
        refusal => Answer::Refused(Refusal { number: refusal, line: number(8) }),
    };
    Ok(Some(Record { job, answer }))
}

pub fn write(to: &mut impl Write, record: &Record) -> io::Result<()> {
    let (refusal, object): (Refusal, &[u8]) = match &record.answer {
        Answer::Object(object) => (Refusal { number: 0, line: 0 }, object),
        Answer::Refused(refusal) => (*refusal, &[]),
    };
    for number in [length(&record.job)?, refusal.number, refusal.line, length(object)?] {
        to.write_all(&number.to_le_bytes())?;
    }
    to.write_all(&record.job)?;
    to.write_all(object)
}

fn length(bytes: &[u8]) -> io::Result<u32> {
    u32::try_from(bytes.len()).map_err(|_| io::Error::new(io::ErrorKind::InvalidInput, "too long for a record"))
}

/// Reads exactly that many bytes. The buffer grows with what comes, so that a wrong length asks for no memory.
fn bytes(from: &mut impl Read, length: u32) -> io::Result<Vec<u8>> {
    let mut bytes = Vec::new();
    from.take(u64::from(length)).read_to_end(&mut bytes)?;
    if bytes.len() as u64 == u64::from(length) {
        Ok(bytes)
    } else {
        Err(io::Error::new(io::ErrorKind::UnexpectedEof, "the list ends within a record"))
    }
}

/// Fills the buffer, or says that nothing at all was left.
fn fill_or_end(from: &mut impl Read, buffer: &mut [u8]) -> io::Result<bool> {
    let mut filled = 0;
    while filled < buffer.len() {
        match from.read(&mut buffer[filled..])? {
            0 if filled == 0 => return Ok(false),
            0 => return Err(io::Error::new(io::ErrorKind::UnexpectedEof, "the list ends within a header")),
            more => filled += more,
        }
    }
    Ok(true)
}
