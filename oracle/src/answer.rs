//! What a job is answered: the refusal by the driver's reader, the object by the original.

use crate::job::{self, Refusal, NO_SUCH_MAP};
use crate::original::Scratch;

/// The output that the program `make` lends.
const ROOM: usize = 65_536;

/// Given when the object is longer than that. No job of document 01 is known to reach it.
const NO_ROOM: u32 = 8;

/// The beginning of the words with which the original refuses a relocation.
const UNKNOWN_MAP: &str = "unknown map referenced by codegen";

#[derive(PartialEq, Eq)]
pub enum Answer {
    Object(Vec<u8>),
    Refused(Refusal),
}

/// An error is a disagreement between the reader and the original, or a scratch file that can't be used.
pub fn answer(text: &[u8], scratch: &Scratch) -> Result<Answer, String> {
    let reading = job::read(text);
    match reading.refusal {
        None => scratch.object(reading.job).map(fitted),
        Some(refusal) if refusal.number == NO_SUCH_MAP => match scratch.object(reading.job) {
            Err(words) if words.starts_with(UNKNOWN_MAP) => Ok(Answer::Refused(refusal)),
            Err(words) => Err(words),
            Ok(_) => Err("the original takes a relocation that the reader refuses with 7".to_string()),
        },
        Some(refusal) => Ok(Answer::Refused(refusal)),
    }
}

fn fitted(object: Vec<u8>) -> Answer {
    if object.len() > ROOM {
        Answer::Refused(Refusal { number: NO_ROOM, line: 0 })
    } else {
        Answer::Object(object)
    }
}
