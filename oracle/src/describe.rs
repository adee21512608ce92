//! Lists in words, a line for each record.

use crate::answer::Answer;
use crate::job::{self, Job};
use crate::list::Record;

/// How much of a line is shown.
const SHOWN: usize = 48;

/// Counts of records by the number of their refusal, 0 for accepted ones.
#[derive(Default)]
pub struct Totals {
    counts: [usize; 9],
    job_bytes: usize,
    object_bytes: usize,
}

impl Totals {
    pub fn add(&mut self, record: &Record) {
        let number = match &record.answer {
            Answer::Object(object) => {
                self.object_bytes += object.len();
                0
            }
            Answer::Refused(refusal) => refusal.number as usize,
        };
        self.job_bytes += record.job.len();
        if let Some(count) = self.counts.get_mut(number) {
            *count += 1;
        }
    }

    pub fn lines(&self) -> String {
        let all: usize = self.counts.iter().sum();
        let mut text = format!("{all} records: {} accepted", self.counts[0]);
        for (number, count) in self.counts.iter().enumerate().skip(1) {
            if *count > 0 {
                text += &format!(", {count} refused {number}");
            }
        }
        text + &format!("\n{} bytes of jobs, {} bytes of objects\n", self.job_bytes, self.object_bytes)
    }
}

pub fn line(nth: usize, record: &Record) -> String {
    let length = record.job.len();
    match &record.answer {
        Answer::Object(object) => {
            format!(
                "{nth}: accepted, job {length}, object {}: {}\n",
                object.len(),
                contents(&job::read(&record.job).job)
            )
        }
        Answer::Refused(refusal) => format!(
            "{nth}: refused {} line {}, job {length}: {}\n",
            refusal.number,
            refusal.line,
            faulty_line(&record.job, refusal.line)
        ),
    }
}

fn contents(job: &Job) -> String {
    let licence = match &job.licence {
        None => "no licence frame".to_string(),
        Some(licence) => format!("licence of {}", licence.len()),
    };
    let code: usize = job.programs.iter().map(|program| program.compiled.code.len()).sum();
    let (maps, programs, relocations) = (job.maps.len(), job.programs.len(), job::relocations(job));
    format!("{licence}, maps {maps}, programs {programs}, relocations {relocations}, code {code}")
}

/// The beginning of the line that a refusal names, or a word where it names none.
fn faulty_line(job: &[u8], line: u32) -> String {
    let Some(nth) = (line as usize).checked_sub(1) else { return "no line".to_string() };
    let text = job.split(|&character| character == b'\n').nth(nth).unwrap_or_default();
    let shown = &text[..text.len().min(SHOWN)];
    let more = if shown.len() < text.len() { ".." } else { "" };
    format!("\"{}\"{more}", shown.escape_ascii())
}
