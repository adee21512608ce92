//! The commands of the driver. README.md says what each of them is for.

use std::env;
use std::io::{self, BufReader, BufWriter, Read, Write};
use std::process::ExitCode;

use oracle::answer::{answer, Answer};
use oracle::describe::{self, Totals};
use oracle::generate::{record, stored, Case, Generator};
use oracle::list::{self, Record};
use oracle::original::Scratch;

const USAGE: &str = "usage: oracle make < job > object
       oracle batch < list > list
       oracle generate SEED COUNT > list
       oracle stored > list
       oracle describe < list";

fn main() -> ExitCode {
    let arguments: Vec<String> = env::args().skip(1).collect();
    let words: Vec<&str> = arguments.iter().map(String::as_str).collect();
    let outcome = match words[..] {
        ["make"] => make(),
        ["batch"] => batch(),
        ["generate", seed, count] => generate(seed, count),
        ["stored"] => write_cases(stored::cases()),
        ["describe"] => describe(),
        _ => Err(USAGE.to_string()),
    };
    match outcome {
        Ok(()) => ExitCode::SUCCESS,
        Err(words) => {
            eprintln!("oracle: {words}");
            ExitCode::FAILURE
        }
    }
}

/// One job to its object, or to the line that the program `make` writes for a refusal.
fn make() -> Result<(), String> {
    let mut job = Vec::new();
    io::stdin().lock().read_to_end(&mut job).map_err(in_words)?;
    let bytes = match answer(&job, &scratch()?)? {
        Answer::Object(object) => object,
        Answer::Refused(refusal) => format!("refused {} line {}\n", refusal.number, refusal.line).into_bytes(),
    };
    io::stdout().lock().write_all(&bytes).map_err(in_words)
}

/// Answers every job of a list. What the list says of them is not looked at.
fn batch() -> Result<(), String> {
    let scratch = scratch()?;
    let mut from = BufReader::new(io::stdin().lock());
    let mut to = BufWriter::new(io::stdout().lock());
    while let Some(Record { job, .. }) = list::read(&mut from).map_err(in_words)? {
        let answer = answer(&job, &scratch)?;
        list::write(&mut to, &Record { job, answer }).map_err(in_words)?;
    }
    to.flush().map_err(in_words)
}

fn generate(seed: &str, count: &str) -> Result<(), String> {
    let seed = seed.parse().map_err(|_| format!("{seed} is no seed: a number is wanted"))?;
    let count: usize = count.parse().map_err(|_| format!("{count} is no count"))?;
    let mut generator = Generator::new(seed);
    write_cases((0..count).map(|_| generator.case()))
}

fn write_cases(cases: impl IntoIterator<Item = Case>) -> Result<(), String> {
    let scratch = scratch()?;
    let mut to = BufWriter::new(io::stdout().lock());
    for case in cases {
        list::write(&mut to, &record(case, &scratch)?).map_err(in_words)?;
    }
    to.flush().map_err(in_words)
}

fn describe() -> Result<(), String> {
    let mut from = BufReader::new(io::stdin().lock());
    let mut to = BufWriter::new(io::stdout().lock());
    let mut totals = Totals::default();
    let mut nth = 0;
    while let Some(record) = list::read(&mut from).map_err(in_words)? {
        nth += 1;
        totals.add(&record);
        to.write_all(describe::line(nth, &record).as_bytes()).map_err(in_words)?;
    }
    to.write_all(totals.lines().as_bytes()).map_err(in_words)?;
    to.flush().map_err(in_words)
}

fn scratch() -> Result<Scratch, String> {
    Scratch::new().map_err(|error| format!("no scratch folder can be made: {error}"))
}

fn in_words(error: io::Error) -> String {
    error.to_string()
}
