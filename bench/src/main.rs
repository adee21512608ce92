//! Measures the proved writer beside the original Rust, in one process, on the same jobs. Each is given the job's text and has the object
//! in memory at the end; no file is written. A row whose two objects differ stops the run.
//!
//!     bench              the table, and how the cost grows
//!     bench only N       runs row N of the table by the proved writer alone, many times, for a profiler

mod jobs;

use std::env;
use std::hint::black_box;
use std::process::exit;
use std::time::{Duration, Instant};

use jobs::Row;
use oracle::answer::{answer, Answer};
use oracle::original::Scratch;

extern "C" {
    fn coinwhistle_make(job: *const u8, job_len: usize, out: *mut u8, out_len: usize, line: *mut usize, len: *mut usize) -> u32;
}

/// The proved writer's answer: the object's length, or none for a refusal.
fn proved(job: &[u8], out: &mut [u8]) -> Option<usize> {
    let (mut line, mut len) = (0, 0);
    // SAFETY: both slices are whole and apart, and the two numbers are this function's own.
    let number = unsafe { coinwhistle_make(job.as_ptr(), job.len(), out.as_mut_ptr(), out.len(), &mut line, &mut len) };
    (number == 0).then_some(len)
}

fn original(job: &[u8], scratch: &Scratch) -> Option<Vec<u8>> {
    match answer(job, scratch) {
        Ok(Answer::Object(object)) => Some(object),
        _ => None,
    }
}

/// The best of many rounds, in nanoseconds for one run.
fn best(mut run: impl FnMut()) -> f64 {
    let mut runs = 1u32;
    loop {
        let began = Instant::now();
        (0..runs).for_each(|_| run());
        if began.elapsed() > Duration::from_millis(5) {
            break;
        }
        runs *= 2;
    }
    let rounds = (0..30).map(|_| {
        let began = Instant::now();
        (0..runs).for_each(|_| run());
        began.elapsed().as_nanos() as f64 / f64::from(runs)
    });
    rounds.fold(f64::INFINITY, f64::min)
}

fn measure(row: &Row, out: &mut [u8], scratch: &Scratch) -> (f64, f64) {
    let ours = proved(&row.job, out).map(|len| out[..len].to_vec());
    if ours.is_none() || ours != original(&row.job, scratch) {
        eprintln!("bench: the objects of '{}' differ, or there is none", row.name);
        exit(1);
    }
    let mine = best(|| {
        black_box(proved(black_box(&row.job), out));
    });
    let theirs = best(|| {
        black_box(original(black_box(&row.job), scratch));
    });
    (mine, theirs)
}

fn show(rows: &[Row], out: &mut [u8], scratch: &Scratch) {
    println!("| job | bytes | proved, ns | Rust, ns | Rust / proved |");
    println!("|---|---|---|---|---|");
    for row in rows {
        let (mine, theirs) = measure(row, out, scratch);
        println!("| {} | {} | {mine:.0} | {theirs:.0} | {:.2} |", row.name, row.job.len(), theirs / mine);
    }
}

fn main() {
    let scratch = Scratch::new().unwrap_or_else(|error| {
        eprintln!("bench: no scratch folder can be made: {error}");
        exit(1)
    });
    let mut out = vec![0; 65_536];
    let words: Vec<String> = env::args().skip(1).collect();
    if let [only, n] = &words[..] {
        let rows = jobs::table();
        let Some(row) = n.parse().ok().and_then(|n: usize| rows.get(n)).filter(|_| only == "only") else {
            eprintln!("usage: bench [only N]");
            exit(2)
        };
        (0..1000).for_each(|_| {
            black_box(proved(black_box(&row.job), &mut out));
        });
        return;
    }
    show(&jobs::table(), &mut out, &scratch);
    println!();
    show(&jobs::growth(), &mut out, &scratch);
}
