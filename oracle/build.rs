//! Brings in the original's sources and sees that they are the recorded ones.
//!
//! They are copied to OUT_DIR, where the module tree includes them. A copy that differs from its source, or a source that
//! differs from the fingerprint in upstream.txt, stops the build: the answers would then be those of another program.

use std::env;
use std::fs;
use std::path::{Path, PathBuf};
use std::process::exit;

/// Where upstream.txt stands, below the package's folder.
const RECORD: &str = "upstream.txt";

/// Names the folder of the sources where they do not lie beside the project.
const VARIABLE: &str = "COINWHISTLE_UPSTREAM";

/// The folder of the sources, relative to the package's folder, where the variable is not set.
const BESIDE: &str = "../../shared/docs/src";

/// The line by which the original names the file system.
const FILE_SYSTEM: &str = "use std::fs;";

/// A line of upstream.txt: a file of the original, and what is known of it.
struct Fingerprint {
    path: String,
    length: usize,
    hash: u64,
}

fn main() {
    println!("cargo:rerun-if-env-changed={VARIABLE}");
    let package = PathBuf::from(required("CARGO_MANIFEST_DIR"));
    let out = PathBuf::from(required("OUT_DIR"));
    let sources = match env::var_os(VARIABLE) {
        Some(folder) => PathBuf::from(folder),
        None => package.join(BESIDE),
    };
    println!("cargo:rerun-if-changed={}", package.join(RECORD).display());
    println!("cargo:rerun-if-changed={}", package.join("build.rs").display());
    for known in fingerprints(&package.join(RECORD)) {
        bring_in(&sources.join(&known.path), &out, &known);
    }
}

/// Copies one file to OUT_DIR and compares source, copy and fingerprint.
fn bring_in(source: &Path, out: &Path, known: &Fingerprint) {
    println!("cargo:rerun-if-changed={}", source.display());
    let bytes = read(source);
    if bytes.len() != known.length || fnv1a(&bytes) != known.hash {
        fail(&format!(
            "{} is not the file that {RECORD} records: it has {} bytes and the hash {:016x}, and {} bytes with the hash {:016x} are recorded",
            source.display(),
            bytes.len(),
            fnv1a(&bytes),
            known.length,
            known.hash
        ));
    }
    let name = source.file_name().unwrap_or_else(|| fail(&format!("{} names no file", known.path)));
    let copy = out.join(name);
    if let Err(error) = fs::write(&copy, &bytes) {
        fail(&format!("{} can't be written: {error}", copy.display()));
    }
    if read(&copy) != bytes {
        fail(&format!("the copy {} differs from its source {}", copy.display(), source.display()));
    }
    if env::var_os("CARGO_FEATURE_MEMORY").is_some() && name == "elf.rs" {
        keep_in_memory(&copy, &bytes);
    }
}

/// For measuring: the copy's `fs` is the driver's own, which keeps the bytes and writes no file. Nothing else is altered.
fn keep_in_memory(copy: &Path, bytes: &[u8]) {
    let text = std::str::from_utf8(bytes).unwrap_or_else(|_| fail("the original's elf.rs is no text"));
    if text.matches(FILE_SYSTEM).count() != 1 {
        fail(&format!("the original's elf.rs does not have the line '{FILE_SYSTEM}' once"));
    }
    let altered = text.replace(FILE_SYSTEM, "use crate::memory as fs;");
    if let Err(error) = fs::write(copy, altered) {
        fail(&format!("{} can't be written: {error}", copy.display()));
    }
}

/// The lines of upstream.txt that are no comment: path, length, hash.
fn fingerprints(record: &Path) -> Vec<Fingerprint> {
    let text = String::from_utf8(read(record)).unwrap_or_else(|_| fail(&format!("{} is no text", record.display())));
    let lines: Vec<&str> = text.lines().filter(|line| !line.is_empty() && !line.starts_with('#')).collect();
    if lines.len() != 4 {
        fail(&format!("{} records {} files, and the original has four", record.display(), lines.len()));
    }
    lines
        .iter()
        .map(|line| {
            fingerprint(line).unwrap_or_else(|| fail(&format!("{RECORD} has a line that can't be read: {line}")))
        })
        .collect()
}

fn fingerprint(line: &str) -> Option<Fingerprint> {
    let mut words = line.split_whitespace();
    let path = words.next()?.to_string();
    let length = words.next()?.parse().ok()?;
    let hash = u64::from_str_radix(words.next()?, 16).ok()?;
    match words.next() {
        None => Some(Fingerprint { path, length, hash }),
        Some(_) => None,
    }
}

/// FNV-1a with 64 bits: enough to notice another version, and a few lines long.
fn fnv1a(bytes: &[u8]) -> u64 {
    bytes.iter().fold(0xcbf2_9ce4_8422_2325, |hash, &byte| (hash ^ u64::from(byte)).wrapping_mul(0x0000_0100_0000_01b3))
}

fn read(path: &Path) -> Vec<u8> {
    fs::read(path).unwrap_or_else(|error| {
        fail(&format!(
            "{} can't be read: {error}. The original's sources are taken from the folder that {VARIABLE} names, or else from {BESIDE} as seen from this package",
            path.display()
        ))
    })
}

fn required(variable: &str) -> String {
    env::var(variable).unwrap_or_else(|_| fail(&format!("cargo did not set {variable}")))
}

fn fail(message: &str) -> ! {
    eprintln!("oracle: {message}");
    exit(1)
}
