//! The original Rust, built unchanged, and a driver that gives it jobs.
//!
//! `ast`, `emit`, `ir`, `parser` and `sema` are the module tree that the original's `use` lines want. `job` reads a job by
//! document 01, `original` hands it to the Rust, `answer` joins the two, `list` is the form in which answers are kept, and
//! `generate` makes jobs whose verdict is known from how they were made.

#[allow(dead_code)]
pub mod ast;
#[allow(dead_code)]
pub mod emit;
#[allow(dead_code)]
pub mod ir;
#[allow(dead_code)]
pub mod parser;
#[allow(dead_code)]
pub mod sema;

pub mod answer;
pub mod describe;
pub mod generate;
pub mod job;
pub mod list;
#[cfg(feature = "memory")]
pub mod memory;
pub mod original;
