//! The limits of document 01 once more. The reader has its own: a slip in one of them shows when the two are compared.

pub const JOB: usize = 65_535;
pub const TEXT: usize = 64;
pub const MAPS: usize = 64;
pub const PROGRAMS: usize = 32;
pub const RELOCATIONS: usize = 256;
