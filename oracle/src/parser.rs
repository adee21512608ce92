//! The original's `parser`: a source location, of which the object holds nothing.

#[derive(Debug, Clone, Copy)]
pub struct SourceLoc;
