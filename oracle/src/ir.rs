//! The original's `ir`: its program.rs as it stands, and the least that program.rs and insn.rs name besides.

use std::collections::HashMap;

use crate::ast::{Event, Unit};

mod program {
    include!(concat!(env!("OUT_DIR"), "/program.rs"));
}

pub use program::ProgramIr;

#[derive(Debug)]
pub struct LoweringError;

/// A lowered unit, of which `add_license` reads the licence.
#[derive(Debug, Clone)]
pub struct UnitIr {
    pub license: String,
}

impl UnitIr {
    /// The front end is left out: the driver makes its units itself.
    pub fn lower(
        _unit: &Unit,
        _event_sizes: &HashMap<String, u64>,
        _event_decls: &HashMap<String, Event>,
    ) -> Result<Self, LoweringError> {
        Err(LoweringError)
    }
}

pub enum BinaryOp {
    Add,
    Sub,
    Mul,
    Div,
    Shl,
    Shr,
    Mod,
}
