//! The original's `ast`: its map.rs as it stands, and the least that its program.rs names besides.

mod map {
    include!(concat!(env!("OUT_DIR"), "/map.rs"));
}

pub use map::{MapDecl, MapType, Type};

/// Only its name is looked at.
#[derive(Clone)]
pub struct Event {
    pub name: String,
}

/// A unit before lowering. Nothing here lowers one.
pub struct Unit;

pub struct Program {
    pub maps: Vec<MapDecl>,
    pub events: Vec<Event>,
    pub units: Vec<Unit>,
}
