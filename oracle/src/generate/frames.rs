//! Frames as the generator makes them, and the job's text that they give.

/// The map types of document 01.
pub const MAP_TYPES: [u8; 5] = [1, 2, 3, 9, 27];

/// The types of keys and values of document 01.
pub const MEMBER_TYPES: [u8; 4] = [1, 2, 3, 4];

#[derive(Clone)]
pub enum Frame {
    Licence(Vec<u8>),
    Map { kind: u8, key: Option<u8>, value: Option<u8>, entries: Option<u32>, name: Vec<u8> },
    Program { section: Vec<u8>, symbol: Vec<u8> },
    Code(Vec<u8>),
    Relocation { offset: u64, name: Vec<u8> },
    Instruction([u8; 9]),
}

impl Frame {
    /// A map with its type alone.
    pub fn bare_map(name: &[u8]) -> Self {
        Frame::Map { kind: 1, key: None, value: None, entries: None, name: name.to_vec() }
    }

    /// A map with all that it may have.
    pub fn full_map(name: &[u8]) -> Self {
        Frame::Map { kind: 1, key: Some(1), value: Some(2), entries: Some(1024), name: name.to_vec() }
    }

    pub fn program(section: &[u8], symbol: &[u8]) -> Self {
        Frame::Program { section: section.to_vec(), symbol: symbol.to_vec() }
    }

    pub fn relocation(offset: u64, name: &[u8]) -> Self {
        Frame::Relocation { offset, name: name.to_vec() }
    }

    /// The frame's bytes, its kind first.
    pub fn bytes(&self) -> Vec<u8> {
        match self {
            Frame::Licence(text) => join(&[&[1], text]),
            Frame::Map { kind, key, value, entries, name } => {
                let presence =
                    u8::from(key.is_some()) + 2 * u8::from(value.is_some()) + 4 * u8::from(entries.is_some());
                let mut bytes = vec![2, *kind, presence];
                bytes.extend(key);
                bytes.extend(value);
                bytes.extend(entries.iter().flat_map(|entries| entries.to_le_bytes()));
                bytes.extend(name);
                bytes
            }
            Frame::Program { section, symbol } => join(&[&[3, section.len() as u8], section, symbol]),
            Frame::Code(code) => join(&[&[4], code]),
            Frame::Relocation { offset, name } => join(&[&[5], &offset.to_le_bytes(), name]),
            Frame::Instruction(fields) => join(&[&[6], fields]),
        }
    }

    /// The frame's line, without the LF that ends it.
    pub fn line(&self) -> Vec<u8> {
        hex(&self.bytes())
    }
}

pub fn join(parts: &[&[u8]]) -> Vec<u8> {
    parts.concat()
}

pub fn hex(bytes: &[u8]) -> Vec<u8> {
    const DIGITS: &[u8; 16] = b"0123456789abcdef";
    bytes.iter().flat_map(|byte| [DIGITS[usize::from(byte >> 4)], DIGITS[usize::from(byte & 15)]]).collect()
}

/// Lines one after the other, each ended by LF.
pub fn ended(lines: &[Vec<u8>]) -> Vec<u8> {
    lines.iter().flat_map(|line| line.iter().copied().chain([b'\n'])).collect()
}

pub fn job(frames: &[Frame]) -> Vec<u8> {
    frames.iter().flat_map(|frame| frame.line().into_iter().chain([b'\n'])).collect()
}
