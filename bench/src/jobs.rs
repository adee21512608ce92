//! The jobs that are measured, in the hexadecimal form of document 01.

/// A job and the row's name.
pub struct Row {
    pub name: String,
    pub job: Vec<u8>,
}

fn row(name: impl Into<String>, frames: &[Vec<u8>]) -> Row {
    let mut job = Vec::new();
    for frame in frames {
        for byte in frame {
            job.extend_from_slice(format!("{byte:02x}").as_bytes());
        }
        job.push(b'\n');
    }
    Row { name: name.into(), job }
}

/// A hash map with every attribute: a 32-bit key, a 64-bit value and 1,024 entries.
fn map(name: &str) -> Vec<u8> {
    let mut frame = vec![0x02, 1, 7, 1, 2];
    frame.extend_from_slice(&1024u32.to_le_bytes());
    frame.extend_from_slice(name.as_bytes());
    frame
}

fn program(section: &str, symbol: &str) -> Vec<u8> {
    let mut frame = vec![0x03, section.len() as u8];
    frame.extend_from_slice(section.as_bytes());
    frame.extend_from_slice(symbol.as_bytes());
    frame
}

fn code(bytes: &[u8]) -> Vec<u8> {
    let mut frame = vec![0x04];
    frame.extend_from_slice(bytes);
    frame
}

fn relocation(offset: u64, map: &str) -> Vec<u8> {
    let mut frame = vec![0x05];
    frame.extend_from_slice(&offset.to_le_bytes());
    frame.extend_from_slice(map.as_bytes());
    frame
}

/// The sixteen bytes that load a map.
const LOAD: [u8; 16] = [0x18, 1, 0, 0, 0, 0, 0, 0, 0, 0, 0, 0, 0, 0, 0, 0];

/// A name of 61 bytes that all such names begin with, and the number in three.
fn long_name(n: usize) -> String {
    format!("{}{n:03}", "ring_".repeat(13).get(..61).unwrap_or_default())
}

fn filler(length: usize) -> Vec<u8> {
    (0..length).map(|n| (n * 37 % 251) as u8).collect()
}

pub fn maps(count: usize) -> Row {
    let frames: Vec<Vec<u8>> = (0..count).map(|n| map(&long_name(n))).collect();
    row(format!("{count} maps with names of 64 bytes"), &frames)
}

pub fn relocations(programs: usize, each: usize) -> Row {
    let mut frames: Vec<Vec<u8>> = (0..8).map(|n| map(&format!("map_{n}"))).collect();
    for n in 0..programs {
        frames.push(program("xdp", &format!("program_{n}")));
        for k in 0..each {
            frames.push(code(&LOAD));
            frames.push(relocation(16 * k as u64, &format!("map_{}", k % 8)));
        }
    }
    row(format!("{programs} programs with {} relocations", programs * each), &frames)
}

pub fn one_frame(length: usize) -> Row {
    row(format!("{length} bytes of code in one frame"), &[program("xdp", "p"), code(&filler(length))])
}

pub fn byte_frames(length: usize) -> Row {
    let mut frames = vec![program("xdp", "p")];
    frames.extend(filler(length).chunks(1).map(code));
    row(format!("{length} bytes of code in frames of one byte"), &frames)
}

/// The rows of the table.
pub fn table() -> Vec<Row> {
    vec![
        row("the empty job", &[]),
        row("one map and one program", &[map("hits"), program("xdp", "p"), code(&LOAD), relocation(0, "hits")]),
        maps(64),
        relocations(32, 8),
        one_frame(32_750),
        one_frame(13_000),
        byte_frames(13_000),
    ]
}

/// Jobs of one kind that grow.
pub fn growth() -> Vec<Row> {
    let mut rows: Vec<Row> = [1, 2, 4, 8, 16, 32, 64].into_iter().map(maps).collect();
    rows.extend([1, 2, 4, 8, 16, 32].into_iter().map(|n| relocations(n, 8)));
    rows.extend([1_000, 2_000, 4_000, 8_000, 16_000, 32_000].into_iter().map(one_frame));
    rows.extend([1_500, 3_000, 6_000, 12_000].into_iter().map(byte_frames));
    rows
}
