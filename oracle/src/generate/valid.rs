//! Accepted jobs of every shape, mostly small, and some at each limit of document 01.

use super::frames::{job as text_of, Frame, MAP_TYPES, MEMBER_TYPES};
use super::limits;
use super::random::Random;
use super::texts::{text, LICENCE, NAME, SECTION};

/// Section names that mean something to a loader or to the object itself.
const SECTIONS: [&[u8]; 10] = [
    b"xdp",
    b"license",
    b".maps",
    b".BTF",
    b".strtab",
    b".shstrtab",
    b".symtab",
    b".relxdp",
    b"tracepoint/syscalls/sys_enter_openat",
    b"tc",
];

const LENGTHS_OF_CODE: [usize; 11] = [0, 1, 7, 8, 8, 8, 9, 15, 16, 16, 24];
const OFFSETS: [u64; 9] = [0, 8, 8, 16, 1, 0xffff_ffff, 0x1_0000_0000, 1 << 63, u64::MAX];
const ENTRIES: [u32; 10] = [0, 1, 2, 255, 256, 1024, 65_536, 0x7fff_ffff, 0x8000_0000, 0xffff_ffff];

/// Any accepted job. The numbers keep the mean short: a job at the limit of length comes once in some hundred.
pub fn job(random: &mut Random) -> Vec<Frame> {
    match random.below(1000) {
        0..=4 => Vec::new(),
        5..=44 => licensed(random),
        45..=144 => vec![map(random)],
        145..=154 => {
            let maps = random.pick(&[62, 63, 64, 64]);
            with_maps(random, maps)
        }
        155..=164 => {
            let programs = random.pick(&[30, 31, 32, 32]);
            with_programs(random, programs)
        }
        165..=169 => {
            let relocations = random.pick(&[254, 255, 256, 256]);
            with_relocations(random, relocations)
        }
        170..=173 => with_long_code(random),
        174..=175 => of_full_length(random),
        176..=219 => with_coinciding_names(random),
        _ => small(random),
    }
}

/// A few maps and programs, or none.
pub fn small(random: &mut Random) -> Vec<Frame> {
    let mut frames = Vec::new();
    if random.once_in(2) {
        frames.push(Frame::Licence(text(random, LICENCE)));
    }
    let count = random.pick(&[0, 0, 1, 1, 2, 3, 4]);
    let names = add_maps(random, count, &mut frames);
    for _ in 0..random.pick(&[0, 1, 1, 2, 3]) {
        frames.push(program(random));
        for _ in 0..random.below(7) {
            frames.push(body(random, &names));
        }
    }
    frames
}

/// A small job that has a program.
pub fn with_program(random: &mut Random) -> Vec<Frame> {
    let mut frames = small(random);
    frames.push(program(random));
    frames
}

/// A licence at an edge of its lengths, and perhaps something behind it.
fn licensed(random: &mut Random) -> Vec<Frame> {
    let length = random.pick(&[0, 1, 7, 8, 63, 64]);
    let mut frames = vec![Frame::Licence(b"x".repeat(length))];
    if random.once_in(2) {
        frames.push(map(random));
    }
    frames
}

/// So many maps, and at times a program that speaks of one.
pub fn with_maps(random: &mut Random, count: usize) -> Vec<Frame> {
    let mut frames = Vec::new();
    let names = add_maps(random, count, &mut frames);
    if random.once_in(2) {
        frames.push(program(random));
        frames.push(relocation(random, &names));
    }
    frames
}

/// So many programs, with little in each.
pub fn with_programs(random: &mut Random, count: usize) -> Vec<Frame> {
    let mut frames = Vec::new();
    let maps = random.below(3);
    let names = add_maps(random, maps, &mut frames);
    for _ in 0..count {
        frames.push(program(random));
        for _ in 0..random.below(3) {
            frames.push(body(random, &names));
        }
    }
    frames
}

/// So many relocations, in one program or spread over several, some of which may have none.
pub fn with_relocations(random: &mut Random, count: usize) -> Vec<Frame> {
    let mut frames = Vec::new();
    let maps = random.between(1, 3);
    let names = add_maps(random, maps, &mut frames);
    let programs = random.pick(&[1, 2, 5, limits::PROGRAMS]);
    frames.push(program(random));
    let mut opened = 1;
    for _ in 0..count {
        while opened < programs && random.once_in(1 + count / programs) {
            frames.push(program(random));
            opened += 1;
        }
        frames.push(relocation(random, &names));
    }
    frames
}

fn with_long_code(random: &mut Random) -> Vec<Frame> {
    let mut frames = with_program(random);
    let length = random.between(1_000, 8_000);
    frames.push(Frame::Code(random.bytes(length)));
    if random.once_in(2) {
        frames.push(program(random));
    }
    frames
}

/// Two maps under one name, raw or only as it is written, with relocations to both.
fn with_coinciding_names(random: &mut Random) -> Vec<Frame> {
    let pairs: [(&[u8], &[u8]); 6] =
        [(b"m", b"m"), (b"a-b", b"a_b"), (b"", b""), (b"", b"_solnix_symbol"), (b"9a", b"_a"), (b"\xc3\xa9", b"_")];
    let (one, other) = random.pick(&pairs);
    let mut frames = vec![named(map(random), one), named(map(random), other), program(random)];
    for _ in 0..random.between(1, 4) {
        let name = if random.once_in(2) { one } else { other };
        frames.push(Frame::relocation(random.pick(&OFFSETS), name));
    }
    frames
}

/// A job of exactly the greatest length, or a little below it.
fn of_full_length(random: &mut Random) -> Vec<Frame> {
    let length = limits::JOB - random.pick(&[0, 0, 0, 1, 2, 3, 5, 100]);
    let start = with_program(random);
    if random.once_in(3) {
        filled_by_short_frames(start, length)
    } else {
        filled_by_long_frames(start, length)
    }
}

/// Adds one or two long code frames to an open program, so that the job's text has exactly `length` bytes.
pub fn filled_by_long_frames(mut frames: Vec<Frame>, length: usize) -> Vec<Frame> {
    let mut left = length - text_of(&frames).len();
    // A code frame's line has an odd length, so an even rest wants two.
    if left % 2 == 0 {
        frames.push(Frame::Code(Vec::new()));
        left -= 3;
    }
    frames.push(Frame::Code((0..(left - 3) / 2).map(|at| at as u8).collect()));
    frames
}

/// The same by empty code frames, of three characters each, and the one or two of five that make it come out.
pub fn filled_by_short_frames(mut frames: Vec<Frame>, length: usize) -> Vec<Frame> {
    let left = length - text_of(&frames).len();
    let fives = left * 2 % 3;
    frames.extend((0..fives).map(|at| Frame::Code(vec![at as u8])));
    frames.extend((0..(left - 5 * fives) / 3).map(|_| Frame::Code(Vec::new())));
    frames
}

/// Maps, programs, relocations and names all at their limits, and code for the rest of the job's length: about the longest
/// object that a job gives. The relocations' map has no name, which keeps their lines short, and each program has a byte of
/// code, which is padded to eight.
pub fn largest() -> Vec<Frame> {
    let mut frames = vec![Frame::Licence(b"L".repeat(limits::TEXT)), Frame::full_map(b"")];
    frames.extend((1..limits::MAPS).map(|at| Frame::full_map(&numbered(b'm', at))));
    for at in 0..limits::PROGRAMS {
        frames.push(Frame::program(&numbered(b's', at), b""));
        frames.push(Frame::Code(vec![0x95]));
        let each = limits::RELOCATIONS / limits::PROGRAMS;
        frames.extend((0..each).map(|nth| Frame::relocation(16 * nth as u64, b"")));
    }
    filled_by_long_frames(frames, limits::JOB)
}

/// A name of 64 bytes that ends in a number of two digits.
pub fn numbered(letter: u8, number: usize) -> Vec<u8> {
    let mut name = vec![letter; limits::TEXT - 2];
    name.extend(format!("{number:02}").bytes());
    name
}

/// Adds maps and gives their names. Now and then a name comes again, or comes again only as it is written.
fn add_maps(random: &mut Random, count: usize, frames: &mut Vec<Frame>) -> Vec<Vec<u8>> {
    let mut names: Vec<Vec<u8>> = Vec::new();
    for _ in 0..count {
        let name = match random.below(12) {
            0 if !names.is_empty() => random.pick(&names),
            1 if !names.is_empty() => alike(&random.pick(&names)),
            _ => text(random, NAME),
        };
        frames.push(named(map(random), &name));
        names.push(name);
    }
    names
}

/// Another name that is written the same, where the name has a character that is replaced or may be.
fn alike(name: &[u8]) -> Vec<u8> {
    name.iter().map(|&byte| if byte == b'_' { b'-' } else { byte }).collect()
}

pub fn map(random: &mut Random) -> Frame {
    let presence = random.below(8);
    Frame::Map {
        kind: random.pick(&MAP_TYPES),
        key: (presence & 1 != 0).then(|| random.pick(&MEMBER_TYPES)),
        value: (presence & 2 != 0).then(|| random.pick(&MEMBER_TYPES)),
        entries: (presence & 4 != 0).then(|| {
            if random.once_in(4) {
                random.number() as u32
            } else {
                random.pick(&ENTRIES)
            }
        }),
        name: text(random, NAME),
    }
}

fn named(frame: Frame, new: &[u8]) -> Frame {
    match frame {
        Frame::Map { kind, key, value, entries, .. } => Frame::Map { kind, key, value, entries, name: new.to_vec() },
        other => other,
    }
}

pub fn program(random: &mut Random) -> Frame {
    let section = if random.once_in(2) { random.pick(&SECTIONS).to_vec() } else { text(random, SECTION) };
    Frame::Program { section, symbol: text(random, NAME) }
}

/// A frame that may stand in a program, where maps of these names are declared.
fn body(random: &mut Random, names: &[Vec<u8>]) -> Frame {
    match random.below(6) {
        0..=1 if !names.is_empty() => relocation(random, names),
        0..=3 => code(random),
        _ => instruction(random),
    }
}

pub fn code(random: &mut Random) -> Frame {
    let length = random.pick(&LENGTHS_OF_CODE);
    Frame::Code(random.bytes(length))
}

/// Any nine bytes: the higher bits of dst and src too, which the original drops.
pub fn instruction(random: &mut Random) -> Frame {
    let mut fields = [0; 9];
    for field in &mut fields {
        *field = random.byte();
    }
    Frame::Instruction(fields)
}

pub fn relocation(random: &mut Random, names: &[Vec<u8>]) -> Frame {
    let offset = if random.once_in(4) { random.number() } else { random.pick(&OFFSETS) };
    Frame::Relocation { offset, name: random.pick(names) }
}
