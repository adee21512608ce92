//! Faulty lines: each with its number and the places where it has that number, from how it was made.
//!
//! Where a line has more than one fault the number is the lowest. None of this asks the reader.

use super::frames::{hex, Frame, MAP_TYPES, MEMBER_TYPES};
use super::limits;
use super::random::Random;
use super::texts::{break_text, long_text, text, Kind, BROKEN, LICENCE, NAME, SECTION};
use super::valid;

/// The places of a job where a line has the fault that it is made for.
#[derive(Clone, Copy, PartialEq, Eq)]
pub enum Place {
    Anywhere,
    First,
    NotFirst,
    /// Behind a program frame.
    Open,
    /// Before every program frame.
    Closed,
    /// Behind 64 maps and before every program frame.
    MapsFull,
    ProgramsFull,
    RelocationsFull,
}

#[derive(Clone)]
pub struct Fault {
    pub number: u32,
    pub place: Place,
    /// The line's characters.
    pub line: Vec<u8>,
    /// Whether an LF ends the line. Without one it is the last.
    pub ended: bool,
}

/// What stands before a place in a job.
#[derive(Default)]
struct Before {
    lines: usize,
    maps: usize,
    programs: usize,
    relocations: usize,
}

impl Place {
    fn is(self, before: &Before) -> bool {
        match self {
            Place::Anywhere => true,
            Place::First => before.lines == 0,
            Place::NotFirst => before.lines > 0,
            Place::Open => before.programs > 0,
            Place::Closed => before.programs == 0,
            Place::MapsFull => before.programs == 0 && before.maps == limits::MAPS,
            Place::ProgramsFull => before.programs == limits::PROGRAMS,
            Place::RelocationsFull => before.relocations == limits::RELOCATIONS,
        }
    }

    /// The places of this sort in an accepted job: how many of its frames stand before each.
    pub fn all_in(self, frames: &[Frame]) -> Vec<usize> {
        let mut before = Before::default();
        let mut places = Vec::new();
        for at in 0..=frames.len() {
            if self.is(&before) {
                places.push(at);
            }
            before.lines += 1;
            match frames.get(at) {
                Some(Frame::Map { .. }) => before.maps += 1,
                Some(Frame::Program { .. }) => before.programs += 1,
                Some(Frame::Relocation { .. }) => before.relocations += 1,
                _ => {}
            }
        }
        places
    }

    /// An accepted job that has such a place.
    pub fn job_with(self, random: &mut Random) -> Vec<Frame> {
        match self {
            Place::MapsFull => valid::with_maps(random, limits::MAPS),
            Place::ProgramsFull => valid::with_programs(random, limits::PROGRAMS),
            Place::RelocationsFull => valid::with_relocations(random, limits::RELOCATIONS),
            Place::Open | Place::NotFirst => valid::with_program(random),
            Place::Anywhere | Place::First | Place::Closed => valid::small(random),
        }
    }
}

impl Fault {
    fn line(number: u32, place: Place, line: &[u8]) -> Self {
        Fault { number, place, line: line.to_vec(), ended: true }
    }

    fn bytes(number: u32, place: Place, bytes: &[u8]) -> Self {
        Fault::line(number, place, &hex(bytes))
    }

    fn frame(number: u32, place: Place, frame: &Frame) -> Self {
        Fault::line(number, place, &frame.line())
    }

    fn unended(line: &[u8]) -> Self {
        Fault { number: 2, place: Place::Anywhere, line: line.to_vec(), ended: false }
    }
}

/// The five texts that a frame may hold.
#[derive(Clone, Copy, PartialEq, Eq)]
pub enum Holder {
    Licence,
    Section,
    Symbol,
    MapName,
    RelocationName,
}

pub const HOLDERS: [Holder; 5] =
    [Holder::Licence, Holder::Section, Holder::Symbol, Holder::MapName, Holder::RelocationName];

impl Holder {
    fn frame(self, text: &[u8]) -> Frame {
        match self {
            Holder::Licence => Frame::Licence(text.to_vec()),
            Holder::Section => Frame::program(text, b"main"),
            Holder::Symbol => Frame::program(b"xdp", text),
            Holder::MapName => Frame::full_map(text),
            Holder::RelocationName => Frame::relocation(0, text),
        }
    }

    /// Where its frame may stand.
    fn place(self) -> Place {
        match self {
            Holder::Licence => Place::First,
            Holder::Section | Holder::Symbol => Place::Anywhere,
            Holder::MapName => Place::Closed,
            Holder::RelocationName => Place::Open,
        }
    }

    /// Where its frame may not stand, if there is such a place.
    fn wrong_place(self) -> Option<Place> {
        match self {
            Holder::Licence => Some(Place::NotFirst),
            Holder::Section | Holder::Symbol => None,
            Holder::MapName => Some(Place::Open),
            Holder::RelocationName => Some(Place::Closed),
        }
    }

    fn kind(self) -> Kind {
        match self {
            Holder::Licence => LICENCE,
            Holder::Section => SECTION,
            Holder::Symbol | Holder::MapName | Holder::RelocationName => NAME,
        }
    }

    /// A zero byte is refused in a licence and in a section name alone.
    fn refuses_zero(self) -> bool {
        matches!(self, Holder::Licence | Holder::Section)
    }
}

/// Every fault of the fixed tables.
pub fn table() -> Vec<Fault> {
    let mut faults = bad_lines();
    faults.extend(bad_frames());
    faults.extend(misplaced_frames());
    faults.extend(broken_texts(|_, _| true));
    faults.extend(forbidden_texts());
    faults.extend(over_limits());
    faults.extend(several_at_once());
    faults
}

/// Refusal 2: lines that are empty or odd, hold another character, or are not ended.
pub fn bad_lines() -> Vec<Fault> {
    let whole: [&[u8]; 18] = [
        b"",
        b"0",
        b"4",
        b"01a",
        b"04000",
        b"04AB",
        b"0A",
        b"04aB",
        b"040F",
        b"04 00",
        b" 0400",
        b"0400 ",
        b"0400\r",
        b"040\r",
        b"\r",
        b"0x04",
        b"04\xc3\xa9",
        b"04;00",
    ];
    let mut faults: Vec<Fault> = whole.iter().map(|line| Fault::line(2, Place::Anywhere, line)).collect();
    // The characters just outside the digits, at each place of a line.
    for character in *b"/:`g" {
        faults.extend((0..4).map(|at| with_character(character, at)));
    }
    for (nth, character) in b"@AFGz~\t\x0b\0\x1f\x7f\x80\xb0\xff".iter().enumerate() {
        faults.push(with_character(*character, nth % 4));
    }
    let unended: [&[u8]; 10] =
        [b"04", b"0400", b"0", b"01", b"03017870", b"zz", b"07", b"01ff", b"020100", b"06180100000000000000"];
    faults.extend(unended.iter().map(|line| Fault::unended(line)));
    faults
}

fn with_character(character: u8, at: usize) -> Fault {
    let mut line = *b"0400";
    line[at] = character;
    Fault::line(2, Place::Anywhere, &line)
}

/// Refusal 3: unknown kinds, wrong sizes, numbers that are not listed.
pub fn bad_frames() -> Vec<Fault> {
    let mut all: Vec<Vec<u8>> = Vec::new();
    for kind in [0x00, 0x07, 0xff] {
        all.push(vec![kind]);
        all.push(vec![kind, 0x01, 0x00]);
    }
    all.extend([0x08, 0x10, 0x7f, 0x81].map(|kind| vec![kind, b'x']));
    all.extend(bad_map_frames());
    all.extend([vec![3], vec![3, 1], vec![3, 4, b'x', b'd', b'p'], vec![3, 255, b'x'], vec![3, 65]]);
    // A length byte over 64 that runs past its bytes is a wrong size, and nothing else is asked of it.
    all.push([&[3, 65][..], &[b's'; 64]].concat());
    // A relocation with less than its offset, an instruction with other than its nine bytes.
    all.extend((0..8).map(|length| [&[5][..], &[0; 8][..length]].concat()));
    all.extend([0, 1, 2, 3, 8, 10, 18].map(|length| [&[6][..], &[0; 18][..length]].concat()));
    all.iter().map(|bytes| Fault::bytes(3, Place::Anywhere, bytes)).collect()
}

fn bad_map_frames() -> Vec<Vec<u8>> {
    let mut all: Vec<Vec<u8>> = vec![vec![2]];
    all.extend(MAP_TYPES.map(|kind| vec![2, kind]));
    all.extend([0, 4, 5, 8, 10, 26, 28, 255].map(|kind| vec![2, kind, 0, b'm']));
    all.extend([8, 15, 16, 128, 255].map(|presence| vec![2, 1, presence, 1, 1, 1, 0, 0, 0, b'm']));
    all.extend([0, 5, 255].map(|key| vec![2, 1, 1, key, b'm']));
    all.extend([0, 5, 255].map(|value| vec![2, 1, 2, value, b'm']));
    all.extend([0, 5, 255].map(|value| vec![2, 1, 3, 1, value, b'm']));
    all.extend([0, 5, 255].map(|key| vec![2, 1, 3, key, 1, b'm']));
    // A presence byte whose attributes are cut at each point.
    for presence in [1, 2, 3, 4, 7_u8] {
        let members = (presence & 1) + (presence >> 1 & 1);
        let length = usize::from(members + (presence & 4));
        let attributes = [1, 1, 1, 1, 1, 1];
        all.extend((0..length).map(|left| [&[2, 2, presence][..], &attributes[..left]].concat()));
    }
    all
}

/// Refusal 4: frames where they may not stand.
pub fn misplaced_frames() -> Vec<Fault> {
    let mut faults = Vec::new();
    for text in [&b""[..], b"GPL"] {
        faults.push(Fault::frame(4, Place::NotFirst, &Frame::Licence(text.to_vec())));
    }
    faults.push(Fault::frame(4, Place::Open, &Frame::bare_map(b"")));
    faults.push(Fault::frame(4, Place::Open, &Frame::full_map(b"hits")));
    for frame in [
        Frame::Code(Vec::new()),
        Frame::Code(b"\x95\0\0\0\0\0\0\0".to_vec()),
        Frame::Instruction(*b"\x95\0\0\0\0\0\0\0\0"),
        Frame::relocation(0, b""),
        Frame::relocation(8, b"hits"),
    ] {
        faults.push(Fault::frame(4, Place::Closed, &frame));
    }
    faults
}

/// Refusal 5: byte rows that are no UTF-8, in each text, alone and between characters. `wanted` chooses by the row's
/// number and the text's, so that a list may take some of them.
pub fn broken_texts(wanted: impl Fn(usize, usize) -> bool) -> Vec<Fault> {
    let mut faults = Vec::new();
    for (nth, row) in BROKEN.iter().enumerate() {
        for (which, holder) in HOLDERS.iter().enumerate() {
            if wanted(nth, which) {
                let text = match (nth + which) % 3 {
                    0 => row.to_vec(),
                    1 => [b"ab", *row].concat(),
                    _ => [*row, b"z"].concat(),
                };
                faults.push(Fault::frame(5, holder.place(), &holder.frame(&text)));
            }
        }
    }
    faults
}

/// Refusal 5 for texts that are UTF-8: zero bytes, an empty section name, and a character cut in two by the length byte.
pub fn forbidden_texts() -> Vec<Fault> {
    let mut faults = Vec::new();
    for text in [&b"\0"[..], b"GPL\0", b"\0GPL", b"G\0L", b"\xc3\xa9\0"] {
        faults.push(Fault::frame(5, Place::First, &Holder::Licence.frame(text)));
        faults.push(Fault::frame(5, Place::Anywhere, &Holder::Section.frame(text)));
    }
    for symbol in [&b""[..], b"main", b"\xff"] {
        faults.push(Fault::frame(5, Place::Anywhere, &Frame::program(b"", symbol)));
    }
    faults.push(Fault::frame(5, Place::Anywhere, &Frame::program(b"a\xc3", b"\xa9b")));
    faults
}

/// Refusal 6: one more than the limits of counts and lengths.
pub fn over_limits() -> Vec<Fault> {
    let mut faults = Vec::new();
    for holder in HOLDERS {
        let longer = if holder == Holder::Section { 255 } else { 1000 };
        let long = [
            b"n".repeat(65),
            b"n".repeat(longer),
            // Fewer than 64 characters, and more than 64 bytes: bytes are what is counted.
            b"\xc3\xa9".repeat(33),
            [&b"\xf0\x9f\x98\x80".repeat(16)[..], b"n"].concat(),
        ];
        faults.extend(long.iter().map(|text| Fault::frame(6, holder.place(), &holder.frame(text))));
    }
    faults.push(Fault::frame(6, Place::Anywhere, &Frame::program(&b"s".repeat(65), &b"n".repeat(65))));
    faults.push(Fault::frame(6, Place::MapsFull, &Frame::bare_map(b"")));
    faults.push(Fault::frame(6, Place::MapsFull, &Frame::full_map(b"hits")));
    faults.push(Fault::frame(6, Place::ProgramsFull, &Frame::program(b"xdp", b"")));
    faults.push(Fault::frame(6, Place::ProgramsFull, &Frame::program(b"xdp", b"main")));
    // Whether its map is declared makes no difference, since 6 comes before 7.
    faults.push(Fault::frame(6, Place::RelocationsFull, &Frame::relocation(0, b"")));
    faults.push(Fault::frame(6, Place::RelocationsFull, &Frame::relocation(0, b"m")));
    faults
}

/// Lines with more than one fault: the lowest number is theirs.
pub fn several_at_once() -> Vec<Fault> {
    let mut faults = vec![
        Fault::line(2, Place::Anywhere, b"07a"),
        Fault::line(2, Place::Anywhere, b"0G"),
        Fault::line(2, Place::Anywhere, b"ffzz"),
        Fault::line(2, Place::NotFirst, b"0161\r"),
        Fault::line(2, Place::NotFirst, b"014G"),
        Fault::line(2, Place::First, b"01fF"),
        Fault::line(2, Place::First, &[&b"01"[..], &b"4c".repeat(65), b"4"].concat()),
        Fault::line(2, Place::Open, b"0500000000000000006d "),
        Fault::unended(b"ff00"),
        Fault::unended(b"02"),
        Fault::bytes(3, Place::Open, b"\x02\x00\x00m"),
        Fault::bytes(3, Place::Open, b"\x02\x01\x01"),
        Fault::bytes(3, Place::Closed, b"\x06\x95\0\0\0\0\0\0\0"),
        Fault::bytes(3, Place::Closed, b"\x05\0\0\0\0\0\0\0"),
        Fault::bytes(3, Place::Closed, b"\x02\x01\x08\xff"),
        Fault::bytes(3, Place::Anywhere, b"\x03\x05\xff\xff"),
        Fault::bytes(3, Place::Anywhere, b"\x03\xff"),
        Fault::bytes(3, Place::Closed, &[&b"\x02\x04\x00"[..], &b"n".repeat(65)].concat()),
        Fault::bytes(3, Place::MapsFull, b"\x02\x01\x09m"),
        Fault::bytes(3, Place::ProgramsFull, b"\x03\x02x"),
        Fault::bytes(3, Place::RelocationsFull, b"\x05\0"),
        Fault::frame(4, Place::Closed, &Frame::relocation(0, b"no such map")),
    ];
    let long = b"n".repeat(65);
    let long_and_broken = [&b"n".repeat(64)[..], b"\xff"].concat();
    let broken_far_behind = [&b"n".repeat(100)[..], b"\xe2\x82"].concat();
    for holder in HOLDERS {
        if let Some(place) = holder.wrong_place() {
            for text in [&b"\xff"[..], &long, &long_and_broken] {
                faults.push(Fault::frame(4, place, &holder.frame(text)));
            }
        }
        for text in [&long_and_broken, &broken_far_behind] {
            faults.push(Fault::frame(5, holder.place(), &holder.frame(text)));
        }
        if holder.refuses_zero() {
            faults.push(Fault::frame(5, holder.place(), &holder.frame(&[&long[..], b"\0"].concat())));
        }
    }
    faults.extend([
        Fault::frame(5, Place::Anywhere, &Frame::program(b"", &long)),
        Fault::frame(5, Place::Anywhere, &Frame::program(&long, b"\xff")),
        Fault::frame(5, Place::Anywhere, &Frame::program(b"\xff", &long)),
        Fault::frame(5, Place::MapsFull, &Frame::bare_map(b"\xff")),
        Fault::frame(5, Place::ProgramsFull, &Frame::program(b"", b"")),
        Fault::frame(5, Place::RelocationsFull, &Frame::relocation(0, b"\x80")),
        Fault::frame(6, Place::MapsFull, &Frame::bare_map(&long)),
        Fault::frame(6, Place::ProgramsFull, &Frame::program(&long, b"")),
        Fault::frame(6, Place::RelocationsFull, &Frame::relocation(0, &long)),
    ]);
    faults
}

/// A fault made by chance.
pub fn by_chance(random: &mut Random) -> Fault {
    match random.below(6) {
        0 => {
            let frame = any_frame(random);
            spoilt(random, &frame.line())
        }
        1 => {
            let frame = any_frame(random);
            Fault::bytes(3, Place::Anywhere, &misshapen(random, &frame))
        }
        2 => {
            let frame = if random.once_in(2) { valid::code(random) } else { valid::instruction(random) };
            Fault::frame(4, Place::Closed, &frame)
        }
        _ => combined(random),
    }
}

fn any_frame(random: &mut Random) -> Frame {
    match random.below(6) {
        0 => Frame::Licence(text(random, LICENCE)),
        1 => valid::map(random),
        2 => valid::program(random),
        3 => valid::code(random),
        4 => {
            let name = text(random, NAME);
            valid::relocation(random, &[name])
        }
        _ => valid::instruction(random),
    }
}

/// Refusal 2 of a line that was well: a character replaced, lost or added, or no LF behind it.
fn spoilt(random: &mut Random, line: &[u8]) -> Fault {
    let mut line = line.to_vec();
    let at = random.below(line.len());
    match random.below(5) {
        0 => {
            line.remove(at);
        }
        1 => line.insert(at, random.pick(b"0123456789abcdef")),
        2 => return Fault::unended(&line),
        _ => line[at] = no_digit(random),
    }
    Fault::line(2, Place::Anywhere, &line)
}

/// Any byte but a digit and LF.
fn no_digit(random: &mut Random) -> u8 {
    loop {
        let byte = if random.once_in(2) { random.pick(b"/:`gAF \r@G") } else { random.byte() };
        if !matches!(byte, b'0'..=b'9' | b'a'..=b'f' | b'\n') {
            return byte;
        }
    }
}

/// Bytes that are no frame, made from a frame's. A text in them stays where there is room for it.
fn misshapen(random: &mut Random, frame: &Frame) -> Vec<u8> {
    let mut bytes = frame.bytes();
    let other_kind = random.once_in(4);
    match frame {
        Frame::Map { .. } if !other_kind => misshape_map(random, &mut bytes),
        Frame::Program { .. } if !other_kind => {
            let least = bytes.len() - 2 + 1;
            bytes[1] = random.between(least, 255) as u8;
        }
        Frame::Relocation { .. } if !other_kind => bytes.truncate(random.between(1, 8)),
        Frame::Instruction(_) if !other_kind => {
            let length = random.pick(&[1, 2, 4, 8, 9, 11, 12, 17]);
            bytes.resize(length, 0);
        }
        _ => bytes[0] = other_than(random, &[1, 2, 3, 4, 5, 6]),
    }
    bytes
}

fn misshape_map(random: &mut Random, bytes: &mut Vec<u8>) {
    let presence = bytes[2];
    let members = usize::from((presence & 1) + (presence >> 1 & 1));
    let attributes = members + usize::from(presence & 4);
    match random.below(4) {
        0 if members > 0 => bytes[3 + random.below(members)] = other_than(random, &MEMBER_TYPES),
        1 => bytes[2] = random.between(8, 255) as u8,
        2 => bytes.truncate(random.between(1, 2 + attributes)),
        _ => bytes[1] = other_than(random, &MAP_TYPES),
    }
}

fn other_than(random: &mut Random, listed: &[u8]) -> u8 {
    loop {
        let byte = random.byte();
        if !listed.contains(&byte) {
            return byte;
        }
    }
}

/// A frame with a text and any of these faults together: a bad line, a bad frame, a wrong place, a broken text, a long one.
fn combined(random: &mut Random) -> Fault {
    let holder = random.pick(&HOLDERS);
    let spoils = random.once_in(8);
    let misshapes = random.once_in(8);
    let wrong_place = holder.wrong_place().filter(|_| random.once_in(3));
    let breaks = random.once_in(2);
    let long = random.once_in(2) || !(spoils || misshapes || wrong_place.is_some() || breaks);
    let mut text = if long { long_text(random, holder.kind()) } else { text(random, holder.kind()) };
    if breaks {
        text = forbid(random, holder, &text);
    }
    let frame = holder.frame(&text);
    let place = wrong_place.unwrap_or(holder.place());
    let bytes = if misshapes { misshapen(random, &frame) } else { frame.bytes() };
    let faulty = [(misshapes, 3), (wrong_place.is_some(), 4), (breaks, 5), (long, 6)];
    let number = faulty.iter().find(|(holds, _)| *holds).map_or(2, |(_, number)| *number);
    if spoils {
        Fault { place, ..spoilt(random, &hex(&bytes)) }
    } else {
        Fault::bytes(number, place, &bytes)
    }
}

/// Makes a text one that refusal 5 is given for.
fn forbid(random: &mut Random, holder: Holder, text: &[u8]) -> Vec<u8> {
    match random.below(4) {
        0 if holder.refuses_zero() => {
            let mut text = text.to_vec();
            text.insert(random.below(text.len() + 1), 0);
            text
        }
        1 if holder == Holder::Section => Vec::new(),
        _ => break_text(random, text),
    }
}
