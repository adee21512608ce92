//! Names and licences: accepted ones of every shape, and byte rows that are no text.

use super::limits;
use super::random::Random;

/// The first and last characters of the rows in RFC 3629's table, and those beside the surrogates.
pub const EDGES: [&[u8]; 9] = [
    b"\x7f",
    b"\xc2\x80",
    b"\xdf\xbf",
    b"\xe0\xa0\x80",
    b"\xed\x9f\xbf",
    b"\xee\x80\x80",
    b"\xef\xbf\xbf",
    b"\xf0\x90\x80\x80",
    b"\xf4\x8f\xbf\xbf",
];

/// Byte rows that are no UTF-8, and that no ASCII character before or behind them mends.
pub const BROKEN: [&[u8]; 36] = [
    // A continuation byte that nothing leads.
    b"\x80",
    b"\xbf",
    b"\xc3\xa9\xa9",
    // Overlong forms: their neighbours are among the edges above.
    b"\xc0\x80",
    b"\xc1\xbf",
    b"\xe0\x80\x80",
    b"\xe0\x9f\xbf",
    b"\xf0\x80\x80\x80",
    b"\xf0\x8f\xbf\xbf",
    // Surrogates.
    b"\xed\xa0\x80",
    b"\xed\xaf\xbf",
    b"\xed\xb0\x80",
    b"\xed\xbf\xbf",
    // Over 10FFFF hex.
    b"\xf4\x90\x80\x80",
    b"\xf5\x80\x80\x80",
    b"\xf7\xbf\xbf\xbf",
    // Bytes that never lead.
    b"\xf8\x88\x80\x80\x80",
    b"\xfc\x84\x80\x80\x80\x80",
    b"\xfe",
    b"\xff",
    // Characters that end too early.
    b"\xc2",
    b"\xdf",
    b"\xe0",
    b"\xe0\xa0",
    b"\xe1\x80",
    b"\xef\xbf",
    b"\xf0",
    b"\xf0\x90",
    b"\xf0\x90\x80",
    b"\xf4\x8f\xbf",
    // Characters in which another one begins.
    b"\xc2A",
    b"\xc2\xc2\x80",
    b"\xe1\x80A",
    b"\xe2\x82\xe2\x82\xac",
    b"\xf1\x80\x80A",
    b"\xf1\x80\xc2\x80",
];

/// Which zero bytes and lengths a text may have.
#[derive(Clone, Copy)]
pub struct Kind {
    least: usize,
    zeros: bool,
}

pub const LICENCE: Kind = Kind { least: 0, zeros: false };
pub const SECTION: Kind = Kind { least: 1, zeros: false };
pub const NAME: Kind = Kind { least: 0, zeros: true };

/// A text that is accepted as `kind`.
pub fn text(random: &mut Random, kind: Kind) -> Vec<u8> {
    match random.below(16) {
        0 if kind.least == 0 => Vec::new(),
        0..=1 => vec![letter(random)],
        2 => digit_first(random),
        3 => b"a_b".to_vec(),
        4 => random.pick(&[&b"a-b"[..], b"a.b", b"a b", b"/", b"a@b[`c{"]).to_vec(),
        5 => up_to(random, kind, 20),
        6 => random.pick(&EDGES).to_vec(),
        7 => exactly(random, kind, limits::TEXT),
        8 => {
            let length = random.pick(&[7, 8, 62, 63, 64]);
            exactly(random, kind, length)
        }
        9 => repeated(random),
        10 if kind.zeros => random.pick(&[&b"\0"[..], b"a\0", b"\0a", b"a\0b", b"a\0\0"]).to_vec(),
        _ => word(random),
    }
}

/// A text of the same shapes that has more than 64 bytes, though not many more.
pub fn long_text(random: &mut Random, kind: Kind) -> Vec<u8> {
    let length = random.pick(&[65, 65, 65, 66, 67, 72, 100]);
    exactly(random, kind, length)
}

/// Makes a text one that is no UTF-8. The place is between two characters, so a stray byte there stays stray.
pub fn break_text(random: &mut Random, text: &[u8]) -> Vec<u8> {
    let places: Vec<usize> = (0..=text.len()).filter(|&at| at == text.len() || text[at] & 0xc0 != 0x80).collect();
    let at = random.pick(&places);
    let (before, behind) = text.split_at(at);
    // A cut character must not be followed by what completes it: what follows begins a character, so it can't.
    [before, random.pick(&BROKEN), behind].concat()
}

fn letter(random: &mut Random) -> u8 {
    random.pick(b"abcxyzABCXYZ_")
}

fn word(random: &mut Random) -> Vec<u8> {
    let length = random.between(1, 10);
    (0..length)
        .map(|at| if at > 0 && random.once_in(4) { random.pick(b"0123456789") } else { letter(random) })
        .collect()
}

fn digit_first(random: &mut Random) -> Vec<u8> {
    let mut text = vec![random.pick(b"0123456789")];
    text.extend(word(random));
    text
}

/// One character again and again, up to 64 bytes as nearly as it goes.
fn repeated(random: &mut Random) -> Vec<u8> {
    let character = random.pick(&EDGES);
    character.repeat(limits::TEXT / character.len())
}

/// Mixed characters, at most `most` bytes.
fn up_to(random: &mut Random, kind: Kind, most: usize) -> Vec<u8> {
    let length = random.between(kind.least.max(1), most);
    exactly(random, kind, length)
}

/// Mixed characters of one to four bytes that fill exactly `length` bytes.
fn exactly(random: &mut Random, kind: Kind, length: usize) -> Vec<u8> {
    let mut text = Vec::new();
    let plain = random.once_in(2);
    while text.len() < length {
        let character = if plain { vec![letter(random)] } else { character(random, kind) };
        if text.len() + character.len() <= length {
            text.extend(character);
        }
    }
    text
}

/// Any character but a zero where `kind` has none.
fn character(random: &mut Random, kind: Kind) -> Vec<u8> {
    match random.below(8) {
        0 => random.pick(&EDGES).to_vec(),
        1 => scalar(random, 0x80, 0x7ff),
        2 => scalar(random, 0x800, 0xd7ff),
        3 => scalar(random, 0xe000, 0xffff),
        4 => scalar(random, 0x1_0000, 0x10_ffff),
        5 => scalar(random, usize::from(!kind.zeros), 0x7f),
        _ => vec![random.pick(b"abyzABYZ0189_")],
    }
}

fn scalar(random: &mut Random, least: usize, most: usize) -> Vec<u8> {
    let point = random.between(least, most) as u32;
    char::from_u32(point).map(|character| character.to_string().into_bytes()).unwrap_or_else(|| b"_".to_vec())
}
