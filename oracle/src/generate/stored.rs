//! The fixed list of cases whose answers are kept with the project, so that they can be replayed without the original.

use super::faults::{self, Fault, Place};
use super::frames::{ended, Frame, MAP_TYPES, MEMBER_TYPES};
use super::limits;
use super::texts::EDGES;
use super::{accepted, placed, valid, Case, Generator};
use crate::job::Refusal;

/// The generated part: its seed, how many cases it has, and the length of job over which one is passed over.
const SEED: u64 = 1;
const GENERATED: usize = 158;
const MODERATE: usize = 3_000;

/// The map of document 01's examples.
const HITS: &str = "02010701020004000068697473\n";

pub fn cases() -> Vec<Case> {
    let mut cases = document();
    cases.extend(licences());
    cases.extend(maps());
    cases.extend(names());
    cases.extend(sections());
    cases.extend(programs());
    cases.extend(counts());
    cases.extend(refused());
    cases.extend(unknown_maps());
    cases.extend(two_faulty_lines());
    cases.extend(lengths());
    cases.extend(generated());
    cases
}

/// The jobs that document 01 writes out, in its own characters where it gives them.
fn document() -> Vec<Case> {
    let whole = "030378647070\n06180100000000000000\n06000000000000000000\n05000000000000000068697473\n";
    let mut cases: Vec<Case> = [
        "".to_string(),
        "01\n".to_string(),
        "0161626364656667\n".to_string(),
        "016162636465666768\n".to_string(),
        HITS.to_string(),
        format!("{HITS}{whole}"),
        "021b0072\n".to_string(),
        "021b040000000072\n".to_string(),
    ]
    .into_iter()
    .map(|job| Case { job: job.into_bytes(), refusal: None })
    .collect();
    for name in [&b"9a"[..], "é".as_bytes(), b""] {
        cases.push(accepted(&[Frame::bare_map(name)]));
        cases.push(accepted(&[Frame::program(b"xdp", name)]));
    }
    let open = Frame::program(b"xdp", b"p");
    cases.push(accepted(&[Frame::bare_map(b"m"), Frame::full_map(b"m"), open.clone(), Frame::relocation(0, b"m")]));
    cases.push(accepted(&[
        Frame::full_map(b"a-b"),
        Frame::full_map(b"a_b"),
        open,
        Frame::relocation(0, b"a-b"),
        Frame::relocation(16, b"a_b"),
    ]));
    cases.push(Case {
        job: b"03017870\n0500000000000000006d\n".to_vec(),
        refusal: Some(Refusal { number: 7, line: 2 }),
    });
    cases
}

fn licences() -> Vec<Case> {
    let mut texts: Vec<Vec<u8>> = [1, 7, 8, 63, 64].iter().map(|&length| b"L".repeat(length)).collect();
    texts.push(EDGES.concat());
    texts.push("Dual MIT/GPL".into());
    texts.push("é".repeat(32).into_bytes());
    texts.into_iter().map(|text| accepted(&[Frame::Licence(text)])).collect()
}

/// Every map type with every presence, then each number of entries at an edge, then every pair of key and value types.
fn maps() -> Vec<Case> {
    let mut cases: Vec<Case> =
        (0..8).map(|presence| accepted(&MAP_TYPES.map(|kind| map_with(kind, presence)))).collect();
    for entries in [0, 1, 255, 256, 0x7fff_ffff, 0x8000_0000, 0xffff_ffff] {
        let name = b"m".to_vec();
        cases.push(accepted(&[Frame::Map { kind: 2, key: None, value: None, entries: Some(entries), name }]));
    }
    let pairs = MEMBER_TYPES.iter().flat_map(|&key| MEMBER_TYPES.map(|value| (key, value)));
    let all: Vec<Frame> = pairs
        .map(|(key, value)| Frame::Map {
            kind: 2,
            key: Some(key),
            value: Some(value),
            entries: Some(1),
            name: vec![b'm'],
        })
        .collect();
    cases.push(accepted(&all));
    cases
}

fn map_with(kind: u8, presence: usize) -> Frame {
    let member = MEMBER_TYPES[(usize::from(kind) + presence) % 4];
    Frame::Map {
        kind,
        key: (presence & 1 != 0).then_some(member),
        value: (presence & 2 != 0).then_some(5 - member),
        entries: (presence & 4 != 0).then_some(u32::from(kind) - 1),
        name: format!("m{kind}").into_bytes(),
    }
}

/// Names as a map, a symbol and a relocation have them.
fn names() -> Vec<Case> {
    let mut names: Vec<Vec<u8>> = [
        "a",
        "_",
        "Z9",
        "9",
        "a-b",
        "a.b c",
        "aéb",
        "éa",
        "€",
        "😀",
        "1é€😀",
        "\0",
        "a\0b",
        "a\0",
        "@[`{/:",
        "AZaz09_",
        "LICENSE",
        "_solnix_symbol",
    ]
    .iter()
    .map(|name| name.as_bytes().to_vec())
    .collect();
    names.extend(EDGES.iter().map(|edge| edge.to_vec()));
    names.extend([b"n".repeat(63), b"n".repeat(64), b"9".repeat(64)]);
    names.extend(["é".repeat(32), "€".repeat(21) + "a", "😀".repeat(16)].map(String::into_bytes));
    names
        .iter()
        .map(|name| accepted(&[Frame::full_map(name), Frame::program(b"xdp", name), Frame::relocation(8, name)]))
        .collect()
}

fn sections() -> Vec<Case> {
    let mut names: Vec<Vec<u8>> = [
        "x",
        "xdp",
        "license",
        ".maps",
        ".BTF",
        ".strtab",
        ".symtab",
        ".shstrtab",
        ".relxdp",
        "a b",
        "é",
        "€/😀",
        "LICENSE",
    ]
    .iter()
    .map(|name| name.as_bytes().to_vec())
    .collect();
    names.extend([EDGES.concat(), b"s".repeat(63), b"s".repeat(64)]);
    names.extend(["é".repeat(32), "😀".repeat(16)].map(String::into_bytes));
    names
        .iter()
        .map(|name| accepted(&[Frame::full_map(b"m"), Frame::program(name, b"main"), Frame::relocation(0, b"m")]))
        .collect()
}

/// Code of many lengths, in one frame and in several, with and without relocations between.
fn programs() -> Vec<Case> {
    let open = || Frame::program(b"xdp", b"main");
    let code = |length: usize| Frame::Code((0..length).map(|at| at as u8).collect());
    let mut cases = vec![accepted(&[open()]), accepted(&[open(), open()])];
    for length in [0, 1, 7, 8, 9, 16, 255, 256, 1000] {
        cases.push(accepted(&[open(), code(length)]));
    }
    let wide = Frame::Instruction([0xff; 9]);
    let mixed = [
        Frame::full_map(b"m"),
        open(),
        code(3),
        Frame::relocation(0, b"m"),
        wide.clone(),
        code(0),
        Frame::relocation(u64::MAX, b"m"),
        code(5),
        open(),
        open(),
        Frame::relocation(8, b"m"),
        Frame::relocation(8, b"m"),
        Frame::Instruction([0x18, 0x21, 0x43, 0x34, 0x12, 0x78, 0x56, 0x34, 0x92]),
    ];
    cases.push(accepted(&mixed));
    cases.push(accepted(&[open(), wide.clone(), wide]));
    cases
}

/// The greatest numbers of maps, programs and relocations, the ones just below, and the ones just past.
fn counts() -> Vec<Case> {
    let mut cases = Vec::new();
    for count in [2, 63, 64] {
        cases.push(accepted(&many_maps(count)));
    }
    for count in [31, 32] {
        cases.push(accepted(&many_programs(count)));
    }
    for (count, programs) in [(255, 1), (256, 1), (256, limits::PROGRAMS)] {
        cases.push(accepted(&many_relocations(count, programs)));
    }
    let long: Vec<Frame> = (0..limits::MAPS).map(|at| Frame::full_map(&valid::numbered(b'm', at))).collect();
    cases.push(accepted(&long));
    cases.push(accepted(&valid::largest()));
    cases
}

fn many_maps(count: usize) -> Vec<Frame> {
    (0..count).map(|at| Frame::bare_map(format!("m{at}").as_bytes())).collect()
}

fn many_programs(count: usize) -> Vec<Frame> {
    (0..count).map(|at| Frame::program(b"xdp", format!("p{at}").as_bytes())).collect()
}

/// Relocations spread evenly over so many programs.
fn many_relocations(count: usize, programs: usize) -> Vec<Frame> {
    let mut frames = vec![Frame::full_map(b"m"), Frame::full_map(b"n")];
    for at in 0..count {
        if at % (count / programs) == 0 && at / (count / programs) < programs {
            frames.push(Frame::program(b"xdp", b"main"));
        }
        frames.push(Frame::relocation(8 * at as u64, if at % 3 == 0 { b"m" } else { b"n" }));
    }
    frames
}

/// A small job that has a place for every fault but those that want a full table.
fn small() -> Vec<Frame> {
    vec![
        Frame::Licence(b"GPL".to_vec()),
        Frame::full_map(b"hits"),
        Frame::bare_map(b"m"),
        Frame::program(b"xdp", b"main"),
        Frame::Code(b"\x18\x01\0\0\0\0\0\0\0\0\0\0\0\0\0\0".to_vec()),
        Frame::relocation(0, b"hits"),
        Frame::program(b"tc", b""),
        Frame::Instruction(*b"\x95\0\0\0\0\0\0\0\0"),
    ]
}

fn job_for(place: Place) -> Vec<Frame> {
    match place {
        Place::MapsFull => many_maps(limits::MAPS),
        Place::ProgramsFull => many_programs(limits::PROGRAMS),
        Place::RelocationsFull => many_relocations(limits::RELOCATIONS, 2),
        _ => small(),
    }
}

/// Every reason of the refusals 2 to 6, and lines with several at once. The first row that is no text stands in all five
/// texts, each other one in one of them.
fn refused() -> Vec<Case> {
    let mut faults = faults::bad_lines();
    faults.extend(faults::bad_frames());
    faults.extend(faults::misplaced_frames());
    faults.extend(faults::broken_texts(|row, text| row == 0 || row % 5 == text));
    faults.extend(faults::forbidden_texts());
    faults.extend(faults::over_limits());
    faults.extend(faults::several_at_once());
    let mut cases: Vec<Case> = faults.iter().enumerate().map(|(nth, fault)| in_turn(nth, fault)).collect();
    cases.extend(late_licences());
    cases
}

/// A licence behind each other frame, with no licence before it.
fn late_licences() -> Vec<Case> {
    let late = Fault { number: 4, place: Place::NotFirst, line: Frame::Licence(b"GPL".to_vec()).line(), ended: true };
    let frames = &small()[1..];
    (1..=frames.len()).map(|at| placed(&late, frames, at, None)).collect()
}

/// Places a fault at one of its places, another one for the next fault.
fn in_turn(nth: usize, fault: &Fault) -> Case {
    let frames = job_for(fault.place);
    let places = fault.place.all_in(&frames);
    placed(fault, &frames, places[nth % places.len()], None)
}

/// Refusal 7: names that are declared by nobody, or only nearly.
fn unknown_maps() -> Vec<Case> {
    let declared = [Frame::full_map(b"a-b"), Frame::bare_map(b"hits"), Frame::bare_map("é".as_bytes())];
    let names: [&[u8]; 10] =
        [b"", b"a_b", b"hit", b"hitss", b"hits\0", b"Hits", b"_", b"LICENSE", b"xdp", &[b'n'; limits::TEXT]];
    let mut cases = Vec::new();
    for name in names {
        let mut frames = declared.to_vec();
        frames.extend([Frame::program(b"xdp", b"hit"), Frame::relocation(0, b"hits"), Frame::relocation(8, b"a-b")]);
        let fault = relocation_to(name);
        cases.push(placed(&fault, &frames, 5, None));
    }
    cases.push(placed(&relocation_to(b"m"), &[Frame::program(b"xdp", b"m")], 1, None));
    cases
}

fn relocation_to(name: &[u8]) -> Fault {
    Fault { number: 7, place: Place::Open, line: Frame::relocation(0, name).line(), ended: true }
}

/// Two faults on different lines: the earlier line decides, also where it has the higher number.
fn two_faulty_lines() -> Vec<Case> {
    let faults = [
        Fault { number: 2, place: Place::Open, line: b"0".to_vec(), ended: true },
        Fault { number: 3, place: Place::Open, line: b"07".to_vec(), ended: true },
        Fault { number: 4, place: Place::Open, line: Frame::Licence(b"GPL".to_vec()).line(), ended: true },
        Fault { number: 5, place: Place::Open, line: Frame::program(b"", b"").line(), ended: true },
        Fault { number: 6, place: Place::Open, line: Frame::program(&[b's'; 65], b"").line(), ended: true },
        relocation_to(b"nobody"),
    ];
    let mut cases = Vec::new();
    for (nth, first) in faults.iter().enumerate() {
        // A later number that is lower, or higher by one: the others say nothing more.
        for second in faults.iter().filter(|second| second.number < first.number || second.number == first.number + 1) {
            cases.push(placed(first, &small(), 4 + nth % 4, Some(&second.line)));
        }
    }
    cases
}

/// Jobs of the greatest length, accepted and not, and jobs just over it.
fn lengths() -> Vec<Case> {
    let open = || vec![Frame::program(b"xdp", b"main")];
    let mut cases = Vec::new();
    cases.push(accepted(&valid::filled_by_long_frames(open(), limits::JOB)));
    cases.push(accepted(&valid::filled_by_long_frames(open(), limits::JOB - 1)));
    let short = valid::filled_by_short_frames(open(), limits::JOB);
    let text = accepted(&short).job;
    cases.push(accepted(&short));
    // The last line of the longest job, damaged without a change of length.
    for (behind, character) in [(1, b'0'), (2, b'g'), (3, b'1')] {
        let mut job = text.clone();
        job[limits::JOB - behind] = character;
        let number = if character == b'1' { 3 } else { 2 };
        cases.push(Case { job, refusal: Some(Refusal { number, line: short.len() as u32 }) });
    }
    cases.push(Case { job: b"\n".repeat(limits::JOB), refusal: Some(Refusal { number: 2, line: 1 }) });
    let over = [
        [&text[..], b"0"].concat(),
        [&text[..], b"\n"].concat(),
        [&text[..], b"04\n"].concat(),
        b"x".repeat(limits::JOB + 1),
        [&b"03017870\n0500000000000000006d\n"[..], &ended(&vec![b"zz".to_vec(); 22_000])].concat(),
    ];
    cases.extend(over.map(|job| Case { job, refusal: Some(Refusal { number: 1, line: 0 }) }));
    cases
}

fn generated() -> Vec<Case> {
    let mut generator = Generator::new(SEED);
    let mut cases = Vec::new();
    while cases.len() < GENERATED {
        let case = generator.case();
        if case.job.len() <= MODERATE {
            cases.push(case);
        }
    }
    cases
}
