//! Reads a job by document 01: the licence, maps and programs that it declares, or its refusal.
//!
//! The reader shares nothing with the port. It hands over the original's own types, so that nothing stands between the job
//! and the Rust but this file.

use crate::ast::{MapDecl, MapType, Type};
use crate::emit::ebpf::elf::ProgramReloc;
use crate::emit::ebpf::insn::Insn;
use crate::emit::ebpf::tracepoint::CompiledProgram;
use crate::parser::SourceLoc;

/// The limits of document 01.
const LONGEST_JOB: usize = 65_535;
const LONGEST_TEXT: usize = 64;
const MOST_MAPS: usize = 64;
const MOST_PROGRAMS: usize = 32;
const MOST_RELOCATIONS: usize = 256;

/// The numbers of document 01's table of refusals.
const JOB_TOO_LONG: u32 = 1;
const NO_FRAME_LINE: u32 = 2;
const NO_FRAME: u32 = 3;
const MISPLACED: u32 = 4;
const BAD_TEXT: u32 = 5;
const OVER_LIMIT: u32 = 6;
pub const NO_SUCH_MAP: u32 = 7;

#[derive(Debug, Clone, Copy, PartialEq, Eq)]
pub struct Refusal {
    pub number: u32,
    pub line: u32,
}

#[derive(Default)]
pub struct Job {
    /// None where no frame gives it: the original then takes its own.
    pub licence: Option<String>,
    pub maps: Vec<MapDecl>,
    pub programs: Vec<Program>,
}

pub struct Program {
    pub section: String,
    pub symbol: String,
    pub compiled: CompiledProgram,
}

/// What the lines declare up to the first fault, and the refusal if there is one. After refusal 7 the job holds the
/// relocation that is refused, so that the original can be asked about it too.
pub struct Reading {
    pub job: Job,
    pub refusal: Option<Refusal>,
}

/// A frame taken apart, its texts still bytes.
enum Frame<'a> {
    Licence(&'a [u8]),
    Map { attributes: Attributes, name: &'a [u8] },
    Program { section: &'a [u8], symbol: &'a [u8] },
    Code(Vec<u8>),
    Relocation { offset: u64, name: &'a [u8] },
}

#[derive(Clone, Copy)]
struct Attributes {
    map_type: MapType,
    key: Option<Type>,
    value: Option<Type>,
    entries: Option<u32>,
}

pub fn read(text: &[u8]) -> Reading {
    let mut job = Job::default();
    if text.len() > LONGEST_JOB {
        return Reading { job, refusal: Some(Refusal { number: JOB_TOO_LONG, line: 0 }) };
    }
    let mut rest = text;
    let mut line = 0;
    while !rest.is_empty() {
        let taken = match rest.iter().position(|&character| character == b'\n') {
            Some(end) => {
                let current = &rest[..end];
                rest = &rest[end + 1..];
                take_line(current, line == 0, &mut job)
            }
            None => Err(NO_FRAME_LINE),
        };
        line += 1;
        if let Err(number) = taken {
            return Reading { job, refusal: Some(Refusal { number, line }) };
        }
    }
    Reading { job, refusal: None }
}

/// Adds a line to the job, or gives the lowest number that refuses it.
fn take_line(line: &[u8], first: bool, job: &mut Job) -> Result<(), u32> {
    let bytes = unhex(line).ok_or(NO_FRAME_LINE)?;
    let frame = parse(&bytes).ok_or(NO_FRAME)?;
    if !may_stand(&frame, first, job) {
        return Err(MISPLACED);
    }
    let texts = texts(&frame).ok_or(BAD_TEXT)?;
    if over_limit(&frame, job) {
        return Err(OVER_LIMIT);
    }
    add(frame, texts, job)
}

fn unhex(line: &[u8]) -> Option<Vec<u8>> {
    if line.is_empty() || line.len() % 2 != 0 {
        return None;
    }
    line.chunks(2).map(|pair| Some(digit(pair[0])? * 16 + digit(pair[1])?)).collect()
}

fn digit(character: u8) -> Option<u8> {
    match character {
        b'0'..=b'9' => Some(character - b'0'),
        b'a'..=b'f' => Some(character - b'a' + 10),
        _ => None,
    }
}

fn parse(bytes: &[u8]) -> Option<Frame<'_>> {
    let (&kind, rest) = bytes.split_first()?;
    match kind {
        1 => Some(Frame::Licence(rest)),
        2 => parse_map(rest),
        3 => parse_program(rest),
        4 => Some(Frame::Code(rest.to_vec())),
        5 => parse_relocation(rest),
        6 => parse_instruction(rest),
        _ => None,
    }
}

fn parse_map(mut rest: &[u8]) -> Option<Frame<'_>> {
    let map_type = map_type(take_byte(&mut rest)?)?;
    let presence = take_byte(&mut rest)?;
    if presence > 7 {
        return None;
    }
    let key = if presence & 1 != 0 { Some(member_type(take_byte(&mut rest)?)?) } else { None };
    let value = if presence & 2 != 0 { Some(member_type(take_byte(&mut rest)?)?) } else { None };
    let entries = if presence & 4 != 0 { Some(u32::from_le_bytes(take_bytes(&mut rest)?)) } else { None };
    Some(Frame::Map { attributes: Attributes { map_type, key, value, entries }, name: rest })
}

fn parse_program(mut rest: &[u8]) -> Option<Frame<'_>> {
    let length = usize::from(take_byte(&mut rest)?);
    if length > rest.len() {
        return None;
    }
    let (section, symbol) = rest.split_at(length);
    Some(Frame::Program { section, symbol })
}

fn parse_relocation(mut rest: &[u8]) -> Option<Frame<'_>> {
    let offset = u64::from_le_bytes(take_bytes(&mut rest)?);
    Some(Frame::Relocation { offset, name: rest })
}

/// An instruction is the code that the original's `Insn` gives for it.
fn parse_instruction(rest: &[u8]) -> Option<Frame<'_>> {
    let &[code, dst, src, off0, off1, imm0, imm1, imm2, imm3] = rest else { return None };
    let off = i16::from_le_bytes([off0, off1]);
    let imm = i32::from_le_bytes([imm0, imm1, imm2, imm3]);
    Some(Frame::Code(Insn::new(code, dst, src, off, imm).to_le_bytes().to_vec()))
}

fn take_byte(rest: &mut &[u8]) -> Option<u8> {
    take_bytes::<1>(rest).map(|[byte]| byte)
}

fn take_bytes<const N: usize>(rest: &mut &[u8]) -> Option<[u8; N]> {
    let (taken, left) = rest.split_first_chunk::<N>()?;
    *rest = left;
    Some(*taken)
}

fn map_type(number: u8) -> Option<MapType> {
    match number {
        1 => Some(MapType::Hash),
        2 => Some(MapType::Array),
        3 => Some(MapType::ProgArray),
        9 => Some(MapType::LruHash),
        27 => Some(MapType::Ringbuf),
        _ => None,
    }
}

fn member_type(number: u8) -> Option<Type> {
    match number {
        1 => Some(Type::U32),
        2 => Some(Type::U64),
        3 => Some(Type::I32),
        4 => Some(Type::I64),
        _ => None,
    }
}

/// A licence stands first, a map before every program, and code and relocations in a program.
fn may_stand(frame: &Frame, first: bool, job: &Job) -> bool {
    match frame {
        Frame::Licence(_) => first,
        Frame::Map { .. } => job.programs.is_empty(),
        Frame::Program { .. } => true,
        Frame::Code(_) | Frame::Relocation { .. } => !job.programs.is_empty(),
    }
}

/// A frame's texts in their order, each whole and by itself; none where one of them may not be what it is.
fn texts(frame: &Frame) -> Option<Vec<String>> {
    match frame {
        Frame::Licence(licence) => Some(vec![text(licence).filter(|licence| !licence.contains('\0'))?]),
        Frame::Map { name, .. } | Frame::Relocation { name, .. } => Some(vec![text(name)?]),
        Frame::Program { section, symbol } => {
            let section = text(section).filter(|section| !section.is_empty() && !section.contains('\0'))?;
            Some(vec![section, text(symbol)?])
        }
        Frame::Code(_) => Some(Vec::new()),
    }
}

/// The standard library's own judgement of UTF-8: no overlong form, no surrogate, nothing over 10FFFF hex.
fn text(bytes: &[u8]) -> Option<String> {
    String::from_utf8(bytes.to_vec()).ok()
}

fn over_limit(frame: &Frame, job: &Job) -> bool {
    let long = |text: &[u8]| text.len() > LONGEST_TEXT;
    match frame {
        Frame::Licence(licence) => long(licence),
        Frame::Map { name, .. } => long(name) || job.maps.len() >= MOST_MAPS,
        Frame::Program { section, symbol } => long(section) || long(symbol) || job.programs.len() >= MOST_PROGRAMS,
        Frame::Code(_) => false,
        Frame::Relocation { name, .. } => long(name) || relocations(job) >= MOST_RELOCATIONS,
    }
}

pub fn relocations(job: &Job) -> usize {
    job.programs.iter().map(|program| program.compiled.relocs.len()).sum()
}

/// Adds a frame that only refusal 7 may still refuse. `texts` are the frame's.
fn add(frame: Frame, texts: Vec<String>, job: &mut Job) -> Result<(), u32> {
    let mut texts = texts.into_iter();
    let mut next = || texts.next().unwrap_or_default();
    match frame {
        Frame::Licence(_) => job.licence = Some(next()),
        Frame::Map { attributes, .. } => job.maps.push(declaration(attributes, next())),
        Frame::Program { .. } => {
            let compiled = CompiledProgram { code: Vec::new(), relocs: Vec::new() };
            job.programs.push(Program { section: next(), symbol: next(), compiled });
        }
        Frame::Code(bytes) => open(job)?.code.extend(bytes),
        Frame::Relocation { offset, .. } => return relocate(ProgramReloc { offset, symbol: next() }, job),
    }
    Ok(())
}

fn declaration(attributes: Attributes, name: String) -> MapDecl {
    MapDecl {
        name,
        map_type: attributes.map_type,
        key_type: attributes.key,
        value_type: attributes.value,
        max_entries: attributes.entries,
        loc: SourceLoc,
    }
}

/// A relocation is added whether or not its map is declared: see `Reading`.
fn relocate(relocation: ProgramReloc, job: &mut Job) -> Result<(), u32> {
    let declared = job.maps.iter().any(|map| map.name == relocation.symbol);
    open(job)?.relocs.push(relocation);
    if declared {
        Ok(())
    } else {
        Err(NO_SUCH_MAP)
    }
}

/// The program last opened.
fn open(job: &mut Job) -> Result<&mut CompiledProgram, u32> {
    job.programs.last_mut().map(|program| &mut program.compiled).ok_or(MISPLACED)
}
