//! The lines of a script. See FORMAT.md.
use crate::{
    mapper::m024_m026_vrc6::Revision,
    rig::{LAYOUT_S, Setup, mirroring},
    rows::{PARTS, Row, Seen, Subject},
    values::Place,
};

/// What is wrong with a line.
pub type Wrong = &'static str;

const UNKNOWN_LINE: Wrong = "no such line";
const MISSING: Wrong = "a word is missing";
const NO_HEXADECIMAL: Wrong = "no hexadecimal number";
const NO_DECIMAL: Wrong = "no decimal number";
const TOO_LARGE: Wrong = "the number is too large";
const TOO_MANY: Wrong = "too many words";
const NO_CHOICE: Wrong = "none of the words that can stand there";

/// The bytes of the buffers on which a board is created.
pub enum Bytes {
    Zeros,
    Filled,
    AsTheyAre,
}

pub enum Call {
    Read(u16),
    ReadBus(u16, u8),
    Write(u16, u8),
    PictureRead(u16),
    PictureWrite(u16, u8),
    Clock(u32),
    Reset(bool),
    Level,
    View(u16),
    Forecast,
    Registers,
    Buffers,
    Dump,
}

pub enum Line<'a> {
    Nothing,
    Heading(&'a str),
    OpenBus(bool),
    Create(Setup, Bytes),
    Poke(Place, u32),
    Lend,
    Expect(Row),
    Call(Call),
}

/// The words of a line in small letters, one after the other.
struct Words<'a> {
    words: Vec<&'a str>,
    at: usize,
}

fn is_blank(c: char) -> bool {
    c == ' ' || ('\t'..='\r').contains(&c)
}

/// A number, hexadecimal behind `$`, else in the base.
fn number(word: &str, base: u32, limit: u32) -> Result<u32, Wrong> {
    let (digits, base) = word.strip_prefix('$').map_or((word, base), |d| (d, 16));
    if digits.is_empty() || !digits.chars().all(|c| c.is_digit(base)) {
        return Err(if base == 16 { NO_HEXADECIMAL } else { NO_DECIMAL });
    }
    u32::from_str_radix(digits, base).ok().filter(|n| *n <= limit).ok_or(TOO_LARGE)
}

fn words(line: &str) -> impl Iterator<Item = &str> {
    line.split(is_blank).filter(|w| !w.is_empty())
}

impl<'a> Words<'a> {
    fn of(line: &'a str) -> Self {
        Words { words: words(line).collect(), at: 0 }
    }
    fn next(&mut self) -> Result<&'a str, Wrong> {
        self.at += 1;
        self.words.get(self.at - 1).copied().ok_or(MISSING)
    }
    fn hexadecimal(&mut self, limit: u32) -> Result<u32, Wrong> {
        number(self.next()?, 16, limit)
    }
    fn decimal(&mut self, limit: u32) -> Result<u32, Wrong> {
        number(self.next()?, 10, limit)
    }
    fn address(&mut self) -> Result<u16, Wrong> {
        self.hexadecimal(0xFFFF).map(|n| n as u16)
    }
    fn byte(&mut self) -> Result<u8, Wrong> {
        self.hexadecimal(0xFF).map(|n| n as u8)
    }
    fn length(&mut self) -> Result<usize, Wrong> {
        self.decimal(u32::MAX).map(|n| n as usize)
    }
    /// Whether a word is the second of two.
    fn second(&mut self, first: &str, second: &str) -> Result<bool, Wrong> {
        let word = self.next()?;
        if word == first || word == second { Ok(word == second) } else { Err(NO_CHOICE) }
    }
    /// A reset's kind: whether it is hard.
    fn hard(&mut self) -> Result<bool, Wrong> {
        match self.next()? {
            "s" | "soft" => Ok(false),
            "h" | "hard" => Ok(true),
            _ => Err(NO_CHOICE),
        }
    }
    fn end(&self) -> Result<(), Wrong> {
        if self.at < self.words.len() { Err(TOO_MANY) } else { Ok(()) }
    }
}

fn settings(w: &mut Words, s: Setup) -> Result<Setup, Wrong> {
    let mirroring = mirroring(w.decimal(4)?);
    let rev = if w.second("a", "b")? { Revision::B } else { Revision::A };
    Ok(Setup { mirroring, rev, ..s })
}

fn layout(w: &mut Words) -> Result<Setup, Wrong> {
    let s = Setup {
        prg: w.length()?,
        chr: w.length()?,
        chr_writable: w.second("r", "w")?,
        ram: w.length()?,
        ciram: w.length()?,
        ..LAYOUT_S
    };
    settings(w, s)
}

fn filled(w: &mut Words) -> Result<Setup, Wrong> {
    let s = layout(w)?;
    Ok(Setup { seed: w.hexadecimal(u32::MAX)?, ..s })
}

/// The layout's length that is named isn't kept: the original has none of them.
fn layout_place(w: &mut Words) -> Result<Place, Wrong> {
    match w.next()? {
        "prg" | "chr" | "writable" | "ram" | "ciram" => Ok(Place::Layout),
        _ => Err(NO_CHOICE),
    }
}

fn place(name: &str, w: &mut Words) -> Result<Place, Wrong> {
    match name {
        "entry" => w.address().map(Place::Entry),
        "picture-entry" => w.address().map(Place::PictureEntry),
        "layout" => layout_place(w),
        "pulse1" | "pulse2" | "saw" => Place::channel(name, w.next()?).ok_or(NO_CHOICE),
        "chr" => w.decimal(7).map(|n| Place::Chr(n as usize)),
        "nametable" => w.decimal(3).map(|n| Place::Nametable(n as usize)),
        "fixed" => w.length().map(Place::Fixed),
        "changing" => w.length().map(Place::Changing),
        _ => Place::single(name).ok_or(NO_CHOICE),
    }
}

fn subject(name: &str, w: &mut Words) -> Result<Subject, Wrong> {
    if let Some(part) = PARTS.iter().find(|p| p.name == name) {
        return Ok(Subject::Part(part));
    }
    match name {
        "view-byte" => w.length().map(Subject::ViewByte),
        "kept" | "untouched" => Ok(Subject::Absent),
        _ => place(name, w).map(Subject::Place),
    }
}

/// A number, or a word that stands for one.
fn amount(word: &str) -> Result<u32, Wrong> {
    match word {
        "yes" => Ok(1),
        "no" => Ok(0),
        _ => number(word, 10, u32::MAX),
    }
}

fn expected(name: &str, word: &str) -> Result<Seen, Wrong> {
    Ok(match (name, word) {
        ("level", "silent") => Seen::Word("silent"),
        ("level", "held") => Seen::Word("held"),
        ("level", "playing") => Seen::Word("playing"),
        ("forecast", "none") => Seen::Word("none"),
        _ => Seen::Number(amount(word)?),
    })
}

/// A row shows what it looks at as the line has it.
fn row(w: &mut Words, line: &str) -> Result<Row, Wrong> {
    let name = w.next()?;
    let subject = subject(name, w)?;
    let label = words(line).take(w.at).skip(1).collect::<Vec<_>>().join(" ");
    Ok(Row { subject, label, expected: expected(name, w.next()?)? })
}

fn poke<'a>(w: &mut Words) -> Result<Line<'a>, Wrong> {
    let name = w.next()?;
    let place = place(name, w)?;
    Ok(Line::Poke(place, amount(w.next()?)?))
}

fn lend<'a>(w: &mut Words) -> Result<Line<'a>, Wrong> {
    match w.next()? {
        "fixed" | "changing" => w.length().map(|_| Line::Lend),
        _ => Err(NO_CHOICE),
    }
}

fn call(name: &str, w: &mut Words) -> Result<Call, Wrong> {
    Ok(match name {
        "r" | "read" => Call::Read(w.address()?),
        "b" | "read-bus" => Call::ReadBus(w.address()?, w.byte()?),
        "w" | "write" => Call::Write(w.address()?, w.byte()?),
        "p" | "picture-read" => Call::PictureRead(w.address()?),
        "q" | "picture-write" => Call::PictureWrite(w.address()?, w.byte()?),
        "c" | "clock" => Call::Clock(w.decimal(u32::MAX)?),
        "z" | "reset" => Call::Reset(w.hard()?),
        "l" | "level" => Call::Level,
        "v" | "view" => Call::View(w.address()?),
        "f" | "forecast" => Call::Forecast,
        "g" => Call::Registers,
        "h" => Call::Buffers,
        "d" => Call::Dump,
        _ => return Err(UNKNOWN_LINE),
    })
}

pub fn parse(line: &str) -> Result<Line<'_>, Wrong> {
    let small = line.to_ascii_lowercase();
    let mut w = Words::of(&small);
    let parsed = match w.next() {
        Err(_) => return Ok(Line::Nothing),
        Ok(first) if first.starts_with('#') => return Ok(Line::Nothing),
        Ok("=") => return Ok(Line::Heading(line.trim_matches(is_blank)[1..].trim_start_matches(is_blank))),
        Ok("o" | "open-bus") => Line::OpenBus(w.second("no", "yes")?),
        Ok("s") => Line::Create(settings(&mut w, LAYOUT_S)?, Bytes::Zeros),
        Ok("n") => Line::Create(filled(&mut w)?, Bytes::Filled),
        Ok("create") => Line::Create(layout(&mut w)?, Bytes::AsTheyAre),
        Ok("poke") => poke(&mut w)?,
        Ok("lend") => lend(&mut w)?,
        Ok("expect") => Line::Expect(row(&mut w, line)?),
        Ok(name) => Line::Call(call(name, &mut w)?),
    };
    w.end()?;
    Ok(parsed)
}
