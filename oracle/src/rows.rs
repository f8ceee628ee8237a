//! What is expected, what came, and the rows that say so.
use crate::{rig::Rig, values::Place};
use std::fmt::{Display, Formatter, Result, Write};

/// What a row shows: a number, or the word for a level's name or for no forecast.
#[derive(Clone, Copy, PartialEq, Eq)]
pub enum Seen {
    Number(u32),
    Word(&'static str),
}

impl Display for Seen {
    fn fmt(&self, f: &mut Formatter<'_>) -> Result {
        match self {
            Seen::Number(n) => write!(f, "{n}"),
            Seen::Word(w) => f.write_str(w),
        }
    }
}

/// What the last call answered.
#[derive(Default)]
pub struct Answer {
    pub byte: u8,
    pub ticks: u32,
    pub first_tick: u32,
    pub last_tick: u32,
    pub interrupt: u32,
    pub sounding: u32,
    pub level: Option<(&'static str, u32)>,
    pub forecast: Option<Option<u32>>,
    pub view: Vec<u8>,
}

/// A part of an answer by its name in scripts.
pub struct Part {
    pub name: &'static str,
    get: fn(&Answer) -> Seen,
}

pub static PARTS: [Part; 11] = [
    // A call that the original played is not refused.
    Part { name: "refusal", get: |_| Seen::Number(0) },
    Part { name: "byte", get: |a| Seen::Number(a.byte.into()) },
    Part { name: "ticks", get: |a| Seen::Number(a.ticks) },
    Part { name: "first-tick", get: |a| Seen::Number(a.first_tick) },
    Part { name: "last-tick", get: |a| Seen::Number(a.last_tick) },
    Part { name: "interrupt", get: |a| Seen::Number(a.interrupt) },
    Part { name: "sounding", get: |a| Seen::Number(a.sounding) },
    Part { name: "level", get: |a| a.level.map_or(Seen::Number(0), |(name, _)| level_word(name)) },
    Part { name: "level-bits", get: |a| Seen::Number(a.level.map_or(0, |(_, bits)| bits)) },
    Part { name: "forecast", get: |a| a.forecast.map_or(Seen::Number(0), forecast_seen) },
    Part { name: "view-length", get: |a| Seen::Number(a.view.len() as u32) },
];

fn level_word(name: &str) -> Seen {
    Seen::Word(match name {
        "Silent" => "silent",
        "Held" => "held",
        _ => "playing",
    })
}

fn forecast_seen(forecast: Option<u32>) -> Seen {
    forecast.map_or(Seen::Word("none"), Seen::Number)
}

/// What a row looks at.
pub enum Subject {
    Place(Place),
    Part(&'static Part),
    ViewByte(usize),
    /// `kept` and `untouched`: the original has no refused call to compare with.
    Absent,
}

/// A line `expect`: its subject, the text that names it in the script, and what is expected.
pub struct Row {
    pub subject: Subject,
    pub label: String,
    pub expected: Seen,
}

impl Subject {
    fn seen(&self, r: &Rig, last: &Answer) -> Option<Seen> {
        match self {
            Subject::Place(place) => place.get(r).map(Seen::Number),
            Subject::Part(part) => Some((part.get)(last)),
            Subject::ViewByte(i) => Some(Seen::Number(last.view.get(*i).copied().unwrap_or(0).into())),
            Subject::Absent => None,
        }
    }
}

/// The rows of a script so far.
#[derive(Default)]
pub struct Tally {
    pub rows: u32,
    pub wrong: u32,
    pub not_played: u32,
}

impl Tally {
    /// Counts a row, and prints it if the original can play it; a wrong one with the number of its line.
    pub fn row(&mut self, o: &mut String, number: u32, row: &Row, rig: Option<&Rig>, last: &Answer) {
        self.rows += 1;
        let Some(got) = rig.and_then(|r| row.subject.seen(r, last)) else {
            self.not_played += 1;
            return;
        };
        let verdict = if got == row.expected {
            "ok    ".to_string()
        } else {
            self.wrong += 1;
            format!("WRONG line {number}, ")
        };
        let _ = writeln!(o, "{verdict}{}: expected {}, got {got}", row.label, row.expected);
    }
    /// The line behind a script; nothing if it had no row.
    pub fn count(&self, o: &mut String, file: &str) {
        if self.rows == 0 {
            return;
        }
        let _ = write!(o, "\n{file}: {} rows, {} wrong", self.rows, self.wrong);
        if self.not_played > 0 {
            let _ = write!(o, ", {} not played", self.not_played);
        }
        o.push('\n');
    }
}
