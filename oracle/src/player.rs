//! Plays the lines of a script on the original. From a line that it can't play, to the next `S` or `N` that it can, there
//! is no board: calls do nothing, and rows count as not played.
use crate::{
    dump::dump,
    mapper::Map,
    rig::{FNV0, Rig, Setup, fnv},
    rows::{Answer, Tally},
    script::{Bytes, Call, Line},
    values::Place,
};
use std::fmt::Write;

/// What is printed, and how `F` is answered.
#[derive(Clone, Copy, Default)]
pub struct Options {
    pub answers: bool,
    /// A dump behind every answer.
    pub full: bool,
    /// The forecast is counted on a copy of the original.
    pub least: bool,
}

pub struct Player {
    options: Options,
    /// The setting of boards that are created from here on.
    open_bus: bool,
    rig: Option<Rig>,
    last: Answer,
    pub tally: Tally,
}

impl Player {
    pub fn new(options: Options) -> Self {
        Player { options, open_bus: false, rig: None, last: Answer::default(), tally: Tally::default() }
    }

    /// Plays the line of a number, and puts what it prints behind the text.
    pub fn play(&mut self, number: u32, line: &Line, o: &mut String) {
        match line {
            Line::Nothing => {}
            Line::Heading(text) => {
                let _ = writeln!(o, "\n{text}");
            }
            Line::OpenBus(on) => self.open_bus = *on,
            Line::Create(setup, bytes) => self.create(*setup, bytes, o),
            Line::Poke(place, v) => self.poke(place, *v),
            Line::Lend => self.rig = None,
            Line::Expect(row) => self.tally.row(o, number, row, self.rig.as_ref(), &self.last),
            Line::Call(call) => self.call(call, o),
        }
    }

    fn create(&mut self, s: Setup, bytes: &Bytes, o: &mut String) {
        self.last = Answer::default();
        let rig = match bytes {
            _ if !s.within_limits() => None,
            Bytes::Zeros => Some(Rig::over(s, |_| 0)),
            Bytes::Filled => Some(Rig::new(s)),
            Bytes::AsTheyAre => {
                let lent = self.rig.as_ref().filter(|r| r.lengths() == s.lengths());
                lent.map(|r| Rig::over(s, |o| r.byte(o)))
            }
        };
        self.rig = rig.map(|r| Rig { open_bus: self.open_bus, ..r });
        if let Some(r) = self.rig.as_ref().filter(|_| self.options.answers) {
            let (fixed, changing) = r.lengths();
            let _ = writeln!(o, "N {fixed} {changing}");
            if self.options.full {
                dump(o, r);
            }
        }
    }

    fn poke(&mut self, place: &Place, v: u32) {
        if self.rig.as_mut().is_some_and(|r| !place.set(r, v)) {
            self.rig = None;
        }
    }

    fn call(&mut self, call: &Call, o: &mut String) {
        let Some(r) = self.rig.as_mut() else { return };
        let start = o.len();
        self.last = Answer::default();
        make(r, call, &mut self.last, o, self.options.least);
        if !self.options.answers {
            o.truncate(start);
        } else if self.options.full && !matches!(call, Call::Dump) {
            dump(o, r);
        }
    }
}

/// Makes a call, keeps what it answers, and writes its answer.
fn make(r: &mut Rig, call: &Call, a: &mut Answer, o: &mut String, least: bool) {
    let _ = match *call {
        Call::Read(addr) => read(r, 'R', addr, 0, a, o),
        Call::ReadBus(addr, bus) => read(r, 'B', addr, bus, a, o),
        Call::Write(addr, v) => {
            r.cpu_write(addr, v);
            writeln!(o, "W")
        }
        Call::PictureRead(addr) => {
            a.byte = r.pic_read(addr);
            writeln!(o, "P {:02x}", a.byte)
        }
        Call::PictureWrite(addr, v) => {
            r.pic_write(addr, v);
            writeln!(o, "Q")
        }
        Call::Clock(n) => clock(r, n, a, o),
        Call::Reset(hard) => {
            r.reset(hard);
            writeln!(o, "Z")
        }
        Call::Level => level(r, a, o),
        Call::View(addr) => {
            a.view = r.view(addr);
            writeln!(o, "V {:08x}", fnv(FNV0, &a.view))
        }
        Call::Forecast => forecast(r, a, o, least),
        Call::Registers => registers(r, o),
        Call::Buffers => writeln!(o, "H {:08x} {:08x}", r.hash_fixed(), r.hash_changing()),
        Call::Dump => {
            dump(o, r);
            Ok(())
        }
    };
}

fn read(r: &Rig, name: char, addr: u16, bus: u8, a: &mut Answer, o: &mut String) -> std::fmt::Result {
    a.byte = r.bus_read(addr, bus);
    writeln!(o, "{name} {:02x}", a.byte)
}

fn clock(r: &mut Rig, n: u32, a: &mut Answer, o: &mut String) -> std::fmt::Result {
    let mut h = FNV0;
    for k in 1..=n {
        if r.clock() {
            a.ticks += 1;
            if a.first_tick == 0 {
                a.first_tick = k;
            }
            a.last_tick = k;
        }
        if a.interrupt == 0 && r.b.irq_pending() {
            a.interrupt = k;
        }
        a.sounding += u32::from(r.b.audio.out > 0.0);
        // hash of the level's bits after every one of the n clocks
        h = fnv(h, &r.b.output().to_bits().to_le_bytes());
    }
    let pending = u8::from(r.b.irq_pending());
    writeln!(o, "C {} {} {} {pending} {h:08x}", a.ticks, a.first_tick, a.last_tick)
}

fn level(r: &Rig, a: &mut Answer, o: &mut String) -> std::fmt::Result {
    let (name, bits) = (r.level_name(), r.b.output().to_bits());
    a.level = Some((name, bits));
    writeln!(o, "L {bits:08x} {name}")
}

fn forecast(r: &Rig, a: &mut Answer, o: &mut String, least: bool) -> std::fmt::Result {
    let clocks = if least { r.forecast_by_clocking() } else { r.forecast_by_formula() };
    a.forecast = Some(clocks);
    match clocks {
        Some(n) => writeln!(o, "F {n}"),
        None => writeln!(o, "F none"),
    }
}

fn registers(r: &Rig, o: &mut String) -> std::fmt::Result {
    let mut v = Vec::new();
    r.b.registers(&mut v);
    o.push('G');
    for (_, x) in v {
        write!(o, " {x}")?;
    }
    writeln!(o)
}
