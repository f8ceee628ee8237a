//! The operations, the loops that make them, and the boards that they are made on.
use crate::{
    checked::Checked,
    forms::{Empty, EmptyLent, Form, NoCall},
    lent::{Before, Lent},
};
use std::hint::black_box;
use tetanes_shim::{
    mapper::Map,
    rig::{LAYOUT_S, Rig, Setup},
};

pub const S: Setup = Setup { seed: 1, ..LAYOUT_S };
/// Every region of the CPU's is shorter than a window on it, so that windows wrap, and the picture side's have so few banks that
/// most numbers of a bank wrap.
pub const SHORT: Setup = Setup { prg: 7 * 1024, chr: 5 * 1024, ram: 3 * 1024, ciram: 1024, ..S };

/// Two boards for each form; all rows but one use the first alone.
pub struct Hosts {
    no_call: [NoCall; 2],
    empty: [Empty; 2],
    empty_lent: [EmptyLent; 2],
    rig: [Rig; 2],
    checked: [Checked; 2],
    lent: [Lent; 2],
    before: [Lent<Before>; 2],
}

pub const NO_CALL: usize = 0;
pub const EMPTY: usize = 1;
pub const EMPTY_LENT: usize = 2;
pub const RUST: usize = 3;
pub const CHECKED: usize = 4;
pub const LENT: usize = 5;
pub const BEFORE: usize = 6;
pub const FORMS: usize = 7;

type Run = fn(&mut Hosts, u32);
pub struct Row {
    pub name: &'static str,
    /// Rows with the same loop have the same shape.
    pub shape: &'static str,
    layout: Setup,
    /// Whether the boards are made with open bus.
    open_bus: bool,
    setup: fn() -> Vec<(u16, u8)>,
    clocks: u32,
    /// The loop over each form.
    pub runs: [Run; FORMS],
}

// The loops. All arguments go through black_box, the board's pointer too. A bus byte is the low byte of such an address,
// so that a form that takes none has nothing to do for it.
#[inline(never)]
fn clock<F: Form>(f: &mut [F; 2], n: u32) {
    for _ in 0..n {
        black_box(&mut f[0]).call_clock();
    }
}
/// A clock of one board can wait for what the last clock stored; two boards in turn hide that wait, as other work does.
#[inline(never)]
fn clock_in_turn<F: Form>(f: &mut [F; 2], n: u32) {
    for k in 0..n {
        black_box(&mut f[k as usize & 1]).call_clock();
    }
}
#[inline(never)]
fn level<F: Form>(f: &mut [F; 2], n: u32) {
    for _ in 0..n {
        black_box(&mut f[0]).call_level();
    }
}
/// The k-th address from one on, up to the end of its window.
fn address(from: u16, k: u32) -> u16 {
    from | k as u16 & ((from & from.wrapping_neg()) - 1)
}
#[inline(never)]
fn cpu_read<const FROM: u16, F: Form>(f: &mut [F; 2], n: u32) {
    for k in 0..n {
        let (form, a) = (black_box(&mut f[0]), black_box(address(FROM, k)));
        form.call_cpu_read(a, a as u8);
    }
}
#[inline(never)]
fn bus_read<const FROM: u16, F: Form>(f: &mut [F; 2], n: u32) {
    for k in 0..n {
        let (form, a) = (black_box(&mut f[0]), black_box(address(FROM, k)));
        form.call_bus_read(a, a as u8);
    }
}
#[inline(never)]
fn picture_read<F: Form>(f: &mut [F; 2], n: u32) {
    for k in 0..n {
        black_box(&mut f[0]).call_picture_read(black_box(k as u16 & 0x3FFF));
    }
}
#[inline(never)]
fn ram_write<F: Form>(f: &mut [F; 2], n: u32) {
    for k in 0..n {
        black_box(&mut f[0]).call_cpu_write(black_box(0x6000 | k as u16 & 0x1FFF), black_box(k as u8));
    }
}
#[inline(never)]
fn register_write<const A: u16, F: Form>(f: &mut [F; 2], n: u32) {
    for k in 0..n {
        black_box(&mut f[0]).call_cpu_write(black_box(A), black_box(k as u8));
    }
}
/// A game that changes CHR on every line: frames of 240 lines, each a write to $D000 and 113 clocks.
#[inline(never)]
fn frame<F: Form>(f: &mut [F; 2], n: u32) {
    for k in 0..n {
        for line in 0..240 {
            black_box(&mut f[0]).call_cpu_write(black_box(0xD000), black_box((k + line) as u8));
            for _ in 0..113 {
                black_box(&mut f[0]).call_clock();
            }
        }
    }
}

// What is written before the loop.
fn nothing() -> Vec<(u16, u8)> {
    vec![]
}
/// Pulses at 440 Hz and 330 Hz, the saw near 220 Hz: ordinary music.
fn sound() -> Vec<(u16, u8)> {
    vec![
        (0x9000, 0x7F), (0x9001, 0xFD), (0x9002, 0x80),
        (0xA000, 0x3C), (0xA001, 0x52), (0xA002, 0x81),
        (0xB000, 0x0B), (0xB001, 0x45), (0xB002, 0x82),
    ]
}
fn line() -> Vec<(u16, u8)> {
    [sound(), vec![(0xF000, 0x10), (0xF001, 2)]].concat()
}
fn cycle() -> Vec<(u16, u8)> {
    [sound(), vec![(0xF000, 0x10), (0xF001, 6)]].concat()
}
fn silent() -> Vec<(u16, u8)> {
    vec![(0xF001, 2)]
}
/// All periods 1: every channel steps at every clock.
fn short() -> Vec<(u16, u8)> {
    let periods = [0x9001, 0xA001, 0xB001].map(|a| (a, 0x00)).into_iter();
    let enabled = [0x9002, 0xA002, 0xB002].map(|a| (a, 0x80)).into_iter();
    line().into_iter().chain(periods).chain(enabled).collect()
}
fn ram() -> Vec<(u16, u8)> {
    vec![(0xB003, 0xA0)]
}

macro_rules! row {
    ($name:literal, $shape:literal, $setup:ident, $clocks:literal, $run:path) => {
        Row {
            name: $name,
            shape: $shape,
            layout: S,
            open_bus: false,
            setup: $setup,
            clocks: $clocks,
            runs: [
                |h, n| $run(&mut h.no_call, n),
                |h, n| $run(&mut h.empty, n),
                |h, n| $run(&mut h.empty_lent, n),
                |h, n| $run(&mut h.rig, n),
                |h, n| $run(&mut h.checked, n),
                |h, n| $run(&mut h.lent, n),
                |h, n| $run(&mut h.before, n),
            ],
        }
    };
}
pub const ROWS: &[Row] = &[
    row!("clock, line mode, three channels", "clock", line, 0, clock),
    row!("same, two boards in turn", "clock, two boards in turn", line, 0, clock_in_turn),
    row!("clock, line mode, silent", "clock", silent, 0, clock),
    row!("clock, cycle mode, three channels", "clock", cycle, 0, clock),
    row!("clock, worst case: all periods 1", "clock", short, 0, clock),
    row!("CPU read", "CPU read", ram, 0, cpu_read::<0x8000, _>),
    row!("CPU read, RAM off", "CPU read of $6000", nothing, 0, cpu_read::<0x6000, _>),
    Row { open_bus: true, ..row!("CPU read, open bus", "CPU read, open bus", ram, 0, bus_read::<0x8000, _>) },
    Row { open_bus: true, ..row!("CPU read, RAM off, open bus", "CPU read of $6000, open bus", nothing, 0, bus_read::<0x6000, _>) },
    row!("picture read", "picture read", nothing, 0, picture_read),
    row!("CPU write to RAM", "CPU write to RAM", ram, 0, ram_write),
    row!("CPU write to $F000", "CPU write to a register", ram, 0, register_write::<0xF000, _>),
    row!("CPU write to $9001", "CPU write to a register", ram, 0, register_write::<0x9001, _>),
    row!("CPU write to $B003", "CPU write to a register", ram, 0, register_write::<0xB003, _>),
    row!("CPU write to $D000", "CPU write to a register", ram, 0, register_write::<0xD000, _>),
    row!("CPU write to $8000", "CPU write to a register", ram, 0, register_write::<0x8000, _>),
    Row { layout: SHORT, ..row!("short regions, $B003", "CPU write to a register", ram, 0, register_write::<0xB003, _>) },
    Row { layout: SHORT, ..row!("short regions, $D000", "CPU write to a register", ram, 0, register_write::<0xD000, _>) },
    Row { layout: SHORT, ..row!("short regions, $8000", "CPU write to a register", ram, 0, register_write::<0x8000, _>) },
    row!("level", "level", line, 1000, level),
];
/// A row of its own, since a call of it is a frame of 27,360 calls.
pub const FRAME: Row = row!("a frame, $D000 on each line", "frame", line, 0, frame);

impl Hosts {
    fn new(layout: Setup, open_bus: bool) -> Self {
        let rig = Rig { open_bus, ..Rig::new(layout) };
        let two = || [rig.clone(), rig.clone()];
        Hosts {
            no_call: [NoCall([0; 1024]), NoCall([0; 1024])],
            empty: [Lent::none(), Lent::none()].map(Empty),
            empty_lent: [Lent::none(), Lent::none()].map(EmptyLent),
            rig: two(),
            checked: two().map(|r| Checked::new(layout, r)),
            lent: two().map(|r| Lent::new(layout, &r, 0)),
            before: two().map(|r| Lent::new(layout, &r, 0)),
        }
    }
    pub fn of(row: &Row) -> Self {
        let mut h = Hosts::new(row.layout, row.open_bus);
        for i in 0..2 {
            for (a, v) in (row.setup)() {
                h.write(i, a, v);
            }
            for _ in 0..row.clocks {
                h.clock(i);
            }
        }
        h
    }
    // One call on all boards i, whose answers must be the same.
    fn write(&mut self, i: usize, a: u16, v: u8) {
        self.rig[i].cpu_write(a, v);
        let refusals = [self.checked[i].cpu_write(a, v), self.lent[i].cpu_write(a, v), self.before[i].cpu_write(a, v)];
        assert_eq!(refusals, [0; 3], "write {a:04x} {v:02x}");
    }
    fn clock(&mut self, i: usize) {
        let ticked = self.rig[i].clock();
        let (c, l) = (self.checked[i].clock(), self.lent[i].clock());
        assert_eq!((c.ticked, c.refusal), (ticked, 0), "checked clock");
        assert_eq!([l, self.before[i].clock()], [c; 2], "clock");
    }
    fn read(&mut self, i: usize, a: u16, bus: u8) {
        let (r, c, l, b) = (&self.rig[i], &self.checked[i], &mut self.lent[i], &mut self.before[i]);
        let (cpu, picture) = (c.cpu_read(a, bus), c.picture_read(a));
        assert_eq!((cpu.byte, cpu.refusal), (r.bus_read(a, bus), 0), "checked read {a:04x}");
        assert_eq!((picture.byte, picture.refusal), (r.pic_read(a), 0), "checked picture read {a:04x}");
        assert_eq!([l.cpu_read(a, bus), b.cpu_read(a, bus)], [cpu; 2], "read {a:04x}");
        assert_eq!([l.picture_read(a), b.picture_read(a)], [picture; 2], "picture read {a:04x}");
    }
    fn picture_write(&mut self, i: usize, a: u16, v: u8) {
        self.rig[i].pic_write(a, v);
        let refusals =
            [self.checked[i].picture_write(a, v), self.lent[i].picture_write(a, v), self.before[i].picture_write(a, v)];
        assert_eq!(refusals, [0; 3], "picture write {a:04x} {v:02x}");
    }
    fn level(&mut self, i: usize) {
        let (c, l, b) = (self.checked[i].level(), self.lent[i].level(), self.before[i].level());
        assert_eq!((c.level.to_bits(), c.refusal), (self.rig[i].b.output().to_bits(), 0), "checked level");
        assert_eq!([l, b].map(|l| (l.level.to_bits(), l.name, l.refusal)), [(c.level.to_bits(), c.name, 0); 2], "level");
    }
}

/// All forms give the same answers on four long lists of calls, on both layouts, without open bus and with it, so that the bench
/// compares like with like.
pub fn agree(calls: u32) {
    for (layout, open_bus) in [(S, false), (S, true), (SHORT, false), (SHORT, true)] {
        agree_on(Hosts::new(layout, open_bus), calls / 4);
    }
    let mut h = Hosts::new(S, false);
    refused(&mut h.checked[0], &mut h.lent[0]);
}

fn agree_on(mut h: Hosts, calls: u32) {
    let mut x = 1u32;
    for k in 0..calls {
        x = x.wrapping_mul(1_664_525).wrapping_add(1_013_904_223);
        let (a, v) = ((x >> 16) as u16, (x >> 8) as u8);
        match k % 8 {
            0 => h.write(0, a, v),
            1 => h.write(0, 0x8000 | a & 0x7003, v),
            2 => h.picture_write(0, a, v),
            3 => h.read(0, a, v),
            4 => h.level(0),
            _ => h.clock(0),
        }
    }
    assert_eq!(h.checked[0].rig.m.ram(), h.rig[0].m.ram(), "checked: the changing buffer");
    assert_eq!(h.lent[0].changing, h.rig[0].m.ram(), "the changing buffer");
    assert_eq!(h.before[0].changing, h.rig[0].m.ram(), "before: the changing buffer");
    assert!(h.before[0].board.tables() == h.lent[0].board.tables(), "before: the tables");
}

/// The checks are there: each refusal's number once from the checked form, and one from the proved board.
fn refused(c: &mut Checked, l: &mut Lent) {
    l.changing.pop();
    assert_eq!(l.cpu_write(0x6000, 0), 2, "a buffer too short");
    c.layout.chr = 1;
    assert_eq!((c.cpu_write(0x6000, 0), c.cpu_read(0x6000, 0).refusal), (2, 2), "checked: a buffer too long");
    c.layout.chr = 262_145;
    assert_eq!((c.cpu_write(0x6000, 0), c.picture_read(0).refusal), (1, 1), "checked: a layout beyond its limits");
    c.layout.chr = 131_072;
    c.rig.b.audio.out = 0.5;
    assert_eq!((c.cpu_write(0x8000, 0), c.clock().refusal, c.level().refusal), (3, 3, 3), "checked: a sum not whole");
    assert_eq!(c.cpu_write(0x6000, 0), 0, "checked: below $8000 the sound is not looked at");
}
