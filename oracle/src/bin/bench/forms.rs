//! The forms of a call that are measured. Each is one call by C's convention that is not inlined, and its answer goes to
//! black_box as it comes.
use crate::{
    checked::{Byte, Checked, Level, Tick},
    lent::{Archive, Board, Lent},
};
use std::{arch::naked_asm, hint::black_box};
use tetanes_shim::{mapper::Map, rig::Rig};

#[inline(never)]
extern "C" fn rust_clock(r: &mut Rig) {
    r.b.clock()
}
#[inline(never)]
extern "C" fn rust_level(r: &Rig) -> f32 {
    r.b.output()
}
#[inline(never)]
extern "C" fn rust_cpu_read(r: &Rig, a: u16) -> u8 {
    r.cpu_read(a)
}
/// The original's read, and in front of it the driver's choice.
#[inline(never)]
extern "C" fn rust_bus_read(r: &Rig, a: u16, bus: u8) -> u8 {
    r.bus_read(a, bus)
}
#[inline(never)]
extern "C" fn rust_picture_read(r: &Rig, a: u16) -> u8 {
    r.pic_read(a)
}
#[inline(never)]
extern "C" fn rust_cpu_write(r: &mut Rig, a: u16, v: u8) {
    r.cpu_write(a, v)
}

#[inline(never)]
extern "C" fn checked_clock(c: &mut Checked) -> Tick {
    c.clock()
}
#[inline(never)]
extern "C" fn checked_level(c: &Checked) -> Level {
    c.level()
}
#[inline(never)]
extern "C" fn checked_cpu_read(c: &Checked, a: u16, bus: u8) -> Byte {
    c.cpu_read(a, bus)
}
#[inline(never)]
extern "C" fn checked_picture_read(c: &Checked, a: u16) -> Byte {
    c.picture_read(a)
}
#[inline(never)]
extern "C" fn checked_cpu_write(c: &mut Checked, a: u16, v: u8) -> u8 {
    c.cpu_write(a, v)
}

// Empty calls with the arguments of the original's calls, then of the proved board's: the one with a byte stands for
// writes, whose byte it is, and for CPU reads that are given a bus byte. They are naked, so the compiler sees no body and
// passes every argument.
#[unsafe(naked)]
extern "C" fn empty_board(_: &mut Board) -> u8 {
    naked_asm!("ret")
}
#[unsafe(naked)]
extern "C" fn empty_address(_: &mut Board, _a: u16) -> u8 {
    naked_asm!("ret")
}
#[unsafe(naked)]
extern "C" fn empty_byte(_: &mut Board, _a: u16, _v: u8) -> u8 {
    naked_asm!("ret")
}
#[unsafe(naked)]
extern "C" fn empty_lent_address(_: &mut Board, _: *const u8, _: usize, _: *const u8, _: usize, _a: u16) -> u8 {
    naked_asm!("ret")
}
#[unsafe(naked)]
extern "C" fn empty_lent_byte(_: &mut Board, _: *const u8, _: usize, _: *const u8, _: usize, _a: u16, _v: u8) -> u8 {
    naked_asm!("ret")
}

/// The loop with no call in it, and with an empty call. The room makes the loop find its way to a board.
pub struct NoCall(#[allow(dead_code)] pub [u8; 1024]);
pub struct Empty(pub Lent);
pub struct EmptyLent(pub Lent);

pub trait Form {
    fn call_clock(&mut self);
    fn call_level(&mut self);
    fn call_cpu_read(&mut self, a: u16, bus: u8);
    /// For a board with open bus, which the original has not: there its driver chooses.
    fn call_bus_read(&mut self, a: u16, bus: u8);
    fn call_picture_read(&mut self, a: u16);
    fn call_cpu_write(&mut self, a: u16, v: u8);
}

macro_rules! form {
    (
        $host:ty $(, for $archive:ident)?, |$h:ident, $a:ident, $v:ident|
        $clock:expr, $level:expr, $cpu:expr, $bus:expr, $picture:expr, $write:expr
    ) => {
        #[allow(unused_variables)]
        impl$(<$archive: Archive>)? Form for $host {
            #[inline(always)]
            fn call_clock(&mut self) {
                let $h = self;
                black_box($clock);
            }
            #[inline(always)]
            fn call_level(&mut self) {
                let $h = self;
                black_box($level);
            }
            #[inline(always)]
            fn call_cpu_read(&mut self, $a: u16, $v: u8) {
                let $h = self;
                black_box($cpu);
            }
            #[inline(always)]
            fn call_bus_read(&mut self, $a: u16, $v: u8) {
                let $h = self;
                black_box($bus);
            }
            #[inline(always)]
            fn call_picture_read(&mut self, $a: u16) {
                let $h = self;
                black_box($picture);
            }
            #[inline(always)]
            fn call_cpu_write(&mut self, $a: u16, $v: u8) {
                let $h = self;
                black_box($write);
            }
        }
    };
}
form!(NoCall, |h, a, v| (), (), (), (), (), ());
form!(
    Empty, |h, a, v|
    empty_board(&mut h.0.board),
    empty_board(&mut h.0.board),
    empty_address(&mut h.0.board, a),
    empty_byte(&mut h.0.board, a, v),
    empty_address(&mut h.0.board, a),
    empty_byte(&mut h.0.board, a, v)
);
macro_rules! empty_lent {
    ($call:ident, $h:ident, $($more:ident),+) => {{
        let (b, f, c) = (&mut $h.0.board, &$h.0.fixed, &$h.0.changing);
        $call(b, f.as_ptr(), f.len(), c.as_ptr(), c.len(), $($more),+)
    }};
}
form!(
    EmptyLent, |h, a, v|
    empty_board(&mut h.0.board),
    empty_board(&mut h.0.board),
    empty_lent!(empty_lent_byte, h, a, v),
    empty_lent!(empty_lent_byte, h, a, v),
    empty_lent!(empty_lent_address, h, a),
    empty_lent!(empty_lent_byte, h, a, v)
);
form!(
    Rig, |h, a, v|
    rust_clock(h),
    rust_level(h).to_bits(),
    rust_cpu_read(h, a),
    rust_bus_read(h, a, v),
    rust_picture_read(h, a),
    rust_cpu_write(h, a, v)
);
form!(
    Checked, |h, a, v|
    checked_clock(h),
    checked_level(h),
    checked_cpu_read(h, a, v),
    checked_cpu_read(h, a, v),
    checked_picture_read(h, a),
    checked_cpu_write(h, a, v)
);
form!(
    Lent<A>, for A, |h, a, v|
    h.clock(),
    h.level(),
    h.cpu_read(a, v),
    h.cpu_read(a, v),
    h.picture_read(a),
    h.cpu_write(a, v)
);
