//! The proved board's calls by C's convention, from one archive or from two, and a host that keeps one board and its buffers.
use crate::checked::{Byte, Layout, Level, Tick};
use std::marker::PhantomData;
use tetanes_shim::{
    mapper::m024_m026_vrc6::Revision,
    memory::Src,
    rig::{Rig, Setup},
};

/// Room for a board. Of its fields the bench knows only where the tables lie.
#[repr(C, align(8))]
pub struct Board(pub [u8; 1024]);
impl Board {
    /// The 80 entries of both tables, which lie behind the 20 bytes of the layout.
    pub fn tables(&self) -> &[u8] {
        &self.0[20..340]
    }
}

/// What a board is made with, by numbers.
#[repr(C)]
pub struct Settings {
    mirroring: u8,
    revision: u8,
    open_bus: u8,
}

// The calls of an archive. A slice crosses as a pointer and a length.
type Create = unsafe extern "C" fn(*mut Board, Layout, Settings, *const u8, usize, *const u8, usize) -> u8;
type Clock = unsafe extern "C" fn(*mut Board) -> Tick;
type LevelOf = unsafe extern "C" fn(*mut Board) -> Level;
type CpuRead = unsafe extern "C" fn(*mut Board, *const u8, usize, *const u8, usize, u16, u8) -> Byte;
type PictureRead = unsafe extern "C" fn(*mut Board, *const u8, usize, *const u8, usize, u16) -> Byte;
type Write = unsafe extern "C" fn(*mut Board, *const u8, usize, *mut u8, usize, u16, u8) -> u8;

/// Each is a constant, so a call of it is compiled as a call of the function.
pub trait Archive {
    const CREATE: Create;
    const CLOCK: Clock;
    const LEVEL: LevelOf;
    const CPU_READ: CpuRead;
    const PICTURE_READ: PictureRead;
    const CPU_WRITE: Write;
    const PICTURE_WRITE: Write;
}

#[rustfmt::skip]
macro_rules! archive {
    (
        $archive:ident, $library:literal,
        $create:ident, $clock:ident, $level:ident, $cpu_read:ident, $picture_read:ident, $cpu_write:ident, $picture_write:ident
    ) => {
        #[link(name = $library, kind = "static")]
        unsafe extern "C" {
            fn $create(b: *mut Board, l: Layout, s: Settings, f: *const u8, fl: usize, c: *const u8, cl: usize) -> u8;
            fn $clock(b: *mut Board) -> Tick;
            fn $level(b: *mut Board) -> Level;
            fn $cpu_read(b: *mut Board, f: *const u8, fl: usize, c: *const u8, cl: usize, a: u16, bus: u8) -> Byte;
            fn $picture_read(b: *mut Board, f: *const u8, fl: usize, c: *const u8, cl: usize, a: u16) -> Byte;
            fn $cpu_write(b: *mut Board, f: *const u8, fl: usize, c: *mut u8, cl: usize, a: u16, v: u8) -> u8;
            fn $picture_write(b: *mut Board, f: *const u8, fl: usize, c: *mut u8, cl: usize, a: u16, v: u8) -> u8;
        }
        impl Archive for $archive {
            const CREATE: Create = $create;
            const CLOCK: Clock = $clock;
            const LEVEL: LevelOf = $level;
            const CPU_READ: CpuRead = $cpu_read;
            const PICTURE_READ: PictureRead = $picture_read;
            const CPU_WRITE: Write = $cpu_write;
            const PICTURE_WRITE: Write = $picture_write;
        }
    };
}

/// This tree's archive.
pub struct Now;
#[rustfmt::skip]
archive!(
    Now, "vrc6",
    vrc6_create, vrc6_clock, vrc6_level, vrc6_cpu_read, vrc6_picture_read, vrc6_cpu_write, vrc6_picture_write
);

/// The archive that oracle/bench was given, its names behind a prefix so that both can be linked; given none, this tree's.
#[cfg(feature = "before")]
pub struct Before;
#[cfg(feature = "before")]
#[rustfmt::skip]
archive!(
    Before, "vrc6_before",
    before_vrc6_create, before_vrc6_clock, before_vrc6_level, before_vrc6_cpu_read, before_vrc6_picture_read,
    before_vrc6_cpu_write, before_vrc6_picture_write
);
#[cfg(not(feature = "before"))]
pub type Before = Now;

pub struct Lent<A = Now> {
    pub board: Board,
    pub fixed: Vec<u8>,
    pub changing: Vec<u8>,
    archive: PhantomData<A>,
}

// SAFETY, of each call: board and vectors are live and not aliased, and a board has at most 1,024 bytes (`board_bytes`).
impl<A: Archive> Lent<A> {
    /// A board on the memory of a new original; `blank` is what its room held before.
    pub fn new(s: Setup, r: &Rig, blank: u8) -> Self {
        let fixed = [&[0; 1024], r.m.region_ref(Src::PrgRom), r.m.region_ref(Src::Chr)].concat();
        let mut l = Lent { board: Board([blank; 1024]), fixed, changing: r.m.ram().to_vec(), archive: PhantomData };
        let revision = u8::from(s.rev == Revision::B);
        let settings = Settings { mirroring: s.mirroring as u8, revision, open_bus: u8::from(r.open_bus) };
        let (f, c) = (&l.fixed, &l.changing);
        let refusal = unsafe {
            (A::CREATE)(&mut l.board, Layout::of(&s), settings, f.as_ptr(), f.len(), c.as_ptr(), c.len())
        };
        assert_eq!(refusal, 0, "vrc6_create refused");
        l
    }
    /// A host with no board, for calls that do nothing.
    pub fn none() -> Self {
        Lent { board: Board([0; 1024]), fixed: vec![], changing: vec![], archive: PhantomData }
    }
    /// How many bytes of its room a board takes: up to the last one that creation writes, in whole entries of 4 bytes.
    pub fn board_bytes(s: Setup) -> usize {
        let r = Rig::new(s);
        let (a, b) = (Self::new(s, &r, 0x00), Self::new(s, &r, 0xFF));
        let last = (0..1024).rfind(|&i| a.board.0[i] == b.board.0[i]).expect("a board that creation writes");
        (last + 1).next_multiple_of(4)
    }
    #[inline(always)]
    pub fn clock(&mut self) -> Tick {
        unsafe { (A::CLOCK)(&mut self.board) }
    }
    #[inline(always)]
    pub fn level(&mut self) -> Level {
        unsafe { (A::LEVEL)(&mut self.board) }
    }
    #[inline(always)]
    pub fn cpu_read(&mut self, a: u16, bus: u8) -> Byte {
        let (f, c) = (&self.fixed, &self.changing);
        unsafe { (A::CPU_READ)(&mut self.board, f.as_ptr(), f.len(), c.as_ptr(), c.len(), a, bus) }
    }
    #[inline(always)]
    pub fn picture_read(&mut self, a: u16) -> Byte {
        let (f, c) = (&self.fixed, &self.changing);
        unsafe { (A::PICTURE_READ)(&mut self.board, f.as_ptr(), f.len(), c.as_ptr(), c.len(), a) }
    }
    #[inline(always)]
    pub fn cpu_write(&mut self, a: u16, v: u8) -> u8 {
        let (f, c) = (&self.fixed, &mut self.changing);
        unsafe { (A::CPU_WRITE)(&mut self.board, f.as_ptr(), f.len(), c.as_mut_ptr(), c.len(), a, v) }
    }
    #[inline(always)]
    pub fn picture_write(&mut self, a: u16, v: u8) -> u8 {
        let (f, c) = (&self.fixed, &mut self.changing);
        unsafe { (A::PICTURE_WRITE)(&mut self.board, f.as_ptr(), f.len(), c.as_mut_ptr(), c.len(), a, v) }
    }
}
