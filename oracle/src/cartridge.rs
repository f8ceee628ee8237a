//! cart.rs's reading of a cartridge file: the functions that decide are cut out of it (oracle/build), and what they name and
//! isn't at hand are shims. A file is its first 16 bytes and its length here, and a buffer is the place in the file that it was
//! filled from, so that no byte of PRG or CHR is copied.
use crate::{
    memory::{MemoryLayout, RamState, Src},
    ppu::Mirroring,
};
use std::{
    fmt,
    io::{Error as IoError, ErrorKind},
    ops::{Index, IndexMut, RangeTo},
};

include!("../orig/cart.rs");

/// SHIM: what the functions make of `vec![0u8; n]`.
macro_rules! vec {
    (0u8; $n:expr) => {
        Span { at: 0, len: $n }
    };
}
use vec;

/// SHIM: nothing is logged.
macro_rules! debug {
    ($($word:tt)*) => {};
}
use debug;
use debug as warn;

type Result<T> = std::result::Result<T, Error>;

/// SHIM, without thiserror's texts.
#[derive(Debug)]
pub enum Error {
    InvalidHeader { byte: u8, value: u8, message: String },
    Io { context: String, source: IoError },
}

impl Error {
    fn io(source: IoError, context: impl Into<String>) -> Self {
        Self::Io { context: context.into(), source }
    }
}

/// A part of a file: its place, once it is read, and its length.
#[derive(Debug, Default, Copy, Clone, PartialEq, Eq)]
pub struct Span {
    pub at: usize,
    pub len: usize,
}

/// A file of which only the header's bytes are known.
pub struct File {
    pub head: [u8; 16],
    pub len: usize,
    pub at: usize,
}

/// What `read_exact` fills.
pub trait Room {
    fn len(&self) -> usize;
    fn fill(&mut self, file: &File);
}

impl Room for [u8; 16] {
    fn len(&self) -> usize {
        16
    }
    fn fill(&mut self, file: &File) {
        assert_eq!(file.at, 0, "only the header's bytes are known");
        *self = file.head;
    }
}

impl Room for Span {
    fn len(&self) -> usize {
        self.len
    }
    fn fill(&mut self, file: &File) {
        self.at = file.at;
    }
}

/// SHIM of std::io::Read: all bytes or the end of the file.
pub trait Read {
    fn read_exact<R: Room>(&mut self, room: &mut R) -> std::result::Result<(), IoError>;
}

impl Read for File {
    fn read_exact<R: Room>(&mut self, room: &mut R) -> std::result::Result<(), IoError> {
        if self.len - self.at < room.len() {
            return Err(ErrorKind::UnexpectedEof.into());
        }
        room.fill(self);
        self.at += room.len();
        Ok(())
    }
}

impl<F: Read> Read for &mut F {
    fn read_exact<R: Room>(&mut self, room: &mut R) -> std::result::Result<(), IoError> {
        (**self).read_exact(room)
    }
}

/// SHIM: a layout, and where PRG and CHR were copied from.
#[derive(Debug)]
pub struct Memory {
    pub layout: MemoryLayout,
    prg: Region,
    chr: Region,
}

/// SHIM of a region's bytes.
#[derive(Debug, Default)]
struct Region {
    from: Option<Span>,
}

impl Index<RangeTo<usize>> for Region {
    type Output = Self;
    fn index(&self, _: RangeTo<usize>) -> &Self {
        self
    }
}

impl IndexMut<RangeTo<usize>> for Region {
    fn index_mut(&mut self, _: RangeTo<usize>) -> &mut Self {
        self
    }
}

impl Region {
    fn copy_from_slice(&mut self, part: &Span) {
        self.from = Some(*part);
    }
}

impl Memory {
    fn new(layout: MemoryLayout) -> Self {
        Self { layout, prg: Region::default(), chr: Region::default() }
    }

    fn region_mut(&mut self, src: Src) -> &mut Region {
        match src {
            Src::PrgRom => &mut self.prg,
            _ => &mut self.chr,
        }
    }

    /// Where PRG was copied from.
    pub fn prg(&self) -> Option<Span> {
        self.prg.from
    }

    /// Where CHR was copied from; nowhere if it is RAM.
    pub fn chr(&self) -> Option<Span> {
        self.chr.from
    }

    fn fill_ram(&mut self, _: RamState) {}
    fn set_rom_crc32(&mut self, _: u32) {}
    fn set_mirroring(&mut self, _: Mirroring) {}
    fn set_battery_backed(&mut self, _: bool) {}
}

/// SHIM: no database of games, so that the header alone decides.
#[derive(Debug)]
pub struct GameInfo {
    region: NesRegion,
    mapper_num: u16,
}

impl Cart {
    fn rom_crc32(_: &Span, _: &Span) -> u32 {
        0
    }
    fn lookup_info(_: u32) -> Option<GameInfo> {
        None
    }
}

/// SHIM.
#[derive(Debug, Default, Copy, Clone)]
pub enum NesRegion {
    #[default]
    Ntsc,
    Pal,
    Dendy,
}

/// SHIM.
#[derive(Debug)]
pub struct Mapper;

impl Mapper {
    fn none() -> Self {
        Self
    }
}

mod mapper {
    //! SHIM. mapper.rs isn't at hand: its default of PRG RAM is taken to be 8,192, document 02's number.
    pub const DEFAULT_PRG_RAM_SIZE: usize = 8192;
    pub fn min_prg_ram(_: u16) -> usize {
        0
    }
    pub fn min_battery_ext(_: u16) -> usize {
        0
    }
}

/// SHIM: a cart's Debug asks for it.
impl fmt::Debug for NesHeader {
    fn fmt(&self, f: &mut fmt::Formatter<'_>) -> fmt::Result {
        write!(f, "NesHeader {{ mapper_num: {} }}", self.mapper_num)
    }
}
