//! The cartridge of the tests: layout S of the reference positions, each page of ROM filled with its number.
use vrc6::{MemoryLayout, Revision, Settings, Vrc6};

pub const S: MemoryLayout =
    MemoryLayout { prg_rom: 131_072, chr: 131_072, chr_writable: false, prg_ram: 8192, ciram: 2048 };

/// What the bus holds whenever a test reads: no byte of the cartridge is this one.
pub const BUS: u8 = 0xA5;

pub fn fixed(layout: &MemoryLayout) -> Vec<u8> {
    (0..layout.fixed_length()).map(|at| (at / 1024).saturating_sub(1) as u8 % 128).collect()
}

pub fn changing(layout: &MemoryLayout) -> Vec<u8> {
    vec![0x5A; layout.changing_length()]
}

pub fn board_with(layout: MemoryLayout, settings: Settings) -> Vrc6 {
    Vrc6::new(layout, settings, fixed(&layout), changing(&layout)).expect("a board")
}

pub fn board_of(layout: MemoryLayout, revision: Revision) -> Vrc6 {
    board_with(layout, Settings { revision, ..Settings::default() })
}
