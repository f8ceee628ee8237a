//! The archive's calls as safe functions, and the only unsafe code of this package. Each answers as its contract in
//! crates/host_calls says: a refusal is a number, 0 for none. A refused call leaves board and buffers as they were; a
//! refused create leaves the zero board.
//!
//! What the archive cannot check, Rust's types promise: a reference is live and not aliased, a slice is as long as it
//! says, a bool is 0 or 1. The archive keeps no pointer.
use crate::records::{
    Board, EncodedCartridge, EncodedForecast, EncodedLevel, MemoryLayout, NumberedSettings, PageAt, Peeked, Tick,
};

// A slice crosses as a pointer and a length.
#[rustfmt::skip]
unsafe extern "C" {
    fn vrc6_create(
        board: *mut Board, layout: MemoryLayout, settings: NumberedSettings,
        fixed: *const u8, fixed_len: usize, changing: *const u8, changing_len: usize,
    ) -> u8;
    fn vrc6_clock(board: *mut Board) -> Tick;
    fn vrc6_clock_number(board: *mut Board) -> u8;
    fn vrc6_cpu_read(
        board: *mut Board, fixed: *const u8, fixed_len: usize, changing: *const u8, changing_len: usize,
        addr: u16, bus: u8,
    ) -> Peeked;
    fn vrc6_picture_read(
        board: *mut Board, fixed: *const u8, fixed_len: usize, changing: *const u8, changing_len: usize, addr: u16,
    ) -> Peeked;
    fn vrc6_cpu_write(
        board: *mut Board, fixed: *const u8, fixed_len: usize, changing: *mut u8, changing_len: usize,
        addr: u16, val: u8,
    ) -> u8;
    fn vrc6_picture_write(
        board: *mut Board, fixed: *const u8, fixed_len: usize, changing: *mut u8, changing_len: usize,
        addr: u16, val: u8,
    ) -> u8;
    fn vrc6_reset(board: *mut Board) -> u8;
    fn vrc6_level(board: *mut Board) -> EncodedLevel;
    fn vrc6_forecast(board: *mut Board) -> EncodedForecast;
    fn vrc6_page_view(
        board: *mut Board, fixed: *const u8, fixed_len: usize, changing: *const u8, changing_len: usize, addr: u16,
    ) -> PageAt;
    fn vrc6_read_header(file: *const u8, file_len: usize) -> EncodedCartridge;
    fn vrc6_fill(
        file: *const u8, file_len: usize, fixed: *mut u8, fixed_len: usize, changing: *mut u8, changing_len: usize,
    ) -> u8;
}

pub fn create(
    board: &mut Board,
    layout: MemoryLayout,
    settings: NumberedSettings,
    fixed: &[u8],
    changing: &[u8],
) -> u8 {
    let (f, c) = (fixed, changing);
    // SAFETY: one live board; two live slices with their own lengths, only read.
    unsafe { vrc6_create(board, layout, settings, f.as_ptr(), f.len(), c.as_ptr(), c.len()) }
}

pub fn clock(board: &mut Board) -> Tick {
    // SAFETY: one live board.
    unsafe { vrc6_clock(board) }
}

/// The same clock: 1 for a tick, 6 for a refusal (by 3), otherwise 0.
pub fn clock_number(board: &mut Board) -> u8 {
    // SAFETY: one live board.
    unsafe { vrc6_clock_number(board) }
}

/// Where nothing is there a board with `open_bus` gives `bus`, and a board without it shows the fixed buffer's first page.
/// Refused, the byte is 0.
pub fn cpu_read(board: &mut Board, fixed: &[u8], changing: &[u8], addr: u16, bus: u8) -> Peeked {
    // SAFETY: one live board; two live slices with their own lengths, only read.
    unsafe { vrc6_cpu_read(board, fixed.as_ptr(), fixed.len(), changing.as_ptr(), changing.len(), addr, bus) }
}

pub fn picture_read(board: &mut Board, fixed: &[u8], changing: &[u8], addr: u16) -> Peeked {
    // SAFETY: one live board; two live slices with their own lengths, only read.
    unsafe { vrc6_picture_read(board, fixed.as_ptr(), fixed.len(), changing.as_ptr(), changing.len(), addr) }
}

pub fn cpu_write(board: &mut Board, fixed: &[u8], changing: &mut [u8], addr: u16, val: u8) -> u8 {
    let (f, c) = (fixed, changing);
    // SAFETY: one live board; two live slices with their own lengths, the second not aliased and written in place.
    unsafe { vrc6_cpu_write(board, f.as_ptr(), f.len(), c.as_mut_ptr(), c.len(), addr, val) }
}

pub fn picture_write(board: &mut Board, fixed: &[u8], changing: &mut [u8], addr: u16, val: u8) -> u8 {
    let (f, c) = (fixed, changing);
    // SAFETY: one live board; two live slices with their own lengths, the second not aliased and written in place.
    unsafe { vrc6_picture_write(board, f.as_ptr(), f.len(), c.as_mut_ptr(), c.len(), addr, val) }
}

pub fn reset(board: &mut Board) -> u8 {
    // SAFETY: one live board.
    unsafe { vrc6_reset(board) }
}

pub fn level(board: &mut Board) -> EncodedLevel {
    // SAFETY: one live board.
    unsafe { vrc6_level(board) }
}

pub fn forecast(board: &mut Board) -> EncodedForecast {
    // SAFETY: one live board.
    unsafe { vrc6_forecast(board) }
}

pub fn page_view(board: &mut Board, fixed: &[u8], changing: &[u8], addr: u16) -> PageAt {
    // SAFETY: one live board; two live slices with their own lengths, only read.
    unsafe { vrc6_page_view(board, fixed.as_ptr(), fixed.len(), changing.as_ptr(), changing.len(), addr) }
}

/// What the header of a cartridge file states; `file` is the whole file. Refused by 5, 6 or 7.
pub fn read_header(file: &[u8]) -> EncodedCartridge {
    // SAFETY: a live slice with its own length, only read.
    unsafe { vrc6_read_header(file.as_ptr(), file.len()) }
}

/// `fixed` becomes a page of zeros, the file's PRG, and its CHR if it is not writable; `changing` becomes zeros.
/// Refused by 5, 6 or 7 as [`read_header`], then by 2 if a buffer's length is not the layout's.
pub fn fill(file: &[u8], fixed: &mut [u8], changing: &mut [u8]) -> u8 {
    let (f, c) = (fixed, changing);
    // SAFETY: three live slices with their own lengths, one only read, the others not aliased and written in place.
    unsafe { vrc6_fill(file.as_ptr(), file.len(), f.as_mut_ptr(), f.len(), c.as_mut_ptr(), c.len()) }
}
