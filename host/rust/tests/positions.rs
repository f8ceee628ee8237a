//! The reference positions of layout S, and that each call answers.
mod common;
use common::{BUS, S, board_of, board_with};
use vrc6::{Level, MemoryLayout, Revision, Settings, Vrc6};

fn fresh() -> Vrc6 {
    board_of(S, Revision::A)
}

fn written(writes: &[(u16, u8)]) -> Vrc6 {
    let mut v = fresh();
    for &(addr, val) in writes {
        v.cpu_write(addr, val).expect("accepted");
    }
    v
}

fn cpu_entry(v: &Vrc6, addr: usize) -> u32 {
    v.board().prg_pages[addr / 1024].0
}

fn picture_entry(v: &Vrc6, addr: usize) -> u32 {
    v.board().chr_pages[addr / 1024].0
}

#[test]
fn prg_entries() {
    assert_eq!(cpu_entry(&fresh(), 0xE000), 123_904);
    assert_eq!(cpu_entry(&written(&[(0x8000, 0x1F)]), 0x8000), 115_712);
    let short = board_of(MemoryLayout { prg_rom: 20_480, ..S }, Revision::A);
    assert_eq!(cpu_entry(&short, 0xE000), 9216);
    let none = board_of(MemoryLayout { prg_rom: 0, ..S }, Revision::A);
    assert_eq!(cpu_entry(&none, 0xE000), 0);
}

#[test]
fn chr_pairs() {
    let page = |n: u32| 1024 + 131_072 + 1024 * n;
    let v = written(&[(0xB003, 0x21), (0xD000, 7)]);
    assert_eq!([picture_entry(&v, 0), picture_entry(&v, 0x400)], [page(6), page(7)]);
    let v = written(&[(0xB003, 0x01), (0xD000, 7)]);
    assert_eq!([picture_entry(&v, 0), picture_entry(&v, 0x400)], [page(7), page(7)]);
}

#[test]
fn nametables_from_chr() {
    let v = written(&[(0xB003, 0x30), (0xE002, 5), (0xE003, 9)]);
    assert_eq!(v.board().banking.nt_banks, [4, 5, 8, 9]);
    assert_eq!(picture_entry(&v, 0x2000), 136_192);
    assert_eq!(picture_entry(&v, 0x3000), 136_192);
}

#[test]
fn revision_b_exchanges_lines() {
    let mut v = board_of(S, Revision::B);
    v.cpu_write(0xD002, 7).expect("accepted");
    assert_eq!(v.board().banking.chr[1], 7);
}

#[test]
fn ticks_at_114_and_228() {
    let mut v = written(&[(0xF000, 0xFE), (0xF001, 2)]);
    assert_eq!(v.forecast(), Ok(Some(228)));
    let ticks: Vec<u32> = (1..=227).filter(|_| v.clock().expect("accepted")).collect();
    assert_eq!((ticks, v.irq_pending()), (vec![114], false));
    assert_eq!((v.clock(), v.irq_pending()), (Ok(true), true));
}

#[test]
fn reset_control_acknowledge_clock() {
    let mut v = written(&[(0x9003, 1), (0xF001, 2)]);
    v.reset().expect("accepted");
    assert_eq!((v.forecast(), v.board().audio.halt), (Ok(None), false));
    v.cpu_write(0xF001, 1).expect("accepted");
    v.cpu_write(0xF002, 0).expect("accepted");
    assert_eq!((v.clock(), v.board().irq.prescalar_counter), (Ok(true), 338));
}

#[test]
fn saw_discards_the_carry() {
    let mut v = written(&[(0xB000, 43), (0xB001, 0), (0xB002, 0x80)]);
    // An addition every second clock, the first clock being odd.
    for _ in 0..10 {
        v.clock().expect("accepted");
    }
    assert_eq!(v.board().audio.saw.accum, 215);
    v.clock().expect("accepted");
    v.clock().expect("accepted");
    assert_eq!(v.board().audio.saw.accum, 2);
}

#[test]
fn frequency_shifted() {
    let mut v = written(&[(0x9003, 6), (0x9001, 0xFF), (0x9002, 0x8F)]);
    assert_eq!((v.board().audio.pulse1.freq_shift, v.board().audio.pulse1.frequency), (8, 4095));
    v.clock().expect("accepted");
    assert_eq!(v.board().audio.pulse1.timer, 16);
}

#[test]
fn level_has_a_name() {
    let mut v = written(&[(0x9000, 0x8F), (0x9002, 0x80)]);
    v.clock().expect("accepted");
    let full = 0.257_512_57_f32 / 15.0 * 15.0;
    assert_eq!(v.level(), Ok(Level::Playing(full)));
    v.cpu_write(0x9003, 1).expect("accepted");
    assert_eq!(v.level(), Ok(Level::Held(full)));
    assert_eq!(fresh().level(), Ok(Level::Silent(0.0)));
}

#[test]
fn bytes_and_pages() {
    let mut v = written(&[(0x8000, 3), (0xC000, 5), (0xB003, 0xA0), (0xD001, 9)]);
    let read: Vec<u8> = [0x8000, 0xC000, 0xE000].iter().map(|&a| v.cpu_read(a, BUS).expect("accepted")).collect();
    assert_eq!(read, [48, 40, 120]);
    assert_eq!(v.picture_read(0x0400), Ok(9));
    assert_eq!(v.page_view(0x0400), Ok([9; 1024].as_slice()));
    v.cpu_write(0x6123, 77).expect("accepted");
    assert_eq!(v.cpu_read(0x6123, BUS), Ok(77));
    v.picture_write(0x2401, 33).expect("accepted");
    assert_eq!(v.page_view(0x2400).expect("accepted")[..3], [0x5A, 33, 0x5A]);
    // A write to ROM changes nothing.
    v.picture_write(0x0400, 1).expect("accepted");
    assert_eq!(v.picture_read(0x0400), Ok(9));
}

/// A board without open bus, and one with it.
fn off_and_open(layout: MemoryLayout) -> (Vrc6, Vrc6) {
    let off = board_of(layout, Revision::A);
    (off, board_with(layout, Settings { open_bus: true, ..Settings::default() }))
}

#[test]
fn work_ram_switched_off() {
    let (mut off, mut open) = off_and_open(S);
    let mut both = |addr, bus| (off.cpu_read(addr, bus), open.cpu_read(addr, bus));
    for addr in [0x0000, 0x5FFF, 0x6000, 0x7FFF] {
        for bus in [0x00, BUS, 0xFF] {
            assert_eq!(both(addr, bus), (Ok(0), Ok(bus)));
        }
    }
    assert_eq!(both(0xE000, BUS), (Ok(120), Ok(120)));
    for (mode, off_byte, open_byte) in [(0xA0, 0x5A, 0x5A), (0x20, 0, BUS)] {
        off.cpu_write(0xB003, mode).expect("accepted");
        open.cpu_write(0xB003, mode).expect("accepted");
        assert_eq!((off.cpu_read(0x6000, BUS), open.cpu_read(0x6000, BUS)), (Ok(off_byte), Ok(open_byte)));
    }
}

#[test]
fn open_bus_is_kept() {
    let (_, mut open) = off_and_open(S);
    open.cpu_write(0x6000, 7).expect("accepted");
    open.cpu_write(0xC000, 7).expect("accepted");
    open.clock().expect("accepted");
    open.reset().expect("accepted");
    assert!(open.board().open_bus);
    assert_eq!(open.cpu_read(0x6000, BUS), Ok(BUS));
    // The write to $6000 was stored nowhere.
    open.cpu_write(0xB003, 0xA0).expect("accepted");
    assert_eq!(open.cpu_read(0x6000, BUS), Ok(0x5A));
}

/// With no ROM nothing is there on either side, but for the nametables.
#[test]
fn open_bus_without_rom() {
    let (mut off, mut open) = off_and_open(MemoryLayout { prg_rom: 0, chr: 0, prg_ram: 0, ..S });
    for addr in (0..=0xFFFF).step_by(0x155) {
        assert_eq!((off.cpu_read(addr, BUS), open.cpu_read(addr, BUS)), (Ok(0), Ok(BUS)));
        let byte = if addr & 0x2000 == 0 { 0 } else { 0x5A };
        assert_eq!((off.picture_read(addr), open.picture_read(addr)), (Ok(byte), Ok(byte)));
        assert_eq!(off.page_view(addr), open.page_view(addr));
    }
}
