//! Bad input: each call is refused by its number, and leaves board and buffers as they were.
mod common;
use common::{BUS, S, board_of, board_with, changing, fixed};
use vrc6::records::{EncodedForecast, EncodedLevel, NumberedSettings, PageAt, Peeked, Tick};
use vrc6::{Board, MemoryLayout, Refusal, Revision, Settings, Vrc6, calls, unless};

fn created(layout: MemoryLayout, fixed: Vec<u8>, changing: Vec<u8>) -> Result<Vrc6, Refusal> {
    Vrc6::new(layout, Settings::default(), fixed, changing)
}

/// The calls that take buffers. A refused read gives no bus byte.
fn refused_with_buffers(board: Board, f: &[u8], c: &mut [u8], refusal: u8) {
    let (mut b, before) = (board, c.to_vec());
    for addr in [0x0000, 0x6000, 0x8000, 0xFFFF] {
        assert_eq!(calls::cpu_read(&mut b, f, c, addr, BUS), Peeked { byte: 0, refusal });
        assert_eq!(calls::picture_read(&mut b, f, c, addr), Peeked { byte: 0, refusal });
        assert_eq!(calls::page_view(&mut b, f, c, addr), PageAt { offset: 0, changing: false, refusal });
        assert_eq!(calls::picture_write(&mut b, f, c, addr, 1), refusal);
        assert_eq!(calls::cpu_write(&mut b, f, c, addr, 1), refusal);
    }
    assert_eq!((b, c.to_vec()), (board, before));
}

/// The calls that take none, on interrupt or sound values out of range.
fn refused_without_buffers(board: Board) {
    let mut b = board;
    assert_eq!(calls::clock(&mut b), Tick { ticked: false, refusal: 3 });
    assert_eq!(calls::clock_number(&mut b), 6);
    assert_eq!(calls::reset(&mut b), 3);
    assert_eq!(calls::level(&mut b), EncodedLevel { level: 0.0, name: 0, refusal: 3 });
    assert_eq!(calls::forecast(&mut b), EncodedForecast { clocks: 0, armed: false, refusal: 3 });
    assert_eq!(b, board);
}

/// A board that was created has no value out of range, so no call on it shows what number 3 becomes.
#[test]
fn each_number_is_its_refusal() {
    let of_boards = [Refusal::Limits, Refusal::Lengths, Refusal::Values, Refusal::Zeros];
    let of_files = [Refusal::Header, Refusal::Mapper, Refusal::File];
    for (number, refusal) in (1..).zip(of_boards.into_iter().chain(of_files)) {
        assert_eq!(unless(number, ()), Err(refusal));
        assert_eq!(refusal as u8, number);
    }
    assert_eq!(unless(0, 7), Ok(7));
}

#[test]
fn creation() {
    for layout in [
        MemoryLayout { prg_rom: 262_145, ..S },
        MemoryLayout { chr: 262_145, ..S },
        MemoryLayout { prg_ram: 8193, ..S },
        MemoryLayout { ciram: 4097, ..S },
    ] {
        assert_eq!(created(layout, fixed(&S), changing(&S)), Err(Refusal::Limits));
    }
    assert_eq!(created(S, fixed(&S)[1..].to_vec(), changing(&S)), Err(Refusal::Lengths));
    assert_eq!(created(S, fixed(&S), vec![]), Err(Refusal::Lengths));
    let mut not_zero = fixed(&S);
    not_zero[1023] = 1;
    assert_eq!(created(S, not_zero, changing(&S)), Err(Refusal::Zeros));
}

#[test]
fn numbers_that_name_nothing() {
    let (f, c) = (fixed(&S), changing(&S));
    let numbers = [(5, 0, 0), (9, 0, 1), (255, 1, 1), (0, 2, 0), (4, 255, 1), (0, 0, 2), (4, 1, 255)];
    for (mirroring, revision, open_bus) in numbers {
        let named = Settings { revision: Revision::B, open_bus: true, ..Settings::default() };
        let mut b = *board_with(S, named).board();
        let settings = NumberedSettings { mirroring, revision, open_bus };
        assert_eq!(calls::create(&mut b, S, settings, &f, &c), 3);
        assert_eq!(b, Board::default());
        refused_without_buffers(b);
        refused_with_buffers(b, &f, &mut c.clone(), 2);
    }
}

#[test]
fn lengths_and_limits() {
    let (f, mut c) = (fixed(&S), changing(&S));
    for open_bus in [false, true] {
        let made = *board_with(S, Settings { open_bus, ..Settings::default() }).board();
        assert_eq!(made.open_bus, open_bus);
        refused_with_buffers(made, &f[1..], &mut c, 2);
        refused_with_buffers(made, &f, &mut c[1..], 2);
        refused_with_buffers(made, &[], &mut [], 2);
        let layout = MemoryLayout { prg_rom: 262_145, ..S };
        refused_with_buffers(Board { layout, ..made }, &f, &mut c, 1);
    }
}

#[test]
fn values_out_of_range() {
    let made = *board_of(S, Revision::A).board();
    let changes: [fn(&mut Board); 7] = [
        |b| b.irq.prescalar_counter = 342,
        |b| b.audio.pulse1.volume = 16,
        |b| b.audio.pulse2.duty_cycle = 8,
        |b| b.audio.pulse2.timer = 0,
        |b| b.audio.saw.step = 14,
        |b| b.audio.saw.freq_shift = 1,
        |b| b.audio.out = 62.0,
    ];
    for change in changes {
        let mut b = made;
        change(&mut b);
        refused_without_buffers(b);
    }
    // Equal to nothing, so only the number is compared.
    let mut b = made;
    b.audio.out = f32::NAN;
    assert_eq!(calls::clock(&mut b).refusal, 3);
}
