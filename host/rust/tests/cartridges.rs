//! Cartridge files: what a header states, what the buffers are filled with, and the board of a file.
use vrc6::records::EncodedCartridge;
use vrc6::{Cartridge, MemoryLayout, Mirroring, Refusal, Revision, Settings, Vrc6, calls, unless};

/// Bits of header byte 6.
const VERTICAL: u8 = 1;
const TRAINER: u8 = 4;
const FOUR_SCREENS: u8 = 8;

/// What the bus holds whenever a test reads.
const BUS: u8 = 0xA5;

/// A file of these units of PRG and CHR, as long as its header says. Behind the header each byte tells its place.
fn file_of(prg: u8, chr: u8, mapper: u8, flags: u8) -> Vec<u8> {
    let trainer = if flags & TRAINER == 0 { 0 } else { 512 };
    let length = 16 + trainer + 16_384 * prg as usize + 8192 * chr as usize;
    let mut file: Vec<u8> = (0..length).map(|at| (at + 37 * (at / 256)) as u8).collect();
    file[..16].fill(0);
    file[..8].copy_from_slice(&[0x4E, 0x45, 0x53, 0x1A, prg, chr, (mapper % 16 * 16) | flags, mapper / 16 * 16]);
    file
}

/// 2 units of PRG and 3 of CHR, horizontal, of revision A.
fn small() -> Vec<u8> {
    file_of(2, 3, 24, 0)
}

fn with(mut file: Vec<u8>, at: usize, val: u8) -> Vec<u8> {
    file[at] = val;
    file
}

const SMALL: Cartridge = Cartridge {
    layout: MemoryLayout { prg_rom: 32_768, chr: 24_576, chr_writable: false, prg_ram: 8192, ciram: 2048 },
    mirroring: Mirroring::Horizontal,
    revision: Revision::A,
    prg_start: 16,
    chr_start: 32_784,
};

/// Both buffers of a file's layout, filled. A byte behind each stays as it was.
fn filled(file: &[u8], layout: &MemoryLayout) -> (Vec<u8>, Vec<u8>) {
    let (fixed_len, changing_len) = (layout.fixed_length(), layout.changing_length());
    let (mut fixed, mut changing) = (vec![0xEE; fixed_len + 1], vec![0xEE; changing_len + 1]);
    assert_eq!(calls::fill(file, &mut fixed[..fixed_len], &mut changing[..changing_len]), 0);
    assert_eq!((fixed.pop(), changing.pop()), (Some(0xEE), Some(0xEE)));
    (fixed, changing)
}

/// What they have to be: the file's bytes behind a page of zeros, and zeros.
fn wanted(file: &[u8], read: &Cartridge) -> (Vec<u8>, Vec<u8>) {
    let chr = if read.layout.chr_writable { 0 } else { read.layout.chr as usize };
    let rom = &file[read.prg_start..read.chr_start + chr];
    ([&[0; 1024], rom].concat(), vec![0; read.layout.changing_length()])
}

#[test]
fn small_file() {
    assert_eq!(Cartridge::parse(&small()), Ok(SMALL));
    let vertical = Cartridge { mirroring: Mirroring::Vertical, ..SMALL };
    assert_eq!(Cartridge::parse(&file_of(2, 3, 24, VERTICAL)), Ok(vertical));
    let b = Cartridge { revision: Revision::B, ..SMALL };
    assert_eq!(Cartridge::parse(&file_of(2, 3, 26, 0)), Ok(b));
    let behind_trainer = Cartridge { prg_start: 528, chr_start: 33_296, ..SMALL };
    assert_eq!(Cartridge::parse(&file_of(2, 3, 24, TRAINER)), Ok(behind_trainer));
    let four =
        Cartridge { layout: MemoryLayout { ciram: 4096, ..SMALL.layout }, mirroring: Mirroring::FourScreen, ..SMALL };
    assert_eq!(Cartridge::parse(&file_of(2, 3, 24, FOUR_SCREENS)), Ok(four));
    assert_eq!(Cartridge::parse(&file_of(2, 3, 24, FOUR_SCREENS | VERTICAL)), Ok(four));
}

#[test]
fn settings_of_a_cartridge() {
    let stated = Settings { mirroring: Mirroring::Horizontal, revision: Revision::A, open_bus: false };
    assert_eq!(SMALL.settings(), stated);
    let other = Cartridge { mirroring: Mirroring::FourScreen, revision: Revision::B, ..SMALL };
    let stated = Settings { mirroring: Mirroring::FourScreen, revision: Revision::B, open_bus: false };
    assert_eq!(other.settings(), stated);
}

/// Every byte of PRG and CHR, as the board shows it.
#[test]
fn bytes_of_the_file() {
    for (mapper, flags) in [(24, 0), (26, 0), (24, TRAINER | VERTICAL), (26, TRAINER | FOUR_SCREENS)] {
        let file = file_of(3, 5, mapper, flags);
        let read = Cartridge::parse(&file).expect("accepted");
        let mut v = Vrc6::from_ines(&file).expect("a board");
        for (n, bank) in (0..).zip(file[read.prg_start..read.chr_start].chunks(16_384)) {
            v.cpu_write(0x8000, n).expect("accepted");
            let shown: Vec<u8> = (0x8000..0xC000).map(|addr| v.cpu_read(addr, BUS).expect("accepted")).collect();
            assert_eq!(shown, bank);
        }
        for (n, page) in (0..).zip(file[read.chr_start..].chunks(1024)) {
            v.cpu_write(0xD000, n).expect("accepted");
            assert_eq!(v.page_view(0), Ok(page));
            assert_eq!(v.picture_read(77), Ok(page[77]));
        }
    }
}

#[test]
fn board_of_a_file() {
    let file = file_of(2, 3, 26, FOUR_SCREENS);
    let read = Cartridge::parse(&file).expect("accepted");
    let (fixed, changing) = filled(&file, &read.layout);
    assert_eq!(Vrc6::from_ines(&file), Vrc6::new(read.layout, read.settings(), fixed, changing));
    let v = Vrc6::from_ines(&file).expect("a board");
    let banking = v.board().banking;
    assert_eq!((banking.mirroring, banking.revision_b, v.board().open_bus), (4, true, false));
    assert_eq!((banking.nt_banks, v.board().layout), ([0, 1, 2, 3], read.layout));
}

#[test]
fn settings_of_the_host() {
    let open = |stated| Settings { open_bus: true, ..stated };
    let mut v = Vrc6::from_ines_with(&small(), open).expect("a board");
    assert_eq!((v.cpu_read(0x6000, BUS), v.board().banking.mirroring), (Ok(BUS), 1));
    let mut v = Vrc6::from_ines(&small()).expect("a board");
    assert_eq!(v.cpu_read(0x6000, BUS), Ok(0));
    assert_eq!(Vrc6::from_ines_with(&[], open), Err(Refusal::Header));
}

/// CHR of no units takes no bytes of the file, and takes writes.
#[test]
fn chr_ram() {
    let file = file_of(2, 0, 24, TRAINER);
    let read = Cartridge::parse(&file).expect("accepted");
    assert_eq!((read.layout.chr, read.layout.chr_writable, read.chr_start), (8192, true, file.len()));
    assert_eq!(filled(&file, &read.layout), wanted(&file, &read));
    let mut v = Vrc6::from_ines(&file).expect("a board");
    assert_eq!(v.page_view(0), Ok([0; 1024].as_slice()));
    v.picture_write(5, 77).expect("accepted");
    assert_eq!(v.picture_read(5), Ok(77));
}

#[test]
fn buffers_of_the_limits() {
    for (prg, chr) in [(0, 1), (1, 0), (0, 0), (1, 1), (16, 32), (16, 0), (0, 32)] {
        for flags in [0, TRAINER, FOUR_SCREENS] {
            // A byte behind CHR does not count.
            let file = [file_of(prg, chr, 24, flags), vec![0x99]].concat();
            let read = Cartridge::parse(&file).expect("accepted");
            assert_eq!(read.layout.prg_rom, 16_384 * prg as u32);
            assert!(filled(&file, &read.layout) == wanted(&file, &read));
            assert!(Vrc6::from_ines(&file).is_ok());
        }
    }
}

/// A file that every way to take it refuses by one number. Buffers stay as they were, whatever their lengths.
fn refused(file: &[u8], refusal: Refusal) {
    assert_eq!(Cartridge::parse(file), Err(refusal));
    assert_eq!(Vrc6::from_ines(file), Err(refusal));
    let number = refusal as u8;
    assert_eq!(calls::read_header(file), EncodedCartridge { refusal: number, ..EncodedCartridge::default() });
    for (fixed_len, changing_len) in [(58_368, 10_240), (1024, 0), (0, 0)] {
        let (mut fixed, mut changing) = (vec![0xEE; fixed_len], vec![0xEE; changing_len]);
        assert_eq!(calls::fill(file, &mut fixed, &mut changing), number);
        assert!(fixed.iter().chain(&changing).all(|&byte| byte == 0xEE));
    }
}

#[test]
fn refused_by_the_header() {
    for length in 0..16 {
        refused(&small()[..length], Refusal::Header);
    }
    for at in 0..4 {
        refused(&with(small(), at, 0), Refusal::Header);
        // Before another mapper, and a file that ends early.
        refused(&with(file_of(2, 3, 25, 0), at, 0xFF)[..16], Refusal::Header);
    }
    refused(&file_of(2, 3, 25, 0)[..15], Refusal::Header);
}

#[test]
fn refused_by_the_mapper() {
    for mapper in (0..=255).filter(|n| ![24, 26].contains(n)) {
        refused(&file_of(2, 3, mapper, 0), Refusal::Mapper);
    }
    for low in 0..16 {
        let file = with(small(), 7, 0x10 | low);
        // The newer edition, also where the file ends early.
        if low & 0b1100 == 0b1000 {
            refused(&file, Refusal::Mapper);
            refused(&file[..16], Refusal::Mapper);
        } else {
            assert_eq!(Cartridge::parse(&file), Ok(SMALL));
        }
    }
    refused(&with(file_of(2, 3, 25, 0), 4, 17), Refusal::Mapper);
}

#[test]
fn refused_by_the_file() {
    for file in [small(), file_of(2, 3, 26, TRAINER), file_of(1, 0, 24, 0), file_of(0, 1, 24, 0)] {
        refused(&file[..file.len() - 1], Refusal::File);
        refused(&file[..16], Refusal::File);
    }
    refused(&with(small(), 6, 0x80 | TRAINER), Refusal::File);
    for (prg, chr) in [(17, 0), (17, 1), (0, 33), (1, 33), (255, 255)] {
        refused(&file_of(prg, chr, 24, 0), Refusal::File);
    }
}

#[test]
fn buffers_of_other_lengths() {
    let lengths = [(58_367, 10_240), (58_369, 10_240), (58_368, 10_239), (58_368, 10_241), (0, 10_240), (58_368, 0)];
    for (fixed_len, changing_len) in lengths {
        let (mut fixed, mut changing) = (vec![0xEE; fixed_len], vec![0xEE; changing_len]);
        assert_eq!(calls::fill(&small(), &mut fixed, &mut changing), 2);
        assert!(fixed.iter().chain(&changing).all(|&byte| byte == 0xEE));
    }
}

#[test]
fn refusals_have_texts() {
    let texts: Vec<String> = (1..=7).map(|n| unless(n, ()).expect_err("refused").to_string()).collect();
    let mut different = texts.clone();
    different.sort();
    different.dedup();
    assert_eq!(different.len(), texts.len());
}
