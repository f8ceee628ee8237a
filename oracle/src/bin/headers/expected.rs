//! What `vrc6_read_header` must answer, by the original, and which known kinds of difference lie between the two
//! (docs/DIFFERENCES.md). Where the original refuses a header that document 02 takes, the header is repaired, which it asks for
//! itself ("repair and try again"), and the original asked again: so a difference is never more than its kind says.
use crate::lent::{Cartridge, Layout};
use tetanes_shim::{
    cartridge::{Cart, Error, File, NesHeader, NesVariant},
    memory::RamState,
    ppu::Mirroring,
};

#[derive(Debug, Copy, Clone, PartialEq, Eq)]
pub enum Kind {
    BothAccept,
    BothRefuse,
    Bits01,
    Bits11,
    Trainer,
    TrainerAndBits,
    Mapper,
    Newer,
    Limits,
}

impl Kind {
    pub const ALL: [Kind; 9] = [
        Kind::BothAccept,
        Kind::BothRefuse,
        Kind::Bits01,
        Kind::Bits11,
        Kind::Trainer,
        Kind::TrainerAndBits,
        Kind::Mapper,
        Kind::Newer,
        Kind::Limits,
    ];

    pub const fn words(self) -> &'static str {
        match self {
            Kind::BothAccept => "accepted by both, equal in all",
            Kind::BothRefuse => "refused by both",
            Kind::Bits01 => "accepted, refused by the original: byte 7 bits 3 and 2 equal to 0 and 1",
            Kind::Bits11 => "accepted, refused by the original: byte 7 bits 3 and 2 equal to 1 and 1",
            Kind::Trainer => "accepted, refused by the original: a trainer",
            Kind::TrainerAndBits => "accepted, refused by the original: a trainer, and such bits of byte 7",
            Kind::Mapper => "refused by 6, read by the original: another mapper, so another board",
            Kind::Newer => "refused by 6, read by the original: byte 7 bits 3 and 2 equal to 1 and 0",
            Kind::Limits => "refused by 7, accepted by the original: a length over the limits",
        }
    }
}

pub struct Expected {
    pub answer: Cartridge,
    pub kind: Kind,
}

/// The header byte that the original refuses, or its cart, and where it stopped reading.
fn original(head: &[u8; 16], len: usize) -> Result<(Cart, usize), u8> {
    let mut file = File { head: *head, len, at: 0 };
    match Cart::from_rom_unmapped("", &mut file, RamState::AllZeros) {
        Ok(cart) => Ok((cart, file.at)),
        Err(e) => Err(refused_byte(e)),
    }
}

fn refused_byte(e: Error) -> u8 {
    match e {
        Error::InvalidHeader { byte, .. } => byte,
        Error::Io { .. } => unreachable!("a file only ends"),
    }
}

fn refused(refusal: u8) -> Cartridge {
    Cartridge { refusal, ..Cartridge::default() }
}

/// The original's cart in the proved call's words; `skipped` bytes were taken out behind the header.
fn accepted(cart: &Cart, end: usize, skipped: u32) -> Cartridge {
    let layout = &cart.memory.layout;
    let prg = cart.memory.prg().expect("PRG is always copied");
    let chr_at = cart.memory.chr().map_or(end, |chr| chr.at);
    Cartridge {
        layout: Layout {
            prg_rom: layout.prg_rom as u32,
            chr: layout.chr as u32,
            chr_writable: layout.chr_writable,
            prg_ram: layout.prg_ram as u32,
            ciram: layout.ciram as u32,
        },
        mirroring: match cart.mirroring() {
            Mirroring::Vertical => 0,
            Mirroring::Horizontal => 1,
            Mirroring::SingleScreenA => 2,
            Mirroring::SingleScreenB => 3,
            Mirroring::FourScreen => 4,
        },
        revision: (cart.header.mapper_num == 26) as u8,
        prg_start: prg.at as u32 + skipped,
        chr_start: chr_at as u32 + skipped,
        refusal: 0,
    }
}

/// A header with what only the original refuses taken out of it, and the file's length without the trainer.
struct Repaired {
    head: [u8; 16],
    len: usize,
    header: NesHeader,
    skipped: u32,
    /// The file ends within the trainer.
    cut: bool,
    kind: Option<Kind>,
}

/// None if the original finds no header at all.
fn repair(head: &[u8; 16], len: usize) -> Option<Repaired> {
    let mut r = Repaired { head: *head, len, header: NesHeader::default(), skipped: 0, cut: false, kind: None };
    loop {
        match NesHeader::load(&mut File { head: r.head, len: r.len, at: 0 }).map_err(refused_byte) {
            Ok(header) => {
                r.header = header;
                return Some(r);
            }
            Err(6) => {
                r.kind = Some(if r.kind.is_some() { Kind::TrainerAndBits } else { Kind::Trainer });
                r.head[6] &= !4;
                r.cut = r.len < 16 + 512;
                r.len = if r.cut { 16 } else { r.len - 512 };
                r.skipped = 512;
            }
            Err(7) => {
                r.kind = Some(if r.head[7] & 8 == 0 { Kind::Bits01 } else { Kind::Bits11 });
                r.head[7] &= !0x0C;
            }
            // Sizes of RAM, which only the newer edition has.
            Err(byte @ (10 | 11)) => r.head[byte as usize] = 0,
            Err(_) => return None,
        }
    }
}

/// The answer, and the kind of the difference if the original's is another.
fn answer(head: &[u8; 16], len: usize) -> (Cartridge, Option<Kind>) {
    let Some(r) = repair(head, len) else {
        return (refused(5), None);
    };
    if r.header.variant == NesVariant::Nes2 {
        return (refused(6), Some(Kind::Newer));
    }
    if r.header.mapper_num != 24 && r.header.mapper_num != 26 {
        return (refused(6), Some(Kind::Mapper));
    }
    if r.header.prg_rom_banks > 16 || r.header.chr_rom_banks > 32 {
        return (refused(7), Some(Kind::Limits));
    }
    match original(&r.head, r.len) {
        Ok((cart, end)) if !r.cut => (accepted(&cart, end, r.skipped), r.kind),
        _ => (refused(7), None),
    }
}

pub fn expect(head: &[u8; 16], len: usize) -> Expected {
    let (answer, kind) = answer(head, len);
    let kind = match (original(head, len).is_ok(), answer.refusal == 0) {
        (true, true) => Kind::BothAccept,
        (false, false) => Kind::BothRefuse,
        _ => kind.unwrap_or_else(|| panic!("no known kind: {head:02X?}, {len} bytes")),
    };
    Expected { answer, kind }
}
