//! The records that cross to the archive: the structs of crates/, field for field.
use crate::Settings;
use std::mem::{offset_of, size_of};

/// Byte lengths as the cartridge states them.
#[repr(C)]
#[derive(Debug, Clone, Copy, PartialEq, Eq, Default)]
pub struct MemoryLayout {
    /// 0 to 262,144.
    pub prg_rom: u32,
    /// 0 to 262,144.
    pub chr: u32,
    /// CHR is RAM, and lies in the changing buffer.
    pub chr_writable: bool,
    /// 0 to 8,192.
    pub prg_ram: u32,
    /// 0 to 4,096; 0 means 2,048.
    pub ciram: u32,
}

fn whole_pages(n: u32) -> usize {
    (n as usize).div_ceil(1024) * 1024
}

impl MemoryLayout {
    /// A page of zeros, PRG ROM, CHR if it is not writable.
    pub fn fixed_length(&self) -> usize {
        1024 + whole_pages(self.prg_rom) + if self.chr_writable { 0 } else { whole_pages(self.chr) }
    }

    /// PRG RAM, CHR if it is writable, CIRAM.
    pub fn changing_length(&self) -> usize {
        let ciram = if self.ciram == 0 { 2048 } else { self.ciram };
        let chr = if self.chr_writable { whole_pages(self.chr) } else { 0 };
        whole_pages(self.prg_ram) + chr + whole_pages(ciram)
    }
}

/// What a board is made with, beside its memory: [`Settings`] by their numbers.
#[repr(C)]
#[derive(Debug, Clone, Copy, PartialEq, Eq, Default)]
pub struct NumberedSettings {
    /// 0 to 4.
    pub mirroring: u8,
    /// 0 for A, 1 for B.
    pub revision: u8,
    /// 0 or 1.
    pub open_bus: u8,
}

impl From<Settings> for NumberedSettings {
    fn from(s: Settings) -> Self {
        NumberedSettings { mirroring: s.mirroring as u8, revision: s.revision as u8, open_bus: s.open_bus as u8 }
    }
}

/// Bits 0 to 29 an offset that runs on from the fixed buffer into the changing one, bit 31: it takes writes. If all
/// of it is 0, nothing is there.
#[repr(C)]
#[derive(Debug, Clone, Copy, PartialEq, Eq, Default)]
pub struct Page(pub u32);

#[repr(C)]
#[derive(Debug, Clone, Copy, PartialEq, Eq, Default)]
pub struct Banking {
    pub banking_mode: u8,
    pub prg_banks: [u8; 2],
    pub chr: [u8; 8],
    pub mirroring: u8,
    pub nt_banks: [u8; 4],
    /// True for revision B.
    pub revision_b: bool,
}

#[repr(C)]
#[derive(Debug, Clone, Copy, PartialEq, Eq, Default)]
pub struct VrcIrq {
    pub reload: u8,
    pub prescalar_counter: u16,
    pub counter: u8,
    pub irq_pending: bool,
    pub enabled: bool,
    pub enabled_after_ack: bool,
    pub cycle_mode: bool,
}

#[repr(C)]
#[derive(Debug, Clone, Copy, PartialEq, Eq, Default)]
pub struct Pulse {
    pub enabled: bool,
    pub volume: u8,
    pub duty_cycle: u8,
    pub ignore_duty: bool,
    pub frequency: u16,
    pub timer: u16,
    pub step: u8,
    pub freq_shift: u8,
}

#[repr(C)]
#[derive(Debug, Clone, Copy, PartialEq, Eq, Default)]
pub struct Saw {
    pub enabled: bool,
    pub accum: u8,
    pub accum_rate: u8,
    pub frequency: u16,
    pub timer: u16,
    pub step: u8,
    pub freq_shift: u8,
}

#[repr(C)]
#[derive(Debug, Clone, Copy, PartialEq, Default)]
pub struct Audio {
    pub pulse1: Pulse,
    pub pulse2: Pulse,
    pub saw: Saw,
    pub halt: bool,
    /// The last sum, a whole number 0 to 61.
    pub out: f32,
}

/// The default board is all 0: what a refused creation leaves.
#[repr(C)]
#[derive(Debug, Clone, Copy, PartialEq)]
pub struct Board {
    pub layout: MemoryLayout,
    pub prg_pages: [Page; 64],
    pub chr_pages: [Page; 16],
    pub banking: Banking,
    pub irq: VrcIrq,
    pub audio: Audio,
    /// As the settings said; only create sets it.
    pub open_bus: bool,
}

impl Default for Board {
    fn default() -> Self {
        Board {
            layout: MemoryLayout::default(),
            prg_pages: [Page(0); 64],
            chr_pages: [Page(0); 16],
            banking: Banking::default(),
            irq: VrcIrq::default(),
            audio: Audio::default(),
            open_bus: false,
        }
    }
}

/// Whether the interrupt counter ticked.
#[repr(C)]
#[derive(Debug, Clone, Copy, PartialEq, Eq)]
pub struct Tick {
    pub ticked: bool,
    pub refusal: u8,
}

#[repr(C)]
#[derive(Debug, Clone, Copy, PartialEq, Eq)]
pub struct Peeked {
    pub byte: u8,
    pub refusal: u8,
}

/// The name is 0 for silent, 1 for held, 2 for playing.
#[repr(C)]
#[derive(Debug, Clone, Copy, PartialEq)]
pub struct EncodedLevel {
    pub level: f32,
    pub name: u8,
    pub refusal: u8,
}

/// The clocks until the counter next sets `irq_pending`, if it is armed; in line mode at prescaler 0 and counter 255 they
/// are 0, and one is needed.
#[repr(C)]
#[derive(Debug, Clone, Copy, PartialEq, Eq)]
pub struct EncodedForecast {
    pub clocks: u32,
    pub armed: bool,
    pub refusal: u8,
}

/// The 1,024 bytes from `offset` of the changing buffer if `changing`, else of the fixed one.
#[repr(C)]
#[derive(Debug, Clone, Copy, PartialEq, Eq)]
pub struct PageAt {
    pub offset: u32,
    pub changing: bool,
    pub refusal: u8,
}

/// What a cartridge file says, by numbers: mirroring 0 to 4, revision 0 for A and 1 for B. Refused, all is 0 but the
/// number.
#[repr(C)]
#[derive(Debug, Clone, Copy, PartialEq, Eq, Default)]
pub struct EncodedCartridge {
    pub layout: MemoryLayout,
    pub mirroring: u8,
    pub revision: u8,
    pub prg_start: u32,
    pub chr_start: u32,
    pub refusal: u8,
}

// The places that include/vrc6.h asserts, and host/c sees the archive use.
macro_rules! places {
    ($record:ident: $size:literal; $($field:tt $at:literal),+) => {
        const _: () = assert!(size_of::<$record>() == $size $(&& offset_of!($record, $field) == $at)+);
    };
}

places!(MemoryLayout: 20; prg_rom 0, chr 4, chr_writable 8, prg_ram 12, ciram 16);
places!(NumberedSettings: 3; mirroring 0, revision 1, open_bus 2);
places!(Page: 4; 0 0);
places!(Banking: 17; banking_mode 0, prg_banks 1, chr 3, mirroring 11, nt_banks 12, revision_b 16);
places!(VrcIrq: 10; reload 0, prescalar_counter 2, counter 4, irq_pending 5, enabled 6);
places!(VrcIrq: 10; enabled_after_ack 7, cycle_mode 8);
places!(Pulse: 10; enabled 0, volume 1, duty_cycle 2, ignore_duty 3, frequency 4, timer 6, step 8, freq_shift 9);
places!(Saw: 10; enabled 0, accum 1, accum_rate 2, frequency 4, timer 6, step 8, freq_shift 9);
places!(Audio: 36; pulse1 0, pulse2 10, saw 20, halt 30, out 32);
places!(Board: 408; layout 0, prg_pages 20, chr_pages 276, banking 340, irq 358, audio 368, open_bus 404);
places!(Tick: 2; ticked 0, refusal 1);
places!(Peeked: 2; byte 0, refusal 1);
places!(EncodedLevel: 8; level 0, name 4, refusal 5);
places!(EncodedForecast: 8; clocks 0, armed 4, refusal 5);
places!(PageAt: 8; offset 0, changing 4, refusal 5);
places!(EncodedCartridge: 36; layout 0, mirroring 20, revision 21, prg_start 24, chr_start 28, refusal 32);
