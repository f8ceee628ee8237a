//! The original with the proved board's checks written in front of each call: what the same promise costs in Rust. A
//! call answers the number of its refusal, 0 for none, beside its result, and changes nothing where it refuses.
use tetanes_shim::{
    mapper::{
        Map,
        m024_m026_vrc6::{Pulse, Saw, Vrc6},
    },
    memory::Page,
    rig::{Rig, Setup, raw},
};

/// Byte lengths as the cartridge states them, in the order of the proved board's layout.
#[repr(C)]
#[derive(Debug, Copy, Clone)]
pub struct Layout {
    pub prg_rom: u32,
    pub chr: u32,
    pub chr_writable: bool,
    pub prg_ram: u32,
    /// 0 means 2,048.
    pub ciram: u32,
}

/// Whether a clock ticked.
#[repr(C)]
#[derive(Debug, Copy, Clone, PartialEq, Eq)]
pub struct Tick {
    pub ticked: bool,
    pub refusal: u8,
}

#[repr(C)]
#[derive(Debug, Copy, Clone, PartialEq, Eq)]
pub struct Byte {
    pub byte: u8,
    pub refusal: u8,
}

/// The name is 0 for Silent, 1 for Held, 2 for Playing.
#[repr(C)]
#[derive(Debug, Copy, Clone, PartialEq)]
pub struct Level {
    pub level: f32,
    pub name: u8,
    pub refusal: u8,
}

pub struct Checked {
    pub layout: Layout,
    pub rig: Rig,
}

const fn whole_pages(n: u32) -> u32 {
    (n + 1023) & !1023
}

impl Layout {
    pub fn of(s: &Setup) -> Self {
        Layout {
            prg_rom: s.prg as u32,
            chr: s.chr as u32,
            chr_writable: s.chr_writable,
            prg_ram: s.ram as u32,
            ciram: s.ciram as u32,
        }
    }
    #[inline(always)]
    fn within_limits(&self) -> bool {
        self.prg_rom <= 262_144 && self.chr <= 262_144 && self.prg_ram <= 8192 && self.ciram <= 4096
    }
    #[inline(always)]
    fn lengths_fit(&self, fixed: usize, changing: usize) -> bool {
        let chr = whole_pages(self.chr);
        let (fixed_chr, changing_chr) = if self.chr_writable { (0, chr) } else { (chr, 0) };
        let ciram = if self.ciram == 0 { 2048 } else { self.ciram };
        let fixed_length = 1024 + whole_pages(self.prg_rom) + fixed_chr;
        let changing_length = whole_pages(self.prg_ram) + changing_chr + whole_pages(ciram);
        fixed == fixed_length as usize && changing == changing_length as usize
    }
}

/// Whether an entry points at a whole page of one buffer, at a writable one only in the changing buffer.
#[inline(always)]
fn entry_in_range(page: Page, fixed: usize, all: usize) -> bool {
    let at = page.offset();
    let in_fixed = at + 1024 <= fixed;
    let in_changing = fixed <= at && at + 1024 <= all;
    let spare = raw(page) & 0x4000_0000 != 0;
    at % 1024 == 0 && !spare && (in_changing || in_fixed && !page.is_writable())
}

#[inline(always)]
fn channel_in_range(frequency: u16, timer: u16, shift: u8) -> bool {
    frequency <= 4095 && (1..=4096).contains(&timer) && matches!(shift, 0 | 4 | 8)
}

#[inline(always)]
fn pulse_in_range(p: &Pulse) -> bool {
    p.volume <= 15 && p.duty_cycle <= 7 && p.step <= 15 && channel_in_range(p.frequency, p.timer, p.freq_shift)
}

#[inline(always)]
fn saw_in_range(s: &Saw) -> bool {
    s.accum_rate <= 63 && s.step <= 13 && channel_in_range(s.frequency, s.timer, s.freq_shift)
}

/// Whether x is one of 0.0, 1.0, .. 61.0.
#[inline(always)]
fn is_sum(x: f32) -> bool {
    let n = x as u8;
    n <= 61 && f32::from(n).to_bits() == x.to_bits()
}

/// Interrupt and sound values.
#[inline(always)]
fn engine_in_range(b: &Vrc6) -> bool {
    let a = &b.audio;
    (0..=341).contains(&b.irq.prescalar_counter)
        && pulse_in_range(&a.pulse1)
        && pulse_in_range(&a.pulse2)
        && saw_in_range(&a.saw)
        && is_sum(a.out)
}

/// Banking values. A mirroring is an enum here, so it is in range by its type.
#[inline(always)]
fn banking_in_range(b: &Vrc6) -> bool {
    b.prg_banks[0] <= 15 && b.prg_banks[1] <= 31
}

impl Checked {
    pub fn new(s: Setup, rig: Rig) -> Self {
        Checked { layout: Layout::of(&s), rig }
    }
    /// The first failing of: layout within its limits, buffers as long as it says, values in range.
    #[inline(always)]
    fn access_refusal(&self, page: Page, others: bool) -> u8 {
        let all = self.rig.m.len();
        let changing = self.rig.m.ram().len();
        let fixed = all - changing;
        if !self.layout.within_limits() {
            1
        } else if !self.layout.lengths_fit(fixed, changing) {
            2
        } else if others && entry_in_range(page, fixed, all) {
            0
        } else {
            3
        }
    }
    #[inline(always)]
    fn cpu_page(&self, a: u16) -> Page {
        self.rig.m.prg_pages()[usize::from(a >> 10)]
    }
    #[inline(always)]
    fn picture_page(&self, a: u16) -> Page {
        self.rig.m.chr_pages()[usize::from(a >> 10) & 15]
    }
    /// With open bus it is the bus byte where nothing is there.
    #[inline(always)]
    pub fn cpu_read(&self, a: u16, bus: u8) -> Byte {
        let page = self.cpu_page(a);
        match self.access_refusal(page, true) {
            0 if self.rig.open_bus && page == Page::UNMAPPED => Byte { byte: bus, refusal: 0 },
            0 => Byte { byte: self.rig.cpu_read(a), refusal: 0 },
            refusal => Byte { byte: 0, refusal },
        }
    }
    #[inline(always)]
    pub fn picture_read(&self, a: u16) -> Byte {
        match self.access_refusal(self.picture_page(a), true) {
            0 => Byte { byte: self.rig.pic_read(a), refusal: 0 },
            refusal => Byte { byte: 0, refusal },
        }
    }
    /// From $8000 up a write can reach a register, so all banking, interrupt and sound values are checked too.
    #[inline(always)]
    pub fn cpu_write(&mut self, a: u16, v: u8) -> u8 {
        let b = &self.rig.b;
        let others = a < 0x8000 || banking_in_range(b) && engine_in_range(b);
        let refusal = self.access_refusal(self.cpu_page(a), others);
        if refusal == 0 {
            self.rig.cpu_write(a, v);
        }
        refusal
    }
    #[inline(always)]
    pub fn picture_write(&mut self, a: u16, v: u8) -> u8 {
        let refusal = self.access_refusal(self.picture_page(a), true);
        if refusal == 0 {
            self.rig.pic_write(a, v);
        }
        refusal
    }
    #[inline(always)]
    pub fn clock(&mut self) -> Tick {
        if !engine_in_range(&self.rig.b) {
            return Tick { ticked: false, refusal: 3 };
        }
        Tick { ticked: self.rig.clock(), refusal: 0 }
    }
    #[inline(always)]
    pub fn level(&self) -> Level {
        let b = &self.rig.b;
        if !engine_in_range(b) {
            return Level { level: 0.0, name: 0, refusal: 3 };
        }
        let a = &b.audio;
        let enabled = a.pulse1.enabled | a.pulse2.enabled | a.saw.enabled;
        let name = if !enabled { 0 } else { 2 - u8::from(a.halt) };
        Level { level: b.output(), name, refusal: 0 }
    }
}
