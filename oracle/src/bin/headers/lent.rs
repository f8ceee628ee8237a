//! The proved call by C's convention.

#[repr(C)]
#[derive(Debug, Default, Copy, Clone, PartialEq, Eq)]
pub struct Layout {
    pub prg_rom: u32,
    pub chr: u32,
    pub chr_writable: bool,
    pub prg_ram: u32,
    pub ciram: u32,
}

/// Refused, all but the number is 0.
#[repr(C)]
#[derive(Debug, Default, Copy, Clone, PartialEq, Eq)]
pub struct Cartridge {
    pub layout: Layout,
    pub mirroring: u8,
    pub revision: u8,
    pub prg_start: u32,
    pub chr_start: u32,
    pub refusal: u8,
}

const _: () = assert!(size_of::<Cartridge>() == 36);

#[link(name = "vrc6", kind = "static")]
unsafe extern "C" {
    fn vrc6_read_header(file: *const u8, file_len: usize) -> Cartridge;
}

/// A file's bytes; behind the header they are of no account.
pub struct Lent {
    bytes: Vec<u8>,
}

/// As long as a header can ask for, and a bit more.
pub const LONGEST: usize = 16 + 512 + 255 * 16384 + 255 * 8192 + 4096;

impl Lent {
    pub fn new() -> Self {
        Lent { bytes: (0..LONGEST).map(|i| (i * 167 + i / 256) as u8).collect() }
    }

    pub fn read_header(&mut self, head: &[u8; 16], len: usize) -> Cartridge {
        self.bytes[..16].copy_from_slice(head);
        let file = &self.bytes[..len];
        // SAFETY: the slice is live, and the call changes nothing.
        unsafe { vrc6_read_header(file.as_ptr(), file.len()) }
    }
}
