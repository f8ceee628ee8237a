//! What a cartridge file says.
use crate::{MemoryLayout, Mirroring, Refusal, Revision, Settings, calls, unless};

/// What the header of a cartridge file (iNES) states.
#[derive(Debug, Clone, Copy, PartialEq, Eq)]
pub struct Cartridge {
    pub layout: MemoryLayout,
    /// Vertical, horizontal or four screens.
    pub mirroring: Mirroring,
    pub revision: Revision,
    /// Where PRG begins in the file.
    pub prg_start: usize,
    /// Where PRG ends and CHR begins, also where CHR is writable and takes no bytes of the file.
    pub chr_start: usize,
}

impl Cartridge {
    /// `file` is the whole file; bytes behind what the header states do not count. Refused by [`Refusal::Header`], then
    /// [`Refusal::Mapper`], then [`Refusal::File`].
    pub fn parse(file: &[u8]) -> Result<Self, Refusal> {
        let read = calls::read_header(file);
        unless(read.refusal, ())?;
        Ok(Cartridge {
            layout: read.layout,
            mirroring: match read.mirroring {
                0 => Mirroring::Vertical,
                1 => Mirroring::Horizontal,
                _ => Mirroring::FourScreen,
            },
            revision: if read.revision == 0 { Revision::A } else { Revision::B },
            prg_start: read.prg_start as usize,
            chr_start: read.chr_start as usize,
        })
    }

    /// The settings of a board of this cartridge, without open bus.
    pub fn settings(&self) -> Settings {
        Settings { mirroring: self.mirroring, revision: self.revision, ..Settings::default() }
    }
}
