//! The proved VRC6 board for Rust hosts. [`Vrc6`] owns a board and its two buffers, and [`Vrc6::from_ines`] makes both
//! from a cartridge file; [`calls`] has the same calls for a host that keeps board and buffers itself.
pub mod calls;
mod cartridge;
pub mod records;

pub use cartridge::Cartridge;
pub use records::{Board, MemoryLayout};

/// Why a call is refused: the first condition that fails, in this order, but that a file is checked before buffers are.
/// A refused call leaves board and buffers as they were; a refused create leaves the zero board, and [`Vrc6::new`] gives
/// none.
#[derive(Debug, Clone, Copy, PartialEq, Eq)]
pub enum Refusal {
    /// A length of the layout is above its limit.
    Limits = 1,
    /// A buffer's length is not the layout's.
    Lengths = 2,
    /// A value that the call checks is out of range.
    Values = 3,
    /// The first 1,024 bytes of the fixed buffer are not all zero.
    Zeros = 4,
    /// A file has fewer than 16 bytes, or its first four are not 4E 45 53 1A.
    Header = 5,
    /// A file's mapper is not 24 or 26, or its header is of the newer edition (NES 2.0).
    Mapper = 6,
    /// A file states a length above its limit, or ends early.
    File = 7,
}

impl std::fmt::Display for Refusal {
    fn fmt(&self, f: &mut std::fmt::Formatter) -> std::fmt::Result {
        f.write_str(match self {
            Refusal::Limits => "a length of the layout is above its limit",
            Refusal::Lengths => "a buffer's length is not the layout's",
            Refusal::Values => "a value is out of range",
            Refusal::Zeros => "the fixed buffer's first page is not all zero",
            Refusal::Header => "the file does not begin with an iNES header",
            Refusal::Mapper => "the file is of another mapper than 24 and 26, or has a NES 2.0 header",
            Refusal::File => "a length in the file's header is above its limit, or the file ends early",
        })
    }
}

impl std::error::Error for Refusal {}

/// The answer, unless the number beside it is a refusal's. Contracts allow no number above 7.
pub fn unless<T>(refusal: u8, answer: T) -> Result<T, Refusal> {
    match refusal {
        0 => Ok(answer),
        1 => Err(Refusal::Limits),
        2 => Err(Refusal::Lengths),
        3 => Err(Refusal::Values),
        4 => Err(Refusal::Zeros),
        5 => Err(Refusal::Header),
        6 => Err(Refusal::Mapper),
        7 => Err(Refusal::File),
        n => unreachable!("refusal {n}"),
    }
}

#[derive(Debug, Clone, Copy, PartialEq, Eq, Default)]
pub enum Mirroring {
    #[default]
    Vertical = 0,
    Horizontal = 1,
    SingleScreenA = 2,
    SingleScreenB = 3,
    FourScreen = 4,
}

/// B exchanges address lines 0 and 1.
#[derive(Debug, Clone, Copy, PartialEq, Eq, Default)]
pub enum Revision {
    #[default]
    A = 0,
    B = 1,
}

/// What a board is made with, beside its memory. A host names what it wants, and takes the rest from the default:
/// `Settings { revision: Revision::B, ..Settings::default() }`.
#[derive(Debug, Clone, Copy, PartialEq, Eq, Default)]
pub struct Settings {
    pub mirroring: Mirroring,
    pub revision: Revision,
    /// A CPU read where nothing is there gives the byte that the bus holds, as a console does, and not 0.
    pub open_bus: bool,
}

/// The level of the sound: silent if no channel is enabled, otherwise held if halted.
#[derive(Debug, Clone, Copy, PartialEq)]
pub enum Level {
    Silent(f32),
    Held(f32),
    Playing(f32),
}

/// A board that was created, and its buffers. No call of a list from creation on is refused, which is proved, so a
/// host may treat a refusal here as memory gone wrong.
#[derive(Debug, Clone, PartialEq)]
pub struct Vrc6 {
    board: Board,
    fixed: Vec<u8>,
    changing: Vec<u8>,
}

impl Vrc6 {
    /// `fixed` holds a page of zeros, PRG ROM, and CHR if it is not writable; `changing` holds PRG RAM, CHR if it is
    /// writable, and CIRAM. Each region is filled up to whole pages of 1,024.
    pub fn new(layout: MemoryLayout, settings: Settings, fixed: Vec<u8>, changing: Vec<u8>) -> Result<Self, Refusal> {
        let mut board = Board::default();
        let refusal = calls::create(&mut board, layout, settings.into(), &fixed, &changing);
        unless(refusal, Vrc6 { board, fixed, changing })
    }

    /// The board of a cartridge file (iNES), `file` being all its bytes, with the settings that its header states.
    /// RAM is all 0. Refused as [`Cartridge::parse`] is.
    ///
    /// ```no_run
    /// let file = std::fs::read("title.nes")?;
    /// let board = vrc6::Vrc6::from_ines(&file)?;
    /// # Ok::<(), Box<dyn std::error::Error>>(())
    /// ```
    pub fn from_ines(file: &[u8]) -> Result<Self, Refusal> {
        Self::from_ines_with(file, |stated| stated)
    }

    /// The same with other settings than the header states:
    ///
    /// ```no_run
    /// use vrc6::{Settings, Vrc6};
    /// # let file = [];
    /// let board = Vrc6::from_ines_with(&file, |stated| Settings { open_bus: true, ..stated })?;
    /// # Ok::<(), vrc6::Refusal>(())
    /// ```
    pub fn from_ines_with(file: &[u8], settings: impl FnOnce(Settings) -> Settings) -> Result<Self, Refusal> {
        let cartridge = Cartridge::parse(file)?;
        let mut fixed = vec![0; cartridge.layout.fixed_length()];
        let mut changing = vec![0; cartridge.layout.changing_length()];
        unless(calls::fill(file, &mut fixed, &mut changing), ())?;
        Self::new(cartridge.layout, settings(cartridge.settings()), fixed, changing)
    }

    /// The board's values, to look at.
    pub fn board(&self) -> &Board {
        &self.board
    }

    /// Whether the cartridge asks for an interrupt.
    pub fn irq_pending(&self) -> bool {
        self.board.irq.irq_pending
    }

    /// `bus` is the byte that the CPU's bus holds from before. Only a board with [`Settings::open_bus`] gives it, where
    /// nothing is there: at $0000 to $5FFF, at $6000 to $7FFF without PRG RAM or while mode bit 7 is clear, and from
    /// $8000 up without PRG ROM.
    pub fn cpu_read(&mut self, addr: u16, bus: u8) -> Result<u8, Refusal> {
        let at = calls::cpu_read(&mut self.board, &self.fixed, &self.changing, addr, bus);
        unless(at.refusal, at.byte)
    }

    /// The byte where the page takes writes, then the register of the address.
    pub fn cpu_write(&mut self, addr: u16, val: u8) -> Result<(), Refusal> {
        unless(calls::cpu_write(&mut self.board, &self.fixed, &mut self.changing, addr, val), ())
    }

    pub fn picture_read(&mut self, addr: u16) -> Result<u8, Refusal> {
        let at = calls::picture_read(&mut self.board, &self.fixed, &self.changing, addr);
        unless(at.refusal, at.byte)
    }

    pub fn picture_write(&mut self, addr: u16, val: u8) -> Result<(), Refusal> {
        unless(calls::picture_write(&mut self.board, &self.fixed, &mut self.changing, addr, val), ())
    }

    /// One CPU clock; whether the interrupt counter ticked.
    pub fn clock(&mut self) -> Result<bool, Refusal> {
        let tick = calls::clock(&mut self.board);
        unless(tick.refusal, tick.ticked)
    }

    pub fn reset(&mut self) -> Result<(), Refusal> {
        unless(calls::reset(&mut self.board), ())
    }

    pub fn level(&mut self) -> Result<Level, Refusal> {
        let now = calls::level(&mut self.board);
        let named = match now.name {
            0 => Level::Silent,
            1 => Level::Held,
            _ => Level::Playing,
        };
        unless(now.refusal, named(now.level))
    }

    /// The clocks until the counter next asks for an interrupt; None if it is not armed. In one state it says 0 where one
    /// clock is needed: line mode, prescaler 0 and counter 255.
    pub fn forecast(&mut self) -> Result<Option<u32>, Refusal> {
        let next = calls::forecast(&mut self.board);
        unless(next.refusal, next.armed.then_some(next.clocks))
    }

    /// The 1,024 bytes that a picture address and its neighbours show.
    pub fn page_view(&mut self, addr: u16) -> Result<&[u8], Refusal> {
        let at = calls::page_view(&mut self.board, &self.fixed, &self.changing, addr);
        unless(at.refusal, ())?;
        let of = if at.changing { &self.changing } else { &self.fixed };
        Ok(&of[at.offset as usize..][..1024])
    }
}
