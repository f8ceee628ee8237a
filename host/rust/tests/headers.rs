//! Headers at random, against a plain reading of the request's words (02, change 2).
use vrc6::{Cartridge, MemoryLayout, Mirroring, Refusal, Revision, calls, unless};

/// The request, sentence for sentence.
fn plain_reading(file: &[u8]) -> Result<Cartridge, Refusal> {
    if file.len() < 16 || file[..4] != [0x4E, 0x45, 0x53, 0x1A] {
        return Err(Refusal::Header);
    }
    let (prg_rom, chr_rom) = (16_384 * file[4] as usize, 8192 * file[5] as usize);
    let bit = |byte: u8, n: u32| byte >> n & 1 == 1;
    let (vertical, trainer, four_screens) = (bit(file[6], 0), bit(file[6], 2), bit(file[6], 3));
    let revision = match 16 * (file[7] >> 4) + (file[6] >> 4) {
        24 => Revision::A,
        26 => Revision::B,
        _ => return Err(Refusal::Mapper),
    };
    if bit(file[7], 3) && !bit(file[7], 2) {
        return Err(Refusal::Mapper);
    }
    let prg_start = if trainer { 16 + 512 } else { 16 };
    let chr_start = prg_start + prg_rom;
    if prg_rom > 262_144 || chr_rom > 262_144 || file.len() < chr_start + chr_rom {
        return Err(Refusal::File);
    }
    let layout = MemoryLayout {
        prg_rom: prg_rom as u32,
        chr: if chr_rom == 0 { 8192 } else { chr_rom as u32 },
        chr_writable: chr_rom == 0,
        prg_ram: 8192,
        ciram: if four_screens { 4096 } else { 2048 },
    };
    let mirroring = match (four_screens, vertical) {
        (true, _) => Mirroring::FourScreen,
        (false, true) => Mirroring::Vertical,
        (false, false) => Mirroring::Horizontal,
    };
    Ok(Cartridge { layout, mirroring, revision, prg_start, chr_start })
}

struct Random(u64);

impl Random {
    fn below(&mut self, n: u64) -> u64 {
        self.0 = self.0.wrapping_mul(6_364_136_223_846_793_005).wrapping_add(1_442_695_040_888_963_407);
        (self.0 >> 33) % n
    }

    fn byte(&mut self) -> u8 {
        self.below(256) as u8
    }

    /// A count of units: few, near the limit, or any.
    fn units(&mut self, limit: u8) -> u8 {
        match self.below(4) {
            0 => self.byte(),
            1 => limit - 1 + self.below(3) as u8,
            _ => self.below(4) as u8,
        }
    }

    /// Mostly with the right first bytes and one of the two mappers.
    fn header(&mut self) -> [u8; 16] {
        let mut header = [0; 16].map(|_: u8| self.byte());
        header[..4].copy_from_slice(&[0x4E, 0x45, 0x53, 0x1A]);
        if self.below(8) == 0 {
            header[self.below(4) as usize] = self.byte();
        }
        header[4] = self.units(16);
        header[5] = self.units(32);
        if self.below(8) != 0 {
            header[6] = [0x80, 0xA0][self.below(2) as usize] | self.below(16) as u8;
            header[7] = 0x10 | self.below(16) as u8;
        }
        header
    }

    /// A length near what the header states, a short one, or any.
    fn length(&mut self, header: &[u8; 16], most: usize) -> usize {
        let trainer = if header[6] & 4 == 0 { 0 } else { 512 };
        let stated = 16 + trainer + 16_384 * header[4] as usize + 8192 * header[5] as usize;
        match self.below(8) {
            0 => self.below(32) as usize,
            1 => self.below(most as u64 + 1) as usize,
            _ => (stated - 1 + self.below(3) as usize).min(most),
        }
    }
}

/// Fills buffers of the right lengths, and finds the file's bytes in them.
fn filled_right(file: &[u8], read: &Cartridge) {
    let layout = read.layout;
    let (mut fixed, mut changing) = (vec![0xEE; layout.fixed_length()], vec![0xEE; layout.changing_length()]);
    assert_eq!(calls::fill(file, &mut fixed, &mut changing), 0);
    let (zeros, rom) = fixed.split_at(1024);
    assert!(zeros.iter().chain(&changing).all(|&byte| byte == 0));
    assert!(rom == &file[read.prg_start..][..rom.len()]);
}

#[test]
fn headers_at_random() {
    let mut random = Random(2);
    // The longest file that a board can be of, and 84 bytes more.
    let mut bytes: Vec<u8> = (0..524_900).map(|_| random.byte()).collect();
    let mut counts = [0; 8];
    for n in 0..200_000 {
        let header = random.header();
        bytes[..16].copy_from_slice(&header);
        let file = &bytes[..random.length(&header, bytes.len())];
        let plain = plain_reading(file);
        assert_eq!(Cartridge::parse(file), plain, "header {header:02X?}, {} bytes", file.len());
        match plain {
            Ok(read) if n % 64 == 0 => filled_right(file, &read),
            Ok(_) => {}
            Err(refusal) => assert_eq!(unless(calls::fill(file, &mut [], &mut []), ()), Err(refusal)),
        }
        counts[plain.map_or_else(|refusal| refusal as usize, |_| 0)] += 1;
    }
    assert!([0, 5, 6, 7].iter().all(|&number| counts[number] > 10_000), "{counts:?}");
}
