//! Files made from a seed. Half of them are near valid: the first bytes, mostly mapper 24 or 26, counts around the limits, a length
//! around what they need. The others are such files damaged, or any bytes behind the first four, or any bytes.
use crate::lent::LONGEST;

pub struct Files {
    state: u64,
}

const FIRST: [u8; 4] = [0x4E, 0x45, 0x53, 0x1A];

impl Files {
    pub fn new(seed: u64) -> Self {
        Files { state: seed.wrapping_mul(0x9E37_79B9_7F4A_7C15) ^ 0x6A09_E667_F3BC_C908 }
    }

    /// splitmix64.
    fn word(&mut self) -> u64 {
        self.state = self.state.wrapping_add(0x9E37_79B9_7F4A_7C15);
        let z = (self.state ^ (self.state >> 30)).wrapping_mul(0xBF58_476D_1CE4_E5B9);
        let z = (z ^ (z >> 27)).wrapping_mul(0x94D0_49BB_1331_11EB);
        z ^ (z >> 31)
    }

    fn below(&mut self, n: usize) -> usize {
        ((self.word() >> 32) * n as u64 >> 32) as usize
    }

    fn byte(&mut self) -> u8 {
        self.below(256) as u8
    }

    fn one_of<T: Copy>(&mut self, of: &[T]) -> T {
        of[self.below(of.len())]
    }

    /// A count of units, by its limit.
    fn units(&mut self, limit: u8) -> u8 {
        match self.below(8) {
            0 => self.byte(),
            1 => limit + 1,
            2 | 3 => self.one_of(&[limit - 1, limit]),
            4 => 0,
            _ => self.below(limit as usize + 2) as u8,
        }
    }

    fn near_valid(&mut self) -> [u8; 16] {
        let mut head = [0; 16];
        head[..4].copy_from_slice(&FIRST);
        head[4] = self.units(16);
        head[5] = self.units(32);
        let mapper = match self.below(8) {
            0 => self.one_of(&[8, 23, 25, 27, 0x81, 0xA1, 0x28, 0x98]),
            _ => self.one_of(&[24, 26]),
        };
        head[6] = mapper << 4 | self.below(16) as u8;
        head[7] = mapper & 0xF0;
        if self.below(2) == 0 {
            head[7] |= self.below(16) as u8;
        }
        if self.below(4) == 0 {
            for i in 8..16 {
                head[i] = self.byte();
            }
        }
        head
    }

    /// A near valid header with up to three bits turned or bytes changed.
    fn damaged(&mut self) -> [u8; 16] {
        let mut head = self.near_valid();
        for _ in 0..=self.below(3) {
            let at = self.below(16);
            match self.below(3) {
                0 => head[at] = self.byte(),
                1 => head[at] = head[at].wrapping_add(self.one_of(&[1, 0xFF])),
                _ => head[at] ^= 1 << self.below(8),
            }
        }
        head
    }

    fn any_bytes(&mut self, from: usize) -> [u8; 16] {
        let mut head = [0; 16];
        head[..4].copy_from_slice(&FIRST);
        for byte in &mut head[from..] {
            *byte = self.byte();
        }
        head
    }

    /// A length around what a header asks for, or around the header's, or any.
    fn length(&mut self, head: &[u8; 16]) -> usize {
        let trainer = 512 * (head[6] as usize / 4 % 2);
        let needed = 16 + trainer + 16384 * head[4] as usize + 8192 * head[5] as usize;
        let len = match self.below(16) {
            0..=4 => needed,
            5 | 6 => needed - 1,
            7 => needed + 1,
            8 => needed - 512.min(needed),
            9 => needed + 512,
            10 => needed - self.below(needed),
            11 => needed + self.below(4096),
            12 => self.below(20),
            13 => 16 + self.below(600),
            _ => self.below(LONGEST),
        };
        len.min(LONGEST)
    }

    /// The first 16 bytes of a file, and its length.
    pub fn next(&mut self) -> ([u8; 16], usize) {
        let head = match self.below(16) {
            0..=7 => self.near_valid(),
            8..=11 => self.damaged(),
            12..=14 => self.any_bytes(4),
            _ => self.any_bytes(0),
        };
        (head, self.length(&head))
    }
}
