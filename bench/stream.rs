// The stream of numbers that every input comes from, and the words and steps made of it.

// x ← x · 6364136223846793005 + 1442695040888963407 modulo 2^64; a number is the high 32 bits of x.
pub struct Stream {
    x: u64,
}

// Words at which the rules change: zeros, least and greatest subnormals and normals, one and its neighbours, infinities, NaNs.
const EDGES: [u32; 24] = [
    0x0000_0000, 0x8000_0000, 0x0000_0001, 0x8000_0001, 0x007F_FFFF, 0x807F_FFFF, 0x0080_0000, 0x8080_0000, 0x7F7F_FFFF, 0xFF7F_FFFF,
    0x7F80_0000, 0xFF80_0000, 0x7FC0_0000, 0xFFC0_0000, 0x7F80_0001, 0xFFFF_FFFF, 0x3F80_0000, 0xBF80_0000, 0x3F7F_FFFF, 0x3F80_0001,
    0x4B80_0000, 0x3300_0000, 0x3380_0000, 0x3280_0000,
];

// Words of which two make a direct step with most operations.
const DIRECT: [u32; 8] = [
    0x0000_0000, 0x8000_0000, 0x7F80_0000, 0xFF80_0000, 0x7FC0_0000, 0x7F80_0001, 0x3F80_0000, 0xC000_0000,
];

impl Stream {
    pub fn new(seed: u64) -> Stream {
        Stream { x: seed }
    }

    pub fn number(&mut self) -> u32 {
        self.x = self.x.wrapping_mul(6364136223846793005).wrapping_add(1442695040888963407);
        (self.x >> 32) as u32
    }

    pub fn below(&mut self, bound: u32) -> u32 {
        ((u64::from(self.number()) * u64::from(bound)) >> 32) as u32
    }

    // Finite, with an exponent within 16 of that of 1, so that sums meet and cancel.
    pub fn near(&mut self) -> u32 {
        let field = 111 + self.below(33);
        (self.number() & 0x807F_FFFF) | field << 23
    }

    // Finite and not zero, any exponent, subnormals among them.
    pub fn finite(&mut self) -> u32 {
        loop {
            let w = self.number();
            let magnitude = w & 0x7FFF_FFFF;
            if magnitude != 0 && magnitude < 0x7F80_0000 {
                return w;
            }
        }
    }

    pub fn direct(&mut self) -> u32 {
        DIRECT[self.below(8) as usize]
    }

    // Any word: of eight one is an edge, three are near and four have any bits.
    pub fn any(&mut self) -> u32 {
        match self.below(8) {
            0 => EDGES[self.below(24) as usize],
            1..=3 => self.near(),
            _ => self.number(),
        }
    }
}
