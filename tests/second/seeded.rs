//! Seeded numbers, and pickers that lean to the edges.

/// The generator splitmix64. Each section has one of its own, so that a new
/// section changes no other section's inputs.
pub struct Seeded {
    state: u64,
}

impl Seeded {
    /// The numbers of one section, told by its name.
    pub fn new(seed: u64, section: &str) -> Seeded {
        let mut seeded = Seeded { state: seed };
        for byte in section.bytes() {
            seeded.state = seeded.any_u64() ^ u64::from(byte);
        }
        seeded
    }

    pub fn any_u64(&mut self) -> u64 {
        self.state = self.state.wrapping_add(0x9e37_79b9_7f4a_7c15);
        let mut mixed = self.state;
        mixed = (mixed ^ (mixed >> 30)).wrapping_mul(0xbf58_476d_1ce4_e5b9);
        mixed = (mixed ^ (mixed >> 27)).wrapping_mul(0x94d0_49bb_1331_11eb);
        mixed ^ (mixed >> 31)
    }

    pub fn any_i64(&mut self) -> i64 {
        self.any_u64() as i64
    }

    pub fn any_u32(&mut self) -> u32 {
        self.any_u64() as u32
    }

    pub fn any_i16(&mut self) -> i16 {
        self.any_u64() as i16
    }

    pub fn any_i32(&mut self) -> i32 {
        self.any_u64() as i32
    }

    pub fn any_u8(&mut self) -> u8 {
        self.any_u64() as u8
    }

    /// Any bytes in all places.
    pub fn fill(&mut self, bytes: &mut [u8]) {
        for some in bytes.chunks_mut(8) {
            let any = self.any_u64().to_le_bytes();
            some.copy_from_slice(&any[..some.len()]);
        }
    }

    /// So many bytes, mostly any, at times all zero.
    pub fn some_bytes(&mut self, length: usize) -> Vec<u8> {
        let mut bytes = vec![0; length];
        if !self.one_in(4) {
            self.fill(&mut bytes);
        }
        bytes
    }

    /// From low to high, both included.
    pub fn between(&mut self, low: i64, high: i64) -> i64 {
        let span = (i128::from(high) - i128::from(low) + 1) as u128;
        let step = (u128::from(self.any_u64()) * span) >> 64;
        (i128::from(low) + step as i128) as i64
    }

    pub fn between_i16(&mut self, low: i16, high: i16) -> i16 {
        self.between(i64::from(low), i64::from(high)) as i16
    }

    pub fn between_u16(&mut self, low: u16, high: u16) -> u16 {
        self.between(i64::from(low), i64::from(high)) as u16
    }

    pub fn between_usize(&mut self, low: usize, high: usize) -> usize {
        self.between(low as i64, high as i64) as usize
    }

    pub fn pick<T: Copy>(&mut self, from: &[T]) -> T {
        from[self.between(0, from.len() as i64 - 1) as usize]
    }

    pub fn one_in(&mut self, chances: i64) -> bool {
        self.between(1, chances) == 1
    }

    /// A number of any length in bits, of either sign.
    pub fn any_length_i64(&mut self) -> i64 {
        let shift = self.between(0, 63);
        self.any_i64() >> shift
    }

    /// A number of any length in bits.
    pub fn any_length_u32(&mut self) -> u32 {
        let shift = self.between(0, 31);
        self.any_u32() >> shift
    }

    /// A field's value: mostly an edge of some field, else any number.
    pub fn edge_i16(&mut self) -> i16 {
        if self.one_in(5) {
            self.any_i16()
        } else {
            self.pick(&FIELD_EDGES)
        }
    }

    /// The same, read as a number without a sign.
    pub fn edge_u16(&mut self) -> u16 {
        self.edge_i16() as u16
    }

    /// A number of 32 bits: an edge, one of any length in bits, or any.
    pub fn edge_i32(&mut self) -> i32 {
        match self.between(0, 3) {
            0 => self.pick(&WIDE_EDGES),
            1 => self.any_i32(),
            _ => self.any_i32() >> self.between(0, 31),
        }
    }
}

/// Numbers at which some field begins or ends to be well formed, or at which
/// a narrower number would wrap.
pub const FIELD_EDGES: [i16; 48] = [
    i16::MIN,
    i16::MIN + 1,
    -1601,
    -1000,
    -60,
    -2,
    -1,
    0,
    1,
    2,
    3,
    6,
    7,
    11,
    12,
    13,
    22,
    23,
    24,
    25,
    27,
    28,
    29,
    30,
    31,
    32,
    58,
    59,
    60,
    61,
    127,
    128,
    255,
    256,
    366,
    998,
    999,
    1000,
    1001,
    1599,
    1600,
    1601,
    30827,
    30828,
    30829,
    32000,
    i16::MAX - 1,
    i16::MAX,
];

/// Numbers of 32 bits at which a narrower number, a sum or a sign would wrap,
/// and the ends of what a bias may be.
pub const WIDE_EDGES: [i32; 24] = [
    i32::MIN,
    i32::MIN + 1,
    i32::MIN + 1_440,
    -65_537,
    -65_536,
    -32_769,
    -32_768,
    -2_880,
    -1_441,
    -1_440,
    -60,
    -1,
    0,
    1,
    60,
    1_440,
    1_441,
    2_880,
    32_768,
    65_535,
    65_536,
    i32::MAX - 1_440,
    i32::MAX - 1,
    i32::MAX,
];

/// Powers of two, their neighbours, and both ends.
pub fn edges_i64() -> Vec<i64> {
    let mut edges = vec![i64::MIN, i64::MIN + 1, i64::MAX - 1, i64::MAX];
    for place in 0..63 {
        for near in -2..=2 {
            edges.push((1_i64 << place) + near);
            edges.push(-(1_i64 << place) + near);
        }
    }
    edges
}

pub fn edges_u32() -> Vec<u32> {
    let mut edges = vec![0, u32::MAX - 1, u32::MAX];
    for place in 0..32 {
        for near in -2_i64..=2 {
            edges.extend(u32::try_from((1_i64 << place) + near));
        }
    }
    edges
}
