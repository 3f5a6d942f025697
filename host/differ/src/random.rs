//! A pseudo-random source of its own (SplitMix64), so that a seed means the same calls everywhere.

/// The source.
#[derive(Clone, Debug)]
pub struct Random(u64);

impl Random {
    /// The source of a seed.
    pub fn of(seed: u64) -> Random {
        Random(seed)
    }

    /// 64 bits.
    pub fn bits(&mut self) -> u64 {
        self.0 = self.0.wrapping_add(0x9E37_79B9_7F4A_7C15);
        let mixed = (self.0 ^ (self.0 >> 30)).wrapping_mul(0xBF58_476D_1CE4_E5B9);
        let mixed = (mixed ^ (mixed >> 27)).wrapping_mul(0x94D0_49BB_1331_11EB);
        mixed ^ (mixed >> 31)
    }

    /// A number below `end`; 0 where nothing is below.
    pub fn below(&mut self, end: usize) -> usize {
        if end == 0 { 0 } else { (self.bits() % end as u64) as usize }
    }

    /// A 16-bit number below `end`.
    pub fn half(&mut self, end: u16) -> u16 {
        self.below(usize::from(end)) as u16
    }

    /// An 8-bit number below `end`.
    pub fn byte(&mut self, end: u8) -> u8 {
        self.below(usize::from(end)) as u8
    }

    /// True so many times of a hundred.
    pub fn chance(&mut self, percent: usize) -> bool {
        self.below(100) < percent
    }

    /// One of a few.
    pub fn pick<T: Copy>(&mut self, few: &[T]) -> T {
        few[self.below(few.len())]
    }

    /// The bits of a constant of a kind, often one at an edge.
    pub fn constant(&mut self, kind: u8) -> u64 {
        const INTS: [i64; 8] = [0, 1, -1, 2, 3, 10, i64::MAX, i64::MIN];
        const REALS: [f64; 9] = [0.0, -0.0, 1.0, -1.5, 0.1, 3.0, f64::MAX, f64::MIN, f64::MIN_POSITIVE];
        match kind {
            0 => self.bits() & 1,
            1 if self.chance(70) => self.pick(&INTS).cast_unsigned(),
            1 => self.bits(),
            _ if self.chance(70) => self.pick(&REALS).to_bits(),
            _ => Some(self.bits()).filter(|&bits| f64::from_bits(bits).is_finite()).unwrap_or(0),
        }
    }
}
