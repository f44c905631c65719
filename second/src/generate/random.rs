//! A small generator of random numbers (splitmix64), and choices made with it.

/// The state of the generator.
#[derive(Clone, Debug)]
pub struct Random {
    state: u64,
}

/// Numbers at both sides of each encoded length, and of each power of two that matters.
const EDGES: [u32; 14] = [
    0,
    1,
    2,
    127,
    128,
    16_383,
    16_384,
    2_097_151,
    2_097_152,
    268_435_455,
    268_435_456,
    0x7FFF_FFFF,
    0x8000_0000,
    u32::MAX,
];

impl Random {
    pub fn new(seed: u64) -> Self {
        Random { state: seed }
    }

    /// The generator of one case, apart from those of the cases beside it.
    pub fn of_case(seed: u64, number: u64) -> Self {
        let mut outer = Random::new(seed);
        let mut inner = Random::new(outer.bits().wrapping_add(number));
        Random::new(inner.bits())
    }

    /// The next 64 random bits.
    pub fn bits(&mut self) -> u64 {
        self.state = self.state.wrapping_add(0x9E37_79B9_7F4A_7C15);
        let mut mixed = self.state;
        mixed = (mixed ^ (mixed >> 30)).wrapping_mul(0xBF58_476D_1CE4_E5B9);
        mixed = (mixed ^ (mixed >> 27)).wrapping_mul(0x94D0_49BB_1331_11EB);
        mixed ^ (mixed >> 31)
    }

    /// A number below `bound`, which is not 0.
    pub fn below(&mut self, bound: usize) -> usize {
        (self.bits() % bound as u64) as usize
    }

    /// A number from `least` to `most`, both included.
    pub fn within(&mut self, least: u32, most: u32) -> u32 {
        least + self.below((most - least) as usize + 1) as u32
    }

    /// A number from `least` to `most`, often one of the two.
    pub fn near_ends(&mut self, least: u32, most: u32) -> u32 {
        match self.below(5) {
            0 => least,
            1 => most,
            _ => self.within(least, most),
        }
    }

    /// True in so many of a hundred cases.
    pub fn chance(&mut self, percent: usize) -> bool {
        self.below(100) < percent
    }

    /// One of the items.
    pub fn pick<T: Copy>(&mut self, items: &[T]) -> T {
        items[self.below(items.len())]
    }

    /// Puts the items in random order.
    pub fn shuffle<T>(&mut self, items: &mut [T]) {
        for last in (1..items.len()).rev() {
            items.swap(last, self.below(last + 1));
        }
    }

    /// Any 32-bit number, small ones and edges often.
    pub fn word(&mut self) -> u32 {
        match self.below(4) {
            0 => self.pick(&EDGES),
            1 => self.within(0, 20),
            2 => (self.bits() as u32) >> self.below(32),
            _ => self.bits() as u32,
        }
    }

    /// A number of five groups.
    pub fn five_groups(&mut self) -> u32 {
        match self.below(4) {
            0 => 1 << 28,
            1 => u32::MAX,
            _ => self.within(1 << 28, u32::MAX),
        }
    }
}
