//! A small seeded source of numbers, splitmix64: the same seed gives the same numbers everywhere.

pub struct Random(u64);

impl Random {
    pub fn new(seed: u64) -> Self {
        Random(seed)
    }

    /// A source of its own for each case, so that one case can be asked again without those before it.
    pub fn for_case(seed: u64, number: u64) -> Self {
        let mut mixed = Random(seed);
        let start = mixed.draw() ^ number;
        Random(Random(start).draw())
    }

    pub fn draw(&mut self) -> u64 {
        self.0 = self.0.wrapping_add(0x9e37_79b9_7f4a_7c15);
        let mut z = self.0;
        z = (z ^ (z >> 30)).wrapping_mul(0xbf58_476d_1ce4_e5b9);
        z = (z ^ (z >> 27)).wrapping_mul(0x94d0_49bb_1331_11eb);
        z ^ (z >> 31)
    }

    /// A number below `n`.
    pub fn below(&mut self, n: u64) -> u64 {
        ((u128::from(self.draw()) * u128::from(n)) >> 64) as u64
    }

    /// A number from `low` to `high`, both included.
    pub fn between(&mut self, low: u64, high: u64) -> u64 {
        low + self.below(high - low + 1)
    }

    pub fn one_in(&mut self, n: u64) -> bool {
        self.below(n) == 0
    }

    pub fn pick<T: Copy>(&mut self, from: &[T]) -> T {
        from[self.place(from.len())]
    }

    pub fn place(&mut self, len: usize) -> usize {
        self.below(len as u64) as usize
    }

    /// A number of any width up to `bits`: small and large ones alike.
    pub fn wide(&mut self, bits: u32) -> u64 {
        match self.below(u64::from(bits) + 1) {
            0 => 0,
            width => self.draw() >> (64 - width) | 1 << (width - 1),
        }
    }

    /// The places 0 to `len` - 1 in any order.
    pub fn order(&mut self, len: usize) -> Vec<usize> {
        let mut places: Vec<usize> = (0..len).collect();
        for last in (1..len).rev() {
            places.swap(last, self.place(last + 1));
        }
        places
    }
}
