//! A small random number generator. The same seed gives the same numbers.

pub struct Rng {
    state: u64,
}

impl Rng {
    pub fn new(seed: u64) -> Rng {
        let mut rng = Rng { state: seed };
        rng.next();
        rng
    }

    /// A counter stepped by an odd number, its bits mixed by two rounds of
    /// multiply and fold.
    pub fn next(&mut self) -> u64 {
        self.state = self.state.wrapping_add(0x9D8A_6F35_C1B2_E743);
        let mut x = self.state;
        for _ in 0..2 {
            x = (x ^ (x >> 31)).wrapping_mul(0xD6E8_FD93_52C4_A77B);
        }
        x ^ (x >> 29)
    }

    /// A number below `limit`, which is not 0.
    pub fn below(&mut self, limit: usize) -> usize {
        ((u128::from(self.next()) * limit as u128) >> 64) as usize
    }

    /// A number from `low` to `high`, both included.
    pub fn between(&mut self, low: usize, high: usize) -> usize {
        low + self.below(high - low + 1)
    }

    /// True once in `times` on average.
    pub fn once_in(&mut self, times: usize) -> bool {
        self.below(times) == 0
    }

    pub fn byte(&mut self) -> u8 {
        self.next() as u8
    }

    pub fn nonzero_byte(&mut self) -> u8 {
        self.between(1, 255) as u8
    }

    /// A byte that a name may have.
    pub fn name_byte(&mut self) -> u8 {
        loop {
            let byte = self.nonzero_byte();
            if byte != b'/' {
                return byte;
            }
        }
    }

    pub fn bytes(&mut self, count: usize) -> Vec<u8> {
        let mut bytes = Vec::with_capacity(count + 8);
        while bytes.len() < count {
            bytes.extend(self.next().to_le_bytes());
        }
        bytes.truncate(count);
        bytes
    }

    pub fn pick<T: Clone>(&mut self, from: &[T]) -> T {
        from[self.below(from.len())].clone()
    }

    pub fn shuffle<T>(&mut self, items: &mut [T]) {
        for i in (1..items.len()).rev() {
            items.swap(i, self.below(i + 1));
        }
    }
}
