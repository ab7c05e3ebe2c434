//! A seeded source of numbers (splitmix64): the same seed gives the same draws on every machine.

pub struct Draw {
    state: u64,
}

impl Draw {
    pub fn seeded(seed: u64) -> Draw {
        Draw { state: seed }
    }

    fn next(&mut self) -> u64 {
        self.state = self.state.wrapping_add(0x9e37_79b9_7f4a_7c15);
        let mixed = (self.state ^ (self.state >> 30)).wrapping_mul(0xbf58_476d_1ce4_e5b9);
        let mixed = (mixed ^ (mixed >> 27)).wrapping_mul(0x94d0_49bb_1331_11eb);
        mixed ^ (mixed >> 31)
    }

    /// A number from `low` to `high`, both included. The slight lean of the remainder does no harm here.
    pub fn between(&mut self, low: i64, high: i64) -> i64 {
        low + (self.next() % (high - low + 1) as u64) as i64
    }

    /// An index below `length`.
    pub fn index(&mut self, length: usize) -> usize {
        self.between(0, length as i64 - 1) as usize
    }

    /// True once in `times`.
    pub fn once_in(&mut self, times: i64) -> bool {
        self.between(1, times) == 1
    }

    pub fn coin(&mut self) -> bool {
        self.once_in(2)
    }

    pub fn byte(&mut self) -> u8 {
        self.between(0, 255) as u8
    }

    pub fn pick<T: Copy>(&mut self, choices: &[T]) -> T {
        choices[self.index(choices.len())]
    }

    pub fn shuffle<T>(&mut self, items: &mut [T]) {
        for last in (1..items.len()).rev() {
            items.swap(last, self.index(last + 1));
        }
    }

    /// An amount from nil to `most`: small ones, even ones and the greatest one come up often.
    pub fn amount(&mut self, most: i64) -> i64 {
        match self.between(0, 9) {
            0 => 0,
            1 => most,
            2 | 3 => self.between(0, most.min(20)),
            4 | 5 => self.between(0, most.min(10_000)),
            _ => self.between(0, most),
        }
    }

    /// `parts` amounts that come to at most `most`; many of them are nil.
    pub fn split(&mut self, most: i64, parts: usize) -> Vec<i64> {
        let mut amounts = vec![0; parts];
        let mut left = most;
        for _ in 0..self.between(0, parts as i64) {
            let amount = self.amount(left);
            amounts[self.index(parts)] += amount;
            left -= amount;
        }
        amounts
    }
}
