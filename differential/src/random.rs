//! Numbers from a seed. The same seed gives the same numbers on every machine.

/// SplitMix64.
pub struct Random {
    state: u64,
}

impl Random {
    /// The numbers of one case of a campaign: any case can be made again from the seed and its index.
    pub fn of_case(seed: u64, index: u64) -> Random {
        let mut random = Random { state: seed };
        random.state = random.number().wrapping_add(index.wrapping_mul(0xD129_0429_31A8_F6E3));
        random
    }

    pub fn number(&mut self) -> u64 {
        self.state = self.state.wrapping_add(0x9E37_79B9_7F4A_7C15);
        let z = (self.state ^ (self.state >> 30)).wrapping_mul(0xBF58_476D_1CE4_E5B9);
        let z = (z ^ (z >> 27)).wrapping_mul(0x94D0_49BB_1331_11EB);
        z ^ (z >> 31)
    }

    /// A number below `end`, which is not 0.
    pub fn below(&mut self, end: usize) -> usize {
        (self.number() % end as u64) as usize
    }

    pub fn within(&mut self, first: usize, last: usize) -> usize {
        first + self.below(last - first + 1)
    }

    /// True so many times in a hundred.
    pub fn chance(&mut self, percent: usize) -> bool {
        self.below(100) < percent
    }

    pub fn pick<'a, T>(&mut self, from: &'a [T]) -> &'a T {
        &from[self.below(from.len())]
    }

    /// An index, each as often as its weight says.
    pub fn weighted(&mut self, weights: &[usize]) -> usize {
        let mut left = self.below(weights.iter().sum());
        for (i, weight) in weights.iter().enumerate() {
            if left < *weight {
                return i;
            }
            left -= weight;
        }
        unreachable!("the weights' sum is above `left`")
    }

    /// A number from 1 to `last`, small ones more often: each power of two as often as the next.
    pub fn size(&mut self, last: usize) -> usize {
        let bits = self.within(1, last.ilog2() as usize + 1);
        self.within(1, (1 << bits) - 1).min(last)
    }
}
