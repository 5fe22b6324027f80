//! A small generator of random numbers (splitmix64), so that a seed repeats everything.

#[derive(Clone)]
pub struct Random {
    state: u64,
}

impl Random {
    pub fn new(seed: u64) -> Random {
        Random { state: seed }
    }

    pub fn next(&mut self) -> u64 {
        self.state = self.state.wrapping_add(0x9e37_79b9_7f4a_7c15);
        let mut z = self.state;
        z = (z ^ (z >> 30)).wrapping_mul(0xbf58_476d_1ce4_e5b9);
        z = (z ^ (z >> 27)).wrapping_mul(0x94d0_49bb_1331_11eb);
        z ^ (z >> 31)
    }

    /// 0 to limit−1; 0 if the limit is 0.
    pub fn below(&mut self, limit: usize) -> usize {
        if limit == 0 {
            return 0;
        }
        ((self.next() >> 11) % limit as u64) as usize
    }

    pub fn between(&mut self, low: usize, high: usize) -> usize {
        low + self.below(high + 1 - low)
    }

    /// True once in `times`.
    pub fn once_in(&mut self, times: usize) -> bool {
        self.below(times) == 0
    }

    pub fn pick<T: Copy>(&mut self, from: &[T]) -> T {
        from[self.below(from.len())]
    }

    pub fn shuffle<T>(&mut self, items: &mut [T]) {
        for last in (1..items.len()).rev() {
            let other = self.below(last + 1);
            items.swap(last, other);
        }
    }

    /// A number for a call: mostly below the limit, sometimes at its edge, sometimes nonsense that
    /// a narrower width would take for a good one.
    pub fn near(&mut self, limit: usize) -> u32 {
        let inside = self.below(limit) as u32;
        match self.below(24) {
            0 => limit as u32,
            1 => limit.saturating_sub(1) as u32,
            2 => {
                let far = [256, 65_536, 1 << 24, 1 << 31, u32::MAX - 255];
                inside.saturating_add(self.pick(&far))
            }
            3 => self.pick(&[7, 8, 15, 16, 17, 254, 255, 256, 65_535, 65_536, u32::MAX]),
            _ => inside,
        }
    }
}
