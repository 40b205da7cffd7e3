//! A seeded generator (splitmix64), so that a run can be repeated.

const INCREMENT: u64 = 0x9E37_79B9_7F4A_7C15;

pub struct Random {
    state: u64,
}

impl Random {
    /// The stream that `seed` and `parts` name: one for each step, shape and chunk,
    /// so that the questions do not depend on how the work is shared out.
    pub fn stream(seed: u64, parts: &[u64]) -> Random {
        let mut random = Random { state: seed };
        for part in parts {
            random.state = random.next() ^ part.wrapping_mul(INCREMENT);
        }
        random
    }

    pub fn next(&mut self) -> u64 {
        self.state = self.state.wrapping_add(INCREMENT);
        let a = (self.state ^ (self.state >> 30)).wrapping_mul(0xBF58_476D_1CE4_E5B9);
        let b = (a ^ (a >> 27)).wrapping_mul(0x94D0_49BB_1331_11EB);
        b ^ (b >> 31)
    }

    pub fn pattern(&mut self) -> u32 {
        (self.next() >> 32) as u32
    }

    /// A number of `count` bits at most; `count` is below 64.
    pub fn bits(&mut self, count: u32) -> u64 {
        self.next() & ((1 << count) - 1)
    }

    /// A number from `low` to `high`, both included.
    pub fn within(&mut self, low: i32, high: i32) -> i32 {
        let width = (high - low + 1) as u64;
        low + (((self.next() >> 32) * width) >> 32) as i32
    }

    pub fn sign(&mut self) -> u32 {
        (self.next() >> 63) as u32
    }

    /// True once in `times`.
    pub fn once_in(&mut self, times: i32) -> bool {
        self.within(1, times) == 1
    }

    /// An odd number of exactly `count` bits.
    pub fn odd(&mut self, count: u32) -> u64 {
        self.bits(count) | 1 | (1 << (count - 1))
    }
}
