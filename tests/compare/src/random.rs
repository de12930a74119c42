//! Random numbers that a seed fixes, so that every case can be made again.

/// Splitmix64 (Steele, Lea and Flood 2014): the state steps by an odd constant, and each number is the state mixed.
pub struct Random {
    state: u64,
}

const STEP: u64 = 0x9e37_79b9_7f4a_7c15;

fn mixed(state: u64) -> u64 {
    let state = (state ^ (state >> 30)).wrapping_mul(0xbf58_476d_1ce4_e5b9);
    let state = (state ^ (state >> 27)).wrapping_mul(0x94d0_49bb_1331_11eb);
    state ^ (state >> 31)
}

impl Random {
    /// The numbers of one case of one part: they depend on nothing else, so a case is made alone as it is in a run.
    pub fn of_case(seed: u64, part: &str, case: u64) -> Random {
        let parted = part
            .bytes()
            .fold(mixed(seed), |state, byte| mixed(state ^ u64::from(byte)));
        Random {
            state: mixed(parted.wrapping_add(case.wrapping_mul(STEP))),
        }
    }

    /// Any 64 bits.
    pub fn bits(&mut self) -> u64 {
        self.state = self.state.wrapping_add(STEP);
        mixed(self.state)
    }

    /// A number under the bound, which is positive.
    pub fn below(&mut self, bound: usize) -> usize {
        self.scaled(bound as u128) as usize
    }

    /// A number from `least` to `most`, both included.
    pub fn within(&mut self, least: i64, most: i64) -> i64 {
        let span = i128::from(most) - i128::from(least) + 1;
        (i128::from(least) + self.scaled(span as u128) as i128) as i64
    }

    /// A number under the bound, which is at most 2^64: the bits as a fraction of it.
    fn scaled(&mut self, bound: u128) -> u128 {
        (u128::from(self.bits()) * bound) >> 64
    }

    /// `within`, for the numbers of stations.
    pub fn natural(&mut self, least: u32, most: u32) -> u32 {
        self.within(i64::from(least), i64::from(most)) as u32
    }

    /// `within`, for heights and levels.
    pub fn whole(&mut self, least: i32, most: i32) -> i32 {
        self.within(i64::from(least), i64::from(most)) as i32
    }

    /// True once in so many times.
    pub fn once_in(&mut self, times: usize) -> bool {
        self.below(times) == 0
    }

    /// One entry of a list that has some.
    pub fn pick<T: Copy>(&mut self, list: &[T]) -> T {
        list[self.below(list.len())]
    }

    pub fn shuffle<T>(&mut self, list: &mut [T]) {
        for last in (1..list.len()).rev() {
            list.swap(last, self.below(last + 1));
        }
    }
}
