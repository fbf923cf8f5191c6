//! Random numbers from a seed: splitmix64.

const STEP: u64 = 0x9E37_79B9_7F4A_7C15;

pub struct Random {
    state: u64,
}

impl Random {
    /// The numbers of case `index` of `seed`. They depend on nothing else.
    pub fn of_case(seed: u64, index: u64) -> Random {
        Random { state: mix(mix(seed.wrapping_add(STEP)).wrapping_add(index)) }
    }

    pub fn word(&mut self) -> u64 {
        self.state = self.state.wrapping_add(STEP);
        mix(self.state)
    }

    /// A number from `least` to `most`, both included.
    pub fn between(&mut self, least: u32, most: u32) -> u32 {
        let numbers = u128::from(most - least) + 1;
        least + ((u128::from(self.word()) * numbers) >> 64) as u32
    }

    /// A place in a list of `length` elements, which is not empty.
    pub fn place(&mut self, length: usize) -> usize {
        ((u128::from(self.word()) * length as u128) >> 64) as usize
    }

    /// True once in `n` times.
    pub fn one_in(&mut self, n: u32) -> bool {
        self.between(1, n) == 1
    }

    pub fn pick<T: Copy>(&mut self, list: &[T]) -> T {
        list[self.place(list.len())]
    }

    pub fn shuffle<T>(&mut self, list: &mut [T]) {
        for last in (1..list.len()).rev() {
            list.swap(last, self.place(last + 1));
        }
    }
}

fn mix(word: u64) -> u64 {
    let word = (word ^ (word >> 30)).wrapping_mul(0xBF58_476D_1CE4_E5B9);
    let word = (word ^ (word >> 27)).wrapping_mul(0x94D0_49BB_1331_11EB);
    word ^ (word >> 31)
}
