//! A small random generator (splitmix), so that a seed gives the same cases everywhere.

pub struct Random {
    state: u64,
}

impl Random {
    /// A stream of its own for each layer, so that layers do not move each other's cases.
    pub fn of_layer(seed: u64, layer: &str) -> Random {
        let mix = |state: u64, byte: u8| state.wrapping_mul(0x100000001b3) ^ byte as u64;
        Random { state: layer.bytes().fold(seed, mix) }
    }

    pub fn next(&mut self) -> u64 {
        self.state = self.state.wrapping_add(0x9e3779b97f4a7c15);
        let z = (self.state ^ (self.state >> 30)).wrapping_mul(0xbf58476d1ce4e5b9);
        let z = (z ^ (z >> 27)).wrapping_mul(0x94d049bb133111eb);
        z ^ (z >> 31)
    }

    /// A number below `bound`.
    pub fn below(&mut self, bound: usize) -> usize {
        (self.next() % bound as u64) as usize
    }

    /// A number from `low` up to and including `high`.
    pub fn from_to(&mut self, low: usize, high: usize) -> usize {
        low + self.below(high - low + 1)
    }

    /// True once in `times`, on average.
    pub fn once_in(&mut self, times: usize) -> bool {
        self.below(times) == 0
    }

    pub fn byte(&mut self) -> u8 {
        self.next() as u8
    }

    pub fn bytes(&mut self, length: usize) -> Vec<u8> {
        (0..length).map(|_| self.byte()).collect()
    }

    pub fn pick<T: Copy>(&mut self, choices: &[T]) -> T {
        choices[self.below(choices.len())]
    }

    pub fn shuffle<T>(&mut self, list: &mut [T]) {
        for i in (1..list.len()).rev() {
            list.swap(i, self.below(i + 1));
        }
    }

    /// A slip count: edges, small ones and any.
    pub fn count(&mut self) -> u32 {
        match self.below(6) {
            0 => 0,
            1 => u32::MAX,
            2 => u32::MAX - 1,
            3 => self.below(300) as u32,
            _ => self.next() as u32,
        }
    }

    /// How many faults a case gets: none in half of the cases.
    pub fn faults(&mut self) -> usize {
        self.pick(&[0, 0, 0, 0, 1, 1, 1, 2, 2, 4])
    }
}
