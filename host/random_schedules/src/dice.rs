//! Numbers that look random and are the same on every machine: splitmix64.

pub struct Dice {
    state: u64,
}

impl Dice {
    /// The dice of one schedule, its own for each seed and number.
    pub fn new(seed: u64, number: u64) -> Dice {
        let state = mixed(mixed(seed).wrapping_add(number));
        Dice { state }
    }

    pub fn any(&mut self) -> u64 {
        self.state = self.state.wrapping_add(0x9e37_79b9_7f4a_7c15);
        mixed(self.state)
    }

    pub fn byte(&mut self) -> u8 {
        (self.any() >> 56) as u8
    }

    /// A number below the limit, which is not 0.
    pub fn below(&mut self, limit: u64) -> u64 {
        ((self.any() as u128 * limit as u128) >> 64) as u64
    }

    /// The same for a place in a buffer.
    pub fn place(&mut self, limit: usize) -> usize {
        self.below(limit as u64) as usize
    }

    /// A number between these two, both among them.
    pub fn between(&mut self, least: u64, most: u64) -> u64 {
        least + self.below(most - least + 1)
    }

    pub fn one_in(&mut self, times: u64) -> bool {
        self.below(times) == 0
    }

    pub fn pick<T: Copy>(&mut self, among: &[T]) -> T {
        among[self.place(among.len())]
    }

    /// One of these, each as often as the number beside it says.
    pub fn weighted<T: Copy>(&mut self, among: &[(u64, T)]) -> T {
        let mut drawn = self.below(among.iter().map(|(weight, _)| weight).sum());
        for &(weight, choice) in among {
            if drawn < weight {
                return choice;
            }
            drawn -= weight;
        }
        unreachable!("what is drawn is below the sum of the weights")
    }
}

fn mixed(state: u64) -> u64 {
    let once = (state ^ (state >> 30)).wrapping_mul(0xbf58_476d_1ce4_e5b9);
    let twice = (once ^ (once >> 27)).wrapping_mul(0x94d0_49bb_1331_11eb);
    twice ^ (twice >> 31)
}
