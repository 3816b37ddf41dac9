//! Random numbers from a seed (splitmix64), so that every run can be repeated.

#[derive(Clone)]
pub struct Random(u64);

impl Random {
    pub fn new(seed: u64) -> Random {
        Random(seed)
    }

    pub fn draw(&mut self) -> u64 {
        self.0 = self.0.wrapping_add(0x9e37_79b9_7f4a_7c15);
        let mut z = self.0;
        z = (z ^ (z >> 30)).wrapping_mul(0xbf58_476d_1ce4_e5b9);
        z = (z ^ (z >> 27)).wrapping_mul(0x94d0_49bb_1331_11eb);
        z ^ (z >> 31)
    }

    /// A number below `bound`, which is above 0.
    pub fn below(&mut self, bound: u64) -> u64 {
        self.draw() % bound
    }

    /// A number from `low` to `high`, both included.
    pub fn between(&mut self, low: u64, high: u64) -> u64 {
        match (high - low).checked_add(1) {
            Some(count) => low + self.below(count),
            None => self.draw(),
        }
    }

    /// True in one of `count` cases.
    pub fn one_in(&mut self, count: u64) -> bool {
        self.below(count) == 0
    }

    pub fn byte(&mut self) -> u8 {
        self.draw() as u8
    }

    pub fn bytes(&mut self, count: usize) -> Vec<u8> {
        (0..count).map(|_| self.byte()).collect()
    }

    pub fn hash(&mut self) -> [u8; 32] {
        let mut hash = [0; 32];
        hash.fill_with(|| self.byte());
        hash
    }

    pub fn pick<'a, T>(&mut self, list: &'a [T]) -> &'a T {
        &list[self.below(list.len() as u64) as usize]
    }
}

#[cfg(test)]
mod tests {
    use super::Random;

    #[test]
    fn known_start() {
        // The first values of splitmix64 with seed 1234567.
        let mut random = Random::new(1234567);
        assert_eq!(random.draw(), 6457827717110365317);
        assert_eq!(random.draw(), 3203168211198807973);
        assert_eq!(random.draw(), 9817491932198370423);
    }

    /// Also where there are as many numbers as a word has.
    #[test]
    fn between_has_both_ends() {
        let mut random = Random::new(3);
        for (low, high) in [(0, u64::MAX), (1, u64::MAX), (0, u64::MAX - 1)] {
            assert!((0..64).any(|_| random.between(low, high) > 1 << 63));
        }
        for (low, high) in [(u64::MAX - 1, u64::MAX), (0, 1)] {
            let drawn: Vec<u64> = (0..64).map(|_| random.between(low, high)).collect();
            assert!(drawn.contains(&low) && drawn.contains(&high) && drawn.iter().all(|number| (low..=high).contains(number)));
        }
        for number in [0, u64::MAX] {
            assert_eq!(random.between(number, number), number);
        }
    }
}
