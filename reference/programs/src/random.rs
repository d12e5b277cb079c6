//! Random numbers that are the same on every machine: SplitMix64.

/// A sequence of numbers that follows from its seed.
pub struct Random {
    state: u64,
}

/// The constant that SplitMix64 adds for each number.
const STEP: u64 = 0x9e37_79b9_7f4a_7c15;

/// Mixes the bits of a number, as SplitMix64 does.
fn mix(value: u64) -> u64 {
    let value = (value ^ (value >> 30)).wrapping_mul(0xbf58_476d_1ce4_e5b9);
    let value = (value ^ (value >> 27)).wrapping_mul(0x94d0_49bb_1331_11eb);
    value ^ (value >> 31)
}

impl Random {
    /// The sequence of frame `number` of `seed`. Each frame has its own, so that any frame can be
    /// made without those before it.
    pub fn new(seed: u64, number: u64) -> Self {
        let state = mix(seed.wrapping_add(STEP)) ^ number.wrapping_mul(STEP);
        Self { state: mix(state) }
    }

    /// The next number.
    pub fn draw(&mut self) -> u64 {
        self.state = self.state.wrapping_add(STEP);
        mix(self.state)
    }

    /// A number from 0 to `count - 1`.
    pub fn below(&mut self, count: usize) -> usize {
        // The high 32 bits times the count, shifted down: even enough for small counts.
        (((self.draw() >> 32) * count as u64) >> 32) as usize
    }

    /// A number from `low` to `high`, both included.
    pub fn between(&mut self, low: usize, high: usize) -> usize {
        low + self.below(high - low + 1)
    }

    /// True once in `count` times.
    pub fn one_in(&mut self, count: usize) -> bool {
        self.below(count) == 0
    }

    /// One of the items.
    pub fn pick<T: Copy>(&mut self, items: &[T]) -> T {
        items[self.below(items.len())]
    }

    /// A byte that a line may hold.
    pub fn line_byte(&mut self) -> u8 {
        self.between(0x20, 0x7e) as u8
    }
}

#[cfg(test)]
mod tests {
    use super::*;

    #[test]
    fn the_same_seed_gives_the_same_numbers() {
        let numbers = |seed, frame| {
            let mut random = Random::new(seed, frame);
            [random.draw(), random.draw(), random.draw()]
        };
        assert_eq!(numbers(1, 2), numbers(1, 2));
        assert_ne!(numbers(1, 2), numbers(2, 1));
        assert_ne!(numbers(1, 2), numbers(1, 3));
    }

    /// Other machines must see these numbers too.
    #[test]
    fn the_first_numbers_stay() {
        let mut random = Random::new(0, 0);
        let first = [random.draw(), random.draw()];
        assert_eq!(first, FIRST_NUMBERS);
    }

    const FIRST_NUMBERS: [u64; 2] = [6_235_967_106_033_911_276, 4_964_577_235_801_436_555];

    #[test]
    fn numbers_stay_in_their_range() {
        let mut random = Random::new(7, 7);
        for _ in 0..10_000 {
            assert!(random.below(3) < 3);
            assert!((5..=9).contains(&random.between(5, 9)));
            assert!((0x20..=0x7e).contains(&random.line_byte()));
        }
        assert!((0..100).all(|_| random.one_in(1)));
    }
}
