//! A small deterministic source of random numbers (SplitMix64).

use std::ops::RangeInclusive;

/// The seed of every random test unless the environment variable `PSIC_SEED` gives another.
pub const DEFAULT_SEED: u64 = 1;

/// The seed for this run. It is printed, so that a failing run can be repeated.
pub fn run_seed() -> u64 {
    let seed = std::env::var("PSIC_SEED")
        .ok()
        .and_then(|text| text.parse().ok())
        .unwrap_or(DEFAULT_SEED);
    println!("PSIC_SEED={seed}");
    seed
}

/// Seeds that this run's seed determines.
pub fn run_seeds(count: usize) -> Vec<u64> {
    let mut random = Random::new(run_seed());
    (0..count).map(|_| random.bits()).collect()
}

/// A sequence of numbers that the seed determines.
#[derive(Clone, Debug)]
pub struct Random {
    state: u64,
}

impl Random {
    /// The sequence of this seed.
    pub fn new(seed: u64) -> Random {
        Random { state: seed }
    }

    /// The next 64 bits, by the constants of SplitMix64.
    pub fn bits(&mut self) -> u64 {
        self.state = self.state.wrapping_add(0x9E37_79B9_7F4A_7C15);
        let mut mixed = self.state;
        mixed = (mixed ^ (mixed >> 30)).wrapping_mul(0xBF58_476D_1CE4_E5B9);
        mixed = (mixed ^ (mixed >> 27)).wrapping_mul(0x94D0_49BB_1331_11EB);
        mixed ^ (mixed >> 31)
    }

    /// A number below the bound, which isn't 0.
    pub fn below(&mut self, bound: usize) -> usize {
        (self.bits() % bound as u64) as usize
    }

    /// A number in the range, which isn't empty.
    pub fn within(&mut self, range: RangeInclusive<u16>) -> u16 {
        let count = usize::from(range.end() - range.start()) + 1;
        range.start() + self.below(count) as u16
    }

    /// Any number at all.
    pub fn any(&mut self) -> u16 {
        self.bits() as u16
    }

    /// True half of the time.
    pub fn flag(&mut self) -> bool {
        self.one_in(2)
    }

    /// True about once in so many times.
    pub fn one_in(&mut self, times: usize) -> bool {
        self.below(times) == 0
    }

    /// One of the items, of which there is at least one.
    pub fn pick<T: Copy>(&mut self, items: &[T]) -> T {
        items[self.below(items.len())]
    }

    /// One of the items, if there is one.
    pub fn pick_if_any<T: Copy>(&mut self, items: impl IntoIterator<Item = T>) -> Option<T> {
        let items: Vec<T> = items.into_iter().collect();
        (!items.is_empty()).then(|| self.pick(&items))
    }
}
