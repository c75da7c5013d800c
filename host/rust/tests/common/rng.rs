//! Random numbers from a seed (xorshift).

pub struct Rng(u64);

impl Rng {
    pub fn new(seed: u64) -> Rng {
        let mut rng = Rng(seed.wrapping_mul(0x9E37_79B9_7F4A_7C15) | 1);
        for _ in 0..8 {
            rng.next();
        }
        rng
    }

    pub fn next(&mut self) -> u64 {
        self.0 ^= self.0 << 13;
        self.0 ^= self.0 >> 7;
        self.0 ^= self.0 << 17;
        self.0.wrapping_mul(0x2545_F491_4F6C_DD1D) >> 11
    }

    /// A number from 0, below `n`.
    pub fn below(&mut self, n: usize) -> usize {
        (self.next() % n as u64) as usize
    }

    /// A number from `least` to `most`.
    pub fn between(&mut self, least: u32, most: u32) -> u32 {
        least + (self.next() % (u64::from(most - least) + 1)) as u32
    }

    /// True once in `n` times.
    pub fn once_in(&mut self, n: usize) -> bool {
        self.below(n) == 0
    }

    pub fn pick<T: Copy>(&mut self, from: &[T]) -> T {
        from[self.below(from.len())]
    }

    /// Any number, those at the edges of the stored forms more often.
    pub fn number(&mut self) -> u32 {
        match self.below(6) {
            0 => self.pick(&[0, 1, 127, 128, 16_383, 16_384, 2_097_151, 2_097_152, 268_435_455, 268_435_456]),
            1 => u32::MAX - self.between(0, 3),
            2 => self.next() as u32,
            3 => self.between(0, 70_000),
            _ => self.between(0, 300),
        }
    }

    pub fn shuffle<T>(&mut self, list: &mut [T]) {
        for at in (1..list.len()).rev() {
            list.swap(at, self.below(at + 1));
        }
    }
}

/// Names the seed when a test fails while it is alive.
pub struct Seed(pub u64);

impl Drop for Seed {
    fn drop(&mut self) {
        if std::thread::panicking() {
            eprintln!("failed with seed {0}; again: ZINTUKOR_SEED={0} cargo test --release", self.0);
        }
    }
}

fn variable(name: &str) -> Option<u64> {
    std::env::var(name).ok().and_then(|number| number.parse().ok())
}

/// The seeds of a test: these, ZINTUKOR_TIMES as many, or the one that ZINTUKOR_SEED names.
pub fn seeds(first: u64, how_many: u64) -> std::ops::Range<u64> {
    match variable("ZINTUKOR_SEED") {
        Some(seed) => seed..seed + 1,
        None => first..first + how_many * variable("ZINTUKOR_TIMES").unwrap_or(1),
    }
}

/// Whether ZINTUKOR_SEED names one seed, so that a test can't have seen everything.
pub fn one_seed() -> bool {
    variable("ZINTUKOR_SEED").is_some()
}
