//! A small pseudo-random generator (splitmix64), so that a case is the same on every machine.

/// The generator's state.
#[derive(Clone, Debug)]
pub struct Random(u64);

/// The seed of a run: the environment's `ENERGY_SEED`, or a fixed one; or what is wrong with the former.
pub fn given_seed() -> Result<u64, String> {
    match std::env::var("ENERGY_SEED") {
        Ok(text) => {
            let seed = text.trim().parse();
            seed.map_err(|_| format!("ENERGY_SEED is a whole number below 2^64, and not '{text}'"))
        }
        Err(_) => Ok(20_080_310),
    }
}

/// The seed of a run, which has to be one.
pub fn seed() -> u64 {
    given_seed().unwrap_or_else(|reason| panic!("{reason}"))
}

impl Random {
    /// The generator of a run's case: each case can be made without those before it.
    pub fn of_case(seed: u64, case: u64) -> Random {
        let mut random = Random(seed);
        let mixed = random.bits();
        Random(mixed ^ case.wrapping_mul(0xd134_2543_de82_ef95))
    }

    /// The next 64 bits.
    pub fn bits(&mut self) -> u64 {
        self.0 = self.0.wrapping_add(0x9e37_79b9_7f4a_7c15);
        let mut z = self.0;
        z = (z ^ (z >> 30)).wrapping_mul(0xbf58_476d_1ce4_e5b9);
        z = (z ^ (z >> 27)).wrapping_mul(0x94d0_49bb_1331_11eb);
        z ^ (z >> 31)
    }

    /// A number from 0 to `most`.
    pub fn up_to(&mut self, most: u64) -> u64 {
        match most.checked_add(1) {
            Some(count) => self.bits() % count,
            None => self.bits(),
        }
    }

    /// A number from 0 to `most`.
    pub fn up_to_u32(&mut self, most: u32) -> u32 {
        self.up_to(most.into()) as u32
    }

    /// True once in `n` times.
    pub fn one_in(&mut self, n: u64) -> bool {
        self.up_to(n - 1) == 0
    }

    /// One of a list.
    pub fn pick<'a, T>(&mut self, list: &'a [T]) -> &'a T {
        &list[self.up_to(list.len() as u64 - 1) as usize]
    }

    /// A list of numbers from 0 to `most`.
    pub fn list(&mut self, length: usize, most: u32) -> Vec<u32> {
        (0..length).map(|_| self.up_to_u32(most)).collect()
    }
}
