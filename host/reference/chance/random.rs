//! A small generator of numbers, xorshift64*: one seed gives one run of numbers, always the same.

pub struct Random {
    state: u64,
}

impl Random {
    /// Seeds that stand near each other are spread first; the state is never 0.
    pub fn new(seed: u64) -> Random {
        let spread = (seed ^ 0x5851_f42d_4c95_7f2d).wrapping_mul(0x9e37_79b9_7f4a_7c15);
        let mut random = Random {
            state: spread.max(1),
        };
        random.next();
        random
    }

    /// The next number: three shifts, then one multiplication.
    fn next(&mut self) -> u64 {
        self.state ^= self.state >> 12;
        self.state ^= self.state << 25;
        self.state ^= self.state >> 27;
        self.state.wrapping_mul(0x2545_f491_4f6c_dd1d)
    }

    /// A number from 0 up to, but without, the limit; the limit is not 0.
    pub fn below(&mut self, limit: usize) -> usize {
        // The upper half of the number is the more even one.
        ((self.next() >> 32) % limit as u64) as usize
    }

    /// True about once in so many calls.
    pub fn one_in(&mut self, calls: usize) -> bool {
        self.below(calls) == 0
    }

    /// One of the choices, each as likely as the others.
    pub fn pick<T: Copy>(&mut self, choices: &[T]) -> T {
        choices[self.below(choices.len())]
    }

    /// Any byte but the newline.
    pub fn any_byte(&mut self) -> u8 {
        match self.below(255) as u8 {
            10 => 255,
            byte => byte,
        }
    }
}

#[cfg(test)]
mod tests {
    use super::*;

    /// The first numbers of a seed.
    fn numbers(seed: u64) -> Vec<usize> {
        let mut random = Random::new(seed);
        (0..20).map(|_| random.below(1_000_000)).collect()
    }

    #[test]
    fn a_seed_gives_the_same_numbers_again() {
        assert_eq!(numbers(1), numbers(1));
        assert_ne!(numbers(1), numbers(2));
    }

    #[test]
    fn no_seed_gets_stuck() {
        for seed in [0, 1, u64::MAX, 0x5851_f42d_4c95_7f2d] {
            let mut seen = numbers(seed);
            seen.sort_unstable();
            seen.dedup();
            assert!(seen.len() > 15, "seed {}", seed);
        }
    }

    #[test]
    fn every_number_below_the_limit_comes() {
        let mut random = Random::new(3);
        let mut seen = [false; 10];
        for _ in 0..1000 {
            seen[random.below(10)] = true;
        }
        assert_eq!(seen, [true; 10]);
    }

    #[test]
    fn every_byte_but_the_newline_comes() {
        let mut random = Random::new(4);
        let mut seen = [false; 256];
        for _ in 0..20_000 {
            seen[usize::from(random.any_byte())] = true;
        }
        for byte in 0..256 {
            assert_eq!(seen[byte], byte != 10, "byte {}", byte);
        }
    }
}
