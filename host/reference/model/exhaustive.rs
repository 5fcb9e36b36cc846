//! Going through all bits u of a small length, each u as a number with u(k) at bit k.

use crate::model::missing::disagrees;

/// One received byte of each pair: bit k of one number is 1 where a coded 0 disagrees with that of
/// pair k, bit k of the other where a coded 1 does.
struct Column {
    against_0: u64,
    against_1: u64,
}

impl Column {
    /// Every second byte from the first one on.
    fn of(received: &[u8], first: usize) -> Column {
        let against = |coded: u8| {
            let mut number = 0;
            for k in 0..received.len() / 2 {
                number |= u64::from(disagrees(coded, received[2 * k + first])) << k;
            }
            number
        };
        Column {
            against_0: against(0),
            against_1: against(1),
        }
    }

    /// In how many places the coded bits disagree, bit k being that of pair k.
    fn disagreements(&self, coded: u64) -> u32 {
        ((coded & self.against_1) | (!coded & self.against_0)).count_ones()
    }
}

/// The received pairs: c(2k) of each in one column, c(2k+1) in the other.
pub struct Pairs {
    even: Column,
    odd: Column,
}

impl Pairs {
    /// What is received, fewer than 64 pairs.
    pub fn of(received: &[u8]) -> Pairs {
        Pairs {
            even: Column::of(received, 0),
            odd: Column::of(received, 1),
        }
    }

    /// In how many places the pairs of u disagree with the received ones.
    pub fn disagreements(&self, u: u64) -> usize {
        // Bit k of u << 3 is u(k-3), so each line is the formula for all k at once.
        let even = u ^ (u << 3) ^ (u << 4);
        let odd = u ^ (u << 1) ^ (u << 3) ^ (u << 4);
        (self.even.disagreements(even) + self.odd.disagreements(odd)) as usize
    }

    /// All candidates of n bits that have the fewest disagreements.
    pub fn nearest(&self, n: usize) -> Vec<u64> {
        let candidates = 0..1_u64 << (n - 4);
        let fewest = candidates.clone().map(|u| self.disagreements(u)).min();
        candidates
            .filter(|&u| Some(self.disagreements(u)) == fewest)
            .collect()
    }
}

#[cfg(test)]
mod tests {
    use super::*;
    use crate::chance::lists::random_bits;
    use crate::chance::losses::lose_some;
    use crate::chance::random::Random;
    use crate::model::bits::bits_of;
    use crate::model::coding::convolve;
    use crate::model::missing::MISSING;

    /// In how many of the places that are not missing the coded bits are others than the received.
    fn present_and_other(c: &[u8], received: &[u8]) -> usize {
        let present = (0..c.len()).filter(|&k| received[k] != MISSING);
        present.filter(|&k| c[k] != received[k]).count()
    }

    #[test]
    fn disagreements_are_those_of_the_convolution_where_nothing_is_missing() {
        let mut random = Random::new(21);
        for t in 0..=18 {
            for times in 0..50 {
                let u = random.below(1 << t) as u64;
                let mut received = random_bits(&mut random, 2 * t);
                if times % 2 == 1 {
                    lose_some(&mut random, &mut received);
                }
                let count = present_and_other(&convolve(&bits_of(u, t)), &received);
                assert_eq!(Pairs::of(&received).disagreements(u), count);
            }
        }
    }

    #[test]
    fn nothing_disagrees_where_all_is_missing() {
        let pairs = Pairs::of(&[MISSING; 36]);
        assert!((0..1 << 18).all(|u| pairs.disagreements(u) == 0));
        assert_eq!(pairs.nearest(18).len(), 1 << 14);
    }

    #[test]
    fn all_that_tie_are_the_nearest() {
        // Midway between zeros and 11, whose pairs are 11 10 01 11 00 11, each disagrees in four places.
        let pairs = Pairs::of(&[1, 0, 1, 0, 0, 0, 0, 1, 0, 0, 1, 0]);
        assert_eq!(pairs.nearest(6), [0b00, 0b11]);
        assert_eq!(Pairs::of(&[0; 12]).nearest(6), [0b00]);
    }
}
