//! The trellis by whole lists of bits: for each state, the best bits that end in it.

use crate::model::missing::disagrees;

/// Some bits u, and the count of places where their pairs disagree with the received ones.
#[derive(Clone, Debug, PartialEq)]
pub struct Survivor {
    pub count: usize,
    pub u: Vec<u8>,
}

/// u(k-steps), where k is the number of the bits; u(k) = 0 for k < 0
fn back(u: &[u8], steps: usize) -> u8 {
    if u.len() < steps {
        0
    } else {
        u[u.len() - steps]
    }
}

/// State number: 8u(k-1) + 4u(k-2) + 2u(k-3) + u(k-4), where k is the number of the bits
pub fn state(u: &[u8]) -> usize {
    usize::from(8 * back(u, 1) + 4 * back(u, 2) + 2 * back(u, 3) + back(u, 4))
}

/// c(2k) = u(k) + u(k-3) + u(k-4) and c(2k+1) = u(k) + u(k-1) + u(k-3) + u(k-4),
/// where the bits go up to u(k-1) and u(k) is the next one
fn next_pair(u: &[u8], next: u8) -> [u8; 2] {
    let even = next + back(u, 3) + back(u, 4);
    let odd = next + back(u, 1) + back(u, 3) + back(u, 4);
    [even % 2, odd % 2]
}

/// In how many of its two places a coded pair disagrees with the received one.
fn disagreements(coded: [u8; 2], received: &[u8]) -> usize {
    (0..2).filter(|&k| disagrees(coded[k], received[k])).count()
}

/// Compared from the last bit back to u(0), the bits u have the 0 at the first difference.
fn precedes(u: &[u8], v: &[u8]) -> bool {
    for k in (0..u.len()).rev() {
        if u[k] != v[k] {
            return u[k] == 0;
        }
    }
    false
}

impl Survivor {
    /// No bits yet, and nothing received.
    fn of_nothing() -> Survivor {
        Survivor {
            count: 0,
            u: Vec::new(),
        }
    }

    /// The same bits with one more, laid beside the next received pair.
    fn lengthened(&self, next: u8, received: &[u8]) -> Survivor {
        Survivor {
            count: self.count + disagreements(next_pair(&self.u, next), received),
            u: [&self.u[..], &[next]].concat(),
        }
    }

    /// Fewer disagreements, or as many and the bits that the rule for ties takes.
    pub fn is_nearer(&self, other: &Survivor) -> bool {
        self.count < other.count || (self.count == other.count && precedes(&self.u, &other.u))
    }
}

/// All survivors with each of the next bits; of those in the same state the nearest is kept.
fn advance(survivors: &[Survivor], received: &[u8], next_bits: &[u8]) -> Vec<Survivor> {
    let mut kept: Vec<Option<Survivor>> = vec![None; 16];
    for survivor in survivors {
        for &next in next_bits {
            let longer = survivor.lengthened(next, received);
            let place = &mut kept[state(&longer.u)];
            match place {
                Some(other) if !longer.is_nearer(other) => {}
                _ => *place = Some(longer),
            }
        }
    }
    kept.into_iter().flatten().collect()
}

/// The survivors after all received pairs; the bits from u(free) on can only be 0.
pub fn survivors(received: &[u8], free: usize) -> Vec<Survivor> {
    let mut survivors = vec![Survivor::of_nothing()];
    for (k, pair) in received.chunks(2).enumerate() {
        let next_bits: &[u8] = if k < free { &[0, 1] } else { &[0] };
        survivors = advance(&survivors, pair, next_bits);
    }
    survivors
}

#[cfg(test)]
mod tests {
    use super::*;
    use crate::chance::lists::random_bits;
    use crate::chance::random::Random;
    use crate::model::coding::convolve;

    #[test]
    fn the_state_is_the_last_four_bits_with_the_newest_highest() {
        assert_eq!(state(&[]), 0);
        assert_eq!(state(&[1]), 8);
        assert_eq!(state(&[1, 0]), 4);
        assert_eq!(state(&[1, 0, 0, 1]), 9);
        assert_eq!(state(&[1, 1, 0, 0, 0, 0]), 0);
        assert_eq!(state(&[0, 0, 1, 1, 1, 1]), 15);
    }

    #[test]
    fn next_pairs_are_those_of_the_convolution() {
        let u = random_bits(&mut Random::new(20), 100);
        for k in 0..u.len() {
            assert_eq!(next_pair(&u[..k], u[k])[..], convolve(&u)[2 * k..2 * k + 2]);
        }
    }

    #[test]
    fn a_pair_disagrees_in_its_places_that_are_not_missing() {
        for (coded, received, expected) in [
            ([0, 1], [0, 1], 0),
            ([0, 1], [1, 1], 1),
            ([0, 1], [1, 0], 2),
            ([0, 1], [2, 0], 1),
            ([0, 1], [1, 2], 1),
            ([0, 1], [2, 1], 0),
            ([0, 1], [2, 2], 0),
        ] {
            assert_eq!(disagreements(coded, &received), expected);
        }
    }

    #[test]
    fn the_last_difference_decides_between_equals() {
        assert!(precedes(&[1, 1, 0], &[0, 0, 1]));
        assert!(!precedes(&[0, 0, 1], &[1, 1, 0]));
        assert!(precedes(&[0, 1, 1], &[1, 1, 1]));
        assert!(!precedes(&[1, 0, 1], &[1, 0, 1]));
    }

    #[test]
    fn the_count_comes_before_the_rule_for_ties() {
        let few = Survivor {
            count: 2,
            u: vec![1, 1],
        };
        let many = Survivor {
            count: 3,
            u: vec![0, 0],
        };
        assert!(few.is_nearer(&many) && !many.is_nearer(&few));
    }

    #[test]
    fn after_four_pairs_every_state_has_its_survivor() {
        for (pairs, number) in [1, 2, 4, 8, 16, 16, 16].into_iter().enumerate() {
            assert_eq!(survivors(&vec![0; 2 * pairs], pairs).len(), number);
        }
    }

    #[test]
    fn after_four_zeros_one_survivor_is_left() {
        for free in 0..=6 {
            let left = survivors(&vec![0; 2 * free + 8], free);
            assert_eq!((left.len(), state(&left[0].u)), (1, 0));
        }
    }
}
