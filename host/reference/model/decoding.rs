//! The nearest candidate. Candidates are all u of n bits whose last four are 0; the nearest is
//! the one whose pairs disagree with the received bits in the fewest places. Nothing disagrees in a
//! place that is missing.

use crate::model::bits::bits_of;
use crate::model::exhaustive::Pairs;
use crate::model::survivors::{survivors, Survivor};

/// Up to this many free bits, all candidates are gone through.
const FEW_FREE_BITS: usize = 14;

/// The nearest candidate and its count; at least 4 pairs are received.
pub fn nearest(received: &[u8]) -> Survivor {
    if received.len() / 2 - 4 <= FEW_FREE_BITS {
        nearest_of_all(received)
    } else {
        nearest_survivor(received)
    }
}

/// Goes through all candidates, one after another.
fn nearest_of_all(received: &[u8]) -> Survivor {
    let n = received.len() / 2;
    let pairs = Pairs::of(received);
    let candidate = |number: u64| Survivor {
        count: pairs.disagreements(number),
        u: bits_of(number, n),
    };
    let mut best = candidate(0);
    for number in 1..1 << (n - 4) {
        // Only those that reach the count so far are worth the comparison bit by bit.
        if pairs.disagreements(number) <= best.count {
            let other = candidate(number);
            if other.is_nearer(&best) {
                best = other;
            }
        }
    }
    best
}

/// Lengthens the survivors pair by pair; the last four bits can only be 0.
fn nearest_survivor(received: &[u8]) -> Survivor {
    // All candidates end in state 0, so one survivor is left.
    survivors(received, received.len() / 2 - 4).remove(0)
}

#[cfg(test)]
mod tests {
    use super::*;
    use crate::chance::lists::{self, candidate};
    use crate::chance::losses;
    use crate::chance::random::Random;
    use crate::model::bits::inverted;
    use crate::model::coding::convolve;

    /// The number of candidates that have the fewest disagreements.
    fn equals(received: &[u8], n: usize) -> usize {
        Pairs::of(received).nearest(n).len()
    }

    /// Both methods answer the same.
    fn both_agree(received: &[u8]) {
        let (one, other) = (nearest_of_all(received), nearest_survivor(received));
        assert_eq!(one, other, "{:?}", received);
    }

    /// A list midway between two coded candidates.
    fn midway(random: &mut Random, n: usize) -> Vec<u8> {
        let mut received = convolve(&candidate(random, n));
        lists::move_midway(random, &mut received, n);
        received
    }

    #[test]
    fn both_methods_agree_on_random_lists() {
        let mut random = Random::new(22);
        for n in 4..=18 {
            for _ in 0..60 {
                both_agree(&lists::random_bits(&mut random, 2 * n));
            }
        }
    }

    #[test]
    fn both_methods_agree_near_candidates() {
        let mut random = Random::new(23);
        for n in 4..=18 {
            for altered in 0..20 {
                let mut received = convolve(&candidate(&mut random, n));
                lists::alter(&mut random, &mut received, altered);
                both_agree(&received);
                both_agree(&inverted(&received));
            }
        }
    }

    #[test]
    fn both_methods_agree_on_lists_made_to_tie() {
        let mut random = Random::new(24);
        for n in 4..=18 {
            for _ in 0..30 {
                let received = midway(&mut random, n);
                both_agree(&received);
                both_agree(&inverted(&received));
                both_agree(&lists::few_turned(&mut random, 2 * n));
                both_agree(&lists::pattern(&mut random, 2 * n));
            }
        }
    }

    #[test]
    fn lists_with_two_ones_make_both_methods_agree() {
        for n in [4, 5, 9, 14] {
            for one in 0..2 * n {
                for other in 0..2 * n {
                    let mut received = vec![0; 2 * n];
                    received[one] = 1;
                    received[other] = 1;
                    both_agree(&received);
                    both_agree(&inverted(&received));
                }
            }
        }
    }

    #[test]
    fn both_methods_agree_where_bits_are_missing() {
        let mut random = Random::new(220);
        for n in 4..=18 {
            for _ in 0..30 {
                for mut received in [
                    lists::random_bits(&mut random, 2 * n),
                    midway(&mut random, n),
                    convolve(&candidate(&mut random, n)),
                ] {
                    losses::lose_some(&mut random, &mut received);
                    both_agree(&received);
                    both_agree(&inverted(&received));
                }
            }
        }
    }

    /// The nearest of all candidates by the words of the paper alone: each present place is looked
    /// at, and of equals the one is taken that comes first, compared from the last bit back.
    fn nearest_in_words(received: &[u8]) -> Survivor {
        let n = received.len() / 2;
        let present: Vec<usize> = (0..2 * n).filter(|&k| received[k] < 2).collect();
        let candidates = (0..1 << (n - 4)).map(|number| {
            let u = bits_of(number, n);
            let c = convolve(&u);
            let count = present.iter().filter(|&&k| c[k] != received[k]).count();
            Survivor { count, u }
        });
        let order = |one: &Survivor| {
            let backwards: Vec<u8> = one.u.iter().rev().copied().collect();
            (one.count, backwards)
        };
        candidates.min_by_key(order).unwrap()
    }

    #[test]
    fn the_nearest_is_that_of_the_words() {
        let mut random = Random::new(221);
        for n in 4..=11 {
            for _ in 0..40 {
                let mut received = midway(&mut random, n);
                assert_eq!(nearest(&received), nearest_in_words(&received));
                losses::lose_some(&mut random, &mut received);
                assert_eq!(nearest(&received), nearest_in_words(&received));
            }
        }
    }

    #[test]
    fn what_is_all_missing_is_nearest_to_zeros() {
        for n in [4, 18, 19, 39, 189, 228] {
            let answer = nearest(&vec![2; 2 * n]);
            assert_eq!((answer.count, answer.u), (0, vec![0; n]));
        }
    }

    #[test]
    fn lists_midway_tie_mostly() {
        let mut random = Random::new(25);
        let ties = (0..200)
            .filter(|_| equals(&midway(&mut random, 18), 18) > 1)
            .count();
        assert!(ties > 100, "{}", ties);
    }

    /// The list ties between two candidates of six bits at four disagreements; both methods take u.
    fn tie_takes(received: &[u8], u: &[u8]) {
        assert_eq!(equals(received, 6), 2);
        for answer in [nearest_of_all(received), nearest_survivor(received)] {
            assert_eq!((answer.count, &answer.u[..]), (4, u));
        }
    }

    #[test]
    fn of_00_and_11_a_tie_takes_00() {
        // The pairs of 11 are 11 10 01 11 00 11; those of 10 and of 01 disagree in seven places.
        let received = [1, 0, 1, 0, 0, 0, 0, 1, 0, 0, 1, 0];
        tie_takes(&received, &[0, 0, 0, 0, 0, 0]);
    }

    #[test]
    fn of_10_and_01_a_tie_takes_10() {
        // The pairs are 11 01 00 11 11 00 and 00 11 01 00 11 11; the last difference decides.
        let received = [0, 0, 1, 1, 0, 1, 1, 1, 1, 1, 0, 0];
        tie_takes(&received, &[1, 0, 0, 0, 0, 0]);
    }

    #[test]
    fn zeros_with_bits_0_1_3_6_set() {
        let received = [&[1, 1, 0, 1, 0, 0, 1][..], &[0; 29]].concat();
        let answer = nearest(&received);
        assert_eq!(answer.count, 3);
        assert_eq!(answer.u, [&[1][..], &[0; 17]].concat());
        assert_eq!(nearest_survivor(&received), answer);
    }

    #[test]
    fn a_coded_candidate_is_its_own_nearest() {
        let mut random = Random::new(26);
        for n in [4, 18, 39, 189, 228] {
            let u = candidate(&mut random, n);
            let answer = nearest(&convolve(&u));
            assert_eq!((answer.count, answer.u), (0, u));
        }
    }

    #[test]
    fn a_candidate_of_which_one_of_each_pair_is_left_is_its_own_nearest() {
        let mut random = Random::new(222);
        for n in [4, 18, 39, 189, 228] {
            let u = candidate(&mut random, n);
            for first in [0, 1] {
                let mut received = convolve(&u);
                for bit in received.iter_mut().skip(first).step_by(2) {
                    *bit = 2;
                }
                let answer = nearest(&received);
                assert_eq!((answer.count, &answer.u), (0, &u));
            }
        }
    }

    #[test]
    fn altered_bits_weigh_twice_as_much_as_missing_ones_and_six_are_borne_in_every_length() {
        let mut random = Random::new(223);
        for n in [4, 18, 19, 39, 189, 228] {
            for altered in 0..=3 {
                for missing in 0..=6 - 2 * altered {
                    let u = candidate(&mut random, n);
                    let mut received = convolve(&u);
                    lists::alter_and_lose(&mut random, &mut received, altered, missing);
                    let answer = nearest(&received);
                    assert_eq!((answer.count, answer.u), (altered, u));
                }
            }
        }
    }

    #[test]
    fn up_to_three_altered_bits_are_repaired_in_every_length() {
        let mut random = Random::new(27);
        for n in [4, 18, 19, 39, 189, 228] {
            for altered in 0..=3 {
                let u = candidate(&mut random, n);
                let mut received = convolve(&u);
                lists::alter(&mut random, &mut received, altered);
                let answer = nearest(&received);
                assert_eq!((answer.count, answer.u), (altered, u));
            }
        }
    }
}
