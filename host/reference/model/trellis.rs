//! The trellis view: after t pairs, the fewest disagreements of any t bits in each state.

use crate::model::bits::bits_of;
use crate::model::exhaustive::Pairs;
use crate::model::refusal::{check_received, Refusal};
use crate::model::survivors::{state, survivors};

/// Up to this many pairs, all bits are gone through.
const FEW_PAIRS: usize = 12;
/// At most 228 pairs, the longest block, are viewed.
const MOST_BITS: usize = 456;
/// Stands where no t bits end in the state.
const NONE: usize = 65_535;

/// Sixteen numbers, by state.
pub type View = [usize; 16];

/// The view of the received bits; refusal 1 for the length, then refusal 2 for a byte over 2.
pub fn view(received: &[u8]) -> Result<View, Refusal> {
    let length = received.len();
    check_received(received, length % 2 == 0 && length <= MOST_BITS)?;
    if length / 2 <= FEW_PAIRS {
        Ok(view_of_all(received))
    } else {
        Ok(view_of_survivors(received))
    }
}

/// Goes through all t bits, one after another.
fn view_of_all(received: &[u8]) -> View {
    let t = received.len() / 2;
    let pairs = Pairs::of(received);
    let mut fewest = [NONE; 16];
    for number in 0..1 << t {
        let place = &mut fewest[state(&bits_of(number, t))];
        *place = pairs.disagreements(number).min(*place);
    }
    fewest
}

/// Lengthens the survivors pair by pair; each of the last ones tells its state's number.
fn view_of_survivors(received: &[u8]) -> View {
    let mut fewest = [NONE; 16];
    for survivor in survivors(received, received.len() / 2) {
        fewest[state(&survivor.u)] = survivor.count;
    }
    fewest
}

#[cfg(test)]
mod tests {
    use super::*;
    use crate::chance::lists;
    use crate::chance::losses::lose_some;
    use crate::chance::random::Random;
    use crate::model::coding::convolve;
    use crate::model::decoding::nearest;

    /// A view with some states, all others without any bits.
    fn only(states: &[(usize, usize)]) -> View {
        let mut fewest = [NONE; 16];
        for &(state, count) in states {
            fewest[state] = count;
        }
        fewest
    }

    #[test]
    fn the_view_of_the_pair_1_1() {
        assert_eq!(view(&[1, 1]), Ok(only(&[(0, 2), (8, 0)])));
    }

    #[test]
    fn the_view_of_nothing() {
        assert_eq!(view(&[]), Ok(only(&[(0, 0)])));
    }

    #[test]
    fn the_view_of_two_and_of_three_pairs() {
        // The pairs are 00 00 for 00, 00 11 for 01, 11 01 for 10, 11 10 for 11.
        assert_eq!(
            view(&[0, 0, 0, 1]),
            Ok(only(&[(0, 1), (8, 1), (4, 2), (12, 4)]))
        );
        let reached: Vec<usize> = (0..16)
            .filter(|&state| view(&[0; 6]).unwrap()[state] != NONE)
            .collect();
        assert_eq!(reached, [0, 2, 4, 6, 8, 10, 12, 14]);
    }

    #[test]
    fn both_methods_agree_up_to_12_pairs() {
        let mut random = Random::new(28);
        for t in 0..=12 {
            for _ in 0..30 {
                let mut coded = convolve(&lists::random_bits(&mut random, t));
                let altered = random.below(8);
                lists::alter(&mut random, &mut coded, altered);
                for mut received in [
                    lists::random_bits(&mut random, 2 * t),
                    lists::few_turned(&mut random, 2 * t),
                    lists::pattern(&mut random, 2 * t),
                    coded,
                ] {
                    assert_eq!(view_of_all(&received), view_of_survivors(&received));
                    lose_some(&mut random, &mut received);
                    assert_eq!(view_of_all(&received), view_of_survivors(&received));
                }
            }
        }
    }

    #[test]
    fn state_0_has_the_count_of_the_nearest_candidate() {
        let mut random = Random::new(29);
        for n in [4, 11, 12, 13, 18, 19, 39, 189, 228] {
            let mut received = lists::random_bits(&mut random, 2 * n);
            assert_eq!(view(&received).unwrap()[0], nearest(&received).count);
            lose_some(&mut random, &mut received);
            assert_eq!(view(&received).unwrap()[0], nearest(&received).count);
        }
    }

    #[test]
    fn a_missing_bit_is_in_no_count() {
        // The pairs are 00 and 11.
        for (received, zero, one) in [
            ([2, 1], 1, 0),
            ([1, 2], 1, 0),
            ([2, 0], 0, 1),
            ([0, 2], 0, 1),
            ([2, 2], 0, 0),
        ] {
            assert_eq!(view(&received), Ok(only(&[(0, zero), (8, one)])));
        }
    }

    #[test]
    fn where_all_is_missing_every_count_is_0() {
        for t in [1, 2, 3, 4, 12, 13, 228] {
            for (state, count) in view(&vec![2; 2 * t]).unwrap().into_iter().enumerate() {
                // After one pair states 0 and 8 are reached, then twice as many with each.
                let is_reached = state % (16 >> t.min(4)) == 0;
                assert_eq!(count, if is_reached { 0 } else { NONE }, "{} pairs", t);
            }
        }
    }

    #[test]
    fn odd_lengths_and_those_over_456_are_refused_first() {
        for length in [1, 3, 455, 457, 458, 464, 990] {
            assert_eq!(
                view(&vec![0; length]),
                Err(Refusal::WrongLength),
                "{}",
                length
            );
            assert_eq!(
                view(&vec![3; length]),
                Err(Refusal::WrongLength),
                "{}",
                length
            );
        }
        assert!(view(&[0; 456]).is_ok());
    }

    #[test]
    fn bytes_over_2_are_refused_next() {
        for length in [2, 24, 26, 456] {
            for byte in [3, 255] {
                let mut received = vec![0; length];
                received[length - 1] = byte;
                assert_eq!(view(&received), Err(Refusal::NotABit), "{}", length);
            }
        }
    }
}
