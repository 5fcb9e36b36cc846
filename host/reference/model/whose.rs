//! Whose burst it was: the identity that the nearest block of an access burst names. 02, M-105

use crate::model::bits::add;
use crate::model::channel::ACCESS;
use crate::model::decoding::nearest;
use crate::model::polynomial::parity;
use crate::model::refusal::{check_received, Refusal};

/// An identity, and the count of disagreements.
pub type Named = Result<(u64, usize), Refusal>;

/// C(k) = p(k) + b(k), and so b(k) = C(k) + p(k), for k = 0..5
/// C is u(8)..u(13), and p is the parity of u(0)..u(7)
fn identity_bits(u: &[u8]) -> Vec<u8> {
    let mut b = u[8..=13].to_vec();
    add(&mut b, &parity(&u[..=7], &(ACCESS.generator)()));
    b
}

/// b(0) is the highest bit of the identity, b(5) the lowest
fn identity_of(b: &[u8]) -> u64 {
    b.iter().fold(0, |number, &bit| 2 * number + u64::from(bit))
}

/// The one identity that 36 received bits name, and the count; refusals in the order 1, 2.
pub fn whose(e: &[u8]) -> Named {
    check_received(e, e.len() == ACCESS.writes)?;
    let found = nearest(e);
    Ok((identity_of(&identity_bits(&found.u)), found.count))
}

#[cfg(test)]
mod tests {
    use super::*;
    use crate::chance::lists::{alter, alter_and_lose, move_midway, random_bits, unsent};
    use crate::chance::losses::lose_some;
    use crate::chance::random::Random;
    use crate::model::bits::bits_of;
    use crate::model::coding::{convolve, unrepaired};
    use crate::model::refusal::Refusal::*;

    /// A burst that is sent for an identity.
    fn burst(random: &mut Random, identity: u64) -> Vec<u8> {
        ACCESS.coded(identity, &random_bits(random, 8))
    }

    /// Of all identities access takes the bits under the one named, and gives 8 under each other,
    /// always with the same count.
    fn is_taken_under_its_name_alone(e: &[u8]) {
        let (named, count) = whose(e).unwrap();
        let mut taken = Vec::new();
        for identity in 0..64 {
            match ACCESS.decode(identity, e, 8) {
                Ok((count, _)) => taken.push((identity, count)),
                refused => assert_eq!(refused, Err(BadParity { count }), "{:?}", e),
            }
        }
        assert_eq!(taken, [(named, count)], "{:?}", e);
    }

    #[test]
    fn a_burst_is_taken_under_its_name_alone_whatever_became_of_it() {
        let mut random = Random::new(270);
        for identity in 0..64 {
            let mut e = burst(&mut random, identity);
            alter(&mut random, &mut e, identity as usize % 12);
            is_taken_under_its_name_alone(&e);
            lose_some(&mut random, &mut e);
            is_taken_under_its_name_alone(&e);
        }
    }

    #[test]
    fn what_no_one_sent_is_taken_under_its_name_alone() {
        let mut random = Random::new(271);
        for identity in 0..64 {
            let mut midway = burst(&mut random, identity);
            move_midway(&mut random, &mut midway, 18);
            is_taken_under_its_name_alone(&midway);
            is_taken_under_its_name_alone(&unsent(&mut random, 36));
        }
        for byte in 0..=2 {
            is_taken_under_its_name_alone(&[byte; 36]);
        }
    }

    #[test]
    fn every_burst_names_the_identity_that_it_was_sent_to() {
        for identity in 0..64 {
            for number in 0..256 {
                let e = ACCESS.coded(identity, &bits_of(number, 8));
                assert_eq!(whose(&e), Ok((identity, 0)));
            }
        }
    }

    #[test]
    fn altered_bits_weigh_twice_as_much_as_missing_ones_and_six_leave_the_name() {
        let mut random = Random::new(272);
        for identity in 0..64 {
            for altered in 0..=3 {
                for missing in 0..=6 - 2 * altered {
                    let mut e = burst(&mut random, identity);
                    alter_and_lose(&mut random, &mut e, altered, missing);
                    assert_eq!(whose(&e), Ok((identity, altered)), "{:?}", e);
                }
            }
        }
    }

    #[test]
    fn zeros_are_for_identity_63_and_so_is_what_is_all_missing() {
        assert_eq!(whose(&[0; 36]), Ok((63, 0)));
        assert_eq!(whose(&[2; 36]), Ok((63, 0)));
    }

    #[test]
    fn the_identity_has_its_highest_bit_first() {
        // D^13 leaves D^4 + D^3 + D^2, so that p is 100011, and C is 0. Backwards it would be 49.
        let u = [&[1][..], &[0; 17]].concat();
        assert_eq!(whose(&convolve(&u)), Ok((35, 0)));
        // The zeros of identity 63 with bits 0, 1, 3, 6 set are nearer to it.
        let four_set = [&[1, 1, 0, 1, 0, 0, 1][..], &[0; 29]].concat();
        assert_eq!(whose(&four_set), Ok((35, 3)));
    }

    #[test]
    fn the_nearest_block_is_asked_and_not_what_was_received() {
        let as_received = |e: &[u8]| identity_of(&identity_bits(&unrepaired(e)));
        let mut e = ACCESS.coded(7, &[0, 1, 1, 0, 1, 0, 0, 1]);
        assert_eq!((as_received(&e), whose(&e)), (7, Ok((7, 0))));
        for k in [2, 17, 30] {
            e[k] = 1 - e[k];
        }
        assert_ne!(as_received(&e), 7);
        assert_eq!(whose(&e), Ok((7, 3)));
    }

    #[test]
    fn the_length_is_refused_first_and_then_a_byte_over_2() {
        for length in (0..=80).filter(|&length| length != 36) {
            for byte in [0, 2, 3, 255] {
                assert_eq!(whose(&vec![byte; length]), Err(WrongLength));
            }
        }
        for k in 0..36 {
            for byte in [3, 4, 128, 255] {
                let mut e = [0; 36];
                e[k] = byte;
                assert_eq!(whose(&e), Err(NotABit));
            }
        }
    }
}
