//! The coded bits c of the information bits d: parity, the block u, and its convolution.

use crate::model::bits::add;
use crate::model::channel::Channel;
use crate::model::polynomial::parity;

/// c(2k)   = u(k) + u(k-3) + u(k-4)
/// c(2k+1) = u(k) + u(k-1) + u(k-3) + u(k-4), with u(k) = 0 for k < 0
pub fn convolve(u: &[u8]) -> Vec<u8> {
    let before = |k: usize, steps: usize| if k < steps { 0 } else { u[k - steps] };
    let mut c = vec![0; 2 * u.len()];
    for k in 0..u.len() {
        let sum = u[k] + before(k, 3) + before(k, 4);
        c[2 * k] = sum % 2;
        c[2 * k + 1] = (sum + before(k, 1)) % 2;
    }
    c
}

/// u where nothing is repaired: u(k) = c(2k) + u(k-3) + u(k-4), with u(k) = 0 for k < 0; a missing bit
/// counts as 0
pub fn unrepaired(c: &[u8]) -> Vec<u8> {
    let mut u: Vec<u8> = Vec::new();
    for k in 0..c.len() / 2 {
        let before = |steps: usize| if k < steps { 0 } else { u[k - steps] };
        let sum = c[2 * k] + before(3) + before(4);
        u.push(sum % 2);
    }
    u
}

/// b(0) is the highest bit of the identity, b(5) the lowest
fn identity_bits(identity: u64) -> Vec<u8> {
    let values = [32, 16, 8, 4, 2, 1];
    let bit = |value: &u64| ((identity / value) % 2) as u8;
    values.iter().map(bit).collect()
}

/// C(k) = p(k) + b(k) for k = 0..5, and so p(k) = C(k) + b(k); without an identity, C is p
pub fn add_identity(channel: &Channel, identity: u64, p: &mut [u8]) {
    if channel.has_identity {
        add(p, &identity_bits(identity));
    }
}

/// C(0), C(1), .. of the bits that the parity is over
fn colour(channel: &Channel, identity: u64, d: &[u8]) -> Vec<u8> {
    let mut p = parity(&d[..channel.covered], &(channel.generator)());
    add_identity(channel, identity, &mut p);
    p
}

/// u(k) = d(2k) and u(184-k) = d(2k+1) for k = 0..90
/// u(91+k) = p(k) for k = 0, 1, 2
/// u(k) = 0 for k = 185..188
fn speech_block(d: &[u8], p: &[u8]) -> Vec<u8> {
    let mut u = vec![0; 189];
    for k in 0..=90 {
        u[k] = d[2 * k];
        u[184 - k] = d[2 * k + 1];
    }
    for k in 0..=2 {
        u[91 + k] = p[k];
    }
    u
}

/// Speech, 3.1.2: class 1 is convolved; class 2 is c(378+k) = d(182+k) for k = 0..77
pub fn speech(channel: &Channel, identity: u64, d: &[u8]) -> Vec<u8> {
    let d = &d[..260];
    let mut c = convolve(&speech_block(d, &colour(channel, identity, d)));
    c.extend(&d[182..]);
    c
}

/// Control, 4.1.2 and 4.1.3: u(k) = d(k) for k = 0..183, u(k) = p(k-184) for k = 184..223,
/// u(k) = 0 for k = 224..227
/// Access, 4.6: u(k) = d(k) for k = 0..7, u(k) = C(k-8) for k = 8..13, u(k) = 0 for k = 14..17
/// SCH, 4.7: u(k) = d(k) for k = 0..24, u(k) = p(k-25) for k = 25..34, u(k) = 0 for k = 35..38
pub fn block(channel: &Channel, identity: u64, d: &[u8]) -> Vec<u8> {
    convolve(&[d, &colour(channel, identity, d), &[0, 0, 0, 0]].concat())
}

#[cfg(test)]
mod tests {
    use super::*;
    use crate::chance::lists::random_bits;
    use crate::chance::random::Random;
    use crate::model::bits::ones_at;
    use crate::model::channel::{ACCESS, NO_IDENTITY, SPEECH};
    use crate::model::missing::MISSING;

    /// The colour bits of an access request.
    fn access_colour(identity: u64, d: &[u8]) -> Vec<u8> {
        colour(&ACCESS, identity, d)
    }

    /// The parity bits of speech.
    fn speech_parity(d: &[u8]) -> Vec<u8> {
        colour(&SPEECH, NO_IDENTITY, d)
    }

    /// The block u of speech.
    fn block_of_speech(d: &[u8]) -> Vec<u8> {
        speech_block(d, &speech_parity(d))
    }

    #[test]
    fn access_of_zeros_under_identity_0() {
        assert_eq!(access_colour(0, &[0; 8]), [1; 6]);
    }

    #[test]
    fn access_of_zeros_under_identity_63() {
        assert_eq!(access_colour(63, &[0; 8]), [0; 6]);
        assert_eq!(block(&ACCESS, 63, &[0; 8]), [0; 36]);
    }

    #[test]
    fn access_of_a_last_one_under_identity_0() {
        let last_one = [0, 0, 0, 0, 0, 0, 0, 1];
        assert_eq!(access_colour(0, &last_one), [0, 1, 0, 0, 0, 0]);
    }

    #[test]
    fn the_identity_has_its_highest_bit_first() {
        assert_eq!(access_colour(32, &[0; 8]), [0, 1, 1, 1, 1, 1]);
        assert_eq!(access_colour(1, &[0; 8]), [1, 1, 1, 1, 1, 0]);
    }

    #[test]
    fn an_identity_added_twice_is_gone() {
        for identity in 0..64 {
            let mut p = vec![1, 0, 0, 1, 1, 0];
            add_identity(&ACCESS, identity, &mut p);
            add_identity(&ACCESS, identity, &mut p);
            assert_eq!(p, [1, 0, 0, 1, 1, 0]);
        }
    }

    #[test]
    fn speech_of_zeros() {
        assert_eq!(speech_parity(&[0; 260]), [1, 1, 1]);
        let c = speech(&SPEECH, NO_IDENTITY, &[0; 260]);
        assert_eq!(ones_at(&c), [182, 183, 184, 186, 188, 194, 195]);
    }

    #[test]
    fn speech_parity_sits_in_the_middle() {
        assert_eq!(ones_at(&block_of_speech(&[0; 260])), [91, 92, 93]);
        let d = [1; 260];
        assert_eq!(block_of_speech(&d)[91..=93], speech_parity(&d));
    }

    #[test]
    fn speech_parity_is_over_d_0_to_d_49() {
        for k in 0..260 {
            let mut d = [0; 260];
            d[k] = 1;
            let changed = speech_parity(&d) != [1, 1, 1];
            assert_eq!(changed, k <= 49, "d({})", k);
        }
    }

    #[test]
    fn class_1_ends_at_181_and_class_2_begins_at_182() {
        let mut d = [0; 260];
        d[181] = 1;
        assert_eq!(ones_at(&block_of_speech(&d)), [91, 92, 93, 94]);
        let mut d = [0; 260];
        d[182] = 1;
        let ones = ones_at(&speech(&SPEECH, NO_IDENTITY, &d));
        assert_eq!(ones, [182, 183, 184, 186, 188, 194, 195, 378]);
    }

    #[test]
    fn one_bit_convolved_gives_the_two_polynomials() {
        // G0 = 1 + D^3 + D^4 at the even places, G1 = 1 + D + D^3 + D^4 at the odd ones.
        assert_eq!(
            convolve(&[1, 0, 0, 0, 0, 0]),
            [1, 1, 0, 1, 0, 0, 1, 1, 1, 1, 0, 0]
        );
    }

    #[test]
    fn what_was_not_altered_needs_no_repair() {
        let u = random_bits(&mut Random::new(320), 100);
        let mut c = convolve(&u);
        assert_eq!(unrepaired(&c), u);
        // The second bit of a pair is not looked at.
        for bit in c.iter_mut().skip(1).step_by(2) {
            *bit = MISSING;
        }
        assert_eq!(unrepaired(&c), u);
    }

    #[test]
    fn a_missing_first_bit_counts_as_0() {
        assert_eq!(unrepaired(&[2, 1, 1, 1, 2, 0]), [0, 1, 0]);
        assert_eq!(unrepaired(&[1, 1, 0, 0, 0, 0, 2, 1]), [1, 0, 0, 1]);
    }
}
