//! The information bits d of received bits c: the nearest candidate, then the verdict from the
//! parity bits in it.

use crate::model::channel::{Channel, Received};
use crate::model::coding::add_identity;
use crate::model::decoding::nearest;
use crate::model::missing::given_as;
use crate::model::polynomial::leaves_all_ones;
use crate::model::refusal::Refusal;
use crate::model::survivors::Survivor;

/// The count and d if the parity is good, else refusal 8 and the count; where the channel has an
/// identity, p(k) = C(k) + b(k) with the receiver's.
fn verdict(channel: &Channel, identity: u64, found: Survivor, d: Vec<u8>) -> Received {
    let (first, number) = channel.parity;
    let mut p = found.u[first..first + number].to_vec();
    add_identity(channel, identity, &mut p);
    let covered = [&d[..channel.covered], &p].concat();
    if leaves_all_ones(&covered, &(channel.generator)()) {
        Ok((found.count, d))
    } else {
        Err(Refusal::BadParity { count: found.count })
    }
}

/// d(2k) = u(k) and d(2k+1) = u(184-k) for k = 0..90
/// d(182+k) = c(378+k) for k = 0..77, as received; 0 where it is missing
pub fn speech_bits(u: &[u8], c: &[u8]) -> Vec<u8> {
    let mut d = vec![0; 260];
    for k in 0..=90 {
        d[2 * k] = u[k];
        d[2 * k + 1] = u[184 - k];
    }
    for k in 0..=77 {
        d[182 + k] = given_as(c[378 + k]);
    }
    d
}

/// Speech: the pairs are c(0)..c(377), and p(0), p(1), p(2) are u(91)..u(93)
pub fn speech(channel: &Channel, identity: u64, c: &[u8]) -> Received {
    let found = nearest(&c[..channel.protected()]);
    let d = speech_bits(&found.u, c);
    verdict(channel, identity, found, d)
}

/// Control: d is u(0)..u(183), p is u(184)..u(223)
/// Access: d is u(0)..u(7), C is u(8)..u(13)
/// SCH: d is u(0)..u(24), p is u(25)..u(34)
pub fn block(channel: &Channel, identity: u64, c: &[u8]) -> Received {
    let found = nearest(c);
    let d = found.u[..channel.reads].to_vec();
    verdict(channel, identity, found, d)
}

#[cfg(test)]
mod tests {
    use super::*;
    use crate::chance::lists::random_bits;
    use crate::chance::random::Random;
    use crate::model::channel::{NO_IDENTITY, SPEECH};

    #[test]
    fn the_bits_of_speech_are_found_where_they_were_put() {
        let d = random_bits(&mut Random::new(37), 260);
        let c = SPEECH.encode(NO_IDENTITY, &d, 456).unwrap();
        let u = nearest(&c[..378]).u;
        assert_eq!(speech_bits(&u, &c), d);
        // Class 1 comes from u alone, class 2 from c alone.
        let class_1 = [&d[..182], &[0; 78]].concat();
        assert_eq!(speech_bits(&u, &[0; 456]), class_1);
        assert_eq!(speech_bits(&u, &[2; 456]), class_1);
    }
}
