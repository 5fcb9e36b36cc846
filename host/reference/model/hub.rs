//! The classroom hub: thirty places, at each of which a kit may stand with its identity. An access
//! burst goes to the place whose identity accepts it. 02, M-112

use crate::model::channel::ACCESS;
use crate::model::refusal::{check_identity, check_received, Refusal};

/// The places are 0 to 29.
pub const PLACES: usize = 30;

/// A burst that is accepted: the place, the count of disagreements and the information bits.
pub type Heard = Result<(usize, usize, Vec<u8>), Refusal>;

/// The hub: at each place the identity that stands there, or nothing while the place is free.
#[derive(Clone, Debug, PartialEq)]
pub struct Hub {
    places: [Option<u64>; PLACES],
}

impl Hub {
    /// All places are free.
    pub fn fresh() -> Hub {
        Hub {
            places: [None; PLACES],
        }
    }

    /// The identity at a place; nothing where the place is free, and over 29.
    pub fn identity_at(&self, place: usize) -> Option<u64> {
        self.places.get(place).copied().flatten()
    }

    /// Gives an identity the smallest free place; refusals in the order 3, 14, 15.
    pub fn enrol(&mut self, identity: u64) -> Result<usize, Refusal> {
        check_identity(identity)?;
        if self.places.contains(&Some(identity)) {
            return Err(Refusal::IdentityTaken);
        }
        let free = self.places.iter().position(|place| place.is_none());
        let place = free.ok_or(Refusal::AllPlacesInUse)?;
        self.places[place] = Some(identity);
        Ok(place)
    }

    /// Frees a place; refusal 16 where no identity stands there.
    pub fn remove(&mut self, place: usize) -> Result<(), Refusal> {
        if self.identity_at(place).is_none() {
            return Err(Refusal::EmptyPlace);
        }
        self.places[place] = None;
        Ok(())
    }

    /// The place whose identity accepts 36 received bits, the count, and the bits that are written to
    /// so many lent bytes; refusals in the order 1, 2, 17.
    pub fn hear(&self, e: &[u8], lent: usize) -> Heard {
        check_received(e, e.len() == ACCESS.writes && lent == ACCESS.reads)?;
        let accepted = |place: usize| {
            let (count, d) = ACCESS.decode(self.identity_at(place)?, e, lent).ok()?;
            Some((place, count, d))
        };
        // Each place is asked for itself, so that a second one which accepts would be seen.
        let mut accepted: Vec<_> = (0..PLACES).filter_map(accepted).collect();
        assert!(accepted.len() <= 1, "two places accept one burst");
        accepted.pop().ok_or(Refusal::NobodyAccepts)
    }
}

#[cfg(test)]
mod tests {
    use super::*;
    use crate::chance::lists::{alter, alter_and_lose, move_midway, random_bits, unsent};
    use crate::chance::losses::lose_some;
    use crate::chance::random::Random;
    use crate::model::refusal::Refusal::*;
    use crate::model::whose::whose;
    use std::collections::BTreeMap;

    /// A hub at which these identities are enrolled, in their order.
    fn hub_of(identities: &[u64]) -> Hub {
        let mut hub = Hub::fresh();
        for (place, &identity) in identities.iter().enumerate() {
            assert_eq!(hub.enrol(identity), Ok(place));
        }
        hub
    }

    /// All identities, in an order that chance gives.
    fn all_identities(random: &mut Random) -> Vec<u64> {
        let mut left: Vec<u64> = (0..64).collect();
        let mut taken = Vec::new();
        while !left.is_empty() {
            taken.push(left.swap_remove(random.below(left.len())));
        }
        taken
    }

    /// A full hub, and the 34 identities that do not stand there.
    fn full_hub(random: &mut Random) -> (Hub, Vec<u64>) {
        let identities = all_identities(random);
        (hub_of(&identities[..PLACES]), identities[PLACES..].to_vec())
    }

    /// The identities that stand at the places, from place 0 on.
    fn enrolled(hub: &Hub) -> Vec<u64> {
        (0..PLACES).filter_map(|k| hub.identity_at(k)).collect()
    }

    /// A request, and the burst in which it is sent for an identity.
    fn request(random: &mut Random, identity: u64) -> (Vec<u8>, Vec<u8>) {
        let d = random_bits(random, 8);
        let e = ACCESS.coded(identity, &d);
        (d, e)
    }

    #[test]
    fn thirty_identities_get_the_places_from_0_to_29() {
        let mut hub = Hub::fresh();
        for place in 0..30 {
            assert_eq!(hub.identity_at(place), None);
            assert_eq!(hub.enrol(63 - place as u64), Ok(place));
            assert_eq!(hub.identity_at(place), Some(63 - place as u64));
        }
        assert_eq!(hub.identity_at(30), None);
        assert_eq!(enrolled(&hub), (34..64).rev().collect::<Vec<u64>>());
    }

    #[test]
    fn every_identity_up_to_63_may_be_enrolled() {
        for identity in 0..64 {
            assert_eq!(Hub::fresh().enrol(identity), Ok(0));
        }
        for identity in [64, 65, 127, 128, 255, 256, 65_535, 1 << 32, u64::MAX] {
            assert_eq!(Hub::fresh().enrol(identity), Err(WrongIdentity));
        }
    }

    #[test]
    fn a_freed_place_is_used_again_the_smallest_first() {
        let (mut hub, others) = full_hub(&mut Random::new(370));
        for place in [17, 3, 29, 0, 11] {
            assert_eq!(hub.remove(place), Ok(()));
        }
        for (k, place) in [0, 3, 11, 17, 29].into_iter().enumerate() {
            assert_eq!(hub.enrol(others[k]), Ok(place));
            assert_eq!(hub.identity_at(place), Some(others[k]));
        }
        assert_eq!(hub.enrol(others[5]), Err(AllPlacesInUse));
    }

    #[test]
    fn a_freed_place_comes_before_those_that_were_never_used() {
        let mut hub = hub_of(&[5, 6, 7]);
        assert_eq!(hub.remove(1), Ok(()));
        assert_eq!(hub.enrol(8), Ok(1));
        assert_eq!(hub.enrol(9), Ok(3));
        assert_eq!(enrolled(&hub), [5, 8, 7, 9]);
    }

    #[test]
    fn a_removed_identity_may_be_enrolled_again_and_elsewhere() {
        let mut hub = hub_of(&[5, 6, 7]);
        for place in [0, 2] {
            assert_eq!(hub.remove(place), Ok(()));
        }
        assert_eq!(hub.enrol(7), Ok(0));
        assert_eq!(hub.enrol(5), Ok(2));
        assert_eq!(enrolled(&hub), [7, 6, 5]);
    }

    #[test]
    fn a_taken_identity_is_refused_while_places_are_free_and_when_none_is() {
        let mut random = Random::new(371);
        let identities = all_identities(&mut random);
        let mut hub = Hub::fresh();
        for k in 0..30 {
            hub.enrol(identities[k]).unwrap();
            for &taken in &identities[..=k] {
                assert_eq!(hub.enrol(taken), Err(IdentityTaken));
            }
        }
        for &other in &identities[30..] {
            assert_eq!(hub.enrol(other), Err(AllPlacesInUse));
        }
    }

    #[test]
    fn an_identity_over_63_comes_before_the_other_refusals() {
        let (mut hub, _) = full_hub(&mut Random::new(372));
        for identity in 0..64 {
            // The same identity to one who reads six, eight or thirty-two bits of it.
            for high in [64, 256, 65_472, 1 << 32] {
                assert_eq!(hub.enrol(high + identity), Err(WrongIdentity));
                assert_eq!(Hub::fresh().enrol(high + identity), Err(WrongIdentity));
            }
        }
    }

    #[test]
    fn an_empty_place_is_refused_and_so_is_one_over_29() {
        for place in 0..30 {
            assert_eq!(Hub::fresh().remove(place), Err(EmptyPlace));
        }
        let (mut hub, _) = full_hub(&mut Random::new(373));
        let over_29 = [30, 31, 59, 63, 64, 255, 256, 285, 65_535, usize::MAX];
        for place in over_29 {
            assert_eq!(hub.remove(place), Err(EmptyPlace), "{}", place);
        }
        for place in (0..30).rev() {
            assert_eq!(hub.remove(place), Ok(()));
            assert_eq!(hub.remove(place), Err(EmptyPlace));
        }
        assert_eq!(hub, Hub::fresh());
    }

    #[test]
    fn one_place_alone_is_freed() {
        let (full, _) = full_hub(&mut Random::new(374));
        for place in 0..30 {
            let mut hub = full.clone();
            assert_eq!(hub.remove(place), Ok(()));
            for k in 0..30 {
                let expected = full.identity_at(k).filter(|_| k != place);
                assert_eq!(hub.identity_at(k), expected);
            }
        }
    }

    #[test]
    fn a_refused_call_leaves_the_hub() {
        let mut random = Random::new(375);
        let (full, others) = full_hub(&mut random);
        let taken = full.identity_at(12).unwrap();
        let mut half = hub_of(&enrolled(&full)[..15]);
        half.remove(3).unwrap();
        for before in [full, half, Hub::fresh()] {
            let mut hub = before.clone();
            assert_eq!(hub.enrol(64), Err(WrongIdentity));
            assert_eq!(hub.enrol(256 + taken), Err(WrongIdentity));
            assert_eq!(hub.remove(30), Err(EmptyPlace));
            assert_eq!(hub.remove(65_535), Err(EmptyPlace));
            for place in (0..30).filter(|&place| before.identity_at(place).is_none()) {
                assert_eq!(hub.remove(place), Err(EmptyPlace));
            }
            for identity in enrolled(&before) {
                assert_eq!(hub.enrol(identity), Err(IdentityTaken));
            }
            if enrolled(&before).len() == PLACES {
                assert_eq!(hub.enrol(others[0]), Err(AllPlacesInUse));
            }
            assert_eq!(hub, before);
        }
    }

    #[test]
    fn after_any_calls_each_identity_stands_at_one_place_at_most() {
        let mut random = Random::new(376);
        let mut hub = Hub::fresh();
        // The same class as a list of its own: who stands where.
        let mut class: BTreeMap<usize, u64> = BTreeMap::new();
        for step in 0..20_000 {
            let enrols_of_ten = if step / 100 % 2 == 0 { 8 } else { 3 };
            if random.below(10) < enrols_of_ten {
                let identity = random.below(66) as u64;
                let free = (0..30).find(|place| !class.contains_key(place));
                let is_taken = class.values().any(|&other| other == identity);
                let expected = match free {
                    _ if identity > 63 => Err(WrongIdentity),
                    _ if is_taken => Err(IdentityTaken),
                    None => Err(AllPlacesInUse),
                    Some(place) => Ok(place),
                };
                assert_eq!(hub.enrol(identity), expected);
                expected.map(|place| class.insert(place, identity)).ok();
            } else {
                let place = random.below(32);
                let expected = class.remove(&place).map(|_| ()).ok_or(EmptyPlace);
                assert_eq!(hub.remove(place), expected);
            }
            for place in 0..32 {
                assert_eq!(hub.identity_at(place), class.get(&place).copied());
            }
        }
    }

    #[test]
    fn a_fresh_hub_hears_nothing() {
        let mut random = Random::new(377);
        for identity in 0..64 {
            let (_, e) = request(&mut random, identity);
            assert_eq!(Hub::fresh().hear(&e, 8), Err(NobodyAccepts));
        }
        for byte in 0..=2 {
            assert_eq!(Hub::fresh().hear(&[byte; 36], 8), Err(NobodyAccepts));
        }
    }

    #[test]
    fn zeros_are_for_identity_63_and_so_is_what_is_all_missing() {
        let mut hub = hub_of(&[62, 0, 31]);
        for byte in [0, 2] {
            assert_eq!(hub.hear(&[byte; 36], 8), Err(NobodyAccepts));
        }
        assert_eq!(hub.enrol(63), Ok(3));
        for byte in [0, 2] {
            assert_eq!(hub.hear(&[byte; 36], 8), Ok((3, 0, vec![0; 8])));
        }
    }

    #[test]
    fn four_bits_set_go_to_the_place_of_another_identity() {
        // The zeros of identity 63 with bits 0, 1, 3, 6 set: u(0) = 1 and the rest 0 is nearer.
        let four_set = [&[1, 1, 0, 1, 0, 0, 1][..], &[0; 29]].concat();
        let mut hub = hub_of(&[63]);
        assert_eq!(hub.hear(&four_set, 8), Err(NobodyAccepts));
        assert_eq!(hub.enrol(35), Ok(1));
        let d = vec![1, 0, 0, 0, 0, 0, 0, 0];
        assert_eq!(hub.hear(&four_set, 8), Ok((1, 3, d)));
    }

    #[test]
    fn altered_bits_weigh_twice_as_much_as_missing_ones_and_six_reach_the_place() {
        let mut random = Random::new(378);
        for _ in 0..2 {
            let (hub, _) = full_hub(&mut random);
            for place in 0..30 {
                let identity = hub.identity_at(place).unwrap();
                for altered in 0..=3 {
                    for missing in 0..=6 - 2 * altered {
                        let (d, mut e) = request(&mut random, identity);
                        alter_and_lose(&mut random, &mut e, altered, missing);
                        assert_eq!(hub.hear(&e, 8), Ok((place, altered, d)), "{:?}", e);
                    }
                }
            }
        }
    }

    #[test]
    fn every_identity_is_heard_at_every_place() {
        let mut random = Random::new(379);
        for identity in 0..64 {
            let others: Vec<u64> = (0..64).filter(|&other| other != identity).collect();
            for place in 0..30 {
                // One more stands behind it where there is a place.
                let (before, behind) = others[..29.min(place + 1)].split_at(place);
                let hub = hub_of(&[before, &[identity], behind].concat());
                let altered = random.below(4);
                let (d, mut e) = request(&mut random, identity);
                alter(&mut random, &mut e, altered);
                assert_eq!(hub.hear(&e, 8), Ok((place, altered, d)));
            }
        }
    }

    #[test]
    fn who_is_not_enrolled_is_heard_by_nobody() {
        let mut random = Random::new(380);
        let (hub, others) = full_hub(&mut random);
        for identity in others {
            for altered in 0..=3 {
                let missing = 6 - 2 * altered;
                let (_, mut e) = request(&mut random, identity);
                alter_and_lose(&mut random, &mut e, altered, missing);
                assert_eq!(hub.hear(&e, 8), Err(NobodyAccepts));
            }
        }
    }

    #[test]
    fn who_is_removed_is_heard_no_more_and_then_at_the_new_place() {
        let mut random = Random::new(381);
        let (mut hub, others) = full_hub(&mut random);
        for place in 1..30 {
            let identity = hub.identity_at(place).unwrap();
            let (d, mut e) = request(&mut random, identity);
            alter(&mut random, &mut e, 3);
            assert_eq!(hub.hear(&e, 8), Ok((place, 3, d.clone())));
            hub.remove(place).unwrap();
            assert_eq!(hub.hear(&e, 8), Err(NobodyAccepts));
            // Another one comes to that place, and this one to the place before it.
            hub.enrol(others[place]).unwrap();
            assert_eq!(hub.hear(&e, 8), Err(NobodyAccepts));
            hub.remove(place - 1).unwrap();
            assert_eq!(hub.enrol(identity), Ok(place - 1));
            assert_eq!(hub.hear(&e, 8), Ok((place - 1, 3, d)));
        }
    }

    /// Bits as they may be received: sent and then altered or lost, midway, or sent by no one.
    fn any_burst(random: &mut Random) -> Vec<u8> {
        let identity = random.below(64) as u64;
        let (_, mut e) = request(random, identity);
        match random.below(5) {
            0 => return unsent(random, 36),
            1 => move_midway(random, &mut e, 18),
            2 => {
                let altered = random.below(16);
                alter(random, &mut e, altered);
            }
            _ => lose_some(random, &mut e),
        }
        if random.one_in(2) {
            lose_some(random, &mut e);
        }
        e
    }

    #[test]
    fn no_burst_is_accepted_by_two_of_all_identities() {
        let mut random = Random::new(382);
        for _ in 0..150 {
            let e = any_burst(&mut random);
            let accepts = |&identity: &u64| ACCESS.decode(identity, &e, 8).is_ok();
            assert!((0..64).filter(accepts).count() <= 1, "{:?}", e);
        }
    }

    #[test]
    fn a_burst_is_heard_where_the_identity_stands_that_it_names() {
        let mut random = Random::new(383);
        let (mut heard, mut unheard) = (0, 0);
        for number in 0..400 {
            let hub = hub_of(&all_identities(&mut random)[..number % 31]);
            let e = any_burst(&mut random);
            let (named, count) = whose(&e).unwrap();
            match (0..30).find(|&place| hub.identity_at(place) == Some(named)) {
                Some(place) => {
                    let (_, d) = ACCESS.decode(named, &e, 8).unwrap();
                    assert_eq!(hub.hear(&e, 8), Ok((place, count, d)), "{:?}", e);
                    heard += 1;
                }
                None => {
                    assert_eq!(hub.hear(&e, 8), Err(NobodyAccepts), "{:?}", e);
                    unheard += 1;
                }
            }
        }
        assert!(heard > 60 && unheard > 60, "{} {}", heard, unheard);
    }

    #[test]
    fn the_length_is_refused_first_and_then_a_byte_over_2() {
        for hub in [Hub::fresh(), hub_of(&[63])] {
            for length in (0..=80).filter(|&length| length != 36) {
                for byte in [0, 2, 3, 255] {
                    assert_eq!(hub.hear(&vec![byte; length], 8), Err(WrongLength));
                }
            }
            for lent in (0..=600).filter(|&lent| lent != 8) {
                for byte in [0, 2, 3, 255] {
                    assert_eq!(hub.hear(&[byte; 36], lent), Err(WrongLength));
                }
            }
            for k in 0..36 {
                for byte in [3, 4, 128, 255] {
                    let mut e = [0; 36];
                    e[k] = byte;
                    assert_eq!(hub.hear(&e, 8), Err(NotABit));
                }
            }
        }
    }
}
