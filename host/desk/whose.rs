//! The fifth call, which names an identity and writes nothing, beside the reference and beside the
//! call that receives. Each answer is looked at as one whole number.

use crate::chance::random::Random;
use crate::chance::{lists, losses};
use crate::model::bits::bits_of;
use crate::model::channel::ACCESS;
use crate::model::missing::MISSING;
use crate::model::whose::whose;
use crate::{
    access_block, any_number, far_lists, framed, library, lost, noise, outcome, random_bits,
    turned, up_to_three_of, wrong_lengths, CALLS, MARGIN, RECEIVE_ACCESS,
};

/// The answer of the library to received bits, which stay.
fn answer(e: &[u8]) -> u32 {
    let read = framed(e);
    let answer = library::whose_access(&read[MARGIN..MARGIN + e.len()]);
    assert_eq!(read, framed(e), "what is read stays");
    answer
}

/// The library names this identity, with the number 0 and this count.
fn names(e: &[u8], identity: u64, count: usize) {
    let expected = 16_777_216 * identity + count as u64;
    assert_eq!(u64::from(answer(e)), expected, "{} {:?}", identity, e);
}

/// The library refuses the bits, and names no identity.
fn refuses(e: &[u8], number: u8) {
    assert_eq!(answer(e), 65_536 * u32::from(number), "{:?}", e);
}

/// The library and the reference answer the same.
fn agrees(e: &[u8]) {
    match whose(e) {
        Ok((identity, count)) => names(e, identity, count),
        Err(refusal) => refuses(e, refusal.number()),
    }
}

/// Lists that are near no burst or midway, a burst with no bit altered, with three and with more, and
/// all of them again with bits missing.
fn of_every_sort(random: &mut Random) -> Vec<Vec<u8>> {
    let (_, _, sent) = access_block(random);
    let mut sorts = far_lists(random, 18, sent.clone());
    for altered in [0, 3, 4 + random.below(33)] {
        let mut e = sent.clone();
        lists::alter(random, &mut e, altered);
        sorts.push(e);
    }
    let mut lossy = sorts.clone();
    for e in &mut lossy {
        losses::lose_some(random, e);
    }
    [sorts, lossy].concat()
}

#[test]
fn every_burst_names_the_identity_that_it_was_sent_to() {
    for identity in 0..64 {
        for number in 0..256 {
            let e = ACCESS.encode(identity, &bits_of(number, 8), 36).unwrap();
            names(&e, identity, 0);
        }
    }
}

#[test]
fn a_burst_names_it_wherever_up_to_three_bits_are_altered() {
    let mut random = Random::new(140);
    for altered in up_to_three_of(36) {
        let (identity, _, e) = access_block(&mut random);
        names(&turned(&e, &altered), identity, altered.len());
    }
}

#[test]
fn a_burst_names_it_wherever_up_to_six_bits_are_missing() {
    let mut random = Random::new(141);
    for first in up_to_three_of(36) {
        let (identity, _, e) = access_block(&mut random);
        let mut lossy = lost(&e, &first);
        // Others besides, of which some may be missing already.
        lists::lose(&mut random, &mut lossy, 6 - first.len());
        names(&lossy, identity, 0);
    }
}

#[test]
fn a_burst_names_it_up_to_six_of_twice_the_altered_and_the_missing_bits() {
    let mut random = Random::new(142);
    for altered in 0..=3 {
        for missing in 0..=6 - 2 * altered {
            for _ in 0..100 {
                let (identity, _, mut e) = access_block(&mut random);
                lists::alter_and_lose(&mut random, &mut e, altered, missing);
                names(&e, identity, altered);
            }
        }
    }
}

#[test]
fn any_36_bits_name_whom_the_reference_says() {
    let mut random = Random::new(143);
    for _ in 0..60 {
        for e in of_every_sort(&mut random) {
            agrees(&e);
        }
    }
}

#[test]
fn any_36_bits_are_received_under_the_identity_named_and_refused_under_the_others() {
    let mut random = Random::new(144);
    for _ in 0..20 {
        for e in of_every_sort(&mut random) {
            let (named, count) = (answer(&e) / 16_777_216, answer(&e) % 65_536);
            assert!(named < 64, "{:?}", e);
            for identity in 0..64 {
                let got = outcome(&RECEIVE_ACCESS, identity.into(), &e, &[3; 8]);
                let number = if identity == named { 0 } else { 8 };
                assert_eq!((got.number, got.count), (number, count), "{:?}", e);
            }
        }
    }
}

#[test]
fn wrong_lengths_are_refused_whether_there_are_bits_or_none() {
    let mut random = Random::new(145);
    for length in wrong_lengths(36) {
        refuses(&random_bits(&mut random, length), 1);
        refuses(&noise(&mut random, length), 1);
        refuses(&vec![MISSING; length], 1);
    }
}

#[test]
fn a_byte_over_2_is_refused_at_each_index() {
    let mut random = Random::new(146);
    for k in 0..36 {
        for wrong in 3..=255 {
            let mut e = random_bits(&mut random, 36);
            e[k] = wrong;
            refuses(&e, 2);
        }
    }
    refuses(&noise(&mut random, 36), 2);
}

#[test]
fn it_keeps_nothing_and_leaves_nothing_for_the_next_call() {
    let mut random = Random::new(147);
    for _ in 0..100 {
        let e = of_every_sort(&mut random).swap_remove(random.below(16));
        let first = answer(&e);
        let call = &CALLS[random.below(4)];
        let (identity, input) = call.good_input(&mut random);
        let before = noise(&mut random, call.writes());
        let called = outcome(call, identity, &input, &before);
        outcome(call, any_number(&mut random), &input, &before);
        assert_eq!(answer(&e), first);
        refuses(&[3; 36], 2);
        assert_eq!(answer(&e), first);
        assert_eq!(outcome(call, identity, &input, &before), called);
    }
}

#[test]
fn handbook_zeros_and_what_is_all_missing_are_for_identity_63() {
    names(&[0; 36], 63, 0);
    names(&[MISSING; 36], 63, 0);
}

#[test]
fn handbook_four_altered_bits_are_for_another_identity() {
    // The nearest block has u(0) = 1 and the rest 0: its parity is 100011, its colour bits are 0.
    let received = turned(&[0; 36], &[0, 1, 3, 6]);
    names(&received, 35, 3);
    agrees(&received);
}
