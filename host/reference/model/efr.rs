//! Enhanced full rate: the preliminary stage of 3.1.1, behind which stands the coder of speech. The
//! lists s, w, b and p count from 1. 02, M-103

use crate::model::channel::{Channel, Received};
use crate::model::efr_order::order;
use crate::model::polynomial::{crc, from_powers, leaves_0, Polynomial};
use crate::model::refusal::Refusal;
use crate::model::{coding, receiving};

/// The bits of s that the CRC is over, b(1)..b(65), row by row. 3.1.1.1
const UNDER_CRC: [&[usize]; 7] = [
    &[39, 40, 41, 42, 43, 44, 48, 87, 45, 2],
    &[3, 8, 10, 18, 19, 24, 46, 47, 142, 143],
    &[144, 145, 146, 147, 92, 93, 195, 196, 98, 137],
    &[148, 94, 197, 149, 150, 95, 198, 4, 5, 11],
    &[12, 16, 9, 6, 7, 13, 17, 20, 96, 199],
    &[1, 14, 15, 21, 25, 26, 28, 151, 201, 190],
    &[240, 88, 138, 191, 241],
];

/// g(D) = D^8 + D^4 + D^3 + D^2 + 1
fn generator() -> Polynomial {
    from_powers(&[8, 4, 3, 2, 0])
}

/// The bit with this number, of a list that counts from 1.
fn at(list: &[u8], number: usize) -> u8 {
    list[number - 1]
}

/// b(1)..b(65)
fn under_crc(s: &[u8]) -> Vec<u8> {
    UNDER_CRC.concat().iter().map(|&k| at(s, k)).collect()
}

/// p(1)..p(8), such that b(1)D^72 + b(2)D^71 + .. + b(65)D^8 + p(1)D^7 + .. + p(8), divided by g(D),
/// leaves 0
pub fn crc_bits(s: &[u8]) -> Vec<u8> {
    crc(&under_crc(s), &generator())
}

/// w(k) = s(k) for k = 1..71
/// w(k) = s(k-2) for k = 74..123
/// w(k) = s(k-4) for k = 126..178
/// w(k) = s(k-6) for k = 181..230
/// w(k) = s(k-8) for k = 233..252
/// Repetition bits: w(k) = s(70) for k = 72 and 73, s(120) for k = 124 and 125, s(173) for k = 179
/// and 180, s(223) for k = 231 and 232
/// Parity bits: w(k) = p(k-252) for k = 253..260
fn preliminary(s: &[u8]) -> Vec<u8> {
    let p = crc_bits(s);
    let w = |k| match k {
        1..=71 => at(s, k),
        74..=123 => at(s, k - 2),
        126..=178 => at(s, k - 4),
        181..=230 => at(s, k - 6),
        233..=252 => at(s, k - 8),
        72 | 73 => at(s, 70),
        124 | 125 => at(s, 120),
        179 | 180 => at(s, 173),
        231 | 232 => at(s, 223),
        _ => at(&p, k - 252),
    };
    (1..=260).map(w).collect()
}

/// s(1)..s(244): w(1)..w(252) outside the four repeated pairs
fn unrepeated(w: &[u8]) -> Vec<u8> {
    let is_repetition = |k| matches!(k, 72 | 73 | 124 | 125 | 179 | 180 | 231 | 232);
    let others = (1..=252).filter(|&k| !is_repetition(k));
    others.map(|k| at(w, k)).collect()
}

/// d(0)..d(259): w in the order of the table
fn in_order(w: &[u8]) -> Vec<u8> {
    order().into_iter().map(|number| at(w, number)).collect()
}

/// w(1)..w(260) out of that order
fn out_of_order(d: &[u8]) -> Vec<u8> {
    let mut w = vec![0; 260];
    for (k, number) in order().into_iter().enumerate() {
        w[number - 1] = d[k];
    }
    w
}

/// What the coder of speech reads for s.
pub fn speech_bits(s: &[u8]) -> Vec<u8> {
    in_order(&preliminary(s))
}

/// The coded bits c of s.
pub fn encode(channel: &Channel, identity: u64, s: &[u8]) -> Vec<u8> {
    coding::speech(channel, identity, &speech_bits(s))
}

/// The verdict of speech on received bits c; where that is good, the count and s if the CRC is good,
/// else refusal 10 and the count.
pub fn decode(channel: &Channel, identity: u64, c: &[u8]) -> Received {
    let (count, d) = receiving::speech(channel, identity, c)?;
    let w = out_of_order(&d);
    let s = unrepeated(&w);
    // p(1)..p(8) are w(253)..w(260).
    let covered = [&under_crc(&s), &w[252..]].concat();
    if leaves_0(&covered, &generator()) {
        Ok((count, s))
    } else {
        Err(Refusal::BadCrc { count })
    }
}

#[cfg(test)]
mod tests {
    use super::*;
    use crate::chance::lists::{alter, random_bits};
    use crate::chance::random::Random;
    use crate::model::bits::{add, inverted, ones_at};
    use crate::model::channel::{EFR, NO_IDENTITY, SPEECH};
    use crate::model::coding::convolve;
    use crate::model::missing::MISSING;
    use crate::model::refusal::Refusal::*;

    /// 244 bits, of which s(number) alone is 1.
    fn single(number: usize) -> Vec<u8> {
        (1..=244).map(|k| u8::from(k == number)).collect()
    }

    /// The numbers of w at which s(number) stands.
    fn numbers_in_w(number: usize) -> Vec<usize> {
        let w = preliminary(&single(number));
        ones_at(&w[..252]).iter().map(|k| k + 1).collect()
    }

    /// Where w(number) stands in d.
    fn place(number: usize) -> usize {
        order().iter().position(|&other| other == number).unwrap()
    }

    /// Turns over a bit.
    fn turn_over(list: &mut [u8], k: usize) {
        list[k] = 1 - list[k];
    }

    /// The answer to received bits.
    fn received(c: &[u8]) -> Received {
        EFR.decode(NO_IDENTITY, c, 244)
    }

    /// The answer to speech, the parity of which is good whatever d is.
    fn received_of_speech(d: &[u8]) -> Received {
        received(&SPEECH.coded(NO_IDENTITY, d))
    }

    #[test]
    fn the_crc_is_over_65_bits_50_of_class_1a_and_15_of_class_1b() {
        let mut places = Vec::new();
        for number in UNDER_CRC.concat() {
            let numbers = numbers_in_w(number);
            assert_eq!(numbers.len(), 1, "s({})", number);
            places.push(place(numbers[0]));
        }
        // Class 1a ends at d(49).
        places.sort_unstable();
        assert_eq!(places, (0..65).collect::<Vec<usize>>());
    }

    #[test]
    fn the_bits_of_the_crc_are_of_class_1b() {
        let places: Vec<usize> = (253..=260).map(place).collect();
        assert_eq!(places, (65..73).collect::<Vec<usize>>());
    }

    #[test]
    fn the_crc_of_one_bit_is_what_is_left_of_its_power() {
        // b(65) is s(241), and D^8 leaves D^4 + D^3 + D^2 + 1; b(64) is s(191), at D^9.
        assert_eq!(crc_bits(&single(241)), [0, 0, 0, 1, 1, 1, 0, 1]);
        assert_eq!(crc_bits(&single(191)), [0, 0, 1, 1, 1, 0, 1, 0]);
        assert_eq!(crc_bits(&[0; 244]), [0; 8]);
    }

    #[test]
    fn other_bits_are_not_under_the_crc() {
        let under_crc = UNDER_CRC.concat();
        for number in 1..=244 {
            let is_under = crc_bits(&single(number)) != [0; 8];
            assert_eq!(is_under, under_crc.contains(&number), "s({})", number);
        }
    }

    #[test]
    fn with_its_crc_a_block_leaves_0() {
        let mut random = Random::new(240);
        for _ in 0..200 {
            let s = random_bits(&mut random, 244);
            let mut covered = [under_crc(&s), crc_bits(&s)].concat();
            assert!(leaves_0(&covered, &generator()));
            alter(&mut random, &mut covered, 1);
            assert!(!leaves_0(&covered, &generator()));
        }
    }

    #[test]
    fn four_bits_stand_three_times() {
        for number in 1..=244 {
            let expected = match number {
                70 => vec![70, 72, 73],
                120 => vec![122, 124, 125],
                173 => vec![177, 179, 180],
                223 => vec![229, 231, 232],
                1..=71 => vec![number],
                72..=121 => vec![number + 2],
                122..=174 => vec![number + 4],
                175..=224 => vec![number + 6],
                _ => vec![number + 8],
            };
            assert_eq!(numbers_in_w(number), expected, "s({})", number);
        }
    }

    #[test]
    fn s_is_read_outside_the_repeated_pairs() {
        let s = random_bits(&mut Random::new(241), 244);
        let mut w = preliminary(&s);
        assert_eq!((w.len(), unrepeated(&w)), (260, s.clone()));
        for number in [72, 73, 124, 125, 179, 180, 231, 232] {
            turn_over(&mut w, number - 1);
        }
        assert_eq!(unrepeated(&w), s);
    }

    #[test]
    fn w_comes_out_of_its_order() {
        let w = random_bits(&mut Random::new(242), 260);
        assert_eq!(out_of_order(&in_order(&w)), w);
    }

    #[test]
    fn zeros_are_coded_as_speech_of_zeros() {
        let c = EFR.coded(NO_IDENTITY, &[0; 244]);
        assert_eq!(ones_at(&c), [182, 183, 184, 186, 188, 194, 195]);
    }

    #[test]
    fn class_2_is_sent_as_it_is() {
        // s(70) is w(70), w(72), w(73); s(239) is w(247), the last one.
        let class_2 = |number| ones_at(&EFR.coded(NO_IDENTITY, &single(number))[378..]);
        assert_eq!(class_2(70), [0, 1, 2]);
        assert_eq!(class_2(239), [77]);
        assert!(class_2(244).is_empty());
    }

    #[test]
    fn the_repeated_pairs_are_not_read() {
        let s = random_bits(&mut Random::new(243), 244);
        let c = EFR.coded(NO_IDENTITY, &s);
        for (k, number) in [(378, 70), (381, 120), (384, 173), (387, 223)] {
            let mut e = c.clone();
            turn_over(&mut e, k + 1);
            turn_over(&mut e, k + 2);
            assert_eq!(received(&e), Ok((0, s.clone())));
            let (mut e, mut turned) = (c.clone(), s.clone());
            turn_over(&mut e, k);
            turn_over(&mut turned, number - 1);
            assert_eq!(received(&e), Ok((0, turned.clone())));
            // A missing bit is given as 0, though both others are there.
            e[k] = MISSING;
            turned[number - 1] = 0;
            assert_eq!(received(&e), Ok((0, turned)));
        }
    }

    #[test]
    fn class_2_is_given_as_received() {
        let d = speech_bits(&random_bits(&mut Random::new(244), 244));
        let c = SPEECH.coded(NO_IDENTITY, &d);
        for (of_c, of_d) in [
            (inverted(&c[378..]), inverted(&d[182..])),
            (vec![MISSING; 78], vec![0; 78]),
        ] {
            let e = [&c[..378], &of_c].concat();
            let s = unrepeated(&out_of_order(&[&d[..182], &of_d].concat()));
            assert_eq!(received(&e), Ok((0, s)));
        }
    }

    #[test]
    fn each_bit_under_the_crc_and_each_of_its_own_counts() {
        let under_crc = UNDER_CRC.concat().into_iter().flat_map(numbers_in_w);
        let judged: Vec<usize> = under_crc.chain(253..=260).collect();
        let w = preliminary(&random_bits(&mut Random::new(245), 244));
        for number in 1..=260 {
            let mut w = w.clone();
            turn_over(&mut w, number - 1);
            let expected = match judged.contains(&number) {
                true => Err(BadCrc { count: 0 }),
                false => Ok((0, unrepeated(&w))),
            };
            assert_eq!(received_of_speech(&in_order(&w)), expected, "w({})", number);
        }
    }

    #[test]
    fn of_other_speech_about_one_in_256_has_a_good_crc() {
        let mut random = Random::new(246);
        let is_good = |_: &usize| {
            let answer = received_of_speech(&random_bits(&mut random, 260));
            answer != Err(BadCrc { count: 0 })
        };
        let number = (0..2560).filter(is_good).count();
        assert!((3..=25).contains(&number), "{}", number);
    }

    /// The coded bits of speech of zeros but for d(50), which is s(1): under the CRC alone.
    fn bad_crc() -> Vec<u8> {
        let mut d = vec![0; 260];
        d[50] = 1;
        SPEECH.coded(NO_IDENTITY, &d)
    }

    #[test]
    fn the_count_comes_with_a_bad_crc() {
        let mut random = Random::new(247);
        for count in 0..=3 {
            let mut c = bad_crc();
            alter(&mut random, &mut c[..378], count);
            assert_eq!(received(&c), Err(BadCrc { count }));
        }
    }

    #[test]
    fn a_bad_parity_comes_before_a_bad_crc() {
        let mut c = bad_crc();
        // The pairs of p(0), which is u(91).
        let mut u = vec![0; 189];
        u[91] = 1;
        add(&mut c, &convolve(&u));
        assert_eq!(received(&c), Err(BadParity { count: 0 }));
    }

    #[test]
    fn four_altered_bits_are_beyond_the_promise() {
        let with_turned = |places: [usize; 4]| {
            let mut c = EFR.coded(NO_IDENTITY, &[0; 244]);
            places.iter().for_each(|&k| turn_over(&mut c, k));
            received(&c)
        };
        // Four of the seven ones of u(0), which is d(0) and s(39): under the parity too.
        assert_eq!(with_turned([0, 1, 3, 6]), Err(BadParity { count: 3 }));
        // Of u(25), which is d(50) and s(1).
        assert_eq!(with_turned([50, 51, 53, 56]), Err(BadCrc { count: 3 }));
    }
}
