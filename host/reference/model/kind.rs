//! The two kinds of blocks in a stream.

#[cfg(test)]
use crate::chance::{lists::random_bits, random::Random};
use crate::model::bits::{ones, zeros};
use crate::model::channel::{Channel, CONTROL, SPEECH};
use std::cmp::Ordering;

/// The kind of a block.
#[derive(Clone, Copy, Debug, PartialEq)]
pub enum Kind {
    Speech,
    Facch,
}

impl Kind {
    /// The word for it.
    pub fn word(self) -> &'static str {
        match self {
            Kind::Speech => "speech",
            Kind::Facch => "facch",
        }
    }

    /// How its block is coded.
    pub fn channel(self) -> Channel {
        match self {
            Kind::Speech => SPEECH,
            Kind::Facch => CONTROL,
        }
    }

    /// Its eight flags: 0 for speech, 1 for FACCH.
    pub fn flags(self) -> [u8; 8] {
        match self {
            Kind::Speech => [0; 8],
            Kind::Facch => [1; 8],
        }
    }

    /// 260 bytes are speech, 184 FACCH, other lengths neither.
    pub fn of_length(length: usize) -> Option<Kind> {
        let kinds = [Kind::Speech, Kind::Facch];
        kinds
            .into_iter()
            .find(|kind| kind.channel().reads == length)
    }

    /// More zeros than ones mean speech, more ones FACCH, and equal numbers tell no kind; a missing
    /// flag has no vote. 02, M-102
    pub fn of_flags(flags: &[u8]) -> Option<Kind> {
        match ones(flags).cmp(&zeros(flags)) {
            Ordering::Less => Some(Kind::Speech),
            Ordering::Equal => None,
            Ordering::Greater => Some(Kind::Facch),
        }
    }
}

/// Random blocks of the kinds that the letters name: s for speech, f for FACCH.
#[cfg(test)]
pub fn blocks(seed: u64, kinds: &str) -> Vec<Vec<u8>> {
    let mut random = Random::new(seed);
    let block = |letter| {
        let kind = match letter {
            's' => Kind::Speech,
            _ => Kind::Facch,
        };
        random_bits(&mut random, kind.channel().reads)
    };
    kinds.chars().map(block).collect()
}

#[cfg(test)]
mod tests {
    use super::*;
    use crate::model::bits::{bits_of, inverted};

    #[test]
    fn the_length_names_the_kind() {
        for length in 0..600 {
            let expected = match length {
                260 => Some(Kind::Speech),
                184 => Some(Kind::Facch),
                _ => None,
            };
            assert_eq!(Kind::of_length(length), expected);
        }
    }

    #[test]
    fn any_four_flags_tell_no_kind_and_more_the_other_one() {
        for pattern in 0..256_u64 {
            let expected = match pattern.count_ones() {
                0..=3 => Some(Kind::Speech),
                4 => None,
                _ => Some(Kind::Facch),
            };
            assert_eq!(Kind::of_flags(&bits_of(pattern, 8)), expected);
        }
    }

    /// Eight flags, each of them 0, 1 or missing: the digits of a number below 6,561 to base 3.
    fn flags_of(number: usize) -> Vec<u8> {
        let powers = std::iter::successors(Some(1), |power| Some(3 * power));
        let digits = powers.map(|power| (number / power % 3) as u8);
        digits.take(8).collect()
    }

    #[test]
    fn missing_flags_have_no_vote() {
        for number in 0..6561 {
            let flags = flags_of(number);
            let vote = |flag: &u8| match flag {
                0 => -1,
                1 => 1,
                _ => 0,
            };
            let expected = match flags.iter().map(vote).sum::<i32>() {
                0 => None,
                sum if sum < 0 => Some(Kind::Speech),
                _ => Some(Kind::Facch),
            };
            assert_eq!(Kind::of_flags(&flags), expected, "{:?}", flags);
        }
        assert_eq!(flags_of(6560), [2; 8]);
    }

    /// The flags of a kind: the first ones altered, the next ones missing.
    fn damaged(kind: Kind, altered: usize, missing: usize) -> Vec<u8> {
        let flags = kind.flags();
        let (first, others) = flags.split_at(altered);
        [&inverted(first), &vec![2; missing], &others[missing..]].concat()
    }

    #[test]
    fn altered_flags_weigh_twice_as_much_as_missing_ones_and_seven_are_borne() {
        for kind in [Kind::Speech, Kind::Facch] {
            for altered in 0..=4 {
                for missing in 0..=8 - 2 * altered {
                    let flags = damaged(kind, altered, missing);
                    let expected = (2 * altered + missing <= 7).then_some(kind);
                    assert_eq!(Kind::of_flags(&flags), expected, "{:?}", flags);
                }
            }
        }
    }

    #[test]
    fn the_flags_sent_name_the_kind() {
        for kind in [Kind::Speech, Kind::Facch] {
            assert_eq!(Kind::of_flags(&kind.flags()), Some(kind));
        }
    }
}
