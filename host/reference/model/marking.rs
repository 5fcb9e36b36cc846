//! Marking a decoder: whether a block that is handed in is nearest to received bits, and whether its
//! count is right. 02, M-111

use crate::model::channel::{named_among, Channel, ACCESS, CONTROL, SCH, SPEECH};
use crate::model::coding::convolve;
use crate::model::decoding::nearest;
use crate::model::missing::disagrees;
use crate::model::refusal::{check_received, check_sent, Refusal};

/// The channels whose decoders are marked.
pub static MARKED: [Channel; 4] = [SPEECH, CONTROL, ACCESS, SCH];

/// The marked channel of this name; nothing if there is none.
pub fn marked(name: &[u8]) -> Option<&'static Channel> {
    named_among(&MARKED, name)
}

/// Yes, or no and the first thing that is wrong.
#[derive(Clone, Copy, Debug, PartialEq)]
pub enum Mark {
    Yes,
    /// There are not as many bits as there are pairs.
    NoLength,
    /// The last four bits are not all 0.
    NoTail,
    /// The block disagrees in more or in fewer places than the count says.
    NoCount,
    /// Another candidate disagrees in fewer places.
    NoFewest,
}

impl Mark {
    /// The mark in words.
    pub fn words(self) -> &'static str {
        match self {
            Mark::Yes => "yes",
            Mark::NoLength => "no length",
            Mark::NoTail => "no tail",
            Mark::NoCount => "no count",
            Mark::NoFewest => "no fewest",
        }
    }
}

/// In how many places the pairs of u disagree with the received ones.
pub fn disagreements(u: &[u8], pairs: &[u8]) -> usize {
    let c = convolve(u);
    (0..c.len()).filter(|&k| disagrees(c[k], pairs[k])).count()
}

/// What any block for the same received bits is marked by.
pub struct Marker {
    /// The received pairs: of speech, the first 378 bits.
    pairs: Vec<u8>,
    /// The fewest places in which a candidate disagrees with them.
    fewest: usize,
}

impl Marker {
    /// The marker for the received bits of a channel; refusals in the order 1, 2.
    pub fn of(channel: &Channel, e: &[u8]) -> Result<Marker, Refusal> {
        check_received(e, e.len() == channel.writes)?;
        let pairs = e[..channel.protected()].to_vec();
        let fewest = nearest(&pairs).count;
        Ok(Marker { pairs, fewest })
    }

    /// The mark of a block and its count; refusal 2, since another length is a no.
    pub fn mark(&self, u: &[u8], count: u64) -> Result<Mark, Refusal> {
        check_sent(u, true)?;
        Ok(self.mark_bits(u, count))
    }

    /// The mark of bits and their count.
    fn mark_bits(&self, u: &[u8], count: u64) -> Mark {
        if 2 * u.len() != self.pairs.len() {
            return Mark::NoLength;
        }
        if u[u.len() - 4..] != [0, 0, 0, 0] {
            return Mark::NoTail;
        }
        let own = disagreements(u, &self.pairs);
        if count != own as u64 {
            return Mark::NoCount;
        }
        if own > self.fewest {
            return Mark::NoFewest;
        }
        Mark::Yes
    }
}

/// The mark of a block u and its count for the received bits of a channel; refusals in the order 1,
/// 2.
pub fn mark(channel: &Channel, e: &[u8], u: &[u8], count: u64) -> Result<Mark, Refusal> {
    Marker::of(channel, e)?.mark(u, count)
}

#[cfg(test)]
mod tests {
    use super::Mark::*;
    use super::*;
    use crate::chance::lists::{
        alter, alter_and_lose, candidate, move_midway, move_towards, random_bits, short_difference,
        unsent,
    };
    use crate::chance::losses::lose_some;
    use crate::chance::random::Random;
    use crate::model::bits::{add, bits_of, inverted};
    use crate::model::exhaustive::Pairs;
    use crate::model::missing::MISSING;
    use crate::model::refusal::Refusal::*;
    use crate::model::trellis;

    /// The coded bits of a candidate, and any bits behind its pairs.
    fn coded(random: &mut Random, channel: &Channel, u: &[u8]) -> Vec<u8> {
        let mut e = convolve(u);
        e.extend(random_bits(random, channel.writes - channel.protected()));
        e
    }

    /// The bits of a candidate, as they are sent.
    fn sent(random: &mut Random, channel: &Channel) -> Vec<u8> {
        let u = candidate(random, channel.pairs);
        coded(random, channel, &u)
    }

    /// The mark of a block with the count that it has.
    fn with_own_count(channel: &Channel, e: &[u8], u: &[u8]) -> Mark {
        let own = disagreements(u, &e[..channel.protected()]);
        mark(channel, e, u, own as u64).unwrap()
    }

    /// Bits as they may be received: as sent, altered, with missing bits, midway between two blocks,
    /// far from all, noise, and all missing.
    fn received(random: &mut Random, channel: &Channel) -> Vec<Vec<u8>> {
        let as_sent = sent(random, channel);
        let mut lists = vec![as_sent.clone(), vec![MISSING; channel.writes]];
        for altered in [1, 3, 4, 9] {
            let mut e = as_sent.clone();
            alter(random, &mut e, altered);
            lists.push(e.clone());
            lose_some(random, &mut e);
            lists.push(e);
        }
        let mut midway = as_sent;
        move_midway(random, &mut midway, channel.pairs);
        lists.push(inverted(&midway));
        lists.push(midway.clone());
        lose_some(random, &mut midway);
        lists.push(midway);
        lists.push(random_bits(random, channel.writes));
        lists.push(unsent(random, channel.writes));
        lists
    }

    /// Every candidate of access is marked as it is told by all of them, and so many get yes.
    fn yeses_of_all(e: &[u8]) -> usize {
        let marker = Marker::of(&ACCESS, e).unwrap();
        let pairs = Pairs::of(e);
        let counts: Vec<usize> = (0..1 << 14).map(|u| pairs.disagreements(u)).collect();
        let fewest = *counts.iter().min().unwrap();
        for (number, &count) in (0..).zip(&counts) {
            let u = bits_of(number, 18);
            let expected = if count == fewest { Yes } else { NoFewest };
            let count = count as u64;
            assert_eq!(marker.mark(&u, count), Ok(expected), "{:?} {:?}", e, u);
            assert_eq!(marker.mark(&u, count + 1), Ok(NoCount), "{:?} {:?}", e, u);
            if count > 0 {
                assert_eq!(marker.mark(&u, count - 1), Ok(NoCount), "{:?} {:?}", e, u);
            }
        }
        counts.iter().filter(|&&count| count == fewest).count()
    }

    #[test]
    fn every_candidate_of_access_gets_yes_exactly_where_none_disagrees_in_fewer() {
        let mut random = Random::new(330);
        let mut ties = 0;
        for _ in 0..6 {
            for e in received(&mut random, &ACCESS) {
                ties += usize::from(yeses_of_all(&e) > 1);
            }
        }
        assert!(ties > 30, "{}", ties);
    }

    #[test]
    fn candidates_that_tie_all_get_yes() {
        assert_eq!(yeses_of_all(&[MISSING; 36]), 1 << 14);
        assert_eq!(yeses_of_all(&[0; 36]), 1);
        // The seven ones of u(0) = 1 are missing, so that it agrees as zeros do.
        let ones = convolve(&bits_of(1, 18));
        let lost: Vec<u8> = ones.iter().map(|bit| MISSING * bit).collect();
        assert_eq!(yeses_of_all(&lost), 2);
        // Without the first six pairs the first two bits may be any.
        let without_six = [&[MISSING; 12][..], &[0; 24]].concat();
        assert_eq!(yeses_of_all(&without_six), 4);
    }

    #[test]
    fn the_decoders_own_answer_gets_yes() {
        let mut random = Random::new(331);
        for channel in MARKED {
            for _ in 0..10 {
                for e in received(&mut random, &channel) {
                    let own = nearest(&e[..channel.protected()]);
                    let answer = mark(&channel, &e, &own.u, own.count as u64);
                    assert_eq!(answer, Ok(Yes), "{} {:?}", channel.name, e);
                }
            }
        }
    }

    #[test]
    fn yes_is_for_the_number_that_the_trellis_view_has_in_state_0() {
        let mut random = Random::new(332);
        for channel in MARKED {
            let mut seen = [0; 2];
            for e in received(&mut random, &channel) {
                let pairs = &e[..channel.protected()];
                let fewest = trellis::view(pairs).unwrap()[0];
                let own = nearest(pairs).u;
                for _ in 0..20 {
                    let mut u = own.clone();
                    add(&mut u, &short_difference(&mut random, channel.pairs));
                    let is_fewest = disagreements(&u, pairs) == fewest;
                    let expected = if is_fewest { Yes } else { NoFewest };
                    assert_eq!(with_own_count(&channel, &e, &u), expected);
                    seen[usize::from(is_fewest)] += 1;
                }
            }
            assert!(seen.iter().all(|&times| times > 10), "{:?}", seen);
        }
    }

    /// A block, what it differs by from another, and bits midway between the two; some of the places
    /// in which they differ may be missing.
    fn between(random: &mut Random, channel: &Channel) -> (Vec<u8>, Vec<u8>, Vec<u8>) {
        let u = candidate(random, channel.pairs);
        let difference = short_difference(random, channel.pairs);
        let mut e = coded(random, channel, &u);
        let missing = 2 * random.below(4);
        move_towards(random, &mut e, &difference, missing, 0);
        let mut other = u.clone();
        add(&mut other, &difference);
        (u, other, e)
    }

    #[test]
    fn two_blocks_that_tie_get_the_same_mark_and_two_that_get_yes_have_the_same_count() {
        let mut random = Random::new(333);
        for channel in MARKED {
            let mut both = 0;
            for _ in 0..40 {
                let (one, other, e) = between(&mut random, &channel);
                let count = |u: &[u8]| disagreements(u, &e[..channel.protected()]);
                assert_eq!(count(&one), count(&other));
                let marks = [&one, &other].map(|u| with_own_count(&channel, &e, u));
                assert_eq!(marks[0], marks[1]);
                if marks[0] == NoFewest {
                    continue;
                }
                both += 1;
                // A third one gets yes with this count alone.
                let own = nearest(&e[..channel.protected()]);
                assert_eq!((marks, own.count), ([Yes; 2], count(&one)));
            }
            assert!(both > 20, "{} {}", channel.name, both);
        }
    }

    #[test]
    fn one_place_more_is_not_the_fewest() {
        let mut random = Random::new(334);
        for channel in MARKED {
            for _ in 0..40 {
                let (one, other, mut e) = between(&mut random, &channel);
                let c = [&one, &other].map(|u| convolve(u));
                let apart = (0..c[0].len()).filter(|&k| c[0][k] != c[1][k] && e[k] != MISSING);
                let apart: Vec<usize> = apart.collect();
                if apart.is_empty() {
                    continue;
                }
                // A place that spoke for the one never came, or one against it speaks for it.
                let k = random.pick(&apart);
                e[k] = if e[k] == c[0][k] { MISSING } else { c[0][k] };
                let counts = [&one, &other].map(|u| disagreements(u, &e[..c[0].len()]));
                assert_ne!(counts[0], counts[1]);
                let farther = if counts[0] > counts[1] { &one } else { &other };
                assert_eq!(with_own_count(&channel, &e, farther), NoFewest);
            }
        }
    }

    #[test]
    fn up_to_the_weight_that_is_borne_yes_is_for_the_block_that_was_sent() {
        let mut random = Random::new(335);
        for channel in MARKED {
            for altered in 0..=3 {
                for missing in 0..=6 - 2 * altered {
                    let u = candidate(&mut random, channel.pairs);
                    let mut e = coded(&mut random, &channel, &u);
                    let pairs = &mut e[..channel.protected()];
                    alter_and_lose(&mut random, pairs, altered, missing);
                    let marker = Marker::of(&channel, &e).unwrap();
                    assert_eq!(marker.mark(&u, altered as u64), Ok(Yes));
                    is_the_only_one_near(&mut random, &marker, &u);
                }
            }
        }
    }

    /// No block that differs from this one in one bit, in a few or in any gets yes.
    fn is_the_only_one_near(random: &mut Random, marker: &Marker, u: &[u8]) {
        let n = u.len();
        let one_at = |k| (0..n).map(|other| u8::from(other == k)).collect();
        let mut others: Vec<Vec<u8>> = (0..n - 4).map(one_at).collect();
        for _ in 0..20 {
            others.push(short_difference(random, n));
            others.push(candidate(random, n));
        }
        for difference in others.iter_mut().filter(|other| other.contains(&1)) {
            add(difference, u);
            let own = disagreements(difference, &marker.pairs) as u64;
            assert_eq!(marker.mark(difference, own), Ok(NoFewest));
        }
    }

    #[test]
    fn up_to_that_weight_no_other_block_of_access_gets_yes() {
        let mut random = Random::new(336);
        for altered in 0..=3 {
            for missing in 0..=6 - 2 * altered {
                let mut e = sent(&mut random, &ACCESS);
                alter_and_lose(&mut random, &mut e, altered, missing);
                assert_eq!(yeses_of_all(&e), 1);
            }
        }
    }

    #[test]
    fn the_parity_limits_no_candidate() {
        let mut random = Random::new(337);
        for channel in MARKED {
            let mut good = 0;
            for _ in 0..40 {
                let u = candidate(&mut random, channel.pairs);
                let e = coded(&mut random, &channel, &u);
                assert_eq!(mark(&channel, &e, &u, 0), Ok(Yes), "{}", channel.name);
                good += usize::from(channel.decode(7, &e, channel.reads).is_ok());
            }
            assert!(good < 30, "{} {}", channel.name, good);
        }
    }

    #[test]
    fn four_bits_set_make_another_block_nearer_than_zeros() {
        // The zeros of identity 63 with bits 0, 1, 3, 6 set.
        let e = [&[1, 1, 0, 1, 0, 0, 1][..], &[0; 29]].concat();
        let u = [&[1][..], &[0; 17]].concat();
        assert_eq!(mark(&ACCESS, &e, &u, 3), Ok(Yes));
        assert_eq!(mark(&ACCESS, &e, &u, 4), Ok(NoCount));
        assert_eq!(mark(&ACCESS, &e, &[0; 18], 4), Ok(NoFewest));
        assert_eq!(mark(&ACCESS, &e, &[0; 18], 3), Ok(NoCount));
    }

    #[test]
    fn another_length_of_the_received_bits_is_refused_and_one_of_the_block_is_a_no() {
        for channel in MARKED {
            let e = vec![0; channel.writes];
            let u = vec![0; channel.pairs];
            for length in (0..=600).filter(|&length| length != channel.writes) {
                for byte in [0, 2, 3, 255] {
                    let refused = mark(&channel, &vec![byte; length], &u, 0);
                    assert_eq!(refused, Err(WrongLength), "{} {}", channel.name, length);
                }
            }
            let marker = Marker::of(&channel, &e).unwrap();
            for length in (0..=600).filter(|&length| length != channel.pairs) {
                for byte in [0, 1] {
                    let answer = marker.mark(&vec![byte; length], 0);
                    assert_eq!(answer, Ok(NoLength), "{} {}", channel.name, length);
                }
            }
            assert_eq!(mark(&channel, &e, &u, 0), Ok(Yes), "{}", channel.name);
        }
    }

    #[test]
    fn the_received_bits_of_one_channel_are_refused_on_another_of_another_length() {
        for channel in MARKED {
            for other in MARKED {
                let answer = mark(&channel, &vec![0; other.writes], &vec![0; other.pairs], 0);
                let expected = match (other.writes == channel.writes, other.name == channel.name) {
                    (false, _) => Err(WrongLength),
                    (true, false) => Ok(NoLength),
                    (true, true) => Ok(Yes),
                };
                assert_eq!(answer, expected, "{} {}", channel.name, other.name);
            }
        }
    }

    #[test]
    fn a_received_byte_over_2_is_refused_in_every_place() {
        for channel in MARKED {
            for k in 0..channel.writes {
                for byte in [3, 9, 255] {
                    let mut e = vec![0; channel.writes];
                    e[k] = byte;
                    let refused = mark(&channel, &e, &vec![0; channel.pairs], 0);
                    assert_eq!(refused, Err(NotABit), "{} {}", channel.name, k);
                }
            }
        }
    }

    #[test]
    fn a_byte_of_the_block_over_1_is_refused_in_every_place_whatever_its_length() {
        for channel in MARKED {
            let marker = Marker::of(&channel, &vec![0; channel.writes]).unwrap();
            let right = channel.pairs;
            for length in [1, 4, right - 1, right, right + 1, 456] {
                for k in 0..length {
                    for byte in [2, 3, 255] {
                        let mut u = vec![0; length];
                        u[k] = byte;
                        assert_eq!(marker.mark(&u, 0), Err(NotABit), "{} {}", length, k);
                    }
                }
            }
        }
    }

    #[test]
    fn a_one_among_the_last_four_is_no_tail_and_one_before_them_is_none() {
        for channel in MARKED {
            let n = channel.pairs;
            let mut random = Random::new(338);
            for k in n - 4..n {
                let mut u = candidate(&mut random, n);
                u[k] = 1;
                // Nothing disagrees with its own pairs, nor with what is all missing.
                for e in [
                    coded(&mut random, &channel, &u),
                    vec![MISSING; channel.writes],
                ] {
                    assert_eq!(mark(&channel, &e, &u, 0), Ok(NoTail), "{}", k);
                    assert_eq!(mark(&channel, &e, &u, 1), Ok(NoTail), "{}", k);
                }
            }
            let mut u = vec![0; n];
            u[n - 5] = 1;
            let e = coded(&mut random, &channel, &u);
            assert_eq!(mark(&channel, &e, &u, 0), Ok(Yes), "{}", channel.name);
            assert_eq!(mark(&channel, &e, &u, 7), Ok(NoCount), "{}", channel.name);
            let zeros = vec![0; channel.writes];
            assert_eq!(mark(&channel, &zeros, &u, 7), Ok(NoFewest));
        }
    }

    #[test]
    fn the_count_is_any_number_and_right_is_one_alone() {
        let mut random = Random::new(339);
        for channel in MARKED {
            for e in received(&mut random, &channel) {
                let own = nearest(&e[..channel.protected()]);
                let marker = Marker::of(&channel, &e).unwrap();
                let right = own.count as u64;
                for count in 0..=456 {
                    let expected = if count == right { Yes } else { NoCount };
                    assert_eq!(marker.mark(&own.u, count), Ok(expected));
                }
                for more in [256, 65_535, 65_536, 1 << 32, 1 << 63, u64::MAX - right] {
                    assert_eq!(marker.mark(&own.u, right + more), Ok(NoCount), "{}", more);
                }
            }
        }
    }

    #[test]
    fn a_missing_bit_is_not_counted() {
        let mut random = Random::new(340);
        for channel in MARKED {
            let all_missing = vec![MISSING; channel.writes];
            let marker = Marker::of(&channel, &all_missing).unwrap();
            for _ in 0..20 {
                let u = candidate(&mut random, channel.pairs);
                assert_eq!(marker.mark(&u, 0), Ok(Yes));
                assert_eq!(marker.mark(&u, channel.protected() as u64), Ok(NoCount));
            }
            // Each of the other places disagrees with the block turned over.
            let u = candidate(&mut random, channel.pairs);
            let mut e = inverted(&coded(&mut random, &channel, &u));
            for missing in 0..channel.protected() {
                let left = channel.protected() - missing;
                assert_eq!(disagreements(&u, &e[..channel.protected()]), left);
                e[missing] = MISSING;
            }
        }
    }

    #[test]
    fn the_last_78_of_speech_do_not_matter_but_must_be_received() {
        let mut random = Random::new(341);
        for mut e in received(&mut random, &SPEECH) {
            let own = nearest(&e[..378]);
            let mut farther = own.u.clone();
            add(&mut farther, &short_difference(&mut random, 189));
            let before = [&own.u, &farther].map(|u| with_own_count(&SPEECH, &e, u));
            for behind in [[0; 78], [1; 78], [2; 78]] {
                e[378..].copy_from_slice(&behind);
                assert_eq!(mark(&SPEECH, &e, &own.u, own.count as u64), Ok(Yes));
                let after = [&own.u, &farther].map(|u| with_own_count(&SPEECH, &e, u));
                assert_eq!(after, before);
            }
            for k in 378..456 {
                e[k] = 3;
                let refused = mark(&SPEECH, &e, &own.u, own.count as u64);
                assert_eq!(refused, Err(NotABit), "{}", k);
                e[k] = 0;
            }
            assert_eq!(mark(&SPEECH, &e[..378], &own.u, 0), Err(WrongLength));
        }
    }

    /// What is answered where these things are wrong, each said by one bit of a number: the length and
    /// a byte of the received bits; a byte, the length and the last bit of the block; its count; and
    /// that another is nearer.
    fn with_wrong(channel: &Channel, wrong: usize) -> Result<Mark, Refusal> {
        let is_wrong = |k: usize| wrong >> k & 1 == 1;
        let (mut e, mut u) = (vec![0; channel.writes], vec![0; channel.pairs]);
        let mut count = 0;
        if is_wrong(6) {
            u[0] = 1;
            count = 7;
        }
        if is_wrong(5) {
            count += 1;
        }
        if is_wrong(4) {
            u[channel.pairs - 1] = 1;
        }
        if is_wrong(3) {
            u.insert(0, 0);
        }
        if is_wrong(2) {
            u[2] = 2;
        }
        if is_wrong(1) {
            e[3] = 3;
        }
        if is_wrong(0) {
            e.push(0);
        }
        mark(channel, &e, &u, count)
    }

    #[test]
    fn the_first_thing_that_is_wrong_is_answered() {
        let in_order = [
            Err(WrongLength),
            Err(NotABit),
            Err(NotABit),
            Ok(NoLength),
            Ok(NoTail),
            Ok(NoCount),
            Ok(NoFewest),
            Ok(Yes),
        ];
        for channel in MARKED {
            for wrong in 0..1 << 7 {
                let first = (0..7).find(|k| wrong >> k & 1 == 1).unwrap_or(7);
                let answer = with_wrong(&channel, wrong);
                assert_eq!(answer, in_order[first], "{} {:b}", channel.name, wrong);
            }
        }
    }

    #[test]
    fn four_channels_are_marked() {
        let names = MARKED.map(|channel| channel.name);
        assert_eq!(names, ["speech", "control", "access", "sch"]);
        for channel in MARKED {
            let found = marked(channel.name.as_bytes()).unwrap();
            assert_eq!(found.name, channel.name);
        }
        for name in ["", "sacch", "efr", "speech?", "Speech", "SCH", "sc", "scha"] {
            assert!(marked(name.as_bytes()).is_none(), "{}", name);
        }
    }

    #[test]
    fn lengths_are_those_of_the_request() {
        let rows = MARKED.map(|channel| (channel.writes, channel.protected(), channel.pairs));
        let expected = [(456, 378, 189), (456, 456, 228), (36, 36, 18), (78, 78, 39)];
        assert_eq!(rows, expected);
    }

    #[test]
    fn marks_have_their_words() {
        let words = [Yes, NoLength, NoTail, NoCount, NoFewest].map(Mark::words);
        let expected = ["yes", "no length", "no tail", "no count", "no fewest"];
        assert_eq!(words, expected);
    }
}
