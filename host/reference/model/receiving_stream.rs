//! The receiving stream: holds every burst taken, and picks each bit of a block by the formula. It
//! holds every answer given besides, and goes through them all when it is asked for the totals.

use crate::model::burst::{Interleaving, BURST};
use crate::model::channel::NO_IDENTITY;
use crate::model::kind::Kind;
use crate::model::refusal::{check_received, Refusal};

/// Burst 65,535 is the last that can be taken.
const MOST_BURSTS: usize = 65_536;
/// A take is lent so many bytes: speech fills them, FACCH leaves the last 76.
pub const LENT_TO_TAKE: usize = 260;

/// What a taken burst brings.
#[derive(Debug, PartialEq)]
pub enum Taken {
    /// No block is complete.
    Waiting,
    /// A good block n: its kind, the count and the information bits.
    Good {
        n: usize,
        kind: Kind,
        count: usize,
        d: Vec<u8>,
    },
    /// A block n found bad: refusal 8 with its count, or refusal 9.
    Bad { n: usize, refusal: Refusal },
}

/// What is kept of an answer: all that the totals ask for, and no bits.
#[derive(Clone, Copy)]
enum Kept {
    /// No block is complete.
    Waiting,
    /// A good block: its kind and the count.
    Good(Kind, usize),
    /// The number of any refusal, whether its burst is taken or not.
    Refused(u8),
}

impl Kept {
    /// What is kept of this answer.
    fn of(answer: &Result<Taken, Refusal>) -> Kept {
        match answer {
            Ok(Taken::Waiting) => Kept::Waiting,
            Ok(Taken::Good { kind, count, .. }) => Kept::Good(*kind, *count),
            Ok(Taken::Bad { refusal, .. }) | Err(refusal) => Kept::Refused(refusal.number()),
        }
    }
}

/// The totals, over all answers since the fresh stream.
#[derive(Debug, PartialEq)]
pub struct Totals {
    /// The number of good speech blocks.
    pub speech: usize,
    /// The number of good FACCH blocks.
    pub facch: usize,
    /// The number of blocks refused with 8 or 9.
    pub refused: usize,
    /// The sum of the counts of the good blocks.
    pub counts: usize,
}

/// A receiving stream.
pub struct Receiver {
    /// Bursts 0, 1, 2 and so on, as they were taken.
    bursts: Vec<Vec<u8>>,
    /// Every answer, in the order in which they were given.
    answers: Vec<Kept>,
}

/// A good block: its kind, the count and the information bits.
type Block = Result<(Kind, usize, Vec<u8>), Refusal>;

/// Coded bits as a block of one kind; refusal 8 if the parity is bad.
fn decoded(kind: Kind, c: &[u8]) -> Block {
    let channel = kind.channel();
    let (count, d) = channel.decode(NO_IDENTITY, c, channel.reads)?;
    Ok((kind, count, d))
}

/// Coded bits whose flags tell no kind, so that the parity does: they are FACCH if it is good as
/// FACCH, else speech if it is good as speech, else there is refusal 9. 02, M-101
fn of_either_kind(c: &[u8]) -> Block {
    decoded(Kind::Facch, c)
        .or_else(|_| decoded(Kind::Speech, c))
        .map_err(|_| Refusal::EqualFlags)
}

/// Burst 4n+7 brings the answer for block n, every other burst none.
fn answered(burst: usize) -> Option<usize> {
    match burst % 4 {
        3 if burst >= 7 => Some((burst - 7) / 4),
        _ => None,
    }
}

impl Receiver {
    /// No burst taken yet, and no answer given.
    pub fn fresh() -> Receiver {
        Receiver {
            bursts: Vec::new(),
            answers: Vec::new(),
        }
    }

    /// Takes the next burst; what it brings is written to so many lent bytes. Refusals that leave
    /// the stream come in the order 1, 2, 5, 4.
    pub fn take(&mut self, number: u16, e: &[u8], lent: usize) -> Result<Taken, Refusal> {
        let answer = self.taken(number, e, lent);
        self.answers.push(Kept::of(&answer));
        answer
    }

    /// The totals, taken over all answers anew.
    pub fn totals(&self) -> Totals {
        let (speech, facch) = (self.counts(Kind::Speech), self.counts(Kind::Facch));
        let is_bad = |answer: &&Kept| matches!(answer, Kept::Refused(8 | 9));
        Totals {
            speech: speech.len(),
            facch: facch.len(),
            refused: self.answers.iter().filter(is_bad).count(),
            counts: speech.iter().chain(&facch).sum(),
        }
    }

    /// The counts of all good blocks of a kind.
    fn counts(&self, kind: Kind) -> Vec<usize> {
        let count = |answer: &Kept| match *answer {
            Kept::Good(other, count) if other == kind => Some(count),
            _ => None,
        };
        self.answers.iter().filter_map(count).collect()
    }

    /// The answer to a take, which is not yet among those given.
    fn taken(&mut self, number: u16, e: &[u8], lent: usize) -> Result<Taken, Refusal> {
        check_received(e, e.len() == BURST && lent == LENT_TO_TAKE)?;
        if self.bursts.len() == MOST_BURSTS {
            return Err(Refusal::StreamFull);
        }
        let burst = usize::from(number);
        if burst != self.bursts.len() {
            return Err(Refusal::OutOfTurn);
        }
        self.bursts.push(e.to_vec());
        Ok(answered(burst).map_or(Taken::Waiting, |n| self.answer(n)))
    }

    /// The answer for block n, whose eight bursts have been taken.
    fn answer(&self, n: usize) -> Taken {
        match self.block(n) {
            Ok((kind, count, d)) => Taken::Good { n, kind, count, d },
            Err(refusal) => Taken::Bad { n, refusal },
        }
    }

    /// Block n, of the kind that its flags tell; of either kind if they tell none.
    fn block(&self, n: usize) -> Block {
        let spread = Interleaving::Diagonal(n);
        let c = spread.bits(&self.bursts);
        match Kind::of_flags(&spread.flags(&self.bursts)) {
            Some(kind) => decoded(kind, &c),
            None => of_either_kind(&c),
        }
    }
}

#[cfg(test)]
mod tests {
    use super::*;
    use crate::chance::both_kinds::block_of_both_kinds;
    use crate::chance::cable::{self, change_block};
    use crate::chance::lists::{alter, alter_and_lose, lose, random_bits};
    use crate::chance::losses::flags_of;
    use crate::chance::random::Random;
    use crate::model::bits::{bits_of, inverted, ones};
    use crate::model::burst::cut;
    use crate::model::burst::Interleaving::Diagonal;
    use crate::model::kind::blocks;
    use crate::model::refusal::Refusal::*;
    use crate::model::sending_stream::sent_and_ended;

    /// What a fresh receiver makes of bursts given in order.
    fn given(bursts: &[Vec<u8>]) -> Vec<Taken> {
        let mut receiver = Receiver::fresh();
        let take = |(number, e): (usize, &Vec<u8>)| receiver.take(number as u16, e, 260).unwrap();
        bursts.iter().enumerate().map(take).collect()
    }

    /// The answers for the blocks alone.
    fn answers(bursts: &[Vec<u8>]) -> Vec<Taken> {
        given(bursts)
            .into_iter()
            .filter(|taken| *taken != Taken::Waiting)
            .collect()
    }

    /// Block n as it was sent, with so many protected bits altered.
    fn as_sent(n: usize, d: &[u8], count: usize) -> Taken {
        Taken::Good {
            n,
            kind: Kind::of_length(d.len()).unwrap(),
            count,
            d: d.to_vec(),
        }
    }

    /// Refusal 9 for block n.
    fn equal_flags(n: usize) -> Taken {
        Taken::Bad {
            n,
            refusal: EqualFlags,
        }
    }

    /// Refusal 8 for block n.
    fn bad_parity(n: usize, count: usize) -> Taken {
        Taken::Bad {
            n,
            refusal: BadParity { count },
        }
    }

    /// These four totals.
    fn totals(speech: usize, facch: usize, refused: usize, counts: usize) -> Totals {
        Totals {
            speech,
            facch,
            refused,
            counts,
        }
    }

    /// The totals of a fresh receiver after each burst given in order.
    fn totals_after_each(bursts: &[Vec<u8>]) -> Vec<Totals> {
        let mut receiver = Receiver::fresh();
        let mut after_each = Vec::new();
        for (number, e) in bursts.iter().enumerate() {
            receiver.take(number as u16, e, 260).unwrap();
            after_each.push(receiver.totals());
        }
        after_each
    }

    /// Alters so many of the flags of block n, and loses so many others.
    fn damage_flags(
        random: &mut Random,
        bursts: &mut [Vec<u8>],
        n: usize,
        altered: usize,
        missing: usize,
    ) {
        change_block(bursts, n, |_, flags| {
            alter_and_lose(random, flags, altered, missing)
        });
    }

    #[test]
    fn what_is_sent_is_received() {
        let blocks = blocks(64, "sfssffsf");
        let expected: Vec<Taken> = (0..8).map(|n| as_sent(n, &blocks[n], 0)).collect();
        assert_eq!(answers(&sent_and_ended(&blocks)), expected);
    }

    #[test]
    fn an_answer_comes_at_burst_4n_and_7_only() {
        let taken = given(&sent_and_ended(&blocks(65, "ssfsf")));
        assert_eq!(taken.len(), 24);
        for burst in 0..24 {
            let expected = [7, 11, 15, 19, 23].contains(&burst);
            assert_eq!(taken[burst] != Taken::Waiting, expected, "burst {}", burst);
        }
        assert_eq!(answered(6), None);
        assert_eq!(answered(7), Some(0));
        assert_eq!(answered(8), None);
        assert_eq!(answered(11), Some(1));
        assert_eq!(answered(65_535), Some(16_382));
    }

    /// The kind that a block with these information bits is not.
    fn other_kind(d: &[u8]) -> Kind {
        match Kind::of_length(d.len()).unwrap() {
            Kind::Speech => Kind::Facch,
            Kind::Facch => Kind::Speech,
        }
    }

    /// What is answered for block n if its coded bits are decoded as this kind and no other.
    fn as_kind(n: usize, kind: Kind, c: &[u8]) -> Taken {
        let channel = kind.channel();
        match channel.decode(NO_IDENTITY, c, channel.reads) {
            Ok((count, d)) => Taken::Good { n, kind, count, d },
            Err(refusal) => Taken::Bad { n, refusal },
        }
    }

    /// The parity of these coded bits is good as this kind.
    fn is_good(kind: Kind, c: &[u8]) -> bool {
        matches!(as_kind(0, kind, c), Taken::Good { .. })
    }

    /// Gives block n these coded bits and these flags.
    fn put_block(bursts: &mut [Vec<u8>], n: usize, c: &[u8], flags: &[u8]) {
        Diagonal(n).put_bits(bursts, c);
        Diagonal(n).put_flags(bursts, flags);
    }

    /// Eight flags, so many of them 1.
    fn flags_with(random: &mut Random, ones: usize) -> Vec<u8> {
        let mut flags = vec![0; 8];
        alter(random, &mut flags, ones);
        flags
    }

    /// The bursts of six blocks, of random bits, of which some may be missing; the flags are random
    /// too, or four of each block's.
    fn any_bursts(random: &mut Random) -> Vec<Vec<u8>> {
        let mut bits = random_bits(random, 28 * BURST);
        if random.one_in(2) {
            lose(random, &mut bits, 14 * BURST);
        }
        let mut bursts = cut(&bits);
        if random.one_in(2) {
            for n in 0..6 {
                Diagonal(n).put_flags(&mut bursts, &flags_with(random, 4));
            }
        }
        bursts
    }

    /// Random coded bits that have a bad parity as either kind.
    fn noise(random: &mut Random) -> Vec<u8> {
        loop {
            let c = random_bits(random, 456);
            if !is_good(Kind::Facch, &c) && !is_good(Kind::Speech, &c) {
                return c;
            }
        }
    }

    #[test]
    fn flags_are_repaired_up_to_equal_votes() {
        let mut random = Random::new(66);
        let blocks = blocks(66, "sfssff");
        let sent = sent_and_ended(&blocks);
        for n in 0..6 {
            for altered in 0..=4 {
                for missing in 0..=8 - 2 * altered {
                    let mut bursts = sent.clone();
                    damage_flags(&mut random, &mut bursts, n, altered, missing);
                    assert_eq!(answers(&bursts), answers(&sent));
                }
            }
        }
    }

    #[test]
    fn more_votes_for_the_other_kind_make_that() {
        let mut random = Random::new(182);
        let blocks = blocks(182, "sfssff");
        let sent = sent_and_ended(&blocks);
        for n in 0..6 {
            let without_missing = (5..=8).map(|altered| (altered, 0));
            for (altered, missing) in without_missing.chain([(4, 1), (3, 4), (2, 5), (1, 7)]) {
                let mut bursts = sent.clone();
                damage_flags(&mut random, &mut bursts, n, altered, missing);
                let mut expected = answers(&sent);
                expected[n] = as_kind(n, other_kind(&blocks[n]), &Diagonal(n).bits(&sent));
                assert_eq!(answers(&bursts), expected);
            }
        }
    }

    #[test]
    fn zeros_with_four_flags_are_refused_with_9_and_with_others_with_8() {
        for pattern in 0..256 {
            let flags = bits_of(pattern, 8);
            let mut bursts = vec![vec![0; BURST]; 8];
            Diagonal(0).put_flags(&mut bursts, &flags);
            let expected = match ones(&flags) {
                4 => equal_flags(0),
                _ => bad_parity(0, 0),
            };
            assert_eq!(answers(&bursts), [expected], "{:?}", flags);
        }
    }

    #[test]
    fn zeros_with_equal_votes_are_refused_with_9_and_with_others_with_8() {
        let mut random = Random::new(202);
        for ones in 0..=8 {
            for zeros in 0..=8 - ones {
                let flags = flags_of(&mut random, ones, zeros);
                let mut bursts = vec![vec![0; BURST]; 8];
                Diagonal(0).put_flags(&mut bursts, &flags);
                let expected = match ones == zeros {
                    true => equal_flags(0),
                    false => bad_parity(0, 0),
                };
                assert_eq!(answers(&bursts), [expected], "{:?}", flags);
            }
        }
    }

    #[test]
    fn a_block_that_is_all_missing_is_refused_with_9() {
        let mut bursts = sent_and_ended(&blocks(203, "sfs"));
        change_block(&mut bursts, 1, |c, flags| {
            c.fill(2);
            flags.fill(2);
        });
        let answers = answers(&bursts);
        assert_eq!(answers[1], equal_flags(1));
        assert!([0, 2]
            .iter()
            .all(|&n| matches!(answers[n], Taken::Good { .. })));
        // With any vote it is refused with 8, and no bit is counted.
        for flag in [0, 1] {
            change_block(&mut bursts, 1, |_, flags| flags[5] = flag);
            assert_eq!(given(&bursts)[11], bad_parity(1, 0));
        }
    }

    #[test]
    fn altered_bits_weigh_twice_as_much_as_missing_ones_and_six_are_borne() {
        let mut random = Random::new(206);
        let blocks = blocks(206, "sfsfsf");
        let sent = sent_and_ended(&blocks);
        for n in 0..6 {
            let kind = Kind::of_length(blocks[n].len()).unwrap();
            let protected = kind.channel().protected();
            for altered in 0..=3 {
                for missing in 0..=6 - 2 * altered {
                    let mut c = Diagonal(n).bits(&sent);
                    alter_and_lose(&mut random, &mut c[..protected], altered, missing);
                    let mut flags = kind.flags();
                    alter_and_lose(&mut random, &mut flags, altered, 7 - 2 * altered);
                    // Whatever the neighbours are, and whatever is missing of them.
                    let mut bursts = any_bursts(&mut random);
                    put_block(&mut bursts, n, &c, &flags);
                    assert_eq!(answers(&bursts)[n], as_sent(n, &blocks[n], altered));
                }
            }
        }
    }

    /// The block as it is given with one of its eight bursts missing: of speech, the unprotected
    /// bits that were in it are 0.
    fn without_burst(d: &[u8], burst: usize) -> Vec<u8> {
        // d(k) is c(k+196), and that is in burst (k+196) mod 8.
        let is_lost = |k: usize| d.len() == 260 && k >= 182 && (k + 196) % 8 == burst;
        (0..d.len())
            .map(|k| if is_lost(k) { 0 } else { d[k] })
            .collect()
    }

    #[test]
    fn a_burst_that_never_came_costs_no_protected_bit() {
        let blocks = blocks(207, "sfssffs");
        let sent = sent_and_ended(&blocks);
        for burst in 0..32 {
            let mut bursts = sent.clone();
            bursts[burst].fill(2);
            let expected = |n: usize| match burst.checked_sub(4 * n) {
                Some(own @ 0..=7) => as_sent(n, &without_burst(&blocks[n], own), 0),
                _ => as_sent(n, &blocks[n], 0),
            };
            let expected: Vec<Taken> = (0..7).map(expected).collect();
            assert_eq!(answers(&bursts), expected, "burst {}", burst);
        }
    }

    #[test]
    fn missing_bursts_are_waited_for_like_any_other() {
        let mut bursts = sent_and_ended(&blocks(208, "sffs"));
        for e in &mut bursts[4..12] {
            e.fill(2);
        }
        let taken = given(&bursts);
        for burst in 0..20 {
            let brings = [7, 11, 15, 19].contains(&burst);
            assert_eq!(taken[burst] != Taken::Waiting, brings, "burst {}", burst);
        }
        // All of block 1 was in them.
        assert_eq!(taken[11], equal_flags(1));
        assert!(matches!(taken[19], Taken::Good { n: 3, .. }));
    }

    #[test]
    fn noise_with_four_flags_is_refused_with_9_and_with_others_with_8_and_its_count() {
        let mut random = Random::new(183);
        let sent = sent_and_ended(&blocks(183, "sff"));
        for _ in 0..10 {
            let c = noise(&mut random);
            for ones in 0..=8 {
                let mut bursts = sent.clone();
                put_block(&mut bursts, 1, &c, &flags_with(&mut random, ones));
                let mut expected = answers(&sent);
                expected[1] = match ones {
                    0..=3 => as_kind(1, Kind::Speech, &c),
                    4 => equal_flags(1),
                    _ => as_kind(1, Kind::Facch, &c),
                };
                assert_eq!(answers(&bursts), expected, "{} ones", ones);
            }
        }
    }

    #[test]
    fn three_altered_bits_and_four_flags_are_repaired_however_the_neighbours_fare() {
        let mut random = Random::new(67);
        let blocks = blocks(67, "sfsfsf");
        let sent = sent_and_ended(&blocks);
        for n in 0..6 {
            let kind = Kind::of_length(blocks[n].len()).unwrap();
            for altered in 0..=3 {
                let mut c = Diagonal(n).bits(&sent);
                alter(&mut random, &mut c[..kind.channel().protected()], altered);
                // A speech block that is good as FACCH would come out as FACCH.
                assert!(kind == Kind::Facch || !is_good(Kind::Facch, &c));
                for flags_altered in 0..=4 {
                    let mut flags = kind.flags();
                    alter(&mut random, &mut flags, flags_altered);
                    let mut bursts = any_bursts(&mut random);
                    put_block(&mut bursts, n, &c, &flags);
                    assert_eq!(answers(&bursts)[n], as_sent(n, &blocks[n], altered));
                }
            }
        }
    }

    #[test]
    fn a_block_of_both_kinds_is_facch_from_four_flags_on() {
        let mut random = Random::new(184);
        for _ in 0..5 {
            let (speech, facch) = block_of_both_kinds(&mut random);
            let c = Kind::Speech.channel().coded(NO_IDENTITY, &speech);
            for ones in 0..=8 {
                let mut bursts = any_bursts(&mut random);
                put_block(&mut bursts, 1, &c, &flags_with(&mut random, ones));
                let d = if ones <= 3 { &speech } else { &facch };
                assert_eq!(answers(&bursts)[1], as_sent(1, d, 0), "{} ones", ones);
            }
        }
    }

    #[test]
    fn a_block_of_both_kinds_has_the_count_of_the_kind_that_it_comes_out_as() {
        let mut random = Random::new(185);
        for altered in 1..=3 {
            let (mut speech, facch) = block_of_both_kinds(&mut random);
            let mut c = Kind::Facch.channel().coded(NO_IDENTITY, &facch);
            // Bits that are unprotected in speech, and there given as received.
            alter(&mut random, &mut c[378..], altered);
            speech[182..].copy_from_slice(&c[378..]);
            for (ones, expected) in [
                (3, as_sent(0, &speech, 0)),
                (4, as_sent(0, &facch, altered)),
                (5, as_sent(0, &facch, altered)),
            ] {
                let mut bursts = vec![vec![0; BURST]; 8];
                put_block(&mut bursts, 0, &c, &flags_with(&mut random, ones));
                assert_eq!(answers(&bursts), [expected], "{} ones", ones);
            }
        }
    }

    #[test]
    fn unprotected_bits_are_given_as_received() {
        let mut blocks = blocks(68, "sss");
        let mut bursts = sent_and_ended(&blocks);
        let turn_over = |bits: &mut [u8]| bits.copy_from_slice(&inverted(bits));
        change_block(&mut bursts, 1, |c, _| turn_over(&mut c[378..]));
        turn_over(&mut blocks[1][182..]);
        let expected: Vec<Taken> = (0..3).map(|n| as_sent(n, &blocks[n], 0)).collect();
        assert_eq!(answers(&bursts), expected);
    }

    #[test]
    fn a_bad_burst_costs_two_blocks_and_never_a_third() {
        let blocks = blocks(69, "sfssffs");
        let sent = sent_and_ended(&blocks);
        for burst in 0..32 {
            let mut bursts = sent.clone();
            bursts[burst] = inverted(&bursts[burst]);
            let answers = answers(&bursts);
            let lost: Vec<usize> = (0..7)
                .filter(|&n| answers[n] != as_sent(n, &blocks[n], 0))
                .collect();
            // The block that begins in these four bursts, and the one before it.
            let carried: Vec<usize> = (0..7)
                .filter(|&n| n == burst / 4 || n + 1 == burst / 4)
                .collect();
            assert_eq!(lost, carried, "burst {}", burst);
        }
    }

    #[test]
    fn refusals_come_in_the_order_1_2_5_4() {
        let mut receiver = Receiver::fresh();
        assert_eq!(receiver.take(1, &[3; 115], 260), Err(WrongLength));
        assert_eq!(receiver.take(1, &[], 260), Err(WrongLength));
        assert_eq!(receiver.take(0, &[0; 117], 260), Err(WrongLength));
        for lent in [0, 116, 184, 259, 261, 600] {
            assert_eq!(receiver.take(0, &[0; 116], lent), Err(WrongLength));
            assert_eq!(receiver.take(1, &[3; 116], lent), Err(WrongLength));
        }
        assert_eq!(receiver.take(1, &[3; 116], 260), Err(NotABit));
        assert_eq!(receiver.take(1, &[2; 116], 260), Err(OutOfTurn));
        assert_eq!(receiver.take(1, &[0; 116], 260), Err(OutOfTurn));
        assert_eq!(receiver.take(65_535, &[0; 116], 260), Err(OutOfTurn));
        assert_eq!(receiver.take(0, &[0; 116], 260), Ok(Taken::Waiting));
        assert_eq!(receiver.take(0, &[0; 116], 260), Err(OutOfTurn));
        assert_eq!(receiver.take(2, &[0; 116], 260), Err(OutOfTurn));
        assert_eq!(receiver.take(257, &[0; 116], 260), Err(OutOfTurn));
        assert_eq!(receiver.take(1, &[0; 116], 260), Ok(Taken::Waiting));
    }

    #[test]
    fn every_byte_of_a_burst_must_be_a_bit_or_missing() {
        for k in 0..116 {
            let mut receiver = Receiver::fresh();
            let mut e = vec![0; 116];
            e[k] = 3;
            assert_eq!(receiver.take(0, &e, 260), Err(NotABit), "e({})", k);
            e[k] = 2;
            assert_eq!(receiver.take(0, &e, 260), Ok(Taken::Waiting), "e({})", k);
        }
    }

    #[test]
    fn refused_calls_leave_the_stream() {
        let bursts = sent_and_ended(&blocks(70, "sffs"));
        let mut receiver = Receiver::fresh();
        let mut taken = Vec::new();
        for number in 0..20 {
            let e = &bursts[usize::from(number)];
            assert_eq!(receiver.take(number, &e[1..], 260), Err(WrongLength));
            assert_eq!(receiver.take(number, e, 184), Err(WrongLength));
            assert_eq!(receiver.take(number, &[255; 116], 260), Err(NotABit));
            assert_eq!(receiver.take(number + 1, e, 260), Err(OutOfTurn));
            taken.push(receiver.take(number, e, 260).unwrap());
            assert_eq!(receiver.take(number, e, 260), Err(OutOfTurn));
        }
        assert_eq!(taken, given(&bursts));
        assert_eq!(receiver.totals(), totals(2, 2, 0, 0));
    }

    #[test]
    fn burst_65535_is_the_last() {
        let mut receiver = Receiver {
            bursts: vec![vec![0; BURST]; 65_535],
            ..Receiver::fresh()
        };
        assert_eq!(receiver.take(0, &[0; 116], 260), Err(OutOfTurn));
        assert_eq!(
            receiver.take(65_535, &[0; 116], 260),
            Ok(bad_parity(16_382, 0))
        );
        for number in [0, 65_535] {
            assert_eq!(receiver.take(number, &[0; 115], 260), Err(WrongLength));
            assert_eq!(receiver.take(number, &[0; 116], 259), Err(WrongLength));
            assert_eq!(receiver.take(number, &[3; 116], 260), Err(NotABit));
            for bit in [0, 2] {
                assert_eq!(receiver.take(number, &[bit; 116], 260), Err(StreamFull));
            }
        }
        assert_eq!(receiver.totals(), totals(0, 0, 1, 0));
    }

    #[test]
    fn a_fresh_stream_has_no_totals_and_seven_bursts_bring_none() {
        assert_eq!(Receiver::fresh().totals(), totals(0, 0, 0, 0));
        let bursts = sent_and_ended(&blocks(100, "s"));
        for after in &totals_after_each(&bursts)[..7] {
            assert_eq!(*after, totals(0, 0, 0, 0));
        }
    }

    #[test]
    fn good_blocks_are_totalled_by_kind_and_their_counts_summed() {
        let mut random = Random::new(101);
        let mut bursts = sent_and_ended(&blocks(101, "sfssf"));
        for (n, altered) in [1, 2, 0, 3, 3].into_iter().enumerate() {
            change_block(&mut bursts, n, |c, _| {
                alter(&mut random, &mut c[..378], altered)
            });
        }
        let after_each = totals_after_each(&bursts);
        let expected = [
            totals(1, 0, 0, 1),
            totals(1, 1, 0, 3),
            totals(2, 1, 0, 3),
            totals(3, 1, 0, 6),
            totals(3, 2, 0, 9),
        ];
        for burst in 7..24 {
            let n = (burst - 7) / 4;
            assert_eq!(after_each[burst], expected[n], "burst {}", burst);
        }
    }

    #[test]
    fn a_bad_block_is_refused_and_its_count_not_summed() {
        let mut bursts = vec![vec![0; BURST]; 12];
        // c(0) and c(57) of block 0, by the first row of Table 1.
        bursts[0][0] = 1;
        bursts[1][0] = 1;
        Diagonal(1).put_flags(&mut bursts, &[0, 0, 0, 0, 1, 1, 1, 1]);
        assert_eq!(answers(&bursts), [bad_parity(0, 2), equal_flags(1)]);
        let after_each = totals_after_each(&bursts);
        assert_eq!(after_each[7], totals(0, 0, 1, 0));
        assert_eq!(after_each[11], totals(0, 0, 2, 0));
    }

    #[test]
    fn blocks_with_four_flags_are_totalled_as_what_they_come_out_as() {
        let mut random = Random::new(186);
        let mut bursts = sent_and_ended(&blocks(186, "fsssff"));
        for (n, altered) in [(0, 2), (1, 3)] {
            change_block(&mut bursts, n, |c, flags| {
                alter(&mut random, &mut c[..378], altered);
                alter(&mut random, flags, 4);
            });
        }
        let (_, facch) = block_of_both_kinds(&mut random);
        let of_both_kinds = Kind::Facch.channel().coded(NO_IDENTITY, &facch);
        let noise = noise(&mut random);
        for (n, c, ones) in [
            (2, &noise, 4),
            (3, &of_both_kinds, 4),
            (4, &of_both_kinds, 3),
            (5, &noise, 5),
        ] {
            put_block(&mut bursts, n, c, &flags_with(&mut random, ones));
        }
        let after_each = totals_after_each(&bursts);
        let expected = [
            totals(0, 1, 0, 2),
            totals(1, 1, 0, 5),
            totals(1, 1, 1, 5),
            totals(1, 2, 1, 5),
            totals(2, 2, 1, 5),
            totals(2, 2, 2, 5),
        ];
        for n in 0..6 {
            assert_eq!(after_each[4 * n + 7], expected[n], "block {}", n);
        }
    }

    #[test]
    fn the_totals_are_what_the_answers_add_up_to() {
        let mut random = Random::new(102);
        for cable in [cable::lesson, cable::ties, cable::missing] {
            let mut bursts = sent_and_ended(&blocks(102, &"ssf".repeat(30)));
            cable(&mut random, &mut bursts);
            let mut sum = totals(0, 0, 0, 0);
            for (taken, after) in given(&bursts).iter().zip(totals_after_each(&bursts)) {
                match taken {
                    Taken::Waiting => {}
                    Taken::Good { kind, count, .. } => {
                        sum.counts += count;
                        match kind {
                            Kind::Speech => sum.speech += 1,
                            Kind::Facch => sum.facch += 1,
                        }
                    }
                    Taken::Bad { .. } => sum.refused += 1,
                }
                assert_eq!(after, sum);
            }
            assert_eq!(sum.speech + sum.facch + sum.refused, 90);
            assert!(sum.speech > 10 && sum.facch > 5 && sum.refused > 10 && sum.counts > 10);
        }
    }
}
