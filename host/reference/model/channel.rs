//! The table of channels, and the two entries that each of them has.

use crate::model::burst::{from_four_bursts, on_four_bursts};
use crate::model::coding;
use crate::model::efr;
use crate::model::polynomial::{from_powers, multiply, Polynomial};
use crate::model::receiving;
use crate::model::refusal::{check_identity, check_received, check_sent, Refusal};

/// A good block: the count of disagreements and the information bits.
pub type Received = Result<(usize, Vec<u8>), Refusal>;

/// What a channel that has no identity is called with; it is not looked at.
pub const NO_IDENTITY: u64 = 0;

/// A channel: one row of the table.
#[derive(Clone, Copy)]
pub struct Channel {
    /// The kit's verb that sends a block; with a question mark behind it, the one that receives it.
    pub name: &'static str,
    /// The number of information bits that sending reads and receiving writes: d, but s for enhanced
    /// full rate.
    pub reads: usize,
    /// The number of bits that sending writes and receiving reads.
    pub writes: usize,
    /// An identity is added to the parity bits.
    pub has_identity: bool,
    /// g(D)
    pub generator: fn() -> Polynomial,
    /// The parity is over so many of the first bits d.
    pub covered: usize,
    /// Where the parity bits stand in u: the first, and how many.
    pub parity: (usize, usize),
    /// The number of bits in u; each makes a pair of coded bits.
    pub pairs: usize,
    /// The eight flags of a block that is sent on four bursts; others are sent as they are coded.
    pub flags: Option<[u8; 8]>,
    /// The coded bits c of an identity and of information bits.
    encoder: fn(&Channel, u64, &[u8]) -> Vec<u8>,
    /// The verdict on received bits c under an identity.
    decoder: fn(&Channel, u64, &[u8]) -> Received,
}

/// Speech, 3.1.2: g(D) = D^3 + D + 1, over d(0)..d(49)
pub const SPEECH: Channel = Channel {
    name: "speech",
    reads: 260,
    writes: 456,
    has_identity: false,
    generator: || from_powers(&[3, 1, 0]),
    covered: 50,
    parity: (91, 3),
    pairs: 189,
    flags: None,
    encoder: coding::speech,
    decoder: receiving::speech,
};

/// Control, 4.1.2 and 4.1.3: g(D) = (D^23 + 1)(D^17 + D^3 + 1)
pub const CONTROL: Channel = Channel {
    name: "control",
    reads: 184,
    writes: 456,
    has_identity: false,
    generator: || multiply(&from_powers(&[23, 0]), &from_powers(&[17, 3, 0])),
    covered: 184,
    parity: (184, 40),
    pairs: 228,
    flags: None,
    encoder: coding::block,
    decoder: receiving::block,
};

/// SACCH, 4.1.4 and 4.1.5: the control block over four bursts, hl(B) = hu(B) = 1
pub const SACCH: Channel = Channel {
    name: "sacch",
    writes: 464,
    flags: Some([1; 8]),
    ..CONTROL
};

/// Access, 4.6: D^6 + D^5 + D^3 + D^2 + D + 1
pub const ACCESS: Channel = Channel {
    name: "access",
    reads: 8,
    writes: 36,
    has_identity: true,
    generator: || from_powers(&[6, 5, 3, 2, 1, 0]),
    covered: 8,
    parity: (8, 6),
    pairs: 18,
    flags: None,
    encoder: coding::block,
    decoder: receiving::block,
};

/// SCH, 4.7: D^10 + D^8 + D^6 + D^5 + D^4 + D^2 + 1; the pairs are those of k = 0..38
pub const SCH: Channel = Channel {
    name: "sch",
    reads: 25,
    writes: 78,
    has_identity: false,
    generator: || from_powers(&[10, 8, 6, 5, 4, 2, 0]),
    covered: 25,
    parity: (25, 10),
    pairs: 39,
    flags: None,
    encoder: coding::block,
    decoder: receiving::block,
};

/// Enhanced full rate, 3.1.1: the coder of speech behind a preliminary stage. 02, M-103
pub const EFR: Channel = Channel {
    name: "efr",
    reads: 244,
    encoder: efr::encode,
    decoder: efr::decode,
    ..SPEECH
};

/// All channels.
pub static CHANNELS: [Channel; 6] = [SPEECH, CONTROL, SACCH, ACCESS, SCH, EFR];

/// The channel of this name; nothing if there is none.
pub fn named(name: &[u8]) -> Option<&'static Channel> {
    named_among(&CHANNELS, name)
}

/// The one of these channels that has this name; nothing if there is none.
pub fn named_among(channels: &'static [Channel], name: &[u8]) -> Option<&'static Channel> {
    let is_named = |channel: &&Channel| channel.name.as_bytes() == name;
    channels.iter().find(is_named)
}

impl Channel {
    /// The coded bits that are protected are the pairs: the first so many.
    pub fn protected(&self) -> usize {
        2 * self.pairs
    }

    /// Refusal 3 where the channel has an identity.
    fn check_identity(&self, identity: u64) -> Result<(), Refusal> {
        if self.has_identity {
            check_identity(identity)?;
        }
        Ok(())
    }

    /// The coded bits c of information bits that are in order, before they are put on bursts.
    pub fn coded(&self, identity: u64, d: &[u8]) -> Vec<u8> {
        (self.encoder)(self, identity, d)
    }

    /// The bits that are sent for the information bits, written to so many lent bytes; refusals in
    /// the order 1, 2, 3.
    pub fn encode(&self, identity: u64, d: &[u8], lent: usize) -> Result<Vec<u8>, Refusal> {
        check_sent(d, d.len() == self.reads && lent == self.writes)?;
        self.check_identity(identity)?;
        let c = self.coded(identity, d);
        Ok(match self.flags {
            Some(flags) => on_four_bursts(&c, &flags),
            None => c,
        })
    }

    /// The block that is received, written to so many lent bytes; refusals in the order 1, 2, 3, 8,
    /// 10. The flags of four bursts must be bits or missing, but are not used.
    pub fn decode(&self, identity: u64, e: &[u8], lent: usize) -> Received {
        check_received(e, e.len() == self.writes && lent == self.reads)?;
        self.check_identity(identity)?;
        match self.flags {
            Some(_) => (self.decoder)(self, identity, &from_four_bursts(e)),
            None => (self.decoder)(self, identity, e),
        }
    }
}

#[cfg(test)]
mod tests {
    use super::*;
    use crate::chance::lists::{alter, alter_and_lose, lose, random_bits};
    use crate::chance::random::Random;
    use crate::model::bits::{add, inverted, ones, ones_at};
    use crate::model::burst::BURST;
    use crate::model::coding::convolve;
    use crate::model::polynomial::{leaves_all_ones, parity};
    use crate::model::refusal::Refusal::*;

    /// Refusal 8 and the count.
    fn bad_parity(count: usize) -> Received {
        Err(BadParity { count })
    }

    #[test]
    fn the_table_is_that_of_papers_01_and_02() {
        let rows = CHANNELS.map(|channel| (channel.name, channel.reads, channel.writes));
        let paper = [
            ("speech", 260, 456),
            ("control", 184, 456),
            ("sacch", 184, 464),
            ("access", 8, 36),
            ("sch", 25, 78),
            ("efr", 244, 456),
        ];
        assert_eq!(rows, paper);
        let with_identity = CHANNELS.iter().filter(|channel| channel.has_identity);
        let names: Vec<&str> = with_identity.map(|channel| channel.name).collect();
        assert_eq!(names, ["access"]);
    }

    #[test]
    fn there_are_as_many_parity_bits_as_the_degree_and_zeros_behind() {
        for channel in CHANNELS {
            let (first, number) = channel.parity;
            assert_eq!(number + 1, (channel.generator)().len(), "{}", channel.name);
            assert!(first + number + 4 <= channel.pairs, "{}", channel.name);
        }
    }

    #[test]
    fn channels_are_found_by_name() {
        for channel in CHANNELS {
            let found = named(channel.name.as_bytes()).unwrap();
            assert_eq!(found.name, channel.name);
        }
        for name in ["", "spee", "speechx", "Speech", "facch", "speech?", "efs"] {
            assert!(named(name.as_bytes()).is_none(), "{}", name);
        }
    }

    #[test]
    fn the_generators_have_the_powers_of_document_000() {
        let powers = |channel: Channel| ones_at(&(channel.generator)());
        assert_eq!(powers(SPEECH), [0, 1, 3]);
        // The product (D^23 + 1)(D^17 + D^3 + 1)
        assert_eq!(powers(CONTROL), [0, 3, 17, 23, 26, 40]);
        assert_eq!(powers(ACCESS), [0, 1, 2, 3, 5, 6]);
        assert_eq!(powers(SCH), [0, 2, 4, 5, 6, 8, 10]);
        assert_eq!(powers(EFR), powers(SPEECH));
    }

    #[test]
    fn parity_leaves_all_ones_for_random_blocks() {
        let mut random = Random::new(5);
        for channel in CHANNELS {
            let g = (channel.generator)();
            for _ in 0..200 {
                let d = random_bits(&mut random, channel.covered);
                assert!(leaves_all_ones(&[&d[..], &parity(&d, &g)].concat(), &g));
            }
        }
    }

    #[test]
    fn sending_writes_bits_in_the_number_of_the_table() {
        for channel in CHANNELS {
            for bit in [0, 1] {
                let sent = channel
                    .encode(63, &vec![bit; channel.reads], channel.writes)
                    .unwrap();
                assert_eq!(sent.len(), channel.writes);
                assert!(sent.iter().all(|&bit| bit <= 1));
            }
        }
    }

    #[test]
    fn wrong_lengths_are_refused_first() {
        for channel in CHANNELS {
            let (reads, writes) = (channel.reads, channel.writes);
            for length in [0, 1, reads - 1, reads + 1, writes, 2 * reads] {
                let refused = channel.encode(64, &vec![3; length], channel.writes);
                assert_eq!(refused, Err(WrongLength), "{}", channel.name);
            }
            for length in [0, 1, reads, writes - 1, writes + 1, 2 * writes] {
                let refused = channel.decode(64, &vec![3; length], channel.reads);
                assert_eq!(refused, Err(WrongLength), "{}", channel.name);
            }
        }
        assert_eq!(SACCH.decode(0, &[3; 456], 184), Err(WrongLength));
    }

    #[test]
    fn another_length_lent_is_refused_first() {
        for channel in CHANNELS {
            let (reads, writes) = (channel.reads, channel.writes);
            for length in (0..=600).filter(|&length| length != writes) {
                for bit in [0, 3] {
                    let refused = channel.encode(64, &vec![bit; reads], length);
                    assert_eq!(refused, Err(WrongLength), "{}", channel.name);
                }
            }
            for length in (0..=600).filter(|&length| length != reads) {
                for bit in [0, 3] {
                    let refused = channel.decode(64, &vec![bit; writes], length);
                    assert_eq!(refused, Err(WrongLength), "{}", channel.name);
                }
            }
        }
    }

    /// Lists of so many bytes of which one alone or all are this one; the last bit of speech is
    /// unprotected.
    fn with_byte(byte: u8, length: usize) -> [Vec<u8>; 3] {
        let first = [&[byte][..], &vec![0; length - 1]].concat();
        let last = first.iter().rev().copied().collect();
        [first, last, vec![byte; length]]
    }

    #[test]
    fn bytes_over_1_are_refused_next_where_they_are_sent() {
        for channel in CHANNELS {
            for byte in [2, 3, 9, 255] {
                for d in with_byte(byte, channel.reads) {
                    let refused = channel.encode(64, &d, channel.writes);
                    assert_eq!(refused, Err(NotABit), "{}", channel.name);
                }
            }
        }
    }

    #[test]
    fn bytes_over_2_are_refused_next_where_they_are_received() {
        for channel in CHANNELS {
            for byte in [3, 4, 9, 255] {
                for e in with_byte(byte, channel.writes) {
                    let refused = channel.decode(64, &e, channel.reads);
                    assert_eq!(refused, Err(NotABit), "{}", channel.name);
                }
            }
            for e in with_byte(2, channel.writes) {
                let answer = channel.decode(64, &e, channel.reads);
                let expected = match channel.has_identity {
                    true => Err(WrongIdentity),
                    false => bad_parity(0),
                };
                assert_eq!(answer, expected, "{}", channel.name);
            }
        }
    }

    #[test]
    fn identity_63_passes_and_64_is_refused() {
        assert!(ACCESS.encode(63, &[1; 8], 36).is_ok());
        assert!(ACCESS.decode(63, &[0; 36], 8).is_ok());
        for identity in [64, 255, 256, 263, 65_535, 1 << 32, (1 << 32) + 7, u64::MAX] {
            assert_eq!(ACCESS.encode(identity, &[1; 8], 36), Err(WrongIdentity));
            assert_eq!(ACCESS.decode(identity, &[0; 36], 8), Err(WrongIdentity));
        }
    }

    #[test]
    fn other_channels_look_at_no_identity() {
        for channel in CHANNELS.iter().filter(|channel| !channel.has_identity) {
            let d = random_bits(&mut Random::new(39), channel.reads);
            let sent = channel.encode(NO_IDENTITY, &d, channel.writes).unwrap();
            for identity in [1, 63, 64, 65_535, u64::MAX] {
                assert_eq!(
                    channel.encode(identity, &d, channel.writes),
                    Ok(sent.clone())
                );
                assert_eq!(
                    channel.decode(identity, &sent, channel.reads),
                    Ok((0, d.clone()))
                );
            }
        }
    }

    #[test]
    fn zeros_have_bad_parity_but_for_access_under_63() {
        for channel in CHANNELS {
            let identities = if channel.has_identity { 0..63 } else { 0..1 };
            for identity in identities {
                let refused = channel.decode(identity, &vec![0; channel.writes], channel.reads);
                assert_eq!(refused, bad_parity(0), "{}", channel.name);
            }
        }
        assert_eq!(ACCESS.decode(63, &[0; 36], 8), Ok((0, vec![0; 8])));
        assert_eq!(ACCESS.encode(63, &[0; 8], 36), Ok(vec![0; 36]));
    }

    #[test]
    fn what_is_all_missing_is_received_as_zeros_are() {
        for channel in CHANNELS {
            for identity in 0..64 {
                let missing = channel.decode(identity, &vec![2; channel.writes], channel.reads);
                let zeros = channel.decode(identity, &vec![0; channel.writes], channel.reads);
                assert_eq!(missing, zeros, "{}", channel.name);
            }
        }
        assert_eq!(ACCESS.decode(63, &[2; 36], 8), Ok((0, vec![0; 8])));
        assert_eq!(ACCESS.decode(62, &[2; 36], 8), bad_parity(0));
    }

    #[test]
    fn four_altered_bits_are_beyond_the_promise() {
        // Zeros of an access burst, with bits 0, 1, 3, 6 set.
        let four_set = [&[1, 1, 0, 1, 0, 0, 1][..], &[0; 29]].concat();
        assert_eq!(ACCESS.decode(63, &four_set, 8), bad_parity(3));
    }

    /// A random block of a channel: d, and the coded bits with so many of the protected altered.
    fn altered_block(
        random: &mut Random,
        channel: &Channel,
        identity: u64,
        altered: usize,
    ) -> (Vec<u8>, Vec<u8>) {
        let d = random_bits(random, channel.reads);
        let mut c = channel.coded(identity, &d);
        alter(random, &mut c[..channel.protected()], altered);
        (d, c)
    }

    /// The coded bits as they are received: with any flags, where the channel has flags.
    fn received(random: &mut Random, channel: &Channel, c: Vec<u8>) -> Vec<u8> {
        match channel.flags {
            Some(_) => on_four_bursts(&c, &random_bits(random, 8)),
            None => c,
        }
    }

    #[test]
    fn blocks_come_back_with_up_to_three_bits_altered_whatever_their_flags() {
        let mut random = Random::new(33);
        for channel in CHANNELS {
            for altered in 0..=3 {
                for identity in 0..64 {
                    let (d, c) = altered_block(&mut random, &channel, identity, altered);
                    let e = received(&mut random, &channel, c);
                    let answer = channel.decode(identity, &e, channel.reads);
                    assert_eq!(answer, Ok((altered, d)), "{}", channel.name);
                    let other = (identity + 1 + random.below(63) as u64) % 64;
                    if channel.has_identity {
                        assert_eq!(
                            channel.decode(other, &e, channel.reads),
                            bad_parity(altered)
                        );
                    }
                }
            }
        }
    }

    #[test]
    fn altered_bits_weigh_twice_as_much_as_missing_ones_and_six_are_borne() {
        let mut random = Random::new(200);
        for channel in CHANNELS {
            for altered in 0..=3 {
                for missing in 0..=6 - 2 * altered {
                    for identity in 0..16 {
                        let d = random_bits(&mut random, channel.reads);
                        let mut c = channel.coded(identity, &d);
                        let protected = &mut c[..channel.protected()];
                        alter_and_lose(&mut random, protected, altered, missing);
                        let e = received(&mut random, &channel, c);
                        let answer = channel.decode(identity, &e, channel.reads);
                        assert_eq!(answer, Ok((altered, d)), "{}", channel.name);
                    }
                }
            }
        }
    }

    #[test]
    fn seven_missing_bits_are_beyond_it() {
        // All seven ones of u(0) = 1 with zeros behind it; the tie takes the zeros.
        let mut e = convolve(&[&[1][..], &[0; 17]].concat());
        for k in ones_at(&e) {
            e[k] = 2;
        }
        assert_eq!(ACCESS.decode(63, &e, 8), Ok((0, vec![0; 8])));
    }

    #[test]
    fn blocks_come_back_as_they_were_sent() {
        let mut random = Random::new(40);
        for channel in CHANNELS {
            let d = random_bits(&mut random, channel.reads);
            let sent = channel.encode(5, &d, channel.writes).unwrap();
            assert_eq!(
                channel.decode(5, &sent, channel.reads),
                Ok((0, d)),
                "{}",
                channel.name
            );
        }
    }

    #[test]
    fn class_2_is_given_as_received() {
        let d = random_bits(&mut Random::new(38), 260);
        let c = SPEECH.encode(NO_IDENTITY, &d, 456).unwrap();
        let turned = [&c[..378], &inverted(&c[378..])].concat();
        let expected = [&d[..182], &inverted(&d[182..])].concat();
        assert_eq!(SPEECH.decode(NO_IDENTITY, &turned, 260), Ok((0, expected)));
    }

    #[test]
    fn missing_bits_of_class_2_are_given_as_0() {
        let mut random = Random::new(201);
        let c = SPEECH.coded(NO_IDENTITY, &[1; 260]);
        for missing in [1, 2, 30, 78] {
            let mut e = c.clone();
            lose(&mut random, &mut e[378..], missing);
            let (count, d) = SPEECH.decode(NO_IDENTITY, &e, 260).unwrap();
            assert_eq!((count, &d[..182]), (0, &[1; 182][..]));
            for k in 182..260 {
                assert_eq!(d[k], u8::from(e[196 + k] == 1), "d({})", k);
            }
            assert_eq!(ones(&d), 260 - missing);
        }
    }

    #[test]
    fn each_parity_bit_counts() {
        let mut random = Random::new(41);
        for channel in CHANNELS {
            let c = channel.coded(5, &vec![1; channel.reads]);
            let e = received(&mut random, &channel, c.clone());
            assert!(channel.decode(5, &e, channel.reads).is_ok());
            let (first, number) = channel.parity;
            for k in first..first + number {
                let mut u = vec![0; channel.pairs];
                u[k] = 1;
                let mut wrong = c.clone();
                add(&mut wrong, &convolve(&u));
                let answer =
                    channel.decode(5, &received(&mut random, &channel, wrong), channel.reads);
                assert_eq!(answer, bad_parity(0), "u({}) of {}", k, channel.name);
            }
        }
    }

    #[test]
    fn sacch_has_all_flags_1() {
        let message = SACCH.encode(NO_IDENTITY, &[0; 184], 464).unwrap();
        for e in message.chunks(BURST) {
            assert_eq!(e[57..=58], [1, 1]);
        }
    }

    #[test]
    fn sacch_carries_every_bit_of_the_control_block() {
        let d = random_bits(&mut Random::new(6), 184);
        let control = CONTROL.encode(NO_IDENTITY, &d, 456).unwrap();
        let sacch = SACCH.encode(NO_IDENTITY, &d, 464).unwrap();
        assert_eq!(ones(&sacch), ones(&control) + 8);
        assert_eq!(from_four_bursts(&sacch), control);
    }

    #[test]
    fn flags_must_be_bits_or_missing() {
        let mut missing = SACCH.encode(NO_IDENTITY, &[0; 184], 464).unwrap();
        for k in [57, 58, 173, 174, 289, 290, 405, 406] {
            let mut e = SACCH.encode(NO_IDENTITY, &[0; 184], 464).unwrap();
            e[k] = 3;
            let refused = SACCH.decode(NO_IDENTITY, &e, 184);
            assert_eq!(refused, Err(NotABit), "e({})", k % 116);
            missing[k] = 2;
            let received = SACCH.decode(NO_IDENTITY, &missing, 184);
            assert_eq!(received, Ok((0, vec![0; 184])), "e({})", k % 116);
        }
    }
}
