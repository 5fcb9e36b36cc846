//! The sending stream: each coded bit is scattered to its burst and place, in a list of bursts
//! that grows by four with every block.

use crate::model::burst::{cut, Interleaving, BURST, FOUR_BURSTS};
use crate::model::channel::NO_IDENTITY;
use crate::model::kind::Kind;
use crate::model::refusal::{check_sent, Refusal};

/// So many blocks make a stream full.
pub const MOST_BLOCKS: usize = 16_383;

/// A sending stream.
pub struct Sender {
    /// Bursts 0, 1, 2 and so on, up to the last one that a sent block reaches.
    bursts: Vec<Vec<u8>>,
    /// The number of blocks sent.
    blocks: usize,
    ended: bool,
}

/// The coded bits and the flags of a block, whose length names its kind, for so many lent bytes;
/// refusals in the order 1, 2.
fn coded(d: &[u8], lent: usize) -> Result<(Vec<u8>, [u8; 8]), Refusal> {
    let kind = Kind::of_length(d.len()).ok_or(Refusal::WrongLength)?;
    check_sent(d, lent == FOUR_BURSTS)?;
    Ok((kind.channel().coded(NO_IDENTITY, d), kind.flags()))
}

impl Sender {
    /// No block sent yet.
    pub fn fresh() -> Sender {
        Sender {
            bursts: Vec::new(),
            blocks: 0,
            ended: false,
        }
    }

    /// Sends block n: bursts 4n to 4n+3, one after another, written to so many lent bytes; refusals
    /// in the order 1, 2, 7, 5.
    pub fn send(&mut self, d: &[u8], lent: usize) -> Result<Vec<u8>, Refusal> {
        let (c, flags) = coded(d, lent)?;
        if self.ended {
            return Err(Refusal::Ended);
        }
        if self.blocks == MOST_BLOCKS {
            return Err(Refusal::StreamFull);
        }
        let n = self.blocks;
        self.blocks += 1;
        self.bursts.resize(4 * n + 8, vec![0; BURST]);
        let spread = Interleaving::Diagonal(n);
        spread.put_bits(&mut self.bursts, &c);
        spread.put_flags(&mut self.bursts, &flags);
        Ok(self.four_bursts(4 * n))
    }

    /// Ends the stream: the last four bursts, written to so many lent bytes; refusals in the order
    /// 1, 7, 6.
    pub fn end(&mut self, lent: usize) -> Result<Vec<u8>, Refusal> {
        // Nothing is read.
        check_sent(&[], lent == FOUR_BURSTS)?;
        if self.ended {
            return Err(Refusal::Ended);
        }
        if self.blocks == 0 {
            return Err(Refusal::NothingSent);
        }
        self.ended = true;
        Ok(self.four_bursts(4 * self.blocks))
    }

    /// Four bursts in one run of 464 bits.
    fn four_bursts(&self, first: usize) -> Vec<u8> {
        self.bursts[first..first + 4].concat()
    }
}

/// The bursts of the blocks sent and of the end; none if there is no block.
pub fn sent_and_ended(blocks: &[Vec<u8>]) -> Vec<Vec<u8>> {
    let mut sender = Sender::fresh();
    let mut written = Vec::new();
    for d in blocks {
        let sent = sender.send(d, FOUR_BURSTS);
        written.extend(sent.expect("a good block is sent"));
    }
    written.extend(sender.end(FOUR_BURSTS).unwrap_or_default());
    cut(&written)
}

#[cfg(test)]
mod tests {
    use super::*;
    use crate::model::burst::{burst_and_place, places};
    use crate::model::kind::blocks;
    use crate::model::refusal::Refusal::*;

    /// A stream of so many speech blocks of zeros.
    fn after(number: usize) -> Sender {
        let mut sender = Sender::fresh();
        for _ in 0..number {
            assert_eq!(sender.send(&[0; 260], 464).unwrap().len(), 464);
        }
        sender
    }

    /// The bits at every second place, from the first or from the second on.
    fn every_second(e: &[u8], first: usize) -> Vec<u8> {
        places(e).into_iter().skip(first).step_by(2).collect()
    }

    #[test]
    fn n_blocks_make_4n_and_4_bursts() {
        for number in 1..=9 {
            let bursts = sent_and_ended(&blocks(61, &"sfsfsfsfs"[..number]));
            assert_eq!(bursts.len(), 4 * number + 4);
            assert!(bursts.iter().all(|e| e.len() == 116));
        }
        assert!(sent_and_ended(&[]).is_empty());
    }

    #[test]
    fn bursts_are_the_sum_of_two_interleaved_blocks() {
        let blocks = blocks(62, "sfsfs");
        let mut i = vec![vec![0; 114]; 24];
        for n in 0..5 {
            let (c, _) = coded(&blocks[n], 464).unwrap();
            for k in 0..=455 {
                let (burst, place) = burst_and_place(k, 8);
                i[4 * n + burst][place] += c[k];
            }
        }
        let bursts = sent_and_ended(&blocks);
        for burst in 0..24 {
            // Blocks 1 and 3 are FACCH.
            let hu = u8::from([1, 3].contains(&(burst / 4)));
            let hl = u8::from([2, 4].contains(&(burst / 4)));
            assert_eq!(places(&bursts[burst]), i[burst]);
            assert_eq!(bursts[burst][57..=58], [hl, hu]);
        }
    }

    #[test]
    fn one_unprotected_bit_goes_to_its_burst_and_place() {
        // d(259) is c(455), and goes to burst 4n+7, e(17).
        let mut d = vec![0; 260];
        let without = sent_and_ended(&[d.clone(), d.clone()]);
        d[259] = 1;
        let with = sent_and_ended(&[vec![0; 260], d]);
        for burst in 0..12 {
            for k in 0..116 {
                let differs = with[burst][k] != without[burst][k];
                assert_eq!(differs, (burst, k) == (11, 17));
            }
        }
    }

    #[test]
    fn the_idle_halves_of_the_first_and_last_four_bursts_are_0() {
        for seed in 0..20 {
            for kinds in [0, 1] {
                // The first block is speech, or FACCH.
                let bursts = sent_and_ended(&blocks(seed, "sfsfsf")[kinds..]);
                let last = bursts.len() - 4;
                for e in &bursts[..4] {
                    assert_eq!((every_second(e, 1), e[57]), (vec![0; 57], 0));
                }
                for e in &bursts[last..] {
                    assert_eq!((every_second(e, 0), e[58]), (vec![0; 57], 0));
                }
            }
        }
    }

    #[test]
    fn flags_are_0_for_speech_and_1_for_facch() {
        let flags = |block: Vec<u8>| {
            let bursts = sent_and_ended(&[block]);
            let hl: Vec<u8> = bursts.iter().map(|e| e[57]).collect();
            let hu: Vec<u8> = bursts.iter().map(|e| e[58]).collect();
            (hl, hu)
        };
        assert_eq!(flags(vec![1; 260]), (vec![0; 8], vec![0; 8]));
        assert_eq!(
            flags(vec![1; 184]),
            (vec![0, 0, 0, 0, 1, 1, 1, 1], vec![1, 1, 1, 1, 0, 0, 0, 0])
        );
    }

    #[test]
    fn wrong_lengths_are_refused_first_and_bytes_over_1_next() {
        let mut sender = Sender::fresh();
        for length in [0, 1, 183, 185, 259, 261, 444, 456] {
            assert_eq!(
                sender.send(&vec![2; length], 464),
                Err(WrongLength),
                "{}",
                length
            );
        }
        for length in [184, 260] {
            for place in [0, length - 1] {
                let mut d = vec![1; length];
                d[place] = 2;
                assert_eq!(sender.send(&d, 464), Err(NotABit), "{}", length);
            }
        }
        assert_eq!(sender.blocks, 0);
    }

    #[test]
    fn another_length_lent_is_refused_first() {
        for mut sender in [Sender::fresh(), after(1)] {
            for lent in [0, 1, 116, 260, 456, 463, 465, 600] {
                for d in [[0; 260], [2; 260]] {
                    assert_eq!(sender.send(&d, lent), Err(WrongLength));
                }
                assert_eq!(sender.end(lent), Err(WrongLength));
            }
        }
        let mut ended = after(1);
        assert!(ended.end(464).is_ok());
        assert_eq!(ended.send(&[0; 260], 463), Err(WrongLength));
        assert_eq!(ended.end(463), Err(WrongLength));
    }

    #[test]
    fn end_needs_a_block() {
        let mut sender = Sender::fresh();
        assert_eq!(sender.end(464), Err(NothingSent));
        assert_eq!(sender.end(464), Err(NothingSent));
        assert!(sender.send(&[1; 184], 464).is_ok());
        assert!(sender.end(464).is_ok());
    }

    #[test]
    fn after_end_1_and_2_come_before_7() {
        let mut sender = after(1);
        assert!(sender.end(464).is_ok());
        assert_eq!(sender.send(&[2; 183], 464), Err(WrongLength));
        assert_eq!(sender.send(&[2; 184], 464), Err(NotABit));
        assert_eq!(sender.send(&[0; 184], 464), Err(Ended));
        assert_eq!(sender.send(&[0; 260], 464), Err(Ended));
        assert_eq!(sender.end(464), Err(Ended));
    }

    #[test]
    fn refused_calls_leave_the_stream() {
        let blocks = blocks(63, "sfsf");
        let mut sender = Sender::fresh();
        let mut written = Vec::new();
        assert_eq!(sender.end(464), Err(NothingSent));
        for d in &blocks {
            assert_eq!(sender.send(&d[1..], 464), Err(WrongLength));
            assert_eq!(sender.send(d, 465), Err(WrongLength));
            assert_eq!(sender.end(0), Err(WrongLength));
            assert_eq!(sender.send(&[9; 260], 464), Err(NotABit));
            written.extend(sender.send(d, 464).unwrap());
        }
        written.extend(sender.end(464).unwrap());
        assert_eq!(written, sent_and_ended(&blocks).concat());
    }

    #[test]
    fn the_16383rd_block_is_sent_and_the_next_gets_5() {
        let mut sender = after(16_382);
        assert!(sender.send(&[1; 184], 464).is_ok());
        assert_eq!(sender.send(&[1; 184], 464), Err(StreamFull));
        assert_eq!(sender.send(&[0; 260], 464), Err(StreamFull));
        assert_eq!(sender.send(&[2; 260], 464), Err(NotABit));
        assert_eq!(sender.send(&[], 464), Err(WrongLength));
        // End is allowed at 16,383 blocks; then 7 comes before 5.
        assert_eq!(sender.end(464).unwrap().len(), 464);
        assert_eq!(sender.bursts.len(), 65_536);
        assert_eq!(sender.send(&[0; 260], 464), Err(Ended));
        assert_eq!(sender.end(464), Err(Ended));
    }
}
