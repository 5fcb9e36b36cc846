//! For the tests of the makers: the blocks that lines take, and what is known of each of them.

use crate::kit::answers;
use crate::makers::sorts::{call, is_done};
use crate::model::bits::{ones, zeros};
use crate::model::burst::Interleaving::Diagonal;
use crate::model::channel::{Channel, CONTROL, NO_IDENTITY, SPEECH};
use crate::text::bits;
use std::cmp::Ordering;

/// A block whose last burst was taken.
pub struct Block {
    /// Its number in its stream.
    pub n: usize,
    /// Its coded bits as they were taken.
    pub c: Vec<u8>,
    /// Its flags as they were taken.
    pub flags: Vec<u8>,
    /// The information bits that the sender of the same kit sent under this number.
    pub sent: Option<Vec<u8>>,
    /// The parity is good as FACCH, and as speech.
    pub good: (bool, bool),
    /// The digit that the lent buffer was full of; nothing where none was lent.
    pub lent: Option<u8>,
    pub answer: String,
}

/// The parity of these coded bits is good on this channel.
fn is_good(channel: Channel, c: &[u8]) -> bool {
    channel.decode(NO_IDENTITY, c, channel.reads).is_ok()
}

/// The blocks of lines that a kit is given.
pub fn blocks(lines: &[Vec<u8>]) -> Vec<Block> {
    let mut blocks = Vec::new();
    let (mut sent, mut bursts) = (Vec::new(), Vec::new());
    for (line, answer) in lines.iter().zip(answers(lines)) {
        let (fields, lent) = call(line);
        match fields[..] {
            [b"fresh"] if lent.is_none() => {
                sent.clear();
                bursts.clear();
            }
            [b"send", d] if is_done(&answer) => sent.push(bits(d)),
            [b"take", _, e] if is_done(&answer) => {
                bursts.push(bits(e));
                if !answer.starts_with("waiting") {
                    blocks.push(last_block(&bursts, &sent, lent, answer));
                }
            }
            _ => {}
        }
    }
    blocks
}

/// The block that the last of these bursts ends.
fn last_block(bursts: &[Vec<u8>], sent: &[Vec<u8>], lent: Option<u8>, answer: String) -> Block {
    let n = (bursts.len() - 8) / 4;
    let c = Diagonal(n).bits(bursts);
    Block {
        n,
        flags: Diagonal(n).flags(bursts),
        sent: sent.get(n).cloned(),
        good: (is_good(CONTROL, &c), is_good(SPEECH, &c)),
        c,
        lent,
        answer,
    }
}

impl Block {
    /// How many of its flags are 1, and how many 0.
    pub fn votes(&self) -> (usize, usize) {
        (ones(&self.flags), zeros(&self.flags))
    }

    /// As many of its flags are 1 as are 0.
    pub fn ties(&self) -> bool {
        let (ones, zeros) = self.votes();
        ones == zeros
    }

    /// What the answer begins with, by the votes and the parities.
    fn words(&self) -> String {
        let (ones, zeros) = self.votes();
        let word = match (ones.cmp(&zeros), self.good) {
            (Ordering::Equal | Ordering::Greater, (true, _)) => "facch",
            (Ordering::Equal, (false, true)) | (Ordering::Less, (_, true)) => "speech",
            (Ordering::Equal, (false, false)) => "refused 9",
            _ => "refused 8",
        };
        format!("{} {} ", word, self.n)
    }

    /// It is answered by the votes of its flags and by its parities.
    pub fn is_answered_by_its_votes(&self) {
        let answer = format!("{} ", self.answer);
        assert!(answer.starts_with(&self.words()), "{}", answer);
    }
}
