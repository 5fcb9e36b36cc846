//! A lesson: a stream of blocks on its way from a sender through the cable to a receiver, and the
//! kit lines that this takes.

use crate::chance::cable::{self, Cable};
use crate::chance::lists;
use crate::chance::random::Random;
use crate::makers::fields::{good_bits, number_of};
use crate::model::burst::BURST;
use crate::model::kind::Kind;
use crate::model::sending_stream::sent_and_ended;
use crate::text::{bits, characters};

/// So many numbers there are for bursts.
const NUMBERS: usize = 65_536;

/// A stream, and how far it has come.
pub struct Lesson {
    /// The information bits of its blocks, as characters.
    blocks: Vec<Vec<u8>>,
    /// Its bursts as they come out of the cable.
    bursts: Vec<Vec<u8>>,
    /// The number of blocks sent.
    pub sent: usize,
    pub ended: bool,
    /// The number of bursts taken.
    taken: usize,
}

/// The information bits of a block, as characters; one in so many is FACCH.
pub fn block(random: &mut Random, one_in: usize) -> Vec<u8> {
    let kind = if random.one_in(one_in) {
        Kind::Facch
    } else {
        Kind::Speech
    };
    good_bits(random, kind.channel().reads)
}

/// The bursts that our sender makes of blocks and of the end.
pub fn sent_bursts(blocks: &[Vec<u8>]) -> Vec<Vec<u8>> {
    let blocks: Vec<Vec<u8>> = blocks.iter().map(|block| bits(block)).collect();
    sent_and_ended(&blocks)
}

/// The line that sends characters.
pub fn send(d: &[u8]) -> Vec<u8> {
    [b"send ", d].concat()
}

/// The line that takes characters under a number.
pub fn take(number: &[u8], e: &[u8]) -> Vec<u8> {
    [b"take ", number, b" ", e].concat()
}

/// The same with the number in one to five digits.
pub fn take_numbered(random: &mut Random, number: usize, e: &[u8]) -> Vec<u8> {
    take(&number_of(random, number), e)
}

impl Lesson {
    /// A stream of so many random blocks, not begun.
    pub fn new(random: &mut Random, number: usize) -> Lesson {
        let blocks = (0..number).map(|_| block(random, 3)).collect();
        Lesson::of(random, blocks, cable::lesson)
    }

    /// A stream of these blocks, in characters, not begun; its bursts go through this cable.
    pub fn of(random: &mut Random, blocks: Vec<Vec<u8>>, cable: Cable) -> Lesson {
        let mut bursts = sent_bursts(&blocks);
        cable(random, &mut bursts);
        Lesson {
            blocks,
            bursts,
            sent: 0,
            ended: false,
            taken: 0,
        }
    }

    /// The number of the burst that is next.
    pub fn next_number(&self) -> usize {
        self.taken % NUMBERS
    }

    /// Some burst in characters: mostly the next one, else the one before it or what no one sent.
    pub fn some_burst(&self, random: &mut Random) -> Vec<u8> {
        let which = match random.below(4) {
            0 => self.taken.saturating_sub(1),
            _ => self.taken,
        };
        match self.bursts.get(which) {
            Some(e) => characters(e),
            None => good_bits(random, BURST),
        }
    }

    /// All blocks are sent.
    pub fn all_sent(&self) -> bool {
        self.sent == self.blocks.len()
    }

    /// A burst is sent that is not yet taken.
    pub fn has_burst(&self) -> bool {
        let written = 4 * self.sent + if self.ended { 4 } else { 0 };
        self.taken < written
    }

    /// Sends the next block.
    pub fn send_next(&mut self) -> Vec<u8> {
        self.sent += 1;
        send(&self.blocks[self.sent - 1])
    }

    /// Ends the stream.
    pub fn end(&mut self) -> Vec<u8> {
        self.ended = true;
        b"end".to_vec()
    }

    /// Takes the next burst.
    pub fn take_next(&mut self, random: &mut Random) -> Vec<u8> {
        let e = characters(&self.bursts[self.taken]);
        self.take_under_next(random, &e)
    }

    /// Takes a burst that no one sent, under the next number.
    pub fn take_unsent(&mut self, random: &mut Random) -> Vec<u8> {
        let e = lists::unsent(random, BURST);
        self.take_under_next(random, &characters(&e))
    }

    /// Takes characters under the next number.
    fn take_under_next(&mut self, random: &mut Random, e: &[u8]) -> Vec<u8> {
        let number = self.next_number();
        self.taken += 1;
        take_numbered(random, number, e)
    }
}

#[cfg(test)]
mod tests {
    use super::*;
    use crate::kit::answers;

    #[test]
    fn lines_have_their_fields() {
        assert_eq!(send(b"01"), b"send 01");
        assert_eq!(take(b"007", b"10"), b"take 007 10");
    }

    #[test]
    fn blocks_of_both_kinds_come() {
        let mut random = Random::new(77);
        let lengths: Vec<usize> = (0..200).map(|_| block(&mut random, 3).len()).collect();
        assert!(lengths.iter().filter(|&&length| length == 260).count() > 100);
        assert!(lengths.iter().filter(|&&length| length == 184).count() > 40);
    }

    #[test]
    fn the_bursts_are_those_that_the_kit_sends() {
        let mut random = Random::new(78);
        let blocks: Vec<Vec<u8>> = (0..5).map(|_| block(&mut random, 2)).collect();
        let mut lines: Vec<Vec<u8>> = blocks.iter().map(|d| send(d)).collect();
        lines.push(b"end".to_vec());
        let sent = characters(&sent_bursts(&blocks).concat());
        assert_eq!(answers(&lines).concat().into_bytes(), sent);
    }

    #[test]
    fn a_lesson_sends_ends_and_takes_to_the_last_burst() {
        let mut random = Random::new(79);
        for number in 1..=5 {
            let mut lesson = Lesson::new(&mut random, number);
            let mut lines = Vec::new();
            while !lesson.all_sent() {
                lines.push(lesson.send_next());
            }
            lines.push(lesson.end());
            while lesson.has_burst() {
                lines.push(lesson.take_next(&mut random));
            }
            assert_eq!(lesson.taken, 4 * number + 4);
            lines.push(lesson.take_unsent(&mut random));
            let answers = answers(&lines);
            assert!(answers[..=number].iter().all(|answer| answer.len() == 464));
            let waiting = answers.iter().filter(|answer| *answer == "waiting").count();
            assert_eq!(waiting, 3 * number + 5);
        }
    }
}
