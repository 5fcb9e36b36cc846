//! A verb's line in its parts, and the ways in which it may be wrong.

use crate::chance::losses;
use crate::chance::random::Random;
use crate::makers::fields;
use crate::model::channel::Channel;
use crate::text;

/// A verb's word and its arguments.
pub struct Request {
    pub word: Vec<u8>,
    /// What stands before the bits: the identity for a channel that has one, the channel of a block
    /// that is marked, or the control bits of a frame.
    before: Option<Vec<u8>>,
    pub bits: Vec<u8>,
    /// What stands behind them: the block that is marked and its count.
    pub behind: Vec<Vec<u8>>,
    /// Digits that are refused among the bits.
    wrong_digits: &'static [u8],
}

impl Request {
    /// A verb that reads received bits alone.
    pub fn of_received(word: &str, bits: Vec<u8>) -> Request {
        Request {
            word: word.as_bytes().to_vec(),
            before: None,
            bits,
            behind: Vec::new(),
            wrong_digits: fields::WRONG_WHERE_RECEIVED,
        }
    }

    /// A block and its count to be marked for the received bits of a channel.
    pub fn marking(channel: &Channel, bits: Vec<u8>, u: Vec<u8>, count: Vec<u8>) -> Request {
        Request {
            before: Some(channel.name.as_bytes().to_vec()),
            behind: vec![u, count],
            ..Request::of_received("mark", bits)
        }
    }

    /// A frame to be written, of control bits and of speech.
    pub fn framing(c: Vec<u8>, bits: Vec<u8>) -> Request {
        Request {
            before: Some(c),
            wrong_digits: fields::WRONG_WHERE_SENT,
            ..Request::of_received("frame", bits)
        }
    }

    /// A block to be received; the identity is left out where the channel has none.
    pub fn receiving(channel: &Channel, identity: Vec<u8>, bits: Vec<u8>) -> Request {
        Request {
            before: channel.has_identity.then_some(identity),
            ..Request::of_received(&format!("{}?", channel.name), bits)
        }
    }

    /// A block to be sent.
    pub fn sending(channel: &Channel, identity: Vec<u8>, bits: Vec<u8>) -> Request {
        Request {
            word: channel.name.as_bytes().to_vec(),
            wrong_digits: fields::WRONG_WHERE_SENT,
            ..Request::receiving(channel, identity, bits)
        }
    }

    /// The same with something else before the bits; nothing changes where nothing stands there.
    pub fn set_before(&mut self, other: Vec<u8>) {
        self.before = self.before.take().map(|_| other);
    }

    /// The arguments in their order.
    pub fn arguments(&self) -> Vec<&[u8]> {
        let in_order = self.before.iter().chain(Some(&self.bits));
        let in_order = in_order.chain(&self.behind);
        in_order.map(|argument| &argument[..]).collect()
    }

    /// The line with another word in place of its own.
    pub fn line_with(&self, word: &[u8]) -> Vec<u8> {
        let mut fields = vec![word];
        fields.extend(self.arguments());
        fields.join(&b' ')
    }

    /// The line: the word and the arguments, parted by single spaces.
    pub fn line(&self) -> Vec<u8> {
        self.line_with(&self.word)
    }

    /// Refusal 1: another number of bits.
    pub fn wrong_length(mut self, random: &mut Random, change_length: ChangeLength) -> Vec<u8> {
        change_length(random, &mut self);
        self.line()
    }

    /// Loses some of the bits, which are missing then.
    pub fn lose_some(&mut self, random: &mut Random) {
        let mut bits = text::bits(&self.bits);
        losses::lose_some(random, &mut bits);
        self.bits = text::characters(&bits);
    }

    /// Puts wrong characters among the bits.
    pub fn spoil(&mut self, random: &mut Random) {
        fields::spoil(random, &mut self.bits, self.wrong_digits);
    }

    /// Refusal 2: wrong characters among the bits.
    pub fn wrong_bits(mut self, random: &mut Random) -> Vec<u8> {
        self.spoil(random);
        self.line()
    }

    /// Refusal 3: an identity over 63.
    pub fn high_identity(mut self, random: &mut Random) -> Vec<u8> {
        self.set_before(fields::high_identity(random));
        self.line()
    }

    /// Two or three things wrong at once, so that the order of the refusals shows.
    pub fn several_wrong(mut self, random: &mut Random, change_length: ChangeLength) -> Vec<u8> {
        let right_part = random.below(4);
        if right_part != 1 {
            change_length(random, &mut self);
        }
        if right_part != 2 {
            self.spoil(random);
        }
        if right_part != 3 {
            self.set_before(fields::high_identity(random));
        }
        self.line()
    }

    /// A bad number for the identity; the bits are right, wrong or too many.
    pub fn bad_number(mut self, random: &mut Random) -> Vec<u8> {
        self.set_before(fields::no_number(random));
        match random.below(6) {
            0 => self.spoil(random),
            1 => self.bits.push(b'0'),
            _ => {}
        }
        self.line()
    }

    /// One of these words in the place of its own, or its own changed.
    pub fn wrong_word(self, random: &mut Random, unknown: &[&[u8]]) -> Vec<u8> {
        let word = if random.one_in(2) {
            random.pick(unknown).to_vec()
        } else {
            fields::changed_word(random, &self.word)
        };
        self.line_with(&word)
    }

    /// Too few or too many arguments, or spaces where none belong; `access` begins a line that
    /// wants an identity, or more than the bits.
    pub fn wrong_fields(self, random: &mut Random, access: &[u8]) -> Vec<u8> {
        let (word, line) = (&self.word[..], self.line());
        let identity = fields::good_identity(random);
        match random.below(11) {
            0 => word.to_vec(),
            1 => [word, b" "].concat(),
            2 => [&line[..], b" ", &self.bits].concat(),
            3 => [b" ", &line[..]].concat(),
            4 => [&line[..], b" "].concat(),
            5 => self.arguments().join(&b' '),
            6 => [word, b" ", &identity, b" ", &line[word.len() + 1..]].concat(),
            7 => [access, &self.bits].concat(),
            8 => [access, &identity, b" "].concat(),
            9 => [word, b"\t", &self.bits].concat(),
            _ => fields::double_space(random, &line),
        }
    }

    /// Bits enough for a line at the limit of 1,000 bytes or over it.
    pub fn long_line(mut self, random: &mut Random) -> Vec<u8> {
        let length = fields::long_length(random);
        self.draw_out(random, length);
        self.line()
    }

    /// Adds bits until the line has a length.
    pub fn draw_out(&mut self, random: &mut Random, length: usize) {
        let missing = length - self.line().len();
        self.bits.extend(fields::good_bits(random, missing));
    }

    /// Random bytes after the word, or one byte of the line changed.
    pub fn garbled(self, random: &mut Random) -> Vec<u8> {
        let line = self.line();
        if random.one_in(2) {
            let (kept, lost) = line.split_at(self.word.len() + 1);
            [kept, &fields::any_bytes(random, lost.len())].concat()
        } else {
            fields::one_byte_changed(random, line)
        }
    }
}

/// Gives a request another number of bits than its verb reads.
pub type ChangeLength = fn(&mut Random, &mut Request);

#[cfg(test)]
mod tests {
    use super::*;
    use crate::kit::answer;
    use crate::model::channel::{ACCESS, CHANNELS};

    #[test]
    fn lines_have_their_fields() {
        for channel in CHANNELS {
            let identity = if channel.has_identity { "007 " } else { "" };
            let request = Request::sending(&channel, b"007".to_vec(), b"01".to_vec());
            let line = format!("{} {}01", channel.name, identity);
            assert_eq!(request.line(), line.as_bytes());
            let request = Request::receiving(&channel, b"007".to_vec(), b"01".to_vec());
            let line = format!("{}? {}01", channel.name, identity);
            assert_eq!(request.line(), line.as_bytes());
            assert_eq!(request.line_with(b"x").split_at(2).0, b"x ");
        }
        let view = Request::of_received("trellis", b"11".to_vec());
        assert_eq!(view.line(), b"trellis 11");
        let [bits, u, count] = [b"01", b"10", b"07"].map(|field| field.to_vec());
        let marked = Request::marking(&ACCESS, bits, u, count);
        assert_eq!(marked.line(), b"mark access 01 10 07");
        let framed = Request::framing(b"10".to_vec(), b"01".to_vec());
        assert_eq!(framed.line(), b"frame 10 01");
    }

    #[test]
    fn a_2_is_wrong_where_it_is_sent_alone() {
        let mut random = Random::new(225);
        for _ in 0..200 {
            let bits = vec![b'1'; 8];
            let sent = Request::sending(&ACCESS, b"7".to_vec(), bits.clone());
            assert_eq!(answer(&sent.wrong_bits(&mut random)), "refused 2");
            let received = Request::receiving(&ACCESS, b"7".to_vec(), bits);
            assert!(!received.wrong_bits(&mut random).contains(&b'2'));
        }
    }

    #[test]
    fn another_identity_is_set_where_there_is_one() {
        for channel in CHANNELS {
            let mut request = Request::sending(&channel, b"7".to_vec(), b"01".to_vec());
            let before = request.line();
            request.set_before(b"64".to_vec());
            assert_eq!(request.line() != before, channel.has_identity);
        }
        let mut access = Request::sending(&ACCESS, b"7".to_vec(), b"01".to_vec());
        access.set_before(b"64".to_vec());
        assert_eq!(access.line(), b"access 64 01");
    }

    #[test]
    fn lines_are_drawn_out() {
        let mut random = Random::new(95);
        let mut request = Request::of_received("trellis", b"11".to_vec());
        request.draw_out(&mut random, 1000);
        assert_eq!(request.line().len(), 1000);
    }
}
