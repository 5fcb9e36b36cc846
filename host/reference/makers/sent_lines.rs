//! Random kit lines that send: more than half are valid, the others are wrong in every way
//! foreseen.

use crate::chance::random::Random;
use crate::makers::fields;
use crate::makers::request::Request;
use crate::model::channel::{Channel, ACCESS, CHANNELS};

/// One random sending line, without its newline; of a hundred, sixty are valid.
pub fn line(random: &mut Random) -> Vec<u8> {
    match random.below(100) {
        0..=59 => any(random).line(),
        60..=66 => any(random).wrong_length(random, change_length),
        67..=71 => any(random).wrong_bits(random),
        72..=73 => with_missing(random),
        74..=77 => high_identity(random),
        78..=81 => valid(random, &ACCESS).bad_number(random),
        82..=86 => several_wrong(random),
        87..=89 => wrong_word(random),
        90..=93 => any(random).wrong_fields(random, b"access "),
        94..=95 => Vec::new(),
        96..=97 => long_line(random),
        _ => garbage(random),
    }
}

/// A request that will be sent.
pub fn valid(random: &mut Random, channel: &Channel) -> Request {
    let identity = fields::good_identity(random);
    let bits = fields::good_bits(random, channel.reads);
    Request::sending(channel, identity, bits)
}

/// A request of any channel that will be sent.
fn any(random: &mut Random) -> Request {
    let channel = random.pick(&CHANNELS);
    valid(random, &channel)
}

/// A length other than the right one.
fn another_length(random: &mut Random, right: usize) -> usize {
    let length = match random.below(8) {
        0 => right - 1,
        1 => right + 1,
        2 => 0,
        3 => random.pick(&CHANNELS).reads,
        // Lengths that blocks have once they are coded.
        4 => random.pick(&[36, 78, 116, 456, 464]),
        // The right length to one who counts in a single byte.
        5 => (right + 256) % 512,
        _ => random.below(601),
    };
    fields::other_than(right, length)
}

/// Other bits of another length.
pub fn change_length(random: &mut Random, request: &mut Request) {
    let length = another_length(random, request.bits.len());
    request.bits = fields::good_bits(random, length);
}

/// Refusal 2: bits of which some are missing, though nothing is missing of what is sent.
pub fn with_missing(random: &mut Random) -> Vec<u8> {
    let mut request = any(random);
    request.lose_some(random);
    request.line()
}

/// Refusal 3: an identity over 63.
pub fn high_identity(random: &mut Random) -> Vec<u8> {
    valid(random, &ACCESS).high_identity(random)
}

/// Two or three things wrong at once, in access requests more than in others.
fn several_wrong(random: &mut Random) -> Vec<u8> {
    let only_access = random.one_in(2);
    let request = if only_access {
        valid(random, &ACCESS)
    } else {
        any(random)
    };
    request.several_wrong(random, change_length)
}

/// An unknown word before good arguments.
fn wrong_word(random: &mut Random) -> Vec<u8> {
    const UNKNOWN: [&str; 8] = ["rach", "facch", "bcch", "help", "quit", "?", "refused", "0"];
    let request = any(random);
    let word = if random.one_in(4) {
        random.pick(&UNKNOWN).as_bytes().to_vec()
    } else {
        fields::changed_word(random, &request.word)
    };
    request.line_with(&word)
}

/// A line at the limit of 1,000 bytes, of some thousands, or rarely of over 65,536.
fn long_line(random: &mut Random) -> Vec<u8> {
    let mut request = any(random);
    let length = match random.below(24) {
        0..=4 => 999,
        5..=10 => 1000,
        11..=16 => 1001,
        17..=22 => 1002 + random.below(7000),
        // The valid line's length to one who counts in two bytes.
        _ => 65_536 + request.line().len(),
    };
    match random.below(8) {
        0 => vec![b' '; length],
        1 => fields::any_bytes(random, length),
        _ => {
            request.draw_out(random, length);
            if random.one_in(3) {
                request.spoil(random);
            }
            request.line()
        }
    }
}

/// Random bytes, random printable characters, or a valid line with one byte changed.
fn garbage(random: &mut Random) -> Vec<u8> {
    let longest = random.pick(&[40, 40, 40, 600]);
    let length = 1 + random.below(longest);
    match random.below(4) {
        0 | 1 => fields::any_bytes(random, length),
        2 => (0..length).map(|_| 32 + random.below(95) as u8).collect(),
        _ => {
            let line = any(random).line();
            fields::one_byte_changed(random, line)
        }
    }
}

#[cfg(test)]
mod tests {
    use super::*;
    use crate::makers::sorts::{all_are, answers, times};

    #[test]
    fn each_wrong_sort_is_wrong_as_meant() {
        let wrong_length = |random: &mut Random| any(random).wrong_length(random, change_length);
        let wrong_bits = |random: &mut Random| any(random).wrong_bits(random);
        let bad_number = |random: &mut Random| valid(random, &ACCESS).bad_number(random);
        all_are(9, 2000, wrong_length, "refused 1");
        all_are(9, 2000, wrong_bits, "refused 2");
        all_are(9, 2000, with_missing, "refused 2");
        all_are(9, 2000, high_identity, "refused 3");
        all_are(9, 2000, bad_number, "?");
        all_are(9, 2000, wrong_word, "?");
    }

    #[test]
    fn valid_requests_are_sent() {
        for answer in answers(10, 2000, |random| any(random).line()) {
            assert!(answer.bytes().all(|bit| bit == b'0' || bit == b'1'));
        }
    }

    #[test]
    fn several_wrong_are_refused_in_each_way() {
        let answers = answers(11, 2000, several_wrong);
        for refusal in ["refused 1", "refused 2"] {
            assert!(times(&answers, refusal) > 200);
        }
    }

    #[test]
    fn lines_at_the_limit_are_made() {
        let mut random = Random::new(13);
        let lengths: Vec<usize> = (0..500).map(|_| long_line(&mut random).len()).collect();
        for length in [999, 1000, 1001] {
            assert!(lengths.iter().filter(|&&made| made == length).count() > 50);
        }
        assert!(lengths.iter().any(|&made| made > 4000));
    }

    #[test]
    fn more_than_half_of_the_lines_are_sends() {
        let answers = answers(14, 2000, line);
        assert!(answers.iter().filter(|answer| answer.len() >= 36).count() > 1000);
    }
}
