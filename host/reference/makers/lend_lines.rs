//! Kit lines that lend a buffer: lessons and blocks, each line of them with a buffer of the right
//! length or without one, and between them lines that are refused, or not understood, for what they
//! lend.

use crate::chance::random::Random;
use crate::makers::{fields, lesson_lines, received_lines, sent_lines, view_lines};
use crate::model::burst::FOUR_BURSTS;
use crate::model::channel::{self, ACCESS};
use crate::model::receiving_stream::LENT_TO_TAKE;

/// The most bytes that a line lends.
const MOST_LENT: usize = 600;

/// What the verbs write, and what else has a length.
const LENGTHS: [usize; 11] = [456, 464, 36, 78, 260, 184, 8, 25, 244, 116, 228];

/// So many lines: a lesson's lines, with fresh streams for each lesson, and others between them.
pub fn lines(random: &mut Random, count: usize) -> Vec<Vec<u8>> {
    let mut lines = Vec::new();
    for line in lesson_lines::lessons(random, count) {
        while random.one_in(2) {
            lines.push(between(random, &line));
        }
        lines.push(with_or_without(random, line));
    }
    lines.truncate(count);
    lines
}

/// A line that leaves the streams as they are: mostly the next line of the lesson, wrongly lent.
fn between(random: &mut Random, next: &[u8]) -> Vec<u8> {
    match random.below(20) {
        0..=6 => wrongly_lent(random, next),
        7..=9 => badly_lent(random, next),
        10..=13 => {
            let line = of_block(random);
            with_or_without(random, line)
        }
        14..=17 => {
            let line = of_block(random);
            wrongly_lent(random, &line)
        }
        18 => without_a_buffer(random),
        _ => long_line(random, next),
    }
}

/// A line of the verbs that call no stream; more of them than elsewhere have a high identity.
pub fn of_block(random: &mut Random) -> Vec<u8> {
    match random.below(20) {
        0 => sent_lines::high_identity(random),
        1 => received_lines::high_identity(random),
        2..=10 => sent_lines::line(random),
        _ => received_lines::line(random),
    }
}

/// How many bytes the verb of a line writes; nothing for other words.
fn writes(line: &[u8]) -> Option<usize> {
    let word = line.split(|&byte| byte == b' ').next().unwrap_or_default();
    match (word, word.strip_suffix(b"?")) {
        (b"send" | b"end", _) => Some(FOUR_BURSTS),
        (b"take", _) => Some(LENT_TO_TAKE),
        (b"hear", _) => Some(ACCESS.reads),
        (_, None) => channel::named(word).map(|channel| channel.writes),
        (_, Some(name)) => channel::named(name).map(|channel| channel.reads),
    }
}

/// The line with a buffer of this length and this digit.
fn lend(length: &[u8], byte: &[u8], line: &[u8]) -> Vec<u8> {
    [b"lend", length, byte, line].join(&b' ')
}

/// Any of the ten digits.
fn digit(random: &mut Random) -> Vec<u8> {
    vec![b'0' + random.below(10) as u8]
}

/// The line with a buffer of so many bytes.
pub fn lent(random: &mut Random, length: usize, line: &[u8]) -> Vec<u8> {
    let length = fields::number_of(random, length);
    lend(&length, &digit(random), line)
}

/// The line with a buffer of the right length, or without one; always so if it writes nothing.
pub fn with_or_without(random: &mut Random, line: Vec<u8>) -> Vec<u8> {
    match writes(&line) {
        Some(right) if !random.one_in(3) => lent(random, right, &line),
        _ => line,
    }
}

/// Refusal 1, before all others: a buffer of another length.
pub fn wrongly_lent(random: &mut Random, line: &[u8]) -> Vec<u8> {
    let right = writes(line).unwrap_or(0);
    let length = another_length(random, right);
    lent(random, length, line)
}

/// A length other than the right one.
fn another_length(random: &mut Random, right: usize) -> usize {
    let length = match random.below(10) {
        0 | 1 => right.saturating_sub(1),
        2 | 3 => right + 1,
        4 => 0,
        5 => 1,
        6 => random.pick(&LENGTHS),
        7 => MOST_LENT,
        // The right length to one who counts in a single byte.
        8 => (right + 256) % 512,
        _ => random.below(MOST_LENT + 1),
    };
    fields::other_than(right, length)
}

/// What no line lends: a buffer of over 600 bytes, a length that is no number, or no digit.
pub fn badly_lent(random: &mut Random, line: &[u8]) -> Vec<u8> {
    let right = writes(line).unwrap_or(0);
    // Never one digit, so that it cannot stand for the byte.
    let length = format!("{:03}", right).into_bytes();
    let byte = digit(random);
    match random.below(8) {
        0 => lend(&too_many(random, right), &byte, line),
        1 => lend(&fields::no_number(random), &byte, line),
        2 | 3 => lend(&length, &no_digit(random), line),
        4 => wrong_word(random, lend(&length, &byte, line)),
        _ => wrong_fields(random, &length, &byte, line),
    }
}

/// A number over 600, some of them the right one to those who count in one byte or in two.
fn too_many(random: &mut Random, right: usize) -> Vec<u8> {
    let length = match random.below(4) {
        0 => random.pick(&[601, 602, 999, 1000, 1001, 65_535]),
        1 => 256 * (3 + random.below(250)) + right % 256,
        2 => 65_536 + right,
        _ => MOST_LENT + 1 + random.below(65_535 - MOST_LENT),
    };
    length.to_string().into_bytes()
}

/// What is not exactly one digit.
fn no_digit(random: &mut Random) -> Vec<u8> {
    match random.below(4) {
        0 => Vec::new(),
        1 => (10 + random.below(90)).to_string().into_bytes(),
        2 => format!("{:02}", random.below(10)).into_bytes(),
        _ => vec![random.pick(b"abxOl/:-+.\0\r\t\x7f\x80\xb0\xff")],
    }
}

/// The line with another word in the place of `lend`.
fn wrong_word(random: &mut Random, line: Vec<u8>) -> Vec<u8> {
    let (lend, rest) = line.split_at(4);
    let word = match random.below(3) {
        0 => random.pick(&[&b"lend?"[..], b"lent", b"send"]).to_vec(),
        _ => fields::changed_word(random, lend),
    };
    [&word, rest].concat()
}

/// Something left out, said twice or in another order, or a space too many.
fn wrong_fields(random: &mut Random, length: &[u8], byte: &[u8], line: &[u8]) -> Vec<u8> {
    let whole = lend(length, byte, line);
    match random.below(8) {
        0 => [b"lend", length, line].join(&b' '),
        1 => [b"lend", byte, length, line].join(&b' '),
        2 => [b"lend", length, byte].join(&b' '),
        3 => lend(length, byte, b""),
        4 => lend(length, byte, &whole),
        5 => [b" ", &whole[..]].concat(),
        6 => [&whole[..], b" "].concat(),
        _ => fields::double_space(random, &whole),
    }
}

/// A buffer for a verb that writes none.
fn without_a_buffer(random: &mut Random) -> Vec<u8> {
    let line = match random.below(3) {
        0 => b"fresh".to_vec(),
        1 => b"trellis".to_vec(),
        _ => view_lines::line(random),
    };
    let length = random.pick(&[0, 1, 16, 260, 464, 600]);
    lent(random, length, &line)
}

/// A line at the limit of 1,000 bytes or over it, drawn out with bits.
fn long_line(random: &mut Random, next: &[u8]) -> Vec<u8> {
    let line = with_bits(random, next);
    let mut long = match random.below(3) {
        0 => wrongly_lent(random, &line),
        _ => lent(random, writes(&line).unwrap_or(0), &line),
    };
    let length = fields::long_length(random).max(long.len());
    long.resize(length, b'0');
    long
}

/// The line, or one whose last argument is bits if it is too long to be drawn out or has none.
fn with_bits(random: &mut Random, line: &[u8]) -> Vec<u8> {
    let verbs: [&[u8]; 4] = [b"send 1", b"take 0 1", b"access? 7 1", b"control 1"];
    match writes(line) {
        Some(_) if line.len() < 900 && line.contains(&b' ') => line.to_vec(),
        _ => random.pick(&verbs).to_vec(),
    }
}

#[cfg(test)]
mod tests {
    use super::*;
    use crate::kit::{answer, answers};
    use crate::makers::fields::good_bits;
    use crate::makers::request::Request;
    use crate::makers::sorts::{all_are, all_pass, streams_are_left_by_the_refused};
    use crate::model::channel::CHANNELS;

    /// A line of any verb that writes, with bits in the right number.
    fn good(random: &mut Random) -> Vec<u8> {
        match random.below(5) {
            0 => [b"send ", &good_bits(random, 184)[..]].concat(),
            1 => [b"take 0 ", &good_bits(random, 116)[..]].concat(),
            2 => b"end".to_vec(),
            _ => good_block(random),
        }
    }

    /// The same of a verb that calls no stream.
    fn good_block(random: &mut Random) -> Vec<u8> {
        let channel = random.pick(&CHANNELS);
        let identity = b"7".to_vec();
        if random.one_in(2) {
            let d = good_bits(random, channel.reads);
            Request::sending(&channel, identity, d).line()
        } else {
            let e = good_bits(random, channel.writes);
            Request::receiving(&channel, identity, e).line()
        }
    }

    /// The words of an answer without its numbers and bits, but with the number of a refusal.
    fn sort(answer: &str) -> String {
        let words: Vec<&str> = answer.split(' ').collect();
        match words.as_slice() {
            ["refused", number, ..] => format!("refused {}", number),
            [word, ..] if word.bytes().all(|byte| byte.is_ascii_digit()) => "bits".to_string(),
            [word, ..] => word.to_string(),
            [] => String::new(),
        }
    }

    /// The line lends a buffer.
    fn is_lent(line: &[u8]) -> bool {
        line.starts_with(b"lend ")
    }

    #[test]
    fn each_wrong_sort_is_wrong_as_meant() {
        let badly_lent = |random: &mut Random| {
            let line = good(random);
            badly_lent(random, &line)
        };
        all_are(96, 3000, badly_lent, "?");
        all_are(96, 1000, without_a_buffer, "?");
    }

    #[test]
    fn another_length_is_refused_and_the_buffer_is_left() {
        let wrongly_lent = |random: &mut Random| {
            let line = good(random);
            wrongly_lent(random, &line)
        };
        all_pass(97, 3000, wrongly_lent, |line| {
            let fields: Vec<&[u8]> = line.split(|&byte| byte == b' ').collect();
            let text = |field: &[u8]| String::from_utf8(field.to_vec()).unwrap();
            let length: usize = text(fields[1]).parse().unwrap();
            let buffer = match length {
                0 => "-".to_string(),
                _ => text(fields[2]).repeat(length),
            };
            answer(line) == format!("refused 1 {}", buffer)
        });
    }

    #[test]
    fn the_right_length_is_not_refused_for_it() {
        let rightly_lent = |random: &mut Random| {
            let line = good(random);
            with_or_without(random, line)
        };
        all_pass(98, 3000, rightly_lent, |line| {
            let answer = answer(line);
            answer != "?" && sort(&answer) != "refused 1"
        });
    }

    #[test]
    fn lines_at_the_limit_are_made() {
        let mut random = Random::new(99);
        let long: Vec<Vec<u8>> = (0..500)
            .map(|_| {
                let line = good(&mut random);
                long_line(&mut random, &line)
            })
            .collect();
        for length in [999, 1000, 1001] {
            assert!(long.iter().filter(|line| line.len() == length).count() > 50);
        }
        for (line, answer) in long.iter().zip(answers(&long)) {
            let expected = if line.len() > 1000 { "?" } else { "refused 1" };
            assert_eq!(sort(&answer), expected);
        }
    }

    #[test]
    fn every_answer_comes_with_a_lent_buffer_and_without() {
        let lines = lines(&mut Random::new(130), 4000);
        let answers = answers(&lines);
        let times = |with_buffer: bool, expected: &str| {
            (0..lines.len())
                .filter(|&k| is_lent(&lines[k]) == with_buffer && sort(&answers[k]) == expected)
                .count()
        };
        for expected in [
            "bits",
            "waiting",
            "speech",
            "facch",
            "refused 1",
            "refused 2",
            "refused 4",
            "refused 7",
            "refused 8",
            "refused 9",
            "?",
        ] {
            assert!(times(true, expected) >= 5, "{} with a buffer", expected);
            assert!(times(false, expected) >= 3, "{} without", expected);
        }
        assert!(times(true, "refused 3") >= 15 && times(true, "refused 6") >= 5);
        assert!(times(true, "refused 1") > 500);
        assert!(times(true, "done") > 200);
    }

    #[test]
    fn every_verb_and_every_digit_is_lent() {
        let lines = lines(&mut Random::new(131), 4000);
        let lent: Vec<&[u8]> = lines
            .iter()
            .filter(|line| is_lent(line))
            .map(|line| &line[..])
            .collect();
        let has = |words: &str| {
            let words = words.as_bytes();
            lent.iter()
                .any(|line| line.windows(words.len()).any(|part| part == words))
        };
        for channel in &CHANNELS {
            assert!(has(&format!(" {} ", channel.name)), "{}", channel.name);
            assert!(has(&format!(" {}? ", channel.name)), "{}?", channel.name);
        }
        for digit in 0..10 {
            assert!(has(&format!(" {} send ", digit)), "{}", digit);
            assert!(has(&format!(" {} take ", digit)), "{}", digit);
        }
        assert!(has(" end"));
    }

    /// The answer is a block of FACCH with 76 times this digit behind it.
    fn is_facch_before(answer: &str, digit: usize) -> bool {
        answer.starts_with("facch ") && answer.ends_with(&digit.to_string().repeat(76))
    }

    #[test]
    fn the_last_bytes_are_seen_behind_facch() {
        let lines = lines(&mut Random::new(132), 4000);
        let answers = answers(&lines);
        // No bits, so that they are seen to be left.
        let has_left = |digit| answers.iter().any(|answer| is_facch_before(answer, digit));
        assert!((2..10).filter(|&digit| has_left(digit)).count() >= 5);
    }

    #[test]
    fn refused_calls_leave_the_streams() {
        let lines = lines(&mut Random::new(133), 2000);
        streams_are_left_by_the_refused(&lines, 600);
    }

    #[test]
    fn the_number_of_lines_is_the_one_asked_for() {
        for count in [0, 1, 10, 333] {
            assert_eq!(lines(&mut Random::new(134), count).len(), count);
        }
    }
}
