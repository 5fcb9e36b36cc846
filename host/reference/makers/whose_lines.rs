//! Kit lines that ask whose a burst was: bursts as they were sent, altered or with missing bits, and
//! noise. Behind some of them the same bits are received, under the identity named and under others.
//! Between them stand lines that are wrong in every way foreseen.

use crate::chance::random::Random;
use crate::chance::{lists, losses};
use crate::makers::request::Request;
use crate::makers::{fields, lend_lines, received_lines};
use crate::model::channel::ACCESS;
use crate::model::whose::whose;
use crate::text::characters;

/// So many lines, each of them by itself or with those that receive the same bits.
pub fn lines(random: &mut Random, count: usize) -> Vec<Vec<u8>> {
    let mut lines = Vec::new();
    while lines.len() < count {
        if random.one_in(8) {
            lines.extend(asked_and_received(random));
        } else {
            lines.push(line(random));
        }
    }
    lines.truncate(count);
    lines
}

/// One random line, without its newline; of a hundred, 75 are answered by a name.
fn line(random: &mut Random) -> Vec<u8> {
    match random.below(100) {
        0..=74 => any(random).line(),
        75..=78 => any(random).wrong_length(random, received_lines::change_length),
        79..=82 => any(random).wrong_bits(random),
        83..=85 => any(random).several_wrong(random, received_lines::change_length),
        86..=89 => any(random).wrong_word(random, &UNKNOWN),
        90..=93 => any(random).wrong_fields(random, b"access? "),
        94..=96 => lent(random),
        97 => any(random).long_line(random),
        _ => any(random).garbled(random),
    }
}

/// The question whose burst these bits are.
fn question(e: &[u8]) -> Request {
    Request::of_received("whose", characters(e))
}

/// A question that will be answered by a name.
fn any(random: &mut Random) -> Request {
    let sender = random.below(64);
    question(&received(random, sender))
}

/// 36 bits as they may be received from a sender, or though no one sent them.
pub fn received(random: &mut Random, sender: usize) -> Vec<u8> {
    let mut e = received_lines::coded(random, &ACCESS, sender);
    match random.below(16) {
        0 | 1 => {}
        2..=4 => alter_few(random, &mut e),
        5..=7 => damage(random, &mut e),
        8 | 9 => alter_many(random, &mut e),
        10 | 11 => lose_many(random, &mut e),
        12 => lists::move_midway(random, &mut e, ACCESS.pairs),
        13 | 14 => e = lists::unsent(random, ACCESS.writes),
        _ => e = vec![random.below(3) as u8; ACCESS.writes],
    }
    e
}

/// Alters one to three bits.
pub fn alter_few(random: &mut Random, e: &mut [u8]) {
    let number = 1 + random.below(3);
    lists::alter(random, e, number);
}

/// Alters some bits and loses others, up to the weight that is borne.
pub fn damage(random: &mut Random, e: &mut [u8]) {
    let weight = 1 + random.below(6);
    losses::damage(random, e, weight);
}

/// Alters more bits than are always repaired.
fn alter_many(random: &mut Random, e: &mut [u8]) {
    let number = 4 + random.below(15);
    lists::alter(random, e, number);
}

/// Loses more bits than are always borne.
fn lose_many(random: &mut Random, e: &mut [u8]) {
    let number = 7 + random.below(30);
    lists::lose(random, e, number);
}

/// A question, and the same bits as they are received under the identity named, under one that
/// differs from it in one bit, and under any other.
fn asked_and_received(random: &mut Random) -> Vec<Vec<u8>> {
    let sender = random.below(64);
    let e = received(random, sender);
    let (named, _) = whose(&e).expect("36 bits name an identity");
    let named = named as usize;
    let neighbour = named ^ (1 << random.below(6));
    let other = (named + 1 + random.below(63)) % 64;
    let mut lines = vec![question(&e).line()];
    for identity in [named, neighbour, other] {
        let identity = fields::number_of(random, identity);
        let line = Request::receiving(&ACCESS, identity, characters(&e)).line();
        lines.push(lend_lines::with_or_without(random, line));
    }
    lines
}

/// Words that are nearly the verb, or that would ask the same.
const UNKNOWN: [&[u8]; 14] = [
    b"who",
    b"whos",
    b"whose?",
    b"?whose",
    b"whose ?",
    b"Whose",
    b"WHOSE",
    b"who's",
    b"whom",
    b"who se",
    b"whose:",
    b"which",
    b"identity",
    b"",
];

/// A question with a buffer, though it writes none.
fn lent(random: &mut Random) -> Vec<u8> {
    let line = any(random).line();
    let length = random.pick(&[0, 1, 8, 36, 260, 600]);
    lend_lines::lent(random, length, &line)
}

#[cfg(test)]
mod tests {
    use super::*;
    use crate::kit::answers;
    use crate::makers::sorts::{self, all_are, call, times};

    /// What becomes of a burst on its way.
    type Way = fn(&mut Random, &mut [u8]);

    /// The sender of so many bursts that came on a way, the identity that is named and the count.
    fn names(seed: u64, number: usize, way: Way) -> Vec<(usize, usize, usize)> {
        let mut random = Random::new(seed);
        let name = |k| {
            let mut e = received_lines::coded(&mut random, &ACCESS, k % 64);
            way(&mut random, &mut e);
            let (named, count) = whose(&e).unwrap();
            (k % 64, named as usize, count)
        };
        (0..number).map(name).collect()
    }

    #[test]
    fn bursts_within_what_is_borne_name_their_sender() {
        let as_sent: Way = |_, _| {};
        for (way, counts) in [(as_sent, 0..=0), (alter_few, 1..=3), (damage, 0..=3)] {
            let names = names(280, 320, way);
            assert!(names.iter().all(|(sender, named, _)| sender == named));
            assert!(names.iter().all(|(_, _, count)| counts.contains(count)));
            for expected in counts {
                let number = names.iter().filter(|name| name.2 == expected).count();
                assert!(number > 5, "{}: {}", expected, number);
            }
        }
    }

    #[test]
    fn bursts_beyond_it_name_their_sender_or_another() {
        let midway: Way = |random, e| lists::move_midway(random, e, ACCESS.pairs);
        for way in [alter_many, lose_many, midway] {
            let names = names(281, 320, way);
            let own = names.iter().filter(|(sender, named, _)| sender == named);
            let own = own.count();
            assert!((10..=300).contains(&own), "{}", own);
        }
    }

    #[test]
    fn each_wrong_sort_is_wrong_as_meant() {
        let wrong_length =
            |random: &mut Random| any(random).wrong_length(random, received_lines::change_length);
        let wrong_bits = |random: &mut Random| any(random).wrong_bits(random);
        let wrong_word = |random: &mut Random| any(random).wrong_word(random, &UNKNOWN);
        all_are(282, 1000, wrong_length, "refused 1");
        all_are(282, 1000, wrong_bits, "refused 2");
        all_are(282, 2000, wrong_word, "?");
        all_are(282, 500, lent, "?");
        let several = sorts::answers(283, 500, |random| {
            any(random).several_wrong(random, received_lines::change_length)
        });
        let (first, second) = (times(&several, "refused 1"), times(&several, "refused 2"));
        assert!(first > 300 && second > 80 && first + second == 500);
    }

    #[test]
    fn a_wrong_number_of_arguments_is_not_understood_unless_one_is_empty() {
        let wrong_fields = |random: &mut Random| any(random).wrong_fields(random, b"access? ");
        let wrong = sorts::answers(284, 500, wrong_fields);
        let empty = times(&wrong, "refused 1");
        assert!(empty > 50 && empty + times(&wrong, "?") == 500, "{}", empty);
    }

    #[test]
    fn lines_at_the_limit_are_refused_and_those_over_it_not_read() {
        let long = sorts::answers(285, 200, |random| any(random).long_line(random));
        for expected in ["refused 1", "?"] {
            assert!(times(&long, expected) > 50);
        }
    }

    /// The number that a field of digits is.
    fn number(field: &[u8]) -> usize {
        let digits = String::from_utf8(field.to_vec()).unwrap();
        digits.parse().unwrap()
    }

    #[test]
    fn the_same_bits_are_taken_under_the_identity_named_and_refused_under_the_others() {
        let mut random = Random::new(286);
        for _ in 0..200 {
            let lines = asked_and_received(&mut random);
            let answers = answers(&lines);
            let (named, count) = answers[0].split_once(' ').unwrap();
            let named: usize = named.parse().unwrap();
            for k in 1..4 {
                let (fields, _) = call(&lines[k]);
                assert_eq!(fields[2], call(&lines[0]).0[1]);
                let identity = number(fields[1]);
                assert_eq!(identity == named, k == 1);
                assert!(k != 2 || (identity ^ named).count_ones() == 1);
                let words: Vec<&str> = answers[k].split(' ').collect();
                match k {
                    1 => assert_eq!((words[0], words[1].len()), (count, 8)),
                    _ => assert_eq!(words[..3], ["refused", "8", count]),
                }
            }
        }
    }

    /// The line receives access bits, with a lent buffer or without.
    fn receives(line: &[u8]) -> bool {
        call(line).0.first() == Some(&&b"access?"[..])
    }

    #[test]
    fn both_answers_stand_in_one_text() {
        let lines = lines(&mut Random::new(287), 4000);
        let answers = answers(&lines);
        let received: Vec<usize> = (0..4000).filter(|&k| receives(&lines[k])).collect();
        let bad = received
            .iter()
            .filter(|&&k| answers[k].starts_with("refused 8 "));
        let lent = received.iter().filter(|&&k| lines[k].starts_with(b"lend "));
        let numbers = [received.len(), bad.count(), lent.count()];
        let least = [800, 500, 300];
        assert!((0..3).all(|k| numbers[k] > least[k]), "{:?}", numbers);
    }

    /// The answer begins with a number.
    fn is_name(answer: &str) -> bool {
        answer.starts_with(|character: char| character.is_ascii_digit())
    }

    #[test]
    fn more_than_half_of_the_lines_are_answered_by_a_name_and_each_identity_comes() {
        let lines = lines(&mut Random::new(288), 4000);
        let answers = answers(&lines);
        let names: Vec<&String> = (0..4000)
            .filter(|&k| lines[k].starts_with(b"whose ") && is_name(&answers[k]))
            .map(|k| &answers[k])
            .collect();
        assert!(names.len() > 2000, "{}", names.len());
        for identity in 0..64 {
            let words = format!("{} ", identity);
            let number = names.iter().filter(|name| name.starts_with(&words));
            assert!(number.count() > 10, "{}", identity);
        }
        for count in 0..=6 {
            let words = format!(" {}", count);
            let number = names.iter().filter(|name| name.ends_with(&words));
            assert!(number.count() > 20, "{}", count);
        }
        for (expected, least) in [("refused 1", 100), ("refused 2", 100), ("?", 200)] {
            assert!(times(&answers, expected) > least, "{}", expected);
        }
    }

    #[test]
    fn the_number_of_lines_is_the_one_asked_for() {
        for count in [0, 1, 10, 333] {
            assert_eq!(lines(&mut Random::new(289), count).len(), count);
        }
    }
}
