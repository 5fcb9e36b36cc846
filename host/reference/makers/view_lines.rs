//! Random kit lines for the trellis view: more than half are valid.

use crate::chance::random::Random;
use crate::chance::{lists, losses};
use crate::makers::fields;
use crate::makers::request::Request;
use crate::model::coding::convolve;
use crate::text::characters;

/// One random view line, without its newline; of a hundred, seventy are views.
pub fn line(random: &mut Random) -> Vec<u8> {
    match random.below(100) {
        0..=65 => valid(random).line(),
        66..=69 => of_nothing(random),
        70..=79 => wrong_length(random),
        80..=86 => wrong_bits(random),
        87..=90 => both_wrong(random),
        91..=93 => wrong_fields(random),
        94..=95 => wrong_word(random),
        96..=97 => view_of(Vec::new()).long_line(random),
        _ => valid(random).garbled(random),
    }
}

/// The request to view these characters.
fn view_of(bits: Vec<u8>) -> Request {
    Request::of_received("trellis", bits)
}

/// A view of up to 228 pairs.
fn valid(random: &mut Random) -> Request {
    let t = pairs(random);
    view_of(characters(&received(random, t)))
}

/// The number of pairs: few, those of the blocks and their neighbours, or any up to 228.
fn pairs(random: &mut Random) -> usize {
    match random.below(10) {
        0..=2 => random.below(13),
        3 | 4 => 13 + random.below(30),
        5 | 6 => random.pick(&[17, 18, 19, 38, 39, 40, 188, 189, 190, 227, 228, 228]),
        _ => random.below(229),
    }
}

/// The bits of t pairs: random, altered, midway, nearly equal, or a pattern; now and then some of
/// them are missing.
fn received(random: &mut Random, t: usize) -> Vec<u8> {
    let mut list = convolve(&lists::random_bits(random, t));
    match random.below(10) {
        0..=2 => list = lists::random_bits(random, 2 * t),
        3 => list = lists::few_turned(random, 2 * t),
        4 => list = lists::pattern(random, 2 * t),
        5 => lists::move_midway(random, &mut list, t),
        _ => {
            let number = random.pick(&[0, 1, 2, 3, 5, 8, 13, 20]);
            lists::alter(random, &mut list, number);
        }
    }
    if random.one_in(4) {
        losses::lose_some(random, &mut list);
    }
    list
}

/// A view of bits of which some are missing, where there is a pair at all.
pub fn with_missing(random: &mut Random) -> Vec<u8> {
    let mut request = valid(random);
    request.lose_some(random);
    request.line()
}

/// The view of nothing, with an empty argument or with none.
fn of_nothing(random: &mut Random) -> Vec<u8> {
    random.pick(&[&b"trellis"[..], b"trellis "]).to_vec()
}

/// An odd length, or one over 456; the line has room for 992.
fn another_length(random: &mut Random) -> usize {
    match random.below(6) {
        0 => random.pick(&[1, 3, 455, 457]),
        1 => random.pick(&[458, 460, 464, 512, 912]),
        2 => 457 + random.below(536),
        _ => 2 * random.below(228) + 1,
    }
}

/// The bits of a valid request, cut short or drawn out to a wrong length.
fn in_wrong_number(random: &mut Random) -> Request {
    let length = another_length(random);
    let mut request = valid(random);
    fields::fit(random, &mut request.bits, length);
    request
}

/// Refusal 1: an odd length, or one over 456.
fn wrong_length(random: &mut Random) -> Vec<u8> {
    in_wrong_number(random).line()
}

/// Refusal 2: wrong characters among one pair or more.
fn wrong_bits(random: &mut Random) -> Vec<u8> {
    let mut request = valid(random);
    if request.bits.is_empty() {
        request.bits = b"01".to_vec();
    }
    request.wrong_bits(random)
}

/// Refusal 1 before 2: the length and some characters are wrong.
fn both_wrong(random: &mut Random) -> Vec<u8> {
    in_wrong_number(random).wrong_bits(random)
}

/// Two or more arguments, or spaces where none belong.
fn wrong_fields(random: &mut Random) -> Vec<u8> {
    let request = valid(random);
    let line = request.line();
    match random.below(7) {
        0 => [b" ", &line[..]].concat(),
        1 => [&line[..], b" "].concat(),
        2 => [&line[..], b" ", &request.bits[..]].concat(),
        3 => [b"trellis 0 ", &request.bits[..]].concat(),
        4 => [b"trellis\t", &request.bits[..]].concat(),
        5 => b"trellis  ".to_vec(),
        _ => fields::double_space(random, &line),
    }
}

/// An unknown word before good bits.
fn wrong_word(random: &mut Random) -> Vec<u8> {
    const UNKNOWN: [&[u8]; 6] = [b"trellis?", b"view", b"viterbi", b"", b"?trellis", b"t"];
    valid(random).wrong_word(random, &UNKNOWN)
}

#[cfg(test)]
mod tests {
    use super::*;
    use crate::kit::answer;
    use crate::makers::each;
    use crate::makers::sorts::{all_are, answers};

    /// The answer gives sixteen numbers.
    fn is_view(answer: &str) -> bool {
        answer.split(' ').count() == 16
    }

    #[test]
    fn each_wrong_sort_is_wrong_as_meant() {
        all_are(48, 1000, wrong_length, "refused 1");
        all_are(48, 1000, wrong_bits, "refused 2");
        all_are(48, 1000, both_wrong, "refused 1");
        all_are(48, 1000, wrong_word, "?");
        all_are(48, 1000, wrong_fields, "?");
    }

    #[test]
    fn valid_requests_are_viewed() {
        let views = answers(49, 100, |random| valid(random).line());
        assert!(views.iter().all(|answer| is_view(answer)));
        let views = answers(49, 100, of_nothing);
        assert!(views.iter().all(|answer| is_view(answer)));
    }

    #[test]
    fn missing_bits_are_viewed() {
        let lines = each(&mut Random::new(228), 200, with_missing);
        assert!(lines.iter().all(|line| is_view(&answer(line))));
        let lossy = |line: &&Vec<u8>| line.contains(&b'2');
        assert!(lines.iter().filter(lossy).count() > 180);
        let lines = each(&mut Random::new(229), 400, |random| valid(random).line());
        let number = lines.iter().filter(lossy).count();
        assert!((60..=140).contains(&number), "{}", number);
    }

    #[test]
    fn every_number_of_pairs_comes() {
        let mut random = Random::new(50);
        let mut seen = [false; 229];
        for _ in 0..20_000 {
            seen[pairs(&mut random)] = true;
        }
        assert_eq!(seen, [true; 229]);
    }

    #[test]
    fn more_than_half_of_the_lines_are_views() {
        let answers = answers(52, 200, line);
        assert!(answers.iter().filter(|answer| is_view(answer)).count() > 120);
    }
}
