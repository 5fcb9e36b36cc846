//! Kit lines that ask for help: for each word and for each refusal, and wrongly in every way
//! foreseen. They stand between the lines of lessons, whose streams they leave as they are.

use crate::chance::random::Random;
use crate::handbook;
use crate::makers::{fields, lesson_lines};

/// So many lines: a lesson's lines, with fresh streams for each lesson, and questions between them.
pub fn lines(random: &mut Random, count: usize) -> Vec<Vec<u8>> {
    let mut lines = Vec::new();
    for line in lesson_lines::lessons(random, count) {
        while !random.one_in(3) {
            lines.push(question(random));
        }
        lines.push(line);
    }
    lines.truncate(count);
    lines
}

/// One random question, without its newline; of twenty, about ten are answered.
pub fn question(random: &mut Random) -> Vec<u8> {
    match random.below(20) {
        0 => b"help".to_vec(),
        1..=5 => help(&word(random)),
        6 | 7 => help(&wrong_word(random)),
        8..=12 => why(&number(random)),
        13 => why(&no_number(random)),
        14 => other_mark(random),
        15 => wrong_verb(random),
        16 | 17 => wrong_fields(random),
        18 => lent(random),
        _ => long_line(random),
    }
}

/// The question for a word.
fn help(word: &[u8]) -> Vec<u8> {
    [b"help ", word].concat()
}

/// The question for a refusal.
fn why(number: &[u8]) -> Vec<u8> {
    [b"why ", number].concat()
}

/// A question for any word or any refusal.
fn with_argument(random: &mut Random) -> Vec<u8> {
    if random.one_in(2) {
        help(&word(random))
    } else {
        why(&number(random))
    }
}

/// The word of any row.
fn word(random: &mut Random) -> Vec<u8> {
    let mut words = handbook::words();
    words.swap_remove(random.below(words.len())).into_bytes()
}

/// A word without its question mark.
fn stem(word: &[u8]) -> &[u8] {
    word.strip_suffix(b"?").unwrap_or(word)
}

/// The question for a word with a question mark more or less, which may have a row.
fn other_mark(random: &mut Random) -> Vec<u8> {
    let mut word = word(random);
    match word.last() {
        Some(b'?') => word.truncate(word.len() - 1),
        _ => word.push(b'?'),
    }
    help(&word)
}

/// What is no word, though it stands in the handbook or in an answer, or asks for help elsewhere.
const NO_WORDS: [&[u8]; 24] = [
    b"", b"?", b"D", b"ID", b"N", b"WORD", b"LINE", b"line", b"answer", b"facch", b"rach",
    b"refused", b"waiting", b"done", b"1", b"007", b"all", b"--help", b"`end`", b"end:", b"|",
    b"\0", b"\r", b"\xff",
];

/// What stands in no row: no word at all, or a word with a letter changed, added or missing.
fn wrong_word(random: &mut Random) -> Vec<u8> {
    let word = match random.below(4) {
        0 => random.pick(&NO_WORDS).to_vec(),
        _ => misspelt(random),
    };
    if handbook::help(&word).is_some() {
        // What became of one word is another one, as send without its first letter.
        [&word[..], b"x"].concat()
    } else {
        word
    }
}

/// A word with a letter changed, added or missing, in capitals, said twice or with wrong marks.
fn misspelt(random: &mut Random) -> Vec<u8> {
    let word = word(random);
    let (stem, mark) = word.split_at(stem(&word).len());
    let index = random.below(stem.len());
    let (before, behind) = word.split_at(index);
    match random.below(8) {
        0 => [before, &behind[1..]].concat(),
        1 => [before, &[random.any_byte()], behind].concat(),
        2 => word.to_ascii_uppercase(),
        3 => [&word[..], &word].concat(),
        4 => [&word[..], b"?"].concat(),
        5 => [b"?", stem].concat(),
        _ => [&fields::changed_word(random, stem)[..], mark].concat(),
    }
}

/// A number: mostly from 0 to 19, so that each refusal comes and what no refusal has between them,
/// else a higher one.
fn number(random: &mut Random) -> Vec<u8> {
    let low = random.below(20);
    let number = match random.below(8) {
        0 => random.pick(&[20, 99, 100, 255, 256, 65_534, 65_535]),
        // A refusal to one who counts in a single byte.
        1 => 256 * (1 + random.below(255)) + low,
        _ => low,
    };
    fields::number_of(random, number)
}

/// What is no number, some of it a refusal to one who counts in two bytes, or reads no further.
fn no_number(random: &mut Random) -> Vec<u8> {
    let low = random.below(20);
    let text = match random.below(8) {
        0 => (65_536 + low).to_string(),
        1 => format!("{:06}", low),
        2 => format!("{}x", low),
        3 => random.pick(&["N", "three", "refused", "?"]).to_string(),
        _ => return fields::no_number(random),
    };
    text.into_bytes()
}

/// A question whose first word is another one.
fn wrong_verb(random: &mut Random) -> Vec<u8> {
    let verb = random.pick(&[&b"help"[..], b"why"]);
    let verb = match random.below(3) {
        0 => [verb, b"?"].concat(),
        _ => fields::changed_word(random, verb),
    };
    match random.below(3) {
        0 => verb,
        1 => [&verb[..], &word(random)].join(&b' '),
        _ => [&verb[..], &number(random)].join(&b' '),
    }
}

/// An argument more or less, one of the other question, or a space too many.
fn wrong_fields(random: &mut Random) -> Vec<u8> {
    let line = with_argument(random);
    match random.below(11) {
        0 => [&line[..], b" "].concat(),
        1 => [b" ", &line[..]].concat(),
        2 => fields::double_space(random, &line),
        3 => [&line[..], b" ", &word(random)].concat(),
        4 => [&line[..], b" ", &number(random)].concat(),
        5 => [b"help ", &line[..]].concat(),
        6 => [b"why ", &line[..]].concat(),
        7 => help(&number(random)),
        8 => why(&word(random)),
        9 => random.pick(&[&b"why"[..], b"help  ", b" help"]).to_vec(),
        _ => line.iter().map(tab_for_space).collect(),
    }
}

/// A tab in the place of a space.
fn tab_for_space(&byte: &u8) -> u8 {
    match byte {
        b' ' => b'\t',
        _ => byte,
    }
}

/// A question with a buffer, though it writes none.
fn lent(random: &mut Random) -> Vec<u8> {
    let question = match random.below(3) {
        0 => b"help".to_vec(),
        _ => with_argument(random),
    };
    let length = random.pick(&[0, 1, 5, 36, 260, 464, 600]);
    let byte = random.below(10);
    [format!("lend {} {} ", length, byte).as_bytes(), &question].concat()
}

/// A line at the limit of 1,000 bytes or over it: a question drawn out, or over and over.
fn long_line(random: &mut Random) -> Vec<u8> {
    let mut line = with_argument(random);
    let length = fields::long_length(random);
    match random.below(4) {
        0 => line.resize(length, b' '),
        1 => line.resize(length, b'0'),
        2 => line.resize(length, b'?'),
        _ => {
            line.push(b' ');
            line = line.iter().copied().cycle().take(length).collect();
        }
    }
    line
}

#[cfg(test)]
mod tests {
    use super::*;
    use crate::kit::{answer, answers};
    use crate::makers::sorts::{self, all_are, all_pass, times};

    #[test]
    fn each_wrong_sort_is_wrong_as_meant() {
        let wrong_word = |random: &mut Random| help(&wrong_word(random));
        let no_number = |random: &mut Random| why(&no_number(random));
        all_are(140, 5000, wrong_word, "?");
        all_are(140, 2000, no_number, "?");
        all_are(140, 2000, wrong_verb, "?");
        all_are(140, 2000, wrong_fields, "?");
        all_are(140, 1000, lent, "?");
        all_are(140, 500, long_line, "?");
    }

    #[test]
    fn words_are_answered() {
        let help = |random: &mut Random| help(&word(random));
        all_pass(141, 500, help, |line| answer(line).contains(": "));
    }

    #[test]
    fn a_word_with_another_mark_may_have_a_row() {
        let answers = sorts::answers(142, 500, other_mark);
        let unknown = times(&answers, "?");
        assert!(unknown > 50 && unknown < 450, "{}", unknown);
    }

    #[test]
    fn every_row_and_every_refusal_is_asked_for() {
        let answers = answers(&lines(&mut Random::new(143), 4000));
        assert!(times(&answers, &handbook::words().join(" ")) > 50);
        for word in handbook::words() {
            let row = handbook::help(word.as_bytes()).unwrap();
            assert!(times(&answers, &row) > 10, "{}", word);
        }
        for refusal in (1..=10).chain(14..=17) {
            let words = handbook::why(refusal).unwrap();
            assert!(times(&answers, &words) > 10, "{}", refusal);
        }
        assert!(times(&answers, "?") > 500);
    }

    #[test]
    fn every_number_round_the_refusals_comes_and_the_highest() {
        let lines = lines(&mut Random::new(144), 16_000);
        for number in (0..=20).chain([255, 256, 65_535, 65_536]) {
            let line = why(number.to_string().as_bytes());
            assert!(lines.contains(&line), "{}", number);
        }
        for line in ["why 003", "why 00009", "why ", "why", "help "] {
            assert!(lines.contains(&line.as_bytes().to_vec()), "{}", line);
        }
    }

    #[test]
    fn lines_at_the_limit_are_made() {
        let mut random = Random::new(145);
        let lengths: Vec<usize> = (0..500).map(|_| long_line(&mut random).len()).collect();
        for length in [999, 1000, 1001] {
            assert!(lengths.iter().filter(|&&made| made == length).count() > 50);
        }
    }

    /// The line is a question, or begins like one.
    fn asks(line: &[u8]) -> bool {
        line.starts_with(b"help") || line.starts_with(b"why")
    }

    #[test]
    fn questions_leave_the_streams() {
        let lines = lines(&mut Random::new(146), 3000);
        let with = answers(&lines);
        let kept: Vec<usize> = (0..lines.len()).filter(|&k| !asks(&lines[k])).collect();
        let lessons: Vec<Vec<u8>> = kept.iter().map(|&k| lines[k].clone()).collect();
        let expected: Vec<String> = kept.iter().map(|&k| with[k].clone()).collect();
        assert!(lessons.len() > 1000 && lessons.len() < 2000);
        assert_eq!(answers(&lessons), expected);
        let blocks = with.iter().filter(|answer| answer.starts_with("speech "));
        assert!(blocks.count() > 20);
    }

    #[test]
    fn the_number_of_lines_is_the_one_asked_for() {
        for count in [0, 1, 10, 333] {
            assert_eq!(lines(&mut Random::new(147), count).len(), count);
        }
    }
}
