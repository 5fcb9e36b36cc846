//! Kit lines that ask for the totals, rightly and wrongly in every way foreseen. They stand between
//! the lines of lessons, with lent buffers and without, whose streams they leave as they are.

use crate::chance::random::Random;
use crate::makers::{fields, lend_lines, lesson_lines};

/// The verb, and all of its line.
const TOTALS: &[u8] = b"totals";

/// So many lines: a lesson's lines, with fresh streams for each lesson, and questions between them.
pub fn lines(random: &mut Random, count: usize) -> Vec<Vec<u8>> {
    let mut lines = Vec::new();
    for line in lesson_lines::lessons(random, count) {
        while random.one_in(2) {
            lines.push(question(random));
        }
        lines.push(lend_lines::with_or_without(random, line));
    }
    lines.truncate(count);
    lines
}

/// One random question, without its newline; of forty, about thirty are answered by the totals.
fn question(random: &mut Random) -> Vec<u8> {
    match random.below(40) {
        0 => b"help totals".to_vec(),
        1..=4 => random.pick(&WRONG_LINES).to_vec(),
        5 | 6 => fields::changed_word(random, TOTALS),
        7 => with_argument(random),
        8 => lent(random),
        9 => long_line(random),
        _ => TOTALS.to_vec(),
    }
}

/// Lines that have an argument, another word or a buffer, or a space or a mark where none belongs.
const WRONG_LINES: [&[u8]; 25] = [
    b"totals ",
    b"totals  ",
    b" totals",
    b"totals 0",
    b"totals 0 0 0 0",
    b"totals totals",
    b"totals fresh",
    b"totals take",
    b"fresh totals",
    b"Totals",
    b"total",
    b"totalss",
    b"to tals",
    b"totals?",
    b"totals? ",
    b"?totals",
    b"`totals`",
    b"totals\t",
    b"totals\0",
    b"totals\r",
    b"help totals ",
    b"help totals?",
    b"why totals",
    b"lend 260 7 totals",
    b"lend 0 7 totals",
];

/// The question with an argument, though it has none: a number, bits, a verb, or nothing at all.
fn with_argument(random: &mut Random) -> Vec<u8> {
    let argument = match random.below(5) {
        0 => Vec::new(),
        1 => {
            let number = random.below(65_536);
            fields::number_of(random, number)
        }
        2 => fields::no_number(random),
        3 => fields::any_bits(random, 116),
        _ => random.pick(&[&b"end"[..], b"speech", b"facch"]).to_vec(),
    };
    [TOTALS, &argument].join(&b' ')
}

/// The question with a buffer, though it writes none.
fn lent(random: &mut Random) -> Vec<u8> {
    let length = random.pick(&[0, 1, 4, 7, 184, 260, 464, 600]);
    lend_lines::lent(random, length, TOTALS)
}

/// A line at the limit of 1,000 bytes or over it: the question drawn out, or over and over.
fn long_line(random: &mut Random) -> Vec<u8> {
    let length = fields::long_length(random);
    let more = random.pick(&[&b" "[..], b"0", b"s", b" totals"]);
    let behind = more.iter().cycle();
    TOTALS.iter().chain(behind).copied().take(length).collect()
}

#[cfg(test)]
mod tests {
    use super::*;
    use crate::kit::{answer, answers};
    use crate::makers::sorts::{all_are, call, streams_are_left_by_the_refused, times};
    use crate::makers::{missing_lines, ties_lines};

    #[test]
    fn each_wrong_sort_is_wrong_as_meant() {
        for line in WRONG_LINES {
            assert_eq!(answer(line), "?", "{}", String::from_utf8_lossy(line));
        }
        let wrong_word = |random: &mut Random| fields::changed_word(random, TOTALS);
        all_are(161, 2000, wrong_word, "?");
        all_are(161, 1000, with_argument, "?");
        all_are(161, 500, lent, "?");
        all_are(161, 500, long_line, "?");
    }

    #[test]
    fn every_foreseen_line_is_made() {
        let lines = lines(&mut Random::new(162), 4000);
        for line in WRONG_LINES.into_iter().chain([&b"help totals"[..]]) {
            let made = lines.iter().filter(|made| *made == line).count();
            assert!(made > 1, "{}", String::from_utf8_lossy(line));
        }
    }

    #[test]
    fn lines_at_the_limit_are_made() {
        let mut random = Random::new(163);
        let lengths: Vec<usize> = (0..500).map(|_| long_line(&mut random).len()).collect();
        for length in [999, 1000, 1001] {
            assert!(lengths.iter().filter(|&&made| made == length).count() > 50);
        }
    }

    /// Four thousand lines, and the answers to them.
    fn answered(seed: u64) -> (Vec<Vec<u8>>, Vec<String>) {
        let lines = lines(&mut Random::new(seed), 4000);
        let answers = answers(&lines);
        (lines, answers)
    }

    /// The places of the lines that ask for the totals rightly.
    fn asked(lines: &[Vec<u8>]) -> Vec<usize> {
        (0..lines.len()).filter(|&k| lines[k] == TOTALS).collect()
    }

    /// The line is one that takes a burst, with a lent buffer or without.
    fn is_take(line: &[u8]) -> bool {
        call(line).0.first() == Some(&&b"take"[..])
    }

    /// What the printed answer to a take adds to the four totals; nothing if it brings no block.
    fn added(answer: &str) -> Option<[usize; 4]> {
        let words: Vec<&str> = answer.split(' ').collect();
        match words[..] {
            ["speech", _, count, _] => Some([1, 0, 0, count.parse().unwrap()]),
            ["facch", _, count, _] => Some([0, 1, 0, count.parse().unwrap()]),
            ["refused", "8" | "9", ..] => Some([0, 0, 1, 0]),
            _ => None,
        }
    }

    /// The four sums of two times four numbers.
    fn sum(one: [usize; 4], other: [usize; 4]) -> [usize; 4] {
        [0, 1, 2, 3].map(|k| one[k] + other[k])
    }

    /// Four numbers as they are printed.
    fn printed(totals: [usize; 4]) -> String {
        totals.map(|number| number.to_string()).join(" ")
    }

    /// Four numbers as they were before they were printed.
    fn numbers(answer: &str) -> [usize; 4] {
        let numbers = answer.split(' ').map(|number| number.parse().unwrap());
        numbers.collect::<Vec<usize>>().try_into().unwrap()
    }

    /// What is added up, after each line, from the answers printed for the takes since `fresh`.
    fn added_up(lines: &[Vec<u8>], answers: &[String]) -> Vec<[usize; 4]> {
        let mut totals = [0; 4];
        let mut after_each = Vec::new();
        for (line, answer) in lines.iter().zip(answers) {
            if line == b"fresh" {
                totals = [0; 4];
            } else if is_take(line) {
                totals = sum(totals, added(answer).unwrap_or_default());
            }
            after_each.push(totals);
        }
        after_each
    }

    /// Over so many questions are asked, and each is answered by what the printed answers add up to;
    /// each of the four numbers is not 0 in a sixth of them.
    fn are_added_up(lines: &[Vec<u8>], answers: &[String], least: usize) {
        let expected = added_up(lines, answers);
        let asked = asked(lines);
        assert!(asked.len() > least, "{}", asked.len());
        for &k in &asked {
            assert_eq!(answers[k], printed(expected[k]), "line {}", k);
        }
        for place in 0..4 {
            let not_0 = asked.iter().filter(|&&k| expected[k][place] > 0);
            assert!(not_0.count() > least / 6, "number {}", place);
        }
    }

    #[test]
    fn the_totals_are_what_the_printed_answers_add_up_to() {
        for seed in 164..168 {
            let (lines, answers) = answered(seed);
            are_added_up(&lines, &answers, 1200);
        }
    }

    #[test]
    fn the_totals_of_ties_and_of_missing_bits_are_what_the_printed_answers_add_up_to() {
        for lines in [ties_lines::lines, missing_lines::lines] {
            let lines = lines(&mut Random::new(196), 4000);
            are_added_up(&lines, &answers(&lines), 200);
        }
    }

    #[test]
    fn a_block_changes_the_totals_by_what_it_adds() {
        let (lines, answers) = answered(168);
        let brings_block = |k: &usize| is_take(&lines[*k]) && added(&answers[*k]).is_some();
        let mut blocks = Vec::new();
        for two in asked(&lines).windows(2) {
            let between = two[0] + 1..two[1];
            if lines[between.clone()].contains(&b"fresh".to_vec()) {
                continue;
            }
            let (before, after) = (numbers(&answers[two[0]]), numbers(&answers[two[1]]));
            match between.filter(brings_block).collect::<Vec<usize>>()[..] {
                [] => assert_eq!(after, before),
                [k] => {
                    let more = added(&answers[k]).unwrap();
                    assert_eq!(after, sum(before, more), "line {}", k);
                    blocks.push(&answers[k]);
                }
                _ => {}
            }
        }
        for (words, least) in [
            ("speech ", 20),
            ("facch ", 10),
            ("refused 8 ", 20),
            ("refused 9 ", 5),
        ] {
            let number = blocks.iter().filter(|block| block.starts_with(words));
            assert!(number.count() >= least, "{}", words);
        }
    }

    #[test]
    fn the_totals_are_asked_for_after_every_answer() {
        let (lines, answers) = answered(169);
        let before: Vec<&String> = asked(&lines)
            .into_iter()
            .filter(|&k| k > 0)
            .map(|k| &answers[k - 1])
            .collect();
        for (words, least) in [
            ("waiting", 200),
            ("speech ", 10),
            ("facch ", 5),
            ("refused 1", 30),
            ("refused 2", 30),
            ("refused 4", 20),
            ("refused 6", 3),
            ("refused 7", 10),
            ("refused 8 ", 10),
            ("refused 9 ", 3),
            ("done ", 20),
            ("fresh", 5),
            ("?", 100),
            // Asked for twice, of streams without a block.
            ("0 0 0 0", 50),
        ] {
            let number = before.iter().filter(|answer| answer.starts_with(words));
            assert!(number.count() >= least, "{}", words);
        }
    }

    #[test]
    fn two_takes_of_five_are_followed_by_the_question() {
        let (lines, _) = answered(170);
        let takes = lines.windows(2).filter(|two| is_take(&two[0]));
        let asked: Vec<bool> = takes.map(|two| two[1] == TOTALS).collect();
        let hundredths = 100 * asked.iter().filter(|&&asked| asked).count() / asked.len();
        assert!((30..=50).contains(&hundredths), "{}", hundredths);
    }

    #[test]
    fn questions_leave_the_streams() {
        let (lines, with) = answered(171);
        let kept: Vec<usize> = (0..lines.len()).filter(|&k| lines[k] != TOTALS).collect();
        let others: Vec<Vec<u8>> = kept.iter().map(|&k| lines[k].clone()).collect();
        let expected: Vec<String> = kept.iter().map(|&k| with[k].clone()).collect();
        assert!(others.len() > 2000 && others.len() < 3000);
        assert_eq!(answers(&others), expected);
        // The totals are not changed either by what is refused or not understood.
        assert!(times(&with, "?") > 300);
        streams_are_left_by_the_refused(&lines, 2000);
    }

    #[test]
    fn the_number_of_lines_is_the_one_asked_for() {
        for count in [0, 1, 10, 333] {
            assert_eq!(lines(&mut Random::new(172), count).len(), count);
        }
    }
}
