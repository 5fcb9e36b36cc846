//! Kit lines as a text from Windows has them: a carriage return at the end of most of them, and a
//! byte order mark before the first. Between them either stands where it is part of the line.

use crate::chance::random::Random;
use crate::makers::{
    each, efr_lines, fields, help_lines, hub_lines, lend_lines, lesson_lines, mark_lines,
    missing_lines, received_lines, sent_lines, ties_lines, totals_lines, view_lines, whose_lines,
};
use crate::page::MARK;

/// So many lines: the first, then those of the other makers of kit lines and others between them.
pub fn lines(random: &mut Random, count: usize) -> Vec<Vec<u8>> {
    let mut lines = vec![first(random)];
    for line in of_other_makers(random, count) {
        while random.one_in(3) {
            lines.push(between(random, &line));
        }
        lines.push(ended(random, line));
    }
    lines.truncate(count);
    lines
}

/// Lines of the other makers, a few of each in turn, with fresh streams and a fresh hub for each.
fn of_other_makers(random: &mut Random, count: usize) -> Vec<Vec<u8>> {
    let mut lines = Vec::new();
    while lines.len() < count {
        let number = 1 + random.below(120);
        lines.extend(of_another_maker(random, number));
        lines.push(b"fresh".to_vec());
    }
    lines.truncate(count);
    for line in &mut lines {
        fields::end_otherwise(line);
    }
    lines
}

/// So many lines of one of the other makers.
fn of_another_maker(random: &mut Random, number: usize) -> Vec<Vec<u8>> {
    match random.below(17) {
        0..=4 => lesson_lines::lessons(random, number),
        5 => lend_lines::lines(random, number),
        6 => help_lines::lines(random, number),
        7 => totals_lines::lines(random, number),
        8 => ties_lines::lines(random, number),
        9 => missing_lines::lines(random, number),
        10 => each(random, number, sent_lines::line),
        11 => each(random, number, received_lines::line),
        12 => each(random, number, efr_lines::line),
        13 => whose_lines::lines(random, number),
        14 => each(random, number, mark_lines::line),
        15 => hub_lines::lines(random, number),
        _ => each(random, number, view_lines::line),
    }
}

/// The line, mostly with a carriage return at its end.
fn ended(random: &mut Random, line: Vec<u8>) -> Vec<u8> {
    if random.one_in(5) {
        line
    } else {
        [&line[..], b"\r"].concat()
    }
}

/// What stands before the first line where it is not a mark: nothing, a part of one, or more.
const BEFORE: [&[u8]; 14] = [
    b"",
    b"\xef",
    b"\xef\xbb",
    b"\xbb\xbf",
    b"\xbf",
    b"\xef\xbf\xbb",
    b"\xef\xbb\xbe",
    b"\xff\xfe",
    b"\xef\xbb\xbf\xef\xbb\xbf",
    b"\xef\xbb\xbf\xef\xbb\xbf",
    b"\xef\xbb\xbf\xef\xbb",
    b"\xef\xbb\xbf\r",
    b"\r\xef\xbb\xbf",
    b" \xef\xbb\xbf",
];

/// What stands at the end of the first line or of a long one.
const ENDS: [&[u8]; 4] = [b"", b"\r", b"\r", b"\r\r"];

/// The first line, mostly with a mark before it.
fn first(random: &mut Random) -> Vec<u8> {
    let before = if random.one_in(2) {
        random.pick(&BEFORE)
    } else {
        &MARK
    };
    let mut line = match random.below(8) {
        0 => Vec::new(),
        1 | 2 => b"fresh".to_vec(),
        3 => help_lines::question(random),
        4 | 5 => sent_lines::line(random),
        _ => return long_line(random, before),
    };
    fields::end_otherwise(&mut line);
    [before, &line, random.pick(&ENDS)].concat()
}

/// A line that is refused or not understood: mostly the next one, with a carriage return or a mark
/// that is part of it.
fn between(random: &mut Random, next: &[u8]) -> Vec<u8> {
    let line = match random.below(12) {
        0..=2 => return [next, b"\r\r"].concat(),
        3 => return [next, &vec![13; 3 + random.below(3)]].concat(),
        4 | 5 => with_inside(random, next, b"\r"),
        6 => [b"\r", next].concat(),
        7 => [&MARK, next].concat(),
        8 => with_inside(random, next, &MARK),
        9 => [next, &MARK].concat(),
        10 => [next, b"\r", next].concat(),
        _ => return long_line(random, b""),
    };
    ended(random, line)
}

/// The line with bytes before one of its own.
fn with_inside(random: &mut Random, line: &[u8], bytes: &[u8]) -> Vec<u8> {
    let (before, behind) = line.split_at(random.below(line.len().max(1)));
    [before, bytes, behind].concat()
}

/// Words that bits may follow, more than any verb reads.
const WORDS: [&[u8]; 9] = [
    b"send ",
    b"take 0 ",
    b"trellis ",
    b"speech? ",
    b"access 7 ",
    b"hear ",
    b"lend 464 7 send ",
    b"lend 8 7 access? 5 ",
    b"lend 8 7 hear ",
];

/// A line that, with what stands before it and at its end, has a length round the limit of 1,000
/// bytes.
fn long_line(random: &mut Random, before: &[u8]) -> Vec<u8> {
    let end = random.pick(&ENDS);
    let length = 998 + random.below(9);
    let mut line = [before, random.pick(&WORDS)].concat();
    line.resize(length - end.len(), b'0');
    [&line[..], end].concat()
}

#[cfg(test)]
mod tests {
    use super::*;
    use crate::kit::{self, Kit};
    use crate::page;

    /// The answers of a fresh kit to the text of these lines, each with its newline.
    fn answers(lines: &[Vec<u8>]) -> Vec<String> {
        let mut kit = Kit::fresh();
        let mut text = lines.join(&b'\n');
        text.push(b'\n');
        let page = page::answers_to_text(&text, |line| kit.answer(line));
        let page = String::from_utf8(page).unwrap();
        page.lines().map(String::from).collect()
    }

    /// The answer of a fresh kit to the only line of a text.
    fn answer(line: &[u8]) -> String {
        answers(&[line.to_vec()]).remove(0)
    }

    /// So many lines of one sort.
    fn made(seed: u64, number: usize, sort: fn(&mut Random) -> Vec<u8>) -> Vec<Vec<u8>> {
        each(&mut Random::new(seed), number, sort)
    }

    /// The part of the lines for which something holds is within these hundredths.
    fn are_in_hundred(lines: &[Vec<u8>], least: usize, most: usize, holds: fn(&[u8]) -> bool) {
        let number = lines.iter().filter(|line| holds(line)).count();
        let hundredths = 100 * number / lines.len();
        assert!((least..=most).contains(&hundredths), "{}", hundredths);
    }

    #[test]
    fn lines_are_read_as_the_other_makers_meant_them() {
        let mut random = Random::new(150);
        let plain = of_other_makers(&mut random, 3000);
        let lines: Vec<Vec<u8>> = plain
            .iter()
            .map(|line| ended(&mut random, line.clone()))
            .collect();
        assert_eq!(answers(&lines), kit::answers(&plain));
    }

    #[test]
    fn lines_between_are_refused_or_not_understood() {
        let mut random = Random::new(151);
        let plain = of_other_makers(&mut random, 3000);
        // A mark before the first line would be passed over.
        let mut lines = vec![b"fresh".to_vec()];
        lines.extend(plain.iter().map(|line| between(&mut random, line)));
        let expected = ["?", "refused 1", "refused 2"];
        for answer in &answers(&lines)[1..] {
            // A lent buffer may follow.
            let words: Vec<&str> = answer.split(' ').take(2).collect();
            assert!(expected.contains(&&words.join(" ")[..]), "{}", answer);
        }
    }

    #[test]
    fn most_lines_end_in_a_return_and_some_in_two() {
        let lines = lines(&mut Random::new(152), 4000);
        are_in_hundred(&lines, 70, 85, |line| line.ends_with(b"\r"));
        are_in_hundred(&lines, 5, 15, |line| line.ends_with(b"\r\r"));
        are_in_hundred(&lines, 1, 5, |line| line.starts_with(b"\r"));
        are_in_hundred(&lines, 1, 5, |line| line.starts_with(&MARK));
    }

    #[test]
    fn first_lines_mostly_begin_with_a_mark() {
        let lines = made(153, 2000, first);
        are_in_hundred(&lines, 55, 75, |line| line.starts_with(&MARK));
        for before in BEFORE {
            let with = lines.iter().filter(|line| line.starts_with(before));
            assert!(with.count() > 10, "{:?}", before);
        }
        for line in [&b""[..], b"\r", b"fresh\r", b"\xef\xbb", b"\xef\xbb\xbf"] {
            let marked = [&MARK, line].concat();
            assert!(lines.contains(&marked), "{:?}", line);
        }
    }

    #[test]
    fn first_lines_are_answered_in_each_way() {
        let lines = made(154, 2000, first);
        let answers: Vec<String> = lines.iter().map(|line| answer(line)).collect();
        for expected in ["0", "1", "fresh", "refused 1", "refused 2", "?"] {
            let number = answers.iter().filter(|answer| answer.starts_with(expected));
            assert!(number.count() > 10, "{}", expected);
        }
    }

    /// What remains of a line in a text that begins with it.
    fn remaining(line: &[u8]) -> usize {
        let line = line.strip_prefix(&MARK).unwrap_or(line);
        line.strip_suffix(b"\r").unwrap_or(line).len()
    }

    #[test]
    fn long_lines_are_read_where_no_more_than_the_limit_remains() {
        for before in [&b""[..], &MARK] {
            let mut random = Random::new(155);
            let lines = each(&mut random, 1000, |random| long_line(random, before));
            for length in 998..=1006 {
                let number = lines.iter().filter(|line| line.len() == length).count();
                assert!(number > 50, "{}", length);
            }
            for line in lines {
                let is_read = answer(&line).starts_with("refused 1");
                assert_eq!(is_read, remaining(&line) <= 1000, "{}", line.len());
            }
        }
    }

    #[test]
    fn lessons_go_on_between_the_others() {
        let answers = answers(&lines(&mut Random::new(156), 8000));
        for (expected, least) in [
            ("speech ", 15),
            ("facch ", 5),
            ("waiting", 200),
            ("done ", 20),
            ("refused 8 ", 20),
            ("refused 9 ", 5),
            ("0 65535", 5),
            ("0 0 ", 10),
        ] {
            let number = answers.iter().filter(|answer| answer.starts_with(expected));
            assert!(number.count() >= least, "{}", expected);
        }
    }

    #[test]
    fn the_number_of_lines_is_the_one_asked_for() {
        for count in [0, 1, 10, 333] {
            assert_eq!(lines(&mut Random::new(157), count).len(), count);
        }
    }
}
