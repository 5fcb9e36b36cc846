//! Lessons as kit lines: blocks are sent, their bursts go through the cable and are taken in
//! order, and calls that are refused come in between.

use crate::chance::random::Random;
use crate::makers::lesson::Lesson;
use crate::makers::refused_calls;
use crate::model::sending_stream::MOST_BLOCKS;

/// So many lines of lessons.
pub fn lessons(random: &mut Random, count: usize) -> Vec<Vec<u8>> {
    on_fresh_streams(random, count, any_lesson)
}

/// So many lines of lessons of a sort, each with fresh streams; the kit's are so for the first.
pub fn on_fresh_streams(
    random: &mut Random,
    count: usize,
    lesson: fn(&mut Random) -> Vec<Vec<u8>>,
) -> Vec<Vec<u8>> {
    let mut lines = lesson(random);
    while lines.len() < count {
        lines.push(b"fresh".to_vec());
        lines.extend(lesson(random));
    }
    lines.truncate(count);
    lines
}

/// One stream of so many blocks, at most 16,383, ended and taken to its last burst and beyond.
pub fn stream(random: &mut Random, blocks: usize) -> Vec<Vec<u8>> {
    let mut lesson = Lesson::new(random, blocks.min(MOST_BLOCKS));
    // The end is refused before the first block.
    let mut lines = vec![b"fresh".to_vec(), b"end".to_vec()];
    lines.extend(carried(random, &mut lesson, blocks > 0));
    lines.extend(beyond(random, &mut lesson, 12));
    lines
}

/// One lesson: none, few or more blocks, mostly ended, and some bursts that no one sent.
fn any_lesson(random: &mut Random) -> Vec<Vec<u8>> {
    let blocks = match random.below(12) {
        0 => 0,
        1..=3 => 1,
        4..=8 => 2 + random.below(5),
        9 | 10 => 6 + random.below(10),
        _ => 20 + random.below(20),
    };
    let mut lesson = Lesson::new(random, blocks);
    let ends = blocks > 0 && !random.one_in(8);
    let mut lines = carried(random, &mut lesson, ends);
    let unsent = random.below(10);
    lines.extend(beyond(random, &mut lesson, unsent));
    lines
}

/// The lines that send a stream's blocks and take its bursts, with others in between.
pub fn carried(random: &mut Random, lesson: &mut Lesson, ends: bool) -> Vec<Vec<u8>> {
    // How often the receiver comes first where both could go on.
    let takes_of_ten = random.pick(&[1, 8, 10]);
    let mut lines = vec![refused_calls::refused_by_sender(random, lesson)];
    loop {
        while random.one_in(4) {
            lines.push(refused_calls::line(random, lesson));
        }
        match next(random, lesson, ends, takes_of_ten) {
            Some(line) => lines.push(line),
            None => return lines,
        }
    }
}

/// The next step of the receiver or of the sender; nothing if both are done.
fn next(
    random: &mut Random,
    lesson: &mut Lesson,
    ends: bool,
    takes_of_ten: usize,
) -> Option<Vec<u8>> {
    let done = lesson.all_sent() && (lesson.ended || !ends);
    if lesson.has_burst() && (done || random.below(10) < takes_of_ten) {
        Some(lesson.take_next(random))
    } else if !lesson.all_sent() {
        Some(lesson.send_next())
    } else if !done {
        Some(lesson.end())
    } else {
        None
    }
}

/// Bursts that no one sent, taken after the others, with refused calls in between.
pub fn beyond(random: &mut Random, lesson: &mut Lesson, number: usize) -> Vec<Vec<u8>> {
    let mut lines = Vec::new();
    for _ in 0..number {
        lines.push(refused_calls::line(random, lesson));
        lines.push(refused_calls::refused_by_sender(random, lesson));
        lines.push(lesson.take_unsent(random));
    }
    lines.push(refused_calls::line(random, lesson));
    lines
}

#[cfg(test)]
mod tests {
    use super::*;
    use crate::kit::answers;
    use crate::makers::sorts::streams_are_left_by_the_refused;

    /// The answer's word with the number of a refusal; "sent" for a run of bits of a stream.
    fn sort(answer: &str) -> String {
        let words: Vec<&str> = answer.split(' ').collect();
        match words.as_slice() {
            ["refused", number, ..] => format!("refused {}", number),
            [bits] if bits.len() == 464 => "sent".to_string(),
            [word, ..] => word.to_string(),
            [] => String::new(),
        }
    }

    /// How often an answer of the sort comes to lines with the word.
    fn times(lines: &[Vec<u8>], answers: &[String], word: &str, expected: &str) -> usize {
        let with_word =
            |line: &[u8]| line.split(|&byte| byte == b' ').next() == Some(word.as_bytes());
        (0..lines.len())
            .filter(|&k| with_word(&lines[k]) && sort(&answers[k]) == expected)
            .count()
    }

    /// Every answer that a stream short of full can give comes so many times.
    fn each_comes(lines: &[Vec<u8>], least: usize) {
        let answers = answers(lines);
        for (word, expected) in [
            ("send", "sent"),
            ("send", "refused 1"),
            ("send", "refused 2"),
            ("send", "refused 7"),
            ("end", "refused 7"),
            ("take", "waiting"),
            ("take", "speech"),
            ("take", "facch"),
            ("take", "refused 1"),
            ("take", "refused 2"),
            ("take", "refused 4"),
            ("take", "refused 8"),
            ("take", "refused 9"),
        ] {
            let times = times(lines, &answers, word, expected);
            assert!(times >= least, "{} {}: {}", word, expected, times);
        }
    }

    #[test]
    fn every_answer_comes_in_lessons() {
        let lines = lessons(&mut Random::new(85), 3000);
        each_comes(&lines, 10);
        let answers = answers(&lines);
        assert!(times(&lines, &answers, "end", "refused 6") >= 5);
        assert!(times(&lines, &answers, "end", "sent") >= 10);
        assert!(times(&lines, &answers, "fresh", "fresh") >= 10);
    }

    #[test]
    fn every_answer_comes_in_a_stream() {
        let lines = stream(&mut Random::new(86), 150);
        each_comes(&lines, 3);
        let answers = answers(&lines);
        // Not one burst of the stream is lost, and twelve come after its end.
        let taken: usize = ["waiting", "speech", "facch", "refused 8", "refused 9"]
            .iter()
            .map(|expected| times(&lines, &answers, "take", expected))
            .sum();
        assert_eq!(taken, 4 * 150 + 4 + 12);
        assert_eq!(times(&lines, &answers, "send", "sent"), 150);
        assert_eq!(times(&lines, &answers, "end", "sent"), 1);
        assert_eq!(times(&lines, &answers, "fresh", "fresh"), 1);
    }

    #[test]
    fn refused_calls_leave_the_streams() {
        let lines = lessons(&mut Random::new(87), 1500);
        streams_are_left_by_the_refused(&lines, 800);
    }

    #[test]
    fn the_number_of_lines_is_the_one_asked_for() {
        for count in [0, 1, 10, 333] {
            assert_eq!(lessons(&mut Random::new(88), count).len(), count);
        }
    }

    #[test]
    fn a_stream_may_have_no_block() {
        let lines = stream(&mut Random::new(89), 0);
        let answers = answers(&lines);
        assert_eq!(times(&lines, &answers, "end", "sent"), 0);
        // Twelve bursts that no one sent bring two answers.
        assert_eq!(times(&lines, &answers, "take", "waiting"), 10);
    }
}
